-- For the arcade emulator: logs what a program does with the vector generator, in the words of
-- `dvg play --all`, and takes snapshots. It is run by board/emulator/run.
--
--     DVG_OUT      the folder that bus.log is written to
--     DVG_SHOTS    the times of snapshots, in seconds: "1.5 2.25"
--     DVG_BUTTONS  a file of buttons (buttons.lua), or nothing
--     DVG_RESETS   how many soft resets come, at random times, by DVG_SEED
--
-- The emulator runs a script again after each reset of the machine.
if dvg_loaded then return end
dvg_loaded = true

local MOST_LINES = 200000
local log = assert(io.open(os.getenv("DVG_OUT") .. "/bus.log", "w"))
local cpu = manager.machine.devices[":maincpu"]
local space = cpu.spaces["program"]
local lines = 0

local function now() return string.format("%.6f", manager.machine.time:as_double()) end

local function tell(text)
  if lines < MOST_LINES then log:write(text, "\n") end
  lines = lines + 1
end

-- A read of byte 001 is a peek where the instruction is `lda $4001`: the generator's fetches and
-- the dummy reads of stores come through the same space.
local inside = false
local function is_peek()
  inside = true
  local pc = cpu.state["PC"].value
  local answer = space:read_u8(pc) == 0xAD and space:read_u16(pc + 1) == 0x4001
  inside = false
  return answer
end

dvg_taps = {
  space:install_write_tap(0x4000, 0x47ff, "ram", function(at, data)
    tell(string.format("wrote %03X %02X", at - 0x4000, data))
  end),
  space:install_write_tap(0x3000, 0x3000, "strobe", function() tell("sent # " .. now()) end),
  space:install_read_tap(0x2002, 0x2002, "flag", function(at, data)
    tell(((data & 0x80) ~= 0 and "read running # " or "read halted # ") .. now())
  end),
  space:install_read_tap(0x4001, 0x4001, "peek", function()
    if not inside and is_peek() then tell("peek # " .. now()) end
  end),
}

local buttons = os.getenv("DVG_BUTTONS") or ""
if buttons ~= "" then
  dofile(debug.getinfo(1, "S").source:match("^@(.*/)") .. "buttons.lua")
  dvg_play(buttons)
end

local shots = {}
for time in (os.getenv("DVG_SHOTS") or ""):gmatch("[%d.]+") do
  shots[#shots + 1] = tonumber(time)
end
local resets = tonumber(os.getenv("DVG_RESETS") or "0")
local next_reset, next_shot = 0.3, 1
math.randomseed(tonumber(os.getenv("DVG_SEED") or "1"))

emu.register_frame_done(function()
  local time = manager.machine.time:as_double()
  if next_shot <= #shots and time >= shots[next_shot] then
    next_shot = next_shot + 1
    manager.machine.video:snapshot()
    tell("# snapshot " .. now())
  end
  if resets > 0 and time >= next_reset then
    resets = resets - 1
    next_reset = time + 0.05 + math.random() * 0.2
    manager.machine:soft_reset()
  end
end)

-- The emulator often faults when it frees taps at its end.
emu.register_stop(function()
  log:close()
  os.exit(0)
end)
