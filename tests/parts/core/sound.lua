-- For the arcade emulator: one sound after the other, each alone. Writes into DVG_OUT
--
--     writes     what is written: the time in seconds, the address and the byte, as sound.cpp
--                reads them
--     stages     of each sound its name, since when it is on, and for how long
--
-- The program must write none of these latches, as that of examples/first.
if dvg_loaded then return end
dvg_loaded = true

local space = manager.machine.devices[":maincpu"].spaces["program"]
local OFF = { 0x3600, 0x3a00, 0x3c00, 0x3c01, 0x3c02, 0x3c03, 0x3c04, 0x3c05 }
local PAUSE = 0.5
local stages = {
  { "ship", 1, { [0x3c05] = 0x80 } },
  { "thrust", 4, { [0x3c03] = 0x80 } },
  { "ship_fire", 1, { [0x3c04] = 0x80 } },
  { "saucer_fire", 1, { [0x3c01] = 0x80 } },
  { "small_saucer", 2, { [0x3c00] = 0x80 } },
  { "large_saucer", 2, { [0x3c00] = 0x80, [0x3c02] = 0x80 } },
}
for high = 0, 15 do
  stages[#stages + 1] = { "thump_" .. high, 0.7, { [0x3a00] = 0x10 + high } }
end
for often = 0, 3 do
  stages[#stages + 1] = { "explosion_" .. often, 4, { [0x3600] = 0x3c + (often << 6) } }
end
for _, loud in ipairs({ 1, 4, 8 }) do
  stages[#stages + 1] = { "loud_" .. loud, 4, { [0x3600] = loud << 2 } }
end

local function open(name) return assert(io.open(os.getenv("DVG_OUT") .. "/" .. name, "w")) end
local writes, names = open("writes"), open("stages")

local function write(now, at, byte)
  space:write_u8(at, byte)
  writes:write(string.format("%.6f %04X %02X\n", now, at, byte))
end

local next_time, number, is_on = 1, 0, false

local function go_on(now)
  for _, at in ipairs(OFF) do write(now, at, 0) end
  is_on = not is_on
  number = is_on and number + 1 or number
  local stage = stages[number]
  next_time = now + PAUSE
  if is_on and stage then
    for at, byte in pairs(stage[3]) do write(now, at, byte) end
    names:write(string.format("%s %.6f %.2f\n", stage[1], now, stage[2]))
    next_time = now + stage[2]
  elseif is_on then
    writes:close()
    names:close()
    next_time = math.huge
  end
end

emu.register_frame_done(function()
  local now = manager.machine.time:as_double()
  if now >= next_time then go_on(now) end
end)
