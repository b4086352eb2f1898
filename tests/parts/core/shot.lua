-- For the arcade emulator: what its monitor shows, and the vector RAM of that picture; and all that
-- whole.cpp compares with. At each time of DVG_SHOTS, in seconds, it writes into DVG_OUT
--
--     TIME.pgm       the snapshot, in grey
--     TIME.K.pgm     those of K frames later, with a K of -4, -2 and 2
--     TIME.ram       the 2,048 bytes of vector RAM at the last strobe but one: this emulator shows
--                    a picture from the next strobe on
--     TIME.words     the switches, as 2800 to 2803 have them in their lowest two bits, those of
--                    2800 lowest, as a hexadecimal number; and the number of that strobe, from 1
--
-- and `rams` has the vector RAM at each strobe; `writes` what changes a latch of sounds, as
-- sound.cpp reads it. DVG_BUTTONS names a file of buttons (board/emulator/buttons.lua), which
-- stands beside DVG_TOOLS.
if dvg_loaded then return end
dvg_loaded = true

local FRAME = 4 * 12 * 4096 / 12096000
local space = manager.machine.devices[":maincpu"].spaces["program"]
local last, before, strobes = "", "", 0

local function open(name) return assert(io.open(os.getenv("DVG_OUT") .. "/" .. name, "wb")) end

local function now() return manager.machine.time:as_double() end

local rams, writes, latches = open("rams"), open("writes"), {}

dvg_tap = space:install_write_tap(0x3000, 0x3000, "strobe", function()
  strobes = strobes + 1
  before = last
  last = space:read_range(0x4000, 0x47ff, 8)
  rams:write(last)
end)

-- The bits that count of what is written at a latch. That which resets the noise is no latch.
local function mask(at)
  return at == 0x3600 and 0xff or at == 0x3a00 and 0x1f or at < 0x3e00 and 0x80 or 0
end

dvg_sounds = space:install_write_tap(0x3600, 0x3fff, "sounds", function(at, byte)
  local value = byte & mask(at)
  if at == 0x3e00 or value ~= (latches[at] or 0) then
    writes:write(string.format("%.6f %04X %02X\n", now(), at, byte))
  end
  latches[at] = value
end)

local function write(name, ...)
  local file = open(name)
  file:write(...)
  file:close()
end

local function switches()
  local sum = 0
  for at = 3, 0, -1 do sum = sum << 2 | space:read_u8(0x2800 + at) & 3 end
  return sum
end

-- A pixel has four bytes, of which one is as good as another: the beam is white.
local function take_snapshot(name)
  local width, height = manager.machine.video:snapshot_size()
  local grey = manager.machine.video:snapshot_pixels():gsub("(.)...", "%1")
  write(name .. ".pgm", string.format("P5\n%d %d\n255\n", width, height), grey)
end

local function take_shot(name)
  take_snapshot(name)
  write(name .. ".ram", before)
  write(name .. ".words", string.format("%02X %d\n", switches(), strobes - 1))
end

local shots = {}
for time in os.getenv("DVG_SHOTS"):gmatch("[%d.]+") do
  for _, later in ipairs({ -4, -2, 0, 2 }) do
    shots[#shots + 1] = { at = tonumber(time) + later * FRAME, name = time, later = later }
  end
end
table.sort(shots, function(one, other) return one.at > other.at end)

emu.register_frame_done(function()
  while #shots > 0 and now() >= shots[#shots].at do
    local shot = table.remove(shots)
    if shot.later == 0 then take_shot(shot.name)
    else take_snapshot(shot.name .. "." .. shot.later) end
  end
end)

dofile(os.getenv("DVG_TOOLS") .. "/buttons.lua")
dvg_play(os.getenv("DVG_BUTTONS"))

-- The emulator often faults when it frees taps at its end.
emu.register_stop(function()
  rams:close()
  writes:close()
  os.exit(0)
end)
