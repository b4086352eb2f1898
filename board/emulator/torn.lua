-- For the arcade emulator: writes a log for `dvg torn` of whatever program runs on this board.
--
--     DVG_OUT=. mame asteroid -autoboot_delay 0 -autoboot_script torn.lua; dvg torn <torn.log
--
-- It logs the starts, the word zero that a run fetches at once, the writes, and the end of a run,
-- which is looked for in the HALT flag before each write and each start. A reset of the machine is
-- logged where the processor fetches its reset vector. This emulator's generator runs ahead of its
-- processor by up to a millisecond, so it is no judge of interleavings closer than that. No other
-- fetch is logged, so `dvg torn --moments` has no run to judge in it.
if _G.dvg_loaded then return end
_G.dvg_loaded = true

local log = assert(io.open(os.getenv("DVG_OUT") .. "/torn.log", "w"))
local space = manager.machine.devices[":maincpu"].spaces["program"]
local is_open = false

local function tell(...) log:write(string.format(...), "\n") end

-- Bit 7 of 2002 is clear where the generator is halted. Other scripts see by dvg_looks that it
-- isn't the program that reads it. The emulator gives the script that it starts globals of its own,
-- and a script that is called by dofile those of _G: so what both share is named by _G.
local function look()
  _G.dvg_looks = true
  if is_open and (space:read_u8(0x2002) & 0x80) == 0 then
    tell("halted")
    is_open = false
  end
  _G.dvg_looks = false
end

dvg_taps = {
  space:install_write_tap(0x4000, 0x47ff, "ram", function(at, data)
    look()
    tell("wrote %03X %02X", at - 0x4000, data)
  end),
  space:install_write_tap(0x3000, 0x3000, "strobe", function()
    look()
    tell("# %.6f", manager.machine.time:as_double())
    tell("started")
    tell("fetched 000 %02X%02X", space:read_u8(0x4001), space:read_u8(0x4000))
    is_open = true
  end),
  space:install_read_tap(0x7ffc, 0x7ffc, "reset", function()
    if is_open then tell("reset") end
    is_open = false
  end),
}

-- The emulator often faults when it frees taps at its end.
emu.register_stop(function()
  log:close()
  os.exit(0)
end)
