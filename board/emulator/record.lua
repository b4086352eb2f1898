-- For the arcade emulator: writes what the buttons do into the file that DVG_BUTTONS names.
if dvg_loaded then return end
dvg_loaded = true

dofile(debug.getinfo(1, "S").source:match("^@(.*/)") .. "buttons.lua")
local write = dvg_record(os.getenv("DVG_BUTTONS"))
-- The emulator often faults when it frees what a script holds at its end.
emu.register_stop(function()
  write()
  os.exit(0)
end)
