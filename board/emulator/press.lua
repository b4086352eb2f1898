-- For the arcade emulator: presses the buttons of the file that DVG_BUTTONS names, if it names one.
-- It writes into the file `sounding` of DVG_OUT which sounds are on at the end, and since when.
if _G.dvg_loaded then return end
_G.dvg_loaded = true

local folder = debug.getinfo(1, "S").source:match("^@(.*/)")
local buttons = os.getenv("DVG_BUTTONS") or ""
if buttons ~= "" then
  dofile(folder .. "buttons.lua")
  dvg_play(buttons)
end
dofile(folder .. "sounds.lua")
local is_deluxe = manager.machine.system.name == "astdelux"
dvg_watch_sounds(folder .. (is_deluxe and "../deluxe.inc" or "../asteroids.inc"))

-- The emulator often faults when it frees what a script holds at its end.
emu.register_stop(function()
  local out = assert(io.open(os.getenv("DVG_OUT") .. "/sounding", "w"))
  for _, line in ipairs(dvg_sounding()) do out:write(line, "\n") end
  out:close()
  os.exit(0)
end)
