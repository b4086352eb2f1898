-- For tests/board --judge: plays examples/asteroid_game with the buttons of DVG_BUTTONS, and writes
-- four times a second what the program's variables are, and the board's lamps and sounds. DVG_LUA
-- is the folder of buttons.lua, DVG_LABELS the labels of the program as ld65 writes them.
if dvg_loaded then return end
dvg_loaded = true

dofile(os.getenv("DVG_LUA") .. "/buttons.lua")
dvg_play(os.getenv("DVG_BUTTONS"))
local machine = manager.machine
local space = machine.devices[":maincpu"].spaces["program"]
local sounds = emu.item(machine.devices[":audiolatch"].items["0/m_q"])
local out = assert(io.open(os.getenv("DVG_OUT") .. "/game", "w"))
local at, next_time, latches, counted, explosion, thump = {}, 0, 0, 0, 0, 0
for line in io.lines(os.getenv("DVG_LABELS")) do
  local address, name = line:match("^al (%x+) %.([%w_]+)$")
  if name then at[name] = tonumber(address, 16) end
end

local function byte(name, more) return space:read_u8(at[name] + (more or 0)) end

local function number(name)
  local digits = ""
  for place = 0, 3 do digits = digits .. byte(name, place) end
  return tonumber(digits) * 10
end

local function rocks()
  local count = 0
  for place = 1, 12 do count = count + byte("life", place) end
  return count
end

dvg_watch = {
  space:install_write_tap(0x3200, 0x3200, "outputs", function(_, data)
    if data & 0x08 ~= 0 then counted = 1 end
  end),
  space:install_write_tap(0x3600, 0x3600, "explosion", function(_, data)
    if data & 0x3c ~= 0 then explosion = 1 end
  end),
  space:install_write_tap(0x3a00, 0x3a00, "thump", function(_, data)
    if data & 0x10 ~= 0 then thump = 1 end
  end),
}

emu.register_frame_done(function()
  latches = latches | sounds:read(0)
  local time = machine.time:as_double()
  if time < next_time then return end
  next_time = next_time + 0.25
  out:write(string.format(
    "%.2f playing %d lives %d score %d high %d halves %d ship %d rocks %d lamp %d sounds %d "
      .. "counted %d explosion %d thump %d\n",
    time, byte("playing"), byte("lives"), number("score"), number("high"), byte("halves"),
    byte("life"), rocks(), machine.output:get_value("led0"), latches, counted, explosion, thump))
  latches, counted, explosion, thump = 0, 0, 0, 0
end)

emu.register_stop(function()
  out:close()
  os.exit(0)
end)
