-- For tests/board --judge: says of each address and bit of board/asteroids.inc, or on the board of
-- Asteroids Deluxe of deluxe.inc, whether the arcade emulator's board has it so. DVG_FACTS names
-- the file. A line is `NAME ok` or `NAME why not`; each name of the file must get one.
if dvg_loaded then return end
dvg_loaded = true

local machine = manager.machine
local is_deluxe = machine.system.name == "astdelux"
local space = machine.devices[":maincpu"].spaces["program"]
local ports = machine.ioport.ports
local value, told, names = {}, {}, {}

for line in io.lines(os.getenv("DVG_FACTS")) do
  local name, number = line:match("^([A-Z_0-9]+) *= *([%%$]?[%x]+)")
  if name then
    local sign = number:sub(1, 1)
    local base = sign == "$" and 16 or sign == "%" and 2 or 10
    value[name] = tonumber(base == 10 and number or number:sub(2), base)
    names[#names + 1] = name
  end
end

local function tell(name, is_so, why)
  if is_so == false then told[name] = why or "no" elseif not told[name] then told[name] = "ok" end
end

local function field(port, name)
  local found = ports[":" .. port].fields[name]
  assert(found, name)
  return found
end

local function read(address) return space:read_u8(address) end

-- Each address that gives 80, of those where bit 7 is an input.
local function closed()
  local found = {}
  for _, from in ipairs({ 0x2003, 0x2400 }) do
    for at = from, (from & 0xff00) + 7 do
      local byte = read(at)
      if byte ~= 0x7f then found[#found + 1] = byte == 0x80 and at or -1 end
    end
  end
  return found
end

local BUTTONS = {
  [is_deluxe and "IN_SHIELDS" or "IN_HYPERSPACE"] = { "IN0", "P1 Button 5" },
  IN_FIRE = { "IN0", "P1 Button 3" },
  IN_STEP = { "IN0", "Diagnostic Step" }, IN_SLAM = { "IN0", "Tilt" },
  IN_COIN_LEFT = { "IN1", "Coin 1" }, IN_COIN_CENTER = { "IN1", "Coin 2" },
  IN_COIN_RIGHT = { "IN1", "Coin 3" }, IN_START_1 = { "IN1", "1 Player Start" },
  IN_START_2 = { "IN1", "2 Players Start" }, IN_THRUST = { "IN1", "P1 Button 4" },
  IN_RIGHT = { "IN1", "P1 Button 2" }, IN_LEFT = { "IN1", "P1 Button 1" },
}

-- The switches of a port's mask, as what 2800 to 2803 must give for them.
local SWITCHES = is_deluxe and {
  { "SWITCHES_BONUS", "Bonus Life", 6, 3 }, { "SWITCHES_DIFFICULTY", "Difficulty", 4, 2 },
  { "SWITCHES_DIFFICULTY", "Minimum Plays", 4, 1 }, { "SWITCHES_SHIPS", "Lives", 2, 3 },
  { "SWITCHES_LANGUAGE", "Language", 0, 3 },
} or {
  { "SWITCHES_COINAGE", "Coinage", 6, 3 }, { "SWITCHES_RIGHT", "Right Mech", 4, 3 },
  { "SWITCHES_SHIPS", "Center Mech", 2, 2 }, { "SWITCHES_SHIPS", "Lives", 2, 1 },
  { "SWITCHES_LANGUAGE", "Language", 0, 3 },
}

local function lamp(number) return machine.output:get_value("led" .. number) end

local function outputs()
  space:write_u8(value.OUTPUTS, value.OUT_LAMP_2)
  tell("OUT_LAMP_2", lamp(0) == 1 and lamp(1) == 0, "lamp")
  space:write_u8(value.OUTPUTS, value.OUT_LAMP_1)
  tell("OUT_LAMP_1", lamp(0) == 0 and lamp(1) == 1, "lamp")
  space:write_u8(value.OUTPUTS, 0)
  space:write_u8(0x0200, 0xaa)
  space:write_u8(0x0300, 0x55)
  space:write_u8(value.OUTPUTS, value.OUT_BANKS)
  tell("OUT_BANKS", read(0x0200) == 0x55 and read(0x0300) == 0xaa, "the banks stay")
  space:write_u8(value.OUTPUTS, 0)
  tell("OUTPUTS", read(0x0200) == 0xaa, "the banks stay changed")
  local held = emu.item(machine.devices[":outlatch"].items["0/m_bits"])
  for name, bit in pairs({ LEFT = 3, CENTER = 4, RIGHT = 5 }) do
    space:write_u8(value.OUTPUTS, value["OUT_COIN_" .. name])
    local on = held:read(bit)
    space:write_u8(value.OUTPUTS, 0)
    tell("OUT_COIN_" .. name, on == 1 and held:read(bit) == 0, "coin counter " .. on)
  end
end

local function latches()
  local held = emu.item(machine.devices[":audiolatch"].items["0/m_q"])
  local names = { "SAUCER", "SAUCER_FIRE", "SAUCER_LARGE", "THRUST", "FIRE", "SHIP" }
  for number, name in ipairs(names) do
    local address = value["SOUND_" .. name]
    space:write_u8(address, value.SOUND_ON)
    local on = held:read(0)
    space:write_u8(address, 0x7f)
    tell("SOUND_" .. name, on == 1 << number - 1 and held:read(0) == 0, "latch " .. on)
    tell("SOUND_ON", on ~= 0, "not on")
  end
end

local function latches_of_deluxe()
  local held = emu.item(machine.devices[":audiolatch"].items["0/m_q"])
  local names = { OUT_LAMP_1 = 0, OUT_LAMP_2 = 1, SOUND_THRUST = 3, OUT_BANKS = 4,
    OUT_COIN_LEFT = 5, OUT_COIN_CENTER = 6, OUT_COIN_RIGHT = 7 }
  for name, bit in pairs(names) do
    space:write_u8(value[name], value.OUT_ON)
    local on = held:read(0)
    space:write_u8(value[name], 0x7f)
    tell(name, on == 1 << bit and held:read(0) == 0, "latch " .. on)
    tell("OUT_ON", on ~= 0, "not on")
  end
  for number = 0, 1 do
    local name = "OUT_LAMP_" .. number + 1
    local before = lamp(number)
    space:write_u8(value[name], value.OUT_ON)
    tell(name, lamp(number) ~= before, "lamp " .. before)
    tell(name, lamp(1 - number) == before, "the other lamp")
    space:write_u8(value[name], 0)
  end
end

local function banks_of_deluxe()
  space:write_u8(0x0200, 0xaa)
  space:write_u8(0x0300, 0x55)
  space:write_u8(value.OUT_BANKS, value.OUT_ON)
  tell("OUT_BANKS", read(0x0200) == 0x55 and read(0x0300) == 0xaa, "the banks stay")
  space:write_u8(value.OUT_BANKS, 0)
  tell("OUT_BANKS", read(0x0200) == 0xaa, "the banks stay changed")
end

local function chips_of_deluxe()
  local earom = machine.devices[":earom"].items
  local state = emu.item(earom["0/m_control_state"])
  local before = state:read(0)
  space:write_u8(value.EAROM_WRITE + 5, 0xa5)
  tell("EAROM_WRITE", emu.item(earom["0/m_address"]):read(0) == 5, "address")
  tell("EAROM_WRITE", emu.item(earom["0/m_data"]):read(0) == 0xa5, "data")
  tell("EAROM_READ", read(value.EAROM_READ) == 0xa5, "data")
  space:write_u8(value.EAROM_CONTROL, 8)
  tell("EAROM_CONTROL", state:read(0) ~= before, "state " .. before)
  space:write_u8(value.EAROM_CONTROL, 0)
  tell("POKEY", value.POKEY_SWITCHES == value.POKEY + 8, "register 8")
end

-- The values of the sound's nodes, as one text.
local function sounds()
  local text = {}
  for name, number in pairs(machine.devices[":discrete"].items) do
    if name:match("m_output$") then text[#text + 1] = name .. "=" .. emu.item(number):read(0) end
  end
  table.sort(text)
  return table.concat(text, " ")
end

local function differ(address, byte, other)
  space:write_u8(address, byte)
  local before = sounds()
  space:write_u8(address, other)
  return before ~= sounds()
end

local function analog()
  for _, byte in ipairs({ 0x04, 0x08, 0x10, 0x20 }) do
    tell("EXPLOSION_LOUD", differ(value.EXPLOSION, 0, byte), "bit " .. byte)
    tell("EXPLOSION_LOUD", value.EXPLOSION_LOUD & byte ~= 0, "bit " .. byte)
  end
  tell("EXPLOSION", differ(value.EXPLOSION, 0, 0x40) and differ(value.EXPLOSION, 0, 0x80), "pitch")
  tell("EXPLOSION", not differ(value.EXPLOSION, 0, 0x03), "bits 1 and 0")
  space:write_u8(value.EXPLOSION, 0)
  if is_deluxe then return end
  tell("THUMP_ON", differ(value.THUMP, 0, value.THUMP_ON), "on")
  tell("THUMP", differ(value.THUMP, 0, 1) and differ(value.THUMP, 0, 8), "pitch")
  tell("THUMP", not differ(value.THUMP, 0, 0xe0), "bits 7 to 5")
  space:write_u8(value.THUMP, 0)
end

local nmis, beat, taps = 0, 0, {}
taps[1] = space:install_read_tap(0x7ffa, 0x7ffa, "nmi", function() nmis = nmis + 1 end)

local frame, button, switch, setting = 0, next(BUTTONS), 1, 0
local rate_from, since

local function press(name, is_down) field(table.unpack(BUTTONS[name])):set_value(is_down) end

-- A step each two pictures of the emulator, as it takes up switches at a picture.
local steps = {}
for name in pairs(BUTTONS) do
  steps[#steps + 1] = function()
    tell(name, #closed() == 0, "one is closed before")
    press(name, 1)
  end
  steps[#steps + 1] = function()
    local found = closed()
    tell(name, #found == 1 and found[1] == value[name], "closed: " .. table.concat(found, " "))
    press(name, 0)
  end
end
if is_deluxe then
  steps[#steps + 1] = function()
    tell("POKEY_CONTROL", read(value.POKEY_SWITCHES) == 0, "the switches are seen before it")
    space:write_u8(value.POKEY_CONTROL, 3)
  end
  for number = 0, 3 do
    steps[#steps + 1] = function() field("DSW2", "Coinage").user_value = number end
    steps[#steps + 1] = function()
      tell("POKEY_SWITCHES", read(value.POKEY_SWITCHES) & 3 == number, "coinage " .. number)
      tell("POKEY_CONTROL", read(value.POKEY_SWITCHES) ~= 0, "the switches aren't seen after it")
    end
  end
end
for _, each in ipairs(SWITCHES) do
  local name, label, shift, mask = table.unpack(each)
  for number = 0, 3 do
    if number & ~mask == 0 then
      steps[#steps + 1] = function() field("DSW1", label).user_value = number << shift end
      steps[#steps + 1] = function()
        tell(name, read(value[name]) & value.SWITCHES_MASK & mask == number, label .. " " .. number)
        tell("SWITCHES_MASK", value.SWITCHES_MASK == 3, "mask")
      end
    end
  end
end
steps[#steps + 1] = function() nmis, since = 0, machine.time:as_double() end
for _ = 1, 30 do steps[#steps + 1] = function() end end
steps[#steps + 1] = function()
  local cycles = (machine.time:as_double() - since) * value.BOARD_HERTZ / nmis
  tell("NMI_CYCLES", math.abs(cycles - value.NMI_CYCLES) < 70, "cycles " .. cycles)
  tell("BOARD_HERTZ", math.abs(cycles - value.NMI_CYCLES) < 70, "cycles " .. cycles)
  field("IN0", "Service Mode").user_value = 0x80
end
steps[#steps + 1] = function() nmis = 0 end
for _ = 1, 5 do steps[#steps + 1] = function() end end
steps[#steps + 1] = function()
  tell("IN_TEST", read(value.IN_TEST) == 0x80, "it is open")
  tell("IN_TEST", nmis == 0, "an NMI comes")
  field("IN0", "Service Mode").user_value = 0
  if is_deluxe then
    latches_of_deluxe()
    banks_of_deluxe()
    chips_of_deluxe()
  else
    outputs()
    latches()
  end
  analog()
end

-- Both counts of the program's loop go on, at about one speed.
local function clocks(set, clear) return set > 0 and clear > 0 end

-- The watchdog: the program keeps it back for longer than the emulator's waits, then no more.
local resets, stopped, came = 0, nil, nil
taps[2] = space:install_read_tap(0x7ffc, 0x7ffc, "reset", function()
  resets = resets + 1
  came = came or (stopped and machine.time:as_double() - stopped)
end)

local function watchdog()
  local time = machine.time:as_double()
  if not stopped and time > 3.5 then
    tell("WATCHDOG", resets <= 1, "it resets a program that writes it")
    local set, clear = read(0x13), read(0x12)
    tell("IN_CLOCK", clocks(set, clear), "set " .. set .. ", clear " .. clear)
    stopped = time
    space:write_u8(0x10, 1)
  end
end

emu.register_frame_done(function()
  frame = frame + 1
  watchdog()
  if frame % 2 == 0 and steps[frame // 2] then steps[frame // 2]() end
end)

emu.register_stop(function()
  tell("WATCHDOG", came and came < 3.2, "no reset comes without it")
  if came and math.abs(came * 1000 - value.WATCHDOG_MILLISECONDS) < 3 then
    tell("WATCHDOG_MILLISECONDS", true)
  end
  local out = assert(io.open(os.getenv("DVG_OUT") .. "/facts", "w"))
  for _, name in ipairs(names) do out:write(name, " ", told[name] or "nothing shows it", "\n") end
  out:close()
  os.exit(0)
end)
