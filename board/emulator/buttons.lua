-- For scripts of the arcade emulator: plays and records the board's buttons.
--
--     dofile("buttons.lua")
--     dvg_play(PATH)       from now on the buttons do what the file of PATH says
--     dvg_pressed()        how many presses of that file came, and how many it has
--     dvg_record(PATH)     returns what writes into PATH what the buttons did since then
--
-- A line of such a file is a time in seconds since the start, a button, and `down` or `up`. What
-- stands after a # is passed over; buttons.awk refuses other lines. The emulator takes buttons up
-- some sixty times a second.
--
--     2.50 coin_left down
--     2.65 coin_left up

local BUTTONS = {
  hyperspace = { "IN0", "P1 Button 5" }, fire = { "IN0", "P1 Button 3" },
  step = { "IN0", "Diagnostic Step" }, slam = { "IN0", "Tilt" }, test = { "IN0", "Service Mode" },
  coin_left = { "IN1", "Coin 1" }, coin_center = { "IN1", "Coin 2" },
  coin_right = { "IN1", "Coin 3" }, start_1 = { "IN1", "1 Player Start" },
  start_2 = { "IN1", "2 Players Start" }, thrust = { "IN1", "P1 Button 4" },
  right = { "IN1", "P1 Button 2" }, left = { "IN1", "P1 Button 1" },
}

local function now() return manager.machine.time:as_double() end

local function port_of(name) return manager.machine.ioport.ports[":" .. BUTTONS[name][1]] end

local function field_of(name)
  local field = port_of(name).fields[BUTTONS[name][2]]
  return field or error("the emulator has no button " .. BUTTONS[name][2])
end

-- The self-test switch stays where it is put, and is one of the emulator's settings.
local function press(name, is_down)
  local field = field_of(name)
  if name == "test" then
    field.user_value = is_down and field.mask or 0
  else
    field:set_value(is_down and 1 or 0)
  end
end

-- The events of a file, by time.
local function read_events(path)
  local events = {}
  for line in io.lines(path) do
    local time, name, way = line:gsub("#.*", ""):match("^%s*([%d.]+)%s+([%l_%d]+)%s+(%l+)%s*$")
    if time then
      events[#events + 1] = { time = tonumber(time), name = name, is_down = way == "down" }
    end
  end
  table.sort(events, function(one, other) return one.time < other.time end)
  return events
end

-- How many of the first events, as many as are given, are presses.
local function presses(events, count)
  local sum = 0
  for i = 1, count do
    if events[i].is_down then sum = sum + 1 end
  end
  return sum
end

function dvg_play(path)
  local events, next_event = read_events(path), 1
  dvg_pressed = function() return presses(events, next_event - 1), presses(events, #events) end
  emu.register_frame_done(function()
    while next_event <= #events and events[next_event].time <= now() do
      press(events[next_event].name, events[next_event].is_down)
      next_event = next_event + 1
    end
  end)
end

function dvg_record(path)
  local lines, held = {}, {}
  local names = {}
  for name in pairs(BUTTONS) do names[#names + 1] = name end
  table.sort(names)
  local function is_down(name)
    local field = field_of(name)
    return (port_of(name):read() ~ field.defvalue) & field.mask ~= 0
  end
  emu.register_frame_done(function()
    for _, name in ipairs(names) do
      local down = is_down(name)
      if down ~= (held[name] or false) then
        lines[#lines + 1] = string.format("%.2f %s %s", now(), name, down and "down" or "up")
      end
      held[name] = down
    end
  end)
  return function()
    local out = assert(io.open(path, "w"))
    for _, line in ipairs(lines) do out:write(line, "\n") end
    out:close()
  end
end
