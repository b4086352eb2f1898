-- For the arcade emulator: watches a program, for judge.py of this folder. It writes into DVG_OUT
-- the log of torn.lua, the 2,048 bytes of vector RAM at each strobe (`pictures`), and judge.log:
--
--     wrote AT VALUE TIME PLACES
--                            a byte of the vector RAM, at 000 to 7FF
--     picture TIME WAITED RUNS PLACES
--                            a strobe; how many seconds since the one before the program waited;
--                            and 1 if the generator still runs, else 0
--     room TIME PLACES       an instruction that was put into a frame found no room
--     reset TIME PLACES      the processor fetched its reset vector, the first time at the start;
--                            the places are those of the last NMI before it, if there was one
--     banks TIME PLACES      OUT_BANKS was set, the first time
--     watchdog GAP TIME PLACES
--                            the longest time without a write of the watchdog, and when it began
--     amid WHAT TIME PLACES  where the program was, by its first NMI after MOST seconds in which no
--                            `watchdog` was written, no `picture` came, or none that was `new`,
--                            since TIME
--     looked SWITCH TIME PLACES
--                            the first look at a switch of the game after that, since no picture
--                            was new from TIME on; SWITCH is its address
--     pressed CAME ALL       presses that came, of those of the file of buttons
--     watched NAME BYTES     what stood there at the end
--     ended TIME
--
-- Times are seconds. PLACES are the address of the instruction that did it, and of the JSRs that
-- led there, the last one first, as far as the stack shows them.
--
-- DVG_BUTTONS names a file of buttons, if there is one, and DVG_LABELS the list of ld65. DVG_WATCH
-- has names of that list, and no others, each with `:` and how many bytes there are, if it isn't
-- one. A program waits from one write of the watchdog or read of the flag to the next, if that
-- comes within WAIT seconds, some 100 cycles.
if _G.dvg_loaded then return end
_G.dvg_loaded = true

local WAIT = 100 / 1512000
local MOST = { watchdog = 0.087, picture = 0.25, new = 1 }
local MOST_CALLS = 4
local JSR, FLIP = 0x20, 0x4001
local folder = debug.getinfo(1, "S").source:match("^@(.*/)")
local out = os.getenv("DVG_OUT")
local log = assert(io.open(out .. "/judge.log", "w"))
local pictures = assert(io.open(out .. "/pictures", "wb"))
local cpu = manager.machine.devices[":maincpu"]
local space = cpu.spaces["program"]
local pc_state, s_state, p_state = cpu.state["PC"], cpu.state["SP"], cpu.state["P"]
local machine = manager.machine
local waited, waits_since = 0, 0
local written, gap, gap_since, shown, flipped, vector_read = 0, 0, 0, 0, 0, 0
local gap_places, written_places, interrupted = "", "", ""

local function now() return machine.time:as_double() end
local function tell(...) log:write(string.format(...), "\n") end

-- The places of an instruction, where the stack's last byte is the one above `s`.
local function places_of(pc, s)
  local places = { string.format("%04X", pc) }
  while #places <= MOST_CALLS and s < 0x1fe do
    local call = space:read_u16(s + 1) - 2
    if call < 0x6000 or call >= 0x7ffa or space:read_u8(call) ~= JSR then break end
    places[#places + 1] = string.format("%04X", call)
    s = s + 2
  end
  return table.concat(places, " ")
end

local function places() return places_of(pc_state.value, s_state.value) end

-- Tells where the program is, once of each pause that lasts too long.
local told = {}
local function look_amid(what, since)
  if now() - since <= MOST[what] or told[what] == since then return end
  told[what] = since
  tell("amid %s %.6f %s", what, since, interrupted)
end

-- Tells of a look at a switch, once of each time in which no picture is new for too long.
local has_looked = false
local function note_look(switch)
  if has_looked or now() - flipped <= MOST.new then return end
  has_looked = true
  tell("looked %04X %.6f %s", switch, flipped, places())
end

-- The watchdog is written some 76,000 times a second, mostly by one instruction. So the calls that
-- led there are worked out where it is another one, or where four return addresses are others.
local last_pc, last_s, last_back
local function note_places()
  local pc, s = pc_state.value, s_state.value
  local back = space:read_u64(s + 1)
  if pc == last_pc and s == last_s and back == last_back then return end
  last_pc, last_s, last_back = pc, s, back
  written_places = places_of(pc, s)
end

local function note_gap(time)
  if time - written > gap then
    gap, gap_since, gap_places = time - written, written, written_places
  end
  written = time
end

local function wait(time)
  if time - waits_since <= WAIT then waited = waited + time - waits_since end
  waits_since = time
end

-- The labels of ld65's list, if there is one: of each name the first place, which is the driver's
-- where it has such a name, and all places in their order.
local labels, all_places = {}, {}
local function read_labels(path)
  local file = io.open(path)
  if not file then return end
  for line in file:lines() do
    local at, name = line:match("^al (%x+) %.(.+)$")
    at = tonumber(at or "", 16)
    if at then
      labels[name] = labels[name] or at
      all_places[name] = all_places[name] or {}
      table.insert(all_places[name], at)
    end
  end
  file:close()
end
read_labels(os.getenv("DVG_LABELS") or "")

-- The driver's 17 bytes, and its code.
local function is_driver(at)
  local from, code, code_end = labels.dvg_phase, labels.dvg_reset, labels.dvg_end
  return from and at >= from and at < from + 17 or code and at >= code and at < code_end
end

-- The places of a name: the program's own, or those of the driver where no other has it.
local function watched_places(name)
  local own, seen = {}, {}
  for _, at in ipairs(all_places[name]) do
    if not is_driver(at) and not seen[at] then own[#own + 1] = at end
    seen[at] = true
  end
  table.sort(own)
  return #own > 0 and own or { labels[name] }
end

local function tell_bytes(name, at, count)
  local bytes = {}
  for i = 0, count - 1 do bytes[#bytes + 1] = string.format("%02X", space:read_u8(at + i)) end
  tell("watched %s %s", name, table.concat(bytes, " "))
end

local function tell_watched()
  for text in (os.getenv("DVG_WATCH") or ""):gmatch("%S+") do
    local name, count = text:match("^([^:]+):(%d+)$")
    name, count = name or text, tonumber(count or "1")
    local found = watched_places(name)
    for _, at in ipairs(found) do
      tell_bytes(#found > 1 and string.format("%s at %04X:", name, at) or name, at, count)
    end
  end
end

-- Before torn.lua's own, which ends the emulator.
emu.register_stop(function()
  note_gap(now())
  tell("watchdog %.6f %.6f %s", gap, gap_since, gap_places)
  if _G.dvg_pressed then tell("pressed %d %d", _G.dvg_pressed()) end
  tell_watched()
  tell("ended %.6f", now())
  log:close()
  pictures:close()
end)

-- Where OUT_BANKS is: its address and its bit.
local is_deluxe = machine.system.name == "astdelux"
local banks, banks_bit = is_deluxe and 0x3c04 or 0x3200, is_deluxe and 0x80 or 0x04
local has_set_banks = false

_G.dvg_judges = {
  space:install_write_tap(banks, banks, "banks", function(_, data)
    if data & banks_bit == 0 or has_set_banks then return end
    has_set_banks = true
    tell("banks %.6f %s", now(), places())
  end),
  space:install_write_tap(0x4000, 0x47ff, "written", function(at, data)
    local time = now()
    tell("wrote %03X %02X %.6f %s", at - 0x4000, data, time, places())
    if at == FLIP then flipped, has_looked = time, false end
  end),
  space:install_read_tap(0x2003, 0x2005, "buttons", note_look),
  space:install_read_tap(0x2400, 0x2407, "coins and buttons", note_look),
  space:install_write_tap(0x3400, 0x35ff, "watchdog", function()
    local time = now()
    note_gap(time)
    note_places()
    wait(time)
  end),
  space:install_read_tap(0x2002, 0x2002, "flag read", function()
    if not _G.dvg_looks then wait(now()) end
  end),
  space:install_write_tap(0x3000, 0x3000, "picture", function()
    _G.dvg_looks = true
    tell("picture %.6f %.6f %d %s", now(), waited, space:read_u8(0x2002) >> 7, places())
    _G.dvg_looks = false
    pictures:write(space:read_range(0x4000, 0x47ff, 8))
    waited, shown = 0, now()
  end),
  space:install_read_tap(0x7ffa, 0x7ffa, "NMI", function()
    local s = s_state.value
    interrupted = places_of(space:read_u16(s + 2), s + 3)
    look_amid("watchdog", written)
    look_amid("picture", shown)
    look_amid("new", flipped)
  end),
  space:install_read_tap(0x7ffc, 0x7ffc, "reset vector", function() vector_read = now() end),
  -- A reset reads the two bytes in cycles that follow one another; a program that adds up its ROM
  -- reads them, too, but not so.
  space:install_read_tap(0x7ffd, 0x7ffd, "reset vector", function()
    if now() - vector_read > 2 / 1512000 then return end
    tell("reset %.6f %s", vector_read, interrupted)
    note_gap(vector_read)
    written_places, interrupted, last_pc = "", "", nil
  end),
}

-- The byte before dvg_labs is the RTS by which a routine refuses what has no room, with C set; the
-- others that return there have C clear.
if labels.dvg_labs then
  local full = labels.dvg_labs - 1
  _G.dvg_room = space:install_read_tap(full, full, "no room", function()
    if pc_state.value == full and p_state.value & 1 ~= 0 then
      tell("room %.6f %s", now(), places())
    end
  end)
end

local buttons = os.getenv("DVG_BUTTONS") or ""
if buttons ~= "" then
  dofile(folder .. "buttons.lua")
  dvg_play(buttons)
end

_G.dvg_loaded = false
dofile(folder .. "torn.lua")
