-- For scripts of the arcade emulator: which of the board's sounds and coin counters are on.
--
--     dofile("sounds.lua")
--     dvg_watch_sounds(INC)    from now on it looks at what is written; INC is asteroids.inc or
--                              deluxe.inc, which has the names
--     dvg_sounding()           lines of one that is on, and since which second
--
-- SOUND_.. are on while bit 7 of what was written last is set, THUMP while THUMP_ON is, and
-- EXPLOSION while it is loud. OUT_COIN_.. is a bit of OUTPUTS, or has an address of its own.

local OUTPUTS = 0x3200

-- Those of the .inc: each name with its address and the bits that have it on.
local function read_sounds(path)
  local bits, found = { THUMP = 0x10, EXPLOSION = 0x3c }, {}
  for line in io.lines(path) do
    local name, at = line:match("^([A-Z_]+)%s*=%s*%$(3%x%x%x)")
    local counter, bit = line:match("^(OUT_COIN_%u+)%s*=%s*%%([01]+)")
    if name and (bits[name] or name:match("^SOUND_") or name:match("^OUT_COIN_")) then
      found[#found + 1] = { name = name, at = tonumber(at, 16), bits = bits[name] or 0x80 }
    elseif counter then
      found[#found + 1] = { name = counter, at = OUTPUTS, bits = tonumber(bit, 2) }
    end
  end
  return found
end

function dvg_watch_sounds(path)
  local space = manager.machine.devices[":maincpu"].spaces["program"]
  local sounds = read_sounds(path)
  dvg_sound_taps = {}
  for _, sound in ipairs(sounds) do
    dvg_sound_taps[#dvg_sound_taps + 1] =
      space:install_write_tap(sound.at, sound.at, sound.name, function(_, data)
        local is_on = data & sound.bits ~= 0
        if is_on and not sound.since then sound.since = manager.machine.time:as_double() end
        if not is_on then sound.since = nil end
      end)
  end
  dvg_sounding = function()
    local lines = {}
    for _, sound in ipairs(sounds) do
      if sound.since then
        lines[#lines + 1] = string.format("%s, since %.1f s", sound.name, sound.since)
      end
    end
    return lines
  end
end
