-- For tests/board: writes the bytes that sums.s leaves in `result` and `flags`, in
-- their order, into the file `sums`.
if dvg_loaded then return end
dvg_loaded = true

local space = manager.machine.devices[":maincpu"].spaces["program"]
local file = assert(io.open("sums", "wb"))
dvg_tap = space:install_write_tap(0x43, 0x44, "sums", function(_, data)
  file:write(string.char(data & 0xff))
end)
