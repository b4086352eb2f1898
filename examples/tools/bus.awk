# Turns a table of a bus, as a logic analyser saves it (CSV), into a log for `dvg torn`. This is
# unproved.
#
#     awk -f bus.awk <TABLE | ./dvg torn
#     awk -v fetches=1 -f bus.awk <TABLE >LOG
#
# A row is W or R, a write or a read of the processor, and then an address and a byte, hexadecimal,
# with `0x` or `$` or without. Commas, semicolons or tabs stand between them, and other columns may
# come before, as a time. All else is passed over; how many rows after the first access that were is
# told in the end. The board doesn't decode A15, so 8000 higher each place answers, too. A write of
# 4000 to 47FF is one of the vector RAM, and one of 3000 to 31FF is the strobe; a read of 2002 with
# bit 7 clear ends a run, and one of 7FFC, the vector of the reset, resets.
#
# Such a table doesn't show what the generator fetches. So a run is taken to fetch word zero at the
# strobe, which is enough for the halves of `dvg torn`. If the bytes that it fetches are rows G,
# with byte addresses from 4000 on, `-v fetches=1` logs them in place of that, the low byte of a
# word and then its high byte. Then `dvg torn --moments` can judge the log, too.

function digits(text, number, k, digit) {
    text = toupper(text)
    sub(/^(0X|\$)/, "", text)
    if (text !~ /^[0-9A-F]+$/) return -1
    for (k = 1; k <= length(text); k++) {
        digit = index("0123456789ABCDEF", substr(text, k, 1)) - 1
        number = 16 * number + digit
    }
    return number + 0
}

function is_kind(column) {
    if ($column !~ /^[RWGrwg][A-Za-z]*$/) return 0
    return digits($(column + 1)) >= 0 && digits($(column + 2)) >= 0
}

# The column of the kind, or 0.
function find_kind(column) {
    for (column = 1; column <= NF - 2; column++)
        if (is_kind(column)) return column
    return 0
}

function end_run(text) {
    if (running) print text
    running = 0
}

function start_run() {
    print "started"
    if (!fetches) printf "fetched 000 %02X%02X\n", zero[1], zero[0]
    running = 1
}

# A byte that the generator fetched, at a byte address of its own.
function fetch(place, byte) {
    if (place % 2 == 0) {
        printf "low %03X %02X\n", place / 2, byte
        low = byte
    } else
        printf "fetched %03X %02X%02X\n", int(place / 2), byte, low
}

function write(address, byte) {
    if (address >= 12288 && address < 12800) start_run()
    if (address < 16384 || address > 18431) return
    if (address < 16386) zero[address - 16384] = byte
    printf "wrote %03X %02X\n", address - 16384, byte
}

function read(address, byte) {
    if (address == 8194 && byte < 128) end_run("halted")
    if (address == 32764) end_run("reset")
}

BEGIN {
    FS = "[ \"]*[,;\t][ \"]*"
    zero[0] = zero[1] = 0
}

{ gsub(/^[ "]+|[ "\r]+$/, "") }

(kind = find_kind()) && (address = digits($(kind + 1))) < 65536 {
    is_begun = 1
    address %= 32768
    byte = digits($(kind + 2)) % 256
    kind = toupper(substr($kind, 1, 1))
    if (kind == "W") write(address, byte)
    if (kind == "R") read(address, byte)
    if (kind == "G" && fetches && address >= 16384) fetch(address - 16384, byte)
    next
}

/[^ \t]/ && is_begun && !unread++ { first = NR }

END {
    if (unread)
        print "bus.awk: rows not understood: " unread ", the first in line " first | "cat 1>&2"
}
