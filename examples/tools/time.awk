# Reads what `dvg play --all` or `dvg picture --all` writes, and adds up how long the generator of
# the arcade emulator takes for it. Nothing of time is proved, or said of real hardware.
#
#     ./dvg play --all <TRACE | awk -f time.awk
#
# A vector takes 2^(s+1) * 8 / 12.096 + 4 microseconds, where s is its own and the global scale
# together, modulo 16, however short it is; at 10 to 15, which moves nothing, it takes 4, as each
# other instruction does. A line gives the vectors of each scale that comes up and their time, and
# the last one all of it. Of several pictures it is the sum; `-v each=1` gives a last line for each
# line `picture W N` instead. `dvg render --check` tells the last line of each frame of a sketch.

function microseconds(scale, units) {
    if (scale > 9) return 4
    for (units = 2; scale > 0; scale--) units *= 2
    return units * 8 / 12.096 + 4
}

function vector(local, scale) {
    scale = (local + global) % 16
    vectors[scale]++
    all++
    sum += microseconds(scale)
}

function other() {
    others++
    sum += 4
}

function digit(text, place) { return index("0123456789ABCDEF", substr(text, place, 1)) - 1 }

# A word of a run, as four digits: each is a first word, or the second one of a LABS or a VCTR.
function word(text, opcode) {
    opcode = digit(text, 1)
    if (first != "") {
        if (first == 10) global = opcode
        first = ""
    } else if (opcode <= 10) {
        first = opcode
        if (opcode == 10) other()
        else pending = 1
    } else if (opcode == 15)
        vector(2 + (digit(text, 2) >= 8) + 2 * (digit(text, 4) >= 8))
    else other()
    if (pending) {
        vector(first)
        pending = 0
    }
}

{ sub(/\r$/, "") }

$2 == "started" { first = "" }

$2 == "fetched" || $2 == "done" {
    word($4)
    next
}

# An instruction of a dump: its address, its text, and after `at` the beam and the global scale.
/^[0-9A-F][0-9A-F][0-9A-F] [A-Z]/ {
    if ($2 == "VCTR" || $2 == "SVEC") vector($3)
    else other()
    if ($2 == "LABS") global = $5
}

function tell_all() {
    printf "all: %d vectors, %d other instructions, %.0f microseconds\n", all, others, sum
}

each && $1 == "picture" {
    tell_all()
    all = others = sum = global = 0
}

END {
    if (each) exit
    if (all + others == 0) {
        print "time.awk: no run is told; is --all given?" | "cat 1>&2"
        exit 1
    }
    for (scale = 0; scale <= 15; scale++)
        if (scale in vectors)
            printf "scale %d: %d vectors, %.0f microseconds\n", scale, vectors[scale],
                vectors[scale] * microseconds(scale)
    tell_all()
}
