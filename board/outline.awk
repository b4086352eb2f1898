# Makes shapes of the points of their outlines: reads sketches with outlines, and writes one sketch
# without, as `dvg lay` reads it. This is unproved.
#
#     awk -f outline.awk SKETCH.. >SKETCH
#
# An outline is points X,Y in units of the screen, from where the beam is when the shape is called.
# The beam draws to each point, and moves to one after an @ without drawing. A name may stand before
# them, and more points in the next lines. `return` is added after the last, where the outline has a
# name or is of the ROM; one without a name in a frame is drawn there. A house, with a bright door:
#
#     house: 60,0 60,40 30,60 0,40 0,0 @20,0 intensity=12 20,20 35,20 35,0 @0,0
#
# All other lines stay as they are. Each vector gets the least scale that has room for its move: the
# generator takes as long for a vector as its scale says, however short it is. The global scale 0
# shows a shape in its own size, 1 twice as large, and 15 half as large. A vector goes at most 1,023
# units. intensity=N, 0 to 15, sets how bright the points after it are, up to the end of an outline.
# Else it is what -v intensity=N says, or 9. What can't be read is reported on standard error, with
# its line, and the status is 1. With -v from=FILE that file gets the number of each line that is
# written, and from which file and line it came.

function out(text) {
    print text
    if (from != "") print ++lines, FILENAME, FNR >from
}

function refuse(text) {
    print "outline.awk: " FILENAME " line " FNR ": " text | "cat 1>&2"
    refused = 1
}

function size(number) { return number < 0 ? -number : number }

function power_of_two(exponent, power) {
    for (power = 1; exponent > 0; exponent--) power *= 2
    return power
}

# The least scale, 1 or more, at which a move of this many units is at most 1,023 long.
function scale_of(units, scale) {
    for (scale = 1; scale < 9 && units * 512 / power_of_two(scale) > 1023; scale++);
    return scale
}

function rounded(number) { return number < 0 ? -int(0.5 - number) : int(number + 0.5) }

# Goes to X, Y. Where the beam is, at_x and at_y, is counted in 1/512 of a unit.
function vector(x, y, z, scale, step, dx, dy) {
    dx = x * 512 - at_x
    dy = y * 512 - at_y
    scale = scale_of((size(dx) > size(dy) ? size(dx) : size(dy)) / 512)
    step = power_of_two(scale)
    dx = rounded(dx / step)
    dy = rounded(dy / step)
    if (size(dx) > 1023 || size(dy) > 1023) refuse("a move of more than 1,023 units")
    at_x += dx * step
    at_y += dy * step
    out(sprintf("  vctr %d %d %d %d", scale, dx, dy, z))
}

# No operation of a sketch has a comma, an @ or an =.
function is_point(word) { return word ~ /,|^@|=/ }

# At a line that isn't of the last outline.
function end_outline() {
    if (is_open && (is_named || in_rom)) out("  return")
    is_open = at_x = at_y = 0
    is_named = $1 ~ /:$/
    bright = intensity
}

function draw_to(word, z, point) {
    if (word ~ /^intensity=([0-9]|1[0-5])$/) bright = substr(word, 11)
    else if (word ~ /^@?-?[0-9]+(\.[0-9]+)?,-?[0-9]+(\.[0-9]+)?$/) {
        z = word ~ /^@/ ? 0 : bright
        sub(/^@/, "", word)
        split(word, point, ",")
        vector(point[1], point[2], z)
    } else refuse("no point: '" word "'")
}

BEGIN { if (intensity == "") intensity = 9 }

FNR == 1 { end_outline() }

{
    whole = $0
    sub(/\r$/, "")
    sub(/#.*/, "")
}

NF == 0 {
    out(whole)
    next
}

$1 ~ /:$/ && is_point($2) {
    end_outline()
    out($1)
    $1 = ""
    $0 = $0
}

!is_point($1) {
    end_outline()
    if ($1 ~ /^\./) in_rom = $1 == ".rom"
    if (NF > 1) is_named = 0
    out(whole)
    next
}

{
    is_open = 1
    for (i = 1; i <= NF; i++) draw_to($i)
}

END {
    end_outline()
    exit refused
}
