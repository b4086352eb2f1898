# Writes the outlines of the ship and of its flame in 16 directions, for the vector ROM.

# The cosine of a number of turns of 22.5 degrees. An awk may have no sines, as that of busybox.
function cosine(turns) {
    turns %= 16
    if (turns > 8) turns = 16 - turns
    return turns > 4 ? -quarter[8 - turns] : quarter[turns]
}

# The sine: the cosine of a quarter less.
function sine(turns) { return cosine(turns + 12) }

function write(name, turn, shape, point, points, i, at, line) {
    points = split(shape, point, " ")
    line = name "_" turn ":"
    for (i = 1; i <= points; i++) {
        split(point[i], at, ",")
        line = line sprintf(" %s%.2f,%.2f", i == 1 ? "@" : "",
            at[1] * cosine(turn) - at[2] * sine(turn), at[1] * sine(turn) + at[2] * cosine(turn))
    }
    print line " @0,0"
}

BEGIN {
    split("0.9238795325 0.7071067812 0.3826834324 0", quarter, " ")
    quarter[0] = 1
    print ".rom"
    for (turn = 0; turn < 16; turn++) {
        write("ship", turn, "24,0 -14,15 -20,0 -14,-15 24,0")
        write("flame", turn, "-18,6 -34,0 -18,-6")
    }
}
