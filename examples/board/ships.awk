# Writes the ship's outline in 16 directions, for the vector ROM.

# The cosine of a number of turns of 22.5 degrees. An awk may have no sines, as that of busybox.
function cosine(turns) {
    turns %= 16
    if (turns > 8) turns = 16 - turns
    return turns > 4 ? -quarter[8 - turns] : quarter[turns]
}

# The sine: the cosine of a quarter less.
function sine(turns) { return cosine(turns + 12) }

BEGIN {
    split("0.9238795325 0.7071067812 0.3826834324 0", quarter, " ")
    quarter[0] = 1
    print ".rom"
    points = split("28,0 -20,16 -12,0 -20,-16 28,0", point, " ")
    for (turn = 0; turn < 16; turn++) {
        line = "ship_" turn ":"
        for (i = 1; i <= points; i++) {
            split(point[i], at, ",")
            x = at[1] * cosine(turn) - at[2] * sine(turn)
            y = at[1] * sine(turn) + at[2] * cosine(turn)
            line = line sprintf(" %s%.2f,%.2f", i == 1 ? "@" : "", x, y)
        }
        print line " @0,0"
    }
}
