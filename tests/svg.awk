# Reads what `dvg play`, `dvg play --all` or `dvg picture` writes, and writes one of its pictures as
# SVG. Tests ask it beside `svg` of the module for Python. This is unproved.
#
#     ./dvg play <TRACE | awk -f svg.awk >PICTURE.svg
#
# It is the last picture, or with `-v picture=N` the Nth, the first being 1. The screen's 1,024
# units are shown, 0 to 1023 along both axes, y upwards; with `-v units=4096` all units are.
# Positions stay in 1/512 of a unit, as the input has them.
#
# A stroke goes the shorter way from its begin to its end. Where that crosses the edge at 4,096
# units, it is drawn at both edges. A stroke of length 0 is a dot. Intensities 1 to 15 are opacities
# of 0.30 to 1.00. Lines are 2 pixels wide, and dots 4. Where there is no such picture, or one is
# cut off, or a line is none of these, that is reported on standard error, with status 1.

function refuse(text) {
    print "svg.awk: " text | "cat 1>&2"
    refused = 1
    exit 1
}

# Where the shorter way to an end leads, which may be beyond the edge.
function way(from, to) {
    if (to - from > field / 2) return to - field
    return from - to > field / 2 ? to + field : to
}

function draw(x0, y0, x1, y1, z) {
    if (x0 == x1 && y0 == y1)
        shape = sprintf("<circle cx=\"%d\" cy=\"%d\" r=\"%d\"", x0, y0, side / 1024)
    else
        shape = sprintf("<line x1=\"%d\" y1=\"%d\" x2=\"%d\" y2=\"%d\"", x0, y0, x1, y1)
    shapes[++most] = shape sprintf(" opacity=\"%d.%02d\"/>", z == 15, (z + 5) * 5 % 100)
}

BEGIN { field = 4096 * 512; side = (units ? units : 1024) * 512 }

{ sub(/\r$/, "") }

left > 0 && /^[0-9]+ [0-9]+ [0-9]+ [0-9]+ [0-9]+$/ {
    left--
    if (picture && pictures != picture) next
    x1 = way($1, $3)
    y1 = way($2, $4)
    for (i = 0; i <= (x1 != $3); i++)
        for (j = 0; j <= (y1 != $4); j++)
            draw($1 + i * ($3 - x1), $2 + j * ($4 - y1), x1 + i * ($3 - x1), y1 + j * ($4 - y1), $5)
    next
}

left == 0 && (/^picture [0-9]+ [0-9]+$/ || /^[0-9]+ done [0-9A-F]+ [0-9A-F]+ [0-9]+$/) {
    left = $NF
    if (++pictures == picture || !picture) most = 0
    next
}

left > 0 || !/^[0-9]+ [a-z]/ { refuse("no line of a picture at line " NR) }

END {
    if (refused) exit 1
    if (left > 0) refuse("a picture is cut off")
    if (pictures < (picture ? picture : 1)) refuse("no such picture")
    print "<svg xmlns=\"http://www.w3.org/2000/svg\" width=\"1024\" height=\"1024\"" \
        " viewBox=\"-256 -256 " side " " side "\">"
    print "<rect x=\"-256\" y=\"-256\" width=\"" side "\" height=\"" side "\"/>"
    print "<g transform=\"matrix(1 0 0 -1 0 " (side - 512) ")\" fill=\"#fff\" stroke=\"#fff\"" \
        " stroke-width=\"" (side / 512) "\" stroke-linecap=\"round\">"
    for (i = 1; i <= most; i++) print shapes[i]
    print "</g>\n</svg>"
}
