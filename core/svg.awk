# Makes an SVG of the strokes that core/picture prints, byte for byte that of `dvg picture --svg`.

function centred(n) {
    n = (n + axis) % axis
    return n < axis / 2 ? n : n - axis
}

BEGIN {
    axis = 2097152
    print "<svg xmlns=\"http://www.w3.org/2000/svg\" width=\"1024\" height=\"1024\"" \
        " viewBox=\"-256 -256 524288 524288\">"
    print "<rect x=\"-256\" y=\"-256\" width=\"524288\" height=\"524288\"/>"
    print "<g transform=\"matrix(1 0 0 -1 0 523776)\" fill=\"none\" stroke=\"#fff\"" \
        " stroke-width=\"1024\" stroke-linecap=\"round\">"
}

NF == 5 && /^[0-9]/ {
    printf "<path d=\"M%d %dl%d %d\" opacity=\"%s\"/>\n", centred($1), centred($2),
        centred($3 - $1), centred($4 - $2), ($5 < 15 ? "." 5 * ($5 + 5) : "1.0")
}

END { print "</g>\n</svg>" }
