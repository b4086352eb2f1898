# Warns on standard error of shapes of a sketch that are good, and seldom meant so: one without a
# return, which goes on into what follows, and one of several vectors, all of which are dark.
#
#     awk -f warn.awk SKETCH

function warn(text) { print "warning: " text | "cat 1>&2" }

# At the end of a shape; the next one's name, if one follows at once.
function end_shape(next_one) {
    if (shape != "" && last != "" && last !~ /^(return|jumprom|jump|halt)$/)
        warn(shape " has no return, and goes on into " (next_one ? next_one : "what follows"))
    if (shape != "" && vectors > 1 && !bright) warn("all of " shape " is dark")
    shape = next_one
    last = ""
    vectors = bright = 0
}

{ sub(/#.*/, "") }

NF == 0 { next }

$1 ~ /^\./ {
    end_shape("")
    in_rom = $1 == ".rom"
    next
}

!in_rom { next }

$1 ~ /:$/ {
    end_shape(substr($1, 1, length($1) - 1))
    $1 = ""
    $0 = $0
}

NF {
    last = $1
    if ($1 ~ /^(vctr|svec)$/) vectors++
    if ($1 ~ /^(vctr|svec)$/ && $NF > 0) bright++
    if ($1 ~ /^call/) bright++
}

END { end_shape("") }
