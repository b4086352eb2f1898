# Turns what `dvg play --all` writes into a log for `dvg torn`. This is unproved.
#
#     ./dvg play --all <TRACE | awk -v trace=TRACE -f log.awk | ./dvg torn
#
# What a log can say keeps its text: `started`, `low`, `fetched` and `wrote`. `done` becomes the
# fetch of its word, and then `halted`; `broke` becomes `halted`, as it ends the run. `cleared`
# becomes `reset` where the event of that number resets the generator: the trace says so, which is
# read beside the entries. All other entries become comments, and strokes are left out. A trace that
# can't be read, and `cleared` without one, are reported on standard error, and the status is 1.

function refuse(text) {
    print "log.awk: " text | "cat 1>&2"
    exit 1
}

# Notes which events of the trace reset the generator. Several may stand in one line, and an offer
# has several lines.
BEGIN {
    while (trace != "" && (got = getline line < trace) > 0) {
        count = split(line, part, " ")
        if (count == 0 || part[1] ~ /^#/) continue
        if (part[1] == "offer") offering = 1
        if (part[1] == "end") offering = 0
        if (offering) continue
        if (part[1] !~ /^(end|redraw|tick|strobe|fetch|resetgen|resetcpu|resetall)$/) continue
        if (part[1] == "resetgen" || part[1] == "resetall") resets[events + 0] = 1
        events += count == 2 && part[1] != "resetall" ? part[2] : 1
    }
    if (got < 0) refuse("can't read " trace)
}

{ sub(/\r$/, "") }

$2 == "started" || $2 == "low" || $2 == "fetched" || $2 == "wrote" {
    sub(/^[0-9]+ /, "")
    print
    next
}

$2 == "done" {
    print "fetched " $3 " " $4
    print "halted"
    next
}

$2 == "broke" {
    print "halted"
    next
}

$2 == "cleared" {
    if (trace == "") refuse("entry " $1 " is a reset: give the trace")
    if ($1 in resets) {
        print "reset"
        next
    }
}

$2 ~ /^[a-z]/ { print "# " $0 }
