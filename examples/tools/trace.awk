# Reads a draft, as `dvg check` reads it, and writes a trace that draws it once. This is unproved.
#
#     awk -f trace.awk <DRAFT | ./dvg play
#     ./dvg lay --draft <SKETCH | awk -f trace.awk | ./dvg play --svg >PICTURES.svg
#
# Of several drafts, each between `offer` and `end`, as `dvg lay --draft` writes them, the trace
# draws each once, in order.
#
# Lines `map` and `rom` come first, then `tick 2`, by which the driver boots: it looks at byte 001
# and reads the HALT flag. After the draft come as many ticks as its W words take: 2W for their
# bytes, two for word zero, one that reads the flag and one that sends the strobe, which is 2W + 4.
# Then the strobe arrives, and the generator fetches. `-v fetches=N` writes two fetches for each of
# N words, where N is the last number of `dvg check --bound`. Without it there are 60,000, which is
# enough for 30,000 words; those after the end of the picture do nothing, but each is a line of
# `dvg play --all`.
#
# A draft that `dvg check` refuses isn't drawn. A line that is no operation is reported on standard
# error, with status 1.

function begin() {
    if (open) return
    open = 1
    words = 0
    trace[++most] = (drafts++ ? "" : "tick 2\n") "offer"
}

# As many events as `count` says, of at most 9,999 a line.
function repeat(event, count) {
    for (; count > 9999; count -= 9999) trace[++most] = event " 9999"
    if (count > 0) trace[++most] = event " " count
}

# Only the first draft has its byte 000 written.
function finish() {
    trace[++most] = "end"
    repeat("tick", 2 * words + (drafts == 1 ? 4 : 3))
    trace[++most] = "strobe"
    repeat("fetch", fetches ? 2 * fetches : 60000)
    open = 0
}

function refuse() {
    print "trace.awk: no line of a draft at line " NR | "cat 1>&2"
    refused = 1
    exit 1
}

{ sub(/\r$/, "") }

# A text has one draft, or else each stands between these two lines.
/^offer$/ {
    if (drafts) if (open || !offers) refuse()
    offers = 1
    begin()
    next
}

/^end$/ {
    if (!offers || !open) refuse()
    finish()
    next
}

/^(labs|vctr|svec|call|callrom|jump|jumprom) / || /^(return|halt)$/ {
    if (offers && !open) refuse()
    begin()
    words += /^(labs|vctr) / ? 2 : 1
}

!/^(labs|vctr|svec|call|callrom|jump|jumprom|map|rom) / && !/^(return|halt)$/ && !/^#/ && !/^$/ {
    refuse()
}

{ trace[++most] = $0 }

END {
    if (refused) exit 1
    if (open || !offers) {
        begin()
        finish()
    }
    for (i = 1; i <= most; i++) print trace[i]
}
