# Turns the waves of a simulated board, a VCD, into a log for `dvg torn`, by halves or moments.
# This is unproved.
#
#     awk -f vcd.awk <WAVES >LOG
#     awk -v clk=clock -v write=we -v a=address -f vcd.awk <WAVES >LOG
#
# At each rise of `clk`, as what stood before it says:
#
#     write            a byte `d` is written at the byte address `a`, of which 11 bits count
#     strobe           the generator is started
#     takes            it takes the byte `din`: the low one of the word `at`, or the `high` one
#     done             a HALT ended the run
#     reset            the generator is reset
#
# These are the names of signals, and `-v NAME=OTHER` tells what one is called in the waves. Of
# several signals with one name the first counts. One that isn't there is low; without `clk` there
# is no log, and the status is 1. A bit that is x or z counts as 0.

function name(wanted, given) { names[given == "" ? wanted : given] = wanted }

function number(bits, value, k) {
    for (k = 1; k <= length(bits); k++) value = 2 * value + (substr(bits, k, 1) == "1")
    return value + 0
}

function is_high(signal) { return value[signal] % 2 == 1 }

function take() {
    if (is_high("high")) printf "fetched %03X %02X%02X\n", value["at"], value["din"], low
    else {
        low = value["din"]
        printf "low %03X %02X\n", value["at"], low
    }
}

# What the signals say at a rise of the clock.
function rise() {
    if (is_high("done")) print "halted"
    if (is_high("reset")) print "reset"
    if (is_high("write")) printf "wrote %03X %02X\n", value["a"] % 2048, value["d"]
    if (is_high("strobe")) print "started"
    if (is_high("takes")) take()
}

# What changed at one time: the clock rises before the rest changes.
function flush(k) {
    if (clock_rises) rise()
    for (k = 1; k <= changes; k++) value[changed[k]] = next_value[k]
    changes = clock_rises = 0
}

function change(code, bits) {
    if (!(code in signals)) return
    changed[++changes] = signals[code]
    next_value[changes] = number(bits)
    if (signals[code] == "clk" && next_value[changes] == 1 && value["clk"] == 0) clock_rises = 1
}

BEGIN {
    name("clk", clk); name("write", write); name("a", a); name("d", d); name("strobe", strobe)
    name("takes", takes); name("din", din); name("at", at); name("high", high); name("done", done)
    name("reset", reset)
}

{ sub(/\r$/, "") }

$1 == "$var" && ($5 in names) && !(names[$5] in found) {
    signals[$4] = names[$5]
    found[names[$5]] = 1
}

/^#/ { flush() }

/^[01xXzZ]/ { change(substr($1, 2), substr($1, 1, 1)) }

/^[bB]/ { change($2, substr($1, 2)) }

END {
    flush()
    if (is_high("done")) print "halted"
    if (!("clk" in found)) {
        print "vcd.awk: there is no signal " (clk == "" ? "clk" : clk) | "cat 1>&2"
        exit 1
    }
}
