# What suites in bash have in common: where they are, a folder for what is thrown away, and counts
# of what passes, fails and is skipped.
set -u
export LC_ALL=C
tests=$(dirname "$(readlink -f "$0")") || exit 1
top=${tests%/*}
work=$(mktemp -d) || exit 1
trap 'rm -rf "$work"' EXIT
passed=0
failed=0
skipped=0

pass() {
    passed=$((passed + 1))
}

# Says what failed, and shows the beginning and the end of the file that says why, if there is one.
fail() {
    failed=$((failed + 1))
    echo "FAILED: $1"
    [ $# -lt 2 ] || awk '{ line[NR] = substr($0, 1, 150) }
        END { for (k = 1; k <= NR; k++) if (k <= 10 || k > NR - 10) print "    " line[k] }' "$2"
}

skip() {
    skipped=$((skipped + 1))
    echo "skipped: $1"
}

# Says what could not be built, and ends.
give_up() {
    echo "FAILED: $1"
    echo "0 passed, 1 failed"
    exit 1
}

# Sets `program` to the one that is tested: see tests/built.
find_program() {
    program=$("$tests/built") || give_up 'there is no program to test'
}

# Whether a command does what it must, which is what the first argument says.
expect() {
    if "${@:2}" >"$work/log" 2>&1; then
        pass
    else
        fail "$1" "$work/log"
        return 1
    fi
}

# Runs a program whose last line is 'N passed, M failed', and counts that.
count() {
    local line
    "${@:2}" >"$work/log" 2>&1
    line=$(tail -n 1 "$work/log")
    if [[ ! $line =~ ^([0-9]+)\ passed,\ ([0-9]+)\ failed$ ]]; then
        fail "$1" "$work/log"
        return
    fi
    passed=$((passed + BASH_REMATCH[1]))
    # The failure that is described is one of them.
    if [ "${BASH_REMATCH[2]}" -ne 0 ]; then
        failed=$((failed + BASH_REMATCH[2] - 1))
        fail "$1" "$work/log"
    fi
}

# The calls of dvg.h in this folder, a line each.
calls_of() {
    sed -n 's/^[A-Za-z].*[ *]\(dvg_[a-z_]*\)(.*/\1/p' "$1/dvg.h" | LC_ALL=C sort
}

finish() {
    [ "$skipped" -eq 0 ] || echo "$skipped skipped"
    echo "$passed passed, $failed failed"
    [ "$failed" -eq 0 ]
    exit
}
