# Planted mistakes test the tests, not the sources. The suites that have many of them read this by
# `.`, and call `try_planted`, or else `wants_planted` and `end_planted`. PLANTED says when they are
# tried:
#
#     all        each time [default]: the gate does so
#     changed    where something that they read has changed since they were recorded: ./test quick
#     record     each time, and recorded where all are found
#
# planted.sums is the record: a line for each suite, with its words and a checksum of the files that
# decide what comes of its planted mistakes: its own, and those of what it tests. The versions of
# tools aren't part of it: the gate tries all with those that are there.

# Prints the checksum of all files of which these are the folders or the names, from the top on,
# with their names. What is built there doesn't count.
sum_of_files() (
    set -o pipefail
    cd "$top" && find "$@" -type d \( -name target -o -name build -o -name out \
        -o -name __pycache__ \) -prune -o -type f -print0 | LC_ALL=C sort -z |
        xargs -0 sha256sum | sha256sum | cut -d ' ' -f 1
)

# Writes the checksum of a suite into the record: the arguments are the suite and the checksum.
record_planted() {
    local record=$tests/planted.sums
    (
        flock 9
        awk -v suite="$1" 'substr($0, 66) != suite' "$record" >"$work/sums"
        echo "$2 $1" >>"$work/sums"
        LC_ALL=C sort -k 2 "$work/sums" >"$record"
    ) 9<"$tests"
}

# What is skipped, and plants no mistake: as skip.
skip_other() {
    skip "$1"
    skipped_other=$((skipped_other + 1))
}
skipped_other=0

# How many checks failed, and how many were skipped otherwise.
not_passed() { echo "$failed $((skipped - skipped_other))"; }

# Whether planted mistakes are to be tried, by PLANTED: the arguments are the suite, as it is
# called, and the files and folders that decide what comes of them. `end_planted` comes after them.
wants_planted() {
    local is_recorded=
    planted_suite=$1 planted_before=$(not_passed)
    planted_sum=$(sum_of_files "${@:2}" tests/planted.bash) || planted_sum=unknown
    ! grep -qxF "$planted_sum $1" "$tests/planted.sums" || is_recorded=yes
    if [ "${PLANTED-}" = changed ] && [ -n "$is_recorded" ]; then
        echo "planted mistakes: not tried, as nothing that they read has changed"
        return 1
    fi
    [ -n "$is_recorded" ] || [ "${PLANTED-}" = record ] ||
        echo "planted mistakes: what they read has changed; PLANTED=record $1 tries and records"
}

# Records them, where PLANTED says so, if nothing failed and nothing but by skip_other was skipped
# since then.
end_planted() {
    if [ "${PLANTED-}" != record ]; then
        return
    elif [ "$planted_sum" != unknown ] && [ "$planted_before" = "$(not_passed)" ]; then
        record_planted "$planted_suite" "$planted_sum"
    else
        echo "planted mistakes: not recorded, as something failed or was skipped"
    fi
}

# Tries planted mistakes where PLANTED says so. The first argument is the suite, as it is called;
# then come what tries them, and the files and folders that decide what comes of them. The suite
# counts in `passed`, `failed` and `skipped`.
try_planted() {
    local planted_suite planted_before planted_sum
    wants_planted "$1" "${@:3}" || return 0
    "$2"
    end_planted
}
