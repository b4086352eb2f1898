# What the texts of cases call to make long or odd input, and long output that must come of it.
# Words of vector memory are four hexadecimal digits here; `words` and `image` make bytes of them.

# --- Input ---

# A line so many times: `repeat 511 halt`.
repeat() { yes "${*:2}" | head -n "$1"; }

# These words as bytes, the low one of each first: `words 9064 7464`.
words() {
    local word format=
    for word; do format+="\\x${word:2}\\x${word:0:2}"; done
    # shellcheck disable=SC2059
    printf "$format"
}

# An image of so many words, as `picture` reads it. Its RAM is zeros and its ROM, from 400 on,
# returns, but for what is named: `image 2048 000: E001 A190 400: F141`.
image() {
    local word memory at=0
    mapfile -t memory < <(repeat 1024 0000 && repeat $(($1 - 1024)) D000)
    for word in "${@:2}"; do
        if [[ $word == *: ]]; then at=$((0x${word%:})); else memory[at++]=$word; fi
    done
    words "${memory[@]}"
}

# So many bytes, two for each return or halt: `returns 2047`.
# shellcheck disable=SC2046
returns() { words $(repeat $((($1 + 1) / 2)) D000) | head -c "$1"; }
# shellcheck disable=SC2046
halts() { words $(repeat $((($1 + 1) / 2)) B000) | head -c "$1"; }

# So many bytes by chance, the same each time.
chance() {
    python3 -c "import random, sys
chance = random.Random($1)
sys.stdout.buffer.write(bytes(chance.randrange(256) for _ in range($1)))"
}

# The 4,096 words that begin with this digit: `each_word F`.
each_word() { printf "$1%03X\n" {0..4095}; }

# 1,024 words that differ.
many_words() {
    local k
    for ((k = 0; k < 1024; k++)); do printf '%04X\n' $((k * 0xA1E9 % 0x10000)); done
}

# The words of 2,048 vectors, with each scale, intensity and length.
vectors() {
    awk 'BEGIN {
        for (k = 0; k < 2048; k++) {
            x = k % 1024
            printf "%X%03X %X%03X\n", k % 10, k % 512, k % 16, x ? 1024 + x : 0
        }
    }'
}

# A game, as `game` reads it: a vector ROM of returns, and a program with the driver, an RTI at
# 7FF9, its NMI's vector 7FF9 and its reset's 6A87, and zeros. These bytes come from 6A87 on, or
# from an address that is named before them: `game A2 FF 9A 5000: 00 B0`.
game() {
    local byte memory at=$((0x6A87 - 0x6000))
    mapfile -t memory < <(repeat 2048 00$'\n'D0 &&
        sed -n '/^code =/,$s/0x/\n/gp' repository/crates/dvg_game_words/specs/Code.antt |
            grep -oE '^[0-9A-F]{2}\b' && repeat 5497 00)
    for byte in 7FF9: 40 F9 7F 87 6A F9 7F 6A87: "$@"; do
        case $byte in
        5*:) at=$((0x${byte%:} - 0x5000)) ;;
        *:) at=$((0x${byte%:} - 0x6000)) ;;
        *) memory[at++]=$byte ;;
        esac
    done
    # shellcheck disable=SC2059
    printf "$(printf '\\x%s' "${memory[@]}")"
}

# The same, which goes on at 6A8D behind the call of dvg_reset; with a subroutine at 6A93; with an
# NMI at 6AA0; with a frame that has what these bytes put.
looped() { game A2 FF 9A 20 00 68 "$@"; }
called() { looped 20 93 6A 4C 8D 6A "$@"; }
# shellcheck disable=SC2086
interrupted() { looped $nmi "$@"; }
# shellcheck disable=SC2086
framed() { looped $begins "$@" $ends; }

# The same with a jump back to 6A8D; and what is said of each of these: `say_of loops 07 '91 21'`.
loops() { looped "$@" 4C 8D 6A; }
# shellcheck disable=SC2086
say_of() { local bytes; for bytes in "${@:2}"; do $1 $bytes | dvg game; done; }

# Two lines of what is said of each of these, behind the call of dvg_reset.
# shellcheck disable=SC2086
judge_each() { local bytes; for bytes; do looped $bytes | dvg game | head -n 2; done; }

# What begins a frame, and ends it and shows it again and again; what offers a table at 7000, and
# puts one of two words of lists at 7000 and 7010; and a loop, and an NMI from 6AA0 on.
nmi='4C 8D 6A 7FFA: A0 6A 6AA0:'
# shellcheck disable=SC2034
labs='A9 00 20 79 69' begins='20 24 69 A9 00 20 79 69' ends='20 00 6A 20 09 68 4C 8D 6A'
# shellcheck disable=SC2034
offers='A9 00 A2 70 20 FE 68 20 09 68 4C 8D 6A'
listed='A4 21 C0 02 B0 09 B9 00 70 BE 10 70 20 57 69'

# A jump to the last of so many branches: each leads to the one before it, and the first one to a
# call of dvg_run and a jump to the reset. A jump to itself follows.
branches() {
    local last=$((0x6A94 + 2 * $1))
    printf '4C %02X %02X 20 09 68 4C 87 6A 30 F8\n' $((last % 256)) $((last / 256))
    repeat $(($1 - 1)) 30 FC
    printf '4C %02X %02X\n' $(((last + 2) % 256)) $(((last + 2) / 256))
}

# The log of ten runs, each of which writes the half that it doesn't draw.
ten_runs() {
    awk 'BEGIN {
        for (run = 1; run <= 10; run++) {
            odd = run % 2
            printf "started\nfetched 000 %s\n", odd ? "E001" : "E201"
            for (k = 0; k < 300; k++) {
                if (odd) printf "low %03X 00\n", k + 1
                printf "wrote %03X %02X\n", (odd ? 1026 : 2) + k, k % 256
                if (odd) printf "fetched %03X F000\n", k + 1
            }
            printf "halted\nwrote 001 %s\n", odd ? "E2" : "E0"
        }
    }'
}

# A trace that draws one picture, and one that draws the same so many times.
first_picture() {
    printf '%s\n' 'tick 2' offer 'labs 512 400 0' 'vctr 9 -100 100 7' halt end 'tick 14'
    printf '%s\n' strobe 'fetch 12'
}
many_pictures() {
    first_picture
    repeat $(($1 - 1)) redraw,tick 2,strobe,fetch 12 | tr , '\n'
}

# A trace of as many events as one may have, 65,536, of which each is a tick.
most_events() { repeat 6 tick 9999; echo tick 5542; }

# What stands on standard input, in pieces of these sizes, with a moment after each.
in_pieces() {
    local size
    for size; do head -c "$size" && sleep 0.02; done
}

# So many comments of 64 bytes.
comments() { repeat "$1" "$(printf '#%.0s' {1..64})"; }

# A log of some 100 MB, of many runs.
long_log() { yes "$(ten_runs)" | head -n 7400000; }

# --- What is asked otherwise than by a pipe ---

# Runs a command whose standard output is a pipe that nobody reads. It is opened for both first,
# since opening it to write alone would wait for a reader.
unread() {
    mkfifo pipe
    # shellcheck disable=SC2094
    exec 3<>pipe 4>pipe 3>&- && rm pipe
    "$@" >&4
}

# What a help text shows as an example: its commands, and what comes of them.
example_commands() { sed -n '/^Example:$/,$s/^  \$ //p'; }
example_lines() { sed -n '/^Example:$/,$s/^  //p' | grep -v '^\$ '; }

# --- Output ---

# The lines of a ROM's text from this address on: `rom_lines 800 D000 D000 ..`.
rom_lines() {
    local at=$((0x$1)) k
    for ((k = 2; k <= $#; k += 8)); do
        printf 'rom %03X %s\n' $((at + k - 2)) "${*:k:8}"
    done
}

# A line for each of these numbers, which stands where the format asks for it:
# `numbered '%03X JMPL %03X' 0 4095`.
numbered() {
    awk -v format="$1\n" -v first="$2" -v last="$3" 'BEGIN {
        for (k = first; k <= last; k++) printf format, k, k
    }'
}

# Outlines in 16 directions, a name and points each, as an awk with or without sines writes them:
# `turned 'ship 28,0 -20,16'`.
turned() {
    python3 - "$@" <<'EOF'
import cmath, sys
for turn in range(16):
    for name, *points in map(str.split, sys.argv[1:]):
        places = [complex(*map(int, point.split(","))) for point in points]
        places = [place * cmath.exp(1j * cmath.pi * turn / 8) for place in places]
        texts = [f"{place.real:.2f},{place.imag:.2f}" for place in places]
        print(f"{name}_{turn}: @{' '.join(texts)} @0,0".replace("-0.00", "0.00"))
EOF
}

# What `list` says of the first of those vectors, so many, and of all 4,096 short vectors.
vectors_listed() {
    awk -v count="$1" 'BEGIN {
        for (k = 0; k < count; k++)
            printf "%03X VCTR %d %d %d %d\n", 2 * k, k % 10, -(k % 1024), k % 512, k % 16
    }'
}
short_vectors_listed() {
    awk 'function signed(bits) { return bits < 4 ? bits : 4 - bits }
    BEGIN {
        for (k = 0; k < 4096; k++) {
            x = k % 8
            y = int(k / 256) % 8
            scale = 2 + int(k % 16 / 8) * 2 + int(k / 2048)
            printf "%03X SVEC %d %d %d %d", k, scale, signed(x), signed(y), int(k / 16) % 16
            print x == 4 || y == 4 ? " *" : ""
        }
    }'
}

# What `play --all` says of ticks that write zeros, the first number and the last, and of fetches of
# zeros.
zeros_written() {
    awk -v k="$1" -v last="$2" 'BEGIN {
        for (; k <= last; k++) printf "%d wrote %03X 00\n", k, 1023 + k
    }'
}
zeros_fetched() {
    awk -v k="$1" -v last="$2" 'BEGIN {
        for (at = 514; k < last; k += 2)
            printf "%d low %03X 00\n%d fetched %03X 0000\n", k, at, k + 1, at++
    }'
}
