# What passed is kept, on this machine: ./test reads this by `.`. A suite that passed isn't run
# again by ./test quick and ./test changed while all that it reads is what it was then; the gate
# runs all. build/kept has a file for each such pass, named by the digest of what was read:
#
# - the files that tests/reads.txt says;
# - the program and the library, by their bytes, where it says so: most changes of a definition,
#   a proof or a comment leave both as they are;
# - what is installed: the list of Debian's packages, and the date and size of each tool;
# - the words of the suite, and the variables below.
#
# A suite that fails, or whose files change while it runs, is not kept.
kept=build/kept
kept_variables=(PLANTED PATH BUILD CC CXX CFLAGS CPPFLAGS LDFLAGS RUSTFLAGS
    CARGO_ENCODED_RUSTFLAGS TARGET RUSTC EMBED_SECONDS EMBED_SEED FUZZ_KEEP PROGRAMS TRIES SEED
    MINUTES STORM_TWIN STORM_JUDGE LD_PRELOAD PYTHONPATH NODE_OPTIONS)
kept_tools=(awk bash busybox c++ c++filt ca65 cargo cc chromium chromium-browser clang clang++ cmake
    ecppack firefox firefox-esr g++ gawk gcc ghdl git google-chrome icepack iverilog ld65 make mame
    mawk mypy nextpnr-ecp5 nextpnr-ice40 node original-awk pip pkg-config python3 rt rustc
    sim65 verilator wasm-ld yosys /usr/games/mame /usr/bin/python3)

# Prints the date and the size of each tool, and what Debian and Python have installed.
state_of_tools() {
    local tool
    for tool in "${kept_tools[@]}"; do
        tool=$(command -v "$tool") && readlink -f "$tool"
    done | sort -u | tr '\n' '\0' | xargs -0 stat -c '%n %s %Y'
    of_build version_of_rust
    uname -sm
    sha256sum /var/lib/dpkg/status 2>/dev/null
    python3 -c 'import sys, os
for path in sys.path:
    if os.path.isdir(path): print(path, os.stat(path).st_mtime_ns)' 2>/dev/null
    # What core/install puts here.
    find build/ecp5 build/pins -printf '%p %s %T@\n' 2>/dev/null | sort
}

# Writes a line for each file of the tree, with its digest, but for what is built; and one of what
# is installed.
list_files() {
    find . -type d \( -name .git -o -name target -o -name build -o -name out -o -name __pycache__ \
        \) -prune -o \( -type f -o -type l \) -printf '%P\0' | LC_ALL=C sort -z |
        xargs -0 sha256sum >"$work/files.$1"
}

# Prints the words that reads.txt has of a suite.
words_of_suite() {
    awk -v suite="$1" '
        /^#/ || !/:/ { next }
        {
            name = $0
            sub(/:.*/, "", name)
            if (index(suite " ", name " ") != 1 || length(name) < best) next
            if (length(name) > best) words = ""
            best = length(name)
            sub(/^[^:]*:/, "")
            words = words $0
        }
        END { print words }' tests/reads.txt
}

# Prints the lines of a list of files that a suite reads: the suite, and the list. Only suites that
# name them read the papers at the top.
files_read() {
    # shellcheck disable=SC2046
    printf '%s\n' -{.ci/,.github/,CHANGELOG.md,CITATION.cff,CONTRIBUTING.md,README.md,SECURITY.md} \
        $(words_of_suite "$1") test tests/{kept.bash,reads.txt,counts.bash} |
        awk 'FILENAME == "-" {
                without[++words] = sub(/^-/, "")
                word[words] = $0 == "all" ? "" : $0
                next
            }
            {
                file = substr($0, 67)
                best = -1
                for (k = 1; k <= words; k++)
                    if (length(word[k]) >= best && index(file, word[k]) == 1) {
                        best = length(word[k])
                        is_read = !without[k]
                    }
                if (best >= 0 && is_read) print
            }' - "$2"
}

# Prints the digest of all that a suite reads, by the list of this name; nothing for one that isn't
# in reads.txt, which is never kept.
key_of() {
    local name words
    words=" $(words_of_suite "$2") "
    [ -e "$work/files.$1" ] && [ -n "${words// /}" ] || return 0
    case $words in *' @library '*) [ -e "$work/library" ] || return 0 ;; esac
    {
        echo "$2"
        for name in "${kept_variables[@]}"; do echo "$name=${!name-}"; done
        cat "$work/tools"
        case $words in *' @program '*) sha256sum <"$DVG_PROGRAM" ;; esac
        case $words in *' @library '*) cat "$work/library" ;; esac
        case $words in *' @names '*) cut -c 67- "$work/files.$1" ;; esac
        files_read "$2" "$work/files.$1"
    } | sha256sum | cut -d ' ' -f 1
}

# Begins to keep what passes, once the program is built, and builds the library. With --anew what
# passed before is run again.
begin_keeping() {
    [ -r tests/reads.txt ] && [ -n "${DVG_PROGRAM-}" ] || return 0
    [ "${1-}" = --anew ] || takes_kept=yes
    if run_guarded ./lib >"$work/library" 2>&1; then
        cat build/libdvg.a build/libdvg.so | sha256sum >"$work/library"
    else
        cat "$work/library"
        rm "$work/library"
    fi
    state_of_tools >"$work/tools"
    list_files before
    : >"$work/began"
}
takes_kept=

# Shows what a suite printed that passed before of all that it reads: the argument is its digest.
# Fails where none did.
show_kept() {
    [ -n "$takes_kept" ] && [ -n "$1" ] && [ -s "$kept/$1" ] || return
    touch "$kept/$1"
    echo "kept: it passed of all that it reads"
    grep -E '^skipped: |^[0-9]+ skipped$|^[0-9]+ passed, 0 failed$' "$kept/$1"
}

# Whether no file of the tree was written since the list was made.
is_unchanged() {
    [ -z "$(find . -type d \( -name .git -o -name target -o -name build -o -name out -o -name \
        __pycache__ \) -prune -o -type f -cnewer "$work/began" -print -quit)" ]
}

# Keeps a pass: its digest, the suite, and what it printed. Not so if what it reads has changed.
keep() {
    [ -n "$1" ] && [ -e "$work/began" ] && grep -q -E '^[0-9]+ passed, 0 failed$' "$3" || return 0
    local list=$BASHPID
    if ! is_unchanged; then
        list_files "$list"
        [ "$(key_of "$list" "$2")" = "$1" ] || return 0
    fi
    mkdir -p "$kept" && cp "$3" "$kept/.$1" && mv "$kept/.$1" "$kept/$1"
    # The newest are enough.
    find "$kept" -type f -printf '%T@ %p\n' | sort -rn | tail -n +1000 | cut -d ' ' -f 2 |
        xargs -r rm -f
}
