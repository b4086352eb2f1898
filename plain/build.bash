# What ./dvg, ./prove, ./lib and ./test have in common. Each of them sets `name`, its own, and
# `top`, the folder of the repository.
#
# Whether something is built of the sources that are there is told by their content. Beside what is
# built lies a file with the ending `.sources`: a digest of the sources, one of what was built, and
# of the plain form the version of the compiler of Rust. What is built of them is taken before a
# tool is looked for: where there is no compiler, its version doesn't count.
#
# Variables that count: BUILD is the folder of all that is built of the plain form, where the tree
# can't be written. CC, CFLAGS, CPPFLAGS, LDFLAGS and RUSTFLAGS are those of the compilers, and
# TARGET is the one of ./lib, by its name in Rust. With others of these it is built anew.

program=$top/build/dvg
library=$top/crates/dvg_c/out/libdvg_c.a
plain=$top/plain
# The plain form of the sources that are there, and what cargo builds of it.
plain_built=${BUILD:+$(mkdir -p "$BUILD" && readlink -f "$BUILD")/plain}
plain_built=${plain_built:-$plain/target}
workspace=$plain_built/made
target=$workspace/target

# The name by which a program that is linked with the shared library looks for it, and the version
# of its symbols. Both change where a program that was linked before could no longer run.
soname=libdvg.so.0
symbols=DVG_0

# What is being run, and the folders for what is thrown away; nothing where there is none.
running=
work=
room=

say() {
    echo "$name: $1" >&2
}

give_up() {
    say "$1"
    exit 70
}

has() {
    command -v "$1" >/dev/null
}

# How many processors this may run on.
processors() {
    nproc 2>/dev/null || getconf _NPROCESSORS_ONLN
}

# How long it took to prove the program from nothing: `./prove --anew` wrote it.
proved_in() {
    cat "$plain/proved_in"
}

# Shows what stands at the head of the script that runs.
show_help() {
    awk 'NR == 1 { next } !/^#/ { exit } { sub(/^# ?/, ""); print }' "$0"
}

if has sha256sum; then sum=(sha256sum); else sum=(shasum -a 256); fi

# The digest of what stands on standard input.
digest() {
    "${sum[@]}" | cut -d ' ' -f 1
}

# The digest of these files and all files below these folders, with their names. Each word is a
# pattern.
digest_of_files() {
    # shellcheck disable=SC2048,SC2086
    (
        cd "$top" || exit
        find $* -type f -print0 2>/dev/null | LC_ALL=C sort -z | xargs -0 "${sum[@]}"
    ) | digest
}

# The digest of all that is proved.
digest_of_proofs() {
    digest_of_files crates.txt 'crates/*/src' 'crates/*/specs' 'crates/*/proofs'
}

# The crates of this repository that a crate stands on.
below() {
    awk -F : -v wanted="$1" '
        { sub(/ .*/, "", $1); uses[$1] = $2 }
        END {
            count = split(uses[wanted], names, " ")
            for (i = 1; i <= count; i++)
                if (names[i] in uses) print names[i]
        }
    ' "$top/crates.txt"
}

# A crate, and then all that it is made of.
crates_of() {
    local crates=("$1") i crate
    for ((i = 0; i < ${#crates[@]}; i++)); do
        echo "${crates[i]}"
        for crate in $(below "${crates[i]}"); do
            [[ " ${crates[*]} " == *" $crate "* ]] || crates+=("$crate")
        done
    done
}

# These crates, and all that stand on one of them.
standing_on() {
    local crate
    for crate in $(sed -E 's/[ :].*//' "$top/crates.txt"); do
        ! crates_of "$crate" | grep -qxFf <(printf '%s\n' "$@") || echo "$crate"
    done
}

# The lines of crates.txt of these crates.
lines_of() {
    grep -E "^($(IFS='|' && echo "$*"))([ :]|\$)" "$top/crates.txt"
}

# The digest of what is proved of these crates: their files, and their lines of crates.txt.
digest_of_crates() {
    local crate files=()
    for crate in "$@"; do
        files+=("crates/$crate/src" "crates/$crate/specs" "crates/$crate/proofs")
    done
    { lines_of "$@" && digest_of_files "${files[@]}"; } | digest
}

# The digest of what is proved of a crate and of all that it is made of, and of what rt made of it:
# the program, and all libraries, of which each has a file `format` with a sum of its files.
digest_of_made() {
    local crate crates files=("crates/$1/out/$1" "crates/$1/out/$1.o")
    mapfile -t crates < <(crates_of "$1")
    for crate in "${crates[@]}"; do
        files+=("crates/$crate/out/rlib/$crate.rlib/format")
    done
    { digest_of_crates "${crates[@]}" && digest_of_files "${files[@]}"; } | digest
}

# Says of a crate that `rt ci` proved it of the sources that are there, and made what is there of it
# and of all that it is made of.
mark() {
    digest_of_made "$1" >"$top/crates/$1/out/proved"
}

# Whether a crate is proved of the sources that are there, and what `rt ci` made then is there: not
# so after another command of rt has built one of these libraries, over which no other one fits.
is_marked() {
    [ -r "$top/crates/$1/out/proved" ] &&
        [ "$(cat "$top/crates/$1/out/proved")" = "$(digest_of_made "$1")" ]
}

# Links the proved program of what rt built. It wants no library of the machine where the C compiler
# finds such ones to put into it: then a start takes a third of the time. Else it is linked as rt
# does it, also where rt kept it of an earlier run, without its object. Either way it is the same
# object, and no proof is of how it is linked.
link_program() {
    local made=$top/crates/dvg/out/dvg kit
    kit=$(dirname "$(dirname "$(readlink -f "$(command -v rt)")")")
    mkdir -p "${program%/*}" && rm -f "$program" || return
    "${CC:-cc}" -static -Wl,--gc-sections -o "$program" "$made.o" "$kit/c/libos_c.a" \
        "$kit/c/liblibc_c.a" 2>/dev/null || cp "$made" "$program"
}

# Says of all crates that they are proved: `rt ci` has passed, which began with sources of this
# digest. Fails where these aren't the sources that are there.
mark_all() {
    local crate
    [ "$(digest_of_proofs)" = "$1" ] || return
    for crate in "$top"/crates/*/out; do
        crate=${crate%/out}
        mark "${crate##*/}"
    done
}

# Removes all libraries, which `rt ci` would put back beside those that it makes: they don't fit
# them. rt builds its own ones again over what `rt check` keeps, which stays.
drop_libraries() {
    rm -rf "$top"/crates/*/out/rlib
}

# Makes the archive of the library for C over the libraries that `rt ci` made, which have the
# statements of what was proved, without proofs. So `dvg_c` alone is proved again. `rt lib` takes no
# such library, and would prove all below it again.
archive_of_statements() {
    local kit crate words=(--crate-name dvg_c src/lib.rt --crate-type staticlib --links dvg_c=)
    kit=$(dirname "$(dirname "$(readlink -f "$(command -v rt)")")")
    for crate in $(crates_of dvg_c | tail -n +2); do
        words+=(-L "dependency=$top/crates/$crate/out/rlib")
    done
    for crate in $(below dvg_c); do
        words+=(--extern "$crate=$top/crates/$crate/out/rlib/$crate.rlib")
    done
    words+=(--extern "std=$kit/rlibs/std.rlib" -L "dependency=$kit/rlibs" --backend llvm)
    words+=(--antt-project "$kit/rattle/logic/antt-project.json" --logic-built "$kit/logic_built")
    (cd "$top/crates/dvg_c" && "$kit/bin/rattle" build "${words[@]}" --toolchain "$kit/toolchain" \
        --jobs 2 -o "$library")
}

# The digest of all that the plain form is made of.
digest_of_plain() {
    digest_of_files 'crates/*/src' include plain/Cargo.toml plain/Cargo.lock \
        plain/erase.rs 'plain/*.c' 'plain/crates/*/Cargo.toml' 'plain/crates/*/rust.rs' \
        plain/stand_in
}

# The variables that say how something is built, where any is set.
flags() {
    local name
    for name in CC CFLAGS CPPFLAGS LDFLAGS RUSTFLAGS CARGO_ENCODED_RUSTFLAGS TARGET; do
        [ -z "${!name-}" ] || printf '%s=%s\n' "$name" "${!name}"
    done
}

# The digest of all that the plain form is made of, and of how.
digest_of_build() {
    local set_flags
    set_flags=$(flags)
    echo "$(digest_of_plain)${set_flags:+-$(digest <<<"$set_flags")}"
}

# The version of the compiler of Rust, as one word; nothing where there is none.
version_of_rust() {
    "${RUSTC:-rustc}" -V 2>/dev/null | tr ' ' _
}

# Whether a file is there and is built of the sources of this digest, and by the compiler that is
# here, if it says by which it was built.
is_of() {
    local of what by here
    [ -r "$1" ] && [ -r "$1.sources" ] && read -r of what by <"$1.sources" &&
        [ "$of $what" = "$2 $(digest <"$1")" ] || return
    [ -z "$by" ] || here=$(version_of_rust)
    [ -z "$by" ] || [ -z "$here" ] || [ "$here" = "$by" ]
}

# Says of a file that it is built of the sources of this digest, and by which compiler of Rust: the
# third argument, which may be missing.
set_of() {
    echo "$2 $(digest <"$1")${3:+ $3}" >"$1.sources.new" && mv -f "$1.sources.new" "$1.sources"
}

# Makes the folder $work, which goes when this script ends.
make_work() {
    work=$(mktemp -d) || give_up 'no folder can be made for what is thrown away'
}

# Ends what is being run, with all that it started.
stop_running() {
    [ -n "$running" ] || return 0
    kill -TERM -- "-$running" 2>/dev/null
    wait "$running" 2>/dev/null
    running=
}

at_exit() {
    stop_running
    [ -z "$work" ] || rm -rf "$work"
    # What ends now may still write there.
    [ -z "$room" ] || rm -rf "$room" 2>/dev/null || { sleep 1 && rm -rf "$room"; }
}
trap at_exit EXIT
trap 'exit 70' INT TERM HUP

# Runs a command so that an interrupt of this script ends it, too, with all that it starts.
run_guarded() {
    local status
    set -m
    "$@" </dev/null &
    running=$!
    set +m
    wait "$running"
    status=$?
    running=
    return $status
}

# Waits until no other script builds, and keeps others from it until `unlock` or the end.
lock() {
    has flock || return 0
    mkdir -p "$plain_built"
    exec 9>"$plain_built/lock"
    run_guarded flock 9
}

unlock() {
    exec 9>&-
}

# Builds a crate of the workspace: the arguments are the profile, the crate, and more options.
run_cargo() {
    run_guarded env -u CARGO_BUILD_TARGET cargo build --offline --locked --quiet \
        --target-dir "$target" --manifest-path "$workspace/Cargo.toml" --profile "$1" -p "$2" \
        "${@:3}" >&2
}

# Builds the plain form of a crate by cargo, and says once that this is done. The arguments are the
# profile, the crate, what it is, what proves it, and more options of cargo.
build_plain() {
    say "building $3 by cargo, in seconds: it is the same code, not proved on this machine"
    say "$4 proves it, in some $(proved_in)"
    run_guarded "$plain/generate" --to "$workspace" >&2 ||
        give_up 'the plain form of the sources could not be made'
    run_cargo "$1" "$2" "${@:5}" ||
        give_up "$3 could not be built: cargo says why, above; Rust 1.87 or later is wanted"
}

# Builds the plain program, where that isn't done, and sets `found` to it. Fails where there is none
# of these sources, and no cargo.
find_plain() {
    local sources
    found=$target/quick/dvg
    sources=$(digest_of_build)
    is_of "$found" "$sources" && return
    has cargo || return
    lock
    if ! is_of "$found" "$sources"; then
        build_plain quick dvg 'the program' ./prove
        set_of "$found" "$sources" "$(version_of_rust)"
    fi
    unlock
}

# Sets `found` to the program that ./dvg runs: the proved one, where it was proved of the sources
# that are there; else the plain one, which is built where it isn't of them; and where there is no
# cargo, the proved one again, which is then proved first.
find_program() {
    found=$program
    if [ -x "$program" ] && is_of "$program" "$(digest_of_proofs)"; then
        return
    fi
    find_plain && return
    found=$program
    has rt || give_up_without_tools
    run_guarded "$top/prove" >&2 || exit
}

# What to install where neither cargo nor rt is there.
give_up_without_tools() {
    give_up 'neither cargo nor rt is here: install Rust 1.87 or later (https://rustup.rs)'
}
