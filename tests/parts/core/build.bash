# How tests/core and tests/core_top build a bench by Verilator, and of what. What no bench changes,
# Verilator's own objects and the headers, is compiled once for a version of both compilers, and
# kept in build/verilated of this repository; and so is each bench that was built, by the digest of
# all that it is made of.
bench_flags="-O1 -I$top/include"

# Where that is kept.
common_folder() {
    { verilator --version && c++ --version && echo "$bench_flags"; } | sha256sum |
        sed -E "s|^(.{16}).*|$top/build/verilated/\1|"
}

# Makes that folder, if it isn't there: the folder of a bench, and what Verilator calls the circuit.
make_common() {
    local made
    [ ! -d "$common" ] || return 0
    mkdir -p "$top/build/verilated" && made=$(mktemp -d "$top/build/verilated/new.XXXXXX") || return
    printf '#include <%s>\n' verilated.h cinttypes cstdio cstdlib vector >"$made/common.h"
    make -s -C "$1" -f "$tests/parts/core/build.mk" MADE="$2" INTO="$made" common \
        VM_USER_CFLAGS="$bench_flags" || return
    mv -T "$made" "$common" 2>/dev/null || rm -rf "$made"
    [ -d "$common" ]
}

# Whether the object of a bench is that of another folder, as the headers of the circuit are: the
# folders, and what Verilator calls the circuit.
is_alike() {
    [ -n "$2" ] && [ "$1" != "$2" ] && cmp -s "$1/$3.h" "$2/$3.h" &&
        cmp -s "$1/$3___024root.h" "$2/$3___024root.h"
}

# Prints the digest of what a bench is made of: what build_simulation is given behind the folder,
# and the files that each bench may include.
digest_of_bench() {
    local word
    {
        echo "$common ${prefix-}"
        for word in "$@"; do
            if [ -f "$word" ]; then sha256sum <"$word"; else printf '%s\n' "$word"; fi
        done
        cat "$tests/parts/core/$1.cpp" "$tests"/parts/core/{*.h,build.*} "$tests"/parts/board/*.h \
            "$top"/include/*.h "$top/build/libdvg.a"
    } | sha256sum | cut -c 1-32
}

# Keeps a bench under its digest, and no more than some hundreds of them.
keep_bench() {
    local folder=${2%/*}
    mkdir -p "$folder" && cp "$1" "$2.$BASHPID" && mv "$2.$BASHPID" "$2" || return 0
    find "$folder" -type f -printf '%T@ %p\n' | sort -rn | tail -n +400 | cut -d ' ' -f 2- |
        tr '\n' '\0' | xargs -0r rm -f
}

# Builds a bench as FOLDER/bench: the folder, its name, the module that it plays, and what else
# Verilator is given. `prefix` is what Verilator calls the circuit, if it isn't V and the module's
# name; `like` is a folder in which the same bench was built of other Verilog, if there is one.
build_simulation() {
    local made=${prefix:-V$3} kept
    [ -n "${common-}" ] || common=$(common_folder)
    kept=$top/build/verilated/benches/$(digest_of_bench "${@:2}")
    if [ -x "$kept" ]; then
        mkdir -p "$1" && cp "$kept" "$1/bench" && touch "$kept"
        return
    fi
    verilator --cc --exe -O3 -Wno-fatal --Mdir "$1" -o bench --top-module "$3" --prefix "$made" \
        "${@:4}" "$tests/parts/core/$2.cpp" "$top/build/libdvg.a" \
        -CFLAGS "$bench_flags -include $common/common.h" || return
    make_common "$1" "$made" && cp "$common"/*.o "$1" || return
    ! is_alike "$1" "${like-}" "$made" || cp "$like/$2.o" "$1"
    make -s -C "$1" -f "$made.mk" OPT_FAST= OPT_SLOW= OPT_GLOBAL= && keep_bench "$1/bench" "$kept"
}

# The module that a bench plays: its name.
module_of() {
    case $1 in
    fetches | wraps) echo dvg_core ;;
    board | events) echo dvg_board ;;
    play) echo dvg_game ;;
    *) echo "dvg_$1" ;;
    esac
}

# The files that a module is made of, in the order of its digest: the module, and their folder.
files_of() {
    local names=${1#dvg_}
    case $names in
    wraps) names=core ;;
    board) names='core board' ;;
    vectors) names='core board pace motion vectors' ;;
    machine) names='cpu core board machine' ;;
    game) names='cpu core board pace motion vectors game' ;;
    esac
    printf "$2/dvg_%s.v\n" $names
}

# Prints the bytes in a file of crates/, between lines that a range of sed tells.
bytes_of() {
    sed -n "$2" "$top/crates/$1" | grep -oE '0x[0-9A-F]{2}'
}

# The driver's bytes, as numbers, which the bench of dvg_machine takes.
write_driver() {
    bytes_of dvg_game_words/specs/Code.antt '/^code =/,$p' >"$work/driver"
}

# Those of examples/asteroid_game, as its laws have them, for the bench of dvg_game: the vector ROM,
# and then 6,144 bytes: the driver, the game, FF, and six of vectors.
write_game() {
    local game=dvg_game_rules/specs/Asteroid.antt
    write_driver
    {
        bytes_of dvg_closed_board/specs/AsteroidContent.antt '/^shapes =/,/^$/p'
        { cat "$work/driver" && bytes_of $game '/^bytes =/,/^$/p' && yes 0xFF; } | head -n 6138
        bytes_of $game '/^vectors =/p'
    } >"$work/game_bytes"
}
