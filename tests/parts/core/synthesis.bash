# What core_top asks yosys: whether synthesis left a circuit as it is, whether each bit that crosses
# between clocks does so by two flip-flops, and whether dvg_board obeys laws of another wording.

# Copies the Verilog of core/ into a folder, where each memory of dvg_board and dvg_vectors is a
# part without an inside. So what is proved of them holds of any memory.
cut_memories() {
    local part='core_memory memory(.write(writes), .place(place), .d(d), .q(ram_q));'
    mkdir -p "$1" && cp "$core"/dvg_*.v "$1" &&
        sed -i -e '/^    reg \[7:0\] ram /d' -e '/^        else  *read <= ram/d' \
            -e 's/^        if (writes) ram\[place\] <= d;/        if (!writes) read <= ram_q;/' \
            -e "s/^endmodule/    wire [7:0] ram_q;\n    $part\n&/" "$1/dvg_board.v" &&
        cat >"$1/memory.v" <<'VERILOG'
(* blackbox *)
module core_memory(input write, input [10:0] place, input [7:0] d, output [7:0] q);
endmodule
VERILOG
}

# Whether yosys proves that synthesis leaves a module as it is, by induction over the clocks: the
# family, the module, the folder that cut_memories made, and perhaps another one whose Verilog is
# synthesized in its place.
try_synthesis() {
    local read prepared
    read="read_verilog $(files_of "$2" "$3" | tr '\n' ' ')"
    prepared="read_verilog -lib $3/memory.v; hierarchy -top $2; proc; flatten
        expose -evert $2/t:core_memory"
    printf '%s\n' "design -reset" "${read//"$3/"/"${4:-$3}/"}" "$prepared" "synth_$1 -top $2" \
        >"$work/synthesis.ys"
    yosys -q -p "$read; $prepared
        equiv_opt -assert -multiclock -map +/$1/cells_sim.v script $work/synthesis.ys"
}

# It isn't proved of a mistake: its name, the family, the module, its file, and the edit.
find_synthesis_mistake() {
    local folder=$work/synthesis_mistake
    rm -rf "$folder" && cp -r "$work/synthesis" "$folder" && sed -i "$5" "$folder/$4"
    expect "a mistake is planted: $1" \
        [ "$(cmp -s "$work/synthesis/$4" "$folder/$4"; echo $?)" = 1 ]
    try_synthesis "$2" "$3" "$work/synthesis" "$folder" >"$work/said" 2>&1
    expect "synthesis of a mistake is found: $1" grep -q 'unproven \$equiv cells' "$work/said"
}

run_synthesis() {
    local family module modules='dvg_pace dvg_motion dvg_tmds'
    [ "$share" -gt 1 ] || modules="$modules dvg_core dvg_cpu dvg_board"
    cut_memories "$work/synthesis"
    for family in ice40 ecp5; do
        for module in $modules; do
            expect "synthesis for $family leaves $module as it is" \
                try_synthesis $family $module "$work/synthesis" && echo "$module, $family: equal"
        done
    done
    plants || return 0
    find_synthesis_mistake 'a byte while a vector is drawn' ice40 dvg_pace dvg_pace.v \
        's/ready <= rests \&\& !going/ready <= rests/'
    find_synthesis_mistake 'the same on the other chip' ecp5 dvg_pace dvg_pace.v \
        's/ready <= rests \&\& !going/ready <= rests/'
    find_synthesis_mistake 'another sign' ecp5 dvg_motion dvg_motion.v \
        's/back_x <= dx_sign/back_x <= dy_sign/'
}

# Writes the gates of a top as JSON: the file, the top, its files, and macros. ROMs are 0.
write_gates() (
    mkdir -p "$work/zeros" && cd "$work/zeros" && echo 00 | tee program.hex >rom.hex
    yosys -q -p "read_verilog -lib +/ecp5/cells_bb.v; read_verilog ${4-} $3
        hierarchy -top $2; proc; flatten; opt_clean; memory -nordff -nomap; opt_clean
        simplemap; opt_expr; opt_clean; write_json $1"
)

# Whether the bits that cross in a top do so by two flip-flops: the folder of core/, and the top.
try_crossings() {
    local files=("$1"/top/{"$2",machine}.v "$1"/dvg_{raster,monitor,sound}.v) words macros=-DGAME
    # shellcheck disable=SC2207
    files+=($(files_of dvg_game "$1"))
    case $2 in
    ulx3s)
        files+=("$1"/top/hdmi.v "$1"/dvg_{dvi,tmds}.v) macros='-DGAME -DHDMI'
        words='clk_25mhz --skews hdmi.dvi.blues hdmi.dvi.greens hdmi.dvi.of_red.word'
        ;;
    icebreaker) words='clk --skews' ;;
    pocket) files+=("$1/top/console.v") words='clk clk_90 clk_audio --skews console.sample' ;;
    dvg_bus) files=("$1/dvg_bus.v") words='clk --skews a d rw q' ;;
    esac
    # shellcheck disable=SC2086
    write_gates "$work/gates.json" "$2" "${files[*]}" "$macros" &&
        "$tests/parts/core/crossings.py" "$work/gates.json" $words
}

# A mistake in a crossing is found: its name, the top, the file, and the edit.
find_crossing_mistake() {
    local folder=$work/crossing_mistake
    rm -rf "$folder" && mkdir "$folder" && cp -r "$core"/{dvg_*.v,top} "$folder" &&
        sed -i "$4" "$folder/$3"
    expect "a mistake is planted: $1" [ "$(cmp -s "$core/$3" "$folder/$3"; echo $?)" = 1 ]
    try_crossings "$folder" "$2" >"$work/said" 2>&1
    expect "it is found in the crossings: $1" grep -q 'otherwise$' "$work/said"
}

run_crossings() {
    local name
    for name in ulx3s icebreaker pocket dvg_bus; do
        expect "the crossings of $name" try_crossings "$core" $name &&
            echo "$name: $(cat "$work/log")"
    done
    plants || return 0
    find_crossing_mistake 'characters by the first flip-flop' ulx3s dvg_dvi.v \
        's/seen\[2\] != seen\[1\]/seen[1] != seen[0]/'
    find_crossing_mistake 'one flip-flop for a turn' ulx3s dvg_dvi.v \
        's/{seen\[1:0\], turns}/{seen[1], turns, turns}/'
    find_crossing_mistake 'one flip-flop for buttons' ulx3s top/ulx3s.v \
        's/right = pressed\[6\]/right = pressed_now[6]/'
    find_crossing_mistake 'a gate before two flip-flops' ulx3s top/ulx3s.v \
        's/{sw, btn}/{sw, btn[6:1], btn[0] \& btn[1]}/'
    find_crossing_mistake 'one flip-flop for LOCK' ulx3s top/machine.v \
        's/{button\[0\], !button_n}/{!button_n, !button_n}/'
    find_crossing_mistake 'phi2 by the first flip-flop' dvg_bus dvg_bus.v 's/phase\[1\]/phase[0]/'
    find_crossing_mistake 'one flip-flop for the inputs' icebreaker top/icebreaker.v \
        's/{closed, closed_now} <= {closed_now, /{closed, closed_now} <= {~pmod1b, /'
    find_crossing_mistake 'one flip-flop for a sample' pocket top/pocket.v \
        's/turned\[2\] != turned\[1\]/turned[1] != turned[0]/'
}

# Whether z3 finds that dvg_board obeys the laws of laws.v, in the first ten clocks and by induction
# over four: the module's file.
try_laws() {
    local made=$work/laws
    sed -e 's/^    input  wire  *reset,/    input wire [10:0] spot, output wire [7:0] held,\n&/' \
        -e 's/^endmodule/    assign held = ram[spot];\n&/' "$1" >"$made.v" &&
        yosys -q -p "read_verilog -formal $made.v $tests/parts/core/laws.v
            prep -top core_laws -flatten; memory_nordff; async2sync; dffunmap
            write_smt2 -wires $made.smt2" &&
        yosys-smtbmc -s z3 -t 10 "$made.smt2" && yosys-smtbmc -s z3 -i -t 4 "$made.smt2"
}

# A mistake in dvg_board.v is refuted: its name, and the edit.
refute() {
    sed "$2" "$core/dvg_board.v" >"$work/refuted.v"
    expect "a mistake is planted: $1" \
        [ "$(cmp -s "$core/dvg_board.v" "$work/refuted.v"; echo $?)" = 1 ]
    try_laws "$work/refuted.v" >"$work/said" 2>&1
    expect "the laws refute it: $1" grep -q 'Assert failed' "$work/said"
}

run_laws() {
    expect 'dvg_board obeys laws.v' try_laws "$core/dvg_board.v" && echo 'laws of dvg_board: passed'
    plants || return 0
    refute 'a strobe in a reset counts' 's/starting <= sends \&\& !reset/starting <= sends/'
    refute 'a strobe before a reset counts' 's/starts = starting \&\& !reset/starts = starting/'
    refute 'a byte is read while it is held' 's/ \&\& !hold / /'
    refute 'a byte is read beside an access' 's/ \&\& !on_ram;/;/'
    refute 'no byte is read beside any access' 's/pending <= asks/pending <= asks \&\& !access/'
    refute 'two bytes one after the other' 's/|| pending;/;/'
    refute 'a write is lost in a reset' 's/if (writes) ram/if (writes \&\& !reset) ram/'
    refute 'another half answers' "s/5'b01000/5'b01001/"
    refute 'the flag is turned around' 's/flag ? {ran/flag ? {!ran/'
    refute 'the flag is at 2003' "s/16'h2002/16'h2003/"
    refute 'the flag of this clock' "s/flag ? {ran/flag ? {!halted/"
}
