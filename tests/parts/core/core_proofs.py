#!/usr/bin/env -S python3 -B
"""Has the prover refuse each mistake of mistakes.md.

    core_proofs.py FOLDER [NUMBER..]      a folder in which mistakes.py planted them, and has
                                          printed into FOLDER/mistakes; these alone

Of each mistake core/cells writes the cells anew, in a copy of the crate that is proved of the
changed file, and the prover must refuse a law of that crate, without its examples and the clocks of
Icarus Verilog; or of dvg_cells_wraps, which is proved of dvg_core.v, too. The Verilog as it is must
be proved there, of each crate that is asked. A mistake that does no harm may be refused, too, as a
proof may name a wire; one of dvg_bus.v isn't tried, as that isn't proved. The proofs of
dvg_cells_cpu that are tables are made anew, too. What the crates stand on must be proved: `./prove
dvg_cells_motion dvg_cells_wraps dvg_calls_cells`. The last line is 'N passed, M failed'."""

import re
import shutil
import subprocess
import sys
import time
from pathlib import Path

TOP = Path(__file__).resolve().parents[3]
sys.path[:0] = [str(TOP / "tests")]
import rooms  # noqa: E402
import texts  # noqa: E402

CELLS = {"dvg_cells_core": ["core"], "dvg_cells_wraps": ["wraps"], "dvg_cells_cpu": ["cpu"],
         "dvg_cells_board": ["board"], "dvg_cells_motion": ["motion", "pace", "vectors"],
         "dvg_calls_cells": ["machine"], "dvg_game_circuit": ["game"]}
LAWS = {"dvg_cells_core": ["core_refines", "pins_tell"],
        "dvg_cells_wraps": ["wraps_refine", "wraps_tell"],
        "dvg_cells_cpu": ["cpu_refines", "cpu_stays", "cpu_waits", "cpu_interrupts", "cpu_resets",
                          "cpu_fits"],
        "dvg_cells_board": ["board_keeps", "board_answers", "board_shows", "board_works"],
        "dvg_cells_motion": ["goes_by_pulses", "shows", "stays_dark", "moves_right", "follows",
                             "machine_follows", "halted_tells", "takes_time", "start_takes",
                             "old_vector_ends", "takes_picture", "reset_draws", "vectors_show"],
        "dvg_calls_cells": ["cells_step", "cells_keep", "goes_on", "reset_waits", "machine_shows"],
        "dvg_game_circuit": ["circuits_are_whole", "circuits_keep_by_bytes", "circuit_shows",
                             "board_goes_around", "circuit_is_dark"]}

# The verdicts that a mistake may get, if another one than that it is refused.
WANTED = {"none": ["refused", "proved"], "nobody": ["proved"]}

# The file that the cells of a module are read from, where its name is another one.
FILES = {"wraps": "core"}


def is_changed(planted, file):
    """Whether a planted copy isn't the file of core/."""
    with open(f"{planted}/{file}", "rb") as copy, open(f"{texts.TOP}/core/{file}", "rb") as here:
        return copy.read() != here.read()


def crates_of(planted):
    """The crates that are proved of the file that a planted copy changes."""
    return [crate for crate in CELLS
            if any(is_changed(planted, f"dvg_{FILES.get(it, it)}.v") for it in CELLS[crate])]


def make_room(room, crate):
    """A copy of a crate, with what is kept of its proof."""
    shutil.rmtree(room, ignore_errors=True)
    here = rooms.ROOT / "crates" / crate
    rooms.make_room(Path(room), here, here)


def make_tables(room, crate, planted):
    """Makes the proofs that are tables anew. Those that are here stay where that can't be done, as
    of a kind of cell that they have no line for."""
    made = subprocess.run([f"{texts.TOP}/crates/{crate}/tables", f"{room}/proofs", planted],
                          capture_output=True)
    if made.returncode:
        shutil.copytree(f"{texts.TOP}/crates/{crate}/proofs", f"{room}/proofs", dirs_exist_ok=True)


def refusal(room, crate, planted):
    """What refuses a crate that has the cells of this Verilog: laws and a proof, or None."""
    for module in CELLS[crate]:
        made = subprocess.run([f"{texts.TOP}/core/cells", f"dvg_{module}", planted],
                              capture_output=True, text=True)
        if made.returncode:
            return made.stderr.strip().rpartition("\n")[2]
        with open(f"{room}/specs/{module.capitalize()}.antt", "w", encoding="utf-8") as file:
            file.write(made.stdout)
    if crate == "dvg_cells_cpu":
        make_tables(room, crate, planted)
    said, _ = rooms.check(room, crate, LAWS[crate])
    if len(re.findall(r"(?m)^fn \w+::\w+: proved", said)) == len(LAWS[crate]):
        return None
    laws = re.findall(r"(?m)^fn \w+::(\w+): not proved", said)
    error = re.search(r"(?m)^\./(proofs/\S+?):\d+:\d+: error: `([^`]+)`", said)
    if laws and error:
        return f"{' '.join(laws)}, {error[1]}: {error[2]}"
    return f"NOTHING: {said[-300:]}"


def try_cells(suite, name, crates, planted, room, wanted):
    """Has crates checked with the cells of this Verilog, up to one that is refused. The verdict
    must be one that is wanted."""
    start, why = time.monotonic(), None
    for crate in crates:
        make_room(room, crate)
        why = refusal(room, crate, planted)
        if why:
            break
    print(f"{name}: {f'refused by {why}' if why else 'proved'}, {time.monotonic() - start:.0f} s",
          flush=True)
    found = "proved" if why is None else "not judged" if why.startswith("NOTHING") else "refused"
    suite.expect(name, [("verdict", found if found in wanted else wanted[0], found)])


def read_mistakes(folder, numbers):
    """Name, bench, folder and crates of these mistakes, or of all."""
    with open(f"{folder}/mistakes", encoding="utf-8") as lines:
        mistakes = [line.rstrip("\n").split(" ", 2) for line in lines]
    for number, bench, name in mistakes:
        if not numbers or number in numbers:
            planted = f"{folder}/planted/{number}"
            yield name, bench, planted, crates_of(planted)


def main(folder, *numbers):
    suite = texts.Suite()
    mistakes = [it for it in read_mistakes(folder, numbers) if it[3]]
    for crate in CELLS:
        if not numbers or any(crate in it[3] for it in mistakes):
            try_cells(suite, f"{crate} as it is", [crate], f"{texts.TOP}/core", f"{folder}/room",
                      ["proved"])
    for name, bench, planted, crates in mistakes:
        try_cells(suite, name, crates, planted, f"{folder}/room", WANTED.get(bench, ["refused"]))
    suite.end()


main(*sys.argv[1:])
