#!/usr/bin/env python3
"""Writes steps of the 6502 of cpu.h as three files of proofs, which the prover computes by
the definition.

    definition vectors COUNT | vectors.py FOLDER

MoveVectors.antt has the steps of loads, stores and transfers, FlowVectors.antt those that lead
elsewhere, use the stack or set a flag, and ComputeVectors.antt those of all other opcodes.
tests/board makes the three anew, and compares them with those of crates/dvg_calls_6502/proofs.
"""
import os
import sys

# The opcodes of loads, stores and transfers.
MOVES = """a9 a5 b5 ad bd b9 a1 b1 a2 a6 b6 ae be a0 a4 b4 ac bc 85 95 8d 9d 99 81 91 86 96 8e 84 94
    8c aa a8 8a 98 ba 9a""".split()

# The opcodes that lead elsewhere, use the stack or set a flag.
FLOW = """10 30 50 70 90 b0 d0 f0 4c 6c 20 60 40 48 08 68 28 18 38 58 78 b8 d8 f8 ea""".split()

# Of each file, what its steps do.
FILES = {
    "MoveVectors": "that move a byte: loads, stores and transfers",
    "FlowVectors": "that lead elsewhere, use the stack or set a flag: branches, jumps, pushes, "
                   "pulls",
    "ComputeVectors": "that compute a byte and flags: logic, sums, comparisons, counts, shifts",
}

HEAD = """-- Steps {does}.
-- tests/parts/board/vectors.py writes this file; Vectors.antt says what the numbers of a step are.
use Rattle.std.proofs.Common.{{◌≡◌, [], ◌∷◌, refl}}
use Rattle.dvg_calls_6502.proofs.Vectors.{{wrong_from, gives}}
"""

# How long a line of steps may be.
COLUMNS = 120

# How many steps are proved at once: of some more the prover would not say which one is wrong.
AT_ONCE = 50


def state(row):
    """A, X, Y and S, two digits each, PC, four, and N, Z, C, V, D and I, a bit each in two."""
    *registers, pc = map(int, row[:5])
    return f"0x{bytes(registers).hex().upper()}{pc:04X}{int(''.join(row[5:]), 2):02X}"


def step(row):
    """A step: the number of its memory and its three bytes, two digits each, the state before and
    after, and the bytes that it writes."""
    written = dict.fromkeys([(row[26], row[27]), (row[28], row[29])])
    writes = "".join(f"({place}, {byte}) ∷ " for place, byte in written if place != "65536")
    what = f"0x{bytes(map(int, row[:4])).hex().upper()}"
    return (f"gives {what} {state(row[4:15])} {state(row[15:26])}"
            f" {f'({writes}[])' if writes else '[]'} ∷")


def proof(part, first, rows):
    """Steps, the first of which has this number, and that they all pass."""
    lines = [""]
    for text in map(step, rows):
        if lines[-1] and len(f"{lines[-1]} {text}") > COLUMNS:
            lines.append("")
        lines[-1] += f" {text}" if lines[-1] else f"    {text}"
    steps = "\n".join(lines)
    return f"\npub pass_{part} : wrong_from {first} (\n{steps}\n    []) ≡ []\npass_{part} = refl\n"


def file_of(row):
    """Returns the name of the file that a step stands in, by its opcode."""
    opcode = f"{int(row[1]):02x}"
    if opcode in MOVES:
        return "MoveVectors"
    return "FlowVectors" if opcode in FLOW else "ComputeVectors"


def write(lines, folder):
    """Writes each file, with the opcodes in the order in which the steps come."""
    steps = [text.split() for text in lines]
    for name, does in FILES.items():
        rows = [row for row in steps if file_of(row) == name]
        text = HEAD.format(does=does)
        for part in range((len(rows) + AT_ONCE - 1) // AT_ONCE):
            first = part * AT_ONCE
            text += proof(part + 1, first + 1, rows[first:first + AT_ONCE])
        with open(os.path.join(folder, name + ".antt"), "w", encoding="utf-8") as file:
            file.write(text)


if __name__ == "__main__":
    write(sys.stdin, sys.argv[1])
