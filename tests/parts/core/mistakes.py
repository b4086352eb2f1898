#!/usr/bin/env -S python3 -B
"""Plants each mistake of mistakes.md in a copy of the Verilog of core/ of its own.

    mistakes.py FOLDER

Writes the Verilog of each into FOLDER/NUMBER, and prints a line for each mistake: its number, what
must find it (fetches, wraps, board, events, motion, vectors, cpu, machine, play, bus, or else law,
prover, none, nobody), and its name. Ends with status 1 where a text isn't in the file exactly
once."""

import os
import re
import sys
from pathlib import Path

TOP = Path(__file__).resolve().parents[3]
CORE = TOP / "core"
FILES = [f"dvg_{name}.v" for name in ("core", "cpu", "board", "bus", "motion", "pace", "vectors",
                                      "machine", "game")]


def read_edits(lines):
    """The edits of a mistake: what is taken away, a line, and the lines in its place."""
    edits = []
    for line in lines:
        if line.startswith("- "):
            edits.append((line[2:], []))
        else:
            edits[-1][1].append(line[2:])
    return [(taken, "\n".join(put)) for taken, put in edits]


def read_mistakes():
    """Name, file, edits and bench of each mistake, as the text has them: file and bench are those
    of the heading above it, but for a bench that is named below the mistake."""
    with open(f"{TOP}/tests/parts/core/mistakes.md", encoding="utf-8") as text:
        sections = re.split(r"(?m)^## In ", text.read())[1:]
    for section in sections:
        heading, *mistakes = re.split(r"(?m)^### ", section)
        file = heading.split("\n")[0].partition(", found by ")[0]
        for mistake in mistakes:
            lines = [line[4:] for line in mistake.split("\n") if line.startswith("    ")]
            bench = re.search(r"(?i)found by `?(\w+)", mistake + heading)[1]
            yield mistake.partition("\n")[0], file, read_edits(lines), bench


def plant(name, text, edits):
    """The text with all edits of a mistake done."""
    for taken, put in edits:
        if text.count(taken) != 1:
            sys.exit(f"{name}: there {text.count(taken)} times: {taken}")
        text = text.replace(taken, put)
    return text


def write_copy(folder, name, changed, edits):
    os.makedirs(folder)
    for file in FILES:
        with open(f"{CORE}/{file}", encoding="utf-8") as source:
            text = source.read()
        with open(f"{folder}/{file}", "w", encoding="utf-8") as copy:
            copy.write(plant(name, text, edits) if file == changed else text)


for number, (name, changed, edits, bench) in enumerate(read_mistakes(), 1):
    write_copy(f"{sys.argv[1]}/{number}", name, changed, edits)
    print(number, bench, name)
