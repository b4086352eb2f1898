#!/usr/bin/env -S python3 -B
"""Compares the time that `dvg render --check` tells of a frame with the ticks of dvg_vectors.

    times.py TICKS LINE <ALL

TICKS is how many the circuit took for the frame, LINE what `render --check` tells of it, and ALL
what `dvg picture --all` prints of the same memory. A tick has 8 / 12.096 microseconds. Both count
the same ticks of the vectors themselves. Beside them the circuit has a tick for the start, and of
each instruction those of OWN; `render` has 4 microseconds of each instead. Prints both times, or
the difference (status 1)."""

import re
import sys
from collections import Counter
from fractions import Fraction

TICK = Fraction(8000, 12096)
OWN = {"VCTR": 5, "LABS": 5, "JSRL": 4, "SVEC": 3, "RTSL": 3, "JMPL": 3, "HALT": 3}


def main(ticks, line):
    told = re.search(r"(\d+) vectors, (\d+) other instructions, (\d+) microseconds", line)
    vectors, others, microseconds = map(int, told.groups())
    ran = Counter(re.findall(r"(?m)^[0-9A-F]{3} ([A-Z]+)", sys.stdin.read()))
    if (ran["VCTR"] + ran["SVEC"], sum(ran.values())) != (vectors, vectors + others):
        sys.exit(f"{vectors} vectors and {others} others are told, these were run: {ran}")
    own = 1 + sum(OWN[name] * count for name, count in ran.items())
    wanted = (int(ticks) - own) * TICK + 4 * (vectors + others)
    if abs(wanted - microseconds) > Fraction(1, 2):
        sys.exit(f"{microseconds} microseconds are told, and {float(wanted):.1f} are wanted")
    print(f"{float(int(ticks) * TICK):.1f} microseconds in {ticks} ticks, {microseconds} are told")


main(*sys.argv[1:])
