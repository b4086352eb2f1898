"""Writes a state PROM for the generator of the arcade emulator: prom.py OUT

It is this project's own. It says in which order an instruction's steps come, which the model here
has by its meaning; nothing of Atari's PROM was at hand, and its waits aren't here.

The PROM has 256 nibbles, each the next state. Its address is bit 7: the generator runs; bits 6 to
4: the row of the opcode; bits 3 to 0: the state. States with bit 3 do something.
"""
import sys

PUSH, LOAD, DRAW, HALT, LOW_1, HIGH_1, LOW_2, HIGH_2 = range(8, 16)

# What comes after the first word, for opcodes 0 to 8, 9, A, B, C, D, E and F.
AFTER_FIRST = [HIGH_2, HIGH_2, HIGH_2, HALT, PUSH, LOAD, LOAD, DRAW]
LABS_ROW = 2


def row_of(row):
    states = [0] * 16
    states[:8] = [LOAD] * 8             # a start: the target was cleared, so it is word zero
    states[LOAD] = HIGH_1
    states[HIGH_1] = LOW_1
    states[LOW_1] = AFTER_FIRST[row]
    states[HIGH_2] = LOW_2
    states[LOW_2] = HALT if row == LABS_ROW else DRAW   # the step of HALT also sets the beam
    states[DRAW] = states[HALT] = HIGH_1
    states[PUSH] = LOAD
    return states


halted = [0] * 128
running = [state for row in range(8) for state in row_of(row)]
with open(sys.argv[1], 'wb') as out:
    out.write(bytes(halted + running))
