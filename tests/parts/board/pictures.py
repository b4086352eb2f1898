#!/usr/bin/env python3
"""Counts what `make judge` counts of pictures, by a reading of its own of the hardware's words.

    tests/parts/board/pictures.py PICTURES ROM

PICTURES has 2,048 bytes of vector RAM for each picture, ROM the bytes of the vector ROM. Prints how
many pictures there are, and how many of them have other strokes than all before. Tested beside
this, and so needed by it, is no program of dvg: docs/DESIGN.md, "Rules of the hardware"."""
import sys

RAM, ROM_FIRST, MOST, ROUND = 2048, 0x800, 65536, 4096 * 512


def signed(word, size, sign):
    """The number in the low bits of a word, whose sign is another bit."""
    number = word & ((1 << size) - 1)
    return -number if word >> sign & 1 else number


def strokes_of(memory, rom):
    """The strokes of the run that begins at word 0, until its HALT, in 1/512 of a unit."""
    def word(at):
        place, of = (2 * at, memory) if at < ROM_FIRST else (2 * (at - ROM_FIRST), rom)
        return of[place] | of[place + 1] << 8

    at, x, y, scale, calls, strokes = 0, 0, 0, 0, [], []

    def move(dx, dy, by, intensity):
        total = (scale + by) % 16
        if total > 9:
            dx = dy = 0
        to = (x + (dx << total)) % ROUND, (y + (dy << total)) % ROUND
        if intensity:
            strokes.append((x, y, *to, intensity))
        return to

    for _ in range(MOST):
        first, at = word(at), at + 1
        code, to = first >> 12, first & 0xFFF
        if code < 0xB:
            second, at = word(at), at + 1
        if code < 0xA:
            x, y = move(signed(second, 10, 10), signed(first, 10, 10), code, second >> 12)
        elif code == 0xA:
            x, y, scale = (second & 0xFFF) * 512, to * 512, second >> 12
        elif code == 0xB:
            return tuple(strokes)
        elif code == 0xC:
            calls.append(at)
            at = to
        elif code == 0xD:
            at = calls.pop()
        elif code == 0xE:
            at = to
        else:
            by = 2 + (first >> 11 & 1) + 2 * (first >> 3 & 1)
            x, y = move(signed(first & 7, 2, 2) * 256, signed(first >> 8 & 7, 2, 2) * 256, by,
                        first >> 4 & 15)
    raise ValueError('a run without an end')


def main(pictures, rom):
    with open(pictures, 'rb') as file:
        memories = file.read()
    with open(rom, 'rb') as file:
        words = file.read()
    each = [memories[begin:begin + RAM] for begin in range(0, len(memories), RAM)]
    print(len(each), len({strokes_of(memory, words) for memory in set(each)}))


if __name__ == '__main__':
    main(*sys.argv[1:])
