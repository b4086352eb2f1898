#!/usr/bin/env -S python3 -B
"""Compares a picture of core/top/screen.cpp with the strokes that the port draws.

    screen.py PICTURE <STROKES

STROKES is what `dvg picture --units` prints. Where a stroke lies in what is shown, there is a pixel
with light no farther than one and a half from each of its points, in each direction; and each pixel
with light is no farther than two from a stroke. Prints how many pixels have light, or the first
difference (status 1)."""

import sys

WIDTH, HEIGHT, LEFT, ABOVE = 640, 480, 64, 48
SHOWN = range(2, 510), range(2, 382)       # pixels that aren't at the edge of what is shown


def read_picture(name):
    """The rows of a grey PGM."""
    with open(name, "rb") as file:
        head = file.readline(), file.readline(), file.readline()
        assert head == (b"P5\n", b"640 480\n", b"255\n"), head
        pixels = file.read()
    assert len(pixels) == WIDTH * HEIGHT
    return [pixels[row * WIDTH:(row + 1) * WIDTH] for row in range(HEIGHT)]


def points_of(line):
    """Points of a stroke, a quarter of a pixel apart or nearer, in pixels of what is shown."""
    x0, y0, x1, y1, _ = map(int, line.split())
    parts = max(abs(x1 - x0), abs(y1 - y0)) * 2 or 1
    for part in range(parts + 1):
        x = x0 + (x1 - x0) * part / parts
        y = y0 + (y1 - y0) * part / parts
        yield x / 2, (895 - y) / 2


def around(column, row, far):
    """The pixels whose middles are at most so far from a point, in each direction."""
    for x in range(int(column - far), int(column + far) + 2):
        for y in range(int(row - far), int(row + far) + 2):
            if abs(x + .5 - column) <= far and abs(y + .5 - row) <= far:
                yield x, y


def main(name):
    picture = read_picture(name)
    lit = {(column - LEFT, row - ABOVE) for row in range(HEIGHT) for column in range(WIDTH)
           if picture[row][column]}
    near = set()
    for line in sys.stdin.read().splitlines()[1:]:
        for column, row in points_of(line):
            near.update(around(column, row, 2))
            shown = int(column) in SHOWN[0] and int(row) in SHOWN[1]
            if shown and lit.isdisjoint(around(column, row, 1.5)):
                sys.exit(f"no light at pixel {column} {row} of the stroke {line}")
    if lit - near:
        sys.exit(f"light far from strokes: {sorted(lit - near)[:5]}")
    print(f"{len(lit)} pixels with light")


main(*sys.argv[1:])
