#!/usr/bin/env -S python3 -B
"""Compares what the VGA example shows with what the arcade emulator shows of the same vector RAM.

    shown.py SNAPSHOT PICTURE [OTHER..]
    shown.py --planted SNAPSHOT PICTURE
    shown.py --without NUMBER <RAM >RAM

SNAPSHOT is a grey PGM of the emulator (shot.lua), PICTURE one of core/top/screen.cpp. Both are
compared in units of the generator: a pixel of PICTURE is two of them wide and high, one of SNAPSHOT
some 1.3. Each pixel with light in one of them has one in the other no farther than FARTHEST in each
direction, and the shares of NEAR have one no farther than two units. Left out is what lies within
MARGIN of the edge of what both show. Prints how many there are, and these shares, or what differs
(status 1).

The light of a picture lasts for some frames, in which a game's shapes move. So light of PICTURE may
also lie where an OTHER snapshot has it, which is of some frames before or after.

--planted makes mistakes in PICTURE, each of which must be found by that comparison.
--without takes a call of a shape out of the frame that word zero jumps to: that of this number."""

import sys

LEFT, BOTTOM, WIDE, HIGH = -10.2, 117, 1044, 788    # what a snapshot shows, as shot.py has it
COLUMN, ROW, COLUMNS, ROWS = 64, 48, 512, 384       # where a picture has the units from 0, 128 on
LIT = {"snapshot": 40, "picture": 32}               # lines have soft edges, and what moves a trail
FAINT = 24      # is light of PICTURE where SNAPSHOT has some: of 53 at a rock's corner 26 were left
FARTHEST, MARGIN = 4, 6
NEAR = {"snapshot": 0.7, "picture": 0.93}


def read_picture(name):
    """A grey PGM: its rows."""
    with open(name, "rb") as file:
        assert file.readline() == b"P5\n"
        width, height = map(int, file.readline().split())
        assert file.readline() == b"255\n"
        pixels = file.read()
    assert len(pixels) == width * height
    return [pixels[row * width:(row + 1) * width] for row in range(height)]


def lit_of_snapshot(rows):
    """The middles of its pixels with light, in units."""
    wide, high = WIDE / len(rows[0]), HIGH / len(rows)
    return [(LEFT + (x + .5) * wide, BOTTOM + (len(rows) - y - .5) * high)
            for y, row in enumerate(rows) for x, light in enumerate(row) if light > LIT["snapshot"]]


def lit_of_picture(rows, above=LIT["picture"]):
    return [(2 * (x - COLUMN) + 1, 895 - 2 * (y - ROW))
            for y, row in enumerate(rows) for x, light in enumerate(row) if light > above]


def distances(points, others):
    """How far each point that counts is from the nearest of the others: at most 8."""
    places = {}
    for x, y in others:
        places.setdefault((x // 8, y // 8), []).append((x, y))
    for x, y in points:
        if MARGIN < x < 1024 - MARGIN and 128 + MARGIN < y < 896 - MARGIN:
            around = [other for i in (-1, 0, 1) for j in (-1, 0, 1)
                      for other in places.get((x // 8 + i, y // 8 + j), ())]
            yield min((max(abs(x - u), abs(y - v)) for u, v in around), default=8)


def compare(snapshot, picture, others=()):
    """What is said of both, and whether they agree."""
    lit = {"snapshot": lit_of_snapshot(snapshot), "picture": lit_of_picture(picture)}
    near_light = {"snapshot": lit_of_picture(picture, FAINT),
                  "picture": sum(map(lit_of_snapshot, others), lit["snapshot"])}
    said, agrees = [], True
    for name, other in (("snapshot", "picture"), ("picture", "snapshot")):
        found = list(distances(lit[name], near_light[name]))
        within = sum(far <= FARTHEST for far in found)
        near = sum(far <= 2 for far in found)
        said.append(f"of {len(found)} lit pixels of the {name} {within} have light within "
                    f"{FARTHEST} units in the {other}, {near} within 2")
        agrees = agrees and 0 < len(found) == within and near >= NEAR[name] * len(found)
    return "; ".join(said), agrees


def shown(pixels):
    """A picture with these pixels: a function of column and row."""
    picture = [bytearray(640) for _ in range(480)]
    for y in range(ROWS):
        for x in range(COLUMNS):
            picture[ROW + y][COLUMN + x] = pixels(x, y)
    return picture


def plant(picture):
    """Pictures with a mistake, and what it is."""
    def at(x, y):
        inside = 0 <= x < COLUMNS and 0 <= y < ROWS
        return picture[ROW + y][COLUMN + x] if inside else 0
    yield "mirrored", shown(lambda x, y: at(COLUMNS - 1 - x, y))
    yield "upside down", shown(lambda x, y: at(x, ROWS - 1 - y))
    yield "x and y exchanged", shown(lambda x, y: at(y + 64, x - 64))
    yield "a pixel to the right", shown(lambda x, y: at(x - 1, y))
    yield "a pixel up", shown(lambda x, y: at(x, y + 1))
    yield "half as large", shown(lambda x, y: at(2 * x - 256, 2 * y - 192))
    yield "a twentieth larger", shown(lambda x, y: at(256 + (x - 256) * 20 // 21,
                                                      192 + (y - 192) * 20 // 21))
    yield "dark", shown(lambda x, y: 0)
    lit = [(x, y) for y in range(9, ROWS - 9) for x in range(9, COLUMNS - 9) if at(x, y)]
    for number in (0, len(lit) // 2, -1):
        left, above = lit[number]
        yield (f"dark around {left}, {above}",
               shown(lambda x, y: 0 if abs(x - left) < 9 and abs(y - above) < 9 else at(x, y)))
    left, above = next((x, y) for y in range(9, ROWS) for x in range(9, COLUMNS)
                       if not any(at(x + i, y + j) for i in range(-5, 6) for j in range(-5, 6)))
    yield (f"light at {left}, {above}",
           shown(lambda x, y: 255 if (x, y) == (left, above) else at(x, y)))


def without(ram, number):
    """The RAM with a short vector of no length in place of a call."""
    first = 2 * ((ram[0] | ram[1] << 8) & 0xFFF)
    calls = []
    at = first
    while ram[at + 1] >> 4 != 0xB:
        if ram[at + 1] >> 4 == 0xC:
            calls.append(at)
        at += 2 if ram[at + 1] >> 4 > 0xA else 4
    at = calls[number]
    return ram[:at] + b"\x00\xF0" + ram[at + 2:]


def main(words):
    if words[0] == "--without":
        sys.stdout.buffer.write(without(sys.stdin.buffer.read(), int(words[1])))
        return
    is_planted = words[0] == "--planted"
    snapshot, picture, *others = map(read_picture, words[is_planted:])
    if is_planted:
        mistakes = [(name, *compare(snapshot, planted)) for name, planted in plant(picture)]
        missed = [name for name, _, agrees in mistakes if agrees]
        for name, said, agrees in mistakes:
            print(f"{name}: {said}")
        if missed:
            sys.exit(f"not found: {', '.join(missed)}")
        print(f"{len(mistakes)} planted mistakes found")
        return
    said, agrees = compare(snapshot, picture, others)
    if not agrees:
        sys.exit(said)
    print(said)


main(sys.argv[1:])
