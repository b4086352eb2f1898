"""Writes random drafts, each with its words in half 0 by an encoder of this file's own, and the
ROM that they call:

    drafts.py SEED COUNT MAP DRAFTS ROM ROM_LINES

MAP is 2048 or 4096, the bytes of the ROM. Each shape of the ROM is a few strokes and a return. The
larger ROM has shapes from 400 on, too, whose calls are words C4xx to C7xx.
"""
import random
import sys

LENGTHS = [3, 5, 126, 127, 128, 129, 254, 255, 256, 257, 382, 383, 384]


def magnitude(value, bits):
    return abs(value) | (1 << bits if value < 0 else 0)


def vctr(scale, dx, dy, z):
    return [scale << 12 | magnitude(dy, 10), z << 12 | magnitude(dx, 10)]


def labs(x, y, scale):
    return [0xA000 | y, scale << 12 | x]


def svec(scale, dx, dy, z):
    low, high = (scale - 2) & 1, (scale - 2) >> 1
    return [0xF000 | low << 11 | magnitude(dy, 2) << 8 | z << 4 | high << 3 | magnitude(dx, 2)]


class Draft:
    """Operations as text and words. A word of a call or a jump within it is (opcode, target)."""

    def __init__(self):
        self.operations = []
        self.size = 0

    def add(self, text, words):
        self.operations.append((text, words))
        self.size += len(words)

    def pop(self):
        self.size -= len(self.operations.pop()[1])

    def lines(self):
        places, at = [], 1
        for _, words in self.operations:
            places.append(at)
            at += len(words)
        for text, words in self.operations:
            laid = [w if isinstance(w, int) else w[0] + places[w[1]] for w in words]
            yield ' '.join('%04X' % w for w in laid) + ' = ' + text


def add_vctr(chance, draft):
    scale, z = chance.randrange(10), chance.randrange(16)
    dx = chance.choice([0, 1, -1, 1023, -1023, chance.randint(-1023, 1023)])
    dy = chance.randint(-1023, 1023)
    draft.add('vctr %d %d %d %d' % (scale, dx, dy, z), vctr(scale, dx, dy, z))


def add_svec(chance, draft):
    scale, z = chance.randint(2, 5), chance.randrange(16)
    dx, dy = chance.randint(-3, 3), chance.randint(-3, 3)
    draft.add('svec %d %d %d %d' % (scale, dx, dy, z), svec(scale, dx, dy, z))


def add_labs(chance, draft):
    x, y, scale = chance.randrange(4096), chance.randrange(4096), chance.randrange(16)
    draft.add('labs %d %d %d' % (x, y, scale), labs(x, y, scale))


def add_shape(chance, draft, shapes):
    place = chance.choice(shapes)
    draft.add('callrom %03X' % place, [0xC000 | place])


def add_something(chance, draft, shapes, level):
    """At level 4 no more calls may be open, so none is added."""
    what = chance.randrange(10)
    if what < 4:
        add_vctr(chance, draft)
    elif what < 7:
        add_svec(chance, draft)
    elif what < 8 or level == 4:
        add_labs(chance, draft)
    else:
        add_shape(chance, draft, shapes)


def plain_draft(chance, shapes, full):
    """What a program could build: no call or jump within the frame."""
    draft = Draft()
    add_labs(chance, draft)
    wanted = 511 if full else chance.choice(LENGTHS + [chance.randint(3, 300)])
    while draft.size < wanted - 1:
        add_something(chance, draft, shapes, 0)
    if draft.size > wanted - 1:
        draft.pop()
    while draft.size < wanted - 1:
        add_svec(chance, draft)
    draft.add('halt', [0xB000])
    return draft


def branching_draft(chance, shapes, full):
    """Blocks of levels 0 to 4, which call later ones of a higher level, and jump forth."""
    draft = Draft()
    add_labs(chance, draft)
    levels = [0] + sorted(chance.randint(1, 4) for _ in range(chance.randint(1, 5)))
    sizes = [chance.randint(1, 60 if full else 40) for _ in levels]
    firsts = [1 + sum(size + 1 for size in sizes[:block]) for block in range(len(levels))]
    for block, level in enumerate(levels):
        last = firsts[block] + sizes[block]
        deeper = [c for c in range(block + 1, len(levels)) if levels[c] > level]
        for me in range(firsts[block], last):
            what = chance.random()
            if what < 0.25 and deeper:
                target = firsts[chance.choice(deeper)]
                draft.add('call %d' % target, [(0xC000, target)])
            elif what < 0.32:
                target = chance.randint(me + 1, last)
                draft.add('jump %d' % target, [(0xE000, target)])
            else:
                add_something(chance, draft, shapes, level)
        if level == 0:
            draft.add('halt', [0xB000])
        else:
            draft.add('return', [0xD000])
    return draft


def any_draft(chance, shapes, full):
    buildable = chance.random() < 0.4
    make = plain_draft if buildable else branching_draft
    draft = make(chance, shapes, full)
    while draft.size > 511:
        draft = make(chance, shapes, False)
    return draft, buildable


def make_rom(chance, first):
    """The words of the ROM from `first` to BFF, and where its shapes are."""
    words, shapes = [], []
    while len(words) < 0xC00 - first - 12:
        shapes.append(first + len(words))
        for _ in range(chance.randint(1, 4)):
            dx, dy, z = chance.randint(-99, 99), chance.randint(-99, 99), chance.randrange(16)
            words += vctr(chance.randrange(10), dx, dy, z)
        words.append(0xD000)
    words += [0xD000] * (0xC00 - first - len(words))
    return words, shapes


def write_rom(words, first, path, lines_path):
    with open(path, 'wb') as out:
        out.write(b''.join(w.to_bytes(2, 'little') for w in words))
    with open(lines_path, 'w') as out:
        if first == 0x400:
            out.write('map 4096\n')
        for i in range(0, len(words), 8):
            line = ' '.join('%04X' % w for w in words[i:i + 8])
            out.write('rom %03X %s\n' % (first + i, line))


def main():
    seed, count, size, drafts_path, rom_path, lines_path = sys.argv[1:]
    chance = random.Random(int(seed))
    first = 0x800 if size == '2048' else 0x400
    words, shapes = make_rom(chance, first)
    if first == 0x400:
        shapes = [place for place in shapes if place < 0x800 or chance.random() < 0.3]
    write_rom(words, first, rom_path, lines_path)
    with open(drafts_path, 'w') as out:
        for i in range(int(count)):
            draft, buildable = any_draft(chance, shapes, i % 12 == 0)
            out.write('draft %d %d\n' % (len(draft.operations), buildable))
            for line in draft.lines():
                out.write(line + '\n')


main()
