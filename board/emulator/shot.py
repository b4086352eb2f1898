"""Tells how well a snapshot of the arcade emulator shows what `dvg play` draws:

    shot.py SNAPSHOT STROKES...

STROKES are files of what `dvg play` writes. For each, a line: how many points of its strokes the
snapshot shows dark, how many points there are, and how many lit pixels are of no stroke.
The emulator shows 1044 by 788 units, from -10, 117 on.
"""
import signal
import sys
import zlib

LEFT, BOTTOM, WIDE, HIGH = -10.2, 117, 1044, 788
LIT = 40
REACH = 2               # pixels: the emulator rounds each move to a whole unit


def chunks(data):
    at = 8
    while at < len(data):
        size = int.from_bytes(data[at:at + 4], 'big')
        yield data[at + 4:at + 8], data[at + 8:at + 8 + size]
        at += size + 12


def nearest(left, above, corner):
    guess = left + above - corner
    by = [abs(guess - left), abs(guess - above), abs(guess - corner)]
    return (left, above, corner)[by.index(min(by))]


def unfiltered(kind, line, before):
    """A row of a PNG of three bytes a pixel, as bytes of colours."""
    if kind == 0:
        return line
    if kind == 2:
        return bytes(byte + above & 255 for byte, above in zip(line, before))
    for x in range(len(line)):
        left = line[x - 3] if x > 2 else 0
        corner = before[x - 3] if x > 2 else 0
        above = before[x]
        guess = (0, left, above, (left + above) // 2, nearest(left, above, corner))[kind]
        line[x] = line[x] + guess & 255
    return line


def lit_pixels(path):
    with open(path, 'rb') as file:
        parts = list(chunks(file.read()))
    head = next(body for name, body in parts if name == b'IHDR')
    width, height = int.from_bytes(head[:4], 'big'), int.from_bytes(head[4:8], 'big')
    raw = zlib.decompress(b''.join(body for name, body in parts if name == b'IDAT'))
    lit, size, before = set(), 3 * width + 1, bytes(3 * width)
    for y in range(height):
        row = raw[y * size:(y + 1) * size]
        before = unfiltered(row[0], bytearray(row[1:]), before)
        if any(before):
            lit |= {(x, y) for x in range(width) if max(before[3 * x:3 * x + 3]) > LIT}
    return lit, width, height


def way(begin, end):
    """The shorter way between two positions, which are modulo 4096."""
    begin = (begin + 1024) % 4096 - 1024
    return begin, begin + (end - begin + 2048) % 4096 - 2048


def is_inside(x, y):
    return 0 <= x < 1024 and 0 <= y < 1024


def points(path, width, height):
    """Pixels along the strokes of a picture, as numbers with fractions, and whether each must be
    lit: of a stroke with an end off the screen none must."""
    for line in open(path):
        part = line.split()
        if len(part) != 5 or not part[0].isdigit():
            continue
        x0, y0, x1, y1 = [int(number) / 512 for number in part[:4]]
        (x0, x1), (y0, y1) = way(x0, x1), way(y0, y1)
        must = is_inside(x0, y0) and is_inside(x1, y1)
        count = int(max(abs(x1 - x0), abs(y1 - y0))) + 1
        for k in range(count + 1):
            x, y = x0 + (x1 - x0) * k / count, y0 + (y1 - y0) * k / count
            x, y = (x - LEFT) * width / WIDE, height - (y - BOTTOM) * height / HIGH
            yield x, y, must and 2 < x < width - 3 and 2 < y < height - 3


def around(x, y, reach):
    steps = range(-reach, reach + 2)
    return {(int(x) + i, int(y) - j) for i in steps for j in steps}


def main():
    signal.signal(signal.SIGPIPE, signal.SIG_DFL)
    lit, width, height = lit_pixels(sys.argv[1])
    for path in sys.argv[2:]:
        all_points = list(points(path, width, height))
        seen = [(x, y) for x, y, must in all_points if must]
        dark = sum(not around(x, y, REACH) & lit for x, y in seen)
        near = set().union(*(around(x, y, REACH + 1) for x, y, _ in all_points))
        print('%s: %d of %d points dark, %d of %d pixels of no stroke'
              % (path, dark, len(seen), len(lit - near), len(lit)))


main()
