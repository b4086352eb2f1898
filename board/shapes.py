"""Draws each shape of a vector ROM in a grid, with its name, as SVG on standard output:

    shapes.py ROM EQUATES

ROM has its bytes, and EQUATES the names, as `dvg lay --equates` writes them. Each shape is drawn by
`dvg picture` from the middle of the screen on, and made to fit its field; a small cross is where
the beam is when it is called. A run of the program draws as many as a frame has room for. The
program is ./dvg of this repository, or the one that DVG names.
"""
import os
import re
import signal
import subprocess
import sys

HERE = os.path.dirname(os.path.realpath(__file__))
DVG = os.environ.get('DVG') or os.path.join(HERE, '..', 'dvg')
FIELD, ROOM, TEXT = 160, 130, 14
MIDDLE = 512
MOST = 300                  # shapes in a frame of 1,024 words, three of them for each

HEAD = """<svg xmlns="http://www.w3.org/2000/svg" width="{width}" height="{height}">
<rect width="{width}" height="{height}"/>
<g fill="none" stroke="#fff" stroke-width="1.5" stroke-linecap="round">"""


def strokes_of(rom, places):
    """The strokes of each shape, by the words where shapes stand, MOST of them or fewer: lines in
    units from where the shape is called, each with its intensity."""
    words = [0xE001]
    for place in places:
        words += [0xA000 | MIDDLE, MIDDLE, 0xC000 | place]
    memory = b''.join(word.to_bytes(2, 'little') for word in words + [0xB000]).ljust(2048, b'\0')
    said = subprocess.run([DVG, 'picture', '--all'], input=memory + rom, stdout=subprocess.PIPE,
                          stderr=subprocess.STDOUT).stdout.decode(errors='replace')
    found = [[] for _ in places]
    at = 0
    for line in said.split('\npicture')[0].splitlines():
        numbers = line.split()
        if re.match('[0-3][0-9A-F]{2} JSRL', line):
            at = int(numbers[0], 16) // 3 - 1
        elif re.fullmatch(r'\d+( \d+){4}', line):
            ends = [int(part) / 512 - MIDDLE for part in numbers[:4]]
            found[at].append((ends, int(numbers[4])))
    return found


def path_of(strokes, left, top):
    """Lines of SVG that show the strokes in the field whose corner is at left, top."""
    xs = [0] + [x for line, _ in strokes for x in line[::2]]
    ys = [0] + [y for line, _ in strokes for y in line[1::2]]
    size = max(max(xs) - min(xs), max(ys) - min(ys), 40)
    scale = ROOM / size
    middle_x = left + FIELD / 2 - scale * (max(xs) + min(xs)) / 2
    middle_y = top + (FIELD - TEXT) / 2 + scale * (max(ys) + min(ys)) / 2
    lines = ['<path d="M%.1f %.1fh6m-3 -3v6" stroke="#666"/>' % (middle_x - 3, middle_y)]
    for (x0, y0, x1, y1), intensity in strokes:
        lines.append('<path d="M%.1f %.1fL%.1f %.1f" opacity="%.2f"/>' % (
            middle_x + scale * x0, middle_y - scale * y0,
            middle_x + scale * x1, middle_y - scale * y1, 0.3 + 0.05 * (intensity - 1)))
    return lines


def main():
    signal.signal(signal.SIGPIPE, signal.SIG_DFL)
    with open(sys.argv[1], 'rb') as file:
        rom = file.read()
    with open(sys.argv[2]) as file:
        shapes = re.findall(r'^(\w+) = \$([0-9A-F]+)$', file.read(), re.MULTILINE)
    columns = max(1, min(len(shapes), 8))
    rows = (len(shapes) + columns - 1) // columns
    print(HEAD.format(width=columns * FIELD, height=max(1, rows) * FIELD))
    texts, strokes = [], []
    for first in range(0, len(shapes), MOST):
        strokes += strokes_of(rom, [int(place, 16) for _, place in shapes[first:first + MOST]])
    for number, (name, _) in enumerate(shapes):
        left, top = number % columns * FIELD, number // columns * FIELD
        print('\n'.join(path_of(strokes[number], left, top)))
        texts.append('<text x="%d" y="%d">%s</text>' % (left + FIELD / 2, top + FIELD - TEXT / 2,
                                                        name))
    print('</g>\n<g fill="#fff" font-size="%d" text-anchor="middle" font-family="monospace">'
          % TEXT)
    print('\n'.join(texts))
    print('</g>\n</svg>')


main()
