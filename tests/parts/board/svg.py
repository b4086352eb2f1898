"""Compares what board/svg.py makes of drawings with points that are worked out here: svg.py
SVG_PY. Prints what differs, and at the end how many points were compared; status 1 where one
differs."""
import math
import subprocess
import sys

SVG_PY = sys.argv[1]
HEAD = '<svg xmlns="http://www.w3.org/2000/svg" width="{0}" height="{0}" viewBox="0 0 100 100">'
# By hand, in pixels: a turn by 90 degrees takes (x, y) to (-y, x), and then 10, 20 are added, so
# the corners 0 0, 10 0 and 10 5 come to 10 20, 10 30 and 5 30, whose middle is 7.5 25.
FIGURES = '''<title>none</title><text x="3">none</text>
<defs><rect id="leaf" width="4" height="2"/><path id="unused" d="M0 0L5 5"/></defs>
<g id="body" transform="translate(10,20) rotate(90)"><path d="M0 0h10v5z"/></g>
<g id="pair"><line x1="0" y1="0" x2="6" y2="0"/><polyline points="6,2 0,2"/></g>
<polygon id="tri-1" points="0,0 10,0 5,6"/>
<use href="#leaf" x="30" y="40"/>
<path d="m 50 50 l 4 0 0 -4 z m 0 0 l -2 0"/>
'''
OUTLINES = {
    'body': '@2.5,5 2.5,-5 -2.5,-5 2.5,5 @0,0',
    'pair': '@-3,1 3,1 @3,-1 -3,-1 @0,0',
    'tri_1': '@-5,3 5,3 0,-3 -5,3 @0,0',
    'leaf': '@-2,1 2,1 2,-1 -2,-1 -2,1 @0,0',
    'drawing': '@-1,-2 3,-2 3,2 -1,-2 -3,-2 @0,0',
}
CUBIC = (0, 0), (0, 40), (80, 40), (80, 0)
NEAR = 0.5
compared = wrong = 0


def compare(what, found, wanted):
    global compared, wrong
    compared += 1
    if found != wanted:
        wrong += 1
        print(f'{what}: {found}, and not {wanted}')


def made(body, *options, size=100):
    """The outlines of a drawing, by their names."""
    text = HEAD.format(size) + body + '</svg>'
    done = subprocess.run([sys.executable, '-B', SVG_PY, *options], input=text, text=True,
                          capture_output=True, check=False)
    lines = done.stdout.splitlines()
    compare('the first line', lines[:1], ['.rom'])
    return dict(line.split(': ') for line in lines[1:])


def points(outline):
    return [tuple(map(float, word.strip('@').split(','))) for word in outline.split()]


def compare_circle(outline, radius):
    """All points are on the circle, evenly, as few as keep within half a unit of it."""
    ends = points(outline)[:-1]
    count = len(ends) - 1
    away = max(abs(math.hypot(*end) - radius) for end in ends)
    compare(f'a circle of {radius}: how far its points are away', away < 0.01, True)
    quarter = next(n for n in range(1, 99) if radius * (1 - math.cos(math.pi / 4 / n)) <= NEAR)
    compare(f'a circle of {radius}: how many pieces', count, 4 * quarter)


def compare_ellipse(outline, wide, high):
    """A circle that was turned and then stretched is an ellipse."""
    away = max(abs(math.hypot(x / wide, y / high) - 1) for x, y in points(outline)[:-1])
    compare('an ellipse: how far its points are away', away < 0.001, True)


def compare_cubic(outline):
    """The points are those of the polynomials, from the middle of all of them."""
    ends = points(outline)[:-1]
    count = len(ends) - 1
    weights = lambda t: ((1 - t) ** 3, 3 * t * (1 - t) ** 2, 3 * t * t * (1 - t), t ** 3)
    curve = [tuple(sum(w * p[axis] for w, p in zip(weights(k / count), CUBIC)) for axis in (0, 1))
             for k in range(count + 1)]
    middle = [(max(c[axis] for c in curve) + min(c[axis] for c in curve)) / 2 for axis in (0, 1)]
    for (x, y), (found_x, found_y) in zip(curve, ends):
        compare('a point of a cubic curve', max(abs(x - middle[0] - found_x),
                                                abs(middle[1] - y - found_y)) < 0.006, True)
    compare('pieces of a cubic curve', 6 <= count <= 16, True)


def refused(text):
    done = subprocess.run([sys.executable, '-B', SVG_PY], input=text, text=True,
                          capture_output=True, check=False)
    return done.returncode, done.stdout, done.stderr.startswith('svg.py: ')


def main():
    compare('figures', made(FIGURES), OUTLINES)
    compare_circle(made('<circle id="o" cx="50" cy="50" r="20"/>')['o'], 20)
    compare_circle(made('<circle id="o" cx="50" cy="50" r="20"/>', size=200)['o'], 40)
    compare_circle(made('<path id="o" d="M90 50a40 40 0 0 1 -80 0a40 40 0 0 1 80 0"/>')['o'], 40)
    compare_circle(made('<circle id="o" cx="50" cy="50" r="20"/>', '--size', '12')['o'], 6)
    compare_ellipse(made('<g id="e" transform="scale(2,1) rotate(30)"><circle r="10"/></g>')['e'],
                    20, 10)
    compare_cubic(made('<path id="c" d="M0 0C0 40 80 40 80 0"/>')['c'])
    both = made('<rect id="a" width="10" height="4"/><rect id="b" x="16" width="4" height="4"/>',
                '--name', 'all', '--size', '40')
    compare('all in one shape', both, {'all': '@-20,4 0,4 0,-4 -20,-4 -20,4 @12,4 20,4 20,-4 12,-4 '
                                              '12,4 @0,0'})
    for text in ('<svg', '', HEAD.format(9) + '<text>no</text></svg>'):
        compare(f'what is refused: {text}', refused(text), (1, '', True))
    print(f'{compared} numbers and outlines compared, {wrong} wrong')
    sys.exit(wrong > 0)


main()
