#!/usr/bin/env python3
"""Makes outlines of the lines and curves of an SVG, as outline.awk reads them:

    board/svg.py [--size N] [--name NAME] <SVG >SKETCH

Each element with an id is a shape of that name; one without has the id of the nearest group around
it, or `drawing`. With --name all is one shape. A pixel of the SVG is a unit of the screen, or with
--size the longer side of all that is drawn is N units. Y goes upwards, and a shape is called in its
middle, where its beam comes back. Curves are straight pieces, as few as keep within half a unit.
What fills, clips or is text isn't drawn. Status 1 where there is nothing to draw, or no SVG.

svgelements reads the SVG: board/install svgelements brings it.
"""
import argparse
import re
import signal
import sys
from xml.etree.ElementTree import ParseError

sys.path.append('/usr/lib/python3/dist-packages')   # Debian's, where python3 is another one
try:
    import svgelements
except ImportError:
    sys.exit('svg.py: svgelements is not here: board/install svgelements')

NEAR, MOST = 0.5, 64            # how far a piece may be from its curve, in units; pieces of a curve


def named(group, name):
    """Each figure that is drawn, with the name of its shape."""
    for element in group:
        own = re.sub(r'\W', '_', element.id) if getattr(element, 'id', None) else name
        if isinstance(element, svgelements.Group):
            yield from named(element, own)
        elif isinstance(element, svgelements.Shape):
            yield own, element


def distance(point, start, end):
    """How far a point is from the line from start to end."""
    length = abs(end - start)
    turned = (end - start).conjugate() * (point - start)
    along = min(max(turned.real / length, 0), length) if length else 0
    return abs(point - start - (along * (end - start) / length if length else 0))


def pieces(at, near):
    """The ends of the straight pieces of a curve, whose points are at(0) to at(1)."""
    for count in range(1, MOST + 1):
        ends = [at(k / count) for k in range(count + 1)]
        if all(distance(at((k + part / 4) / count), ends[k], ends[k + 1]) <= near
               for k in range(count) for part in (1, 2, 3)):
            break
    return ends[1:]


def lines_of(figure, near):
    """The lines of a figure, each a list of points."""
    shown = lambda point: complex(*figure.transform.point_in_matrix_space(point))
    lines = []
    for segment in figure.segments(transformed=False):
        if isinstance(segment, svgelements.Move):
            lines.append([])
        if isinstance(segment, svgelements.Curve):
            lines[-1] += pieces(lambda t, curve=segment: shown(curve.point(t)), near)
        elif segment.end is not None:
            lines[-1].append(shown(segment.end))
    return [line for line in lines if len(line) > 1]


def box_of(lines):
    """The corners of what lines take: the least and the largest x and y."""
    points = [point for line in lines for point in line]
    low = complex(min(p.real for p in points), min(p.imag for p in points))
    return low, complex(max(p.real for p in points), max(p.imag for p in points))


def written(point):
    """A point as an outline has it, in hundredths of a unit."""
    return ','.join(f'{round(number, 2) + 0:g}' for number in (point.real, point.imag))


def outline(lines, scale):
    """The points of a shape, from its middle and back there."""
    middle = sum(box_of(lines)) / 2
    words, beam = [], '0,0'
    for line in lines:
        points = [written(((point - middle) * scale).conjugate()) for point in line]
        words += ['@' + points[0]] if points[0] != beam else []
        words += [new for old, new in zip(points, points[1:]) if new != old]
        beam = points[-1]
    return words + (['@0,0'] if beam != '0,0' else [])


def main():
    signal.signal(signal.SIGPIPE, signal.SIG_DFL)
    options = argparse.ArgumentParser(usage=__doc__.split('\n\n')[1].strip())
    options.add_argument('--size', type=float)
    options.add_argument('--name')
    asked = options.parse_args()
    try:
        figures = list(named(svgelements.SVG.parse(sys.stdin.buffer, reify=False), 'drawing'))
    except ParseError as fault:
        sys.exit(f'svg.py: no SVG: {fault}')
    exact = [line for _, figure in figures for line in lines_of(figure, NEAR)]
    if not exact:
        sys.exit('svg.py: nothing is drawn by a path, a line, a rectangle, a circle or a polygon')
    low, high = box_of(exact)
    side = max(high.real - low.real, high.imag - low.imag)
    scale = asked.size / side if asked.size and side else 1
    shapes = {}
    for name, figure in figures:
        shapes.setdefault(asked.name or name, []).extend(lines_of(figure, NEAR / scale))
    print('.rom')
    for name, lines in shapes.items():
        if lines:
            print(f'{name}: {" ".join(outline(lines, scale))}')


main()
