"""Draws the first picture as `dvg play` does: ./lib && python3 examples/embed/first.py"""

import sys
from pathlib import Path

sys.path.insert(0, str(Path(__file__).resolve().parents[2] / "python"))
from gerbilargent import Draft, World

with World() as world:
    strokes = world.draw(Draft().labs(512, 400).vctr(9, -100, 100, 7).halt())
    print("picture", world.events - 1, len(strokes))
    print(*strokes, sep="\n")
