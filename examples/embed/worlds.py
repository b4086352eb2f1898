"""Draws, is refused, draws a dump and judges a log: ./lib && python3 examples/embed/worlds.py"""

import sys
from pathlib import Path

sys.path.insert(0, str(Path(__file__).resolve().parents[2] / "python"))
from gerbilargent import Draft, DraftRefused, World, judge, picture

with World() as world:
    for stroke in world.draw(Draft().labs(512, 400).vctr(9, -100, 100, 7).halt()):
        print(stroke.x1, stroke.y1, stroke.z)
    while world.tick().kind.text != "idle":
        pass
    try:
        world.offer(Draft().labs(0, 0).return_())
    except DraftRefused as refusal:
        print(refusal.fault.text, "at operation", refusal.operation)

words = [0xE001, 0xA190, 0x0200, 0x9064, 0x7464, 0xB000]
ram = b"".join(word.to_bytes(2, "little") for word in words).ljust(2048, b"\0")
print(picture(ram + bytes(2048)))
print(judge("started\nfetched 000 E201\nwrote 402 90\n"))
