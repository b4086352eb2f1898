"""Compares what include/dvg.h says of each request with the Rust sources and with what the library
does.

    requests.py LIBRARY [HEADER [COUNT]]          include/dvg.h, 600,000 requests

Each request of the Rust sources is in the header, with its number, and beside it are what must be
open for it and the kinds of its answers. Random requests are asked of a device in which each thing
is open by turns: each answer must be one of these, `closed` where nothing is open, and `unknown`
where something else is. Each answer that the header names must come. The last line is
'N passed, M failed'.
"""

import collections
import ctypes
import random
import re
import sys
from pathlib import Path

TOP = Path(__file__).resolve().parents[3]
sys.path[:0] = [str(TOP / "tests")]
import counts  # noqa: E402
import port_numbers  # noqa: E402
from counts import expect  # noqa: E402

# A request in the header: its name, its number, and beside it what must be open, and the answers.
ROW = re.compile(r"DVG_REQUEST_(\w+) = (\d+),?\s*/\* ([\w, ]+): ([\w,\s]+?)(?:;[^*]*)? \*/")
OPENS = ("nothing", "world", "driver", "generator", "wrapping", "judge")
NUMBERS = ("a number", "a place")
PUSHING = "a request"


class Row(collections.namedtuple("Row", "name of answers")):
    """A request: its name, what it is asked of, and the kinds of its answers."""

    def wanted(self, what):
        """The kinds that may come while this is open."""
        if what in self.of:
            return self.answers
        return ("CLOSED" if what == "nothing" else "UNKNOWN", *set(self.answers) & {"UNKNOWN"})


def read_rows(header):
    """The requests of the header by their numbers, each with what is beside it."""
    rows = {}
    body = re.search(r"enum dvg_request {(.*?)}", header, re.S).group(1)
    for name, number, of, answers in ROW.findall(body):
        opens = OPENS if of == "any" else tuple(of.split(", "))
        rows[int(number)] = Row(name, opens, tuple(re.split(r",\s+", answers)))
    return rows


def read_enum(header, name):
    """The names of an enumeration of the header, by their numbers."""
    body = re.search(rf"enum {name} {{(.*?)}}", header, re.S).group(1)
    return {int(number): text for text, number in re.findall(r"DVG_(\w+) = (\d+)", body)}


class Device:
    """A device, asked at random. `open` is what is open in it."""

    def __init__(self, library, chance):
        self.library, self.chance, self.open = library, chance, "nothing"
        self.device = ctypes.c_void_p()
        library.dvg_new(ctypes.byref(self.device))

    def ask(self, request):
        return self.library.dvg_turn(self.device, request)

    def begin(self, what, large):
        """Shuts what is open, and opens this."""
        self.ask(15)
        ram, rom = 0x0A | 2048 << 24, 0x0A | (4096 if large else 2048) << 24 | 0xD0 << 16
        for request in {
            "nothing": (), "world": (ram, rom, 12, 11), "driver": (rom, 13, 11),
            "generator": (14,), "wrapping": (30,), "judge": (21,),
        }[what]:
            self.ask(request)
        self.open = what

    def push_some(self):
        """A draft that is often right."""
        self.ask(9)
        self.ask(0x0190020000000208 if self.chance.random() < 0.9 else 0x0008)
        for _ in range(self.chance.choice((1, 1, 1, 1, 515))):
            self.ask(0x0064FF9C07090008)
        self.ask(0x0808)

    def tell_itself(self):
        """Tells the state of the generator that is open, now and then with a changed bit."""
        part, number = self.ask(28), 0
        while part & 0xFF == 35:
            number += 1
            self.ask(part ^ (self.chance.random() < 0.3) << self.chance.randrange(8, 64))
            part = self.ask(28 | number << 8)

    def stage_itself(self):
        """Stages a RAM, pushes a frame and tells a state, mostly such as suit."""
        self.ask(11)
        self.ask(0x0A | (2048 if self.chance.random() < 0.9 else 7) << 24)
        self.push_some()
        self.tell_itself()

    def fields(self, code):
        """Random fields for a request."""
        chance = self.chance
        if code == 33:
            return chance.randrange(5) << 8
        if code == 38:
            kept = self.ask(32) if chance.random() < 0.5 else chance.getrandbits(64)
            return (kept if chance.random() < 0.5 else chance.getrandbits(20)) & ~0xFF
        if code in (10,):
            return chance.randrange(256) << 16 | chance.choice((0, 1, 2048, 4096, 65535)) << 24
        if code == 8:
            return chance.choice((0x0808, 0x0064FF9C07090008, chance.getrandbits(64))) & ~0xFF
        if code == 22:
            kind = chance.choice((6, 6, 6, 10, 12, 13, 13, 13, 14, chance.randrange(256)))
            return kind << 8 | chance.randrange(4) << 16 | chance.randrange(3) << 32
        if code in (4, 23, 24):
            byte = chance.choice((0x00, 0x90, 0xA1, 0xB0, 0xC0, 0xD0, 0xE0, chance.getrandbits(8)))
            return byte << 16 | (chance.random() < 0.02) << 8
        if code in (27, 28):
            return chance.randrange(8) << 8
        if code == 35:
            return chance.choice((0, 0x100, 0x200, 0x0400008000010200, chance.getrandbits(64)))
        return chance.getrandbits(56) << 8 if chance.random() < 0.5 else 0


def opens_something(code):
    return code in (12, 13, 14, 15, 21, 29, 30, 34)


def storm(library, rows, kinds, count):
    """Asks at random. Which kinds came, by the request's number, and those that no row has."""
    chance = random.Random(1979)
    device = Device(library, chance)
    came, wrong = collections.defaultdict(set), collections.Counter()
    codes = sorted(rows) + [1] * 2 + [2] * 8 + [4] * 12 + [3] * 4 + [22] * 8
    for asked in range(count):
        if asked % 200 == 0:
            device.begin(chance.choice(OPENS), chance.random() < 0.5)
        if chance.random() < 0.02:
            device.push_some()
        code = chance.choice(codes)
        if device.open == "judge" and chance.random() < 0.8:
            code = 22
        if code in (29, 34):
            device.tell_itself()
        if code == 38:
            device.stage_itself()
        if opens_something(code) and chance.random() < 0.8:
            continue
        row, before = rows[code], device.open
        number = device.ask(code | device.fields(code))
        if row.answers[0] in NUMBERS:
            continue
        is_pushing = code == 33 and number & 0xFF == 8
        kind = PUSHING if is_pushing else kinds.get(number & 0xFF, "none")
        came[code].add(kind)
        if kind not in row.wanted(before):
            wrong[f"{row.name} of {before}: {kind}"] += 1
        if opens_something(code) and kind in ("OPENED", "CLOSED"):
            device.begin(before, True)
    return came, wrong


def main(library, path, count):
    header = Path(path).read_text(encoding="utf-8")
    kinds = read_enum(header, "dvg_kind")
    rows = read_rows(header)
    named = {row.name: number for number, row in rows.items()}
    wanted = port_numbers.of_rust(port_numbers.read_files(TOP))["request"]
    expect(named == wanted, f"the requests: {set(named.items()) ^ set(wanted.items())}")
    known = {*kinds.values(), *NUMBERS, PUSHING}
    for row in rows.values():
        odd = [kind for kind in row.answers if kind not in known]
        expect(not odd and set(row.of) <= set(OPENS), f"{row.name}: {odd or row.of} is none")
    came, wrong = storm(library, rows, kinds, count)
    expect(not wrong, f"answers that no row names: {dict(wrong)}")
    for number, row in rows.items():
        missing = set(row.answers) - came[number] - {"NO_MEMORY"} - set(NUMBERS)
        expect(not missing, f"{row.name} was never answered {sorted(missing)}")
    counts.finish()


if __name__ == "__main__":
    shared = ctypes.CDLL(sys.argv[1])
    shared.dvg_turn.argtypes = [ctypes.c_void_p, ctypes.c_uint64]
    shared.dvg_turn.restype = ctypes.c_uint64
    main(shared, sys.argv[2] if len(sys.argv) > 2 else TOP / "include/dvg.h",
         int(sys.argv[3]) if len(sys.argv) > 3 else 600000)
