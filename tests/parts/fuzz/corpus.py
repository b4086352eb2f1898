"""Makes the inputs with which tests/fuzz begins, of what tests/cases ask the program.

    corpus.py ASKED CORPUS

ASKED is what `tests/unfold --asked` wrote. CORPUS gets a folder for each target: `texts` has the
words and the inputs as they are, `requests` what the module for Python asks of a device while it
plays a trace or draws a dump, `worlds` and `generators` what is saved amid these, in both versions,
and of it what stands behind the RAM or the head. These three also have states with a number at its
limit, and one past it (limits.py). `words` is a dictionary of what stands in the inputs. The shared
library is the one that DVG_LIBRARY names.
"""

import hashlib
import itertools
import re
import sys
from pathlib import Path

TOP = Path(__file__).resolve().parents[3]
sys.path[:0] = [str(TOP / "python"), str(TOP / "tests/parts/embed")]
import embed_states as states  # noqa: E402
import gerbilargent as g  # noqa: E402
import limits  # noqa: E402

# The most bytes of an input, the most events of a trace that is played, and the most bytes that a
# generator fetches.
MOST_BYTES, MOST_EVENTS, MOST_FETCHES = 8192, 20000, 150
# A ROM of returns whose bytes are all the same: they are few numbers where they are staged.
RETURNS = b"\xd0" * len(g.RETURNS)
# What says that the number before is asked again, and how often at most: tests/parts/embed/storm.c.
AGAIN, MOST_AGAIN = 0xFF, 255
EVENTS = {
    "tick": g.Event.TICK, "strobe": g.Event.STROBE, "fetch": g.Event.FETCH,
    "redraw": g.Event.REDRAW, "resetgen": g.Event.RESET_GENERATOR,
    "resetcpu": g.Event.RESET_PROCESSOR,
}
HEXADECIMAL = {"callrom": "call_rom", "jumprom": "jump_rom"}


# Requests that the module makes by calls of dvg.h: what these ask stands there.
STAGE, UNSTAGE, OPEN_WORLD, OPEN_DRIVER, RESET_ALL, CLEAR = 10, 11, 12, 13, 7, 9
RESUME, RESUME_WRAPPING = 29, 34
# Requests that take a number, from 0 to the first without an answer: return addresses, parts of a
# state, operations. Then requests for the last byte of the RAM, for the one after it, and for a
# stroke of no run.
NUMBERED, AT_ENDS = (27, 28, 33), (31 | 2047 << 8, 31 | 2048 << 8, 18, 19, 20)


class Noting:
    """The library, which notes the requests of each device."""

    def __init__(self, library):
        self.library, self.noted = library, {}

    def __getattr__(self, name):
        return getattr(self.library, name)

    def note_staged(self, device, held, request):
        """Notes what hands these bytes to a request."""
        runs = ((byte, len(list(same))) for byte, same in itertools.groupby(held))
        stage = [STAGE | byte << 16 | count << 24 for byte, count in runs]
        self.noted[device.value] += [UNSTAGE, *stage, request, UNSTAGE]

    def dvg_open_world(self, device, ram, rom, length):
        self.note_staged(device, ram + rom, OPEN_WORLD)
        return self.library.dvg_open_world(device, ram, rom, length)

    def dvg_open_driver(self, device, rom, length):
        self.note_staged(device, rom, OPEN_DRIVER)
        return self.library.dvg_open_driver(device, rom, length)

    def dvg_reset_all(self, device, ram):
        self.note_staged(device, ram, RESET_ALL)
        return self.library.dvg_reset_all(device, ram)

    def dvg_restore_over(self, device, rom, held, length):
        first = states.first_of(held)
        numbers = list(memoryview(first).cast("Q"))[1:]
        if held[2:3] == b"W":
            self.noted[device.value] += [CLEAR, *numbers[256:-1]]
            self.note_staged(device, first[8:2056], numbers[-1])
        else:
            resume = RESUME_WRAPPING if held[2:3] == b"R" else RESUME
            self.noted[device.value] += [*numbers, resume]
        return self.library.dvg_restore_over(device, rom, held, length)

    def dvg_new(self, place):
        status = self.library.dvg_new(place)
        self.noted[place._obj.value] = []
        return status

    def dvg_turn(self, device, request):
        self.noted[device.value].append(request)
        return self.library.dvg_turn(device, request)

    def dvg_turns(self, device, at, answers, count):
        requests = list((g.ctypes.c_uint64 * count).from_address(at))
        asked = self.library.dvg_turns(device, at, answers, count)
        self.noted[device.value] += requests[:asked]
        return asked

    def take(self, thing):
        """What was asked of the device of this object, as the bytes of an input."""
        numbers = []
        for number, same in itertools.groupby(self.noted.pop(thing._handle.device.value)):
            again = len(list(same)) - 1
            numbers += [number] + [AGAIN | MOST_AGAIN << 8] * (again // MOST_AGAIN)
            numbers += [AGAIN | again % MOST_AGAIN << 8] * (again % MOST_AGAIN > 0)
        return b"".join(number.to_bytes(8, "little") for number in numbers)


def keep(folder, held):
    """Writes an input, if it isn't too long, in a file that is named by what is in it."""
    if 0 < len(held) <= MOST_BYTES:
        (folder / hashlib.sha1(held).hexdigest()).write_bytes(held)


# --- Traces ---


def add(draft, name, fields):
    """Adds the operation of a line to a draft."""
    if name in HEXADECIMAL:
        getattr(draft, HEXADECIMAL[name])(int(fields[0], 16))
    else:
        getattr(draft, {"return": "return_"}.get(name, name))(*map(int, fields))


def read_trace(text):
    """The ROM of a trace, and what happens: events, drafts, and bytes of which all are reset."""
    rom, happens, draft = bytearray(RETURNS), [], None
    for line in text.lower().splitlines():
        name, *fields = line.split() or ["#"]
        if name.startswith("#"):
            continue
        if draft is not None and name != "end":
            add(draft, name, fields)
        elif name == "end":
            happens.append(draft)
            draft = None
        elif name == "offer":
            draft = g.Draft()
        elif name == "map":
            rom = bytearray(RETURNS) * (int(fields[0]) // len(RETURNS))
        elif name == "rom":
            at = 2 * int(fields[0], 16) - (2 * 0xC00 - len(rom))
            held = b"".join(int(word, 16).to_bytes(2, "little") for word in fields[1:])
            rom[at:at + len(held)] = held
        elif name == "resetall":
            happens.append(bytes([int(fields[0], 16)]) * g.RAM_BYTES)
        else:
            happens += [EVENTS[name]] * min(int(fields[0] if fields else 1), MOST_EVENTS)
    return bytes(rom), happens


def play(world, happens):
    """Lets all of this happen to a world, and returns what came of it."""
    entries = []
    for is_reset, some in itertools.groupby(happens, lambda it: isinstance(it, bytes)):
        entries += map(world.reset_all, some) if is_reset else world.run(some)
    return entries


def play_trace(library, corpus, rom, happens):
    """A world plays a trace. So does another one, which is saved amid it, and of which a third one
    goes on. A judge is told what came."""
    with g.World(rom) as world, g.World(rom) as saved, g.World(rom) as other:
        quarter, entries = len(happens) // 4 + 1, []
        for begin in range(0, len(happens), quarter):
            some = happens[begin:begin + quarter]
            entries += play(world, some)
            play(saved, some)
            held = saved.save()
            first = states.first_of(held)
            for some_bytes in (held, first, first[2056:], first[2056:] + b"\0"):
                keep(corpus / "worlds", some_bytes)
            other.restore(held)
        play(other, happens[-quarter:])
        world.strokes, world.beam, world.halted
        keep(corpus / "requests", library.take(world))
        keep(corpus / "requests", library.take(other))
        ram = saved.ram
    with g.MomentJudge() as judge:
        for entry in entries:
            if entry.kind is not g.Kind.CLEARED:
                judge.tell(entry)
        keep(corpus / "requests", library.take(judge))
    draw_memory(library, corpus, ram, rom)


def draw_memory(library, corpus, ram, rom):
    """A generator of each kind draws a memory, and is asked what it holds. So does another one,
    which is saved amid it, and of which a third one goes on."""
    for wraps in (False, True):
        with g.Generator(wraps) as generator, g.Generator(wraps) as saved, g.Generator() as other:
            generator.strobe(), saved.strobe()
            try:
                for number in range(MOST_FETCHES):
                    generator.move_by(number % 256)
                    generator.fetch_from(ram, rom), saved.fetch_from(ram, rom)
                    if number % 40 == 20:
                        generator.return_addresses, generator.first_word, generator.beam
                        held = saved.save()
                        first = states.first_of(held)
                        for more in (wraps, 2 + wraps):
                            keep(corpus / "generators", first[8:] + bytes(more))
                        keep(corpus / "generators", held)
                        keep(corpus / "generators", first)
                        other.restore(held)
                    if number == 30:
                        generator.take_strokes()
            except (g.Halted, g.RunBroke):
                generator.strokes
            keep(corpus / "requests", library.take(generator))
            keep(corpus / "requests", library.take(other))


def drive(library, corpus, rom, happens):
    """A driver alone gets the drafts of a trace, and does its ticks beside a halted generator."""
    with g.Driver(rom) as driver:
        calls = {g.Event.REDRAW: driver.redraw, g.Event.RESET_PROCESSOR: driver.reset}
        for what in happens:
            try:
                if isinstance(what, g.Draft):
                    driver.offer(what)
                elif what is g.Event.TICK:
                    driver.tick(True, 0xE2)
                elif what in calls:
                    calls[what]()
            except g.Error:
                pass
        keep(corpus / "requests", library.take(driver))


# --- Limits ---


def ask_to_ends(library, thing):
    """Asks a world or a generator for all that has a number, and for one more than there are."""
    device, none = thing._handle.device, (g.Kind.NOTHING, g.Kind.UNKNOWN)
    for code in NUMBERED:
        numbers = (code | number << 8 for number in itertools.count())
        any(library.dvg_turn(device, number) & 0xFF in none for number in numbers)
    for number in AT_ENDS:
        library.dvg_turn(device, number)


def keep_limits(library, corpus):
    """Keeps states with a number at its limit, and one past it, for the three targets. `worlds` and
    `generators` make version 2 of each, with the right sum. `requests` restores each, and asks for
    all that there is then."""
    for first in limits.all_beside(RETURNS):
        is_world, wraps = first[2:3] == b"W", first[2:3] == b"R"
        if is_world:
            keep(corpus / "worlds", first[2056:] + bytes(1))
        else:
            keep(corpus / "generators", first[8:] + bytes(2 + wraps))
        with g.World(RETURNS) if is_world else g.Generator() as thing:
            limits.is_restored(thing, first)
            ask_to_ends(library, thing)
            keep(corpus / "requests", library.take(thing))


# --- All that is asked ---


def words_of(inputs):
    """What stands in texts, as a dictionary of libFuzzer's."""
    found = set(itertools.chain(*(re.findall(rb"[a-z.]{3,12}", held) for held in inputs)))
    return "".join(f'"{word.decode()}"\n' for word in sorted(found))


def main(asked, corpus):
    library = Noting(g._load(g.library_path()))
    g._load = lambda path: library
    for name in ("texts", "requests", "worlds", "generators"):
        (corpus / name).mkdir(parents=True)
    keep_limits(library, corpus)
    inputs = []
    for folder in sorted(asked.iterdir()):
        words = (folder / "arguments").read_bytes()
        held = (folder / "input").read_bytes()
        keep(corpus / "texts", words + b"\n" + held)
        if len(held) <= MOST_BYTES and held.isascii():
            inputs += [words, held]
        try:
            if words.startswith(b"play"):
                rom, happens = read_trace(held.decode())
                if len(happens) <= MOST_EVENTS:
                    play_trace(library, corpus, rom, happens)
                    drive(library, corpus, rom, happens)
            elif words.startswith(b"picture") and len(held) in (4096, 6144):
                draw_memory(library, corpus, held[:2048], held[2048:])
        except (ValueError, LookupError, AttributeError, TypeError, g.Error):
            pass  # of a text that the program refuses, too
    (corpus / "words").write_text(words_of(inputs))


if __name__ == "__main__":
    main(*map(Path, sys.argv[1:]))
