"""Tests python/gerbilargent.py: each call, each refusal, and, beside the program `dvg`, random
schedules, dumps and logs.

    python.py PROGRAM [DRAW [SEED]]

The shared library is build/libdvg.so, or the one that DVG_LIBRARY names. DRAW is draw.c,
built: then the dumps are drawn by dvg_draw, too. What passes prints nothing. The last line is
'N passed, M failed'.
"""

import contextlib
import copy
import ctypes
import io
import os
import random
import re
import subprocess
import sys
import tempfile
from pathlib import Path

import embed_states as states

TOP = Path(__file__).resolve().parents[3]
sys.path[:0] = [str(TOP / "python"), str(TOP / "tests")]
import counts  # noqa: E402
import gerbilargent as g  # noqa: E402
from counts import expect  # noqa: E402
from gerbilargent import Break, Draft, Driver, Fault, Generator, Kind, World  # noqa: E402

os.environ.setdefault("DVG_LIBRARY", str(TOP / "build" / "libdvg.so"))
PROGRAM = sys.argv[1]
DRAW = sys.argv[2] if len(sys.argv) > 2 else None
SEED = int(sys.argv[3]) if len(sys.argv) > 3 else 1979


def expect_same(wanted, found, what):
    if wanted != found:
        print(f"  wanted {str(wanted)[:300]!r}\n  found  {str(found)[:300]!r}")
    expect(wanted == found, what)


def expect_raises(kind, call, what=None):
    """The call must raise exactly this exception, which is answered."""
    try:
        call()
    except Exception as error:  # the kind is looked at below
        expect(type(error) is kind and str(error), what or f"{kind.__name__}, not {error!r}")
        return error
    expect(False, what or f"{kind.__name__} isn't raised")
    return None


def dvg(*words, text):
    """What the program writes of an input, and its status."""
    bytes_in = text if isinstance(text, bytes) else text.encode()
    ran = subprocess.run([PROGRAM, *words], input=bytes_in, capture_output=True, check=False)
    return ran.stdout.decode(), ran.stderr.decode(), ran.returncode


def words(*values):
    """Words as bytes, low bytes first."""
    return b"".join(value.to_bytes(2, "little") for value in values)


def first_frame():
    return Draft().labs(512, 400).vctr(9, -100, 100, 7).halt()


# --- Each call ---


def test_world():
    with World() as world:
        expect_same([], world.strokes, "a new world has drawn nothing")
        kinds = [str(world.tick()) for _ in range(3)]
        expect_same(["peek", "read halted", "idle"], kinds, "the first ticks")
        expect_same(g.Entry(Kind.OFFERED), world.offer(first_frame()), "an offer")
        expect_same("wrote 402 90", str(world.tick()), "the first write")
        while world.tick().kind is not Kind.SENT:
            pass
        expect_same("started", str(world.strobe()), "the strobe")
        fetched = [str(world.fetch()) for _ in range(12)]
        expect_same("low 000 01", fetched[0], "the first byte")
        expect_same("fetched 000 E201", fetched[1], "the first word")
        expect_same("done 205 B000 1", fetched[-1], "the HALT")
        expect_same([g.Stroke(262144, 204800, 210944, 256000, 7)], world.strokes, "the stroke")
        expect_same(31, world.events, "events are counted")
        expect_same("asked", str(world.redraw()), "a redraw")
        expect_same("cleared", str(world.reset_generator()), "a reset of the generator")
        expect_same("cleared", str(world.reset_processor()), "a reset of the processor")
        expect_same("cleared", str(world.reset_all(b"\xf2" * 2048)), "a reset of all")
        expect_same(35, world.events, "resets are events")
        expect_raises(g.NoStrobe, world.strobe, "after a reset of all no strobe was sent")
        expect_same(36, world.events, "what is refused is an event")
        expect_same(1, len(world.draw(first_frame())), "a frame is drawn after a reset")
        world.offer(first_frame())
        two = Draft().labs(0, 0).vctr(0, 1, 1, 1).vctr(0, 0, 0, 15).halt()
        expect_same(2, len(world.draw(two)), "a frame is drawn by a world at work")
    expect_raises(g.Closed, world.tick, "a closed world is Closed")
    expect_raises(g.Closed, world.__enter__, "a closed world isn't entered")
    expect_raises(g.Closed, lambda: world.strokes, "a closed world tells no strokes")
    world.close()
    expect(True, "closing twice does nothing")
    over = bytearray(2048)
    with World(bytearray(g.RETURNS), memoryview(over)) as world:
        expect_same("peek", str(world.tick()), "bytes of each kind are taken")
    with World(g.RETURNS * 2) as world:
        expect_same("peek", str(world.tick()), "a ROM of 4,096 bytes")


class Place(ctypes.Structure):
    """A dvg_stroke, which a call returns by value."""

    _fields_ = [*((name, ctypes.c_uint32) for name in g.Stroke._fields[:4]), ("z", ctypes.c_uint8)]


def test_names():
    """A picture by the names of dvg.h's calls alone, as another language binds them."""
    library, device = ctypes.CDLL(os.environ["DVG_LIBRARY"]), ctypes.c_void_p()

    def kind_of(name, *words):
        call = library[name]
        call.restype = g._Answer
        return Kind(call(device, *words).kind)

    library.dvg_new(ctypes.byref(device))
    kinds = [kind_of("dvg_open_world", None, g.RETURNS, ctypes.c_size_t(2048))]
    kinds += [kind_of("dvg_labs", 512, 400, 0), kind_of("dvg_vctr", 9, -100, 100, 7)]
    kinds += [kind_of("dvg_halt"), kind_of("dvg_run_to_halt", 2), kind_of("dvg_offer")]
    kinds.append(kind_of("dvg_run_to_halt", 1000))
    wanted = [Kind.OPENED, *[Kind.PUSHED] * 3, Kind.STILL, Kind.OFFERED, Kind.DONE]
    expect_same(wanted, kinds, "calls by their names")
    library.dvg_stroke_at.restype = Place
    drawn = library.dvg_stroke_at(device, ctypes.c_uint64(0))
    drawn = tuple(getattr(drawn, name) for name, _ in Place._fields_)
    expect_same((262144, 204800, 210944, 256000, 7), drawn, "a stroke by value")
    library.dvg_kind_text.restype = ctypes.c_char_p
    expect_same(b"no strobe", library.dvg_kind_text(int(Kind.NO_STROBE)), "a text")
    library.dvg_free(device)


def test_freeing():
    """Each device is freed, and once: by `close`, at the end of `with`, and where it is dropped."""
    real, freed = g._load(g.library_path()), []

    class Counting:
        def __getattr__(self, name):
            return getattr(real, name)

        def dvg_free(self, device):
            freed.append(device)
            real.dvg_free(device)

    load, g._load = g._load, lambda path: Counting()
    with World() as world:
        world.tick()
    expect_same(1, len(freed), "a world is freed at the end of `with`")
    world.close()
    expect_same(1, len(freed), "and not again")
    World().tick()
    expect_same(2, len(freed), "a world that is dropped is freed")
    driver = Driver()
    driver.close(), driver.close()
    expect_same(3, len(freed), "a driver is freed by `close`")
    g.picture(words(0xB000).ljust(4096, b"\0"))
    expect_same(4, len(freed), "a picture leaves no device")
    expect_raises(g.WrongSize, lambda: World(bytes(1)))
    expect_same(4, len(freed), "of a wrong size none is made")
    g._load = load


def test_driver():
    with Driver() as driver:
        ticks = [str(driver.tick(True, 0)) for _ in range(3)]
        expect_same(["peek", "read halted", "idle"], ticks, "the first ticks of a driver")
        expect_same("offered", str(driver.offer(first_frame())), "an offer to a driver")
        expect_same("wrote 402 90", str(driver.tick(True, 0)), "it tells what to write")
        expect_raises(g.Busy, lambda: driver.offer(first_frame()))
        expect_raises(g.NothingPublished, lambda: Driver().redraw())
        expect_same("cleared", str(driver.reset()), "a reset of a driver")
        expect_same("read running", [str(driver.tick(False, 0)) for _ in range(2)][1], "the flag")
        expect_raises(g.BadByte, lambda: driver.tick(True, 256))
        expect_raises(g.BadByte, lambda: driver.tick(True, -1))
        expect_same([], driver.strokes, "a driver draws nothing")


def test_generator():
    with Generator() as generator:
        expect(generator.halted and generator.wanted is None, "a new generator is halted")
        expect_raises(g.Halted, lambda: generator.fetch(0))
        expect_raises(g.Halted, generator.hole)
        expect_raises(g.Halted, lambda: generator.fetch_from(bytes(2048)))
        expect_same("started", str(generator.strobe()), "a strobe")
        expect_same(g.Wanted(0, False), generator.wanted, "the low byte first")
        expect_same("low 000 01", str(generator.fetch(0x01)), "a low byte")
        expect_same(g.Wanted(0, True), generator.wanted, "then the high byte")
        expect_same("fetched 000 E001", str(generator.fetch(0xE0)), "a word")
        expect_same(g.Wanted(1, False), generator.wanted, "it follows the jump")
        broke = expect_raises(g.RunBroke, generator.hole)
        expect_same((1, Break.HOLE), (broke.address, broke.why), "where and why")
        expect(generator.halted, "a broken run is over")
        generator.strobe()
        expect_same("cleared", str(generator.reset()), "a reset of a generator")
        expect(generator.halted, "a reset ends the run")
        expect_raises(g.BadByte, lambda: generator.fetch(256))
        expect_raises(g.WrongSize, lambda: generator.fetch_from(bytes(2047)))
        expect_raises(g.WrongSize, lambda: generator.fetch_from(bytes(2048), bytes(4095)))
        generator.strobe()
        nowhere = words(0xE500).ljust(2048, b"\0")
        text = [str(generator.fetch_from(nowhere)) for _ in range(2)]
        expect_same(["low 000 00", "fetched 000 E500"], text, "a jump to where no memory is")
        broke = expect_raises(g.RunBroke, lambda: generator.fetch_from(nowhere))
        expect_same((0x500, Break.HOLE), (broke.address, broke.why), "no byte is taken from there")
        expect_same("broke 500 3", str(g.Entry(Kind.BROKE, 0x500, Break.HOLE)), "its entry")
        ram = words(0xB000).ljust(2048, b"\0")
        expect_same(g.Picture(1, []), generator.draw(ram), "a HALT alone")
        expect_same("picture 1 0", str(generator.draw(ram)), "its text")
        expect_raises(g.Endless, lambda: generator.draw(ram, most_words=0))
        over = words(0xC000).ljust(2048, b"\0")
        expect_same(
            Break.STACK_OVER, expect_raises(g.RunBroke, lambda: generator.draw(over)).why, "over"
        )
        under = words(0xD000).ljust(2048, b"\0")
        expect_same(
            Break.STACK_UNDER, expect_raises(g.RunBroke, lambda: generator.draw(under)).why, "under"
        )
        hole = words(0xEC00).ljust(2048, b"\0")
        broke = expect_raises(g.RunBroke, lambda: generator.draw(hole))
        expect_same("broke C00 3: no memory there", str(broke), "a hole, as text")
        rom = words(0xB000) + g.RETURNS[2:]
        jump = words(0xE800).ljust(2048, b"\0")
        expect_same(2, generator.draw(jump, rom).words, "a small ROM begins at 800")
        jump = words(0xE400).ljust(2048, b"\0")
        expect_same(2, generator.draw(jump, rom + rom).words, "a large ROM begins at 400")
        expect_raises(g.RunBroke, lambda: generator.draw(jump, rom), "a small one doesn't")
        endless = words(0xE000).ljust(2048, b"\0")
        expect_same(
            65536, expect_raises(g.Endless, lambda: generator.draw(endless)).words, "its cap"
        )
        expect_same(
            3, expect_raises(g.Endless, lambda: generator.draw(endless, most_words=3)).words, "3"
        )


def test_moves():
    with Generator() as generator:
        expect_same(g.Beam(0, 0, 0), generator.beam, "a new beam")
        expect_same((None, []), (generator.first_word, generator.return_addresses), "holds nothing")
        expect_same(None, generator.move_by(0xF0), "a halted generator moves nothing")
        ram = words(0xC002, 0xB000, 0xA190, 0x3200, 0x01FF, 0x7401, 0xF1F5, 0xD000)
        ram = ram.ljust(2048, b"\0")
        generator.strobe()
        found = []
        while (wanted := generator.wanted) is not None:
            byte = ram[2 * wanted.address + wanted.high]
            found.append((wanted.address, wanted.high, generator.move_by(byte)))
            first, second = generator.move_by(byte), generator.fetch(byte)
            expect_same(found[-1][2], first, "asked twice")
            if first is not None:
                expect_same((first.x1, first.y1), generator.beam[:2], "the beam is at its end")
            if wanted.address == 4 and wanted.high:
                expect_same(0x01FF, generator.first_word, "a first word")
                expect_same([1], generator.return_addresses, "an open call")
                expect_same(3, generator.beam.scale, "the scale of the LABS")
        x, y = 512 * 0x200, 512 * 0x190
        moves = [move for address, high, move in found if move is not None]
        expect_same([
            g.Move(0, 0, x, y, 0, True, 2),
            g.Move(x, y, x - 8, y + 8 * 511, 7, False, 4),
            g.Move(x - 8, y + 8 * 511, x - 8 - 256 * 32, y + 8 * 511 + 256 * 32, 15, False, 6),
        ], moves, "the moves of a run")
        expect_same([(0, 8), (-16, 16)], [move.units for move in moves[1:]], "in whole units")
        expect_same([(3, True), (5, True), (6, True)], [
            (address, high) for address, high, move in found if move is not None
        ], "as soon as their words have ended")
        expect_same([g.Stroke(*move[:5]) for move in moves[1:]], generator.strokes, "seen ones")
        expect_same([], generator.return_addresses, "returned")
        expect_raises(g.BadByte, lambda: generator.move_by(256))
    expect_same((1, -1), (g._units(0, 256), g._units(256, 0)), "a half away from zero")
    expect_same((1, -1), (g._units(2097000, 104), g._units(104, 2097000)), "over the edge")
    expect_same(0, g._units(255, 0), "less than a half")


def test_saving():
    with Generator() as generator:
        expect_same(40, len(generator.save()), "a new generator is saved in 40 bytes")
        expect_same(b"DVG\x02\x04\0\0\0#\0", generator.save()[:10], "the head, and its first part")
        ram = words(0xC002, 0xB000, 0xA190, 0x3200, 0x01FF, 0x7401, 0xF1F5, 0xD000)
        ram = ram.ljust(2048, b"\0")
        generator.strobe()
        while generator.wanted != g.Wanted(7, True):
            generator.fetch_from(ram)
        saved = generator.save()
        expect_same(80, len(saved), "with a return address and two strokes in 80")
        expect_same(states.second_of(states.first_of(saved)), saved, "of no ROM, with its sum")
        others = [generator.copy(), copy.copy(generator), Generator()]
        others[2].restore(bytearray(saved))
        for other in others:
            expect_same([saved, []], [other.save(), other.strokes], "a copy is the same")
        while not generator.halted:
            generator.fetch_from(ram)
        for other in others:
            while not other.halted:
                other.fetch_from(ram)
            expect_same(generator.strokes, other.strokes, "and draws the same")
            expect_same(generator.save(), other.save(), "and ends so")
            other.close()
        for kind, other in (
            (g.BadState, b""), (g.BadState, saved[:-8]), (g.BadState, saved[:-1]),
            (g.BadState, saved[:3] + b"\3" + saved[4:]),
            (g.BadState, states.summed(saved[:9] + b"\1" + saved[10:])),
            (g.BadState, states.summed(saved[:16] + b"\x0f" + saved[17:])),
            (g.BadState, states.summed(saved[:17] + b"\4" + saved[18:])),
            (g.BadState, states.summed(saved[:8] + b"#\0\0\x10" + saved[12:])), (g.NoBytes, 7),
        ):
            expect_raises(kind, lambda: generator.restore(other), f"{other!r} is no saved state")
        expect_same(2, len(generator.strokes), "what is refused changes nothing")
        generator.restore(saved)
        expect_same(saved, generator.save(), "another state may be restored")
        expect_same([], generator.strokes, "which has no strokes of a finished run")
    expect_raises(g.Closed, generator.save, "a closed generator isn't saved")
    expect_raises(g.Closed, generator.copy, "nor copied")
    expect_raises(g.Closed, lambda: generator.restore(saved), "nor restored")


def test_saving_wrapping():
    ram = words(0xC003, 0xB000, 0xB000, 0xC000).ljust(2048, b"\0")
    with Generator(wraps=True) as wrapping, Generator() as other:
        expect_same(72, len(wrapping.save()), "a new one is saved in 72 bytes")
        wrapping.strobe()
        for _ in range(11):
            wrapping.fetch_from(ram)
        saved = wrapping.save()
        expect_same([4, 1, 4, 1], wrapping.return_addresses, "it went on at a fifth call")
        other.restore(saved)
        expect_same([True, saved], [other.wraps, other.save()], "one that didn't wrap does now")
        with Generator(True) as third:
            expect_raises(g.BadState, lambda: third.restore(saved[:3] + b"\3" + saved[4:]), "bad")
            third.restore(Generator().save())
            expect_same(False, third.wraps, "and the other way round")
        for _ in range(40):
            expect_same(wrapping.fetch_from(ram), other.fetch_from(ram), "both go on alike")


def test_saving_worlds():
    frame = Draft().labs(512, 400).vctr(9, -100, 100, 7).halt()
    with World() as world, World(ram=bytes([7]) * 2048) as other:
        expect_same(2096, len(world.save()), "a new world is saved in 2,096 bytes")
        expect_same(b"DVW\x02\x05\x01\0\0" + bytes(2048) + b"#", world.save()[:2057], "its head")
        world.draw(frame)
        world.offer(frame)
        world.run([g.Event.TICK] * 3)
        saved, events = world.save(), world.events
        expect_same(2120, len(saved), "with three operations in 2,120")
        first, digest = states.first_of(saved), states.digest(g.RETURNS)
        expect_same(states.second_of(first, digest), saved, "with the digest of its ROM, and a sum")
        other.restore(bytearray(saved))
        expect_same([saved, [], 0], [other.save(), other.strokes, other.events], "restored")
        expect_same(world.ram, other.ram, "with its RAM")
        for one in (world, other):
            one.run([g.Event.TICK] * 12 + [g.Event.STROBE] + [g.Event.FETCH] * 12)
        expect_same(world.strokes, other.strokes, "both draw the same")
        expect_same(world.save(), other.save(), "and end so")
        before = other.save()
        for kind, bad in (
            (g.BadState, b""), (g.BadState, saved[:-8]), (g.BadState, first[:-8]),
            (g.BadState, saved[:2] + b"G" + saved[3:]), (g.BadState, saved[:3] + b"\3" + saved[4:]),
            (g.BadState, first[:-7] + b"\7" + first[-6:]),
            (g.BadState, first[:-5] + b"\xff" + first[-4:]),
            (g.BadState, first[:-16] + b"\x08\x09" + first[-14:]),
            (g.BadState, first[:-16] + b"\x0f" + first[-15:]), (g.NoBytes, 7),
        ):
            expect_raises(kind, lambda: other.restore(bad), f"{bad[-16:]!r} is no saved world"
                          if bad != 7 else "7 is no saved world")
        expect_same(before, other.save(), "what is refused changes nothing")
        for version in (first, states.second_of(first), saved):
            world.restore(version)
            expect_same(saved, world.save(), "it goes back, from each version")
        expect_same(events + 25, world.events, "which is no event")
        with Generator() as generator:
            expect_raises(g.BadState, lambda: generator.restore(saved), "it is no generator's")
            expect_raises(g.BadState, lambda: world.restore(generator.save()), "nor a world's")
    with World() as world, World(rom=words(*[0xC800] * 1024)) as other:
        world.run([g.Event.TICK] * 2 + [Draft().labs(0, 0).call_rom(0x800).halt()])
        expect_raises(g.BadState, lambda: other.restore(world.save()), "its ROM refuses the frame")
    test_other_rom()
    test_going_on(frame)
    long = Draft().labs(0, 0)
    for _ in range(509):
        long.halt()
    with World() as world:
        world.run([g.Event.TICK] * 2 + [long])
        expect_same(2096 + 8 * 510, len(world.save()), "a long frame is saved")
        expect_same(None, world.restore(world.save()), "and restored")
    expect_raises(g.Closed, world.save, "a closed world isn't saved")
    expect_raises(g.Closed, lambda: world.restore(saved), "nor restored")


def test_other_rom():
    """A run that was saved over one ROM is refused over another of either size. Where its bytes
    don't name the ROM, it opens, and breaks there."""
    frame = Draft().labs(0, 0).call_rom(0x800).vctr(9, 100, 100, 7).halt()
    with World() as world:
        world.run([g.Event.TICK] * 2 + [frame] + [g.Event.TICK] * 16 + [g.Event.STROBE])
        world.run([g.Event.FETCH] * 2)
        named = world.save()
        saved = states.first_of(named)
    for size in g.ROM_SIZES:
        with World(rom=words(*[0xF0F0] * (size // 2))) as other:
            expect_raises(g.BadState, lambda: other.restore(named), "another ROM is told")
            other.restore(saved)
            expect_same(False, other.halted, "a run is open")
            with expect_break(0xC00):
                while other.fetch().kind is not g.Kind.DONE:
                    pass
            expect_same(True, other.halted, "it is over")
            expect_raises(g.Halted, other.fetch, "and stays so")
            other.restore(saved)
            plain = Draft().labs(0, 0).halt()
            expect_raises(g.RunBroke, lambda: other.draw(plain), "a draw tells it, too")


@contextlib.contextmanager
def expect_break(address):
    """Expects a break in a hole, at this word address."""
    try:
        yield
        expect_same("a break", "none", "a run breaks")
    except g.RunBroke as broke:
        expect_same([address, g.Break.HOLE], [broke.address, broke.why], "where it breaks")


def test_going_on(frame):
    """A strobe that was under way arrives after a restore, and a judge judges the run after it."""
    with World() as world, World() as later, g.MomentJudge() as judge:
        world.run([g.Event.TICK] * 2 + [frame] + [g.Event.TICK] * 14)
        expect_same(True, later.halted, "no run is open")
        expect_raises(g.NoStrobe, later.strobe, "and no strobe is under way")
        later.restore(world.save())
        expect_same(True, later.halted, "nor in what was restored")
        expect_same(g.Kind.STARTED, later.strobe().kind, "but a strobe, which arrives")
        events = later.events
        expect_same([False, events], [later.halted, later.events], "to ask is no event")
        world.restore(later.save())
        answers = {judge.tell(world.fetch()).kind for _ in range(12)}
        expect_same([{g.Kind.NO_RUN}, 1], [answers, len(world.strokes)], "that run isn't judged")
        judge.tell(world.strobe())
        answers = [judge.tell(world.fetch()).kind for _ in range(12)]
        expect_same(g.Kind.WHOLE, answers[-1], "the next one is")


def test_saving_many():
    """States with more parts than are asked for in one call."""
    ram = words(*[0xF0F1] * 700, 0xE000)
    with Generator() as generator:
        for strokes in (0, 1, 254, 255, 256, 257, 700):
            generator.strobe()
            for word in range(strokes):
                generator.fetch(ram[2 * word])
                generator.fetch(ram[2 * word + 1])
            expect_same(40 + 16 * strokes, len(generator.save()), f"{strokes} strokes are saved")
            with generator.copy() as other:
                generator.fetch(0)
                generator.fetch(0xB0)
                other.fetch(0)
                other.fetch(0xB0)
                expect_same(generator.strokes, other.strokes, f"and {strokes} drawn")


def test_moment_judge():
    with g.MomentJudge() as judge:
        kinds = [judge.started(), judge.fetched(1, 0x0101), judge.wrote(2, 5), judge.wrote(4, 7)]
        kinds += [judge.low(2, 7), judge.fetched(2, 0x0107), judge.done(3, 0xB000)]
        wanted = ["one moment"] * 4 + ["no moment"] * 2 + ["torn"]
        expect_same(wanted, [str(entry) for entry in kinds], "a run that is torn, line by line")
        expect_same([0] * 7, [entry.value for entry in kinds], "which reads what was written")
        expect_same("no run", str(judge.wrote(2, 1)), "no run is open")
        judge.started(), judge.fetched(1, 0x0101), judge.wrote(2, 5)
        expect_same("whole", str(judge.done(2, 0x0107)), "a byte is written after its reading")
        judge.started()
        expect_same(g.Entry(Kind.ONE_MOMENT, 0, 1), judge.low(2, 8), "it reads what isn't there")
        expect_same("no run", str(judge.reset_generator()), "a reset ends the run")
        expect_same("no run", str(judge.reset_processor()), "and the processor is another thing")
        judge.started(), judge.reset_all(), judge.started()
        expect_same(g.Entry(Kind.ONE_MOMENT), judge.low(2, 9), "what was told is void")
        expect_same(Kind.ONE_MOMENT, judge.wrote(0x800, 1).kind, "beyond the RAM nothing changes")
        for call in (
            lambda: judge.wrote(2, 256), lambda: judge.low(-1, 0), lambda: judge.done(0, 65536),
            lambda: judge.fetched(65536, 0),
        ):
            expect_raises(g.BadByte, call)
        expect_raises(g.NoInteger, lambda: judge.done(0.5, 0))
        expect_raises(g.NoEvent, lambda: judge.tell(g.Entry(Kind.CLEARED)))
        expect_same(Kind.ONE_MOMENT, judge.started().kind, "a refusal has told nothing")
    expect_raises(g.Closed, judge.started)
    with World() as world, g.MomentJudge() as judge:
        world.draw(first_frame())
        told = [judge.tell(entry).kind for entry in world.run([g.Event.TICK] * 3)]
        expect_same([Kind.NO_RUN] * 3, told, "entries of a world are told as they are")
        events = [Draft().labs(0, 0).vctr(9, 100, 100, 7).halt()]
        events += [g.Event.TICK] * 20 + [g.Event.STROBE] + [g.Event.FETCH] * 40
        told = [judge.tell(entry).kind for entry in world.run(events)]
        expect_same(1, told.count(Kind.WHOLE), "a picture of a world is whole")


# --- Each refusal ---


def refused(draft, fault, operation=None, rom_word=None, rom=g.RETURNS):
    """A driver and a world refuse this draft, for this, and `dvg check` says the same."""
    for opened in (Driver(rom), World(rom)):
        with opened as it:
            for _ in range(2):
                it.tick(True, 0) if isinstance(it, Driver) else it.tick()
            error = expect_raises(
                g.DraftRefused, lambda: it.offer(draft), f"{fault.text} is refused"
            )
            if error:
                expect_same(
                    (fault, operation, rom_word),
                    (error.fault, error.operation, error.rom_word),
                    fault.text,
                )
                expect_same(
                    f"fault {error}\n",
                    dvg("check", text=rom_text(rom) + draft.text)[0],
                    "as `check` says",
                )
            frame = first_frame()
            expect_same(Kind.OFFERED, it.offer(frame).kind, "after a refusal an offer is taken")


def test_refusals():
    refused(Draft(), Fault.EMPTY)
    refused(Draft().halt(), Fault.NO_LABS)
    long = Draft()
    for _ in range(256):
        long.labs(0, 0)
    refused(long.halt(), Fault.TOO_LONG)
    refused(Draft().labs(0, 0).call(9).halt(), Fault.TARGET, 1)
    refused(Draft().labs(0, 0), Fault.RUNS_OFF, 0)
    refused(Draft().labs(0, 0).jump_rom(0x7FF), Fault.OUT_OF_ROM, 1)
    refused(
        Draft().labs(0, 0).call_rom(0x800).halt(),
        Fault.OUT_OF_ROM,
        None,
        0x800,
        words(0xE3FF) + g.RETURNS[2:],
    )
    deep = Draft().labs(0, 0)
    for number in range(1, 6):
        deep.call(number + 1)
    refused(deep.halt(), Fault.TOO_DEEP, 5)
    refused(Draft().labs(0, 0).return_(), Fault.NO_CALLER, 1)
    refused(Draft().labs(0, 0).jump_rom(0x800), Fault.NO_CALLER, None, 0x800)
    refused(Draft().labs(0, 0).jump(0), Fault.LOOPS)
    with World() as world:
        world.tick(), world.tick(), world.offer(first_frame())
        expect_raises(g.Busy, lambda: world.offer(first_frame()))
        expect_raises(g.NothingPublished, world.redraw)
        expect_raises(g.NoStrobe, world.strobe)
        expect_raises(g.Halted, world.fetch)
        world.draw(first_frame()), world.redraw()
        expect_raises(g.Busy, world.redraw)
    with World() as world:
        expect_raises(g.NothingPublished, lambda: (world.tick(), world.tick(), world.redraw()))
    for rom, ram in (
        (bytes(2047), None),
        (b"", None),
        (bytes(4097), None),
        (g.RETURNS, bytes(2049)),
        (g.RETURNS, b""),
    ):
        expect_raises(g.WrongSize, lambda: World(rom, ram))
    expect_raises(g.WrongSize, lambda: Driver(bytes(2049)))
    with World() as world:
        expect_raises(g.WrongSize, lambda: world.reset_all(bytes(1)))
        expect_same(0, world.events, "a RAM of a wrong size is no event")
    for size in (0, 2048, 4095, 8192):
        expect_raises(g.WrongSize, lambda: g.picture(bytes(size)))
    for kind in vars(g).values():
        if isinstance(kind, type) and issubclass(kind, Exception):
            expect(issubclass(kind, g.Error), f"{kind.__name__} is an Error")
    for kind in (g.Closed, g.InUse, g.Opened, g.Busy, g.NothingPublished, g.NoStrobe, g.Halted):
        expect(issubclass(kind, g.WrongOrder), f"{kind.__name__} is a WrongOrder")


def test_no_memory():
    """The library's answer 255, by one that answers nothing else, and a device that isn't made."""
    with World() as world:
        real = world._handle.library
        class Refusing:
            dvg_turn = staticmethod(lambda device, request: 255)

            @staticmethod
            def dvg_turns(device, requests, answers, count):
                g.ctypes.memset(answers, 255, 1), g.ctypes.memset(answers + 1, 0, 7)
                return 1
        world._handle.library = Refusing
        expect_raises(g.OutOfMemory, world.fetch)
        expect_same(0, world.events, "a fetch without memory is no event")
        entries = world.run([g.Event.FETCH] * 3)
        expect_same([g.Entry(Kind.NO_MEMORY)], entries, "many events end without memory")
        expect_raises(g.OutOfMemory, lambda: world._let_finish())
        expect_same(0, world.events, "and none of them is an event")
        world._handle.library = real
        expect_same("peek", str(world.tick()), "and nothing has changed")
    load, g._load = g._load, lambda path: Missing
    class Missing:
        dvg_new = staticmethod(lambda out: 2)
    expect_raises(g.OutOfMemory, World)
    g._load = load
    expect(issubclass(g.OutOfMemory, MemoryError), "want of memory is a MemoryError")


def test_kinds():
    """What is no integer, no bytes and no event is refused by name, and nothing has changed."""
    draft = Draft()
    for value in (1.0, 1.5, "1", None):
        for make in (
            lambda: draft.vctr(9, value, 0, 7),
            lambda: draft.svec(2, 1, 1, value),
            lambda: draft.labs(value, 0),
            lambda: draft.call(value),
            lambda: draft.jump_rom(value),
            lambda: Generator().fetch(value),
            lambda: Driver().tick(True, value),
            lambda: Generator().draw(bytes(2048), most_words=value),
            lambda: g.Judge().wrote(value),
        ):
            expect_raises(g.NoInteger, make)
    error = expect_raises(g.NoInteger, lambda: draft.vctr(9, 1.5, 0, 7))
    expect_same("dx is 1.5, and must be an integer", str(error), "it names the field")
    error = expect_raises(g.BadOperation, lambda: draft.vctr(9, 0, 1024, 7))
    expect_same("dy is 1024, and must be -1023 to 1023", str(error), "so does a range")
    expect_same(0, len(draft), "a draft that was handed these is empty")

    class One:
        def __index__(self):
            return 1
    expect_same(Draft().labs(1, 1, 1), draft.labs(One(), True, 1), "what is an integer is taken")
    for held in (2048, [0] * 2048, "0" * 2048, 0.5):
        expect_raises(g.NoBytes, lambda: World(ram=held))
        expect_raises(g.NoBytes, lambda: Driver(held))
        expect_raises(g.NoBytes, lambda: g.picture(held))
    expect_raises(g.NoBytes, lambda: World(ram=g.array("Q", bytes(2048))))
    with World() as world:
        for event in (2, "tick", None):
            expect_raises(g.NoEvent, lambda: world.run([g.Event.TICK, event]))
        expect_same(0, world.events, "then no event has happened")


def random_event(chance):
    """Mostly ticks and fetches; drafts, also one that is refused."""
    if chance.random() < 0.03:
        return chance.choice([first_frame(), first_frame().halt(), Draft().halt()])
    ticks = [g.Event.TICK] * 6 + [g.Event.FETCH] * 8 + [g.Event.STROBE] * 2
    rare = [g.Event.REDRAW, g.Event.RESET_GENERATOR, g.Event.RESET_PROCESSOR]
    return chance.choice(ticks if chance.random() < 0.98 else rare)


def entry_of(world, event):
    """What comes of an event by its own call, as `run` answers it."""
    call = world.offer if isinstance(event, Draft) else getattr(world, event.name.lower())
    try:
        return call(event) if isinstance(event, Draft) else call()
    except g.DraftRefused as error:
        return Kind.REFUSED, error.fault
    except g.WrongOrder as error:
        kinds = {g.Busy: Kind.BUSY, g.NoStrobe: Kind.NO_STROBE, g.Halted: Kind.STILL}
        return g.Entry(kinds.get(type(error), Kind.NOTHING_PUBLISHED))


def test_run():
    """Many events in one call are the same events as one at a time."""
    chance, seen = random.Random(SEED), set()
    with World() as one, World() as many:
        for _ in range(300):
            events = [random_event(chance) for _ in range(chance.randint(0, 60))]
            entries = many.run(iter(events))
            seen.update(entry.kind for entry in entries)
            refused = [(entry.kind, g.Fault(entry.value & 15)) if entry.kind is Kind.REFUSED
                       else entry for entry in entries]
            expect_same([entry_of(one, event) for event in events], refused, "events of `run`")
            expect_same((one.events, one.strokes), (many.events, many.strokes), "after `run`")
    wanted = set(range(Kind.DONE + 1)) | {Kind.STILL, Kind.CLEARED}
    expect_same(wanted, seen, "these kinds were seen")
    expect_raises(g.Closed, lambda: many.run([g.Event.TICK]), "a closed world runs nothing")


def test_shown():
    """Representations, equality, pictures in a notebook, and tables of strokes."""
    draft = Draft().labs(1, 2, 3).vctr(9, -100, 100, 7).svec(2, -3, 3, 0).call(4).jump(5)
    draft.call_rom(0x800).jump_rom(0xFFF).return_().halt()
    text = "Draft().labs(1, 2, 3).vctr(9, -100, 100, 7).svec(2, -3, 3, 0).call(4).jump(5)"
    expect_same(text + ".call_rom(0x800).jump_rom(0xfff).return_().halt()", repr(draft), "a draft")
    expect(eval(repr(draft)) == draft and draft != Draft(), "drafts are equal by operations")
    expect(draft != list(draft), "a draft is no list")
    with World() as world:
        table = world.stroke_table
        expect_same((0, 0), (len(table), table.nbytes), "without strokes a table has no rows")
        world.draw(Draft().labs(9, 9).vctr(9, 1, 2, 3).vctr(9, 3, 2, 1).halt())
        rows = [[*stroke, 0] for stroke in world.strokes]
        expect_same(((2, 6), "I"), (world.stroke_table.shape, world.stroke_table.format), "a table")
        expect_same(rows, world.stroke_table.tolist(), "its rows")
        order, g.sys.byteorder = g.sys.byteorder, "big"
        expect_raises(g.Error, lambda: world.stroke_table)
        g.sys.byteorder = order
        shown = g.svg(world.strokes)
        expect_same(shown, world._repr_svg_(), "a world in a notebook")
        expect_same(shown, g.Picture(9, world.strokes)._repr_svg_(), "a picture in a notebook")
        events = world.events
        expect_same(f"<World, {events} events>", repr(world), "a world")
    expect_same(f"<World, {events} events, closed>", repr(world), "a closed world")
    driver = Driver()
    expect_same("<Driver>", repr(driver), "a driver")
    driver.close()
    expect_same("<Driver, closed>", repr(driver), "a closed driver")


def test_ranges():
    """The ranges of Draft are those of the library: each field at its edges and beside them."""
    makers = {
        0: lambda s, z, x, y: Draft().vctr(s, x, y, z),
        1: lambda s, z, x, y: Draft().svec(s, x, y, z),
        2: lambda s, z, x, y: Draft().labs(x, y, s),
        3: lambda s, z, x, y: Draft().call(x),
        4: lambda s, z, x, y: Draft().jump(x),
        5: lambda s, z, x, y: Draft().call_rom(x),
        6: lambda s, z, x, y: Draft().jump_rom(x),
    }
    fine = {
        0: (9, 7, 5, 5),
        1: (3, 7, 1, 1),
        2: (3, 0, 5, 5),
        3: (0, 0, 5, 0),
        4: (0, 0, 5, 0),
        5: (0, 0, 5, 0),
        6: (0, 0, 5, 0),
    }
    edges = [(-1, 0, 1, 2, 4, 5, 6, 9, 10, 15, 16, 255), (-1, 0, 1, 15, 16, 255)]
    moves = (-32768, -4096, -1024, -1023, -4, -3, -1, 0, 3, 4, 1023, 1024, 4095, 4096, 32767)
    moves += (32768, 65535)
    edges += [moves, moves]
    with Driver() as driver:
        for kind, make in makers.items():
            for place, values in enumerate(edges):
                if kind > 2 and place != 2 or kind == 2 and place == 1:
                    continue
                for value in values:
                    fields = list(fine[kind])
                    fields[place] = value
                    try:
                        make(*fields)
                        taken = True
                    except g.BadOperation:
                        taken = False
                    # Below 0 a field of 8 bits isn't asked for at all, as
                    # one of 16 that has no sign.
                    unasked = value < 0 and (place < 2 or kind > 1) or value > 32767 and kind < 2
                    driver._turn(g._Request.CLEAR)
                    number = g.Operation(kind, *fields).number if not unasked else 0xFF << 8
                    asked = driver._turn(g._Request.PUSH, number) & 0xFF == Kind.PUSHED
                    expect_same(asked, taken, f"operation {kind} with {fields}")
    draft = Draft()
    for _ in range(511):
        draft.halt()
    expect_raises(g.DraftFull, draft.halt)
    expect_same(511, len(draft), "a full draft stays as it was")
    expect_raises(g.BadOperation, lambda: Draft().labs(0, 4096))
    expect_same(0, len([0 for _ in Draft()]), "an empty draft")


# --- Beside the program ---


def rom_text(rom):
    """The ROM as lines of a draft or trace."""
    text = ["map 4096\n"] if len(rom) == 4096 else []
    first = 0xC00 - len(rom) // 2
    for at in range(0, len(rom), 2):
        text.append(f"rom {first + at // 2:03X} {int.from_bytes(rom[at:at + 2], 'little'):04X}\n")
    return "".join(text)


def random_rom(chance):
    """Mostly short vectors and returns."""
    size = chance.choice(g.ROM_SIZES)
    made = (0xF000 | chance.randrange(0x1000) for _ in range(size // 2))
    return words(*(word if chance.random() < 0.8 else 0xD000 for word in made))


def random_draft(chance):
    draft = Draft().labs(chance.randrange(4096), chance.randrange(4096), chance.randrange(16))
    for _ in range(chance.randrange(12)):
        which = chance.randrange(10)
        if which < 3:
            draft.vctr(
                chance.randrange(10),
                chance.randint(-1023, 1023),
                chance.randint(-1023, 1023),
                chance.randrange(16),
            )
        elif which < 6:
            draft.svec(
                chance.randint(2, 5),
                chance.randint(-3, 3),
                chance.randint(-3, 3),
                chance.randrange(16),
            )
        elif which == 6:
            draft.call_rom(chance.randrange(0x800, 0xC00))
        elif which == 7 and chance.random() < 0.3:
            draft.call(chance.randrange(14))
        else:
            draft.labs(chance.randrange(4096), chance.randrange(4096), chance.randrange(16))
    return draft.halt() if chance.random() < 0.95 else draft


def shown(world, event):
    """What `play --all` shows of an event: its entry, and the strokes of a done."""
    try:
        entry = event()
    except g.DraftRefused as error:
        return [f"refused {error}"]
    except g.WrongOrder as error:
        names = {
            g.Busy: "busy",
            g.NothingPublished: "nothing published",
            g.NoStrobe: "no strobe",
            g.Halted: "still",
        }
        return [names[type(error)]]
    strokes = list(map(str, world.strokes)) if entry.kind is Kind.DONE else []
    return [str(entry), *strokes]


class Apart:
    """A driver and a generator with a RAM between them, which is used as a World."""

    def __init__(self, rom):
        self.rom, self.ram, self.sent = rom, bytearray(2048), False
        self.driver, self.generator = Driver(rom), Generator()

    @property
    def strokes(self):
        return self.generator.strokes

    @property
    def beam(self):
        return self.generator.beam

    def offer(self, draft):
        return self.driver.offer(draft)

    def redraw(self):
        return self.driver.redraw()

    def tick(self):
        entry = self.driver.tick(self.generator.halted, self.ram[1])
        if entry.kind is Kind.WROTE:
            self.ram[entry.address] = entry.value
        self.sent = self.sent or entry.kind is Kind.SENT
        return entry

    def strobe(self):
        if not self.sent:
            raise g.NoStrobe("none was sent")
        return self.generator.strobe()

    def fetch(self):
        return self.generator.fetch_from(self.ram, self.rom)

    def reset_generator(self):
        return self.generator.reset()

    def reset_processor(self):
        return self.driver.reset()

    def reset_all(self, ram):
        self.ram[:], self.sent = ram, False
        self.generator.reset()
        return self.driver.reset()

    def close(self):
        self.driver.close(), self.generator.close()


def random_schedule(chance, rom):
    """Events, each as its lines of a trace and as what is called."""
    events = []
    while len(events) < 700:
        which = chance.randrange(44)
        many = chance.randint(1, 60)
        draft = random_draft(chance)
        offer = (f"offer\n{draft.text}end\n", "offer", (draft,))
        if which < 4:
            events.append(offer)
        elif which >= 40:
            # Mostly a picture.
            events += [("tick\n", "tick", ())] * 3 + [offer] + [("tick\n", "tick", ())] * 2 * many
            events += [("strobe\n", "strobe", ())] + [("fetch\n", "fetch", ())] * 2 * many
        elif which < 16:
            events += [("tick\n", "tick", ())] * many
        elif which < 20:
            events.append(("strobe\n", "strobe", ()))
        elif which < 34:
            events += [("fetch\n", "fetch", ())] * many
        elif which < 37:
            events.append(("redraw\n", "redraw", ()))
        elif which == 37:
            events.append(("resetgen\n", "reset_generator", ()))
        elif which == 38:
            events.append(("resetcpu\n", "reset_processor", ()))
        elif chance.random() < 0.5:
            byte = chance.randrange(256)
            events.append((f"resetall {byte:02X}\n", "reset_all", (bytes([byte]) * 2048,)))
    return events


def test_schedules(count):
    pictures = 0
    for number in range(count):
        chance = random.Random(SEED + number)
        rom = random_rom(chance)
        events = random_schedule(chance, rom)
        trace = rom_text(rom) + "".join(text for text, _, _ in events)
        wanted, error, status = dvg("play", "--all", text=trace)
        expect_same(("", 0), (error, status), "the program plays a schedule")
        pictures += wanted.count(" done ")
        seen = {World: [], Apart: []}
        for made in (World, Apart):
            world = made(rom)
            lines = []
            for at, (_, name, arguments) in enumerate(events):
                entry, *strokes = shown(world, lambda: getattr(world, name)(*arguments))
                lines += [f"{at} {entry}\n", *(f"{stroke}\n" for stroke in strokes)]
                seen[made].append(world.beam)
                if at % 50 == 0:
                    seen[made].append(bytes(world.ram))
            found = "".join(lines)
            if wanted != found:
                pairs = zip(wanted.splitlines(), found.splitlines())
                print(
                    next(
                        (f"  wanted {a}, found {b}" for a, b in pairs if a != b), "  one is longer"
                    ),
                )
            expect(wanted == found, f"schedule {SEED + number} by {made.__name__}")
            if made is World:
                expect_same(len(events), world.events, "each event is counted")
            world.close()
        expect(seen[World] == seen[Apart], f"RAM and beam in schedule {SEED + number}")
    expect(pictures >= count / 2, f"{count} schedules drew only {pictures} pictures")


def random_dump(chance):
    """A dump that mostly draws: vectors, jumps and calls, returns and HALTs."""
    size = 2048 + chance.choice(g.ROM_SIZES)
    made = []
    while len(made) < size // 2:
        which = chance.randrange(20)
        if which < 5:
            made += [
                chance.randrange(10) << 12 | chance.randrange(0x1000), chance.randrange(0x10000)
            ]
        elif which < 7:
            made += [0xA000 | chance.randrange(0x1000), chance.randrange(0x10000)]
        elif which < 8:
            made.append(0xC000 | chance.randrange(0xC00))
        elif which < 9:
            made.append(0xE000 | chance.randrange(0xC00))
        elif which < 10:
            made.append(0xD000)
        elif which < 12:
            made.append(0xB000)
        else:
            made.append(0xF000 | chance.randrange(0x1000))
    return words(*made[:size // 2])


def dump_text(dump, cap=g.MOST_WORDS):
    """What the module says of a dump, as the program does."""
    try:
        return f"{g.picture(dump, cap)}\n", 0
    except g.RunBroke as error:
        return f"broke {error.address:03X} {int(error.why)}\n", 1
    except g.Endless:
        return "endless\n", 1


def drawn_by_c(dump, cap=g.MOST_WORDS):
    """The same by dvg_draw."""
    ran = subprocess.run([DRAW, str(cap)], input=dump, capture_output=True, check=False)
    return ran.stdout.decode(), ran.returncode


def test_dumps_in_c(dump, wanted, status, what):
    expect_same((wanted, status), drawn_by_c(dump), f"{what} by dvg_draw")
    if wanted.startswith("picture"):
        size = int(wanted.split()[1])
        expect_same(
            (wanted, 0), drawn_by_c(dump, size), f"{what} by dvg_draw, with its words as the cap"
        )
        expect_same(
            ("endless\n", 1), drawn_by_c(dump, size - 1), f"{what} by dvg_draw, with a word less"
        )


def test_dumps(count):
    kinds = {"picture": 0, "broke": 0, "endless": 0}
    for number in range(count):
        dump = random_dump(random.Random(SEED + number))
        wanted, _, status = dvg("picture", text=dump)
        kinds[wanted.split()[0]] += 1
        if DRAW:
            test_dumps_in_c(dump, wanted, status, f"dump {SEED + number}")
        if number >= 20 and wanted == "endless\n":
            continue
        expect_same((wanted, status), dump_text(dump), f"dump {SEED + number}")
        if wanted.startswith("picture"):
            size = int(wanted.split()[1])
            expect_same(wanted, dump_text(dump, size)[0], "the cap is just large enough")
            expect_same("endless\n", dump_text(dump, size - 1)[0], "the cap is just too small")
    expect(min(kinds["picture"], kinds["broke"]) > count / 10, f"the dumps are all alike: {kinds}")
    if DRAW:
        expect_same(
            ("wrong size\n", 1), drawn_by_c(bytes(4095)), "a dump of a wrong size by dvg_draw"
        )


WRONG_LINES = (
    "wrote 4002 00", "wrote 002", "start", "started ", " started", "fetched 000 E00", "low 000",
    "halted now", "#" * 65, "wrote 00G 00", "started\r\r", "\u017ftarted",
)
ODD_LINES = ("STARTED", "Halted\r", "\r", "WROTE 40a 9f", "Fetched 000 e201\r", "# A remark\r")


def random_log(chance):
    lines = []
    for _ in range(chance.randint(1, 40)):
        which = chance.randrange(20)
        if which < 3:
            lines.append("started")
        elif which < 7:
            first = chance.random() < 0.7
            address = 0 if first else chance.randrange(0x1000)
            top = chance.choice((0xE000, 0xE000, 0xE000, chance.randrange(16) << 12))
            edge = chance.choice((0, 1, 0x1FF, 0x200, 0x201, 0x3FF, 0x400))
            word = top + chance.choice((chance.randrange(0x400), chance.randrange(0x1000), edge))
            lines.append(f"fetched {address:03X} {word:04X}")
        elif which < 8:
            lines.append(f"low {chance.randrange(0x1000):03X} {chance.randrange(256):02x}")
        elif which < 9:
            lines.append("halted")
        elif which < 10:
            lines.append("reset")
        elif which < 18:
            address = chance.choice(
                (chance.randrange(0x800), 0, 1, 2, 0x3FF, 0x400, 0x401, 0x402, 0x7FF)
            )
            lines.append(f"wrote {address:03X} {chance.randrange(256):02X}")
        elif which < 19:
            lines.append(chance.choice(("", "# a remark", "#" * 64)))
        else:
            lines.append(chance.choice(WRONG_LINES if chance.random() < 0.2 else ODD_LINES))
    return "\n".join(lines) + chance.choice(("", "\n"))


def log_text(log):
    """What the module says of a log, as the program does: standard output, and standard error."""
    try:
        return f"{g.judge(log)}", ""
    except g.BadLog as error:
        return "", f"dvg: syntax at line {error.line}"


def test_logs(count):
    kinds = {"not": 0, "no": 0, "torn": 0, "": 0}
    for number in range(count):
        log = random_log(random.Random(SEED + number))
        out, error, _ = dvg("torn", text=log)
        verdict = out.removesuffix("\n")
        fault = re.match(r"dvg: syntax at line \d+|", error)[0]
        kinds[verdict.split(" ")[0]] += 1
        expect_same((verdict, fault), log_text(log), f"log {SEED + number}")
        expect_same(log_text(log), log_text(io.StringIO(log, newline="\n")), "a log by its lines")
    expect(min(kinds.values()) > count / 20, f"the logs are all alike: {kinds}")
    verdict = g.judge(
        "started\nfetched 000 E201\nwrote 002 00\nhalted\nstarted\nreset\nwrote 402 00\n"
    )
    expect_same(g.Verdict(None, 2, 1, 1, 2), verdict, "what a log tells is counted")
    expect_same("not torn: 2 runs, 1 drew a half, 1 halted, 2 writes", str(verdict), "and written")
    for log in ("", "started\n", "wrote 402 90\n", "started\nfetched 000 01E2\nhalted\n"):
        expect_same(0, g.judge(log).drew, "a log in which no run drew a half")
    verdict = g.judge("started\nfetched 000 E201\nwrote 402 90\nhalted\n")
    expect_same(
        (g.Torn(3, 0x402, 0x90), 0), (verdict.torn, verdict.halted), "nothing is read after a tear"
    )
    text = "torn at line 3: wrote 402 90\nso far: 1 runs, 1 drew a half, 0 halted, 1 writes"
    expect_same(text, str(verdict), "its text")
    expect_same(
        2,
        expect_raises(g.BadLog, lambda: g.judge("started\nwrote 800 00\n")).line,
        "beyond the RAM",
    )
    judge = g.Judge()
    judge.started(), judge.fetched(0, 0xE001)
    expect_same(
        [True, False], [judge.wrote(2), judge.wrote(0x402)], "a judge is told a line at a time"
    )
    expect_raises(g.BadByte, lambda: judge.wrote(2048))
    expect_raises(g.BadByte, lambda: judge.wrote(0, 256))
    judge.reset()
    expect_same(False, judge.wrote(2), "after a reset nothing is drawn")


def test_svg(count):
    awk = TOP / "tests" / "svg.awk"
    for number in range(count):
        chance = random.Random(SEED + number)
        place = lambda: chance.choice((chance.randrange(2097152), 0, 2097151, 1048576))
        strokes = [
            g.Stroke(place(), place(), place(), place(), chance.randint(1, 15)) for _ in range(6)
        ]
        strokes.append(strokes[0]._replace(x1=strokes[0].x0, y1=strokes[0].y0))
        text = f"{g.Picture(9, strokes)}\n".encode()
        units = chance.choice((1024, 4096))
        wanted = subprocess.run(
            ["awk", "-v", f"units={units}", "-f", awk], input=text, capture_output=True, check=False
        )
        expect_same(wanted.stdout.decode(), g.svg(strokes, units), f"the SVG {SEED + number}")


# --- The script ---


def script(*arguments, **environment):
    ran = subprocess.run(
        [sys.executable, str(TOP / "python" / "gerbilargent.py"), *arguments],
        capture_output=True, text=True, check=False, env={**os.environ, **environment},
    )
    return ran.stdout, ran.stderr, ran.returncode


# The first picture as SVG: y goes up, so 400 units stand at 1,023 - 400 pixels.
FIRST_SVG = """\
<svg xmlns="http://www.w3.org/2000/svg" width="1024" height="1024" \
viewBox="-256 -256 524288 524288">
<rect x="-256" y="-256" width="524288" height="524288"/>
<g transform="matrix(1 0 0 -1 0 523776)" fill="#fff" stroke="#fff" stroke-width="1024" \
stroke-linecap="round">
<line x1="262144" y1="204800" x2="210944" y2="256000" opacity="0.60"/>
</g>
</svg>
"""


def test_script():
    with tempfile.TemporaryDirectory() as folder:
        dump, log, bad = Path(folder, "dump"), Path(folder, "log"), Path(folder, "bad")
        first = "picture 6 1\n262144 204800 210944 256000 7\n"
        expect_same((first, "", 0), script(), "the first picture")
        expect_same(FIRST_SVG, script("--svg")[0], "the same as SVG")
        expect_same(0, script("--help")[2], "help")
        expect("--dump" in script("--help")[0], "help names what there is")
        expect_same(2, script("--nonsense")[2], "an option that isn't there")
        dump.write_bytes(words(0xE001, 0xA190, 0x0200, 0x9064, 0x7464, 0xB000).ljust(4096, b"\0"))
        expect_same((first, "", 0), script("--dump", str(dump)), "a dump")
        dump.write_bytes(bytes(4095))
        expect_same(1, script("--dump", str(dump))[2], "a dump of a wrong size")
        expect_same(1, script("--dump", str(bad))[2], "a dump that isn't there")
        log.write_text("started\nfetched 000 E001\nwrote 002 00\n")
        printed = "torn at line 3: wrote 002 00\n"
        printed += "so far: 1 runs, 1 drew a half, 0 halted, 1 writes\n"
        expect_same((printed, "", 1), script("--log", str(log)), "a torn log")
        log.write_text("started\nfetched 000 E001\nhalted\n")
        printed = "not torn: 1 runs, 1 drew a half, 1 halted, 0 writes\n"
        expect_same((printed, "", 0), script("--log", str(log)), "a log that isn't torn")
        log.write_text("started\n")
        printed = "no run drew a half: 1 runs, 0 drew a half, 0 halted, 0 writes\n"
        expect_same((printed, "", 1), script("--log", str(log)), "a log in which no run drew one")
        log.write_bytes(b"started\r\n\xff")
        out, error, status = script("--log", str(log))
        expect(status == 1 and "syntax at line 2" in error and out == "", "a log at fault")
        out, error, status = script(DVG_LIBRARY=str(bad))
        expect(
            status == 70 and "./lib" in error and "Traceback" not in error, "no library names ./lib"
        )
        bad.write_text("no library")
        out, error, status = script(DVG_LIBRARY=str(bad))
        expect(
            status == 70 and "./lib" in error and "Traceback" not in error,
            "what isn't a library names ./lib",
        )
        os.environ["DVG_LIBRARY"], kept = str(Path(folder, "none")), os.environ["DVG_LIBRARY"]
        expect_raises(g.LibraryMissing, World)
        os.environ["DVG_LIBRARY"] = ""
        expect_same(
            TOP / "build" / "libdvg.so", g.library_path(), "where the library is looked for"
        )
        os.environ["DVG_LIBRARY"] = kept
        with contextlib.redirect_stdout(io.StringIO()) as out:
            status = g.main([])
        expect_same((first, 0), (out.getvalue(), status), "main from Python")
    dropped = "import gerbilargent as g; from gerbilargent import *; World().tick()"
    ran = subprocess.run(
        [sys.executable, "-W", "error", "-c", dropped], capture_output=True, text=True, check=False,
        env={**os.environ, "PYTHONPATH": str(TOP / "python")},
    )
    expect_same(
        ("", 0),
        (ran.stderr, ran.returncode),
        "a world that is only dropped is closed without a warning",
    )
    for name in g.__all__:
        expect(hasattr(g, name), f"{name} is there")


def test_texts():
    """Each kind, fault and break has a text: those of the header."""
    header = (TOP / "include" / "dvg.h").read_text()
    for prefix, kinds in (("DVG_", Kind), ("DVG_FAULT_", Fault), ("DVG_BREAK_", Break)):
        for kind in kinds:
            text = re.search(rf'case {prefix}{kind.name}: return "([^"]*)"', header)
            expect_same(text and text[1], kind.text, f"the text of {kind.name}")
            number = re.search(rf"\b{prefix}{kind.name} = (\d+)", header)
            expect_same(number and int(number[1]), int(kind), f"the number of {kind.name}")
    for event in g.Event:
        expect_same(g._Request[event.name], int(event), f"the number of the event {event.name}")
    for request in g._Request:
        number = re.search(rf"\bDVG_REQUEST_{request.name} = (\d+)", header)
        expect_same(number and int(number[1]), int(request), f"the request {request.name}")


test_world()
test_names()
test_freeing()
test_driver()
test_generator()
test_moves()
test_saving()
test_saving_wrapping()
test_saving_worlds()
test_saving_many()
test_moment_judge()
test_refusals()
test_no_memory()
test_kinds()
test_run()
test_shown()
test_ranges()
test_schedules(60)
test_dumps(200)
test_logs(300)
test_svg(20)
test_script()
test_texts()
counts.finish()
