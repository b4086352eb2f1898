"""Tests what an object of python/gerbilargent.py is to Python, for each class: copies, pickles,
`with`, subclasses, cycles, forks, threads, signals, objects that `__init__` didn't make, what
`help` and `repr` show; and then a storm of random calls.

    objects.py [SECONDS [SEED]]          a storm of so many seconds; none without SECONDS

The shared library is build/libdvg.so, or the one that DVG_LIBRARY names. The module is that of
python/, or of the folder that DVG_MODULE names. The library is watched: each device must be freed
once and used until then alone, in one call at a time, and none may be left. Each call of the storm
must return, or raise what is below Error, or what Python says of too few or too many words. The
storm goes in rounds, and each has a seed of its own, which is printed where it fails:
`objects.py 1 SEED` begins with that round. The last line is 'N passed, M failed'.
"""

import asyncio
import collections
import copy
import gc
import inspect
import itertools
import os
import pickle
import random
import re
import signal
import sys
import threading
import time
from pathlib import Path

import embed_states as states

TOP = Path(__file__).resolve().parents[3]
sys.path[:0] = [os.environ.get("DVG_MODULE", str(TOP / "python")), str(TOP / "tests")]
import counts  # noqa: E402
import gerbilargent as g  # noqa: E402
from counts import expect  # noqa: E402
from gerbilargent import Draft, Driver, Entry, Event, Generator, Kind  # noqa: E402
from gerbilargent import MomentJudge, World  # noqa: E402

os.environ.setdefault("DVG_LIBRARY", str(TOP / "build" / "libdvg.so"))


def raised(call, *words):
    """What a call raises, or None."""
    try:
        call(*words)
    except BaseException as error:  # what it is the caller looks at
        return error
    return None


def expect_raises(kind, call, what):
    error = raised(call)
    expect(type(error) is kind and str(error), f"{what}: {kind.__name__}, not {error!r}")


# --- The library, watched ---


class Watched:
    """The library, which says what is done to a device that isn't there, or is in a call."""

    def __init__(self, library):
        self.library = library
        self.alive, self.made, self.wrong = {}, 0, []
        self.in_call = {}
        self.amid = None

    def dvg_new(self, place):
        status = self.library.dvg_new(place)
        self.made += status == 0
        if status == 0:
            self.alive[place._obj.value] = True
        return status

    def dvg_free(self, device):
        if device.value in self.in_call:
            self.wrong.append("what is in a call is freed")
        if self.alive.pop(device.value, None) is None:
            self.wrong.append("what isn't there is freed")
            return
        self.library.dvg_free(device)

    def __getattr__(self, name):
        """Each other call: that of a device is watched."""
        call = getattr(self.library, name)

        def made(*words):
            if isinstance(words[0], g.ctypes.c_void_p):
                return self.watched(words[0], lambda: call(*words))
            return call(*words)

        return made

    def watched(self, device, call):
        """One call of the library, if that does no harm."""
        here = object()
        if device.value not in self.alive:
            self.wrong.append("what isn't there is used")
            return 0xFF
        if self.in_call.setdefault(device.value, here) is not here:
            self.wrong.append("two calls at once")
            return 0xFF
        try:
            if self.amid:
                self.amid()
            return call()
        finally:
            self.in_call.pop(device.value, None)


library = Watched(g._load(g.library_path()))
g._load = lambda path: library


def expect_none_left(what):
    gc.collect()
    expect(not library.alive, f"{what}: {len(library.alive)} devices are left")
    expect(not library.wrong, f"{what}: {library.wrong[:3]}")
    library.wrong.clear()
    library.alive.clear()


# --- What each class has ---

RAM = bytes([0x01, 0xE2]).ljust(2048, b"\0")
FRAME = Draft().labs(512, 400).vctr(9, -100, 100, 7).halt()
SAVED = b"DVG\x01" + b"\x01\0\0\0" + b"\x23" + bytes(7)
SAVED_WORLD = b"DVW\x01" + b"\x02\x01\0\0" + RAM + b"\x23" + bytes(7) + b"\x26" + bytes(7)

CLASSES = (World, Driver, Generator, MomentJudge)

#: The calls of each class, with words that they take.
CALLS = {
    World: {
        "run": ([Event.TICK],), "offer": (FRAME,), "redraw": (), "tick": (), "strobe": (),
        "fetch": (), "reset_generator": (), "reset_processor": (), "reset_all": (),
        "draw": (FRAME,), "ram": None, "halted": None, "beam": None, "strokes": None,
        "stroke_table": None, "save": (), "restore": (SAVED_WORLD,), "_repr_svg_": (),
        "run_to_halt": (9,), "__enter__": (),
    },
    Driver: {
        "tick": (True, 0), "offer": (FRAME,), "redraw": (), "reset": (), "strokes": None,
        "stroke_table": None, "__enter__": (),
    },
    Generator: {
        "strobe": (), "fetch": (0,), "hole": (), "fetch_from": (RAM,), "draw": (RAM,),
        "reset": (), "move_by": (0,), "save": (), "restore": (SAVED,), "copy": (),
        "take_strokes": (), "run_to_halt": (RAM,),
        "wanted": None, "halted": None, "beam": None, "first_word": None,
        "return_addresses": None, "strokes": None, "stroke_table": None, "__enter__": (),
        "__copy__": (),
    },
    MomentJudge: {
        "tell": (Entry(Kind.STARTED),), "started": (), "wrote": (0, 0), "low": (0, 0),
        "fetched": (0, 0), "done": (0, 0xB000), "reset_generator": (), "reset_processor": (),
        "reset_all": (), "strokes": None, "stroke_table": None, "__enter__": (),
    },
}
#: The calls that let a run go on for so many words or steps.
COUNTED = {"draw", "run_to_halt"}
#: What needs no open object.
ALWAYS = {"close", "wraps", "events"}


def ask(thing, name, words):
    """A call, or a property where there are no words."""
    found = getattr(thing, name)
    return found if words is None else found(*words)


def calls_of(kind):
    return CALLS[kind].items()


def test_calls():
    """The tables above name each call."""
    for kind in CLASSES:
        public = {name for name in dir(kind) if not name.startswith("_")} - ALWAYS
        listed = {name for name in CALLS[kind] if not name.startswith("_")}
        expect(public == listed, f"{kind.__name__}: {public ^ listed} isn't tested")
        with kind() as thing:
            for name, words in calls_of(kind):
                error = raised(ask, thing, name, words)
                expect(error is None or isinstance(error, g.Error), f"{name}: {error!r}")
    expect_none_left("each call")


def test_copies():
    for kind in CLASSES:
        name = kind.__name__
        thing = kind()
        if kind is not Generator:
            expect_raises(g.NotCopied, lambda: copy.copy(thing), f"a copy of a {name}")
            expect_raises(g.NotCopied, lambda: copy.deepcopy(thing), f"a deep copy of a {name}")
            expect_raises(g.NotCopied, lambda: copy.deepcopy([{1: thing}]), f"one amid: {name}")
            for call in (copy.copy, copy.deepcopy):
                expect(str(raised(call, thing)) == f"a {name} isn't copied", "it names the class")
        for protocol in range(pickle.HIGHEST_PROTOCOL + 1):
            expect_raises(
                g.NotCopied, lambda: pickle.dumps(thing, protocol), f"a pickle of a {name}"
            )
        expect(issubclass(g.NotCopied, TypeError), "Python's users expect a TypeError")
        if hasattr(copy, "replace"):
            expect(type(raised(copy.replace, thing)) is TypeError, f"a {name} is replaced")
        expect_raises(g.NotCopied, lambda: copy.deepcopy(vars(thing)), f"what a {name} has")
        other = kind.__new__(kind)
        vars(other).update(vars(thing))
        del other
        thing.close()
        thing.close()
        expect_raises(g.Closed, thing.__enter__, f"a closed {name}")
        del thing
    expect_none_left("copies")


def test_copies_of_generators():
    with Generator() as first:
        first.strobe()
        first.fetch(0x90)
        pair = copy.deepcopy([first, first])
        others = [copy.copy(first), copy.deepcopy(first), pair[0]]
        expect(pair[0] is pair[1], "two of one are two of one copy")
        for other in others:
            expect(other.save() == first.save(), "a copy stands where the first does")
            other.fetch(0x90)
            expect(other.save() != first.save(), "and goes on alone")
            other.close()
    with Generator(wraps=True) as wrapping:
        wrapping.strobe()
        for call in (copy.copy, copy.deepcopy):
            with call(wrapping) as other:
                expect(other.wraps and other.save() == wrapping.save(), "a copy wraps, too")
        expect(type(raised(setattr, wrapping, "wraps", False)) is AttributeError, "wraps is read")
        expect(wrapping.wraps, "it still wraps")
    del others, other, pair
    expect_none_left("copies of generators")


def test_copies_of_drafts():
    draft = Draft().labs(1, 2)
    for other in (copy.copy(draft), copy.deepcopy(draft), pickle.loads(pickle.dumps(draft))):
        expect(other == draft, "a copy of a draft")
        other.halt()
        expect((len(draft), len(other)) == (1, 2), "goes on alone")
    expect(len(Draft.__new__(Draft).halt()) == 1, "a draft without `__init__`")
    error = raised(World().offer, Draft())
    for other in (copy.copy(error), pickle.loads(pickle.dumps(error))):
        expect(str(other) == str(error) == "1 empty", "errors are copied")
    del error, other
    expect_none_left("copies of drafts")


def test_copies_of_values():
    """What stands on no device is copied and pickled as any value."""
    judge = g.Judge()
    judge.started()
    judge.fetched(0, 0xE201)
    with Generator() as generator:
        generator.strobe()
        values = [generator.wanted, generator.beam, generator.fetch(0x90), World().draw(FRAME)]
    values += [g.judge("started\nfetched 000 E201\nwrote 402 90\n"), g.Picture(1, values[3]),
               next(iter(FRAME)), g.RunBroke(5, g.Break.HOLE)]
    for value in values:
        for other in (copy.copy(value), copy.deepcopy(value), pickle.loads(pickle.dumps(value))):
            same = other == value or isinstance(value, Exception)
            expect(type(other) is type(value) and same, f"a copy of {value!r}")
            expect(str(other) == str(value), f"the text of a copy of {value!r}")
    for other in (copy.copy(judge), copy.deepcopy(judge), pickle.loads(pickle.dumps(judge))):
        expect(other.wrote(0x402) and not other.wrote(0x002), "a copy of a judge goes on alike")
        expect((judge.writes, other.writes) == (0, 2), "and alone")
    expect_none_left("copies of values")


# --- `with`, subclasses, cycles, half-made objects ---


def test_with():
    for kind in CLASSES:
        with kind() as thing:
            pass
        for name, words in calls_of(kind):
            expect_raises(g.Closed, lambda: ask(thing, name, words), f"{kind.__name__}.{name}")
        with kind() as thing:
            thing.close()
        error = ZeroDivisionError()

        def leave():
            with kind() as inner:
                vars(error)["inner"] = inner
                raise error

        expect(raised(leave) is error, "what is raised within `with` comes out")
        expect(error.inner._handle.device is None, "and it is closed")
        error.__traceback__ = None
    expect_none_left("with")


def test_subclasses():
    for kind in CLASSES:
        class Own(kind):
            def __init__(self):
                super().__init__()
                self.own = self

        class Forgets(kind):
            def __init__(self):
                pass

        thing = Own()
        for name, words in calls_of(kind):
            error = raised(ask, thing, name, words)
            expect(error is None or isinstance(error, g.Error), f"Own.{name}: {error!r}")
        if kind is Generator:
            expect(type(copy.copy(thing)) is Generator, "a copy of a subclass is a Generator")
        else:
            error = raised(copy.copy, thing)
            expect(type(error) is g.NotCopied and "Own" in str(error), "a refusal names it")
            del error
        del thing  # which is in a cycle
        for half in (Forgets(), kind.__new__(kind), object.__new__(kind)):
            for name, words in calls_of(kind):
                expect_raises(g.Closed, lambda: ask(half, name, words), f"half-made: {name}")
            expect("closed" in repr(half), "one that was never opened")
            half.close()
        expect_none_left(f"subclasses of {kind.__name__}")
    expect(raised(g.Judge.__new__(g.Judge).started) is None, "a Judge without `__init__`")
    half = Driver.__new__(Driver)

    class Opens:
        def __bool__(self):
            half.__init__()
            return True

    expect_raises(g.Closed, lambda: half.tick(Opens(), 0), "one that is opened amid its call")
    del half
    expect_none_left("half-made objects")


def test_cycles():
    for kind in CLASSES:
        before = library.made
        first, second = kind(), kind()
        first.other, second.other = second, first
        held = [first]
        held.append(held)
        del first, second, held
        gc.collect()
        expect(library.made == before + 2, "two are made")
        expect_none_left(f"a cycle of {kind.__name__}")
        thing = kind()
        expect_raises(g.Opened, thing.__init__, f"a {kind.__name__} is opened twice")
        gc.collect()
        expect(len(library.alive) == 1 and works(thing), "and it has one device, and is used")
        del thing
        expect_none_left(f"`__init__` again of {kind.__name__}")


def test_failing():
    """What can't be opened leaves nothing."""
    for call in (lambda: World(bytes(1)), lambda: World(ram=bytes(1)), lambda: Driver(None, 1)):
        expect(isinstance(raised(call), (g.Error, TypeError)), "wrong words")
    real = library.library

    class Refusing:
        """The library, whose memory is refused."""
        dvg_new, dvg_free = real.dvg_new, real.dvg_free
        dvg_turn = staticmethod(lambda device, request: int(Kind.NO_MEMORY))
        dvg_open_world = dvg_open_driver = staticmethod(lambda *words: g._Answer(Kind.NO_MEMORY))

    for kind in CLASSES:
        library.library = Refusing
        expect_raises(g.OutOfMemory, kind, f"a {kind.__name__} without memory")
        half = kind.__new__(kind)
        raised(half.__init__)
        library.library = real
        expect_raises(g.Closed, half.__enter__, "what couldn't be opened")
        del half
    expect_none_left("what can't be opened")


# --- What is asked and answered ---

#: The requests whose answers are whole numbers, each bit of which says something.
NUMBERS = {g._Request[name] for name in (
    "STROKES", "STROKE_FROM", "STROKE_TO", "STROKE_INTENSITY", "MOVE_TO", "BEAM", "STATE",
)}


class Later:
    """A later library: in its answers bits are set that say nothing today."""

    def __init__(self, library):
        self.library = library

    def __getattr__(self, name):
        return getattr(self.library, name)

    def dvg_turn(self, device, request):
        answer = self.library.dvg_turn(device, request)
        return answer if request & 0xFF in NUMBERS else answer | 7 << 61

    def dvg_turns(self, device, at, answers, count):
        numbers = (g.ctypes.c_uint64 * count).from_address(at)
        requests = list(numbers)
        asked = self.library.dvg_turns(device, at, answers, count)
        for number, request in enumerate(requests[:asked]):
            if request & 0xFF not in NUMBERS:
                numbers[number] |= 7 << 61
        return asked


def returned():
    """What calls of each class return."""
    with World() as world, Generator() as generator, Driver() as driver, MomentJudge() as judge:
        drawn = world.draw(FRAME)
        events = [Event.REDRAW] + [Event.TICK] * 9 + [Event.STROBE] + [Event.FETCH] * 99
        entries = world.run(events)
        told = [judge.tell(entry) for entry in entries]
        generator.strobe()
        fetched = [(generator.fetch_from(world.ram), generator.wanted, generator.first_word)
                   for _ in range(9)]
        return (
            drawn, entries, told, fetched, world.tick(), world.halted, world.beam, world.strokes,
            world.ram, world.save(), driver.tick(True, 0), generator.move_by(0x90),
            generator.return_addresses, generator.beam, generator.save(),
            generator.draw(world.ram), repr(world),
        )


def test_answers():
    """Bits of an answer that say nothing are passed over."""
    wanted = returned()
    expect(sum(entry.kind is Kind.DONE for entry in wanted[1]) == 1, "a picture is drawn")
    real = library.library
    library.library = Later(real)
    try:
        found = returned()
    finally:
        library.library = real
    for number, (theirs, ours) in enumerate(zip(found, wanted)):
        expect(theirs == ours, f"{number}: a later library returns {theirs!r}, not {ours!r}")
    expect_none_left("a later library")


def test_counts():
    """What is no count is refused."""
    for call in (
        lambda: g.svg([], 0), lambda: g.svg([], -5), lambda: g.svg([], 4097),
        lambda: g.picture(bytes(4096), -1), lambda: Generator().draw(RAM, most_words=-1),
        lambda: World().run_to_halt(-1), lambda: Generator().run_to_halt(RAM, None, -1),
    ):
        expect_raises(g.BadCount, call, "a count out of its range")
    expect(str(raised(g.svg, [], 0)) == "units is 0, and must be 1 to 4096", "it says the range")
    expect_raises(g.Endless, lambda: Generator().draw(RAM, most_words=0), "no words")
    expect("<svg" in g.svg([], 1) and "<svg" in g.svg([], 4096), "the ends of the range")
    expect_none_left("counts")


def test_taken_strokes():
    """Strokes that are taken of a run, and those that it draws after that, are all of them."""
    with World() as world, Generator() as whole, Generator(wraps=True) as parts:
        frame = Draft().labs(100, 200)
        for z in range(1, 16):
            frame.vctr(9, 10 * z, -20 * z, z)
        world.draw(frame.halt())
        memory, taken = world.ram, []
        wanted = whole.draw(memory).strokes
        parts.strobe()
        for number in itertools.count():
            entry = parts.fetch_from(memory)
            if number % 9 == 0 and entry.kind is not Kind.DONE:
                taken.append(parts.take_strokes())
            if entry.kind is Kind.DONE:
                break
        expect(sum(map(bool, taken)) > 3, "strokes are taken in pieces")
        expect(sum(taken, []) + parts.strokes == wanted == world.strokes, "which are all of them")
        expect(parts.take_strokes() == [] and parts.strokes, "after a run there are none to take")
        expect(parts.wraps and len(parts.return_addresses) == 4, "and it is of the same kind")
    expect_none_left("strokes that are taken")


def words(*values):
    """Words as bytes, low bytes first."""
    return b"".join(value.to_bytes(2, "little") for value in values)


def test_run_to_halt():
    """A world, and a generator alone, go on to the end of a run."""
    with World() as world, World() as other:
        expect((world.run_to_halt(0), world.events) == (None, 0), "of no steps nothing comes")
        expect((world.run_to_halt(99), world.events) == (None, 6), "it ends where nothing is to do")
        world.offer(FRAME)
        expect(world.run_to_halt(5) is None, "a frame is being written")
        other.restore(world.save())
        for one, events in ((world, 58), (other, 41)):
            # Of the other ticks seven write, one reads the flag, and one sends the strobe, with
            # which the first of twelve bytes is fetched.
            expect(one.run_to_halt(19) is None, "a run doesn't end before its last step")
            expect(str(one.run_to_halt(1)) == "done 205 B000 1", "and ends with it")
            expect(one.strokes == [g.Stroke(262144, 204800, 210944, 256000, 7)], "it has drawn")
            expect(one.events == events, f"{one.events} events are counted, not {events}")
        world.redraw()
        expect(world.run_to_halt(1 << 70).strokes == 1, "a redraw has it draw again")
    with World(words(*[0xD000] * 1024)) as world, World(words(*[0xF000] * 1024)) as other:
        world.run_to_halt(9), world.offer(Draft().labs(0, 0).call_rom(0x800).halt())
        world.run_to_halt(12)
        other.restore(states.first_of(world.save()))
        error = raised(other.run_to_halt, 5000)
        expect(type(error) is g.RunBroke and error.address == 0xC00, f"over another ROM: {error!r}")
    memory = words(0xE001, 0xA190, 0x3200, 0xF1F5, 0xB000).ljust(2048, b"\0")
    with Generator() as whole, Generator() as later:
        expect_raises(g.Halted, lambda: whole.run_to_halt(memory), "no run is open")
        wanted = whole.draw(memory)
        later.strobe()
        for _ in range(5):
            later.fetch_from(memory)
        found = later.run_to_halt(memory)
        expect(found == g.Picture(wanted.words - 2, wanted.strokes), f"amid a word: {found!r}")
        later.strobe()
        error = raised(later.run_to_halt, words(0xE000) * 1024, None, 9)
        expect(type(error) is g.Endless and error.words == 9, f"a run without an end: {error!r}")
        endless = words(0x9064, 0x7464, 0xE000).ljust(2048, b"\0")
        later.strobe()
        expect_raises(g.Endless, lambda: later.run_to_halt(endless, None, 1500), "and a longer one")
        whole.restore(later.save())
        expect(whole.take_strokes() == later.take_strokes() != [], "a state of many strokes")
        expect_raises(g.Endless, lambda: later.run_to_halt(endless, None, 1500), "it goes on")
        expect(len(later.take_strokes()) == 500, "and draws as many")
    del error
    expect_none_left("runs to the HALT")


def test_reasons():
    """Why bytes aren't restored."""
    why = g.StateFault
    with World() as world, Generator() as generator, World(words(*[0xC800] * 1024)) as other:
        named, summed = world.save(), generator.save()
        saved, state = states.first_of(named), states.first_of(summed)
        world.run([Event.TICK] * 2 + [Draft().labs(0, 0).call_rom(0x800).halt()])
        writing = states.first_of(world.save())
        for thing, held, reason in (
            (world, b"", why.BROKEN), (world, saved[:-8], why.BROKEN),
            (world, saved + bytes(8), why.BROKEN), (world, b"GIF8" + saved[4:], why.BROKEN),
            (generator, state[:2] + b"X" + state[3:], why.BROKEN),
            (generator, b"DVG\1" + bytes(4), why.BROKEN),
            (world, named[:-8], why.BROKEN), (world, saved[:3] + b"\2" + saved[4:], why.BROKEN),
            (generator, states.summed(b"DVG\2\2" + bytes(19)), why.BROKEN),
            (world, states.summed(named, 3), why.OTHER_VERSION),
            (generator, states.summed(summed, 0), why.OTHER_VERSION),
            (world, summed, why.OTHER_CLASS), (generator, named, why.OTHER_CLASS),
            (world, state, why.OTHER_CLASS), (generator, saved, why.OTHER_CLASS),
            (other, named, why.OTHER_ROM), (other, states.second_of(saved, 1), why.OTHER_ROM),
            (world, states.second_of(saved, 1), why.OTHER_ROM),
            (world, saved[:-7] + b"\7" + saved[-6:], why.PARTS),
            (generator, state[:9] + b"\1" + state[10:], why.PARTS),
            (generator, state[:18] + b"\xff" * 6, why.PARTS), (other, writing, why.PARTS),
            (other, states.second_of(writing), why.PARTS),
        ):
            for _ in range(2):
                error = raised(thing.restore, held)
                expect(type(error) is g.BadState and error.reason is reason,
                       f"{held[-16:]!r}: {error!r}, and not {reason}")
        for thing, held in ((world, named), (generator, summed)):
            for bit in range(8 * len(held)) if thing is generator else range(0, 8 * len(held), 97):
                number = int.from_bytes(held, "little") ^ 1 << bit
                error = raised(thing.restore, number.to_bytes(len(held), "little"))
                expect(type(error) is g.BadState and error.reason is why.BROKEN,
                       f"bit {bit}: {error!r}")
        for held in (saved, named, states.second_of(saved)):
            world.restore(held)
            expect(world.save() == named, "each version is restored")
    expect(why.NO_STATE is why.BROKEN, "an older name of a broken state")
    digest = library.dvg_digest(b"foobar", 6)
    expect(digest == 0x85944171F73967E8 == states.digest(b"foobar"), "FNV-1a")
    text = "bytes aren't restored: they are of another version"
    expect(str(g.BadState(why.OTHER_VERSION)) == text, "it says why")
    del error, thing
    expect_none_left("reasons")


def test_shown():
    """Each name says what it is, and each object what it is at."""
    for name in g.__all__:
        thing = getattr(g, name)
        calls = vars(thing) if isinstance(thing, type) else {}
        if calls or inspect.isfunction(thing):
            expect(inspect.getdoc(thing), f"{name} has no doc")
        for call, found in calls.items():
            if call[0] != "_" and (inspect.isfunction(found) or isinstance(found, property)):
                expect(found.__doc__, f"{name}.{call} has no doc")
    judge = g.judge("started\nfetched 000 E201\nwrote 002 90\nhalted\n")
    expect(str(judge).endswith("1 runs, 1 drew a half, 1 halted, 1 writes"), "a verdict")
    one = g.Judge()
    one.started(), one.fetched(0, 0xE201), one.wrote(2)
    expect(repr(one) == "<Judge, 1 runs, 1 drew a half, 0 halted, 1 writes>", repr(one))
    with World() as world, Generator() as generator, Generator(True) as wraps, Driver() as driver:
        shown = [repr(it) for it in (world, generator, wraps, driver)]
        expect(shown == ["<World, 0 events>", "<Generator>", "<Generator, wraps>", "<Driver>"],
               f"{shown}")
    expect(repr(wraps) == "<Generator, wraps, closed>", "one that was closed")
    draft = Draft().labs(1, 2, 3).vctr(9, -100, 100, 7).svec(2, -3, 3, 0).call(4).jump(5)
    draft.call_rom(0x800).jump_rom(0xFFF).return_().halt()
    text = "labs 1 2 3\nvctr 9 -100 100 7\nsvec 2 -3 3 0\ncall 4\njump 5\n"
    expect(draft.text == text + "callrom 800\njumprom FFF\nreturn\nhalt\n", draft.text)
    del world, generator, wraps, driver
    expect_none_left("what is shown")


# --- Forks, threads, signals ---


def works(thing):
    """Whether each call of an object returns or is refused."""
    errors = [raised(ask, thing, name, words) for name, words in calls_of(type(thing))]
    return all(error is None or isinstance(error, g.Error) for error in errors)


def test_forks():
    for kind in CLASSES:
        thing = kind()
        child = os.fork()
        if child == 0:
            fine = works(thing)
            thing.close()
            os._exit(0 if fine and raised(thing.__enter__) is not None else 1)
        expect(os.waitpid(child, 0)[1] == 0, f"a {kind.__name__} in a fork")
        expect(works(thing), f"and the first {kind.__name__} after it")
        thing.close()
    del thing
    expect_none_left("forks")


def in_thread(call):
    """What a call answers in a thread of its own, which has ended then."""
    found = []
    thread = threading.Thread(target=lambda: found.append(call()))
    thread.start()
    thread.join()
    return found[0] if found else None


def test_ended_threads():
    for kind in CLASSES:
        thing = in_thread(kind)
        expect(works(thing), f"a {kind.__name__} of a thread that has ended")
        expect(in_thread(lambda: works(thing)), "is used by another one")
        expect(in_thread(lambda: raised(thing.close)) is None, "and closed by a third")
        thing = in_thread(kind)
        del thing
        expect_none_left("threads that have ended")
    if hasattr(asyncio, "to_thread"):
        async def draws():
            with World() as world:
                return [len(await asyncio.to_thread(world.draw, FRAME)) for _ in range(3)]

        expect(asyncio.run(draws()) == [1, 1, 1], "a world in asyncio's threads")


def test_in_use():
    """A call that comes while another one runs is refused, by a thread and by a signal."""
    for kind in CLASSES:
        thing = kind()
        begun, go_on = threading.Event(), threading.Event()

        def wait():
            begun.set()
            go_on.wait()

        library.amid = wait
        name, words = next(iter(calls_of(kind)))
        thread = threading.Thread(target=raised, args=(ask, thing, name, words))
        thread.start()
        begun.wait()
        library.amid = None
        refused = {other: type(raised(ask, thing, other, held)) for other, held in calls_of(kind)}
        refused["close"] = type(raised(thing.close))
        refused.pop("__enter__")
        go_on.set()
        thread.join()
        lacking = [other for other, error in refused.items() if error is not g.InUse]
        expect(not lacking, f"{kind.__name__}: not refused amid a call: {lacking}")
        expect(works(thing), "and then it is used")
        del thing, thread
        expect_none_left("one call at a time")


def test_signals():
    world, found = World(), []
    signal.signal(signal.SIGUSR1, lambda *_: found.append(type(raised(world.tick))))

    def interrupt():
        library.amid = None
        os.kill(os.getpid(), signal.SIGUSR1)

    library.amid = interrupt
    expect(str(world.tick()) == "peek", "the call that was interrupted ends")
    expect(found == [g.InUse], f"a call in a signal handler amid a call: {found}")
    expect(world.events == 1, "and is no event")
    signal.signal(signal.SIGUSR1, signal.SIG_DFL)
    del world
    expect_none_left("signals")


# --- A memory's bytes ---


class Narrow(int):
    """A byte that keeps 8 bits where it is shifted, as an item of an array of another kind does."""

    def __lshift__(self, count):
        return Narrow(int(self) << count & 0xFF)


class Lying(list):
    """A sequence that has fewer items than it says."""

    def __len__(self):
        return 2048


def fetched(memory, count=4):
    """What a generator fetches from a RAM."""
    with Generator() as generator:
        generator.strobe()
        return [str(generator.fetch_from(memory)) for _ in range(count)]


def test_fetching():
    """Each byte is looked at that `fetch_from` is handed, whatever sequence that is of."""
    words = [0x90, 0xA1, 0x01, 0x02]
    wanted = ["low 000 90", "fetched 000 A190", "low 001 01", "fetched 001 0201"]
    whole = words + [0] * 2044
    for memory in (bytes(whole), bytearray(whole), memoryview(bytes(whole)), whole, tuple(whole),
                   list(map(Narrow, whole))):
        expect(fetched(memory) == wanted, f"from {type(memory).__name__}: {fetched(memory)}")
    wrong = {
        g.BadByte: ([256] * 2048, [-1] * 2048, [400] * 2048, [1 << 70] * 2048),
        g.NoInteger: ("a" * 2048, [1.0] * 2048, [None] * 2048, [b"a"] * 2048),
        g.NoBytes: ({n + 1: 0 for n in range(2048)}, set(range(2048)), Lying(), None, 7, print),
        g.WrongSize: ([], "", b"", {}, [0] * 2047, bytes(4096)),
    }
    for kind, memories in wrong.items():
        for memory in memories:
            expect_raises(kind, lambda: fetched(memory, 1), f"from {str(memory)[:20]}")
    with Generator() as generator:
        generator.strobe()
        expect_raises(g.BadByte, lambda: generator.fetch_from([256] * 2048), "256")
        expect(str(generator.fetch_from(bytes(whole))) == wanted[0], "and nothing has changed")
    try:
        import numpy
    except ImportError:
        print("skipped: arrays of NumPy: this Python has none")
    else:
        for kind in ("uint8", "uint16", "int64", "int8"):
            memory = numpy.array(whole).astype(kind)
            same = kind != "int8"
            found = fetched(memory) if same else type(raised(fetched, memory))
            expect(found == (wanted if same else g.BadByte), f"from an array of {kind}: {found}")
        expect_raises(g.BadByte, lambda: fetched(numpy.full(2048, 256)), "256 in an array")
        expect_raises(g.NoInteger, lambda: fetched(numpy.zeros(2048)), "an array of floats")
    expect_none_left("fetching")


def test_types():
    """What isn't of its type is refused below Error."""
    world, judge = World(), MomentJudge()
    for call, kind in (
        (lambda: world.offer(None), g.NoDraft), (lambda: world.draw([]), g.NoDraft),
        (lambda: Driver().offer(FRAME.requests()), g.NoDraft),
        (lambda: judge.tell(None), g.NoEvent), (lambda: judge.tell(Entry(6)), g.NoEvent),
        (lambda: judge.tell(Entry(Kind.WROTE, "a", 0)), g.NoInteger),
        (lambda: judge.tell(Entry(Kind.WROTE, 1 << 16, 0)), g.BadByte),
        (lambda: world.run(None), g.NoEvent), (lambda: world.run([3]), g.NoEvent),
        (lambda: g.judge(b"started"), g.NoText), (lambda: g.judge(None), g.NoText),
        (lambda: g.judge(["started", 7]), g.NoText),
        (lambda: g.Judge().fetched("a", 0), g.NoInteger),
        (lambda: g.Judge().fetched(0, 1 << 16), g.BadByte),
        (lambda: g.svg(None), g.NoStroke), (lambda: g.svg([None]), g.NoStroke),
        (lambda: g.svg([g.Stroke(0, 0, 1.5, 0, 1)]), g.NoInteger),
        (lambda: g.svg([], "a"), g.NoInteger),
    ):
        expect_raises(kind, call, kind.__name__)
    expect(world.events == 0, "what is no draft is no event")
    expect(type(raised(setattr, world, "events", "a")) is AttributeError, "events are read")
    released = memoryview(bytearray(2048))
    released.release()
    expect_raises(g.NoBytes, lambda: World(ram=released), "a view that was released")
    del world, judge
    expect_none_left("types")


# --- A storm ---

#: What Python says where a call has too few or too many words.
WORD_COUNT = re.compile(r"\(\) (takes|missing) .*positional argument")


class Storm:
    """A round of random calls of some objects, by three threads."""

    def __init__(self, seed):
        self.seed = seed
        self.chance = random.Random(seed)
        self.things = []
        self.errors = collections.Counter()
        self.wrong = []
        self.calls = 0

    def value(self, chance):
        """A word of a call, often of a type or a range that it isn't for."""
        def draft():
            made = Draft()
            for _ in range(chance.randrange(4)):
                raised(chance.choice((made.halt, made.return_)))
                raised(made.vctr, chance.randrange(-1, 11), chance.randrange(-1100, 1100), 5, 7)
                raised(made.labs, chance.randrange(5000), 5, 3)
            return chance.choice((made, FRAME, copy.copy(made)))

        makers = (
            lambda: None, lambda: chance.randrange(-2, 300), lambda: chance.randrange(1 << 70),
            lambda: chance.random(), lambda: "text", lambda: b"bytes", lambda: bytes(2048),
            lambda: bytearray(chance.randrange(256) for _ in range(2048)),
            lambda: memoryview(bytes(4096)), lambda: g.RETURNS, lambda: [256] * 2048,
            draft, draft, lambda: Event.TICK, lambda: [chance.choice(list(Event))] * 9,
            lambda: [draft(), Event.STROBE, chance.choice((None, Event.FETCH))], lambda: SAVED,
            lambda: Entry(chance.choice(list(Kind)), chance.randrange(1 << 17), 3),
            lambda: True, lambda: object, lambda: self.thing(chance), lambda: [0.5] * 2048,
            lambda: Lying(), lambda: RAM, lambda: SAVED_WORLD,
            lambda: SAVED_WORLD[:chance.randrange(2080)],
        )
        return chance.choice(makers)()

    def thing(self, chance):
        things = list(self.things)  # which another thread changes meanwhile
        return chance.choice(things) if things else None

    def words(self, chance, kind, name):
        """The words of a call: those of the table, or some of any kind."""
        words = CALLS[kind].get(name, ())
        if words is None or chance.random() < 0.5:
            return words
        words = tuple(self.value(chance) for _ in range(chance.randrange(4)))
        if name in COUNTED:  # a run that has no end would keep a thread for as many words
            words = tuple(min(it, 9999) if type(it) is int else it for it in words)
        return words

    def make(self, chance):
        kind = chance.choice(CLASSES)
        if chance.random() < 0.1:
            return kind.__new__(kind)
        words = () if chance.random() < 0.6 else (self.value(chance),) * chance.randrange(3)
        return kind(*words)

    def step(self, chance):
        """One random call."""
        choice = chance.random()
        thing = self.thing(chance)
        if thing is None or choice < 0.08 and len(self.things) < 12:
            self.things.append(self.make(chance))
        elif choice < 0.13:
            raised(self.things.remove, thing)  # which another thread may have done meanwhile
        elif choice < 0.17:
            chance.choice((copy.copy, copy.deepcopy, pickle.dumps))(thing)
        elif choice < 0.19:
            thing.close()
        elif choice < 0.20:
            thing.__init__(*(self.value(chance) for _ in range(chance.randrange(2))))
        elif choice < 0.21:
            with thing:
                thing.own = self.thing(chance)
        elif choice < 0.22:
            gc.collect()
        elif choice < 0.24:
            if isinstance(thing, Generator):
                with thing.copy() as other:
                    other.restore(thing.save())
            if isinstance(thing, World):
                with World() as other:
                    other.restore(thing.save())
        elif choice < 0.27:
            call = chance.choice((g.judge, g.svg, g.picture, g.Judge().fetched, Draft().labs))
            call(*(self.value(chance) for _ in range(chance.randrange(1, 3))))
        else:
            kind = type(thing)
            name = chance.choice(list(CALLS[kind]))
            ask(thing, name, self.words(chance, kind, name))

    def run(self, seed, count):
        """So many calls. What they raise is counted."""
        chance = random.Random(seed)
        for _ in range(count):
            self.calls += 1
            try:
                self.step(chance)
            except g.Error as error:
                self.errors[type(error).__name__] += 1
            except TypeError as error:
                self.errors["TypeError"] += 1
                if not WORD_COUNT.search(str(error)):
                    self.wrong.append(repr(error))
            except BaseException as error:
                self.wrong.append(repr(error))

    def rage(self, count):
        threads = [
            threading.Thread(target=self.run, args=(f"{self.seed} {number}", count))
            for number in range(3)
        ]
        for thread in threads:
            thread.start()
        for thread in threads:
            thread.join()
        self.things.clear()


def storm(seconds, seed):
    """Rounds until so many seconds are over."""
    end = time.monotonic() + seconds
    calls, rounds, errors = 0, 0, collections.Counter()
    made = library.made
    while time.monotonic() < end and not counts.failed:
        one = Storm(seed + rounds)
        one.rage(400)
        expect(not one.wrong, f"round {one.seed} raised {one.wrong[:3]}")
        del one.things
        expect_none_left(f"round {one.seed}")
        calls, rounds, errors = calls + one.calls, rounds + 1, errors + one.errors
    kinds = len([name for name in errors if issubclass(getattr(g, name, int), g.Error)])
    expect(kinds >= 12 or counts.failed, f"of the refusals {kinds} came: {dict(errors)}")
    print(f"storm: seed {seed}, {rounds} rounds, {calls} calls, {library.made - made} devices, "
          f"{sum(errors.values())} refusals of {kinds} kinds")


for test in (
    test_calls, test_copies, test_copies_of_generators, test_copies_of_drafts,
    test_copies_of_values, test_with, test_subclasses, test_cycles, test_failing, test_forks,
    test_ended_threads, test_in_use, test_signals, test_fetching, test_types, test_answers,
    test_counts, test_taken_strokes, test_run_to_halt, test_reasons, test_shown,
):
    test()
if len(sys.argv) > 1:
    sys.setswitchinterval(1e-4)
    storm(float(sys.argv[1]), int(sys.argv[2]) if len(sys.argv) > 2 else 1979)
counts.finish()
