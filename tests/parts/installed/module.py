"""Tests the module gerbilargent as it is installed: what it is, and how fast it is.

    module.py VERSION

The times are those of a processor, the least of some tries. They are printed, and judged at ten
times what is wanted. The last line is 'N passed, M failed'.
"""

import sys
import tempfile
import time
from importlib.metadata import distribution
from pathlib import Path

import gerbilargent as g
from gerbilargent import Draft, Event, World

TOP = Path(__file__).resolve().parents[3]
sys.path[:0] = [str(TOP / "tests")]
import counts  # noqa: E402
from counts import expect  # noqa: E402


def refuses(kind, call):
    """Whether a call raises exactly this exception."""
    try:
        call()
    except g.Error as error:
        return type(error) is kind
    return False


def least_time(call, tries):
    """The least of the times that a call takes a processor, in seconds."""
    times = []
    for _ in range(tries):
        begin = time.process_time()
        call()
        times.append(time.process_time() - begin)
    return min(times)


def frames(count):
    """The events of as many pictures of one frame."""
    return ([Event.REDRAW] + [Event.TICK] * 3 + [Event.STROBE] + [Event.FETCH] * 12) * count


def reason_of(world, held):
    """Why a world refuses bytes, which then stays as it was; None where it doesn't."""
    before = world.save()
    try:
        world.restore(held)
    except g.BadState as error:
        return error.reason if world.save() == before else "changed"
    return None


def test_saved():
    """A world is saved into a file, and goes on; bytes that it can't go on from say why not."""
    frame, faults = Draft().labs(512, 400).vctr(9, -100, 100, 7).halt(), g.StateFault
    with World() as world, World() as later, World(rom=bytes(4096)) as elsewhere, \
            g.Generator() as generator, tempfile.NamedTemporaryFile() as file:
        world.run([Event.TICK] * 2 + [frame, Event.TICK])
        file.write(world.save())
        file.flush()
        saved = Path(file.name).read_bytes()
        expect(reason_of(later, saved) is None and later.draw(frame), "a world goes on")
        changed = bytes([*saved[:1000], saved[1000] ^ 1, *saved[1001:]])
        # Of another version, whose sum is right: the sum is the digest of all before it.
        other = saved[:3] + b"\x03" + saved[4:-8]
        digest = g._load(g.library_path()).dvg_digest(other, len(other))
        other += digest.to_bytes(8, "little")
        for thing, held, reason in (
            (later, changed, faults.BROKEN), (later, saved[:-8], faults.BROKEN),
            (later, frame.text.encode(), faults.BROKEN), (later, b"", faults.BROKEN),
            (later, other, faults.OTHER_VERSION), (elsewhere, saved, faults.OTHER_ROM),
            (later, generator.save(), faults.OTHER_CLASS), (generator, saved, faults.OTHER_CLASS),
        ):
            found = reason_of(thing, held)
            expect(found is reason, f"{found}, and not {reason}")


here = Path(g.__file__).parent
expect(g.__version__ == sys.argv[1], f"the version is {g.__version__}")
about = distribution("gerbilargent").read_text("METADATA") or ""
expect("\n# The library for Python\n" in about, "its page of docs/ is what a registry shows")
expect((here / "py.typed").exists(), "it says that it is typed")
expect(g.library_path() == here / "libdvg.so", "its library lies beside it")
frame = Draft().labs(512, 400).vctr(9, -100, 100, 7).halt()
with World() as world:
    drawn = world.draw(frame)
    expect(drawn == [g.Stroke(262144, 204800, 210944, 256000, 7)], "a world draws")
    expect(world.stroke_table.tolist() == [[262144, 204800, 210944, 256000, 7, 0]], "a table")
    expect(refuses(g.NoInteger, lambda: Draft().labs(1.5, 0)), "a float is refused")
    expect(refuses(g.NoBytes, lambda: World(ram=2048)), "a RAM that is a number is refused")
    entry = world.run(frames(1))[-1]
    expect(str(entry) == "done 205 B000 1", "many events in one call")
    events = frames(10_000)
    seconds = least_time(lambda: world.run(events), 7)
    rate = len(events) / seconds
    expect(rate > 1e5, f"{rate:.0f} events in a second are fewer than a tenth of 1,000,000")
    print(f"{rate / 1e6:.1f} million events in a second; ", end="")
test_saved()
loads = []
load = g.ctypes.CDLL
g.ctypes.CDLL = lambda *words: loads.append(words) or load(*words)
opened = least_time(World, 50)
g.ctypes.CDLL = load
expect(not loads, f"the library is loaded once, and then {len(loads)} times more")
expect(opened < 1e-2, f"a world takes {opened * 1e3:.1f} ms, ten times what is wanted")
print(f"a world in {opened * 1e3:.2f} ms")
counts.finish()
