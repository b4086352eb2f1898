"""Saves worlds amid random schedules, and has new worlds go on: those of the module for Python, by
the library for C, and those of the plain form in Rust, which is another process.

    worlds.py PROGRAM [COUNT [SEED]]          500 schedules

PROGRAM is worlds.rs. A world of Rust plays each schedule to its end, and is never
saved. At some event a world of Python and one of Rust are saved, as the same bytes, and each is
restored by a new world of the other: whatever comes then must be what came of the world that was
never saved. What either reads of bytes that were changed or cut, of both versions, must be what the
other reads, and it must refuse them for the same reason. Then a mistake is planted in the bytes:
each must be found. The last line is 'N passed, M failed'.
"""

import collections
import random
import subprocess
import sys
from pathlib import Path

import embed_states as states

TOP = Path(__file__).resolve().parents[3]
sys.path[:0] = [str(TOP / "python"), str(TOP / "tests")]
import counts  # noqa: E402
from counts import expect  # noqa: E402
from gerbilargent import BadState, Draft, Event, Kind, StateFault, World  # noqa: E402

#: The event of each word of a schedule; `all` and `offer` have more words.
EVENTS = {
    "tick": Event.TICK, "strobe": Event.STROBE, "fetch": Event.FETCH, "redraw": Event.REDRAW,
    "generator": Event.RESET_GENERATOR, "processor": Event.RESET_PROCESSOR,
}
PHASES = ("start", "booting", "resting", "writing", "flipping", "waiting", "sending")

# --- Schedules ---


def random_rom(chance):
    """Short vectors and returns, so that calls of it may be drawn; the last word is a return."""
    words = [0xD000 if chance.random() < 0.2 else 0xF000 | chance.randrange(0x1000)
             for _ in range(chance.choice((1024, 2048)))]
    words[-1] = 0xD000
    return b"".join(word.to_bytes(2, "little") for word in words)


def random_draft(chance):
    """The lines of a draft: mostly one that may be drawn, with calls, and seldom a long one."""
    lines = [f"labs {chance.randrange(4096)} {chance.randrange(4096)} {chance.randrange(16)}"]
    count = 400 if chance.random() < 0.05 else chance.randrange(12)
    for _ in range(count):
        z, (dx, dy) = chance.randrange(16), chance.choices(range(-3, 4), k=2)
        lines.append(chance.choice((
            f"svec {chance.randrange(2, 6)} {dx} {dy} {z}",
            f"svec {chance.randrange(2, 6)} {dy} {dx} {z}",
            f"vctr {chance.randrange(10)} {chance.randrange(-1023, 1024)} 100 {z}",
            f"call {count + 2}",
            f"callrom {chance.randrange(0x800, 0xC00):03X}",
        )) if count < 400 else f"svec 2 1 -1 {z}")
    lines += [] if chance.random() < 0.03 else ["halt", f"svec 3 1 1 {chance.randrange(16)}"]
    return [*lines, "return"]


def random_schedule(chance):
    """Events in bursts, of which most belong together."""
    schedule = ["tick"] * chance.choice((0, 1, 2, 2, 2, 3))
    for _ in range(chance.randrange(2, 9)):
        draft = random_draft(chance)
        words = sum(2 if line[0] in "lv" else 1 for line in draft)
        schedule += chance.choice((
            [], ["redraw"], ["redraw"], ["generator"], ["processor", "tick", "tick"],
            [f"all {chance.randrange(256)}"], ["strobe"],
        )) if chance.random() < 0.4 else [f"offer {'/'.join(draft)}"]
        schedule += ["tick"] * chance.choice((0, 1, 2 * words, 2 * words + 2, 2 * words + 4))
        schedule += ["strobe"] * chance.choice((0, 1, 1, 2))
        schedule += ["fetch"] * chance.choice((0, chance.randrange(40), chance.randrange(400)))
        mixed = chance.randrange(60)
        schedule += chance.choices(("tick", "fetch", "strobe"), (5, 5, 1), k=mixed)
    return schedule


def draft_of(text):
    """The draft of its lines."""
    draft = Draft()
    for line in text.split("/"):
        name, *numbers = line.split(" ")
        fields = [int(number, 16 if name == "callrom" else 10) for number in numbers]
        getattr(draft, {"callrom": "call_rom", "return": "return_"}.get(name, name))(*fields)
    return draft


def happen(world, event):
    """What came of an event, as the program has it."""
    name, _, more = event.partition(" ")
    if name == "all":
        entry = world.reset_all(bytes([int(more)]) * 2048)
    else:
        entry, = world.run([EVENTS[name] if name in EVENTS else draft_of(more)])
    came = f"{int(entry.kind)} {entry.address} {entry.value}"
    return ":".join([came, *map(str, world.strokes if entry.kind is Kind.DONE else [])])


def play(world, schedule):
    return [happen(world, event) for event in schedule]


def random_cut(chance, rom, schedule):
    """After how many events a world is saved: as often after each kind of what comes, where a write
    of byte 000 is one; and sometimes after any number of them."""
    with World(rom) as world:
        came = [" ".join(it.split(" ")[:1 if it[:4] != "6 0 " else 2])
                for it in play(world, schedule)]
    kind = chance.choice(sorted({*came, "none", "any"}))
    after = {"none": [0], "any": range(len(came) + 1)}
    return chance.choice(after.get(kind, [at + 1 for at, it in enumerate(came) if it == kind]))


# --- Bytes ---


def driver_of(saved):
    """The number of the driver in a saved world. It is of version 1, here and below."""
    return int.from_bytes(saved[-8:], "little")


def with_driver(saved, change):
    """A saved world with another number of its driver."""
    return saved[:-8] + change(driver_of(saved)).to_bytes(8, "little")


def numbers_of(saved):
    """The numbers after the RAM of a saved world, as bytes."""
    return [saved[at:at + 8] for at in range(2056, len(saved), 8)]


def of_numbers(saved, numbers):
    """A saved world with other numbers after its RAM."""
    count = 256 + len(numbers)
    return saved[:4] + count.to_bytes(4, "little") + saved[8:2056] + b"".join(numbers)


def one_less(number):
    return number - (1 << 24) if number >> 24 & 0xFFFF else number


def without_last_operation(saved):
    numbers = numbers_of(saved)
    if numbers[-2][0] == 8:
        del numbers[-2]
    return of_numbers(saved, numbers)


def without_strokes(saved):
    """The place before each stroke stays: the one that comes last is the beam's."""
    return of_numbers(saved, [it for it in numbers_of(saved) if it[:2] != b"\x23\x03"])


def without_low_byte(saved):
    fields, *numbers = numbers_of(saved)
    return of_numbers(saved, [fields[:7] + bytes([fields[7] & 0xDF]), *numbers])


def without_calls(saved):
    return of_numbers(saved, [it for it in numbers_of(saved) if it[:2] != b"\x23\x01"])


#: Mistakes of what saves: each is a change of the bytes.
MISTAKES = {
    "the strobe is lost": lambda saved: with_driver(saved, lambda it: it & ~(1 << 19)),
    "one byte less is left": lambda saved: with_driver(saved, one_less),
    "the other half is current": lambda saved: with_driver(saved, lambda it: it ^ 1 << 16),
    "no flip was done": lambda saved: with_driver(saved, lambda it: it & ~(1 << 17)),
    "the frame is for the other half": lambda saved: with_driver(saved, lambda it: it ^ 1 << 18),
    "the RAM isn't restored": lambda saved: saved[:8] + bytes(2048) + saved[2056:],
    "the last operation is lost": without_last_operation,
    "the strokes are lost": without_strokes,
    "the low byte is lost": without_low_byte,
    "the return addresses are lost": without_calls,
    "it is at rest": lambda saved: with_driver(saved, lambda it: it & ~0xFF00 | 0x200),
}


def changed(chance, saved):
    """A saved world that was changed, cut, or put together otherwise."""
    held, numbers = bytearray(saved), numbers_of(saved)
    which = chance.randrange(7)
    if which == 0:
        held[chance.randrange(len(held))] ^= 1 << chance.randrange(8)
    elif which == 1:
        held[chance.randrange(2056, len(held))] ^= 1 << chance.randrange(8)
    elif which == 2:
        del held[chance.randrange(len(held)):]
    elif which == 3:
        numbers.insert(chance.randrange(len(numbers)), chance.choice(numbers))
        return of_numbers(saved, numbers)
    elif which == 4:
        del numbers[chance.randrange(len(numbers))]
        return of_numbers(saved, numbers)
    elif which == 5:
        numbers[-1] = bytes([38]) + chance.randbytes(3) + bytes([chance.randrange(3), 0, 0, 0])
        return of_numbers(saved, numbers)
    else:
        held[2] = chance.choice(b"GRX")
    return bytes(held)


def restored(rom, saved):
    """A new world in a saved state; or why it is refused, which leaves the world as it was."""
    world = World(rom, bytes([0x5A]) * 2048)
    before = world.save()
    try:
        world.restore(saved)
    except BadState as error:
        expect(world.save() == before, "a refused state has changed the world")
        return error.reason
    return world


def read_again(rom, saved):
    found = restored(rom, saved)
    return f"refused: {found.value}" if isinstance(found, StateFault) else found.save().hex()


# --- One schedule ---


class Lives:
    """The schedules, what is asked of the program, and what must be answered, if that is known."""

    def __init__(self, chance):
        self.chance, self.asked, self.wanted, self.lives = chance, [], [], []

    def ask(self, line, wanted=None):
        self.asked.append(line)
        self.wanted.append(wanted)
        return len(self.asked) - 1

    def add(self):
        """Saves one world amid a random schedule."""
        chance, rom = self.chance, random_rom(self.chance)
        schedule = random_schedule(chance)
        cut = random_cut(chance, rom, schedule)
        with World(rom) as world:
            came, saved = play(world, schedule[:cut]), world.save()
        over, ram = rom.hex(), bytes(2048).hex()
        first, then = ",".join(schedule[:cut]), ",".join(schedule[cut:])
        first_version, digest = states.first_of(saved), states.digest(rom)
        expect(states.second_of(first_version, digest) == saved, "the digest and the sum are right")
        life = {"rom": rom, "saved": first_version, "came": came, "then": schedule[cut:]}
        life["played"] = self.ask(f"play {over} {ram} {','.join(schedule)}")
        life["saved of Rust"] = self.ask(f"save {over} {ram} {first}", saved.hex())
        life["restored"] = self.ask(f"restore {over} {saved.hex()} {then}")
        for told in (saved, first_version, *(changed(chance, first_version) for _ in range(3))):
            if told not in (saved, first_version):
                named = chance.choice((0, digest, digest, digest + 1 & 2**64 - 1))
                told = states.changed_again(chance, told, named)
            self.ask(f"read {over} {told.hex()}", read_again(rom, told))
        life["mistaken"] = {
            name: self.ask(f"restore {over} {mistake(first_version).hex()} {then}")
            for name, mistake in MISTAKES.items()
        }
        self.lives.append(life)

    def run(self, program):
        """Asks the program, and compares."""
        lines = "".join(f"{line}\n" for line in self.asked)
        found = subprocess.run([program], input=lines, stdout=subprocess.PIPE, text=True)
        answers = found.stdout.splitlines()
        expect(found.returncode == 0 and len(answers) == len(self.asked), "the program fails")
        for line, wanted, answer in zip(self.asked, self.wanted, answers):
            if wanted is not None:
                expect(answer == wanted, f"{line[:4]}: {wanted[-60:]}, not {answer[-60:]}")
        for reason in (StateFault.BROKEN, StateFault.OTHER_VERSION, StateFault.OTHER_CLASS,
                       StateFault.OTHER_ROM, StateFault.PARTS):
            refused = self.wanted.count(f"refused: {reason.value}")
            expect(refused > len(self.lives) // 25, f"only {refused} were refused for {reason}")
        return answers

    def compare(self, answers):
        """Whether each world went on as the one that was never saved."""
        found = collections.Counter()
        for number, life in enumerate(self.lives):
            played = answers[life["played"]].split(",")[:-1]
            cut = len(life["came"])
            expect(life["came"] == played[:cut], f"schedule {number} before it is saved")
            rest = played[cut:]
            of_rust = answers[life["restored"]].split(",")[:-1]
            expect(of_rust == rest, f"schedule {number}, saved by C, restored by Rust")
            world = restored(life["rom"], bytes.fromhex(answers[life["saved of Rust"]]))
            of_python = isinstance(world, World) and play(world, life["then"])
            expect(of_python == rest, f"schedule {number}, saved by Rust, restored by C")
            for name, at in life["mistaken"].items():
                found[name] += answers[at].split(",")[:-1] != rest
        for name in MISTAKES:
            expect(found[name], f"planted, and not found: {name}")


def expect_all_kinds(lives):
    """Of each kind of state some must have been saved."""
    seen = collections.Counter()
    for life in lives:
        driver, numbers = driver_of(life["saved"]), numbers_of(life["saved"])
        seen[PHASES[driver >> 8 & 0xFF]] += 1
        seen["a strobe under way"] += driver >> 19 & 1
        seen["an open run"] += numbers[0][7] >> 4 & 1
        seen["a low byte"] += numbers[0][7] >> 5 & 1
        seen["a first word"] += numbers[0][7] >> 6 & 1
        seen["strokes"] += any(it[:2] == b"\x23\x03" for it in numbers)
        seen["calls"] += any(it[:2] == b"\x23\x01" for it in numbers)
        left = driver >> 24 & 0xFFFF
        seen["a frame half written"] += left > 0
        seen["a frame wholly written"] += driver >> 8 & 0xFF == 3 and left == 0
    wanted = (*PHASES, "a strobe under way", "an open run", "a low byte", "a first word", "strokes",
              "calls", "a frame half written", "a frame wholly written")
    for what in wanted:
        expect(seen[what], f"no world was saved with: {what}")
    print(", ".join(f"{what}: {seen[what]}" for what in wanted))


def main(program, count, seed):
    lives = Lives(random.Random(seed))
    for _ in range(count):
        lives.add()
    expect_all_kinds(lives.lives)
    lives.compare(lives.run(program))
    counts.finish()


if __name__ == "__main__":
    main(sys.argv[1], int(sys.argv[2]) if len(sys.argv) > 2 else 500,
         int(sys.argv[3]) if len(sys.argv) > 3 else 1979)
