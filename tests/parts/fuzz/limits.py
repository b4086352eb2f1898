"""Saved states with a number at its limit, which are restored, and one past it, which are refused.

The limits are those of include/dvg.h ("A saved state") and of the operations of a draft. The states
are those of a world that writes and draws a frame twice, and of generators that draw it. Each of
their numbers is set to each of its limits, and to one past it. If the first state is restored and
the second one is refused, these two are a pair: only that number is wrong. Each limit has the first
pair that is found; a limit without a pair is an error.
"""

import embed_states as states
import gerbilargent as g

# The codes of the numbers of a state, and the most that the next byte, the kind, may be.
PART, PUSH, DRIVER = 35, 8, 38
MOST_KIND = {PART: 3, PUSH: 8, DRIVER: 6}
# The fields of a number, by its code and its kind: the lowest bit of each, how many bits it has,
# and the least and the most that it may be.
PLACE = [(16, 22, 0, 2**21 - 1), (38, 22, 0, 2**21 - 1)]
ROM_WORD = [(32, 16, 0x800, 0xBFF)]
FIELDS = {
    (PART, 1): [(16, 16, 0, 4095)],
    (PART, 2): PLACE,
    (PART, 3): [*PLACE, (60, 4, 1, 15)],
    (PUSH, 0): [(16, 8, 0, 9), (24, 8, 0, 15), (32, 16, -1023, 1023), (48, 16, -1023, 1023)],
    (PUSH, 1): [(16, 8, 2, 5), (24, 8, 0, 15), (32, 16, -3, 3), (48, 16, -3, 3)],
    (PUSH, 2): [(16, 8, 0, 15), (32, 16, 0, 4095), (48, 16, 0, 4095)],
    (PUSH, 5): ROM_WORD,
    (PUSH, 6): ROM_WORD,
}
# The kinds of operations that have two words.
LONG = (0, 2)

# A frame with operations of each kind that has fields, over a ROM of returns. MANY events are more
# than it takes to write it, or to draw it.
FRAME = (
    g.Draft().labs(0, 0).vctr(9, 1, 1, 7).svec(2, 1, 1, 7).call(5).jump(6).jump_rom(0x800)
    .call_rom(0x800).halt()
)
MANY = 40


# --- Limits ---


def bits_of(number, at, bits=1):
    return number >> at & (1 << bits) - 1


def with_field(number, at, bits, value):
    """A number in which these bits are a value, by two's complement."""
    mask = (1 << bits) - 1
    return number & ~(mask << at) | (value & mask) << at


def fields_beside(number, numbers):
    """The fields of a number whose limits depend on other fields, or on other numbers."""
    code, kind = number & 0xFF, bits_of(number, 8, 8)
    frame = [bits_of(it, 8, 8) for it in numbers if it & 0xFF == PUSH]
    if (code, kind) == (PART, 0):
        is_open, has_low, has_first = (bits_of(number, at) for at in (60, 61, 62))
        first = [(32, 16, 0, 0xAFFF)] * has_first
        return [(16, 16, 0, 4095), *first, (60, 1, has_low, 1), (61, 1, 0, is_open)]
    if code == PUSH and kind in (3, 4):
        return [(32, 16, 0, len(frame) - 1)]
    if code == DRIVER and kind == 3:
        other = 1 - bits_of(number, 16)
        left = 2 * sum(2 if it in LONG else 1 for it in frame)
        return [(18, 1, other, other), (24, 16, 0, left)]
    if code == DRIVER and kind != 2:
        return [(17, 1, kind > 4, kind > 4)]
    return []


def pairs_of(number, numbers):
    """For each limit of a number: the name of the limit, the number at it, and one past it. A run
    that is open and one that isn't have limits of their own, by the flags of a generator."""
    code, kind = number & 0xFF, bits_of(number, 8, 8)
    flags = bits_of(number, 60, 4) if (code, kind) == (PART, 0) else 0
    for at, bits, least, most in FIELDS.get((code, kind), []) + fields_beside(number, numbers):
        sides = [(least, least - 1)] * (least != 0) + [(most, most + 1)] * (most + 1 < 1 << bits)
        for side in sides:
            yield (code, kind, flags, at, side[1] > side[0]), *(
                with_field(number, at, bits, value) for value in side
            )
    most = MOST_KIND[code]
    yield (code, 8), with_field(number, 8, 8, most), with_field(number, 8, 8, most + 1)


# --- States ---


def numbers_of(first):
    """The numbers of a state of version 1 that come after the first one and the RAM."""
    return list(memoryview(first).cast("Q"))[257 if first[2:3] == b"W" else 1:]


def first_with(letter, numbers):
    """A state of version 1 with these numbers. The RAM of a world is zeros."""
    held = bytes(2048 * (letter == b"W")) + b"".join(map(states.number, numbers))
    return b"DV" + letter + b"\1" + (len(held) // 8).to_bytes(4, "little") + held


def live(world):
    """The states of a world that writes and draws FRAME twice, in version 1."""
    event = g.Event
    once = [FRAME, *MANY * [event.TICK], event.STROBE, *MANY * [event.FETCH]]
    for what in [event.TICK, event.TICK, event.TICK, *once, *once]:
        yield states.first_of(world.save())
        world.run([what])


def draw(generator, ram, rom):
    """The states of a generator that draws a memory, in version 1."""
    yield states.first_of(generator.save())
    generator.strobe()
    while not generator.halted:
        yield states.first_of(generator.save())
        generator.fetch_from(ram, rom)


# --- Pairs ---


def is_restored(thing, first):
    """Whether a world or a generator restores a state of version 1 when that is made version 2."""
    try:
        thing.restore(states.second_of(first))
    except g.BadState:
        return False
    return True


def beside(thing, found):
    """Pairs of these states: one at a limit, one past it, and so on. A world or a generator tries
    to restore each."""
    met, done = set(), set()
    for first in found:
        numbers = numbers_of(first)
        for i, number in enumerate(numbers):
            for limit, *pair in pairs_of(number, numbers):
                if limit in done:
                    continue
                met.add(limit)
                at, past = (
                    first_with(first[2:3], numbers[:i] + [it] + numbers[i + 1:]) for it in pair
                )
                if is_restored(thing, at) and not is_restored(thing, past):
                    done.add(limit)
                    yield from (at, past)
    if met != done:
        raise LookupError(f"these limits have no pair of states: {sorted(met - done)}")


def all_beside(rom):
    """All pairs, in version 1: of a world over this ROM, and of generators of both kinds."""
    with g.World(rom) as world, g.World(rom) as tried:
        yield from beside(tried, live(world))
        ram = world.ram
    for wraps in (False, True):
        with g.Generator(wraps) as generator, g.Generator() as tried:
            yield from beside(tried, draw(generator, ram, rom))
