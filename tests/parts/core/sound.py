#!/usr/bin/env -S python3 -B
"""Compares what dvg_sound makes of one sound after the other with what the arcade emulator does.

    sound.py STAGES WAV SAMPLES          what sound.lua and the emulator wrote, and sound.cpp
    sound.py --game WRITES WAV OWN SAMPLES          a game: WRITES are shot.lua's, OWN those of
                                         whole.cpp, of which sound.cpp made SAMPLES

Both are cut into pieces of 25 milliseconds; a thump isn't. In each piece a tone must have as many
periods, within one and 3 of 100, and be as loud within 10 of 100 and 40 of 32,768. A saucer may be
elsewhere in its warble: its pieces are compared in the order of their periods, which may be 8 of
100 apart. A thump must go as far in a sixth of a millisecond, within 5 of 100. Noise must be as
loud over all of its time within 15 of 100, and as like itself a sixth, one, and three milliseconds
later within 0.15. Prints how far they are apart at most, or the first difference (status 1).

In a game both must change the same latches, in the same order, each within APART seconds. It is cut
where another sound begins or ends, for both by their own times. A span in which one tone alone is
on is compared as that tone; of a thump, a period must last as long, within 3 of 100. All spans with
the same noise on, or the same mixture, are joined, and compared as noise: of T seconds, if less
than 4, as loud and as like within as much more as the root of 4 / T, as shorter noise varies more.
Where nothing is on, both must be silent."""

import array
import struct
import sys

RATE, HEAD = 48000, 44
APART = 4 * 6144 / 1512000      # four NMIs
SETTLED, SETTLED_TONE = 0.15, 0.005     # so long noise, and a tone, may be heard after their end
SHORTEST = 0.05                 # a span that is compared
TONES = {0x3C00: "saucer", 0x3C01: "saucer_fire", 0x3C04: "ship_fire", 0x3C05: "ship"}


def read_samples(path, skipped, step):
    with open(path, "rb") as file:
        data = file.read()[skipped:]
    samples = array.array("h", data[:len(data) // (2 * step) * 2 * step])
    if sys.byteorder == "big":
        samples.byteswap()
    return samples[::step]


def channels_of(path):
    with open(path, "rb") as file:
        channels, rate = struct.unpack("<HI", file.read(HEAD)[22:28])
    assert rate == RATE
    return channels


def mean_of(values):
    return sum(values) / len(values)


def loudness(piece):
    middle = mean_of(piece)
    return mean_of([(it - middle) ** 2 for it in piece]) ** 0.5


def crossings(piece):
    """How often it rises across the middle between its ends."""
    middle = (max(piece) + min(piece)) / 2
    return sum(a < middle <= b for a, b in zip(piece, piece[1:]))


def period(piece):
    """The mean time between two of these, in samples."""
    middle = (max(piece) + min(piece)) / 2
    places = [at for at, (a, b) in enumerate(zip(piece, piece[1:])) if a < middle <= b]
    return (places[-1] - places[0]) / (len(places) - 1) if len(places) > 1 else 0


def likeness(piece, later):
    """How like itself it is, so many samples later: 1 if it is the same."""
    middle = mean_of(piece)
    y = [it - middle for it in piece]
    return sum(a * b for a, b in zip(y, y[later:])) / sum(it * it for it in y)


def steepness(piece):
    """How far it goes in a sixth of a millisecond, at most."""
    return max(abs(a - b) for a, b in zip(piece, piece[8:]))


class Comparison:
    """The largest differences so far, and the sound of each."""

    def __init__(self):
        self.worst = {}

    def note(self, what, name, apart, most, pair):
        if apart > most:
            sys.exit(f"{name}: {what}: the emulator's {pair[0]:.2f}, here {pair[1]:.2f}")
        self.worst[what] = max(self.worst.get(what, (0, "")), (apart, name))

    def tone(self, name, theirs, ours):
        count = len(theirs) - 1 if name.startswith("thump") else RATE // 40
        part = 0.08 if name.endswith("saucer") else 0.03
        places = range(0, len(theirs) - count, count)
        pieces = [[all_of[at:at + count] for at in places] for all_of in (theirs, ours)]
        if name.endswith("saucer"):
            pieces = [sorted(it, key=crossings) for it in pieces]
        for one, other in zip(*pieces):
            pair = crossings(one), crossings(other)
            if loudness(one) > 40:
                self.note("periods", name, abs(pair[0] - pair[1]), 1 + pair[0] * part, pair)
            pair = loudness(one), loudness(other)
            self.note("loudness", name, abs(pair[0] - pair[1]), 40 + pair[0] * 0.1, pair)
            if name.startswith("thump"):
                pair = steepness(one), steepness(other)
                self.note("steepness", name, abs(pair[0] / pair[1] - 1), 0.05, pair)

    def noise(self, name, theirs, ours):
        most = 0.15 * max(1, (4 * RATE - 100) / len(theirs)) ** 0.5
        pair = loudness(theirs), loudness(ours)
        self.note("loudness of noise", name, abs(pair[0] / max(1, pair[1]) - 1), most, pair)
        for later in (8, 48, 144):
            pair = likeness(theirs, later), likeness(ours, later)
            self.note("likeness of noise", name, abs(pair[0] - pair[1]), most, pair)

    def thump(self, name, theirs, ours):
        """A part of one, which begins and ends anywhere in its period."""
        for what, of, share in (("length of a period", period, 0.03),
                                ("steepness", steepness, 0.05),
                                ("loudness of a thump", loudness, 0.1)):
            pair = of(theirs), of(ours)
            self.note(what, name, abs(pair[0] / max(1, pair[1]) - 1), share, pair)

    def silence(self, theirs, ours):
        pair = loudness(theirs), loudness(ours)
        self.note("silence", "nothing on", max(pair), 40, pair)


def is_noise(name):
    return name.split("_")[0] in ("thrust", "explosion", "loud")


def read_writes(path):
    """What changed a latch: the times, and the addresses with their bytes."""
    with open(path, encoding="ascii") as lines:
        rows = [line.split() for line in lines]
    return [float(row[0]) for row in rows], [(int(row[1], 16), int(row[2], 16)) for row in rows]


def sounds_on(latches):
    """The names of the sounds that are on."""
    blast, thump = latches.get(0x3600, 0), latches.get(0x3A00, 0)
    names = [f"explosion_{blast >> 6}"] if blast >> 2 & 15 else []
    names += [f"thump_{thump & 15}"] if thump & 16 else []
    names += ["thrust"] if latches.get(0x3C03, 0) & 0x80 else []
    return names + [name for at, name in TONES.items() if latches.get(at, 0) & 0x80]


def spans_of(times, own_times, changes):
    """Of each span its sounds, since when it is in both, for how long at least, and how much of
    that sounds before it may still be heard."""
    latches, since, on, heard = {}, (0, 0), [], 0
    for pair, (at, byte) in zip(zip(times, own_times), changes):
        latches[at] = byte
        now = sounds_on(latches)
        if now != on:
            yield on, since, min(it - first for it, first in zip(pair, since)), heard
            ended = set(on) - set(now)
            heard = max(heard - pair[0] + since[0], 0, SETTLED_TONE if ended else 0,
                        SETTLED if any(map(is_noise, ended)) or not now else 0)
            since, on = pair, now


def compare_game(comparison, writes, theirs, own, ours):
    """Compares a game's sounds. Returns how many spans there were, and how long they last."""
    (times, changes), (own_times, own_changes) = read_writes(writes), read_writes(own)
    count = sum(it * RATE < len(ours) for it in own_times)
    if not count or changes[:count] != own_changes[:count]:
        sys.exit(f"other latches are changed: {len(changes)} and {len(own_changes)} changes")
    apart = max(abs(one - other) for one, other in zip(times, own_times[:count]))
    comparison.note("seconds between writes", "a latch", apart, APART, (apart, 0))
    joined, spans, length = {}, 0, 0
    for on, since, long, late in spans_of(times, own_times, changes[:count]):
        if long - late < SHORTEST:
            continue
        pair = [all_of[round((it + late) * RATE):round((it + long) * RATE) - 9]
                for it, all_of in zip(since, (theirs, ours))]
        pair = [it[:min(map(len, pair))] for it in pair]
        spans, length = spans + 1, length + len(pair[0])
        if not on:
            comparison.silence(*pair)
        elif len(on) == 1 and not is_noise(on[0]):
            (comparison.thump if "thump" in on[0] else comparison.tone)(on[0], *pair)
        else:
            for all_of, piece in zip(joined.setdefault("+".join(on), ([], [])), pair):
                all_of.extend(piece)
    for name, pair in joined.items():
        if len(pair[0]) > RATE // 5:
            comparison.noise(name, *pair)
    return f"{spans} spans, {length / RATE:.1f} seconds of {times[count - 1]:.1f}, {count} changes"


def compare_stages(comparison, stages, theirs, ours):
    """Compares one sound after the other. Returns how many there were."""
    count = 0
    with open(stages, encoding="ascii") as lines:
        for name, since, length in map(str.split, lines):
            first, last = (round(it * RATE) for it in (float(since), float(since) + float(length)))
            pair = theirs[first:last - 100], ours[first:last - 100]
            (comparison.noise if is_noise(name) else comparison.tone)(name, *pair)
            count += 1
    return f"{count} sounds"


def main(words):
    is_game = words[0] == "--game"
    stages, wav, *own, samples = words[is_game:]
    theirs, ours = read_samples(wav, HEAD, channels_of(wav)), read_samples(samples, 0, 1)
    comparison = Comparison()
    compare = compare_game if is_game else compare_stages
    said = compare(comparison, stages, theirs, *own, ours)
    print(f"{said}; at most apart:", "; ".join(
        f"{what} {apart:.3f}, {name}" for what, (apart, name) in comparison.worst.items()))


main(sys.argv[1:])
