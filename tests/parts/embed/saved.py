"""Compares saved states of generators: those of the module for Python, by the library for C, with
those that the plain form in Rust writes and reads.

    saved.py PROGRAM [SEED]

PROGRAM is saved.rs. It must write a generator that was handed the same bytes as the
same state, and read what the library reads, as the same state, and refuse what that refuses, for
the same reason. States are of both versions; of changed ones some have a right sum. The last line
of what is written is 'N passed, M failed'.
"""

import random
import subprocess
import sys
from pathlib import Path

import embed_states as states

TOP = Path(__file__).resolve().parents[3]
sys.path[:0] = [str(TOP / "python")]
from gerbilargent import BadState, Generator, RunBroke, StateFault  # noqa: E402

RUNS = 600


def handed(chance):
    """Random bytes of a run: instructions of each kind, and seldom a HALT."""
    tops = [0x0, 0x4, 0x9, 0xA, 0xC, 0xC, 0xD, 0xE, 0xF, 0xF, 0xF]
    found = bytearray()
    for _ in range(chance.randrange(60)):
        word = chance.choice(tops) << 12 | chance.randrange(0x1000)
        found += (0xB000 if chance.randrange(40) == 0 else word).to_bytes(2, "little")
    return bytes(found[:chance.randrange(len(found) + 1)])


def saved_after(held, wraps):
    """The state of a generator that was handed these bytes, as the library saves it."""
    with Generator(wraps) as generator:
        for byte in held:
            if generator.halted:
                generator.strobe()
            try:
                generator.fetch(byte)
            except RunBroke:
                pass
        return generator.save()


def read_again(saved):
    """The state that these bytes are, as the library saves it again."""
    with Generator() as generator:
        try:
            generator.restore(saved)
        except BadState as error:
            return f"refused: {error.reason.value}"
        return generator.save().hex()


def changed(chance, saved):
    """A saved state that was changed or cut, or not, of either version."""
    held = bytearray(states.first_of(saved))
    which = chance.randrange(5)
    if which == 4:
        held[2] = chance.choice(b"GRWX")
    elif which == 0:
        held[chance.randrange(len(held))] ^= 1 << chance.randrange(8)
    elif which == 1:
        del held[chance.randrange(len(held)):]
    elif which == 2:
        at = 8 * chance.randrange(1, len(held) // 8)
        held[at:at] = held[8 * chance.randrange(1, len(held) // 8):][:8]
        held[4:8] = (len(held) // 8 - 1).to_bytes(4, "little")
    return states.changed_again(chance, bytes(held))


def main():
    chance = random.Random(int(sys.argv[2]) if len(sys.argv) > 2 else 1979)
    asked, wanted = [], []
    for _ in range(RUNS):
        held = handed(chance)
        wraps = chance.randrange(3) == 0
        saved = saved_after(held, wraps)
        asked.append(f"{'wrap' if wraps else 'run'} {held.hex()}")
        wanted.append(saved.hex())
        for told in (saved, states.first_of(saved), *(changed(chance, saved) for _ in range(3))):
            asked.append(f"read {told.hex()}")
            wanted.append(read_again(told))
    lines = "".join(f"{line}\n" for line in asked)
    found = subprocess.run([sys.argv[1]], input=lines, stdout=subprocess.PIPE, text=True)
    answers = found.stdout.splitlines()
    failed = abs(len(wanted) - len(answers)) + (found.returncode != 0)
    for line, want, answer in zip(asked, wanted, answers):
        if want != answer:
            failed += 1
            print(f"FAILED: {line}: {want} is wanted, {answer} was found")
    for reason in (StateFault.BROKEN, StateFault.OTHER_VERSION, StateFault.OTHER_CLASS,
                   StateFault.PARTS):
        if wanted.count(f"refused: {reason.value}") < RUNS // 20:
            failed += 1
            print(f"FAILED: hardly any state is refused for {reason}")
    if len(set(wanted)) < RUNS:
        failed += 1
        print("FAILED: the states are all alike")
    print(f"{len(wanted) - failed} passed, {failed} failed")
    return failed != 0


if __name__ == "__main__":
    sys.exit(main())
