"""Compares the program with its twin over inputs that tests/fuzz found.

    beside.py PROGRAM TWIN MOST FOLDER..

An input has the words of a command, a line each, up to an empty line, and then what stands on
standard input. Of all inputs in the folders at most so many are asked, evenly among them. What
comes must be the same: the status and both outputs. An input is passed over where the twin isn't
made for it: `explain`, help, and words that ask for nothing. So is what is said of a fault behind
its line. The last line is 'N passed, M failed'.
"""

import os
import re
import subprocess
import sys
from concurrent.futures import ThreadPoolExecutor
from pathlib import Path

TOP = Path(__file__).resolve().parents[3]
sys.path[:0] = [str(TOP / "tests")]
import counts  # noqa: E402
from counts import expect  # noqa: E402

# What the twin does, and words of which it isn't a judge.
COMMANDS = {b"check", b"lay", b"list", b"picture", b"play", b"render", b"rom", b"torn"}
HELP = {b"-h", b"--help", b"help", b"-V", b"--version"}
MISUSE, MOST_SECONDS = 64, 60
UNSAID = re.compile(rb"(?m)^dvg: expected .*\n|(?<=\n)dvg: (?!.* at line \d).*\n")


def split(held):
    """The words of an input, and what stands behind them."""
    words, rest = [], held
    while True:
        word, end, rest = rest.partition(b"\n")
        if not word or not end:
            return words, rest
        words.append(word)


def come(program, words, text):
    """What comes of a program: its status, and what it writes."""
    ran = subprocess.run([program, *words], input=text, capture_output=True, timeout=MOST_SECONDS,
                         check=False)
    return ran.returncode, ran.stdout, UNSAID.sub(b"", ran.stderr)


def compare(path, program, twin):
    """How many were compared, and what differs."""
    words, text = split(path.read_bytes())
    is_help = HELP & set(words) or b"\0" in b"".join(words)
    if not words or words[0] not in COMMANDS or is_help:
        return 0, None
    ours, theirs = come(program, words, text), come(twin, words, text)
    if MISUSE in (ours[0], theirs[0]):
        return 0, None
    return 1, None if ours == theirs else (path, ours, theirs)


def explained(ours, theirs):
    """The first thing that differs."""
    for name, one, other in zip(("status", "output", "error"), ours, theirs):
        if one != other:
            return f"{name}: {str(one)[:300]} of the program, {str(other)[:300]} of its twin"
    return ""


def main(program, twin, most, *folders):
    paths = sorted(path for folder in folders for path in Path(folder).iterdir())
    some = paths[::max(1, -(-len(paths) // int(most)))]
    asked = 0
    with ThreadPoolExecutor(os.cpu_count()) as workers:
        for count, found in workers.map(lambda path: compare(path, program, twin), some):
            asked += count
            if found:
                expect(False, f"{found[0]}: {explained(*found[1:])}")
    expect(asked > 0, "some inputs are compared")
    print(f"{asked} of {len(paths)} inputs were compared with the twin")
    counts.finish()


if __name__ == "__main__":
    main(*sys.argv[1:])
