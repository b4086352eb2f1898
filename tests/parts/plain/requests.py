"""Refuses memory to the plain program in each command: each request of the heap alone, and each
with all after it.

    requests.py PROGRAM NOTHING HEAP

What comes must be what comes with memory, or `dvg: out of memory` and status 2, after a beginning
of that output. A sketch's fault may come without what explains it. NOTHING is a program of Rust
that does nothing. Its requests, the same ones as the first of each other program, are those of
Rust's own start, which ends the program where they are refused. HEAP is requests.c as a
library. The last line is 'N passed, M failed'."""

import os
import shutil
import subprocess
import sys
import tempfile

TRACE = b"""tick 2
offer
labs 512 400 0
vctr 9 -100 100 7
halt
end
tick 14
strobe
fetch 12
"""
DRAFT = b"labs 512 400 0\nvctr 9 -100 100 7\ncall 4\nhalt\nvctr 9 100 100 7\nreturn\n"
SKETCH = b"""  .rom 800
star:
  vctr 9 100 100 7
  return
  .frame title
  labs 512 400 0
  callrom star
  call more
  halt
more:
  vctr 9 -100 100 7
  return
  .frame dark
  labs 0 0 0
  halt
"""
# A jump to half 0, a frame there, and words of the ROM.
DUMP = bytes.fromhex("01e0 90a1 0010 9c90 6474 00b0".replace(" ", "")).ljust(4096, b"\0")
LOG = b"""wrote 000 01
wrote 001 E0
started
fetched 000 E001
wrote 002 90
"""
# The commands, with what each reads, and how it ends.
COMMANDS = [
    ("list", DUMP[:12], 0),
    ("list --at 400", DUMP[:12], 0),
    ("rom", DUMP[:2048], 0),
    ("check", DRAFT, 0),
    ("check --bound", DRAFT, 0),
    ("check", b"labs 0 0 0\ncall 9\nhalt\n", 1),
    ("play", TRACE, 0),
    ("play --all", TRACE, 0),
    ("play --banked", TRACE, 0),
    ("play --svg --scale 50", TRACE, 0),
    ("render", SKETCH, 0),
    ("render", SKETCH.replace(b"callrom", b"call"), 1),
    ("render --check", SKETCH, 0),
    ("lay", SKETCH, 0),
    ("lay --half 1", SKETCH, 0),
    ("lay --table", SKETCH, 0),
    ("lay --rom", SKETCH, 0),
    ("lay --equates", SKETCH, 0),
    ("picture", DUMP, 0),
    ("picture --all", DUMP, 0),
    ("picture --svg", DUMP, 0),
    ("torn", LOG, 1),
    ("explain", SKETCH, 0),
    ("explain", b"labs 0 0 0\ncall 9\nhalt\n", 1),
    ("explain", TRACE.replace(b"end\n", b"ends\n"), 1),
    ("explain", DUMP[:12], 0),
    ("help", b"", 0),
    ("help play", b"", 0),
    ("play --help", b"", 0),
    ("--version", b"", 0),
    ("", b"", 64),
    ("lits", b"", 64),
    ("ra", b"", 64),
    ("draw", b"", 64),
    ("list --al", b"", 64),
    ("list --at", b"", 64),
    ("play --all --all", b"", 64),
    ("play --all=1", b"", 64),
    ("--all play", b"", 64),
    ("play --scale 50", b"", 64),
    ("list -x", b"", 64),
    ("list more", b"", 64),
]
REFUSED = (2, b"dvg: out of memory\n")
ALL = 1_000_000


def run(program, words, given, first, last):
    """What comes of a program in which these requests are refused: its status, its output, what it
    says on standard error, and its requests, a byte each."""
    with tempfile.TemporaryFile() as requests:
        os.dup2(requests.fileno(), 9)
        heap = {"LD_PRELOAD": HEAP, "FIRST": str(first), "LAST": str(last)}
        ran = subprocess.run([program, *words.split()], input=given, capture_output=True,
                             pass_fds=[9], env=heap)
        requests.seek(0)
        return ran.returncode, ran.stdout, ran.stderr, requests.read()


def is_right(came, whole):
    """Whether it came as with memory, or said that there is none."""
    status, output, said, _ = came
    if (status, said) == REFUSED:
        return whole[1].startswith(output)
    unexplained = said.endswith(b"\n") and whole[2].startswith(said[:-1] + b": ")
    return (status, output) == whole[:2] and (said == whole[2] or unexplained)


def find_wrong(words, given, status):
    """How many requests a command has after those of the start, and which is answered wrongly."""
    whole = run(PROGRAM, words, given, 1, 0)
    if whole[0] != status:
        return 0, f"status {whole[0]}: {whole[2]}"
    count, start = len(whole[3]), len(run(NOTHING, words, given, 1, 0)[3])
    for first in range(start + 1, count + 1):
        for last in first, ALL:
            came = run(PROGRAM, words, given, first, last)
            if came[3].find(b"x") != first - 1:
                return count - start, f"request {first} isn't refused"
            if not is_right(came, whole):
                return count - start, f"request {first}: status {came[0]}: {came[2][:99]}"
    return count - start, None if count > start else "no request"


def main():
    passed, failed, total = 0, 0, 0
    for command in COMMANDS:
        count, wrong = find_wrong(*command)
        total += count
        if wrong:
            failed += 1
            print(f"FAILED: dvg {command[0]}: {wrong}")
        else:
            passed += 1
    print(f"{total} requests were refused")
    print(f"{passed} passed, {failed} failed")
    return failed > 0


with tempfile.TemporaryDirectory() as folder:
    # Their paths are of one length, as Rust's start reads them.
    PROGRAM, NOTHING, HEAP = (shutil.copy(path, f"{folder}/{name}")
                              for path, name in zip(sys.argv[1:], ("dvg", "nil", "heap.so")))
    sys.exit(main())
