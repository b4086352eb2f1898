"""What the prover refused, as tests/refused keeps it for tests/wrong_bodies: a part for each crate.

A part begins with `## CRATE`. Its next line is a checksum of all that decides what is said of the
crate's texts: the texts, the crate and the crates that it stands on, but for lines that are
comments, the logic of the kit, and the suite. The second has the seconds of processors that they
took, and then comes a line of each text. It proves nothing: it spares to try again what was tried
of the same sources. So in each commit a quarter of the crates is tried all the same, another one
each time. Each run leaves what it was told in build/refused, a file for each crate, from where it
is taken."""

import functools
import hashlib
import re
import subprocess

from at_home import passed_on
from rooms import ROOT, crates_below, lines_of_crates

KEPT = ROOT / "tests/refused"
TOLD = ROOT / "build/refused"
PARTS = ("src", "specs", "proofs")
EDITS = ("wrong-bodies.edits", "wrong-laws.edits")
SUITE = ("tests/wrong_bodies", "tests/wrong_laws.py", "tests/rooms.py", "tests/copies.py",
         "tools/sources.py")
# What decides only where wrong laws change definitions that the crate passes on: files of the
# suite, and its lines that end so.
FOR_PASSED_ON = ("tests/at_home.py", "tools/passed_on.py")
IF_PASSED_ON = re.compile(rb"^.*# if passed on\n", re.M)
SHARE = 4
# A line of a source or of a definition that is a comment.
COMMENT = re.compile(rb"^[ \t]*(?://|--).*\n", re.M)


@functools.cache
def printed(*words):
    """What a command prints, or nothing where it fails."""
    return subprocess.run(words, cwd=ROOT, stdout=subprocess.PIPE, stderr=subprocess.DEVNULL,
                          encoding="utf-8").stdout


def files_for(name, lines):
    """The files that decide what is said of a crate's texts."""
    for crate in sorted([name, *crates_below(name, lines)]):
        for part in PARTS:
            found = (ROOT / "crates" / crate / part).rglob("*")
            yield from sorted(it for it in found if it.is_file())
    yield from (it for it in (ROOT / "crates" / name / edits for edits in EDITS) if it.exists())
    yield from (ROOT / it for it in SUITE)
    yield from (ROOT / it for it in FOR_PASSED_ON if has_passed_on(name))


def has_passed_on(name):
    """Whether a crate's wrong laws change definitions that it passes on."""
    return bool(passed_on(ROOT / "crates" / name))


def what_decides(file, name):
    """What in a file decides what is said of a crate: without lines that are comments where it is
    Rattle's, and without those of the suite that are for other crates."""
    text = file.read_bytes()
    if file.suffix in (".rt", ".antt"):
        return COMMENT.sub(b"", text)
    return text if has_passed_on(name) else IF_PASSED_ON.sub(b"", text)


@functools.cache
def checksum(name):
    """The checksum of all that decides what is said of a crate's texts, as it was when this was
    asked first."""
    lines = lines_of_crates()
    uses = [(it, lines[it]) for it in sorted([name, *crates_below(name, lines)])]
    logic = printed("rt", "version").partition("logic ")[2].strip()
    digest = hashlib.sha256(f"{logic}\n{uses}\n".encode())
    for file in files_for(name, lines):
        text = what_decides(file, name)
        digest.update(f"{file.relative_to(ROOT)} {len(text)}\n".encode())
        digest.update(text)
    return digest.hexdigest()


def parts():
    """What is kept of each crate, as a text, by its name."""
    text = KEPT.read_text(encoding="utf-8") if KEPT.exists() else ""
    return dict(re.findall(r"^## (\w+)\n((?:(?!## ).+\n)*)", text, re.M))


def read(name):
    """What is kept of a crate: a checksum, seconds, and the lines of its texts. Of a new one it is
    like nothing."""
    kept = parts().get(name)
    if kept is None:
        return "", 0, []
    digest, seconds, *lines = kept.splitlines()
    return digest, int(seconds.split()[0]), lines


def is_kept(name):
    """Whether what is kept of a crate is of the sources that are there."""
    return read(name)[0] == checksum(name)


def is_in_turn(name):
    """Whether a crate is tried in this commit, whatever is kept of it."""
    commit = printed("git", "rev-parse", "HEAD").strip()
    return int(hashlib.sha256(f"{commit} {name}".encode()).hexdigest(), 16) % SHARE == 0


def leave(name, seconds, lines):
    """Leaves in build/refused what was said of a crate."""
    TOLD.mkdir(parents=True, exist_ok=True)
    text = "".join(f"{it}\n" for it in [checksum(name), f"{seconds:.0f} seconds", *lines])
    (TOLD / name).write_text(text, encoding="utf-8")


def take(name):
    """Takes into tests/refused what a run left of a crate. Returns whether one did, of the sources
    that are there."""
    file = TOLD / name
    told = file.read_text(encoding="utf-8") if file.exists() else ""
    if told.split("\n")[0] != checksum(name):
        return False
    kept = sorted({**parts(), name: told}.items())
    KEPT.write_text("\n".join(f"## {it}\n{text}" for it, text in kept), encoding="utf-8")
    return True
