"""Copies of crates with what is kept of their proofs, and checks of them: for tests/wrong_bodies
and core_proofs.py."""

import os
import re
import shutil
import subprocess
import sys
from pathlib import Path

sys.path.append(str(Path(__file__).resolve().parent.parent / "tools"))
from sources import ROOT

MOST_SECONDS = 7200
# Errors of a proof that say nothing of what it proves: a name is gone, or it stands on another one
# that isn't proved.
GONE = re.compile(r"is not in scope|has no field|is not a field|has no `|is no name"
                  r"|was not admitted")
DEPENDENT = re.compile(r"^\d+ declarations? that depend")


class Unfit(Exception):
    """Why a text shows nothing."""


def lines_of_crates():
    """What crates.txt says of each crate: its kind, if it is no library, and what it uses."""
    lines = [it.partition(":") for it in (ROOT / "crates.txt").read_text().splitlines() if it]
    return {name.split()[0]: (name.split()[1:], uses.split()) for name, _, uses in lines}


def crates_below(name, lines):
    """The crates of this repository that a crate stands on, each before those that it uses."""
    found, left = [], list(lines[name][1])
    while left:
        below = left.pop()
        if below in lines and below not in found:
            found.append(below)
            left += lines[below][1]
    return found


def library(name):
    """Where the library of a proved crate is."""
    return ROOT / "crates" / name / "out/rlib" / f"{name}.rlib"


def words_for(name):
    """The words by which `rattle check` is told of a crate, and of the libraries that it uses."""
    kit = Path(shutil.which("rt")).resolve().parent.parent
    lines = lines_of_crates()
    kind, uses = lines[name]
    words = ["--crate-name", name, "src/lib.rt", "--links", f"{name}=", "--jobs", "1"]
    words += ["--crate-type", *kind] if kind else []
    for used in ["std", *uses]:
        place = library(used) if used in lines else kit / "rlibs" / f"{used}.rlib"
        words += ["--extern", f"{used}={place}"]
    for folder in [kit / "rlibs", *(library(it).parent for it in crates_below(name, lines))]:
        words += ["-L", f"dependency={folder}"]
    words += ["--antt-project", str(kit / "rattle/logic/antt-project.json")]
    words += ["--logic-built", str(kit / "logic_built"), "--incremental", "out/incremental"]
    return [str(kit / "bin/rattle"), "check", *words]


def link_or_copy(source, target):
    """Has a file of checked modules in two places, which nothing writes to, and copies others."""
    (os.link if source.endswith(".oantt") else shutil.copy2)(source, target)


def restore(crate, made):
    """Puts the sources and proofs of a crate's folder back into its folder of a room."""
    for part in ("src", "specs", "proofs"):
        shutil.rmtree(made / part, ignore_errors=True)
        if (crate / part).is_dir():
            shutil.copytree(crate / part, made / part)


def make_room(room, crate, proved):
    """Makes a folder with the sources and proofs of a crate's folder, and with what a folder where
    it was checked has kept of its proof."""
    room.mkdir(parents=True)
    restore(crate, room)
    if (proved / "out/incremental").is_dir():
        kept = room / "out/incremental"
        shutil.copytree(proved / "out/incremental", kept, copy_function=link_or_copy)
    (room / "out/incremental").mkdir(parents=True, exist_ok=True)
    return room


def check(made, name, functions):
    """What the prover says of these functions of a crate, whose sources are in a folder, and how
    many seconds of processors that took."""
    words = ["timeout", "--foreground", str(MOST_SECONDS), *words_for(name)]
    for function in functions:
        words += ["--only", function]
    how = {"stdin": subprocess.DEVNULL, "stdout": subprocess.PIPE, "stderr": subprocess.STDOUT}
    with subprocess.Popen(words, cwd=made, **how, encoding="utf-8", errors="replace") as ran:
        said = ran.stdout.read()
        _, status, used = os.wait4(ran.pid, 0)
        ran.returncode = os.waitstatus_to_exitcode(status)
    return said, used.ru_utime + used.ru_stime
