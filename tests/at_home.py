"""Puts definitions of crates below into a copy of the crate that passes them on, for wrong_laws.py.

A law of a crate may rest on definitions that stand in a crate below. A wrong one there would have
to be proved of all crates between first. So it stands in the crate itself, as if it had never been
moved: the file has its place in the copy, under the name by which the crate passes it on, and all
of the crate cites it there. Crates between don't cite it, or else the law isn't proved of the copy
with the right definitions, and the suite fails."""

import functools
import re
import shutil
import tempfile
from pathlib import Path

from rooms import ROOT, restore
from passed_on import LINE, files_of, place_below
from sources import changes, texts_of

EDITS = "wrong-laws.edits"

(ROOT / "build").mkdir(exist_ok=True)
COPIES = tempfile.TemporaryDirectory(prefix="at-home-", dir=ROOT / "build")


def passed_on(crate):
    """The paths of a crate's folder behind which its wrong laws change files of crates below, with
    the crate and the name of each."""
    paths = {path for _, said in texts_of(crate / EDITS) for path, _, _ in changes(said)}
    return {path: place for path in sorted(paths) if (place := place_below(crate, path))}


def joined(own, below):
    """The text of a file of definitions that has those of another one, in place of the line that
    passes these on."""
    uses = re.findall(r"^(?:pub )?use .*\n", below, re.M)
    head, rest = LINE.split(own, 1)[0], own[LINE.search(own).end() :]
    definitions = re.sub(r"^(?:pub )?use .*\n|\A(?:--.*\n)*", "", below, flags=re.M)
    return head + "".join(it for it in uses if it not in head) + definitions + rest


def bring(crate, made, path, place):
    """Puts a file of a crate below into a copy of a crate's folder."""
    text = files_of(crate, path)[-1].read_text(encoding="utf-8")
    below, name = place
    if (crate / path).exists():
        text = joined((crate / path).read_text(encoding="utf-8"), text)
    else:
        library = made / "specs/Lib.antt"
        said = library.read_text(encoding="utf-8")
        line = f"pub use Rattle.{below}.specs.{name}\n"
        library.write_text(said.replace(line, f"pub mod {name}\n"), encoding="utf-8")
    (made / path).write_text(text, encoding="utf-8")


def rename(made, name, places):
    """Has all of a copy of a crate cite these files of crates below in the crate itself."""
    below = "|".join(f"{crate}\\.specs\\.{file}" for crate, file in places)
    for file in (it for it in made.rglob("*") if it.suffix in (".rt", ".antt")):
        text = file.read_text(encoding="utf-8")
        new = re.sub(rf"\bRattle\.(?:{below})\b",
                     lambda found: f"Rattle.{name}.specs.{found[0].rpartition('.')[2]}", text)
        if new != text:
            file.write_text(new, encoding="utf-8")


@functools.cache
def at_home(crate):
    """A crate's folder, or a copy of it with the definitions of crates below that its wrong laws
    change."""
    places = passed_on(crate)
    if not places:
        return crate
    made = Path(COPIES.name, crate.name)
    made.mkdir()
    restore(crate, made)
    shutil.copy2(crate / EDITS, made)
    (made / "out").symlink_to(crate / "out")
    for path, place in places.items():
        bring(crate, made, path, place)
    rename(made, crate.name, places.values())
    return made
