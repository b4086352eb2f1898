"""Which definitions a crate passes on as its own, of those that stand in crates below: a line
`pub use Rattle.CRATE.specs.FILE` of its specs/Lib.antt passes on a file, and such a line of another
file, with names, passes on these."""
import re

from sources import ROOT

LINE = re.compile(r"^pub use Rattle\.(\w+)\.specs\.(\w+)(?:\.\{([^}]*)\})?\n", re.M)


def lines_of(file):
    """The lines of a file of definitions that pass something on: the crate, the file there, and the
    names, or none for all of it."""
    text = file.read_text(encoding="utf-8") if file.exists() else ""
    return [(crate, name, names.split(", ") if names else None)
            for crate, name, names in LINE.findall(text)]


def place_below(crate, path):
    """The crate and the name of the file below that stand behind a path of a crate's folder, as
    specs/Board.antt; None where the folder has all of it."""
    name = re.fullmatch(r"specs/(\w+)\.antt", path)
    lines = [*lines_of(crate / "specs/Lib.antt"), *(lines_of(crate / path) if name else [])]
    places = [(below, file) for below, file, _ in lines if name and file == name[1]]
    return places[0] if places else None


def files_of(crate, path):
    """The files that a path of a crate's folder stands for: its own, and one below that it passes
    on."""
    place = place_below(crate, path)
    below = [ROOT / "crates" / place[0] / "specs" / f"{place[1]}.antt"] if place else []
    return [file for file in [crate / path, *below] if file.exists()]
