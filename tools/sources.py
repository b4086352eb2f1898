"""What programs of tools/ share: which crates there are, and the items of their Rust text."""
import re
import sys
from pathlib import Path

ROOT = Path(__file__).resolve().parent.parent
# A string, which may go on over lines; a sign; or a comment, but that of an item comes before.
QUOTED = re.compile(r'''"(?:\\[\s\S]|[^"\\])*"|'(?:\\[^\n]|[^\\'\n])'|//[^\n]*''')
CLAUSE = re.compile(r"\b(?:requires|ensures)(?:\*|(?: \w+)?)$|^ghost (?!use)|\n\s*ghost \w+:$")


def all_crates():
    """The crates of this repository, each after those that it uses."""
    lines = (ROOT / "crates.txt").read_text().splitlines()
    return [line.split(":")[0].split()[0] for line in lines if line.strip()]


# The crates that have contracts: those of the domain, of texts and of ports.
CRATES = [name for name in all_crates() if name.startswith("dvg_")]


CHANGE = re.compile(r"^old: ?(.*)\nnew: ?(.*)$", re.M)


def texts_of(file):
    """The texts of a file NAME.edits, if it is there: the name of each, and what it says."""
    text = file.read_text(encoding="utf-8") if file.exists() else ""
    for part in re.split(r"^# ", text, flags=re.M)[1:]:
        name, _, said = part.partition("\n")
        yield name.strip(), said


def changes(text):
    """The changes that a text makes: a file, and its words before and after."""
    for part in re.split(r"^file: ", text, flags=re.M)[1:]:
        name = part.partition("\n")[0].strip()
        for old, new in CHANGE.findall(part):
            yield name, old, new


def items(text):
    """The items of Rust text: each is a list of heads with their blocks, one a clause."""
    item, start, opened, depth = [], 0, 0, 0
    for at, sign in enumerate(text):
        if sign in "([{":
            opened = opened if depth else at
            depth += 1
        elif sign in ")]}":
            depth -= 1
        if depth == 0 and sign in ";}":
            end = opened if sign == "}" else at
            item.append((text[start:end].strip(), text[opened + 1 : at]))
            start = at + 1
            if sign == ";" or not re.search(CLAUSE.pattern + "|^ghost", item[-1][0]):
                yield item
                item = []


def modules_of(text):
    """The modules that a file names, each with whether it is public; those of tests are left
    out."""
    text = re.sub(r"#\[cfg\(test\)\]\nmod.*", "", text)
    return [(name, bool(public)) for public, name in re.findall(r"^(pub )?mod (\w+);", text, re.M)]


def files_of_module(path):
    """The file of a module, or those of the modules in its folder."""
    if path.with_suffix(".rt").exists():
        return [path.with_suffix(".rt")]
    names = [name for name, _ in modules_of((path / "mod.rt").read_text())]
    return [file for name in names for file in files_of_module(path / name)]


def exports_of(crate):
    """The files of a crate's code, each with the names that the crate exports, or None for all."""
    sources = ROOT / "crates" / crate / "src"
    text = (sources / "lib.rt").read_text()
    exports = set(re.findall(r"\w+", " ".join(re.findall(r"^pub use \w+::([^;]*);", text, re.M))))
    files = [(sources / "lib.rt", None)]
    for name, public in modules_of(text):
        files += [(file, None if public else exports) for file in files_of_module(sources / name)]
    return files


def crates_asked(program, help_text, crates):
    """Those of these crates that the command line names, or all. It may ask for help instead."""
    asked = sys.argv[1:]
    if asked in (["--help"], ["-h"]):
        print(help_text.strip())
        sys.exit()
    for name in asked:
        if name not in crates:
            folder = Path(sys.argv[0]).resolve().parent.name
            hint = f"{folder}/{program} --help tells what there is"
            print(f"{program}: there is no crate {name} here; {hint}", file=sys.stderr)
            sys.exit(64)
    return [crate for crate in crates if crate in asked or not asked]
