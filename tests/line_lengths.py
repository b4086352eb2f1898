"""The rule of CONTRIBUTING.md that lines are short, for tests/documents: none of code or of a
comment is over 100 columns, and none of a document over 120."""

import os
import re
import subprocess

CODE, DOCUMENT = 100, 120

# Data, whose lines are as long as what they hold: pictures, sketches, logs, what a run prints, and
# lists of names.
DATA = re.compile(
    r"\.(svg|png|wasm|tar|sketch|log|hex|run|words|list|output|lock|txt)$|/(args|stdin|stdout)$")
# What is written by a script, and what shows commands and outputs whose lines are what they are. A
# planted mistake has each of its texts in one line. `rt fmt` lays out what is proved: *.antt.
EXEMPT = re.compile(
    r"\.antt$|^plain/crates/"
    r"|^page/(dvg\.html|cave\.json|dvg\.wasm\.made|driver\.listing|src/tables\.mjs)$"
    r"|^tests/(tool_)?cases/.*\.md$|^tests/parts/compare/mistakes$"
    r"|^crates/[^/]+/wrong-(bodies|laws)\.edits$|^tests/refused$")


def too_long(path, text):
    """The lines of a file that are over the rule, each with its number. Columns are characters. A
    table has each row in one line, and `rt fmt` an attribute with the text of an error."""
    most = DOCUMENT if path.endswith(".md") else CODE
    return [f"{path}:{number}: {len(line)} columns, {most} at most"
            for number, line in enumerate(text.split("\n"), 1)
            if len(line) > most and not line.startswith("|") and "#[error(" not in line]


def is_judged(path):
    return not DATA.search(path) and not EXEMPT.search(path)


def tracked(top):
    """The files of the repository, but for those that are links."""
    listed = subprocess.run(["git", "ls-files", "-z"], cwd=top, stdout=subprocess.PIPE, check=True)
    paths = listed.stdout.decode().split("\0")[:-1]
    return [path for path in paths if os.path.isfile(f"{top}/{path}")
            and not os.path.islink(f"{top}/{path}")]


def all_too_long(top):
    """The long lines of all files that are judged, and how many files those are."""
    found, judged = [], [path for path in tracked(top) if is_judged(path)]
    for path in judged:
        with open(f"{top}/{path}", encoding="utf-8") as file:
            found += too_long(path, file.read())
    return found, len(judged)


# Lines that are too long, or not: of 100 and of 120 letters, which are two bytes each.
PLANTED = {
    "crates/dvg/src/main.rt": ("é" * 100, "é" * 101),
    "tests/tools": ("    " + "é" * 96, "    " + "é" * 97),
    "README.md": ("é" * 120, "é" * 121),
    "include/dvg.h": ("/* " + "é" * 97, "/* " + "é" * 98),
}
# What is judged, and what isn't.
JUDGED = ["Makefile", "test", "tests/counts.bash", "plain/erase.rs", "core/dvg_core.v",
          "docs/BOARD.md", "crates/dvg_gen/src/generator.rt", "board/driver.s", "board/tables.awk",
          "page/src/page.mjs"]
PASSED_OVER = ["crates/dvg_gen/specs/Gen.antt", "plain/crates/dvg/src/main.rs", "page/dvg.html",
               "crates/dvg_cells_core/wrong-laws.edits",
               "tests/cases/play.md"]


def missed_mistakes():
    """The planted lines that are judged wrongly, and the files that are."""
    missed = [path for path, (good, bad) in PLANTED.items()
              if too_long(path, good) or not too_long(path, f"\n{bad}\n")]
    return missed + [path for path in JUDGED if not is_judged(path)] \
        + [path for path in PASSED_OVER if is_judged(path)]
