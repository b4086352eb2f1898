"""The README.md of each crate beside the crate's sources, for tests/documents. Each crate has one,
of at most 16 lines. What it names is there: a contract, in a line '- `NAME` (`CLAUSE`, .., FILE):',
is a function of that file with these clauses; a name `A::B` is a function of the crate A, or of a
type or a module A; and a path is one of the crate, or of the one that is named before it, or of
the repository.

The main results of docs/TRUST.md are looked at, too: in a line '- `CRATE::NAME` (`CLAUSE`, ..),
`NAME`, by `DEFINITION`: ..' each name is a function of the crate before it, with these clauses. So
are the names of docs/THEOREM.md, of which the ladder has most, functions of the crates before
them."""

import glob
import os
import re

MOST_LINES = 16
# How many contracts a page has where the crate has as many public functions.
CONTRACTS = 3

CONTRACT = re.compile(r"(?m)^- `([\w:]+)` \(((?:`\w+`, )*)([\w/.]+)\):")
NAME = re.compile(r"`(\w+(?:::\w+)+)`")
PATH = re.compile(r"(?:(\w+)'s )?(?<![\w/])((?:src|specs|proofs)/[\w/.]*\w)")
RESULT = re.compile(r"(?m)^- (`\w+::.*?): ")
RESULT_NAME = re.compile(r"(by )?`([\w:]+)`(?: \(((?:`\w+`(?:, )?)+)\))?")
# Folders at the top whose files a page may name.
FOLDERS = ["bench", "core", "docs", "include", "tests"]
FILE = re.compile(rf"(?<![\w/])((?:{'|'.join(FOLDERS)})/[\w/.]*\w)")


def read(path):
    with open(path, encoding="utf-8") as file:
        return file.read()


def read_files(top, crates):
    """The texts of all sources of these crates, and the names of their definitions and proofs, and
    of the files of FOLDERS."""
    texts = {os.path.relpath(path, top): "" for folder in FOLDERS
             for path in glob.glob(f"{top}/{folder}/**/*", recursive=True)}
    for crate in crates:
        folder = f"{top}/crates/{crate}"
        for path in glob.glob(f"{folder}/**/*", recursive=True):
            if path.endswith((".rt", ".antt")) or os.path.isdir(path):
                name = f"{crate}/{os.path.relpath(path, folder)}"
                texts[name] = read(path) if path.endswith(".rt") else ""
    return texts


def read_pages(top, crates):
    """The README.md of each of these crates, which is empty where there is none."""
    paths = {crate: f"{top}/crates/{crate}/README.md" for crate in crates}
    return {crate: read(path) if os.path.exists(path) else "" for crate, path in paths.items()}


def clauses_of(text, function):
    """The clauses of each function of this name in a text: a set of names for each."""
    found = []
    for head in re.finditer(rf"\bfn {function}\b", text):
        body = re.split(r"\n *(?:pub |unsafe |extern |const )*fn \w", text[head.end():])[0]
        found.append(set(re.findall(r"\bensures\*? (\w+) \{", body)))
    return found


def is_there(files, crate, parts, path=None):
    """Whether a crate has what these parts of a name say, in the file of this path or in any: its
    last part is a function, and one before it a type or a module."""
    texts = {name: text for name, text in files.items() if name.startswith(f"{crate}/src/")
             and (path is None or name == f"{crate}/{path}")}
    *owners, function = parts
    return any(re.search(rf"\bfn {function}\b", text) and all(
        re.search(rf"\b(?:impl|trait|struct|enum)\b.*\b{owner}\b", text)
        or re.search(rf"/{owner}(?:\.rt|/)", name) for owner in owners)
        for name, text in texts.items())


def wrong_contracts(files, crate, page):
    for name, clauses, path in CONTRACT.findall(page):
        wanted = set(re.findall(r"\w+", clauses))
        if not is_there(files, crate, name.split("::"), path):
            yield f"{name} isn't in {path}"
        elif not any(wanted <= has for has in
                     clauses_of(files[f"{crate}/{path}"], name.split("::")[-1])):
            yield f"{name} has no such clauses: {' '.join(sorted(wanted))}"


def read_results(crates, page):
    """The names of the results, each with its crate and its clauses."""
    for head in RESULT.findall(page):
        crate = None
        for by, name, clauses in RESULT_NAME.findall(head):
            parts = name.split("::")
            if parts[0] in crates:
                crate, *parts = parts
            if not by:
                yield crate, parts, set(re.findall(r"\w+", clauses))


def wrong_results(files, crates, page):
    """What is wrong with the main results of docs/TRUST.md."""
    for crate, parts, clauses in read_results(crates, page):
        name = "::".join(parts)
        found = [has for path, text in files.items() if path.startswith(f"{crate}/src/")
                 for has in clauses_of(text, parts[-1])]
        if not is_there(files, crate, parts):
            yield f"{crate} has no {name}"
        elif not any(clauses <= has for has in found):
            yield f"{name} of {crate} has no such clauses: {' '.join(sorted(clauses))}"


def wrong_names(files, crates, page, crate=None):
    """The names of a text that aren't there, each with a crate in front, or of this crate."""
    for name in NAME.findall(page):
        first, *rest = name.split("::")
        if first in crates:
            if not is_there(files, first, rest):
                yield f"there is no {name}"
        elif crate and not is_there(files, crate, [first, *rest]):
            yield f"there is no {name}"


def wrong_paths(files, crate, page):
    for owner, path in PATH.findall(page):
        if f"{owner or crate}/{path}" not in files:
            yield f"there is no {owner or crate}/{path}"
    yield from (f"there is no {path}" for path in FILE.findall(page) if path not in files)


def page_differences(crates, crate, page, files, count):
    """What is wrong with the page of a crate, which has this many public functions with clauses.
    `crates` are those that a name may begin with."""
    if not page.startswith(f"# {crate}\n"):
        yield "it has no README.md of its name"
    if page.count("\n") > MOST_LINES:
        yield f"it has more than {MOST_LINES} lines"
    if len(CONTRACT.findall(page)) < min(CONTRACTS, count):
        yield "it has too few contracts"
    yield from wrong_contracts(files, crate, page)
    yield from wrong_names(files, crates, page, crate)
    yield from wrong_paths(files, crate, page)


def differences(crates, pages, files, counts):
    """What is wrong with the pages of these crates. Of those that have contracts, `counts` says how
    many public functions they have."""
    return [f"crates/{crate}/README.md: {what}" for crate in crates for what in
            page_differences(crates, crate, pages[crate], files, counts.get(crate, 0))]


# Mistakes in a page: the crate, what stands there, and what is put in its place.
PLANTED = [
    ("no page", "dvg_code", "# dvg_code", "# dvg_coding"),
    ("a page that is too long", "dvg_world", "# dvg_world\n", "# dvg_world\n" + 16 * "\n"),
    ("a contract of no function", "dvg_world", "`World::fetch` (", "`World::fetched` ("),
    ("a contract of another file", "dvg_world", "src/runs.rt)", "src/world.rt)"),
    ("a clause that isn't there", "dvg_gen", "(`moves`, ", "(`moved`, "),
    ("a clause of another function", "dvg_gen", "(`moves`, ", "(`refused`, "),
    ("a contract of another type", "dvg_gen", "`WrappingGenerator::feed` (", "`Beam::feed` ("),
    ("too few contracts", "dvg_mem", "- `Store::write`", "`Store::write`"),
    ("a law of another module", "dvg_theorem", "`laws::headline`", "`lows::headline`"),
    ("a function of another crate", "dvg", "`dvg_tool::perform`", "`dvg_args::perform`"),
    ("a file that isn't there", "dvg_read", "specs/Texts.antt", "specs/Text.antt"),
    ("a file of another crate", "dvg_theorem", "dvg_log's specs", "dvg_gen's specs"),
    ("a case that isn't there", "dvg_code", "tests/cases/list.md", "tests/cases/lists.md"),
]


def missed_mistakes(crates, pages, files, counts):
    """The planted mistakes that aren't found, or change nothing."""
    missed = []
    for what, crate, before, after in PLANTED:
        turned = pages[crate].replace(before, after)
        found = list(page_differences(crates, crate, turned, files, counts.get(crate, 0)))
        if turned == pages[crate] or not found:
            missed.append(what)
    return missed


# Mistakes in the results: what stands there, and what is put in its place.
PLANTED_RESULTS = [
    ("a result of no function", "`dvg_frame::check`", "`dvg_frame::checked`"),
    ("a function of another crate", "`dvg_c::dvg_turn`", "`dvg_device::dvg_turn`"),
    ("a clause that isn't there", "(`tears`, `took`)", "(`tears`, `taken`)"),
    ("a clause of another function", "`take` (`torn`)", "`take` (`fetched`)"),
]


# A law of docs/THEOREM.md, and one that isn't there.
PLANTED_LAW = ("`dvg_game_board::games_keep`", "`dvg_game_cells::games_keep`")


def missed_results(files, crates, page, theorem):
    """The planted mistakes that aren't found, or change nothing."""
    tried = [(what, text := page.replace(before, after), text != page,
              list(wrong_results(files, crates, text)))
             for what, before, after in PLANTED_RESULTS]
    turned = theorem.replace(*PLANTED_LAW)
    tried.append(("a law of another crate", turned, turned != theorem,
                  list(wrong_names(files, crates, turned))))
    return [what for what, _, is_changed, found in tried if not is_changed or not found]
