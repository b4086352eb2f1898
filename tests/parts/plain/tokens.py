"""Checks the plain form of the sources by other means than the eraser's.

    python3 tests/parts/plain/tokens.py CRATES PLAIN NAME..

CRATES/NAME/src/*.rt are sources with contracts, and PLAIN/NAME/src/lib.rs or main.rs is what is
left of them. It is cut into modules, as if each had a file of its own: what stands in the braces of
`mod NAME {` is compared with the source NAME.rt or NAME/mod.rt, and what stands around it with the
source that says `mod NAME;` there. No module may be missing or too many, and no file.

The code of both is cut into tokens. Those of a source without its contracts, and with the few forms
that are written otherwise, must be those of the plain module without the lines that are put in: all
of them, in the same order. Each comment of the plain module must stand in the source, in the same
order. At the head of each crate stand the lines that must stand there, and in no other module.

Each module that differs is named, with the first place. Status 1 if there is one.
"""

import itertools
import re
import sys
from pathlib import Path

TOKEN = re.compile(r"""//[^\n]*|"(?:[^"\\]|\\.)*"|'(?:[^'\\]|\\[^\n]*?)'|\w+|[^\w\s]""", re.DOTALL)
MODULES_WITHOUT_CODE = {"laws", "tests"}
NO_STD = "#![no_std]"
EXTERN = "extern crate plain_std as std;"
PRELUDE = "use std::prelude::*;"
MACROS = re.compile(r"use std::(eprint|println|\{eprint, eprintln\}|\{eprintln, println\});")
RUNTIME = re.compile(r"let \w+ = HostRuntime::new\(\);")


def cut(text):
    """The tokens of code, and the comments."""
    tokens = TOKEN.findall(text)
    return [t for t in tokens if not t.startswith("//")], [t for t in tokens if t.startswith("//")]


def words(text):
    return cut(text)[0]


# What is written otherwise of the signature of Display::fmt, and of what its Formatter is handed
# to.
GENERIC = words("<W: fmt::Write>")
FORMATTER, PLAIN_FORMATTER = words("fmt::Formatter<W>"), words("fmt::Formatter<'_>")
LOWERCASE = words(".to_ascii_lowercase(")
CLONE, TRY_CLONE = "clone", "try_clone"
# The types that derive Clone and Debug, too.
COPIED = """
    struct Alike, struct Banked, struct Chain, struct Checked, struct Checker, struct Counted,
    struct Cursor, struct Desk, struct DraftText, struct Drawn, struct Driver, struct Dump,
    enum Ending, struct Entries, struct EntryRun, struct EntryRuns, struct Flat, struct Found,
    struct Frame, struct Generator, struct GeneratorRefused, struct GeneratorState, struct Image,
    struct Judge, struct Listing, struct Logged, struct Note, struct Pair, struct PairList,
    enum Phase, struct Picture, struct Rom, struct Run, struct Runs, struct Stopped, struct Table,
    enum Taken, struct Traced, struct WordBytes, struct Worklist, struct World,
    struct WorldRefused, struct WorldState, struct WrappingGenerator
"""
COPIED = {tuple(item.split()) for item in COPIED.split(",")}
# The types that serde writes and reads, some by another type, which is checked, and some that are
# read by a form of their own, which is looked at.
SERDE = '#[cfg_attr(feature = "serde", derive(serde::Serialize, serde::Deserialize))]'
BY = '#[cfg_attr(feature = "serde", serde(try_from = "{0}", into = "{0}"))]'
CHECKED = {("struct", "Code"): "Instr", ("struct", "Op"): "OpKind"}
READ_BY = '#[cfg_attr(feature = "serde", serde(try_from = "crate::rust::{0}"))]'
LOOKED_AT = {
    ("enum", "Action"): "ActionForm", ("struct", "Beam"): "BeamForm",
    ("struct", "Counters"): "CountersForm", ("enum", "Entry"): "EntryForm<S>",
    ("enum", "FrameFault"): "FrameFaultForm", ("struct", "Move"): "MoveForm",
    ("enum", "Place"): "PlaceForm", ("struct", "Stroke"): "StrokeForm",
}
KEPT = """
    enum Area, enum CodeFault, struct DraftFull, enum DriverFault, enum Event, enum GenFault,
    enum Half, enum Instr, enum Listed, enum MemFault, enum OpKind, struct OutOfMemory
"""
# The types to which a later version may add a variant, which serde writes and reads, too.
GROWING = "enum DriverStateFault, enum GeneratorStateFault, enum WorldStateFault"
GROWING = {tuple(item.split()) for item in GROWING.split(",")}
KEPT = {tuple(item.split()) for item in KEPT.split(",")}
KEPT |= CHECKED.keys() | LOOKED_AT.keys() | GROWING
# How public functions begin that refuse by `false`.
MUST_USE = words("#[must_use]")
REFUSING = [words(head) for head in (
    "fn take(&mut self, line: &[u8]) -> bool", "fn take(&mut self, tokens: &[&[u8]]) -> bool",
)]
# What stands at the end of a library with a file by hand beside its sources.
BESIDE = ['#[path = "../rust.rs"]', "mod rust;", ""]
BESIDE_WITH_ITEMS = ['#[path = "../rust.rs"]', "mod rust;", "pub use rust::*;", ""]


class Source:
    """The tokens of a source, of which those of contracts are passed over."""

    def __init__(self, tokens):
        self.tokens = tokens
        self.at = 0
        self.left = []
        self.laws = set()
        self.derived = set()

    def next_is(self, *wanted):
        return self.tokens[self.at : self.at + len(wanted)] == list(wanted)

    def until(self, mark):
        """The place of a mark from here on."""
        return self.tokens.index(mark, self.at)

    def after_brackets(self, opening, closing):
        """The place after the bracket that closes the next one."""
        at = self.until(opening)
        depth = 0
        while True:
            depth += (self.tokens[at] == opening) - (self.tokens[at] == closing)
            at += 1
            if depth == 0:
                return at

    def pass_ghost(self):
        if self.tokens[self.at + 1] == "use":
            self.at = self.until(";") + 1
            return
        self.at = self.after_brackets("{", "}")
        if self.tokens[self.at] in (";", ","):
            self.at += 1

    def attribute(self):
        """An attribute, as it is in the plain file."""
        end = self.after_brackets("[", "]")
        inside = self.tokens[self.until("[") + 1 : end - 1]
        self.at = end
        if inside[0] == "tactic" or inside[0] == "derive_where" and ";" in inside:
            return []
        if inside == words("cfg(test)"):
            self.at = self.until(";") + 1
            return []
        if inside == words("rattlefmt::skip"):
            return words("#[rustfmt::skip]")
        if inside[0] not in ("derive", "derive_where"):
            return ["#", "[", *inside, "]"]
        names = [token for token in inside[2:-1] if token not in (",", "Drop")]
        self.derived = set(names)
        names += ["Hash"] if "Eq" in names and "Hash" not in names else []
        return words(f"#[derive({', '.join(names)})]") if names else []

    def is_model(self):
        return self.next_is("impl") and "Model" in self.tokens[self.at : self.until("{")]

    def skipped_line(self):
        """A line that goes whole, or nothing."""
        lines = ["use std::marker::Model;", "pub mod laws;", "mod laws;"]
        if self.next_is("pub", "use"):
            crate = self.tokens[self.at + 2]
            lines.append(f"pub use {crate}::laws;")
        if self.next_is("use") and self.tokens[self.at + 4 : self.at + 7] == words("laws::"):
            end = self.until(";")
            self.laws |= {it for it in self.tokens[self.at + 7 : end] if it not in "{,}"}
            lines.append(" ".join(self.tokens[self.at : end + 1]))
        lines += [f"{law}();" for law in self.laws]
        return next((line for line in map(words, lines) if self.next_is(*line)), None)

    def structure(self):
        """What a type derives that users copy, print or keep, and its first word."""
        missing = [name for name in ("Clone", "Debug") if name not in self.derived]
        self.derived = set()
        head = tuple(self.tokens[self.at : self.at + 2])
        lines = f"#[derive({', '.join(missing)})]" if missing and head in COPIED else ""
        lines += SERDE if head in KEPT else ""
        lines += BY.format(CHECKED[head]) if head in CHECKED else ""
        lines += READ_BY.format(LOOKED_AT[head]) if head in LOOKED_AT else ""
        lines += "#[non_exhaustive]" if head in GROWING else ""
        visibility = len(self.left) - len(self.visibility())
        self.left[visibility:visibility] = words(lines)
        self.left.append(self.tokens[self.at])
        self.at += 1

    def visibility(self):
        """What was left last, if it tells how far a name is seen."""
        wide, narrow = words("pub"), words("pub(crate)")
        ends = (it for it in (narrow, wide) if self.left[-len(it) :] == it)
        return next(ends, [])

    def refuses(self):
        """Whether a public function may refuse, by an Option or as one of REFUSING."""
        if not self.next_is("fn") or self.left[-1:] != ["pub"]:
            return False
        ends = {"{", ";", "requires", "ensures", "where"}
        signature = list(itertools.takewhile(lambda it: it not in ends, self.tokens[self.at :]))
        by_option = ") - > Option <" in (text := " ".join(signature)) and "& mut self" not in text
        return by_option or any(self.next_is(*head) for head in REFUSING)

    def formatting(self):
        """A signature up to its bracket's end."""
        end = self.until(")")
        fields = " ".join(self.tokens[self.at + 2 + len(GENERIC) : end])
        plain = fields.replace(" ".join(FORMATTER), " ".join(PLAIN_FORMATTER))
        self.left += [*self.tokens[self.at : self.at + 2], *plain.split()]
        self.at = end

    def step(self):
        line = self.skipped_line()
        if self.refuses():
            self.left[-1:] = [*MUST_USE, "pub"]
        if self.next_is("ghost"):
            self.pass_ghost()
        elif self.next_is("requires") or self.next_is("ensures") or self.is_model():
            self.at = self.after_brackets("{", "}")
        elif self.next_is("#", "[") or self.next_is("#", "!", "["):
            self.left += self.attribute()
        elif line:
            self.at += len(line)
        elif self.next_is("fn") and self.tokens[self.at + 2 :][: len(GENERIC)] == GENERIC:
            self.formatting()
        elif self.next_is(*LOWERCASE) and self.tokens[self.at + len(LOWERCASE)] != ")":
            self.left += words(".to_ascii_lowercase_in(")
            self.at += len(LOWERCASE)
        elif self.next_is(CLONE):
            self.left.append(TRY_CLONE)
            self.at += 1
        elif self.next_is("struct") or self.next_is("enum"):
            self.structure()
        elif self.next_is(*words("fn main(")):
            self.left += words("fn main()")
            self.at = self.until(")") + 1
        else:
            self.left.append(self.tokens[self.at])
            self.at += 1

    def code(self):
        while self.at < len(self.tokens):
            self.step()
        for name in self.idle_numbers():
            self.left[self.left.index(name)] = f"_{name}"
        self.drop_imports()
        return self.left

    def imports(self):
        """Where imports begin and end that no other crate sees, each with its semicolon."""
        before = zip([";", *self.left], self.left)
        found = [at for at, (mark, token) in enumerate(before) if token == "use" and mark in ";}]{"]
        return [(at, self.left.index(";", at) + 1) for at in found]

    def outside_of_imports(self):
        """What is left but for imports."""
        inside = {k for at, end in self.imports() for k in range(at, end)}
        code = [token for k, token in enumerate(self.left) if k not in inside]
        quoted = [re.findall(r"\w+", token) for token in code if token[0] == '"']
        return code + [word for text in quoted for word in text]

    def idle_numbers(self):
        """The numbers of loops that nothing asks for."""
        code = self.outside_of_imports()
        heads = zip(code, code[1:], code[2:])
        names = [name for before, name, after in heads if (before, after) == ("for", "in")]
        return [name for name in names if name[0] != "_" and code.count(name) == 1]

    def drop_imports(self):
        """Takes the names away that are imported, but stand in contracts alone."""
        code = set(self.outside_of_imports())
        for at, end in reversed(self.imports()):
            names = self.left[at:end]
            inside = names[names.index("{") + 1 : -2] if "{" in names else None
            paths = " ".join(inside if inside is not None else names[1:-1]).split(" , ")
            paths = [path.removesuffix(" ,") for path in paths]
            kept = [path for path in paths if self.is_kept(path.split()[-1], code)]
            if "{" in (inside or []) or kept == paths:
                continue
            listed = " , ".join(kept)
            head = names[: names.index("{")] if inside is not None else names[:1]
            if len(kept) > 1:
                listed = f"{{ {listed} }}"
            self.left[at:end] = [*head, *listed.split(), ";"] if kept else []

    def is_kept(self, name, code):
        """Whether a name that is imported stands in code, or in no contract either."""
        return name in code or self.tokens.count(name) <= self.left.count(name)


def without_added_lines(text, name, beside):
    """A plain module without the lines that are put in, and what is wrong with these. The file
    `beside` counts at the root of a library alone."""
    lines = text.split("\n")
    if name == "lib" and beside.exists():
        items = re.search("^pub ", beside.read_text(encoding="utf-8"), re.MULTILINE)
        wanted = BESIDE_WITH_ITEMS if items else BESIDE
        if lines[-len(wanted) :] != wanted:
            return text, "it doesn't end with what names the file beside it"
        del lines[-len(wanted) :]
    head = {"lib": [NO_STD, EXTERN], "main": [EXTERN]}.get(name, [])
    found = [line for line in lines if line in (NO_STD, EXTERN)]
    wrong = None if found == head else f"the head is {found}, not {head}"
    added = {NO_STD, EXTERN, PRELUDE}
    kept = []
    for line in lines:
        is_runtime = name == "main" and RUNTIME.fullmatch(line.strip())
        if line not in added and not MACROS.fullmatch(line) and not is_runtime:
            kept.append(line)
    return "\n".join(kept), wrong


def first_difference(left, plain):
    """Where two lists of tokens differ, in words, or nothing."""
    if left == plain:
        return None
    differing = (k for k, (a, b) in enumerate(zip(left, plain)) if a != b)
    at = next(differing, min(len(left), len(plain)))
    before = " ".join(left[max(0, at - 6) : at])
    found, wanted = (" ".join(tokens[at : at + 4]) for tokens in (plain, left))
    return f"after '{before}' stands '{found}', not '{wanted}'"


def stray_comment(comments, of_source):
    """The first comment that doesn't stand in the source in this order, or nothing."""
    rest = iter(of_source)
    return next((comment for comment in comments if comment not in rest), None)


def fault_of(source, name, plain, beside):
    """What is wrong with the text of a plain module, or nothing."""
    text, wrong = without_added_lines(plain, name, beside)
    if wrong:
        return wrong
    tokens, comments = cut(text)
    of_source, comments_of_source = cut(source)
    difference = first_difference(Source(of_source).code(), tokens)
    if difference:
        return difference
    comment = stray_comment(comments, comments_of_source)
    return f"a comment that isn't in the source: {comment}" if comment else None


def modules_of(text, root):
    """The modules of a plain file, by their paths, and its root by that name: the text of each as
    if it had a file of its own, where `mod NAME;` stands for a module in braces. And how many of
    the modules have no end."""
    made, opened = {root: ""}, [(root, 0)]
    depth, at, before = 0, 0, ["", ""]
    for match in TOKEN.finditer(text):
        token = match.group()
        path, outside = opened[-1]
        if token == "{" and before[0] == "mod":
            made[path] += text[at : match.start()] + ";"
            inner = before[1] if path == root else f"{path}/{before[1]}"
            made[inner] = ""
            opened.append((inner, depth))
            at = match.end()
        elif token == "}" and path != root and depth == outside + 1:
            made[path] += text[at : match.start()]
            opened.pop()
            at = match.end()
        depth += (token == "{") - (token == "}")
        if not token.startswith("//"):
            before = [before[1], token]
    made[opened[-1][0]] += text[at:]
    return made, len(opened) - 1


def sources_of(folder):
    """The sources of a crate that have code, each by its name in this folder. The root of a folder
    has the name of that."""
    found = {}
    for path in folder.rglob("*"):
        name = str(path.relative_to(folder).with_suffix("")).removesuffix("/mod")
        if path.is_file() and path.stem not in MODULES_WITHOUT_CODE:
            if name in found:
                raise SystemExit(f"{path}: another source of the same module")
            found[name] = path.read_text(encoding="utf-8")
    return found


def faults_of(crate, sources, plain):
    """What is wrong with the plain form of a crate, and the texts of its modules. `crate` is its
    name, `sources` are the texts of its sources, and `plain` is the folder of its plain form."""
    root = "main" if "main" in sources else "lib"
    file = plain / "src" / f"{root}.rs"
    files = {path for path in (plain / "src").rglob("*") if path.is_file()}
    strays = sorted(path.relative_to(plain) for path in files - {file})
    faults = [f"{crate}/{path}: a file that is too many" for path in strays]
    text = file.read_text(encoding="utf-8") if file in files else ""
    made, unended = modules_of(text, root)
    if unended:
        faults.append(f"{crate}/src/{file.name}: {unended} modules without an end")
    for name in sorted(sources.keys() ^ made.keys()):
        faults.append(f"{crate}/src/{name}: one of the source and the plain module isn't there")
    for name in sorted(sources.keys() & made.keys()):
        fault = fault_of(sources[name], name, made[name], plain / "rust.rs")
        faults += [f"{crate}/src/{name}: {fault}"] if fault else []
    return faults, made.values()


def main(crates, plain, names):
    modules = faults = tokens = 0
    for name in names:
        sources = sources_of(Path(crates, name, "src"))
        found, texts = faults_of(name, sources, Path(plain, name))
        print("".join(f"{fault}\n" for fault in found), end="")
        faults += len(found)
        modules += len(texts)
        tokens += sum(len(cut(text)[0]) for text in texts)
    print(f"{modules} modules, {tokens} tokens of plain code")
    return 1 if faults or not modules else 0


if __name__ == "__main__":
    sys.exit(main(sys.argv[1], sys.argv[2], sys.argv[3:]))
