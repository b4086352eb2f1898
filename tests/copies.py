"""Functions of a crate, and copies of them under other names, for tests/wrong_bodies.

The layout that `rt fmt` gives a file tells where a function begins and ends: its last line is its
indent and a brace.
"""

import re
import shutil
from dataclasses import dataclass
from pathlib import Path

TYPE = re.compile(r"^(?:pub(?:\([a-z ]+\))? )?(?:struct|enum) (\w+)", re.M)
HEAD = re.compile(r"^( *)(?:pub(?:\([a-z ]+\))? )?(?:const )?(?:unsafe )?fn (\w+)", re.M)
BLOCK = re.compile(r"^(?:pub )?(?:unsafe )?(impl|trait|mod)\b[^{]*", re.M)
GENERICS = re.compile(r"<(?:[^<>]|<[^<>]*>)*>")


@dataclass(frozen=True)
class Function:
    """A function of a file. `owner` holds the words of its impl, the type first and then the trait,
    and none outside of one. `module` is that of the type, or else of the file. The numbers are
    places in the text: of its attributes, of its head, of its body, and of its end."""

    name: str
    module: tuple[str, ...]
    owner: tuple[str, ...]
    first: int
    head: int
    body: int
    end: int

    def is_of_a_trait(self):
        return len(self.owner) > 1

    def symbol(self, name):
        """What the prover calls a copy of this name, or itself, below its crate."""
        return "::".join((*self.module, *filter(None, ["".join(self.owner)]), name))

    def proofs(self, name):
        """The folder of the proofs of a copy of this name, or of its own."""
        return Path("proofs", *self.module, *filter(None, ["".join(self.owner)]), name)

    def copy(self, text, name):
        """The function's text in a file of this text, under another name."""
        head = text[self.head : self.end].replace(f"fn {self.name}", f"fn {name}", 1)
        return text[self.first : self.head] + head


def attributes_begin(text, head):
    """Where the attributes of the item at this place begin. Each may take several lines."""
    first, opened = head, False
    for line in reversed(text[:head].split("\n")[:-1]):
        opened = opened or line.strip() == ")]"
        is_attribute = line.lstrip().startswith("#[")
        if not (opened or is_attribute or line.lstrip().startswith("//")):
            break
        head -= len(line) + 1
        if is_attribute:
            first, opened = head, False
    return first


def words_of_arguments(owner, parameters):
    """The words of a type's arguments, or none where these are parameters of its impl."""
    words = re.findall(r"\(\)|(?<!')\b\w+", "".join(GENERICS.findall(owner)))
    words = ["unit" if it == "()" else it for it in words]
    return words if set(words) - set(parameters) else []


def words_of_owner(text, at):
    """The type of the impl that this place is in, and the trait's words if it is of a trait."""
    block = list(BLOCK.finditer(text, 0, at))[-1]
    if block[1] == "trait":
        return ("", "trait")
    generics = re.match(f"impl({GENERICS.pattern})?", block[0])
    trait, _, owner = block[0][generics.end() :].rpartition(" for ")
    name = GENERICS.sub("", owner).strip().split("::")[-1]
    parameters = re.findall(r"[<,] *(?:const +)?(\w+)", generics[1] or "")
    arguments = "".join(GENERICS.findall(owner)) if trait else ""
    words = re.findall(r"\b[A-Z]\w*", arguments) + re.findall(r"\b[A-Z]\w*", trait)
    if not trait:
        name = "+".join((name, *words_of_arguments(owner, parameters)))
    return (name, *(it for it in words if it not in parameters))


def body_of(text, head):
    """Where the body of this head begins and where it ends, or None where it has no body."""
    at, body, has_clause = head.start(), None, False
    for line in text[at:].split("\n"):
        has_clause = has_clause or re.match(" *(requires|ensures|ghost|where)\\b", line)
        if body is None and line.endswith("{}"):
            return at + len(line) - 2, at + len(line)
        if body is None and re.search("};$|^ *;$" if has_clause else ";$", line):
            return None
        if line == head[1] + "}":
            return body, at + len(line)
        if body is None and (line == head[1] + "{" or (line.endswith("{") and not has_clause)):
            body = at + len(line)
        at += len(line) + 1
    return None


def module_of(path):
    """The module of a file, whose path begins with src/."""
    module = Path(path).with_suffix("").parts[1:]
    return module[:-1] if module[-1] in ("lib", "main", "mod") else module


def homes_of(crate):
    """The module of each type that a crate's folder declares."""
    homes = {}
    for file in sorted((crate / "src").rglob("*.rt")):
        module = module_of(file.relative_to(crate))
        homes |= {name: module for name in TYPE.findall(file.read_text(encoding="utf-8"))}
    return homes


def functions_of(crate, path, text):
    """The functions with a body in a file of this text, whose path in its crate begins with
    src/."""
    homes = homes_of(crate)
    for head in HEAD.finditer(text):
        places = body_of(text, head)
        if places:
            owner = words_of_owner(text, head.start()) if head[1] else ()
            module = homes.get(owner[0].split("+")[0] if owner else "", module_of(path))
            first = attributes_begin(text, head.start())
            yield Function(head[2], module, owner, first, head.start(), *places)


def function_at(crate, path, text, at):
    """The innermost function around a place of a file, or None."""
    around = [it for it in functions_of(crate, path, text) if it.first <= at < it.end]
    return around[-1] if around else None


def copy_proofs(crate, function, name):
    """Copies what is written of a function's proof in a crate's folder, for a copy of this name."""
    own, made = function.proofs(function.name), function.proofs(name)
    if not (crate / own).is_dir():
        return
    shutil.copytree(crate / own, crate / made)
    old, new = (".".join(it.parts[1:]) for it in (own, made))
    for file in (crate / made).rglob("*.antt"):
        text = file.read_text(encoding="utf-8")
        for start in (f"Rattle.{crate.name}.proofs.", f"Rattle.{crate.name}.specs.contracts."):
            text = re.sub(re.escape(start + old) + r"\b", start + new, text)
        file.write_text(text, encoding="utf-8")
