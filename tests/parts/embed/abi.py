"""Compares what programs take of the libraries for C and for Python with abi.txt: the numbers
of the headers, the sizes of their types, the place of each field, the types of each call, the name
and the symbols of the shared library, and the names of the module with the words of each call.

    abi.py HEADERS LIBRARY                  HEADERS is the folder of dvg.h and dvg_heap.h
    abi.py HEADERS LIBRARY --record         writes abi.txt from scratch

A line that is there no more, or is another one, ends programs that were written before, and the
version grows (CONTRIBUTING.md); if a program that was linked before can no longer run, so does the
number in libdvg.so.N. A new line is something new. Whoever wants either records it, in the same
commit.

CC is the compiler. nm and objdump are of GNU binutils. The sizes are those of 64-bit systems. The
module is that of python/, or of the folder that DVG_MODULE names. The last line is 'N passed, M
failed'.
"""

import enum
import inspect
import os
import re
import subprocess
import sys
import tempfile
from pathlib import Path

TOP = Path(__file__).resolve().parents[3]
sys.path[:0] = [os.environ.get("DVG_MODULE", str(TOP / "python")), str(TOP / "tests")]
import counts  # noqa: E402
import gerbilargent  # noqa: E402
from counts import expect  # noqa: E402

FROZEN = TOP / "tests/parts/embed/abi.txt"
HEADERS = ("dvg.h", "dvg_heap.h")
# These are other ones in each version, or no numbers.
PASSED_OVER = {"DVG_VERSION", "DVG_VERSION_NUMBER", "DVG_H", "DVG_HEAP_H", "DVG_MUST_USE",
               "DVG_INLINE"}
CALL = re.compile(
    r"(?m)^(?:DVG_MUST_USE )?(DVG_INLINE )?((?:const )?\w+ \**)(dvg_\w+)\(([^)]*)\)\s*[{;]")


def read(folder, name):
    """A header without its comments."""
    text = (folder / name).read_text(encoding="utf-8")
    return re.sub(r"/\*.*?\*/", "", text, flags=re.S)


def type_of(parameter):
    """The type of a parameter, without its name."""
    words = " ".join(parameter.split())
    return re.sub(r"(?<=[ *])\w+$", "", words).strip() if " " in words else words


def calls(text):
    """The calls of a header with their types: those that are linked, and those that are inline."""
    for inline, result, name, parameters in CALL.findall(text):
        types = ", ".join(map(type_of, parameters.split(",")))
        yield f"{'inline' if inline else 'linked'} {result.strip()} {name}({types})"
    for result, name, types in re.findall(r"(?m)^typedef (\w+) \(\*(\w+)\)\(([^)]*)\);", text):
        yield f"pointer {result} {name}({', '.join(map(type_of, types.split(',')))})"


def program(text):
    """The lines of a program that prints the numbers, sizes and fields of a header."""
    macros = re.findall(r"(?m)^#define (DVG_\w+)", text)
    members = re.findall(r"(?m)^    (DVG_\w+) = ", text)
    for name in dict.fromkeys(macros + members):
        if name not in PASSED_OVER:
            yield f'printf("number {name} %lld\\n", (long long)({name}));'
    for name in re.findall(r"typedef enum (\w+) \{", text):
        yield f'printf("size {name} %zu %zu\\n", sizeof({name}), _Alignof({name}));'
    for name, body in re.findall(r"typedef struct (\w+) \{(.*?)\} \1;", text, re.S):
        yield f'printf("size {name} %zu %zu\\n", sizeof({name}), _Alignof({name}));'
        for field in re.findall(r"(\w+);", body):
            place = f"offsetof({name}, {field}), sizeof((({name} *)0)->{field})"
            yield f'printf("field {name}.{field} %zu %zu\\n", {place});'


def of_headers(folder):
    """What stands in the headers."""
    texts = [read(folder, name) for name in HEADERS]
    lines = [line for text in texts for line in program(text)]
    source = "#include <stdio.h>\n" + "".join(f'#include "{name}"\n' for name in HEADERS)
    source += "int main(void)\n{\n" + "\n".join(lines) + "\nreturn 0;\n}\n"
    with tempfile.TemporaryDirectory() as work:
        compiler = os.environ.get("CC", "cc").split()
        words = ["-std=c11", "-I", str(folder), "-o", f"{work}/abi", "-x", "c", "-"]
        subprocess.run(compiler + words, input=source.encode(), check=True)
        printed = subprocess.run([f"{work}/abi"], stdout=subprocess.PIPE, check=True).stdout
    return printed.decode().splitlines() + [line for text in texts for line in calls(text)]


def printed_by(*words):
    return subprocess.run(words, stdout=subprocess.PIPE, check=True).stdout.decode()


def of_library(library):
    """The name of a shared library for who is linked with it, and its symbols, with versions."""
    names = re.findall(r"SONAME +(\S+)", printed_by("objdump", "-p", library))
    symbols = re.findall(r"(?m) [A-Z] (\S+)$", printed_by("nm", "-D", "--defined-only", library))
    return [f"name {name}" for name in names] + [f"symbol {it}" for it in sorted(symbols)]


def words_of(call):
    """The words of a call of Python, with what they are where they aren't named."""
    words = inspect.signature(call).parameters.values()
    return f"({', '.join(str(it.replace(annotation=inspect.Parameter.empty)) for it in words)})"


def members(name, kind):
    """The names that a class of the module has: fields, values, calls and properties."""
    own = [it for it in kind.__mro__ if it.__module__ == kind.__module__ and it is not kind]
    yield f"python class {name}({', '.join(it.__name__ for it in kind.__bases__)})"
    for field in getattr(kind, "_fields", ()):
        yield f"python field {name}.{field}"
    if issubclass(kind, enum.Enum):
        for known, member in kind.__members__.items():
            value = f" = {member.value}" if isinstance(member.value, int) else ""
            yield f"python value {name}.{known}{value}"
    found = {call: it for base in reversed([kind, *own]) for call, it in vars(base).items()}
    for call, it in sorted(found.items()):
        if inspect.isfunction(it) and (call[0] != "_" or call == "__init__"):
            yield f"python call {name}.{call}{words_of(it)}"
        elif isinstance(it, property) and call[0] != "_":
            yield f"python property {name}.{call}"


def of_module():
    """The names of the module for Python."""
    for name in sorted(gerbilargent.__all__):
        thing = getattr(gerbilargent, name)
        if isinstance(thing, type):
            yield from members(name, thing)
        elif inspect.isfunction(thing):
            yield f"python call {name}{words_of(thing)}"
        elif isinstance(thing, (int, tuple)):
            yield f"python number {name} = {thing!r}"
        else:
            yield f"python name {name}"


def read_frozen():
    lines = FROZEN.read_text(encoding="utf-8").splitlines()
    return [line for line in lines if line and not line.startswith("#")]


HEAD = """\
# What programs take of the libraries for C and for Python. Whoever wants another line runs, and
# says in the commit why: python3 tests/parts/embed/abi.py include build/libdvg.so --record
"""


def main(folder, library, *words):
    found = [*of_headers(Path(folder)), *of_library(library), *of_module()]
    if words == ("--record",):
        FROZEN.write_text(HEAD + "\n".join(found) + "\n", encoding="utf-8")
        return
    frozen = read_frozen()
    for line in frozen:
        expect(line in found, f"there is no more: {line}")
    for line in found:
        expect(line in frozen, f"it is new: {line}")
    expect(len(found) > 200 and len(set(found)) == len(found), f"{len(found)} lines are too few")
    if counts.failed:
        print(f"what was meant is recorded by python3 {' '.join([*sys.argv, '--record'])}")
    counts.finish()


if __name__ == "__main__":
    main(*sys.argv[1:])
