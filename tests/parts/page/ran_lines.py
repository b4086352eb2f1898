"""Which lines of page/src ran, by what node and Chromium wrote of it: NODE_V8_COVERAGE names the
folder to both."""

import glob
import json
import os
import re

TOP = os.path.abspath(f"{os.path.dirname(os.path.abspath(__file__))}/../../..")
# What page/assemble.py leaves out of a module, lines that are no code, and the script of a page.
CUT = re.compile(r"^(import \{[^}]*\} from '[^']*';\n|export | *(/\*.*?\*/|//[^\n]*)\n|\n)",
                 re.M | re.S)
REMARK = re.compile(r"\s*(//|/\*|\*/|\* |$)")
SCRIPT = re.compile(r'<script type="module">(.*)</script>', re.S)


def read(path):
    with open(path, encoding="utf-8") as file:
        return file.read()


def state_of(script, text):
    """Whether each place of a text ran: of ranges around one another the inner one tells."""
    state = bytearray(len(text))
    ranges = [one for function in script["functions"] for one in function["ranges"]]
    for one in sorted(ranges, key=lambda one: (one["startOffset"], -one["endOffset"])):
        place = slice(one["startOffset"], one["endOffset"])
        state[place] = bytes([one["count"] > 0]) * len(state[place])
    return state


def whole_of(url):
    """The text of a script, which is a module or that of a page; nothing of other scripts."""
    path = re.sub(r"^file://|#.*", "", re.sub(r"^http://[^/]*", f"{TOP}/page", url))
    if path.endswith(".html") and os.path.exists(path):
        return SCRIPT.search(read(path))[1]
    return read(path) if path.startswith(f"{TOP}/page/src/") else ""


def found_in(folder):
    """For each module its lines of code, by their numbers, and whether each ran."""
    sources = {path: read(path) for path in glob.glob(f"{TOP}/page/src/*.mjs")}
    modules = {path: CUT.sub("", text).strip() for path, text in sources.items()}
    ran = {path: bytearray(len(text)) for path, text in modules.items()}
    for told in glob.glob(f"{folder}/*.json"):
        for script in json.loads(read(told))["result"]:
            whole = whole_of(script["url"])
            if script["functions"][0]["ranges"][0]["endOffset"] != len(whole):
                continue
            state = state_of(script, whole)
            for cut in reversed(list(CUT.finditer(whole))):
                del state[slice(*cut.span())]
            whole = CUT.sub("", whole)
            for path, text in modules.items():
                if (at := whole.find(text)) >= 0:
                    ran[path] = bytearray(map(max, ran[path], state[at:]))
    return {path: lines_of(text, modules[path], ran[path]) for path, text in sources.items()}


def lines_of(source, module, ran):
    """The same of a module: its text as it is, and as page/assemble.py leaves it, of which each
    place ran or didn't."""
    cut = {source.count("\n", 0, found.start()) + one for found in CUT.finditer(source)
           for one in range(found[0].count("\n"))}
    numbers = [number for number in range(source.count("\n") + 1) if number not in cut]
    before = CUT.sub("", source).split(module)[0].count("\n")
    lines, at = {}, 0
    for number, line in zip(numbers[before:], module.split("\n")):
        code = slice(at + len(line) - len(line.lstrip()), at + len(line))
        if not REMARK.match(line):
            lines[number + 1] = any(ran[code])
        at += len(line) + 1
    return lines
