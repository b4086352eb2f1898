"""The numbers of the port, of which each file has its own copy: whether they are the same.

The requests and the kinds of replies of crates/dvg_device, with the faults of drafts and of runs
and the limits, decide. include/dvg.h must name all of them; the module for Python and the page name
those that they use. The page has limits of its own, of a trace and of dumps.
"""

import re

# Where a name of the port isn't that of the Rust sources.
OTHER_NAMES = {"CLEAR_DRAFT": "CLEAR", "CLOSE": "SHUT", "COUNT_STROKES": "STROKES",
               "WANTS": "WANTED", "TELLING": "TELL", "RESUMING": "RESUME_WORLD"}
LIMITS = {
    "RAM_BYTES": ("dvg_mem/src/lib.rt", "MEMORY_BYTES"),
    "ROM_BYTES": ("dvg_mem/src/lib.rt", "MEMORY_BYTES"),
    "LARGE_ROM_BYTES": ("dvg_mem/src/lib.rt", "LARGE_ROM_BYTES"),
    "MOST_STAGED": ("dvg_device/src/device.rt", "MOST_STAGED"),
    "MOST_OPERATIONS": ("dvg_frame/src/draft.rt", "MAX_OPS"),
    "MOST_WORDS": ("dvg_dump/src/runs.rt", "MOST_WORDS"),
}
# The limits that stand in the page, and not in the header.
EVENTS = ("dvg_log/src/trace.rt", "MOST_EVENTS")
FILES = {
    "header": "include/dvg.h",
    "python": "python/gerbilargent.py",
    "page": "page/src/engine.mjs",
    "board": "page/src/board.mjs",
    "dropped": "page/src/files.mjs",
    "requests": "crates/dvg_device/src/request.rt",
    "replies": "crates/dvg_device/src/reply.rt",
    "driver": "crates/dvg_device/src/driver.rt",
    "faults": "crates/dvg_frame/src/fault.rt",
    "breaks": "crates/dvg_gen/src/taken.rt",
}


def in_capitals(name):
    """A name as the port has it: NothingPublished as NOTHING_PUBLISHED."""
    capitals = re.sub(r"(?<=[a-z])(?=[A-Z])", "_", name).upper()
    return OTHER_NAMES.get(capitals, capitals)


def pairs(pattern, text, number_first=False):
    """The names that a pattern finds in a text, with their numbers."""
    found = re.findall(pattern, text)
    named = ((it[::-1] if number_first else it) for it in found)
    return {name: int(number) for name, number in named}


def of_rust(texts):
    """The numbers that the Rust sources have: of requests, kinds, faults and breaks, and limits."""
    request = r"(\d+) => Request::(?:Ask\(Question::)?(\w+)"
    requests = pairs(request, texts["requests"], number_first=True)
    reply = r"(?:Entry|Reply|Action|RunState)::(\w+)(?:\(.*?\))* => (?:packed\()?(\d+)[, ]"
    replies = pairs(reply, texts["replies"])
    # What a world keeps of its driver is the number of a request.
    replies["Driver"] = int(re.search(r"(\d+) \+ 0x100 \* phase_number", texts["driver"]).group(1))
    numbers = {
        "request": {"WANTS" if it == "Wants" else in_capitals(it): n for it, n in requests.items()},
        "kind": {**{in_capitals(it): n for it, n in replies.items()}, "REFUSED": 1},
        "fault": faults_in(texts["faults"]),
        "break": faults_in(texts["breaks"]),
    }
    limits = {name: limit(texts, path, constant) for name, (path, constant) in LIMITS.items()}
    numbers["limit"] = limits
    ram, roms = limits["RAM_BYTES"], {it: limits[it] for it in ("ROM_BYTES", "LARGE_ROM_BYTES")}
    numbers["page's limit"] = {
        "RAM_BYTES": ram, **roms, "MOST_EVENTS": limit(texts, *EVENTS),
        **{it.replace("ROM", "DUMP"): ram + rom for it, rom in roms.items()}}
    return numbers


def faults_in(text):
    """The numbers of an enum of faults, from its function `number`."""
    return {in_capitals(name): number
            for name, number in pairs(r"\w+::(\w+)(?:\(.*?\))? => (\d+),", text).items()}


def limit(texts, path, constant):
    """The value of a constant of a Rust source: a number, or a sum of constants of dvg_mem."""
    value = re.search(rf"const {constant}: \w+ = ([\w +]+);", texts[path]).group(1)
    return sum(int(it.replace("_", "")) if it[0].isdigit()
               else limit(texts, "dvg_mem/src/lib.rt", it)
               for it in value.split(" + "))


def of_header(text):
    """The numbers of the header for C."""
    enum = {name: re.search(rf"enum dvg_{name} \{{(.*?)\}}", text, re.S).group(1)
            for name in ("request", "kind", "fault", "break")}
    start = {"request": "REQUEST_", "kind": "", "fault": "FAULT_", "break": "BREAK_"}
    numbers = {name: pairs(rf"DVG_{start[name]}(\w+) = (\d+)", body) for name, body in enum.items()}
    for name in "fault", "break":
        assert numbers[name].pop("NONE") == 0
    limits = pairs(r"#define DVG_(\w+) (\d+)\n", text)
    return {**numbers, "limit": {name: limits[name] for name in LIMITS}}


def of_python(text):
    """The numbers of the module for Python."""
    def members(name):
        body = re.search(rf"^class {name}\(enum.IntEnum\):\n(.*?)^(?=\S)", text, re.S | re.M)
        return pairs(r"(?m)^    ([A-Z_0-9]+) = (\d+)$", body.group(1))
    limits = pairs(r"(?m)^([A-Z_]+) = (\d+)$", text)
    requests = {**members("_Request"), **members("Event")}
    return {"request": requests, "kind": members("Kind"), "fault": members("Fault"),
            "break": members("Break"), "limit": {it: limits[it] for it in LIMITS if it in limits}}


def of_page(text):
    """The numbers of the page."""
    def members(name):
        body = re.search(rf"const {name} = \{{(.*?)\}};", text, re.S)
        return pairs(r"(\w+): (\d+)", body.group(1))
    return {"request": members("REQUEST"), "kind": members("KIND"), **limits_of_page(text)}


def limits_of_page(text):
    """The limits that a file of the page has."""
    names = "RAM_BYTES|ROM_BYTES|LARGE_ROM_BYTES|MOST_EVENTS"
    limits = pairs(rf"\b({names}) = (\d+)[,;]", text)
    for small, large in re.findall(r"DUMP_BYTES = \[(\d+), (\d+)\];", text):
        limits.update(DUMP_BYTES=int(small), LARGE_DUMP_BYTES=int(large))
    return {"page's limit": limits}


def differences(texts):
    """What isn't the same in the files of these texts, a line each, and how many were compared."""
    rust, lines, compared = of_rust(texts), [], 0
    ports = {"header": of_header(texts["header"]), "python": of_python(texts["python"]),
             "page": of_page(texts["page"]), "board": limits_of_page(texts["board"]),
             "dropped": limits_of_page(texts["dropped"])}
    for port, kinds in ports.items():
        for kind, numbers in kinds.items():
            compared += len(numbers)
            lines += [f"{FILES[port]}: {kind} {name} is {number}, not {rust[kind].get(name)}"
                      for name, number in numbers.items() if rust[kind].get(name) != number]
    of_all = {**ports["header"], "page's limit": {}}
    for port in "page", "board", "dropped":
        of_all["page's limit"].update(ports[port]["page's limit"])
    for kind, numbers in rust.items():
        missing = sorted(numbers.keys() - of_all[kind].keys())
        lines += [f"nothing has the {kind} {name}" for name in missing]
    return lines, compared


def read_files(top):
    """The texts that are compared, of the repository in this folder."""
    paths = {**FILES, **{path: f"crates/{path}" for path, _ in [*LIMITS.values(), EVENTS]}}
    return {name: open(f"{top}/{path}", encoding="utf-8").read() for name, path in paths.items()}


# A mistake in each file: what stands there, and what would be wrong.
MISTAKES = {
    "header": ("DVG_BUSY = 2,", "DVG_BUSY = 4,"),
    "python": ("    TOO_DEEP = 7", "    TOO_DEEP = 8"),
    "page": ("FETCH: 4,", "FETCH: 5,"),
    "board": ("MOST_EVENTS = 65536;", "MOST_EVENTS = 65535;"),
    "dropped": ("DUMP_BYTES = [4096, 6144];", "DUMP_BYTES = [4096, 8192];"),
    "dvg_log/src/trace.rt": ("MOST_EVENTS: usize = 65_536;", "MOST_EVENTS: usize = 131_072;"),
    "requests": ("16 => Request::Wants,", "21 => Request::Wants,"),
    "replies": ("Entry::Still => packed(16,", "Entry::Still => packed(17,"),
    "driver": ("38 + 0x100 * phase_number", "39 + 0x100 * phase_number"),
    "dvg_device/src/device.rt": ("= MEMORY_BYTES + LARGE_ROM_BYTES;",
                                 "= LARGE_ROM_BYTES + LARGE_ROM_BYTES;"),
}


def found_mistakes(texts):
    """The names of the files in which a planted mistake is found, and of all that have one."""
    found = [name for name, (right, wrong) in MISTAKES.items()
             if right in texts[name]
             and differences({**texts, name: texts[name].replace(right, wrong)})[0]]
    return found, list(MISTAKES)
