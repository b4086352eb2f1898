"""Runs the commands that a text shows, and compares what comes of them. tests/README.md says how
such a text is written; tests/program, tests/tools and tests/documents run theirs by this."""

import difflib
import functools
import os
import re
import signal
import subprocess
import tempfile
from concurrent.futures import ThreadPoolExecutor

TOP = os.path.dirname(os.path.dirname(os.path.abspath(__file__)))
GENERATORS = f"{TOP}/tests/cases/generators.bash"
MOST_SECONDS = 60
os.environ["LC_ALL"] = "C"
running = set()


def stop(*_):
    """Ends what runs, where the suite is ended."""
    for process in list(running):
        os.killpg(process.pid, signal.SIGKILL)
    raise SystemExit(70)


signal.signal(signal.SIGTERM, stop)


class Command:
    """A command, and the lines that a text shows below it."""

    def __init__(self, script):
        self.script = script
        self.shown = []


class Case:
    """Commands under one heading, which run one after the other in a folder of their own. The notes
    are `Also with` and `Program alone`."""

    def __init__(self, name, notes):
        self.name = name
        self.notes = dict(notes)
        self.commands = []


def read_cases(path):
    """The cases of a text. What stands before the first heading of the second order is one, too,
    whose notes hold for all."""
    text = os.path.basename(path)
    cases = [Case(text, {})]
    command, indent, empty = None, "", 0
    with open(path, encoding="utf-8") as lines:
        for line in lines.read().split("\n"):
            start = re.match(r"( {4,})\$ (.*)", line)
            if start and (not command or start[1] == indent):
                indent, command, empty = start[1], Command(start[2]), 0
                cases[-1].commands.append(command)
            elif command and line.startswith(indent):
                add_line(command, line[len(indent):], empty)
                empty = 0
            elif line:
                command = None
                add_prose(cases, text, line)
            else:
                empty += 1
    return cases


def add_line(command, line, empty):
    """A line below a command, after this many empty ones: it goes on with it, or shows what
    comes."""
    if re.match("> |>$", line) and not command.shown and not empty:
        command.script += "\n" + line[2:]
    else:
        command.shown += [""] * empty + [line]


def add_prose(cases, text, line):
    note = re.match("(Also with|Program alone): (.+)", line)
    if line.startswith("## "):
        cases.append(Case(f"{text}: {line[3:]}", cases[0].notes))
    elif note:
        cases[-1].notes[note[1]] = note[2]
    elif re.match(r" *\$ |2> |status \d|(?i:also with|program alone)", line):
        give_up(f"{cases[-1].name} has a line that is no part of a command: '{line}'")


def run(script, folder, shell="bash", joined=False):
    """The status of a command that runs in this folder, and its standard output and error."""
    process = subprocess.Popen(
        [shell, "-c", script], cwd=folder, stdin=subprocess.DEVNULL, stdout=subprocess.PIPE,
        stderr=subprocess.STDOUT if joined else subprocess.PIPE, start_new_session=True)
    running.add(process)
    try:
        output, error = process.communicate(timeout=MOST_SECONDS)
    except subprocess.TimeoutExpired:
        os.killpg(process.pid, signal.SIGKILL)
        output, error = process.communicate()
        return f"none after {MOST_SECONDS} seconds", output, error
    finally:
        running.discard(process)
    return str(process.returncode), output, error


@functools.lru_cache(maxsize=None)
def generated(script):
    """What a generator prints. One that fails or prints nothing is a mistake of the text."""
    status, output, error = run(f". '{GENERATORS}'\n{script}", TOP)
    if status != "0" or error or not output:
        give_up(f"the generator '{script}' ends with status {status}: {error.decode()}")
    return output


def wanted(shown, unsaid=None):
    """The status, the standard output and the standard error that these lines show, without the
    lines of this pattern."""
    status, output, error = "0", b"", b""
    for number, line in enumerate(shown):
        if line.startswith("2> ") or line == "2>":
            error += line[3:].encode() + b"\n"
        elif number == len(shown) - 1 and re.fullmatch(r"status \d+", line):
            status = line[7:]
        elif line.startswith("$(") and line.endswith(")"):
            output += generated(line[2:-1])
        else:
            output += line.encode() + b"\n"
    if unsaid:
        output, error = (re.sub(unsaid, b"", text) for text in (output, error))
    return status, output, error


class Suite:
    """Counts what passes and what fails, and says the latter."""

    def __init__(self):
        self.passed = 0
        self.failed = 0

    def expect(self, what, parts):
        """One check: each part is a name, what is wanted and what was found."""
        different = [part for part in parts if part[1] != part[2]]
        if not different:
            self.passed += 1
            return
        self.failed += 1
        print(f"FAILED: {what} ('-' is wanted, '+' was found)")
        for name, wanted_text, found in different:
            print(f"  {name}:")
            lines = [as_lines(wanted_text), as_lines(found)]
            for line in list(difflib.unified_diff(*lines, n=0, lineterm=""))[2:12]:
                print("    " + line[:100])

    def run_cases(self, cases, preamble, asked="", unsaid=None):
        """Runs cases side by side, and wants exactly what they show, but for lines of this
        pattern, which none may print. The preamble is what bash is told before each command;
        repository/ is this repository."""
        before = f". '{GENERATORS}'\n{preamble}\n"
        parts = ("status", "standard output", "standard error")

        def run_case(case):
            with tempfile.TemporaryDirectory() as folder:
                os.symlink(TOP, f"{folder}/repository")
                return [run(before + command.script, folder) for command in case.commands]

        with ThreadPoolExecutor(os.cpu_count()) as workers:
            for case, results in zip(cases, workers.map(run_case, cases)):
                for command, found in zip(case.commands, results):
                    what = case.name + asked
                    if len(case.commands) > 1:
                        what += f", $ {command.script}"
                    self.expect(what, list(zip(parts, wanted(command.shown, unsaid), found)))

    def end(self):
        print(f"{self.passed} passed, {self.failed} failed")
        raise SystemExit(self.failed > 0)


def as_lines(text):
    """The lines of a text. Of bytes it is said where the last one has no end."""
    if isinstance(text, str):
        return text.split("\n")
    lines = text.decode("utf-8", "backslashreplace").split("\n")
    return lines[:-1] if lines[-1] == "" else lines[:-1] + [lines[-1] + " (without a line end)"]


def give_up(what):
    print(f"FAILED: {what}\n0 passed, 1 failed")
    raise SystemExit(1)


def find_program():
    """The path of the program that is tested: see tests/built."""
    built = subprocess.run([f"{TOP}/tests/built"], stdin=subprocess.DEVNULL, stdout=subprocess.PIPE)
    if built.returncode != 0:
        give_up("there is no program to test")
    return built.stdout.decode().rstrip("\n")


def named_cases(paths):
    """The cases of these texts that have commands, each with a name of its own."""
    cases = [case for path in paths for case in read_cases(path)]
    names = [case.name for case in cases]
    for case in cases[:]:
        if names.count(case.name) > 1:
            give_up(f"two cases are called '{case.name}'")
        if not case.commands:
            if case.name.endswith(".md"):
                cases.remove(case)
            else:
                give_up(f"the case '{case.name}' has no command")
    return cases
