"""How large the tree is beside growth.txt, which has the most that may be of each thing, for
tests/documents. `python3 tests/growth.py` prints both, and then what has no limit. A thing is
counted in texts: the paths of all files, those that are read with what is in them, and after a `$`
commands, with what they print."""

import os
import re
import subprocess

import line_lengths

TOP = os.path.dirname(os.path.dirname(os.path.abspath(__file__)))
LIMITS = "tests/growth.txt"
BELIEVE, CLAUSES = "$ tools/believe --count", "$ tools/clauses"
# So many lines of a proof that stand elsewhere too, one after the other, are a copy.
COPY = 12
COPIED = f"lines of proofs in copies of {COPY} or more"
# What shows inputs and outputs for tests is no paper.
CASES = re.compile(r"tests/(tool_)?cases/")


# What users run, all by hand; and what tests it. The rest is proofs, papers, examples, what a
# command writes, and bench/.
SOURCES = re.compile(r"crates/\w+/src/|page/(src|wasm)/|(include|python|board|core|tools)/"
                     r"|plain/(?!crates/\w+/src/)")
TESTS = re.compile(r"(tests|twin|unproved)/")
# A mistake in a text is a heading there.
MISTAKES = [("wrong bodies", r"crates/\w+/wrong-bodies\.edits", r"(?m)^# "),
            ("wrong laws", r"crates/\w+/wrong-laws\.edits", r"(?m)^# "),
            ("mistakes in Verilog", r"tests/parts/core/mistakes\.md", r"(?m)^### ")]


def is_paper(path):
    return path.endswith(".md") and not CASES.match(path)


def is_proof(path):
    return re.fullmatch(r"crates/\w+/proofs/.*\.antt", path) is not None


def read(path):
    with open(f"{TOP}/{path}", encoding="utf-8") as file:
        return file.read()


def printed(command):
    return subprocess.run(command, shell=True, cwd=TOP, stdout=subprocess.PIPE, encoding="utf-8",
                          check=True).stdout


def read_texts():
    """The texts of all files, where those that nothing is counted in are empty; and what the
    commands print."""
    texts = {path: read(path) if is_paper(path) or is_proof(path) or path == "crates.txt" else ""
             for path in line_lengths.tracked(TOP)}
    return texts | {command: printed(command[2:]) for command in (BELIEVE, CLAUSES)}


def count_copies(proofs):
    """How many lines of these texts stand in one before, or above in the same, in runs of COPY or
    more. Empty lines and imports are passed over."""
    seen, copied = set(), 0
    for text in proofs:
        lines = [line.strip() for line in text.split("\n")]
        lines = [line for line in lines if line and not line.startswith("use ")]
        end = 0
        for at in range(len(lines) - COPY + 1):
            run = tuple(lines[at:at + COPY])
            if run in seen:
                copied += at + COPY - max(at, end)
                end = at + COPY
            seen.add(run)
    return copied


def first_number(pattern, text):
    return int(re.search(pattern, text)[1])


def count(texts):
    """How many there are of each thing, by its name."""
    believed, clauses = texts[BELIEVE], texts[CLAUSES]
    papers = {path: len(text.split()) for path, text in texts.items() if is_paper(path)}
    read_first = [words for path, words in papers.items() if re.match(r"README|docs/", path)]
    proofs = [text for path, text in sorted(texts.items()) if is_proof(path)]
    return {
        "words of README.md and docs": sum(read_first),
        "words of all other papers": sum(papers.values()) - sum(read_first),
        "lines to believe for the headline": first_number(r"(\d+) for the headline", believed),
        "lines to believe in all": first_number(r"(\d+) in all", believed),
        "public clauses": len(re.findall(r"(?m)^    ensures\b", clauses)),
        "crates": len([line for line in texts["crates.txt"].split("\n") if line.strip()]),
        "files": len([path for path in texts if not path.startswith("$ ")]),
        "lines of proofs": sum(text.count("\n") for text in proofs),
        COPIED: count_copies(proofs),
    }


def count_by_shell():
    """Some of these once more, by other programs."""
    numbers = printed("""
        awk '{ words += NF } END { print words }' README.md docs/*.md
        git ls-files -z | xargs -0 ls -d 2>/dev/null | wc -l
        find crates/*/proofs -name '*.antt' -exec cat {} + | wc -l""")
    names = "words of README.md and docs", "files", "lines of proofs"
    return dict(zip(names, map(int, numbers.split())))


def count_others():
    """How many there are of what has no limit, by its name: lines, and mistakes that are planted in
    what is proved."""
    paths = [path for path in line_lengths.tracked(TOP) if not is_paper(path)]
    numbers = {name: sum(read_lines(path) for path in paths if kind.match(path))
               for name, kind in (("lines of sources", SOURCES), ("lines of tests", TESTS))}
    for name, file, heading in MISTAKES:
        texts = [read(path) for path in line_lengths.tracked(TOP) if re.fullmatch(file, path)]
        numbers[name] = sum(len(re.findall(heading, text)) for text in texts)
    return numbers


def read_lines(path):
    with open(f"{TOP}/{path}", "rb") as file:
        return file.read().count(b"\n")


def count_others_by_shell():
    """The same once more, by other programs."""
    numbers = printed("""
        lines() { git ls-files -z -- "$@" | xargs -0 cat | wc -l; }
        lines 'crates/*/src/*' page/src page/wasm include python board core tools plain \\
            ':!plain/crates/*/src/*' ':!*.md'
        lines tests twin unproved ':(glob,exclude)tests/*.md' \\
            ':(glob,exclude)tests/parts/**/*.md' ':(glob,exclude)twin/*.md' \\
            ':(glob,exclude)unproved/**/*.md'
        cat crates/*/wrong-bodies.edits | grep -c '^# '
        cat crates/*/wrong-laws.edits | grep -c '^# '
        grep -c '^### ' tests/parts/core/mistakes.md""")
    names = ["lines of sources", "lines of tests"] + [name for name, _, _ in MISTAKES]
    return dict(zip(names, map(int, numbers.split())))


def read_limits():
    """The most that may be of each thing, by its name."""
    lines = [line.split(None, 1) for line in read(LIMITS).splitlines() if line[:1] not in ("", "#")]
    return {name: int(number.replace(",", "")) for number, name in lines}


def too_many(counts, limits):
    """What there is too much of, and what has no limit, or isn't counted."""
    alone = [f"{name}: not both counted and in {LIMITS}" for name in counts.keys() ^ limits.keys()]
    return sorted(alone) + [f"{counts[name]:,} {name}, {most:,} at most ({LIMITS})"
                            for name, most in limits.items() if counts.get(name, 0) > most]


# What is planted, and by how much each count grows: a path or a command, and what is added to its
# text. The second proof has COPY lines twice, the second time with empty ones between.
LINES = "".join(f"lemma_{number} = {number}\n" for number in range(COPY))
PLANTED = [
    ("README.md", " four words more here", {"words of README.md and docs": 4}),
    ("docs/MORE.md", "a new page", {"words of README.md and docs": 3, "files": 1}),
    ("crates/more/README.md", "two words", {"words of all other papers": 2, "files": 1}),
    ("tests/cases/more.md", "no paper", {"files": 1}),
    ("crates.txt", "more: dvg_code\n", {"crates": 1}),
    ("crates/more/proofs/on/Answers.antt", LINES, {"files": 1, "lines of proofs": COPY}),
    ("crates/more/proofs/More.antt", LINES + "end = 0\n" + LINES.replace("\n", "\n\n"),
     {"files": 1, "lines of proofs": 3 * COPY + 1, COPIED: COPY}),
    (CLAUSES, "    ensures more { 1 ≡ 1 }\n    requires { 1 ≡ 1 }\n", {"public clauses": 1}),
]


def missed_mistakes(texts, limits):
    """The planted texts that are counted wrongly, and the things of which one too many isn't
    found. They are planted in a few of these texts, as that is faster."""
    texts = {path: texts[path] for path in ("README.md", "crates.txt", BELIEVE, CLAUSES)}
    before, missed = count(texts), []
    for path, more, wanted in PLANTED:
        after = count({**texts, path: texts.get(path, "") + more})
        grown = {name: after[name] - before[name] for name in after if after[name] != before[name]}
        missed += [f"{path}: {grown}"] * (grown != wanted)
    more = count({**texts, BELIEVE: "15 in all\n  7 for the headline\n"})
    if (more["lines to believe in all"], more["lines to believe for the headline"]) != (15, 7):
        missed.append(BELIEVE)
    for name in limits:
        if too_many(limits, limits) or not too_many({**limits, name: limits[name] + 1}, limits):
            missed.append(name)
    del before["files"]
    return missed + ["a count that is missing"] * (not too_many(before, limits))


if __name__ == "__main__":
    LIMITS_NOW = read_limits()
    for NAME, COUNT in count(read_texts()).items():
        print(f"{COUNT:,} {NAME}, {LIMITS_NOW[NAME]:,} at most")
    for NAME, COUNT in count_others().items():
        print(f"{COUNT:,} {NAME}")
