#!/usr/bin/env -S python3 -B
"""Tests core/cells: what it writes is what two other readers of the Verilog make of it, and it
refuses what it doesn't know.

    cells.py FOLDER [CLOCKS]           a folder to work in, and how many clocks [default: 10000]
    cells.py FOLDER --write            writes the clocks that the prover computes

The cells are computed here, by the meaning that each kind has, over random clocks since power-up of
dvg_core, also with DVG_WRAPS, of dvg_cpu, of dvg_board, of dvg_vectors, of dvg_machine, and of
dvg_game with a random program in its ROM. The pins after each clock must be those that Icarus
Verilog has, and those of Verilator. Some clocks of Icarus Verilog are given to the prover, too,
which computes them by the definition of the cells: proofs/ClockVectors.antt of dvg_cells_core,
dvg_cells_cpu and dvg_cells_board must be what is written here. A board whose pins are made of
several wires is computed, too. Then texts are planted in the Verilog that core/cells must refuse,
each by a line that says why. The last line is 'N
passed, M failed'."""

import glob
import os
import random
import re
import shutil
import subprocess
import sys
from pathlib import Path

TOP = Path(__file__).resolve().parents[3]
sys.path[:0] = [str(TOP / "tests")]
import texts  # noqa: E402

CELLS = f"{texts.TOP}/core/cells"
MODULES = ("dvg_core", "dvg_cpu", "dvg_board", "dvg_pace", "dvg_motion", "dvg_vectors",
           "dvg_machine", "dvg_game")
SHOWS = "at high halted done fault stroke x0 y0 x y z".split()
TELLS = "ends jsrl labs vec sum dx_sign dy_sign dx dy vec_z".split()

PROCESSOR = f"{texts.TOP}/crates/dvg_game_words/specs/Processor.antt"
with open(PROCESSOR, encoding="utf-8") as definition:
    OPCODES = [int(op, 16) for op in re.findall(r"\((0x[0-9A-F]{2}), \w", definition.read())]

# What each kind of cell computes, as the definition has it.
MEANING = {
    "part": lambda start, count, a: a >> start & (1 << count) - 1,
    "joined": lambda width, low, high: low + (high << width),
    "add": lambda width, a, b: (a + b) % (1 << width),
    "sub": lambda width, a, b: (a + (1 << width) - b) % (1 << width),
    "shl": lambda width, a, by: (a << by) % (1 << width),
    "mux": lambda select, one, other: one if select else other,
    "eq": lambda a, b: int(a == b),
    "ne": lambda a, b: int(a != b),
    "lt": lambda a, b: int(a < b),
    "ge": lambda a, b: int(a >= b),
    "bit_and": lambda a, b: a & b,
    "bit_or": lambda a, b: a | b,
    "bit_xor": lambda a, b: a ^ b,
    "none": lambda a: int(a == 0),
    "some": lambda a: int(a != 0),
    "both": lambda a, b: int(a != 0 and b != 0),
    "either": lambda a, b: int(a != 0 or b != 0),
    "memrd": lambda ram, at: ram[at],
    "memwr": lambda enable, at, byte, ram: write_ram(enable, at, byte, ram),
}


class Definition:
    """What core/cells writes of a module, as functions of Python. What a module holds is a dict by
    names, in which a part of it is a dict, too, and a memory a list. `parts` are the definitions of
    its parts, by the name that they have in it."""

    def __init__(self, module, folder=f"{texts.TOP}/core", parts=None):
        status, self.text, why = run(CELLS, module, folder)
        assert status == 0, why
        self.parts = parts or {}
        self.scope = dict(MEANING) | {f"p_{name}": part for name, part in self.parts.items()}
        for name, arguments, body in re.findall(
                r"(?m)^abbrev pub (\w+) : .*\n\1 (.*)=\n((?:    .*\n?)+)", self.text):
            exec(self.function(name, arguments.split(), body), self.scope)

    def function(self, name, arguments, body):
        """The text of a definition as one of Python."""
        lines = [f"def f_{name}({', '.join(f'w_{a}' for a in arguments)}):"]
        for wire, term in re.findall(r"let (\w+) : ℕ = (.*) in\n", body):
            lines.append(f"    w_{wire} = {self.as_python(term)}")
        fields = re.findall(r"(?m)^      (\w+) = (.*);$", body)
        last = body.rstrip("\n").rpartition("\n")[2].strip()
        value = self.as_python(last) if last != "}" else "{" + ", ".join(
            f"'{n}': {self.as_python(t)}" for n, t in fields) + "}"
        return "\n".join([*lines, f"    return {value}"])

    def as_python(self, text):
        """A term of a definition as one of Python: a number, a wire, or a function with its
        arguments, which is a cell or a pin."""
        tokens = re.findall(r"[()]|[^\s()]+", text)

        def atom():
            token = tokens.pop(0)
            if token == "(":
                inner = term()
                tokens.pop(0)
                return inner
            first, *names = token.split(".")
            return token if token.isdigit() else f"w_{first}" + "".join(f"['{n}']" for n in names)

        def term():
            if tokens[0] == "(" or len(tokens) == 1 or tokens[1] == ")":
                return atom()
            owner, _, name = tokens.pop(0).rpartition(".")
            called = name if name in MEANING else f"f_{name}"
            if owner:
                called = f"p_{owner}.scope['f_{name}']"
            arguments = []
            while tokens and tokens[0] != ")":
                arguments.append(atom())
            return f"{called}({', '.join(arguments)})"

        return term()

    def zeros(self, memories):
        """What the module holds at power-up, with these memories, by their names."""
        record = re.search(r"(?m)^pub record \w+ : Type 0 where\n((?:  .*\n)+)", self.text)[1]
        held = {name: 0 for name in re.findall(r"pub (\w+) : ℕ$", record, re.M)}
        for name in re.findall(r"pub (\w+) : ℕ → ℕ$", record, re.M):
            held[name] = memories[name]
        for name in re.findall(r"pub (\w+) : [A-Z]\w*$", record, re.M):
            called = {"core": "cells"}.get(name, name)
            held[name] = self.parts[called].zeros(memories)
        return held

    def value(self, pin, now, pins):
        """An output, whose definition may take the pins that are driven, too."""
        if pin in now:
            return now[pin]
        function = self.scope[f"f_{pin}"]
        return function(now, pins) if function.__code__.co_argcount == 2 else function(now)


def write_ram(enable, place, byte, ram):
    """The memory after the edge; nothing else reads it by then."""
    if enable:
        ram[place] = byte
    return ram


def number_of(pins, widths):
    """The pins of a clock as one number, the first pin highest."""
    number = 0
    for name, width in widths.items():
        number = number << width | pins[name]
    return number


def any_ram(size):
    """What a RAM holds at power-up, here and in the other readers."""
    return [(37 * a + 11) % 256 for a in range(size)]


class Circuit:
    """A module by its cells, with the widths of the pins that are driven, and its outputs."""

    def __init__(self, definition):
        self.definition = definition
        self.now = definition.zeros(self.memories())

    def memories(self):
        return {"ram": any_ram(2048)}

    def words(self, folder):
        """What the other readers are told of memories, by files in this folder."""
        return []

    def play(self, pins):
        """A clock. Returns the outputs after it, with the same pins driven."""
        pins = pins | {"undefined": random.getrandbits(32)}
        self.now = self.definition.scope["f_clock"](self.now, pins)
        return [self.definition.value(pin, self.now, pins) for pin in self.OUTPUTS]


class Core(Circuit):
    """dvg_core."""
    WIDTHS = {"reset": 1, "start": 1, "valid": 1, "hole": 1, "din": 8}
    OUTPUTS = [*SHOWS, *TELLS]

    def any_pins(self):
        """Pins by which all kinds of words come, with few HALTs and many calls and returns."""
        k, din = random.randrange(100), random.randrange(256)
        if self.now["high"]:
            din = (0xF0 if din >> 4 == 0xB and k % 4 else 0xC0 if k % 5 == 1 else 0xD0
                   if k % 5 == 2 and self.now.get("depth", 1) else din & 0xF0) | din & 0xF
        return {"reset": int(k == 0), "start": int(k == 1 or not self.now["is_open"] and k < 50),
                "valid": int(k > 2 and k % 8 != 3), "hole": int(k == 99), "din": din}


class Processor(Circuit):
    """dvg_cpu."""
    WIDTHS = {"reset": 1, "step": 1, "nmi": 1, "din": 8}
    OUTPUTS = "at write dout sync".split()

    def any_pins(self):
        """Pins by which instructions of all kinds come: most opcodes are those of the
        definition."""
        din = random.randrange(256)
        if self.now["state"] == 2 and not once_in(16):
            din = random.choice(OPCODES)
        return {"reset": int(once_in(400)), "step": int(not once_in(4)), "nmi": int(once_in(12)),
                "din": din}


class Board(Circuit):
    """dvg_board, with dvg_core."""
    WIDTHS = {"reset": 1, "hold": 1, "access": 1, "write": 1, "a": 16, "d": 8, "big": 1, "rom": 8}
    OUTPUTS = ["q", "takes", *SHOWS, "starts", *TELLS]

    def core(self):
        return self.now["core"]

    def any_pins(self):
        k, core = random.randrange(100), self.core()
        near = 0x4000 + (2 * core["at"] + core["high"] + random.randrange(3)) % 2048
        a = random.choice([0x2002, 0x3000, random.randrange(65536), 0x4000 + random.randrange(2048)]
                          + 4 * [near])
        pins = {"reset": int(once_in(400)), "hold": int(k % 16 == 1), "access": int(k < 40),
                "write": int(k % 3 == 0), "a": a, "d": random.randrange(256),
                "big": int(once_in(2)), "rom": random.randrange(256)}
        if a == 0x3000 and core["is_open"] and k % 4:
            pins["a"] = 0x4001
        if not core["is_open"] and k % 2 == 0:
            pins |= {"access": 1, "write": 1, "a": 0x3000}
        for name in "d", "rom":
            if pins[name] >> 4 == 0xB and k % 4:
                pins[name] ^= 0xB0 ^ 0xE0                       # few HALTs, many jumps
        return pins


class Vectors(Board):
    """dvg_vectors, with dvg_board, dvg_pace and dvg_motion."""
    WIDTHS = {"tick": 1} | {pin: n for pin, n in Board.WIDTHS.items() if pin != "hold"}
    OUTPUTS = "q takes at high halted done fault dac_x dac_y lit z going x y".split()

    def core(self):
        return self.now["board"]["core"]

    def any_pins(self):
        """Those of a board, with a tick in half of the clocks; and vectors that aren't long, but
        for a few."""
        pins = super().any_pins()
        del pins["hold"]
        for name in "d", "rom":
            if pins[name] >> 4 in range(6, 10) and not once_in(8):
                pins[name] &= 0x1F
        return {"tick": int(once_in(2))} | pins


class Machine(Circuit):
    """dvg_machine, with dvg_cpu and dvg_board."""
    WIDTHS = {"reset": 1, "ready": 1, "nmi": 1, "hold": 1, "big": 1, "rom": 8, "m": 8}
    OUTPUTS = "access write a d sync takes".split() + SHOWS

    def any_pins(self):
        """Bytes of the memory by which stores and loads of the vector RAM come, and strobes."""
        cpu, m = self.now["cpu"], random.choice([0x00, 0x01, 0x30, 0x40, 0x40, 0xFF])
        if once_in(3):
            m = random.randrange(256)
        if cpu["state"] == 2 and not once_in(8):
            m = random.choice([*OPCODES, 0x8D, 0x8D, 0x8D, 0xAD, 0x9D, 0x99])
        return {"reset": int(once_in(800)), "ready": int(not once_in(4)), "nmi": int(once_in(20)),
                "hold": int(once_in(16)), "big": int(once_in(2)), "rom": random.randrange(256),
                "m": m}


class Game(Circuit):
    """dvg_game, with dvg_cpu and dvg_vectors."""
    WIDTHS = {"reset": 1, "tick": 1, "ready": 1, "held": 16, "switches": 8}
    OUTPUTS = ("taken access write a d halted done fault x y lit z lamps bank counters explosion "
               "thump sounds hushes").split()
    PLACES = [0x0000, 0x0200, 0x0200, 0x2000, 0x2400, 0x2800, 0x3000, 0x3200, 0x3400, 0x3600,
              0x3A00, 0x3C00, 0x3E00, 0x4000, 0x5000, 0x6800, 0xC000]

    def memories(self):
        shapes = [random.randrange(256) for _ in range(2048)]
        return super().memories() | {"work": any_ram(1024), "shapes": shapes,
                                     "code": shapes + self.program()}

    def program(self):
        """Loads and stores of all places, from 6800 on, again and again; so does an NMI."""
        code = []
        while len(code) < 1000:
            place = random.choice(self.PLACES) + random.randrange(random.choice([8, 256, 512]))
            code += [random.choice([0xAD, 0xAE, 0x8D, 0x8D, 0x8E, 0xEE, 0xBD]), place % 256,
                     place // 256]
            code += [random.choice([0xA9, 0xA2, 0x69]), random.randrange(256)]
        code += [0x4C, 0x00, 0x68] + (6144 - 9 - len(code)) * [0xFF]
        return code + 3 * [0x00, 0x68]

    def words(self, folder):
        for name in "code", "shapes":
            with open(f"{folder}/{name}", "w", encoding="ascii") as file:
                file.writelines(f"{byte:x}\n" for byte in self.now[name])
        return [f"+{name}={folder}/{name}" for name in ("code", "shapes")]

    def any_pins(self):
        return {"reset": int(once_in(800)), "tick": int(once_in(3)), "ready": int(not once_in(4)),
                "held": random.getrandbits(16), "switches": random.randrange(256)}


def once_in(count):
    return random.randrange(count) == 0


def run(*command):
    ran = subprocess.run(command, stdin=subprocess.DEVNULL, capture_output=True, text=True)
    return ran.returncode, ran.stdout, ran.stderr


def readers(folder, defines, files):
    """The other readers of the Verilog: a name and a program each. Verilator's own objects are
    those of the circuit before, if there is one."""
    bench, made = f"{texts.TOP}/tests/parts/core/clocks.v", f"{folder}/verilated"
    run("iverilog", "-g2005", *defines, "-o", f"{folder}/icarus", bench, *files)
    run("verilator", "--cc", "--exe", "--main", "--timing", "-Wno-fatal", *defines, "--Mdir", made,
        "-o", "verilated", "--top-module", "core_clocks", bench, *files)
    for name in glob.glob(f"{folder}/../*/verilated/verilated*.o"):
        shutil.copy(name, made)
    run("make", "-C", made, "-f", "Vcore_clocks.mk", "OPT_FAST=-O0", "OPT_GLOBAL=-O0")
    return (("Icarus", ["vvp", "-n", f"{folder}/icarus"]),
            ("Verilator", [f"{made}/verilated"]))


def expect_clocks(suite, what, circuit, programs, folder, count):
    """The clocks of a circuit by its cells are those of the other readers."""
    lines, words = [], circuit.words(folder)
    with open(f"{folder}/pins", "w", encoding="ascii") as file:
        for _ in range(count):
            pins = circuit.any_pins()
            file.write(f"{number_of(pins, circuit.WIDTHS):x}\n")
            lines.append(" ".join(map(str, circuit.play(pins))))
    for name, program in programs:
        _, said, _ = run(*program, *words, f"+pins={folder}/pins", f"+count={count}")
        found = [line for line in said.splitlines() if re.fullmatch(r"\d+( \d+)+", line)]
        differ = next((k for k in range(count) if found[k:k + 1] != lines[k:k + 1]), None)
        parts = ("none", "none")
        if differ is not None:
            parts = lines[differ], "".join(found[differ:differ + 1])
        suite.expect(f"{what}: {name}, clock {differ}", [("pins", *parts)])
    names = " and ".join(name for name, _ in programs)
    print(f"{what}: {count} clocks by the cells are those of {names}")


# How many clocks the prover computes.
VECTORS = 200
HEAD = """-- Clocks since power-up, as Icarus Verilog reads core/{name}.v.
-- tests/parts/core/cells.py writes this file; Vectors.antt says what its numbers are.
use Rattle.std.proofs.Common.{{◌≡◌, ℕ, true, List, [], ◌∷◌, refl}}
use Rattle.{crate}.proofs.Vectors.{{all_pass}}

abbrev clocks : List ℕ
clocks =
"""

# The bits of outputs that have more than one, but for `at` of dvg_cpu, which has 16; and how long a
# line of clocks may be.
BITS = {"at": 12, "fault": 2, "x0": 21, "y0": 21, "x": 21, "y": 21, "z": 4, "sum": 4, "dx": 10,
        "dy": 10, "vec_z": 4, "q": 8, "dout": 8}
COLUMNS = 120


def crate_of(name):
    """The crate of the cells of a module."""
    return name.replace("dvg_", "dvg_cells_")


def vectors(name, circuit, program, folder):
    """Clocks of Icarus Verilog for the prover: a number each, of the driven pins and then of the
    others, each in its bits."""
    random.seed(61)
    driven = []
    for _ in range(VECTORS):
        driven.append(circuit.any_pins())
        circuit.play(driven[-1])
    with open(f"{folder}/vectors", "w", encoding="ascii") as file:
        file.writelines(f"{number_of(pins, circuit.WIDTHS):x}\n" for pins in driven)
    _, said, _ = run(*program, f"+pins={folder}/vectors", f"+count={VECTORS}")
    shown = [line.split() for line in said.splitlines() if re.fullmatch(r"\d+( \d+)+", line)]
    assert len(shown) == VECTORS
    wide = {"at": 16} if name == "dvg_cpu" else {}
    bits = circuit.WIDTHS | {pin: (BITS | wide).get(pin, 1) for pin in circuit.OUTPUTS}
    digits, numbers = (sum(bits.values()) + 3) // 4, []
    for pins, line in zip(driven, shown):
        pins = pins | dict(zip(circuit.OUTPUTS, map(int, line), strict=True))
        assert all(pins[pin] < 1 << bits[pin] for pin in bits)
        numbers.append(f"0x{number_of(pins, bits):0{digits}X} ∷")
    row = (COLUMNS - 3) // len(f"{numbers[0]} ")
    lines = [" ".join(numbers[k:k + row]) for k in range(0, VECTORS, row)]
    text = "".join(f"    {line}\n" for line in [*lines, "[]"])
    end = "\npub pass : all_pass clocks ≡ true\npass = refl\n"
    return HEAD.format(name=name, crate=crate_of(name)) + text + end


def file_of_vectors(name):
    """Where the clocks of a module stand that the prover is given."""
    return f"crates/{crate_of(name)}/proofs/ClockVectors.antt"


def expect_vectors(suite, name, text):
    """The clocks that the prover is given are those that are made here."""
    with open(f"{texts.TOP}/{file_of_vectors(name)}", encoding="utf-8") as file:
        made = "make it anew: tests/parts/core/cells.py FOLDER --write"
        anew = "" if file.read() == text else made
    suite.expect(file_of_vectors(name), [("what to do", "", anew)])


# What is planted: the module, what is taken away, what is put there, and what core/cells says of
# it.
AFTER, FULL = "wire [11:0] after   = at + 12'd1;", "wire        full    = depth == 3'd4;"
SHOWS, CLOCK = "assign halted = !is_open;", "always @(posedge clk)"
RESET, INITIAL = "input  wire        reset,", "    initial {read"
TAKES = "assign takes = pending && !reset && !starting;"
Q = "assign q     = flag ? {ran, 7'b0} : read;"
CORE, WRITES = ".clk(clk), .reset(reset), .start(starting)", "if (writes) ram[place] <= d;"
ANOTHER = "yosys may read another circuit there"
REFUSED = [
    ("dvg_core", "at + 12'd1", "at * 12'd3", "$mul: this kind isn't known"),
    ("dvg_core", "scale + local_scale", "scale ~^ local_scale", "$xnor: this kind isn't known"),
    ("dvg_core", "depth == 3'd0", "$signed(depth) < $signed(3'd1)", "$lt: a sign"),
    ("dvg_core", AFTER, "wire [11:0] after = at < 12'd1;", "$lt: widths"),
    ("dvg_core", "s3, scale} = 0;", "s3} = 0; scale = 4'd1;", "scale isn't 0 at power-up"),
    ("dvg_core", "s3, scale} = 0;", "s3} = 0;", "scale isn't 0 at power-up"),
    ("dvg_core", AFTER, "wire [11:0] after = after + at;", "yosys: Warning: found logic loop"),
    # Two circuits in one text
    ("dvg_core", SHOWS, f"`ifdef SYNTHESIS\n    {SHOWS}\n`else\n    assign halted = 0;\n`endif",
     f"dvg_core.v: `ifdef SYNTHESIS: {ANOTHER}"),
    ("dvg_core", SHOWS, f"`ifndef YOSYS\n    assign halted = 0;\n`else\n    {SHOWS}\n`endif",
     f"dvg_core.v: `ifndef YOSYS: {ANOTHER}"),
    ("dvg_core", "`ifdef DVG_WRAPS\n    wire", "`ifdef DVG_WRAP\n    wire", "`ifdef DVG_WRAP: "),
    ("dvg_core", "`else", "`elsif SYNTHESIS", f"`elsif SYNTHESIS: {ANOTHER}"),
    ("dvg_core", "module dvg_core", "`define DVG_WRAPS\nmodule dvg_core", "`define DVG_WRAPS: "),
    ("dvg_core", SHOWS, f"{SHOWS} /* synthesis translate_off */ assign at[0] = 1'b1; "
     "/* synthesis translate_on */", "dvg_core.v: translate_off: synthesis alone"),
    ("dvg_board", "module dvg_board", "/* \"//\" */ `timescale 1ns/1ns\nmodule dvg_board",
     f"dvg_board.v: `timescale: {ANOTHER}"),
    # Clocks
    ("dvg_core", CLOCK, "always @(negedge clk)", "the other edge"),
    ("dvg_core", CLOCK, "always @(posedge start)", "another clock"),
    ("dvg_core", CLOCK, "wire gated = clk && valid;\n    always @(posedge gated)", "another clock"),
    ("dvg_core", CLOCK, "always @(posedge clk or posedge reset)", "this kind isn't known"),
    ("dvg_core", CLOCK, "always @(posedge clk or negedge clk)", "yosys: ERROR: Multiple edge"),
    # Pins
    ("dvg_core", SHOWS, "assign halted = !is_open && valid;", "the pin halted rests on pins"),
    ("dvg_core", SHOWS, "assign halted = valid;", "the pin halted rests on pins"),
    ("dvg_core", SHOWS, "assign halted = !is_open && clk;", "the clock is read"),
    ("dvg_core", SHOWS, "assign halted = 1'bx;", "a bit that is x"),
    ("dvg_core", SHOWS, "assign halted = 1'bz;", "a bit that is z"),
    ("dvg_core", SHOWS, "", "halted is used but has no driver"),
    ("dvg_core", RESET, f"{RESET}\n    inout  wire        io,", "a pin that is an inout: io"),
    ("dvg_core", SHOWS, "reg h;\n    always @* if (is_open) h = valid;\n    assign halted = h;",
     "$dlatch: this kind isn't known"),
    # Two drivers of a wire
    ("dvg_core", FULL, f"{FULL}\n    assign full = depth == 3'd5;", "multiple conflicting drivers"),
    ("dvg_core", FULL, f"{FULL}\n    assign full = 1'b0;", "has another driver"),
    ("dvg_core", FULL, f"{FULL}\n    assign valid = 1'b1;", "valid is an input, and has another"),
    ("dvg_core", CLOCK, f"{CLOCK} high <= 1'b0;\n    {CLOCK}", "multiple conflicting drivers"),
    ("dvg_board", TAKES, f"{TAKES}\n    assign at = a[11:0];", "multiple conflicting drivers"),
    # Names
    ("dvg_core", RESET, f"{RESET}\n    input  wire        mux,", "mux has another meaning"),
    ("dvg_core", RESET, f"{RESET}\n    input  wire        \\a+b ,", "a+b is no name"),
    # The memory
    ("dvg_board", "reg [7:0] ram [0:2047];", "reg [7:0] ram [0:4095];", "$memrd: widths"),
    ("dvg_board", "reg [7:0] ram [0:2047];", "reg [7:0] ram [0:1999];", "the memory ram"),
    ("dvg_board", INITIAL, f"    initial ram[5] = 8'd7;\n{INITIAL}", "$meminit_v2: this kind"),
    ("dvg_board", WRITES, "if (writes) ram[place][3:0] <= d[3:0];", "an enable"),
    ("dvg_board", WRITES, "ram[place] <= d; if (writes) ran <= 1'b0;", "an enable"),
    ("dvg_board", WRITES, "if (writes) ram[a] <= d;", "$memwr_v2: widths"),
    ("dvg_game", "code[code_place]", "code[a]", "$memrd: widths"),
    ("dvg_game", "initial if (PROGRAM", "initial code[0] = 8'd1;\n    initial if (PROGRAM",
     "$meminit_v2: this kind"),
    ("dvg_game", "code_byte <=", "if (reset) code[code_place] <= d;\n        code_byte <=",
     "there are 2"),
    ("dvg_board", WRITES, f"if (looks) ram[a[10:0]] <= 8'd0;\n        {WRITES}",
     "$memwr_v2: there are 2"),
    ("dvg_board", CLOCK, "always @(negedge clk)", "the other edge"),
    # The board
    ("dvg_board", "reset || starting || pending", "reset ~^ starting ~^ pending", "$xnor: this"),
    ("dvg_board", Q, "assign q = read == 8'hxx ? {ran, 7'b0} : read;", "a bit that is x"),
    ("dvg_board", ".valid(pending)", ".valid(1'bx)", "dvg_core: a bit that is x"),
    ("dvg_board", CORE, ".clk(a[0]), .reset(reset), .start(starting)", "dvg_core: another clock"),
    ("dvg_board", CORE, ".clk(clk), .start(starting)", "dvg_core: reset isn't connected"),
    ("dvg_board", CORE, ".clk(clk), .reset(reset), .begins(starting)",
     "does not have a port named 'begins'"),
    ("dvg_board", "dvg_core core (", "other core (", "Module `\\other' referenced"),
    # The processor
    ("dvg_cpu", "and_a      ? a & din :", "and_a ? a & din[6:0] :", "$and: widths"),
    ("dvg_cpu", "sync  = is_fetch;", "sync = is_fetch && step;", "the pin sync rests on pins"),
    ("dvg_cpu", "is_data && store;", "is_data && stores && din[0];", "write rests on pins"),
    ("dvg_cpu", "back, was, due} = 0;", "back, was, due} = 1;", "due isn't 0 at power-up"),
    # The parts of dvg_vectors
    ("dvg_vectors", ".hold(hold), .access", ".hold(jsrl), .access", "a loop of cells"),
    ("dvg_vectors", ".start(starts), ", "", "dvg_pace: start isn't connected"),
    ("dvg_vectors", "clk(clk), .tick(tick), .start", "clk(tick), .tick(clk), .start",
     "dvg_pace: another clock"),
    ("dvg_vectors", "assign halted = stopped", "assign halted = ends", "halted rests on pins"),
    ("dvg_pace", "assign hold   = !ready;", "assign hold = !ready || tick;", "hold rests on pins"),
    ("dvg_motion", "going   = count != last", "going   = vec || count != last",
     "rests on pins"),
]

# Whole files: the module, the file, its text or None where it is missing, and what core/cells says.
FILES = [
    ("dvg_core", "dvg_core", None, "yosys: ERROR: Can't open input file"),
    ("dvg_board", "dvg_board", None, "yosys: ERROR: Can't open input file"),
    ("dvg_core", "dvg_core", "// nothing\n", "yosys: ERROR: Module `dvg_core' not found!"),
    ("dvg_core", "dvg_core", "module dvg_core(; endmodule\n", "ERROR: syntax error"),
    ("dvg_core", "dvg_core", "module dvg_core(); endmodule\n", "no input clk of one bit"),
    ("dvg_core", "dvg_core", "module dvg_core(input [1:0] clk); endmodule\n",
     "no input clk of one bit"),
    ("dvg_core", "dvg_core", "module dvg_core(input clk); endmodule\n", "no output"),
    ("dvg_board", "dvg_board", "module dvg_board(input clk, output q); assign q = 0; endmodule\n",
     "the board has no dvg_core"),
    ("dvg_vectors", "dvg_motion", None, "yosys: ERROR: Can't open input file"),
]


def write_files(copy, texts_of):
    """A folder with the Verilog of core/, but for these texts: None where a file is missing."""
    os.makedirs(copy)
    for name, text in texts_of.items():
        if text is not None:
            with open(f"{copy}/{name}.v", "w", encoding="utf-8") as file:
                file.write(text)


def sources():
    found = {}
    for name in MODULES:
        with open(f"{texts.TOP}/core/{name}.v", encoding="utf-8") as source:
            found[name] = source.read()
    return found


def planted(text, taken, put):
    assert text.count(taken) == 1, taken
    return text.replace(taken, put)


def expect_refusal(suite, what, says, module, copy, **environment):
    """core/cells refuses a folder by a last line that says why, and nothing of Python."""
    ran = subprocess.run([sys.executable, "-B", CELLS, module, copy], stdin=subprocess.DEVNULL,
                         capture_output=True, text=True, env={**os.environ, **environment})
    why = ran.stderr.rstrip("\n").rpartition("\n")[2]
    suite.expect(f"{module}: {what}", [
        ("status", "1", str(ran.returncode)), ("a definition", "", ran.stdout[:200]),
        ("how it begins", "cells: ", why[:7]), ("why", says, says if says in why else why[-300:])])


def expect_refusals(suite, folder):
    here = sources()
    for number, (module, taken, put, says) in enumerate(REFUSED):
        copy = f"{folder}/refused{number}"
        write_files(copy, here | {module: planted(here[module], taken, put)})
        expect_refusal(suite, put, says, module, copy)
    for number, (module, file, text, says) in enumerate(FILES):
        copy = f"{folder}/file{number}"
        write_files(copy, here | {file: text})
        expect_refusal(suite, f"{file}.v is {text}", says, module, copy)
    expect_refusal(suite, "no folder", "yosys: ERROR: Can't open", "dvg_core", f"{folder}/none")
    expect_refusal(suite, "no yosys", "yosys isn't here", "dvg_core", f"{texts.TOP}/core",
                   PATH=folder)


# A board whose pin `takes` is a register's, by another name, and whose pin `q` is of several cells.
PIECES = [
    (TAKES, "assign takes = pending;"),
    (Q, "assign q = {flag ? ran : read[7], flag ? 6'd0 : read[6:1], !flag && read[0]};"),
]


def expect_pieces(suite, folder):
    """The pins of that board by its cells are those of Icarus Verilog."""
    here, copy = sources(), f"{folder}/pieces"
    for edit in PIECES:
        here["dvg_board"] = planted(here["dvg_board"], *edit)
    write_files(copy, here)
    board = Definition("dvg_board", copy, {"cells": Definition("dvg_core", copy)})
    bench = f"{texts.TOP}/tests/parts/core/clocks.v"
    files = [f"{copy}/{name}.v" for name in MODULES]
    run("iverilog", "-g2005", "-DBOARD", "-o", f"{copy}/icarus", bench, *files)
    expect_clocks(suite, "pins of several wires", Board(board),
                  [("Icarus", ["vvp", "-n", f"{copy}/icarus"])], copy, 2000)


def circuits():
    """Each circuit by its cells, with its name and what the benches are told of it."""
    core, cpu, pace, motion = map(Definition, ("dvg_core", "dvg_cpu", "dvg_pace", "dvg_motion"))
    board = Definition("dvg_board", parts={"cells": core})
    vectors = Definition("dvg_vectors", parts={"board": board, "pace": pace, "motion": motion})
    machine = Definition("dvg_machine", parts={"cpu": cpu, "board": board})
    game = Definition("dvg_game", parts={"cpu": cpu, "vectors": vectors})
    wraps = Definition("dvg_wraps")
    return [("dvg_core", [], lambda: Core(core)), ("dvg_cpu", ["-DCPU"], lambda: Processor(cpu)),
            ("dvg_wraps", ["-DDVG_WRAPS"], lambda: Core(wraps)),
            ("dvg_machine", ["-DMACHINE"], lambda: Machine(machine)),
            ("dvg_board", ["-DBOARD"], lambda: Board(board)),
            ("dvg_vectors", ["-DVECTORS"], lambda: Vectors(vectors)),
            ("dvg_game", ["-DGAME"], lambda: Game(game))]


def main(folder, word="10000"):
    suite = texts.Suite()
    files = [f"{texts.TOP}/core/{name}.v" for name in MODULES]
    for name, defines, circuit in circuits():
        place = f"{folder}/{name}"
        os.makedirs(place)
        programs = readers(place, defines, files)
        if name not in ("dvg_wraps", "dvg_vectors", "dvg_machine", "dvg_game"):
            text = vectors(name, circuit(), programs[0][1], place)
            if word == "--write":
                with open(f"{texts.TOP}/{file_of_vectors(name)}", "w", encoding="utf-8") as file:
                    file.write(text)
                continue
            expect_vectors(suite, name, text)
        if word != "--write":
            random.seed(1979)
            expect_clocks(suite, name, circuit(), programs, place, int(word))
    if word != "--write":
        expect_pieces(suite, folder)
        expect_refusals(suite, folder)
        suite.end()


main(*sys.argv[1:])
