#!/usr/bin/env python3
"""Gerbilargent from Python: both ends of the vector RAM of Atari's Digital Vector Generator (DVG).

    import gerbilargent
    from gerbilargent import Draft, World

    with World() as world:
        for stroke in world.draw(Draft().labs(512, 400).vctr(9, -100, 100, 7).halt()):
            print(stroke)

The module stands on the shared library. DVG_LIBRARY in the environment names it; else it lies
beside the module, as `pip install` puts it, or in build/ of the repository. *Proved* is only what
the Rattle kit's `rt` has passed. `./lib` builds the library in seconds, of the plain form in
plain/: the same code with its contracts taken away, tested, not proved. `./lib --proved` proves it
first. This module itself is tested, not proved.

    World       both ends, over a RAM and a ROM that it holds
    Driver      the driver alone: it says what is to be written into a RAM of yours
    Generator   the generator alone: it is handed the bytes of a RAM and a ROM of yours
    MomentJudge whether each run in the log of any system is consistent, a line at a time
    Draft       the operations of a frame
    picture     what a dump of the vector memory draws
    judge       whether the log of any system tears a picture; Judge takes one line at a time
    svg         strokes as an SVG

Units. A place is in 1/512 of a screen unit, 0 to 2,097,151 along both axes, y upwards; a LABS names
whole screen units, 0 to 4,095. An intensity is 0 (nothing is seen) to 15. A word address is 000 to
FFF (hexadecimal): words 000 to 3FF are the RAM, and the ROM ends at BFF. A byte address is 0 to
2,047. Words lie in memory with their low byte first.

Errors. Each refusal is an exception with a name, below Error, and has changed nothing. What comes
in a wrong order is a WrongOrder. A run that broke, and one that came to no end, are errors, too.
A number that isn't whole is a NoInteger, and a memory that isn't bytes a NoBytes. Python's own are
a call with other words than it has (TypeError), and what an iterator or a number of yours raises.

Threads. A World, Driver, Generator or MomentJudge may be used and closed on any thread, in one call
at a time. A call that comes while another one of the same object runs, also in a signal handler, is
an InUse; where two begin at once, one waits for the other. Each is a context manager, and `close`
gives its memory back, as does its end.

Copies. A World, a Driver and a MomentJudge are neither copied nor pickled, which is a NotCopied. A
Generator is copied, and isn't pickled. All else here is copied and pickled as any value of Python:
a Draft, a Judge, and what is returned.

Run as a script it draws a first picture: `python3 python/gerbilargent.py --help`.
"""

from __future__ import annotations

import argparse
import ctypes
import enum
import functools
import itertools
import operator
import os
import struct
import sys
import threading
from array import array
from pathlib import Path
from typing import (
    Any, Callable, Iterable, Iterator, NamedTuple, NoReturn, Optional, Sequence, TypeVar, Union,
    cast,
)

__all__ = [
    "BadByte", "BadCount", "BadLog", "BadOperation", "BadState", "Beam", "Break", "Busy", "Bytes",
    "Closed", "Draft", "DraftFull", "DraftRefused", "Driver", "Endless", "Entry", "Error", "Event",
    "Fault", "Generator", "Halted", "InUse", "Judge", "Kind", "LibraryMissing", "MOST_OPERATIONS",
    "MOST_WORDS", "MomentJudge", "Move", "NoBytes", "NoDraft", "NoEvent", "NoInteger", "NoStrobe",
    "NoStroke", "NoText", "NotCopied", "NothingPublished", "Opened", "Operation", "OutOfMemory",
    "Picture", "RAM_BYTES", "RETURNS", "ROM_SIZES", "RunBroke", "StateFault", "Stroke", "Torn",
    "Verdict", "Wanted", "World", "WrongOrder", "WrongSize", "judge", "picture", "svg",
]

__version__ = "0.9.0"

#: Bytes: `bytes`, a `bytearray` or a `memoryview`, or what lends single bytes as these do.
Bytes = Union[bytes, bytearray, memoryview]

#: How many bytes a RAM has.
RAM_BYTES = 2048

#: How many bytes a ROM may have.
ROM_SIZES = (2048, 4096)

#: A ROM of 2,048 bytes whose words are all D000, a return.
RETURNS = b"\x00\xd0" * 1024

#: Within how many words `picture` looks for the end of a run.
MOST_WORDS = 65536

#: How many operations a draft has at most.
MOST_OPERATIONS = 511


# --- What is answered ---


class Kind(enum.IntEnum):
    """What came of a request. `text` is its name in words."""

    OFFERED = 0
    REFUSED = 1
    BUSY = 2
    ASKED = 3
    NOTHING_PUBLISHED = 4
    PEEK = 5
    WROTE = 6
    READ = 7
    SENT = 8
    IDLE = 9
    STARTED = 10
    NO_STROBE = 11
    LOW = 12
    FETCHED = 13
    DONE = 14
    BROKE = 15
    STILL = 16
    CLEARED = 17
    PUSHED = 18
    NO_OPERATION = 19
    FULL = 20
    STAGED = 21
    OPENED = 22
    WRONG_SIZE = 23
    CLOSED = 24
    WANTED = 25
    NO_RUN = 26
    ONE_MOMENT = 27
    NO_MOMENT = 28
    WHOLE = 29
    TORN = 30
    MOVES = 31
    NOTHING = 32
    HOLDS = 33
    RETURNS_TO = 34
    STATE = 35
    NO_STATE = 36
    BYTE = 37
    DRIVER = 38
    UNKNOWN = 254
    NO_MEMORY = 255

    @property
    def text(self) -> str:
        """Its name in words, in lower case."""
        return self.name.lower().replace("_", " ")


class Event(enum.IntEnum):
    """What `World.run` takes, beside a Draft, which it offers: each is the call of its name."""

    REDRAW = 1
    TICK = 2
    STROBE = 3
    FETCH = 4
    RESET_GENERATOR = 5
    RESET_PROCESSOR = 6


class Fault(enum.IntEnum):
    """Why a draft is refused: the numbers of `dvg check`. `text` is its name there."""

    EMPTY = 1
    NO_LABS = 2
    TOO_LONG = 3
    TARGET = 4
    RUNS_OFF = 5
    OUT_OF_ROM = 6
    TOO_DEEP = 7
    NO_CALLER = 8
    LOOPS = 9

    @property
    def text(self) -> str:
        """Its name in `dvg check`."""
        return self.name.lower().replace("_", " ")


class Break(enum.IntEnum):
    """Why a run broke: the numbers of `dvg picture`. `text` says it in words."""

    STACK_OVER = 1
    STACK_UNDER = 2
    HOLE = 3

    @property
    def text(self) -> str:
        """What it is, in words."""
        return ("fifth call", "return without a call", "no memory there")[self - 1]


class StateFault(enum.Enum):
    """Why bytes aren't restored, in words by its value. NO_STATE is an older name of BROKEN."""

    BROKEN = "they are no saved state, or one that was cut or changed"
    OTHER_CLASS = "they are of another class"
    OTHER_VERSION = "they are of another version"
    OTHER_ROM = "they are of a world over another ROM"
    PARTS = "their parts don't fit together, or this ROM refuses the frame in them"
    NO_STATE = BROKEN


class Stroke(NamedTuple):
    """A line that was drawn, from x0, y0 to x1, y1: in 1/512 of a screen unit, 0 to 2,097,151 each.

    z is its intensity, 1 to 15. As text it is the five numbers, as `dvg play` writes them.
    """

    x0: int
    y0: int
    x1: int
    y1: int
    z: int

    def __str__(self) -> str:
        return f"{self.x0} {self.y0} {self.x1} {self.y1} {self.z}"


class Move(NamedTuple):
    """What an instruction does to the beam, also where nothing is seen.

    It moves from x0, y0 to x1, y1, in 1/512 of a screen unit, 0 to 2,097,151 each, with intensity
    z, 0 (blank) to 15. `address` is the word address of the instruction's first word. Where
    `placed`, a LABS places the beam, and z is 0.
    """

    x0: int
    y0: int
    x1: int
    y1: int
    z: int
    placed: bool
    address: int

    @property
    def units(self) -> "tuple[int, int]":
        """The move along both axes in whole screen units, each rounded a half away from zero.

        That is how rate multipliers round it. Counters that each LABS loads, with x1 / 512 and
        y1 / 512, and that count the units of each other move, modulo 4,096, have the beam's
        position in whole units.
        """
        return _units(self.x0, self.x1), _units(self.y0, self.y1)


class Beam(NamedTuple):
    """Where the beam is, in 1/512 of a unit, 0 to 2,097,151, and the global scale, 0 to 15."""

    x: int
    y: int
    scale: int


class Entry(NamedTuple):
    """What came of an event. As text it is what `dvg play --all` has after the event's number.

    `address` is a byte address of WROTE, and a word address of LOW, FETCHED and DONE; `value` is
    the byte or the word there, and of READ whether the generator is halted. `strokes` is how many
    a DONE drew; which they are the World or the Generator tells.
    """

    kind: Kind
    address: int = 0
    value: int = 0
    strokes: int = 0

    def __str__(self) -> str:
        kind, address, value = self.kind, self.address, self.value
        if kind in (Kind.WROTE, Kind.LOW):
            return f"{kind.text} {address:03X} {value:02X}"
        if kind is Kind.FETCHED:
            return f"fetched {address:03X} {value:04X}"
        if kind is Kind.DONE:
            return f"done {address:03X} {value:04X} {self.strokes}"
        if kind is Kind.BROKE:
            return f"broke {address:03X} {value & 3}"
        if kind is Kind.READ:
            return "read halted" if value else "read running"
        return kind.text


class Wanted(NamedTuple):
    """The byte that a generator wants next: the high or the low one of the word at `address`."""

    address: int
    high: bool


class Picture(NamedTuple):
    """A run that came to a HALT: after how many words, and what it drew, in order.

    As text it is what `dvg picture` writes, and in a notebook an SVG.
    """

    words: int
    strokes: "list[Stroke]"

    def __str__(self) -> str:
        return "\n".join([f"picture {self.words} {len(self.strokes)}", *map(str, self.strokes)])

    def _repr_svg_(self) -> str:
        return svg(self.strokes)


# --- What is refused ---


class Error(Exception):
    """What this module raises. Each kind of it has a name of its own."""


class LibraryMissing(Error, OSError):
    """There is no shared library."""


class OutOfMemory(Error, MemoryError):
    """Memory was refused."""


class WrongSize(Error, ValueError):
    """A RAM isn't of 2,048 bytes, a ROM not of 2,048 or 4,096, or a dump not of both."""


class NoBytes(Error, TypeError):
    """A RAM, a ROM or a dump isn't bytes."""


class NoInteger(Error, TypeError):
    """A number isn't whole: a float, a text, or nothing. It isn't rounded, as a place that is cut
    would be another picture."""


class NoEvent(Error, TypeError):
    """What `World.run` is handed is no Event and no Draft, or what a judge is told no Entry."""


class NoDraft(Error, TypeError):
    """What is offered is no Draft."""


class NoStroke(Error, TypeError):
    """What an SVG is made of is no Stroke."""


class NoText(Error, TypeError):
    """A log isn't a text, or lines of text."""


class NotCopied(Error, TypeError):
    """A World, Driver or MomentJudge isn't copied, and none of these and no Generator is pickled.

    Of a world and a generator `save` the state, and `restore` it by another one. It is a TypeError,
    as that is what copy and pickle say of what they can't do.
    """


class BadByte(Error, ValueError):
    """A byte isn't 0 to 255, a word or an address of more bits than 16, or none of the RAM."""


class BadCount(Error, ValueError):
    """A count is out of its range: the units of an SVG, or the most words of a run."""


class BadState(Error, ValueError):
    """Bytes are no saved state of what is to be restored, one of another version, or a broken one.

    Or it is of a world over another ROM. `reason` says which.
    """

    def __init__(self, reason: StateFault) -> None:
        self.reason = reason
        super().__init__(reason)

    def __str__(self) -> str:
        return f"bytes aren't restored: {self.reason.value}"


class BadOperation(Error, ValueError):
    """A field of an operation is out of its range."""


class DraftFull(Error, ValueError):
    """A draft has 511 operations, and gets one more."""


class DraftRefused(Error):
    """The check refuses a draft.

    fault       why
    operation   the number of the operation where, from 0; None where the fault has no such place
    rom_word    the word address in the ROM where, 000 to FFF; None where it has no such place
    """

    def __init__(self, fault: Fault, operation: Optional[int], rom_word: Optional[int]) -> None:
        self.fault, self.operation, self.rom_word = fault, operation, rom_word
        super().__init__(fault, operation, rom_word)

    def __str__(self) -> str:
        place = ""
        if self.rom_word is not None:
            place = f" word {self.rom_word:03X}"
        elif self.operation is not None:
            in_draft = self.fault in (Fault.TARGET, Fault.RUNS_OFF)
            place = f" {self.operation}" if in_draft else f" op {self.operation}"
        return f"{int(self.fault)} {self.fault.text}{place}"


class RunBroke(Error):
    """A run broke at the word address `address`: `why` says why.

    A World raises it only where it was restored from bytes that no world over its ROM saved.
    """

    def __init__(self, address: int, why: Break) -> None:
        self.address, self.why = address, why
        super().__init__(address, why)

    def __str__(self) -> str:
        return f"broke {self.address:03X} {int(self.why)}: {self.why.text}"


class Endless(Error):
    """A run came to no end within `words` words."""

    def __init__(self, words: int) -> None:
        self.words = words
        super().__init__(words)

    def __str__(self) -> str:
        return f"no end within {self.words} words"


class BadLog(Error, ValueError):
    """A line of a log says nothing that a line may. `line` is its number, from 1."""

    def __init__(self, line: int, text: str) -> None:
        self.line, self.text = line, text
        super().__init__(line, text)

    def __str__(self) -> str:
        return f"syntax at line {self.line}: {self.text!r}"


class WrongOrder(Error):
    """A call came when it can't be done."""


class Closed(WrongOrder):
    """The object was closed, or never opened."""


class Opened(WrongOrder):
    """The object is opened a second time, by its `__init__`."""


class InUse(WrongOrder):
    """Another call of the same object runs."""


class Busy(WrongOrder):
    """The driver isn't idle: it writes a frame, or waits to send a strobe. Let it tick."""


class NothingPublished(WrongOrder):
    """The driver has published no frame since its reset: there is nothing to draw again."""


class NoStrobe(WrongOrder):
    """A strobe has no effect: the driver of this world has sent none."""


class Halted(WrongOrder):
    """The generator is halted, so it fetches nothing: a strobe begins a run."""


# --- The library ---


def library_path() -> Path:
    """Where the shared library is looked for."""
    named = os.environ.get("DVG_LIBRARY")
    if named:
        return Path(named)
    here = Path(__file__).resolve().parent
    beside = here / "libdvg.so"
    return beside if beside.exists() else here.parent / "build" / "libdvg.so"


class _Answer(ctypes.Structure):
    """What most calls of include/dvg.h answer: a dvg_answer."""

    _fields_ = [
        ("kind", ctypes.c_uint32), ("address", ctypes.c_uint16), ("value", ctypes.c_uint16),
        ("next", ctypes.c_int32),
    ]

    @property
    def number(self) -> int:
        """The number of which this is made."""
        return int(self.kind | self.address << 8 | self.value << 24)


# The types of C, by letters: a device or another pointer, bytes, a length, numbers, an answer.
_TYPES: "dict[str, Any]" = {
    "p": ctypes.c_void_p, "b": ctypes.c_char_p, "n": ctypes.c_size_t, "w": ctypes.c_uint32,
    "q": ctypes.c_uint64, "a": _Answer, "0": None,
}

#: The calls of include/dvg.h that are made here: what each returns, and what it takes.
_CALLS_OF_C = {
    "dvg_new": "wp", "dvg_free": "0p", "dvg_turn": "qpq", "dvg_turns": "npppn",
    "dvg_open_world": "apbbn", "dvg_open_driver": "apbn", "dvg_reset_all": "apb",
    "dvg_wants": "ap", "dvg_go_on": "apabbnp", "dvg_ram": "app", "dvg_digest": "qbn",
    "dvg_save": "nppn", "dvg_save_over": "npqpn", "dvg_saved_fault_over": "wqbn",
    "dvg_restore_over": "apqbn", "dvg_take_strokes": "qppp",
}


@functools.lru_cache(maxsize=None)
def _load(path: Path) -> ctypes.CDLL:
    """The library there, with its functions declared: else pointers would be cut."""
    if not path.exists():
        raise LibraryMissing(f"there is no {path}: ./lib builds it, and DVG_LIBRARY names another")
    try:
        library = ctypes.CDLL(str(path))
        for name, types in _CALLS_OF_C.items():
            call = getattr(library, name)
            call.restype, *call.argtypes = map(_TYPES.__getitem__, types)
    except (OSError, AttributeError) as error:
        raise LibraryMissing(f"{path} can't be used: {error}: ./lib builds one") from error
    return library


class _Request(enum.IntEnum):
    """The requests that are made by their numbers, which are those of include/dvg.h."""

    OFFER = 0
    REDRAW = 1
    TICK = 2
    STROBE = 3
    FETCH = 4
    RESET_GENERATOR = 5
    RESET_PROCESSOR = 6
    RESET_ALL = 7
    PUSH = 8
    CLEAR = 9
    OPEN_GENERATOR = 14
    WANTS = 16
    STROKES = 17
    STROKE_FROM = 18
    STROKE_TO = 19
    STROKE_INTENSITY = 20
    OPEN_JUDGE = 21
    TELL = 22
    MOVE = 23
    MOVE_TO = 24
    BEAM = 25
    HOLDS = 26
    RETURN_TO = 27
    STATE = 28
    OPEN_WRAPPING = 30


#: What is asked of each stroke, as numbers.
_OF_STROKE = tuple(map(int, (
    _Request.STROKE_FROM, _Request.STROKE_TO, _Request.STROKE_INTENSITY
)))

#: The answers that are errors without more to tell.
_ERRORS = {
    Kind.BUSY: Busy("the driver isn't idle"),
    Kind.NOTHING_PUBLISHED: NothingPublished("no frame is published since the reset"),
    Kind.NO_STROBE: NoStrobe("the driver has sent no strobe"),
    Kind.STILL: Halted("the generator is halted"),
    Kind.NO_OPERATION: BadOperation("a field is out of its range"),
    Kind.FULL: DraftFull(f"a draft has at most {MOST_OPERATIONS} operations"),
    Kind.WRONG_SIZE: WrongSize("a RAM has 2,048 bytes, and a ROM 2,048 or 4,096"),
    Kind.NO_STATE: BadState(StateFault.PARTS),
    Kind.NO_MEMORY: OutOfMemory("memory was refused"),
}

#: What was saved, by the letter in its bytes.
_GENERATOR, _WRAPPING, _WORLD = b"G", b"R", b"W"

#: How many bytes a saved world has at most, but for strokes.
_SAVED_BYTES = 6208

#: Why bytes aren't restored, by the numbers of include/dvg.h.
_STATE_FAULTS = (
    None, StateFault.BROKEN, StateFault.OTHER_VERSION, StateFault.OTHER_CLASS,
    StateFault.OTHER_ROM, StateFault.PARTS,
)


def _whole(name: str, value: int) -> int:
    """The number of this name, where it is whole."""
    try:
        return int(operator.index(value))
    except TypeError:
        raise NoInteger(f"{name} is {value!r}, and must be an integer") from None


def _count(name: str, value: int, least: int, most: Optional[int] = None) -> int:
    """The count of this name, where it is one from the least to the most, or from the least on."""
    count = _whole(name, value)
    if count < least or most is not None and count > most:
        until = "or more" if most is None else f"to {most}"
        raise BadCount(f"{name} is {count}, and must be {least} {until}")
    return count


def _byte(value: int) -> int:
    """The byte, where it is one."""
    byte = _whole("a byte", value)
    if not 0 <= byte <= 255:
        raise BadByte(f"{value} isn't 0 to 255")
    return byte


def _of_16_bits(value: int) -> int:
    """The address or the word, where it has at most 16 bits."""
    number = _whole("a number", value)
    if not 0 <= number <= 0xFFFF:
        raise BadByte(f"{number} isn't 0 to 65,535")
    return number


def _bytes(name: str, held: Bytes) -> bytes:
    """The bytes of what is held by this name."""
    try:
        view = memoryview(held)
    except (TypeError, ValueError, BufferError):
        raise NoBytes(f"{name} is bytes, not {type(held).__name__}") from None
    if view.itemsize != 1:
        raise NoBytes(f"{name} is single bytes, not items of {view.itemsize} bytes")
    return view.tobytes()


def _place(part: int) -> "tuple[int, int]":
    """The place that a part of a state tells."""
    return part >> 16 & 0x3FFFFF, part >> 38 & 0x3FFFFF


def _units(start: int, end: int) -> int:
    """The move from one position to another in whole units, a half rounded away from zero."""
    ahead = (end - start) % 0x200000
    return (ahead + 256) // 512 if ahead < 0x100000 else -((0x200000 - ahead + 256) // 512)


def _ram(ram: Optional[Bytes]) -> bytes:
    """The bytes of a RAM: zeros where none is named."""
    held = bytes(RAM_BYTES) if ram is None else _bytes("a RAM", ram)
    if len(held) != RAM_BYTES:
        raise WrongSize(f"a RAM has {RAM_BYTES} bytes, not {len(held)}")
    return held


def _rom(rom: Optional[Bytes]) -> bytes:
    """The bytes of a ROM: RETURNS where none is named."""
    held = RETURNS if rom is None else _bytes("a ROM", rom)
    if len(held) not in ROM_SIZES:
        raise WrongSize(f"a ROM has 2048 or 4096 bytes, not {len(held)}")
    return held


# The bits of an answer that make an entry. Above them stands which byte a generator wants next.
_ENTRY_BITS = (1 << 40) - 1


@functools.lru_cache(maxsize=1 << 14)
def _entry_of(number: int) -> Entry:
    """The entry that an answer is, of a DONE with the number of strokes from bit 40 on."""
    kind = Kind(number & 0xFF)
    strokes = number >> 40 if kind is Kind.DONE else 0
    return Entry(kind, number >> 8 & 0xFFFF, number >> 24 & 0xFFFF, strokes)


def _done(number: int, strokes: int) -> int:
    """The answer of a DONE with its number of strokes, as `_entry_of` takes it."""
    return number & _ENTRY_BITS | strokes << 40


def _length(name: str, held: "Sequence[int]") -> int:
    """How many bytes a sequence of this name has."""
    try:
        return len(held)
    except TypeError:
        raise NoBytes(f"{name} is bytes, not {type(held).__name__}") from None


def _place_of(at: int, rom_bytes: int) -> Optional[int]:
    """Which byte of a RAM, with a ROM of so many bytes after it, stands at this byte address.

    None where no memory answers.
    """
    if at < RAM_BYTES:
        return at
    rom_begins = 0x1800 - rom_bytes
    return RAM_BYTES + at - rom_begins if rom_begins <= at < 0x1800 else None


_Own = TypeVar("_Own", bound="_Device")
_Item = TypeVar("_Item")
_Call = TypeVar("_Call", bound=Callable[..., Any])


class _Handle:
    """Owns a device of the library, and frees it once: when it is closed, or goes itself."""

    __slots__ = ("device", "library", "lock")

    def __init__(self, library: Any = None) -> None:
        self.device: Optional[ctypes.c_void_p] = None
        self.library = library
        self.lock = threading.Lock()
        if library is not None:
            made = ctypes.c_void_p()
            if library.dvg_new(ctypes.byref(made)) != 0:
                raise OutOfMemory("memory was refused")
            self.device = made

    def __reduce_ex__(self, _protocol: object) -> NoReturn:
        raise NotCopied("what owns a device isn't copied or pickled")

    def close(self) -> None:
        device, self.device = self.device, None
        if device is not None:
            self.library.dvg_free(device)

    __del__ = close


#: That of an object which `__init__` hasn't opened.
_NEVER_OPENED = _Handle()


def _alone(call: _Call) -> _Call:
    """A call of an object, while no other one of it runs."""

    @functools.wraps(call)
    def guarded(self: "_Device", *words: Any, **named: Any) -> Any:
        handle = self._handle
        if handle is _NEVER_OPENED:
            raise Closed("it was never opened")
        if handle.lock.locked():
            raise InUse("another call of it runs")
        # Where two come at once, one waits here until the other has ended.
        with handle.lock:
            return call(self, *words, **named)

    return cast(_Call, guarded)


class _Device:
    """A device of the library. It is used in one call at a time, until it is closed.

    What begins with an underscore is asked within a call.
    """

    _handle = _NEVER_OPENED

    def __init__(self, opening: "Union[_Request, str]", *words: Any) -> None:
        """Opens what this request opens, or this call of C with these words: once. Opened."""
        handle = _Handle(_load(library_path()))
        with handle.lock:
            if vars(self).setdefault("_handle", handle) is not handle:
                raise Opened("it was opened already")
            try:
                if isinstance(opening, str):
                    self._call(opening, *words)
                else:
                    self._ask(opening)
            except BaseException:
                handle.close()
                raise

    def __repr__(self) -> str:
        return f"<{type(self).__name__}{self._shown()}{'' if self._handle.device else ', closed'}>"

    def _shown(self) -> str:
        """What its representation says beside its class."""
        return ""

    def close(self) -> None:
        """Gives the memory back. Closing again does nothing, and any other call is Closed then."""
        if self._handle is not _NEVER_OPENED:
            self._close()

    @_alone
    def _close(self) -> None:
        self._handle.close()

    def __enter__(self: _Own) -> _Own:
        self._own_device()
        return self

    def __exit__(self, *_error: object) -> None:
        self.close()

    def __copy__(self) -> Any:
        raise NotCopied(f"a {type(self).__name__} isn't copied")

    def __deepcopy__(self, copies: "dict[int, object]") -> Any:
        raise NotCopied(f"a {type(self).__name__} isn't copied")

    def __reduce_ex__(self, _protocol: object) -> NoReturn:
        raise NotCopied(f"a {type(self).__name__} isn't pickled")

    def _own_device(self) -> ctypes.c_void_p:
        """The device, where it is open."""
        device = self._handle.device
        if device is None:
            raise Closed("it was closed, or never opened")
        return device

    def _turn(self, request: _Request, fields: int = 0) -> int:
        """One request, with its fields, and the number that is its answer."""
        device = self._own_device()
        answer: int = self._handle.library.dvg_turn(device, int(request) | fields)
        return answer

    def _turns(self, numbers: "array[int]") -> int:
        """Asks these requests, puts its answer in the place of each, and says how many it asked.

        The last that was asked is the last of all, or its answer is DONE or NO_MEMORY.
        """
        device, (at, count) = self._own_device(), numbers.buffer_info()
        asked: int = self._handle.library.dvg_turns(device, at, at, count)
        return asked

    def _turns_to_the_end(self, numbers: "array[int]") -> int:
        """The same, and goes on after each DONE, whose answer gets the number of its strokes."""
        device, library = self._own_device(), self._handle.library
        done, no_memory, strokes = int(Kind.DONE), int(Kind.NO_MEMORY), int(_Request.STROKES)
        at, count = numbers.buffer_info()
        asked = kind = 0
        while asked < count and kind != no_memory:
            here = at + 8 * asked
            asked += library.dvg_turns(device, here, here, count - asked)
            kind = numbers[asked - 1] & 0xFF
            if kind == done:
                numbers[asked - 1] = _done(numbers[asked - 1], library.dvg_turn(device, strokes))
        return asked

    def _ask(self, request: _Request, fields: int = 0) -> Entry:
        """One request, and its answer; what is refused is raised."""
        return self._entry(self._turn(request, fields))

    def _answer_of(self, call: str, *words: Any) -> Any:
        """What a call of C answers, which this device and these words are handed to."""
        device = self._own_device()
        return getattr(self._handle.library, call)(device, *words)

    def _call(self, call: str, *words: Any) -> Entry:
        """The same as an entry; what is refused is raised."""
        return self._entry(self._answer_of(call, *words).number)

    def _entry(self, number: int) -> Entry:
        """The entry that the newest answer is; what is refused is raised."""
        entry = _entry_of(number & _ENTRY_BITS)
        if entry.kind in _ERRORS:
            error = _ERRORS[entry.kind]
            raise type(error)(*error.args)
        if entry.kind is Kind.REFUSED:
            raise _refusal(entry)
        if entry.kind is Kind.BROKE:
            raise RunBroke(entry.address, Break(entry.value & 3))
        if entry.kind is Kind.DONE:
            return _entry_of(_done(number, self._turn(_Request.STROKES)))
        return entry

    def _ask_all(self, requests: "array[int]") -> Entry:
        """Asks these requests, and returns the entry of the last; what is refused is raised."""
        answers = array("Q", requests)
        return self._entry(answers[self._turns(answers) - 1])

    def _offer(self, draft: "Draft") -> Entry:
        """Hands a draft to the driver."""
        return self._ask_all(array("Q", draft.requests()))

    def _saved(self, call: str, *words: Any) -> bytes:
        """The bytes that a call of C saves, which these words are handed to."""
        length, room = _SAVED_BYTES, 0
        while length > room:
            room = length
            held = ctypes.create_string_buffer(room)
            length = self._answer_of(call, *words, held, room)
        return ctypes.string_at(held, length)

    def _restore(self, letters: bytes, rom: int, saved: Bytes) -> None:
        """Restores a saved state that has one of these letters, over a ROM of this digest."""
        held = _bytes("a saved state", saved)
        device, library = self._own_device(), self._handle.library
        fault = _STATE_FAULTS[library.dvg_saved_fault_over(rom, held, len(held))]
        if fault in (None, StateFault.PARTS) and held[2] not in letters:
            fault = StateFault.OTHER_CLASS
        if fault is None:
            answer = library.dvg_restore_over(device, rom, held, len(held))
            if answer.kind != Kind.NO_STATE:
                self._entry(answer.number)
                return
            fault = _STATE_FAULTS[answer.value]
        raise BadState(fault or StateFault.PARTS)

    def _beam(self) -> Beam:
        place = self._turn(_Request.BEAM)
        return Beam(place & 0xFFFFFFFF, place >> 32, self._turn(_Request.HOLDS) >> 24 & 0xF)

    @property
    @_alone
    def strokes(self) -> "list[Stroke]":
        """What the newest run drew that came to a HALT, in the order drawn; empty before it."""
        return self._strokes()

    def _strokes(self) -> "list[Stroke]":
        numbers = iter(self._stroke_numbers())
        return [
            Stroke(begin & 0xFFFFFFFF, begin >> 32, end & 0xFFFFFFFF, end >> 32, z)
            for begin, end, z in zip(numbers, numbers, numbers)
        ]

    @property
    @_alone
    def stroke_table(self) -> memoryview:
        """These strokes as a table of numbers of 32 bits, in rows: x0, y0, x1, y1, z and 0.

        What reads the buffer protocol takes it without a copy: `numpy.asarray(world.stroke_table)`.
        Where there is no stroke, it has one dimension, of length 0, so ask for its length before
        its columns. It needs a machine with the low byte first.
        """
        if sys.byteorder != "little":
            raise Error("a table of strokes needs a machine with the low byte first")
        numbers = memoryview(self._stroke_numbers()).cast("B")
        return numbers.cast("I", (len(numbers) // 24, 6)) if numbers else numbers.cast("I")

    def _stroke_numbers(self) -> "array[int]":
        """Three numbers for each stroke: where it begins, where it ends, and its intensity."""
        strokes = range(self._turn(_Request.STROKES))
        requests = (request | number << 8 for number in strokes for request in _OF_STROKE)
        numbers = array("Q", requests)
        self._turns(numbers)
        return numbers


def _refusal(entry: Entry) -> DraftRefused:
    """The exception for a refused draft."""
    fault = Fault(entry.value & 0xF)
    if entry.value & 0x100:
        return DraftRefused(fault, None, entry.address)
    if fault in (Fault.EMPTY, Fault.NO_LABS, Fault.TOO_LONG, Fault.LOOPS):
        return DraftRefused(fault, None, None)
    return DraftRefused(fault, entry.address, None)


# --- Drafts ---


class Operation(NamedTuple):
    """One operation of a draft: its kind's number, and its fields. A Draft makes them."""

    kind: int
    scale: int = 0
    z: int = 0
    x: int = 0
    y: int = 0

    @property
    def number(self) -> int:
        """Its fields, as a request has them."""
        low = self.kind << 8 | self.scale << 16 | self.z << 24
        return low | (self.x & 0xFFFF) << 32 | (self.y & 0xFFFF) << 48

    @property
    def text(self) -> str:
        """Its line in a draft, as `dvg check` reads it."""
        name = _CALLS[self.kind].replace("_", "")
        if name in ("vctr", "svec"):
            return f"{name} {self.scale} {self.x} {self.y} {self.z}"
        if name == "labs":
            return f"labs {self.x} {self.y} {self.scale}"
        if name in ("call", "jump"):
            return f"{name} {self.x}"
        return f"{name} {self.x:03X}" if name.endswith("rom") else name

    def __str__(self) -> str:
        name = _CALLS[self.kind]
        if name in ("vctr", "svec"):
            return f"{name}({self.scale}, {self.x}, {self.y}, {self.z})"
        if name == "labs":
            return f"labs({self.x}, {self.y}, {self.scale})"
        if name in ("call", "jump"):
            return f"{name}({self.x})"
        return f"{name}({self.x:#05x})" if name.endswith("_rom") else f"{name}()"


#: The calls of a Draft, by the numbers of the kinds of operations.
_CALLS = ("vctr", "svec", "labs", "call", "jump", "call_rom", "jump_rom", "return_", "halt")

#: Fields of an operation that its call has another name for.
_FIELDS = {"dx": "x", "dy": "y", "operation": "x", "address": "x"}


class Draft:
    """The operations of a frame, numbered from 0. Each call adds one, and returns the draft.

    A field out of its range is a BadOperation, one that isn't whole a NoInteger, and a 512th
    operation a DraftFull: the draft is then as it was. Whether the whole may be drawn an offer
    tells. Drafts are equal where their operations are, and `copy.copy` makes another one.
    """

    # No call changes it in its place, so copies don't share it.
    _operations: "tuple[Operation, ...]" = ()

    def __len__(self) -> int:
        return len(self._operations)

    def __iter__(self) -> Iterator[Operation]:
        return iter(self._operations)

    def __eq__(self, other: object) -> bool:
        return isinstance(other, Draft) and self._operations == other._operations

    def __repr__(self) -> str:
        return "Draft()" + "".join(f".{operation}" for operation in self._operations)

    @property
    def text(self) -> str:
        """Its operations as `dvg check` and `dvg explain` read them, a line each."""
        return "".join(operation.text + "\n" for operation in self._operations)

    def requests(self) -> Iterator[int]:
        """What hands it to a driver, as numbers of include/dvg.h."""
        yield int(_Request.CLEAR)
        yield from (int(_Request.PUSH) | operation.number for operation in self._operations)
        yield int(_Request.OFFER)

    def _add(self, kind: int, **fields: "tuple[int, int, int]") -> "Draft":
        """Adds an operation, of fields with their least and most."""
        values = {}
        for name, (value, least, most) in fields.items():
            values[_FIELDS.get(name, name)] = number = _whole(name, value)
            if not least <= number <= most:
                raise BadOperation(f"{name} is {number}, and must be {least} to {most}")
        if len(self) == MOST_OPERATIONS:
            raise DraftFull(f"a draft has at most {MOST_OPERATIONS} operations")
        self._operations += (Operation(kind, **values),)
        return self

    def vctr(self, scale: int, dx: int, dy: int, z: int) -> "Draft":
        """A VCTR, two words: moves the beam, and draws where z is 1 to 15.

        dx and dy are -1,023 to 1,023, in 1/512 of a screen unit, times two to the power of s. s is
        the sum of this scale, 0 to 9, and the one that the newest LABS set, modulo 16; where it is
        over 9, nothing moves. z is the intensity, 0 to 15.
        """
        return self._add(
            0, scale=(scale, 0, 9), z=(z, 0, 15), dx=(dx, -1023, 1023), dy=(dy, -1023, 1023)
        )

    def svec(self, scale: int, dx: int, dy: int, z: int) -> "Draft":
        """An SVEC, one word: a VCTR of dx and dy -3 to 3, which count 256 times; scale 2 to 5."""
        return self._add(1, scale=(scale, 2, 5), z=(z, 0, 15), dx=(dx, -3, 3), dy=(dy, -3, 3))

    def labs(self, x: int, y: int, scale: int = 0) -> "Draft":
        """A LABS, two words: puts the beam at x, y, 0 to 4,095 screen units; scale is 0 to 15."""
        return self._add(2, scale=(scale, 0, 15), x=(x, 0, 4095), y=(y, 0, 4095))

    def call(self, operation: int) -> "Draft":
        """A call of the operation of this number, 0 to 65,535, which may come later; one word."""
        return self._add(3, operation=(operation, 0, 65535))

    def jump(self, operation: int) -> "Draft":
        """A jump to the operation of this number, 0 to 65,535, which may come later; one word."""
        return self._add(4, operation=(operation, 0, 65535))

    def call_rom(self, address: int) -> "Draft":
        """A call of a word of the ROM, by its word address, 000 to FFF; one word."""
        return self._add(5, address=(address, 0, 0xFFF))

    def jump_rom(self, address: int) -> "Draft":
        """A jump to a word of the ROM, by its word address, 000 to FFF; one word."""
        return self._add(6, address=(address, 0, 0xFFF))

    def return_(self) -> "Draft":
        """A return from the newest call; one word."""
        return self._add(7)

    def halt(self) -> "Draft":
        """The end of the run; one word."""
        return self._add(8)


def _draft(draft: Draft) -> Draft:
    """The draft, where it is one."""
    if not isinstance(draft, Draft):
        raise NoDraft(f"{draft!r} is no Draft")
    return draft


# --- What opens ---


class Driver(_Device):
    """A driver alone, just reset. Its drafts are checked over a ROM, RETURNS where none is named.

    The RAM is the caller's: after a tick that wrote, put the byte there before the next tick and
    the next fetch, and write no other byte. After one that sent a strobe, start the generator. Name
    the ROM that the generator reads.
    """

    def __init__(self, rom: Optional[Bytes] = None) -> None:
        """A driver over a ROM of 2,048 or 4,096 bytes. WrongSize, OutOfMemory."""
        held = _rom(rom)
        super().__init__("dvg_open_driver", held, len(held))

    @_alone
    def tick(self, halted: bool, byte1: int) -> Entry:
        """The driver does one action: PEEK, WROTE (a byte, at a byte address), READ, SENT or IDLE.

        halted is whether the generator is halted, and byte1 byte 001 of the RAM, 0 to 255.
        """
        return self._ask(_Request.TICK, bool(halted) << 8 | _byte(byte1) << 16)

    @_alone
    def offer(self, draft: Draft) -> Entry:
        """Hands a draft to the driver: OFFERED. DraftRefused, Busy; NoDraft."""
        return self._offer(_draft(draft))

    @_alone
    def redraw(self) -> Entry:
        """Asks to have the published frame drawn again: ASKED. NothingPublished, Busy."""
        return self._ask(_Request.REDRAW)

    @_alone
    def reset(self) -> Entry:
        """A reset of the processor: CLEARED."""
        return self._ask(_Request.RESET_PROCESSOR)


class Generator(_Device):
    """A generator alone, halted, with the beam at 0, 0 and scale 0. It is handed its bytes.

    With `wraps` its stack wraps, as hardware and emulators go on: a fifth call overwrites the
    oldest return address, and a return without a call goes to the address that was returned to
    last, or saved before. At first all four are 000; a start and a reset leave them.
    """

    _wraps = False

    def __init__(self, wraps: bool = False) -> None:
        """A generator, whose stack wraps or not. OutOfMemory."""
        wraps = bool(wraps)
        super().__init__(_Request.OPEN_WRAPPING if wraps else _Request.OPEN_GENERATOR)
        self._wraps = wraps

    def _shown(self) -> str:
        return ", wraps" if self._wraps else ""

    @property
    def wraps(self) -> bool:
        """Whether its stack wraps."""
        return self._wraps

    @property
    @_alone
    def wanted(self) -> Optional[Wanted]:
        """Which byte it wants next; None where it is halted."""
        return self._wanted()

    def _wanted(self) -> Optional[Wanted]:
        number = self._turn(_Request.WANTS)
        if number & 0xFF == Kind.STILL:
            return None
        return Wanted(number >> 8 & 0xFFFF, bool(number >> 24 & 0xFFFF))

    @property
    def halted(self) -> bool:
        """The HALT flag."""
        return self.wanted is None

    @_alone
    def strobe(self) -> Entry:
        """A start strobe: a run begins at word zero. STARTED."""
        return self._ask(_Request.STROBE)

    @_alone
    def fetch(self, byte: int) -> Entry:
        """Is handed the byte that it wants, 0 to 255: LOW, FETCHED or DONE.

        Halted; RunBroke; OutOfMemory, and then the same byte is still wanted.
        """
        return self._ask(_Request.FETCH, _byte(byte) << 16)

    @_alone
    def move_by(self, byte: int) -> Optional[Move]:
        """The move that it would make if it were handed this byte, 0 to 255, by `fetch`.

        Nothing is handed to it. None where it would make none: of a low byte, a first word, another
        instruction than VCTR, SVEC and LABS, and where it is halted.
        """
        place = _byte(byte) << 16
        number = self._turn(_Request.MOVE, place)
        if number & 0xFF != Kind.MOVES:
            return None
        beam = self._turn(_Request.BEAM)
        end = self._turn(_Request.MOVE_TO, place)
        value = number >> 24
        return Move(
            beam & 0xFFFFFFFF, beam >> 32, end & 0xFFFFFFFF, end >> 32,
            value & 0xF, bool(value & 0x100), number >> 8 & 0xFFFF,
        )

    @property
    @_alone
    def beam(self) -> Beam:
        """Where its beam is, and the global scale."""
        return self._beam()

    @property
    @_alone
    def first_word(self) -> Optional[int]:
        """The first word of the instruction whose second word it wants next, if there is one."""
        number = self._turn(_Request.HOLDS)
        return number >> 8 & 0xFFFF if number >> 24 & 0x20 else None

    @property
    @_alone
    def return_addresses(self) -> "list[int]":
        """Its return addresses, at most four word addresses, the newest last, to which RTSL leads.

        After a run they stay until the next one. Where the stack wraps there are always four.
        """
        count = self._turn(_Request.HOLDS) >> 32 & 0x7
        found = [self._turn(_Request.RETURN_TO, number << 8) for number in range(count)]
        return [number >> 8 & 0xFFFF for number in reversed(found)]

    @_alone
    def save(self) -> bytes:
        """Its state as bytes, also amid a run, with what the run drew so far.

        `restore` takes them, in any process. Strokes of a finished run are no part of it.
        """
        return self._saved("dvg_save_over", 0)

    @_alone
    def restore(self, saved: Bytes) -> None:
        """Goes on as the generator whose `save` gave these bytes. BadState, OutOfMemory.

        Then it has no strokes of a finished run. The bytes may be those of either kind: its stack
        wraps where that of the saved one did.
        """
        self._restore(_GENERATOR + _WRAPPING, 0, saved)
        self._wraps = self._turn(_Request.HOLDS) >> 24 & 0x40 != 0

    @_alone
    def take_strokes(self) -> "list[Stroke]":
        """Takes away what its open run drew so far, and returns it, in the order drawn.

        The run goes on: after its DONE `strokes` has what was drawn since. So a run without an end
        takes no more memory than what it draws between two such calls. The strokes of a finished
        run go, too. Where there is none to take, nothing changes.
        """
        parts = [part for (part,) in struct.iter_unpack("<Q", self._saved("dvg_save"))][1:]
        taken = [
            Stroke(*_place(begin), *_place(end), end >> 60)
            for begin, end in zip(parts, parts[1:]) if end >> 8 & 0xFF == 3
        ]
        self._answer_of("dvg_take_strokes", None, None)
        return taken

    def copy(self) -> "Generator":
        """Another one that goes on as this one does, without strokes of a finished run.

        It is a Generator, also of a subclass. OutOfMemory.
        """
        other = Generator()
        try:
            other.restore(self.save())
        except Error:
            other.close()
            raise
        return other

    __copy__ = copy

    def __deepcopy__(self, copies: "dict[int, object]") -> "Generator":
        copies[id(self)] = other = self.copy()
        return other

    @_alone
    def hole(self) -> Entry:
        """No memory answers at the address that it wants: raises RunBroke, or Halted."""
        return self._ask(_Request.FETCH, 0x100)

    @_alone
    def fetch_from(self, ram: "Sequence[int]", rom: "Optional[Sequence[int]]" = None) -> Entry:
        """Fetches the byte that it wants from this RAM and ROM: `fetch` or `hole`. WrongSize.

        They may be any sequences of bytes. The byte that it wants is taken of them, and looked at.
        """
        rom = RETURNS if rom is None else rom
        if _length("a RAM", ram) != RAM_BYTES or _length("a ROM", rom) not in ROM_SIZES:
            raise WrongSize("a RAM has 2,048 bytes, and a ROM 2,048 or 4,096")
        wanted = self._wanted()
        if wanted is None:
            raise Halted("the generator is halted")
        place = _place_of(2 * wanted.address + wanted.high, len(rom))
        if place is None:
            return self._ask(_Request.FETCH, 0x100)
        try:
            byte = ram[place] if place < RAM_BYTES else rom[place - RAM_BYTES]
        except (LookupError, TypeError) as error:
            raise NoBytes(f"a RAM or a ROM isn't a sequence of bytes: {error!r}") from error
        return self._ask(_Request.FETCH, _byte(byte) << 16)

    @_alone
    def draw(
        self, ram: Bytes, rom: Optional[Bytes] = None, most_words: int = MOST_WORDS
    ) -> Picture:
        """Starts over this RAM and ROM, which don't change, and runs up to the HALT.

        RunBroke; Endless, where there is no end within this many words; BadCount, where they are
        less than 0; WrongSize, OutOfMemory.
        """
        memory, most = (_ram(ram), _rom(rom)), _count("most_words", most_words, 0)
        self._turn(_Request.STROBE)
        return self._run_to_halt(*memory, most)

    @_alone
    def run_to_halt(
        self, ram: Bytes, rom: Optional[Bytes] = None, most_words: int = MOST_WORDS
    ) -> Picture:
        """Goes on with the open run, over this RAM and ROM, which don't change, up to the HALT.

        The words are those that were fetched by this call. Halted, where no run is open; else as
        `draw`.
        """
        memory, most = (_ram(ram), _rom(rom)), _count("most_words", most_words, 0)
        if self._wanted() is None:
            raise Halted("the generator is halted")
        return self._run_to_halt(*memory, most)

    def _run_to_halt(self, ram: bytes, rom: bytes, most: int) -> Picture:
        answer, words = self._answer_of("dvg_wants"), 0
        answer.next = 2 * answer.address + answer.value
        while words < most:
            # A signal is handled between two of these calls.
            some = min(most - words, 1 << 20)
            left = ctypes.c_uint32(some)
            answer = self._answer_of("dvg_go_on", answer, ram, rom, len(rom), ctypes.byref(left))
            words += some - left.value
            if answer.kind != Kind.FETCHED:
                self._entry(answer.number)
                return Picture(words, self._strokes())
        raise Endless(most)

    @_alone
    def reset(self) -> Entry:
        """A reset of the generator, which ends its run: CLEARED."""
        return self._ask(_Request.RESET_GENERATOR)


class World(_Device):
    """Both ends, over a ROM of 2,048 or 4,096 bytes and a RAM of 2,048.

    Where none is named, the ROM is RETURNS and the RAM holds zeros.

    Each call of `offer`, `redraw`, `tick`, `strobe`, `fetch` and the resets is an event, as a line
    of a trace is, and returns its Entry. `events` is how many there were, with those that were
    refused: a refused draft, Busy, NothingPublished, NoStrobe and Halted.

    It isn't copied: `save` it, and `restore` another one over the same ROM.
    """

    _events = _digest = 0

    def __init__(self, rom: Optional[Bytes] = None, ram: Optional[Bytes] = None) -> None:
        """A world whose driver boots, and whose generator is halted. WrongSize, OutOfMemory."""
        held = _rom(rom)
        super().__init__("dvg_open_world", _ram(ram), held, len(held))
        self._digest = self._handle.library.dvg_digest(held, len(held))

    @property
    def events(self) -> int:
        """How many events there were."""
        return self._events

    @property
    @_alone
    def ram(self) -> bytes:
        """The 2,048 bytes of its RAM, as they are now."""
        held = ctypes.create_string_buffer(RAM_BYTES)
        self._answer_of("dvg_ram", held)
        return held.raw

    @_alone
    def save(self) -> bytes:
        """Its state as bytes, at any moment: its RAM, its driver with the frame that it writes, a
        strobe that is under way, and its generator with what an open run drew so far.

        `restore` of a world over the same ROM takes them, in any process. Its ROM, `events`, and
        the strokes of a finished run are no part of it; a digest of the ROM is.
        """
        return self._saved("dvg_save_over", self._digest)

    @_alone
    def restore(self, saved: Bytes) -> None:
        """Goes on as the world over the same ROM whose `save` gave these bytes.

        BadState; OutOfMemory. Its ROM, `strokes` and `events` stay as they are: this is no event.

        Bytes of version 1, or of a `dvg_save_over` that named no ROM, don't tell another ROM: over
        it a run may draw something else, raise RunBroke, or never end. A strobe that was sent may
        not have arrived before the save: where the world is `halted`, let it arrive.
        """
        self._restore(_WORLD, self._digest, saved)

    @property
    @_alone
    def halted(self) -> bool:
        """The HALT flag of its generator: whether no run is open. To ask it is no event."""
        return not self._turn(_Request.STATE) >> 60 & 1

    @property
    @_alone
    def beam(self) -> Beam:
        """Where its generator's beam is, and the global scale."""
        return self._beam()

    def _shown(self) -> str:
        return f", {self.events} events"

    def _repr_svg_(self) -> str:
        return svg(self.strokes)

    def run(self, events: "Iterable[Union[Event, Draft]]") -> "list[Entry]":
        """Lets many events happen, and returns their entries, in order: a million in a second.

        A Draft is offered. What is refused is an entry here, and isn't raised: its kind is REFUSED,
        BUSY, NOTHING_PUBLISHED, NO_STROBE or STILL. Where memory is refused, NO_MEMORY is the last
        entry: that fetch is no event, and what comes after it doesn't happen. NoEvent.
        """
        numbers, are_events = _requests_of(events)
        return self._run(numbers, are_events)

    @_alone
    def _run(self, numbers: "array[int]", are_events: bytearray) -> "list[Entry]":
        asked = self._turns_to_the_end(numbers)
        answers = itertools.compress(numbers[:asked], are_events)
        entries = list(map(_entry_of, answers))
        refused = bool(entries) and entries[-1].kind is Kind.NO_MEMORY
        self._events += len(entries) - refused
        return entries

    def _event(self, request: _Request) -> Entry:
        """An event, which counts, of a world that is open."""
        self._own_device()
        self._events += 1
        try:
            return self._ask(request)
        except OutOfMemory:
            self._events -= 1
            raise

    @_alone
    def offer(self, draft: Draft) -> Entry:
        """Hands a draft to the driver: OFFERED. DraftRefused, Busy; NoDraft, which is no event."""
        return self._offered(_draft(draft))

    def _offered(self, draft: Draft) -> Entry:
        self._own_device()
        self._events += 1
        return self._offer(draft)

    @_alone
    def redraw(self) -> Entry:
        """Asks to have the published frame drawn again: ASKED. NothingPublished, Busy."""
        return self._event(_Request.REDRAW)

    @_alone
    def tick(self) -> Entry:
        """The driver does one action: PEEK, WROTE, READ, SENT or IDLE."""
        return self._event(_Request.TICK)

    @_alone
    def strobe(self) -> Entry:
        """A start strobe arrives: STARTED. NoStrobe, where the driver has sent none."""
        return self._event(_Request.STROBE)

    @_alone
    def fetch(self) -> Entry:
        """The generator fetches a byte: LOW, FETCHED or DONE.

        Halted; OutOfMemory, which is no event: the same byte is still wanted. RunBroke, only after
        a `restore` of bytes that no world over this ROM saved: then the run is over.
        """
        return self._event(_Request.FETCH)

    @_alone
    def reset_generator(self) -> Entry:
        """A reset of the generator alone, which ends its run: CLEARED."""
        return self._event(_Request.RESET_GENERATOR)

    @_alone
    def reset_processor(self) -> Entry:
        """A reset of the processor alone, which is one of the driver: CLEARED."""
        return self._event(_Request.RESET_PROCESSOR)

    @_alone
    def reset_all(self, ram: Optional[Bytes] = None) -> Entry:
        """A reset of the whole system, after which the RAM holds these bytes, or zeros: CLEARED."""
        held = _ram(ram)
        entry = self._call("dvg_reset_all", held)
        self._events += 1
        return entry

    @_alone
    def draw(self, draft: Draft) -> "list[Stroke]":
        """Has a draft drawn, by as many events as that takes, and returns its strokes.

        What the driver and the generator are at is brought to its end first; a frame that was
        offered before may not be drawn. DraftRefused, OutOfMemory; NoDraft. RunBroke as `fetch`.
        """
        words = sum(2 if operation.kind in (0, 2) else 1 for operation in _draft(draft))
        while True:
            entry = self._let_tick()
            if entry.kind is Kind.IDLE or entry.kind is Kind.READ and entry.value:
                try:
                    self._offered(draft)
                    break
                except Busy:
                    pass
        self._let_happen(_Request.TICK, 2 * words)
        while self._let_tick().kind is not Kind.SENT:
            pass
        self._event(_Request.STROBE)
        self._let_finish()
        return self._strokes()

    @_alone
    def run_to_halt(self, most_steps: int) -> Optional[Entry]:
        """Lets it go on until a run ends, and returns its DONE; None where none ends.

        A step is a tick, the strobe that this sent, and a fetch: each is an event. There are at
        most so many steps, and no more where the driver is idle and no run is open. A strobe that
        was sent before doesn't arrive by this. OutOfMemory; BadCount, where the steps are less than
        0. RunBroke as `fetch`.
        """
        goes_on = {int(Kind.STILL), int(Kind.LOW), int(Kind.FETCHED)}
        self._own_device()
        for _ in range(_count("most_steps", most_steps, 0)):
            ticked = self._event(_Request.TICK).kind
            if ticked is Kind.SENT:
                self._event(_Request.STROBE)
            number = self._turn(_Request.FETCH)
            kind = number & 0xFF
            self._events += kind != Kind.NO_MEMORY
            if kind not in goes_on:
                return self._entry(number)
            if kind == Kind.STILL and ticked is Kind.IDLE:
                break
        return None

    def _let_happen(self, event: _Request, count: int) -> Entry:
        """Lets an event happen this many times, or up to a DONE, and returns the last entry."""
        numbers = array("Q", [event]) * count
        asked = self._turns(numbers)
        last = numbers[asked - 1]
        self._events += asked - (last & 0xFF == Kind.NO_MEMORY)
        if last & 0xFF == Kind.STILL:
            last = next((number for number in numbers if number & 0xFF == Kind.BROKE), last)
        return self._entry(last)

    def _let_finish(self) -> None:
        """Fetches up to the HALT."""
        while self._let_happen(_Request.FETCH, 512).kind is not Kind.DONE:
            pass

    def _let_tick(self) -> Entry:
        """A tick; where it waits for the generator, that runs to its end."""
        entry = self._event(_Request.TICK)
        if entry.kind is Kind.READ and not entry.value:
            self._let_finish()
        return entry


class MomentJudge(_Device):
    """Judges whether each run in a log is consistent: the log of any system, told line by line.

    A run is consistent if there is a moment of it such that no byte which it reads changes
    between that moment and its reading. A byte changes where one is written that isn't what the log
    told of it last; of a byte that nothing was told of, each write is a change. Else
    the run is mixed.

    Each call tells one line, and returns an Entry, whose kind says how the newest run stands then:

        NO_RUN       no run is open
        ONE_MOMENT   the open run is consistent so far
        NO_MOMENT    the open run is mixed
        WHOLE        the line is the HALT of a consistent run
        TORN         the line is the HALT of a mixed run

    Its value is 1 where the line reads what was not written: another byte than the log told last of
    it, of the RAM, of the ROM, or of the low byte that was told of this very word. Then something
    unlogged wrote that byte. Else it is 0. What it says is proved, as the judge of the library
    is.

    It isn't saved. A run that was open before it was made isn't judged: NO_RUN. After a `restore`
    tell a new one the log from its beginning, or begin with the next run.
    """

    def __init__(self) -> None:
        """A judge that was told nothing. OutOfMemory."""
        super().__init__(_Request.OPEN_JUDGE)

    def tell(self, entry: Entry) -> Entry:
        """A line that is what came of an event of a World, a Driver or a Generator.

        Of a reset call the reset instead: a CLEARED, which doesn't say what was reset, is a
        NoEvent, as is what comes of no event.
        """
        if not isinstance(entry, Entry) or not isinstance(entry.kind, Kind):
            raise NoEvent(f"{entry!r} is no Entry")
        told = self._tell(entry.kind, _of_16_bits(entry.address), _of_16_bits(entry.value))
        if told.kind is Kind.UNKNOWN:
            raise NoEvent(f"{entry.kind.text!r} is no line of a log")
        return told

    def started(self) -> Entry:
        """A strobe began a run."""
        return self._tell(Kind.STARTED)

    def wrote(self, address: int, byte: int) -> Entry:
        """A byte was written, at a byte address; from 800 (hexadecimal) on it changes nothing."""
        return self._tell(Kind.WROTE, _of_16_bits(address), _byte(byte))

    def low(self, address: int, byte: int) -> Entry:
        """The low byte of the word at a word address was fetched; its high byte comes later."""
        return self._tell(Kind.LOW, _of_16_bits(address), _byte(byte))

    def fetched(self, address: int, word: int) -> Entry:
        """The word at a word address was fetched, or its rest after `low`. The run goes on."""
        return self._tell(Kind.FETCHED, _of_16_bits(address), _of_16_bits(word))

    def done(self, address: int, word: int) -> Entry:
        """The same, and the word is the HALT that ended the run: WHOLE or TORN."""
        return self._tell(Kind.DONE, _of_16_bits(address), _of_16_bits(word))

    @_alone
    def reset_generator(self) -> Entry:
        """The generator was reset, or its run ended by a fault: without a picture."""
        return self._ask(_Request.RESET_GENERATOR)

    @_alone
    def reset_processor(self) -> Entry:
        """The processor was reset, which says nothing of memory or of a run."""
        return self._ask(_Request.RESET_PROCESSOR)

    @_alone
    def reset_all(self) -> Entry:
        """The whole system was reset. The run is over, and what was told of memory is void."""
        return self._ask(_Request.RESET_ALL)

    @_alone
    def _tell(self, kind: Kind, address: int = 0, value: int = 0) -> Entry:
        return self._ask(_Request.TELL, int(kind) << 8 | address << 16 | value << 32)


def _each(what: str, refusal: "type[Error]", items: "Iterable[_Item]") -> "Iterator[_Item]":
    """These items, where they are any; else this refusal says what they must be."""
    try:
        return iter(items)
    except TypeError:
        raise refusal(f"{what}, not {type(items).__name__}") from None


def _requests_of(events: "Iterable[Union[Event, Draft]]") -> "tuple[array[int], bytearray]":
    """The requests that events are, and of each whether it is an event."""
    requests, are_events = array("Q"), bytearray()
    for event in _each("events are Events and Drafts", NoEvent, events):
        if isinstance(event, Event):
            requests.append(event)
        elif isinstance(event, Draft):
            requests.extend(event.requests())
            are_events.extend(bytes(len(event) + 1))
        else:
            raise NoEvent(f"{event!r} is no Event and no Draft")
        are_events.append(1)
    return requests, are_events


# --- Dumps ---


def picture(dump: Bytes, most_words: int = MOST_WORDS) -> Picture:
    """What a dump of the vector memory draws, as `dvg picture` says it.

    A dump is the 2,048 bytes of a RAM and then the 2,048 or 4,096 bytes of a ROM: 4,096 or 6,144.
    RunBroke; Endless; BadCount; WrongSize; OutOfMemory.
    """
    held = _bytes("a dump", dump)
    if len(held) not in (4096, 6144):
        raise WrongSize(f"a dump has 4096 or 6144 bytes, not {len(held)}")
    with Generator() as generator:
        return generator.draw(held[:RAM_BYTES], held[RAM_BYTES:], most_words)


# --- Logs ---


def _half(word_address: int) -> Optional[int]:
    """The half in which a word lies, 0 or 1; None of words 000 and 200, and beyond the RAM."""
    if 0x001 <= word_address <= 0x1FF:
        return 0
    return 1 if 0x201 <= word_address <= 0x3FF else None


class Torn(NamedTuple):
    """A byte that was written in the half being drawn: its line, from 1, byte address and byte."""

    line: int
    address: int
    byte: int

    def __str__(self) -> str:
        return f"torn at line {self.line}: wrote {self.address:03X} {self.byte:02X}"


class Verdict(NamedTuple):
    """What is said of a log: its first torn line, or None, and what it tells up to there.

    runs is how many began, drew how many of them drew a half, halted how many lines `halted` there
    were, and writes how many bytes were written. A log in which no run drew a half shows nothing,
    as no byte of it could tear a picture. As text it is what `dvg torn` writes.
    """

    torn: Optional[Torn]
    runs: int
    drew: int
    halted: int
    writes: int

    def __str__(self) -> str:
        untorn = "not torn" if self.drew else "no run drew a half"
        found = f"{self.torn}\nso far" if self.torn else untorn
        runs = f"{self.runs} runs, {self.drew} drew a half"
        return f"{found}: {runs}, {self.halted} halted, {self.writes} writes"


class Judge:
    """Judges a log whose lines come one at a time, of a driver and a generator of any kind.

    A run draws a half where the first word that it fetched is the one at 000, a jump to a word of
    that half: from then on, until it ends. `runs`, `halts` and `writes` count, and `drew` counts
    the runs that drew a half. This is the rule of `dvg torn`, written once more in Python: it is
    tested against that.
    """

    runs = drew = halts = writes = 0
    _begun = False
    _half: Optional[int] = None

    def started(self) -> None:
        """A strobe began a run."""
        self.runs += 1
        self._begun, self._half = True, None

    def fetched(self, address: int, word: int) -> None:
        """A word was fetched, at a word address, 000 to FFF, and the run goes on."""
        address, word = _of_16_bits(address), _of_16_bits(word)
        if self._begun:
            self._begun = False
            jumps = address == 0 and word >> 12 == 0xE
            self._half = _half(word & 0xFFF) if jumps else None
            self.drew += self._half is not None

    def halted(self) -> None:
        """The run ended: by a HALT, or it broke."""
        self.halts += 1
        self.reset()

    def reset(self) -> None:
        """The run ended by a reset of the generator."""
        self._begun, self._half = False, None

    def __repr__(self) -> str:
        return (f"<Judge, {self.runs} runs, {self.drew} drew a half, {self.halts} halted, "
                f"{self.writes} writes>")

    def wrote(self, address: int, byte: int = 0) -> bool:
        """A byte was written, at a byte address, 000 to 7FF. Whether that tears the picture."""
        if not 0 <= _whole("an address", address) < RAM_BYTES:
            raise BadByte(f"{address:X} is no byte address of the RAM, which are 000 to 7FF")
        _byte(byte)
        self.writes += 1
        return self._half is not None and _half(address // 2) == self._half


def _hex(digits: str, count: int) -> int:
    """The number of this many hexadecimal digits."""
    if len(digits) != count or not all(digit in "0123456789abcdefABCDEF" for digit in digits):
        raise ValueError(digits)
    return int(digits, 16)


def _tell(judge: Judge, parts: "list[str]") -> Optional["tuple[int, int]"]:
    """Tells a judge the parts of a line: the address and the byte where they tear a picture."""
    what, rest = parts[0], parts[1:]
    if what in ("started", "halted", "reset") and not rest:
        getattr(judge, what)()
    elif what == "low" and len(rest) == 2:
        _hex(rest[0], 3), _hex(rest[1], 2)
    elif what == "fetched" and len(rest) == 2:
        judge.fetched(_hex(rest[0], 3), _hex(rest[1], 4))
    elif what == "wrote" and len(rest) == 2:
        address, byte = _hex(rest[0], 3), _hex(rest[1], 2)
        if judge.wrote(address, byte):
            return address, byte
    else:
        raise ValueError(what)
    return None


def judge(log: Union[str, Iterable[str]]) -> Verdict:
    """Whether a log tears a picture, as `dvg torn` says it; `dvg help torn` has the lines.

    log is the text, or its lines in order, as an open file gives them. Nothing after the first torn
    line is read. BadLog at a line that is none, none before it being torn.
    """
    judge_of = Judge()
    torn = None
    lines = log.split("\n") if isinstance(log, str) else log
    for number, line in enumerate(_each("a log is a text, or lines", NoText, lines), 1):
        if not isinstance(line, str):
            raise NoText(f"line {number} is a text, not {type(line).__name__}")
        text = line[:-1] if line.endswith("\n") else line
        try:
            held = text.encode()
            if len(held) > 64:
                raise ValueError(text)
            said = (held[:-1] if held.endswith(b"\r") else held).lower().decode()
            found = None if said == "" or said.startswith("#") else _tell(judge_of, said.split(" "))
        except ValueError as error:
            raise BadLog(number, text) from error
        if found:
            torn = Torn(number, *found)
            break
    return Verdict(torn, judge_of.runs, judge_of.drew, judge_of.halts, judge_of.writes)


# --- Pictures ---

_FIELD = 4096 * 512


def _way(begin: int, end: int) -> int:
    """Where the shorter way to an end leads, which may be beyond the edge."""
    if end - begin > _FIELD // 2:
        return end - _FIELD
    return end + _FIELD if begin - end > _FIELD // 2 else end


def _stroke(stroke: Stroke) -> Stroke:
    """The stroke, where it is one, of whole numbers."""
    if not isinstance(stroke, Stroke):
        raise NoStroke(f"{stroke!r} is no Stroke")
    return Stroke(*(_whole("a field of a stroke", field) for field in stroke))


def _shapes(stroke: Stroke, side: int) -> Iterator[str]:
    """A stroke as elements of an SVG: twice along an axis where it crosses the edge."""
    x1, y1 = _way(stroke.x0, stroke.x1), _way(stroke.y0, stroke.y1)
    percent = (stroke.z + 5) * 5
    opacity = f'opacity="{percent // 100}.{percent % 100:02d}"'
    for dx in {0: None, stroke.x1 - x1: None}:
        for dy in {0: None, stroke.y1 - y1: None}:
            begin, end = (stroke.x0 + dx, stroke.y0 + dy), (x1 + dx, y1 + dy)
            if begin == end:
                yield f'<circle cx="{begin[0]}" cy="{begin[1]}" r="{side // 1024}" {opacity}/>'
            else:
                yield (f'<line x1="{begin[0]}" y1="{begin[1]}" x2="{end[0]}" y2="{end[1]}" '
                       f"{opacity}/>")


def svg(strokes: Iterable[Stroke], units: int = 1024) -> str:
    """Strokes as an SVG of this many screen units along both axes, from 0 on, y upwards.

    Intensities 1 to 15 are opacities of 0.30 to 1.00, lines 2 pixels wide, and a stroke of length 0
    a dot. A stroke goes the shorter way; where that crosses the edge at 4,096 units, it is there
    twice. BadCount: these are no units, 1 to 4,096. NoStroke.
    """
    side = _count("units", units, 1, 4096) * 512
    head = (f'<svg xmlns="http://www.w3.org/2000/svg" width="1024" height="1024" '
            f'viewBox="-256 -256 {side} {side}">\n'
            f'<rect x="-256" y="-256" width="{side}" height="{side}"/>\n'
            f'<g transform="matrix(1 0 0 -1 0 {side - 512})" fill="#fff" stroke="#fff" '
            f'stroke-width="{side // 512}" stroke-linecap="round">\n')
    drawn = map(_stroke, _each("strokes are Strokes", NoStroke, strokes))
    shapes = (shape + "\n" for stroke in drawn for shape in _shapes(stroke, side))
    return head + "".join(shapes) + "</g>\n</svg>\n"


# --- The script ---


def _first_picture() -> Picture:
    """The first picture of README.md: one vector."""
    with World() as world:
        world.draw(Draft().labs(512, 400).vctr(9, -100, 100, 7).halt())
        return Picture(6, world.strokes)


def main(arguments: Optional["list[str]"] = None) -> int:
    """Runs the script. Status 0 is done, 1 no picture, a torn log or a fault, 70 no library."""
    parser = argparse.ArgumentParser(
        description="Draws a first picture: a world, one frame of one vector, and its strokes.",
        epilog="Without options it prints the picture as `dvg picture` does: its words, its "
        "strokes, and a line for each.",
    )
    parser.add_argument("--dump", metavar="FILE", help="draws this dump of a vector memory instead")
    parser.add_argument("--log", metavar="FILE", help="judges this log instead, as `dvg torn` does")
    parser.add_argument("--svg", action="store_true", help="writes the picture as an SVG")
    asked = parser.parse_args(arguments)
    try:
        if asked.log:
            with open(asked.log, encoding="ascii", errors="replace", newline="\n") as log:
                verdict = judge(log)
            print(verdict)
            return 0 if verdict.drew and not verdict.torn else 1
        drawn = picture(Path(asked.dump).read_bytes()) if asked.dump else _first_picture()
    except LibraryMissing as error:
        print(f"gerbilargent: {error}", file=sys.stderr)
        return 70
    except (Error, OSError) as error:
        print(f"gerbilargent: {error}", file=sys.stderr)
        return 1
    print(svg(drawn.strokes) if asked.svg else f"{drawn}\n", end="")
    return 0


if __name__ == "__main__":
    sys.exit(main())
