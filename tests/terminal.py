"""Tests what `dvg torn` tells of a long run: on a terminal alone, and cleared before anything else
is written. The terminals are pseudo-terminals."""

import os
import pty
import re
import subprocess
import time

# A bit more than a megabyte of lines that are passed over.
PART = (b"#" * 59 + b"\n") * 18_000
TORN = b"started\nfetched 000 E001\nwrote 002 64\n"
TOLD = re.compile(rb"\rdvg: ([0-9]+) MB read")
CLEARED = b"\r" + b" " * 27 + b"\r"

# For so long it is waited for something to be told, and so many parts tell nothing.
SECONDS = 60
PARTS = 5


def received(terminal):
    """What a terminal has received by now. It waits for nothing."""
    os.set_blocking(terminal, False)
    shown = b""
    try:
        while part := os.read(terminal, 65536):
            shown += part
    except OSError:
        pass
    return shown


def run_slowly(command, streams, tells, last):
    """Runs a command, of which these streams are a terminal. Its input comes in parts, one each
    half a second, until something is told, or PARTS of them, and then the last bytes. What the
    terminal showed, what came from the other streams, the status, and how many parts there were."""
    ours, theirs = pty.openpty()
    outputs = {name: theirs if name in streams else subprocess.PIPE
               for name in ("stdout", "stderr")}
    shown, parts, begun = b"", 0, time.monotonic()
    with subprocess.Popen(command, stdin=subprocess.PIPE, **outputs) as process:
        while not TOLD.search(shown) if tells else parts < PARTS:
            process.stdin.write(PART)
            process.stdin.flush()
            parts += 1
            time.sleep(0.5)
            shown += received(ours)
            if time.monotonic() - begun > SECONDS:
                break
        written = b"".join(part or b"" for part in process.communicate(last))
    shown += received(ours)
    os.close(theirs)
    os.close(ours)
    return shown, written, process.returncode, parts


def expect(suite, what, command, streams, tells, last=b""):
    """Comments change nothing but the numbers of lines, so that of a run of the last bytes alone is
    written. Before it stands what is told, if anything is, and that is cleared."""
    shown, written, status, parts = run_slowly(command, streams, tells, last)
    alone = subprocess.run(command, input=last, stdout=subprocess.PIPE)
    lines = alone.stdout.replace(b"at line 3:", b"at line %d:" % (18_000 * parts + 3))
    most = len(PART) * parts // 10**6
    told = TOLD.sub(lambda found: b"N" if 2 <= int(found[1]) <= most else found[0], shown)
    on_terminal = lines.replace(b"\n", b"\r\n") if "stdout" in streams else b""
    wanted = (b"N" + CLEARED) * tells + on_terminal
    suite.expect(what, [("the terminal", repr(wanted), repr(told)),
                        ("other streams", b"" if "stdout" in streams else lines, written),
                        ("status", str(alone.returncode), str(status))])


def expect_told(suite, program):
    torn = [program, "torn"]
    both = ("stdout", "stderr")
    expect(suite, "a long run tells how far it is", torn, ("stderr",), True)
    expect(suite, "it is cleared before a verdict", torn, both, True, TORN)
    expect(suite, "it isn't told where standard error is no terminal", torn, ("stdout",), False)
    expect(suite, "it isn't told between lines", [*torn, "--moments", "--all"], both, False, TORN)
