"""Counts tests, each told by a sentence, for the suites in Python that import the module."""

import sys

passed = failed = 0


def expect(holds, what):
    """Counts a test."""
    global passed, failed
    if holds:
        passed += 1
    else:
        failed += 1
        print(f"FAILED: {what}")


def finish():
    """Prints the last line, and ends the program with status 1 where a test failed."""
    print(f"{passed} passed, {failed} failed")
    sys.exit(failed != 0)
