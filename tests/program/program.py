"""Runs of the program, and tables of them."""

import functools
import os
import subprocess
import time
import unittest
from dataclasses import dataclass

PROGRAM = os.environ["PROXY"]

# Seconds that one run may take, as a last resort.
LIMIT = 60

# The seconds that each sweep took, by what it is.
SWEEPS = {}

# Bytes that `one`, `simulate` and `local` read at the most.
INPUT_LIMIT = 1_048_576


def run(words, given=b"", variables=None):
    """Status, standard output and standard error of a run with these words, these bytes on standard input and these variables."""
    environment = {**os.environ, **(variables or {})}
    ran = subprocess.run([PROGRAM, *words], input=given, capture_output=True, timeout=LIMIT, check=False, env=environment)
    return ran.returncode, ran.stdout, ran.stderr


class Slow(AssertionError):
    """What took longer than it may. A machine that had a pause of its own may be the reason, so a test that is `timed` is run again."""


def check_time(is_so, otherwise):
    if not is_so:
        raise Slow(otherwise)


def timed(test):
    """Runs a test again, twice at most, where it was slow."""

    @functools.wraps(test)
    def run_again(self):
        for _ in range(2):
            try:
                return test(self)
            except Slow as fault:
                print(f"{test.__name__}: slow: {fault}")
                self.doCleanups()
                self.setUp()
        return test(self)

    return run_again


def swept(what, began):
    """Prints what was swept since a moment, and how long it took."""
    SWEEPS[what] = time.monotonic() - began
    print(f"{what}; {SWEEPS[what]:.1f} s")


class Runs(unittest.TestCase):
    """Tests that compare runs."""

    def check(self, words, given, status, written):
        """A run with these words on these bytes ends with this status and has written exactly this."""
        found = run(words, given)
        self.assertTrue(found[:2] == (status, written), f"{words} on {given[:200]!r}: {found[0]}, {found[1][:200]!r}")

    def check_failed_read(self, words, written):
        """A run that can't read its standard input, since that is a folder, writes this and ends with status 1."""
        folder = os.open("/", os.O_RDONLY)
        try:
            ran = subprocess.run([PROGRAM, *words], stdin=folder, capture_output=True, timeout=LIMIT, check=False)
        finally:
            os.close(folder)
        self.assertEqual((ran.returncode, ran.stdout), (1, written))

    def check_failed_write(self, words, given):
        """A run that can't write, since there is no room, ends with status 1."""
        with open("/dev/full", "wb", buffering=0) as full:
            ran = subprocess.run([PROGRAM, *words], input=given, stdout=full, timeout=LIMIT, check=False)
        self.assertEqual(ran.returncode, 1)


@dataclass
class Row:
    """An input, and what is wanted for it."""

    name: str
    status: int
    given: bytes
    wanted: bytes


def unescaped(line):
    """The bytes that a line of a table means: backslash escapes as in Python."""
    return line.encode("latin-1").decode("unicode_escape").encode("latin-1")


def rows_of(name):
    """The rows of a table in this folder.

    A row begins with `#`, its name and its status; lines of output begin with `>`, all others are input. A line of input
    that ends with `\\c` has no line feed behind it.
    """
    rows = []
    with open(name, encoding="ascii") as lines:
        for line in lines.read().splitlines():
            if line.startswith("# "):
                _, name, status = line.split()
                rows.append(Row(name, int(status), b"", b""))
            elif line.startswith("> "):
                rows[-1].wanted += unescaped(line[2:]) + b"\n"
            elif line.endswith("\\c"):
                rows[-1].given += unescaped(line[:-2])
            else:
                rows[-1].given += unescaped(line) + b"\n"
    return rows


def pairs_of(name):
    """Pairs of lines of a file in this folder, the second behind `> `: what is given and what is wanted."""
    with open(name, encoding="ascii") as file:
        lines = file.read().splitlines()
    return [(unescaped(given), unescaped(wanted.removeprefix("> "))) for given, wanted in zip(lines[::2], lines[1::2])]
