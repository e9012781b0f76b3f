"""The test that makes the calls of rows."""

import os
import re
import subprocess
import sys
import tempfile
import time
from pathlib import Path

# $ROW_DRIVER, or the tests that the repository builds: a program that runs one of them by its name.
BUILT = Path(__file__).resolve().parents[2] / "crates/layer_tests/out/layer_tests_tests"
# What it writes behind what the test wrote.
PASSED = "\ntest result: ok\n"


def driver():
    """The words that run the test of rows."""
    program = os.environ.get("ROW_DRIVER", BUILT)
    if not os.access(program, os.X_OK):
        sys.exit(f"{program} is not there: rt ci builds it")
    return [program, "rows::of_standard_input"]


def text_of(lines):
    """These lines, each with its end."""
    return "\n".join([*lines, ""])


def answers_in(written):
    """The lines of answers in what the test's program wrote."""
    return written.decode().removesuffix(PASSED).splitlines()


def answers_to(text):
    """What the driver writes for the lines of a text, and the seconds that it took."""
    with tempfile.TemporaryFile() as given, tempfile.TemporaryFile() as found:
        given.write(text.encode())
        given.seek(0)
        start = time.monotonic()
        subprocess.run(driver(), stdin=given, stdout=found, check=True)
        seconds = time.monotonic() - start
        found.seek(0)
        return found.read(), seconds


# How often a row is made before what it took counts as a fault: a machine that had a pause of its own may be the reason.
TRIES = 5


def failures_of(rows):
    """The rows that are answered otherwise, each with a line that says how. One run makes all that have no limit of time."""
    failures = {}
    free = [row for row in rows if not is_timed(row)]
    if free:
        failures = failures_in(free)
    for row in filter(is_timed, rows):
        for _ in range(TRIES):
            found = failures_in([row])
            if not is_slow(found.get(row.name, "")):
                break
        failures.update(found)
    return failures


def is_timed(row):
    return row.seconds is not None or any(call.split(" ")[1:2] == ["time"] for call in row.calls)


def is_slow(failure):
    """Whether what went wrong is a time."""
    return ": took " in failure or bool(re.match(r".*, call \d+: \S+ time ", failure))


def failures_in(rows):
    written, seconds = answers_to("".join(text_of([*row.calls, "reset"]) * row.times for row in rows))
    wanted = "".join(text_of([*row.wanted, "ok"]) * row.times for row in rows) + PASSED
    failures = {} if written == wanted.encode() else differences(rows, answers_in(written))
    for row in rows:
        if row.seconds is not None and seconds > row.seconds:
            failures.setdefault(row.name, f"{row.name}: took {seconds:.3f} s, wanted at most {row.seconds} s")
    return failures


def differences(rows, found):
    """The rows that are answered otherwise by these lines, each with a line that says how."""
    failures = {}
    at = 0
    for row in rows:
        for _ in range(row.times):
            end = at + len(row.calls)
            failure = difference(row, found[at:end])
            if failure:
                failures.setdefault(row.name, failure)
            at = end + 1
    return failures


def difference(row, found):
    """How the answers differ from those that are wanted."""
    if found == row.wanted:
        return None
    for place, (call, wanted) in enumerate(zip(row.calls, row.wanted)):
        answer = found[place] if place < len(found) else "nothing"
        if not fits(answer, wanted):
            return f"{row.name}, call {place + 1}: {short(call)}\n  wanted: {short(wanted)}\n  found:  {short(answer)}"
    return None


def fits(answer, wanted):
    """A wanted answer may be `at most NUMBER`."""
    if wanted.startswith("at most "):
        return answer.isdigit() and int(answer) <= int(wanted.removeprefix("at most "))
    return answer == wanted


def short(text):
    return text if len(text) <= 400 else text[:400] + " .."
