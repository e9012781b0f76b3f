"""The proofs, and the edits that must be refused: `rt ci` over a copy of the tree without the edits, and the edits in rounds.

The rounds of a crate begin as soon as `rt ci` has proved it and all below it, beside the checks of other crates. They stand
on the libraries that `rt ci` left, so nothing is proved twice for them.
"""

import os
import re
import resource
import shutil
import subprocess
import sys
import tempfile
import threading
import time
from pathlib import Path

import checks
import meter
import rounds

# Memory that has to be free, in bytes, before a round begins beside other checks.
FREE = 5_000_000_000
# Rounds that run at once while `rt ci` still runs.
BESIDE = 2
# Programs of tests that tests/rows and tests/program run once more.
TESTS = ("layer_tests_tests",)
# What the last run of the gate took.
TOOK = Path(__file__).resolve().parent / "out/took.txt"


def processors():
    """How many checks run side by side: RT_JOBS, or as many as there are processors, four at the most."""
    given = os.environ.get("RT_JOBS", "")
    return int(given) if given.isdigit() and int(given) else min(len(os.sched_getaffinity(0)), 4)


def copy_tree(tree, to):
    """A copy of the tree without its edits, and without what was built in it."""
    away = shutil.ignore_patterns(".git", "out", "must-fail", "__pycache__")
    shutil.copytree(tree, to, symlinks=True, ignore=away, dirs_exist_ok=True)


def words_of_ci():
    """The words of an `rt ci` from nothing. A kit whose `rt ci` takes what an earlier run passed has the word `--anew` for it; others
    always begin from nothing, and answer the word with how they are used."""
    with tempfile.TemporaryDirectory(prefix="edits-") as room:
        tried = subprocess.run(["rt", "ci", "--anew"], cwd=room, stdin=subprocess.DEVNULL, capture_output=True, text=True, errors="replace", check=False)
    return ["rt", "ci"] if (tried.stdout + tried.stderr).startswith("usage:") else ["rt", "ci", "--anew"]


def free_memory():
    """The memory that is free, in bytes."""
    with open("/proc/meminfo", encoding="ascii") as lines:
        return next(1024 * int(line.split()[1]) for line in lines if line.startswith("MemAvailable"))


# What `rt ci` says of a crate, a test or a program that failed: said once more at the end, where it is found.
FAILURE = re.compile(r"NOT PROVED|FAILED|out/stdout|ended with status|had not ended|was stopped by signal|did not compile|killed")


class Gate:
    """One run: what `rt ci` said, and what came of the edits."""

    def __init__(self, tree, proved):
        self.tree, self.proved = Path(tree), Path(proved)
        self.crates, self.where = checks.crates_of(proved), checks.kit()
        self.names, self.ready, self.outcomes, self.failures = {}, [], {}, []
        self.running, self.closed, self.is_over = 0, False, False
        self.changed = threading.Condition()

    def edits_of(self, name):
        """The folder of a crate's edits."""
        return self.tree / "crates" / name / "must-fail"

    def heard(self, line):
        """Takes in a line of `rt ci`: a function's name, that a crate is proved, or what went wrong."""
        told = re.match(r"(?:fn|impl) (\w+)::(\S+): ", line)
        if told:
            self.names.setdefault(told[1], set()).add(told[2])
        if FAILURE.search(line) and line.startswith(("rt: ", "test ")):
            self.failures.append(line)
        proved = re.match(r"rt: (\w+) proved$", line)
        if proved and self.edits_of(proved[1]).is_dir():
            with self.changed:
                self.ready.append(proved[1])
                self.changed.notify_all()

    def take(self, lanes):
        """The next crate whose edits are to be tried, or None once there is none left."""
        with self.changed:
            while True:
                room = self.running < (lanes if self.is_over else BESIDE)
                if self.ready and room and (self.running == 0 or free_memory() > FREE):
                    self.running += 1
                    return self.ready.pop(0)
                if not self.ready and self.closed:
                    return None
                self.changed.wait(5)

    def work(self, lanes):
        """Tries the edits of one crate after the other."""
        while name := self.take(lanes):
            started = time.monotonic()
            try:
                outcome = rounds.try_all(self.crates[name], self.crates, self.where, self.edits_of(name), self.names.get(name, set()))
            except Exception as error:  # a crate whose edits can't be tried fails the gate, and the others go on
                outcome = rounds.Outcome([rounds.Tried("*", False, f"its edits could not be tried: {error!r}")])
            with self.changed:
                self.outcomes[name] = outcome
                self.running -= 1
                self.changed.notify_all()
            self.say(name, outcome, time.monotonic() - started)

    def say(self, name, outcome, wall):
        """Prints what came of a crate's edits."""
        lines = [f"edits: {name}/{it.edit}: {it.text}" for it in outcome.tried]
        refused = sum(it.refused for it in outcome.tried)
        lines.append(f"edits: {name}: {refused} of {len(outcome.tried)} refused in {outcome.rounds} rounds, {outcome.seconds:.0f} s of a processor, {wall:.0f} s")
        print("\n".join(lines), flush=True)

    def run_ci(self, lanes):
        """Runs `rt ci` over the copy, with nothing that an earlier run on this machine proved, and gives its status."""
        how = {"cwd": self.proved, "stdin": subprocess.DEVNULL, "stdout": subprocess.PIPE, "stderr": subprocess.STDOUT}
        with subprocess.Popen(words_of_ci(), env={**os.environ, "RT_JOBS": str(lanes)}, text=True, errors="replace", **how) as started:
            for line in started.stdout:
                print(line, end="", flush=True)
                self.heard(line.rstrip("\n"))
        return started.returncode

    def read_log(self, log):
        """Takes in what an earlier `rt ci` said."""
        for line in Path(log).read_text(encoding="utf-8", errors="replace").splitlines():
            self.heard(line)

    def run(self, lanes, log=None, only=()):
        """Proves and tries all, and gives the status of `rt ci` and how many edits there are of crates that it proved."""
        workers = [threading.Thread(target=self.work, args=(lanes,)) for _ in range(lanes)]
        if log:
            self.read_log(log)
            self.ready = [it for it in self.ready if not only or it in only]
        for it in workers:
            it.start()
        status = 0 if log else self.run_ci(lanes)
        with self.changed:
            self.closed = self.is_over = True
            self.changed.notify_all()
        for it in workers:
            it.join()
        return status

    def open_without_edits(self, log, only=()):
        """The functions that edits change and that are not proved among stubs without them, of the crates that were proved."""
        self.read_log(log)
        left = []
        for name in self.ready:
            if not only or name in only:
                args = self.crates[name], self.crates, self.where, self.edits_of(name), self.names.get(name, set())
                left += [f"edits: {name}::{it}" for it in rounds.open_without_edits(*args)]
                print(f"edits: {name}: its functions were tried without edits", flush=True)
        return left

    def count(self, only=()):
        """How many edits were refused, and how many were not or were not tried."""
        all_edits = [it for it in self.tree.glob("crates/*/must-fail/*.edit") if not only or it.parent.parent.name in only]
        refused = sum(it.refused for outcome in self.outcomes.values() for it in outcome.tried)
        return refused, len(all_edits) - refused

    def took(self, metered):
        """What each crate took of a processor, in seconds: its proof, tests and programs, and its edits."""
        tried = sorted(self.outcomes.items(), key=lambda it: -it[1].seconds)
        lines = ["proofs, tests and programs, seconds of a processor: " + ", ".join(f"{name} {seconds:.0f}" for name, seconds in metered)]
        return [*lines, "edits: " + ", ".join(f"{name} {outcome.seconds:.0f}" for name, outcome in tried)]

    def bring_programs(self):
        """Puts the programs that `rt ci` built, and the tests that are run once more, where those look for them that run them."""
        for name in self.crates:
            for program in (name, *TESTS):
                built = self.proved / "crates" / name / "out" / program
                if built.is_file():
                    to = self.tree / "crates" / name / "out"
                    to.mkdir(exist_ok=True)
                    shutil.copy2(built, to / program)


def say_took(lines):
    """Prints what the gate took, and keeps it for the end of `make test`."""
    print("\n".join(lines), flush=True)
    TOOK.parent.mkdir(exist_ok=True)
    TOOK.write_text("\n".join(lines) + "\n", encoding="utf-8")


def main(words):
    """The gate over the tree that this file stands in; with --over FOLDER LOG [CRATE..] the edits alone, over an earlier run of it, and with
    --controls FOLDER LOG [CRATE..] the edited functions as they stand."""
    tree, lanes = Path(__file__).resolve().parents[2], processors()
    if words[:1] == ["--took"]:
        print(TOOK.read_text(encoding="utf-8"), end="")
        return 0
    if words[:1] == ["--controls"]:
        gate = Gate(tree, words[1])
        left = gate.open_without_edits(words[2], words[3:])
        print("\n".join([*left, f"edits: {len(left)} functions are not proved among stubs as they stand"]))
        return 1 if left else 0
    if words[:1] == ["--over"]:
        gate = Gate(tree, words[1])
        gate.run(lanes, log=words[2], only=words[3:])
        refused, left = gate.count(words[3:])
        print(f"edits: {refused} passed, {left} failed")
        return 1 if left else 0
    if words:
        print(f"tests/edits/run does not know {words[0]}", file=sys.stderr)
        return 2
    room = Path(tempfile.mkdtemp(prefix="cluster_proxy-gate-"))
    try:
        copy_tree(tree, room)
        gate, watch = Gate(tree, room), meter.Meter(room)
        watch.start()
        status = gate.run(lanes)
        gate.bring_programs()
        refused, left = gate.count()
        used = resource.getrusage(resource.RUSAGE_CHILDREN)
        whole = f"edits: {refused} refused, {left} not; proofs, tests and edits took {(used.ru_utime + used.ru_stime) / 60:.0f} minutes of a processor"
        say_took([whole, *gate.took(watch.end())])
        print("\n".join([*gate.failures, f"{refused} passed, {left + (status != 0)} failed"]))
        return 1 if status or left else 0
    finally:
        if not os.environ.get("GATE_KEEPS"):
            shutil.rmtree(room, ignore_errors=True)
        else:
            print(f"edits: kept in {room}")


if __name__ == "__main__":
    sys.exit(main(sys.argv[1:]))
