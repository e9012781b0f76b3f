"""Each growth of a row refused in turn: the call that finds no memory says so, and made again it gives the row's answer, as do all
calls behind it."""

import re
import subprocess
import tempfile
import time
from bisect import bisect_left
from collections import Counter

from driver import answers_in, driver, text_of
from growths import Growths, compiler

# The rows of a table that are made, but for generated ones and these.
MOST_CALLS = 80
LEFT_OUT = {
    # their nodes in memory, which are the driver's, execute the commands of a run one by one
    "a_run_is_sent",
    # they count turns, and one that finds no memory and is made again is one more
    "a_client_that_is_gone_drops_what_was_not_posted",
    "a_run_that_is_too_long_is_refused_whole",
    "a_worker_is_ready_once_its_client_is_gone",
    # a call that is made again offers bytes again, which are counted
    "refused_bytes_are_offered_at_the_next_call",
    # a play that finds no memory leaves the orders behind out
    "refused_together_then_one_by_one",
    "a_key_moves_in_a_play",
    "a_connection_breaks_behind_a_command",
    "a_play_that_has_not_begun",
    "others_come_to_a_node",
    "others_follow_an_ask",
    "two_proxies_before_one_cluster",
}

# Calls of which no growth is refused: an engine or a play that can't begin is gone.
BEGINS = {f"{thing} begin" for thing in ("engine", "other", "play", "second")}

# Calls that take no memory, by their object: all others find none at least once. Some lines are of one word.
QUIET = {
    "cluster": "forget import migrate own rest",
    "command": "end finish posted slot ticket want",
    "copy": "node slot",
    "courier": "later new node posts",
    "engine": " end held jump",
    "jump": "",
    "lanes": "finish hand learn newcomer node take told",
    "link": "failed lose new patience written",
    "map": "node range slot",
    "nodes": "fail import leave listen longest migrate own served",
    "other": "held",
    "plan": "name",
    "port": "new writes written",
    "reader": "new",
    "report": "new",
    "session": "awaits finished follow new ready",
    "slot": "new node of tag",
    "state": "forget history import migrate own",
    "store": "new",
    "stream": "moves room slow",
    "table": "endpoint new",
    "value": "request show",
    "world": "answers",
}
TAKE_NONE = {f"{thing} {name}".strip() for thing, names in QUIET.items() for name in names.split(" ")}

# Seconds that a run of the driver may take, as a last resort.
LIMIT = 60

# Of a row without long lines, how long the line is that stands before it.
LONG = 4096

# What is answered for want of memory: a fault, or by the driver that the words are no part or no plan.
REFUSALS = ("NoMemory", "? NoMemory", "? NoPart", "? NotNow")

# What is answered where a call was made and its answer found no memory.
NOT_SHOWN = "? NotShown"

TICKET = re.compile(r" ?\b\d+\.\d+\.\d+\b")


class Sweep:
    """The sweeps of rows, and how many growths were refused in them."""

    def __init__(self):
        self.growths = Growths()
        self.first = first_before([])
        self.again = self.of_driver = self.unneeded = 0
        # the kinds of calls that were made, those that found no memory, and the growths of lines that make no call
        self.made, self.refused, self.of_words = set(), set(), {}

    def close(self):
        self.growths.close()

    def answers(self, calls, number):
        """The answers to these calls with this growth refused, or None where the driver does not end, or not well."""
        # a file, which is read alike each time
        with tempfile.TemporaryFile() as given:
            given.write(text_of([self.first, *calls]).encode())
            given.seek(0)
            self.growths.refuse(number)
            try:
                ran = subprocess.run(driver(), stdin=given, stdout=subprocess.PIPE, env=self.growths.variables, timeout=LIMIT, check=True)
            except subprocess.SubprocessError:
                return None
        return answers_in(ran.stdout)[1:]

    def failures(self, row):
        """A line for each growth of the row whose refusal leads to something else."""
        self.first = first_before(row.calls)
        if self.answers(row.calls, 0) != row.wanted:
            return [f"{row.name}: is answered otherwise while there is memory"]
        ends = [self.growths_of(row.calls[:count]) for count in range(len(row.calls) + 1)]
        places = Counter()
        growths = ((number, bisect_left(ends, number) - 1) for number in range(ends[0] + 1, ends[-1] + 1))
        refused = [(number, at) for number, at in growths if kind_of(row.calls[at]) not in BEGINS]
        failures = list(filter(None, (self.failure(row, number, at, places) for number, at in refused)))
        self.made.update(map(kind_of, row.calls))
        for at, count in places.items():
            kind = kind_of(row.calls[at])
            if kind not in self.refused and count > self.growths_of_words(row.calls[at]):
                self.refused.add(kind)
        return failures

    def growths_of(self, calls):
        self.answers(calls, 0)
        return self.growths.count

    def growths_of_words(self, call):
        """How many growths the driver takes for a line of the same words that names no object."""
        words = " ".join(["none", *call.split(" ")[1:]])
        if words not in self.of_words:
            self.of_words[words] = self.growths_of([words]) - self.growths_of([])
        return self.of_words[words]

    def failure(self, row, number, likely, places):
        """A line where this refusal leads to something else, most likely at the call of that place. Where the call at a place finds no
        memory, it is counted there."""
        if self.is_made_again(row, number, likely):
            places[likely] += 1
            return None
        found = self.answers(row.calls, number)
        if found == row.wanted:
            self.unneeded += 1
            return None
        if found is None or len(found) != len(row.wanted):
            return f"{row.name}: growth {number}: the driver does not end well"
        at = next(place for place, answer in enumerate(found) if answer != row.wanted[place])
        if at != likely and self.is_made_again(row, number, at):
            places[at] += 1
            return None
        odd, wanted = found[at], row.wanted[at]
        if self.is_of_driver(odd, wanted, found[at + 1 :], row.wanted[at + 1 :]):
            self.of_driver += 1
            return None
        return f"{row.name}: growth {number}, at {row.calls[at][:80]}: found {odd[:80]}, wanted {wanted[:80]}"

    def is_made_again(self, row, number, at):
        """Whether the call at this place finds no memory, and made again it and all behind it are answered as the row wants it."""
        found = self.answers(row.calls[: at + 1] + row.calls[at:], number)
        if found is None or len(found) <= at or found[at] == row.wanted[at]:
            return False
        is_refusal = found[at] in REFUSALS or found[at].startswith("back ")
        self.again += (is_again := is_refusal and found == row.wanted[:at] + [found[at]] + row.wanted[at:])
        return is_again

    def is_of_driver(self, odd, wanted, found, behind):
        """Whether the call was made, and the driver could not show its answer, or not all its tickets; or its stream in memory
        failed, since it could not keep what was written."""
        if odd in (NOT_SHOWN, "? NoMemory"):
            return found == behind
        if odd in ("PortFailed", "Failed"):
            return True
        return TICKET.sub("", wanted).strip() == TICKET.sub("", odd).strip() and found == behind


def failures_refused(tables, are_all):
    """Sweeps the rows of tables, and prints how many growths were refused. Where these are all tables, each kind of call is to
    find no memory, or is listed above."""
    if not compiler():
        print("growths refused: NOT RUN, since no C compiler is there")
        return []
    failures, made, refused = [], set(), set()
    for path, rows in tables:
        chosen = [row for row in rows if is_swept(row)]
        if not chosen:
            continue
        sweep, begun = Sweep(), time.monotonic()
        for row in chosen:
            failures += [f"{path.name}: {line}" for line in sweep.failures(row)]
        sweep.close()
        made |= sweep.made
        refused |= sweep.refused
        print(
            f"{path.name}: growths refused in {len(chosen)} rows: {sweep.again} calls made again, "
            f"{sweep.of_driver} of the driver's own, {sweep.unneeded} not needed; {time.monotonic() - begun:.1f} s"
        )
    if are_all:
        failures += [f"{kind}: never finds no memory" for kind in sorted(made - refused - TAKE_NONE - BEGINS)]
    failures += [f"{kind}: finds no memory, though it takes none" for kind in sorted(refused & TAKE_NONE)]
    print(f"{len(refused)} kinds of calls find no memory, {len(made & TAKE_NONE)} take none")
    return failures


def first_before(calls):
    """A line that makes the driver's buffer for lines large, so that no growth of it is among those of these calls."""
    return 'none "' + "x" * max([LONG, *map(len, calls)]) + '"'


def kind_of(call):
    """The object of a call and its name."""
    return " ".join(call.split(" ")[:2])


def is_swept(row):
    is_short = row.times == 1 and len(row.calls) <= MOST_CALLS and not row.note
    is_timed = row.seconds is not None or any(wanted.startswith("at most ") for wanted in row.wanted)
    return is_short and not is_timed and row.name not in LEFT_OUT
