"""Runs the cases. Words: the folder of the run, the program, and the cases to run (none: all)."""

import contextlib
import os
import signal
import sys
import time
import traceback
from concurrent.futures import ThreadPoolExecutor

# in the order in which they run
import cases_commands
import cases_relay_table
import cases_texts
import cases_pipelines
import cases_crowd
import cases_clients
import cases_turns
import cases_runs
import cases_moves
import cases_faults
import cases_orders
import cases_others
import cases_starts
import cases_ends
import cases_seeds
import cases_tables
import cases_scripted
import cases_blocks
import cases_idle
import cases_program
import cases_log
import cases_page
import cases_workers
import cases_password
import cases_nodes
import cases_failover
import cases_busy
import cases_silent
import cases_unread
import cases_endless
from cluster import Cluster, Proxy, Room, Server, end
from harness import CASES, Failed, Slow

# How often a case is run before what it took counts as a fault.
TRIES = 8
# How much of what was wrong with a case is said once more at the end.
MOST_SAID = 200


class World:
    """What a case has at hand: a cluster, the proxy before it, and one plain server to compare with."""

    def __init__(self, room, program):
        self.room, self.program = room, program
        self.plain = Server(room, "plain")
        self.cluster = Cluster(room)
        self.proxy = Proxy(room, program, self.cluster.nodes[0].port)

    def client(self, **options):
        return self.proxy.client(**options)

    def tidy(self):
        """No keys anywhere, and a proxy that runs."""
        if self.proxy.has_ended():
            self.proxy.start()
        self.cluster.tidy()
        self.plain.value("FLUSHALL")


def stop(limit):
    raise Failed(f"not done after {limit} seconds")


@contextlib.contextmanager
def limited(case):
    """Ends a case after its limit. What is run beside the others has only the limits of its sockets."""
    if case.beside:
        yield
        return
    signal.signal(signal.SIGALRM, lambda *_: stop(case.limit))
    signal.alarm(case.limit)
    try:
        yield
    finally:
        signal.alarm(0)


def place_of(fault):
    """The last line of a case's file that the fault went through."""
    frames = traceback.extract_tb(fault.__traceback__)
    frame = next((it for it in reversed(frames) if "cases_" in it.filename), frames[-1])
    return f"{os.path.basename(frame.filename)} line {frame.lineno}"


def run_case(world, case):
    """Runs a case, again where it was slow, and gives what was wrong, or None."""
    word = "slow"
    for left in reversed(range(TRIES)):
        if word == "slow":
            word, note = try_case(world, case, "slow" if left else "FAIL")
    if word == "FAIL" and not case.beside:
        # what it left under way is not the next one's
        end(world.proxy.process)
    return None if word == "ok" else note


def try_case(world, case, if_slow):
    """Runs a case once, prints its line, and gives the line's word and its end."""
    began = time.monotonic()
    try:
        with limited(case):
            if not case.beside:
                world.tidy()
            note = case(world)
            if not case.beside and world.proxy.has_ended():
                raise Failed(f"the proxy ended: {world.proxy.said()}")
        word, note = "ok", f"  ({note})" if note else ""
    except Slow as fault:
        word, note = if_slow, f": {fault}"
    except Failed as fault:
        word, note = "FAIL", f": {fault}"
    except Exception as fault:
        word, note = "FAIL", f": {type(fault).__name__} {fault}, at {place_of(fault)}; proxy {world.proxy.said()}"
    print(f"{word:4} {case.__name__} {time.monotonic() - began:.1f} s{note}", flush=True)
    return word, note


def run_cases(world, cases):
    """Runs one case after the other, and gives each with what was wrong."""
    return [(it, run_case(world, it)) for it in cases]


def lanes_of(cases):
    """The cases that run beside the others: those of one name in one list."""
    lanes = {}
    for it in filter(lambda it: it.beside, cases):
        lanes.setdefault(it.beside, []).append(it)
    return lanes.values()


def main(folder, program, *names):
    for number in (signal.SIGTERM, signal.SIGINT):
        signal.signal(number, lambda number, _: sys.exit(128 + number))
    cases = [it for it in CASES if not names or any(name in f"{it.__module__} {it.__name__}" for name in names)]
    room = Room(folder)
    try:
        world = World(room, program)
        with ThreadPoolExecutor() as threads:
            later = [threads.submit(run_cases, world, lane) for lane in lanes_of(cases)]
            notes = run_cases(world, [it for it in cases if not it.beside])
            notes += [it for ran in later for it in ran.result()]
        failed = [(it.__name__, note) for it, note in notes if note]
    except Exception as fault:
        failed = [(it.__name__, f": not run, for the servers: {type(fault).__name__} {fault}") for it in cases]
    finally:
        room.end_all()
    # once more, where a reader of the end finds them
    for name, note in failed:
        print(f"FAIL {name}{note[:MOST_SAID]}")
    print(f"{len(cases) - len(failed)} passed, {len(failed)} failed")
    return 1 if failed or not cases else 0


if __name__ == "__main__":
    sys.exit(main(*sys.argv[1:]))
