"""Clients that are owed much and read nothing, and clients that announce much and send nothing.

What the proxy holds for them, and what another client waits beside them.
"""

import time
from contextlib import ExitStack

from cases_busy import LONE_SECONDS, percentile, seconds_of_asking
from cases_idle import percent_of_commands
from client import request
from cluster import Proxy, is_within, keys_of_slots, resident_mebibytes
from harness import case, check_same, check_time

# The bytes of a value, how many keys hold one, how often each client asks for one of them: 100 MiB in all.
VALUE, KEYS, TIMES = 65536, 64, 1600
# Mebibytes that may be held for one such client and for fifty, and once they left.
MOST_FOR_ONE, MOST_FOR_FIFTY, MOST_KEPT = 16, 128, 32
# Milliseconds that 99 of 100 requests of another client may take at most; on a busy machine so many times what they take just then
# directly, or over a proxy with no such clients, where that is more.
MOST_WAITED, MOST_TIMES = 20, 3
# The seconds after which others are timed, or on a slow machine what so many lone commands take.
PAUSE, COMMANDS = 0.5, 5000


class Beside:
    """A proxy of its own with some clients, each of which has sent these bytes. A moment later another's requests are timed."""

    def __init__(self, world, count, data):
        self.proxy = Proxy(world.room, world.program, world.cluster.nodes[0].port, name="unread")
        lone = percent_of_commands(self.proxy, 1) / 100
        pause = PAUSE if lone < LONE_SECONDS else COMMANDS * lone
        before = resident_mebibytes(self.proxy.process)
        self.held, taken = before, ([], [], [])
        with ExitStack() as stack:
            for _ in range(count):
                stack.enter_context(self.proxy.client(receive_buffer=4096)).send(data)
            asking = [stack.enter_context(it.client()) for it in (self.proxy, world.proxy, world.plain)]
            time.sleep(pause)
            for _ in range(8):
                for all_taken, now in zip(taken, seconds_of_asking(asking, ("GET", "other"), 0.25)):
                    all_taken.extend(now)
                self.held = max(self.held, resident_mebibytes(self.proxy.process))
        is_within(2, lambda: resident_mebibytes(self.proxy.process) < MOST_KEPT)
        self.kept = resident_mebibytes(self.proxy.process)
        self.late, self.usual, self.direct = map(percentile, taken)
        self.note = f"resident {before:.0f} MiB before, {self.held:.0f} at most, {self.kept:.0f} after; "
        self.note += f"99 of 100 requests within {self.late:.1f} ms, over another proxy {self.usual:.1f}, directly {self.direct:.1f}"
        self.proxy.end()

    def check(self, most_held):
        check_time(self.held < most_held, self.note)
        check_time(self.kept < MOST_KEPT, self.note)
        check_time(self.late < max(MOST_WAITED, MOST_TIMES * max(self.usual, self.direct)), self.note)
        return self.note


def put_values(world):
    """The keys of many slots that hold a large value."""
    keys = keys_of_slots(0, 16383, KEYS)
    with world.client() as client:
        for key in keys:
            check_same(client.ask("SET", key, "v" * VALUE), b"+OK\r\n", "SET")
    return keys


def never_read(world, count, most_held):
    keys = put_values(world)
    asked = b"".join(request("GET", keys[turn % KEYS]) for turn in range(TIMES))
    return Beside(world, count, asked).check(most_held)


@case
def a_client_that_never_reads(world):
    """It asks for 100 MiB at once."""
    return never_read(world, 1, MOST_FOR_ONE)


@case(limit=240)
def fifty_clients_that_never_read(world):
    """Each asks for 100 MiB at once."""
    return never_read(world, 50, MOST_FOR_FIFTY)


@case
def clients_that_announce_much(world):
    """Fifty begin a request with a word of 512 MiB, or with a million words, and send no more."""
    big = b"*3\r\n$3\r\nSET\r\n$1\r\na\r\n$536870912\r\n"
    return Beside(world, 50, big).check(MOST_KEPT) + "; " + Beside(world, 50, b"*1048576\r\n").check(MOST_KEPT)
