"""Clients that write again and again while slots move or nodes fail, and what each of their requests ended with."""

import time

from client import request, value_of
from harness import Failed, Together, check, check_same, check_time

LOST = b"-ERR proxy: connection lost, outcome unknown\r\n"
GAVE_UP = b"-ERR proxy: gave up, not executed\r\n"

# Seconds that a client pauses between two turns: threads of Python that never do so mostly wait for each other.
PAUSE = 0.002

# Seconds for which a group of keys may be at two nodes and none of its commands be given up: they wait two seconds.
LONGEST_SPLIT = 1.0


class Writers:
    """So many clients, each of which calls `turn(client, number, count)` again and again until the end of the `with`.

    They are clients of the proxy, or what `connect(number)` gives.
    """

    def __init__(self, proxy, count, turn, pause=PAUSE, connect=None):
        self.turn, self.pause, self.stopped, self.clients = turn, pause, False, []
        self.connect = connect or (lambda number: proxy.client())
        self.turns = [0] * count
        self.together = Together(count, self.work)

    def __enter__(self):
        return self

    def __exit__(self, kind, *_):
        self.stopped = True
        if kind is None:
            self.together.join()
        else:
            self.leave()

    def leave(self):
        """Ends all connections, so that nothing is written any more while the next case runs."""
        for client in self.clients:
            client.interrupt()
        for thread in self.together.threads:
            thread.join(5)

    def stop(self):
        """Ends them before the end of the `with`."""
        self.__exit__(None)

    def work(self, number):
        with self.connect(number) as client:
            self.clients.append(client)
            while not self.stopped:
                self.turn(client, number, self.turns[number])
                self.turns[number] += 1
                time.sleep(self.pause)

    def check_faults(self):
        if self.together.faults:
            raise self.together.faults[0]

    def wait_for_turns(self, count=2, limit=100.0):
        """Waits until each client has ended so many more turns, so that no request of before is under way."""
        wanted = [turn + count for turn in self.turns]
        end = time.monotonic() + limit
        while any(turn < want for turn, want in zip(self.turns, wanted)):
            self.check_faults()
            check(time.monotonic() < end, f"a client made no {count} turns in {limit} seconds: {self.turns}")
            time.sleep(0.002)


class Ends:
    """How many requests ended in which way, and the answers that checks want."""

    def __init__(self, count):
        self.answered = [[] for _ in range(count)]
        self.lost, self.gave_up = [], []

    def add(self, number, what, reply):
        if reply[:1] == b":":
            self.answered[number].append((what, int(reply[1:])))
        elif reply[:1] != b"-":
            self.answered[number].append((what, value_of(reply)))
        elif reply == LOST:
            self.lost.append(what)
        elif reply == GAVE_UP:
            self.gave_up.append(what)
        else:
            raise Failed(f"{what!r} was answered {reply!r}")

    def check_all_answered(self):
        check_same(self.lost[:3], [], "requests that ended lost, though no connection did")
        check_same(self.gave_up[:3], [], f"the first of {len(self.gave_up)} requests that were given up")

    def check_groups_answered(self, slowest_move):
        """The same of groups, in moves of which the slowest took so many seconds."""
        if self.gave_up:
            check_time(slowest_move < LONGEST_SPLIT, f"{len(self.gave_up)} groups were given up, in moves of up to {slowest_move:.1f} seconds")
        self.check_all_answered()

    def counts(self):
        return f"{sum(map(len, self.answered))} answered, {len(self.lost)} lost, {len(self.gave_up)} given up"


def appends(logs, ends, at_once):
    """A turn that appends a token to each of some logs, so many times in one pipeline."""

    def turn(client, number, count):
        tokens = [(log, b"%d.%d.%d;" % (number, count, place)) for place in range(at_once) for log in logs]
        client.send(b"".join(request("APPEND", log, token) for log, token in tokens))
        for what, reply in zip(tokens, client.lines(len(tokens))):
            ends.add(number, what, reply)

    return turn


def log_of(ends, log):
    """What `check_log` wants to know of one log."""
    answered = [[(token, length) for (at, token), length in mine if at == log] for mine in ends.answered]
    return answered, [token for at, token in ends.lost if at == log]
