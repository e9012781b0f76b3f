"""Requests without an end: what they hold is bounded, and nobody else is harmed."""

import itertools
import re
import threading
import time

from cases_log import Logged
from cluster import peak_mebibytes
from harness import Together, case, check, check_same, check_time

# Clients whose request does not end, the bytes of a word of it, how many words a client sends at a time, and how many at most.
CLIENTS, WORD, AT_ONCE, MOST_WORDS = 12, 100_000, 10, 700
# Bytes of such requests that a worker's clients may hold beside the largest, as docs/OPERATING.md says; and seconds that another
# client's PING may take, or on a slow machine what all words of one client take.
HELD, PROMPT = 512 * 2**20, 1.0


class Endless:
    """A client that sends the beginning of a request of a million words, and then one word after another."""

    def __init__(self, proxy):
        self.client, self.sent, self.is_closed = proxy.client(), 0, False
        self.address = "%s:%d" % self.client.socket.getsockname()
        self.client.send(b"*1000000\r\n")

    def send(self):
        """Some words more, unless the other side has ended the connection."""
        try:
            self.client.send(AT_ONCE * (b"$%d\r\n%s\r\n" % (WORD, WORD * b"w")))
            self.sent += AT_ONCE * WORD
        except (BrokenPipeError, ConnectionResetError):
            pass

    def look(self):
        self.client.socket.setblocking(False)
        try:
            self.is_closed = self.is_closed or self.client.socket.recv(1) == b""
        except BlockingIOError:
            pass
        except ConnectionResetError:
            self.is_closed = True
        finally:
            self.client.socket.settimeout(60)


def send_until_closed(clients):
    """Each in turn sends some words more, until one is closed."""
    for it in itertools.cycle(clients):
        check(it.sent < MOST_WORDS * WORD, f"none is closed after {MOST_WORDS} words of each")
        it.send()
        for other in clients:
            other.look()
        if any(other.is_closed for other in clients):
            break
    look_at(clients)


def look_at(clients):
    """Finds out which are closed by now."""
    time.sleep(0.5)
    for it in clients:
        it.look()


class Neighbour:
    """Another client, which sends PING again and again until the end of the `with`."""

    def __init__(self, proxy):
        self.proxy, self.taken, self.is_over = proxy, [], threading.Event()

    def __enter__(self):
        self.together = Together(1, self.ask)
        return self

    def ask(self, number):
        with self.proxy.client() as client:
            while not self.is_over.is_set():
                began = time.monotonic()
                check_same(client.ask("PING"), b"+PONG\r\n", "PING beside requests without an end")
                self.taken.append(time.monotonic() - began)
                time.sleep(0.005)

    def __exit__(self, *_):
        self.is_over.set()
        self.together.join()


@case(limit=400)
def requests_without_an_end(world):
    """Of twelve clients of one worker, with a million words of 100,000 bytes each, one is closed once the others hold 512 MiB.

    What is on its way just then may be so much that one or two follow it. The others may go on, and a neighbour is served all the time.
    """
    with Logged(world, world.cluster.nodes[0].port, "endless", workers=1) as logged, Neighbour(logged.proxy) as neighbour:
        process, clients, began = logged.proxy.process, [Endless(logged.proxy) for _ in range(CLIENTS)], time.monotonic()
        send_until_closed(clients)
        prompt = max(PROMPT, (time.monotonic() - began) / CLIENTS)
        closed, others = ({it.address: it for it in clients if it.is_closed == is_closed} for is_closed in (True, False))
        largest, peak = max(it.sent for it in clients), peak_mebibytes(process)
        beside = sum(it.sent for it in clients) - largest
        check(1 <= len(closed) <= 3, f"{len(closed)} clients are closed")
        check(HELD < beside < 1.5 * HELD, f"one is closed when {beside >> 20} MiB were sent beside the largest")
        logged.wait_for("unfinished_request", "level=warn", "client=", "bytes=")
        told = [re.search(r"client=(\S+) bytes=(\d+)", line).groups() for line in logged.lines("unfinished_request")]
        check(all(address in closed for address, _ in told), f"{told} are said to be closed, and {list(closed)} are")
        held = int(told[0][1])
        # none of the others held more
        check(0.9 * HELD / CLIENTS < held <= largest + AT_ONCE * WORD + 20, f"it is said to hold {held} bytes, and {largest} were sent at most")
        going_on = min(others.values(), key=lambda it: it.sent)
        going_on.send()
        look_at([going_on])
        check(not going_on.is_closed, "the smallest one is closed, which went on")
        for it in clients:
            it.client.close()
    note = f"{len(closed)} closed, the first with {held >> 20} MiB; {beside >> 20} sent beside the largest, {peak:.0f} resident at most; "
    note += f"{len(neighbour.taken)} PINGs, the slowest {1000 * max(neighbour.taken):.0f} ms"
    check_time(max(neighbour.taken) < prompt, note)
    return note
