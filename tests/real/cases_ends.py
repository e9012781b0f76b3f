"""A proxy that is drained: it takes no client and reads no further request, and each client is let go once it has its replies.

So a client whose connection ends may send again whatever it has no reply to: nothing of that was executed.
"""

import threading
import time

from cases_page import Page
from client import Closed, request
from cluster import is_within, slot_of
from harness import Together, case, check, check_same, check_time

# Clients that count, beside one that never waits; how often the proxy is drained, and seconds of load before each time.
COUNTING, DRAINED, LOAD = 20, 10, 0.3
# Requests that the one sends together, and that it has under way at most.
TOGETHER, UNDER_WAY = 50, 500
# Seconds between two tries to connect to a proxy that is being started.
PATIENCE = 0.005
# Seconds in which a proxy ends whose clients leave, and how long it waits for one that does not.
SOON, LINGERS = 5, 2
# Bytes of a value that no buffer of the system takes, and how often it is asked for at once.
LARGE, ASKED = 4 << 20, 4


def drain(page, query=""):
    check_same(page.get(f"/drain{query}", "POST"), (202, "draining\n"), "what is said of the drain")


def check_end(page, limit, cut=0):
    """The proxy ends by then, with status 0, and its log says how."""
    process, path = page.proxy.process, f"{page.proxy.room.folder}/{page.proxy.name}.log"
    check_time(is_within(limit, page.proxy.has_ended), f"it runs {limit} seconds after it was drained")
    check_same(process.returncode, 0, "status")
    with open(path, encoding="ascii") as said:
        lines = said.read().splitlines()[-8:]
    check(any(it.endswith(f" event=drained clients_cut={cut}") for it in lines), f"drained is not in {lines}")
    check(lines[-1].endswith(" level=info event=ended"), f"the last line: {lines[-1]}")


class Counter:
    """A client that counts by INCR, and connects again where its connection ended. What it has no reply to it sends again."""

    def __init__(self, proxy, key, together=1, under_way=1):
        self.proxy, self.key, self.together, self.most = proxy, key, together, under_way
        self.counted = self.connections = 0

    def work(self, is_over):
        while not is_over():
            try:
                client = self.proxy.client()
            except OSError:
                time.sleep(PATIENCE)
                continue
            self.connections += 1
            with client:
                self.count(client, is_over)

    def count(self, client, is_over):
        """Up to the end of the connection, or until it is over and all is answered."""
        under_way = 0
        try:
            while under_way or not is_over():
                if under_way + self.together <= self.most and not is_over():
                    client.send(request("INCR", self.key) * self.together)
                    under_way += self.together
                else:
                    self.take(client.reply())
                    under_way -= 1
        except (Closed, OSError):
            self.take_rest(client)

    def take_rest(self, client):
        """What was written before the end."""
        try:
            while True:
                self.take(client.reply())
        except (Closed, OSError):
            pass

    def take(self, reply):
        self.counted += 1
        check_same(reply, b":%d\r\n" % self.counted, f"INCR {self.key}, connection {self.connections}")


@case(limit=240)
def a_rolling_update(world):
    """Clients count all the time while the proxy is drained and started again: each INCR counts once, and none ends in a fault."""
    with Page(world, world.cluster.nodes[0].port, "rolled") as page:
        counters = [Counter(page.proxy, f"counted:{number}") for number in range(COUNTING)]
        counters.append(Counter(page.proxy, "piped", TOGETHER, UNDER_WAY))
        over, slowest = threading.Event(), 0.0
        clients = Together(len(counters), lambda number: counters[number].work(over.is_set))
        try:
            for _ in range(DRAINED):
                time.sleep(LOAD)
                began = time.monotonic()
                drain(page)
                check_end(page, SOON)
                slowest = max(slowest, time.monotonic() - began)
                page.proxy.start(again=True)
        finally:
            over.set()
        clients.join()
        with page.proxy.client() as client:
            for it in counters:
                check_same(client.value("GET", it.key), b"%d" % it.counted, it.key)
                check_time(it.connections > DRAINED // 2, f"{it.key} connected {it.connections} times")
        counted = sum(it.counted for it in counters)
    return f"drained {DRAINED} times, in {slowest:.2f} s at most; {counted} counted, {counters[-1].counted} of them piped"


@case
def replies_that_are_owed_are_written(world):
    """A client that has yet to read large replies when the proxy is drained gets all of them, and then the end."""
    value = b"v" * LARGE
    with Page(world, world.cluster.nodes[0].port, "owing") as page, page.proxy.client(receive_buffer=1 << 16) as client:
        client.value("SET", "large", value)
        client.send(request("GET", "large") * ASKED)
        first = client.reply()
        drain(page)
        check_same(page.get("/healthz"), (503, "draining\n"), "health")
        check(all(it == first for it in client.replies(ASKED - 1)), "a reply differs")
        check_same(first, b"$%d\r\n%s\r\n" % (LARGE, value), "the reply")
        check_same(client.rest(), b"", "bytes behind the replies")
        client.close()
        check_end(page, SOON)


@case
def who_does_not_leave_is_waited_for(world):
    """An idle client sees the end at once. One that does not close its side is closed after two seconds; none is accepted meanwhile."""
    with Page(world, world.cluster.nodes[0].port, "waiting") as page, page.proxy.client() as idle, page.proxy.client() as half:
        idle.value("GET", "a")
        half.send(request("SET", "b", "1")[:-3])
        began = time.monotonic()
        drain(page)
        check_same((idle.rest(), half.rest()), (b"", b""), "what they are told")
        waited = time.monotonic() - began
        check_time(waited < 1, f"the end came after {waited:.1f} s")
        half.send(b"1\r\n")
        try:
            page.proxy.client().close()
            check(False, "a client was accepted")
        except OSError:
            pass
        check_end(page, LINGERS + SOON)
        waited = time.monotonic() - began
        check_time(waited > LINGERS * 0.9, f"it ended after {waited:.1f} s")
    with world.client() as client:
        check_same(client.value("EXISTS", "b"), 0, "the key of a request that came in part")


@case
def what_is_left_is_cut(world):
    """A command whose node is silent holds the proxy for as long as was said, and is cut then."""
    with Page(world, world.cluster.nodes[0].port, "cut") as page, page.proxy.client() as client:
        client.value("SET", "b", "1")
        node = world.cluster.nodes[world.cluster.owner(slot_of(b"b"))]
        node.stop()
        try:
            client.send(request("GET", "b"))
            time.sleep(0.2)
            began = time.monotonic()
            drain(page, "?seconds=1")
            check_same(page.get("/healthz"), (503, "draining\n"), "health")
            check_end(page, 1 + SOON, cut=1)
            waited = time.monotonic() - began
        finally:
            node.go_on()
        check_time(waited > 0.9, f"it ended after {waited:.1f} s")
        check_same(client.rest(), b"", "what the client is told")
