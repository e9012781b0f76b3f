"""A cluster whose nodes change their addresses: where a table of 64 nodes is full, the proxy begins anew with another."""

import contextlib
import socket
import threading
import time

from cases_log import Logged
from client import Closed, value_of
from cluster import keys_of_slots, slot_of
from harness import Together, case, check, check_same, check_time
from scripted import ScriptedNode, slots_reply

OK = b"+OK\r\n"
# Nodes of a cluster, how often one of them gets another address, and seconds between two times: a table that has the seed and all nodes
# has 51 places left, which lasts for more than the ten seconds between two new beginnings.
NODES, CHANGES, BETWEEN = 12, 200, 0.25
# Seconds in which each key is answered after a change.
SOON = 3
# Seconds between two tries of a client.
PATIENCE = 0.02
SLOTS = 16384


def bulk_reply(value):
    return b"$-1\r\n" if value is None else b"$%d\r\n%s\r\n" % (len(value), value)


class Address(ScriptedNode):
    """Where a node of the cluster listens, or listened: then it tells where the node is now."""

    def __init__(self, cluster, number):
        self.cluster, self.number, self.is_closed = cluster, number, False
        super().__init__(self.execute, slots=cluster.slots, refusal=self.moved)

    def moved(self, words):
        """What it says to a command that is not for it."""
        slot = slot_of(words[1])
        owner = self.cluster.owner_of(slot)
        return None if owner is self else b"-MOVED %d 127.0.0.1:%d\r\n" % (slot, owner.port)

    def execute(self, words):
        with self.cluster.lock:
            if self.is_closed:
                return None
            if words[0] == b"SET":
                self.cluster.store[words[1]] = words[2]
                return OK
            return bulk_reply(self.cluster.store.get(words[1]))

    def hang_up(self):
        """Ends its connections, and takes others."""
        for it in list(self.open):
            with contextlib.suppress(OSError):
                it.shutdown(socket.SHUT_RDWR)

    def close(self):
        with self.cluster.lock:
            self.is_closed = True
        super().close()


class Cluster:
    """Nodes with the slots divided among them, and one store."""

    def __init__(self, nodes=NODES):
        self.store, self.lock, self.count, self.left = {}, threading.Lock(), nodes, {}
        self.nodes = []
        self.nodes += [Address(self, number) for number in range(nodes)]

    def first_slot(self, number):
        return number * SLOTS // self.count

    def owner_of(self, slot):
        return next(it for it in reversed(self.nodes) if self.first_slot(it.number) <= slot)

    def slots(self):
        return slots_reply([(self.first_slot(it.number), self.first_slot(it.number + 1) - 1, it.port) for it in list(self.nodes)])

    def change(self, number, stays):
        """The node has another address. The old one `stays` until the next time, and tells of the new one, or is closed at once."""
        if number in self.left:
            self.left.pop(number).close()
        old, self.nodes[number] = self.nodes[number], Address(self, number)
        if stays:
            self.left[number] = old
        else:
            old.close()

    def close(self):
        for it in [*self.nodes, *self.left.values()]:
            it.close()


class User:
    """A client that sets a key and asks for it again and again, and connects again where its connection ended. It knows from when to
    when each command took that was answered with a value."""

    def __init__(self, proxy, key):
        self.proxy, self.key, self.answered, self.number = proxy, key, [], 0

    def work(self, is_over):
        while not is_over():
            try:
                with self.proxy.client() as client:
                    while not is_over():
                        self.ask(client)
                        time.sleep(PATIENCE)
            except (Closed, OSError):
                time.sleep(PATIENCE)

    def ask(self, client):
        """One SET, and where that is answered one GET."""
        self.number += 1
        if self.note(client, "SET", self.key, self.number) == OK:
            reply = self.note(client, "GET", self.key)
            if not reply.startswith(b"-"):
                check_same(value_of(reply), b"%d" % self.number, f"GET {self.key}")

    def note(self, client, *words):
        began = time.monotonic()
        reply = client.ask(*words)
        if not reply.startswith(b"-"):
            self.answered.append((began, time.monotonic()))
        return reply

    def waited(self, change):
        """Seconds from the change until a command had its answer that was sent later."""
        return min((end - change for begin, end in self.answered if begin >= change), default=1000)


@case(beside="tables")
def addresses_that_change_for_ever(world):
    """Nodes change their addresses two hundred times, half of them with no word of the old one: each key is answered soon after each
    change, by one process."""
    cluster, changes, is_over = Cluster(), [], threading.Event()

    def change_all():
        for count in range(CHANGES):
            time.sleep(BETWEEN)
            cluster.change(count % NODES, stays=count // NODES % 2 == 0)
            changes.append(time.monotonic())
        time.sleep(SOON)

    try:
        with Logged(world, cluster.nodes[0].port, "tables") as logged:
            users = [User(logged.proxy, key) for key in keys_of(cluster)]
            working = Together(NODES, lambda number: users[number].work(is_over.is_set))
            try:
                change_all()
            finally:
                is_over.set()
            working.join()
            waited = max(user.waited(change) for user in users for change in changes)
            check(not logged.proxy.has_ended(), f"the proxy ended: {logged.proxy.said()}")
            begun = logged.lines("table_begun")
    finally:
        cluster.close()
    check(len(begun) >= 4, f"two workers began anew {len(begun)} times: {begun}")
    check_time(waited < SOON, f"a key was answered {waited:.1f} s after a change")
    return f"{CHANGES} changes, {len(begun)} new beginnings, at most {waited:.1f} s"


def crowd(ranges):
    """CLUSTER SLOTS of 63 nodes with one slot each, which nobody ever reaches, and of these ranges behind theirs."""
    return lambda: slots_reply([(number, number, number + 1) for number in range(63)] + ranges)


def keys_of(cluster):
    """A key of each node, of none of the first slots."""
    keys = keys_of_slots(100, SLOTS - 1, 400)
    return [next(it for it in keys if cluster.owner_of(slot_of(it)) is node) for node in cluster.nodes]


@case(beside="tables")
def a_redirect_to_a_node_that_has_no_place(world):
    """A table that is full to the last place, and a MOVED to one node more: the client is let go, and answered when it comes again."""
    cluster = Cluster(2)
    first, key = cluster.nodes[0], keys_of(cluster)[1]
    first.slots = crowd([(63, SLOTS - 1, first.port)])
    try:
        with Logged(world, first.port, "full", workers=1) as logged:
            logged.wait_for("slot_map_renewed", "ranges=64 ")
            first.slots = cluster.slots
            began, user = time.monotonic(), User(logged.proxy, key)
            user.work(lambda: user.answered or time.monotonic() > began + 10)
            check(user.answered, f"the key has no answer: {logged.lines()[-5:]}")
            for event, words in [("table_full", "level=warn event=table_full worker=0 clients=1 seconds=30"), ("table_begun", "level=info event=table_begun worker=0 nodes=2 clients_cut=0")]:
                check(logged.lines(event)[0].endswith(words), f"{logged.lines(event)}")
            check_time(user.waited(began) < SOON, f"it took {user.waited(began):.1f} s")
    finally:
        cluster.close()
    return f"{user.waited(began):.1f} s"


@case(beside="tables")
def more_nodes_than_a_table_holds(world):
    """The log says so, nothing begins anew, and the keys of known nodes are served."""
    cluster = Cluster(2)
    (first, second), keys = cluster.nodes, keys_of(cluster)
    try:
        with Logged(world, first.port, "crowd", workers=1) as logged, logged.proxy.client() as client:
            check_same([client.ask("SET", it, "1") for it in keys], [OK] * 2, "SET")
            logged.wait_for("slot_map_renewed", "ranges=2 ")
            for it in cluster.nodes:
                it.slots = crowd([(63, SLOTS // 2 - 1, first.port), (SLOTS // 2, SLOTS - 1, second.port)])
            second.hang_up()
            logged.wait_for("too_many_nodes", "level=warn", f"node=127.0.0.1:{first.port} ")
            check_same([client.ask("GET", it) for it in keys], [b"$1\r\n1\r\n"] * 2, "GET")
            check_same(logged.lines("table_"), [], "what began anew")
    finally:
        cluster.close()
