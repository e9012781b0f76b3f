"""A node that takes requests and never answers, ends that vanish, and clients that wait for a descriptor."""

import os
import resource
import socket
import struct
import threading
import time
from contextlib import ExitStack

from cases_idle import percent_of_core
from cases_scripted import Scene, moved
from client import request
from cluster import Proxy, is_within, keys_of_slots, processor_seconds, resident_mebibytes, wait_until
from harness import case, check, check_same, check_time
from scripted import ScriptedNode, bulk, slots_reply
from writers import LOST

# Clients that leave such a node, the seconds after which it is given up, and those after which a test of it hangs.
LEAVING, GIVEN_UP, HANGS = 300, 30, 100
# A large value that a node sends or takes slowly: how many bytes it has, and how many of them move in a second.
LARGE, BYTES_PER_SECOND = 14 << 20, 380_000
# Clients that leave bytes behind a command, how many bytes each, and how many mebibytes of all may be kept.
UNREAD, LEFT, MOST_KEPT = 200, 200 * 1024, 12
# Seconds in which nothing came before the system asks whether the other end is there.
IDLE = 60
# The limit of descriptors before which so many clients come.
CROWDED, CROWD = 64, 200
# Milliseconds within which 99 of 100 requests are answered meanwhile, on a slow machine so many times the median; and the share of a
# core that the proxy may take while clients wait, in percent, on a slow machine what so many commands a second take.
MOST_WAITED, MOST_TIMES, MOST_PERCENT, MOST_COMMANDS = 100, 20, 10, 20


@case(limit=2 * HANGS, beside="a_node_that_never_answers")
def a_node_that_never_answers(world):
    """Clients that are gone give their descriptors back at once; one that stays is told after thirty seconds.

    Half of those that leave reset their connections. The others only end them: they might still read, so they count as gone
    once the node was given up and their replies can't be written.
    """
    ended = threading.Event()
    node = ScriptedNode(lambda words: ended.wait(2 * HANGS) and None)
    with Scene(world, node) as proxy, proxy.client(limit=HANGS) as staying:
        began = time.monotonic()
        staying.send(request("SET", "staying", "1"))
        before = proxy.descriptors()
        with ExitStack() as leaving:
            for number in range(LEAVING):
                client = leaving.enter_context(proxy.client())
                client.send(request("SET", f"leaving {number}", "1"))
                if number % 2:
                    client.socket.setsockopt(socket.SOL_SOCKET, socket.SO_LINGER, struct.pack("ii", 1, 0))
            wait_until(lambda: len(node.words_seen()) == LEAVING + 1, "the node to get every command")
            held = [before, proxy.descriptors()]
            check(held[1] > before + LEAVING - 5, f"{before} descriptors before, {held[1]} with all clients")
        check_time(is_within(2, lambda: proxy.descriptors() <= before + LEAVING // 2 + 5), "descriptors are open two seconds after clients left")
        held.append(proxy.descriptors())
        check_same(staying.reply(), LOST, "the reply of the command that waits")
        check_time(is_within(2, lambda: proxy.descriptors() <= before + 5), "descriptors are open two seconds after the node was given up")
        held.append(proxy.descriptors())
        seconds = time.monotonic() - began
        ended.set()
    check_time(GIVEN_UP - 1 < seconds < GIVEN_UP + 5, f"the node was given up after {seconds:.1f} seconds")
    note = "%d descriptors before, %d with all clients, %d once they left, %d once the node was given up" % tuple(held)
    return f"{note}, after {seconds:.1f} s"


@case
def what_a_client_left_behind_a_command(world):
    """At a node that never answers: behind a command one client in two has another one that waits, the others one that is not whole.

    All reset their connections. Their commands wait on, and nothing else of them is held: the allocator gives back what is free.
    """
    ended = threading.Event()
    node = ScriptedNode(lambda words: ended.wait(2 * HANGS) and None)
    variables = {"MALLOC_TRIM_THRESHOLD_": "65536", "MALLOC_MMAP_THRESHOLD_": "65536"}
    with Scene(world, node, variables=variables) as proxy:
        with proxy.client() as client:
            client.send(request("SET", "first", "1"))
            wait_until(lambda: len(node.words_seen()) == 1, "the node to get a command")
        process, words = proxy.process, node.words_seen
        before = resident_mebibytes(process)
        with ExitStack() as leaving:
            for number in range(UNREAD):
                client = leaving.enter_context(proxy.client())
                behind = request("SET", f"leaving {number}", "v" * LEFT)
                client.send(request("SET", f"leaving {number}", "1") + behind[: None if number % 2 else -2])
                client.socket.setsockopt(socket.SOL_SOCKET, socket.SO_LINGER, struct.pack("ii", 1, 0))
            wait_until(lambda: len(words()) == UNREAD + 1, "the node to get every first command")
            wait_until(lambda: resident_mebibytes(process) > before + UNREAD * LEFT / 2**20 * 0.9, "the proxy to hold what is behind")
            most = resident_mebibytes(process)
        is_within(2, lambda: resident_mebibytes(process) < before + MOST_KEPT)
        after = resident_mebibytes(process)
        ended.set()
    note = f"resident {before:.0f} MiB before, {most:.0f} at most, {after:.0f} after {UNREAD} clients left"
    check_time(after < before + MOST_KEPT, note)
    return note


@case(limit=2 * HANGS, beside="a_node_that_never_lists_its_slots")
def a_node_that_never_lists_its_slots(world):
    """It sends a command on, and never answers the CLUSTER SLOTS that follows: once it is given up another node is asked."""
    ended = threading.Event()
    other = ScriptedNode(lambda words: bulk(b"other"))
    other.slots = lambda: slots_reply([(0, 16383, other.port)])
    seed = ScriptedNode(lambda words: moved(b"a", other.port))
    listings = iter([slots_reply([(0, 16383, seed.port)])])
    seed.slots = lambda: next(listings, None) or (ended.wait(2 * HANGS) and None)
    scene = Scene(world, seed, other)
    with scene as proxy, proxy.client(limit=HANGS) as client, proxy.client() as waiting:
        scene.wait_for_map()
        check_same(seed.asked_slots, 1, "requests of the seed for its slots")
        check_same(client.ask("GET", "a"), bulk(b"other"), "GET by way of MOVED")
        wait_until(lambda: seed.asked_slots == 2, "the seed to be asked for its slots again")
        began = time.monotonic()
        waiting.send(request("GET", "b"))
        check_same(client.ask("GET", "a"), bulk(b"other"), "GET of the slot that is known, beside it")
        check_same(other.asked_slots, 0, "requests of the other node for its slots, while the seed owes its own")
        client.send(request("GET", "c"))
        check_same(client.reply(), LOST, "the reply of a command behind the request for slots")
        seconds = time.monotonic() - began
        check_same(waiting.reply(), LOST, "the reply of the first command behind it")
        scene.wait_for_map(other)
        check_same(waiting.ask("GET", "b"), bulk(b"other"), "GET by the map of the other node")
        # two clients' commands, in no order between them
        check_same(sorted(words[1] for words in seed.words_seen()), [b"a", b"b", b"c"], "keys that the seed was asked for")
        ended.set()
    check_time(GIVEN_UP - 1 < seconds < GIVEN_UP + 5, f"the node was given up after {seconds:.1f} seconds")
    return f"given up after {seconds:.1f} s"


def slowly(value):
    """The bytes, by pieces of a second each."""
    for begin in range(0, len(value), BYTES_PER_SECOND):
        time.sleep(1)
        yield value[begin : begin + BYTES_PER_SECOND]


@case(limit=2 * HANGS, beside="a_value_that_comes_slowly")
def a_value_that_comes_slowly(world):
    """A node sends one value for longer than thirty seconds, and is never silent: it arrives, and so does what is behind it."""
    value = bulk(b"v" * LARGE)
    node = ScriptedNode(lambda words: slowly(value) if words[1] == b"large" else bulk(words[1]))
    with Scene(world, node) as proxy, proxy.client(limit=HANGS) as client, proxy.client(limit=HANGS) as behind:
        began = time.monotonic()
        client.send(request("GET", "large"))
        wait_until(lambda: len(node.words_seen()) == 1, "the node to get the first command")
        behind.send(request("GET", "small"))
        check_same(client.reply(), value, "the large value")
        seconds = time.monotonic() - began
        check_same(behind.reply(), bulk(b"small"), "the reply behind it")
        check_same(node.connections, 1, "connections to the node")
    check(seconds > GIVEN_UP + 4, f"the value came within {seconds:.1f} seconds")
    return f"{LARGE >> 20} MiB in {seconds:.1f} s"


@case(limit=2 * HANGS, beside="a_value_that_is_taken_slowly")
def a_value_that_is_taken_slowly(world):
    """A node takes one request for longer than thirty seconds, and never stops: it is answered, and so is what is behind it."""

    def read(connection):
        piece = connection.recv(BYTES_PER_SECOND)
        time.sleep(len(piece) / BYTES_PER_SECOND)
        return piece

    listener = socket.create_server(("127.0.0.1", 0))
    # what the system holds for the node says nothing of the node
    listener.setsockopt(socket.SOL_SOCKET, socket.SO_RCVBUF, 1 << 16)
    node = ScriptedNode(lambda words: b":%d\r\n" % len(words[-1]), listener=listener, read=read)
    with Scene(world, node) as proxy, proxy.client(limit=HANGS) as client, proxy.client(limit=HANGS) as behind:
        began = time.monotonic()
        client.send(request("APPEND", "large", b"v" * LARGE))
        time.sleep(2)
        behind.send(request("APPEND", "small", "v"))
        check_same(client.reply(), b":%d\r\n" % LARGE, "the reply to the large request")
        seconds = time.monotonic() - began
        check_same(behind.reply(), b":1\r\n", "the reply behind it")
        check_same(node.connections, 1, "connections to the node")
    check(seconds > GIVEN_UP + 4, f"the value was taken within {seconds:.1f} seconds")
    return f"{LARGE >> 20} MiB in {seconds:.1f} s"


def keepalive_timers(process):
    """Of each connection of a process that stands, the seconds until the other end is asked whether it is there, or None."""
    folder, inodes = f"/proc/{process.pid}/fd", set()
    for name in os.listdir(folder):
        inodes.add(os.readlink(f"{folder}/{name}").removeprefix("socket:[").removesuffix("]"))
    with open(f"/proc/{process.pid}/net/tcp", encoding="ascii") as lines:
        rows = [line.split() for line in lines.read().splitlines()[1:]]
    timers = [row[5].split(":") for row in rows if row[3] == "01" and row[9] in inodes]
    return [int(when, 16) / os.sysconf("SC_CLK_TCK") if kind == "02" else None for kind, when in timers]


@case
def ends_that_vanish_are_asked(world):
    """Clients and nodes: the system asks each end from which nothing came for a minute."""
    nodes = [ScriptedNode(lambda words: bulk(words[1])) for _ in range(3)]
    ranges = [(5500 * number, min(5500 * number + 5499, 16383), node.port) for number, node in enumerate(nodes)]
    for node in nodes:
        node.slots = lambda: slots_reply(ranges)
    scene = Scene(world, *nodes)
    with scene as proxy, ExitStack() as clients:
        scene.wait_for_map()
        began = time.monotonic()
        for _ in range(10):
            client = clients.enter_context(proxy.client())
            for key in keys_of_slots(0, 16383, 12):
                check_same(client.ask("GET", key), bulk(key), "GET")
        check(all(node.words_seen() for node in nodes), "a node got no command")
        # less by what it took until now
        least = lambda: IDLE - 10 - (time.monotonic() - began)
        is_asked = lambda timers: len(timers) >= 13 and all(it is not None and least() < it <= IDLE for it in timers)
        check(is_within(5, lambda: is_asked(keepalive_timers(proxy.process))), f"timers: {keepalive_timers(proxy.process)}")
        return f"{len(keepalive_timers(proxy.process))} connections"


@case
def descriptors_that_come_free(world):
    """At the limit of descriptors, clients that wait come in as soon as others leave, beside one that is never quiet."""
    node, is_over = ScriptedNode(lambda words: b"+OK\r\n"), threading.Event()

    def keep_busy(client):
        while not is_over.is_set():
            check_same(client.ask("SET", "a", "1"), b"+OK\r\n", "SET")

    with Scene(world, node) as proxy, proxy.client() as busy, ExitStack() as clients:
        check_same(busy.ask("SET", "a", "1"), b"+OK\r\n", "the first SET")
        most = proxy.descriptors() + 10
        resource.prlimit(proxy.process.pid, resource.RLIMIT_NOFILE, (most, most))
        thread = threading.Thread(target=keep_busy, args=(busy,), daemon=True)
        thread.start()
        waiting = [clients.enter_context(proxy.client()) for _ in range(30)]
        for client in waiting:
            client.send(request("PING"))
        wait_until(lambda: proxy.descriptors() == most, "the descriptors to run out")
        time.sleep(0.5)
        slowest = 0.0
        for client in waiting:
            began = time.monotonic()
            check_same(client.reply(), b"+PONG\r\n", "the reply to a client that waited")
            slowest = max(slowest, time.monotonic() - began)
            client.close()
        is_over.set()
        thread.join(5)
    check_time(slowest < 1, f"a client came in {slowest:.2f} seconds after a descriptor was free")
    return f"the slowest came in after {1000 * slowest:.0f} ms"


@case
def descriptors_kept_for_nodes(world):
    """At a limit of 64 descriptors, 200 clients: those that are served reach every node, also over new connections."""
    nodes = world.cluster.nodes
    proxy = Proxy(world.room, world.program, nodes[0].port, name="crowded", descriptors=CROWDED)
    words = [("SET", key, "1") for key in keys_of_slots(0, 16383, 12)]
    taken, served = [], 0
    with ExitStack() as leaving:
        crowd = [leaving.enter_context(proxy.client()) for _ in range(CROWD)]
        for client in crowd:
            client.send(request(*words[0]))
        first = crowd[0]
        check_same(first.reply(), b"+OK\r\n", "the first client's SET")
        used = processor_seconds(proxy.process)
        for number in range(200):
            if number % 50 == 25:
                for node in nodes[:3]:
                    node.value("CLIENT", "KILL", "TYPE", "normal")
            began = time.monotonic()
            reply = first.ask(*words[number % len(words)])
            check(reply in (b"+OK\r\n", LOST), f"a client that is served was told {reply!r}")
            taken.append(1000 * (time.monotonic() - began))
        lone = (processor_seconds(proxy.process) - used) / len(taken)
        percent = percent_of_core(proxy.process, 1)
        most = max(MOST_PERCENT, 100 * MOST_COMMANDS * lone)
        for client in crowd[1:]:
            check_same(client.reply(), b"+OK\r\n", "a client's SET")
            served = max(served, proxy.descriptors())
            client.close()
    proxy.end()
    late = sorted(taken)[len(taken) * 99 // 100]
    note = f"at most {served} of {CROWDED} descriptors; 99 of 100 requests within {late:.1f} ms; {percent:.1f} % of a core while clients wait, of {most:.0f}"
    check(served <= CROWDED - 8, note)
    check_time(late < max(MOST_WAITED, MOST_TIMES * sorted(taken)[len(taken) // 2]), note)
    check_time(percent < most, note)
    return note
