"""The program's own three nodes: what they answer a plain connection, and the proxy before them."""

import random
import time

from client import Client, request
from cases_pipelines import some_keys, some_requests, wanted_of
from cluster import Cluster, Nodes, Proxy, resident_mebibytes, slot_of
from harness import case, check, check_each_same, check_same, check_time

# Commands that the nodes execute, a thousand in a pipeline, in so many seconds; on a slow machine so many at least. And the mebibytes
# by which they and the proxy may grow meanwhile.
COMMANDS, FEWEST, SECONDS, MOST_GROWN = 200_000, 40_000, 20, 4


class Example:
    """Three nodes of the program, and the proxy before them."""

    def __init__(self, world):
        self.nodes = Nodes(world.room, world.program)
        self.proxy = Proxy(world.room, world.program, self.nodes.ports[0], name="before_nodes")

    def __enter__(self):
        return self

    def __exit__(self, *_):
        for process in (self.proxy.process, self.nodes.process):
            process.terminate()
            process.wait(60)


@case
def plain_connections_to_nodes(world):
    """Each node redirects what it has not, and takes the keys of one slot at a time."""
    with Example(world) as example:
        ports = example.nodes.ports
        entry = b"*3\r\n:%d\r\n:%d\r\n*3\r\n$9\r\n127.0.0.1\r\n:%d\r\n$2\r\nn%d\r\n"
        ranges = [entry % (first, last, ports[k], k) for k, (first, last) in enumerate(Cluster.ranges())]
        for number, port in enumerate(ports):
            with Client(port) as node:
                check_same(node.ask("CLUSTER", "SLOTS"), b"*3\r\n" + b"".join(ranges), f"CLUSTER SLOTS at node {number}")
                for key in [b"a", b"b", b"foo", b"{t}x"]:
                    owner = next(k for k, (first, last) in enumerate(Cluster.ranges()) if first <= slot_of(key) <= last)
                    moved = b"-MOVED %d 127.0.0.1:%d\r\n" % (slot_of(key), ports[owner])
                    check_same(node.ask("SET", key, "1"), b"+OK\r\n" if owner == number else moved, f"SET {key} at node {number}")
                check_same(node.ask("MGET", "a", "b"), b"-ERR node: one key only\r\n", "MGET of two slots")
                check_same(node.ask("HELLO"), b"-ERR unknown command\r\n", "HELLO")
                check_same(node.ask("GET"), b"-ERR wrong number of arguments for 'get' command\r\n", "GET without a key")
                check_same(node.ask("ASKING"), b"+OK\r\n", "ASKING")
                node.send(b"?\r\n")
                node.rest()
        with Client(ports[2]) as node:
            check_same(node.ask("MGET", "{t}x", "{t}y", "{t}x"), b"*3\r\n$1\r\n1\r\n$-1\r\n$1\r\n1\r\n", "MGET of one slot")


@case
def the_proxy_before_nodes(world):
    requests = some_requests(random.Random(7), 2000, some_keys("k"))
    with Example(world) as example, example.proxy.client() as client:
        client.send(b"".join(request(*words) for words in requests))
        check_each_same(client.replies(len(requests)), wanted_of(world, requests), requests)
        check(not example.proxy.has_ended(), "the proxy ended")


@case(limit=300)
def commands_leave_nothing_at_nodes(world):
    """Many thousand commands on a few keys, over the proxy: afterwards the nodes hold as much as after the first ten thousand."""
    key, value = b"a", 50 * b"v"
    asked = (request("SET", key, value) + request("GET", key) + request("APPEND", key, "s") + request("DEL", key)) * 250
    replies = [b"+OK\r\n", b"$50\r\n%s\r\n" % value, b":51\r\n", b":1\r\n"] * 250
    with Example(world) as example, example.proxy.client() as client:
        processes, held, count, until = (example.nodes.process, example.proxy.process), [], 0, time.monotonic() + SECONDS
        while count < FEWEST or count < COMMANDS and time.monotonic() < until:
            client.send(asked)
            check_same(client.replies(1000), replies, "replies")
            count += 1000
            held.append([resident_mebibytes(it) for it in processes])
    note = "nodes %.1f MiB resident, the proxy %.1f; " % tuple(held[9]) + f"after {count} commands " + "%.1f and %.1f" % tuple(held[-1])
    check_time(all(last < first + MOST_GROWN for first, last in zip(held[9], held[-1])), note)
    return note
