"""`serve` before nodes whose hosts are names."""

import time
import unittest

from program import check_time, timed
from scripted import Neighbour, Node, heard_to_the_end
from sockets import heard, nodes, proxy, request

GAVE_UP = b"-ERR proxy: gave up, not executed\r\n"
# Nobody has this name: RFC 6761, "invalid".
UNKNOWN = b"no-such-host.invalid"
# Seconds that a client may wait while a name is looked up.
PROMPT = 1.0


class Names(unittest.TestCase):
    def test_a_seed_by_its_name(self):
        with nodes() as [(seed, _), *_], proxy(seed, 2, "localhost") as at:
            asked = request("SET", "a", "1") + request("GET", "a") + request("QUIT")
            self.assertEqual(heard(at, asked), b"+OK\r\n$1\r\n1\r\n+OK\r\n")

    @timed
    def test_a_name_that_is_not_found(self):
        """The upper half of the slots is a node's whose name nobody has: its keys are given up, and others are served meanwhile.
        The end of the proxy does not wait for the look-up."""
        node = Node(lambda words: (self.listing(node) if words == [b"CLUSTER", b"SLOTS"] else b"$1\r\n1\r\n", False))
        with node, proxy(node.port, 2) as at, Neighbour(at, request("GET", "b"), b"$1\r\n1\r\n") as neighbour:
            # b's slot is 3300, and a's 15495. Before a worker has read the slot map, its clients' commands go to the seed.
            until = time.monotonic() + 2
            while time.monotonic() < until and heard_to_the_end(at, request("GET", "a")) != GAVE_UP:
                pass
            until = time.monotonic() + 2
            while time.monotonic() < until:
                self.assertEqual(heard_to_the_end(at, request("GET", "a")), GAVE_UP)
            began = time.monotonic()
        self.assertEqual(neighbour.found, neighbour.wanted)
        seconds = time.monotonic() - began
        note = f"a name that is not found: a neighbour was served {neighbour.served} times, within {1000 * neighbour.slowest:.0f} ms"
        check_time(neighbour.slowest < PROMPT and seconds < PROMPT, f"{note}; the proxy ended after {seconds:.1f} s")
        print(note)

    def listing(self, node):
        """An answer to CLUSTER SLOTS."""
        return (
            b"*2\r\n*3\r\n:0\r\n:8191\r\n*2\r\n$9\r\n127.0.0.1\r\n:%d\r\n"
            b"*3\r\n:8192\r\n:16383\r\n*2\r\n$%d\r\n%s\r\n:%d\r\n" % (node.port, len(UNKNOWN), UNKNOWN, node.port)
        )
