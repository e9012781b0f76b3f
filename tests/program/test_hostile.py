"""`serve` under changed bytes of clients and of nodes: each client gets what its bytes and the node's say, the proxy goes on,
and a client beside them is served throughout."""

import contextlib
import itertools
import time
import unittest
from binascii import crc_hqx

from program import swept
from scripted import Neighbour, Node, heard_to_the_end
from sockets import cluster, heard, nodes, proxy, request
from wire import REQUESTS, Asked, changed, counted, spelled, told, values_in

LOST = b"-ERR proxy: connection lost, outcome unknown\r\n"
UNEXPECTED = b"-ERR proxy: unexpected reply\r\n"

# What a node replies, as long as it replies rightly, and the same of the node that owns what is sent on.
RIGHT = b"$1\r\n1\r\n"
RIGHT_THERE = b"$1\r\n2\r\n"

# The slots of the changed answers to CLUSTER SLOTS are from here on, whatever is changed, and those of other keys below.
FIRST_LISTED = 16_000

# What the neighbour sends and gets.
NEIGHBOUR = (request("SET", "b", "1"), b"+OK\r\n")

# Replies to a GET.
REPLIES = [RIGHT, b"+OK\r\n", b":12\r\n", b"-ERR no\r\n", b"$-1\r\n", b"*2\r\n$2\r\nab\r\n:-7\r\n"]

# A reply to MGET of two keys.
MGET_REPLY = b"*2\r\n$1\r\n1\r\n$-1\r\n"

# Refusals that name no node.
REFUSALS = [b"-TRYAGAIN x\r\n", b"-CLUSTERDOWN x\r\n"]


def slot_of(key):
    """The slot of a key without braces."""
    return crc_hqx(key.encode(), 0) % 16384


def keys_below(slot):
    """Keys, each of another slot, below this one, of five digits and none of them a 9: their lines are changed alike."""
    taken = set()
    for key in map("k{}".format, itertools.count()):
        if 10_000 <= slot_of(key) < slot and "9" not in str(slot_of(key)) and slot_of(key) not in taken:
            taken.add(slot_of(key))
            yield key


def listed_key():
    """A key of a slot that the answers to CLUSTER SLOTS list."""
    return next(key for key in map(str, range(100_000)) if slot_of(key) > 16_100)


def listing(port):
    """An answer to CLUSTER SLOTS, whose first node has no host."""
    return (
        b"*2\r\n*3\r\n:16000\r\n:16000\r\n*4\r\n$-1\r\n:%d\r\n$2\r\nid\r\n*0\r\n"
        b"*3\r\n:16100\r\n:16383\r\n*3\r\n$9\r\n127.0.0.1\r\n:%d\r\n$2\r\nid\r\n" % (port, port)
    )


@contextlib.contextmanager
def scene():
    """The two nodes, and a proxy before them."""
    it = Scene()
    with it.other, it.seed, proxy(it.seed.port, 2) as proxied:
        yield it, proxied


class Scene:
    """A seed, whose replies the test makes, and another node, which replies rightly."""

    def __init__(self):
        self.other = Node(lambda words: (b"+OK\r\n" if words[0] in (b"ASKING", b"SET") else RIGHT_THERE, False))
        self.seed = Node(self.answer)
        self.replies, self.slots = [], []

    def answer(self, words):
        if words == [b"CLUSTER", b"SLOTS"]:
            return self.slots.pop(0) if self.slots else (b"-ERR no slots\r\n", False)
        if words[0] == b"SET":
            return self.moved("b"), False
        return self.replies.pop(0) if self.replies else (RIGHT, False)

    def moved(self, key, how=b"MOVED"):
        """The line that sends a key's command to the other node."""
        return b"-%s %d 127.0.0.1:%d\r\n" % (how, slot_of(key), self.other.port)


class Hostile(unittest.TestCase):
    @contextlib.contextmanager
    def neighbour(self, proxied, what):
        """A client that is served beside the block, and a proxy that goes on behind it."""
        began = time.monotonic()
        with Neighbour(proxied, *NEIGHBOUR) as neighbour:
            yield
        self.assertEqual(neighbour.found, neighbour.wanted)
        self.assertFalse(neighbour.thread.is_alive())
        self.assertIsNone(proxied[1].poll(), "the proxy has ended")
        swept(f"{what}: the neighbour was served {neighbour.served} times, within {1000 * neighbour.slowest:.0f} ms", began)

    def test_changed_requests(self):
        """Whole and byte by byte."""
        held = lambda key: RIGHT if key == b"a" else b"$-1\r\n"
        with cluster(2) as proxied:
            heard(proxied, request("SET", "a", "1") + request("QUIT"))
            with self.neighbour(proxied, f"changed requests, {counted([REQUESTS])}, twice"):
                for data in changed(REQUESTS):
                    wanted = Asked(data, held).replies
                    for piece in (None, 1):
                        self.assertEqual(heard_to_the_end(proxied, data, piece), wanted, data)

    def test_changed_requests_at_a_node(self):
        """The same at the last node of the example cluster: keys of other slots are the other nodes'."""
        with nodes() as [(first, _), (second, _), last]:
            heard(last, request("SET", "a", "1") + request("QUIT"))

            def held(key):
                slot = crc_hqx(key, 0) % 16384
                if slot < 10_923:
                    return b"-MOVED %d 127.0.0.1:%d\r\n" % (slot, first if slot < 5461 else second)
                return RIGHT if key == b"a" else b"$-1\r\n"

            began = time.monotonic()
            for data in changed(REQUESTS):
                wanted = Asked(data, held).replies.replace(b"-ERR proxy: protocol", b"-ERR protocol")
                for piece in (None, 1):
                    self.assertEqual(heard_to_the_end(last, data, piece), wanted, data)
            self.assertIsNone(last[1].poll(), "the nodes have ended")
            swept(f"changed requests at a node, {counted([REQUESTS])}, twice", began)

    def check_replies(self, asked, texts, expected, what):
        """A client asks one request at a time. The node's reply, whole and byte by byte, is changed and ends the connection."""
        with scene() as (it, proxied), self.neighbour(proxied, f"changed replies to {what}, {counted(texts)}, twice"):
            for data, it.seed.piece in itertools.product(itertools.chain(*map(changed, texts)), (None, 1)):
                it.replies, ended = [(data, True)], it.seed.ended + 1
                self.assertEqual(heard_to_the_end(proxied, asked), expected(data), data)
                it.seed.wait_for_end(ended)

    def test_changed_replies(self):
        def expected(data):
            values, _ = values_in(data)
            return spelled(values[0][0]) if values else LOST

        self.check_replies(request("GET", "a"), REPLIES, expected, "GET")

    def test_changed_replies_to_mget(self):
        def expected(data):
            values, _ = values_in(data)
            if not values:
                return LOST
            kind, *held = values[0][0]
            if kind == "array" and len(held[0]) == 2 and all(item[0] in ("bulk", "null") for item in held[0]):
                return spelled(values[0][0])
            return spelled(values[0][0]) if kind == "error" else UNEXPECTED

        self.check_replies(request("MGET", "{a}1", "{a}2"), [MGET_REPLY], expected, "MGET")

    def check_sent_on(self, line, end, what):
        """A client asks GET of another key each time, and the seed's first reply, whole and byte by byte, is changed: a line that
        may send it on, whose bytes from `end` on to its CR stay. Where that is no whole value, the node ends the connection."""
        with scene() as (it, proxied):
            keys, sent_on = keys_below(FIRST_LISTED), set()
            text = line(it, next(keys))
            kept = range(end, len(text) - 2)
            count = len(list(changed(text, kept)))
            with self.neighbour(proxied, f"changed {what}, {counted([text], kept)}, twice"):
                for number, it.seed.piece in itertools.product(range(count), (None, 1)):
                    key = next(key for key in keys if slot_of(key) not in sent_on)
                    data = list(changed(line(it, key), kept))[number]
                    sent_on.add(self.check_one_sent_on(it, proxied, key, data))

    def check_one_sent_on(self, it, proxied, key, data):
        """Gives the slot that the line sends on, or None."""
        values, _ = values_in(data)
        it.replies, ended = [(data, not values)], it.seed.ended + 1
        found = heard_to_the_end(proxied, request("GET", key))
        if not values:
            self.assertEqual(found, LOST, data)
            it.seed.wait_for_end(ended)
            return None
        said, endpoint = told(values[0][0])
        wanted = spelled(values[0][0]) if said == "reply" else RIGHT_THERE if endpoint else RIGHT
        self.assertEqual(found, wanted, data)
        if not endpoint:
            return None
        self.assertEqual(endpoint, (b"127.0.0.1", it.other.port), data)
        return int(said.split()[1])

    def test_changed_refusals(self):
        for refusal in REFUSALS:
            self.check_sent_on(lambda it, key: refusal, len(refusal) - 2, "refusals")

    def test_changed_redirections(self):
        """All but host and port, which the proxy would dial."""
        self.check_sent_on(lambda it, key: it.moved(key), len(b"-MOVED 15495 "), "MOVED")
        self.check_sent_on(lambda it, key: it.moved(key, b"ASK"), len(b"-ASK 15495 "), "ASK")

    def test_changed_listings(self):
        """A node sends each command on, and its answer to the CLUSTER SLOTS that follows, whole and byte by byte, is changed and
        ends the connection. The last one is right, and is followed."""
        with scene() as (it, proxied):
            text, keys = listing(it.other.port), keys_below(FIRST_LISTED)
            with self.neighbour(proxied, f"changed answers to CLUSTER SLOTS, {counted([text])}, twice"):
                self.assertEqual(heard_to_the_end(proxied, request("GET", next(keys))), RIGHT)
                for data, it.seed.piece in itertools.product([*changed(text), text], (None, 1)):
                    ended = it.seed.ended + 1
                    it.slots = [(data, True)]
                    self.have_slots_asked(it, proxied, keys, data)
                    it.seed.wait_for_end(ended)
                self.assertEqual(heard_to_the_end(proxied, request("GET", listed_key())), RIGHT_THERE)

    def have_slots_asked(self, it, proxied, keys, data):
        """The seed sends commands on until it is asked for CLUSTER SLOTS: it is not while another node is."""
        while it.slots:
            key = next(keys)
            it.replies = [(it.moved(key), False)]
            self.assertEqual(heard_to_the_end(proxied, request("GET", key)), RIGHT_THERE, data)
            end = time.monotonic() + 1
            while it.slots and time.monotonic() < end:
                time.sleep(0.001)
