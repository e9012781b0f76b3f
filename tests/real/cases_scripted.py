"""Nodes that answer by a script: what the proxy sends them is seen, and every refusal of a node is played exactly."""

import time
from contextlib import ExitStack

from client import request
from cluster import Proxy, slot_of, tag_of_slot, wait_until
from harness import Together, case, check_same, check_time
from scripted import DeafNode, ScriptedNode, bulk, slots_reply
from writers import GAVE_UP, LOST

# Seconds between two requests of a client that asks beside others.
PAUSE = 0.002

TRYAGAIN = b"-TRYAGAIN Multiple keys request during rehashing of slot\r\n"


class Scene:
    """A proxy of its own before scripted nodes, the first of them the seed. It has one worker: each has connections of its own."""

    def __init__(self, world, *nodes, variables=None):
        self.nodes = nodes
        self.proxy = Proxy(world.room, world.program, nodes[0].port, workers=1, name="scene", variables=variables)

    def __enter__(self):
        return self.proxy

    def wait_for_map(self, node=None):
        """Waits until the proxy has said that it took in the slots that a node listed, the first one if none is named."""
        renewed = f"event=slot_map_renewed node=127.0.0.1:{(node or self.nodes[0]).port} ".encode()

        def is_renewed():
            with open(f"{self.proxy.room.folder}/{self.proxy.name}.log", "rb") as said:
                return renewed in said.read()

        wait_until(is_renewed, "the slot map")
        time.sleep(0.2)

    def __exit__(self, *_):
        self.proxy.end()
        for node in self.nodes:
            node.close()


def in_turn(replies, then):
    """An answer that gives these replies one after another, and the last one from then on."""
    left = iter(replies)
    return lambda words: next(left, then)


def moved(key, port, kind=b"MOVED", host=b"127.0.0.1"):
    return b"-%s %d %s:%d\r\n" % (kind, slot_of(key), host, port)


@case
def moved_is_followed_and_remembered(world):
    new = ScriptedNode(lambda words: b"+OK\r\n")
    old = ScriptedNode(lambda words: moved(b"a", new.port))
    with Scene(world, old, new) as proxy, proxy.client() as client:
        check_same([client.ask("SET", "a", "1") for _ in range(3)], [b"+OK\r\n"] * 3, "SET by way of MOVED")
        check_same(old.words_seen(), [[b"SET", b"a", b"1"]], "requests of the old node")
        check_same(new.words_seen(), [[b"SET", b"a", b"1"]] * 3, "requests of the new node, without ASKING")
        wait_until(lambda: old.asked_slots >= 2, "CLUSTER SLOTS to be asked, at the start and after MOVED")


@case
def moved_without_a_host(world):
    """An empty host is the one that was asked."""
    new = ScriptedNode(lambda words: b"+OK\r\n")
    old = ScriptedNode(lambda words: moved(b"a", new.port, host=b""))
    with Scene(world, old, new) as proxy, proxy.client() as client:
        check_same(client.ask("SET", "a", "1"), b"+OK\r\n", "SET by way of MOVED without a host")


@case
def ask_is_followed_once(world):
    """ASKING and the command go together over one connection; the next command goes to the old node again."""
    new = ScriptedNode(lambda words: b"+OK\r\n" if words == [b"ASKING"] else b":7\r\n")
    old = ScriptedNode(lambda words: moved(b"a", new.port, kind=b"ASK"))
    with Scene(world, old, new) as proxy, proxy.client() as client:
        check_same([client.ask("INCR", "a") for _ in range(3)], [b":7\r\n"] * 3, "INCR by way of ASK")
        check_same(new.words_seen(), [[b"ASKING"], [b"INCR", b"a"]] * 3, "requests of the new node")
        check_same(old.words_seen(), [[b"INCR", b"a"]] * 3, "requests of the old node")


@case
def asking_stands_before_its_command(world):
    """Of many commands at once, each that ASK sent has its own ASKING just before it."""
    new = ScriptedNode(lambda words: b"+OK\r\n")
    old = ScriptedNode(None, refusal=lambda words: moved(b"a", new.port, kind=b"ASK"))
    with Scene(world, old, new) as proxy:
        clients = [proxy.client() for _ in range(10)]
        for client in clients:
            client.send(b"".join(request("SET", f"{{a}}{number}", "1") for number in range(50)))
        for client in clients:
            check_same(client.replies(50), [b"+OK\r\n"] * 50, "SETs by way of ASK")
            client.close()
        by_connection = {}
        for number, words in new.seen:
            by_connection.setdefault(number, []).append(words[0])
        for order in by_connection.values():
            check_same(order, [b"ASKING", b"SET"] * (len(order) // 2), "order on one connection")


@case
def sixteen_refusals_are_followed(world):
    node = ScriptedNode(in_turn([TRYAGAIN] * 16, b"$1\r\n5\r\n"))
    with Scene(world, node) as proxy, proxy.client() as client:
        check_same(client.ask("GET", "a"), b"$1\r\n5\r\n", "GET after sixteen TRYAGAIN")
        check_same(len(node.words_seen()), 17, "requests sent")


@case
def the_seventeenth_is_not(world):
    unclear = [b"-MOVED nowhere\r\n", b"-ASK 1 127.0.0.1\r\n", b"-MOVED 99999 127.0.0.1:1\r\n", b"-MOVED 1 127.0.0.1:0\r\n"]
    refusals = [TRYAGAIN, b"-TRYAGAIN\r\n", b"-CLUSTERDOWN Hash slot not served\r\n", *unclear]
    nodes = [ScriptedNode(lambda words, refusal=refusal: refusal) for refusal in refusals]
    with ExitStack() as stack:
        clients = [stack.enter_context(stack.enter_context(Scene(world, node)).client()) for node in nodes]
        for client in clients:
            client.send(request("INCR", "a"))
        for client, node, refusal in zip(clients, nodes, refusals):
            check_same(client.reply(), GAVE_UP, f"INCR with {refusal!r} without end")
            check_same(len(node.words_seen()), 17, f"requests sent, each answered {refusal!r}")


@case
def a_lost_command_is_not_sent_again(world):
    for reply in [None, b"?\r\n", b"$3\r\nab", b"+OK\n"]:
        node = ScriptedNode(lambda words: reply)
        with Scene(world, node) as proxy, proxy.client() as client:
            if reply == b"$3\r\nab":
                client.send(request("INCR", "a"))
                wait_until(node.words_seen, "the node to get the command")
                time.sleep(0.3)
                node.close()
                check_same(client.reply(), LOST, "INCR whose reply was cut off")
            else:
                check_same(client.ask("INCR", "a"), LOST, f"INCR that was answered {reply!r}")
            time.sleep(0.2)
            check_same(node.words_seen(), [[b"INCR", b"a"]], "requests sent")


@case
def a_new_connection_after_a_lost_one(world):
    node = ScriptedNode(in_turn([b":1\r\n", None], b":9\r\n"))
    with Scene(world, node) as proxy, proxy.client() as client:
        check_same([client.ask("INCR", "a") for _ in range(3)], [b":1\r\n", LOST, b":9\r\n"], "three INCRs, the second lost")


@case
def groups_travel_as_one(world):
    """Keys of one slot go to their node in one command, in the request's order."""
    array = lambda keys: b"*%d\r\n" % len(keys) + b"".join(map(bulk, keys))
    node = ScriptedNode(lambda words: array(words[1:]) if words[0] == b"MGET" else b":2\r\n")
    with Scene(world, node) as proxy, proxy.client() as client:
        keys = ["{t}x", "b", "{t}y", "b", "{t}x"]
        check_same(client.ask("MGET", *keys), array([it.encode() for it in keys]), "MGET of two slots")
        check_same(sorted(node.words_seen()), [[b"MGET", b"b", b"b"], [b"MGET", b"{t}x", b"{t}y", b"{t}x"]], "requests for it")
        check_same(client.ask("DEL", *keys), b":4\r\n", "the sum of two DELs")


@case
def other_errors_are_handed_on(world):
    for error in [b"LOADING Redis is loading the dataset in memory", b"WRONGTYPE Operation against a key", b"", b"ERR MOVED 1 a:1"]:
        error = b"-%s\r\n" % error
        node = ScriptedNode(lambda words: error)
        with Scene(world, node) as proxy, proxy.client() as client:
            for words in [("GET", "a"), ("MGET", "a", "b"), ("MSET", "a", "1", "b", "2"), ("DEL", "a", "b")]:
                check_same(client.ask(*words), error, words)


@case
def unfit_replies(world):
    unexpected = b"-ERR proxy: unexpected reply\r\n"
    rows = [
        (("MGET", "a", "b"), b":1\r\n"),
        (("MGET", "a", "{a}2"), b"*1\r\n$1\r\n1\r\n"),
        (("MSET", "a", "1"), b"+FINE\r\n"),
        (("DEL", "a", "b"), b"$1\r\n1\r\n"),
        (("EXISTS", "a", "b"), b":9223372036854775807\r\n"),
    ]
    for words, reply in rows:
        node = ScriptedNode(lambda _: reply)
        with Scene(world, node) as proxy, proxy.client() as client:
            check_same(client.ask(*words), unexpected, f"{words}, each part answered {reply!r}")


@case
def dials_that_hang(world):
    """Two nodes that take no connection: their commands end soon after a dial's two seconds, and hold up no other node's."""
    deaf, deafer = DeafNode(), DeafNode()
    node = ScriptedNode(lambda words: bulk(words[1]))
    slots = [slot_of(key) for key in (b"a", b"b", b"c")]
    node.slots = lambda: slots_reply([(it, it, port) for it, port in zip(slots, (deaf.port, node.port, deafer.port))])
    scene = Scene(world, node, deaf, deafer)
    with scene as proxy, proxy.client() as stuck, proxy.client() as client:
        scene.wait_for_map()
        check_same(client.ask("GET", "b"), bulk(b"b"), "GET before the dials")
        begun = time.monotonic()
        stuck.send(request("GET", "a") + request("GET", "c"))
        slowest, count, until = 0.0, 0, begun + 5
        while time.monotonic() < until:
            began = time.monotonic()
            check_same(client.ask("GET", "b"), bulk(b"b"), "GET beside the dials")
            slowest, count = max(slowest, time.monotonic() - began), count + 1
            time.sleep(PAUSE)
        check_time(slowest < 1.0, f"a command of another node waited {slowest:.2f} seconds")
        check_same(stuck.replies(2), [GAVE_UP] * 2, "GETs at nodes that take no connection")
    return f"{count} commands beside them, the slowest {1000 * slowest:.0f} ms"


@case
def a_host_name_that_is_not_found(world):
    """A node lists another one by a name that nobody has: that one's commands are given up, and hold up no others."""
    node, name = ScriptedNode(lambda words: bulk(words[1])), b"no-such-host.invalid"
    entries = [(0, 8191, b"127.0.0.1", node.port), (8192, 16383, name, 7000)]
    listed = b"*2\r\n" + b"".join(b"*3\r\n:%d\r\n:%d\r\n*2\r\n%s:%d\r\n" % (low, high, bulk(host), port) for low, high, host, port in entries)
    node.slots = lambda: listed
    scene, here, there = Scene(world, node), *(tag_of_slot(range(*it)) for it in ((0, 8192), (8192, 16384)))
    with scene as proxy, proxy.client() as client:
        scene.wait_for_map()
        ended = Together(3, lambda number: ask_often(proxy, there, 3))
        taken = []
        while any(it.is_alive() for it in ended.threads):
            began = time.monotonic()
            check_same(client.ask("GET", here), bulk(here), "GET beside those of the name")
            taken.append(time.monotonic() - began)
            time.sleep(PAUSE)
        given_up, waits = zip(*(it for mine in ended.join() for it in mine))
    check_same(set(given_up), {GAVE_UP}, "GETs at the node that is not found")
    note = f"{len(given_up)} given up within {max(waits):.1f} s, {len(taken)} commands beside them, the slowest {1000 * max(taken):.0f} ms"
    check_time(max(taken) < 1.0, note)
    return note


def ask_often(proxy, key, count):
    """The replies to so many GETs of a key, each with the seconds that it took."""
    replies = []
    with proxy.client() as client:
        for _ in range(count):
            began = time.monotonic()
            replies.append((client.ask("GET", key), time.monotonic() - began))
    return replies
