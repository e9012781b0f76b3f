"""A client's commands of one slot, which go to their node together: before nodes that answer by a script."""

import itertools
import threading
import time

from cases_scripted import TRYAGAIN, Scene, moved
from client import request
from cluster import slot_of, wait_until
from harness import case, check, check_same
from scripted import ScriptedNode, bulk, slots_reply
from writers import LOST

QUEUED, ABORTED = b"+QUEUED\r\n", b"-EXECABORT Transaction discarded because of previous errors.\r\n"
MOST_TOGETHER = 64


def gets(*keys):
    return b"".join(request("GET", key) for key in keys)


def blocks_in(words):
    """The commands of each block that a node saw, in order; one that went alone is a block of its own."""
    blocks, inside = [], False
    for it in words:
        if it in ([b"MULTI"], [b"EXEC"]):
            inside = it == [b"MULTI"]
            blocks += [[]] * inside
        elif inside:
            blocks[-1] = [*blocks[-1], it]
        else:
            blocks.append([it])
    return blocks


@case
def commands_of_a_slot_go_together(world):
    """Those that wait at the same time, for each slot by itself; later ones wait until they have ended. Replies keep their order."""
    go_on = threading.Event()
    slow = ScriptedNode(lambda words: go_on.wait(100) and bulk(words[1]))
    node = ScriptedNode(lambda words: bulk(words[1]))
    here, there = slot_of(b"a"), slot_of(b"b")
    node.slots = lambda: slots_reply([(here, here, slow.port), (there, there, node.port)])
    # the first of the scene is the seed
    scene, first = Scene(world, node, slow), [[b"GET", b"a"], [b"GET", b"{a}2"]]
    with scene as proxy, proxy.client() as client:
        scene.wait_for_map()
        client.send(gets("a", "{a}2", "b", "{b}2"))
        wait_until(lambda: len(slow.words_seen()) >= 4 and len(node.words_seen()) >= 4, "both nodes to get what is theirs")
        client.send(gets("{a}3"))
        time.sleep(0.4)
        check_same(slow.words_seen(), [[b"MULTI"], *first, [b"EXEC"]], "requests of the slow node before its first reply")
        check_same(blocks_in(node.words_seen()), [[[b"GET", b"b"], [b"GET", b"{b}2"]]], "requests of the other node")
        go_on.set()
        check_same(client.replies(5), [bulk(it) for it in (b"a", b"{a}2", b"b", b"{b}2", b"{a}3")], "replies in order")
        check_same(blocks_in(slow.words_seen()), [first, [[b"GET", b"{a}3"]]], "requests of the slow node")


@case
def the_longest_run(world):
    """Sixty-four commands, or 64 KiB of their words; what waits behind them goes next."""
    node = ScriptedNode(lambda words: bulk(words[1]))
    large = b"v" * 40_000
    with Scene(world, node) as proxy, proxy.client() as client:
        client.send(gets(*(f"{{a}}{number}" for number in range(150))))
        check_same(client.replies(150), [bulk(b"{a}%d" % number) for number in range(150)], "replies in order")
        sizes = [len(block) for block in blocks_in(node.words_seen())]
        check(max(sizes) <= MOST_TOGETHER and sum(sizes) == 150, f"blocks of {sizes}")
        client.send(b"".join(request("SET", "{b}", large) for _ in range(4)))
        check_same(client.replies(4), [bulk(b"{b}")] * 4, "replies to large SETs")
        sizes = [len(block) for block in blocks_in(node.words_seen()) if block[0][0] == b"SET"]
        check_same(sum(sizes), 4, "large SETs")
        check(max(sizes) <= 2, f"blocks of {sizes} SETs of 40,000 bytes")


@case
def refused_commands_keep_their_turn(world):
    """A node refuses every other request: a client's commands of one slot are still executed in the order in which it sent them."""
    executed, refuse = [], itertools.cycle([True, False])

    def answer(words):
        executed.append(int(words[2]))
        return b":%d\r\n" % len(executed)

    node = ScriptedNode(answer, refusal=lambda words: TRYAGAIN if next(refuse) else None)
    with Scene(world, node) as proxy, proxy.client() as client:
        client.send(b"".join(request("APPEND", f"{{a}}{number % 3}", number) for number in range(300)))
        check_same(client.replies(300), [b":%d\r\n" % number for number in range(1, 301)], "replies in order")
        check_same(executed, list(range(300)), "the order of execution")


@case
def what_exec_tells(world):
    """Of two commands that go together: what each is told, and where it then goes."""
    other = ScriptedNode(lambda words: b"+OK\r\n" if words == [b"ASKING"] else bulk(b"other"))
    moved_on, ask = moved(b"a", other.port), moved(b"a", other.port, kind=b"ASK")
    alone = [bulk(b"alone")] * 2
    there, asked = [bulk(b"other")] * 2, [[b"ASKING"], [b"GET", b"a"], [b"ASKING"], [b"GET", b"{a}2"]]
    plain = [[b"GET", b"a"], [b"GET", b"{a}2"]]
    rows = [
        ("two replies", [QUEUED, QUEUED, b"*2\r\n:1\r\n:2\r\n"], [b":1\r\n", b":2\r\n"], []),
        ("an error of one", [QUEUED, QUEUED, b"*2\r\n-ERR wrong\r\n:2\r\n"], [b"-ERR wrong\r\n", b":2\r\n"], []),
        ("MOVED of one", [QUEUED, moved_on, ABORTED], there, plain),
        ("MOVED at EXEC", [QUEUED, QUEUED, moved_on], there, plain),
        ("ASK of both", [ask, ask, ABORTED], there, asked),
        ("ASK of one", [ask, QUEUED, ABORTED], alone, []),
        ("ASK at EXEC", [QUEUED, QUEUED, ask], alone, []),
        ("an error of one before EXEC", [b"-ERR wrong\r\n", QUEUED, ABORTED], alone, []),
        ("TRYAGAIN at EXEC", [QUEUED, QUEUED, TRYAGAIN], alone, []),
    ]
    for name, replies, wanted, elsewhere in rows:
        node = ScriptedNode(lambda words: bulk(b"alone"), block=lambda commands: b"+OK\r\n" + b"".join(replies))
        with ScriptedScene(world, node, other) as (proxy, before), proxy.client() as client:
            client.send(gets("a", "{a}2"))
            check_same(client.replies(2), wanted, name)
            check_same(other.words_seen()[before:], elsewhere, f"{name}: requests of the other node")
    other.close()


class ScriptedScene(Scene):
    """A scene before a node, beside another one that outlives it; it is given with how many requests that one saw before."""

    def __init__(self, world, node, other):
        super().__init__(world, node)
        self.before = len(other.words_seen())

    def __enter__(self):
        return self.proxy, self.before


@case
def a_run_that_is_lost_is_lost_whole(world):
    """Where the connection ends, or the node answers what none answers, none of its commands is sent again."""
    rows = {
        "no reply": None,
        "two replies of three": b"+OK\r\n" + QUEUED * 3 + b"*2\r\n:1\r\n:2\r\n",
        "no array": b"+OK\r\n" + QUEUED * 3 + b"$-1\r\n",
        "no QUEUED": b"+OK\r\n" + QUEUED + b":1\r\n" + QUEUED + b"*3\r\n:1\r\n:2\r\n:3\r\n",
        "less than all": b"+OK\r\n" + QUEUED * 3 + b"*3\r\n:1\r\n:2\r\n?",
    }
    for name, replies in rows.items():
        node = ScriptedNode(lambda words: b":9\r\n", block=lambda commands: replies)
        with Scene(world, node) as proxy, proxy.client() as client:
            client.send(b"".join(request("INCR", key) for key in ("a", "{a}2", "a")))
            check_same(client.replies(3), [LOST] * 3, name)
            time.sleep(0.2)
            check_same(blocks_in(node.words_seen()), [[[b"INCR", b"a"], [b"INCR", b"{a}2"], [b"INCR", b"a"]]], f"{name}: requests sent")
            check_same(client.ask("INCR", "a"), b":9\r\n", f"{name}: a command over a new connection")


@case
def a_node_that_refuses_multi(world):
    """What went together the first time is lost; from then on commands go to this node one after another."""
    node = ScriptedNode(lambda words: bulk(words[1]), plain=True)
    with Scene(world, node) as proxy, proxy.client() as client:
        client.send(gets("a", "{a}2", "{a}3"))
        check_same(client.replies(3), [LOST] * 3, "three that went together")
        before = len(node.words_seen())
        client.send(gets("a", "{a}2", "{a}3"))
        check_same(client.replies(3), [bulk(it) for it in (b"a", b"{a}2", b"{a}3")], "three after them")
        check_same(node.words_seen()[before:], [[b"GET", b"a"], [b"GET", b"{a}2"], [b"GET", b"{a}3"]], "their requests")
