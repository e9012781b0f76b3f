"""Nodes that can't be reached while commands for them go on, and commands that are refused: how long they wait, and what it costs."""

import re
import statistics
import time

from cases_idle import percent_of_commands, percent_of_core
from cases_log import Logged
from cases_moves import key
from cases_scripted import TRYAGAIN, Scene, moved
from client import request
from cluster import Cluster, keys_of_slots, processor_seconds, slot_of, tag_of_slot, wait_until
from harness import Together, case, check, check_same, check_time, together
from scripted import DeafNode, ScriptedNode, bulk, slots_reply
from writers import GAVE_UP, LOST, Ends, Writers

# How long a command waits after each refusal, in milliseconds: two seconds in all.
WAITS = [0, 1, 2, 4, 8, 16, 32, 64, 128] + [250] * 7
# Commands a second for a node, by so many clients that send them by so many at once, for so many seconds. Fewer a second where a
# lone command takes a processor longer than this, but so many at least.
PER_SECOND, CLIENTS, AT_ONCE, SECONDS = 1000, 10, 10, 10
LONE_SECONDS, FEWEST_PER_SECOND = 0.0003, 50
# What may come of that in as many seconds: dials, and questions for the slot map; and percent of a core meanwhile and afterwards.
MOST_DIALS, MOST_ASKED, MOST_PERCENT, MOST_IDLE_PERCENT = 50, 60, 10, 1
# On a slow machine a proxy that dials the node now and then may take what it takes for so many commands a second.
MOST_COMMANDS = 25
# On a slow machine a refusal may cost this share of what a command costs that a lone client asks for.
REFUSAL_SHARE = 1 / 4


class Pressure:
    """Commands for one node, so many a second. Each client sends at its times, whether it was answered or not."""

    def __init__(self, proxy, seconds, per_second):
        self.proxy, self.seconds, self.per_second = proxy, seconds, per_second
        # of as many slots as are sent in five seconds, since a client's commands of one slot wait for each other
        self.keys = keys_of_slots(*Cluster.ranges()[1], 5 * per_second // CLIENTS)
        self.together = Together(CLIENTS, self.work)

    def work(self, number):
        """Sends without reading; gives the replies, and the seconds that the sending took."""
        pause, turns = CLIENTS * AT_ONCE / self.per_second, max(1, self.seconds * self.per_second // CLIENTS // AT_ONCE)
        began = time.monotonic()
        with self.proxy.client() as client:
            for turn in range(turns):
                time.sleep(max(0.0, began + (turn + number / CLIENTS) * pause - time.monotonic()))
                at = turn * AT_ONCE
                client.send(b"".join(request("GET", self.keys[(at + place) % len(self.keys)]) for place in range(AT_ONCE)))
            seconds = time.monotonic() - began
            return client.replies(turns * AT_ONCE), seconds

    def end(self):
        """All replies, and the seconds after which the slowest client had sent."""
        results = self.together.join()
        return [it for replies, _ in results for it in replies], max(seconds for _, seconds in results)


def seconds_of_asking(clients, words, seconds):
    """How long each reply to a request took, asked again and again by each client in turn."""
    taken, until = [[] for _ in clients], time.monotonic() + seconds
    while time.monotonic() < until:
        for client, mine in zip(clients, taken):
            reply, spent = timed(lambda: client.ask(*words))
            mine.append(spent)
            check(reply[:1] == b"$", f"{words} was answered {reply!r}")
        time.sleep(0.005)
    return taken


def timed(work):
    """What it gives, and the seconds that it took."""
    began = time.perf_counter()
    return work(), time.perf_counter() - began


def percentile(taken):
    """The 99th, in milliseconds."""
    return 1000 * sorted(taken)[len(taken) * 99 // 100]


class Load:
    """What a proxy and its cluster did while a node was asked so many times a second. Another was asked beside it, also directly."""

    def __init__(self, cluster, proxy, seconds, per_second):
        words = ("GET", tag_of_slot(range(*Cluster.ranges()[0])))
        used, asked, self.began = processor_seconds(proxy.process), slots_requests(cluster), time.monotonic()
        with proxy.client() as client, cluster.nodes[0].client() as direct:
            pressure = Pressure(proxy, seconds, per_second)
            through, directly = seconds_of_asking([client, direct], words, seconds)
        self.percent = 100 * (processor_seconds(proxy.process) - used) / (time.monotonic() - self.began)
        self.asked = slots_requests(cluster) - asked
        self.seconds = time.monotonic() - self.began
        self.percentile, self.direct = percentile(through), percentile(directly)
        self.replies, sending = pressure.end()
        check_time(sending < seconds + 2, f"sending took {sending:.1f} seconds, and should have taken {seconds}")

    def __str__(self):
        figures = f"{self.asked} CLUSTER SLOTS, {self.percent:.1f} % of a core, 99th percentile of another node's "
        return figures + f"{self.percentile:.1f} ms, directly {self.direct:.1f}"


def load_of(proxy, words):
    """How many commands a second this machine is given, and the share of a core that their refusals may take, by what lone ones take."""
    lone = percent_of_commands(proxy, 1, words, count=300) / 100
    per_second = max(FEWEST_PER_SECOND, int(PER_SECOND * min(1.0, LONE_SECONDS / lone)))
    return per_second, 100 * lone * REFUSAL_SHARE * per_second * len(WAITS)


def slots_requests(cluster):
    """How often the nodes that run were asked CLUSTER SLOTS."""
    said = [it.value("INFO", "commandstats").decode() for it in cluster.nodes if it.is_running()]
    return sum(int(count) for count in re.findall(r"cmdstat_cluster\|slots:calls=(\d+)", "".join(said)))


def failed_dials(logged):
    """As the log counts them: each line, and those left out before it."""
    lines = logged.lines("dial_failed")
    return len(lines) + sum(int(it) for it in re.findall(r"left_out=(\d+)", "".join(lines)))


@case(limit=240)
def a_node_that_refuses_connections(world):
    """A thousand commands a second for a node that is killed: few dials, few questions for the map, little time, and no one else waits.

    On a slow machine there are fewer commands.
    The other nodes do not give it up in this time, so nobody takes over.
    """
    cluster, words = Cluster(world.room, name="losing", patience=60000), ("GET", tag_of_slot(range(*Cluster.ranges()[0])))
    try:
        with Logged(world, cluster.nodes[0].port, "refusing") as logged:
            per_second, most = load_of(logged.proxy, words)
            before = Load(cluster, logged.proxy, 3, per_second)
            check_same(set(before.replies), {b"$-1\r\n"}, "replies while the node is there")
            cluster.nodes[1].kill()
            logged.wait_for("link_lost", f"node=127.0.0.1:{cluster.nodes[1].port}")
            lost = Load(cluster, logged.proxy, SECONDS, per_second)
            check_same(set(lost.replies), {GAVE_UP}, "replies once it is not")
            dials, seconds = failed_dials(logged), time.monotonic() - lost.began
            idle = percent_of_core(logged.proxy.process, seconds=2)
            most_idle = percent_of_commands(logged.proxy, MOST_COMMANDS, words)
    finally:
        cluster.end()
    most, most_idle = max(MOST_PERCENT, most), max(MOST_IDLE_PERCENT, most_idle)
    note = f"{per_second} a second, {dials} dials, {lost}, of {most:.0f}; before {before}; afterwards idle {idle:.3f} % of a core, of {most_idle:.1f}"
    # some seconds more than those of the load pass until its last command was given up
    check(0 < dials < MOST_DIALS * max(1, seconds / (SECONDS + 5)), f"the dials in {seconds:.1f} seconds: {note}")
    # each worker asks by itself
    most_asked = logged.proxy.workers * MOST_ASKED
    check(0 < lost.asked < most_asked * max(1, lost.seconds / SECONDS), f"the questions for the map in {lost.seconds:.1f} seconds: {note}")
    check_time(lost.percent < most, f"the time while it is asked: {note}")
    # a machine that is busy just then shows in what the node itself takes; a slow one, by how much more it has to do
    times = 2 if per_second == PER_SECOND else 3 * max(1, lost.percent / before.percent)
    check_time(lost.percentile < times * max(before.percentile, lost.direct) + 2, f"the other node: {note}")
    check_time(idle < most_idle, f"the time while nobody asks: {note}")
    return note


@case
def a_node_that_does_not_answer_dials(world):
    """Its commands are given up after two seconds, the later ones too, and other nodes' are answered as before."""
    deaf, node = DeafNode(), ScriptedNode(lambda words: bulk(words[1]))
    (_, last), (first, _), _ = Cluster.ranges()
    node.slots = lambda: slots_reply([(0, last, node.port), (first, 16383, deaf.port)])
    here, there = tag_of_slot(range(last)), keys_of_slots(first, 16383, 20)
    with Scene(world, node, deaf) as proxy, proxy.client() as client:
        check_same(client.ask("GET", here), bulk(here), "GET before the dials")
        (before,) = seconds_of_asking([client], ("GET", here), 1.5)

        def wait(number):
            with proxy.client() as stuck:
                return [timed(lambda: stuck.ask("GET", it)) for it in there[2 * number : 2 * number + 2]]

        waiting = Together(10, wait)
        (meanwhile,) = seconds_of_asking([client], ("GET", here), 4)
        ends = [it for mine in waiting.join() for it in mine]
    check_same({reply for reply, _ in ends}, {GAVE_UP}, "replies to commands of the node that does not answer")
    taken = [seconds for _, seconds in ends]
    note = f"given up after {min(taken):.2f} to {max(taken):.2f} s"
    # each of the refusals may be as late as the slowest command was before
    check_time(1 <= min(taken) and max(taken) <= 4 + len(WAITS) * max(before), note)
    usual, median = (1000 * statistics.median(it) for it in (before, meanwhile))
    note += f", others' median {median:.2f} ms, before {usual:.2f}; slowest {1000 * max(meanwhile):.0f}"
    check_time(median < max(usual + 1, 2 * usual), note)
    return note


@case
def a_node_that_ends_each_connection(world):
    """Its commands end lost, and the other node is asked for the map every 50 ms at most."""
    ending, node = ScriptedNode(lambda words: None), ScriptedNode(lambda words: bulk(words[1]))
    (_, last), (first, _), _ = Cluster.ranges()
    node.slots = lambda: slots_reply([(0, last, node.port), (first, 16383, ending.port)])
    here, there = tag_of_slot(range(last)), tag_of_slot(range(first, 16384))
    with Scene(world, node, ending) as proxy, proxy.client() as client, proxy.client() as stuck:
        wait_until(lambda: stuck.ask("GET", there) == LOST, "the map")
        asked, lost, began = node.asked_slots, 0, time.monotonic()
        while time.monotonic() < began + 2:
            reply = stuck.ask("GET", there)
            check(reply in (LOST, GAVE_UP), f"GET at the node that ends its connections was answered {reply!r}")
            check_same(client.ask("GET", here), bulk(here), "GET at the other node")
            lost += reply == LOST
        asked, seconds = node.asked_slots - asked, time.monotonic() - began
    note = f"{lost} lost over {ending.connections} connections, {asked} CLUSTER SLOTS"
    check(asked <= seconds / 0.05 + 5, note)
    return note


@case
def a_group_at_two_nodes_for_a_while(world):
    """Of two keys of a slot one has moved for half a second: MGET and MSET of both wait, and none is given up."""
    tag = tag_of_slot(range(*Cluster.ranges()[0]))
    keys, source, target, clients = [key(tag, b"x"), key(tag, b"y")], 0, 1, 8
    slowest, ends = [0.0], Ends(clients)

    def turn(client, number, count):
        began, mark = time.monotonic(), b"%d.%d" % (number, count)
        words = ("MSET", keys[0], mark, keys[1], mark) if number % 2 else ("MGET", *keys)
        ends.add(number, words[0], client.ask(*words))
        slowest[0] = max(slowest[0], time.monotonic() - began)

    with world.client() as client:
        client.value("MSET", keys[0], "0", keys[1], "0")
    refused = refusals(world.cluster.nodes[source])
    with Writers(world.proxy, clients, turn) as writers:
        writers.wait_for_turns()
        world.cluster.begin_move(slot_of(tag), source, target)
        check_same(world.cluster.move_keys(slot_of(tag), source, target, at_once=1), 1, "keys that moved")
        time.sleep(0.5)
        while world.cluster.move_keys(slot_of(tag), source, target):
            pass
        world.cluster.end_move(slot_of(tag), source, target)
        writers.wait_for_turns()
    refused = refusals(world.cluster.nodes[source]) - refused
    ends.check_groups_answered(world.cluster.slowest_move)
    for what, value in [it for mine in ends.answered for it in mine]:
        check(value == "OK" if what == "MSET" else len(value) == 2 and len(set(value)) == 1, f"{what} of both was answered {value!r}")
    check_time(refused >= clients, f"only {refused} commands were refused with TRYAGAIN")
    return f"{refused} TRYAGAIN for {clients} clients, the slowest command {1000 * slowest[0]:.0f} ms"


def refusals(node):
    """How often a node answered TRYAGAIN."""
    counted = re.search(r"errorstat_TRYAGAIN:count=(\d+)", node.value("INFO", "errorstats").decode())
    return int(counted[1]) if counted else 0


def pauses(times):
    """The milliseconds between one request and the next."""
    return [1000 * (after - before) for before, after in zip(times, times[1:])]


@case
def refused_commands_wait(world):
    """Sixteen refusals take about two seconds, each pause at least as long as is due after its refusal."""
    times = []

    def answer(words):
        times.append(time.monotonic())
        return TRYAGAIN

    with Scene(world, ScriptedNode(answer)) as proxy, proxy.client() as client:
        check_same(client.ask("GET", "a"), GAVE_UP, "GET with TRYAGAIN without end")
    found = pauses(times)
    check_same(len(found), len(WAITS), "pauses between its requests")
    note = f"after {times[-1] - times[0]:.2f} s, pauses of {' '.join(f'{it:.0f}' for it in found)} ms"
    # the clock of a thread counts whole milliseconds
    check(all(pause > due - 2 for pause, due in zip(found, WAITS)), note)
    check_time(times[-1] - times[0] < 4, note)
    return note


def redirecting_nodes(count, kind):
    """Two that redirect a command to each other so many times before one answers it."""
    left = iter(range(count))

    def answer(words, other):
        if words == [b"ASKING"]:
            return b"+OK\r\n"
        return bulk(b"1") if next(left, None) is None else moved(b"a", nodes[other].port, kind=kind)

    nodes = [ScriptedNode(lambda words: answer(words, 1)), ScriptedNode(lambda words: answer(words, 0))]
    return nodes


def timed_get(proxy):
    """The reply, and the seconds that it took."""
    with proxy.client() as client:
        return timed(lambda: client.ask("GET", "a"))


@case
def redirects_are_followed_at_once(world):
    """The first three in a row, MOVED as well as ASK; sixteen of them take a while."""
    kinds, notes = (b"MOVED", b"ASK"), []
    with Scene(world, *redirecting_nodes(16, kinds[0])) as one, Scene(world, *redirecting_nodes(16, kinds[1])) as other:
        slow = together(2, lambda number: timed_get((one, other)[number]))
    for kind, (reply, seconds) in zip(kinds, slow):
        check_same(reply, bulk(b"1"), f"GET by way of sixteen {kind.decode()}")
        # the best of four, since a busy machine has pauses of its own; a connection to a new node is among it
        best = min(seconds_over_three(world, kind) for _ in range(4))
        notes.append(f"{kind.decode()}: three {1000 * best:.1f} ms, sixteen {seconds:.2f} s")
        check_time(best < 0.05 and 0.8 < seconds < 4, notes[-1])
    return "; ".join(notes)


def seconds_over_three(world, kind):
    with Scene(world, *redirecting_nodes(3, kind)) as proxy:
        reply, seconds = timed_get(proxy)
        check_same(reply, bulk(b"1"), f"GET by way of three {kind.decode()}")
        return seconds
