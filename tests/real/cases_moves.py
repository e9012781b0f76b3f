"""Slots that move with their keys while clients write.

Between two moves of one slot each client ends a turn or two, so that no request that ASK sent in the first meets the second.
"""

import random
import threading
import time

from client import request
from cluster import slot_of, tag_of_slot
from cases_pipelines import some_requests
from harness import case, check, check_each_same, check_same
from logs import check_log
from writers import GAVE_UP, Ends, Writers, appends, log_of

CLIENTS = 20


def tags_of_nodes(cluster):
    """One tag for each node."""
    return [tag_of_slot(range(first, last + 1)) for first, last in cluster.ranges()]


def key(tag, name):
    return b"{" + tag + b"}" + name


def move_round(world, writers, tags, rounds, seconds, pause=0.002, at_once=1):
    """Moves each tag's slot from node to node, in one round at least, and in no further one once these seconds are over."""
    moves, until = 0, time.monotonic() + seconds
    for turn in range(1, rounds + 1):
        for place, tag in enumerate(tags):
            world.cluster.move(slot_of(tag), (place + turn) % 3, pause=pause, at_once=at_once)
            writers.wait_for_turns()
            moves += 1
        if time.monotonic() > until:
            break
    return moves


@case
def counters_in_moves(world):
    return count_in_moves(world, world.proxy, rounds=9, seconds=5)


def count_in_moves(world, proxy, rounds, seconds):
    """Each counter ends at the number of its answered INCRs; no number is given twice."""
    tags = tags_of_nodes(world.cluster)
    counters = [key(tag, b"n%d" % number) for tag in tags for number in range(3)]
    ends = Ends(CLIENTS)

    def turn(client, number, count):
        client.send(b"".join(request("INCR", counter) for counter in counters))
        for counter, reply in zip(counters, client.lines(len(counters))):
            ends.add(number, counter, reply)

    with proxy.client() as client:
        client.value("DEL", *counters)
    with Writers(proxy, CLIENTS, turn) as writers:
        moves = move_round(world, writers, tags, rounds, seconds)
    with proxy.client() as client:
        for counter in counters:
            given = [[value for what, value in mine if what == counter] for mine in ends.answered]
            check(all(mine == sorted(mine) for mine in given), f"{counter}: a client's numbers went back")
            check_same(sorted(value for mine in given for value in mine), list(range(1, sum(map(len, given)) + 1)), f"numbers of {counter}")
            check_same(int(client.value("GET", counter)), sum(map(len, given)), counter)
    ends.check_all_answered()
    return f"{moves} moves, {ends.counts()}"


@case
def logs_in_moves(world):
    """Each answered token stands once, where its reply said, in its client's order."""
    tags = tags_of_nodes(world.cluster)
    logs = [key(tag, b"log") for tag in tags] + [b"log"]
    ends = Ends(CLIENTS)
    with Writers(world.proxy, CLIENTS, appends(logs, ends, at_once=5)) as writers:
        moves = move_round(world, writers, tags, rounds=9, seconds=5)
    with world.client() as client:
        for log in logs:
            check_log(client.value("GET", log), *log_of(ends, log))
    ends.check_all_answered()
    return f"{moves} moves, {ends.counts()}"


@case
def groups_in_moves(world):
    """Writers put one mark into three keys of one slot, readers read all three: no reader sees two marks.

    A group whose keys are at two nodes just then waits; none is given up.
    """
    tags = tags_of_nodes(world.cluster)
    ends = Ends(CLIENTS)

    def turn(client, number, count):
        for tag in tags:
            keys = [key(tag, name) for name in (b"x", b"y", b"z")]
            if number < CLIENTS // 2:
                mark = b"%d.%d" % (number, count)
                ends.add(number, (tag, mark), client.ask("MSET", *[word for it in keys for word in (it, mark)]))
            else:
                ends.add(number, tag, client.ask("MGET", *keys))

    with Writers(world.proxy, CLIENTS, turn) as writers:
        moves = move_round(world, writers, tags, rounds=9, seconds=5)
    ends.check_groups_answered(world.cluster.slowest_move)
    put, seen = ([value for mine in some for _, value in mine] for some in (ends.answered[: CLIENTS // 2], ends.answered[CLIENTS // 2 :]))
    check_same(set(put), {"OK"}, "replies to MSET of a group")
    for values in seen:
        check(len(values) == 3 and len(set(values)) == 1, f"half of a group was seen: {values}")
    check(len(seen) > 100, f"only {len(seen)} groups were read")
    return f"{moves} moves, {len(seen)} groups read"


@case
def new_groups_in_moves(world):
    """Each group of keys that are nowhere yet is put whole while its slot moves."""
    tag = tags_of_nodes(world.cluster)[0]
    ends = Ends(CLIENTS)

    def turn(client, number, count):
        words = [word for name in (b"x", b"y") for word in (key(tag, b"%s.%d.%d" % (name, number, count)), b"1")]
        ends.add(number, (number, count), client.ask("MSET", *words))

    with Writers(world.proxy, CLIENTS, turn, pause=0) as writers:
        for target in (1, 2, 0):
            world.cluster.move(slot_of(tag), target, pause=0.01, at_once=100)
            writers.wait_for_turns()
    ends.check_groups_answered(world.cluster.slowest_move)
    with world.client() as client:
        for number, count in [what for mine in ends.answered for what, _ in mine]:
            values = client.value("MGET", *[key(tag, b"%s.%d.%d" % (name, number, count)) for name in (b"x", b"y")])
            check_same(values, [b"1", b"1"], f"the group of client {number}, turn {count}")
    return ends.counts()


@case
def pipelines_in_moves(world):
    """Each client has keys of its own in slots that all move; its replies are those of one server."""
    tags = tags_of_nodes(world.cluster)
    scripts, found = [[] for _ in range(CLIENTS)], [[] for _ in range(CLIENTS)]
    chances = [random.Random(number) for number in range(CLIENTS)]
    # one key of a slot for a client, so that no group has keys at two nodes
    keys = [[key(tag, b"c%d" % number) for tag in tags] + [b"c%d" % number] for number in range(CLIENTS)]

    def turn(client, number, count):
        requests = some_requests(chances[number], 50, keys[number])
        client.send(b"".join(request(*words) for words in requests))
        scripts[number] += requests
        found[number] += client.replies(len(requests))

    with Writers(world.proxy, CLIENTS, turn, pause=0.01) as writers:
        moves = move_round(world, writers, tags, rounds=9, seconds=5, at_once=3)
    for requests, replies in zip(scripts, found):
        with world.plain.client() as plain:
            sender = threading.Thread(target=plain.send, args=(b"".join(request(*words) for words in requests),), daemon=True)
            sender.start()
            check_each_same(replies, plain.replies(len(requests)), requests)
    return f"{moves} moves, {sum(map(len, found))} replies"


@case
def moves_called_back(world):
    """A move that is called back before a key went over changes nothing: fifteen times, and three times at least on a slow machine."""
    tags = tags_of_nodes(world.cluster)
    counters = [key(tag, b"n") for tag in tags]
    with world.client() as client:
        for counter in counters:
            client.value("SET", counter, 0)
    ends, moves, until = Ends(CLIENTS), 0, time.monotonic() + 10

    def turn(client, number, count):
        for counter in counters:
            ends.add(number, counter, client.ask("INCR", counter))

    with Writers(world.proxy, CLIENTS, turn) as writers:
        while moves < 3 or moves < 15 and time.monotonic() < until:
            source = moves % 3
            slot, target = slot_of(tags[source]), (source + 1) % 3
            world.cluster.begin_move(slot, source, target)
            writers.wait_for_turns()
            world.cluster.call_back(slot, source, target)
            writers.wait_for_turns()
            moves += 1
    with world.client() as client:
        for counter in counters:
            check_same(int(client.value("GET", counter)), sum(what == counter for mine in ends.answered for what, _ in mine), counter)
    ends.check_all_answered()
    return f"{moves} moves called back, {ends.counts()}"


@case
def a_new_key_in_a_move(world):
    """While its slot moves, a key that the source has not is put at the target, by ASKING; the one that it has stays."""
    tag = tags_of_nodes(world.cluster)[2]
    slot, (old, new) = slot_of(tag), (key(tag, b"old"), key(tag, b"new"))
    with world.client() as client:
        check_same(client.ask("SET", old, "1"), b"+OK\r\n", "SET before the move")
        world.cluster.begin_move(slot, 2, 0)
        check_same(client.ask("SET", new, "2"), b"+OK\r\n", "SET of a new key in the move")
        check_same(client.ask("INCR", old), b":2\r\n", "INCR of a key that has not moved")
        check_same(client.ask("GET", new), b"$1\r\n2\r\n", "GET of a new key in the move")
        counts = [world.cluster.nodes[number].value("CLUSTER", "COUNTKEYSINSLOT", slot) for number in (2, 0)]
        check_same(counts, [1, 1], "keys at source and target")
        check_same(client.ask("MGET", old, new), GAVE_UP, "MGET of a group at two nodes")
        check_same(client.ask("MSET", old, "3", new, "3"), GAVE_UP, "MSET of a group at two nodes")
        check_same([client.ask("GET", it) for it in (old, new)], [b"$1\r\n2\r\n"] * 2, "nothing of it was put")
        while world.cluster.move_keys(slot, 2, 0):
            pass
        check_same(client.ask("MGET", old, new), b"*2\r\n$1\r\n2\r\n$1\r\n2\r\n", "MGET once both are at the target")
        world.cluster.end_move(slot, 2, 0)
        check_same(client.ask("MGET", old, new), b"*2\r\n$1\r\n2\r\n$1\r\n2\r\n", "MGET after the move")


@case
def a_slot_that_nobody_has(world):
    """Its commands are given up after sixteen CLUSTERDOWN; other slots go on, and so does this one once it is served."""
    tag = tags_of_nodes(world.cluster)[1]
    slot = slot_of(tag)
    for node in world.cluster.nodes:
        node.value("CLUSTER", "DELSLOTS", slot)
    try:
        with world.client() as client:
            check_same(client.ask("SET", key(tag, b"k"), "1"), GAVE_UP, "SET in a slot that nobody has")
            check_same(client.ask("SET", "a", "1"), b"+OK\r\n", "SET in another slot")
            client.send(request("SET", key(tag, b"k"), "1") + request("GET", "a") + request("GET", key(tag, b"k")))
            check_same(client.replies(3), [GAVE_UP, b"$1\r\n1\r\n", GAVE_UP], "a pipeline over both")
    finally:
        world.cluster.nodes[1].value("CLUSTER", "ADDSLOTS", slot)
    deadline = time.monotonic() + 60
    with world.client() as client:
        while client.ask("SET", key(tag, b"k"), "2") != b"+OK\r\n":
            check(time.monotonic() < deadline, "the slot is served again, and SET is still given up")
            time.sleep(0.1)
        check_same(client.ask("GET", key(tag, b"k")), b"$1\r\n2\r\n", "GET of the slot that is back")
