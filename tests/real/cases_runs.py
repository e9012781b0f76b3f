"""Long pipelines on keys of one slot: each client's commands are executed in its order, whatever happens to the slot meanwhile.

Each client has a thousand commands under way at once; on a slow machine as many as all clients together are answered in some seconds,
but no fewer than go together three times.
"""

import shutil
import time

from client import request
from cluster import slot_of, tag_of_slot, wait_until
from cases_faults import kill_connections
from cases_moves import key
from harness import case, check, check_each_same, check_same, check_time
from logs import check_log, check_lost_together
from writers import Ends, Writers, log_of

# How many clients there are, how many commands each has under way at once, the fewest, and the seconds that a turn of all may take.
CLIENTS, AT_ONCE, FEWEST, TURN = 20, 1000, 200, 2.0
# The seconds that a client pauses between two turns.
PAUSE = 0.1
# For how many seconds the slot moves, and how often at least; how often connections are killed, and how often at least.
SECONDS, MOVES, KILLS, FEWEST_KILLS = 4, 3, 10, 3
# So many commands of a client go to a node together at most.
TOGETHER = 64
# Seconds that a case may take, as a last resort.
LIMIT = 400


def commands_at_once(world, counter):
    """How many commands each client has under way, by what a turn of one client takes just now."""
    with world.client() as client:
        began = time.monotonic()
        client.send(request("INCR", counter) * AT_ONCE)
        client.replies(AT_ONCE)
        taken = CLIENTS * (time.monotonic() - began)
        client.value("DEL", counter)
    return max(FEWEST, int(AT_ONCE * min(1.0, TURN / taken)) // 10 * 10)


def increments(counters, ends, at_once):
    """A turn that counts each of some counters up in one pipeline of so many commands."""

    def turn(client, number, count):
        asked = counters * (at_once // len(counters))
        client.send(b"".join(request("INCR", counter) for counter in asked))
        for counter, reply in zip(asked, client.lines(len(asked))):
            ends.add(number, counter, reply)

    return turn


def move_to_and_fro(world, writers, tag):
    """Moves the tag's slot on from node to node; before the next move each client ends what it had under way."""
    moves, until = 0, time.monotonic() + SECONDS
    while moves < MOVES or time.monotonic() < until:
        moves += 1
        world.cluster.move(slot_of(tag), moves % 3, pause=0.01)
        writers.wait_for_turns()
    return moves


def check_counts(world, counters, ends):
    """Each counter ends at the number of its answered INCRs, no number is given twice, and no client's go back."""
    with world.client() as client:
        for counter in counters:
            given = [[value for what, value in mine if what == counter] for mine in ends.answered]
            check(all(mine == sorted(mine) for mine in given), f"{counter}: a client's numbers went back")
            check_same(sorted(value for mine in given for value in mine), list(range(1, sum(map(len, given)) + 1)), f"numbers of {counter}")
            check_same(int(client.value("GET", counter)), sum(map(len, given)), counter)
    ends.check_all_answered()


def counted_in_moves(world, names):
    tag = tag_of_slot(range(*world.cluster.ranges()[0]))
    counters, ends = [key(tag, name) for name in names], Ends(CLIENTS)
    at_once = commands_at_once(world, counters[0])
    with Writers(world.proxy, CLIENTS, increments(counters, ends, at_once), PAUSE) as writers:
        moves = move_to_and_fro(world, writers, tag)
    check_counts(world, counters, ends)
    return f"{moves} moves, {at_once} at once, {ends.counts()}"


@case(limit=LIMIT)
def pipelines_on_one_key_in_moves(world):
    """A thousand INCRs of one key at once by each client, while its slot moves."""
    return counted_in_moves(world, [b"n"])


@case(limit=LIMIT)
def pipelines_on_one_slot_in_moves(world):
    """The same over ten keys of one slot, some of which are at its target already."""
    return counted_in_moves(world, [b"n%d" % number for number in range(10)])


def append_all(log, ends, at_once):
    """A turn that appends so many tokens to a log in one pipeline."""

    def turn(client, number, count):
        tokens = [b"%d.%d.%d;" % (number, count, place) for place in range(at_once)]
        client.send(b"".join(request("APPEND", log, token) for token in tokens))
        for token, reply in zip(tokens, client.lines(at_once)):
            ends.add(number, (log, token), reply)

    return turn


def check_appended(world, log, ends):
    """An answered token stands once and in its place, a lost one at most once, and those that went together all or none."""
    with world.client() as client:
        stored, (answered, lost) = client.value("GET", log), log_of(ends, log)
    check_log(stored, answered, lost)
    return f"{ends.counts()}, in {check_lost_together(stored, lost, TOGETHER)} runs"


@case(limit=LIMIT)
def pipelines_on_one_key_and_killed_connections(world):
    """A thousand APPENDs to one key at once by each client, while connections are killed: ten times, or for some seconds."""
    log, ends, killed, times = key(tag_of_slot(range(*world.cluster.ranges()[0])), b"log"), Ends(CLIENTS), 0, 0
    at_once, until = commands_at_once(world, log), time.monotonic() + 4 * SECONDS
    with Writers(world.proxy, CLIENTS, append_all(log, ends, at_once), PAUSE) as writers:
        while times < FEWEST_KILLS or times < KILLS and time.monotonic() < until:
            time.sleep(0.1)
            killed += kill_connections(world.cluster.nodes[0])
            writers.wait_for_turns(1)
            times += 1
    return f"{killed} connections killed, {at_once} at once, {check_appended(world, log, ends)}"


@case(limit=LIMIT)
def pipelines_on_one_key_and_a_killed_node(world):
    """The same while the key's node, which keeps what it executed, is killed and comes back."""
    node, log, ends = world.cluster.nodes[0], key(tag_of_slot(range(*world.cluster.ranges()[0])), b"log"), Ends(CLIENTS)

    def kill_and_start(keeps="yes"):
        node.kill()
        node.start(keeps)
        wait_until(world.cluster.is_whole, "the cluster to be whole again")

    kill_and_start()
    try:
        at_once = commands_at_once(world, log)
        with Writers(world.proxy, CLIENTS, append_all(log, ends, at_once), PAUSE) as writers:
            for _ in range(FEWEST_KILLS):
                writers.wait_for_turns(1)
                time.sleep(0.1)
                kill_and_start()
            writers.wait_for_turns(1)
        note = f"{at_once} at once, {check_appended(world, log, ends)}"
    finally:
        shutil.rmtree(f"{node.folder}/appendonlydir")
        kill_and_start(keeps="no")
    check_time(ends.lost, "the node was killed while it had nothing to do")
    return note


@case
def errors_in_a_pipeline_on_one_slot(world):
    """A command that goes wrong leaves the others executed: the replies are those of one server."""
    requests = [("SET", "{t}text", "word"), ("SET", "{t}number", "1")]
    for number in range(200):
        requests += [("INCR", "{t}number"), ("INCR", "{t}text"), ("APPEND", "{t}text", "s"), ("INCRBY", "{t}number", "many")]
        requests += [("STRLEN", "{t}text"), ("DEL", "{t}gone"), ("INCR", "{t}gone"), ("MGET", "{t}number", "{t}gone")]
    with world.plain.client() as plain, world.client() as client:
        for it in (plain, client):
            it.send(b"".join(request(*words) for words in requests))
        check_each_same(client.replies(len(requests)), plain.replies(len(requests)), requests)
