"""Connections to nodes that are killed, nodes that stop, and nodes that die and come back."""

import time

from client import request
from cluster import Proxy, free_ports, slot_of, wait_until
from cases_moves import key, tags_of_nodes
from harness import Together, case, check, check_same, check_time, together
from logs import check_log
from writers import GAVE_UP, LOST, Ends, Writers, appends, log_of

CLIENTS = 20


def kill_connections(node):
    """Ends all connections of clients at a node, the proxy's among them."""
    return node.value("CLIENT", "KILL", "TYPE", "normal", "SKIPME", "yes")


def kill_often(world, writers):
    """Thirty times, six at least on a slow machine, each node in turn; each writer goes on between two of them."""
    killed, number, until = 0, 0, time.monotonic() + 15
    while number < 6 or number < 30 and time.monotonic() < until:
        time.sleep(0.05)
        killed += kill_connections(world.cluster.nodes[number % 3])
        writers.wait_for_turns(1)
        number += 1
    return killed


@case
def counters_and_killed_connections(world):
    """Each counter ends between its answered INCRs and those and the lost ones together."""
    counters = [key(tag, b"n") for tag in tags_of_nodes(world.cluster)]
    ends = Ends(CLIENTS)

    def turn(client, number, count):
        client.send(b"".join(request("INCR", counter) for counter in counters * 3))
        for counter, reply in zip(counters * 3, client.lines(len(counters) * 3)):
            ends.add(number, counter, reply)

    with Writers(world.proxy, CLIENTS, turn) as writers:
        killed = kill_often(world, writers)
    with world.client() as client:
        for counter in counters:
            given = sorted(value for mine in ends.answered for what, value in mine if what == counter)
            check_same(len(set(given)), len(given), f"numbers of {counter} that were given twice")
            most = len(given) + ends.lost.count(counter)
            held = int(client.value("GET", counter))
            check(len(given) <= held <= most, f"{counter} is {held}, with {len(given)} answered and {most - len(given)} lost")
    return f"{killed} connections killed, {ends.counts()}"


@case
def logs_and_killed_connections(world):
    """Each answered token stands once and in its client's order, each lost one at most once, no other at all."""
    logs = [key(tag, b"log") for tag in tags_of_nodes(world.cluster)]
    ends = Ends(CLIENTS)
    with Writers(world.proxy, CLIENTS, appends(logs, ends, at_once=5)) as writers:
        killed = kill_often(world, writers)
    with world.client() as client:
        for log in logs:
            check_log(client.value("GET", log), *log_of(ends, log))
    return f"{killed} connections killed, {ends.counts()}"


@case
def connections_killed_in_moves(world):
    """Slots move while connections are killed: eighteen times, three times at least on a slow machine."""
    tags = tags_of_nodes(world.cluster)
    logs = [key(tag, b"log") for tag in tags]
    ends, moves, until = Ends(CLIENTS), 0, time.monotonic() + 15
    with Writers(world.proxy, CLIENTS, appends(logs, ends, at_once=2)) as writers:
        while moves < 3 or moves < 18 and time.monotonic() < until:
            turn, place = divmod(moves, 3)
            tag, source, target = tags[place], (place + turn) % 3, (place + turn + 1) % 3
            world.cluster.begin_move(slot_of(tag), source, target)
            kill_connections(world.cluster.nodes[source])
            time.sleep(0.005)
            while world.cluster.move_keys(slot_of(tag), source, target):
                pass
            kill_connections(world.cluster.nodes[target])
            world.cluster.end_move(slot_of(tag), source, target)
            writers.wait_for_turns()
            moves += 1
    with world.client() as client:
        for log in logs:
            check_log(client.value("GET", log), *log_of(ends, log))
    return f"{moves} moves, {ends.counts()}"


@case
def an_idle_connection_killed(world):
    """A connection that nothing waits on is killed: the next command ends lost, or is executed once over a new one."""
    tag = tags_of_nodes(world.cluster)[1]
    counter, executed, lost = key(tag, b"n"), 0, 0
    with world.client() as client:
        for _ in range(20):
            kill_connections(world.cluster.nodes[1])
            time.sleep(0.02)
            reply = client.ask("INCR", counter)
            lost += reply == LOST
            executed += reply[:1] == b":"
            check(reply == LOST or reply[:1] == b":", f"INCR after a killed connection was answered {reply!r}")
        held = int(client.value("GET", counter) or 0)
        check(executed <= held <= executed + lost, f"{executed} answered, {lost} lost, the counter is {held}")
    return f"{executed} executed, {lost} lost"


@case
def a_node_that_stops_for_a_while(world):
    """Its commands wait and are answered when it goes on; other nodes' commands do not wait."""
    tags = tags_of_nodes(world.cluster)
    stopped, others = world.cluster.nodes[1], [key(tags[0], b"n"), key(tags[2], b"n")]
    with world.client() as client:
        client.value("SET", key(tags[1], b"n"), 0)

    def wait(number):
        with world.client() as client:
            client.send(request("INCR", key(tags[1], b"n")) * 10)
            return client.replies(10)

    def work(number):
        slowest, count, until = 0.0, 0, time.monotonic() + 2.5
        with world.client() as client:
            while time.monotonic() < until:
                began = time.monotonic()
                client.value("INCR", others[number % 2])
                slowest, count = max(slowest, time.monotonic() - began), count + 1
                time.sleep(0.002)
        return slowest, count

    stopped.stop()
    try:
        waiting = Together(10, wait)
        results = together(10, work)
        check(any(thread.is_alive() for thread in waiting.threads), "the stopped node answered")
    finally:
        stopped.go_on()
    given = sorted(reply for replies in waiting.join() for reply in replies)
    check_same(given, sorted(b":%d\r\n" % number for number in range(1, 101)), "INCRs that waited")
    slowest = max(slow for slow, _ in results)
    check_time(slowest < 2.0, f"a command of another node waited {slowest:.2f} seconds")
    return f"others: {sum(count for _, count in results)} commands, the slowest {1000 * slowest:.0f} ms"


@case
def a_client_behind_a_stopped_node(world):
    """A client's replies come in order: those after one that waits, wait too, and come when the node goes on."""
    tags = tags_of_nodes(world.cluster)
    with world.client() as client:
        world.cluster.nodes[2].stop()
        try:
            client.send(request("SET", key(tags[0], b"a"), "1") + request("SET", key(tags[2], b"b"), "2") + request("PING"))
            check_same(client.reply(), b"+OK\r\n", "the reply before the one that waits")
            client.socket.settimeout(0.5)
            try:
                check_same(client.reply(), None, "a reply out of order")
            except TimeoutError:
                pass
        finally:
            world.cluster.nodes[2].go_on()
        client.socket.settimeout(60)
        check_same(client.replies(2), [b"+OK\r\n", b"+PONG\r\n"], "the replies after it")


@case
def a_node_that_dies_and_comes_back(world):
    """While the seed is down its commands are lost or given up and the others' answered; once it is back it is served again."""
    node, tags = world.cluster.nodes[0], tags_of_nodes(world.cluster)
    with world.client() as client:
        for tag in tags:
            client.value("SET", key(tag, b"k"), "1")
        node.process.kill()
        node.process.wait()
        for turn in range(5):
            client.send(b"".join(request("INCR", key(tag, b"k")) for tag in tags))
            first, *rest = client.replies(3)
            check(first == GAVE_UP or turn == 0 and first == LOST, f"INCR at a dead node was answered {first!r}")
            check_same(rest, [b":%d\r\n" % (turn + 2)] * 2, "INCR at the other nodes")
        node.start()
        wait_until(world.cluster.is_whole, "the cluster to be whole again")
        check_same(client.ask("SET", key(tags[0], b"k"), "2"), b"+OK\r\n", "SET at the node that is back")
        check_same(client.ask("GET", key(tags[0], b"k")), b"$1\r\n2\r\n", "GET at the node that is back")


@case
def nobody_at_the_seed(world):
    """Commands are given up; what the proxy answers itself it answers."""
    alone = Proxy(world.room, world.program, free_ports(1)[0], name="alone")
    commands = [("GET", "a"), ("SET", "a", "1"), ("MGET", "a", "b", "c"), ("DEL", "a")]

    def work(number):
        with alone.client() as client:
            check_same(client.ask(*commands[number]), GAVE_UP, commands[number])
            check_same(client.ask("PING"), b"+PONG\r\n", "PING")

    try:
        together(len(commands), work)
    finally:
        alone.end()


@case
def any_node_may_be_the_seed(world):
    """One worker, or eight, before each node as the seed."""
    for node, workers in zip(world.cluster.nodes, [1, 8, 3]):
        other = Proxy(world.room, world.program, node.port, workers=workers, name="other")
        try:
            with other.client() as client:
                pairs = [word for number in range(300) for word in (f"key{number}", f"{workers}.{number}")]
                check_same(client.ask("MSET", *pairs), b"+OK\r\n", f"MSET with {workers} workers")
            with world.client() as client:
                check_same(client.value("MGET", *pairs[::2]), [it.encode() for it in pairs[1::2]], "the same keys by the other proxy")
        finally:
            other.end()
