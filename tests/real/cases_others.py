"""Two proxies before one cluster, beside clients that ask its nodes themselves, while slots move, connections are cut and nodes stop.

What all of them were told has one legal order. Whoever moves slots waits for all of them: between two moves of one slot each client ends a
turn, so that no command that an ASK sent in the first meets the second.
"""

import random
import time

from cases_faults import kill_connections
from cases_moves import key, move_round, tags_of_nodes
from client import request, value_of
from cluster import Proxy, slot_of, tag_of_slot
from cluster_client import ClusterClient
from harness import Failed, case, check, check_same, check_time
from legal_orders import GRAIN, Command, NoOrder, legal_order
from writers import GAVE_UP, LOST, Writers

# Clients of the two proxies, those that ask the nodes themselves, and the commands of each in one turn.
CLIENTS, DIRECT, AT_ONCE = 24, 12, 2
# Clients that ask two proxies by turns.
CHANGING = 8
# Seconds between two turns of a client, seconds of moves, how many there are at least and at most, and seconds for which a node stops.
PAUSE, SECONDS, FEWEST, MOST, STOPPED = 0.025, 4, 6, 36, 0.15
# What they send, for two keys of one slot, `s` and `n`: `@` is a value that is put once only, `#` such a number.
COMMANDS = [
    *["GET s", "GET n", "MGET s n", "STRLEN s", "EXISTS s n", "SET s @", "SET s @ NX", "SET s @ XX", "SETNX s @", "GETSET s @"],
    *["APPEND s @", "APPEND s @", "GETDEL s", "DEL s", "DEL n s", "INCR n", "INCR n", "DECR n", "INCRBY n 7", "MSET s @ n #"],
]
# What is sent to the nodes besides, with so many milliseconds.
TIMES = ["PEXPIRE s 5", "PEXPIRE s 30", "PEXPIRE n 15", "PEXPIRE n 60"]


class Through:
    """A client of one or two proxies. It sends what belongs to one turn together, to each of them in turn."""

    def __init__(self, *proxies):
        self.clients, self.turns = [it.client() for it in proxies], 0

    def __enter__(self):
        return self

    def __exit__(self, *_):
        for client in self.clients:
            client.close()

    def interrupt(self):
        for client in self.clients:
            client.interrupt()

    def run(self, requests):
        """Each request, when it was sent, its reply, and when this came."""
        client, sent = self.clients[self.turns % len(self.clients)], time.monotonic()
        self.turns += 1
        client.send(b"".join(request(*words) for words in requests))
        return [(words, sent, client.reply(), time.monotonic()) for words in requests]


class Direct(ClusterClient):
    """A client of the nodes, that asks one by one."""

    def run(self, requests):
        return [(words, time.monotonic(), self.ask(*words), time.monotonic()) for words in requests]


class Everybody:
    """Clients of both proxies, of either alone and of the two by turns, and of the nodes, each with some requests a turn."""

    def __init__(self, world, proxies, tags):
        self.world, self.proxies, self.tags = world, proxies, tags
        self.chances = [random.Random(number) for number in range(CLIENTS + DIRECT)]
        self.commands, self.gave_up, self.direct = [[] for _ in range(CLIENTS + DIRECT)], [], []

    def connect(self, number):
        if number >= CLIENTS:
            self.direct.append(Direct([node.port for node in self.world.cluster.nodes]))
            return self.direct[-1]
        return Through(*[self.proxies[:1], self.proxies[1:], self.proxies][number % 3])

    def turn(self, client, number, count):
        self.add(number, client.run([self.some_request(number, count, place) for place in range(AT_ONCE)]))

    def some_request(self, number, count, place):
        chance = self.chances[number]
        tag = chance.choice(self.tags)
        meant = {"s": key(tag, b"s"), "n": key(tag, b"n"), "@": b"%d.%d.%d;" % (number, count, place)}
        meant["#"] = b"%d" % ((count * AT_ONCE + place) * 100_000 + number * 1000)
        words = chance.choice(COMMANDS if number < CLIENTS else COMMANDS + TIMES)
        return tuple(meant.get(word) or word.encode() for word in words.split())

    def add(self, number, done):
        for words, sent, reply, replied in done:
            if reply == GAVE_UP:
                self.gave_up.append(words)
            elif reply[:1] == b"-" and reply != LOST:
                raise Failed(f"{words} was answered {reply!r}")
            else:
                self.commands[number].append(Command(number, sent, replied, words, LOST if reply == LOST else value_of(reply)))

    def read_all(self):
        """One more client reads each key, once all others have ended."""
        with self.connect(CLIENTS) as client:
            self.commands.append([])
            self.add(-1, client.run([(b"GET", key(tag, name)) for tag in self.tags for name in (b"s", b"n")]))

    def check_order(self):
        """A legal order for each slot, and how many keys had to go in it."""
        gone, places = 0, 0
        for tag in self.tags:
            mine = [it for commands in self.commands for it in commands if slot_of(it.words[1]) == slot_of(tag)]
            try:
                order, tried = legal_order(mine)
            except NoOrder as fault:
                raise Failed(f"slot of {tag}: {fault}") from None
            gone += sum(isinstance(event, bytes) for event in order)
            places += tried
        return gone, places

    def counts(self):
        answered, lost, direct = 0, 0, 0
        for number, commands in enumerate(self.commands):
            gone = sum(it.reply is LOST for it in commands)
            answered, lost, direct = answered + len(commands) - gone, lost + gone, direct + (number >= CLIENTS) * len(commands)
        asked = sum(client.asked for client in self.direct)
        check_time(asked > 0, "no ASK was followed by a client of the nodes")
        return f"{answered} answered, {lost} lost, {len(self.gave_up)} given up, {direct} by the nodes themselves, {asked} times behind ASK"


def some_tags(cluster):
    """Four tags for each node, in turn."""
    quarters = [[slot for slot in range(first, last + 1) if slot % 4 == number] for number in range(4) for first, last in cluster.ranges()]
    return [tag_of_slot(set(quarter)) for quarter in quarters]


def stop_for_a_while(node):
    node.stop()
    try:
        time.sleep(STOPPED)
    finally:
        node.go_on()


def move_in_trouble(world, writers, tags):
    """Moves one slot after another; in a third of the moves links are cut, in another third nodes stop."""
    nodes, moves, until = world.cluster.nodes, 0, time.monotonic() + SECONDS
    while moves < FEWEST or moves < MOST and time.monotonic() < until:
        turn, place = divmod(moves, len(tags))
        slot, source, target = slot_of(tags[place]), (place + turn) % 3, (place + turn + 1) % 3
        trouble = [lambda node: time.sleep(0.01), kill_connections, stop_for_a_while][(moves + turn) % 3]
        world.cluster.begin_move(slot, source, target)
        trouble(nodes[source])
        while world.cluster.move_keys(slot, source, target, at_once=1):
            time.sleep(0.01)
        trouble(nodes[target])
        world.cluster.end_move(slot, source, target)
        writers.wait_for_turns()
        moves += 1
    return moves


@case(limit=240)
def everybody_has_one_legal_order(world):
    """24 clients over two proxies, 12 that ask the nodes and give keys a time, twelve slots that move, links that are cut, nodes that stop."""
    other = Proxy(world.room, world.program, world.cluster.nodes[1].port, name="beside")
    try:
        tags = some_tags(world.cluster)
        everybody, clocks = Everybody(world, [world.proxy, other], tags), (time.monotonic(), time.time())
        with Writers(None, CLIENTS + DIRECT, everybody.turn, PAUSE, everybody.connect) as writers:
            moves = move_in_trouble(world, writers, tags)
        everybody.read_all()
        seconds, by_nodes = time.monotonic() - clocks[0], time.time() - clocks[1]
        check_time(abs(seconds - by_nodes) < GRAIN * (1 + seconds), "the clock that the nodes read was put forward or back")
        check(not other.has_ended(), f"the other proxy ended: {other.said()}")
    finally:
        other.end()
    began = time.monotonic()
    gone, places = everybody.check_order()
    note = f"{moves} moves, {everybody.counts()}; {gone} keys went in time; {places} places in {time.monotonic() - began:.1f} s"
    check_time(gone > 0, note)
    return note


class Two:
    """Two proxies, each with a client of its own, and a client that asks the nodes."""

    def __init__(self, world):
        self.other = Proxy(world.room, world.program, world.cluster.nodes[2].port, name="beside")
        self.proxies = [world.proxy, self.other]
        self.clients = [proxy.client() for proxy in self.proxies]
        self.direct = ClusterClient([node.port for node in world.cluster.nodes])

    def __enter__(self):
        return self

    def __exit__(self, *_):
        for client in [*self.clients, self.direct]:
            client.interrupt()
        self.other.end()


@case
def set_through_one_read_through_the_other(world):
    """At once, also while the slot moves; and what the nodes themselves were asked to set."""
    with Two(world) as two:
        tags = tags_of_nodes(world.cluster)
        for count in range(30):
            writer, reader = two.clients[count % 2], two.clients[(count + 1) % 2]
            for place, tag in enumerate(tags):
                if count == 10:
                    world.cluster.begin_move(slot_of(tag), place, (place + 1) % 3)
                if count == 20:
                    while world.cluster.move_keys(slot_of(tag), place, (place + 1) % 3):
                        pass
                    world.cluster.end_move(slot_of(tag), place, (place + 1) % 3)
                for asked in (writer, two.direct):
                    # one key in three is new in each turn
                    name, value = key(tag, b"%d" % (count if count % 3 == 0 else 0)), b"%d.%d" % (count, asked is writer)
                    check_same(asked.ask("SET", name, value), b"+OK\r\n", f"SET in turn {count}")
                    for client in (reader, writer, two.direct):
                        check_same(client.ask("GET", name), b"$%d\r\n%s\r\n" % (len(value), value), f"GET behind it, in turn {count}")


@case
def a_key_that_expires_through_both(world):
    """It is there until it is due, and afterwards gone through both; what is set through one proxy meanwhile, the other reads."""
    slowest = 0.0
    with Two(world) as two:
        for tag in tags_of_nodes(world.cluster):
            name = key(tag, b"k")
            check_same(two.clients[0].ask("SET", name, "1"), b"+OK\r\n", "SET")
            due = time.monotonic() + 0.15 - GRAIN
            check_same(two.direct.ask("PEXPIRE", name, 150), b":1\r\n", "PEXPIRE")
            set_by = time.monotonic() + 0.15
            gone = [False, False]
            while not all(gone):
                for number, client in enumerate(two.clients):
                    is_there = client.ask("EXISTS", name) == b":1\r\n"
                    now = time.monotonic()
                    check(is_there or now > due, f"the key was gone {due - now:.3f} seconds too early")
                    check(not (is_there and any(gone)), "the key was gone and is there again")
                    check_time(not is_there or now < set_by + 2, "the key is there two seconds after it was due")
                    gone[number] = not is_there
            slowest = max(slowest, time.monotonic() - set_by)
            check_same(two.clients[1].ask("SETNX", name, "2"), b":1\r\n", "SETNX of the key that is gone")
            check_same(two.clients[0].ask("GET", name), b"$1\r\n2\r\n", "GET through the first proxy")
            check_same(two.direct.ask("PERSIST", name), b":0\r\n", "PERSIST of a key that SETNX put")
    return f"gone through both {1000 * slowest:.0f} ms behind the moment at most"


@case
def a_client_that_changes_proxies(world):
    """Each of eight clients asks the two proxies by turns, while slots move: its own counter goes by one, a shared one up."""
    other = Proxy(world.room, world.program, world.cluster.nodes[1].port, name="beside")
    tags, (own, last) = tags_of_nodes(world.cluster), ([[0] * 3 for _ in range(CHANGING)] for _ in range(2))

    def turn(client, number, count):
        for place, tag in enumerate(tags):
            # three commands for a slot, so that each is another proxy's in the next one
            for name in (b"own%d" % number, b"shared", b"own%d" % number):
                ((_, _, reply, _),) = client.run([("INCR", key(tag, name))])
                if name == b"shared":
                    check(value_of(reply) > last[number][place], f"a shared counter went from {last[number][place]} to {reply!r}")
                    last[number][place] = value_of(reply)
                else:
                    own[number][place] += 1
                    check_same(reply, b":%d\r\n" % own[number][place], f"the own counter of client {number}")

    try:
        with Writers(None, CHANGING, turn, connect=lambda number: Through(world.proxy, other)) as writers:
            moves = move_round(world, writers, tags, rounds=4, seconds=3)
        with world.client() as client:
            for tag in tags:
                check_same(int(client.value("GET", key(tag, b"shared"))), sum(writers.turns), "a shared counter")
    finally:
        other.end()
    return f"{moves} moves, {sum(writers.turns) * 9} commands"
