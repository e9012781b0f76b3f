"""Many clients of two engines while slots move, and what a turn costs that moves nothing."""

import os
import random
import re
import sys

sys.path.append(os.path.join(os.path.dirname(os.path.abspath(__file__)), "..", "program"))

from answers import Fitting, one_of, slot_of, spelled
from store import Store
from table import Row, quoted, request

# Clients with keys of their own, and so many requests of each.
CLIENTS, REQUESTS = 10, 100

# Clients that count one counter up, and so many requests of each.
COUNTERS, COUNTS = 2, 50

# Each client comes to one of these.
ENGINES = ("engine", "other")

# So many slots move while the clients are served, with so many turns between two steps, each of either engine.
MOVES, TURNS = 24, 2

# So many parts of a client are begun at first.
AT_FIRST = 16

# Nanoseconds that a turn may take that moves nothing, on a machine that does much else.
MOST = 1_000_000


def engine_of(client):
    return ENGINES[client % len(ENGINES)]


def own_key(client, number):
    """A key of the client's own, alone in its slot."""
    return f"k{client}:{number}"


def pair_key(client, name):
    """One of the two keys of the client's that have one slot."""
    return f"{{c{client}}}{name}"


def own_words(chance, client):
    """The words of a request on keys that no other client has."""

    def key():
        return own_key(client, chance.randrange(4))

    def value():
        return f"v{chance.randrange(1_000)}"

    first, second = pair_key(client, "a"), pair_key(client, "b")
    makers = 2 * [lambda: ["SET", key(), value()]] + [
        lambda: ["GET", key()],
        lambda: ["INCR", key()],
        lambda: ["APPEND", key(), value()],
        lambda: ["GETDEL", key()],
        lambda: ["STRLEN", key()],
        lambda: ["MSET", first, value(), second, value()],
        lambda: ["MGET", first, second],
        lambda: ["EXISTS", key(), key()],
        lambda: ["MGET", key(), key()],
    ]
    return chance.choice(makers)()


def own_requests(client):
    chance = random.Random(client)
    return [own_words(chance, client) for _ in range(REQUESTS)]


class Counting(Store):
    """A store that knows what is no integer."""

    def incr(self, key):
        if not re.fullmatch("0|-?[1-9][0-9]*", self.values.get(key, "0")):
            return "error ERR value is not an integer or out of range"
        return super().incr(key)


def replies_of_one_store(requests):
    store = Counting()
    return b"".join(spelled(store.apply(words)) for words in requests)


def moved_key(number):
    """Of a client's pair, of one of its other keys, or of the counter."""
    client = number % CLIENTS
    return [pair_key(client, "a"), own_key(client, number % 4), "shared"][number % 3]


def add_move(row, chance, slot, target):
    """The steps by which a slot with two keys at the most moves, with turns between, each of an engine at random."""
    keys = 2 * [(f"nodes movekey {slot}", one_of("ok", "NotNow"))]
    steps = [(f"nodes import {slot} {target}", "ok"), (f"nodes migrate {slot}", "ok"), *keys]
    for call, wanted in [*steps, (f"nodes own {slot}", "ok"), (f"nodes release {slot}", "ok")]:
        for engine in chance.choices(ENGINES, k=TURNS):
            row.call(f"{engine} turn 1", one_of("moved", "rests"))
        row.call(call, wanted)


def add_moves(row):
    """Slots move, each to the next node from where it is. They are the last node's at first."""
    owners, chance = {}, random.Random(MOVES)
    for number in range(MOVES):
        slot = slot_of(moved_key(number))
        owners[slot] = (owners.get(slot, 2) + 1) % 3
        add_move(row, chance, slot, owners[slot])


def counted(held, client):
    """What a client that counts holds: integers that grow. With those of the other one they are all from 1 on."""

    def test(answer):
        found = re.fullmatch(r'"((?::\d+\\r\\n)+)" (\d+)', answer)
        if not found:
            return False
        numbers = held[client] = [int(number) for number in re.findall(r":(\d+)", found.group(1))]
        if numbers != sorted(numbers) or len(numbers) != COUNTS or int(found.group(2)) != COUNTS:
            return False
        return len(held) < COUNTERS or sorted(sum(held.values(), [])) == list(range(1, COUNTERS * COUNTS + 1))

    return Fitting("integers that grow, each once", test)


def each_client_is_served_as_by_one_store():
    """Each client's replies are those of one store, and those of the counter, for which clients of both engines ask, are all numbers once,
    while slots move all the time and nodes give refusals that any node may give. Then both rest."""
    row = Row("each_client_is_served_as_by_one_store")
    asked = [own_requests(client) for client in range(CLIENTS)] + COUNTERS * [COUNTS * [["INCR", "shared"]]]
    row.call("nodes refuse")
    for engine in ENGINES:
        row.call(f"{engine} begin")
    for client, requests in enumerate(asked):
        data = b"".join(request(*(word.encode() for word in words)) for words in requests)
        row.call(f"{engine_of(client)} client {client} {quoted(data)}")
    add_moves(row)
    for engine in ENGINES:
        row.call(f"{engine} turn 1", "moved")
        row.call(f"{engine} turn 2000", "moved")
        row.call(f"{engine} turn 4", "rests")
    for client, requests in enumerate(asked[:CLIENTS]):
        wanted = quoted(replies_of_one_store(requests))
        row.call(f"{engine_of(client)} held {client}", Fitting(wanted, lambda answer, wanted=wanted: answer.startswith(wanted + " ")))
    held = {}
    for client in range(CLIENTS, CLIENTS + COUNTERS):
        row.call(f"{engine_of(client)} held {client}", counted(held, client))
    return row


def a_client_that_is_gone_drops_what_was_not_posted():
    """The client is gone while as many GETs are posted as are begun at first, and SET waits behind them: they run to their ends, the
    first at the seed and at the node that it named, and SET is dropped."""
    row = Row("a_client_that_is_gone_drops_what_was_not_posted")
    asked = AT_FIRST * request(b"GET", b"a") + request(b"SET", b"a", b"1")
    replies = AT_FIRST * b"$-1\r\n" + b"+OK\r\n"
    row.call("engine begin")
    row.call(f"engine client 0 {quoted(asked)}")
    row.call("engine turn 1", "moved")
    row.call(f"engine hears 0 {quoted(replies)}")
    row.call("engine turn 2000", "moved")
    row.call("nodes served", f"{AT_FIRST + 1}")
    row.call("engine held 0", f"{quoted(replies)} {AT_FIRST}")
    return row


def a_turn_that_moves_nothing_is_cheap():
    """A link is open and the map is there; then 100,000 turns of an engine, its worker's and its carrier's, move nothing."""
    row = Row("a_turn_that_moves_nothing_is_cheap")
    row.call("engine begin")
    row.call("engine turn 100", "moved")
    row.call("engine time 100000", f"at most {MOST}")
    return row


def rows():
    return [
        each_client_is_served_as_by_one_store(),
        a_client_that_is_gone_drops_what_was_not_posted(),
        a_turn_that_moves_nothing_is_cheap(),
    ]
