"""Long pipelines, cut at odd places: the replies are those of one server, in the order of the requests."""

import random
import threading

from client import request
from harness import case, check, check_each_same, check_same, together


def some_requests(chance, count, keys):
    """Requests of every kind over a few keys, so that they meet one another often."""
    key = lambda: chance.choice(keys)
    word = lambda: chance.choice(["", "1", "-5", "12", "word", "x" * chance.randrange(200)])
    kinds = [
        lambda: ("GET", key()),
        lambda: ("SET", key(), word()),
        lambda: ("SET", key(), word(), chance.choice(["NX", "XX"])),
        lambda: ("SETNX", key(), word()),
        lambda: ("GETSET", key(), word()),
        lambda: ("GETDEL", key()),
        lambda: ("APPEND", key(), word()),
        lambda: ("STRLEN", key()),
        lambda: ("INCR", key()),
        lambda: ("DECR", key()),
        lambda: ("INCRBY", key(), chance.randrange(-9, 9)),
        lambda: ("DEL", *[key() for _ in range(chance.randrange(1, 6))]),
        lambda: ("EXISTS", *[key() for _ in range(chance.randrange(1, 6))]),
        lambda: ("MGET", *[key() for _ in range(chance.randrange(1, 9))]),
        lambda: ("MSET", *[it for _ in range(chance.randrange(1, 9)) for it in (key(), word())]),
        lambda: ("PING",),
        lambda: ("ECHO", word()),
        lambda: ("GET",),
        lambda: ("INCRBY", key(), "many"),
    ]
    return [chance.choice(kinds)() for _ in range(count)]


def some_keys(mark, count=12):
    return [f"{mark}.{number}" for number in range(count)] + [f"{{{mark}}}{number}" for number in range(count // 2)]


def wanted_of(world, requests):
    """What one server replies."""
    with world.plain.client() as plain:
        plain.send(b"".join(request(*words) for words in requests))
        return plain.replies(len(requests))


def cut(data, sizes):
    """The data in pieces of these sizes, as often as it takes."""
    pieces, at, turn = [], 0, 0
    while at < len(data):
        size = sizes[turn % len(sizes)]
        pieces.append(data[at : at + size])
        at, turn = at + size, turn + 1
    return pieces


def same_in_pieces(world, seed, sizes, count=1000):
    requests = some_requests(random.Random(seed), count, some_keys("k"))
    wanted = wanted_of(world, requests)
    with world.client() as client:
        pieces = cut(b"".join(request(*words) for words in requests), sizes)
        sender = threading.Thread(target=lambda: [client.send(piece) for piece in pieces], daemon=True)
        sender.start()
        found = client.replies(count)
        sender.join(60)
        check_each_same(found, wanted, requests)
        check_same(client.ask("PING"), b"+PONG\r\n", "after the pipeline")


@case
def a_thousand_in_one_piece(world):
    same_in_pieces(world, 1, [1 << 30])


@case
def a_thousand_byte_by_byte(world):
    same_in_pieces(world, 2, [1])


@case
def a_thousand_in_pieces_of_seven(world):
    same_in_pieces(world, 3, [7])


@case
def a_thousand_cut_at_odd_places(world):
    chance = random.Random(4)
    same_in_pieces(world, 4, [chance.choice([1, 2, 3, 5, 17, 97, 1009, 4093]) for _ in range(500)])


@case
def a_thousand_in_pieces_about_16384(world):
    same_in_pieces(world, 5, [16383, 16385, 1, 16384, 2])


@case
def twenty_thousand_in_one_piece(world):
    same_in_pieces(world, 6, [1 << 30], count=20000)


@case
def one_key_a_thousand_times(world):
    """Commands for one key are executed in the order in which they were sent."""
    with world.client() as client:
        client.send(b"".join(request("APPEND", "log", f"{number};") + request("STRLEN", "log") for number in range(1000)))
        length, wanted = 0, []
        for number in range(1000):
            length += len(f"{number};")
            wanted += [b":%d\r\n" % length] * 2
        check_same(client.replies(2000), wanted, "lengths")
        check_same(client.value("GET", "log"), b"".join(b"%d;" % number for number in range(1000)), "the log")


@case
def big_values_in_a_pipeline(world):
    values = [bytes([number]) * 65536 for number in range(64)]
    with world.client() as client:
        sending = b"".join(request("SET", f"k{number}", value) for number, value in enumerate(values))
        sending += b"".join(request("GET", f"k{number}") for number in range(64))
        sender = threading.Thread(target=client.send, args=(sending,), daemon=True)
        sender.start()
        check_same(client.replies(64), [b"+OK\r\n"] * 64, "SET of 64 KiB")
        for number, value in enumerate(values):
            check(client.reply() == b"$65536\r\n%s\r\n" % value, f"GET of value {number} of 64 KiB is another")
        sender.join(60)


@case
def twenty_pipelines_at_once(world):
    """Each client has its own keys, so that its replies are determined."""
    scripts = [some_requests(random.Random(100 + number), 1000, some_keys(f"c{number}")) for number in range(20)]
    wanted = [wanted_of(world, requests) for requests in scripts]

    def pipeline(number):
        with world.client() as client:
            pieces = cut(b"".join(request(*words) for words in scripts[number]), [1 + 97 * number, 4096])
            sender = threading.Thread(target=lambda: [client.send(piece) for piece in pieces], daemon=True)
            sender.start()
            check_each_same(client.replies(1000), wanted[number], scripts[number])
            sender.join(60)

    together(20, pipeline)
