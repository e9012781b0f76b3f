"""Many requests, many orders of ends, and changed bytes, for session_order."""

from binascii import crc_hqx
from heapq import heappop, heappush
from itertools import permutations

from table import Row, quoted, request, word
from wire import REQUESTS, SLOTS, Asked, changed, counted

OK = b"+OK\r\n"


class Turns:
    """Which part's turn it is: the earliest that was not handed out and waits for no earlier one of its slot."""

    def __init__(self):
        self.waiting = {}
        self.ready = []

    def add(self, number, key):
        slot = crc_hqx(key, 0) % 16384
        parts = self.waiting.setdefault(slot, [])
        parts.append((number, key, slot))
        if len(parts) == 1:
            heappush(self.ready, parts[0])

    def hand_out(self):
        return heappop(self.ready) if self.ready else None

    def end(self, part):
        parts = self.waiting[part[2]]
        parts.pop(0)
        if parts:
            heappush(self.ready, parts[0])


def feed(row, data):
    row.call("session feed " + quoted(data), str(len(data)))


def read(row, count):
    for _ in range(count):
        row.call("session read", "yes")
    row.call("session read", "no")


def end(row, number, reply):
    row.call(f"session ended 3.7.{number} answered {quoted(reply)}")


def requests_that_wait():
    """1,024 requests are read, and one more once a reply was drained; until then no byte is taken."""
    row = Row("a_thousand_and_twenty_four_requests_wait")
    ping = request(b"PING")
    row.call("session new 3 7")
    feed(row, ping * 1025)
    read(row, 1024)
    row.call("session feed *", "0")
    row.call("session drain", quoted(b"+PONG\r\n" * 1024))
    read(row, 1)
    row.call("session feed *", "1")
    return row


def requests_read_together():
    """The same by few calls, which are made again with each growth refused."""
    row = Row("a_thousand_and_twenty_four_requests_are_read_together")
    ping = request(b"PING")
    row.call("session new 3 7")
    feed(row, ping * 1025)
    row.call("session readall", "no")
    row.call("session feed *", "0")
    row.call("session drain", quoted(b"+PONG\r\n" * 1024))
    row.call("session readall", "no")
    row.call("session drain", quoted(b"+PONG\r\n"))
    return row


def any_order():
    """Three requests of two parts each, in all 720 orders of their ends: what is drained along the way is one."""
    row = Row("the_order_of_the_ends_does_not_show")
    keys = [b"a", b"b", b"c", b"d", b"e", b"f"]
    requests = b"".join(request(b"MGET", *keys[k : k + 2]) for k in (0, 2, 4))
    for order in permutations(range(6)):
        row.call("session new 3 7")
        feed(row, requests)
        read(row, 3)
        for number, key in enumerate(keys):
            row.call("session ready", f"3.7.{number} MGET {key.decode()}")
        row.call("session ready", "none")
        end_in(row, order, keys)
    return row


def end_in(row, order, keys):
    """Ends six parts in this order, and drains after each the replies that are next."""
    ended = set()
    drained = 0
    for number in order:
        end(row, number, b"*1\r\n$1\r\n" + keys[number] + b"\r\n")
        ended.add(number)
        out = b""
        while drained < 3 and {2 * drained, 2 * drained + 1} <= ended:
            out += request(*keys[2 * drained : 2 * drained + 2])
            drained += 1
        row.call("session drain", word(out))


def thousand_sets(name, keys, is_backwards):
    """SET of a thousand keys, read at once. What is ready is taken, and one part of it ended, the last or the first, and
    drained, until all have ended; a hundred times."""
    row = Row(name, times=100)
    row.call("session new 3 7")
    feed(row, b"".join(request(b"SET", key, b"1") for key in keys))
    read(row, len(keys))
    turns = Turns()
    for number, key in enumerate(keys):
        turns.add(number, key)
    end_all(row, turns, len(keys), is_backwards)
    return row


def end_all(row, turns, count, is_backwards):
    taken = []
    ended = set()
    drained = 0
    for _ in range(count):
        take_all(row, turns, taken)
        part = taken.pop(-1 if is_backwards else 0)
        end(row, part[0], OK)
        turns.end(part)
        ended.add(part[0])
        out = b""
        while drained in ended:
            out += OK
            drained += 1
        row.call("session drain", word(out))


def take_all(row, turns, taken):
    while (part := turns.hand_out()) is not None:
        row.call("session ready", f"3.7.{part[0]} SET {part[1].decode()} 1")
        taken.append(part)
    row.call("session ready", "none")


def twenty_requests():
    """Requests of three parts one after another, whose ends come last first, so that their places come round."""
    row = Row("twenty_requests_get_their_replies")
    keys = [b"a", b"b", b"c"]
    row.call("session new 3 7")
    for first in range(0, 60, 3):
        feed(row, request(b"MGET", *keys))
        read(row, 1)
        for place, key in enumerate(keys):
            row.call("session ready", f"3.7.{first + place} MGET {key.decode()}")
        row.call("session ready", "none")
        for place in (2, 1, 0):
            end(row, first + place, b"*1\r\n$1\r\n" + keys[place] + b"\r\n")
        row.call("session drain", quoted(request(*keys)))
    return row


# What each part of changed bytes is answered.
HELD = b"$1\r\n1\r\n"


def changed_bytes():
    """Two requests and an answer to CLUSTER SLOTS, cut off or with a byte replaced: whole they give the parts, the replies and
    the fault that they give byte by byte."""
    row = Row("changed_bytes_whole_and_byte_by_byte", note=counted([REQUESTS, SLOTS]))
    for text in (REQUESTS, SLOTS):
        for data in changed(text):
            asked = Asked(data, lambda _: HELD)
            read_changed_whole(row, data, asked)
            end_changed(row, asked)
            read_changed_bytes(row, data, asked)
            end_changed(row, asked)
    return row


def read_changed_whole(row, data, asked):
    row.call("session new 3 7")
    feed(row, data)
    for _, answer in sorted(asked.reads.items()):
        row.call("session read", answer)
    row.call("session read", asked.fault or "no")


def read_changed_bytes(row, data, asked):
    row.call("session new 3 7")
    for place in range(1, len(data) + 1):
        is_over = asked.fault and place > asked.place
        row.call("session feed " + quoted(data[place - 1 : place]), asked.fault if is_over else "1")
        row.call("session read", asked.fault if is_over else asked.reads.get(place, "no"))


def end_changed(row, asked):
    """Ends all parts and drains."""
    for number, key in enumerate(asked.keys):
        row.call("session ready", f"3.7.{number} GET {word(key)}")
    row.call("session ready", "none")
    for number in range(len(asked.keys)):
        end(row, number, HELD)
    row.call("session drain", word(asked.replies))
    row.call("session finished", "yes" if asked.fault else "no")


def rows():
    one = [b"1000"] * 1000
    different = [b"%d" % number for number in range(1000, 2000)]
    return [
        requests_that_wait(),
        requests_read_together(),
        any_order(),
        thousand_sets("a_thousand_sets_of_one_key", one, True),
        thousand_sets("a_thousand_sets_of_different_keys", different, True),
        thousand_sets("a_thousand_replies_one_at_a_time", different, False),
        twenty_requests(),
        changed_bytes(),
    ]
