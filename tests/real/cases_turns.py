"""Clients whose requests or replies are large, and what others wait beside them."""

import socket
import statistics
import threading
import time

from cases_idle import percent_of_core
from client import request
from cluster import Proxy, keys_of_slots, processor_seconds, wait_until
from harness import Together, case, check_same, check_time

# Slots of each request of those that ask for much, and how many ask. On a slow machine the slots that are answered in so many
# milliseconds, but so many at least: as many as go to the nodes at once.
WIDTH, WIDE, WIDE_MILLISECONDS, NARROWEST = 12_000, 12, 500, 1_200
# Milliseconds that a late client's GET may take at the median beside them, or what so many slots take: less than a third of those
# that are asked for. Machines differ.
MOST_WAITED, MOST_SLOTS = 100, 8_000
# The seconds after which no more is asked beside them, and how often it is asked at least.
SECONDS, FEWEST = 20, 10
# The bytes of a large reply, on a slow machine what it takes in as many seconds, but so many at least; and the seconds for which it is
# read, 64 KiB at a time.
LARGE, LARGE_SECONDS, SMALLEST, PIECE, READING = 100_000_000, 2.0, 20_000_000, 65536, 3.0
# What the proxy may use of a processor meanwhile, in percent, on a slow machine what it took to take in as many bytes; and milliseconds
# that another client's PING may take, or so many times the longest that one server takes just then.
MOST_PERCENT, MOST_DELAYED, MOST_TIMES = 8, 100, 3


def waits(clients, words, wanted, count):
    """Milliseconds that each of so many requests took, by each of the clients in turn."""
    taken, until = [[] for _ in clients], time.monotonic() + SECONDS
    while len(taken[0]) < FEWEST or len(taken[0]) < count and time.monotonic() < until:
        for client, mine in zip(clients, taken):
            began = time.monotonic()
            check_same(client.ask(*words), wanted, "a client beside others")
            mine.append(1000 * (time.monotonic() - began))
        time.sleep(0.005)
    return taken


def milliseconds_of(client, count):
    """What a request of so many slots takes, the second time."""
    asked = request("MGET", *keys_of_slots(0, 16383, count))
    for _ in range(2):
        began = time.monotonic()
        client.send(asked)
        client.reply()
    return 1000 * (time.monotonic() - began)


@case(limit=240)
def wide_requests_leave_room(world):
    """Each of twelve clients of one worker has two requests under way, of 12,000 slots each; a late client asks for one key."""
    stop = threading.Event()
    answered = [0] * WIDE

    def ask(number):
        with proxy.client(limit=200) as client:
            client.send(wide)
            while not stop.is_set():
                client.send(wide)
                client.reply()
                answered[number] += 1
            client.reply()

    proxy = Proxy(world.room, world.program, world.cluster.nodes[0].port, workers=1, name="wide")
    try:
        with proxy.client() as late:
            slot = milliseconds_of(late, NARROWEST) / NARROWEST
            width = min(WIDTH, max(NARROWEST, int(WIDE_MILLISECONDS / slot)))
            wide = request("MGET", *keys_of_slots(0, 16383, width))
            asking = Together(WIDE, ask)
            time.sleep(1)
            (taken,) = waits([late], ("GET", "late"), b"$-1\r\n", 20)
        stop.set()
        asking.join()
    finally:
        proxy.end()
    middle, most = statistics.median(taken), max(taken)
    note = f"a late GET: {middle:.1f} ms at the median, {most:.0f} at most, of {1000 * slot:.1f} us a slot; "
    note += f"{min(answered)} to {max(answered)} of the requests of {width} slots each"
    check_time(max(answered) <= 2 * min(answered) + 2, note)
    check_time(middle < max(MOST_WAITED, MOST_SLOTS * slot), note)
    return note


@case(limit=240)
def a_large_reply_read_slowly(world):
    """100 MB that a client reads 64 KiB at a time: the proxy moves no byte of it again and again."""
    process = world.proxy.process
    with world.client(receive_buffer=PIECE) as slow, world.client() as other, world.plain.client() as direct:
        began = time.monotonic()
        check_same(slow.ask("SET", "large", "v" * (LARGE // 25)), b"+OK\r\n", "SET")
        size = max(SMALLEST, int(LARGE * min(1.0, LARGE_SECONDS / 25 / (time.monotonic() - began))))
        used = processor_seconds(process)
        check_same(slow.ask("SET", "large", "v" * size), b"+OK\r\n", "SET")
        used = processor_seconds(process) - used
        slow.send(request("GET", "large"))
        stop = threading.Event()

        def read():
            count = 0
            while not stop.is_set() and count < size:
                count += len(slow.socket.recv(PIECE))
                time.sleep(READING * PIECE / size)
            return count

        wait_until(lambda: slow.socket.recv(1, socket.MSG_PEEK), "the reply")
        time.sleep(1)
        reader = Together(1, lambda number: read())
        asker = Together(1, lambda number: waits([other, direct], ("PING",), b"+PONG\r\n", 200))
        percent = percent_of_core(process, 1.5)
        ((taken, directly),) = asker.join()
        stop.set()
        (count,) = reader.join()
    most = MOST_PERCENT if size == LARGE else max(MOST_PERCENT, 100 * used / READING)
    note = f"{percent:.0f} % of a core, of {most:.0f}, {count >> 20} MiB of {size >> 20} read; "
    note += f"PING {statistics.median(taken):.1f} ms at the median, {max(taken):.0f} at most, directly {max(directly):.0f}"
    check_time(percent < most, note)
    check_time(max(taken) < max(MOST_DELAYED, MOST_TIMES * max(directly)), note)
    return note
