"""What an idle proxy costs, and how fast it wakes."""

import resource
import socket
import statistics
import struct
import time

from client import request
from cluster import Proxy, is_within, processor_seconds, resident_mebibytes
from harness import case, check, check_same, check_time

SECONDS = 4.0
# Aimed at is half a percent of a core; a shared machine's clock is not that exact. A slow machine may take for it what it takes for
# so many commands a second.
MOST_PERCENT, MOST_COMMANDS = 2.0, 5
# Microseconds that a GET after a pause may take, and on a slow machine so many times what one server takes.
MOST_WAITED, MOST_TIMES = 20_000, 40
# So many silent clients, where the machine allows them, and how many times as long another's requests may take beside them.
SILENT, MOST_LONGER = 4000, 3
# In mebibytes: what may stay after clients with big values have left.
MOST_KEPT = 32
# Bytes of a large value, and how many there are, on a slow machine half of them; and in mebibytes what may stay after clients that
# were served all of them. Seconds that a value may take, and after which no further client of a kind comes.
LARGE, COUNT, MOST_LEFT, VALUE_SECONDS, SECONDS_OF_CLIENTS = 4 * 2**20, 16, 16, 0.5, 20


def percent_of_core(process, seconds=SECONDS):
    """What a process uses of a processor within some seconds that begin a moment from now."""
    time.sleep(0.5)
    before, began = processor_seconds(process), time.monotonic()
    time.sleep(seconds)
    return 100 * (processor_seconds(process) - before) / (time.monotonic() - began)


def percent_of_commands(proxy, per_second, words=("GET", "a"), count=100):
    """The share of a core that so many commands a second would take, by what a client takes that asks for one at a time."""
    with proxy.client() as client:
        used = processor_seconds(proxy.process)
        for _ in range(count):
            client.ask(*words)
        return 100 * per_second * (processor_seconds(proxy.process) - used) / count


@case
def idle_costs_nothing(world):
    clients = [world.client() for _ in range(50)]
    for client in clients:
        check_same(client.ask("PING"), b"+PONG\r\n", "PING")
        client.ask("GET", "a")
    percent = percent_of_core(world.proxy.process)
    for client in clients:
        check_same(client.ask("PING"), b"+PONG\r\n", "PING after the pause")
        client.close()
    most = max(MOST_PERCENT, percent_of_commands(world.proxy, MOST_COMMANDS))
    note = f"{percent:.3f} % of a core with 50 idle clients, of {most:.1f}"
    check_time(percent < most, note)
    return note


@case
def a_client_alone_that_falls_silent_costs_nothing(world):
    """The thread that served it sleeps as others do."""
    with world.client() as client:
        for _ in range(1000):
            client.ask("GET", "a")
        percent = percent_of_core(world.proxy.process)
        check_same(client.ask("PING"), b"+PONG\r\n", "PING after the pause")
    most = max(MOST_PERCENT, percent_of_commands(world.proxy, MOST_COMMANDS))
    note = f"{percent:.3f} % of a core once one client fell silent, of {most:.1f}"
    check_time(percent < most, note)
    return note


@case
def silent_clients_cost_others_little(world):
    """A client's requests beside thousands of clients that asked once and then say nothing. Each of these is answered again."""

    def taken(client):
        began = time.perf_counter()
        for _ in range(300):
            client.ask("GET", "a")
        return time.perf_counter() - began

    with world.client() as client:
        client.ask("SET", "a", "1")
        alone = min(taken(client) for _ in range(3))
        silent = [world.client() for _ in range(min(SILENT, resource.getrlimit(resource.RLIMIT_NOFILE)[0] // 4))]
        for it in silent:
            check_same(it.ask("GET", "a"), b"$1\r\n1\r\n", "GET of a client that will be silent")
        beside = min(taken(client) for _ in range(3))
        for it in silent:
            check_same(it.ask("GET", "a"), b"$1\r\n1\r\n", "GET of a client that was silent")
            it.close()
    note = f"300 GETs in {1000 * alone:.1f} ms alone, in {1000 * beside:.1f} beside {len(silent):,} silent clients"
    check_time(beside < MOST_LONGER * alone, note)
    return note


@case
def it_wakes_at_once(world):
    """A request after a pause is answered as fast as one server answers it, within a few milliseconds."""

    def times(client):
        client.ask("SET", "a", "1")
        taken = []
        for _ in range(100):
            time.sleep(0.01)
            began = time.perf_counter()
            client.ask("GET", "a")
            taken.append(time.perf_counter() - began)
        return statistics.median(taken) * 1e6

    with world.client() as client, world.plain.client() as plain:
        direct, through = times(plain), times(client)
    most = max(MOST_WAITED, MOST_TIMES * direct)
    check_time(through < most, f"{through:.0f} microseconds for a GET after a pause, {direct:.0f} directly")
    return f"median {through:.0f} microseconds, directly {direct:.0f}"


@case
def memory_is_given_back(world):
    """Of a proxy's own: 50 clients ask for 50 MiB in pipelines; after they left it holds a few megabytes more than before."""
    proxy = Proxy(world.room, world.program, world.cluster.nodes[0].port, name="memory")
    try:
        with proxy.client() as client:
            client.ask("SET", "big", "v" * 65536)
        before = most = resident_mebibytes(proxy.process)
        clients = [proxy.client() for _ in range(50)]
        for client in clients:
            client.send(request("GET", "big") * 16)
        for client in clients:
            check_same([len(it) for it in client.replies(16)], [65536 + 10] * 16, "lengths of replies")
            most = max(most, resident_mebibytes(proxy.process))
            client.close()
        is_within(2, lambda: resident_mebibytes(proxy.process) < before + MOST_KEPT)
        after = resident_mebibytes(proxy.process)
    finally:
        proxy.end()
    note = f"resident {before:.0f} MiB before, {most:.0f} at most, {after:.0f} after"
    check_time(after < before + MOST_KEPT, note)
    return note


@case(limit=300)
def what_a_client_left_behind(world):
    """Of a proxy's own: clients that were served large replies, read or reset in the midst of them, leave little behind."""
    variables = {"MALLOC_TRIM_THRESHOLD_": "131072", "MALLOC_MMAP_THRESHOLD_": "131072"}
    proxy = Proxy(world.room, world.program, world.cluster.nodes[0].port, name="left", variables=variables)
    keys, began = [b"large %d" % number for number in range(COUNT)], time.monotonic()
    try:
        with proxy.client() as client:
            for key in keys:
                check_same(client.ask("SET", key, LARGE * b"v"), b"+OK\r\n", "SET")
        if time.monotonic() - began > VALUE_SECONDS * COUNT:
            keys = keys[: COUNT // 2]
        before = most = resident_mebibytes(proxy.process)
        began, clients = time.monotonic(), 0
        while clients < 2 or clients < 6 and time.monotonic() < began + SECONDS_OF_CLIENTS:
            with proxy.client() as client:
                client.send(request("MGET", *keys))
                if clients % 2 == 0:
                    check_same(len(client.reply()), len(b"*%d\r\n" % len(keys)) + len(keys) * (LARGE + len(b"$4194304\r\n\r\n")), "length of a reply")
                else:
                    check_same(client.socket.recv(1), b"*", "the first byte of a reply")
                most, clients = max(most, resident_mebibytes(proxy.process)), clients + 1
                client.socket.setsockopt(socket.SOL_SOCKET, socket.SO_LINGER, struct.pack("ii", 1, 0))
        is_within(2, lambda: resident_mebibytes(proxy.process) < before + MOST_LEFT)
        after = resident_mebibytes(proxy.process)
    finally:
        proxy.end()
    note = f"resident {before:.0f} MiB before, {most:.0f} at most, {after:.0f} after {clients} clients that asked for {LARGE * len(keys) >> 20} MiB"
    check(most > before + (LARGE * len(keys) >> 21), note)
    check_time(after < before + MOST_LEFT, note)
    return note
