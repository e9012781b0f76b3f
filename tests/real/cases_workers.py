"""Workers side by side: each is a proxy of its own, and clients of all of them ask for the same keys."""

import random
import signal
import time

from cases_moves import count_in_moves
from cases_page import Page
from cluster import OwnProxy, Proxy, wait_until
from harness import case, check, check_same, check_time, together

WORKERS = (1, 2, 4)
# Seconds that a request after a pause may take, and on a slow machine so many times the longest that one server takes.
MOST_WAITED, MOST_TIMES = 0.02, 20
REQUESTS = 50


def own_proxy(world, workers):
    return OwnProxy(Proxy(world.room, world.program, world.cluster.nodes[0].port, workers=workers, name=f"workers{workers}"))


@case
def counters_of_all_workers_in_moves(world):
    """Clients of each number of workers count the same keys up while their slots move: no number is given twice."""
    said = []
    for workers in WORKERS:
        with own_proxy(world, workers) as own:
            said.append(f"{workers}: {count_in_moves(world, own.proxy, rounds=3, seconds=3)}")
    return "; ".join(said)


def requests_by_thread(page):
    """How many requests each worker has read."""
    name = "cluster_proxy_requests_total{"
    return [value for sample, value in sorted(page.figures().items()) if sample.startswith(name)]


@case
def each_worker_has_its_share_of_clients(world):
    """Each client comes to a worker that has no more of them than any other, also where some have left."""
    with Page(world, world.cluster.nodes[0].port, "dealt", workers=4) as page:
        wait_until(lambda: page.figures()["cluster_proxy_clients"] == 0, "the client that looked for the proxy to be gone")
        clients = [page.proxy.client() for _ in range(12)]

        def shares():
            before = requests_by_thread(page)
            for client in clients:
                check_same(client.ask("PING"), b"+PONG\r\n", "PING")
            return [after - was for after, was in zip(requests_by_thread(page), before)]

        check_same(shares(), [3, 3, 3, 3], "clients of each worker")
        for client in clients[:5]:
            client.close()
        clients = clients[5:]
        wait_until(lambda: page.figures()["cluster_proxy_clients"] == 7, "the clients that left to be gone")
        clients += [page.proxy.client() for _ in range(5)]
        check_same(shares(), [3, 3, 3, 3], "clients of each worker once others came")
        for client in clients:
            client.close()


@case
def sixty_four_workers(world):
    """They start, serve clients on all of them, and end by a signal."""
    proxy = Proxy(world.room, world.program, world.cluster.nodes[0].port, workers=64, name="many")
    clients = [proxy.client() for _ in range(128)]
    for number, client in enumerate(clients):
        check_same(client.ask("SET", f"k{number}", number), b"+OK\r\n", "SET")
    for number, client in enumerate(reversed(clients)):
        check_same(client.value("GET", f"k{number}"), b"%d" % number, "GET")
    for client in clients:
        client.close()
    proxy.end()
    check_same(proxy.process.returncode, -signal.SIGTERM, "status")


@case
def no_wake_is_lost(world):
    """Clients of four workers ask behind pauses: no tick makes a worker look again, so a wake that was lost would hold one of them up."""

    def longest(client, seed):
        pauses, longest = random.Random(seed), 0
        for _ in range(REQUESTS):
            time.sleep(pauses.random() * 0.03)
            began = time.perf_counter()
            check_same(client.ask("SET", "a", "1"), b"+OK\r\n", "SET")
            longest = max(longest, time.perf_counter() - began)
        client.close()
        return longest

    with own_proxy(world, 4) as own:
        direct = max(together(8, lambda number: longest(world.plain.client(), number)))
        through = max(together(8, lambda number: longest(own.proxy.client(), number)))
    note = f"the longest of {8 * REQUESTS} requests took {1000 * through:.1f} ms, {1000 * direct:.1f} directly"
    check_time(through < max(MOST_WAITED, MOST_TIMES * direct), note)
    return note


@case
def clients_that_come_and_go_on_all_workers(world):
    """New clients, dealt to workers that sleep, are answered at once; none is forgotten."""
    with own_proxy(world, 4) as own:
        for number in range(100):
            with own.proxy.client() as client:
                check_same(client.ask("SET", f"c{number}", "1"), b"+OK\r\n", "SET")
        check(not own.proxy.has_ended(), "the proxy ended")
