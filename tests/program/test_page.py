"""The page of figures of `serve`, over HTTP."""

import contextlib
import re
import socket
import time
import unittest
from concurrent.futures import ThreadPoolExecutor

from program import run
from sockets import connection, free_ports, heard, nodes, request, started

# Seconds that an event of the proxy may take until the page shows it.
PATIENCE = 10

# Seconds after which a connection without a whole answer is closed, and how much later it may be seen.
CLOSED_AFTER = 5
LATER = 2

# How many connections are open at once.
MOST = 16


@contextlib.contextmanager
def paged(seed, workers=2):
    """The proxy before the node at this port, with a page. Gives its port and process, and those of the page."""
    port, admin = free_ports(2)
    words = ["serve", "--listen", f"127.0.0.1:{port}", "--seed", f"127.0.0.1:{seed}", "--workers", str(workers), "--admin", f"127.0.0.1:{admin}"]
    with started(words) as server:
        connection(port, server).close()
        yield (port, server), (admin, server)


def get(page, path, method="GET"):
    """Status, fields and body of an answer."""
    text = heard(page, f"{method} {path} HTTP/1.1\r\nHost: h\r\nConnection: close\r\n\r\n".encode())
    head, _, body = text.partition(b"\r\n\r\n")
    first, *lines = head.decode().split("\r\n")
    return int(first.split()[1]), dict(line.split(": ", 1) for line in lines), body


def samples(page):
    """The figures of the page, by name and labels."""
    status, fields, body = get(page, "/metrics")
    assert (status, fields["content-type"]) == (200, "text/plain; version=0.0.4; charset=utf-8")
    assert int(fields["content-length"]) == len(body)
    lines = [line for line in body.decode().splitlines() if not line.startswith("#")]
    return {name: float(value) for name, value in (line.rsplit(" ", 1) for line in lines)}


def total(figures, name):
    """A figure of all threads."""
    return sum(value for sample, value in figures.items() if sample.split("{")[0] == name)


def until(is_so):
    """Waits until something is so."""
    end = time.monotonic() + PATIENCE
    while not is_so():
        if time.monotonic() > end:
            raise AssertionError("it did not come to be so")
        time.sleep(0.02)


class Answers(unittest.TestCase):
    """Before a seed that is not there."""

    def setUp(self):
        (seed,) = free_ports(1)
        self.client, self.page = self.enterContext(paged(seed))

    def test_without_a_slot_map(self):
        status, _, body = get(self.page, "/healthz")
        self.assertEqual((status, body), (503, b"no slot map was read\n"))

    def test_other_paths_and_methods(self):
        for path in ["/", "/metrics/", "/metric", "/healthz/x", "/drain/", "/drains"]:
            self.assertEqual(get(self.page, path)[0], 404, path)
            self.assertEqual(get(self.page, path, "POST")[0], 404, path)
        for path in ["/metrics", "/healthz"]:
            for method in ["POST", "PUT", "DELETE", "OPTIONS"]:
                status, fields, _ = get(self.page, path, method)
                self.assertEqual((status, fields["allow"]), (405, "GET, HEAD"), (method, path))

    def test_a_query_is_left_out(self):
        self.assertEqual(get(self.page, "/metrics?x=y")[0], 200)

    def test_head(self):
        """No body, and its length."""
        status, fields, body = get(self.page, "/metrics", "HEAD")
        self.assertEqual((status, body), (200, b""))
        self.assertGreater(int(fields["content-length"]), 1000)

    def test_each_family_has_help_and_a_type(self):
        body = get(self.page, "/metrics")[2].decode()
        lines = body.splitlines()
        names = {re.split("[{ ]", line)[0] for line in lines if not line.startswith("#")}
        kinds = dict(line.split()[2:4] for line in lines if line.startswith("# TYPE "))
        helps = {line.split()[2] for line in lines if line.startswith("# HELP ")}
        self.assertEqual(set(kinds), helps)
        for name in names:
            family = re.sub("_(bucket|sum|count)$", "", name) if name not in kinds else name
            self.assertIn(family, kinds)
        for name, kind in kinds.items():
            self.assertEqual(name.endswith("_total"), kind == "counter", name)

    def test_the_version(self):
        version = run(["--version"])[1].decode().split(" ", 1)[1].strip()
        self.assertEqual(samples(self.page)[f'cluster_proxy_build_info{{version="{version}"}}'], 1)

    def test_what_the_system_tells(self):
        figures = samples(self.page)
        self.assertGreater(figures["process_resident_memory_bytes"], 1_000_000)
        self.assertGreater(figures["process_open_fds"], 5)
        self.assertGreater(figures["process_max_fds"], figures["process_open_fds"])

    def test_several_requests_over_one_connection(self):
        sent = 3 * b"GET /healthz HTTP/1.1\r\nHost: h\r\n\r\n" + b"GET /none HTTP/1.1\r\nHost: h\r\nConnection: close\r\n\r\n"
        text = heard(self.page, sent)
        self.assertEqual((text.count(b"HTTP/1.1 503 "), text.count(b"HTTP/1.1 404 ")), (3, 1))

    def test_a_request_in_small_pieces(self):
        text = heard(self.page, b"GET /healthz HTTP/1.1\r\nHost: h\r\nConnection: close\r\n\r\n", 3)
        self.assertTrue(text.startswith(b"HTTP/1.1 503 "), text)

    def test_what_is_no_request(self):
        """It is refused, and the connection closed; others are answered."""
        self.assertTrue(heard(self.page, b"\0\1\2\r\n\r\n").startswith(b"HTTP/1.1 400 "))
        self.assertTrue(heard(self.page, request("GET", "a")).startswith(b"HTTP/1.1 400 "))
        self.assertEqual(get(self.page, "/healthz")[0], 503)

    def test_a_head_that_is_too_long(self):
        field = b"X: " + 9000 * b"x" + b"\r\n"
        text = heard(self.page, b"GET / HTTP/1.1\r\nHost: h\r\n" + field + b"\r\n")
        self.assertTrue(text.startswith(b"HTTP/1.1 431 "), text[:80])

    def test_a_slow_head(self):
        began = time.monotonic()
        with connection(*self.page) as slow:
            slow.sendall(b"GET /metrics HTTP/1.1\r\n")
            slow.settimeout(CLOSED_AFTER + 2 * LATER)
            try:
                self.assertEqual(slow.recv(64), b"")
            except ConnectionResetError:
                pass
        self.assertLess(abs(time.monotonic() - began - CLOSED_AFTER), LATER)

    def test_a_crowd(self):
        """More at once than connections are open: each is answered."""
        with ThreadPoolExecutor(100) as pool:
            found = list(pool.map(lambda _: get(self.page, "/healthz")[0], range(100)))
        self.assertEqual(found, 100 * [503])

    def test_some_that_say_nothing(self):
        """They have all places; those that come later are answered once these are closed."""
        with contextlib.ExitStack() as stack:
            for _ in range(MOST):
                stack.enter_context(connection(*self.page))
            self.assertEqual(get(self.page, "/healthz")[0], 503)


def refuses(port):
    """Whether nobody listens there."""
    try:
        socket.create_connection(("127.0.0.1", port), PATIENCE).close()
    except ConnectionRefusedError:
        return True
    return False


class Drains(unittest.TestCase):
    """An end of the run that the page is asked for."""

    def ended(self, server):
        """Its status."""
        return server.wait(PATIENCE)

    def test_what_asks_for_none(self):
        """Another method than POST, and a number that can't be read."""
        with paged(free_ports(1)[0]) as (client, page):
            for method in ["GET", "HEAD", "PUT", "DELETE"]:
                status, fields, _ = get(page, "/drain", method)
                self.assertEqual((status, fields["allow"]), (405, "POST"), method)
            for query in ["?", "?seconds", "?seconds=", "?seconds=x", "?seconds=-1", "?seconds=65536", "?second=1", "?seconds=1&x=y"]:
                status, _, body = get(page, f"/drain{query}", "POST")
                self.assertEqual((status, body), (400, b"seconds takes a number from 0 to 65535\n"), query)
            self.assertEqual(get(page, "/healthz")[2], b"no slot map was read\n")
            self.assertEqual(heard(client, request("QUIT")), b"+OK\r\n")

    def test_nobody_is_there(self):
        """It ends at once, with status 0, whatever the time."""
        for query in ["", "?seconds=0", "?seconds=65535"]:
            with paged(free_ports(1)[0]) as (_, page):
                status, _, body = get(page, f"/drain{query}", "POST")
                self.assertEqual((status, body, self.ended(page[1])), (202, b"draining\n", 0), query)

    def test_clients_are_let_go(self):
        """A client that is owed nothing sees the end, and none is accepted; health says so until the last one has left."""
        with nodes() as [(seed, _), *_], paged(seed) as (client, page):
            with connection(*client) as plain:
                plain.sendall(request("SET", "a", "1"))
                self.assertEqual(plain.recv(64), b"+OK\r\n")
                self.assertEqual(get(page, "/drain", "POST")[0], 202)
                self.assertEqual(plain.recv(64), b"")
                self.assertEqual(get(page, "/healthz")[::2], (503, b"draining\n"))
                until(lambda: refuses(client[0]))
            self.assertEqual(self.ended(page[1]), 0)

    def test_what_does_not_leave_is_cut(self):
        with paged(free_ports(1)[0]) as (client, page), connection(*client) as plain:
            plain.sendall(request("PING"))
            self.assertEqual(plain.recv(64), b"+PONG\r\n")
            self.assertEqual(get(page, "/drain?seconds=0", "POST")[0], 202)
            self.assertEqual(self.ended(page[1]), 0)


class Figures(unittest.TestCase):
    def test_figures_are_what_clients_counted(self):
        sent = request("SET", "a", "1") + request("MGET", "a", "b", "c") + request("QUIT")
        with nodes() as [(seed, _), *_], paged(seed) as (client, page):
            until(lambda: total(samples(page), "cluster_proxy_clients_closed_total") == 1)
            before = samples(page)
            answered = [heard(client, sent) for _ in range(5)]
            self.assertEqual(answered, 5 * [b"+OK\r\n*3\r\n$1\r\n1\r\n$-1\r\n$-1\r\n+OK\r\n"])
            until(lambda: samples(page)["cluster_proxy_clients"] == 0)
            after = samples(page)

            def more(name):
                return total(after, name) - total(before, name)

            self.assertEqual(more("cluster_proxy_clients_accepted_total"), 5)
            self.assertEqual(more("cluster_proxy_clients_closed_total"), 5)
            self.assertEqual(more("cluster_proxy_requests_total"), 15)
            self.assertEqual(more("cluster_proxy_parts_total"), 20)
            self.assertEqual(more("cluster_proxy_client_received_bytes_total"), 5 * len(sent))
            self.assertEqual(more("cluster_proxy_client_sent_bytes_total"), sum(map(len, answered)))
            self.assertEqual(after["cluster_proxy_clients"], 0)
            self.assertEqual(sum(value for name, value in after.items() if name.startswith("cluster_proxy_node_up{")), 3)

    def test_health_of_a_cluster(self):
        """Well once a request has led to a slot map."""
        with nodes() as [(seed, _), *_], paged(seed) as (client, page):
            heard(client, request("MGET", "a", "b", "c") + request("QUIT"))
            until(lambda: get(page, "/healthz")[::2] == (200, b"ok\n"))

    def test_times(self):
        """Each request is counted, of a client that waits for each reply and of one that does not, and the buckets rise."""
        with nodes() as [(seed, _), *_], paged(seed, 1) as (client, page):
            with connection(*client) as plain:
                for _ in range(20):
                    plain.sendall(request("PING"))
                    self.assertEqual(plain.recv(64), b"+PONG\r\n")
                until(lambda: samples(page)["cluster_proxy_request_duration_seconds_count"] == 20)
                # the last of them has come in part
                plain.sendall((request("GET", "a") * 100 + request("PING"))[:-1])
                until(lambda: samples(page)["cluster_proxy_request_duration_seconds_count"] == 120)
            figures = samples(page)
            name = "cluster_proxy_request_duration_seconds"
            buckets = [value for sample, value in figures.items() if sample.startswith(f"{name}_bucket")]
            self.assertEqual(buckets, sorted(buckets))
            self.assertEqual((len(buckets), buckets[-1]), (16, figures[f"{name}_count"]))
            self.assertGreater(figures[f"{name}_sum"], 0)
