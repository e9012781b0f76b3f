"""`serve`: what clients of the proxy hear."""

import os
import socket
import time
import unittest
from concurrent.futures import ThreadPoolExecutor

from program import LIMIT, run
from sockets import cluster, connection, free_ports, heard, proxy, request

SET_THEN_GET = request("SET", "a", "1") + request("GET", "a") + request("QUIT")
GET = request("GET", "a") + request("QUIT")

# Seconds that a client waits for a cluster that is not there, at most.
PATIENCE = 10

# How often a client counts its three keys up and looks at the first of them.
ROUNDS = 250


def crowd_requests(client):
    """What one of the crowd sends. Its keys lie at three nodes."""
    tagged = [request("INCR", f"{{{tag}}}{client}") for tag in "abc"]
    return ROUNDS * (b"".join(tagged) + request("GET", f"{{a}}{client}")) + request("QUIT")


def crowd_replies():
    counts = [str(number).encode() for number in range(1, ROUNDS + 1)]
    return b"".join(3 * (b":%s\r\n" % count) + b"$%d\r\n%s\r\n" % (len(count), count) for count in counts) + b"+OK\r\n"


def open_sockets(process):
    """How many sockets a process holds."""
    folder = f"/proc/{process.pid}/fd"
    count = 0
    for name in os.listdir(folder):
        try:
            count += os.readlink(f"{folder}/{name}").startswith("socket:")
        except FileNotFoundError:
            pass
    return count


class Serve(unittest.TestCase):
    def check_set_then_get(self, workers):
        with cluster(workers) as proxied:
            self.assertEqual(heard(proxied, SET_THEN_GET), b"+OK\r\n$1\r\n1\r\n+OK\r\n")

    def test_set_then_get_with_one_worker(self):
        self.check_set_then_get(1)

    def test_set_then_get_with_two_workers(self):
        self.check_set_then_get(2)

    def test_set_then_get_with_four_workers(self):
        self.check_set_then_get(4)

    def test_set_then_get_with_the_most_workers(self):
        self.check_set_then_get(64)

    def test_keys_of_three_nodes_in_one_request(self):
        sent = [request("MSET", "a", "1", "b", "2", "c", "3")]
        sent += [request(name, "a", "b", "x", "c") for name in ["MGET", "EXISTS", "DEL"]]
        wanted = b"+OK\r\n*4\r\n$1\r\n1\r\n$1\r\n2\r\n$-1\r\n$1\r\n3\r\n:3\r\n:3\r\n+OK\r\n"
        with cluster(2) as proxied:
            self.assertEqual(heard(proxied, b"".join(sent) + request("QUIT")), wanted)

    def test_a_thousand_requests_of_each_client_in_order(self):
        """Three clients at once, whose bytes come in pieces of 7 and of 1,021 bytes, and whole."""
        wanted = crowd_replies()
        with cluster(2) as proxied, ThreadPoolExecutor() as threads:
            clients = [threads.submit(heard, proxied, crowd_requests(place), piece) for place, piece in enumerate([7, 1021, None])]
            for client in clients:
                self.assertTrue(client.result() == wanted)

    def test_a_seed_with_nobody_there(self):
        began = time.monotonic()
        with proxy(free_ports(1)[0], 1) as proxied:
            self.assertEqual(heard(proxied, GET), b"-ERR proxy: gave up, not executed\r\n+OK\r\n")
        self.assertLess(time.monotonic() - began, PATIENCE)

    def test_clients_that_leave_early_are_counted(self):
        """Two leave in the middle of a request. Once the third was answered, the proxy holds no socket of any of them."""
        with cluster(1) as proxied:
            _, process = proxied
            self.assertEqual(heard(proxied, GET), b"$-1\r\n+OK\r\n")
            before = self.settled(process)
            for place in range(3):
                if place == 1:
                    self.assertIn(heard(proxied, GET), [b"$-1\r\n+OK\r\n", b"$1\r\n1\r\n+OK\r\n"])
                else:
                    with connection(*proxied) as client:
                        client.sendall(SET_THEN_GET[:40])
            end = time.monotonic() + LIMIT
            while open_sockets(process) > before:
                self.assertLess(time.monotonic(), end, "a client that left is still held")
                time.sleep(0.01)

    def settled(self, process):
        """How many sockets a proxy holds whose clients have left: as many as in ten looks in a row."""
        looks = []
        while len(looks) < 10 or len(set(looks[-10:])) > 1:
            self.assertLess(len(looks), 1_000)
            looks.append(open_sockets(process))
            time.sleep(0.01)
        return looks[-1]

    def test_a_port_that_cannot_be_listened_on(self):
        """One that is taken, and one of another machine."""
        with socket.create_server(("127.0.0.1", 0)) as taken:
            port = taken.getsockname()[1]
            reasons = {"127.0.0.1": "Address already in use (os error 98)", "192.0.2.1": "Cannot assign requested address (os error 99)"}
            for host, reason in reasons.items():
                words = ["serve", "--listen", f"{host}:{port}", "--seed", "127.0.0.1:1", "--workers", "1"]
                self.assertEqual(run(words), (1, b"", f"cluster_proxy: cannot listen on {host}:{port}: {reason}\n".encode()))
