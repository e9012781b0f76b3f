"""`serve`: requests of which not all comes."""

import contextlib
import threading
import time
import unittest

from program import LIMIT, check_time, timed
from sockets import connection, free_ports, peak_memory
from test_log import Lines, logging_proxy

MIB = 2**20

# The beginning of a request that is never whole, and a further word of it that takes a MiB.
BEGIN = b"*1000000\r\n$4\r\nMSET\r\n"
WORD = b"$%d\r\n" % (MIB - 12) + bytes(MIB - 12) + b"\r\n"

# Clients with a small request that is never whole, and its bytes: 47 MiB of all together.
SMALL = 800
SMALL_REQUEST = BEGIN + b"$100000\r\n" + bytes(60_000)

# Mebibytes of requests that ask for nothing, and how many of them are held at most.
NOTHING, MOST_HELD = 48, 24

# Seconds that a neighbour's PING takes at most.
PATIENCE = 1


def send_words(client, count):
    for _ in range(count):
        client.sendall(WORD)


def is_open(client):
    """Whether the other end has not closed the connection."""
    client.setblocking(False)
    try:
        return client.recv(1) != b""
    except BlockingIOError:
        return True
    except ConnectionResetError:
        return False
    finally:
        client.settimeout(LIMIT)


class Neighbour:
    """A client that sends PING again and again, and keeps the longest time that one took."""

    def __init__(self, client):
        self.client, self.longest, self.count, self.is_over = client, 0.0, 0, False
        self.thread = threading.Thread(target=self.ping)

    def ping(self):
        while not self.is_over:
            began = time.monotonic()
            self.client.sendall(b"*1\r\n$4\r\nPING\r\n")
            if self.client.recv(64) != b"+PONG\r\n":
                return
            self.count += 1
            self.longest = max(self.longest, time.monotonic() - began)
            time.sleep(0.005)

    def __enter__(self):
        self.thread.start()
        return self

    def __exit__(self, *_):
        self.is_over = True
        self.thread.join()


class Unfinished(Lines, unittest.TestCase):
    def check_open(self, *clients):
        time.sleep(0.5)
        self.assertTrue(all(map(is_open, clients)))

    def check_closed(self, client, mebibytes, *others):
        """The log says that this client is closed, and about how many bytes its request has. The others are not."""
        host, port = client.getsockname()
        told = self.wait_for("unfinished_request", level="warn", client=f"{host}:{port}")
        self.assertIn(int(told["bytes"]) // MIB, mebibytes)
        self.check_open(*others)
        self.assertFalse(is_open(client))

    def check_largest(self, at):
        """Three clients of one worker: while 500 MiB are held beside the largest request none is closed, at 550 MiB the largest is."""
        with connection(*at) as first, connection(*at) as second, connection(*at) as third:
            for client, count in ((first, 300), (second, 200), (third, 200)):
                client.sendall(BEGIN)
                send_words(client, count)
            self.check_open(first, second, third)
            send_words(second, 150)
            self.check_open(first, second, third)
            send_words(third, 50)
            self.check_closed(second, range(340, 351), first, third)
            send_words(first, 1)
            self.check_open(first, third)

    @timed
    def test_the_largest_is_closed(self):
        (seed,) = free_ports(1)
        began = time.monotonic()
        with logging_proxy(seed, self.log, workers=1) as at, connection(*at) as client, Neighbour(client) as neighbour:
            self.check_largest(at)
            peak = peak_memory(at[1])
        self.assertEqual(sum(event == "unfinished_request" for event, _ in self.lines()), 1)
        seconds = time.monotonic() - began
        note = f"unfinished requests: 901 MiB sent, {peak} MiB held at most, {seconds:.1f} s, {neighbour.count} PINGs, the longest {1000 * neighbour.longest:.0f} ms"
        check_time(neighbour.longest < PATIENCE and neighbour.count > 100, note)
        print(note)

    def test_small_requests_count(self):
        """Two clients of one worker with 480 and 470 MiB, and then many with less than a read of it: the largest is closed."""
        (seed,) = free_ports(1)
        began = time.monotonic()
        with logging_proxy(seed, self.log, workers=1) as at, connection(*at) as first, connection(*at) as second:
            for client, count in ((first, 480), (second, 470)):
                client.sendall(BEGIN)
                send_words(client, count)
            self.check_open(first, second)
            with contextlib.ExitStack() as clients:
                small = [clients.enter_context(connection(*at)) for _ in range(SMALL)]
                for client in small:
                    client.sendall(SMALL_REQUEST)
                self.check_closed(first, range(475, 481), second, *small)
        self.assertEqual(sum(event == "unfinished_request" for event, _ in self.lines()), 1)
        print(f"unfinished requests: 950 MiB and {SMALL} small ones, {time.monotonic() - began:.1f} s")

    def test_requests_that_ask_for_nothing(self):
        """A client that sends empty arrays faster than they are read waits: they are not held."""
        (seed,) = free_ports(1)
        with logging_proxy(seed, self.log, workers=1) as at, connection(*at) as client:
            client.settimeout(LIMIT)
            for _ in range(NOTHING):
                client.sendall(b"*0\r\n" * (MIB // 4))
            client.sendall(b"*1\r\n$4\r\nPING\r\n")
            self.assertEqual(client.recv(64), b"+PONG\r\n")
            peak = peak_memory(at[1])
        self.assertLess(peak, MOST_HELD)
        print(f"requests that ask for nothing: {NOTHING} MiB sent, {peak} MiB held at most")
