"""The log: lines on standard error."""

import atexit
import contextlib
import functools
import os
import re
import resource
import signal
import subprocess
import tempfile
import time
import unittest

from ports import refused_port
from program import LIMIT, PROGRAM
from sockets import connection, free_ports, heard, nodes, request

LINE = re.compile(r'time=\d{4}-\d\d-\d\dT\d\d:\d\d:\d\d\.\d{3}Z level=(info|warn) event=(\w+)((?: \w+=(?:[!#-<>-\[\]-~]+|"[ !#-\[\]-~]*"))*)')
PAIR = re.compile(r'(\w+)=("[^"]*"|\S+)')

GET = request("GET", "a") + request("QUIT")
GAVE_UP = b"-ERR proxy: gave up, not executed\r\n+OK\r\n"


def words_of(line):
    """The event of a line, its level and its words."""
    level, event, rest = LINE.fullmatch(line).groups()
    return event, {"level": level, **{key: value.strip('"') for key, value in PAIR.findall(rest)}}


@contextlib.contextmanager
def logging_proxy(seed, log, workers=2, **options):
    """The proxy before the node at this port, whose standard error goes to this file. Gives its port and process."""
    (port,) = free_ports(1)
    words = [PROGRAM, "serve", "--listen", f"127.0.0.1:{port}", "--seed", f"127.0.0.1:{seed}", "--workers", str(workers)]
    with subprocess.Popen(words, stdin=subprocess.DEVNULL, stderr=log, **options) as process:
        try:
            connection(port, process).close()
            yield port, process
        finally:
            process.send_signal(signal.SIGTERM)
            process.wait(LIMIT)


class Lines:
    """Has a log for a test, and reads its lines."""

    def setUp(self):
        folder = tempfile.TemporaryDirectory()
        self.addCleanup(folder.cleanup)
        self.path = os.path.join(folder.name, "log")
        self.log = open(self.path, "ab")
        self.addCleanup(self.log.close)

    def lines(self):
        """The words of each line that stands there whole."""
        with open(self.path, encoding="ascii") as file:
            whole, _, _ = file.read().rpartition("\n")
        return [words_of(line) for line in whole.splitlines()]

    def wait_for(self, event, **words):
        """Waits for a line of this event with these words, and gives all its words."""
        end = time.monotonic() + LIMIT
        while True:
            for found, its in self.lines():
                if found == event and words.items() <= its.items():
                    return its
            self.assertLess(time.monotonic(), end, f"no line {event} {words}: {self.lines()}")
            time.sleep(0.02)


class Log(Lines, unittest.TestCase):
    def test_a_start(self):
        (seed,) = free_ports(1)
        with logging_proxy(seed, self.log) as (port, process):
            limit, _ = resource.prlimit(process.pid, resource.RLIMIT_NOFILE)
            words = {"level": "info", "listen": f"127.0.0.1:{port}", "seed": f"127.0.0.1:{seed}", "workers": "2", "descriptors": str(limit)}
            started = self.wait_for("started", **words)
            self.assertIn("rattle-kit", started["version"])
            self.assertEqual(self.lines()[0][0], "started")

    def test_a_seed_that_is_not_there(self):
        (seed,) = free_ports(1)
        with logging_proxy(seed, self.log):
            self.wait_for("seed_unreachable", level="warn", node=f"127.0.0.1:{seed}", reason="Connection refused (os error 111)")

    def test_nodes_that_are_found_and_lost(self):
        with nodes() as served:
            (seed, server), *_ = served
            with logging_proxy(seed, self.log) as at:
                self.wait_for("link_opened", level="info", node=f"127.0.0.1:{seed}")
                self.wait_for("slot_map_renewed", level="info", node=f"127.0.0.1:{seed}", ranges="3", slots_changed="16384")
                self.assertEqual(heard(at, GET), b"$-1\r\n+OK\r\n")
                server.kill()
                server.wait()
                self.wait_for("link_lost", level="warn", node=f"127.0.0.1:{seed}")
                self.assertEqual(heard(at, GET), GAVE_UP)
                refused = {"level": "warn", "reason": "Connection refused (os error 111)"}
                self.wait_for("dial_failed", node=f"127.0.0.1:{served[2][0]}", **refused)

    def check_protocol_error(self, sent, fault):
        """A client that sends this, and a line with its fault."""
        (seed,) = free_ports(1)
        with logging_proxy(seed, self.log) as (port, process):
            with connection(port, process) as client:
                host, mine = client.getsockname()
                client.sendall(sent)
                self.assertEqual(client.recv(64), b"-ERR proxy: protocol error\r\n")
                self.assertEqual(client.recv(64), b"")
            words = {"level": "warn", "client": f"{host}:{mine}", "fault": fault}
            self.wait_for("protocol_error", **words)
            time.sleep(0.2)
            told = [its for event, its in self.lines() if event == "protocol_error"]
            self.assertEqual(told, [words])

    def test_a_protocol_error(self):
        self.check_protocol_error(b"PING\r\n", "a value begins with an unknown byte")

    def test_a_number_that_is_malformed(self):
        self.check_protocol_error(b"*x\r\n", "a number is malformed")

    def test_a_value_that_is_no_request(self):
        self.check_protocol_error(b"+PING\r\n", "the value is no request")

    def test_a_value_that_ends_like_the_reply(self):
        """A reply with the same text is no protocol error."""
        with nodes() as served:
            (seed, _), *_ = served
            with logging_proxy(seed, self.log) as at:
                echoed = request("ECHO", "-ERR proxy: protocol error") + request("QUIT")
                self.assertEqual(heard(at, echoed), b"$26\r\n-ERR proxy: protocol error\r\n+OK\r\n")
                time.sleep(0.2)
            self.assertNotIn("protocol_error", [event for event, _ in self.lines()])

    def test_few_lines(self):
        """The same event of the same node at most once a second; the next line counts those between."""
        (seed,) = free_ports(1)
        # of as many slots, so that none waits for another
        asked = b"".join(request("GET", str(number)) for number in range(10))
        began = time.monotonic()
        with logging_proxy(seed, self.log) as at:
            for _ in range(5):
                self.assertEqual(heard(at, asked + request("QUIT")), 10 * GAVE_UP[:-5] + GAVE_UP[-5:])
            self.wait_for("seed_unreachable")
            time.sleep(1.2)
            heard(at, GET)
            left_out = int(self.wait_for_left_out()["left_out"])
            self.assertGreater(left_out, 0)
        seconds = time.monotonic() - began
        self.assertLess(len(self.lines()), 4 + seconds)

    def wait_for_left_out(self):
        end = time.monotonic() + LIMIT
        while True:
            for event, words in self.lines():
                if event == "seed_unreachable" and "left_out" in words:
                    return words
            self.assertLess(time.monotonic(), end, self.lines())
            time.sleep(0.02)

    def test_a_client_for_which_no_descriptor_is_left(self):
        (seed,) = free_ports(1)
        with logging_proxy(seed, self.log) as (port, process):
            self.wait_for("started")
            _, hard = resource.prlimit(process.pid, resource.RLIMIT_NOFILE)
            resource.prlimit(process.pid, resource.RLIMIT_NOFILE, (32, hard))
            with contextlib.ExitStack() as clients:
                for _ in range(40):
                    clients.enter_context(connection(port, process))
                self.wait_for("client_refused", level="warn", reason="Too many open files (os error 24)")


class StandardError(unittest.TestCase):
    """Whatever becomes of standard error, clients are served."""

    def check_served(self, **options):
        (seed,) = free_ports(1)
        with logging_proxy(seed, **options) as at:
            for _ in range(3):
                self.assertEqual(heard(at, GET), GAVE_UP)
            self.assertIsNone(at[1].poll())

    def test_closed_from_the_start(self):
        """Then another file has its number, to which nothing of the log goes."""
        self.check_served(log=None, preexec_fn=lambda: os.close(2))

    def test_its_reader_has_left(self):
        reads, writes = os.pipe()
        os.close(reads)
        with os.fdopen(writes, "wb") as log:
            self.check_served(log=log)

    def test_nobody_reads(self):
        """A pipe with no room."""
        reads, writes = os.pipe()
        self.addCleanup(os.close, reads)
        with os.fdopen(writes, "wb") as log:
            os.set_blocking(writes, False)
            with contextlib.suppress(BlockingIOError):
                while True:
                    os.write(writes, bytes(4096))
            os.set_blocking(writes, True)
            self.check_served(log=log)


class Counted:
    """A proxy that has served requests, of which it is known how many."""

    # (with the one that looks whether the proxy answers)
    clients = 4

    def __init__(self):
        self.stack = contextlib.ExitStack()
        folder = self.stack.enter_context(tempfile.TemporaryDirectory())
        self.path = os.path.join(folder, "log")
        log = self.stack.enter_context(open(self.path, "ab"))
        self.serve(self.stack.enter_context(logging_proxy(self.seed(), log, workers=1)))

    def seed(self):
        """The port of the seed."""
        [(seed, _), *_] = self.stack.enter_context(nodes())
        return seed

    def serve(self, at):
        heard(at, request("MSET", "a", "1", "b", "2", "c", "3") + request("QUIT"))
        heard(at, request("MGET", "a", "b", "c", "a") + 4 * request("GET", "a") + request("PING") + request("QUIT"))
        heard(at, request("NOSUCH") + request("QUIT"))

    def wait_for_figures(self, test):
        """Those that have its clients: what its threads do at the start may have a line before them."""
        test.path = self.path
        words = test.wait_for("figures", level="info", clients=str(self.clients))
        return {name: int(value) for name, value in words.items() if name != "level"}


class Unreached(Counted):
    """The same before a seed that is not there: one command, which is tried as often as any."""

    clients = 2

    def seed(self):
        return self.stack.enter_context(refused_port())

    def serve(self, at):
        heard(at, GET)


@functools.cache
def counted():
    """A proxy of each kind, until all tests have ended."""
    made = []
    for kind in Counted, Unreached:
        made.append(kind())
        atexit.register(made[-1].stack.close)
    return made


def load_tests(_loader, tests, _pattern):
    """Starts them before any test is run: the figures of their first minute are wanted."""
    counted()
    return tests


class TheFigures(Lines, unittest.TestCase):
    """The lines of figures, which come a minute after the start. The other tests run meanwhile."""

    def test_they_add_up(self):
        figures = counted()[0].wait_for_figures(self)
        wanted = {"clients": 4, "clients_gone": 4, "requests": 2 + 7 + 2, "parts": 3 + 7, "gave_up": 0, "lost": 0, "dials_failed": 0, "links": 3, "links_gone": 0}
        self.assertEqual({name: figures[name] for name in wanted}, wanted)
        self.assertGreaterEqual(figures["sent"], wanted["parts"])
        self.assertGreater(figures["bytes_in"], 0)
        self.assertGreater(figures["bytes_out"], 0)

    def test_what_could_not_be_sent(self):
        """The first try and sixteen more."""
        figures = counted()[1].wait_for_figures(self)
        wanted = {"clients": 2, "requests": 2, "parts": 1, "gave_up": 1, "lost": 0, "sent": 0, "unsent": 17, "links": 0}
        self.assertEqual({name: figures[name] for name in wanted}, wanted)
