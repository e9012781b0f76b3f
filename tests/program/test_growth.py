"""Each growth of memory refused in turn, alone and with all behind it: for every k a run whose k-th growth finds no memory
answers rightly, or ends and says so. It never aborts, hangs, or answers anything else."""

import os
import re
import signal
import subprocess
import time
import unittest

import growths
from program import LIMIT, PROGRAM, rows_of, run, swept
from scripted import heard_to_the_end
from sockets import free_ports, heard, nodes, proxy, request
from test_password import PASSWORD
from test_simulate import HEADER, MOVE_SCRIPT

SET = request("SET", "a", "1")
MGET = request("MGET", "a", "b", "{a}a-key-that-is-longer-than-sixteen-bytes")

# What a client sends to a node, and is answered.
AT_A_NODE = {SET: b"+OK\r\n", request("GET", "a"): b"$1\r\n1\r\n", request("QUIT"): b"+OK\r\n"}

# What a client sends to the proxy, which wants a password, and is answered where no key is there before.
AT_THE_PROXY = {
    request("AUTH", "sesame"): b"-WRONGPASS invalid username-password pair or user is disabled.\r\n",
    request("AUTH", PASSWORD): b"+OK\r\n",
    request("MSET", "a", "1", "b", "2", "c", "3"): b"+OK\r\n",
    request("MGET", "a", "b", "x", "c", "{a}a-key-longer-than-sixteen-bytes"): b"*5\r\n$1\r\n1\r\n$1\r\n2\r\n$-1\r\n$1\r\n3\r\n$-1\r\n",
    request("EXISTS", "a", "b", "x"): b":2\r\n",
    request("APPEND", "a", 100 * "x"): b":101\r\n",
    request("INCR", "n"): b":1\r\n",
    request("SET", "n", "1", "NX"): b"$-1\r\n",
    request("FOO"): b"-ERR unknown command\r\n",
    request("ECHO", 50 * "y"): b"$50\r\n%s\r\n" % (50 * b"y"),
    request("DEL", "a", "b", "c", "n"): b":4\r\n",
    request("QUIT"): b"+OK\r\n",
}

# What a run says on standard error that finds no memory, by its status: that it read its words, or the environment, is 2.
SAYS = {
    1: rb"|Error: (out of memory|memory allocation failed)\n",
    2: rb"(error|cluster_proxy): out of memory\n",
}

# The same of a run that serves, behind the lines of its log. A thread that the C library finds no memory for may be told so.
SERVING_SAYS = {
    1: rb"(time=.*\n)*(Error: memory allocation failed\n|(Error|cluster_proxy|cluster_proxy: cannot serve (clients|the nodes)(: cannot start a thread)?): out of memory\n"
    rb"|cluster_proxy: cannot serve clients: cannot start a thread: operation would block\n)",
    2: SAYS[2],
}

TWO_CLIENTS = b"client\nSET a 1\nINCR a\nclient\nSET b x\nMGET b c\nmove 15495 0\n"
TWO_CLIENTS_TEXT = b"reply 0 0 simple OK\nreply 0 1 integer 2\nreply 1 0 simple OK\nreply 1 1 array bulk x | null\naudit ok\n"

# The tests of runs in threads, a program that runs one of them by its name, and what it says of one that fails, by its status: one that
# finds no memory itself, and one whose run did not end as it asserts, which ends by an abort behind this line.
TESTS = os.environ.get("THREAD_TESTS") or os.path.join(os.path.dirname(os.path.abspath(__file__)), "../../crates/layer_tests/out/layer_tests_tests")
FAILED_SAYS = {101: rb"error: [^\n]+\nthe test failed: its result gives status 1\n", -signal.SIGABRT: rb"assertion failed: fail_after\(&rt, 12\)\?\n"}

# The scripts in which a slot moves, with the numbers of the events that gave the lines of their outputs.
MOVING = {MOVE_SCRIPT: [22, 23, 14, 16], "get_before_and_after_its_key_moves": [7, 16, 31, 4, 13, 27]}

# So many runs in a row whose growths were fewer than the one that is refused end a sweep of runs in threads.
AGREED = 3


@unittest.skipUnless(growths.compiler(), "no C compiler is there")
class Growth(unittest.TestCase):
    @classmethod
    def setUpClass(cls):
        cls.growths = growths.Growths()
        cls.addClassCleanup(cls.growths.close)

    def sweep(self, what, attempt, agreed=1):
        """Makes the attempt, which says whether it was answered, with the first growth refused, the second, and so on, until so
        many attempts in a row have had fewer growths."""
        counts, began = [], time.monotonic()
        for onwards in (False, True):
            number, answered, passed = 0, 0, 0
            while passed < agreed:
                number += 1
                self.growths.refuse(number, onwards)
                with self.subTest(growth=number, onwards=onwards):
                    answered += attempt()
                passed = passed + 1 if self.growths.count < number else 0
            self.assertGreater(number, agreed)
            counts += [number - agreed, answered - agreed]
        swept("growths of %s: %d refused, %d of them answered all the same; with all behind them %d and %d" % (what, *counts), began)

    def ran(self, words, given, wanted):
        """A run that is answered, or ends for want of memory with nothing written."""
        status, written, said = run(words, given, self.growths.variables)
        if status == 0:
            self.assertEqual((written, said), (wanted, b""))
            return True
        self.assertEqual(written, b"")
        self.check_said(SAYS, status, said)
        return False

    def check_said(self, says, status, said):
        self.assertIn(status, says, said)
        self.assertRegex(said, re.compile(rb"\A(%s)\Z" % says[status]))

    def test_one(self):
        for given, wanted in [(SET, b"+OK\r\n"), (MGET, b"*3\r\n$-1\r\n$-1\r\n$-1\r\n"), (b"*1\r\n$4\r\nPINX\r\n", b"-ERR unknown command\r\n")]:
            self.sweep(f"one, answered {wanted}", lambda: self.ran(["one"], given, wanted))

    def test_local(self):
        self.sweep("local", lambda: self.ran(["local", "--workers", "2"], TWO_CLIENTS, TWO_CLIENTS_TEXT), AGREED)

    def test_connections_that_fail_after_twelve_calls(self):
        """`run_faulty` with two clients while a slot moves. No word of the program calls it: the test of it passes, or fails and says so."""
        if not os.access(TESTS, os.X_OK):
            self.skipTest("the tests of layer_tests are not there: rt ci builds them")

        def attempt():
            words = [TESTS, "local_runs::connections_that_fail_after_twelve_calls"]
            environment = {**os.environ, **self.growths.variables}
            ran = subprocess.run(words, capture_output=True, timeout=LIMIT, check=False, env=environment)
            if ran.returncode == 0:
                self.assertIn(b"test result: ok", ran.stdout)
                return True
            self.check_said(FAILED_SAYS, ran.returncode, ran.stderr)
            return False

        self.sweep("run_faulty", attempt, AGREED)

    def test_simulate(self):
        """A script in which a slot moves: a growth that is refused at an event ends the run there, with the answers and the entries
        before it."""
        for row in rows_of("simulate_scripts.txt"):
            if row.name in MOVING:
                self.sweep_simulate(row, MOVING[row.name])

    def sweep_simulate(self, row, moments):
        lines = row.wanted.splitlines(keepends=True)
        partial = []
        for event in range(1, len(row.given.splitlines()) + 1):
            before = b"".join(line for line, moment in zip(lines, moments, strict=True) if moment < event)
            partial.append((1, before + b"refused %d NoMemory\n" % event))

        def attempt():
            status, written, said = run(["simulate"], HEADER + row.given, self.growths.variables)
            if (status, written) in [(0, row.wanted), *partial]:
                self.assertEqual(said, b"")
                return status == 0
            self.assertEqual(written, b"")
            self.check_said(SAYS, status, said)
            return False

        self.sweep(f"simulate, {row.name}", attempt)

    def served(self, words, port, answers, variables=None):
        """A run with these variables that answers a client's requests so, or ends for want of memory, before it listens or behind some
        replies."""
        environment = {**os.environ, **self.growths.variables, **(variables or {})}
        with subprocess.Popen([PROGRAM, *words], stdin=subprocess.DEVNULL, stderr=subprocess.PIPE, env=environment) as process:
            try:
                return self.served_by(process, port, answers)
            finally:
                process.kill()

    def served_by(self, process, port, answers):
        replies = list(answers.values())
        try:
            found = heard_to_the_end((port, process), b"".join(answers))
        except (ConnectionRefusedError, ConnectionResetError):
            found = b""
        if found == b"".join(replies):
            process.send_signal(signal.SIGTERM)
            self.assertEqual(process.wait(LIMIT), -signal.SIGTERM)
            return True
        self.assertIn(found, [b"".join(replies[:count]) for count in range(len(replies))])
        status = process.wait(LIMIT)
        self.check_said(SERVING_SAYS, status, process.stderr.read())
        return False

    def test_nodes(self):
        ports = free_ports(3)
        words = ["nodes", "--ports", ",".join(map(str, ports))]
        self.sweep("nodes", lambda: self.served(words, ports[2], AT_A_NODE), AGREED)

    def test_serve(self):
        (port,) = free_ports(1)
        with nodes() as [(seed, _), *_], proxy(seed, 1) as other:
            words = ["serve", "--listen", f"127.0.0.1:{port}", "--seed", f"127.0.0.1:{seed}", "--workers", "2"]

            def attempt():
                heard(other, request("DEL", "a", "b", "c", "n") + request("QUIT"))
                return self.served(words, port, AT_THE_PROXY, {"CLUSTER_PROXY_CLIENT_PASSWORD": PASSWORD})

            self.sweep("serve", attempt, AGREED)
