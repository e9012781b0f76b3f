"""The README's tables: each command, error and option that they name is the program's."""

import os
import re
import socket
import threading

from program import Runs, run
from sockets import free_ports, heard, proxy, request
from test_password import QUIT, guarded

with open(os.path.join(os.path.dirname(os.path.abspath(__file__)), "..", "..", "README.md"), encoding="utf-8") as file:
    README = file.read()

# Words behind each command's name that it takes.
WORDS = {
    "GET": "a", "SET": "a 1", "SETNX": "a 1", "GETSET": "a 1", "GETDEL": "a", "APPEND": "a 1", "STRLEN": "a", "INCR": "a", "DECR": "a",
    "INCRBY": "a 2", "DEL": "a b", "EXISTS": "a b", "MGET": "a b", "MSET": "a 1 b 2", "PING": "", "ECHO": "x", "SELECT": "0", "QUIT": "",
}


def table(title):
    """The rows of the first table below a heading, without its head."""
    rows = re.search(rf"\n## {title}\n[^#]*?\n((?:\|.*\n)+)", README)[1].splitlines()
    return [[cell.strip() for cell in row.split("|")[1:-1]] for row in rows[2:]]


def one(*words):
    """What `one` answers to a request."""
    status, written, _ = run(["one"], request(*words))
    return written if status == 0 else None


class FakeNode:
    """A node that owns all slots, says this to each other request, and closes the connection where there is nothing to say."""

    def __init__(self, said):
        self.said = said
        self.listener = socket.create_server(("127.0.0.1", 0))
        self.port = self.listener.getsockname()[1]
        threading.Thread(target=self.accept, daemon=True).start()

    def accept(self):
        while True:
            try:
                connected, _ = self.listener.accept()
            except OSError:
                return
            threading.Thread(target=self.serve, args=(connected,), daemon=True).start()

    def serve(self, connected):
        with connected:
            try:
                self.answer(connected)
            except OSError:
                pass  # the other side has ended it

    def answer(self, connected):
        while taken := connected.recv(65536):
            for name in re.findall(rb"\*\d+\r\n\$\d+\r\n(\w+)\r\n", taken):
                if name == b"CLUSTER":
                    connected.sendall(b"*1\r\n*3\r\n:0\r\n:16383\r\n*2\r\n$9\r\n127.0.0.1\r\n:%d\r\n" % self.port)
                elif self.said is None:
                    return
                else:
                    connected.sendall(self.said)

    def __enter__(self):
        return self

    def __exit__(self, *_):
        self.listener.close()


class Readme(Runs):
    def test_commands(self):
        """Each is taken, in a form of its own."""
        named = re.findall(r"[A-Z]{3,}", re.sub(r"\([^)]*\)", "", " ".join(row[0] for row in table("Commands"))))
        self.assertEqual(sorted(named), sorted(WORDS))
        for name, words in WORDS.items():
            with self.subTest(name):
                self.assertFalse(one(name, *words.split()).startswith(b"-"))
                self.assertNotIn(b"unknown command", one(name))

    def test_unknown_commands(self):
        """Those of the table of clients."""
        for row in table("Which clients work")[:2]:
            for name in re.findall(r"[A-Z]{4,}", row[0]):
                self.assertEqual(one(name), b"-ERR unknown command\r\n", name)

    def test_options(self):
        """Those of the commands in the text are those that `serve` takes."""
        _, helped, _ = run(["serve", "--help"])
        self.assertEqual(set(re.findall(r"--\w+", re.search(r"cluster_proxy serve .*", README)[0])), {"--listen", "--seed", "--workers"})
        for option in ["--listen", "--seed", "--workers"]:
            self.assertIn(option.encode(), helped)

    def errors(self):
        """What makes the program say each error, by the error."""
        (nobody,) = free_ports(1)
        found = {
            one("NOSUCH"),
            one("GET"),
            one("SET", "a", "1", "NX", "XX"),
            one("INCRBY", "a", "x"),
            one("SELECT", "1"),
        }
        with proxy(nobody, 1) as at:
            found |= {heard(at, b"PING\r\n"), heard(at, request("GET", "a") + request("QUIT")).removesuffix(b"+OK\r\n")}
        with guarded() as at:
            found |= {heard(at, request(*words) + QUIT).removesuffix(b"+OK\r\n") for words in [["PING"], ["AUTH", "another"]]}
        for said in [None, b"+OK\r\n"]:
            with FakeNode(said) as node, proxy(node.port, 1) as at:
                found.add(heard(at, request("DEL", "a", "b") + request("QUIT")).removesuffix(b"+OK\r\n"))
        return {it.decode().removeprefix("-").removesuffix("\r\n") for it in found}

    def test_errors(self):
        """Each row's error is said, and no other."""
        named = {row[0].strip("`") for row in table("Errors that a client may see") if row[0].startswith("`")}
        self.assertEqual(self.errors(), named)
