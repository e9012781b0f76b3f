"""`serve` with a password for its clients."""

import contextlib
import socket
import unittest

from program import LIMIT, run
from sockets import connection, free_ports, heard, nodes, request, started

PASSWORD = "sesame-7c1f09"

OK = b"+OK\r\n"
NOAUTH = b"-NOAUTH Authentication required.\r\n"
WRONG = b"-WRONGPASS invalid username-password pair or user is disabled.\r\n"
COUNT = b"-ERR wrong number of arguments for 'auth' command\r\n"
SYNTAX = b"-ERR syntax error\r\n"
NO_REQUEST = b"-ERR proxy: protocol error\r\n"
NULL = b"$-1\r\n"

AUTH, GET, QUIT = request("AUTH", PASSWORD), request("GET", "none"), request("QUIT")

# What a client says, and what it hears, up to the end of its connection.
ROWS = {
    "the password": (AUTH + GET + QUIT, OK + NULL + OK),
    "in small letters": (request("auth", PASSWORD) + GET + QUIT, OK + NULL + OK),
    "of the default user": (request("AUTH", "default", PASSWORD) + GET + QUIT, OK + NULL + OK),
    "of another user": (request("AUTH", "Default", PASSWORD) + GET + QUIT, WRONG + NOAUTH + OK),
    "of the default user, another": (request("AUTH", "default", PASSWORD[1:]) + GET + QUIT, WRONG + NOAUTH + OK),
    "its front": (request("AUTH", PASSWORD[:-1]) + GET + QUIT, WRONG + NOAUTH + OK),
    "one byte more": (request("AUTH", PASSWORD + "9") + GET + QUIT, WRONG + NOAUTH + OK),
    "one byte other": (request("AUTH", PASSWORD[:-1] + "8") + GET + QUIT, WRONG + NOAUTH + OK),
    "nothing": (request("AUTH", "") + GET + QUIT, WRONG + NOAUTH + OK),
    "in other letters": (request("AUTH", PASSWORD.upper()) + GET + QUIT, WRONG + NOAUTH + OK),
    "at the second try": (request("AUTH", "sesame") + GET + AUTH + GET + QUIT, WRONG + NOAUTH + OK + NULL + OK),
    "AUTH alone": (request("AUTH") + AUTH + GET + QUIT, COUNT + OK + NULL + OK),
    "three words": (request("AUTH", "default", PASSWORD, "x") + AUTH + GET + QUIT, SYNTAX + OK + NULL + OK),
    "no AUTH": (GET + request("PING") + request("SELECT", "0") + request("NO-SUCH") + QUIT, NOAUTH * 4 + OK),
    "QUIT": (QUIT + AUTH + GET, OK),
    "an array of nothing": (b"*0\r\n*-1\r\n" + AUTH + GET + QUIT, OK + NULL + OK),
    "no request": (b"GET a\r\n" + AUTH + GET, NO_REQUEST),
    "no words": (b"*1\r\n:1\r\n" + AUTH + GET, NO_REQUEST),
    "the most words": (request("ECHO", *"abcdefghi") + QUIT, NOAUTH + OK),
    "too many words": (request("ECHO", *"abcdefghij") + AUTH + GET, NO_REQUEST),
    "the longest word": (request("ECHO", "x" * 16_384) + QUIT, NOAUTH + OK),
    "too long a word": (request("ECHO", "x" * 16_385) + AUTH + GET, NO_REQUEST),
    "a second AUTH": (AUTH + AUTH + QUIT, OK + b"-ERR unknown command\r\n" + OK),
}

# What is cut into pieces of each size.
CUT = request("AUTH", "sesame") + GET + AUTH + request("SET", "a", "1") + request("GET", "a") + QUIT
CUT_HEARD = WRONG + NOAUTH + OK + OK + b"$1\r\n1\r\n" + OK

# Requests of a client that reads none of the answers before it has sent all.
MANY = 50_000


@contextlib.contextmanager
def guarded(workers=2):
    """The example cluster and a proxy that wants the password before it. Gives the proxy's port and process."""
    (port,) = free_ports(1)
    with nodes() as [(seed, _), *_]:
        words = ["serve", "--listen", f"127.0.0.1:{port}", "--seed", f"127.0.0.1:{seed}", "--workers", str(workers)]
        with started(words, {"CLUSTER_PROXY_CLIENT_PASSWORD": PASSWORD}) as server:
            connection(port, server).close()
            yield port, server


class Password(unittest.TestCase):
    def test_rows(self):
        with guarded() as proxied:
            for name, (sent, wanted) in ROWS.items():
                with self.subTest(name):
                    self.assertEqual(heard(proxied, sent), wanted)

    def test_byte_by_byte(self):
        with guarded() as proxied:
            self.assertEqual(heard(proxied, CUT, piece=1), CUT_HEARD)

    def test_pieces_of_each_size(self):
        with guarded() as proxied:
            for size in range(1, len(CUT)):
                self.assertEqual(heard(proxied, CUT, piece=size), CUT_HEARD, f"pieces of {size}")

    def test_nothing_is_executed_before(self):
        """Not even where the password comes in the same piece."""
        with guarded() as proxied:
            self.assertEqual(heard(proxied, request("SET", "a", "1") + AUTH + request("GET", "a") + QUIT), NOAUTH + OK + NULL + OK)

    def test_an_end_behind_requests(self):
        """A client that sends no more is answered first."""
        with guarded() as proxied, connection(*proxied) as client:
            client.sendall(GET + AUTH + GET)
            client.shutdown(socket.SHUT_WR)
            answered = b""
            while taken := client.recv(65536):
                answered += taken
            self.assertEqual(answered, NOAUTH + OK + NULL)

    def test_many_requests_before(self):
        """What is not read by the client waits; nothing of it is lost."""
        with guarded() as proxied, connection(*proxied) as client:
            client.settimeout(LIMIT)
            sent, answered = GET * MANY + AUTH + GET, b""
            client.setblocking(False)
            while sent:
                with contextlib.suppress(BlockingIOError):
                    sent = sent[client.send(sent[:65536]) :]
                with contextlib.suppress(BlockingIOError):
                    answered += client.recv(4096)
            client.settimeout(LIMIT)
            while len(answered) < MANY * len(NOAUTH) + len(OK + NULL):
                answered += client.recv(65536)
            self.assertEqual(answered, NOAUTH * MANY + OK + NULL)

    def test_too_short(self):
        """The value is not repeated."""
        words = ["serve", "--listen", "127.0.0.1:1", "--seed", "127.0.0.1:2", "--workers", "1"]
        said = b"cluster_proxy: CLUSTER_PROXY_CLIENT_PASSWORD has fewer than 8 bytes\n"
        self.assertEqual(run(words, variables={"CLUSTER_PROXY_CLIENT_PASSWORD": "sesame7"}), (2, b"", said))
