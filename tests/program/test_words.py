"""The words of the program: which are refused, which are taken, and what is said of faults."""

import os
import re
import socket

from program import Runs, run
from sockets import connection, free_ports, started

HINT = b"\n\nUsage: cluster_proxy <COMMAND>\n\nFor more information, try '--help'.\n"

LOCAL_TAKES = b"error: --workers takes a number from 1 to 64" + HINT
NODES_TAKES = b"error: --ports takes three ports from 1 to 65535, with a comma between them" + HINT
SERVE_TAKES = b"error: --listen, --seed (up to 16 times) and --admin take HOST:PORT with a port from 1 to 65535, and --workers 1 to 64" + HINT

# What the system says of a port that another program listens on.
TAKEN = b"Address already in use (os error 98)"

with open(os.path.join(os.path.dirname(os.path.abspath(__file__)), "..", "..", "README.md"), encoding="utf-8") as file:
    README = file.read()


def serving(listen="h:1", seed="h:2", workers="2"):
    return ["serve", "--listen", listen, "--seed", seed, "--workers", workers]


class Refused(Runs):
    """Status 2, the text on standard error and nothing on standard output."""

    def check_refused(self, words, text=None):
        with self.subTest(words=words):
            status, written, said = run(words)
            self.assertEqual((status, written), (2, b""))
            if text is None:
                self.assertTrue(said.strip())
            else:
                self.assertEqual(said, text)

    def test_no_subcommand(self):
        self.check_refused([])
        self.check_refused(["serving"])

    def test_words_that_are_missing_or_too_many(self):
        given = serving()
        without_one = [given[:place] + given[place + 2 :] for place in range(1, len(given), 2)]
        for words in [["local"], ["local", "--workers"], ["nodes"], *without_one, [*given, "more"]]:
            self.check_refused(words)

    def test_empty_words(self):
        for words in [["local", "--workers", ""], ["nodes", "--ports", ""], serving(listen=""), serving(seed=""), serving(workers="")]:
            self.check_refused(words)

    def test_a_number_with_a_dash(self):
        """It looks like an option."""
        self.check_refused(serving(workers="-1"))

    def test_workers_of_local(self):
        for workers in ["0", "65", "two", "+2"]:
            self.check_refused(["local", "--workers", workers], LOCAL_TAKES)

    def test_ports_of_nodes(self):
        for ports in ["1", "1,2", "1,2,x", "1 2 3", "1,2,-3", "7001,7002", "7001,7002,7003,7004", "7001,,7003", "0,7002,7003", "7001,7002,65536", "7001,7002,+7003", "007001,7002,7003"]:
            self.check_refused(["nodes", "--ports", ports], NODES_TAKES)

    def test_words_of_serve(self):
        for workers in ["0", "65", "two"]:
            self.check_refused(serving(workers=workers), SERVE_TAKES)
        for address in ["h", ":1", "h:", "h:0", "h:-1", "h:x", "h:65536", "h:000080", "h\n:1", "\r:2"]:
            self.check_refused(serving(listen=address), SERVE_TAKES)
            self.check_refused(serving(seed=address), SERVE_TAKES)
            self.check_refused([*serving(), "--admin", address], SERVE_TAKES)
            self.check_refused([*serving(), "--seed", address], SERVE_TAKES)

    def test_too_many_seeds(self):
        """Seventeen; and each other option once."""
        self.check_refused([*serving(), *["--seed", "h:3"] * 16], SERVE_TAKES)
        for more in [["--listen", "h:3"], ["--workers", "2"], ["--admin", "h:4", "--admin", "h:5"]]:
            self.check_refused([*serving(), *more])

    def test_a_user_without_a_password(self):
        """`serve` alone reads the environment."""
        for variables in [{"CLUSTER_PROXY_USER": "someone"}, {"CLUSTER_PROXY_USER": "someone", "CLUSTER_PROXY_PASSWORD": ""}]:
            said = b"cluster_proxy: CLUSTER_PROXY_USER is set, but CLUSTER_PROXY_PASSWORD is not\n"
            self.assertEqual(run(serving(), variables=variables), (2, b"", said))
            self.assertEqual(run(["local", "--workers", "1"], variables=variables)[0], 0)

    def test_variables_that_are_no_text(self):
        """The value is not repeated."""
        for name in [b"CLUSTER_PROXY_USER", b"CLUSTER_PROXY_PASSWORD", b"CLUSTER_PROXY_CLIENT_PASSWORD"]:
            variables = {os.fsdecode(name): os.fsdecode(b"\xff")}
            self.assertEqual(run(serving(), variables=variables), (2, b"", b"cluster_proxy: %s is not UTF-8\n" % name))


class Taken(Runs):
    def test_help(self):
        """It is no mistake: status 0, on standard output."""
        status, written, said = run(["serve", "--help"])
        self.assertEqual((status, said), (0, b""))
        self.assertIn(b"--listen", written)

    def test_help_has_an_example(self):
        """Its first line, with ports that are free, is taken."""
        _, written, _ = run(["serve", "--help"])
        example = written.decode().split("Example:\n")[1].splitlines()[0].split()
        self.assertEqual(example[:2], ["cluster_proxy", "serve"])
        self.assertEqual([it for it in example if it.startswith("--")], ["--listen", "--seed", "--workers"])

    def test_help_has_groups(self):
        """Each option stands in one of them."""
        _, written, _ = run(["serve", "--help"])
        groups = dict(re.findall(r"(?m)^(\w+):\n((?:  .+\n?)+)", written.decode()))
        options = {name: re.findall(r"(?m)^ {6}(--\w+)", text) for name, text in groups.items()}
        found = {name: sorted(names) for name, names in options.items() if names}
        self.assertEqual(found, {"Clients": ["--listen", "--workers"], "Cluster": ["--seed"], "Operation": ["--admin"]})

    def test_version(self):
        """The version, and the line of the kit, which the README has too."""
        status, written, said = run(["--version"])
        self.assertEqual((status, said), (0, b""))
        kit = re.fullmatch(r"\S+ [0-9]+\.[0-9]+\.[0-9]+ \((rattle-kit-\S+ logic \S+)\)\n", written.decode())
        self.assertIsNotNone(kit, written)
        self.assertIn(kit[1], README)

    def test_the_most_workers(self):
        self.check(["local", "--workers", "64"], b"", 0, b"audit ok\n")

    def test_ports_in_their_order(self):
        """Each node has its own port: it answers for its keys, and no other does."""
        ports = free_ports(3)
        with started(["nodes", "--ports", ",".join(map(str, ports))]) as server:
            for port, key in zip(ports, [b"b", b"c", b"a"]):
                with connection(port, server) as client:
                    client.sendall(b"*2\r\n$3\r\nGET\r\n$1\r\n%s\r\n" % key)
                    self.assertEqual(client.recv(64), b"$-1\r\n")

    def test_an_address_is_cut_at_its_last_colon(self):
        """`::1` is a host."""
        try:
            taken = socket.create_server(("::1", 0), family=socket.AF_INET6)
        except OSError:
            self.skipTest("this machine has no IPv6")
        with taken:
            port = taken.getsockname()[1]
            self.check_complaint(serving(listen=f"::1:{port}"), b"cluster_proxy: cannot listen on ::1:%d: %s\n" % (port, TAKEN))

    def check_complaint(self, words, text):
        """Status 1 and this line on standard error alone."""
        self.assertEqual(run(words), (1, b"", text))

    def test_a_port_that_is_taken(self):
        with socket.create_server(("127.0.0.1", 0)) as taken:
            port = taken.getsockname()[1]
            said = b"cluster_proxy: cannot listen on 127.0.0.1:%d: %s\n" % (port, TAKEN)
            self.check_complaint(serving(listen=f"127.0.0.1:{port}"), said)
            self.check_complaint(["nodes", "--ports", f"{port},{port},{port}"], said)

    def test_sixteen_seeds(self):
        """As many are taken, whatever they are: it goes on to listen."""
        with socket.create_server(("127.0.0.1", 0)) as taken:
            port = taken.getsockname()[1]
            said = b"cluster_proxy: cannot listen on 127.0.0.1:%d: %s\n" % (port, TAKEN)
            self.check_complaint([*serving(listen=f"127.0.0.1:{port}"), *["--seed", "h:2"] * 15], said)

    def test_an_address_of_the_page_that_is_taken(self):
        """It is said before any client is accepted."""
        with socket.create_server(("127.0.0.1", 0)) as taken:
            port = taken.getsockname()[1]
            (own,) = free_ports(1)
            said = b"cluster_proxy: cannot listen on 127.0.0.1:%d (admin): %s\n" % (port, TAKEN)
            self.check_complaint([*serving(listen=f"127.0.0.1:{own}"), "--admin", f"127.0.0.1:{port}"], said)
