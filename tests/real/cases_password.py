"""Passwords at the nodes and at the proxy, which has them from the environment."""

import subprocess
import time

from cases_log import Logged
from client import request
from cluster import Cluster, wait_until
from harness import case, check, check_same, check_time
from scripted import DeafNode, ScriptedNode, slots_reply
from writers import GAVE_UP

USER, PASSWORD = "an-application", "sesame-7c1f09"

# Keys of all three nodes.
KEYS = [b"%d" % number for number in range(60)]


def locked_cluster(world):
    """Three primaries with a password, started by the first case that wants them."""
    if not hasattr(world, "locked"):
        world.locked = Cluster(world.room, name="locked", password=PASSWORD)
    return world.locked


def variables_of(password, user=None):
    variables = {"CLUSTER_PROXY_PASSWORD": password}
    return {**variables, "CLUSTER_PROXY_USER": user} if user else variables


def check_silent(logged, password):
    """The password stands neither in the log nor in what the system lists of the process."""
    for line in logged.lines():
        check(password not in line, f"a line with the password: {line}")
    with open(f"/proc/{logged.proxy.process.pid}/cmdline", "rb") as words:
        check(password.encode() not in words.read(), "the password stands among the program's words")


def check_serves(logged, cluster):
    """Keys of all nodes are written and read, a connection to each is logged, and no line warns."""
    with logged.proxy.client() as client:
        client.value("MSET", *[word for key in KEYS for word in (key, b"v" + key)])
        check_same(client.value("MGET", *KEYS), [b"v" + key for key in KEYS], "the values")
    for node in cluster.nodes[:3]:
        logged.wait_for("link_opened", f"node=127.0.0.1:{node.port} ")
    check("level=warn" not in "".join(logged.lines()), f"a warning: {logged.lines()}")


@case(beside="password")
def nodes_with_a_password(world):
    cluster = locked_cluster(world)
    with Logged(world, cluster.nodes[0].port, "password", variables_of(PASSWORD)) as logged:
        check_serves(logged, cluster)
        check_silent(logged, PASSWORD)


@case(beside="password")
def nodes_with_a_user(world):
    cluster, password = locked_cluster(world), "opens-for-the-user"
    for node in cluster.nodes:
        node.value("ACL", "SETUSER", USER, "on", f">{password}", "~*", "+@all")
    with Logged(world, cluster.nodes[0].port, "user", variables_of(password, USER)) as logged:
        check_serves(logged, cluster)
        check_silent(logged, password)


@case(beside="password")
def a_wrong_password(world):
    """Each command is given up unsent, and the log has the node's words."""
    cluster, password = locked_cluster(world), "not-the-password"
    with Logged(world, cluster.nodes[0].port, "wrong", variables_of(password)) as logged, logged.proxy.client() as client:
        check_same(client.ask("SET", "a", "1"), GAVE_UP, "SET")
        logged.wait_for("seed_unreachable", "level=warn", 'reason="WRONGPASS invalid username-password pair or user is disabled."')
        check_silent(logged, password)


@case(beside="password")
def no_password_where_one_is_wanted(world):
    """Nothing goes before the commands, and the node's error is passed on."""
    cluster = locked_cluster(world)
    with Logged(world, cluster.nodes[0].port, "without") as logged, logged.proxy.client() as client:
        check_same(client.ask("GET", "a"), b"-NOAUTH Authentication required.\r\n", "GET")


@case
def a_password_where_none_is_wanted(world):
    """The nodes refuse it."""
    with Logged(world, world.cluster.nodes[0].port, "needless", variables_of(PASSWORD)) as logged, logged.proxy.client() as client:
        check_same(client.ask("GET", "a"), GAVE_UP, "GET")
        logged.wait_for("seed_unreachable", "level=warn", 'reason="ERR AUTH <password> called without any password configured')


class Gate:
    """A node that owns all slots and answers AUTH by a script."""

    def __init__(self, auth, listener=None):
        self.auth = auth
        self.node = ScriptedNode(self.answer, lambda: slots_reply([(0, 16383, self.node.port)]), listener)
        self.port = self.node.port

    def answer(self, words):
        return self.auth() if words[0] == b"AUTH" else b"$2\r\nok\r\n"

    def proxy(self, world, name):
        return Logged(world, self.port, name, variables_of(PASSWORD), workers=1)


def after(seconds, reply):
    """An answer that takes its time."""

    def answer():
        time.sleep(seconds)
        return reply

    return answer


@case(beside="password")
def auth_goes_first(world):
    """Once on each connection, and its reply is no command's, also where both come at once."""
    for seconds in [0, 0.3]:
        gate = Gate(after(seconds, b"+OK\r\n"))
        with gate.proxy(world, "first") as logged, logged.proxy.client() as client:
            check_same(client.ask("GET", "a"), b"$2\r\nok\r\n", "GET")
            check_same(gate.node.words_seen(), [[b"AUTH", PASSWORD.encode()], [b"GET", b"a"]], "what the node saw")
            check_silent(logged, PASSWORD)


@case(beside="password")
def auth_is_answered_late(world):
    """Nothing goes to the node before its answer; a refusal ends the connection, with the node's words in the log."""
    gate = Gate(after(0.3, b"-ERR not today 'sesame-7c1f09'\r\n"))
    with gate.proxy(world, "late") as logged, logged.proxy.client() as client:
        check_same(client.ask("GET", "a"), GAVE_UP, "GET")
        check(all(words[0] == b"AUTH" for words in gate.node.words_seen()), f"{gate.node.words_seen()}")
        logged.wait_for("seed_unreachable", "level=warn", 'reason="ERR not today "')
        check_silent(logged, PASSWORD)


@case(beside="password")
def auth_over_a_connection_that_is_made_late(world):
    """The queue of a node is full while it is dialled, and has room when the system tries again."""
    deaf = DeafNode()
    with Logged(world, deaf.port, "slow", variables_of(PASSWORD)) as logged, logged.proxy.client() as client:
        client.send(request("GET", "a"))
        time.sleep(0.4)
        gate = Gate(after(0, b"+OK\r\n"), deaf.listener)
        reply = client.reply()
        check(reply in (b"$2\r\nok\r\n", GAVE_UP), f"GET was answered {reply!r}")
        check_same(client.ask("GET", "b"), b"$2\r\nok\r\n", "GET")
        firsts = {}
        for number, words in gate.node.seen:
            firsts.setdefault(number, words)
        check(all(words == [b"AUTH", PASSWORD.encode()] for words in firsts.values()), f"{gate.node.seen}")
    return f"{reply}"


@case(beside="password")
def auth_is_not_answered(world):
    """After two seconds the connection is given up."""
    gate = Gate(after(30, b"+OK\r\n"))
    with gate.proxy(world, "mute") as logged, logged.proxy.client() as client:
        began = time.monotonic()
        check_same(client.ask("GET", "a"), GAVE_UP, "GET")
        check_time(time.monotonic() - began < 4, "it took longer than four seconds")
        logged.wait_for("seed_unreachable", "level=warn", 'reason="no reply to AUTH in time"')


@case(beside="password")
def auth_is_answered_by_something_else(world):
    """Neither OK nor an error, and a line that does not end."""
    for reply in [b"$2\r\nOK\r\n", b"+" + b"x" * 600]:
        gate = Gate(after(0, reply))
        with gate.proxy(world, "else") as logged, logged.proxy.client() as client:
            check_same(client.ask("GET", "a"), GAVE_UP, "GET")
            logged.wait_for("seed_unreachable", "level=warn", 'reason="the node answers AUTH with neither OK nor an error"')


@case(beside="password")
def a_password_that_is_repeated(world):
    """A node that says the password in its words: they are not shown."""
    gate = Gate(after(0, b"-ERR " + PASSWORD.encode() + b" is wrong\r\n"))
    with gate.proxy(world, "repeated") as logged, logged.proxy.client() as client:
        check_same(client.ask("GET", "a"), GAVE_UP, "GET")
        wait_until(lambda: logged.lines("seed_unreachable"), "a line")
        check_silent(logged, PASSWORD)


CLIENTS = "opens-for-clients"


@case(beside="password")
def clients_with_a_password(world):
    """redis-cli says it, while another client that does not is refused; neither the log nor the list of processes shows it."""
    cluster, variables = locked_cluster(world), {**variables_of(PASSWORD), "CLUSTER_PROXY_CLIENT_PASSWORD": CLIENTS}
    with Logged(world, cluster.nodes[0].port, "clients", variables) as logged, logged.proxy.client() as client:
        words = ["redis-cli", "--no-auth-warning", "-p", str(logged.proxy.port)]
        for auth, said in [(["-a", CLIENTS], b"OK"), (["--user", "default", "-a", CLIENTS], b"OK"), ([], b"NOAUTH Authentication required."), (["-a", PASSWORD], b"NOAUTH Authentication required.")]:
            ran = subprocess.run([*words, *auth, "SET", "a", "1"], capture_output=True, timeout=60, check=False)
            check(said in ran.stdout, f"redis-cli {auth} wrote {ran.stdout} and {ran.stderr}")
        check_same(client.ask("GET", "a"), b"-NOAUTH Authentication required.\r\n", "GET")
        check_same(client.ask("AUTH", CLIENTS), b"+OK\r\n", "AUTH")
        check_same(client.ask("GET", "a"), b"$1\r\n1\r\n", "GET")
        check_silent(logged, PASSWORD)
        check_silent(logged, CLIENTS)
