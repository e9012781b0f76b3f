"""Servers of a test: plain redis-servers, a cluster of three primaries with slots that move, and the proxy."""

import os
import signal
import subprocess
import sys
import time
from binascii import crc_hqx

from client import Client, Closed
from harness import check

sys.path.append(os.path.join(os.path.dirname(os.path.abspath(__file__)), "..", "program"))

from ports import free_ports

SLOTS = 16384


def slot_of(key):
    """The slot of a key: its CRC16 (XMODEM), or that of its tag between braces, modulo 16384."""
    opened = key.find(b"{")
    closed = key.find(b"}", opened + 1)
    if opened >= 0 and closed > opened + 1:
        key = key[opened + 1 : closed]
    return crc_hqx(key, 0) % SLOTS


def tag_of_slot(wanted):
    """A short tag whose slot is in the range wanted."""
    return next(b"%d" % number for number in range(1 << 20) if slot_of(b"%d" % number) in wanted)


def keys_of_slots(first, last, count):
    """So many keys, each of another slot of a range."""
    keys = {}
    for number in range(1 << 20):
        slot = slot_of(b"%d" % number)
        if first <= slot <= last:
            keys.setdefault(slot, b"%d" % number)
        if len(keys) == count:
            return list(keys.values())


def is_within(seconds, is_so):
    """Whether it is so before so many seconds are over."""
    end = time.monotonic() + seconds
    while not is_so():
        if time.monotonic() > end:
            return False
        time.sleep(0.02)
    return True


def wait_until(is_so, what, limit=60.0):
    check(is_within(limit, is_so), f"waited {limit} seconds for {what}")


def does_answer(port, password=None):
    try:
        with Client(port, limit=2.0) as client:
            if password:
                client.ask("AUTH", password)
            return client.ask("PING") == b"+PONG\r\n"
    except (OSError, Closed):
        return False


def does_listen(port):
    try:
        Client(port, limit=2.0).close()
        return True
    except OSError:
        return False


class Room:
    """The folder of a run, and each process that it started."""

    def __init__(self, folder):
        self.folder, self.processes, self.names = folder, [], {}

    def name(self, name):
        """The name, or where it was given before, as to a case that is run again, another one."""
        self.names[name] = self.names.get(name, 0) + 1
        return name if self.names[name] == 1 else f"{name}.{self.names[name]}"

    def start(self, words, said, variables=None):
        """Starts a program whose output goes to the file `said`, and notes its number for `run`, which ends what is left."""
        with open(f"{self.folder}/{said}", "ab") as output:
            environment = {**os.environ, **(variables or {})}
            process = subprocess.Popen(words, stdin=subprocess.DEVNULL, stdout=output, stderr=output, env=environment)
        with open(f"{self.folder}/started", "a", encoding="ascii") as started:
            started.write(f"{process.pid}\n")
        self.processes.append(process)
        return process

    def end_all(self):
        for process in self.processes:
            end(process)


def end(process):
    """Kills a process, also one that is stopped, and waits for its end."""
    if process.poll() is None:
        process.kill()
        process.wait()


def processor_seconds(process):
    """What all threads of a process have used, by the scheduler's own count."""
    total = 0
    for thread in os.listdir(f"/proc/{process.pid}/task"):
        with open(f"/proc/{process.pid}/task/{thread}/schedstat", encoding="ascii") as counts:
            total += int(counts.read().split()[0])
    return total / 1e9


def resident_mebibytes(process, line="VmRSS"):
    with open(f"/proc/{process.pid}/status", encoding="ascii") as status:
        return next(int(it.split()[1]) for it in status if it.startswith(f"{line}:")) / 1024


def peak_mebibytes(process):
    """The most that it has held so far."""
    return resident_mebibytes(process, "VmHWM")


class Server:
    """One redis-server."""

    def __init__(self, room, name, *options, port=None, password=None):
        self.room, self.name, self.password = room, room.name(name), password
        self.options = [*options, "--requirepass", password] if password else options
        self.port = port or free_ports(1)[0]
        self.folder = f"{room.folder}/{self.name}"
        os.makedirs(self.folder, exist_ok=True)
        self.start()

    def start(self, keeps="no"):
        """Starts it anew at its port, with its folder, where what it executes is kept if `keeps` says `yes`: the system has it before it
        is answered. With an fsync each second it would not, while one is under way."""
        words = ["redis-server", "--port", self.port, "--bind", "127.0.0.1", "--dir", self.folder]
        words += ["--save", "", "--appendonly", keeps, "--appendfsync", "no", "--daemonize", "no", *self.options]
        self.process = self.room.start([str(it) for it in words], f"{self.name}.log")
        wait_until(lambda: does_answer(self.port, self.password), f"{self.name} to answer")

    def is_running(self):
        return self.process.poll() is None

    def kill(self):
        """Ends it at once: it says nothing to the others, and its port is closed."""
        self.process.kill()
        self.process.wait()

    def client(self):
        client = Client(self.port)
        if self.password:
            client.value("AUTH", self.password)
        return client

    def value(self, *words):
        with self.client() as client:
            return client.value(*words)

    def stop(self):
        """Stops it as it stands: it keeps its connections and answers nothing."""
        self.process.send_signal(signal.SIGSTOP)

    def go_on(self):
        self.process.send_signal(signal.SIGCONT)


def cluster_nodes(room, name, password=None, patience=10000):
    """Three nodes that know nobody yet, with the ports of their bus; one is lost for the others after `patience` milliseconds.

    A node that is lost takes only its own slots with it: full coverage is not required.
    """
    ports = free_ports(6)
    ports, buses = ports[:3], ports[3:]
    nodes = []
    for number in range(3):
        options = ["--cluster-enabled", "yes", "--cluster-port", buses[number], "--cluster-config-file", "nodes.conf"]
        options += ["--cluster-require-full-coverage", "no", "--cluster-node-timeout", patience, "--cluster-announce-ip", "127.0.0.1"]
        options += ["--repl-diskless-sync-delay", "0"]
        nodes.append(Server(room, f"{name}{number}", *options, port=ports[number], password=password))
    return nodes, buses


class Cluster:
    """Three primaries, each with a third of the slots, which want a password where one is given."""

    def __init__(self, room, name="node", password=None, patience=10000):
        # the seconds that the slowest move took since the last `tidy`
        self.slowest_move = 0.0
        self.nodes, buses = cluster_nodes(room, name, password, patience)
        for number, (node, (first, last)) in enumerate(zip(self.nodes, self.ranges())):
            node.value("CLUSTER", "SET-CONFIG-EPOCH", number + 1)
            node.value("CLUSTER", "ADDSLOTSRANGE", first, last)
        for node, bus in zip(self.nodes[1:], buses[1:]):
            self.nodes[0].value("CLUSTER", "MEET", "127.0.0.1", node.port, bus)
        self.ids = [node.value("CLUSTER", "MYID") for node in self.nodes]
        wait_until(self.is_whole, "the cluster's nodes to know each other")

    @staticmethod
    def ranges():
        return [(0, 5460), (5461, 10922), (10923, 16383)]

    def is_whole(self):
        for node in self.nodes:
            info = node.value("CLUSTER", "INFO").decode()
            if "cluster_state:ok" not in info or "cluster_known_nodes:3" not in info or "cluster_slots_ok:16384" not in info:
                return False
        return True

    def owner(self, slot):
        """The number of the node that has a slot, as that node itself says."""
        return next(number for number in range(3) if any(first <= slot <= last for first, last in self.ranges_of(number)))

    def begin_move(self, slot, source, target):
        self.move_began = time.monotonic()
        self.nodes[target].value("CLUSTER", "SETSLOT", slot, "IMPORTING", self.ids[source])
        self.nodes[source].value("CLUSTER", "SETSLOT", slot, "MIGRATING", self.ids[target])

    def move_keys(self, slot, source, target, at_once=10):
        """Moves up to so many keys, and says how many there were."""
        with self.nodes[source].client() as client:
            keys = client.value("CLUSTER", "GETKEYSINSLOT", slot, at_once)
            if keys:
                moved = client.value("MIGRATE", "127.0.0.1", self.nodes[target].port, "", 0, 50000, "KEYS", *keys)
                check(moved in ("OK", "NOKEY"), f"MIGRATE said {moved!r}")
        return len(keys)

    def end_move(self, slot, source, target):
        third = 3 - source - target
        for number in (target, source, third):
            self.nodes[number].value("CLUSTER", "SETSLOT", slot, "NODE", self.ids[target])
        self.slowest_move = max(self.slowest_move, time.monotonic() - self.move_began)

    def call_back(self, slot, source, target):
        """Ends a move before a key went over: both nodes forget it."""
        self.nodes[target].value("CLUSTER", "SETSLOT", slot, "STABLE")
        self.nodes[source].value("CLUSTER", "SETSLOT", slot, "STABLE")

    def move(self, slot, target, pause=0.0, at_once=1):
        """Moves a slot with its keys; at each step clients have `pause` seconds to meet it."""
        source = self.owner(slot)
        if source == target:
            return
        self.begin_move(slot, source, target)
        time.sleep(pause)
        while self.move_keys(slot, source, target, at_once):
            time.sleep(pause)
        self.end_move(slot, source, target)

    def tidy(self):
        """All nodes run, with no keys, no slot in a move, and each slot at the node that had it at the start."""
        ended = [node for node in self.nodes if not node.is_running()]
        for node in self.nodes:
            node.start() if node in ended else node.go_on()
        if ended:
            wait_until(self.is_whole, "the cluster to be whole again")
        for node in self.nodes:
            node.value("FLUSHALL")
        for node in self.nodes:
            for slot in self.slots_in_moves(node):
                node.value("CLUSTER", "SETSLOT", slot, "STABLE")
        for number, (low, high) in enumerate(self.ranges()):
            for first, last in self.ranges_of(number):
                for slot in range(first, last + 1):
                    if not low <= slot <= high:
                        self.move(slot, next(k for k, (a, b) in enumerate(self.ranges()) if a <= slot <= b))
        self.slowest_move = 0.0

    def end(self):
        """Ends all nodes of it."""
        for node in self.nodes:
            end(node.process)

    @staticmethod
    def slots_in_moves(node):
        """Those that the node imports or migrates: `[slot->-id]` and `[slot-<-id]` in its own line."""
        lines = node.value("CLUSTER", "NODES").decode().splitlines()
        words = next(line for line in lines if "myself" in line).split()
        return [int(word[1:].partition("-")[0]) for word in words if word.startswith("[")]

    def ranges_of(self, number):
        """The ranges of slots that a node says to be its own."""
        node = self.nodes[number]
        return [(first, last) for first, last, (_, port, *_), *_ in node.value("CLUSTER", "SLOTS") if port == node.port]


class Proxy:
    """The program before a seed, or more of them."""

    def __init__(self, room, program, seed_port, workers=2, name="proxy", variables=None, descriptors=None, paged=False, more_seeds=()):
        self.room, self.program, self.seeds, self.workers, self.name = room, program, [seed_port, *more_seeds], workers, room.name(name)
        self.variables, self.limit, self.paged = variables, descriptors, paged
        self.start()

    def start(self, again=False):
        """Starts it, at another port than before but where it is the same one `again`."""
        if not again:
            self.port, self.admin = free_ports(1)[0], free_ports(1)[0] if self.paged else None
        words = [self.program, "serve", "--listen", f"127.0.0.1:{self.port}"]
        for it in self.seeds:
            words += ["--seed", f"127.0.0.1:{it}"]
        limited = ["sh", "-c", f'ulimit -n {self.limit}; exec "$@"', "sh"] if self.limit else []
        if self.paged:
            words += ["--admin", f"127.0.0.1:{self.admin}"]
        self.process = self.room.start([*limited, *words, "--workers", str(self.workers)], f"{self.name}.log", self.variables)
        password = (self.variables or {}).get("CLUSTER_PROXY_CLIENT_PASSWORD")
        wait_until(lambda: self.has_ended() or does_answer(self.port, password), f"{self.name} to answer")
        check(not self.has_ended(), f"{self.name} ended at its start: {self.said()}")

    def has_ended(self):
        return self.process.poll() is not None

    def end(self):
        """By a signal."""
        self.process.terminate()
        self.process.wait(60)

    def said(self):
        """The end of what it wrote, and its status where it has ended."""
        with open(f"{self.room.folder}/{self.name}.log", "rb") as said:
            return f"status {self.process.poll()}, {said.read()[-300:]!r}"

    def client(self, **options):
        return Client(self.port, **options)

    def descriptors(self):
        return len(os.listdir(f"/proc/{self.process.pid}/fd"))


class Nodes:
    """The program's own three nodes, in one process."""

    def __init__(self, room, program):
        self.ports = free_ports(3)
        self.process = room.start([program, "nodes", "--ports", ",".join(map(str, self.ports))], "nodes.log")
        for port in self.ports:
            wait_until(lambda: does_listen(port), f"a node to listen on {port}")


class OwnProxy:
    """What a case has of a proxy of its own, which is killed at the end of its `with`."""

    def __init__(self, proxy):
        self.proxy = proxy

    def __enter__(self):
        return self

    def __exit__(self, *_):
        self.proxy.process.kill()
        self.proxy.process.wait()
