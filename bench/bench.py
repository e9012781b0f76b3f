"""Requests a second, 99th percentile, processor time and memory: one redis-server, nutcracker and the proxy, side by side."""

import argparse
import os
import resource
import shutil
import signal
import statistics
import subprocess
import sys
import time

sys.path.insert(0, os.path.join(os.path.dirname(os.path.abspath(__file__)), "..", "tests", "real"))

from client import Client, request
from cluster import Cluster, Proxy, Room, Server, does_answer, free_ports, slot_of, wait_until
from harness import Failed

CLIENTS = 50
GROUP = 8
# How many commands one client sends before it reads a reply.
LONG = 20000
SIZES = {"3 B": 3, "1 KiB": 1024, "64 KiB": 65536}
IDLE_SECONDS = 5.0
# With so many workers each the proxy is measured.
WORKERS = (1, 2)


class Row:
    """One line of the table: a command with values of one size, at one depth of pipeline, by so many clients, on many keys or one."""

    def __init__(self, command, size, pipeline, clients=CLIENTS, one_key=False):
        self.command, self.size, self.pipeline, self.clients, self.one_key = command, size, pipeline, clients, one_key
        group = f" of {GROUP} keys" if command[0] == "M" else ""
        self.name = f"{command}{group}, {size}, pipeline {pipeline}{', one client' * (clients == 1)}{', one key' * one_key}"

    def words(self):
        key, value = "key:000000000000" if self.one_key else "key:__rand_int__", "v" * SIZES[self.size]
        one = {"GET": [key], "SET": [key, value], "INCR": ["counter"], "MGET": [key] * GROUP, "MSET": [key, value] * GROUP}
        return [self.command, *one[self.command]]

    def keys(self):
        """How many keys there are: fewer of big values."""
        return 1000 if self.size == "64 KiB" else 10000


def rows():
    """Groups of big values are not pipelined: 50 clients with 32 of them would have 800 MB under way."""
    for size in SIZES:
        for command in ("GET", "SET", "MGET", "MSET"):
            for pipeline in (1, 32):
                if pipeline == 1 or command[0] != "M" or size != "64 KiB":
                    yield Row(command, size, pipeline)
        if size == "3 B":
            yield from few_rows(size)


def few_rows(size):
    """One client alone, and one key: a client's commands for one slot go one after another."""
    for command in ("GET", "SET"):
        yield Row(command, size, 1, clients=1)
    for command in ("GET", "SET", "INCR"):
        yield Row(command, size, 32, one_key=True)
    yield Row("INCR", size, LONG, clients=1, one_key=True)


class Target:
    """What is measured: a port, and the process whose processor time and memory count."""

    def __init__(self, name, port, process):
        self.name, self.port, self.process = name, port, process
        self.memory_before = memory(process, "VmRSS")
        # The processors of all else, where those that are measured have others.
        self.others = ()

    def put_apart(self, own, others):
        """All its threads run on these processors, and what it talks to on the others."""
        self.others = others
        for thread in os.listdir(f"/proc/{self.process.pid}/task"):
            os.sched_setaffinity(int(thread), own)

    def fill(self, row):
        """Puts every key, with values of the row's size."""
        value = "v" * SIZES[row.size]
        with Client(self.port, limit=60) as client:
            for first in range(0, row.keys(), 100):
                client.send(b"".join(request("SET", f"key:{number:012}", value) for number in range(first, first + 100)))
                client.replies(100)

    def measure(self, row, count):
        """Requests a second, 99th percentile in milliseconds, processor seconds."""
        before = processor_seconds(self.process)
        words = ["redis-benchmark", "-h", "127.0.0.1", "-p", self.port, "-c", row.clients, "-P", row.pipeline, "-n", count]
        words += [*([] if row.one_key else ["-r", row.keys()]), "--csv", *row.words()]
        try:
            ran = subprocess.run([str(it) for it in words], capture_output=True, timeout=120, check=True)
        except (subprocess.CalledProcessError, subprocess.TimeoutExpired) as fault:
            raise Failed(f"{row.name} at {self.name}: {(fault.stderr or b'no end').decode()[-200:].strip()}") from None
        _, rate, _, _, _, _, percentile, _ = ran.stdout.decode().strip().splitlines()[-1].rsplit(",", 7)
        return float(rate.strip('"')), float(percentile.strip('"')), processor_seconds(self.process) - before


def processor_seconds(process):
    """User and system time of /proc/PID/stat, ended threads included."""
    with open(f"/proc/{process.pid}/stat", encoding="ascii") as stat:
        fields = stat.read().rpartition(")")[2].split()
    return (int(fields[11]) + int(fields[12])) / os.sysconf("SC_CLK_TCK")


def busy_seconds(processors):
    """For how long these processors did something, together."""
    with open("/proc/stat", encoding="ascii") as stat:
        fields = {it[0]: [int(ticks) for ticks in it[1:]] for it in map(str.split, stat) if it[0].startswith("cpu")}
    spent = [fields[f"cpu{it}"] for it in processors]
    return sum(sum(it[:3]) + sum(it[5:8]) for it in spent) / os.sysconf("SC_CLK_TCK")


def client_seconds():
    """Processor seconds of the programs that were run and have ended: of redis-benchmark."""
    used = resource.getrusage(resource.RUSAGE_CHILDREN)
    return used.ru_utime + used.ru_stime


def halves():
    """The processors of this process in two parts."""
    processors = sorted(os.sched_getaffinity(0))
    half = len(processors) // 2
    if half == 0:
        raise Failed("--apart wants two processors at least")
    return set(processors[:half]), set(processors[half:])


def memory(process, field):
    """A field of /proc/PID/status, in MiB."""
    with open(f"/proc/{process.pid}/status", encoding="ascii") as status:
        return next(int(line.split()[1]) for line in status if line.startswith(f"{field}:")) / 1024


def idle_percent(target):
    """Of a core, with so many clients that say nothing."""
    clients = [Client(target.port) for _ in range(CLIENTS)]
    for client in clients:
        client.ask("GET", "key:000000000000")
    time.sleep(1)
    before = processor_seconds(target.process)
    time.sleep(IDLE_SECONDS)
    spent = processor_seconds(target.process) - before
    for client in clients:
        client.close()
    return 100 * spent / IDLE_SECONDS


def silent_clients(target, count):
    """So many clients that ask once, and then say nothing."""
    clients = [Client(target.port) for _ in range(count)]
    for client in clients:
        client.ask("GET", "key:000000000000")
    return clients


def start_nutcracker(room):
    servers = [Server(room, f"nutcracker{number}") for number in range(3)]
    port, stats = free_ports(2)
    with open(f"{room.folder}/nutcracker.yml", "w", encoding="ascii") as conf:
        conf.write(f"bench:\n  listen: 127.0.0.1:{port}\n  hash: fnv1a_64\n  distribution: ketama\n  redis: true\n  servers:\n")
        conf.writelines(f"   - 127.0.0.1:{server.port}:1\n" for server in servers)
    program = shutil.which("nutcracker") or "/usr/sbin/nutcracker"
    words = [program, "-c", conf.name, "-s", str(stats), "-a", "127.0.0.1", "-p", f"{room.folder}/nutcracker.pid", "-v", "0"]
    process = room.start([*words, "-o", f"{room.folder}/nutcracker.out"], "nutcracker.log")
    wait_until(lambda: does_answer(port), "nutcracker to answer")
    return Target("nutcracker", port, process)


def start_proxies(room, program, cluster):
    for workers in WORKERS:
        proxy = Proxy(room, program, cluster.nodes[0].port, workers=workers, name=f"serve{workers}")
        yield Target(f"serve {workers}", proxy.port, proxy.process)


def start_targets(room, program):
    plain = Server(room, "direct")
    targets = [Target("direct", plain.port, plain.process), start_nutcracker(room)]
    if os.access(program, os.X_OK):
        targets += start_proxies(room, program, Cluster(room))
    else:
        print(f"{program} is not there: measured without it", file=sys.stderr)
    return targets


class Measured:
    """The rounds of one row at one target."""

    def __init__(self, target, row, seconds):
        self.target, self.row, self.rounds, self.spent, self.requests = target, row, [], 0.0, 0
        self.busy, self.client, self.time = 0.0, 0.0, 0.0
        least = row.clients * row.pipeline * 2
        self.has_failed, self.count = False, max(least, 2000)
        rate = self.measure()
        self.count = max(least, int(rate * seconds))
        self.rounds, self.spent, self.requests = [], 0.0, 0
        self.busy, self.client, self.time = 0.0, 0.0, 0.0

    def measure(self):
        """One round. An error reply ends redis-benchmark, and this row here."""
        if self.has_failed:
            return 0.0
        busy, client, began = busy_seconds(self.target.others), client_seconds(), time.monotonic()
        try:
            rate, percentile, spent = self.target.measure(self.row, self.count)
        except Failed as fault:
            print(fault, file=sys.stderr)
            self.has_failed = True
            return 0.0
        self.rounds.append((rate, percentile))
        self.spent, self.requests = self.spent + spent, self.requests + self.count
        self.busy, self.client = self.busy + busy_seconds(self.target.others) - busy, self.client + client_seconds() - client
        self.time += time.monotonic() - began
        return rate

    def rate(self):
        return statistics.median(rate for rate, _ in self.rounds)

    def shown(self, direct):
        """Its cell of the table."""
        if self.has_failed:
            return "failed"
        percentile = statistics.median(percentile for _, percentile in self.rounds)
        return f"{self.rate():,.0f}; {self.rate() / direct:.2f}; {percentile:.2f}"

    def processor_a_million(self):
        """Processor seconds for a million requests."""
        return self.spent / self.requests * 1e6

    def shown_processor(self, other):
        """The same as a cell of the table, with the ratio to another target's."""
        if self.has_failed:
            return "failed"
        ratio = "" if other.has_failed else f"; {self.processor_a_million() / max(other.processor_a_million(), 0.1):.2f}"
        return f"{self.processor_a_million():.1f}{ratio}"

    def shown_others(self):
        """How much of the other processors was used, how much of one by redis-benchmark, and how much of one by the target."""
        if self.has_failed:
            return "failed"
        shares = [self.busy / len(self.target.others), self.client, self.spent]
        return "; ".join(f"{100 * it / self.time:.0f}" for it in shares)


def measure_row(targets, row, rounds, seconds):
    """All targets in turn, round by round, after a warm-up of each, which also says how many requests fill a round."""
    measured = [Measured(target, row, seconds) for target in targets]
    for _ in range(rounds):
        for it in measured:
            it.measure()
    print(f"{row.name}: " + ", ".join(f"{it.target.name} {it.shown(measured[0].rate())}" for it in measured), file=sys.stderr)
    return measured


def system_calls(folder, target, row, count):
    """How many calls of each name the measured process makes, as strace counts them, which slows it down."""
    report = f"{folder}/calls"
    words = ["strace", "-c", "-f", "-qq", "-o", report, "-p", str(target.process.pid)]
    with subprocess.Popen(words, stdout=subprocess.DEVNULL, stderr=subprocess.DEVNULL) as tracer:
        time.sleep(1)
        target.measure(row, count)
        tracer.send_signal(signal.SIGINT)
    with open(report, encoding="utf-8") as lines:
        fields = [line.split() for line in lines]
    return {it[-1]: int(it[3]) for it in fields if len(it) > 4 and it[3].isdigit() and it[-1] != "total"}


def print_calls(folder, targets, only):
    """The calls for a hundred requests, those made at least once in that many."""
    print("\n| system calls for 100 requests, under strace | " + " | ".join(it.name for it in targets) + " |")
    print("|---|" + "---:|" * len(targets))
    for row in (it for it in rows() if only in it.name and it.size == "3 B" and it.command == "GET"):
        for target in targets:
            target.fill(row)
        count = 20000 * row.pipeline
        calls = [system_calls(folder, target, row, count) for target in targets]
        shares = [", ".join(f"{name} {100 * made / count:.1f}" for name, made in it.items() if made * 100 >= count) for it in calls]
        print(f"| {row.name} | " + " | ".join(shares) + " |")


def print_refused(room, program, rounds, seconds):
    """Commands whose key was moved on while its slot was not: the first node refuses each run, and each goes to the second one."""
    cluster = Cluster(room)
    targets = list(start_proxies(room, program, cluster))
    asked = [Row(command, "3 B", 64, one_key=True) for command in ("GET", "SET")]
    for target in targets:
        target.fill(asked[0])
    table = [("", measure_row(targets, row, rounds, seconds)) for row in asked]
    slot = slot_of(asked[0].words()[1].encode())
    source = cluster.owner(slot)
    target = (source + 1) % 3
    cluster.begin_move(slot, source, target)
    cluster.move_keys(slot, source, target)
    table += [(", refused", measure_row(targets, row, rounds, seconds)) for row in asked]
    print("| requests a second; processor seconds a million | " + " | ".join(it.name for it in targets) + " |")
    print("|---|" + "---:|" * len(targets))
    for said, measured in table:
        cells = [f"{it.rate():,.0f}; {it.processor_a_million():.1f}" for it in measured]
        print(f"| {measured[0].row.name}{said} | " + " | ".join(cells) + " |")


def print_machine(rounds, seconds, load, silent, apart):
    with open("/proc/cpuinfo", encoding="utf-8") as info:
        model = next((line.split(":")[1].strip() for line in info if line.startswith("model name")), "unknown processor")
    server = subprocess.run(["redis-server", "--version"], capture_output=True, text=True, check=True).stdout.partition("v=")[2].split()[0]
    print(f"{os.cpu_count()} processors ({model}), Linux {os.uname().release}, redis-server {server}, load average before the run {load:.1f}.")
    beside = f", beside {silent:,} clients of each that say nothing" if silent else ""
    where = ", servers and redis-benchmark on one half of the processors, what is measured on the other" if apart else ""
    print(f"Medians of {rounds} rounds of about {seconds:g} seconds, {CLIENTS} clients{beside}, one thread of redis-benchmark{where}.\n")


def print_rates(table, names):
    """Requests a second, the ratio to one server directly, and the 99th percentile."""
    print("| requests a second; ratio to direct; 99th percentile, ms | " + " | ".join(names) + " |")
    print("|---|" + "---:|" * len(names))
    for measured in table:
        cells = [it.shown(measured[0].rate()) for it in measured]
        print(f"| {measured[0].row.name} | " + " | ".join(cells) + " |")


def print_processor(table, names):
    """Processor seconds, and the ratio to nutcracker's."""
    print("\n| processor seconds a million requests; ratio to nutcracker | " + " | ".join(names) + " |")
    print("|---|" + "---:|" * len(names))
    for measured in table:
        print(f"| {measured[0].row.name} | " + " | ".join(it.shown_processor(measured[1]) for it in measured) + " |")


def print_others(table, names):
    """How busy what the targets talk to kept its processors, and each target its own."""
    print("\n| % used of the other processors; of one by redis-benchmark; of one by the target | " + " | ".join(names) + " |")
    print("|---|" + "---:|" * len(names))
    for measured in table:
        print(f"| {measured[0].row.name} | " + " | ".join(it.shown_others() for it in measured) + " |")


def print_memory(targets, idle):
    print("\n| | resident before, MiB | most | after all clients left | idle, % of a core |")
    print("|---|---:|---:|---:|---:|")
    for target, percent in zip(targets, idle):
        after, most = memory(target.process, "VmRSS"), memory(target.process, "VmHWM")
        print(f"| {target.name} | {target.memory_before:.1f} | {most:.1f} | {after:.1f} | {percent:.1f} |")


def main(folder, program, *words):
    parser = argparse.ArgumentParser(prog="bench/run")
    parser.add_argument("--quick", action="store_true")
    parser.add_argument("--only", default="")
    parser.add_argument("--calls", action="store_true")
    parser.add_argument("--silent", type=int, default=0)
    parser.add_argument("--apart", action="store_true")
    parser.add_argument("--refused", action="store_true")
    asked = parser.parse_args(words)
    rounds, seconds = (2, 0.3) if asked.quick else (5, 1.0)
    load, room = os.getloadavg()[0], Room(folder)
    if asked.silent:
        most = resource.getrlimit(resource.RLIMIT_NOFILE)[1]
        resource.setrlimit(resource.RLIMIT_NOFILE, (most, most))
    if asked.apart:
        others, own = halves()
        os.sched_setaffinity(0, others)
    try:
        if asked.refused:
            print_refused(room, program, rounds, seconds)
            return
        targets = start_targets(room, program)
        if asked.apart:
            for target in targets:
                target.put_apart(own, others)
        if asked.calls:
            print_calls(folder, targets, asked.only)
            return
        names, table, filled = [it.name for it in targets], [], None
        idle = [idle_percent(it) for it in targets]
        silent = [silent_clients(it, asked.silent) for it in targets]
        for row in rows():
            if asked.only not in row.name:
                continue
            if row.size != filled:
                filled = row.size
                for target in targets:
                    target.fill(row)
            table.append(measure_row(targets, row, rounds, seconds))
        print_machine(rounds, seconds, load, asked.silent, asked.apart)
        print_rates(table, names)
        print_processor(table, names)
        if asked.apart:
            print_others(table, names)
        for client in (it for clients in silent for it in clients):
            client.close()
        time.sleep(2)
        print_memory(targets, idle)
    finally:
        room.end_all()


if __name__ == "__main__":
    main(*sys.argv[1:])
