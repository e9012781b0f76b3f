"""The demo: its cluster, its proxy and its load, slots that move, and a primary that is lost. Words: a folder, and the program."""

import re
import signal
import sys
import threading
import time
from collections import deque

from client import Closed
from cluster import Cluster, Proxy, Room, Server, slot_of, wait_until
from harness import Failed
from load import AT_ONCE, Load
from replicas import Replicated
from screen import Counts, Node, Screen
from writers import Writers

# Seconds from the start of the load: slots move, a primary is lost and comes back, the load ends.
MOVES, LOST, BACK, ENDS = 6, 18, 30, 42
# Seconds between two screens, and between two steps of a slot's move.
EACH, STEP = 0.5, 0.03
# The primary that is lost: neither the seed nor one whose slots move then.
LOSER = 1


class Moves(threading.Thread):
    """Moves one slot after another with its keys: to the third primary, and once one of the others is to be lost, from there to the other."""

    def __init__(self, cluster: Cluster, counted: list[int]) -> None:
        super().__init__(daemon=True)
        self.cluster, self.counted, self.stopped, self.spared, self.fault = cluster, counted, False, False, None
        self.turn = threading.Lock()
        # each primary's slots, in the order in which they move
        self.slots = [deque(self.spread(range(first, last + 1))) for first, last in cluster.ranges()]

    def spread(self, slots: range) -> list[int]:
        """These slots in another order: those with a counter evenly among the others."""
        full, empty = [it for it in slots if it in self.counted], [it for it in slots if it not in self.counted]
        between = len(empty) // len(full)
        mixed = [slot for place, one in enumerate(full) for slot in [*empty[place * between : (place + 1) * between], one]]
        return mixed + empty[len(full) * between :]

    def run(self) -> None:
        try:
            while not self.stopped:
                for source, target in ((0, 2), (LOSER, 2)):
                    with self.turn:
                        if self.spared:
                            source, target = 2, 0
                        self.move(source, target)
        except (OSError, Closed, Failed) as fault:
            self.fault = fault

    def move(self, source: int, target: int) -> None:
        """Moves the next slot of one primary to another. The third one hears of it from these."""
        slot = self.slots[source].popleft()
        self.cluster.begin_move(slot, source, target)
        # (clients meet the slot at each step)
        pause = STEP if slot in self.counted else 0
        time.sleep(pause)
        while self.cluster.move_keys(slot, source, target):
            time.sleep(pause)
        for number in (target, source):
            self.cluster.nodes[number].value("CLUSTER", "SETSLOT", slot, "NODE", self.cluster.ids[target])
        self.slots[target].append(slot)

    def spare(self) -> None:
        """Ends the move that is under way, and touches the one that is to be lost no more."""
        with self.turn:
            self.spared = True

    def stop(self) -> None:
        self.stopped = True
        self.join()
        if self.fault:
            raise self.fault


class Redirects:
    """How many redirects the nodes have said. One that starts anew counts from zero."""

    def __init__(self, cluster: Replicated) -> None:
        self.cluster, self.said = cluster, {}

    def counts(self) -> tuple[int, int]:
        """MOVED and ASK."""
        for server in self.cluster.running():
            text = server.value("INFO", "errorstats").decode()
            found = [re.search(rf"errorstat_{it}:count=(\d+)", text) for it in ("MOVED", "ASK")]
            self.said[server, server.process.pid] = [int(it[1]) if it else 0 for it in found]
        moved, ask = (sum(column) for column in zip(*self.said.values()))
        return moved, ask


class Demo:
    """One run."""

    def __init__(self, room: Room, program: str) -> None:
        self.replicated = Replicated(room)
        self.cluster = self.replicated.cluster
        self.load = Load(self.cluster.ranges())
        self.proxy = Proxy(room, program, self.cluster.nodes[0].port, name="demo")
        about = f"{self.load.clients} clients add 1 to {len(self.load.counters)} counters through the proxy, {AT_ONCE} requests at once each"
        self.screen = Screen("cluster_proxy before a cluster of three primaries", about)
        self.redirects = Redirects(self.replicated)

    def nodes(self) -> list[Node]:
        """The nodes as the seed sees them."""
        slots = {it: 0 for it in self.replicated.servers}
        for first, last, owner in self.replicated.ranges(self.cluster.nodes[0]):
            slots[owner] += last + 1 - first
        role = lambda it: "killed" if not it.is_running() else "primary" if slots[it] else "replica"
        return [Node(f"127.0.0.1:{it.port}", role(it), slots[it]) for it in self.replicated.servers]

    def has_slots(self, server: Server) -> bool:
        """Whether the seed says that a server has slots."""
        return any(owner is server for _, _, owner in self.replicated.ranges(self.cluster.nodes[0]))

    def show(self, writers: Writers, began: float) -> None:
        """Counts and draws once."""
        writers.check_faults()
        moved, ask = self.redirects.counts()
        load = self.load
        self.screen.add(Counts(time.monotonic() - began, load.answered(), load.gave_up(), load.lost(), moved, ask))
        self.screen.draw(self.nodes())

    def lose(self, moves: Moves) -> None:
        """Kills a primary that has given its replica all that it answered: it executes nothing any more, and the replica catches up."""
        moves.spare()
        lost, replica = self.cluster.nodes[LOSER], self.replicated.servers[3 + LOSER]
        lost.value("CLIENT", "PAUSE", 5000, "WRITE")
        wait_until(lambda: replica.value("ROLE")[4] >= lost.value("ROLE")[1], "the replica to have all")
        lost.kill()
        self.screen.happened(f"127.0.0.1:{lost.port} is killed, which had a third of the slots")

    def run(self) -> None:
        """Runs the load through all that happens, and stops it."""
        lost, replica = self.cluster.nodes[LOSER], self.replicated.servers[3 + LOSER]
        moves = Moves(self.cluster, [slot_of(it.key) for it in self.load.counters])
        begun, began = set(), time.monotonic()
        at = lambda second, what: self.screen.counts.second >= second and what not in begun and not begun.add(what)
        with Writers(self.proxy, self.load.clients, self.load.turn) as writers:
            while self.screen.counts.second < ENDS:
                time.sleep(EACH)
                self.show(writers, began)
                if at(MOVES, "moves"):
                    self.screen.happened("slots move from node to node, each with its keys")
                    moves.start()
                if at(LOST, "lost"):
                    self.lose(moves)
                if "lost" in begun and not self.has_slots(lost) and at(0, "taken"):
                    self.screen.happened(f"its replica 127.0.0.1:{replica.port} has taken over")
                if "taken" in begun and at(BACK, "back"):
                    lost.start()
                    self.screen.happened(f"127.0.0.1:{lost.port} is back, as a replica")
            moves.stop()
        self.show(writers, began)

    def verdict(self) -> tuple[int, str]:
        """What each counter holds at the end, beside what its clients were answered."""
        with self.proxy.client() as client:
            values = [int(it or 0) for it in client.value("MGET", *(it.key for it in self.load.counters))]
        faults = [fault for counter, value in zip(self.load.counters, values) if (fault := counter.fault(value))]
        answered, lost, gave_up = self.load.answered(), self.load.lost(), self.load.gave_up()
        ends = f"{answered:,} answered, {lost:,} connection lost, {gave_up:,} gave up."
        counted = f"{answered + lost + gave_up:,} INCRs of {len(values)} counters: {ends}"
        if faults:
            return 1, f"{counted}\nNOT EXACT: {'; '.join(faults)}"
        return 0, f"{counted}\nEach counter is exact: each answered INCR is in it once, and {sum(values) - answered:,} of those lost."


def main(folder: str, program: str) -> int:
    for number in (signal.SIGTERM, signal.SIGINT):
        signal.signal(number, lambda number, _: sys.exit(128 + number))
    room = Room(folder)
    try:
        print("starting six redis-servers and the proxy", flush=True)
        demo = Demo(room, program)
        with demo.screen:
            demo.run()
        status, text = demo.verdict()
        if not demo.screen.is_terminal:
            print("\n".join(demo.screen.lines(demo.nodes())))
        print(f"{text}")
        return status
    finally:
        room.end_all()


if __name__ == "__main__":
    sys.exit(main(*sys.argv[1:]))
