"""Primaries that are killed while clients write, and the replicas that take over.

The cluster does not require full coverage, so a lost node takes only its own slots with it. It is well again once the other
primaries give each slot to a node that runs, in `cluster_state:ok`. From then on the proxy has a second.
"""

import time

from client import request
from cluster import Proxy, slot_of, wait_until
from cases_idle import percent_of_commands, percent_of_core
from harness import case, check, check_same, check_time
from replicas import Replicated
from writers import GAVE_UP, LOST, Writers

CLIENTS, KEYS = 8, [b"key%d" % number for number in range(120)]
# Seconds between two requests of a client.
PAUSE = 0.01
# Seconds that the proxy may take, and after which a case ends that took longer.
MOST_SECONDS, PATIENCE = 1.0, 10.0
# What the proxy may cost with nothing to do; on a slow machine, what so many commands a second cost.
MOST_PERCENT, MOST_COMMANDS = 0.3, 5


def replicated_cluster(world):
    """Started by the first case that wants it; a node that a case left dead is back."""
    if not hasattr(world, "replicated"):
        world.replicated = Replicated(world.room)
    world.replicated.restore()
    return world.replicated


class Service:
    """A proxy of its own before the cluster, and clients that write each key again and again until the end of the `with`."""

    def __init__(self, world, seed):
        self.cluster = replicated_cluster(world)
        self.proxy = Proxy(world.room, world.program, seed.port, name="failover")
        self.answered, self.values, self.refused, self.well_since = {}, {}, [], 0.0
        self.was_down = self.cluster.refusals()
        self.writers = Writers(self.proxy, CLIENTS, self.turn, PAUSE)

    def turn(self, client, number, count):
        """Each client has keys of its own, and writes one at a time."""
        mine = KEYS[number::CLIENTS]
        key, value = mine[count % len(mine)], b"%d" % count
        reply = client.ask("SET", key, value)
        now = time.monotonic()
        if reply == b"+OK\r\n":
            self.answered[key], self.values[key] = now, value
        else:
            check(reply in (LOST, GAVE_UP), f"SET {key} was answered {reply!r}")
            self.refused.append(now)

    def __enter__(self):
        self.writers.__enter__()
        return self

    def __exit__(self, *fault):
        try:
            self.writers.__exit__(*fault)
        finally:
            self.proxy.end()

    def seconds_to_answer_all(self):
        """How long it takes from now until each key was answered OK."""
        began = time.monotonic()
        missing = KEYS
        while missing := [key for key in missing if self.answered.get(key, 0) < began]:
            self.writers.check_faults()
            check_time(time.monotonic() < began + PATIENCE, f"{len(missing)} keys are not answered OK after {PATIENCE} seconds")
            time.sleep(0.01)
        return time.monotonic() - began

    def lose(self, lost):
        """Kills a primary, and checks that the proxy finds the one that takes over; in the meantime the others' keys are answered."""
        usual = self.slowest_rounds()
        others = [it for it in self.cluster.primaries() if it is not lost]
        ranges = self.cluster.ranges(others[0])
        keys = [key for key in KEYS if any(first <= slot_of(key) <= last for first, last, owner in ranges if owner in others)]
        lost.kill()
        outage, slowest = self.answer_until_well(others, keys)
        seconds = self.seconds_to_answer_all()
        self.well_since = time.monotonic()
        usual = max(usual, self.slowest_rounds())
        self.check_none_refused()
        # a machine that is busy shows in what the same takes with nothing lost
        check_time(seconds < MOST_SECONDS + usual, f"all keys were answered {seconds:.2f} seconds after the cluster was well, usually {usual:.2f}")
        return f"{outage:.1f} s of outage, others at most {1000 * slowest:.0f} ms, then {1000 * seconds:.0f} ms"

    def answer_until_well(self, primaries, keys):
        """Reads these keys until the primaries find the cluster well; says how long that took, and the slowest round."""
        began, slowest = time.monotonic(), 0.0
        with self.proxy.client() as client:
            while not all(map(self.cluster.serves_all, primaries)):
                round_began = time.monotonic()
                check_time(round_began < began + 20, "no replica took over within 20 seconds")
                client.send(b"".join(request("GET", key) for key in keys))
                bad = [it for it in client.replies(len(keys)) if it[:1] != b"$"]
                self.check_none(bad, f"keys of another node were answered {bad[:1]}")
                slowest = max(slowest, time.monotonic() - round_began)
                time.sleep(PAUSE)
        return time.monotonic() - began, slowest

    def slowest_rounds(self):
        """Writes each key three times more, and gives the seconds that the slowest time took."""
        return max(self.seconds_to_answer_all() for _ in range(3))

    def check_none_refused(self):
        """None was refused since the proxy found who took over."""
        late = [it - self.well_since for it in self.refused if it > self.well_since]
        self.check_none(late, f"{len(late)} commands were refused after all keys were answered, the first {late[:1]} seconds after")

    def check_none(self, bad, otherwise):
        """No command went wrong that should not. On a slow machine a node may itself think for a while that the cluster is down."""
        if bad:
            was_down = any(count > self.was_down.get(it, 0) for it, count in self.cluster.refusals().items())
            check_time(not was_down, f"{otherwise}, and a node that runs said CLUSTERDOWN")
        check(not bad, otherwise)

    def come_back(self, lost):
        """Starts a node that was killed: it becomes a replica, and all keys are still answered."""
        lost.start()
        wait_until(lambda: self.cluster.is_replica(lost), f"{lost.name} to be a replica")
        self.slowest_rounds()
        self.check_none_refused()

    def check_values(self):
        """Each key holds what its client was last told to be written."""
        self.writers.stop()
        with self.proxy.client() as client:
            check_same(client.value("MGET", *KEYS), [self.values[key] for key in KEYS], "the values")


def lose_one(world, lost, seed):
    """A primary is lost and comes back, before a proxy with this seed."""
    with Service(world, seed) as service:
        note = service.lose(lost)
        service.come_back(lost)
        service.check_values()
    return note


@case(beside="failover")
def a_primary_is_lost(world):
    """Another than the seed."""
    lost, seed, _ = replicated_cluster(world).primaries()
    return lose_one(world, lost, seed)


@case(beside="failover")
def the_seed_is_lost(world):
    lost = replicated_cluster(world).primaries()[1]
    return lose_one(world, lost, lost)


@case(beside="failover")
def two_primaries_are_lost(world):
    """One after another, the seed first; the replica that took over for the first votes for the second's. Then both come back."""
    one, other, _ = replicated_cluster(world).primaries()
    with Service(world, one) as service:
        notes = [service.lose(one), service.lose(other)]
        for lost in (one, other):
            service.come_back(lost)
        service.check_values()
        percent = percent_of_core(service.proxy.process, seconds=3)
        most = max(MOST_PERCENT, percent_of_commands(service.proxy, MOST_COMMANDS))
        check_time(percent < most, f"{percent:.2f} % of a core with nothing to do afterwards, of {most:.1f}")
    return f"{'; '.join(notes)}; then idle {percent:.3f} % of a core"
