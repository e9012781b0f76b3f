"""What the log says before a real cluster. The forms of its lines are tried in tests/program."""

import re
import time
from contextlib import ExitStack

from client import request
from cases_faults import kill_connections
from cluster import OwnProxy, Proxy, free_ports, keys_of_slots, slot_of, wait_until
from harness import case, check, check_same, check_time
from writers import GAVE_UP

# So many clients send so many commands each that fail. A few send theirs first; on a slow machine, where these take more seconds than
# this, no others come.
ASKING, FAILING, FIRST, SECONDS = 50, 200, 10, 8


class Logged(OwnProxy):
    """A proxy of its own, and the lines that it wrote."""

    def __init__(self, world, seed_port, name, variables=None, workers=2, more_seeds=()):
        super().__init__(Proxy(world.room, world.program, seed_port, workers=workers, name=name, variables=variables, more_seeds=more_seeds))
        self.path = f"{world.room.folder}/{self.proxy.name}.log"

    def lines(self, event=""):
        with open(self.path, encoding="ascii") as file:
            return [line for line in file.read().splitlines() if f" event={event}" in line]

    def wait_for(self, event, *words):
        """Waits for a line of this event with these words. A word that ends with a space is a whole one."""
        wait_until(lambda: any(all(word in f"{line} " for word in words) for line in self.lines(event)), f"{event} {words} in {self.lines()[-3:]}")


@case
def links_and_maps_are_logged(world):
    """Each node's connection as it opens and is killed; the map at the start and after a MOVED, with how many slots changed."""
    seed, other = world.cluster.nodes[0].port, world.cluster.nodes[1].port
    key = next(b"%d" % number for number in range(100) if 5461 <= slot_of(b"%d" % number) <= 10922)
    with Logged(world, seed, "logged") as logged, logged.proxy.client() as client:
        logged.wait_for("link_opened", f"node=127.0.0.1:{seed}")
        logged.wait_for("slot_map_renewed", f"node=127.0.0.1:{seed}", "ranges=3", "slots_changed=16384")
        client.value("SET", key, "1")
        logged.wait_for("link_opened", f"node=127.0.0.1:{other}")
        world.cluster.move(slot_of(key), 2)
        wait_until(lambda: client.ask("GET", key) == b"$1\r\n1\r\n", "the moved key")
        logged.wait_for("slot_map_renewed", f"node=127.0.0.1:{other}", "slots_changed=1 ")
        kill_connections(world.cluster.nodes[1])
        logged.wait_for("link_lost", "level=warn", f"node=127.0.0.1:{other}", "reason=")


@case
def failing_commands_write_few_lines(world):
    """Ten thousand commands at once, twice, to a seed that is not there: a line a second, with the count of those left out."""
    requests = b"".join(request("GET", it) for it in keys_of_slots(0, 16383, FAILING))

    def ask(clients):
        for client in clients:
            client.send(requests)
        for client in clients:
            check_same(set(client.replies(FAILING)), {GAVE_UP}, "replies")

    with Logged(world, free_ports(1)[0], "failing") as logged, ExitStack() as clients:
        began = time.monotonic()
        asking = [clients.enter_context(logged.proxy.client()) for _ in range(FIRST)]
        ask(asking)
        if time.monotonic() < began + SECONDS:
            asking += [clients.enter_context(logged.proxy.client()) for _ in range(ASKING - FIRST)]
        for _ in range(2):
            ask(asking)
        seconds, lines, failed = time.monotonic() - began, logged.lines(), (FIRST + 2 * len(asking)) * FAILING
        check(len(lines) <= 4 + seconds, f"{len(lines)} lines in {seconds:.1f} seconds")
        check_time(len(lines) < 20 or seconds > 16, f"{len(lines)} lines in {seconds:.1f} seconds")
        counted = sum(int(it) for it in re.findall(r"left_out=(\d+)", "\n".join(lines)))
        check_time(counted > 0, f"none is counted as left out, of {failed} commands in {seconds:.1f} seconds")
    return f"{len(lines)} lines for {failed} commands in {seconds:.1f} seconds, {counted} left out"
