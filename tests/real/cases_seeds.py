"""Several seeds: the first that answers is asked, and one that is down costs nobody anything while another answers."""

import socket
import time

from cases_log import Logged
from cluster import OwnProxy, Proxy, free_ports, wait_until
from harness import case, check, check_same, check_time
from scripted import DeafNode, ScriptedNode, slots_reply
from writers import GAVE_UP

# Seconds in which the first command is answered beside a seed that is down.
SOON = 2
OK = b"+OK\r\n"


def check_answers(world, seeds, name):
    """A proxy with these seeds answers its first commands."""
    with Logged(world, seeds[0], name, more_seeds=seeds[1:]) as logged, logged.proxy.client() as client:
        began = time.monotonic()
        check_same([client.ask("SET", f"key{number}", "1") for number in range(20)], [OK] * 20, "SET")
        waited = time.monotonic() - began
        logged.wait_for("slot_map_renewed", "ranges=3", "slots_changed=16384")
        return waited, logged.lines("seed_unreachable"), logged.lines("started")


@case
def a_first_seed_that_is_dead_at_the_start(world):
    """It is logged, and the next one is asked; so is each further one that is dead."""
    dead, node = free_ports(2), world.cluster.nodes[0].port
    notes = []
    for seeds in [[dead[0], node], [*dead, node]]:
        waited, unreachable, started = check_answers(world, seeds, "seeds")
        check_time(waited < SOON, f"the first commands took {waited:.1f} s")
        for port in seeds[:-1]:
            check(any(f"node=127.0.0.1:{port} " in line for line in unreachable), f"{port} is not in {unreachable}")
        check(f" seed={','.join(f'127.0.0.1:{it}' for it in seeds)} " in started[0], f"{started}")
        notes.append(f"{waited:.2f} s")
    return " and ".join(notes)


@case
def a_first_seed_that_is_silent_at_the_start(world):
    """A dial of it neither succeeds nor fails."""
    deaf = DeafNode()
    try:
        waited, _, _ = check_answers(world, [deaf.port, world.cluster.nodes[1].port], "beside_deaf")
    finally:
        deaf.close()
    check_time(waited < SOON, f"the first commands took {waited:.1f} s")
    return f"{waited:.2f} s"


class Whole(ScriptedNode):
    """A node that has all slots."""

    def __init__(self, port=0):
        super().__init__(lambda words: OK, slots=lambda: slots_reply([(0, 16383, self.port)]), listener=socket.create_server(("127.0.0.1", port)))


@case
def seeds_that_die_later(world):
    """The first dies, and the second is asked and serves; all die, and one comes back."""
    first, second = Whole(), Whole()
    proxy = Proxy(world.room, world.program, first.port, workers=1, name="later", more_seeds=[second.port])
    with OwnProxy(proxy), proxy.client() as client:
        wait_until(lambda: client.ask("SET", "a", "1") == OK and first.words_seen(), "the first seed to serve")
        check_same(second.words_seen(), [], "what the second was asked")
        first.close()
        wait_until(lambda: client.ask("SET", "a", "2") == OK and second.words_seen(), "the second seed to serve")
        second.close()
        wait_until(lambda: client.ask("SET", "a", "3") == GAVE_UP, "a command to be given up")
        again = Whole(first.port)
        try:
            wait_until(lambda: client.ask("SET", "a", "4") == OK, "the first seed to serve again")
            check(again.words_seen(), "it was not asked")
        finally:
            again.close()
