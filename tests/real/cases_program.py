"""How the program ends."""

import signal

from cluster import Proxy, is_within
from harness import case, check_time


@case
def it_ends_at_a_signal(world):
    """With clients connected, SIGTERM and SIGINT end it within two seconds."""
    for number in [signal.SIGTERM, signal.SIGINT]:
        proxy = Proxy(world.room, world.program, world.cluster.nodes[0].port, name="ended")
        with proxy.client() as client:
            client.value("SET", "a", "1")
            proxy.process.send_signal(number)
            check_time(is_within(2, proxy.has_ended), f"it runs two seconds after signal {number}")
