"""Ports of this machine for servers of a test."""

import contextlib
import random
import socket


def free_ports(count):
    """Ports of loopback that nobody listens on, below those that the system gives to connections: none takes one meanwhile."""
    with open("/proc/sys/net/ipv4/ip_local_port_range", encoding="ascii") as given:
        end = max(20_000, int(given.read().split()[0]))
    ports = set()
    while len(ports) < count:
        try:
            with socket.create_server(("127.0.0.1", random.randrange(10_000, end))) as it:
                ports.add(it.getsockname()[1])
        except OSError:
            pass  # it is taken
    return list(ports)


@contextlib.contextmanager
def refused_port():
    """A port of loopback that refuses each connection, and that nobody else gets meanwhile: it is bound, and not listened on."""
    with socket.socket() as it:
        it.bind(("127.0.0.1", 0))
        yield it.getsockname()[1]
