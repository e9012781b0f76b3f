"""Runs of the program that serve sockets of this machine, and plain clients of them."""

import contextlib
import os
import signal
import socket
import subprocess
import time

from ports import free_ports
from program import LIMIT, PROGRAM


@contextlib.contextmanager
def started(words, variables=None):
    """A run with these variables that is ended by a signal when the block is left."""
    environment = {**os.environ, **(variables or {})}
    with subprocess.Popen([PROGRAM, *words], stdin=subprocess.DEVNULL, stderr=subprocess.DEVNULL, env=environment) as process:
        try:
            yield process
        finally:
            process.send_signal(signal.SIGTERM)
            process.wait(LIMIT)


def connection(port, server):
    """A connection to a server, a process that may still be starting. One that ends meanwhile may reset it before it stands."""
    end = time.monotonic() + LIMIT
    while True:
        try:
            return socket.create_connection(("127.0.0.1", port), LIMIT)
        except (ConnectionRefusedError, ConnectionResetError):
            if server.poll() is not None or time.monotonic() > end:
                raise
            time.sleep(0.01)


def peak_memory(process):
    """The most MiB that a process has held."""
    with open(f"/proc/{process.pid}/status", encoding="ascii") as lines:
        return next(int(line.split()[1]) // 1024 for line in lines if line.startswith("VmHWM"))


@contextlib.contextmanager
def nodes():
    """The example cluster, listening. Gives the port of each node, and the process."""
    ports = free_ports(3)
    with started(["nodes", "--ports", ",".join(map(str, ports))]) as server:
        for port in ports:
            connection(port, server).close()
        yield [(port, server) for port in ports]


@contextlib.contextmanager
def proxy(seed, workers, host="127.0.0.1"):
    """The proxy before the node at this port, listening. Gives its port and process."""
    (port,) = free_ports(1)
    words = ["serve", "--listen", f"127.0.0.1:{port}", "--seed", f"{host}:{seed}", "--workers", str(workers)]
    with started(words) as server:
        connection(port, server).close()
        yield port, server


@contextlib.contextmanager
def cluster(workers):
    """The example cluster and the proxy before it, whose seed is node 0. Gives the proxy's port and process."""
    with nodes() as [(seed, _), *_], proxy(seed, workers) as at:
        yield at


def request(*words):
    """The bytes of a request."""
    bulks = [b"$%d\r\n%s\r\n" % (len(word), word) for word in (word.encode() for word in words)]
    return b"*%d\r\n" % len(bulks) + b"".join(bulks)


def heard(at, sent, piece=None):
    """All that is answered to these bytes at a port of a process, sent in pieces of this size, up to the connection's end."""
    answered = []
    with connection(*at) as client:
        client.setsockopt(socket.IPPROTO_TCP, socket.TCP_NODELAY, 1)
        size = piece or len(sent)
        for start in range(0, len(sent), size):
            client.sendall(sent[start : start + size])
        while taken := client.recv(65536):
            answered.append(taken)
    return b"".join(answered)
