"""Runs the clients' programs before one cluster, while slots move. Words: a folder, the proxy, and the clients to try (none: all)."""

import os
import subprocess
import sys
import threading
import time
from dataclasses import dataclass
from pathlib import Path

from cluster import Cluster, Proxy, Room, slot_of

HERE = Path(__file__).resolve().parent
# Seconds that one client may take: the Go program is compiled first.
LIMIT = 300


@dataclass
class Client:
    """A client: the packages that it needs, and the words that run its program, to which the port is added."""

    name: str
    packages: list[str]
    words: list[str]


CLIENTS = [
    Client("redis-cli, redis-benchmark", ["redis-tools"], ["sh", "redis_cli.sh"]),
    Client("redis-py", ["python3-redis"], ["/usr/bin/python3", "redis_py.py", "python"]),
    Client("redis-py with hiredis", ["python3-redis", "python3-hiredis"], ["/usr/bin/python3", "redis_py.py", "hiredis"]),
    Client("hiredis", ["libhiredis-dev"], ["sh", "-c", 'cc -o "$TMPDIR/hiredis" hiredis.c -lhiredis && exec "$TMPDIR/hiredis" "$1"', "sh"]),
    Client("node-redis", ["node-redis"], ["node", "node_redis.js"]),
    Client("redigo", ["golang-github-gomodule-redigo-dev", "golang-go"], ["/usr/bin/go", "run", "redigo.go"]),
    Client("phpredis", ["php-redis", "php-cli"], ["php", "php_redis.php"]),
    Client("redis-rb", ["ruby-redis"], ["/usr/bin/ruby", "redis_rb.rb"]),
    Client("Redis.pm", ["libredis-perl"], ["/usr/bin/perl", "redis_pm.pl"]),
]


def version_of(package: str) -> str | None:
    """The version of a package, if it is installed."""
    words = ["dpkg-query", "--show", "--showformat=${db:Status-Status} ${Version}", package]
    said = subprocess.run(words, capture_output=True, text=True, check=False).stdout
    return said.split()[1] if said.startswith("installed ") else None


class Moves(threading.Thread):
    """Moves the slots of keys that each program writes, again and again."""

    def __init__(self, cluster: Cluster) -> None:
        super().__init__(daemon=True)
        self.cluster, self.is_over, self.count = cluster, threading.Event(), 0

    def run(self) -> None:
        while not self.is_over.is_set():
            slot = slot_of(b"key:%d" % (self.count % 50))
            self.cluster.move(slot, (self.cluster.owner(slot) + 1) % 3, pause=0.01)
            self.count += 1
            self.is_over.wait(0.05)


def tried(client: Client, port: int, folder: str) -> str:
    """Runs a client's program, and says what came of it."""
    variables = {"NODE_PATH": "/usr/share/nodejs", "GOPATH": "/usr/share/gocode", "GO111MODULE": "off", "GOCACHE": f"{folder}/go", "TMPDIR": folder}
    how = {"cwd": HERE, "env": {**os.environ, **variables}, "stdin": subprocess.DEVNULL, "capture_output": True, "text": True, "timeout": LIMIT}
    ran = subprocess.run([*client.words, str(port)], check=False, **how)
    return "ok" if (ran.returncode, ran.stdout) == (0, "ok\n") else f"FAIL: status {ran.returncode}, {(ran.stdout + ran.stderr)[-600:]!r}"


def main(folder: str, program: str, *names: str) -> int:
    room, failed = Room(folder), 0
    try:
        cluster = Cluster(room)
        proxy = Proxy(room, program, cluster.nodes[0].port)
        moves = Moves(cluster)
        moves.start()
        for client in CLIENTS:
            versions = [version_of(it) for it in client.packages]
            if (names and client.name not in names) or None in versions:
                continue
            began = time.monotonic()
            with proxy.client() as connection:
                connection.value("DEL", *[f"key:{number}" for number in range(200)], "counter")
            said = tried(client, proxy.port, folder)
            failed += said != "ok"
            print(f"{client.name} ({client.packages[0]} {versions[0]}): {said} {time.monotonic() - began:.1f} s", flush=True)
        moves.is_over.set()
        moves.join()
        print(f"{moves.count} slots moved meanwhile; {failed} failed")
        return 1 if failed else 0
    finally:
        room.end_all()


if __name__ == "__main__":
    sys.exit(main(*sys.argv[1:]))
