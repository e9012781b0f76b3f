"""A proxy that begins before nodes that hold data, while a slot is on its way, and one that is killed and started again under load.

What its clients were told, by each proxy that there was, has one legal order with what the nodes held at first: a command of a proxy
that was killed may still be executed by the node that has it, at most once.
"""

import time

from cases_moves import key
from cases_others import CLIENTS, PAUSE, Everybody, some_tags
from client import Closed, request
from cluster import Proxy, slot_of
from cluster_client import ClusterClient
from harness import case, check_same, check_time
from legal_orders import Command
from writers import LOST, Writers

# How often the proxy is killed, and seconds of load before each time.
KILLED, LOAD = 6, 0.5
# Seconds between two tries to connect to a proxy that is being started.
PATIENCE = 0.005
# Clients that ask it.
MANY = 12


class Again:
    """A client that connects again when its proxy has gone. What it sent and saw no reply to is lost."""

    def __init__(self, proxy):
        self.proxy, self.client, self.cut = proxy, None, 0

    def __enter__(self):
        return self

    def __exit__(self, *_):
        self.interrupt()

    def interrupt(self):
        if self.client:
            self.client.interrupt()

    def run(self, requests):
        """Each request, when it was sent, its reply or LOST, and when this came; nothing where no proxy is there now."""
        if not self.client:
            try:
                self.client = self.proxy.client()
            except OSError:
                time.sleep(PATIENCE)
                return []
        sent, done = time.monotonic(), []
        try:
            self.client.send(b"".join(request(*words) for words in requests))
            for words in requests:
                done.append((words, sent, self.client.reply(), time.monotonic()))
        except (Closed, OSError):
            self.client.close()
            self.client, self.cut = None, self.cut + 1
            done += [(words, sent, LOST, time.monotonic()) for words in requests[len(done) :]]
        return done


class Clients(Everybody):
    """Clients of one proxy that comes and goes."""

    def __init__(self, world, tags):
        super().__init__(world, [], tags)
        self.again = []

    def connect(self, number):
        if number >= CLIENTS:
            return super().connect(number)
        client = Again(self.proxies[0])
        self.again.append(client)
        return client

    def counts(self):
        lost = sum(it.reply is LOST for commands in self.commands for it in commands)
        return f"{sum(map(len, self.commands)) - lost} answered, {lost} lost, {len(self.gave_up)} given up"

    def put_first(self, direct):
        """What the nodes hold before any proxy is there."""
        self.commands.append([])
        for tag in self.tags:
            self.put(direct, b"SET", key(tag, b"s"), b"first")
            self.put(direct, b"SET", key(tag, b"n"), b"1000")

    def put(self, direct, *words):
        sent = time.monotonic()
        check_same(direct.ask(*words), b"+OK\r\n", f"{words}")
        self.commands[-1].append(Command(-2, sent, time.monotonic(), words, "OK"))


@case(limit=240)
def a_proxy_that_is_killed_and_started_again(world):
    """It begins with data at two nodes and a slot on its way; slots move while it is killed. All commands have one legal order."""
    tags = some_tags(world.cluster)
    direct = ClusterClient([node.port for node in world.cluster.nodes])
    clients = Clients(world, tags)
    clients.put_first(direct)
    slot = slot_of(tags[0])
    world.cluster.begin_move(slot, 0, 1)
    world.cluster.move_keys(slot, 0, 1, at_once=1)
    proxy = Proxy(world.room, world.program, world.cluster.nodes[0].port, name="again")
    clients.proxies.append(proxy)
    try:
        with Writers(None, MANY, clients.turn, PAUSE, clients.connect) as writers:
            for count in range(KILLED):
                slot, source = slot_of(tags[count]), count % 3
                time.sleep(LOAD)
                proxy.process.kill()
                proxy.process.wait(60)
                while world.cluster.move_keys(slot, source, (source + 1) % 3, at_once=1):
                    pass
                proxy.start()
                world.cluster.end_move(slot, source, (source + 1) % 3)
                writers.wait_for_turns()
                if count + 1 < KILLED:
                    world.cluster.begin_move(slot_of(tags[count + 1]), (count + 1) % 3, (count + 2) % 3)
                    world.cluster.move_keys(slot_of(tags[count + 1]), (count + 1) % 3, (count + 2) % 3, at_once=1)
        clients.read_all()
    finally:
        proxy.end()
        direct.interrupt()
    gone, places = clients.check_order()
    check_same(gone, 0, "keys that went by themselves")
    cut = sum(it.cut for it in clients.again)
    check_time(cut > 0, "no connection was cut by a kill")
    return f"killed {KILLED} times, {cut} connections cut, {clients.counts()}; {places} places"
