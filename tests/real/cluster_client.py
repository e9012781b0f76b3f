"""A client that knows the cluster and talks to its nodes itself, as the specification of Redis Cluster says."""

import time

from client import Client, Closed, request
from cluster import slot_of
from writers import GAVE_UP, LOST

# Seconds in which refusals are followed, and seconds before one is that no node named.
PATIENCE, PAUSE = 5.0, 0.005


class ClusterClient:
    """It sends one command at a time, to the node that it knows to have the key's slot.

    MOVED names the node that has the slot from now on. ASK names the one to which this command alone goes, at once and behind ASKING:
    so it is true when it gets there, where no node began to import the slot meanwhile. TRYAGAIN and CLUSTERDOWN are asked again.
    A command whose connection ends is not sent again.
    """

    def __init__(self, ports):
        self.ports, self.links, self.owners = ports, {}, {}
        self.asked = 0

    def __enter__(self):
        return self

    def __exit__(self, *_):
        for link in self.links.values():
            link.close()

    def interrupt(self):
        for link in list(self.links.values()):
            link.interrupt()

    def ask(self, *words):
        """The bytes of the reply to a command for keys of one slot, or of what the proxy says where it was lost or given up."""
        slot, until = slot_of(words[1]), time.monotonic() + PATIENCE
        port, is_asked = self.owners.get(slot, self.ports[0]), False
        while time.monotonic() < until:
            try:
                reply = self.told(port, request(*words), is_asked)
            except (Closed, ConnectionError):
                if port in self.links:
                    self.links.pop(port).close()
                return LOST
            kind, *where = reply.split()[:3] if reply[:1] == b"-" else (b"",)
            if kind == b"-MOVED":
                port, is_asked = port_of(where), False
                self.owners[slot] = port
            elif kind == b"-ASK":
                port, is_asked = port_of(where), True
                self.asked += 1
            elif kind in (b"-TRYAGAIN", b"-CLUSTERDOWN"):
                port, is_asked = self.owners.get(slot, self.ports[0]), False
                time.sleep(PAUSE)
            else:
                return reply
        return GAVE_UP

    def told(self, port, data, is_asked):
        if port not in self.links:
            self.links[port] = Client(port)
        link = self.links[port]
        link.send((request("ASKING") if is_asked else b"") + data)
        return link.replies(2 if is_asked else 1)[-1]


def port_of(where):
    """The port in the words behind MOVED or ASK."""
    return int(where[1].rpartition(b":")[2])
