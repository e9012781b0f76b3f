"""A cluster whose primaries have replicas, one of which takes over some three seconds after its primary was lost."""

import re

from cluster import Cluster, cluster_nodes, wait_until

# Milliseconds after which a node that says nothing counts as lost.
PATIENCE = 1500


class Replicated:
    """Three primaries, each with a third of the slots and one replica. Who is which changes with each node that is lost."""

    def __init__(self, room):
        replicas, buses = cluster_nodes(room, "replica", patience=PATIENCE)
        cluster = Cluster(room, name="pair", patience=PATIENCE)
        self.cluster, self.servers = cluster, cluster.nodes + replicas
        for node in cluster.nodes:
            for replica, bus in zip(replicas, buses):
                node.value("CLUSTER", "MEET", "127.0.0.1", replica.port, bus)
        wait_until(lambda: all(self.knows_all(it) for it in self.servers), "six nodes to know each other")
        for replica, primary in zip(replicas, cluster.ids):
            replica.value("CLUSTER", "REPLICATE", primary)
        wait_until(lambda: all(map(self.is_replica, replicas)), "three replicas")
        wait_until(lambda: all(self.lists_replicas(it) for it in self.servers), "six nodes to agree")

    def restore(self):
        """Starts what was killed, and waits until three primaries have a replica each."""
        for server in self.servers:
            if not server.is_running():
                server.start()
        wait_until(lambda: all(map(self.serves_all, self.servers)), "all slots to be served")
        wait_until(lambda: sum(map(self.is_replica, self.servers)) == 3, "three replicas")

    @staticmethod
    def knows_all(server):
        info = server.value("CLUSTER", "INFO").decode()
        return "cluster_state:ok" in info and "cluster_known_nodes:6" in info

    @staticmethod
    def is_replica(server):
        """Whether it is one, and has its primary's data."""
        role, *state = server.value("ROLE")
        return role == b"slave" and state[2] == b"connected"

    @staticmethod
    def lists_replicas(server):
        return server.value("CLUSTER", "NODES").count(b"slave ") == 3

    def refusals(self):
        """How often each node that runs has said that the cluster is down."""
        said = {it: re.search(r"errorstat_CLUSTERDOWN:count=(\d+)", it.value("INFO", "errorstats").decode()) for it in self.running()}
        return {it: int(found[1]) if found else 0 for it, found in said.items()}

    def running(self):
        return [it for it in self.servers if it.is_running()]

    def ranges(self, server):
        """What a server says: first and last slot, and the server that has them."""
        servers = {it.port: it for it in self.servers}
        return [(first, last, servers[port]) for first, last, (_, port, *_), *_ in server.value("CLUSTER", "SLOTS")]

    def primaries(self):
        return [server for _, _, server in sorted(self.ranges(self.running()[0]), key=lambda it: it[0])]

    def serves_all(self, server):
        """Whether it says that the cluster is well, and gives each slot to a node that runs."""
        ranges = self.ranges(server)
        slots = sum(last + 1 - first for first, last, owner in ranges if owner.is_running())
        return slots == 16384 and "cluster_state:ok" in server.value("CLUSTER", "INFO").decode()
