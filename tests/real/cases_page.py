"""The page of figures before a real cluster: what scrapers and probes read of it. Its forms are tried in tests/program."""

import contextlib
import http.client
import json
import shutil
import subprocess
import time
import urllib.parse
import urllib.request

from cases_idle import MOST_COMMANDS, MOST_PERCENT, percent_of_commands, percent_of_core
from client import request
from cluster import OwnProxy, Proxy, end, free_ports, wait_until
from harness import Together, case, check_same, check_time

# Clients, the requests that each sends, and how often curl asks for the page meanwhile.
CLIENTS, REQUESTS, ASKED = 50, 400, 1000


class Page(OwnProxy):
    """A proxy of its own, with a page."""

    def __init__(self, world, seed_port, name, workers=2):
        super().__init__(Proxy(world.room, world.program, seed_port, workers=workers, name=name, paged=True))

    def get(self, path, method="GET"):
        """Status and body."""
        connection = http.client.HTTPConnection("127.0.0.1", self.proxy.admin, timeout=20)
        with contextlib.closing(connection):
            connection.request(method, path)
            answer = connection.getresponse()
            return answer.status, answer.read().decode()

    def figures(self):
        status, text = self.get("/metrics")
        check_same(status, 200, "status of the page")
        lines = [line.rsplit(" ", 1) for line in text.splitlines() if not line.startswith("#")]
        return {name: float(value) for name, value in lines}

    def total(self, name):
        """A figure of all threads."""
        return sum(value for sample, value in self.figures().items() if sample.split("{")[0] == name)


@case
def the_page_has_what_clients_counted(world):
    """Requests, parts and bytes of clients; each node is up."""
    names = [f"cluster_proxy_{name}_total" for name in ["requests", "client_received_bytes", "client_sent_bytes"]]
    with Page(world, world.cluster.nodes[0].port, "paged") as page, page.proxy.client() as client:
        client.value("GET", "a")
        wait_until(lambda: page.figures()["cluster_proxy_clients"] == 1, "the client that looked for the proxy to be gone")
        before = [page.total(name) for name in names]
        counted = page.figures()["cluster_proxy_request_duration_seconds_count"]
        sent = received = 0
        for number in range(300):
            words = request("SET", f"k{number}", "1") + request("MGET", f"k{number}", f"k{number + 1}")
            client.send(words)
            sent, received = sent + len(words), received + sum(map(len, client.replies(2)))
        wait_until(lambda: page.figures()["cluster_proxy_request_duration_seconds_count"] >= counted + 600, "the last request to be counted")
        more = [page.total(name) - was for name, was in zip(names, before)]
        check_same(more, [600, sent, received], "requests, bytes of the client and bytes to it")
        check_same(page.figures()["cluster_proxy_clients"], 1, "clients")
        for node in world.cluster.nodes[:3]:
            check_same(page.figures()[f'cluster_proxy_node_up{{node="127.0.0.1:{node.port}"}}'], 1, "a node")


@case
def health_follows_the_nodes(world):
    """Well before the cluster; 503 before a seed that is not there, and the page says why."""
    with Page(world, world.cluster.nodes[0].port, "well") as page, page.proxy.client() as client:
        client.value("GET", "a")
        wait_until(lambda: page.get("/healthz") == (200, "ok\n"), "the proxy to be well")
    with Page(world, free_ports(1)[0], "ill") as page:
        check_same(page.get("/healthz"), (503, "no slot map was read\n"), "health without a cluster")


@case
def tools_read_the_page(world):
    """promtool finds nothing to complain of; curl reads both paths. Where they can't be installed that is said."""
    with Page(world, world.cluster.nodes[0].port, "scraped") as page, page.proxy.client() as client:
        client.value("GET", "a")
        wait_until(lambda: page.get("/healthz") == (200, "ok\n"), "the proxy to be well")
        text = page.get("/metrics")[1]
        if not shutil.which("promtool") or not shutil.which("curl"):
            return "without promtool or curl"
        said = subprocess.run(["promtool", "check", "metrics"], input=text.encode(), capture_output=True, check=False, timeout=60)
        check_same((said.returncode, said.stdout, said.stderr), (0, b"", b""), "promtool check metrics")
        for path, wanted in [("metrics", "200"), ("healthz", "200"), ("none", "404")]:
            words = ["curl", "-s", "-o", "/dev/null", "-w", "%{http_code}", f"http://127.0.0.1:{page.proxy.admin}/{path}"]
            check_same(subprocess.run(words, capture_output=True, check=True, timeout=60).stdout.decode(), wanted, path)
    return None


class Prometheus:
    """A Prometheus server of its own, with the configuration that docs/OPERATING.md gives, but for a scrape each second."""

    def __init__(self, room, admin):
        name, (self.port,) = room.name("prometheus"), free_ports(1)
        path = f"{room.folder}/{name}.yml"
        with open(path, "w", encoding="ascii") as configuration:
            configuration.write(f"""scrape_configs:
  - job_name: cluster_proxy
    scrape_interval: 1s
    static_configs:
      - targets: ["127.0.0.1:{admin}"]
""")
        words = ["prometheus", f"--config.file={path}", f"--storage.tsdb.path={room.folder}/{name}.data"]
        self.process = room.start([*words, f"--web.listen-address=127.0.0.1:{self.port}"], f"{name}.log")

    def __enter__(self):
        return self

    def __exit__(self, *_):
        end(self.process)

    def value(self, query):
        """The one value of a query, or None while there is none."""
        try:
            with urllib.request.urlopen(f"http://127.0.0.1:{self.port}/api/v1/query?{urllib.parse.urlencode({'query': query})}", timeout=20) as answer:
                found = json.load(answer)["data"]["result"]
        except OSError:
            return None
        return float(found[0]["value"][1]) if found else None


@case
def prometheus_finds_the_figures(world):
    """A Prometheus server scrapes the page, takes the proxy for up, and has the figures that clients counted."""
    if not shutil.which("prometheus"):
        return "without prometheus"
    with Page(world, world.cluster.nodes[0].port, "watched") as page, page.proxy.client() as client:
        client.send(b"".join(request("SET", f"k{number}", "1") for number in range(500)))
        client.replies(500)
        with Prometheus(world.room, page.proxy.admin) as prometheus:
            wait_until(lambda: prometheus.value('up{job="cluster_proxy"}') == 1, "Prometheus to find the proxy up")
            wanted = page.total("cluster_proxy_requests_total")
            wait_until(lambda: prometheus.value("sum(cluster_proxy_requests_total)") == wanted, f"Prometheus to count {wanted:.0f} requests")
            check_same(prometheus.value("sum(cluster_proxy_node_up)"), 3, "nodes that are up")
            check_same(prometheus.value("cluster_proxy_clients"), 1, "clients")


@case
def the_page_holds_no_client_up(world):
    """Fifty clients, with a page that nobody asks for, and with one that curl asks a thousand times meanwhile."""
    if not shutil.which("curl"):
        return "without curl"

    def median(page):
        def work(number):
            waits = []
            with page.proxy.client() as client:
                for place in range(REQUESTS):
                    began = time.monotonic()
                    client.ask("GET", f"k{number}:{place}")
                    waits.append(time.monotonic() - began)
            return waits

        clients = Together(CLIENTS, work)
        clients.join()
        waits = sorted(wait for waited in clients.results for wait in waited)
        return waits[len(waits) // 2]

    with Page(world, world.cluster.nodes[0].port, "busy") as page:
        median(page)
        alone = median(page)
        asking = ["curl", "-s", "-o", "/dev/null", f"http://127.0.0.1:{page.proxy.admin}/metrics?[1-{ASKED}]"]
        with subprocess.Popen(asking) as curl:
            beside = median(page)
            check_same(curl.wait(60), 0, "curl")
        check_time(beside < alone * 1.1, f"a median of {beside * 1000:.2f} ms beside {alone * 1000:.2f} ms")
        return f"{alone * 1000:.2f} ms, {beside * 1000:.2f} ms beside {ASKED} pages"


@case
def a_page_costs_nothing_while_idle(world):
    """Nobody asks for it, and a client that was served says nothing."""
    with Page(world, world.cluster.nodes[0].port, "idle page") as page, page.proxy.client() as client:
        client.value("GET", "a")
        wait_until(lambda: page.get("/healthz") == (200, "ok\n"), "the proxy to be well")
        percent = percent_of_core(page.proxy.process)
        most = max(MOST_PERCENT, percent_of_commands(page.proxy, MOST_COMMANDS))
        note = f"{percent:.3f} % of a core, of {most:.1f}"
        check_time(percent < most, note)
        return note
