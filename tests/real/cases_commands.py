"""Every command of the table: the proxy's replies are those of one plain server, byte for byte."""

import subprocess

from harness import case, check_each_same, check_same

# Keys of three nodes, some with tags.
KEYS = ["a", "b", "c", "{t}x", "{t}y", "x{t}", "{}z", "{t", "d}"]


def same_as_one_server(world, requests):
    """Sends each request alone to the proxy and to one server."""
    with world.client() as proxy, world.plain.client() as plain:
        wanted = [plain.ask(*words) for words in requests]
        check_each_same([proxy.ask(*words) for words in requests], wanted, requests)


@case
def strings(world):
    requests = []
    for key in KEYS:
        requests += [("GET", key), ("STRLEN", key), ("SET", key, "one"), ("GET", key), ("STRLEN", key)]
        requests += [("APPEND", key, " two"), ("GET", key), ("GETSET", key, "three"), ("GETDEL", key), ("GETDEL", key)]
        requests += [("GETSET", key, "four"), ("APPEND", f"{key}new", "five"), ("GET", f"{key}new"), ("APPEND", key, "")]
    same_as_one_server(world, requests)


@case
def conditions(world):
    requests = []
    for key in KEYS:
        requests += [("SET", key, "1", "XX"), ("GET", key), ("SET", key, "2", "NX"), ("SET", key, "3", "NX"), ("GET", key)]
        requests += [("SET", key, "4", "XX"), ("GET", key), ("SETNX", key, "5"), ("GETDEL", key), ("SETNX", key, "6"), ("GET", key)]
        requests += [("set", key, "7", "xx", "XX", "xX"), ("sEt", key, "8", "nx", "Nx"), ("gEt", key)]
    same_as_one_server(world, requests)


@case
def numbers(world):
    highest, lowest = 2**63 - 1, -(2**63)
    requests = [("INCR", "n"), ("INCR", "n"), ("DECR", "n"), ("DECR", "m"), ("INCRBY", "n", "-7"), ("INCRBY", "o", "0"), ("GET", "n")]
    for held in ["0", "-1", "12", highest, highest - 1, lowest, lowest + 1]:
        for words in [("INCR", "k"), ("DECR", "k"), *[("INCRBY", "k", amount) for amount in (1, -2, highest, lowest)]]:
            requests += [("SET", "k", held), words, ("GET", "k")]
    no_numbers = ["", " ", "1 ", " 1", "01", "+1", "-0", "-", "--1", "1.0", "1e3", "0x1", "one", highest + 1, lowest - 1, b"1\0", "00"]
    for held in no_numbers:
        requests += [("SET", "k", held), ("INCR", "k"), ("DECR", "k"), ("INCRBY", "k", "5"), ("GET", "k")]
        requests += [("SET", "k", "10"), ("INCRBY", "k", held), ("GET", "k")]
    same_as_one_server(world, requests)


@case
def several_keys(world):
    pairs = [word for place, key in enumerate(KEYS) for word in (key, place)]
    requests = [("MGET", *KEYS), ("EXISTS", *KEYS), ("DEL", *KEYS), ("MSET", *pairs), ("MGET", *KEYS), ("EXISTS", *KEYS)]
    requests += [("MGET", "a", "b", "a", "{t}x", "none", "{t}x"), ("EXISTS", "a", "b", "a", "none", "{t}x", "{t}x")]
    requests += [("MSET", "a", "1", "b", "2", "a", "3", "{t}x", "4", "{t}x", "5"), ("MGET", *KEYS)]
    requests += [("DEL", "a", "none", "a", "{t}x", "{t}x", "{t}y"), ("MGET", *KEYS), ("DEL", *KEYS, *KEYS), ("EXISTS", *KEYS)]
    requests += [("MGET", "a"), ("MSET", "a", "6"), ("mget", "a"), ("exists", "a"), ("del", "a")]
    same_as_one_server(world, requests)


@case
def two_thousand_keys(world):
    keys = [f"key{number}" for number in range(2000)]
    pairs = [word for number, key in enumerate(keys) for word in (key, f"value{number}")]
    requests = [("MSET", *pairs), ("MGET", *keys), ("EXISTS", *keys, *keys[:7]), ("DEL", *keys[:1500]), ("MGET", *reversed(keys))]
    same_as_one_server(world, requests)


@case
def answered_by_the_proxy(world):
    every_byte = bytes(range(256))
    requests = [("PING",), ("ping",), ("PING", "hello"), ("PING", ""), ("PING", every_byte)]
    requests += [("ECHO", "hello"), ("echo", ""), ("ECHO", every_byte), ("SELECT", "0"), ("select", "0")]
    same_as_one_server(world, requests)


@case
def keys_and_values_of_any_bytes(world):
    every_byte = bytes(range(256))
    requests = []
    for key in [b"", every_byte, b"\r\n", b"$1\r\n", b"{}", b"{\r\n}a", b"\0", b"{" + every_byte + b"}"]:
        for value in [b"", every_byte, b"\r\n", b"+OK\r\n", b"$-1\r\n", b"\0\0"]:
            requests += [("SET", key, value), ("GET", key), ("APPEND", key, value), ("MGET", key, b"none", key), ("GETSET", key, b"end")]
    same_as_one_server(world, requests)


@case
def big_values(world):
    requests = []
    for size in [16383, 16384, 16385, 65535, 65536, 65537, 1 << 20, 8 << 20]:
        value = bytes(place * 7 % 251 for place in range(1 << 12)) * (size // (1 << 12) + 1)
        requests += [("SET", f"k{size}", value[:size]), ("STRLEN", f"k{size}"), ("GET", f"k{size}")]
    same_as_one_server(world, [*requests, ("MGET", "k65536", "k16383", "k1048576"), ("APPEND", "k1048576", "tail"), ("GET", "k1048576")])


@case
def wrong_counts(world):
    exact = {"GET": 1, "SETNX": 2, "GETSET": 2, "GETDEL": 1, "APPEND": 2, "STRLEN": 1, "INCR": 1, "DECR": 1, "INCRBY": 2}
    exact |= {"ECHO": 1, "SELECT": 1}
    requests = [(name, *["7"] * count) for name, right in exact.items() for count in range(5) if count != right]
    requests += [("SET",), ("SET", "k"), ("DEL",), ("EXISTS",), ("MGET",), ("PING", "a", "b")]
    requests += [("MSET",), ("MSET", "k"), ("MSET", "k", "1", "l")]
    same_as_one_server(world, [*requests, *[(words[0].lower(), *words[1:]) for words in requests], ("GET", "k"), ("GET", "7")])


@case
def redis_cli_one_by_one(world):
    def said(*words):
        ran = subprocess.run(["redis-cli", "-p", str(world.proxy.port), *words], capture_output=True, timeout=60, check=False)
        return ran.stdout.decode(), ran.returncode

    rows = [
        (("SET", "a", "1"), "OK\n"),
        (("INCR", "a"), "2\n"),
        (("GET", "a"), "2\n"),
        (("GET", "none"), "\n"),
        (("MSET", "x", "1", "y", "2", "z", "3"), "OK\n"),
        (("MGET", "x", "none", "z"), "1\n\n3\n"),
        (("DEL", "x", "y", "z"), "3\n"),
        (("PING",), "PONG\n"),
        (("INCR", "no", "more"), "ERR wrong number of arguments for 'incr' command\n\n"),
        (("HELLO",), "ERR unknown command\n\n"),
    ]
    for words, wanted in rows:
        check_same(said(*words)[0], wanted, words)


@case
def redis_cli_from_a_file(world):
    """redis-cli reads its commands from standard input, one a line."""
    lines = [f"SET key{number} {number}" for number in range(500)] + [f"INCR key{number}" for number in range(500)]
    words = ["redis-cli", "-p", str(world.proxy.port)]
    ran = subprocess.run(words, input="\n".join(lines).encode(), capture_output=True, timeout=100, check=False)
    check_same(ran.stdout.decode().split(), ["OK"] * 500 + [str(number + 1) for number in range(500)], "redis-cli")
    check_same(sum(node.value("DBSIZE") for node in world.cluster.nodes), 500, "keys in the cluster")
