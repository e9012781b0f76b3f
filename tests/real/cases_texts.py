"""The proxy's own texts, and what ends a connection."""

from client import request
from harness import case, check_same

UNKNOWN = b"-ERR unknown command\r\n"
SYNTAX = b"-ERR syntax error\r\n"
SELECT = b"-ERR SELECT is not allowed in cluster mode\r\n"
PROTOCOL = b"-ERR proxy: protocol error\r\n"


def same_replies(world, wanted, requests):
    with world.client() as client:
        for words in requests:
            check_same(client.ask(*words), wanted, words)


@case
def unknown_commands(world):
    lines = ["HELLO 3", "HELLO", "COMMAND", "COMMAND DOCS", "CLIENT SETNAME x", "CONFIG GET save", "INFO", "CLUSTER SLOTS"]
    lines += ["ASKING", "READONLY", "MULTI", "EXEC", "DECRBY a 1", "SETEX a 1 b", "KEYS *", "FLUSHALL", "SHUTDOWN"]
    lines += ["GETS a", "GE a", "LPUSH a b", "EVAL x 0"]
    odd = [("",), (b"\0",), (b"GET\r\n",), ("x" * 100000,), ("x",) * 1000]
    same_replies(world, UNKNOWN, [line.split() for line in lines] + odd)


@case
def syntax_of_set(world):
    options = ["NX XX", "xx nx", "NX NX XX", "EX 10", "GET", "KEEPTTL", "N", "NXX"]
    same_replies(world, SYNTAX, [["SET", "a", "1", *it.split()] for it in options] + [["SET", "a", "1", ""]])
    same_replies(world, b"$-1\r\n", [("GET", "a")])


@case
def other_databases(world):
    same_replies(world, SELECT, [("SELECT", word) for word in ["1", "15", "-1", "00", "", "zero", "0 "]])


@case
def quit_with_a_word(world):
    same_replies(world, b"-ERR wrong number of arguments for 'quit' command\r\n", [("QUIT", "now"), ("quit", "1", "2")])


@case
def quit_closes(world):
    for requests in [request("QUIT"), request("quit"), request("PING") + request("QuIt") + request("PING")]:
        with world.client() as client:
            client.send(requests)
            check_same(client.rest(), b"+PONG\r\n+OK\r\n" if b"PING" in requests else b"+OK\r\n", requests)


@case
def quit_after_what_is_owed(world):
    with world.client() as client:
        client.send(b"".join(request("INCR", "n") for _ in range(500)) + request("QUIT") + request("INCR", "n") * 3)
        check_same(client.rest(), b"".join(b":%d\r\n" % number for number in range(1, 501)) + b"+OK\r\n", "500 INCR and QUIT")
    with world.client() as client:
        check_same(client.ask("GET", "n"), b"$3\r\n500\r\n", "after QUIT nothing is executed")


@case
def empty_requests_are_skipped(world):
    with world.client() as client:
        client.send(b"*0\r\n*-1\r\n" + request("PING") + b"*0\r\n" * 3000 + request("ECHO", "end"))
        check_same(client.replies(2), [b"+PONG\r\n", b"$3\r\nend\r\n"], "replies among empty requests")


# Bytes of which no request can come, each with what is right before them.
FAULTS = {
    "a plain word": b"PING\r\n",
    "a number too many": b"*2\r\n$4\r\nPING\r\n:1\r\n",
    "a simple text": b"+OK\r\n",
    "an unknown kind": b"?3\r\n",
    "a zero byte": b"\0",
    "a line without a carriage return": b"*1\n",
    "a bulk that is longer than it says": b"*1\r\n$4\r\nPINGS\r\n",
    "a bulk without an end": b"*1\r\n$4\r\nPING\n\n",
    "a length that is no number": b"*1\r\n$four\r\n",
    "a length with a sign": b"*1\r\n$+4\r\n",
    "a length below -1": b"*1\r\n$-2\r\n",
    "an empty count": b"*\r\n",
    "a count below -1": b"*-2\r\n",
    "a bulk past the limit": b"*1\r\n$536870913\r\n",
    "a length of eleven digits": b"*1\r\n$00000000004\r\n",
    "too many items": b"*1048577\r\n",
    "a null word": b"*1\r\n$-1\r\n",
    "a null word after a name": b"*2\r\n$3\r\nGET\r\n$-1\r\n",
    "a nested array": b"*1\r\n*1\r\n$4\r\nPING\r\n",
    "a line past the limit": b"*1\r\n$" + b"0" * 65537,
}


@case
def protocol_errors(world):
    """The replies owed come first, then the error, then the end."""
    for name, fault in FAULTS.items():
        with world.client() as client:
            client.send(request("SET", "k", "v") + request("GET", "k") + request("PING") + fault)
            check_same(client.rest(), b"+OK\r\n$1\r\nv\r\n+PONG\r\n" + PROTOCOL, name)
    return f"{len(FAULTS)} kinds"


@case
def protocol_errors_byte_by_byte(world):
    for name, fault in FAULTS.items():
        if len(fault) > 1000:
            continue
        with world.client() as client:
            try:
                for byte in request("ECHO", "hi") + fault:
                    client.send(bytes([byte]))
            except (BrokenPipeError, ConnectionResetError):
                pass  # closed at the first byte that is wrong
            check_same(client.rest(), b"$2\r\nhi\r\n" + PROTOCOL, name)


@case
def leading_zeros_are_read(world):
    with world.client() as client:
        client.send(b"*0000000002\r\n$0000000004\r\nECHO\r\n$02\r\nhi\r\n")
        check_same(client.reply(), b"$2\r\nhi\r\n", "lengths with leading zeros")
