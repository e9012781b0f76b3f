"""Clients that do not behave: half requests, half-closed sockets, and resets."""

import socket
import struct
import threading
import time

from client import request
from cluster import is_within
from harness import Together, case, check, check_same, check_time

PROMPT = 3.0  # seconds in which another client's reply must be there


def check_prompt(world, where):
    """Another client is served in good time."""
    began = time.monotonic()
    with world.client() as client:
        for key in ["other.1", "other.2", "other.3"]:
            check_same(client.ask("SET", key, where), b"+OK\r\n", where)
            check_same(client.value("GET", key), where.encode(), where)
    took = time.monotonic() - began
    check_time(took < PROMPT, f"{where}: another client waited {took:.2f} seconds")


@case
def unfinished_requests_wait(world):
    whole = request("SET", "a", "1") + request("GET", "a")
    with world.client() as client:
        for place in range(0, len(whole), 5):
            client.send(whole[place : place + 5])
            if place % 15 == 0:
                check_prompt(world, "beside half a request")
        check_same(client.replies(2), [b"+OK\r\n", b"$1\r\n1\r\n"], "the request once it is whole")


@case
def unfinished_requests_are_dropped(world):
    for place in range(1, len(request("SET", "half", "1"))):
        with world.client() as client:
            client.send(request("SET", "half", "1")[:place])
    check_prompt(world, "after half requests")
    with world.client() as client:
        check_same(client.ask("GET", "half"), b"$-1\r\n", "half a SET executes nothing")


@case
def half_closed(world):
    """A client that ends its sending gets the replies that it is owed, and then the end; half a request is owed none."""
    before = world.proxy.descriptors()
    for more in [b"", b"*2\r\n$3\r\nGET"]:
        for count in [0, 1, 100, 3000]:
            with world.client() as client:
                client.value("DEL", "n")
                client.send(b"".join(request("INCR", "n") for _ in range(count)) + more)
                client.end_sending()
                wanted = b"".join(b":%d\r\n" % number for number in range(1, count + 1))
                check_same(client.rest(), wanted, f"replies to {count} requests and the end of sending")
    check_prompt(world, "after half-closed clients")
    check_time(is_within(5, lambda: world.proxy.descriptors() <= before + 10), "their descriptors are open after five seconds")


@case
def resets_in_a_pipeline(world):
    """Clients that reset their connection with a pipeline under way: what was executed is a beginning of it."""
    for number in range(20):
        client = world.client()
        client.send(b"".join(request("APPEND", f"reset{number}", f"{turn};") for turn in range(300)))
        if number % 2:
            client.reply()
        client.socket.setsockopt(socket.SOL_SOCKET, socket.SO_LINGER, struct.pack("ii", 1, 0))
        client.close()
    check_prompt(world, "after resets")
    time.sleep(0.3)
    whole = b"".join(b"%d;" % turn for turn in range(300))
    with world.client() as client:
        for number in range(20):
            log = client.value("GET", f"reset{number}") or b""
            check(whole.startswith(log), f"{log[-40:]!r} is no beginning of what was sent")


@case
def a_slow_reader(world):
    """Its replies come whole, however slowly it reads."""
    with world.client(receive_buffer=4096) as client:
        client.ask("SET", "big", "v" * 20000)
        client.send(request("GET", "big") * 100)
        time.sleep(0.3)
        check_prompt(world, "beside a slow reader")
        for _ in range(50):
            client.held += client.socket.recv(512)
            time.sleep(0.002)
        check_same(client.replies(100), [b"$20000\r\n" + b"v" * 20000 + b"\r\n"] * 100, "slowly read replies")


@case
def a_client_that_sends_without_end(world):
    """It sends for a second as fast as it can and reads what comes: others are served promptly."""
    with world.client() as client:
        stop = threading.Event()
        piece = b"".join(request("SET", f"flood{number}", "x" * 1000) for number in range(100))

        def flood():
            while not stop.is_set():
                client.send(piece)

        sender = threading.Thread(target=flood, daemon=True)
        sender.start()
        reader = Together(1, lambda number: drain(client))
        until = time.monotonic() + 1
        while time.monotonic() < until:
            check_prompt(world, "beside a flood")
        stop.set()
        sender.join(60)
        check(not sender.is_alive(), "what a client sent is not read")
        client.end_sending()
        reader.join()


def drain(client):
    """Reads up to the other side's end."""
    try:
        while client.socket.recv(1 << 16):
            pass
    except ConnectionResetError:
        pass


@case
def many_silent_clients(world):
    """500 connections that say nothing, and what is left once they are closed."""
    before = world.proxy.descriptors()
    silent = [world.client() for _ in range(500)]
    check_prompt(world, "beside 500 silent clients")
    check_same(silent[-1].ask("PING"), b"+PONG\r\n", "the last of them")
    for client in silent:
        client.close()
    check_time(is_within(5, lambda: world.proxy.descriptors() <= before + 10), "their descriptors are open after five seconds")


@case
def closed_after_a_fault(world):
    """What comes after a protocol error is read by nobody, and harms nobody."""
    client = world.client()
    client.send(b"?\r\n" + request("SET", "after", "1") * 1000)
    check(client.rest().startswith(b"-ERR proxy: protocol error\r\n"), "the error line")
    client.close()
    with world.client() as other:
        check_same(other.ask("GET", "after"), b"$-1\r\n", "nothing after a fault is executed")
