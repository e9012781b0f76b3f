"""A hundred clients at once."""

import threading
import time

from client import request, value_of
from cluster import is_within
from harness import case, check, check_same, check_time, together
from logs import check_log

CLIENTS = 100


@case
def own_counters(world):
    def work(number):
        with world.client() as client:
            for turn in range(1, 101):
                check_same(client.ask("INCR", f"own{number}"), b":%d\r\n" % turn, f"client {number}")

    together(CLIENTS, work)


@case
def shared_counters(world):
    """Each number is given once, each client sees its numbers grow, and the last is the count of all."""

    def work(number):
        with world.client() as client:
            given = {key: [] for key in range(10)}
            for turn in range(20):
                client.send(b"".join(request("INCR", f"shared{key}") for key in given))
                for numbers, reply in zip(given.values(), client.lines(len(given))):
                    numbers.append(value_of(reply))
            return given

    results = together(CLIENTS, work)
    for key in range(10):
        for given in results:
            check_same(given[key], sorted(given[key]), f"counter {key}, as one client saw it")
        check_same(sorted(it for given in results for it in given[key]), list(range(1, 20 * CLIENTS + 1)), f"counter {key}")


@case
def shared_logs(world):
    keys = [f"log{number}" for number in range(5)]

    def work(number):
        answered = []
        with world.client() as client:
            for turn in range(10):
                tokens = [(key, b"%d.%d.%s;" % (number, turn * len(keys) + place, key.encode())) for place, key in enumerate(keys)]
                client.send(b"".join(request("APPEND", key, token) for key, token in tokens))
                answered += [(key, token, value_of(reply)) for (key, token), reply in zip(tokens, client.lines(len(tokens)))]
        return answered

    results = together(CLIENTS, work)
    with world.client() as client:
        for key in keys:
            check_log(client.value("GET", key), [[it[1:] for it in answered if it[0] == key] for answered in results])


@case
def groups_are_whole(world):
    """Twenty clients write three keys of one slot in one MSET; thirty read them in one MGET, and never see two writes mixed."""
    connected = threading.Barrier(50)

    def work(number):
        turns = 0
        with world.client() as client:
            connected.wait(60)
            until = time.monotonic() + 2
            while turns == 0 or time.monotonic() < until:
                turns += 1
                if number < 20:
                    mark = f"{number}.{turns}"
                    check_same(client.ask("MSET", "{t}x", mark, "{t}y", mark, "{t}z", mark), b"+OK\r\n", "MSET of one slot")
                else:
                    values = client.value("MGET", "{t}x", "{t}y", "{t}z")
                    check(len(set(values)) == 1, f"half of a group was seen: {values}")
        return turns

    results = together(50, work)
    return f"{sum(results[:20])} written, {sum(results[20:])} read"


@case
def clients_come_and_go(world):
    """2,000 connections one after another, in ten threads: the proxy keeps no descriptor of them."""
    before = world.proxy.descriptors()

    def work(number):
        for turn in range(200):
            with world.client() as client:
                check_same(client.ask("ECHO", f"{number}.{turn}"), b"$%d\r\n%d.%d\r\n" % (len(f"{number}.{turn}"), number, turn), "ECHO")
                if turn % 3 == 0:
                    client.send(request("GET", "left behind"))

    together(10, work)
    is_within(2, lambda: world.proxy.descriptors() <= before + 10)
    after = world.proxy.descriptors()
    check_time(after <= before + 10, f"{before} descriptors before, {after} after")
    return f"{before} descriptors before, {after} after"
