"""Ten thousand plays: the engine's turns, what the nodes do, the steps of moves, connections that break, and into how small pieces bytes are
cut, in an order that is handed in, each at random.

Three clients are served, of which the last comes later. Each play has an engine, nodes and clients of its own. In every other one
connections break, so that commands are lost.
"""

import os
import random
import sys

sys.path.append(os.path.join(os.path.dirname(os.path.abspath(__file__)), "..", "program"))

from answers import slot_of
from scripts import OWN, SHARED, Seen, counted, script_of, served_as_by_one_store, steps_of_moves
from shared_plays import WHOLE_AGAIN, cut, ten_thousand_shared_plays
from table import Row, quoted, request

PLAYS = 10_000
# So many orders come at random, and so many rounds of all take the play to its end.
ORDERS, TO_THE_END = 60, 72
# The numbers of the clients, and how many orders are given before the last one comes.
CLIENTS, BEFORE = (0, 1, 4), 15
# What may be ordered, some of it more often than the rest.
WORDS = [*3 * ["turn"], "serve 0", "serve 1", "serve 2", "serve 2", "move", "cut"]
BREAKS = [*WORDS, "break 2"]


def orders_of(chance, play, words):
    """Orders at random, among them the steps of moves in their order."""
    steps, orders = steps_of_moves(chance, play), []
    for word in chance.choices(words, k=ORDERS):
        if word == "cut":
            orders.append(cut(chance))
        elif word != "move":
            orders.append(word)
        elif steps:
            orders.append(steps.pop(0))
    return orders


def last_steps(play):
    """Steps after which both slots are settled, whatever steps were made before."""
    slots = [slot_of(f"{{{play}{tag}}}") for tag in "pq"]
    return [step for slot in slots for step in (*4 * [f"movekey {slot}"], f"own {slot}", f"release {slot}")]


def add_client(row, number, script):
    data = b"".join(request(*(word.encode() for word in each)) for each in script)
    row.call(f"play client {number} {quoted(data)}")


def add_play(row, play, words, scripts):
    """The play begins, clients come, the last of them among the orders, and it is taken to its end, with both slots settled."""
    row.call("play begin")
    clients, orders = list(zip(CLIENTS, scripts)), orders_of(random.Random(play), play, words)
    for number, script in clients[:-1]:
        add_client(row, number, script)
    row.call(f"play do {' '.join(orders[:BEFORE])}")
    add_client(row, *clients[-1])
    row.call(f"play do {' '.join(orders[BEFORE:])}")
    row.call(f"play do {WHOLE_AGAIN} all {TO_THE_END} {' '.join(last_steps(play))} all {TO_THE_END}")


def add_whole_play(row, play, seen):
    """No connection breaks, and no two clients have a key in common: each is replied what one store replies."""
    scripts = [script_of(text, play) for text in OWN]
    add_play(row, play, WORDS, scripts)
    for number, script in zip(CLIENTS, scripts):
        row.call(f"play held {number}", served_as_by_one_store(script, seen))


def add_broken_play(row, play, seen):
    """Connections break, and all count the same keys up: each count is executed at most once."""
    scripts = [script_of(text, play) for text in SHARED]
    add_play(row, play, BREAKS, scripts)
    held = {}
    for client, number in enumerate(CLIENTS):
        row.call(f"play held {number}", counted(scripts, held, client, seen))


def ten_thousand_plays():
    """Whatever is done in whatever order, each client is served as by one store, and a lost count is none or one."""
    seen = Seen(plays=PLAYS)
    row = Row("ten_thousand_plays", note=seen)
    for play in range(PLAYS):
        if play:
            row.call("reset")
        add = add_broken_play if play % 2 else add_whole_play
        add(row, play, seen)
    seen["calls"] = len(row.calls)
    return row


def rows():
    return [ten_thousand_plays(), ten_thousand_shared_plays()]
