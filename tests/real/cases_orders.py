"""The search for legal orders itself: it finds what is one, and refuses what is none."""

import random

from harness import case, check, check_same
from legal_orders import Command, NoOrder, executed, legal_order
from writers import LOST

# Random histories that are compared with a search among all orders, and the most commands of one.
HISTORIES, MOST_COMMANDS = 1000, 6
# Commands that are answered with a number.
NUMBERS = (b"APPEND", b"INCR", b"DEL", b"PEXPIRE")


def told(client, sent, replied, text, reply):
    """A command as a line has it: `SET s a`."""
    return Command(client, sent, replied, tuple(text.encode().split()), reply)


def is_legal(commands):
    try:
        legal_order(commands)
    except NoOrder:
        return False
    return True


# What happened, and whether that is legal.
HISTORIES_TOLD = {
    "a SET that is read": (True, [told(0, 0, 1, "SET s a", "OK"), told(1, 2, 3, "GET s", b"a")]),
    "a SET that is gone": (False, [told(0, 0, 1, "SET s a", "OK"), told(1, 2, 3, "GET s", None)]),
    "a SET under way that is not read yet": (True, [told(0, 0, 5, "SET s a", "OK"), told(1, 2, 3, "GET s", None)]),
    "a SET under way that is read, and then not": (
        False,
        [told(0, 0, 9, "SET s a", "OK"), told(1, 2, 3, "GET s", b"a"), told(2, 4, 5, "GET s", None)],
    ),
    "two SETs, of which the later is overwritten": (
        False,
        [told(0, 0, 1, "SET s a", "OK"), told(1, 2, 3, "SET s b", "OK"), told(2, 4, 5, "GET s", b"a")],
    ),
    "two SETs at once, in either order": (
        True,
        [told(0, 0, 3, "SET s a", "OK"), told(1, 1, 2, "SET s b", "OK"), told(2, 4, 5, "GET s", b"a")],
    ),
    "a number that is given twice": (False, [told(0, 0, 9, "INCR n", 1), told(1, 0, 9, "INCR n", 1)]),
    "a number that is left out": (False, [told(0, 0, 9, "INCR n", 1), told(1, 0, 9, "INCR n", 3)]),
    "a number that is left out beside a lost INCR": (
        True,
        [told(0, 0, 9, "INCR n", 1), told(1, 0, 9, "INCR n", 3), told(2, 0, 1, "INCR n", LOST)],
    ),
    "a lost INCR that is executed twice": (
        False,
        [told(0, 0, 9, "INCR n", 1), told(1, 0, 9, "INCR n", 4), told(2, 0, 1, "INCR n", LOST)],
    ),
    "a lost SET that is read": (True, [told(0, 0, 1, "SET s a", LOST), told(1, 2, 3, "GET s", b"a")]),
    "a lost SET that is not read": (True, [told(0, 0, 1, "SET s a", LOST), told(1, 2, 3, "GET s", None)]),
    "a lost SET that is executed after its client was told": (
        True,
        [told(0, 0, 1, "SET s a", LOST), told(1, 2, 3, "GET s", None), told(1, 4, 5, "GET s", b"a")],
    ),
    "a lost SET that is read before it was sent": (False, [told(0, 4, 5, "SET s a", LOST), told(1, 2, 3, "GET s", b"a")]),
    "a lost SET that is read, overwritten, and read again": (
        False,
        [
            told(0, 0, 1, "SET s a", LOST),
            told(1, 2, 3, "GETSET s b", b"a"),
            told(1, 4, 5, "GETSET s c", b"b"),
            told(1, 6, 7, "GET s", b"a"),
        ],
    ),
    "a value that nobody sent, as of a SET that was refused": (False, [told(0, 0, 1, "GET s", b"a")]),
    "one client's commands out of their order": (
        False,
        [told(0, 0, 9, "SET s a", "OK"), told(0, 0, 9, "SET s b", "OK"), told(1, 10, 11, "GET s", b"a")],
    ),
    "two clients' that read two SETs in two orders": (
        False,
        [
            told(0, 0, 9, "SET s a", "OK"),
            told(1, 0, 9, "SET s b", "OK"),
            *[told(2, sent, sent + 1, "GET s", value) for sent, value in ((2, b"a"), (4, b"b"))],
            *[told(3, sent, sent + 1, "GET s", value) for sent, value in ((2, b"b"), (4, b"a"))],
        ],
    ),
    "a client's second command read before its first": (
        False,
        [told(0, 0, 9, "APPEND s a", 1), told(0, 0, 9, "APPEND s b", 2), told(1, 0, 9, "GET s", b"b")],
    ),
    "half of a group": (False, [told(0, 0, 9, "MSET s a n 1", "OK"), told(1, 0, 9, "MGET s n", [b"a", None])]),
    "a key that goes in time": (
        True,
        [told(0, 0, 1, "SET s a", "OK"), told(0, 2, 3, "PEXPIRE s 1000", 1), told(1, 3, 3.1, "GET s", None)],
    ),
    "a key that goes too early": (
        False,
        [told(0, 0, 1, "SET s a", "OK"), told(0, 2, 3, "PEXPIRE s 1000", 1), told(1, 2.1, 2.9, "GET s", None)],
    ),
    "a key that goes late": (
        True,
        [told(0, 0, 1, "SET s a", "OK"), told(0, 2, 3, "PEXPIRE s 1000", 1), told(1, 8, 9, "GET s", b"a"), told(1, 9, 9.1, "GET s", None)],
    ),
    "a key that goes and is back": (
        False,
        [told(0, 0, 1, "SET s a", "OK"), told(0, 2, 3, "PEXPIRE s 1000", 1), told(1, 5, 6, "GET s", None), told(1, 8, 9, "GET s", b"a")],
    ),
    "a key that goes although a SET took its time away": (
        False,
        [
            told(0, 0, 1, "SET s a", "OK"),
            told(0, 2, 3, "PEXPIRE s 1000", 1),
            told(0, 3, 3.5, "SET s b", "OK"),
            told(1, 8, 9, "GET s", None),
        ],
    ),
    "a key that goes in its time although APPEND came later": (
        True,
        [
            told(0, 0, 1, "SET s a", "OK"),
            told(0, 2, 2.1, "PEXPIRE s 1000", 1),
            told(0, 2.2, 2.3, "APPEND s b", 2),
            told(1, 8, 9, "APPEND s c", 1),
        ],
    ),
    "a key that goes, of which PEXPIRE was told that it is not there": (
        False,
        [told(0, 0, 1, "SET s a", "OK"), told(0, 2, 3, "PEXPIRE s 1000", 0)],
    ),
}


@case
def histories_that_are_legal_or_not(world):
    for name, (wanted, commands) in HISTORIES_TOLD.items():
        check_same(is_legal(commands), wanted, f"whether it is legal: {name}")
    return f"{sum(wanted for wanted, _ in HISTORIES_TOLD.values())} legal, {sum(not wanted for wanted, _ in HISTORIES_TOLD.values())} not"


def earlier_of(commands, lost):
    """Those of the commands that are the same client's, and were answered."""
    return [it for it in commands if it.client == lost.client and it.reply is not LOST]


def is_legal_by_trying_all(waiting, lost, store=None, now=0.0):
    """The same by trying whatever may come next, each event at the earliest moment that is left.

    `waiting` has the answered commands, each client's in its order, `lost` each lost one with those that have to stand before it.
    """
    store = store or {}
    if not waiting:
        return True
    for place, command in enumerate(waiting):
        moment = max(now, command.sent)
        reply, left = executed(store, command)
        is_first = all(other.client != command.client for other in waiting[:place])
        if is_first and moment <= command.replied and reply == command.reply:
            if is_legal_by_trying_all(waiting[:place] + waiting[place + 1 :], lost, left, moment):
                return True
    for place, (command, earlier) in enumerate(lost):
        if not any(it in waiting for it in earlier):
            left = executed(store, command)[1]
            if is_legal_by_trying_all(waiting, lost[:place] + lost[place + 1 :], left, max(now, command.sent)):
                return True
    for key, (_, due) in store.items():
        if due is not None:
            left = {other: entry for other, entry in store.items() if other != key}
            if is_legal_by_trying_all(waiting, lost, left, max(now, due)):
                return True
    return False


def some_history(chance):
    """A few commands in the order in which one store executes them, each under way for a while; then perhaps a reply is another one."""
    kinds = ["GET s", "SET s %d", "SET s %d NX", "GETSET s %d", "APPEND s %d", "INCR n", "DEL s", "MGET s n", "MSET s %d n 7", "PEXPIRE s 2000"]
    store, clocks, commands = {}, [0.0] * 3, []
    for number in range(chance.randrange(2, MOST_COMMANDS + 1)):
        kind, client = chance.choice(kinds), chance.randrange(3)
        sent = max(clocks[client], number - chance.choice([0, 0, 1, 2, 3]))
        replied = max(sent, number) + chance.choice([0.5, 0.5, 1.5, 3.5])
        command = told(client, sent, replied, kind % number if "%" in kind else kind, None)
        clocks[client] = chance.choice([sent, replied])
        for key, (_, due) in list(store.items()):
            if due is not None and due <= number and chance.randrange(2):
                del store[key]
        is_lost = chance.randrange(5) == 0
        if is_lost and chance.randrange(2):
            commands.append(command._replace(reply=LOST))
            continue
        reply, store = executed(store, command)
        store = dict(store)
        commands.append(command._replace(reply=LOST if is_lost else reply))
    answered = [place for place, it in enumerate(commands) if it.reply is not LOST]
    if answered and chance.randrange(3):
        place = chance.choice(answered)
        name = commands[place].words[0]
        others = [[b"0", b"1"], [b"2", None]] if name == b"MGET" else [0, 1, 2, 3] if name in NUMBERS else [b"0", b"1", b"2", None]
        commands[place] = commands[place]._replace(reply=chance.choice(others))
    return commands


@case
def random_histories_by_trying_all(world):
    """The search says of each what a search without any of its shortcuts says."""
    chance, legal = random.Random(5), 0
    for number in range(HISTORIES):
        commands = some_history(chance)
        answered = [it for it in commands if it.reply is not LOST]
        lost = [(it, earlier_of(commands[:place], it)) for place, it in enumerate(commands) if it.reply is LOST]
        wanted = is_legal_by_trying_all(answered, lost)
        check_same(is_legal(commands), wanted, f"whether history {number} is legal: {commands}")
        legal += wanted
    check(HISTORIES // 4 < legal < 3 * HISTORIES // 4, f"{legal} of {HISTORIES} histories are legal")
    return f"{legal} of {HISTORIES} legal"
