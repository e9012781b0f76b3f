"""What three clients of a play ask for, how slots move meanwhile, and whether what each was replied is right."""

import re
from collections import Counter
from functools import cache

from answers import Fitting, slot_of, spelled
from store import Store
from table import quoted

LOST = "-ERR proxy: connection lost, outcome unknown"
# What a command over keys at two nodes is told in the end: no time passes here, so its tries follow one another.
GAVE_UP = b"-ERR proxy: gave up, not executed\r\n"

# What each client asks for on keys of its own, where no connection breaks.
OWN = [
    "SET {p}a 1,INCR {p}a,GET {p}a,APPEND {p}a x,GET {p}a,DEL {p}a,GET {p}a",
    "MSET {q}x 1 {q}y 2,INCR {q}x,MGET {q}x {q}y,SET b 1,GET b,MGET {q}y b",
    "INCR c,SET d 5,INCR c,MGET c d,DEL c d,EXISTS c d",
]
# What each asks for on keys that all share.
SHARED = ["INCR {p}a," * 4 + "INCR {p}a", "INCR {p}a,INCR {q}n," * 2 + "INCR {p}a", "INCR {q}n," * 3 + "INCR {q}n"]


@cache
def marked(text):
    """A script with a mark in each key."""
    return re.sub(r"(?<=[ ,])(\{?)([a-z])", r"\g<1>#\g<2>", text)


def script_of(text, play):
    """The commands of a script, on keys that no other play has."""
    return [line.split() for line in marked(text).replace("#", str(play)).split(",")]


def steps_of_moves(chance, play):
    """The steps by which the slots of two tags move from the last node, each slot's in their order."""
    slots = [(slot_of(f"{{{play}{tag}}}"), to) for tag, to in (("p", 0), ("q", 1))]
    lanes = [[f"import {slot} {to}", f"migrate {slot}", *3 * [f"movekey {slot}"], f"own {slot}", f"release {slot}"] for slot, to in slots]
    steps = []
    while any(lanes):
        steps.append(chance.choice([it for it in lanes if it]).pop(0))
    return steps


def is_of_one_store(script, answer):
    """Whether the replies to a client's commands are those of one store, which did not execute what was given up."""
    store, rest = Store(), answer[1:]
    for each in script:
        reply = quoted(GAVE_UP)[1:-1]
        if not rest.startswith(reply):
            reply = quoted(spelled(store.apply(each)))[1:-1]
        if not rest.startswith(reply):
            return False
        rest = rest.removeprefix(reply)
    return rest.startswith('" ')


class Seen(Counter):
    """What happened in all plays, as a row's note."""

    def __str__(self):
        return ", ".join(f"{count} {what}" for what, count in self.items())


def served_as_by_one_store(script, seen):
    """What a client holds that shares no key."""

    def test(answer):
        seen["given up"] += answer.count(quoted(GAVE_UP)[1:-1])
        return is_of_one_store(script, answer)

    return Fitting("the replies of one store", test)


def replies_in(answer):
    """The replies that a client held, or none where these are no line each."""
    found = re.fullmatch(r'"((?:[:-][^\\]*\\r\\n)*)" \d+', answer)
    return found.group(1).split("\\r\\n")[:-1] if found else []


def counts_well(scripts, held):
    """Of each key: no client's numbers go back, no number comes twice, and no more are missing than were lost."""
    for key in {words[1] for script in scripts for words in script}:
        replies = [[reply for words, reply in zip(script, mine) if words[1] == key] for script, mine in zip(scripts, held)]
        numbers = [[int(reply[1:]) for reply in mine if reply[0] == ":"] for mine in replies]
        given, lost = sorted(sum(numbers, [])), sum(reply == LOST for mine in replies for reply in mine)
        if any(mine != sorted(mine) for mine in numbers) or len({*given}) != len(given):
            return False
        if sum(map(len, replies)) != len(given) + lost or given and given[-1] > len(given) + lost:
            return False
    return True


def counted(scripts, held, client, seen):
    """What a client that counts holds: as many replies as it asked for, each a number or a loss; with the last client's, the counts."""

    def test(answer):
        held[client] = replies_in(answer)
        seen["lost"] += held[client].count(LOST)
        if len(held[client]) != len(scripts[client]):
            return False
        return client + 1 < len(scripts) or counts_well(scripts, held.values())

    return Fitting("a number or a loss for each, each number once, and as many as were executed", test)
