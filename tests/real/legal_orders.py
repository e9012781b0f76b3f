"""An exact search for a legal order of what many clients did with the keys of one slot.

A legal order is one in which one store, one command after another, gives each command the reply that it had, so that
 - each command that was answered stands once, between its sending and its reply;
 - one that ended with its connection stands at most once, behind its sending. Commands that were refused are left out: they never stand;
 - of one client's commands an earlier one that was answered stands before each later one;
 - a key that PEXPIRE gave a time is gone at any moment behind its due one, or not at all; never earlier.
"""

import math
from typing import NamedTuple

from writers import LOST

# What a node's clock of milliseconds may differ from the test's.
GRAIN = 0.001
# After so many places a search ends: those of the cases look at a few times as many as there are commands.
MOST_PLACES = 200_000
# So many commands are named where it found none.
MOST_TOLD = 4


class Command(NamedTuple):
    """What a client sent and when, and the value of the reply and when it came, or LOST."""

    client: int
    sent: float
    replied: float
    words: tuple
    reply: object


class NoOrder(Exception):
    """There is no legal order."""


# What each command does with a store, which has for each key its value and when it is due to go, or None: the reply, and the store that
# it leaves, the same object where with this reply it changes nothing in any store.


def held(store, key):
    return store[key][0] if key in store else None


def put(store, key, value):
    return {**store, key: (value, None)}


def without(store, *keys):
    return {key: entry for key, entry in store.items() if key not in keys} if any(key in store for key in keys) else store


def set_key(store, key, value, only=None):
    if only == b"NX" and key in store or only == b"XX" and key not in store:
        return None, store
    return "OK", put(store, key, value)


def setnx(store, key, value):
    return (0, store) if key in store else (1, put(store, key, value))


def change(store, key, value):
    """Puts a value, and leaves the time at which the key goes."""
    return {**store, key: (value, store[key][1] if key in store else None)}


def append(store, key, more):
    value = (held(store, key) or b"") + more
    return len(value), change(store, key, value)


def add(store, key, amount):
    value = int(held(store, key) or 0) + int(amount)
    return value, change(store, key, b"%d" % value)


def expire(store, key, due):
    return (1, {**store, key: (store[key][0], due)}) if key in store else (0, store)


EXECUTED = {
    b"GET": lambda store, key: (held(store, key), store),
    b"STRLEN": lambda store, key: (len(held(store, key) or b""), store),
    b"EXISTS": lambda store, *keys: (sum(key in store for key in keys), store),
    b"MGET": lambda store, *keys: ([held(store, key) for key in keys], store),
    b"SET": set_key,
    b"SETNX": setnx,
    b"GETSET": lambda store, key, value: (held(store, key), put(store, key, value)),
    b"GETDEL": lambda store, key: (held(store, key), without(store, key)),
    b"MSET": lambda store, *pairs: ("OK", {**store, **{key: (value, None) for key, value in zip(pairs[::2], pairs[1::2])}}),
    b"DEL": lambda store, *keys: (sum(key in store for key in set(keys)), without(store, *keys)),
    b"APPEND": append,
    b"INCR": lambda store, key: add(store, key, 1),
    b"DECR": lambda store, key: add(store, key, -1),
    b"INCRBY": add,
}


def executed(store, command):
    """The reply of a store to a command, and the store that it leaves."""
    name, *words = command.words
    if name == b"PEXPIRE":
        return expire(store, words[0], command.sent + int(words[1]) / 1000 - GRAIN)
    return EXECUTED[name](store, *words)


AMOUNTS = {b"INCR": lambda: 1, b"DECR": lambda: -1, b"INCRBY": int}


def found_by(command):
    """Each key of a command with the value that it found there, where its reply tells one."""
    name, *words = command.words
    if name in AMOUNTS:
        # (zero may have been no key)
        value = command.reply - AMOUNTS[name](*words[1:])
        return [(words[0], b"%d" % value)] if value else []
    found = command.reply if name == b"MGET" else [command.reply] if name in (b"GET", b"GETSET", b"GETDEL") else []
    return [(key, value) for key, value in zip(words, found) if value is not None]


def may_leave(command, key, value):
    """Whether a command may leave this value at the key."""
    name, *words = command.words
    if name in AMOUNTS:
        return words[0] == key and (command.reply is LOST or value == b"%d" % command.reply)
    if name == b"APPEND":
        return words[0] == key and value.endswith(words[1])
    return key in words and value in words


class Place(NamedTuple):
    """How far an order has come: what stands in it, and the store there."""

    # the first of the answered commands that does not stand in it yet, and as bits which of those from there on do
    first: int
    beyond: int
    # as bits, which of the lost ones do
    lost: int
    store: dict
    # the moment before which no further event that changes something can be
    now: float
    # the store but for the last event, where that was one that need not have been
    spared: object


class Search:
    """A search among the places that an order can come to.

    What only reads is taken as soon as its reply fits: it fits no better later. What need not be, a lost command or a key that goes, is
    taken only where the next event would be another one without it. No value is left that another command still has to find, where none is
    left that could bring it back. A place from which no order was found is not looked at again, nor one that differs only by further lost
    commands.
    """

    def __init__(self, commands, lost_end):
        """Each client's commands in its order. Whether a lost command stands, if at all, before its client was told: a narrower search."""
        self.lost_end = lost_end
        self.answered = sorted((it for it in commands if it.reply is not LOST), key=lambda it: it.sent)
        self.lost = sorted((it for it in commands if it.reply is LOST), key=lambda it: it.sent)
        self.number_before(commands)
        self.note_values()
        self.seen, self.places, self.furthest = {}, 0, Place(0, 0, 0, {}, -math.inf, None)

    def number_before(self, commands):
        """Of each command, the number of the answered one of its client that has to stand before it, or -1."""
        number, last, before = {id(it): place for place, it in enumerate(self.answered)}, {}, {}
        for command in commands:
            before[id(command)] = last.get(command.client, -1)
            if command.reply is not LOST:
                last[command.client] = number[id(command)]
        self.before, self.before_lost = ([before[id(it)] for it in some] for some in (self.answered, self.lost))

    def note_values(self):
        """For each key and value that answered commands found, their numbers, and those of the commands that may have left it."""
        self.finders, self.leavers = {}, {}
        for number, command in enumerate(self.answered):
            for found in found_by(command):
                self.finders.setdefault(found, []).append(number)
        for key, value in self.finders:
            of = lambda commands: [number for number, it in enumerate(commands) if may_leave(it, key, value)]
            self.leavers[key, value] = of(self.answered), of(self.lost)

    def find(self):
        """The events of a legal order, or None where none was found. An event is a command or the key that goes."""
        events, rest = [], [self.next_places(self.furthest)]
        if not self.answered:
            return events
        while rest:
            event, place = next(rest[-1], (None, None))
            if place is None:
                rest.pop()
                events and events.pop()
                continue
            if self.is_known(place):
                continue
            self.places += 1
            if self.places > MOST_PLACES:
                return None
            self.furthest = max(self.furthest, place, key=lambda it: it.first)
            events.append(event)
            if place.first == len(self.answered):
                return events
            rest.append(self.next_places(place))
        return None

    def is_known(self, place):
        """Whether one was seen with the same store and the same answered commands, and no other lost ones."""
        sets = self.seen.setdefault((place.first, place.beyond, frozenset(place.store.items())), [])
        if any(lost & ~place.lost == 0 for lost in sets):
            return True
        sets.append(place.lost)
        return False

    @staticmethod
    def stands(place, number):
        return number < place.first or place.beyond >> (number - place.first) & 1

    def candidates(self, place):
        """The answered commands that may stand next, those first that were answered first; and the moment by which the next event is."""
        deadline, numbers = math.inf, []
        for number in range(place.first, len(self.answered)):
            command = self.answered[number]
            if command.sent > deadline:
                break
            if not self.stands(place, number):
                deadline = min(deadline, command.replied)
                if self.stands(place, self.before[number]):
                    numbers.append(number)
        return sorted(numbers, key=lambda it: self.answered[it].replied), deadline

    def next_places(self, place):
        """Each event that may come next, with the place to which it leads."""
        numbers, deadline = self.candidates(place)
        changes = []
        for number in numbers:
            command = self.answered[number]
            reply, store = executed(place.store, command)
            if reply == command.reply:
                changes.append((command, self.with_answered(place, number, store)))
                if store is place.store:
                    yield changes[-1]
                    return
        changes += [(key, self.without_key(place, key)) for key, (_, due) in place.store.items() if due is not None and due <= deadline]
        changes += [(self.lost[number], self.with_lost(place, number)) for number in self.lost_candidates(place, deadline)]
        for event, after in changes:
            if self.is_other(place, event, after.store) and self.leaves_what_is_needed(place, after):
                yield event, after

    def with_answered(self, place, number, store):
        first, beyond = place.first, place.beyond | 1 << (number - place.first)
        while beyond & 1:
            first, beyond = first + 1, beyond >> 1
        now = place.now if store is place.store else max(place.now, self.answered[number].sent)
        return Place(first, beyond, place.lost, store, now, None)

    def with_lost(self, place, number):
        lost, store = place.lost | 1 << number, executed(place.store, self.lost[number])[1]
        return place._replace(lost=lost, store=store, now=max(place.now, self.lost[number].sent), spared=place.store)

    @staticmethod
    def without_key(place, key):
        return place._replace(store=without(place.store, key), spared=place.store)

    def lost_candidates(self, place, deadline):
        return [
            number
            for number, command in enumerate(self.lost)
            if command.sent <= deadline and self.may_come(place, number) and self.stands(place, self.before_lost[number])
        ]

    def may_come(self, place, number):
        """Whether a lost command does not stand yet, and may do so behind what does."""
        if place.lost >> number & 1:
            return False
        return not self.lost_end or place.now <= self.lost[number].replied

    @staticmethod
    def is_other(place, event, store):
        """Whether the event would have another reply or leave another store, if the one before it had not been; a lost one changes something."""
        if isinstance(event, bytes):
            return True
        if event.reply is LOST and store == place.store:
            return False
        if place.spared is None:
            return True
        reply, other = executed(place.spared, event)
        return other != store or event.reply is not LOST and reply != event.reply

    def leaves_what_is_needed(self, place, after):
        """Whether each value that is gone is needed no more, or may come again."""
        for key, (value, _) in place.store.items():
            if held(after.store, key) != value and any(not self.stands(after, it) for it in self.finders.get((key, value), ())):
                answered, lost = self.leavers[key, value]
                if all(self.stands(after, it) for it in answered) and not any(self.may_come(after, it) for it in lost):
                    return False
        return True

    def where_it_ended(self):
        """What stands at the furthest place, and which commands have another reply than it gives."""
        place = self.furthest
        numbers, _ = self.candidates(place)
        told = [(command, executed(place.store, command)[0]) for command in (self.answered[it] for it in numbers[:MOST_TOLD])]
        wrong = "; ".join(f"client {it.client}, {b' '.join(it.words)!r} was answered {it.reply!r}, not {reply!r}" for it, reply in told)
        none = "no legal order" if self.places <= MOST_PLACES else f"no legal order among {MOST_PLACES} places"
        return f"{none}: at most {place.first} of {len(self.answered)} stand, with {place.store}; then {wrong}"


def legal_order(commands):
    """The events of a legal order of the commands, each client's handed in in its order, and how many places were looked at.

    Raises NoOrder where there is none, or none is found in so many places.
    """
    places = 0
    for lost_end in (True, False):
        search = Search(commands, lost_end)
        order = search.find()
        places += search.places
        if order is not None:
            return order, places
    raise NoOrder(search.where_it_ended())
