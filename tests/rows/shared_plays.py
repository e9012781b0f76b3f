"""Ten thousand plays of two proxies before one cluster, beside a client that is none: what each proxy does, the steps of moves, connections
that break, refusals, and what the other client asks for, in an order at random.

Each proxy has two clients, and the second one begins later. All ask for the same keys, whose slots move meanwhile. What nodes executed has
to be one legal history of everybody's commands (legal.py).
"""

import random
import re
from itertools import cycle

from answers import Fitting, slot_of, spelled
from legal import Command, Others, is_legal
from scripts import GAVE_UP, LOST, Seen, steps_of_moves
from table import Row, quoted, request

SHARED_PLAYS = 10_000
TAGS, PROXIES, CLIENTS = "pq", ("play", "second"), (0, 1)
# So many commands has a client, so many things happen in a play, and so many rounds of all take it to its end.
COMMANDS, EVENTS, TO_THE_END = 4, 60, 72
# What happens: orders of either proxy, a look at how far a client is, a client that is no proxy.
HAPPENS = [*6 * ["play"], *6 * ["second"], "move", "move", "ends", "others", "others"]
WORDS = [*4 * ["turn"], "serve 0", "serve 1", "serve 2", "serve 2", "serve 2", "cut"]
# Of four plays one has neither breaks nor refusals.
MORE = [[], ["break 2", "break 0"], ["tryagain 2", "down 2", "moved 2 1"], ["break 2", "tryagain 0", "down 2"]]
# What all ask for, with a letter of its own for each command.
ASKED = (
    ["APPEND {t}a X"] * 3
    + ["INCR {t}n"] * 2
    + ["GET {t}a", "MGET {t}a {t}n", "STRLEN {t}a", "EXISTS {t}a {t}n"]
    + ["DEL {t}a", "DEL {t}a {t}n", "GETDEL {t}a", "SET {t}a X", "SETNX {t}a X", "MSET {t}a X {t}n 7"]
)
# The bytes that one call moves at most over a connection that is cut, and what makes all connections whole again.
SMALL, WHOLE_AGAIN = 64, " ".join(f"cut {node} 65535" for node in range(3))
LETTERS = "abcdefghijklmnopqrstuvwxyzABCDEFGHIJKLMNOPQRSTUVWXYZ"
LOST_REPLY = LOST.encode() + b"\r\n"
REPLIES = re.compile(rb"[+\-:][^\r]*\r\n|\$-1\r\n|\$(\d+)\r\n|\*(\d+)\r\n")


def replies_in(data):
    """The replies that bytes spell."""
    replies, at = [], 0
    while at < len(data):
        begun, items = at, 1
        while items:
            head = REPLIES.match(data, at)
            at = head.end() + (int(head[1]) + 2 if head[1] else 0)
            items += int(head[2] or 0) - 1
        replies.append(data[begun:at])
    return replies


def shown(reply):
    """A reply of the store, as a row shows what others were told."""
    kind, _, rest = reply.partition(" ")
    return f"array [ {rest.replace(' | ', ' ')} ]" if kind == "array" else reply


def cut(chance):
    """From now on calls over one of the connections move few bytes."""
    return f"cut {chance.randrange(3)} {chance.randint(1, SMALL)}"


class Play:
    """The calls of a play, and what was seen of it."""

    def __init__(self, row, number, seen):
        self.row, self.number, self.seen = row, number, seen
        self.chance = random.Random(number)
        self.letters = cycle(LETTERS)
        # what each client asked for, each with its tag, and by its moment what others did
        self.asked = {(proxy, client): [self.command() for _ in range(COMMANDS)] for proxy in PROXIES for client in CLIENTS}
        self.others = {}
        self.begun = []
        self.steps = steps_of_moves(self.chance, number)
        self.orders, self.of = [], None

    def words_for(self, tag):
        text = self.chance.choice(ASKED).replace("{t}", f"{{{self.number}{tag}}}")
        return re.sub(r" X\b", f" {next(self.letters)}", text).split()

    def command(self):
        tag = self.chance.choice(TAGS)
        return tag, Command(self.words_for(tag), 0)

    @property
    def moment(self):
        return len(self.row.calls)

    def call(self, *call):
        """A call of the row, behind the orders that were not given yet."""
        self.give_orders()
        self.row.call(*call)

    def give_orders(self):
        if self.orders:
            self.row.call(f"{self.of} do {' '.join(self.orders)}")
        self.orders = []

    def order(self, proxy, words):
        if proxy != self.of:
            self.give_orders()
        self.of = proxy
        self.orders.append(words)

    def begin(self, proxy):
        """A play begins, and its clients come."""
        self.call(f"{proxy} begin")
        for client in CLIENTS:
            self.client_comes(proxy, client)

    def client_comes(self, proxy, client):
        commands = [command for _, command in self.asked[proxy, client]]
        data = b"".join(request(*(word.encode() for word in each.words)) for each in commands)
        self.call(f"{proxy} client {client} {quoted(data)}")
        self.begun.append((proxy, client))
        for command in commands:
            command.came = self.moment

    def look(self):
        """How many of a client's commands have ended by now: those for one slot in their order, those for two slots in any."""
        proxy, client = self.chance.choice(self.begun)
        moment = self.moment + bool(self.orders)

        def test(answer):
            commands = self.asked[proxy, client]
            for tag in TAGS:
                mine = [command for its, command in commands if its == tag]
                elsewhere = len(commands) - len(mine)
                for command in mine[: max(int(answer) - elsewhere, 0)]:
                    command.seen = min(command.seen, moment)
            return True

        self.call(f"{proxy} ends {client}", Fitting("a number", test))

    def others_come(self, node, tag, run):
        """A client that is no proxy asks for some at once, of this node first."""
        moment = self.moment + bool(self.orders)

        def test(answer):
            told = str(answer)
            self.seen["of others"] += 1
            if told.startswith("reply "):
                self.others[moment] = tag, Others(run, moment, lambda replies: told == " ".join(f"reply {shown(it)}" for it in replies))
                return True
            self.seen["of others refused"] += 1
            return told.split(" ")[0] in ("tryagain", "moved", "ask")

        self.call(f"play others {node} {' ; '.join(' '.join(words) for words in run)}", Fitting("what a store replies, or a refusal", test))

    def happens(self, what):
        if what in PROXIES:
            words = self.chance.choice(WORDS + MORE[self.number % len(MORE)])
            self.order(what, cut(self.chance) if words == "cut" else words)
        elif what == "move" and self.steps:
            self.order("play", self.steps.pop(0))
        elif what == "ends":
            self.look()
        elif what == "others":
            tag = self.chance.choice(TAGS)
            self.others_come(self.chance.randrange(3), tag, [self.words_for(tag) for _ in range(self.chance.choice((1, 1, 2, 3)))])

    def to_the_end(self):
        """All go on to the end, with both slots settled, and the client that is no proxy reads all keys."""
        ends = [WHOLE_AGAIN, f"all {TO_THE_END}", *self.last_steps(), f"all {TO_THE_END}"]
        for words in ends:
            for proxy in PROXIES if words.startswith(("all ", "cut ")) else PROXIES[:1]:
                self.order(proxy, words)
        for tag in TAGS:
            self.others_come(2, tag, [["MGET", f"{{{self.number}{tag}}}a", f"{{{self.number}{tag}}}n"]])

    def last_steps(self):
        slots = [slot_of(f"{{{self.number}{tag}}}") for tag in TAGS]
        return [step for slot in slots for step in (*4 * [f"movekey {slot}"], f"own {slot}", f"release {slot}")]

    def clients_end(self):
        left = [*self.asked]
        for proxy, client in left:
            is_last = (proxy, client) == left[-1]
            test = lambda answer, each=(proxy, client), is_last=is_last: self.are_served(each, answer) and (not is_last or self.is_legal())
            self.call(f"{proxy} held {client}", Fitting("the replies of one store to everybody", test))

    def are_served(self, client, answer):
        """Whether a client holds a reply to each of its commands."""
        data = answer[1 : answer.rindex('"')].encode().decode("unicode_escape").encode("latin-1")
        replies, commands = replies_in(data), self.asked[client]
        for (_, command), reply in zip(commands, replies):
            command.is_lost, command.reply = reply == LOST_REPLY, reply
            command.replies = lambda given, reply=reply: reply == LOST_REPLY or spelled(given) == reply
            self.seen["lost"] += command.is_lost
            self.seen["given up"] += reply == GAVE_UP
        return len(replies) == len(commands)

    def is_legal(self):
        """Whether the commands for each slot have a legal order."""
        return all(is_legal(self.clients_of(tag), [done for its, done in self.others.values() if its == tag]) for tag in TAGS)

    def clients_of(self, tag):
        return [[each for its, each in mine if its == tag and each.reply != GAVE_UP] for mine in self.asked.values()]


def add_shared_play(row, number, seen):
    """A play, whose second proxy begins somewhere in it."""
    play = Play(row, number, seen)
    play.begin("play")
    late = play.chance.randrange(EVENTS // 2)
    for place, what in enumerate(play.chance.choices(HAPPENS, k=EVENTS)):
        if place == late:
            play.begin("second")
        play.happens("play" if what == "second" and place < late else what)
    play.to_the_end()
    play.clients_end()


def ten_thousand_shared_plays():
    """Whatever two proxies and others do in whatever order, everybody is served as by one store."""
    seen = Seen(plays=SHARED_PLAYS)
    row = Row("ten_thousand_shared_plays", note=seen)
    for number in range(SHARED_PLAYS):
        if number:
            row.call("reset")
        add_shared_play(row, number, seen)
    seen["calls"] = len(row.calls)
    return row
