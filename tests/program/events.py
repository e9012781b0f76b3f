"""A long script of commands, groups, drops, moves and recalls, by a generator with a fixed start."""

import random

# Three slots: the keys of each, its owner at first, commands, and one command that makes it hold all its keys.
SLOTS = [
    (15495, ["a"], 2, ["SET a 1", "INCR a", "GET a", "DEL a"], "SET a 7"),
    (3300, ["b"], 0, ["APPEND b x", "STRLEN b", "GETDEL b", "SETNX b y"], "SET b z"),
    (15891, ["{t}x", "{t}y"], 2, ["MSET {t}x 1 {t}y 2", "MGET {t}x {t}y", "EXISTS {t}x {t}y", "DEL {t}x {t}y"], "MSET {t}x 3 {t}y 4"),
]


class Script:
    """The events so far, and what they lead to: who owns each slot, which link leads to each node, how many were opened and
    how many commands the one client has sent."""

    def __init__(self):
        self.events = []
        self.random = random.Random(1)
        self.owners = [owner for _, _, owner, _, _ in SLOTS]
        self.links = {}
        self.opened = self.sent = 0

    def say(self, *lines):
        self.events.extend(lines)

    def send(self, place, command):
        """A command arrives, is posted to its owner and carried there. Gives the link."""
        node = self.owners[place]
        if node not in self.links:
            self.links[node], self.opened = self.opened, self.opened + 1
        link = self.links[node]
        self.say(f"arrive 0 {command}", f"post 0.{self.sent} {node}", f"carry 0 {link}")
        self.sent += 1
        return link

    def answered(self, place, command):
        """A command from its arrival to its answer."""
        link = self.send(place, command)
        self.say(f"serve {link}", f"fetch {link}", "take 0", "answer 0")

    def lost(self, place, command):
        """A command whose link drops, and that is served or thrown away afterwards."""
        link = self.send(place, command)
        del self.links[self.owners[place]]
        self.say(f"drop {link}", "take 0", "answer 0", f"{self.random.choice(['serve', 'discard'])} {link}")

    def recalled(self, place):
        """A slot begins to move and is called back."""
        slot = SLOTS[place][0]
        target = (self.owners[place] + 1) % 3
        self.say(f"import {slot} {target}", f"migrate {slot}", f"forget {slot}", f"stay {slot}")

    def moved(self, place):
        """A slot moves with its keys."""
        slot, keys, _, _, _ = SLOTS[place]
        target = (self.owners[place] + 1) % 3
        self.say(f"import {slot} {target}", f"migrate {slot}")
        self.say(*[f"movekey {slot} {key}" for key in keys])
        self.say(f"own {slot}", f"release {slot}")
        self.owners[place] = target

    def episode(self):
        place = self.random.randrange(len(SLOTS))
        _, _, _, commands, fill = SLOTS[place]
        match self.random.randrange(8):
            case 0:
                self.lost(place, self.random.choice(commands))
            case 1:
                self.recalled(place)
            case 2:
                self.answered(place, fill)
                self.moved(place)
            case _:
                self.answered(place, self.random.choice(commands))


def long_script(events):
    """At least so many events, a line each."""
    script = Script()
    while len(script.events) < events:
        script.episode()
    return "".join(f"{line}\n" for line in script.events)
