"""Whether one store could have served everybody: an exact search for a legal order of what clients asked for and what others did.

Each command has a moment at which it had come, and one at which its answer was seen: it was executed between them. A client's commands
were executed in their order, but for those that were lost, which were executed once at any time behind those before them, or never.
"""

from store import Store

LATER = float("inf")


class Command:
    """A client's command. `replies` tells whether this is what it was answered; a lost one may have had any reply."""

    def __init__(self, words, came):
        self.words, self.came, self.seen = words, came, LATER
        self.is_lost, self.replies = False, None

    def done_at(self, store):
        return self.replies(store.apply(self.words))


class Others:
    """What others did at once, at one moment, and what they were told."""

    def __init__(self, run, moment, replies):
        self.run, self.came, self.seen, self.replies = run, moment, moment, replies

    def done_at(self, store):
        return self.replies([store.apply(words) for words in self.run])


class Search:
    """The lists that were answered, each in its order, and the commands that were lost, each with its list and its place there."""

    def __init__(self, clients, others):
        self.lists = [[each for each in mine if not each.is_lost] for mine in clients] + [others]
        self.lost = [
            (each, at, sum(not it.is_lost for it in mine[:place]))
            for at, mine in enumerate(clients)
            for place, each in enumerate(mine)
            if each.is_lost
        ]
        self.failed, self.known = set(), {}

    def after(self, each, held):
        """What a store that holds this holds behind it, or None where the store would have replied something else."""
        if (each, held) not in self.known:
            store = Store()
            store.values = dict(held)
            self.known[each, held] = tuple(sorted(store.values.items())) if each.done_at(store) else None
        return self.known[each, held]

    def goes_on(self, places, gone, held):
        """Whether there is a legal order from here on, behind so many of each list and these lost ones."""
        if (places, gone, held) in self.failed:
            return False
        heads = [(at, mine[place]) for at, (mine, place) in enumerate(zip(self.lists, places)) if place < len(mine)]
        if not heads or any(self.goes_on(*step) for step in self.steps(heads, places, gone, held)):
            return True
        self.failed.add((places, gone, held))
        return False

    def steps(self, heads, places, gone, held):
        """What may come next: nothing that had not come when the answer to another one was seen."""
        first = min(head.seen for _, head in heads)
        for at, head in heads:
            if head.came <= first and (after := self.after(head, held)) is not None:
                yield (*places[:at], places[at] + 1, *places[at + 1 :]), gone, after
        for number, (each, at, behind) in enumerate(self.lost):
            if number not in gone and each.came <= first and places[at] >= behind:
                yield places, gone | {number}, self.after(each, held)


def is_legal(clients, others):
    search = Search(clients, others)
    return search.goes_on((0,) * len(search.lists), frozenset(), ())
