"""Cases, checks, and many clients at once."""

import threading

CASES = []
# Seconds that one case may take, as a last resort: each socket has a limit of its own.
LIMIT = 120


class Failed(Exception):
    """What a case found wrong."""


class Slow(Failed):
    """What took longer than it may. A machine that had a pause of its own may be the reason, so the case is run again."""


def case(function=None, *, limit=LIMIT, beside=None):
    """Adds a case, named as its function, which may take so many seconds. It may return a few words to print beside it.

    One that mostly waits, and has nothing of the world but its room and its program, may be run beside the others; behind one another
    those that have the same name for it.
    """

    def add(function):
        function.limit, function.beside = limit, beside
        CASES.append(function)
        return function

    return add(function) if function else add


def check(is_so, otherwise):
    if not is_so:
        raise Failed(otherwise)


def check_time(is_so, otherwise):
    """A check of a time, of processor time, of memory, or of how much was done by then."""
    if not is_so:
        raise Slow(otherwise)


def check_same(found, wanted, where):
    if found != wanted:
        raise Failed(f"{where}: found {shown(found)}, wanted {shown(wanted)}")


def shown(value):
    text = repr(value)
    return text if len(text) < 300 else f"{text[:200]} .. {text[-80:]} ({len(text)} characters)"


def check_each_same(found, wanted, requests):
    """Compares replies one by one, and names the first request whose reply differs."""
    for place, (one, other, words) in enumerate(zip(found, wanted, requests)):
        if one != other:
            check_same(one, other, f"reply {place}, to {shown(words)}")
    check_same(len(found), len(wanted), "count of replies")


class Together:
    """Threads that each run `work(number)`; the first fault of any of them is raised by `join`."""

    def __init__(self, count, work):
        self.faults, self.results = [], [None] * count
        self.threads = [threading.Thread(target=self.run, args=(work, number), daemon=True) for number in range(count)]
        for thread in self.threads:
            thread.start()

    def run(self, work, number):
        try:
            self.results[number] = work(number)
        except Exception as fault:
            self.faults.append(fault)

    def join(self, limit=200.0):
        for thread in self.threads:
            thread.join(limit)
            check(not thread.is_alive(), f"a client had not ended after {limit} seconds")
        if self.faults:
            raise self.faults[0]
        return self.results


def together(count, work):
    """Runs `work(number)` in so many threads at once and gives their results."""
    return Together(count, work).join()
