"""The load: clients that add one to counters, many requests at once, and what each request ended with."""

from array import array

from client import request
from cluster import keys_of_slots
from writers import GAVE_UP, LOST

# Clients for each third of the slots, the counters that they share, and the requests that a client sends at once.
CLIENTS, COUNTERS, AT_ONCE = 4, 32, 32


class Counter:
    """A key that clients add one to. Each client has its own place in the lists: no two threads write the same."""

    def __init__(self, key: bytes, clients: int) -> None:
        self.key = key
        self.request = request("INCR", key)
        self.numbers = [array("Q") for _ in range(clients)]
        self.lost, self.gave_up = [0] * clients, [0] * clients

    def add(self, client: int, reply: bytes) -> None:
        """Takes in the reply to a client's request."""
        if reply[:1] == b":":
            self.numbers[client].append(int(reply[1:]))
        elif reply == LOST:
            self.lost[client] += 1
        elif reply == GAVE_UP:
            self.gave_up[client] += 1
        else:
            raise ValueError(f"INCR {self.key!r} was answered {reply!r}")

    def answered(self) -> int:
        """How many requests were answered with a number."""
        return sum(map(len, self.numbers))

    def fault(self, value: int) -> str | None:
        """What is wrong with the value that the counter has at the end: no reply's number may be missing or stand twice, and no more
        may be in it than those whose connection was lost."""
        numbers = sorted(number for mine in self.numbers for number in mine)
        if any(one == other for one, other in zip(numbers, numbers[1:])):
            return f"{self.key.decode()} gave the same number twice"
        if numbers and not 1 <= numbers[0] <= numbers[-1] <= value:
            return f"{self.key.decode()} is {value}, and a reply said {numbers[-1]}"
        if not self.answered() <= value <= self.answered() + sum(self.lost):
            return f"{self.key.decode()} is {value}; {self.answered()} were answered, {sum(self.lost)} lost"
        return None


class Load:
    """All clients and counters. The clients of one third of the slots go on while another third has no node."""

    def __init__(self, ranges: list[tuple[int, int]]) -> None:
        self.clients = CLIENTS * len(ranges)
        self.groups = [[Counter(key, self.clients) for key in keys_of_slots(first, last, COUNTERS)] for first, last in ranges]
        self.counters = [it for group in self.groups for it in group]

    def turn(self, client, number: int, count: int) -> None:
        """Sends a client's next requests, and takes in the replies."""
        group = self.groups[number % len(self.groups)]
        batch = [group[(number + count + place) % COUNTERS] for place in range(AT_ONCE)]
        client.send(b"".join(it.request for it in batch))
        for counter, reply in zip(batch, client.lines(AT_ONCE)):
            counter.add(number, reply)

    def answered(self) -> int:
        return sum(it.answered() for it in self.counters)

    def lost(self) -> int:
        return sum(sum(it.lost) for it in self.counters)

    def gave_up(self) -> int:
        return sum(sum(it.gave_up) for it in self.counters)
