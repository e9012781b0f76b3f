"""The screen: what the demo has counted so far, drawn over what stood there."""

import shutil
import sys
from dataclasses import dataclass, field

# A rate, from none to the highest.
BARS = " ▁▂▃▄▅▆▇█"
# Marks of a terminal: bold, dim, red, green, plain again; the screen's start, the rest of a line, of the screen; the cursor.
BOLD, DIM, RED, GREEN, PLAIN = "\033[1m", "\033[2m", "\033[31m", "\033[32m", "\033[m"
HOME, LINE, BELOW, CLEAR, HIDE, SHOW = "\033[H", "\033[K", "\033[J", "\033[2J", "\033[?25l", "\033[?25h"


@dataclass
class Node:
    """A node as the cluster says it: its address, what it is, and how many slots it has."""

    address: str
    role: str
    slots: int


@dataclass
class Counts:
    """What was counted up to a moment."""

    second: float = 0.0
    answered: int = 0
    gave_up: int = 0
    lost: int = 0
    moved: int = 0
    ask: int = 0


@dataclass
class Screen:
    """The last counts, the rates before them, and what has happened."""

    title: str
    about: str
    counts: Counts = field(default_factory=Counts)
    rates: list[float] = field(default_factory=list)
    events: list[str] = field(default_factory=list)
    is_terminal: bool = field(default_factory=sys.stdout.isatty)

    def happened(self, what: str) -> None:
        self.events.append(f"{clock(self.counts.second)}  {what}")

    def add(self, counts: Counts) -> None:
        """Takes in new counts."""
        seconds = counts.second - self.counts.second
        self.rates.append((counts.answered - self.counts.answered) / seconds)
        self.counts = counts

    def lines(self, nodes: list[Node]) -> list[str]:
        """The screen as text."""
        it = self.counts
        rate = self.rates[-1] if self.rates else 0
        out = [f"{BOLD}{self.title}{PLAIN}   {clock(it.second)}", ""]
        out += [f"requests a second  {BOLD}{rate:>11,.0f}{PLAIN}   {GREEN}{self.curve()}{PLAIN}"]
        out += [f"answered           {it.answered:>11,}"]
        out += [f"gave up            {it.gave_up:>11,}   {DIM}no node for two seconds: not executed{PLAIN}"]
        out += [f"connection lost    {it.lost:>11,}   {DIM}outcome unknown{PLAIN}"]
        out += [f"redirects          {it.moved + it.ask:>11,}   {DIM}MOVED {it.moved:,}, ASK {it.ask:,}: followed by the proxy{PLAIN}", ""]
        out += [f"{DIM}node              role       slots{PLAIN}"]
        for node in nodes:
            bar = "█" * round(node.slots / 250)
            color = RED if node.role == "killed" else GREEN if node.slots else DIM
            out.append(f"{node.address:<17} {color}{node.role:<8}{PLAIN} {node.slots:>7,}  {color}{bar}{PLAIN}")
        return [*out, "", *self.events, "", f"{DIM}{self.about}{PLAIN}"]

    def curve(self) -> str:
        """The rates as bars, each of two of them."""
        bars = [(one + other) / 2 for one, other in zip(self.rates[::2], self.rates[1::2])]
        most = max(bars, default=0)
        return "".join(BARS[round(it / most * 8)] for it in bars[-45:]) if most else ""

    def draw(self, nodes: list[Node]) -> None:
        """Writes the lines over what stands on the terminal."""
        if self.is_terminal:
            lines = self.lines(nodes)[: shutil.get_terminal_size().lines - 1]
            print(HOME + "".join(f"{line}{LINE}\n" for line in lines) + BELOW, end="", flush=True)

    def __enter__(self) -> "Screen":
        if self.is_terminal:
            print(CLEAR + HIDE, end="", flush=True)
        return self

    def __exit__(self, *_: object) -> None:
        if self.is_terminal:
            print(SHOW, end="", flush=True)


def clock(seconds: float) -> str:
    return f"{int(seconds) // 60}:{int(seconds) % 60:02}"
