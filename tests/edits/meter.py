"""What the checks and builds of each crate take of a processor, read from /proc while they run: `rt ci` does not say it."""

import os
import threading
from pathlib import Path

# Seconds between two looks: so much of each process may be missed.
PAUSE = 2
TICKS = os.sysconf("SC_CLK_TCK")


class Meter(threading.Thread):
    """Looks at the processes of the kit's checker that work in a folder, until it is ended."""

    def __init__(self, folder):
        super().__init__(daemon=True)
        self.folder, self.found, self.is_over = Path(folder).resolve(), {}, threading.Event()

    def run(self):
        while not self.is_over.wait(PAUSE):
            for number in filter(str.isdigit, os.listdir("/proc")):
                try:
                    self.look(number)
                except OSError:
                    pass  # it has ended

    def look(self, number):
        """Notes for which crate the process of this number works, and what it has taken so far."""
        with open(f"/proc/{number}/cmdline", "rb") as file:
            words = file.read().split(b"\0")
        if b"--crate-name" in words and self.folder in Path(os.readlink(f"/proc/{number}/cwd")).parents:
            with open(f"/proc/{number}/stat", encoding="ascii", errors="replace") as file:
                said = file.read().rpartition(") ")[2].split()
            name, began = words[words.index(b"--crate-name") + 1].decode(), said[19]
            self.found[number, began] = name, (int(said[11]) + int(said[12])) / TICKS

    def end(self):
        """Ends the looks, and gives the seconds of each crate, the dearest first."""
        self.is_over.set()
        self.join()
        seconds = {}
        for name, took in self.found.values():
            seconds[name] = seconds.get(name, 0) + took
        return sorted(seconds.items(), key=lambda it: -it[1])
