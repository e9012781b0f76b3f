"""Runs of a program in which growths of its memory are refused: an allocator in C (growths.c) is loaded before its C library."""

import mmap
import os
import shutil
import struct
import subprocess
import tempfile
from pathlib import Path

SOURCE = Path(__file__).resolve().with_name("growths.c")


def compiler():
    """A C compiler, or None."""
    return next(filter(None, map(shutil.which, [os.environ.get("CC", "cc"), "cc", "gcc", "clang"])), None)


# More growths than there are.
ALL = 1 << 62


class Growths:
    """The allocator, and which growths of a run it refuses. It needs a compiler."""

    def __init__(self):
        self.folder = tempfile.TemporaryDirectory()
        library = os.path.join(self.folder.name, "growths.so")
        shared = os.path.join(self.folder.name, "growths")
        subprocess.run([compiler(), "-std=gnu11", "-O2", "-shared", "-fPIC", "-o", library, SOURCE], check=True)
        with open(shared, "w+b") as file:
            file.write(bytes(24))
            file.flush()
            self.shared = mmap.mmap(file.fileno(), 24)
        self.variables = {"LD_PRELOAD": library, "GROWTHS": shared}

    def refuse(self, number, onwards=False):
        """Of the growths from now on this one is refused, counted from 1, and all behind it where that is said; none for 0."""
        struct.pack_into("QQQ", self.shared, 0, 0, number, ALL if onwards else number)

    @property
    def count(self):
        """How many growths there were since."""
        return struct.unpack_from("Q", self.shared)[0]

    def close(self):
        self.shared.close()
        self.folder.cleanup()
