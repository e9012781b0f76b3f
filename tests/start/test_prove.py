"""`build/prove`: its line of progress, Ctrl-C and going on, and what it says of a crate that is refused."""

import importlib.machinery
import importlib.util
import os
import pty
import re
import signal
import subprocess
import sys
import tempfile
import unittest
import uuid
from pathlib import Path

ROOT = Path(__file__).resolve().parents[2]
PROVE = ROOT / "build/prove"

# Seconds for the proofs of a crate of a few lines, on a busy machine too.
LIMIT = 600


def module():
    """`build/prove` as a module."""
    loader = importlib.machinery.SourceFileLoader("prove", str(PROVE))
    made = importlib.util.module_from_spec(importlib.util.spec_from_loader("prove", loader))
    sys.modules["prove"] = made
    loader.exec_module(made)
    return made


PARTS = module()


class Crates(unittest.TestCase):
    def test_needed(self):
        """The program needs no crate of the laws alone or of tests."""
        needed = PARTS.needed_by("cluster_proxy", PARTS.crates_of(ROOT))
        self.assertIn("world_laws", needed)
        for name in needed:
            self.assertTrue(set(needed[name].uses) <= set(needed), name)
        self.assertFalse(set(needed) & {"shared_laws", "turn_laws", "turn_play", "layer_rows", "layer_tests"})

    def test_chains(self):
        """A crate's chain is longer than that of each crate above it."""
        crates = PARTS.needed_by("cluster_proxy", PARTS.crates_of(ROOT))
        chains = PARTS.chains_of(crates)
        for name, crate in crates.items():
            for below in crate.uses:
                self.assertGreater(chains[below], chains[name], f"{below} below {name}")


class Line(unittest.TestCase):
    def setUp(self):
        crate = PARTS.Crate
        crates = {"low": crate("low:", [], 10), "side": crate("side:", [], 50), "middle": crate("middle: low", ["low"], 100)}
        self.progress = PARTS.Progress(crates, rewrites=False)
        self.progress.show = lambda: None

    def test_counts(self):
        """Functions and crates as `rt ci` says them, and the next crate by its chain."""
        self.assertEqual(self.progress.text(), "proved 0 of 3 crates, 0 functions, 0 s; next: low")
        self.progress.functions = 1202
        for line in ["== low", "struct low::A: proved", "fn low::one: proved", "fn low::two: proved", "rt: low proved"]:
            self.progress.heard(line)
        self.progress.began -= 380
        self.assertEqual(self.progress.text(), "proved 1 of 3 crates, 1,204 functions, 6 min; next: middle")

    def test_kept(self):
        for line in ["rt: low is kept: an earlier run on this machine proved the same", "rt: side is kept: an earlier run", "rt: middle is kept: an"]:
            self.progress.heard(line)
        self.assertEqual(self.progress.text(), "proved 3 of 3 crates (3 of them earlier), 0 functions, 0 s")


LOW = """#![tactic(auto)]

ghost use Rattle.std.specs.Prelude.{{◌≡◌}};

pub fn number() -> usize
    ensures {{ result ≡ {number} }}
{{
    {number}
}}

pub fn same(x: usize) -> usize
    ensures {{ result ≡ x }}
{{
    x
}}
"""
MIDDLE = """#![tactic(auto)]

ghost use Rattle.std.specs.Prelude.{{◌≡◌}};

pub fn low_number() -> usize
    ensures {{ result ≡ {number} }}
{{
    low::number()
}}
"""


class Repository(unittest.TestCase):
    """A repository of its own. No other run has proved its crates, for the number in them."""

    def setUp(self):
        room = tempfile.TemporaryDirectory(prefix="start-")
        self.addCleanup(room.cleanup)
        self.root, self.temporary = Path(room.name) / "repository", Path(room.name) / "temporary"
        # (rt runs programs as nobody)
        Path(room.name).chmod(0o711)
        self.temporary.mkdir(mode=0o711)
        self.number = uuid.uuid4().int % (1 << 60)
        for name in ("low", "middle", "unused"):
            (self.root / "crates" / name / "src").mkdir(parents=True)
        (self.root / "crates.txt").write_text("# three crates\nmiddle: low\nlow:\nunused: low\n", encoding="ascii")
        self.write("low", LOW.format(number=self.number))
        self.write("unused", "no text that could be proved")

    def write(self, name, text):
        (self.root / f"crates/{name}/src/lib.rt").write_text(text, encoding="utf-8")

    def start(self, output):
        """Starts it, with Ctrl-C taken also where these tests run in the background."""
        how = {"stdin": subprocess.DEVNULL, "stdout": output, "stderr": output, "text": True}
        heeds = lambda: signal.signal(signal.SIGINT, signal.SIG_DFL)
        return subprocess.Popen([PROVE, "middle"], cwd=self.root, env={**os.environ, "TMPDIR": str(self.temporary)}, preexec_fn=heeds, **how)

    def check_left(self):
        """No process works in the copy, and the copy is gone."""
        self.assertEqual(list(self.temporary.iterdir()), [])
        for number in filter(str.isdigit, os.listdir("/proc")):
            try:
                self.assertNotIn(str(self.temporary), os.readlink(f"/proc/{number}/cwd"))
            except OSError:
                pass  # it has ended

    def interrupted(self):
        """Ctrl-C once the first crate is proved: it ends at once, and says so."""
        self.write("middle", MIDDLE.format(number=self.number + 1))
        with self.start(subprocess.PIPE) as started:
            lines = []
            for line in started.stdout:
                lines.append(line)
                if line.startswith("proved 1 of 2"):
                    started.send_signal(signal.SIGINT)
            self.assertEqual(started.wait(LIMIT), 130)
        first, second = r"proved 0 of 2 crates, 0 functions, \d s; next: low", r"proved 1 of 2 crates, 2 functions, [^;\n]*; next: middle"
        self.assertRegex("".join(lines), rf"\A{first}\n{second}\nended: [^\n]*\n\Z")
        self.check_left()

    def refused(self):
        """The first crate is not proved again. The other is refused, and what its check said is shown."""
        with self.start(subprocess.PIPE) as started:
            said = started.stdout.read()
            self.assertEqual(started.wait(LIMIT), 1)
        self.assertIn("proved 1 of 2 crates (1 of them earlier), 0 functions", said)
        self.assertRegex(said, "fn middle::low_number: no(t proved| proof)")
        self.check_left()

    def gone_on(self):
        """Once it is mended all is proved. On a terminal the line is written over."""
        self.write("middle", MIDDLE.format(number=self.number))
        terminal, other = pty.openpty()
        with self.start(other) as started:
            os.close(other)
            said = ""
            try:
                while piece := os.read(terminal, 4096):
                    said += piece.decode()
            except OSError:
                pass  # the other side is closed
            self.assertEqual(started.wait(LIMIT), 0, said)
        os.close(terminal)
        self.assertEqual(said.count("\n"), 1, said)
        shown = [re.sub(r"\x1b\[K|\r?\n", "", it) for it in said.split("\r") if it.strip()]
        self.assertRegex(shown[-1], r"^proved 2 of 2 crates \(1 of them earlier\), 1 functions, [^;]*$")
        self.check_left()

    def test_crates(self):
        """One after another: each begins with what the one before kept."""
        self.interrupted()
        self.refused()
        self.gone_on()
