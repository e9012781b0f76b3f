"""Checks of a crate over the libraries that the gate has proved."""

import os
import shutil
import subprocess
import tempfile
from dataclasses import dataclass
from pathlib import Path

PARTS = ("src", "specs", "proofs")


def kit():
    """The folder of the kit."""
    page = subprocess.run(["rt", "doc"], capture_output=True, text=True, check=True).stdout.strip()
    return Path(page).parent


@dataclass
class Crate:
    """A crate of the tree, and what it stands on."""

    name: str
    folder: Path
    below: list
    of_kit: list

    @property
    def root(self):
        """The root file of its source."""
        return "src/main.rt" if (self.folder / "src/main.rt").exists() else "src/lib.rt"

    @property
    def library(self):
        """Where rt puts its library."""
        return self.folder / "out/rlib" / f"{self.name}.rlib"


def crates_of(tree):
    """The crates that crates.txt names, by name."""
    uses = {}
    for line in (Path(tree) / "crates.txt").read_text(encoding="utf-8").splitlines():
        head, colon, names = line.partition("#")[0].partition(":")
        if colon:
            uses[head.split()[0]] = names.split()
    return {
        name: Crate(name, Path(tree) / "crates" / name, [it for it in names if it in uses], [it for it in names if it not in uses])
        for name, names in uses.items()
    }


def all_below(crate, crates):
    """The crates that this one stands on, directly or through others."""
    found = {}
    for name in crate.below:
        found[name] = crates[name]
        found.update(all_below(crates[name], crates))
    return found


def words_of(crate, crates, where):
    """The words of a check of the crate."""
    words = [f"{where}/bin/rattle", "check", "--crate-name", crate.name, crate.root]
    for name in ["std", *crate.of_kit]:
        words += ["--extern", f"{name}={where}/rlibs/{name}.rlib"]
    words += ["-L", f"dependency={where}/rlibs"]
    for name in crate.below:
        words += ["--extern", f"{name}={crates[name].library}"]
    for it in all_below(crate, crates).values():
        words += ["-L", f"dependency={it.library.parent}"]
    return [*words, "--antt-project", f"{where}/rattle/logic/antt-project.json", "--logic-built", f"{where}/logic_built", "--jobs", "1"]


def copy_of(crate, texts, room, removed=()):
    """Puts a copy of the crate's source, without what is removed and with these texts in place of its own, into a folder."""
    for part in PARTS:
        if (crate.folder / part).is_dir():
            subprocess.run(["cp", "-R", crate.folder / part, room], check=True)
    for place in removed:
        shutil.rmtree(Path(room) / place, ignore_errors=True)
    for file, text in texts.items():
        (Path(room) / file).parent.mkdir(parents=True, exist_ok=True)
        (Path(room) / file).write_text(text, encoding="utf-8")


def check(crate, crates, where, changed, functions, kept=None):
    """What a check of these functions says of the crate with these texts, and the seconds of a processor that it took. What it
    keeps for later checks of the crate goes into the folder `kept`."""
    with tempfile.TemporaryDirectory(prefix="edits-") as room:
        copy_of(crate, changed.texts, room, changed.removed)
        words = ["nice", "-n", "10", *words_of(crate, crates, where)]
        words += ["--incremental", kept] if kept else []
        words += ["--allow-holes"] * bool(changed.removed)
        for name in functions:
            words += ["--only", name]
        with tempfile.TemporaryFile("w+", errors="replace") as said:
            started = subprocess.Popen(words, cwd=room, stdin=subprocess.DEVNULL, stdout=said, stderr=subprocess.STDOUT)
            _, status, used = os.wait4(started.pid, 0)
            started.returncode = os.waitstatus_to_exitcode(status)
            said.seek(0)
            return said.read(), used.ru_utime + used.ru_stime
