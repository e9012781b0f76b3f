"""Copies: edits of definitions are tried together, each in copies of the files that stand on what it changes.

The law that has to be refused gets a twin, and each file of specs/ and proofs/ that the twin needs and that stands on the edited
definition is copied beside the first, at a name of its own. So an edit changes nothing for the others, and what its law needs of
files that do not stand on it is checked once for all. Beside the copies with an edit stand copies without one, the control.
"""

import functools
import re
from dataclasses import dataclass
from pathlib import Path

import twins

GHOST_USE = r"^ghost use Rattle\.{crate}\.(specs(?:\.\w+)+)\.\{{([^}}]*)\}};\n"


@dataclass
class Copy:
    """The twin of a law: what the prover calls it, the texts that come with it, and the files that are its own."""

    name: str
    texts: dict
    own: set


def modules_of(folder):
    """The files of specs/ and proofs/ by the names of their modules."""
    found = {}
    for part in ("specs", "proofs"):
        for file in sorted(Path(folder, part).glob("**/*.antt")):
            inside = file.relative_to(folder).with_suffix("")
            found[".".join(inside.parts)] = str(inside) + ".antt"
    return found


def named_in(text, crate, modules):
    """The modules of the crate that a text names."""
    found = set()
    for path in re.findall(rf"\bRattle\.{crate}\.((?:specs|proofs)(?:\.[\w+]+)+)", text):
        words = path.split(".")
        found.update(".".join(words[:at]) for at in range(2, len(words) + 1))
    return found & modules.keys()


class Standing:
    """Which files of a crate stand on which."""

    def __init__(self, name, folder):
        self.modules = modules_of(folder)
        self.texts = {it: (folder / file).read_text(encoding="utf-8") for it, file in self.modules.items()}
        self.below = {it: named_in(text, name, self.modules) for it, text in self.texts.items()}

    def reached(self, names):
        """These modules and all that they stand on."""
        found, left = set(), [*names]
        while left:
            name = left.pop()
            if name not in found:
                found.add(name)
                left += self.below[name]
        return found

    def between(self, tops, bottoms):
        """Of what these modules stand on, what stands on one of those."""
        return {name for name in self.reached(tops) if self.reached([name]) & bottoms}


@functools.cache
def standing_of(name, folder):
    """Which files of the crate in this folder stand on which: they are read once."""
    return Standing(name, folder)


def renamed(text, crate, changed):
    """A text that names the copies of modules in place of these."""
    for name, copy in changed.items():
        text = re.sub(rf"\bRattle\.{crate}\.{re.escape(name)}(?!\w)", f"Rattle.{crate}.{copy}", text)
    return text


def declared(texts, folder, name, copy):
    """The root file of specs/ or proofs/ with a line for the copy below that of the module, or None where it has no such line."""
    part, last = name.split(".")
    root = f"{part}/Lib.antt"
    text = texts.get(root) or (folder / root).read_text(encoding="utf-8")
    line = re.search(rf"^((?:pub )?mod ){last}\n", text, re.M)
    if line is None:
        return None
    return {root: text[: line.end()] + f"{line[1]}{copy.split('.')[1]}\n" + text[line.end() :]}


def law_of(function, crate):
    """The file of a law, its text, and the law in it, or None where no free function has that path."""
    *above, last = function.split("::")
    file = "src/" + ("/".join(above) or "lib") + ".rt"
    if not (crate.folder / file).exists():
        return None
    text = (crate.folder / file).read_text(encoding="utf-8")
    found = re.search(rf"^(?:pub(?:\([^)]*\))? )?fn {last}\b.*?^(?:\{{\}}|\}})\n", text, re.M | re.S)
    return found and (file, text, found[0])


def with_law(text, law, function, ending, imports, crate, changed):
    """The text of a law's file with a twin of the law, whose clauses name copies."""
    twin, lines = law, []
    for module, name, known in imports:
        if module in changed and re.search(rf"\b{re.escape(known)}\b", law):
            lines.append(f"ghost use Rattle.{crate}.{changed[module]}.{{{name} as {known}_{ending}}};\n")
            twin = re.sub(rf"\b{re.escape(known)}\b", f"{known}_{ending}", twin)
    last = function.split("::")[-1]
    twin = re.sub(rf"\bfn {last}\b", f"fn {last}_{ending}", twin, count=1)
    place = text.index("ghost use ")
    return text[:place] + "".join(lines) + text[place:].replace(law, law + "\n" + twin, 1)


def imports_of(text, crate):
    """What a file's clauses may name of the crate's definitions: the module, the name there, the name here."""
    found = []
    for module, names in re.findall(GHOST_USE.format(crate=crate), text, re.M):
        for it in names.split(","):
            name, _, known = it.strip().partition(" as ")
            found.append((module, name, known or name))
    return found


def copied(edit, pairs, function, ending, texts, crate):
    """Copies for the edit's law with these pairs applied, beside texts that other edits made, or None where there can be none."""
    found = law_of(function, crate)
    standing = standing_of(crate.name, crate.folder)
    edited = {name for name, file in standing.modules.items() if file in {pair.file for pair in edit.pairs}}
    if found is None or not edited:
        return None
    file, text, law = found
    imports = imports_of(text, crate.name)
    used = {module for module, _, known in imports if re.search(rf"\b{re.escape(known)}\b", law)}
    name = f"{function}_{ending}"
    proofs = twins.proofs_of(crate.folder, crate.name, function, name)
    tops = used.union(*(named_in(it, crate.name, standing.modules) for it in proofs.values())) & standing.modules.keys()
    affected = standing.between(tops, edited)
    if not edited <= affected or any(it.count(".") != 1 for it in affected):
        return None
    changed = {it: it + "".join(word.capitalize() for word in ending.split("_")) for it in affected}
    made = {}
    for module, copy in changed.items():
        body = twins.changed(standing.texts[module], [pair for pair in pairs if pair.file == standing.modules[module]])
        root = declared(texts | made, crate.folder, module, copy)
        if body is None or root is None:
            return None
        made |= root
        made[copy.replace(".", "/") + ".antt"] = renamed(body, crate.name, changed)
    made |= {place: renamed(body, crate.name, changed) for place, body in proofs.items()}
    own = {*made} - {"specs/Lib.antt", "proofs/Lib.antt"}
    made[file] = with_law(texts.get(file, text), law, function, ending, imports, crate.name, changed)
    return Copy(name, made, own)
