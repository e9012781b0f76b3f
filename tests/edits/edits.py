"""Must-fail edits: what they change, and in which function."""

import re
from dataclasses import dataclass, field
from pathlib import Path


class Misfit(Exception):
    """An edit that can't be applied to the text that stands there."""


@dataclass
class Pair:
    """One text of a file that gives way to another."""

    file: str
    old: str
    new: str


@dataclass
class Edit:
    """A change of a crate's code that the prover has to refuse.

    A file `*.edit` has lines `file: PATH`, `old: TEXT` and `new: TEXT`, and `fn: NAME` where the function that has to be
    refused can't be told from the place of the text, as for a constant. A line `callees: kept` says that the function's goals
    wait until all that it calls is proved. A line `open: NAME` names a goal of the function that the edit leaves open: it counts by
    that one. A line `impl: NAME` names an impl of the crate, or a function that a trait of it has for all impls, which its round checks
    beside it: where a check comes upon certain ones that it was not asked for, it reads all libraries a second time.
    """

    name: str
    pairs: list = field(default_factory=list)
    named: list = field(default_factory=list)
    impls: list = field(default_factory=list)
    keeps_callees: bool = False
    open: str = ""

    def applied(self, texts, folder):
        """The texts of the files that it changes, made of these or of those in the crate's folder."""
        made = dict(texts)
        for pair in self.pairs:
            if pair.file not in made:
                try:
                    made[pair.file] = (Path(folder) / pair.file).read_text(encoding="utf-8")
                except OSError as error:
                    raise Misfit(f"there is no file {pair.file}") from error
            found = made[pair.file].count(pair.old)
            if found != 1:
                raise Misfit(f"an 'old:' text stands in {pair.file} {found} times, and not once")
            made[pair.file] = made[pair.file].replace(pair.old, pair.new)
        return made


def read(path):
    """The edit of a file."""
    edit, file, old = Edit(path.stem), None, None
    for line in path.read_text(encoding="utf-8").split("\n"):
        if line.startswith("file: "):
            file = line.removeprefix("file: ").strip()
        elif line.startswith("fn: "):
            edit.named.append(line.removeprefix("fn: ").strip())
        elif line.startswith("impl: "):
            edit.impls.append(line.removeprefix("impl: ").strip())
        elif line.startswith("open: "):
            edit.open = line.removeprefix("open: ").strip()
        elif line.strip() == "callees: kept":
            edit.keeps_callees = True
        elif line.startswith("old: "):
            old = line.removeprefix("old: ")
        elif line.startswith("new:"):
            if file is None or old is None:
                raise Misfit("a 'new:' line stands before its 'file:' or 'old:' line")
            edit.pairs.append(Pair(file, old, line.removeprefix("new:").removeprefix(" ")))
            old = None
    if not edit.pairs:
        raise Misfit("it has no pair of lines 'old:' and 'new:'")
    return edit


HEAD = re.compile(r"^( *)(?:pub(?:\([^)]*\))? )?(?:const )?(?:unsafe )?fn (\w+)", re.M)
BLOCK = re.compile(r"^(?:pub(?:\([^)]*\))? )?(impl|trait)\b([^{;]*)\{", re.M)
CONSTANT = re.compile(r"^(?:pub(?:\([^)]*\))? )?const (\w+): .*?;$", re.M | re.S)


def module_of(file):
    """The path of the module that a file of src/ is, empty for the root."""
    path = file.removeprefix("src/").removesuffix(".rt")
    return "" if path in ("lib", "main") else path.replace("/", "::")


def without_generics(text):
    """A text without what stands between `<` and `>`."""
    kept, depth = [], 0
    for at, letter in enumerate(text):
        if letter == "<":
            depth += 1
        elif letter == ">" and text[at - 1 : at] not in ("-", "="):
            depth -= 1
        elif depth == 0:
            kept.append(letter)
    return "".join(kept)


def owner_of(kind, head):
    """The name that the prover has for an `impl` or a trait: the type, and behind it the trait."""
    bare = re.split(r"\bwhere\b", without_generics(head))[0].strip()
    if kind == "trait":
        return bare.partition(":")[0].strip()
    of_trait, divider, of_type = bare.partition(" for ")
    names = [of_type, of_trait] if divider else [bare]
    return "".join(re.findall(r"\w+", name)[-1] for name in names if re.search(r"\w", name))


def function_at(file, text, at):
    """The function whose body has this place, by its path in the crate, or None."""
    inside = None
    for head in HEAD.finditer(text, 0, at):
        end = re.compile(rf"^{head[1]}\}}", re.M).search(text, head.end())
        if end and end.start() >= at:
            inside = head
    if inside is None:
        return None
    owner = ""
    if inside[1]:
        for block in BLOCK.finditer(text, 0, inside.start()):
            owner = owner_of(block[1], block[2])
    return "::".join(name for name in (module_of(file), owner, inside[2]) if name)


def is_apart(edit, folder):
    """Whether it changes what stands in no function, so that others may fail for it: a constant that several use, or a struct."""
    for pair in edit.pairs:
        text = (Path(folder) / pair.file).read_text(encoding="utf-8")
        at = text.find(pair.old)
        if not pair.old.startswith("use ") and function_at(pair.file, text, at) is None and users_of(constant_at(text, at), folder) != edit.named:
            return True
    return False


def constant_at(text, at):
    """The name of the constant whose item has this place, or None."""
    found = [it for it in CONSTANT.finditer(text) if it.start() <= at < it.end()]
    return found[0][1] if found else None


def users_of(constant, folder):
    """The functions that name a constant, or None where it is named elsewhere too."""
    found = set()
    for path in sorted(Path(folder).glob("src/**/*.rt")):
        file, text = str(path.relative_to(folder)), path.read_text(encoding="utf-8")
        for it in re.finditer(rf"\b{constant}\b", text):
            if constant_at(text, it.start()) != constant:
                found.add(function_at(file, text, it.start()))
    return None if None in found else sorted(found)


def in_full(name, names):
    """What the prover calls a function: behind the name of its `impl` stand the types at which that is one, and an `impl` in
    another file than its type's is called by the type's."""
    *above, last = name.split("::")
    if name in names or not above:
        return name
    for owner in (re.escape("::".join(above)), rf"(?:.*::)?{re.escape(above[-1])}"):
        longer = re.compile(rf"{owner}[^:]*::{re.escape(last)}")
        found = [it for it in names if longer.fullmatch(it)]
        if len(found) == 1:
            return found[0]
    return name


def touched_by(edit, folder, names):
    """The functions whose texts it changes, as the prover calls them."""
    found = set()
    for pair in edit.pairs:
        text = (Path(folder) / pair.file).read_text(encoding="utf-8")
        found.add(in_full(function_at(pair.file, text, text.find(pair.old)) or "", names))
    return found & {*names}


def functions_of(edit, folder, names):
    """The functions that have to be refused, as the prover calls them, of whose names these are all."""
    found = list(edit.named)
    if not found:
        for pair in edit.pairs:
            text = (Path(folder) / pair.file).read_text(encoding="utf-8")
            name = function_at(pair.file, text, text.find(pair.old))
            if name and name not in found:
                found.append(name)
    if len(found) != 1 and not edit.named:
        raise Misfit(f"it changes the text of {len(found)} functions: name the one that has to be refused in a line 'fn:'")
    found = [in_full(name, names) for name in found]
    unknown = [name for name in found if name not in names]
    if unknown:
        raise Misfit(f"the crate has no function {unknown[0]}: name it in a line 'fn:'")
    return found
