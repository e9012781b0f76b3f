"""Twins: an edit of a function that another edit of the round changes is tried in a copy of that function beside it.

The twin has the function's contract and its proof, at a name of its own. Only a free function or a method of a plain `impl`
has one, and only where the edit changes nothing else. Beside the twins of a function stands one with no edit, the control: a
refusal of a twin counts only where the control's own goals are all closed.
"""

import re
from dataclasses import dataclass
from pathlib import Path

import edits


@dataclass
class Twin:
    """A function's twin: what the prover calls it, and the texts of the files that it changes or adds."""

    name: str
    texts: dict


def begin_of(text, head):
    """Where the function of this head begins, its attributes and comments taken with it."""
    start = head.start()
    while above := re.search(r"^ *(?:#\[[^\n]*\]|//[^\n]*)\n\Z", text[:start], re.M):
        start = above.start()
    return start


def is_plain(text, head):
    """Whether the function is free or a method of a plain `impl`, and in no cycle of calls."""
    if "#[cycle" in text[begin_of(text, head) : head.start()]:
        return False
    block = None
    for it in edits.BLOCK.finditer(text, 0, head.start()):
        block = it
    return not head[1] or (block is not None and block[1] == "impl" and " for " not in edits.without_generics(block[2]))


def head_of(file, text, function):
    """The head of the function of that path in a file's text, and where its body ends, or None where not one has it."""
    found = []
    for head in edits.HEAD.finditer(text):
        end = re.compile(rf"^{head[1]}\}}\n", re.M).search(text, head.end())
        if end and edits.function_at(file, text, head.end()) == function:
            found.append((head, end.end()))
    return found[0] if len(found) == 1 else None


def changed(text, pairs):
    """The text with each pair applied, or None where one does not stand in it once."""
    for pair in pairs:
        if text.count(pair.old) != 1:
            return None
        text = text.replace(pair.old, pair.new)
    return text


def places_of(function):
    """The folders of a function's proof and of those of its closures."""
    words = function.split("::")
    return [Path("proofs", *it) for it in (words, *([*words[:at], "fn", *words[at:]] for at in range(len(words))))]


def proofs_of(folder, crate, function, twin):
    """Copies of the files of a function's proof and of those of its closures, for its twin."""
    made, last = {}, twin.split("::")[-1]
    for place in places_of(function):
        inside, to = place.parts[1:], place.parent / last
        for file in sorted((Path(folder) / place).glob("**/*.antt")):
            text, old = file.read_text(encoding="utf-8"), re.escape(".".join(inside))
            new = ".".join([*inside[:-1], last])
            text = re.sub(rf"(?<=Rattle\.{crate}\.proofs\.){old}(?=\.)", new, text)
            made[str(to / file.relative_to(Path(folder) / place))] = text
    return made


def cycles_of(function):
    """Where the proof of a cycle of calls that has this function's name may stand."""
    *above, last = function.split("::")
    return [Path("proofs", *above, f"+{last}")]


def copied(edit, pairs, function, ending, texts, crate):
    """A copy of the edit's function with these pairs applied, beside texts that other edits made, or None where there can be none."""
    files = {pair.file for pair in edit.pairs}
    if len(files) != 1 or edit.named or any((crate.folder / it).is_dir() for it in cycles_of(function)):
        return None
    (file,) = files
    first = (crate.folder / file).read_text(encoding="utf-8")
    path = edits.function_at(file, first, first.find(edit.pairs[0].old))
    now = texts.get(file, first)
    whole, beside = head_of(file, first, path), head_of(file, now, path)
    if whole is None or beside is None or not is_plain(first, whole[0]):
        return None
    head, end = whole
    text = changed(first[begin_of(first, head) : end], pairs)
    if text is None:
        return None
    name = f"{function}_{ending}"
    text = re.sub(rf"\bfn {head[2]}\b", f"fn {head[2]}_{ending}", text, count=1)
    made = {file: now[: beside[1]] + "\n" + text + now[beside[1] :]}
    return Twin(name, made | proofs_of(crate.folder, crate.name, function, name))


def twin_of(edit, function, texts, crate, number):
    """The twin of a function with this edit, or None where it can have none."""
    return copied(edit, edit.pairs, function, f"twin_{number}", texts, crate)


def control_of(edit, function, texts, crate, number):
    """A control beside the twins of the edit's function."""
    return copied(edit, [], function, f"control_{number}", texts, crate)
