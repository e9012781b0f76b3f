"""Stubs: in a round the functions that no edit touches stand with their contracts alone.

`rt ci` proves each of them. A check of an edited function asks for the contracts of those that it calls, and would prove these
once more, with all that they call. So each has a loop without an end for a body and a hole for a proof: the check takes the
contract as it stands, and tries the goals of the edited function, which are those that they would be. A cycle of calls is one by
one proof of all its functions: they are stubs where no edit touches any of them, and then no cycle.
"""

import re
from dataclasses import dataclass, field
from pathlib import Path

import edits
import twins

# What is given back by a name for some type has to come from a body.
OPAQUE = re.compile(r"\) -> [^{]*\bimpl\b")

# The attribute of a function in a cycle of calls.
CYCLE = re.compile(r"^ *#\[cycle\((\w+)\)\]\n", re.M)

# A hole prints its goal, so there is one for all stubs.
NODE, ANY, HOLE = "proofs/Lib.antt", "proofs/AnyProof.antt", "pub any {ℓ} : {A : Type ℓ} → A\nany = ?\n"
PROOF = """\
use Rattle.{crate}.proofs.{module}.Statement.{{statement}}
use Rattle.{crate}.proofs.AnyProof.{{any}}

pub {name}_spec : {{M : Type 1}} → statement M
{name}_spec = any
"""


@dataclass
class Stubs:
    """The texts of a round with their stubs, and the folders of proofs that go with the bodies."""

    texts: dict
    removed: list = field(default_factory=list)


@dataclass
class Function:
    """A function that can be a stub: what the prover calls it, the cycle of calls that it is in if it is in one, and where its attributes
    and its body begin and where this ends."""

    name: str
    cycle: str | None
    begin: int
    body: int
    end: int


def body_of(text, head):
    """Where the body of a function begins and ends, or None where it is written in one line or has to stay."""
    end = re.compile(rf"^{head[1]}(?! )([^\n]*)\}}\n", re.M).search(text, head.start())
    if end is None or end[1] or "const " in head[0]:
        return None
    begin = re.compile(rf"^{head[1]}\{{\n", re.M).search(text, head.end(), end.start())
    begin = begin or re.compile(r" \{\n").search(text, head.end(), end.start())
    if begin is None or OPAQUE.search(text, head.end(), begin.start()):
        return None
    return begin.end(), end.start()


def functions_in(file, text, names):
    """The functions of a file that can be stubs, of which `names` has the prover's names."""
    found = []
    for head in edits.HEAD.finditer(text):
        body = body_of(text, head)
        if body is None or found and body[0] < found[-1].end:
            continue
        name = edits.in_full(edits.function_at(file, text, head.end()) or "", names)
        if name in names:
            begin = twins.begin_of(text, head)
            cycle = CYCLE.search(text, begin, head.start())
            found.append(Function(name, cycle and cycle[1], begin, *body))
    return found


def stubs_in(file, text, names, kept):
    """The text of a file with stubs in place of all functions but those kept and those in a cycle of calls with one that is kept, and
    the functions that are stubs now."""
    functions = functions_in(file, text, names)
    kept_cycles = {it.cycle for it in functions if it.name in kept and it.cycle}
    found = [it for it in functions if it.name not in kept and it.cycle not in kept_cycles]
    parts, last = [], 0
    for it in found:
        indent = text[it.end : text.index("}", it.end)]
        parts += [text[last : it.begin], CYCLE.sub("", text[it.begin : it.body]), f"{indent}    loop {{}}\n"]
        last = it.end
    return "".join([*parts, text[last:]]), found


def stubbed(texts, crate, names, kept):
    """The crate with these texts and stubs in place of all functions but those kept, of which `names` has the prover's names."""
    made, node = Stubs(dict(texts)), crate.folder / NODE
    above = texts.get(NODE) or (node.read_text(encoding="utf-8") if node.exists() else "")
    made.texts |= {NODE: f"{above.rstrip()}\npub mod AnyProof\n".lstrip(), ANY: HOLE}
    for path in sorted(crate.folder.glob("src/**/*.rt")):
        file = str(path.relative_to(crate.folder))
        text = texts.get(file) or path.read_text(encoding="utf-8")
        made.texts[file], found = stubs_in(file, text, names, kept)
        for it in found:
            *above, last = it.name.split("::")
            made.removed += twins.places_of(it.name)
            if it.cycle:
                made.removed.append(Path("proofs", *filter(None, edits.module_of(file).split("::")), f"+{it.cycle}"))
            made.texts[str(Path("proofs", *above, last, "Proof.antt"))] = PROOF.format(crate=crate.name, module=".".join([*above, last]), name=last)
    return made
