"""Edits that count by one goal.

An edit may name, in a line `open:`, a goal that it leaves open. What else is to be shown of its function says nothing of it: in the
edit's round no tactic is tried on the other goals, and those that have answers are answered by the one hole of all stubs, since each
hole would print its goal. Where the goal itself has
no answer, a check would go on to look for values that refute it, and for what it could offer; an answer that fails is only refused.
So it is answered twice, by each of the two tactics that the prover tries on a goal without an answer, and both have to fail. An edit
that does not count so is tried again with its function's answers as they stand.
"""

import re
from dataclasses import dataclass
from pathlib import Path

import edits
import twins
import verdicts

# What the prover tries on a goal without an answer, by the endings of the answers' names. Where a function names lemmas, it tries
# them too.
TACTICS = {"": "search usual_rules", "-by-grind": "grind (usual_arith, usual_steps)"}
BY_LEMMAS = "-by-lemmas"
# What is refused beside the answer of a control.
NOT_TRIED = "not-tried"

USES = """\
use Rattle.std.proofs.Common.{rules as usual_rules, arith as usual_arith}
use Rattle.std.proofs.lemmas.Grind.{common_steps as usual_steps}
"""
# The goals of the function, by the name that a file of answers has for them.
GOALS = re.compile(r"^use Rattle\.[\w.+]+\.Goals as (\w+)\n", re.M)
# An answer, up to what stands behind it.
ANSWER = re.compile(r"^pub (\S+) : (\w+\.\1)\n(?:unfolding [^\n]*\n)?\1\b.*?(?=^(?:pub |abbrev |unfoldable |use |mod |module |--|[^\s{}()\[\]|]+ : )|\Z)", re.M | re.S)
ATTRIBUTE = re.compile(r"^ *#\[tactic\([^\n]*\n", re.M)
# The lists of an attribute, and what stands in one.
LISTS = re.compile(r"\b(using|unfolding)\(([^)]*)\)")
PATH = re.compile(r"([\w:]+)::(\w+)")


@dataclass
class Answered:
    """The texts of a round for an edit that counts by one goal, and the tactics that answer that goal, by the endings of their names:
    none where it has an answer."""

    texts: dict
    tactics: dict


def file_of(function):
    """Where the answers of a function stand."""
    return str(Path("proofs", *function.split("::"), "Answers.antt"))


def with_one(text, kept, crate):
    """The text of a function's answers with the hole of the stubs in place of all but one."""
    made = ANSWER.sub(lambda it: it[0] if it[1] == kept else f"pub {it[1]} : {it[2]}\n{it[1]} = any\n\n", text)
    return text if made == text else f"use Rattle.{crate}.proofs.AnyProof.{{any}}\n{made}"


def named_in(attributes, word, crate):
    """The lemmas or definitions in an attribute's list of this word, by the names that they get in a file of answers, each with the
    line that imports it."""
    paths = [path for lists in LISTS.finditer(attributes) if lists[1] == word for path in PATH.finditer(lists[2])]
    modules = [re.sub(r"^crate\b", crate.name, path[1]).replace("::", ".") for path in paths]
    return {f"{word}_{n}": f"use Rattle.{module}.{{{path[2]} as {word}_{n}}}\n" for n, (module, path) in enumerate(zip(modules, paths))}


def tactics_of(lemmas):
    """The tactics that the prover tries on a goal of a function that names these lemmas."""
    return TACTICS | ({BY_LEMMAS: f"grind (usual_arith, {', '.join(lemmas)})"} if lemmas else {})


def with_tactics(text, goal, function, crate, attributes):
    """The text of a function's answers with those of the tactics to a goal, and these tactics."""
    known, uses = GOALS.search(text), USES
    if known is None:
        uses += f"use Rattle.{crate.name}.proofs.{function.replace('::', '.')}.Goals as goal\n"
    lemmas, opened = (named_in(attributes, word, crate) for word in ("using", "unfolding"))
    place, opening = f"{known[1] if known else 'goal'}.{goal}", f"unfolding {' '.join(opened)}\n" if opened else ""
    tactics = tactics_of(lemmas)
    parts = [f"\npub {goal}{ending} : {place}\n{opening}{goal}{ending} c = {body}\n" for ending, body in tactics.items()]
    return "".join([uses, *lemmas.values(), *opened.values(), text.rstrip("\n") + "\n", *parts]), tactics


def head_of(edit, function, text, crate):
    """The head of the function of this name in which an edit stands, in the text that its file has in the round."""
    source = edit.pairs[0].file
    first = (crate.folder / source).read_text(encoding="utf-8")
    *above, _ = (edits.function_at(source, first, first.find(edit.pairs[0].old)) or "").split("::")
    found = twins.head_of(source, text, "::".join([*above, function.split("::")[-1]]))
    return found and found[0]


def answered(edit, function, texts, crate):
    """The texts for an edit that stands in this function, so that it counts by its goal, or None where it can't."""
    file, source = file_of(function), edit.pairs[0].file
    stands = crate.folder / file
    text = texts.get(file) or (stands.read_text(encoding="utf-8") if stands.exists() else "")
    head = head_of(edit, function, texts[source], crate)
    if head is None or "::" in edit.open or stands.with_name("Proof.antt").exists():
        return None
    begin = twins.begin_of(texts[source], head)
    attributes = texts[source][begin : head.start()]
    has_answer = edit.open in {it[1] for it in ANSWER.finditer(text)}
    text, tactics = with_one(text, edit.open, crate.name), {}
    if not has_answer:
        text, tactics = with_tactics(text, edit.open, function, crate, attributes)
    none = ATTRIBUTE.sub("", attributes) + f"{head[1]}#[tactic(none)]\n"
    return Answered({file: text, source: texts[source][:begin] + none + texts[source][head.start() :]}, tactics)


def for_control(edit, function, texts, crate):
    """The texts for a control that has to show the goal of an edit. A declaration that is refused stands beside its answer: where a
    goal of a function has no answer and nothing of the function is refused, a check ends by looking for what it could offer."""
    made, file = answered(edit, function, texts, crate).texts, file_of(function)
    place = f"{GOALS.search(made[file])[1]}.{edit.open}"
    return made | {file: made[file].rstrip("\n") + f"\n\npub {NOT_TRIED} : {place}\n{NOT_TRIED} = tt\n"}


def of_closures(it, names):
    """Texts of answers for the closures of an edit's function, for the same reason: where no tactic is tried on the function's goals, none
    is tried on theirs."""
    (function,), last = it.functions, it.stands_in[0].split("::")[-1]
    inside = [name for name in names if name != function and "+" not in name and verdicts.is_own(function, name)]
    closures = [name.replace(f"::{function.split('::')[-1]}::", f"::{last}::", 1) for name in inside]
    return {file_of(name): f"pub {NOT_TRIED} : Type 0\n{NOT_TRIED} = tt\n" for name in closures}


def faults_of(answer, function):
    """What a check said against the answers of a function."""
    own = [it.text for it in answer.faults if it.file == file_of(function)]
    return [it for it in own if not it.startswith(f"`{NOT_TRIED}`: ")]


def are_refused(answer, goal, function, tactics):
    """Whether the answers to the goal were refused, by what a check said: those of the tactics, or the one that it has."""
    own = faults_of(answer, function)
    if tactics:
        # What a tactic says that found no proof, and one that gave up.
        wanted = [re.compile(rf"`{re.escape(goal + ending)}`: (?:`{body.split()[0]}`|give the call less to do)") for ending, body in tactics.items()]
        return answer.ended and all(any(begin.match(it) for it in own) for begin in wanted)
    return answer.ended and any(it.startswith(f"`{goal}`: ") and not verdicts.MISSING.search(it) for it in own)
