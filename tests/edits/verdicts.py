"""What a check says of a function: proved, or why not."""

import re
from dataclasses import dataclass, field
from enum import Enum


class Verdict(Enum):
    """What came of one function."""

    REFUSED = "refused"
    PROVED = "NOT REFUSED: it is still proved"
    CALLEE = "NOT COUNTED: it is refused only because a function that it calls is not proved"
    NAMES = "NOT COUNTED: it is refused only because a proof names what the edit took away"
    UNREAD = "BAD EDIT: the edited text does not compile"
    OTHER = "NOT COUNTED: it is refused, but by no open goal of its own"


@dataclass
class Fault:
    """An error of the check: where, and what is said."""

    file: str
    text: str


# What is said where a proof names something that is no more.
MISSING = re.compile(r"has no field|is not in scope|has no `|is no name|no constructor|is not exported|cannot be imported")
# What is said of what rests on something that was refused.
RESTS = re.compile(r"depends? on `([^`]+)`, which was (?:rejected|not admitted)[^:]*: (.*)", re.S)
STANDS_ON = re.compile(r"stands on `Rattle\.\w+\.([^`]+)\.([^`.]+)`, which antt refuses")
LEFT_OUT = re.compile(r" and \d+ more\b")
OPEN = re.compile(r"`search` did not prove ((?:`[^`]+`(?:, )?)+)")
CALLS = re.compile(r"it calls (.*?), which (?:is|are) not proved")


@dataclass
class Answer:
    """What a check said: a line a function, its errors, and whether it came to its end."""

    functions: dict = field(default_factory=dict)
    faults: list = field(default_factory=list)
    ended: bool = False
    text: str = ""


def read(crate, text):
    """The answer that a check of the crate printed."""
    answer, fault = Answer(text=text), None
    for line in text.split("\n"):
        at = re.match(r"(?:\./)?(\S+?):\d+:\d+: error(?:\[[\w-]+\])?: (.*)", line)
        told = re.match(rf"fn {crate}::(\S+): (.*)", line)
        if at:
            fault = Fault(at[1], at[2])
            answer.faults.append(fault)
        elif fault and line.startswith("  "):
            fault.text += "\n" + line
        else:
            fault = None
        if told:
            answer.functions[told[1]] = told[2]
        answer.ended |= re.match(r"only=\d+ (?:proved|holes)=\d+", line) is not None
    return answer


def within(answer, files):
    """The answer with the errors of these files alone."""
    return Answer(answer.functions, [it for it in answer.faults if it.file in files], answer.ended, answer.text)


def folders_of(function):
    """Where the proof of a function may stand, also one of a cycle of calls."""
    *above, last = function.split("::")
    return ["/".join(["proofs", *above, it]) + "/" for it in (last, f"+{last}")]


def is_own(function, name):
    """Whether the name is that of the function, or of a closure in it."""
    if name == function:
        return True
    words = function.split("::")
    inside = ["::".join([*words[:at], "fn", *words[at:]]) + "::" for at in range(len(words))]
    return any(name.startswith(it) for it in inside)


def is_left_out(answer):
    """Whether a lemma that the check did not name may rest on what was refused: it cuts long lists short."""
    causes = [it for it in answer.faults if not RESTS.search(it.text)]
    cut = any(RESTS.search(it.text) and LEFT_OUT.search(it.text) for it in answer.faults)
    return cut and bool(causes) and not any(MISSING.search(it.text) for it in causes)


def is_refused_itself(answer, file, name):
    """Whether the declaration of this name in this file was refused, and not for a name that is missing."""
    return any(it.file == file and it.text.startswith(f"`{name}`:") and not MISSING.search(it.text) for it in answer.faults)


def lemma_refused(answer, name, seen):
    """Whether a lemma was refused by itself, or what it rests on was."""
    if name in seen:
        return False
    seen.add(name)
    is_named = False
    for fault in answer.faults:
        rests = RESTS.search(fault.text)
        if rests and name in re.findall(r"[^\s,]+", rests[2]):
            is_named = True
            if lemma_refused(answer, rests[1], seen):
                return True
        elif fault.text.startswith(f"`{name}`:"):
            is_named = True
            if not MISSING.search(fault.text):
                return True
    return not is_named and is_left_out(answer)


def verdict_of(answer, function):
    """What came of the function, and in which words."""
    line = answer.functions.get(function)
    if not answer.ended or line is None:
        first = next((f"{it.file}: {it.text}" for it in answer.faults), answer.text.strip()[-300:])
        return Verdict.UNREAD, first
    for name, told in answer.functions.items():
        goals = OPEN.search(told)
        if is_own(function, name) and goals:
            return Verdict.REFUSED, goals[1].rstrip(", ")
    if line.startswith(("proved", "no holes", "depends on a hole")):
        return Verdict.PROVED, line
    own = [it for it in answer.faults if it.file.startswith(tuple(folders_of(function)))]
    for fault in own:
        rests = RESTS.search(fault.text)
        if rests and lemma_refused(answer, rests[1], set()):
            return Verdict.REFUSED, f"`{rests[1]}`, which its proof cites"
        if not rests and not MISSING.search(fault.text):
            return Verdict.REFUSED, fault.text.partition(":")[0]
    stands = STANDS_ON.search(line)
    if stands and is_refused_itself(answer, f"{stands[1].replace('.', '/')}.antt", stands[2]):
        return Verdict.REFUSED, f"`{stands[2]}`, which its proof cites"
    if any(MISSING.search(it.text) for it in own):
        return Verdict.NAMES, next(it.text for it in own if MISSING.search(it.text))
    if CALLS.search(line):
        return Verdict.CALLEE, line
    return Verdict.OTHER, line


def callees_of(answer, crate, function):
    """The functions of the crate that are said to keep this one from its proof."""
    found = CALLS.search(answer.functions.get(function, ""))
    return re.findall(rf"`{crate}::([^`]+)`", found[1]) if found else []


def waits(answer, crate, function):
    """Whether the function's goals were not tried, since a function that it calls is not proved."""
    return f"has not tried the goals of `{crate}::{function}`" in answer.text
