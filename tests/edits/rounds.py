"""Rounds: edits of a crate are tried together, by one check of the functions that they change.

Of the edits of one function the first stands in its place and each further one in a twin of it (twins.py); the functions that
no edit changes are stubs (stubs.py). An edit counts as refused only where its own function fails with an open goal. The goals
of some functions wait until all that they call is proved: beside an edit of such a one (it says so, or a round showed it) the
functions that it calls stay as they are, and their edits stand in twins, or in another round. Edits of definitions stand in copies
of the files of their laws (copies.py), in one round.
"""

import tempfile
from dataclasses import dataclass, field

import answers
import calls
import checks
import copies
import edits
import stubs
import twins
import verdicts
from verdicts import Verdict


@dataclass
class Tried:
    """What came of an edit."""

    edit: str
    refused: bool
    text: str


@dataclass
class Waiting:
    """An edit that is still to be tried, and the functions that have to stay as they are beside it."""

    edit: edits.Edit
    functions: list
    # The functions whose texts it changes.
    touched: set = field(default_factory=set)
    alone: bool = False
    # Whether it may be tried in copies of the files that stand on what it changes.
    in_copies: bool = False
    apart: set = field(default_factory=set)
    # What the prover calls the function in which the edit stands in this round, and whether a twin will not do.
    stands_in: list = field(default_factory=list)
    in_place: bool = False
    # Whether it may count by the goal that it names, how it stands in this round for that, and whether it was tried so in vain.
    may_name: bool = False
    answered: answers.Answered | None = None
    is_misnamed: bool = False
    # The function beside its twin that has to be in order, if one has.
    control: str | None = None


@dataclass
class Outcome:
    """What came of a crate's edits, in how many rounds and seconds of a processor."""

    tried: list
    rounds: int = 0
    seconds: float = 0.0


def read_all(crate, from_folder, names):
    """The edits that can be tried, and what is said of those that can't."""
    waiting, bad = [], []
    for path in sorted(from_folder.glob("*.edit")):
        try:
            edit = edits.read(path)
            edit.applied({}, crate.folder)
            functions = edits.functions_of(edit, crate.folder, names)
            touched = edits.touched_by(edit, crate.folder, names)
            alone = edits.is_apart(edit, crate.folder)
            in_copies = alone and len(functions) == 1 and all(pair.file.startswith("specs/") for pair in edit.pairs)
            may_name = bool(edit.open) and not alone and functions == [*touched]
            waiting.append(Waiting(edit, functions, touched, alone, in_copies, may_name=may_name))
        except edits.Misfit as why:
            bad.append(Tried(path.stem, False, f"BAD EDIT: {why}"))
    keep_callees(waiting, crate.folder)
    return waiting, bad


def keep_callees(waiting, folder):
    """Keeps as they are the functions that those edits' functions call which ask for it."""
    if any(it.edit.keeps_callees for it in waiting):
        known = calls.Calls(folder)
        edited = {name for it in waiting for name in it.functions}
        for it in waiting:
            if it.edit.keeps_callees:
                reached = set().union(*(known.reached_from(calls.plain(name)) for name in it.functions))
                it.apart = {name for name in edited - {*it.functions} if calls.plain(name) in reached}


@dataclass
class Round:
    """Edits that are tried together."""

    # The functions that edits of this round or of later ones want to stay as they are.
    kept: set
    taken: list = field(default_factory=list)
    texts: dict = field(default_factory=dict)
    # The functions that are changed in their places, those of them that a constant changes, of which a twin would be changed too, and
    # those that have twins.
    changed: set = field(default_factory=set)
    by_constant: set = field(default_factory=set)
    twinned: set = field(default_factory=set)
    # The controls beside twins, by function and goal, and those beside copies, by function and files.
    controls: dict = field(default_factory=dict)
    # The copies of each edit that stands in such.
    copies: dict = field(default_factory=dict)

    def may_take(self, it):
        """Whether an edit may be tried beside those that were taken."""
        if self.taken and it.in_copies and self.taken[0].in_copies:
            return True
        if self.taken and (it.alone or self.taken[0].alone):
            return False
        return not self.changed & it.apart

    def place(self, it, crate):
        """Puts an edit into its function, or into a twin of it. False where it does not fit beside the others."""
        it.stands_in = it.functions
        if it.in_copies:
            return self.place_in_copies(it, crate)
        functions = {*it.functions}
        if functions & (self.kept | self.changed) and self.place_in_twin(it, crate):
            return True
        wanted = set().union(*(other.apart for other in self.taken))
        by_constant = set() if it.touched else functions
        if functions & (self.changed | wanted) or by_constant & self.twinned:
            return False
        try:
            self.texts = it.edit.applied(self.texts, crate.folder)
        except edits.Misfit:
            return self.place_in_twin(it, crate)
        self.changed |= functions
        self.by_constant |= by_constant
        self.answer(it, crate)
        return True

    def place_in_twin(self, it, crate):
        """Puts an edit into a twin of its function, with a control beside its first twin."""
        if len(it.functions) != 1 or it.in_place or self.by_constant & {*it.functions}:
            return False
        (function,) = it.functions
        twin = twins.twin_of(it.edit, function, self.texts, crate, len(self.taken))
        if twin is None:
            return False
        self.texts, it.stands_in = self.texts | twin.texts, [twin.name]
        self.twinned.add(function)
        self.answer(it, crate)
        it.control = self.control(it, function, crate)
        return True

    def answer(self, it, crate):
        """Has the edit count by the goal that it names, where that can be done."""
        it.answered = answers.answered(it.edit, it.stands_in[0], self.texts, crate) if it.may_name else None
        if it.answered:
            self.texts |= it.answered.texts

    def place_in_copies(self, it, crate):
        """Puts an edit into copies of the files that stand on what it changes, with copies without an edit beside the first of these
        files. False where there can be none: then it is tried in its place, in a round of its own."""
        (function,) = it.functions
        number, key = len(self.taken), control_key(it)
        made = copies.copied(it.edit, it.edit.pairs, function, f"copy_{number}", self.texts, crate)
        if made is None:
            it.in_copies = False
            return not self.taken and self.place(it, crate)
        self.texts |= made.texts
        self.copies[it.edit.name], it.stands_in = made, [made.name]
        if key not in self.controls:
            control = copies.copied(it.edit, [], function, f"control_{number}", self.texts, crate)
            self.texts |= control.texts
            self.controls[key] = control.name
        return True

    def control(self, it, function, crate):
        """The control beside a twin: the function as it stands, or what it has to show of the goal by which the twin counts. None where
        no file was copied that could be copied wrongly, or none that answers that goal: `rt ci` proved it so."""
        if it.answered and it.answered.tactics or not twins.proofs_of(crate.folder, crate.name, function, function):
            return None
        key = function, it.answered and it.edit.open
        if key not in self.controls:
            made = twins.control_of(it.edit, function, self.texts, crate, len(self.controls))
            self.controls[key], self.texts = made.name, self.texts | made.texts
            if it.answered:
                self.texts |= answers.for_control(it.edit, made.name, self.texts, crate)
        return self.controls[key]

    def asked(self):
        """The functions that are checked."""
        return {name for it in self.taken for name in it.stands_in} | {*self.controls.values()}

    def impls(self):
        """The impls that are checked beside them."""
        return {name for it in self.taken for name in it.edit.impls}

    def is_whole(self):
        """Whether nothing is a stub. An edit of a definition stands among whole functions: past holes a check does not say what rests on
        a lemma that it refused."""
        return any(it.alone for it in self.taken)

    def stubbed(self, crate, names):
        """The round's texts, with stubs for the functions that no edit touches."""
        if self.is_whole():
            return stubs.Stubs(self.texts)
        kept = self.asked().union(*(it.touched for it in self.taken if it.stands_in == it.functions))
        closures = {file: text for it in self.taken if it.answered for file, text in answers.of_closures(it, names).items()}
        return stubs.stubbed(self.texts | closures, crate, names, kept)


def control_key(it):
    """What edits have in common that stand in copies of the same files."""
    return it.functions[0], frozenset(pair.file for pair in it.edit.pairs)


def next_round(waiting, crate):
    """Takes edits whose texts fit into one copy."""
    made = Round(set().union(*(it.apart for it in waiting)))
    for it in list(waiting):
        if made.may_take(it) and made.place(it, crate):
            made.taken.append(it)
            waiting.remove(it)
    return made


def is_in_order(answer, crate, control, by_goal=False):
    """Whether a control's own goals are all closed, or the one that is answered in it."""
    if control is None:
        return True
    if by_goal:
        return control in answer.functions and not answers.faults_of(answer, control)
    verdict = verdicts.verdict_of(answer, control)[0]
    return verdict is Verdict.PROVED or (verdict is Verdict.CALLEE and not verdicts.waits(answer, crate.name, control))


def judged_in_copies(answer, crate, it, made):
    """What came of an edit that stands in copies, or None where it is to be tried in its place."""
    (function,), (stands,) = it.functions, it.stands_in
    verdict, text = verdicts.verdict_of(verdicts.within(answer, made.copies[it.edit.name].own), stands)
    if verdict is Verdict.REFUSED and is_in_order(answer, crate, made.controls[control_key(it)]):
        return Tried(it.edit.name, True, f"refused by {function}: {text}")
    it.in_copies = False
    return None


def judged_by_goal(answer, crate, it):
    """What came of an edit that counts by the goal that it names, or None where it is to be tried again without that."""
    (function,), (stands,) = it.functions, it.stands_in
    is_refused = answers.are_refused(answer, it.edit.open, stands, it.answered.tactics)
    if is_refused and (stands == function or is_in_order(answer, crate, it.control, by_goal=True)):
        return Tried(it.edit.name, True, f"refused by {function}: `{it.edit.open}`")
    it.may_name, it.is_misnamed = False, True
    return None


def judged(answer, crate, it, made):
    """What came of one edit of a round, or None where it is to be tried again."""
    if it.in_copies:
        return judged_in_copies(answer, crate, it, made)
    if it.answered:
        return judged_by_goal(answer, crate, it)
    found = [(name, stands, *verdicts.verdict_of(answer, stands)) for name, stands in zip(it.functions, it.stands_in)]
    name, stands, verdict, text = next((one for one in found if one[2] is not Verdict.REFUSED), found[0])
    is_twin = it.stands_in != it.functions
    if verdict is Verdict.REFUSED and (not is_twin or is_in_order(answer, crate, it.control)):
        aside = " (its line 'open:' does not say so)" if it.is_misnamed else ""
        return Tried(it.edit.name, True, f"refused by {name}: {text}{aside}")
    others = made.changed - {*it.functions}
    if verdict is Verdict.CALLEE and not others <= it.apart:
        it.apart |= {*verdicts.callees_of(answer, crate.name, stands)} & others or others
        return None
    if is_twin:
        it.in_place = True
        return None
    if verdict is Verdict.UNREAD and len(made.taken) > 1:
        it.alone = True
        return None
    return Tried(it.edit.name, False, f"{verdict.value}: {name}: {text[:400]}")


def try_all(crate, crates, where, from_folder, names):
    """Tries all edits of the folder, in as few rounds as their functions allow. Several among stubs, or several among whole functions,
    share kept work of this run alone; for a single one it would cost more than it brings."""
    waiting, bad = read_all(crate, from_folder, names)
    outcome, begun = Outcome(bad), set()
    with tempfile.TemporaryDirectory(prefix="edits-kept-") as kept:
        while waiting:
            made = next_round(waiting, crate)
            changed = made.stubbed(crate, names)
            is_alone = made.is_whole() not in begun and all(it.alone != made.is_whole() for it in waiting)
            begun.add(made.is_whole())
            asked = sorted(made.asked() | made.impls())
            said, seconds = checks.check(crate, crates, where, changed, asked, None if is_alone else kept)
            answer = verdicts.read(crate.name, said)
            outcome.rounds += 1
            outcome.seconds += seconds
            for it in made.taken:
                tried = judged(answer, crate, it, made)
                if tried:
                    outcome.tried.append(tried)
                else:
                    waiting.append(it)
    outcome.tried.sort(key=lambda it: it.edit)
    return outcome


def open_without_edits(crate, crates, where, from_folder, names):
    """The functions of the folder's edits that are not proved among stubs as they stand, and the goals by which edits count that none of
    the tactics closes that stand in their place: what is refused there would say nothing."""
    waiting, _ = read_all(crate, from_folder, names)
    functions = {name for it in waiting for name in it.functions}
    said, _ = checks.check(crate, crates, where, stubs.stubbed({}, crate, names, functions), sorted(functions))
    answer = verdicts.read(crate.name, said)
    left = [name for name in sorted(functions) if verdicts.verdict_of(answer, name)[0] is not Verdict.PROVED]
    goals = {(*it.functions, it.edit.open): it.edit for it in waiting if it.may_name}
    while goals:
        left += not_closed_by_tactics(crate, crates, where, goals, names)
    return left


def not_closed_by_tactics(crate, crates, where, goals, names):
    """Takes a goal of each function, and gives those of them that none of the tactics closes which are tried in place of an answer."""
    texts, tried = {}, {}
    for (function, goal), edit in [*goals.items()]:
        if function not in tried:
            source = edit.pairs[0].file
            texts.setdefault(source, (crate.folder / source).read_text(encoding="utf-8"))
            made = answers.answered(edit, function, texts, crate)
            if made and made.tactics:
                texts |= made.texts
                tried[function] = goal, made.tactics
            del goals[function, goal]
    if not tried:
        return []
    said, _ = checks.check(crate, crates, where, stubs.stubbed(texts, crate, names, {*tried}), sorted(tried))
    answer = verdicts.read(crate.name, said)
    return [f"{function}: `{goal}`" for function, (goal, tactics) in tried.items() if function not in answer.functions or answers.are_refused(answer, goal, function, tactics)]
