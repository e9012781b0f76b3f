"""The gate tried on a small repository of its own: each edit is reported as what it is."""

import contextlib
import io
import re
import tempfile
import unittest
from pathlib import Path

import answers
import checks
import copies
import edits
import gate
import rounds
import stubs
import verdicts

LIBRARY = """\
//! A count that is raised.
#![tactic(auto)]

ghost use Rattle.std.specs.Prelude.{◌≡◌, ◌+◌, ◌<◌, IsTrue};
ghost use Rattle.sample.specs.Largest.{LargestIsNine};

/// The largest count.
const LARGEST: u8 = 9;

/// The count after one more.
pub fn raised(count: u8) -> u8
    requires { count < 9 }
    ensures { result ≡ count + 1 }
{
    count + 1
}

/// The count after two more.
pub fn raised_twice(count: u8) -> u8
    requires { count < 8 }
    ensures { result ≡ count + 2 }
{
    raised(raised(count))
}

/// The count after one more, by another way.
pub fn raised_again(count: u8) -> u8
    requires { count < 9 }
    ensures { result ≡ count + 1 }
{
    let once = raised(count);
    once
}

/// Whether one more can be counted.
pub fn can_be_raised(count: u8) -> bool
    ensures { IsTrue result → count < 9 }
{
    count < LARGEST
}

/// The largest count is nine.
pub fn largest_is_nine()
    ensures { LargestIsNine }
{}
"""

ANSWERS = """\
use Rattle.sample.proofs.raised_again.Goals as goal

pub returns : goal.returns
returns c = c.raised-once.ensures
"""

# The definition of the law's clause, and its proof.
DEFINED = {
    "specs/Lib.antt": "pub mod Counts\npub mod Largest\n",
    "specs/Counts.antt": """\
-- How far counts go.
use Rattle.std.specs.Prelude.{ℕ}

-- the largest count
abbrev pub largest : ℕ
largest = 9
""",
    "specs/Largest.antt": """\
-- What is said of the largest count.
use Rattle.std.specs.Prelude.{◌≡◌}
use Rattle.sample.specs.Counts.{largest}

abbrev pub LargestIsNine : Type 0
LargestIsNine = largest ≡ 9
""",
    "proofs/Lib.antt": "mod Largest\n",
    "proofs/Largest.antt": """\
-- The largest count is what it is.
use Rattle.std.proofs.Common.{refl}
use Rattle.sample.specs.Largest.{LargestIsNine}

pub largest-is-nine : LargestIsNine
largest-is-nine = refl
""",
    "proofs/largest_is_nine/Answers.antt": """\
use Rattle.sample.proofs.Largest.{largest-is-nine}
use Rattle.sample.proofs.largest_is_nine.Goals as goal

pub returns : goal.returns
returns c = largest-is-nine
""",
}

# Each edit, and the beginning of what has to be said of it.
EDITS = {
    "raised_by_none": (["old:     count + 1", "new:     count"], "refused by raised: "),
    "raised_not_at_all": (["old:     raised(raised(count))", "new:     count"], "refused by raised_twice: "),
    "raised_again_by_none_in_a_twin": (["old:     once", "new:     count"], "refused by raised_again: "),
    "raised_by_one_alone_in_a_twin": (["old:     raised(raised(count))", "new:     raised(count)"], "refused by raised_twice: "),
    "larger_constant": (
        ["fn: can_be_raised", "old: const LARGEST: u8 = 9;", "new: const LARGEST: u8 = 10;"],
        "refused by can_be_raised: ",
    ),
    "constant_without_a_function": (
        ["old: const LARGEST: u8 = 9;", "new: const LARGEST: u8 = 11;"],
        "BAD EDIT: it changes the text of 0 functions",
    ),
    "text_that_is_not_there": (["old:     count + 2", "new:     count"], "BAD EDIT: an 'old:' text stands in src/lib.rt 0 times"),
    "only_a_callee": (["fn: raised_twice", "old:     count + 1", "new:     count + 0"], "NOT COUNTED: it is refused only because a function"),
    "only_a_name": (
        ["old:     let once = raised(count);", "new:     let first = raised(count); let once = first;"],
        "NOT COUNTED: it is refused only because a proof names",
    ),
}

# The same of an edit beside which no other can be tried.
NOT_READ = {
    "text_that_does_not_compile": (["old:     raised(raised(count))", "new:     raised(true)"], "BAD EDIT: the edited text does not compile"),
    "raised_again_by_none_beside_it": (["open: returns", "old:     once", "new:     count"], "refused by raised_again: `returns`"),
}

# The same of one that wants the functions that its own calls to stay as they are, and of edits of these, which stand in twins.
KEPT = {
    "raised_twice_by_one_over_kept_callees": (
        ["callees: kept", "old:     raised(raised(count))", "new:     if count == 3 { return 4; } raised(raised(count))"],
        "refused by raised_twice: ",
    ),
    "raised_by_two_in_a_twin_for_its_callers": (["old:     count + 1", "new:     count + 2"], "refused by raised: "),
    "same_meaning_in_a_twin_for_its_callers": (["old:     count + 1", "new:     1 + count"], "NOT REFUSED"),
}

# The same of edits that name the goals which they leave open.
OPEN = {
    "raised_by_none_at_its_return": (["open: returns", "old:     count + 1", "new:     count"], "refused by raised: `returns`"),
    "raised_by_two_in_a_twin_at_its_return": (["open: returns", "old:     count + 1", "new:     count + 2"], "refused by raised: `returns`"),
    "raised_again_by_none_at_its_answer": (["open: returns", "old:     once", "new:     count"], "refused by raised_again: `returns`"),
    "raised_at_another_goal": (
        ["open: returns-else", "old:     raised(raised(count))", "new:     count"],
        "refused by raised_twice: `returns` (its line 'open:' does not say so)",
    ),
    "same_meaning_at_its_return": (["open: returns", "old:     count < LARGEST", "new:     LARGEST > count"], "NOT REFUSED"),
    "only_a_name_at_its_return": (
        ["open: returns", "old:     let once = raised(count);", "new:     let first = raised(count); let once = first;"],
        "NOT COUNTED: it is refused only because a proof names",
    ),
}

# The same of edits of definitions.
DEFINITIONS = {
    "larger_by_definition": (["file: specs/Counts.antt", "fn: largest_is_nine", "old: largest = 9", "new: largest = 10"], "refused by largest_is_nine: "),
    "larger_in_what_is_said": (
        ["file: specs/Largest.antt", "fn: largest_is_nine", "old: largest ≡ 9", "new: largest ≡ 10"],
        "refused by largest_is_nine: ",
    ),
    "same_by_definition": (["file: specs/Largest.antt", "fn: largest_is_nine", "old: largest ≡ 9", "new: 9 ≡ largest"], "NOT REFUSED"),
    "no_name_of_that_kind": (["file: specs/Counts.antt", "fn: largest_is_nine", "old: largest = 9", "new: largest = nine"], "NOT COUNTED: "),
}


def make_repository(root, wanted):
    """Writes the small repository with these edits."""
    crate = root / "crates/sample"
    (root / "crates.txt").write_text("sample:\n")
    for folder in ("src", "specs", "proofs/raised_again", "must-fail"):
        (crate / folder).mkdir(parents=True)
    (crate / "src/lib.rt").write_text(LIBRARY)
    for file, text in {"proofs/raised_again/Answers.antt": ANSWERS, **DEFINED}.items():
        (crate / file).parent.mkdir(parents=True, exist_ok=True)
        (crate / file).write_text(text)
    for name, (lines, _) in wanted.items():
        (crate / f"must-fail/{name}.edit").write_text("\n".join(["file: src/lib.rt", *lines]) + "\n")


class Rounds(unittest.TestCase):
    """What is said of each edit."""

    @classmethod
    def setUpClass(cls):
        """Proves the small repository, once for all its edits."""
        folder = tempfile.TemporaryDirectory()
        cls.addClassCleanup(folder.cleanup)
        tree, cls.proved, cls.log = (Path(folder.name) / it for it in ("tree", "proved", "log"))
        tree.mkdir()
        make_repository(tree, {})
        gate.copy_tree(tree, cls.proved)
        with contextlib.redirect_stdout(io.StringIO()) as said:
            status = gate.Gate(tree, cls.proved).run(1)
        assert status == 0, said.getvalue()
        cls.log.write_text(said.getvalue(), encoding="utf-8")

    def outcome_of(self, wanted):
        """What came of these edits, each of which has to be reported as what it is."""
        with tempfile.TemporaryDirectory() as tree:
            make_repository(Path(tree), wanted)
            tried = gate.Gate(tree, self.proved)
            with contextlib.redirect_stdout(io.StringIO()):
                tried.run(1, log=self.log)
            found = {it.edit: it for it in tried.outcomes["sample"].tried}
            for name, (_, text) in wanted.items():
                self.assertTrue(found[name].text.startswith(text), f"{name}: {found[name].text}")
                self.assertEqual(found[name].refused, text.startswith("refused"), name)
            refused = sum(text.startswith("refused") for _, text in wanted.values())
            self.assertEqual(tried.count(), (refused, len(wanted) - refused))
            return tried.outcomes["sample"]

    def test_each_edit_is_reported_as_what_it_is(self):
        # The second round has those that do not count by their goal, the third those that no twin refused, each in its place.
        self.assertEqual(self.outcome_of(EDITS | KEPT | OPEN).rounds, 3)

    def test_an_edit_that_does_not_compile_leaves_the_others_to_be_tried(self):
        # The second and third rounds have each of them alone.
        self.assertEqual(self.outcome_of(NOT_READ).rounds, 3)

    def test_edits_of_definitions_stand_in_copies(self):
        # The second and third rounds have those that no copy refused, each in its place.
        self.assertEqual(self.outcome_of(DEFINITIONS).rounds, 3)


class Controls(unittest.TestCase):
    """A refusal in a twin counts only beside a control that is in order."""

    def test_refusals_beside_a_control(self):
        refused = "fn sample::f_twin: no proof: `search` did not prove `returns`"
        calls = "no proof: it calls `sample::g`, which is not proved"
        waits = "note: `search` has not tried the goals of `sample::f_control`, which wait for a callee's proof"
        for said, counts in {
            "fn sample::f_control: no holes": True,
            "fn sample::f_control: depends on a hole in `Rattle.sample.proofs.g.Proof.g_spec`": True,
            f"fn sample::f_control: {calls}": True,
            f"{waits}\nfn sample::f_control: {calls}": False,
            "fn sample::f_control: no proof: `search` did not prove `returns`": False,
            "fn sample::f_control: not proved": False,
        }.items():
            answer = verdicts.read("sample", f"{refused}\n{said}\nonly=2 holes=0\n")
            it = rounds.Waiting(edits.Edit("wrong"), ["f"], stands_in=["f_twin"], control="f_control")
            made = rounds.Round(set(), taken=[it])
            tried = rounds.judged(answer, checks.Crate("sample", Path(), [], []), it, made)
            self.assertEqual(tried is not None and tried.refused, counts, said)
            self.assertEqual(it.in_place, not counts, said)

    def test_what_is_refused_beside_the_answer_of_a_control(self):
        at = "proofs/f_control/Answers.antt:9:1: error: "
        for said, counts in {
            f"{at}`{answers.NOT_TRIED}`: expected type `goal.returns`": True,
            f"{at}`returns`: the two types differ\n{at}`{answers.NOT_TRIED}`: expected type `goal.returns`": False,
        }.items():
            answer = verdicts.read("sample", f"{said}\nfn sample::f_control: not proved\nonly=1 holes=0\n")
            crate = checks.Crate("sample", Path(), [], [])
            self.assertEqual(rounds.is_in_order(answer, crate, "f_control", by_goal=True), counts, said)

    def test_closures_of_a_twin(self):
        it = rounds.Waiting(edits.Edit("wrong"), ["a::S::f"], stands_in=["a::S::f_twin_2"])
        names = {"a::S::f", "a::S::g", "a::fn::S::f::all", "a::fn::S::f::all+FnMut::call_mut", "a::fn::S::g::any"}
        self.assertEqual([*answers.of_closures(it, names)], ["proofs/a/fn/S/f_twin_2/all/Answers.antt"])


class Answers(unittest.TestCase):
    """An edit counts by the goal that it names: the other answers of its function give way to the hole of the stubs."""

    TEXT = """\
use Rattle.sample.proofs.f.Goals as goal

twice : (n : ℕ) → n + n ≡ n * 2
twice n = grind arith

pub returns-in-Ok : goal.returns-in-Ok
returns-in-Ok c = record {
  first = refl;
}

abbrev pub invariant-loop : goal.invariant-loop
invariant-loop l = l.count ≤ 9

pub returns-in-Err : goal.returns-in-Err
unfolding doubled
returns-in-Err c = twice 4
"""

    def test_other_answers_give_way_to_one_hole(self):
        use = "use Rattle.sample.proofs.AnyProof.{any}\n"
        left = self.TEXT.replace("returns-in-Ok c = record {\n  first = refl;\n}\n", "returns-in-Ok = any\n")
        self.assertEqual(answers.with_one(self.TEXT, "returns-in-Err", "sample"), use + left)
        left = self.TEXT.replace("unfolding doubled\nreturns-in-Err c = twice 4\n", "returns-in-Err = any\n\n")
        self.assertEqual(answers.with_one(self.TEXT, "returns-in-Ok", "sample"), use + left)

    def test_an_answered_goal_and_both_tactics(self):
        at = "proofs/f/Answers.antt:1:1: error: `returns"
        both, three = answers.tactics_of([]), answers.tactics_of(["using_0"])
        searched, ground = f"{at}`: `search`: no proof of `0 ≡ 1`", f"{at}-by-grind`: `grind`: the goal does not follow"
        for said, tactics, counts in [
            (f"{at}`: the two types differ", {}, True),
            (f"{at}`: `once` is not in scope", {}, False),
            (f"{at}-in-Ok`: the two types differ", {}, False),
            (f"{searched}\n{ground}", both, True),
            (f"{searched}\n{at}-by-grind`: give the call less to do", both, True),
            (searched, both, False),
            (ground, both, False),
            (f"{at}`: `once` is not in scope\n{at}-by-grind`: `once` is not in scope", both, False),
            (f"{searched}\n{ground}", three, False),
            (f"{searched}\n{ground}\n{at}-by-lemmas`: `grind`: the goal does not follow", three, True),
        ]:
            answer = verdicts.read("sample", f"{said}\nfn sample::f: not proved\nonly=1 holes=0\n")
            self.assertEqual(answers.are_refused(answer, "returns", "f", tactics), counts, said)

    def test_what_a_function_names_for_its_tactics(self):
        attributes = "    #[tactic(auto, using(crate::proofs::Runs::longest, crate::proofs::Runs::shifted), unfolding(wire::specs::Lines::spelled))]\n"
        crate = checks.Crate("sample", Path("sample"), [], [])
        text, tactics = answers.with_tactics("", "returns", "f", crate, attributes)
        self.assertEqual(tactics, answers.TACTICS | {"-by-lemmas": "grind (usual_arith, using_0, using_1)"})
        for line in (
            "use Rattle.sample.proofs.Runs.{shifted as using_1}\n",
            "use Rattle.wire.specs.Lines.{spelled as unfolding_0}\n",
            "pub returns-by-lemmas : goal.returns\nunfolding unfolding_0\nreturns-by-lemmas c = grind (usual_arith, using_0, using_1)\n",
        ):
            self.assertIn(line, text)


class Copies(unittest.TestCase):
    """An edit of a definition changes copies of what stands on it, and counts by these alone."""

    EDIT = edits.Edit("wrong", [edits.Pair("specs/Counts.antt", "largest = 9", "largest = 10")], ["largest_is_nine"])

    def test_what_stands_on_a_definition_is_copied_with_its_law(self):
        with tempfile.TemporaryDirectory() as folder:
            make_repository(Path(folder), {})
            crate = checks.crates_of(folder)["sample"]
            made = copies.copied(self.EDIT, self.EDIT.pairs, "largest_is_nine", "copy_0", {}, crate)
            self.assertEqual(made.name, "largest_is_nine_copy_0")
            self.assertEqual(
                made.own,
                {"specs/CountsCopy0.antt", "specs/LargestCopy0.antt", "proofs/LargestCopy0.antt", "proofs/largest_is_nine_copy_0/Answers.antt"},
            )
            self.assertIn("largest = 10", made.texts["specs/CountsCopy0.antt"])
            self.assertIn("use Rattle.sample.specs.CountsCopy0.{largest}", made.texts["specs/LargestCopy0.antt"])
            self.assertIn("pub mod Counts\npub mod CountsCopy0\n", made.texts["specs/Lib.antt"])
            self.assertIn("ghost use Rattle.sample.specs.LargestCopy0.{LargestIsNine as LargestIsNine_copy_0};\n", made.texts["src/lib.rt"])
            self.assertIn(
                "{ LargestIsNine }\n{}\n\npub fn largest_is_nine_copy_0()\n    ensures { LargestIsNine_copy_0 }\n{}\n", made.texts["src/lib.rt"]
            )

    def test_no_law_no_copy(self):
        with tempfile.TemporaryDirectory() as folder:
            make_repository(Path(folder), {})
            crate = checks.crates_of(folder)["sample"]
            self.assertIsNone(copies.copied(self.EDIT, self.EDIT.pairs, "raised", "copy_0", {}, crate))

    def test_errors_of_other_copies_do_not_count(self):
        own = "proofs/f_copy_0/Answers.antt:1:1: error: 1 declaration that depends on `a`, which was rejected, was not checked: returns"
        cause = "proofs/A{}.antt:1:1: error: `a`: the two types differ"
        missing = "proofs/ACopy0.antt:1:1: error: `a`: `once` is not in scope"
        for said, in_order, counts in {
            (cause.format("Copy0"), "no holes", True),
            (cause.format("Copy0"), "not proved", False),
            (f"{cause.format('Copy1')}\n{missing}", "no holes", False),
        }:
            functions = f"fn sample::f_copy_0: not proved\nfn sample::f_control_0: {in_order}\n"
            answer = verdicts.read("sample", f"{said}\n{own}\n{functions}only=2 proved=1\n")
            it = rounds.Waiting(self.EDIT, ["f"], alone=True, in_copies=True, stands_in=["f_copy_0"])
            made = rounds.Round(set(), taken=[it], controls={rounds.control_key(it): "f_control_0"})
            made.copies["wrong"] = copies.Copy("f_copy_0", {}, {"proofs/ACopy0.antt", "proofs/f_copy_0/Answers.antt"})
            tried = rounds.judged(answer, checks.Crate("sample", Path(), [], []), it, made)
            self.assertEqual(tried is not None and tried.refused, counts, said)
            self.assertEqual(it.in_copies, counts, said)


class Stubs(unittest.TestCase):
    """The functions that no edit touches keep their contracts and lose their bodies."""

    TEXT = """\
const fn size() -> usize {
    4
}

/// One line.
pub fn law()
    ensures { Law }
{}

impl Pair {
    /// The first.
    pub fn first(&self) -> u8
        ensures { result ≡ self.now.first }
    {
        let Pair { first, .. } = self;
        *first
    }

    fn second(&self) -> u8 {
        if self.is_set {
            return 1;
        }
        2
    }
}

fn free(count: u8) -> u8
    ensures { result ≡ count }
{
    count
}
"""

    def test_bodies_give_way(self):
        names = {"size", "law", "Pair::first", "Pair::second", "free"}
        text, stubbed = stubs.stubs_in("src/lib.rt", self.TEXT, names, {"free"})
        self.assertEqual([it.name for it in stubbed], ["Pair::first", "Pair::second"])
        left = self.TEXT.replace("        let Pair { first, .. } = self;\n        *first\n", "        loop {}\n")
        left = left.replace("        if self.is_set {\n            return 1;\n        }\n        2\n", "        loop {}\n")
        self.assertEqual(text, left)

    CYCLE = """\
/// Whether a count is even.
#[cycle(parity)]
fn even(count: u8) -> bool {
    count == 0 || odd(count - 1)
}

#[cycle(parity)]
fn odd(count: u8) -> bool {
    count != 0 && even(count - 1)
}
"""

    def test_a_cycle_of_calls_gives_way_as_a_whole(self):
        text, stubbed = stubs.stubs_in("src/lib.rt", self.CYCLE, {"even", "odd"}, set())
        self.assertEqual([(it.name, it.cycle) for it in stubbed], [("even", "parity"), ("odd", "parity")])
        head = "/// Whether a count is even.\nfn even(count: u8) -> bool {\n    loop {}\n}\n"
        self.assertEqual(text, head + "\nfn odd(count: u8) -> bool {\n    loop {}\n}\n")
        self.assertEqual(stubs.stubs_in("src/lib.rt", self.CYCLE, {"even", "odd"}, {"odd"}), (self.CYCLE, []))

    def test_a_stub_has_a_hole_for_a_proof(self):
        with tempfile.TemporaryDirectory() as folder:
            make_repository(Path(folder), {})
            crate = checks.crates_of(folder)["sample"]
            made = stubs.stubbed({}, crate, {"raised", "raised_again"}, {"raised"})
            self.assertIn("raised_again_spec = any", made.texts["proofs/raised_again/Proof.antt"])
            self.assertIn("any = ?", made.texts["proofs/AnyProof.antt"])
            self.assertIn("pub mod AnyProof", made.texts["proofs/Lib.antt"])
            self.assertNotIn("proofs/raised/Proof.antt", made.texts)
            self.assertIn(Path("proofs/raised_again"), made.removed)


class Lemmas(unittest.TestCase):
    """A refused lemma counts also where the list of what rests on it is cut short, but no lost name."""

    def test_lemmas_that_rest_on_a_refused_one(self):
        cut = "proofs/B.antt:1:1: error: 4 declarations that depend on `a`, which was rejected, were not checked: b, c (via b), d (via c) and 1 more"
        own = "proofs/f/Answers.antt:1:1: error: 1 declaration that depends on `e`, which was not admitted, was not checked: returns"
        refused = "proofs/A.antt:1:1: error: `a`: the two types differ"
        missing = "proofs/C.antt:1:1: error: `g`: `once` is not in scope"
        for said, counts in {
            (refused, cut, own): True,
            (refused, cut, own, missing): False,
            (refused, cut.replace(" and 1 more", ", e (via d)"), own, missing): True,
            (refused, own): False,
        }.items():
            answer = verdicts.read("sample", "\n".join([*said, "fn sample::f: not proved", "only=1 holes=0", ""]))
            self.assertEqual(verdicts.verdict_of(answer, "f")[0] is verdicts.Verdict.REFUSED, counts, said)

    def test_a_function_that_stands_on_a_refused_lemma(self):
        for at, counts in {"A.antt:1:1: error: `a`: the two types differ": True, "A.antt:1:1: error: `a`: `once` is not in scope": False, "B.antt:1:1: error: `a`: the two types differ": False}.items():
            said = f"proofs/{at}\nfn sample::f: not proved; it stands on `Rattle.sample.proofs.A.a`, which antt refuses"
            answer = verdicts.read("sample", f"{said}\nonly=1 holes=0\n")
            self.assertEqual(verdicts.verdict_of(answer, "f")[0] is verdicts.Verdict.REFUSED, counts, at)


class Functions(unittest.TestCase):
    """The function that an edit changes, by the place of its text."""

    TEXT = """\
impl<T: Drop> Display for Pair<T> {
    fn fmt(&self) -> bool {
        true
    }
}

impl<'a, K, V> Map<'a, K, V>
where
    K: Eq,
{
    pub(crate) fn take(&mut self) -> Option<V> {
        None
    }
}

const SIZE: u8 = 4;

fn free() {
    done()
}
"""

    def test_functions_by_place(self):
        for text, wanted in {
            "true": "a::b::PairDisplay::fmt",
            "None": "a::b::Map::take",
            "done()": "a::b::free",
            "SIZE": None,
        }.items():
            place = re.search(re.escape(text), self.TEXT).start()
            self.assertEqual(edits.function_at("src/a/b.rt", self.TEXT, place), wanted)

    def test_an_edit_of_a_constant_that_one_function_names(self):
        for users, is_apart in {("f",): False, ("f", "g"): True}.items():
            with tempfile.TemporaryDirectory() as folder:
                functions = "".join(f"\nfn {it}() -> u8 {{\n    SIZES[0]\n}}\n" for it in users)
                (Path(folder) / "src").mkdir()
                (Path(folder) / "src/lib.rt").write_text(f"const SIZES: [u8; 2] = [\n    4, 5,\n];\n{functions}", encoding="utf-8")
                edit = edits.Edit("wrong", [edits.Pair("src/lib.rt", "    4, 5,", "    4, 6,")], ["f"])
                self.assertEqual(edits.is_apart(edit, folder), is_apart, users)


if __name__ == "__main__":
    unittest.main()
