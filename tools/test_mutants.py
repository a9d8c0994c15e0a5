#!/usr/bin/env python3
"""Tests of tools/mutants.py: how it reads and cuts sources, and what it says of the mutants of a small crate.

The last line is 'N passed, M failed', and the status 0 only if nothing failed.
"""
import contextlib
import io
import os
import sys
import tempfile
import types
import unittest
import unittest.mock

sys.dont_write_bytecode = True
sys.path.insert(0, os.path.dirname(os.path.realpath(__file__)))
import checks  # noqa: E402
import cut  # noqa: E402
import edits  # noqa: E402
import mutants  # noqa: E402

SOURCE = """\
pub trait Size: Sized {
    fn bytes(&self) -> usize;

    #[inline]
    fn words(&self) -> usize {
        self.bytes() / 2
    }
}

impl<A: Size> From<Pair<A>> for u16 {
    fn from(
        pair: Pair<A>,
    ) -> Self {
        2
    }
}

impl<'a> Pair<'a> {
    pub(crate) fn is_empty(&self) -> bool {
        true
    }

    pub fn is_single(&self) -> bool {
        self.len() == 1
    }
}

pub fn pair() -> Pair
    ensures { result ≡ record {
      one = 1;
    } }
{
    Pair(1, 2)
}

pub fn law()
    ensures one { 1 ≡ 1 }
{}
"""

STEPS = """\
#![tactic(auto)]
ghost use Rattle.std.specs.Prelude.{◌≡◌, ◌+◌, ◌≤◌};
const STEP: u16 = 2;
pub fn next(number: u8) -> u16
    ensures { result ≡ number + 2 }
{
    u16::from(number) + STEP
}
pub fn after_next(number: u8) -> u16
    ensures { result ≡ number + 3 }
{
    next(number) + 1
}
pub fn half(number: u8) -> u8
    ensures { result ≤ number }
{
    number / 2
}
pub fn walk(number: u8) -> u16
    ensures { result ≡ number + 3 }
{
    let mut walked = 0;
    for i in 0..next(number) {
        walked = i + 1;
    }
    walked + 1
}
"""

# The proof of `walk` by hand. It names what its code has: the variable `walked`, and the call of `next` at the loop's end.
PROOFS = {
    "proofs/walk/Invariants.antt": """\
use Rattle.std.proofs.Common.{◌≡◌}
use Rattle.steps.proofs.walk.Given as goal

abbrev pub invariant-loop-i : goal.invariant-loop-i
invariant-loop-i l = l.walked ≡ l.i
""",
    "proofs/walk/Answers.antt": """\
use Rattle.std.proofs.Common.{◌≡◌, arith}
use Rattle.steps.proofs.walk.Goals as goal

ends : (c : goal.After-loop-i) → c.loop-i.walked ≡ c.next-i-end.result
ends c = omega (arith, c.loop-i.invariant, c.loop-i.auto.i-end, c.loop-i-test.false)

pub returns : goal.returns
returns c = omega (arith, ends c, c.next-i-end.ensures)
""",
}

# Edits of the crate `steps`, each with what is said of it. Four are proved or should be: a third is at most the number;
# `after_next` does what it did, but calls a function that is refused in the same check; and of two that do what `walk` did,
# only its proof by hand knows nothing. So it does of one that walks less far: that says nothing of the contract.
EDITS = {
    "adds_a_number_to_half": ("old: number / 2\nnew: number / 2 + number", "refused (false): `overflow_add-result`: src/lib.rt"),
    "adds_in_another_order": ("old: next(number) + 1\nnew: 1 + next(number)", "NOT REFUSED: after_next is still proved"),
    "does_not_apply": ("old: number / 4\nnew: 1", "BAD EDIT: mutants.edits:11: its old text is in src/lib.rt 0 times"),
    "does_not_compile": ("old: number / 2\nnew: numeral / 2", "BAD EDIT: it did not reach the prover"),
    "steps_by_one": ("old: u16::from(number) + STEP\nnew: u16::from(number) + 1", "refused (false): `returns`: src/lib.rt"),
    "takes_a_third": ("old: number / 2\nnew: number / 3", "NOT REFUSED: half is still proved"),
    "takes_another_step": ("old: STEP: u16 = 2\nnew: STEP: u16 = 1", "BAD EDIT: mutants.edits:31: it changes no body"),
    "takes_longer_steps": ("at: next\nold: STEP: u16 = 2\nnew: STEP: u16 = 3", "refused (false): `returns`: src/lib.rt"),
    "takes_longer_steps_below": (
        "at: after_next\nold: STEP: u16 = 2\nnew: STEP: u16 = 3",
        "NOT REFUSED: after_next is still proved",
    ),
    "walks_a_step_more": ("old: walked + 1\nnew: walked + 2", "refused (false): `returns`: ./proofs/walk/Answers.antt"),
    "walks_as_far": (
        "old: 0..next(number)\nnew: 0..next(number).saturating_sub(0)",
        "NOT REFUSED (lost name): ./proofs/walk/Answers.antt",
    ),
    "walks_as_far_by_another_name": (
        "old: let mut walked = 0\nnew: let mut went = 0\nold: walked = i + 1\nnew: went = i + 1\nold: walked + 1\nnew: went + 1",
        "NOT REFUSED (lost name): ./proofs/walk/Invariants.antt",
    ),
    "walks_less_far": (
        "old: 0..next(number)\nnew: 0..next(number).saturating_sub(1)",
        "NOT REFUSED (lost name): ./proofs/walk/Answers.antt",
    ),
}


# Edits of it that mean the same, or say so.
EQUIVALENT = {
    "adds_one_first": ("old: walked + 1\nnew: 1 + walked", "not refused (proved), as it means the same"),
    "halves_in_two_steps": ("old: number / 2\nnew: let halved = number / 2; halved", "not refused (proved), as it means the same"),
    "means_something_else": ("old: next(number) + 1\nnew: next(number) + 2", "REFUSED ("),
}

CYCLE = """\
#[cycle(walk)]
fn down(n: u8) -> u8 {
    up(n)
}

#[cycle(walk)]
fn up(n: u8) -> u8 {
    down(n)
}

fn rest() -> u8 {
    1
}
"""


class Reading(unittest.TestCase):
    def test_functions_are_named_as_a_check_names_them(self):
        found = edits.functions_of(SOURCE)
        wanted = ["Size::words", "U16FromPair::from", "Pair::is_empty", "Pair::is_single", "pair", "law"]
        self.assertEqual([f"pairs::size::{it}" for it in wanted], [it.path("src/pairs/size.rt") for it in found])
        self.assertEqual("    #[inline]", SOURCE.split("\n")[found[0].head])
        self.assertEqual(["    Pair(1, 2)"], found[4].lines)
        self.assertEqual(["law"], [it.name for it in found if it.is_law])
        self.assertFalse(edits.functions_of("/// It\n    /// ensures nothing.\npub fn none()\n{}\n")[0].is_law)

    def test_impls_are_named_by_their_types(self):
        for head, name in {
            "impl Size for Vec<u8>": "VecU8Size",
            "impl TryFrom<&[u8]> for [u8; 6]": "ArrayU86TryFromRefSliceU8",
            "impl Size for (u32, Vec<(u8, u8)>)": "Tuple2U32VecTuple2U8U8Size",
            "impl<W: Word> Size for W": "AnySize",
            "impl<'a, A: From<u8>, const N: usize> Size for Pair<'a, A, u8, N>": "PairU8Size",
            "impl<'a, T> IntoIterator for &'a mut Vec<T>": "RefMutVecIntoIterator",
            "impl<F: Fn(u8) -> u16> Pair<F>": "Pair",
            "impl<'a, F: Size> Pair<'a, Set<F>>": "Pair+Set+F",
        }.items():
            (found,) = edits.functions_of(f"{head} {{\n    fn size() -> usize {{\n        2\n    }}\n}}\n")
            self.assertEqual([name], found.blocks, head)

    def test_a_list_of_mutants_is_read_by_its_headings(self):
        found = edits.entries_of("\n## one\nfile: src/lib.rt\nold: 1\nnew:\n\n## two-2\nat: f\ngoal: returns\n")
        wanted = [[2, "one", "file: src/lib.rt\nold: 1\nnew:\n", ""], [7, "two-2", "at: f\ngoal: returns\n", ""]]
        self.assertEqual(wanted, found)
        heading = "this is no heading '## NAME', with letters, digits, _ and - in its name"
        for text, line, wrong in (
            ("## two words\nold: 1\n", 1, heading),
            ("\n# Mutants\n\n## one\nold: 1\n", 2, heading),
            ("## one\nold: 1\n## two\n## one\nold: 2\n", 4, "line 1 has the same heading"),
            ("## one\nfiel: src/lib.rt\n", 1, "line 2 is no line 'file:', 'old:', 'new:', 'goal:' or 'at:' with a text"),
            ("\n\n", 1, "the file has no mutant"),
        ):
            self.assertEqual([(line, wrong)], [(it[0], it[3]) for it in edits.entries_of(text) if it[3]], text)


class Packing(unittest.TestCase):
    def batches(self, *changes):
        """The batches of these changes of SOURCE: of each change its number, and the functions that have to be refused."""
        crate = types.SimpleNamespace(name="sizes", texts={"src/lib.rt": SOURCE})
        crate.functions = {path: ("src/lib.rt", it) for path, it in edits.functions_in("src/lib.rt", SOURCE).items()}
        with tempfile.TemporaryDirectory(prefix="mutants-test-") as crate.folder:
            for path, text in {"src/lib.rt": SOURCE, "specs/One.antt": "one = 1\n"}.items():
                write(f"{crate.folder}/{path}", text)
            found = [mutants.Mutant(crate, at, f"file: src/lib.rt\n{it}\n") for at, it in enumerate(changes)]
            return [[(it.name, *it.seats) for it in batch.mutants] for batch in mutants.batches_of(found)]

    def test_mutants_share_a_check_if_it_tells_them_apart(self):
        empty, single = "old:         true\nnew:         false", "old: self.len() == 1\nnew: self.len() == {}"
        pair, law = "old: Pair(1, 2)\nnew: Pair(2, 1)", "at: law\nold: 1 ≡ 1\nnew: 1 ≡ 3"
        of_specs = "file: specs/One.antt\nat: law\nold: = 1\nnew: = 3"
        for changes, wanted in (
            ((empty, single.format(2)), [[(0, "Pair::is_empty"), (1, "Pair::is_single")]]),
            ((single.format(2), single.format(3)), [[(0, "Pair::is_single")], [(1, "Pair::is_single")]]),
            ((law, pair), [[(0, "law")], [(1, "pair")]]),
            ((pair, of_specs), [[(0, "pair")], [(1, "law")]]),
        ):
            self.assertEqual(wanted, self.batches(*changes))

    def test_a_mutant_names_functions_of_the_crate(self):
        for at, why in (("", "it changes no body"), ("at: lore\n", "no function lore")):
            with self.assertRaisesRegex(edits.EditError, why):
                self.batches(f"{at}old: 1 ≡ 1\nnew: 1 ≡ 3")


class Answers(unittest.TestCase):
    NOTE = "note: src/lib.rt:12:1: it is not proved that what the function ensures holds when it returns"
    ERROR = "./proofs/after_next/Answers.antt:3:5: error:"

    def answer(self, line, status=1, last="only=2 proved=0"):
        text = f"{STEPS}pub fn law()\n    ensures {{ 1 ≡ 1 }}\n{{}}\n"
        functions = {path: ("src/lib.rt", it) for path, it in edits.functions_in("src/lib.rt", text).items()}
        return checks.Answer(status, f"{line}\n{last}\n", 1.0, ["src/lib.rt"], functions)

    def test_a_check_that_stops_early_refuses_nothing(self):
        unread = "src/lib.rt:4:5: error: `f`: `A` is not found;\n  its whole path can stand in a term only if"
        for refuses, *said in (
            (False, "", 1, "rattle: error: the crate cannot be read"),
            (False, "", 3, "logic=not-proved"),
            (False, "src/lib.rt:4:5: error: expected the end"),
            (False, unread),
            (True, ""),
        ):
            self.assertEqual(refuses, not self.answer(*said).why, said)

    def told(self, line, at=("after_next",), goals=(), **how):
        """What refuses a mutant of the crate `steps`: what it shows, and the goal; or why nothing does."""
        mutant = types.SimpleNamespace(goals=goals, seats=at, is_of_specs=how.pop("is_of_specs", False))
        try:
            told = self.answer(line).told_of_mutant(mutant, **how)
            return f"{told[0].shows}: {told[0].goal}" if told else "it is proved"
        except edits.EditError as error:
            return str(error)

    def test_a_function_is_refused_by_a_goal_of_its_own(self):
        none, little = "the check refuses no goal of after_next", "this says little of the contract: src/lib.rt:12"
        false, limit = "the facts known there allow values at which this goal is false", "`search` gave up at one of its limits"
        for line, goals, wanted in (
            (f"{self.NOTE} (`returns-in-2`)", [], "open: returns-in-2"),
            (f"{self.NOTE} (`returns-in-2`); {false}", ["returns-in-2", "returns-in-3"], "false: returns-in-2"),
            (f"{self.NOTE} (`returns-in-2`); {limit}", [], "limit: returns-in-2"),
            (f"{self.NOTE} (`one`); {limit}\n{self.NOTE} (`two`)\n{self.NOTE} (`three`); {limit}", [], "open: two"),
            (f"{self.NOTE} (`returns-in-21`)", ["returns-in-2"], "not by returns-in-2, but src/lib.rt:12"),
            (f"{self.NOTE} (`overflow_add`): help: it calls `next`", [], little),
            (self.NOTE, [], little),
            (f"{self.ERROR} `returns`: the two types differ", [], "by hand: returns"),
            (f"{self.ERROR} `returns`: the two types differ\n{self.NOTE} (`b`); {limit}", [], "by hand: returns"),
            (f"{self.ERROR} `returns`: the two types differ", ["returns-in-2"], "not by returns-in-2, but ./proofs"),
            ("./proofs/next/Answers.antt:3:5: error: `returns`: they differ", [], none),
            (f"{self.NOTE} (`returns`)".replace(":12:", ":6:"), [], none),
            ("note: src/lib.rt:12:1: it calls `steps::next`, which is not proved", [], none),
            ("fn steps::after_next: no proof: it calls `steps::next`, which is not proved", [], "it is proved"),
            ("fn steps::after_next: no proof: expected answers; `search` did not prove `a`, `b`", ["b"], "open: b"),
            (f"fn steps::after_next: no proof: `search` did not prove `a`\n{self.NOTE} (`a`); {limit}", [], "limit: a"),
            ("fn steps::after_next: no proof: `search` did not prove `a`; it calls `steps::next`", ["steps::next"], "not by"),
            ("fn steps::after_next_2: no proof: `search` did not prove `returns`", [], none),
            (f"{self.ERROR} `returns`: `c.from` is not in scope", [], "lost name: "),
            (f"{self.ERROR} `returns`: record `A`\n  has no field `b`", [], "lost name: "),
            (f"{self.ERROR} `returns-in-2`: module `Goals` has no `returns-in-2` that can be named from here", [], "lost name: "),
            (f"{self.ERROR} 1 declaration that depends on `ends`, which was rejected, was not checked: returns", [], "lost name: "),
            (f"{self.ERROR} 2 declarations that depend on `A`, which was not admitted, were not checked: a, b", [], "lost name: "),
            (f"{self.ERROR} `ends`: `c.b` is not in scope\n{self.ERROR} `returns`: the two types differ", [], "by hand: returns"),
            (f"{self.ERROR.replace('Answers', 'Invariants')} `invariant-loop-i`: the two types differ", [], "lost name: "),
        ):
            self.assertTrue(self.told(line, goals=goals).startswith(wanted), (line, self.told(line, goals=goals)))

    def test_of_a_definition_a_law_and_a_lemma_that_is_named_count_too(self):
        law = self.NOTE.replace(":12:", f":{STEPS.count(chr(10)) + 1}:") + " (`returns`)"
        lemma = "./proofs/Steps.antt:3:5: error: `shorter`: the two types differ\nfn steps::after_next: not proved"
        of_specs = {"is_alone": True, "is_of_specs": True}
        for line, goals, how, wanted in (
            (law, [], {}, "the check refuses no goal of after_next"),
            (law, [], of_specs, "open: returns"),
            (lemma, [], of_specs, "the check refuses no goal of after_next, but says: fn steps::after_next: not proved"),
            (lemma, ["shorter"], of_specs, "by hand: shorter"),
            (lemma, ["shorter"], {"is_alone": True}, "the check refuses no goal of after_next"),
            (lemma.replace("not proved", "proved"), ["shorter"], of_specs, "it is proved"),
            (lemma.replace("the two types differ", "`x` has no field `y`"), ["shorter"], of_specs, "lost name: shorter"),
        ):
            self.assertTrue(self.told(line, goals=goals, **how).startswith(wanted), self.told(line, goals=goals, **how))


class Cutting(unittest.TestCase):
    def test_bodies_are_cut_but_those_that_are_asked_for(self):
        cut_text = cut.cut_text("src/pairs.rt", SOURCE, {"pairs::Pair::is_single"})
        self.assertEqual(5, cut_text.count("unreachable!()"))
        for kept in ("        self.len() == 1\n", "    fn bytes(&self) -> usize;\n", "    ensures one { 1 ≡ 1 }\n{\n    crate::cut_away::never();\n    unreachable!()\n}\n"):
            self.assertIn(kept, cut_text)
        for gone in ("self.bytes() / 2", "Pair(1, 2)", "{}"):
            self.assertNotIn(gone, cut_text)
        self.assertIn("    ensures one { 1 ≡ 1 }\n{}\n", cut.cut_text("src/pairs.rt", SOURCE, {"pairs::law"}))

    def test_what_types_compute_and_tests_and_macros_stay(self):
        macro = "macro_rules! pair {\n    () => {\n        fn pair() -> u8 {\n            2\n        }\n    };\n}\n"
        self.assertEqual(macro, cut.cut_text("src/lib.rt", macro))
        for head in ("pub const fn size() -> usize", "#[test]\nfn sizes()", "#[cfg(test)]\nfn size() -> usize"):
            text = f"{head} {{\n    2\n}}\n"
            self.assertEqual(text, cut.cut_text("src/lib.rt", text))
        found = [f"walk::{it}" for it in ("down", "up", "rest")]
        self.assertEqual(CYCLE, cut.cut_text("src/walk.rt", CYCLE, found))
        self.assertNotIn("#[cycle", cut.cut_text("src/walk.rt", CYCLE))

    def test_functions_that_are_proved_together_stay_together(self):
        found = {path: ("src/walk.rt", it) for path, it in edits.functions_in("src/walk.rt", CYCLE).items()}
        self.assertEqual({"walk::down", "walk::up"}, cut.with_cycles(found, {"walk::up"}))
        self.assertEqual({"walk::rest"}, cut.with_cycles(found, {"walk::rest"}))
        self.assertEqual({"walk/up", "walk/+walk"}, cut.folders_of(found, {"walk::up"}))

    def test_a_copy_has_lemmas_and_proofs_of_what_is_whole(self):
        with tempfile.TemporaryDirectory(prefix="mutants-test-") as root:
            listed = ("proofs/Steps.antt", "proofs/walk/Answers.antt", "proofs/half/Answers.antt", "specs/Answers.antt")
            for path in listed:
                write(f"{root}/crates/steps/{path}", f"pub one : goal.one\n\npub {path} : goal.two\n")
            write(f"{root}/crates/steps/src/lib.rt", STEPS)
            write(f"{root}/crates.txt", "steps:\n")
            crate = mutants.crates_of(root, root)["steps"]
            crate.read_functions()
            cut.cut_crate(crate, f"{root}/copy", {"specs/Answers.antt": "new\n"}, {"walk"})
            self.assertFalse(os.path.exists(f"{root}/copy/proofs/half"))
            for path, text in {listed[0]: f"pub one : goal.one\n\npub {listed[0]} : goal.two\n", listed[3]: "new\n"}.items():
                self.assertEqual(text, read(f"{root}/copy/{path}"))
            left = {"proofs/walk/Answers.antt": f"pub {listed[1]} : goal.two\n"}
            self.assertEqual(left, cut.without_answers(crate, {"walk": ["one", "other"]}))
            self.assertEqual(3, read(f"{root}/copy/src/lib.rt").count("crate::cut_away::never();"))
            self.assertTrue(read(f"{root}/copy/src/lib.rt").endswith("}\nmod cut_away;\n"))
            self.assertIn("ensures { ⊥ }", read(f"{root}/copy/src/cut_away.rt"))
            refused = "no-offers : no-offers\nno-offers = no-offers\n"
            wanted = {listed[1]: f"{left[listed[1]]}\n{refused}", "proofs/next/Answers.antt": refused}
            self.assertEqual(wanted, cut.without_offers(crate, ["walk", "next"], left))
            self.assertEqual([f"pub one : goal.one\n\npub {listed[2]} : goal.two\n\n{refused}"], [*cut.without_offers(crate, ["half"], {}).values()])


class Trying(unittest.TestCase):
    def test_only_the_mutants_that_are_named_are_tried(self):
        with tempfile.TemporaryDirectory(prefix="mutants-test-") as root:
            write(f"{root}/crates.txt", "steps:\n")
            write(f"{root}/crates/steps/src/lib.rt", STEPS)
            listed = "".join(f"## {name}\nfile: src/lib.rt\n{edit}\n\n" for name, (edit, _) in EDITS.items())
            write(f"{root}/crates/steps/mutants.edits", listed)
            with contextlib.redirect_stdout(io.StringIO()) as said:
                for names in (["steps_by_one", "does_not_apply"], ["steps_by_two"]):
                    with unittest.mock.patch.object(mutants.Trial, "run", lambda it: print([mutant.name for mutant in it.mutants])):
                        status = mutants.try_mutants(root, ["steps"], root, only=names)
        lines = said.getvalue().splitlines()
        self.assertEqual((2, ["['steps_by_one']"], "mutants: there is no mutant steps_by_two to try"), (status, lines[1:2], lines[-1]))

    def test_mutants_of_a_small_crate(self):
        with tempfile.TemporaryDirectory(prefix="mutants-test-") as root:
            write(f"{root}/crates.txt", "steps:  # no library but std\n")
            for path, text in {"src/lib.rt": STEPS, **PROOFS}.items():
                write(f"{root}/crates/steps/{path}", text)
            for path, listed, folder in (("crates/steps/mutants", EDITS, "src"), ("equivalent", EQUIVALENT, "crates/steps/src")):
                of = (f"## {name}\nfile: {folder}/lib.rt\n{edit}\n\n" for name, (edit, _) in listed.items())
                write(f"{root}/{path}.edits", "".join(of))
            with contextlib.redirect_stdout(io.StringIO()) as said:
                status = mutants.try_mutants(root, [], mutants.kit_folder(), equivalents=f"{root}/equivalent.edits")
        lines = said.getvalue().splitlines()
        told = dict(it.split(": ", 1) for it in lines if it.startswith("steps/") and "is tried alone" not in it)
        for name, (_, wanted) in {**EDITS, **EQUIVALENT}.items():
            self.assertTrue(told.get(f"steps/{name}", "").startswith(wanted), f"{name}: {told[f'steps/{name}']}")
        self.assertEqual((1, "6 passed, 10 failed"), (status, lines[-1]))


def read(path):
    with open(path, encoding="utf-8") as file:
        return file.read()


def write(path, text):
    os.makedirs(os.path.dirname(path), exist_ok=True)
    with open(path, "w", encoding="utf-8") as file:
        file.write(text)


if __name__ == "__main__":
    ran = unittest.main(exit=False).result
    failed = len(ran.failures) + len(ran.errors)
    print(f"{ran.testsRun - failed} passed, {failed} failed")
    sys.exit(1 if failed else 0)
