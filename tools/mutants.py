#!/usr/bin/env python3
"""Tries the mutants of the crates: edits of the code that the prover has to refuse.

usage: tools/mutants.py [--jobs N] [--only NAME].. [CRATE..]

The mutants of a crate are in the file crates/NAME/mutants.edits: for each a heading '## NAME', a line
'file: src/FILE.rt', and then pairs of lines 'old: TEXT' and 'new: TEXT'. Each old text is in that file once; further pairs
apply to what the earlier ones made. With no CRATE named, the mutants of all crates of crates.txt are tried, and with --only
those of these names.

A mutant changes bodies of functions, which have to be refused, or something else. Then it names by lines 'at: PATH' the
functions that have to be refused. Lines 'goal: NAME' name goals, by one of which it has to be refused.

A check judges these functions alone: all other bodies are cut, in the crate and in those below it, as tools/cut.py says. So
nothing has to be proved before. A library that is proved (`rt all check`, `rt ci`) takes the place of its cut sources, since
a check over it is several times as fast. Mutants of different functions are tried together. Each has to be refused by a goal
of such a function: told by a note at a line of the function, by an error of the goal's proof in that function's folder of
proofs/, or as a goal that no search proved. A mutant that changes a definition of specs/, or was not judged with the others,
is tried alone. For a definition, a goal of a theorem counts too, which is a function with a contract and an empty body, and a
lemma that a line 'goal: NAME' names, if these functions are not proved without it. The first check of a mutant is a quick
one, which can refuse its function but not tell it for proved: cut.py says how. What no quick check refuses, another judges.

What was told of a mutant is one of these words. These refuse it:

    false      the facts known there allow values at which the goal is false
    open       the search tried all that it tries, and did not prove the goal
    by hand    the goal's proof by hand fails, and without that proof the search fails too
    limit      the search, which proves the goal of the code as it is, gave up at one of its limits. This shows least

This does not:

    lost name  a proof by hand names what the edit takes away, or rests on one that does, and without that proof the facts
               allow no such values: an edit that means the same as the code would do that too

The file equivalent.edits beside this one has edits that mean the same as the code, of files 'crates/NAME/FILE'. Each is tried
with the mutants of its crate, and must not be refused, by a limit neither.

The last line is 'N passed, M failed', and the status 0 only if all mutants are refused, and no equivalent edit is.
"""
import argparse
import contextlib
import os
import sys
import tempfile
from collections import Counter
from concurrent.futures import ThreadPoolExecutor

sys.dont_write_bytecode = True
sys.path.insert(0, os.path.dirname(os.path.realpath(__file__)))
from checks import BY_HAND, FALSE, LIMIT, LOST, OPEN, check  # noqa: E402
from crates import crates_of, kit_folder, lanes  # noqa: E402
from cut import cut_crate, without_answers, without_offers  # noqa: E402
from edits import EditError, edited_texts, entries_of, functions_in, values_of  # noqa: E402

# How many mutants one check has at most: so that no check goes on long after all others.
MOST = 48
# What a goal that is not proved has to show to refuse a mutant.
REFUSE = (FALSE, OPEN, BY_HAND, LIMIT)


class Mutant:
    """An edit. Its bodies are those of the functions that it changes, {path: lines}, or {} if it changes something else.
    Its seats are the functions that have to be refused, or must not be if it is equivalent to the code."""

    def __init__(self, crate, name, edit, is_equivalent=False):
        self.crate, self.name, self.edit, self.is_equivalent = crate, name, edit, is_equivalent
        self.texts = edited_texts(edit, crate.folder)
        self.goals, places = values_of(edit, "goal"), values_of(edit, "at")
        self.bodies = self.changed_bodies()
        self.seats = places or [*self.bodies]
        self.is_of_specs = any(it.startswith("specs/") for it in self.texts)
        if not self.seats:
            raise EditError("it changes no body of a function: name what has to be refused by a line 'at: PATH'")
        unknown = [it for it in self.seats if it not in crate.functions]
        if unknown:
            raise EditError(f"the crate has no function {unknown[0]}")

    def changed_bodies(self):
        bodies = {}
        for file, text in self.texts.items():
            was = functions_in(file, self.crate.texts.get(file, ""))
            now = functions_in(file, text)
            if [*was] != [*now] or without_bodies(self.crate.texts.get(file, ""), was) != without_bodies(text, now):
                return {}
            bodies |= {path: it.lines for path, it in now.items() if it.lines != was[path].lines}
        return bodies


def without_bodies(text, functions):
    lines = text.split("\n")
    for it in reversed(functions.values()):
        del lines[it.opening + 1 : it.end]
    return lines


class Batch:
    """Mutants that one check tells apart, each by functions of its own, and the texts of the files that they change."""

    def __init__(self, mutant):
        self.mutants, self.texts = [mutant], mutant.texts

    def seats(self):
        return [*dict.fromkeys(path for it in self.mutants for path in it.seats)]

    def whole(self):
        """The functions whose bodies are not cut: those to be judged, those that are changed, and for a definition theorems."""
        functions = self.mutants[0].crate.functions
        laws = {path for path, (_, it) in functions.items() if it.is_law and self.mutants[0].is_of_specs}
        return laws | {path for it in self.mutants for path in (*it.seats, *it.bodies)}

    def takes(self, mutant):
        """Takes the mutant in, if it goes with the others."""
        first, taken = self.mutants[0], {path for it in self.mutants for path in it.seats}
        goes = bool(first.bodies) == bool(mutant.bodies) and not first.is_of_specs and not mutant.is_of_specs
        if goes and not taken & {*mutant.seats} and len(self.mutants) < MOST:
            with contextlib.suppress(EditError):
                self.texts = edited_texts(mutant.edit, mutant.crate.folder, self.texts)
                self.mutants.append(mutant)
                return True
        return False


def batches_of(mutants):
    """Batches of mutants that one check tells apart: each in the first batch that it goes with."""
    batches = []
    for mutant in mutants:
        if not any(it.takes(mutant) for it in batches):
            batches.append(Batch(mutant))
    return batches


class Trial:
    """The mutants of one crate, and what came of them. Its checks run one after another, each on what those before found."""

    def __init__(self, crate, room, only=()):
        self.crate, self.kept, self.only = crate, f"{room}/kept/{crate.name}", only
        self.mutants, self.names, self.shown, self.passed, self.failed = [], [], Counter(), 0, 0
        self.work, self.checks, self.by_hand = 0.0, 0, {}
        os.makedirs(self.kept)
        with open(f"{crate.folder}/mutants.edits", encoding="utf-8") as file:
            for it in entries_of(file.read()):
                self.take_in("mutants.edits", *it)

    def take_in(self, list_name, line, name, edit, wrong, is_equivalent=False):
        if self.only and name not in self.only:
            return
        self.names.append(name)
        try:
            if wrong:
                raise EditError(wrong)
            self.mutants.append(Mutant(self.crate, name, edit, is_equivalent))
        except EditError as error:
            self.fails(name, f"BAD EDIT: {list_name}:{line}: {error}")

    def say(self, name, text):
        print(f"{self.crate.name}/{name}: {text}", flush=True)

    def fails(self, name, text):
        self.failed += 1
        self.say(name, text)

    def passes(self, name, text):
        self.passed += 1
        self.say(name, text)

    def judge(self, mutant, told, shows=None):
        """Takes what refuses a mutant, or what was told of it if nothing does, or None, and what that shows."""
        shows = shows or told and told.shows
        if mutant.is_equivalent and shows in REFUSE:
            self.fails(mutant.name, f"REFUSED ({shows}), though it means the same as the code: {told.line[:160]}")
        elif mutant.is_equivalent:
            self.passes(mutant.name, f"not refused ({shows or 'proved'}), as it means the same as the code")
        elif not told:
            self.fails(mutant.name, f"NOT REFUSED: {' and '.join(mutant.seats)} is still proved with this edit")
        elif shows not in REFUSE:
            self.fails(mutant.name, f"NOT REFUSED ({shows}): {told.line[:240]}")
        else:
            self.shown[shows] += 1
            self.passes(mutant.name, f"refused ({shows}): `{told.goal}`: {told.line[:160]}")

    def check(self, batch, proofs=None, is_quick=True):
        """Checks the functions of these mutants. A quick check never tells a function of a mutant for proved."""
        proofs = proofs or {}
        if is_quick:
            seats = {path for it in batch.mutants if not it.is_equivalent for path in it.seats}
            proofs = {**proofs, **without_offers(self.crate, seats, {**batch.texts, **proofs})}
        answer = check(self.crate, batch.texts, batch.seats(), batch.whole(), self.kept, proofs)
        self.work, self.checks = self.work + answer.seconds, self.checks + 1
        return answer

    def run(self):
        for batch in batches_of(self.mutants):
            self.try_together(batch)
        for batch in batches_of([mutant for mutant, _ in self.by_hand.values()]):
            self.try_without_answers(batch)
        shown = ", ".join(f"{number} {it}" for it, number in sorted(self.shown.items()))
        print(f"== {self.crate.name}: {shown}; {self.checks} checks, {self.work / 60:.1f} processor minutes", flush=True)

    def try_together(self, batch, is_quick=True):
        """Tries mutants in one quick check that tells them apart. Those that it does not settle are tried alone."""
        answer, is_alone = self.check(batch, is_quick=is_quick), len(batch.mutants) == 1
        if answer.why and not is_alone:
            # one of them does not compile, or is not read
            for half in (batch.mutants[::2], batch.mutants[1::2]):
                for it in batches_of(half):
                    self.try_together(it)
            return
        for mutant in batch.mutants:
            try:
                told = answer.told_of_mutant(mutant, is_alone)
            except EditError as error:
                if not is_quick:
                    self.fails(mutant.name, f"BAD EDIT: {error}")
                else:
                    self.say(mutant.name, f"is tried alone: {str(error)[:240]}")
                    self.try_together(Batch(mutant), is_quick=False)
                continue
            answered = [it.goal for it in told if it.shows in (BY_HAND, LOST)]
            is_settled = not told or told[0].shows in (FALSE, OPEN)
            if not is_settled and without_answers(self.crate, dict.fromkeys(mutant.seats, answered)):
                self.by_hand[mutant.name] = (mutant, told)
            else:
                self.judge(mutant, told[0] if told else None)

    def try_without_answers(self, batch, is_quick=True):
        """Tries mutants again whose proofs by hand fail, without these proofs. A goal whose proof does not fit has to fail so
        too. If its proof lost a name, only values at which the goal is false refuse the mutant. Those that a quick check does
        not settle are tried so alone."""
        goals = {it: [told.goal for told in self.by_hand[mutant.name][1]] for mutant in batch.mutants for it in mutant.seats}
        proofs = without_answers(self.crate, goals)
        answer = self.check(batch, proofs, is_quick)
        for mutant in batch.mutants:
            told = self.by_hand[mutant.name][1]
            shown = {it.goal: it.shows for it in answer.told_of(mutant.seats) if it.goal}
            false = [it for it in told if shown.get(it.goal) == FALSE]
            fails = any(it.goal in shown or it.shows == LOST for it in told)
            if answer.why and is_quick:
                self.try_without_answers(Batch(mutant), is_quick=False)
            elif answer.why:
                self.fails(mutant.name, f"BAD EDIT: without its proof by hand, {answer.why}")
            elif false:
                self.judge(mutant, false[0], FALSE)
            elif not fails and is_quick:
                self.try_without_answers(Batch(mutant), is_quick=False)
            elif fails or not {*mutant.seats} <= answer.accepted:
                self.judge(mutant, told[0])
            else:
                self.judge(mutant, None)


def trials_of(root, names, kit, room, only=()):
    """The trials of the crates of these names, or of all, that have mutants: of all their mutants, or of those of `only`."""
    crates = crates_of(root, kit)
    unknown = [it for it in names if it not in crates]
    if unknown:
        sys.exit(f"mutants: crates.txt names no crate {unknown[0]}")
    for it in crates.values():
        it.read_functions()
        if not all(lib.is_built() for lib in [*it.below(), it]):
            it.source = f"{room}/below/{it.name}"
            cut_crate(it, it.source)
    chosen = [it for it in crates.values() if not names or it.name in names]
    return [Trial(it, room, only) for it in chosen if os.path.isfile(f"{it.folder}/mutants.edits")]


def take_in_equivalents(trials, path):
    """Gives the equivalent edits to the trials of their crates."""
    with open(path, encoding="utf-8") as file:
        for line, name, edit, wrong in entries_of(file.read()):
            for it in trials:
                own = edit.replace(f"file: crates/{it.crate.name}/", "file: ")
                if own != edit:
                    it.take_in(os.path.basename(path), line, name, own, wrong, is_equivalent=True)


def try_mutants(root, names, kit, jobs=0, equivalents="", only=()):
    with tempfile.TemporaryDirectory(prefix="mutants-") as room:
        trials = trials_of(root, names, kit, room, only)
        if equivalents:
            take_in_equivalents(trials, equivalents)
        unknown = {*only} - {name for it in trials for name in it.names}
        if unknown:
            print(f"mutants: there is no mutant {' or '.join(sorted(unknown))} to try")
            return 2
        # (those of most checks first)
        with ThreadPoolExecutor(lanes(jobs)) as pool:
            [*pool.map(Trial.run, sorted(trials, key=lambda it: -len(it.mutants)))]
    passed, failed = sum(it.passed for it in trials), sum(it.failed for it in trials)
    shown, work = sum((it.shown for it in trials), Counter()), sum(it.work for it in trials)
    counts = ", ".join(f"{number} {it}" for it, number in sorted(shown.items()))
    print(f"mutants: {sum(len(it.mutants) for it in trials)} tried ({counts}), {work / 60:.1f} processor minutes")
    print(f"{passed} passed, {failed} failed", flush=True)
    return 1 if failed else 0


def main():
    reader = argparse.ArgumentParser(description=__doc__, formatter_class=argparse.RawDescriptionHelpFormatter)
    reader.add_argument("--jobs", type=int, default=0, help="how many checks run at once")
    reader.add_argument("--only", metavar="NAME", action="append", default=[], help="the name of a mutant to try alone")
    reader.add_argument("crates", nargs="*")
    given = reader.parse_args()
    here = os.path.dirname(os.path.realpath(__file__))
    return try_mutants(os.path.dirname(here), given.crates, kit_folder(), given.jobs, f"{here}/equivalent.edits", given.only)


if __name__ == "__main__":
    sys.exit(main())
