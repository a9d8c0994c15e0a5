"""Checks of a crate with edited texts, and what they say of its functions."""
import os
import re
import subprocess
import tempfile
from typing import NamedTuple

from cut import NO_OFFERS, cut_crate
from edits import EditError

OWN_NOTE = re.compile(r"note: (?:\./)?(src/[^:]+):(\d+):\d+: (it is not proved that .*)")
ONLY_A_CALLEE = re.compile(r"\b(it calls|it passes|a call of)\b")
OPEN_GOALS = re.compile(r"fn \w+::(\S+): no proof: .*`search` did not prove (`[^;]*)")
UNPROVED = re.compile(r"fn \w+::(\S+): no(?:t proved| proof)")
# A function all of whose goals are proved, though what it calls may not be.
ACCEPTED = re.compile(r"fn \w+::(\S+): (?:proved|no(?:t proved;| proof:) it (?:calls|passes) )")
# An error of a proof by hand, with the goal or lemma that it proves. Invariants.antt has none.
PROOF_ERROR = re.compile(r"(?:\./)?proofs/(?:(\S+)/)?(\w+)\.antt:\d+:\d+: error: (?:`([^`]+)`: )?(.*)")
# A proof that names what an edit took away says little of the contract, and a declaration that was not checked nothing.
LOST_NAME = re.compile(
    r"has no field|is not in scope(?! here, so)|has no (?:member|constructor)? ?`|names nothing|is no name|is private to"
    r"|not admitted|not checked|which was rejected"
)
TEXT_ERROR = re.compile(r"(?:\./)?((?:src|specs|proofs)/[^:]+):\d+:\d+: error: (?:(`[^`]*`): )?(.*)")
UNREADABLE = re.compile(
    r"is not in scope|has no field|is no name|operand is missing|expected the end|cannot continue"
    r"|its whole path can stand in a term only"
)

# What a goal that is not proved shows: the facts there allow values at which it is false; the search tried all that it
# tries; it gave up at a limit; a proof by hand does not fit, as it is or since it names what the edit took away.
FALSE, OPEN, LIMIT, BY_HAND, LOST = "false", "open", "limit", "by hand", "lost name"
SHOWS = ((FALSE, "allow values at which this goal is false"), (LIMIT, "gave up at one of its limits"))


class Told(NamedTuple):
    """A line of a check, a goal or lemma that it says is not proved, and what that shows."""

    line: str
    goal: str
    shows: str


def run(words, folder):
    """Runs a program: its status, what it said, and the seconds of a processor that it took."""
    with tempfile.TemporaryFile("w+", errors="replace") as said:
        ran = subprocess.Popen(words, cwd=folder, stdin=subprocess.DEVNULL, stdout=said, stderr=subprocess.STDOUT)
        _, status, usage = os.wait4(ran.pid, 0)
        ran.returncode = os.waitstatus_to_exitcode(status)
        said.seek(0)
        return ran.returncode, said.read(), usage.ru_utime + usage.ru_stime


def check(crate, texts, seats, whole, kept, proofs=None):
    """Checks functions of a crate with these texts, and these of its proofs, in the place of its own: the functions with the
    paths `seats`. All bodies but those of `whole` are cut. The folder `kept` has what earlier checks found out, and gets what
    this one finds out."""
    with tempfile.TemporaryDirectory(prefix="mutants-") as copy:
        functions = cut_crate(crate, copy, {**texts, **(proofs or {})}, whole)
        words = [f"{crate.kit}/bin/rattle", "check", *crate.words(), "--incremental", kept, "--jobs", "1"]
        return Answer(*run([*words, *(it for path in seats for it in ("--only", path))], copy), [*texts], functions)


class Answer:
    """What a check said of the functions of a copy: which it judged, what it refused, or why it did neither."""

    def __init__(self, status, said, seconds, files, functions):
        self.seconds, self.lines, self.functions = seconds, said.rstrip("\n").split("\n"), functions
        self.accepted = {it[1] for it in map(ACCEPTED.match, self.lines) if it}
        unread = next((it for it in self.messages() if is_unread(it, files)), "")
        self.why = f"the prover cannot read the edited text: {unread[:200]}" if unread else ""
        if not unread and not (status in (0, 1) and self.lines[-1].startswith("only=")):
            errors = [it for it in self.lines if "error" in it] or self.lines[-3:]
            self.why = f"it did not reach the prover: {' | '.join(errors[:3])[:400]}"

    def messages(self):
        """The lines, each with the one below it if that goes on with it."""
        for line, after in zip(self.lines, [*self.lines[1:], ""]):
            yield f"{line} {after.strip()}" if after.startswith("  ") else line

    def told_of(self, seats):
        """What is told of goals of these functions that are not proved. The goal is '' if that says little of the contract."""
        return [it for seat in seats for it in self.told_of_function(seat)]

    def told_of_function(self, seat):
        file, turned = self.functions[seat]
        found, folder, left = [], seat.replace("::", "/"), []
        for line, message in zip(self.lines, self.messages()):
            note, error, goals = (it.match(line) for it in (OWN_NOTE, PROOF_ERROR, OPEN_GOALS))
            if note and note[1] == file and turned.has_line(int(note[2])):
                names = [] if ONLY_A_CALLEE.search(note[3]) else names_in(note[3], r"\(`([^`]+)`\)")
                found += (Told(line[len("note: ") :], it, shown_by(note[3])) for it in names or [""])
            elif error and error[3] != NO_OFFERS and (error[1] == folder or is_in_cycle(error, folder)):
                found.append(told_by_hand(line, error, message))
            elif goals and goals[1] == seat:
                left += (Told(line, it, OPEN) for it in names_in(goals[2]))
        # (a note says more of a goal)
        return found + [it for it in left if it.goal not in {told.goal for told in found}]

    def told_of_lemmas(self, seats):
        """What is told of the lemmas on which the proofs of these functions rest, if they are not proved."""
        unproved = {it[1] for it in map(UNPROVED.match, self.lines) if it}
        if unproved & {*seats}:
            for line, message in zip(self.lines, self.messages()):
                error = PROOF_ERROR.match(line)
                if error and error[2] not in ("Answers", "Invariants", "Proof"):
                    yield told_by_hand(line, error, message)

    def told_of_mutant(self, mutant, is_alone=False):
        """What is told of goals that may refuse a mutant, first what refuses it best. If it changes a definition and was
        tried alone, these are also goals of theorems, and lemmas that the mutant names."""
        if self.why:
            raise EditError(self.why)
        told = self.told_of(mutant.seats)
        if is_alone and mutant.is_of_specs:
            told += self.told_of([it for it, (_, found) in self.functions.items() if found.is_law])
            told += [it for it in self.told_of_lemmas(mutant.seats) if it.goal in mutant.goals]
        if not told and {*mutant.seats} <= self.accepted:
            return []
        shown = [it for it in told if it.shows == LOST or it.goal and (not mutant.goals or it.goal in mutant.goals)]
        if not shown:
            raise EditError(self.why_none(mutant, told))
        return sorted(shown, key=lambda it: (FALSE, OPEN, BY_HAND, LIMIT, LOST).index(it.shows))

    def why_none(self, mutant, told):
        """Why what is told does not refuse the mutant."""
        other = next((it.line for it in told if it.goal), None)
        if other:
            return f"not by {' or '.join(mutant.goals)}, but {other}"
        if told:
            return f"this says little of the contract: {told[0].line}"
        unproved = [line for line in self.lines if (found := UNPROVED.match(line)) and found[1] in mutant.seats]
        return f"the check refuses no goal of {' or '.join(mutant.seats)}, but says: {(unproved or self.lines[-1:])[0]}"


def shown_by(text):
    """What a goal shows of which the check says this."""
    return next((shows for shows, words in SHOWS if words in text), OPEN)


def told_by_hand(line, error, message):
    """What an error of a proof by hand tells: little of the contract, if it names what an edit took away."""
    goal = "" if error[2] == "Invariants" else error[3] or ""
    return Told(line, goal, BY_HAND if goal and not LOST_NAME.search(message) else LOST)


def names_in(text, pattern="`([^`]+)`"):
    return re.findall(pattern, text)


def is_in_cycle(error, folder):
    """Whether it is of a goal of the function with this folder, which is proved with others: proofs/MODULE/+CYCLE has them."""
    module, _, cycle = (error[1] or "").rpartition("/")
    own, _, name = folder.rpartition("/")
    return cycle.startswith("+") and module == own and (error[3] or "").startswith(f"{name}-")


def is_unread(message, files):
    """Whether the message says that an edited text cannot be read."""
    found = TEXT_ERROR.match(message)
    if not found or found[1] not in files and not found[1].startswith(("src/", "specs/")):
        return False
    return not found[2] or bool(UNREADABLE.search(re.sub(r"`[^`]*`", "", found[3])))
