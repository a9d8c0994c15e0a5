#!/usr/bin/env python3
"""Runs the programs on the files of runs/, and compares their output and exit status with what is expected.

usage: tools/runs.py [--binary PROGRAM=PATH].. [--write] [RUN..]

Each file below runs/ has a run, or several, except stored input: the files in a folder `inputs`, at any depth. RUN names a
file, or a folder of files: `debug/vlan`, `debug`. Without a name, all run.

A file begins with a head, which a blank line ends:

    # A comment of the file. It is not input.
    program: nlshow
    arguments: --format debug
    status: 1

`arguments` are split into words as a shell splits them. Without that line there are none, and without `status` it is 0.
With `stdout: full`, the standard output is /dev/full, where each write fails. With `input: PATH`, the standard input is a
stored file; PATH is relative to the folder of the run. Each line below the head is one of:

    > TEXT    a line of the input, which the program repeats in its output
    < TEXT    a line of the input
    # TEXT    a line of the input: `# TEXT`, which `nlshow` ignores
              likewise a blank line
    | TEXT    a line of the output
    TEXT      likewise, if it has none of these marks
    ! TEXT    a line on standard error, where a program prints nothing else
    = HEX     bytes of the input, without LF. White space among the digits is ignored
    |= HEX    likewise of the output
    @ NAME    the input below is that of the file NAME, up to the next such line. `@` returns to standard input

So the output of `nlshow` is written as it is printed, with a mark at each line that it repeats. `>+ TEXT`, `<+ TEXT`,
`|+ TEXT` and `!+ TEXT` are texts without LF, and `>* N TEXT` and so on are N times the text, without LF. Likewise
`=* N HEX` and `|=* N HEX` are N times the bytes. Texts and names are bytes: a tab, a CR, or a blank at the end of a line
counts. In the output, `{FAMILIES}` stands for the names of the attribute sets, as in `bond, bridge or vlan`.

A file with several runs has each below a line `== TITLE`, with a title of its own:

    == a truncated header
    status: 1
    < 08 00 01
    fault at 0: short frame 3

Directly below the title may be lines of a head and comments, for this run only. Each such line takes the place of that of
the file's head. The last blank lines of a run are not input. No other line is above the first title.

The program runs in a folder of its own, which has the files that `@` begins and those that `files: PATH..` names. PATHs
are split as `arguments` are, and lead to stored files, as that of `input` does. Each has the last part of its path as
its name.

The program is the one that `rt ci` has built in crates/PROGRAM/out, or that of --binary: bench/unproved.py builds one
in a minute, bench/out/nlshow. For a run that fails, its file (and `:TITLE`, if it has one) and the first lines that differ
are printed, after the number of the line of the file: after `-` those that are expected, after `+` those of the program.
The last line is 'N passed, M failed', counted in runs, and the status 0 only if all passed.

With --write, which needs a RUN, what these files expect becomes what the programs print, and their status. Input, comments
and lines that are right stay as they are. A new line takes the place of one that differs, and further lines are below it. So
a new file can have lines `> TEXT` alone; where a program does not repeat its input, write any line, such as `?`, at the place
of its output. Nothing is written for a program that does not run, or that a signal ends.

What is written is what the program does, right or wrong. Read the difference, and work out each value of it by hand from
the kernel's headers: expected values that are taken from a program find none of its mistakes.
"""
import argparse
import difflib
import itertools
import os
import re
import shlex
import subprocess
import sys
import tempfile

sys.dont_write_bytecode = True
sys.path.insert(0, os.path.dirname(os.path.realpath(__file__)))
from families import names  # noqa: E402

ROOT = os.path.dirname(os.path.dirname(os.path.realpath(__file__)))
HEAD = re.compile(rb"(program|arguments|status|stdout|input|files): ?(.*)")
MARKED = re.compile(rb"[<>|!](?:(\+)|\* (\d+))?(?: (.*))?", re.DOTALL)
IN_HEX = re.compile(rb"\|?=(?:\* (\d+))? (.*)", re.DOTALL)
*FIRST, LAST = names()
FAMILIES = f"{', '.join(FIRST)} or {LAST}".encode()
NO_RUN = "there is no such run"
READ = "This is what the programs print. Read the difference, and work out each value by hand from the kernel's headers."
# The most seconds that a program may take.
SECONDS = 60
# How many lines that differ are printed, and how many characters of a line.
LINES, WIDTH = 3, 160


class Run:
    """A run: `program`, `arguments`, `status`, and the bytes of `given`: of each file that the run has, by its name, and of
    standard input, whose name is empty. `input` and `files` are the paths of stored files. `stdout` and `stderr` have what
    is expected, in parts, each with the number of its line. `full` is true if the standard output is /dev/full. `title` is
    empty if the run has a file to itself. It is made of the lines of its head and of those below, with their numbers. `ends`
    are the numbers of the last line of its own head and of its last line."""

    def __init__(self, head, lines, ends, title=""):
        self.ends = ends
        self.program, self.arguments, self.status, self.full = None, [], 0, False
        self.input, self.files, self.name, self.given = None, [], b"", {b"": b""}
        self.stdout, self.stderr, self.title = [], [], title
        for number, line in head:
            in_line(number, self.read_head, line)
        for number, line in lines:
            in_line(number, self.read_line, number, line)
        if self.program is None:
            raise ValueError("line 1: the head names no program")

    @property
    def stdin(self):
        return self.given[b""]

    def read_head(self, line):
        found = HEAD.fullmatch(line)
        if found:
            key, value = (it.decode(errors="surrogateescape") for it in found.groups())
            if key == "stdout" and value != "full":
                raise ValueError("stdout can only be full")
            parts = {"arguments": shlex.split, "files": shlex.split, "status": int, "stdout": bool}
            setattr(self, "full" if key == "stdout" else key, parts.get(key, str)(value))
        elif not line.startswith(b"#"):
            raise ValueError("the head has a line that is none of program, arguments, status, stdout, input and files")

    def read_line(self, number, line):
        mark = line[:1]
        if mark == b"@":
            self.begin_file(line)
            return
        text = text_of(line)
        if not mark or mark in b"#<>=":
            self.add_input(text)
        if mark == b"!":
            self.stderr.append((number, text))
        elif mark and mark not in b"#<=":
            if self.full:
                raise ValueError("there is output, but stdout is full")
            self.stdout.append((number, text.replace(b"{FAMILIES}", FAMILIES)))

    def begin_file(self, line):
        self.name = line[2:]
        if line[1:2] not in (b"", b" ") or b"/" in self.name:
            raise ValueError("`@` takes the name of a file, without a slash, or nothing")
        if self.name and self.name in self.given:
            raise ValueError("there is already a file of this name")
        self.given.setdefault(self.name, b"")

    def add_input(self, text):
        if self.input is not None and not self.name:
            raise ValueError("there is standard input, but it is that of `input`")
        self.given[self.name] += text


def in_line(number, call, *values):
    """Makes the call for a line, whose number a ValueError names."""
    try:
        return call(*values)
    except ValueError as error:
        raise ValueError(f"line {number}: {error}") from None


def runs_in(text):
    """The runs of a file. A file that has none is a ValueError, which names the line."""
    *lines, rest = text.split(b"\n")
    if rest:
        raise ValueError(f"line {len(lines) + 1}: the last line has no LF")
    end = lines.index(b"") if b"" in lines else len(lines)
    numbered = [*enumerate(lines, 1)]
    head, below = numbered[:end], numbered[end + 1 :]
    starts = [at for at, (_, line) in enumerate(below) if line.startswith(b"==")]
    if not starts:
        return [Run(head, below, (last_of_head(head), len(lines)))]
    for number, line in below[: starts[0]]:
        if line:
            raise ValueError(f"line {number}: it belongs to no run, since the first title is below it")
    found = {}
    for at, after in zip(starts, [*starts[1:], None]):
        run = titled(head, below[at:after])
        if found.setdefault(run.title, run) is not run:
            raise ValueError(f"line {below[at][0]}: there is already a run with this title")
    return [*found.values()]


def titled(head, lines):
    """A run of a file with several: that of these lines, whose first has its title."""
    (number, first), *below = lines
    title = first[3:].decode(errors="surrogateescape")
    if first[:3] != b"== " or not title.strip():
        raise ValueError(f"line {number}: `==` takes a title, after a blank")
    while below and not below[-1][1]:
        below.pop()
    own = [*itertools.takewhile(lambda it: it[1].startswith(b"#") or HEAD.fullmatch(it[1]), below)]
    ends = max(number, last_of_head(own)), below[-1][0] if below else number
    return Run(head + own, below[len(own) :], ends, title)


def last_of_head(lines):
    """The number of the last of these lines that is none of comments; 0 if there is none."""
    return max((number for number, line in lines if HEAD.fullmatch(line)), default=0)


def text_of(line):
    """The bytes that a line below the head stands for."""
    mark = line[:1]
    if mark == b"=" or line[:2] == b"|=":
        found = IN_HEX.fullmatch(line)
    elif mark and mark in b"<>|!":
        found = MARKED.fullmatch(line)
    else:
        return line + b"\n"
    if not found:
        raise ValueError("no blank follows the mark")
    if found.re is IN_HEX:
        times, digits = found.groups()
        return bytes.fromhex(digits.decode("latin-1")) * int(times or 1)
    part, times, text = found.groups(default=b"")
    return text * int(times) if times else text if part else text + b"\n"


def difference(parts, printed):
    """The first lines of what a program has printed that differ from these parts of a run, or None."""
    text, places = b"", []
    for number, part in parts:
        places += [number] if part and (not text or text.endswith(b"\n")) else []
        text += part
    wanted, found = (re.findall(rb"[^\n]*\n|[^\n]+", it) for it in (text, printed))
    if wanted == found:
        return None
    at = len(os.path.commonprefix([wanted, found]))
    same = len(os.path.commonprefix([it[at] if at < len(it) else b"" for it in (wanted, found)]))
    said = [f"line {places[at]}" if at < len(wanted) else "at the end"]
    for sign, lines in (("-", wanted), ("+", found)):
        said += [f"  {sign} {shown(it, same)}" for it in lines[at : at + LINES] or [b"(no line)\n"]]
    return "\n".join(said)


def shown(line, same):
    """A line as text. Of a long line it has a part with the place up to which the line is right."""
    text = line.removesuffix(b"\n").decode(errors="backslashreplace") + " (without LF)" * (not line.endswith(b"\n"))
    start = min(max(same - WIDTH // 2, 0), max(len(text) - WIDTH, 0))
    return ".." * (start > 0) + text[start : start + WIDTH] + ".." * (start + WIDTH < len(text))


def tried(root, file, binaries):
    """For each run of a file, its name, and what is wrong with it or with what its program does, or None."""
    try:
        return [(name_of(file, it), fault_of(root, file, it, binaries)) for it in runs_of(root, file)]
    except ValueError as error:
        return [(file, str(error))]


def name_of(file, run):
    """The name of a run, from that of its file."""
    return f"{file}:{run.title}" if run.title else file


def fault_of(root, file, run, binaries):
    """What is wrong with what the program of a run does, or None."""
    try:
        ran = outcome(root, file, run, binaries)
    except ValueError as error:
        return str(error)
    said = difference(run.stderr, ran.stderr)
    wrong = [difference(run.stdout, ran.stdout or b""), said and f"on standard error, {said}"]
    wrong += [f"status {ran.returncode}, expected {run.status}"] if ran.returncode != run.status else []
    return "\n  ".join(filter(None, wrong)) or None


def outcome(root, file, run, binaries):
    """The program of a run, after it has run. If it does not run, that is a ValueError."""
    binary = os.path.abspath(binaries.get(run.program, f"{root}/crates/{run.program}/out/{run.program}"))
    if not os.path.isfile(binary):
        raise ValueError(f"rt ci has not built {binary}")
    add_stored(run, os.path.dirname(f"{root}/runs/{file}"))
    try:
        return started(run, binary)
    except OSError as error:
        raise ValueError(f"{binary} does not run: {error.strerror}") from None
    except subprocess.TimeoutExpired:
        raise ValueError(f"it takes more than {SECONDS} s") from None


def add_stored(run, folder):
    """Adds the stored files of a run to those that it gives. Their paths are relative to the folder."""
    stored = [(os.path.basename(it), it) for it in run.files] + [("", run.input)] * (run.input is not None)
    for name, path in stored:
        try:
            with open(os.path.join(folder, path), "rb") as file:
                run.given[os.fsencode(name)] = file.read()
        except OSError as error:
            raise ValueError(f"the stored file {path}: {error.strerror}") from None


def started(run, binary):
    """The program, after it has run in a folder with the files of the run."""
    with tempfile.TemporaryDirectory(prefix="runs-") as folder, open("/dev/full", "wb") as full:
        for name in filter(None, run.given):
            with open(os.path.join(os.fsencode(folder), name), "wb") as file:
                file.write(run.given[name])
        how = {"stdout": full if run.full else subprocess.PIPE, "stderr": subprocess.PIPE, "timeout": SECONDS, "cwd": folder}
        return subprocess.run([run.program, *run.arguments], executable=binary, input=run.stdin, **how)


def is_run(path):
    """Whether a file below runs/ has runs: no folder on its path is `inputs`."""
    return "/inputs/" not in f"/{path}"


def files_of(root, name=""):
    """The files with the runs of a name, which is that of a file or a folder below runs/."""
    path = os.path.normpath(f"{root}/runs/{name.removeprefix('runs/')}")
    files = [path] if os.path.isfile(path) else [f"{at}/{it}" for at, _, files in os.walk(path) for it in files]
    return sorted(filter(is_run, (os.path.relpath(it, f"{root}/runs") for it in files)))


def runs_of(root, file):
    """The runs of a file below runs/."""
    with open(f"{root}/runs/{file}", "rb") as read:
        return runs_in(read.read())


def check(root, named, binaries):
    """Tries the runs of these names, or all, and prints what is wrong, and how many passed and failed."""
    results = []
    for name in named or [""]:
        found = files_of(root, name)
        for it, wrong in [it for file in found for it in tried(root, file, binaries)] or [(name or "runs", NO_RUN)]:
            results.append(not wrong)
            if wrong:
                print(f"FAILED {it}: {wrong}")
    print(f"{sum(results)} passed, {results.count(False)} failed")
    return 0 if all(results) else 1


# ---- --write


class Edits:
    """Changes of a file's lines, by their numbers: `kept` has what becomes of a line, and `added` what is below it."""

    def __init__(self, lines):
        self.lines, self.kept, self.added = lines, {}, {}

    def line(self, number):
        return self.lines[number - 1]

    def drop(self, number):
        """Removes a line from what is expected. One that is input too remains input."""
        line = self.line(number)
        self.kept[number] = [b"<" + line[1:]] if line[:1] == b">" else []

    def text(self):
        at = range(1, len(self.lines) + 1)
        found = [self.added.get(0, []), *(self.kept.get(it, [self.line(it)]) + self.added.get(it, []) for it in at)]
        return b"".join(line + b"\n" for part in found for line in part)

    def set_status(self, run, status, usual):
        """Has the run expect this status. `usual` is that of a run without a line for it."""
        own = [it for it in range(run.ends[0], 0, -1) if self.line(it).startswith((b"status:", b"== "))][:1]
        line = b"status: %d" % status
        if own and self.line(own[0]).startswith(b"status:"):
            self.kept[own[0]] = [line] if status != usual else []
        else:
            self.added.setdefault(run.ends[0], []).insert(0, line)

    def set_text(self, run, parts, printed, marked):
        """Has the run expect what was printed, in place of these parts. `marked` makes a line of the file from one of it."""
        wanted, found = groups(parts), re.findall(rb"[^\n]*\n|[^\n]+", printed)
        repeated = [any(self.line(it)[:1] == b">" for it in numbers) for numbers, _ in wanted]
        top = wanted[0][0][0] - 1 if wanted else run.ends[1]
        for (first, end), (start, stop) in differing([text for _, text in wanted], repeated, found):
            for numbers, _ in wanted[first:end]:
                for it in numbers:
                    self.drop(it)
            for at, line in enumerate(found[start:stop], first):
                above = wanted[min(at, end - 1)][0][-1] if end else top
                self.added.setdefault(above, []).append(marked(line))


def groups(parts):
    """The parts of a text, those of a line together: the numbers of their lines, and what they stand for."""
    found = []
    for number, text in parts:
        if not found or found[-1][1].endswith(b"\n"):
            found.append(([], b""))
        numbers, before = found[-1]
        found[-1] = [*numbers, number], before + text
    return found


def differing(wanted, repeated, found):
    """The places at which two lists of lines differ: where they begin and end in each. Lines that are input too, which
    `repeated` tells, are found first, since the others belong to them."""
    anchors = [at for at, it in enumerate(repeated) if it]
    same = difflib.SequenceMatcher(None, [wanted[it] for it in anchors], found, autojunk=False).get_matching_blocks()
    pairs = [(anchors[it.a + at], it.b + at) for it in same for at in range(it.size)]
    first = start = 0
    for end, stop in [*pairs, (len(wanted), len(found))]:
        parts = difflib.SequenceMatcher(None, wanted[first:end], found[start:stop], autojunk=False)
        for what, *places in parts.get_opcodes():
            if what != "equal":
                yield tuple(it + first for it in places[:2]), tuple(it + start for it in places[2:])
        first, start = end + 1, stop + 1


def output_line(line):
    """The line of a file for one of the standard output."""
    text = line.removesuffix(b"\n")
    if not text.decode(errors="surrogateescape").replace("\t", " ").isprintable():
        return b"|= " + line.hex().encode()
    text = text.replace(FAMILIES, b"{FAMILIES}")
    if text and text[:1] not in b"<>|!#=@" and not HEAD.fullmatch(text) and line.endswith(b"\n"):
        return text
    return with_mark(b"|", text, line)


def error_line(line):
    """The line of a file for one of standard error."""
    return with_mark(b"!", line.removesuffix(b"\n"), line)


def with_mark(mark, text, line):
    """The line of a file that has a mark and this text, which stands for a line with LF or without."""
    return mark + (b"" if line.endswith(b"\n") else b"+") + (b" " + text if text else b"")


def rewritten(root, file, binaries):
    """The text of a file that expects what its programs do, and the names of the runs that changed."""
    with open(f"{root}/runs/{file}", "rb") as read:
        text = read.read()
    runs_in(text)
    head = re.match(rb"(?:.+\n)*", text)[0]
    edits = Edits((text + b"\n" * (head == text)).split(b"\n")[:-1])
    usual = re.search(rb"^status: ?(.*)", head, re.MULTILINE)
    wanted, changed = [], []
    for run in runs_in(edits.text()):
        ran = outcome(root, file, run, binaries)
        if ran.returncode < 0:
            raise ValueError(f"signal {-ran.returncode} ends {run.program}")
        printed = [ran.stdout or b"", ran.stderr, ran.returncode]
        wanted.append([run.title, run.arguments, run.given, *printed])
        if expected(run) != printed:
            changed.append(name_of(file, run))
            edits.set_text(run, run.stdout, printed[0], output_line)
            edits.set_text(run, run.stderr, printed[1], error_line)
        if run.status != ran.returncode:
            edits.set_status(run, ran.returncode, int(usual[1]) if usual and run.title else 0)
    found = runs_in(edits.text())
    for run in found:
        add_stored(run, os.path.dirname(f"{root}/runs/{file}"))
    if [[it.title, it.arguments, it.given, *expected(it)] for it in found] != wanted:
        raise ValueError("these lines have to be rewritten by hand")
    return edits.text(), changed


def expected(run):
    """What a run expects: the standard output, standard error, and the status."""
    return [*(b"".join(text for _, text in it) for it in (run.stdout, run.stderr)), run.status]


def write(root, named, binaries):
    """Rewrites the files with the runs of these names, and prints which runs have changed, and what has not been written."""
    written, failed = [], [(it, NO_RUN) for it in named if not files_of(root, it)]
    for file in [file for name in named for file in files_of(root, name)]:
        try:
            text, changed = rewritten(root, file, binaries)
            if changed:
                with open(f"{root}/runs/{file}", "wb") as out:
                    out.write(text)
            written += changed
        except ValueError as error:
            failed.append((file, error))
    for it in written:
        print(f"wrote {it}")
    for it, wrong in failed:
        print(f"FAILED {it}: {wrong}")
    print(READ if written else "nothing is written")
    return 1 if failed else 0


def main():
    parser = argparse.ArgumentParser(usage=__doc__.split("usage: ")[1].split("\n")[0])
    parser.add_argument("--binary", action="append", default=[], metavar="PROGRAM=PATH")
    parser.add_argument("--write", action="store_true")
    parser.add_argument("runs", nargs="*", metavar="RUN")
    options = parser.parse_args()
    if not all("=" in it for it in options.binary):
        parser.error("--binary takes PROGRAM=PATH")
    if options.write and not options.runs:
        parser.error("--write takes the names of runs")
    sys.exit((write if options.write else check)(ROOT, options.runs, dict(it.split("=", 1) for it in options.binary)))


if __name__ == "__main__":
    main()
