#!/usr/bin/env python3
"""Tests of tools/runs.py: what it reads from a run, what it says of programs that do otherwise than expected, and what it
writes.

Its last line is 'N passed, M failed', and its status 0 only if nothing failed.
"""
import contextlib
import io
import os
import sys
import tempfile

sys.dont_write_bytecode = True
sys.path.insert(0, os.path.dirname(os.path.realpath(__file__)))
import runs  # noqa: E402

# Programs: `lengths` repeats each line but comments and blank lines, and prints its length below; its status is the
# number of its arguments. `copy` prints its arguments, a line each, and then its input. `loud` prints its arguments on
# standard error, or `noise` if there are none. `mute` reports there that it cannot print. `slow` takes its time, `ended` is
# ended by a signal. `files` prints the name and the bytes of each file in its folder, without LFs, and then its input.
PROGRAMS = {
    "lengths": """
for line in sys.stdin.buffer.read().split(b"\\n"):
    if line.strip() and not line.startswith(b"#"):
        sys.stdout.buffer.write(line + b"\\n  %d bytes\\n" % len(line))
sys.exit(len(sys.argv) - 1)
""",
    "copy": "sys.stdout.write(''.join(it + '\\n' for it in sys.argv[1:]) + sys.stdin.read())\n",
    "loud": "print(*sys.argv[1:] or ['noise'], sep='\\n', file=sys.stderr)\n",
    "mute": "import os\ntry:\n    os.write(1, b'text')\nexcept OSError as error:\n    print(error.strerror, file=sys.stderr)\n",
    "slow": "import time\ntime.sleep(60)\n",
    "ended": "import os\nprint('a', flush=True)\nos.kill(os.getpid(), 9)\n",
    "files": """
import os
for name in sorted(os.listdir(b".")):
    with open(name, "rb") as file:
        sys.stdout.buffer.write(name + b":" + file.read() + b"|")
sys.stdout.buffer.write(sys.stdin.buffer.read())
""",
}
HEAD = b"program: lengths\narguments: one two\nstatus: 2\n\n"
RUN = HEAD + b"# A comment\n> four\n  4 bytes\n\n> seven b\n  7 bytes\n"
# For lines below HEAD: the input, the output, and what is on standard error.
READ = [
    (RUN.removeprefix(HEAD), b"# A comment\nfour\n\nseven b\n", b"four\n  4 bytes\nseven b\n  7 bytes\n", b""),
    (b"< in\nout\n", b"in\n", b"out\n", b""),
    (b"| > out\n|\n| # out\n", b"", b"> out\n\n# out\n", b""),
    (b">  # both \n>\n> \n", b" # both \n\n\n", b" # both \n\n\n", b""),
    (b"\n#in\n", b"\n#in\n", b"", b""),
    (b">+ a\n>* 3 bc\n<+ d\n", b"abcbcbcd", b"abcbcbc", b""),
    (b"<+ \t\n<* 2 \xff\r\n<\n", b"\t\xff\r\xff\r\n", b"", b""),
    (b"|* 2 a \n|+ b\n| c\n", b"", b"a a bc\n", b""),
    (b"! error\na\n!* 2 b\n!+ c\n!\n", b"", b"a\n", b"error\nbbc\n"),
    (b"= 00 0aFF\t7f\n=* 3 01 02\n= \n< a\n=* 0 03\n", b"\0\n\xff\x7f\1\2\1\2\1\2a\n", b"", b""),
    (b"= 61\n|= 62 ff\n|=* 2 00\n|\n|  = 63\n", b"a", b"b\xff\0\0\n = 63\n", b""),
    (b"@ a\n< in a\n> both\n@\n< in\nout\n", b"in\n", b"both\nout\n", b""),
]
# For lines below HEAD: the files that they begin, and standard input.
GIVEN = [
    (b"< a\n", {b"": b"a\n"}),
    (b"@ a b \n< 1\n#2\n\n= 33\n@ \xff\\\"\n@\n= 34\n", {b"": b"4", b"a b ": b"1\n#2\n\n3", b'\xff\\"': b""}),
    (b"= 31\n@ a\n@\n= 32\n@ b\n=* 2 33\n@ \n= 34\n", {b"": b"124", b"a": b"", b"b": b"33"}),
]
# For lines below HEAD: the title, the arguments, the status and the input of each run.
WORDS = ["one", "two"]
SEVERAL = [
    (b"< a\n", ["", WORDS, 2, b"a\n"]),
    (b"== a b\n< a\nout\n\n\n== c\n> b\n", ["a b", WORDS, 2, b"a\n"], ["c", WORDS, 2, b"b\n"]),
    # lines of a head below the title, and in the output
    (b"== a\nstatus: 3\n== b\n", ["a", WORDS, 3, b""], ["b", WORDS, 2, b""]),
    (b"== a\n# b\narguments: x\nstatus: 0\n#in\n\n> \nstatus: 4\n", ["a", ["x"], 0, b"\n\n"]),
    (b"\n\n== a\n\n# in\n\n< \n\n", ["a", WORDS, 2, b"\n# in\n\n\n"]),
    (b"== =\n<+ == b\n= 3d3d\n| == c\n", ["=", WORDS, 2, b"== b=="]),
]
NO_HEAD = "the head has a line that is none of program, arguments, status, stdout, input and files"
NO_BLANK, NO_NAME = "no blank follows the mark", "`@` takes the name of a file, without a slash, or nothing"
NO_TITLE, NO_RUN = "`==` takes a title, after a blank", "it belongs to no run, since the first title is below it"
NO_INPUT = "there is standard input, but it is that of `input`"
# What is no run, and where.
BAD = [
    (b"", "line 1: the head names no program"),
    (b"\nprogram: lengths\n", "line 1: the head names no program"),
    (b"program: lengths", "line 1: the last line has no LF"),
    (HEAD + b"> a\n  b", "line 6: the last line has no LF"),
    (b"program: lengths\nstatus: one\n", "line 2: invalid literal for int() with base 10: 'one'"),
    (b"program: lengths\narguments: 'one\n", "line 2: No closing quotation"),
    (b"program: lengths\n> a\n", f"line 2: {NO_HEAD}"),
    (HEAD + b"> a\n>b\n", f"line 6: {NO_BLANK}"),
    *((HEAD + it, f"line 5: {NO_BLANK}") for it in (b">*3 a\n", b"<* a\n", b"!a\n")),
    *((HEAD + it, f"line 5: {NO_BLANK}") for it in (b"=\n", b"=00\n", b"=+ 00\n", b"=* 00\n", b"|=00\n", b">= 00\n")),
    (HEAD + b"= 00 0\n", "line 5: non-hexadecimal number found in fromhex() arg at position 4"),
    (HEAD + b"|= 0g\n", "line 5: non-hexadecimal number found in fromhex() arg at position 1"),
    *((HEAD + it, f"line 5: {NO_NAME}") for it in (b"@a\n", b"@ a/b\n", b"@ /\n")),
    (HEAD + b"@ a\n@\n@ a\n", "line 7: there is already a file of this name"),
    *((HEAD + it, f"line 5: {NO_TITLE}") for it in (b"==\n", b"== \n", b"==  \n", b"==a\n")),
    (HEAD + b"== a\n< b\n===\n", f"line 7: {NO_TITLE}"),
    (HEAD + b"\n< a\n== b\n", f"line 6: {NO_RUN}"),
    (HEAD + b"== a\n== b\n< c\n== a\n", "line 8: there is already a run with this title"),
    (HEAD + b"== a\nstatus: one\n", "line 6: invalid literal for int() with base 10: 'one'"),
    (HEAD + b"== a\n< b\n>c\n", f"line 7: {NO_BLANK}"),
    (b"program: lengths\n== a\n", f"line 2: {NO_HEAD}"),
    (b"# no program\n\n== a\n", "line 1: the head names no program"),
    (b"program: files\nfiles: 'a\n", "line 2: No closing quotation"),
    *((b"program: files\ninput: a\n\n" + it, f"line 4: {NO_INPUT}") for it in (b"\n", b"# a\n", b"> a\n", b"= 00\n")),
    (b"program: files\ninput: a\n\n@ b\n< b\n@\n< c\n", f"line 7: {NO_INPUT}"),
    (b"program: lengths\nstdout: empty\n", "line 2: stdout can only be full"),
    (b"program: lengths\nstdout: full\n\n< a\n| a\n", "line 5: there is output, but stdout is full"),
]
LONG, FOUND = b"program: copy\n\n<* 400 ab\n<\n", ["  4 bytes", "seven b", "  7 bytes"]
# Runs, and what is printed for each.
TRIED = [
    (RUN, []),
    (b"# status: 3\nprogram: copy\narguments: 'a b' c ''\n\n| a b\nc\n|\n< d\n| d\n<+ no LF\n|+ no LF\n", []),
    (b"program: loud\n\n! noise\n", []),
    (b"program: loud\narguments: a b\n\n! a\n! b\n", []),
    (b"program: mute\nstdout: full\n\n! No space left on device\n", []),
    (RUN.replace(b"  4 b", b"  5 b"), ["line 7", "-   5 bytes", "- seven b", "-   7 bytes", *("+ " + it for it in FOUND)]),
    (RUN.replace(b"  7 b", b"  7 c"), ["line 10", "-   7 cytes", "+   7 bytes"]),
    (RUN.replace(b"  7 bytes\n", b""), ["at the end", "- (no line)", "+   7 bytes"]),
    (RUN + b"more\n", ["line 11", "- more", "+ (no line)"]),
    (RUN.replace(b"> four", b"four"), ["line 6", "- four", "-   4 bytes", "- seven b", "+ seven b", "+   7 bytes"]),
    (LONG + b"|* 300 ab\n|+ X\n|* 99 ab\n|\n", ["line 5", f"- ..{'ab' * 40}X{'ab' * 39}a..", f"+ ..{'ab' * 80}.."]),
    (LONG + b"|* 401 ab\n|\n", ["line 5", f"- ..{'ab' * 80}", f"+ ..{'ab' * 80}"]),
    (b"program: copy\n\n<+ a\n| a\n", ["line 4", "- a", "+ a (without LF)"]),
    (RUN.replace(b"status: 2", b"status: 3"), ["status 2, expected 3"]),
    (b"program: loud\n", ["on standard error, at the end", "- (no line)", "+ noise"]),
    (b"program: loud\n\n! noise\n! noise\n", ["on standard error, line 4", "- noise", "+ (no line)"]),
    (b"program: mute\nstdout: full\n", ["on standard error, at the end", "- (no line)", "+ No space left on device"]),
    (b"program: loud\nstatus: -9\n\nmore\n",
     ["line 4", "- more", "+ (no line)", "on standard error, at the end", "- (no line)", "+ noise", "status 0, expected -9"]),
    (b"program: files\n\n<+ in\n|+ in\n", []),
    (b"program: files\n\n@ b\n= 00\n@ a \xc3\n@\n<+ in\n|+ a \n|= c3\n|+ :|b:\n|= 00\n|+ |in\n", []),
    (b"program: files\nfiles: inputs/raw '../runs/inputs/a b'\n\n@ none\n@\n<+ in\n|+ a b:1|none:|raw:\n|= 000aff\n|+ |in\n", []),
    (b"program: files\ninput: inputs/raw\n\n@ a\n<+ b\n|+ a:b|\n|= 000aff\n", []),
    (b"program: files\ninput: inputs/a b\nfiles: 'inputs/a b'\n\n|+ a b:1|1\n", []),
    (b"program: files\n\n@ a\n|+ b:|\n", ["line 4", "- b:| (without LF)", "+ a:| (without LF)"]),
    (b"program: files\ninput: raw\n", ["the stored file raw: No such file or directory"]),
    (b"program: files\nfiles: 'inputs/a b' inputs\n", ["the stored file inputs: Is a directory"]),
    (b"program: lent\n", ["rt ci has not built /crates/lent/out/lent"]),
    (b"program: none\n", ["/none does not run: No such file or directory"]),
    (b"program: slow\n", ["it takes more than 1 s"]),
    (b"program: lengths\n> a\n", [f"line 2: {NO_HEAD}"]),
]
# A file with four runs, of which two fail, and what is printed for it and another one.
FOUR = b"""program: copy

== no words
< a
a

== a word
arguments: b
b

== two lines
> c
d

== a status
status: 1
> e
"""
FAILED = [
    "FAILED it:two lines: line 13", "  - d", "  + (no line)", "FAILED it:a status: status 0, expected 1", "3 passed, 2 failed",
]
# Stored files, by their paths below runs/.
STORED = [("inputs/raw", b"\0\n\xff"), ("inputs/a b", b"1"), ("inputs/more/four", RUN), ("some/inputs/five", RUN)]
# Names of runs, and what is printed.
NAMED = [
    (["one"], ["1 passed, 0 failed"]),
    (["some"], ["2 passed, 0 failed"]),
    (["runs/some/", "one"], ["3 passed, 0 failed"]),
    (["some/other/three"], ["1 passed, 0 failed"]),
    ([], ["4 passed, 0 failed"]),
    *(([it, "one"], [f"FAILED {it}: there is no such run", "1 passed, 1 failed"])
      for it in ("inputs", "inputs/more/four", "some/inputs/five")),
    (["som", "one"], ["FAILED som: there is no such run", "1 passed, 1 failed"]),
]
# Files before and after --write.
WRITTEN = [
    (RUN, RUN),
    # lines that differ, are missing, and are too many; comments, blank lines and lines that are right stay
    (RUN.replace(b"  4 b", b"  5 b"), RUN),
    (RUN.replace(b"  4 bytes\n", b"").replace(b"  7 bytes\n", b""), RUN),
    (RUN.replace(b"  4 bytes\n", b"x\n  4 bytes\ny\n| z\n").replace(b"> seven b\n", b"> seven b\n|+ 7\n| 8\n"), RUN),
    (HEAD + b"> four\n# A comment\n\n> four\n# B\n", HEAD + b"> four\n  4 bytes\n# A comment\n\n> four\n  4 bytes\n# B\n"),
    # of lines that are input, some are repeated; `<` stays
    (b"program: copy\n\n< a\n?\n# b\n< c\n?\n?\n", b"program: copy\n\n< a\na\n# b\n< c\n| # b\nc\n"),
    (b"program: loud\n\n> a\n", b"program: loud\n\n< a\n! noise\n"),
    # marks where they are needed; no LF; bytes that are no text
    (b"program: copy\narguments: '>a' '' 'status: 1' ' b' '#' '='\n",
     b"program: copy\narguments: '>a' '' 'status: 1' ' b' '#' '='\n\n| >a\n|\n| status: 1\n b\n| #\n| =\n"),
    (b"program: copy\n\n<+ a\n", b"program: copy\n\n<+ a\n|+ a\n"),
    (b"program: copy\n\n>+ a\n>+ b\n> c\n< d\n", b"program: copy\n\n>+ a\n>+ b\n> c\nd\n< d\n"),
    (b"program: copy\n\n= 61 01\n", b"program: copy\n\n= 61 01\n|= 6101\n"),
    (b"program: copy\n\n=* 2 61\n<\n|* 2 a\n|\n", b"program: copy\n\n=* 2 61\n<\n|* 2 a\n|\n"),
    (b"program: copy\n\n< of " + runs.FAMILIES + b"\n?\n", b"program: copy\n\n< of " + runs.FAMILIES + b"\nof {FAMILIES}\n"),
    # standard error, also beside a full device
    (b"program: loud\narguments: a '' b\n\n! a\n! c\n", b"program: loud\narguments: a '' b\n\n! a\n!\n! b\n"),
    (b"program: mute\nstdout: full\n", b"program: mute\nstdout: full\n\n! No space left on device\n"),
    # the status: without a line, with one, and in a file with several runs
    (HEAD.replace(b"status: 2\n", b""), HEAD),
    (HEAD.replace(b"2\n", b"3\n"), HEAD),
    (b"program: copy\nstatus: 1\n\n", b"program: copy\n\n"),
    (b"program: lengths\nstatus: 1\n\n== a\narguments: b\n== c\n# d\n> e\n\n\n== f\nstatus: 4\narguments: g\n",
     b"program: lengths\nstatus: 1\n\n== a\narguments: b\n== c\nstatus: 0\n# d\n> e\n  1 bytes\n\n\n== f\narguments: g\n"),
    (b"program: copy\n\n== a\n\n== b\narguments: c\n\n== d\n\n< e\n\n",
     b"program: copy\n\n== a\n\n== b\narguments: c\nc\n\n== d\n\n< e\n|\ne\n\n"),
    # stored files, and those that `@` begins
    (b"program: files\ninput: inputs/raw\n\n@ a\n<+ b\n",
     b"program: files\ninput: inputs/raw\n\n@ a\n<+ b\n|= 613a627c000a\n|= ff\n"),
]
# Files that are not written, and why.
UNWRITTEN = [
    (b"program: lent\n\na\n", "rt ci has not built /crates/lent/out/lent"),
    (b"program: slow\n\na\n", "it takes more than 1 s"),
    (b"program: ended\n\na\n", "signal 9 ends ended"),
    (b"program: copy\n\n== a\n< b\n== c\narguments: '\n", "line 6: No closing quotation"),
]


def write(path, text):
    os.makedirs(os.path.dirname(path), exist_ok=True)
    with open(path, "wb") as file:
        file.write(text)
    os.chmod(path, 0o755)


def said_by(call, root, *named):
    """What a call prints for runs, and its status."""
    binaries = {it: os.path.relpath(f"{root}/{it}") for it in [*PROGRAMS, "none"]}
    with contextlib.redirect_stdout(io.StringIO()) as printed:
        status = call(root, list(named), binaries)
    return printed.getvalue().replace(root, "").splitlines(), status


def said(root, *named):
    """What is printed for runs, and whether the status is as the last line."""
    lines, status = said_by(runs.check, root, *named)
    return lines, (status == 0) == lines[-1].endswith(" 0 failed")


def written(root, text):
    """What becomes of a file, and what is printed for it, without the names of its runs."""
    write(f"{root}/runs/it", text)
    lines, status = said_by(runs.write, root, "it")
    with open(f"{root}/runs/it", "rb") as file:
        return file.read(), [it for it in lines if not it.startswith("wrote it")], status


def results():
    """For each case what is there, and what should be."""
    for text, *wanted in READ:
        [run] = runs.runs_in(HEAD + text)
        yield [run.stdin, *(b"".join(it for _, it in parts) for parts in (run.stdout, run.stderr))], wanted
    for text, wanted in GIVEN:
        yield runs.runs_in(HEAD + text)[0].given, wanted
    for text, *wanted in SEVERAL:
        yield [[it.title, it.arguments, it.status, it.stdin] for it in runs.runs_in(HEAD + text)], wanted
    for text, wanted in BAD:
        try:
            yield runs.runs_in(text), wanted
        except ValueError as error:
            yield str(error), wanted
    with tempfile.TemporaryDirectory(prefix="runs-test-") as root:
        for name, code in PROGRAMS.items():
            write(f"{root}/{name}", f"#!{sys.executable}\nimport sys\n{code}".encode())
        write(f"{root}/none", b"#!/no/such/program\n")
        yield said(root), (["FAILED runs: there is no such run", "0 passed, 1 failed"], True)
        for name in ("one", "some/two", "some/other/three", "somewhat"):
            write(f"{root}/runs/{name}", RUN)
        for name, text in STORED:
            write(f"{root}/runs/{name}", text)
        for named, wanted in NAMED:
            yield said(root, *named), (wanted, True)
        for text, wanted in TRIED:
            write(f"{root}/runs/it", text)
            runs.SECONDS = 1 if b"slow" in text else 60
            wanted = [f"FAILED it: {wanted[0]}", *(f"  {it}" for it in wanted[1:]), "0 passed, 1 failed"] if wanted else []
            yield said(root, "it"), (wanted or ["1 passed, 0 failed"], True)
        write(f"{root}/runs/it", FOUR)
        yield said(root, "it", "one"), (FAILED, True)
        runs.SECONDS = 60
        for text, wanted in WRITTEN:
            last = runs.READ if text != wanted else "nothing is written"
            yield written(root, text), (wanted, [last], 0)
            yield said(root, "it")[0][-1][-8:], "0 failed"
        runs.SECONDS = 1
        for text, wanted in UNWRITTEN:
            yield written(root, text), (text, [f"FAILED it: {wanted}", "nothing is written"], 1)
        write(f"{root}/runs/it", FOUR)
        wanted = ["wrote it:two lines", "wrote it:a status", "FAILED no: there is no such run", runs.READ]
        yield said_by(runs.write, root, "one", "it", "no"), (wanted, 1)


if __name__ == "__main__":
    right = []
    for at, (found, wanted) in enumerate(results(), 1):
        right.append(found == wanted)
        if found != wanted:
            print(f"FAILED case {at}: {found}, not {wanted}")
    print(f"{sum(right)} passed, {right.count(False)} failed")
    sys.exit(0 if all(right) else 1)
