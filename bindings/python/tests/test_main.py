"""python -m nlroute: what it prints for the lines of runs/, its arguments, and its status."""
import io
import os
import re
import shlex
import subprocess
import sys
import tempfile
import unittest
from unittest import mock

from nlroute.__main__ import main

TOP = os.path.dirname(os.path.dirname(os.path.dirname(os.path.dirname(os.path.realpath(__file__)))))
sys.path.append(os.path.join(TOP, "tools"))
import runs as stored_runs  # noqa: E402

# The folders of runs/ with the requests that are taken of them. The debug form of checks is the same
FOLDERS = {"plain": re.compile(rb""), "debug": re.compile(rb"check ")}
# The head of a run whose options this program has not
OTHER_OPTIONS = re.compile(rb"^arguments:.* --?(format|check|brief)\b", re.MULTILINE)
# The head of a run with other arguments than --raw, or whose output cannot be written
FILES = re.compile(rb"^arguments: (?!--raw$)|^stdout: full", re.MULTILINE)
PROGRAM = [sys.executable, "-m", "nlroute"]
LIST = "dsa 08000100 2a000000\n"
PRINTED = LIST + "  IFLA_DSA_CONDUIT ifindex 42\n"

ACK = "message 24000000 0200 0000 05000000 00000000 00000000 20000000 1000 0506 05000000 00000000\n"
REFUSAL = ACK.replace(" 00000000 2", " efffffff 2")
ALL = "message 20000000 1000 ffff 01000000 00000000 00000000 ffffffff ffffffff 01000080\n"
SHORT = "message 10000000 1300 0000 01000000 00000000\n"
NAME = "00000000 12000000 00000000 00000000 14003480 10003500 656e7032733066306e703000\n"
NEW_NAME, OLD_NAME = f"message 34000000 6c00 050e 01000000 00000000 {NAME}", f"message 34000000 6d00 0503 01000000 00000000 {NAME}"
NAMES = "message 20000000 6e00 0107 01000000 00000000 00000000 12000000 00000000 00000000\n"
NAME_LINES = '  ifindex 18\n  IFLA_PROP_LIST\n    IFLA_ALT_IFNAME "enp2s0f0np0"\n'
PEER = "veth 14000100 00000000 00000000 ffffffff 00000000\n"


def run(*words, given=b"", **options):
    """Runs the program, and returns its status and output. Nothing is on standard error, unless it is returned too."""
    if isinstance(given, str):
        given = given.encode()
    done = subprocess.run([*PROGRAM, *words], input=given, capture_output=True, **options)
    if done.stderr:
        return done.returncode, done.stdout.decode(), done.stderr.decode()
    return done.returncode, done.stdout.decode()


def run_here(words, given):
    """Runs the program in this process, and returns its status and output."""
    output = io.TextIOWrapper(io.BytesIO())
    stdin = io.TextIOWrapper(io.BufferedReader(io.BytesIO(given)))
    with mock.patch("sys.stdin", stdin), mock.patch("sys.stdout", output):
        return main(words), output.buffer.getvalue()


def runs(folder, request):
    """Yields the runs of a folder of runs/: the name, and each request with the lines that nlshow prints for it."""
    for name in sorted(os.listdir(os.path.join(TOP, "runs", folder))):
        with open(os.path.join(TOP, "runs", folder, name), "rb") as file:
            body = file.read().partition(b"\n\n")[2]
        if re.search(rb"^[><|][+*]", body, re.MULTILINE):
            continue
        found, lines = [], []
        for line in body.split(b"\n"):
            if line.startswith(b"> "):
                lines = [line[2:]]
                found += [lines] if request.match(lines[0]) else []
            elif line and line[:1] not in b"#<|":
                lines.append(line)
        yield name, found


def files_of(folder):
    """Yields the names of the files of a folder of runs/, at any depth, except stored input."""
    for above, _, names in os.walk(os.path.join(TOP, "runs", folder)):
        if os.path.basename(above) != "inputs":
            yield from (os.path.relpath(os.path.join(above, name), os.path.join(TOP, "runs")) for name in sorted(names))


def head_of(name):
    """Returns the head of a file of runs/."""
    with open(os.path.join(TOP, "runs", name), "rb") as file:
        return file.read().partition(b"\n\n")[0]


class Lines(unittest.TestCase):
    def test_runs(self):
        count = 0
        for folder, request in FOLDERS.items():
            for name, found in runs(folder, request):
                count += len(found)
                expected = b"".join(line + b"\n" for lines in found for line in lines)
                given = b"".join(lines[0] + b"\n" for lines in found)
                with self.subTest(run=f"{folder}/{name}"):
                    self.maxDiff = None
                    self.assertEqual(run(given=given)[1], expected.decode())
        self.assertGreater(count, 500)

    def test_status(self):
        rows = [
            (LIST, 0, PRINTED),
            ("", 0, ""),
            ("# a comment\n \t\r\n\n", 0, ""),
            ("check dsa 08000100 2a000000\n", 0, "check dsa 08000100 2a000000\ncanonical\n"),
            ("check dsa 08000140 2a000000\n", 1, "check dsa 08000140 2a000000\nnot canonical at 0\n"),
            ("bond 04000100\n", 1, "bond 04000100\n  error at 0: IFLA_BOND_MODE has 0 bytes, expected 1\n"),
            ("tap 00\n", 1, "tap 00\nno such family\n"),
            (" dsa\n", 1, " dsa\nno such family\n"),
            ("check\n", 1, "check\nno such family\n"),
            ("dsa zz\n", 1, "dsa zz\nbad hex at column 5\n"),
            ("dsa 0\v8\n", 1, '"dsa 0\\x0b8"\nbad hex at column 6\n'),
            ("dsa \u00e9\r\n", 1, '"dsa \\xc3\\xa9\\x0d"\nbad hex at column 5\n'),
            (ACK, 0, ACK + "NLMSG_ERROR len 36 flags 0 seq 5 pid 0\n  ack\n"),
            (REFUSAL, 0, REFUSAL + "NLMSG_ERROR len 36 flags 0 seq 5 pid 0\n  error EEXIST (-17)\n"),
            (ALL, 0, ALL + "RTM_NEWLINK len 32 flags all seq 1 pid 0\n  ifindex -1 flags all change UP|0x80000000\n"),
            ("message\n", 0, "message\n"),
            ("message 0\n", 1, "message 0\nbad hex at column 9\n"),
            ("message 00\n", 1, "message 00\nerror at 0: 1 byte left, too few for a message header\n"),
            (SHORT, 1, SHORT + "RTM_SETLINK len 16 flags 0 seq 1 pid 0\n  error at 0: 16 bytes, too few for a link message\n"),
            (NEW_NAME, 0, NEW_NAME + "RTM_NEWLINKPROP len 52 flags REQUEST|ACK|EXCL|CREATE|APPEND seq 1 pid 0\n" + NAME_LINES),
            (OLD_NAME, 0, OLD_NAME + "RTM_DELLINKPROP len 52 flags REQUEST|ACK|NONREC|BULK seq 1 pid 0\n" + NAME_LINES),
            (NAMES, 0, NAMES + "RTM_GETLINKPROP len 32 flags REQUEST|ROOT|MATCH|ATOMIC seq 1 pid 0\n  ifindex 18\n"),
            ("check " + SHORT, 1, "check " + SHORT + "no such family\n"),
            (PEER, 0, PEER + "  VETH_INFO_PEER ifindex 0 flags all (empty)\n"),
            ("dsa\r\n" + LIST[:-1], 0, "dsa\n" + PRINTED),
        ]
        for given, status, printed in rows:
            with self.subTest(given=given):
                self.assertEqual(run(given=given), (status, printed))

    def test_long_lines(self):
        longest = "dsa " + "0" * (262_144 - 4)
        rest = "  error at 0: nla_len 0 is below 4\n"
        self.assertEqual(run(given=longest + "\n" + LIST), (1, longest + "\n" + rest + PRINTED))
        for line in (longest + "0", "#" + longest, 3 * longest):
            self.assertEqual(run(given=line + "\n" + LIST), (1, "input too long\n" + PRINTED))

    def test_answers_at_once(self):
        with subprocess.Popen(PROGRAM, stdin=subprocess.PIPE, stdout=subprocess.PIPE) as running:
            for _ in range(3):
                running.stdin.write(LIST.encode())
                running.stdin.flush()
                self.assertEqual(running.stdout.read(len(PRINTED)), PRINTED.encode())
            running.stdin.close()
            self.assertEqual((running.stdout.read(), running.wait()), (b"", 0))


class Captures(unittest.TestCase):
    def test_runs(self):
        count = 0
        for name in files_of("captures"):
            for it in stored_runs.runs_of(TOP, name) if not FILES.search(head_of(name)) else ():
                count += 1
                given = it.stdin
                if it.input:
                    with open(os.path.join(TOP, "runs", os.path.dirname(name), it.input), "rb") as file:
                        given = file.read()
                status, printed = run_here(it.arguments, given)
                with self.subTest(run=name):
                    self.assertIsNone(stored_runs.difference(it.stdout, printed))
                    self.assertEqual(status, it.status)
        self.assertGreater(count, 400)

    def test_runs_with_files(self):
        # (tools/runs.py runs the program in a folder with the files, and compares the output and the status)
        with tempfile.TemporaryDirectory() as folder:
            program = os.path.join(folder, "nlshow")
            with open(program, "w") as file:
                file.write(f'#!/bin/sh\nexec {shlex.quote(sys.executable)} -m nlroute "$@"\n')
            os.chmod(program, 0o700)
            path = os.pathsep.join(it for it in map(os.path.abspath, sys.path) if os.path.isdir(it))
            heads = {name: head_of(name) for name in files_of("captures")}
            names = [name for name, it in heads.items() if FILES.search(it) and not OTHER_OPTIONS.search(it)]
            self.assertGreater(len(names), 50)
            words = [sys.executable, os.path.join(TOP, "tools/runs.py"), "--binary", f"nlshow={program}", *names]
            done = subprocess.run(words, capture_output=True, text=True, env={**os.environ, "PYTHONPATH": path, "PYTHONUNBUFFERED": ""})
            self.assertEqual(done.returncode, 0, done.stdout + done.stderr)

    def test_answers_at_once(self):
        # a pcap file with an NLMSG_NOOP in each packet
        header = bytes.fromhex("d4c3b2a1 02000400 00000000 00000000 00000400 fd000000")
        record = bytes.fromhex("bbd4096b 00000000 20000000 20000000 00040338" + 12 * "00" + "10000000 01000000" + 8 * "00")
        lines = "packet {} time 2026-11-27T19:06:35.000000Z len 32\nNLMSG_NOOP len 16 flags 0 seq 0 pid 0\n"
        with subprocess.Popen(PROGRAM, stdin=subprocess.PIPE, stdout=subprocess.PIPE) as running:
            running.stdin.write(header)
            for number in range(1, 4):
                running.stdin.write(record)
                running.stdin.flush()
                printed = lines.format(number).encode()
                self.assertEqual(running.stdout.read(len(printed)), printed)
            running.stdin.close()
            self.assertEqual((running.stdout.read(), running.wait()), (b"", 0))


class Arguments(unittest.TestCase):
    def test_files(self):
        with tempfile.TemporaryDirectory() as folder:
            with open(os.path.join(folder, 'a"b'), "w") as file:
                file.write(LIST)
            printed = f'file "a\\"b"\n{PRINTED}file "-"\n{PRINTED}file "none"\ncannot open\nfile "."\nread fault\n'
            told = "nlshow: none: No such file or directory\nnlshow: .: Is a directory\n"
            self.assertEqual(run('a"b', "-", "none", ".", given=LIST, cwd=folder), (5, printed, told))
            self.assertEqual(run("--", 'a"b', cwd=folder), (0, f'file "a\\"b"\n{PRINTED}'))

    def test_options(self):
        status, printed = run("--help")
        usage = "usage: python -m nlroute [--raw] [FILE].. | --help | --version"
        self.assertEqual((status, printed.splitlines()[0]), (0, usage))
        self.assertRegex(run("-V")[1], r"^nlroute \d+\.\d+\.\d+\n$")
        status, printed, said = run("--json", given=LIST)
        self.assertEqual((status, printed, said.splitlines()[0]), (2, "", "error: unexpected argument '--json' found"))
        self.assertEqual(run("--raw", "--raw")[:2], (2, ""))

    def test_failed_writes(self):
        with open("/dev/full", "w") as full:
            done = subprocess.run(PROGRAM, input=LIST, stdout=full, stderr=subprocess.PIPE, text=True)
        self.assertEqual((done.returncode, done.stderr), (5, "write fault\n"))
        # the reader has ended
        reading, writing = os.pipe()
        os.close(reading)
        done = subprocess.run(PROGRAM, input=LIST, stdout=writing, stderr=subprocess.PIPE, text=True)
        os.close(writing)
        self.assertEqual((done.returncode, done.stderr), (5, ""))


if __name__ == "__main__":
    unittest.main()
