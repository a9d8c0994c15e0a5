#!/usr/bin/env python3
"""Tests of .ci/run: what its last lines say, with programs in place of the parts that print what the test says.

The last line is 'N passed, M failed', and the status 0 only if nothing failed.
"""
import os
import re
import subprocess
import sys
import tempfile
import unittest

ROOT = os.path.dirname(os.path.dirname(os.path.realpath(__file__)))
PASSED = "1 passed, 0 failed"


def store(path, text):
    """Stores a program."""
    os.makedirs(os.path.dirname(path), exist_ok=True)
    with open(path, "w", encoding="utf-8") as file:
        file.write(text)
    os.chmod(path, 0o755)


def ci(**says):
    """Runs CI with these lines of parts, by the last part of their names, and returns its lines and its status."""
    with open(os.path.join(ROOT, ".ci/run"), encoding="utf-8") as file:
        run = file.read()
    with tempfile.TemporaryDirectory() as room:
        store(f"{room}/.ci/run", run)
        store(f"{room}/tools/install.sh", "#!/bin/sh\n")
        for path in re.findall(r"^ *part ([\w./]+)", run, re.MULTILINE):
            name = os.path.basename(path).split(".")[0]
            words = "\n".join([*says.get(name, []), PASSED])
            store(f"{room}/bin/rt" if path == "rt" else f"{room}/{path}", f"#!/bin/sh\ncat >&2 <<'END'\n{words}\nEND\n")
        environ = {**os.environ, "PATH": f"{room}/bin:{os.environ['PATH']}"}
        done = subprocess.run([f"{room}/.ci/run"], env=environ, stdout=subprocess.PIPE, text=True, check=False)
    return done.stdout.splitlines(), done.returncode


class Skipped(unittest.TestCase):
    def test_the_last_lines_say_what_is_skipped(self):
        mypy, man = "skipped: there is no mypy", "skipped: there is no man"
        lines, status = ci(bindings=[mypy, "ok rust: skipped: nothing", mypy], test_release=[man])
        self.assertEqual(lines[-3:-1], [man, mypy])
        self.assertTrue(lines[-4].startswith("CI took "), lines[-4])
        self.assertEqual((lines[-1], status), (f"{lines.count(PASSED)} passed, 0 failed", 0))

    def test_nothing_is_skipped(self):
        lines, status = ci()
        self.assertTrue(lines[-2].startswith("CI took "), lines[-2])
        self.assertEqual(status, 0)


if __name__ == "__main__":
    ran = unittest.main(exit=False).result
    failed = len(ran.failures) + len(ran.errors)
    print(f"{ran.testsRun - failed} passed, {failed} failed")
    sys.exit(1 if failed else 0)
