#!/usr/bin/env python3
"""Gives `nlshow` random lists and messages, and checks what it prints.

usage: extra/random_lines.py [--binary PATH] [--lines N] [--seed S]

A list is of any attribute set, of random attributes; a message is one of runs/ with some bytes changed. For each:

- every line of the plain form that does not repeat the input is printable ASCII;
- a list has a line `error at` in the plain form if and only if it has an error in the debug form, and the first is at the
  same offset. Lists in it do not count;
- without an error, it has as many lines in the plain form as in the debug form, but for those of lists in it;
- `--check` adds lines that say whether lists are canonical, and one for the whole list, which is the last;
- `--brief` leaves lines out, and only of links;
- the exit status is 0 or 1, and nothing is written to standard error.

CI does not run it. The last line is 'N lines passed, M failed', and the status 0 only if all passed.
"""
import argparse
import random
import re
import struct
import subprocess
import sys
from pathlib import Path

sys.dont_write_bytecode = True
ROOT = Path(__file__).resolve().parents[1]
sys.path.insert(0, f"{ROOT}/tools")
from families import names  # noqa: E402
from runs import files_of, runs_of  # noqa: E402

SETS, AF_BRIDGE = names(), 7
LIST = re.compile(rf"^(?:check )?({'|'.join(SETS)})\b((?:[0-9a-fA-F]{{2}}|[ \t])*)$", re.MULTILINE)
ERROR = re.compile(rb"^  error at (\d+):", re.MULTILINE)
VERDICT = re.compile(rb"^ *(?:not canonical at \d+|canonical)\n", re.MULTILINE)
LAST = re.compile(rb"  (?:not canonical at \d+|canonical)")
FAULT = re.compile(rb"^fault at (\d+):", re.MULTILINE)


def attribute(depth=0):
    """An attribute, mostly of a small type and length; at times its length is wrong."""
    kind = random.choice([random.randrange(20), random.randrange(70), random.randrange(65536)])
    if depth < 2 and random.random() < 0.2:
        payload = attributes(4, depth + 1)
    else:
        payload = random.randbytes(random.choice([0, 1, 2, 3, 4, 4, 4, 6, 8, 8, 16, 48, random.randrange(60)]))
    length = 4 + len(payload) if random.random() > 0.03 else random.randrange(65536)
    return length.to_bytes(2, "little") + kind.to_bytes(2, "little") + payload + bytes(-len(payload) % 4)


def attributes(most, depth=0):
    return b"".join(attribute(depth) for _ in range(random.randrange(most)))


def random_list():
    """The name of an attribute set, and some attributes."""
    return random.choice(SETS), attributes(5)


def stored():
    """The input of all runs."""
    found = [run for file in files_of(ROOT) for run in runs_of(ROOT, file)]
    return "\n".join(it.stdin.decode(errors="replace") for it in found)


def lists_of(text):
    """The lists of a text, each once: the name of the set, and the bytes."""
    return [*dict.fromkeys((name, bytes.fromhex(digits)) for name, digits in LIST.findall(text))]


def captured():
    """The lists of the messages in runs/plain/captured, which Linux sent: the name of the set, and the bytes."""
    text = Path(ROOT, "runs/plain/captured").read_text(encoding="utf-8")
    for digits in re.findall(r"^> message (\w+)$", text, re.MULTILINE):
        message = bytes.fromhex(digits)
        of_link = dict(attributes_of(message[32:]))
        of_info = dict(attributes_of(of_link.get(18, b"")))
        names = [of_info.get(it, b"").rstrip(b"\0").decode() for it in (1, 4)]
        found = [(names[0], of_info.get(2)), (f"{names[1]}_port", of_info.get(5))]
        if message[16] == AF_BRIDGE:
            found += [("af_spec_bridge", of_link.get(26)), ("proto_bridge", of_link.get(12))]
        yield from ((name, data) for name, data in found if name in SETS and data is not None)


def attributes_of(data):
    """The types and payloads of a well-formed list of attributes."""
    while data:
        length, kind = struct.unpack_from("<HH", data)
        yield kind & 0x3FFF, data[4:length]
        data = data[(length + 3) // 4 * 4 :]


def changed(message):
    """A message with some bytes changed; at times it is cut, or has another type or other flags."""
    data = bytearray(message)
    for _ in range(random.randrange(4)):
        data[random.randrange(len(data))] = random.randrange(256)
    if len(data) >= 8 and random.random() < 0.3:
        data[4:6] = random.choice([2, 3, 16, 17, 18, 19]).to_bytes(2, "little")
        data[6:8] = random.randrange(65536).to_bytes(2, "little")
    return bytes(data[: random.randrange(len(data) + 1)] if random.random() < 0.2 else data)


def shown(binary, lines, *arguments):
    """What the program prints below each line. A number before each line tells where the output of the next begins."""
    given = "".join(f"{it}\ntap {number}\n" for number, it in enumerate(lines))
    ran = subprocess.run([binary, *arguments], input=given.encode(), capture_output=True)
    if ran.returncode not in (0, 1) or ran.stderr:
        sys.exit(f"status {ran.returncode}: {ran.stderr[:200]}")
    parts = re.split(rb"^tap \d+\nno such family\n", ran.stdout, flags=re.MULTILINE)[:-1]
    return [it.split(b"\n", 1)[1] for it in parts]


def is_right(line, plain, checked, brief, debug):
    """Whether what is printed for a line is right, in the plain form, with --check, with --brief, and in the debug form."""
    own = re.split(rb"^\w+ at \d+$", debug, maxsplit=1, flags=re.MULTILINE)[0]
    error, fault, rest = ERROR.search(plain), FAULT.search(own), iter(plain.splitlines())
    right = all(it == 10 or 32 <= it <= 126 for it in plain) and VERDICT.sub(b"", checked) == plain
    if line.startswith(("message", "link ")):
        right = right and all(it in rest for it in brief.splitlines())
    else:
        right = right and brief == plain
    if line.startswith("message"):
        return right
    right = right and LAST.fullmatch(checked.splitlines()[-1]) and (error and error[1]) == (fault and fault[1])
    count = len(re.findall(rb"^  \S", plain, re.MULTILINE))
    return right and (bool(error) or count == own.count(b"\n"))


def options(lines, **others):
    """The options of the command line, with the default number of lines, and the defaults of other options."""
    parser = argparse.ArgumentParser()
    for name, default in {"binary": f"{ROOT}/crates/nlshow/out/nlshow", "lines": lines, "seed": 1, **others}.items():
        parser.add_argument(f"--{name}", type=type(default), default=default)
    asked = parser.parse_args()
    random.seed(asked.seed)
    return asked


def main():
    asked, lines = options(20000), []
    given = [bytes.fromhex(it) for it in re.findall(r"^message ((?:[0-9a-f]{2})+)$", stored(), re.MULTILINE)]
    for _ in range(asked.lines):
        name, data = random_list() if random.random() < 0.6 else ("message", changed(random.choice(given)))
        lines.append(f"{name} {data.hex()}")
    forms = [shown(asked.binary, lines, *it) for it in ((), ("--check",), ("--brief",), ("--format", "debug"))]
    wrong = [it for it in zip(lines, *forms) if not is_right(*it)]
    for line, *texts in wrong[:3]:
        print(line, *(it.decode(errors="replace") for it in texts), sep="\n")
    print(f"{len(lines) - len(wrong)} lines passed, {len(wrong)} failed")
    return 1 if wrong else 0


if __name__ == "__main__":
    sys.exit(main())
