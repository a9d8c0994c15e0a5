#!/usr/bin/env python3
"""speed_rust.py: instructions of the crate nlroute (bindings/rust) on the list `bridge`, beside those of the C library and of upstream's read
(original.tsv), with the goals. `find` looks up an attribute, `read` makes a List, `walk` also visits its values, and `change` reads, sets an
attribute and writes. c_find, c_read and c_change are calls of the C library for the same, with arrays on the stack. The cost of an empty loop is
subtracted from ours. It links the static library that pkg-config finds, or that of the folder NLROUTE_LIB_DIR. Needs cargo and valgrind. The last
line is 'N passed, M failed', counted in goals."""
import os, re, subprocess, sys
here = os.path.dirname(os.path.abspath(__file__))
CALLS = 300
# What is measured, what it is compared with, and the most that their ratio may be.
GOALS = [("find", "upstream", 0.40), ("read", "upstream", 0.50), ("change", "c_change", 1.10)]
OTHERS = [("c_find", "upstream"), ("c_read", "upstream"), ("walk", "upstream"), ("find", "c_find"), ("read", "c_read")]

def refs(what, count):
    """Returns the instructions of a program that makes a call so often."""
    program = [f"{here}/rust/target/release/speed", what, f"{here}/lists/bridge.hex", str(count)]
    grind = ["valgrind", "--tool=callgrind", "--callgrind-out-file=/dev/null"]
    ran = subprocess.run([*grind, *program], capture_output=True, text=True, check=True)
    return int(re.search(r"I *refs: *([\d,]+)", ran.stderr)[1].replace(",", ""))

def instructions(what):
    return (refs(what, 3 * CALLS) - refs(what, CALLS)) / (2 * CALLS)

subprocess.run(["cargo", "build", "--release", "--offline", "--quiet"], cwd=f"{here}/rust", env={**os.environ, "NLROUTE_STATIC": "1"}, check=True)
rows = dict(line.split("\t", 1) for line in open(f"{here}/original.tsv").read().splitlines())
loop = instructions("loop")
took = {what: instructions(what) - loop for what in ("find", "read", "walk", "change", "c_find", "c_read", "c_change")}
took["upstream"] = int(rows["bridge"].split("\t")[1])
failed = 0
for what, other, most in [*GOALS, *((*it, None) for it in OTHERS)]:
    ratio = took[what] / took[other]
    failed += most is not None and ratio > most
    goal = "" if most is None else f"  goal {most:.2f}{'' if ratio <= most else ': MISSED'}"
    print(f"{what:<8}{took[what]:>8.0f}  {other:<10}{took[other]:>8.0f}{ratio:>7.3f}{goal}")
print(f"{len(GOALS) - failed} passed, {failed} failed")
sys.exit(failed != 0)
