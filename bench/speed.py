#!/usr/bin/env python3
"""speed.py [--write] LIB.a.. [LIST..]: instructions and allocations a list, of the calls of driver.c that the static libraries have, beside the instructions
of the Rust crate (original.tsv); and those of the request of request.c, which is the list `request` here. Instructions do not depend on how busy the machine is. The cost of an empty loop is subtracted from ours.
With --write, the ratios go to measured.tsv too, of which tools/made.py makes the tables of README.md.
Needs cc and valgrind (Debian's packages gcc and valgrind)."""
import functools, os, re, subprocess, sys, tempfile
here = os.path.dirname(os.path.abspath(__file__))
sys.dont_write_bytecode = True
sys.path.insert(0, f"{here}/../tools")
from families import names
libs, lists = [it for it in sys.argv[1:] if it.endswith(".a")], [it for it in sys.argv[1:] if not it.endswith(".a") and it != "--write"]
# The columns of measured.tsv, by calls.
COLUMNS = {"read": "Read", "check": "Check", "check_and_walk": "Check and walk", "walk (difference)": "Walk", "rewrite": "Rewrite", "rewrite_streaming": "One at a time", "is_canonical": "Canonical",
           "values": "Values", "places": "Places", "measure": "Measure", "write": "Write", "change": "Change"}
ratios = {}
def write_ratios(path):
    """Writes the ratios to measured.tsv, in place of those of the same list and call."""
    titles, *lines = (line.split("\t") for line in open(path).read().splitlines())
    for row in lines:
        for what, title in COLUMNS.items():
            row[titles.index(title)] = ratios.get((row[0], what), row[titles.index(title)])
    with open(path, "w") as file: file.writelines("\t".join(row) + "\n" for row in [titles, *lines])
if not libs: sys.exit(__doc__)
kit = os.path.dirname(subprocess.run(["rt", "doc"], capture_output=True, text=True, check=True).stdout.strip())
number = {f: i for i, f in enumerate(names())}
rows = [line.split("\t") for line in open(f"{here}/original.tsv").read().splitlines()[1:]]
for it in lists:
    if it not in ["request", *(row[0] for row in rows)]: sys.exit(f"speed.py: there is no list {it}")
with tempfile.TemporaryDirectory() as d:
    driver, count = f"{d}/driver", f"{d}/count.so"
    subprocess.run([sys.executable, f"{here}/make_lists.py", d], check=True)
    subprocess.run(["cc", "-O2", "-o", driver, "-I", f"{here}/../crates/nlroute_ffi/include", f"{here}/driver.c", f"{here}/request.c", "-Wl,--whole-archive", *libs, "-Wl,--no-whole-archive", f"{kit}/c/libos_c.a", f"{kit}/c/liblibc_c.a"], check=True)
    subprocess.run(["cc", "-O2", "-shared", "-fPIC", "-o", count, f"{here}/count.c", "-ldl"], check=True)
    def run(name, family, what, k, how=(), env=()):
        return subprocess.run([*how, driver, str(number[family]), f"{d}/{name}.hex", what, str(k)], capture_output=True, text=True, env={**os.environ, **dict(env)})
    def refs(name, family, what, k):
        grind = ["valgrind", "--tool=cachegrind", "--cache-sim=no", "--cachegrind-out-file=/dev/null"]
        return int(re.search(r"I *refs: *([\d,]+)", run(name, family, what, k, grind).stderr)[1].replace(",", ""))
    def instructions(name, family, what):
        k = 10 if re.search(r"\d{4}|max|big", name) else 300
        return (refs(name, family, what, 3 * k) - refs(name, family, what, k)) / (2 * k)
    @functools.lru_cache(maxsize=None)
    def empty(what):
        return instructions("dsa1", "dsa", "loop_out" if what in ("rewrite", "rewrite_streaming", "write", "change", "request") else "loop")
    def requests(name, family, what):
        a, b = (list(map(int, re.search(r"calls=(\d+) grows=(\d+)", run(name, family, what, m, (), {"LD_PRELOAD": count}.items()).stderr).groups())) for m in (10, 30))
        return "%.0f+%.0f" % tuple((y - x) / 20 for x, y in zip(a, b))
    def show(name, what, answer, mine, other, requests=""):
        ratios[name, what] = f"{mine / int(other):.2f}"
        print(f"{name:<14}{what:<20}{answer:>12}{mine:>10.0f}{int(other):>10}{mine / int(other):>7.2f}  {requests}".rstrip(), flush=True)
    print(f"{'list':<14}{'call':<20}{'answer':>12}{'ours':>10}{'original':>10}{'ratio':>7}  allocations (new+grown)")
    for name, family, read, into, owned in rows:
        if lists and name not in lists: continue
        ours = {}
        for what, other in [("read", read), ("check", read), ("check_and_walk", read), ("values", read), ("rewrite", into), ("rewrite_streaming", into), ("is_canonical", read), ("places", read), ("measure", read), ("write", into), ("change", owned)]:
            ran = run(name, family, what, 1)
            if ran.returncode == 3 or ran.stdout.strip() == "-5": continue
            ours[what] = instructions(name, family, what) - empty(what)
            show(name, what, ran.stdout.strip(), ours[what], other, requests(name, family, what))
            if what == "check_and_walk": show(name, "walk (difference)", "", ours[what] - ours["check"], read)
    answer = run("dsa1", "dsa", "request", 1).stdout.strip()
    if answer != "-5" and (not lists or "request" in lists):
        print(f"{'bond':<14}{'request':<20}{answer:>12}{instructions('dsa1', 'dsa', 'request') - empty('request'):>10.0f}{'':>19}{requests('dsa1', 'dsa', 'request')}")
    print(f"subtracted: {empty('read'):.0f} for the loop, {empty('rewrite'):.0f} for that of the rewrites")
if "--write" in sys.argv: write_ratios(f"{here}/measured.tsv")
