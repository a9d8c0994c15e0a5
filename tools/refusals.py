#!/usr/bin/env python3
"""Makes the allocations of calls of the libraries fail, one after another, and those of `nlroute`, and of `nlshow` with
a wrong argument, `--version` or `--format json`, also for files that it cannot open or read.

usage: tools/refusals.py

The calls are the lines of crates/refusals/stdin: each begins with the number of allocations that the call makes, and
what it returns is in stdout beside it. The program `refusals` makes each call in a run of its own, under the malloc of
refusals.c. Then the first allocation and all after it fail, in the next run the second and all after it, and so on to the
last. Each of these runs returns the error of the call for a failed allocation, and makes no other allocation after it.
`nlroute` runs in the same way for each `report`, from its start, and for the lines that it prints without a report, as
`nlshow` does for a wrong argument and for its version. As JSON it prints whole documents, which are the front of all.

In every run the caller's bytes and values are unchanged. So are buffers, except where a call wrote to them: at the
front, as much as it returns, or if `rewrite_streaming` fails, at most the length of the list, rounded up to a multiple of
four. As many blocks are freed as were allocated.

The programs are those that `rt ci` has built, or `rt run` in their folders. It takes `cc`. The last line is
'N passed, M failed', counted in calls, and the status 0 only if all passed.
"""
import os
import shutil
import subprocess
import sys
import tempfile

ROOT = os.path.dirname(os.path.dirname(os.path.realpath(__file__)))
PROGRAMS = {it: f"{ROOT}/crates/{it}/out/{it}" for it in ("refusals", "nlroute", "nlshow")}
# The size of the block with which `refusals` marks where a call begins and ends.
MARK = "7654321"
# How many bytes of what a call returns `refusals` prints.
MOST = 300
# What a call returns if an allocation fails.
LISTS = "read_list write_list parse rewrite rewrite_streaming rewrite_to_slice rewrite_to_slice_short"
LISTS += " VecAfSpecBridge::parse VecLinkProtoInfoBridge::parse"
OTHERS = "report try_clone FrameTable::walk expand_buffer_if_small CanBitTimingConst::new"
WANTING = dict.fromkeys(LISTS.split(), "Err(Memory(AllocError))") | dict.fromkeys(OTHERS.split(), "Err(AllocError)")


def printed(text, status):
    """A run of a program, as `refusals` prints what `report` returns."""
    said = 'Ok(("' + text.replace("\n", "\\n") + f'", {status}))'
    return f"  {said[:MOST]}" + f" and {len(said) - MOST} bytes more" * (len(said) > MOST)


NO_MEMORY = printed("no memory\n", 4)


class Refuser:
    """Runs programs under the malloc, and counts the allocations that it makes fail."""

    def __init__(self, malloc):
        self.malloc, self.refusals = malloc, 0

    def run(self, words, given, place=0):
        """What a program prints for some bytes, or for a descriptor to read from, and how many allocations it makes. If a
        place is given, the allocation at this place and all after it fail."""
        told, tells = os.pipe()
        is_call = words[0] == "refusals"
        names = {"LD_PRELOAD": self.malloc, "REFUSE": str(place), "REFUSE_TO": str(tells)}
        names |= {"REFUSE_MARK": MARK} if is_call else {}
        how = {"executable": PROGRAMS[words[0]], "env": names, "pass_fds": [tells], "cwd": ROOT}
        # (a file and not a pipe: each read but the last gives as much as it asks for, so buffers grow alike in each run)
        with tempfile.TemporaryFile() as file:
            file.write(b"" if isinstance(given, int) else given)
            file.seek(0)
            source = given if isinstance(given, int) else file
            ran = subprocess.run(words, stdin=source, **how, capture_output=True, timeout=60)
        os.close(tells)
        with open(told, encoding="ascii") as file:
            counts = [int(it) for it in file.read().split()]
        if not counts:
            return f"no counts, with status {ran.returncode}", 0
        requests, refused, held, marks = counts
        self.refusals += refused != 0
        if held != 0 or marks != 2 * is_call:
            return f"blocks that are held: {held}, marks: {marks}", requests
        text = (ran.stdout + ran.stderr).decode(errors="replace")
        if is_call:
            return text + f"status {ran.returncode}" * (ran.returncode != 0), requests
        return printed(text, ran.returncode), requests

    def refuse_each(self, words, given, answer, wanting, allocations):
        """Makes each allocation fail in turn, and returns what does not hold, or None. `wanting` has the answers that are right
        if an allocation fails."""
        for place in range(allocations + 1):
            said, requests = self.run(words, given, place)
            what = f"if allocation {place} fails" if place else "with memory"
            if said not in (wanting if place else [answer]):
                return f"{what} it answers {said}"
            if requests != (place or allocations):
                return f"{what} it makes {requests} allocations, and not {place or allocations}"
        return None


def calls():
    """The lines of calls: the number of allocations, the call, and what is printed for it."""
    with open(f"{ROOT}/crates/refusals/stdin", encoding="utf-8") as file:
        lines = [it for it in file.read().splitlines() if it and not it.startswith("#")]
    with open(f"{ROOT}/crates/refusals/stdout", encoding="utf-8") as file:
        shown = file.read().splitlines()
    assert shown[::2] == lines and len(shown) == 2 * len(lines), "stdout has other lines than stdin"
    for line, answer in zip(lines, shown[1::2]):
        allocations, call = line.split(" ", 1)
        yield int(allocations), call, answer


def for_arguments(words):
    """How many allocations a program makes for its arguments, at most four with its own name, as the kit reads them:
    one for each, one to see that none follows, and one for each of two lists."""
    return len(words) + 3


def for_reading(text):
    """How many allocations `nlroute` makes to read a text, by 4,096 bytes at most: its buffer doubles."""
    return ((len(text) - 1) // 4096).bit_length() + 1 if text else 0


def runs_of_calls():
    """For each call the arguments of `refuse_each`, and for each `report` also those of a run of `nlroute`."""
    for allocations, call, answer in calls():
        line = f"{allocations} {call}\n"
        # (there is no error for a call that never makes an allocation)
        wanting = f"{line}  {WANTING.get(call.split()[0])}\n"
        yield ["refusals"], line.encode(), f"{line}{answer}\n", [wanting], allocations
        if call.startswith("report"):
            # (of hex digits, `N*DIGITS` are N times those digits)
            _, family, *parts = call.split()
            text = "".join(it[2] * int(it[0] or 1) for it in (part.rpartition("*") for part in parts)).encode()
            words = ["nlroute", family]
            yield words, text, answer, [NO_MEMORY], allocations + for_arguments(words) + for_reading(text)


def runs_of_programs(folder):
    """The lines that the programs print for no list. `nlroute` makes no allocation but those for its arguments, for what it
    reads, and at most three for its report; `nlshow` makes others, in `clap` and for the lines. Reading from a folder
    fails."""
    unknown = "error: unexpected argument '-x' found\n"
    unknown += "usage: nlshow [--format plain|debug|json] [--check] [--brief] [--raw] [FILE].. | --help | --version\n"
    usage = "usage: nlroute FAMILY\n"
    no_hex, long = b"zz", b"0" * 262_145
    for words, given, text, status, others in (
        (["nlroute"], b"", usage, 2, 0),
        (["nlroute", "tap"], b"", usage, 2, 0),
        (["nlroute", "tap", "dsa"], b"", usage, 2, 0),
        (["nlroute", "--version"], b"", usage, 2, 0),
        (["nlroute", "dsa"], folder, "read fault\n", 5, 0),
        (["nlroute", "dsa"], no_hex, "bad hex\n", 2, for_reading(no_hex) + 3),
        (["nlroute", "dsa"], long, "input too long\n", 2, for_reading(long) + 1),
        (["nlshow", "-x"], b"", unknown, 2, 22),
        (["nlshow", "--version"], b"", "nlshow 0.3.0\n", 0, 9),
    ):
        yield words, given, printed(text, status), [NO_MEMORY], for_arguments(words) + others


def runs_of_json():
    """`nlshow` for lines as JSON. If an allocation fails while it reads its arguments, it prints that; later, it ends after a
    whole document."""
    documents = (
        '{"line":1,"error":{"at":null,"text":"no such family"},"ok":false}\n',
        '{"line":2,"list":{"family":"dsa","attrs":[{"name":"conduit","value":42}]},"ok":true}\n',
    )
    fronts = ["".join(documents[:count]) for count in range(len(documents) + 1)]
    words = ["nlshow", "--format", "json"]
    wanting = [NO_MEMORY, *(printed(it, 4) for it in fronts)]
    yield words, b"tap\ndsa 080001002a000000\n", printed(fronts[-1], 1), wanting, for_arguments(words) + 39


def runs_of_files():
    """`nlshow` as JSON for a file that is not there, and for a folder, which cannot be read. It prints no document if an
    allocation fails after its arguments are read, and may say on standard error why a file cannot be opened."""
    for name, text, reason in (("none", "cannot open", "No such file or directory"), (".", "read fault", "Is a directory")):
        words = ["nlshow", "--format", "json", name]
        document = f'{{"file":"{name}","error":{{"at":null,"text":"{text}"}},"ok":false}}\n'
        line = f"nlshow: {name}: {reason}\n"
        wanting = [NO_MEMORY, printed("", 4), *([printed(line, 4)] * (name == "none"))]
        yield words, b"", printed(document + line, 5), wanting, for_arguments(words) + 43


def main():
    lacking = [it for it in PROGRAMS.values() if not os.path.isfile(it)]
    if lacking or not shutil.which("cc"):
        print("refusals: there is no cc" if not lacking else f"refusals: rt ci has not built {', '.join(lacking)}")
        print("0 passed, 1 failed")
        return 1
    results = []
    with tempfile.TemporaryDirectory(prefix="refusals-") as room:
        malloc = f"{room}/malloc.so"
        flags = ["-std=c11", "-O2", "-Wall", "-Wextra", "-Werror", "-shared", "-fPIC"]
        subprocess.run(["cc", *flags, "-o", malloc, f"{ROOT}/tools/refusals.c"], check=True)
        refuser = Refuser(malloc)
        folder = os.open(ROOT, os.O_RDONLY)
        for words, given, *wanted in [*runs_of_calls(), *runs_of_programs(folder), *runs_of_json(), *runs_of_files()]:
            wrong = refuser.refuse_each(words, given, *wanted)
            results.append(not wrong)
            if wrong:
                print(f"FAILED {' '.join(words)} {str(given)[:100]}: {wrong}")
    print(f"{refuser.refusals} runs in which an allocation fails")
    print(f"{sum(results)} passed, {results.count(False)} failed")
    return 0 if all(results) else 1


if __name__ == "__main__":
    sys.exit(main())
