#!/usr/bin/env python3
"""Gives `nlshow` mutated captures, and compares what it prints with what reader.py works out.

usage: extra/fuzz/captures/mutate.py [--binary PATH] [--seconds N] [--seed S] [--corpus DIR]

It starts from the inputs of runs/captures, from those that fuzz.c found, if --corpus names their folder, and from pcapng
files of random parts. It changes bytes, numbers in headers, lengths, options and orders of bytes, and cuts, copies, removes,
moves and mixes units: records, blocks and messages. Inputs of messages are given with --raw. `nlshow` reads 400 inputs in
one process. Then:

- the lines of packets, the first line of each message, and the error that ends the input are those of reader.py;
- standard error is empty;
- one of the inputs, written to a pipe in pieces, gives the same, and its status is 1 if it has an error, 2 if it is in
  another format, otherwise 0.

It stops at the first difference, makes the input shorter while it still differs, and leaves it as out/difference. It is a
difference, too, if an input stops the program, or keeps it for more than a minute.

It prints how many inputs each error ended, and how many had each form of line. The last line is 'N inputs passed, M failed',
and the status 0 only if none failed. The same seed gives the same inputs, in the same order.

--binary names `nlshow`; the default is the one that `rt run` leaves in crates/nlshow. bench/unproved.py builds another.
"""
import argparse
import collections
import os
import random
import re
import struct
import subprocess
import sys
import tempfile
import time
from pathlib import Path

sys.dont_write_bytecode = True
ROOT = Path(__file__).resolve().parents[3]
sys.path.insert(0, f"{ROOT}/tools")
import reader  # noqa: E402
from runs import add_stored, files_of, runs_of  # noqa: E402

# How many inputs the program reads, the most seconds that it may take, and how often an input is made shorter.
BATCH, SECONDS, TRIES = 400, 60, 4000
# Longer stored inputs are cut to a few of their units.
LONG, FEW = 1000, 5
# Numbers that headers and options have, or that are next to limits.
NUMBERS = [*range(34), 36, 48, 60, 64, 128, 137, 252, 253, 254, 255, 256, 257, 271, 1000, 65524, 65532, 65535, 65536]
NUMBERS += [it + more for it in (reader.MOST, 1 << 31, 1 << 32) for more in (-17, -16, -8, -4, -1, 0, 1, 4)]
MAGIC = [*map(bytes.fromhex, reader.PCAP), b"\n\r\r\n"]
# The last units of time that are printed, with `if_tsresol` of 0 to 9, and a usual time.
TIMES = [10**digits * (reader.LAST_TIME // reader.SECOND) + 10**digits - 1 for digits in range(10)]
TIMES += [10**digits * 1795806395 for digits in range(10)]


class Input(collections.namedtuple("Input", "data is_raw")):
    @property
    def arguments(self):
        return ["--raw"] * self.is_raw


def stored():
    """The inputs of the runs, except lines."""
    for file, run in [(file, run) for file in files_of(ROOT, "captures") for run in runs_of(ROOT, file)]:
        add_stored(run, os.path.dirname(f"{ROOT}/runs/{file}"))
        found = (Input(it, "--raw" in run.arguments) for it in run.given.values())
        yield from (it for it in found if reader.form_of(*it) != "lines")


def of_corpus(folder):
    """The inputs of fuzz.c in a folder. The lowest bit of their first byte says whether they are given with --raw."""
    found = (it.read_bytes() for it in sorted(folder.iterdir()))
    return [Input(it[1:], it[0] % 2 == 1) for it in found if it]


def units(data, is_raw=False):
    """The units of an input. The last has all bytes that are left."""
    starts = reader.read(data, is_raw).starts or [0]
    return [data[at:to] for at, to in zip(starts, [*starts[1:], len(data)])]


class Mutator:
    """Makes inputs."""

    def __init__(self, seeds):
        self.seeds = [(it, units(*it)) for it in seeds]
        self.weights = [0.05 if len(it.data) > LONG * 20 else 1 for it in seeds]
        self.mutations = [
            self.change_byte, *[self.change_number] * 3, self.change_near, *[self.change_length] * 2, self.change_magic,
            self.swap_bytes, self.swap_unit, self.cut, self.insert_bytes, self.remove_bytes, self.remove_unit,
            self.copy_unit, self.move_unit, self.mix, *[self.add_option] * 2, self.add_filler,
        ]  # fmt: skip

    def input(self):
        if random.random() < 0.15:
            data, is_raw = made(), False
        else:
            (data, is_raw), parts = random.choices(self.seeds, self.weights)[0]
            data = few(parts, reader.form_of(data, is_raw)) if len(data) > LONG else data
        for _ in range(random.choice([0, 1, 1, 1, 2, 2, 3, 4])):
            data = random.choice(self.mutations)(data, is_raw)
        return Input(data, is_raw != (random.random() < 0.02))

    def change_byte(self, data, _):
        changed, at = bytearray(data or b"\0"), random.randrange(len(data) or 1)
        changed[at] = random.choice([random.randrange(256), changed[at] ^ 1 << random.randrange(8)])
        return bytes(changed)

    def change_number(self, data, is_raw):
        """A number in the header of a unit."""
        at, size = place(data, is_raw), random.choice([2, 4, 4, 4, 8])
        order = random.choice(["little", "big"])
        number = random.choice([random.choice(NUMBERS), random.choice(TIMES), random.getrandbits(8 * size)])
        return data[:at] + (number % (1 << 8 * size)).to_bytes(size, order) + data[at + size :]

    def change_near(self, data, is_raw):
        """A number becomes a little more or less."""
        at, order = place(data, is_raw), random.choice(["little", "big"])
        number = int.from_bytes(data[at : at + 4], order) + random.choice([-16, -8, -4, -3, -2, -1, 1, 2, 3, 4, 8, 16])
        return data[:at] + (number % (1 << 32)).to_bytes(4, order) + data[at + 4 :]

    def change_length(self, data, is_raw):
        """A unit gets more bytes, or fewer, and its length is that."""
        parts = units(data, is_raw)
        at, form = random.randrange(len(parts)), reader.form_of(data, is_raw)
        end = 4 if form == "pcapng" else 0
        body = parts[at][: len(parts[at]) - end]
        keep = random.choice([len(body), 8, 16, 24, 28, random.randrange(len(body) + 1)])
        body = body[:keep] + random.choice([bytes, random.randbytes])(random.choice([0, 0, 4, 8, random.randrange(40)]))
        parts[at] = with_length(body, form, order_of(data))
        return b"".join(parts)

    def change_magic(self, data, _):
        return random.choice(MAGIC)[: random.choice([3, *[4] * 9])] + data[4:]

    def swap_bytes(self, data, is_raw):
        at, size = place(data, is_raw), random.choice([2, 4, 8])
        return data[:at] + data[at : at + size][::-1] + data[at + size :]

    def swap_unit(self, data, is_raw):
        """A unit, or all of them, in the other order of bytes."""
        parts = units(data, is_raw)
        chosen = range(len(parts)) if random.random() < 0.5 else [random.randrange(len(parts))]
        for it in chosen:
            head = 28 if len(parts[it]) > 12 else 16
            words = [parts[it][at : at + 4][::-1] for at in range(0, min(head, len(parts[it])), 4)]
            end = parts[it][-4:][::-1] if len(parts[it]) >= head + 4 else b""
            parts[it] = b"".join(words) + parts[it][head : len(parts[it]) - len(end)] + end
        return b"".join(parts)

    def cut(self, data, is_raw):
        return data[: random.choice([place(data, is_raw), len(data) - random.randrange(20), random.randrange(len(data) + 1)])]

    def insert_bytes(self, data, is_raw):
        at = place(data, is_raw)
        return data[:at] + random.choice([bytes, random.randbytes])(random.choice([1, 2, 3, 4, 8, 12, 16])) + data[at:]

    def remove_bytes(self, data, is_raw):
        at = place(data, is_raw)
        return data[:at] + data[at + random.choice([1, 2, 3, 4, 8, 12, 16]) :]

    def remove_unit(self, data, is_raw):
        parts = units(data, is_raw)
        del parts[random.randrange(len(parts))]
        return b"".join(parts)

    def copy_unit(self, data, is_raw):
        """A unit several times; at times, about as often as a section can have interfaces."""
        parts = units(data, is_raw)
        at, times = random.randrange(len(parts)), random.choice([1, 1, 2, 3])
        if random.random() < 0.05 and len(parts[at]) < 200:
            times = random.randrange(253, 259)
        return b"".join([*parts[:at], *[parts[at]] * times, *parts[at:]])

    def move_unit(self, data, is_raw):
        parts = units(data, is_raw)
        it = parts.pop(random.randrange(len(parts)))
        parts.insert(random.randrange(len(parts) + 1), it)
        return b"".join(parts)

    def mix(self, data, is_raw):
        """Units of another input between those of this one."""
        parts, (_, others) = units(data, is_raw), random.choices(self.seeds, self.weights)[0]
        at, first = random.randrange(len(parts) + 1), random.randrange(len(others))
        return b"".join([*parts[:at], *others[first : first + random.randrange(1, 4)], *parts[at:]])

    def add_option(self, data, _):
        """An option of an interface, if there is one."""
        parts, order = units(data), order_of(data)
        found = [it for it, part in enumerate(parts) if len(part) >= 20 and struct.unpack_from(order + "I", part) == (1,)]
        if reader.form_of(data) != "pcapng" or not found:
            return data
        it = random.choice(found)
        part, at = parts[it], random.randrange(16, len(parts[it]) - 3, 4)
        at = min(at, len(part) - 4)
        parts[it] = with_length(part[:at] + option(order) + part[at:-4], "pcapng", order)
        return b"".join(parts)

    def add_filler(self, data, is_raw):
        """A unit that moves what follows to where a read ends; rarely, one of about the greatest length."""
        form, order = reader.form_of(data, is_raw), order_of(data)
        size = 65536 - random.randrange(400) if random.random() < 0.1 else random.randrange(600)
        size = reader.MOST + random.randrange(-40, 12) if random.random() < 0.02 else size
        size -= size % 4 if random.random() < 0.9 else 0
        head = {"pcapng": struct.pack(order + "II", random.choice([5, 4, 2989, 1 << 31]), 0), "pcap": bytes(16)}.get(form)
        head = head or struct.pack("<IHHII", 0, 1, 0, 1, 0)
        parts = units(data, is_raw)
        return b"".join([parts[0], with_length(head + bytes(size), form, order), *parts[1:]])


def order_of(data):
    """The order of bytes of the first section, or of a pcap file."""
    return reader.ORDERS.get(data[8:12].hex()) or reader.PCAP.get(data[:4].hex(), "<")[0]


def place(data, is_raw):
    """An offset near the begin of a unit, mostly of a number, or anywhere."""
    starts = reader.read(data, is_raw).starts or [0]
    near = random.choice([*starts, len(data)]) + random.choice([0, 4, 8, 12, 16, 20, 24, random.randrange(44), -4])
    return min(max(random.choice([near, near, near, random.randrange(len(data) + 1)]), 0), len(data))


def with_length(body, form, order):
    """A unit of these bytes, whose lengths are right; if it is of pcapng, with one more behind it."""
    if form == "pcapng":
        length = struct.pack(order + "I", len(body) + 4)
        return body[:4] + length + body[8:] + length
    if form == "pcap":
        return body[:8] + struct.pack(order + "I", max(len(body) - 16, 0)) + body[12:]
    return struct.pack("<I", len(body)) + body[4:]


def few(parts, form):
    """A long input, cut to its first units and a few of the others."""
    head = {"pcap": 1, "pcapng": 2}.get(form, 0)
    at = random.randrange(min(head, len(parts) - 1), len(parts))
    return b"".join(parts[:head] + parts[at : at + random.randrange(1, FEW)])


def option(order):
    """An option of an interface, mostly one that is read."""
    code = random.choice([9, 9, 9, 14, 14, 14, 0, 1, 2, 2988, random.randrange(65536)])
    right = {9: bytes([random.choice([*range(10), 10, 128, 137])]), 14: packed_offset(order)}.get(code, b"lo")
    value = right if random.random() < 0.8 else random.randbytes(random.randrange(14))
    length = len(value) if random.random() < 0.95 else random.randrange(40)
    return struct.pack(order + "HH", code, length) + value + bytes(-len(value) % 4)


def packed_offset(order):
    seconds = random.choice([0, 1, -1, 3600, reader.LAST_TIME // reader.SECOND, 1795806395, (1 << 63) - 1, -(1 << 63)])
    seconds += random.randrange(-1, 2)
    return struct.pack(order + "q", min(max(seconds, -(1 << 63)), (1 << 63) - 1))


def made():
    """A pcapng file of random parts, mostly whole."""
    parts = []
    for _ in range(random.choice([1, 1, 1, 2, 3])):
        order, interfaces = random.choice("<>"), random.choice([0, 1, 1, 1, 2, 3])
        version = random.choice([(1, 0), (1, 0), (1, 0), (1, 2), (1, 1), (2, 0)])
        head = struct.pack(order + "III2Hq", reader.SECTION, 0, 0x1A2B3C4D, *version, -1)
        parts.append(with_length(head, "pcapng", order))
        for _ in range(interfaces):
            link_type = random.choice([253, 253, 253, 1, 113, 65535])
            options = b"".join(option(order) for _ in range(random.choice([0, 0, 1, 1, 2, 3])))
            parts.append(with_length(struct.pack(order + "IIHHI", 1, 0, link_type, 0, 0) + options, "pcapng", order))
        for _ in range(random.randrange(4)):
            parts.append(made_packet(order, interfaces))
    return b"".join(parts)


def made_packet(order, interfaces):
    messages = b"".join(made_message() for _ in range(random.randrange(3)))
    protocol = random.choice([0, 0, 0, 0, 16, 17, 21, random.randrange(24), random.randrange(65536)])
    packet = (struct.pack(">14xH", protocol) + messages)[: random.choice([99, 99, 99, 15, 0, random.randrange(40)])]
    when = random.choice([random.choice(TIMES) + random.randrange(-1, 2), random.getrandbits(64), 0]) % (1 << 64)
    original = random.choice([len(packet), len(packet), 0, 99, (1 << 32) - 1])
    which = random.randrange(interfaces) if interfaces and random.random() < 0.95 else random.randrange(4)
    fields = [reader.PACKET, 0, which, when >> 32, when % (1 << 32), len(packet), original]
    block = struct.pack(order + "7I", *fields) + packet + bytes(-len(packet) % 4)
    return with_length(block + random.choice([b"", b"", option(order)]), "pcapng", order)


def made_message():
    payload = random.choice([bytes, random.randbytes])(random.choice([0, 0, 4, 8, 16, random.randrange(40)]))
    kind = random.choice([1, 2, 3, 15, 16, 17, 18, 19, 24, random.randrange(65536)])
    flags = random.choice([0, 0x305, random.randrange(65536)])
    head = struct.pack("<IHHII", 16 + len(payload), kind, flags, random.getrandbits(32), random.getrandbits(32))
    return head + payload + bytes(random.choice([-len(payload) % 4, -len(payload) % 4, 0, 4]))


# ---- nlshow


ERROR = re.compile(r" *error at |input error at |no such family|bad hex|not canonical|input too long")


def difference(given, printed):
    """How the lines that are printed for an input differ from those that reader.py works out, or nothing. What is printed
    for lines is not compared."""
    wanted = reader.read(*given)
    found = [*reader.comparable(printed)]
    if wanted.form == "lines" or found == wanted.lines:
        return ""
    at = len(os.path.commonprefix([wanted.lines, found]))
    mine, other = (it[at] if at < len(it) else "(no line)" for it in (wanted.lines, found))
    return f"line {at + 1} is {other!r}, expected {mine!r}"


def wrong_status(status, printed):
    """What is wrong with the status of a program that has printed these lines, or nothing."""
    wanted = 2 if {*printed} & {*reader.OTHERS.values(), reader.MESSAGES} else 1 if any(map(ERROR.match, printed)) else 0
    return "" if status == wanted else f"the status is {status}, expected {wanted}"


class Program:
    """nlshow, in a folder for its files."""

    def __init__(self, binary, folder):
        self.binary, self.folder = os.path.abspath(binary), folder

    def run(self, words, **how):
        try:
            ran = subprocess.run([self.binary, *words], cwd=self.folder, capture_output=True, timeout=SECONDS, **how)
        except subprocess.TimeoutExpired:
            return [], f"it takes more than {SECONDS} s"
        lines = ran.stdout.decode("latin-1").split("\n")[:-1]
        return lines, wrong_status(ran.returncode, lines) or (f"standard error has {ran.stderr[:200]}" if ran.stderr else "")

    def one(self, given):
        """What is wrong with the output for an input."""
        lines, wrong = self.run(given.arguments, input=given.data)
        return wrong or difference(given, lines)

    def batch(self, inputs):
        """Whether the output for some inputs, all with --raw or all without it, is as it has to be."""
        names = [f"{it}" for it in range(len(inputs))]
        for name, it in zip(names, inputs):
            with open(f"{self.folder}/{name}", "wb") as file:
                file.write(it.data)
        lines, wrong = self.run([*inputs[0].arguments, "--", *names])
        places = [at for at, line in enumerate(lines) if line.startswith('file "')]
        if wrong or [lines[it] for it in places] != [f'file "{it}"' for it in names]:
            return False
        parts = zip(inputs, places, [*places[1:], len(lines)])
        return not any(difference(it, lines[at + 1 : to]) for it, at, to in parts)

    def in_pieces(self, given):
        """What is wrong with the output for an input that comes through a pipe, in pieces."""
        cuts = [0, *sorted(random.randrange(len(given.data) + 1) for _ in range(4)), len(given.data)]
        with tempfile.TemporaryFile() as output:
            words = [self.binary, *given.arguments]
            with subprocess.Popen(words, stdin=subprocess.PIPE, stdout=output, stderr=output, bufsize=0) as started:
                try:
                    for at, to in zip(cuts, cuts[1:]):
                        started.stdin.write(given.data[at:to])
                        time.sleep(0.0005)
                except BrokenPipeError:
                    # (it reads nothing behind an error)
                    pass
            output.seek(0)
            lines = output.read().decode("latin-1").split("\n")[:-1]
        return wrong_status(started.returncode, lines) or difference(given, lines)


def shorter(given, fails):
    """The input without what it does not need to fail, as far as some tries find it."""
    data, size, tries = given.data, max(len(given.data) // 2, 1), 0
    while size:
        at = 0
        while at < len(data) and tries < TRIES:
            tries += 1
            without = data[:at] + data[at + size :]
            if fails(Input(without, given.is_raw)):
                data = without
            else:
                at += size
        size //= 2
    return Input(data, given.is_raw)


# ---- all of it


NAME, NUMBER = re.compile(r"^[A-Z]+_[A-Z]+\b|NETLINK_\w+"), re.compile(r"\d+")


class Counts:
    """What the inputs reached."""

    def __init__(self):
        self.inputs, self.errors, self.lines = 0, collections.Counter(), collections.Counter()

    def add(self, given):
        found = reader.read(*given)
        self.inputs += 1
        self.errors[found.error or f"none: {found.form}"] += 1
        self.lines.update({form_of_line(it) for it in found.lines if not it.startswith("input error at ")})

    def show(self):
        width = max(map(len, [*self.errors, *self.lines]))
        for title, counts in (("inputs that end by", self.errors), ("inputs with a line", self.lines)):
            print(f"{title}:")
            for name, number in sorted(counts.items()):
                print(f"  {name:<{width}}{number:>10,}")
        for it in reader.ERRORS:
            if it not in self.errors:
                print(f"never reached: {it}")


def form_of_line(line):
    """A line without its numbers and names."""
    return NUMBER.sub("N", NAME.sub("NAME", line))


def tried(program, inputs):
    """What is wrong with the output for some inputs, and the first input to blame, or nothing."""
    for group in ([it for it in inputs if it.is_raw], [it for it in inputs if not it.is_raw]):
        if group and not program.batch(group):
            failed = [it for it in group if program.one(it)]
            if not failed:
                return "a batch of inputs differs, but none of them by itself", random.choice(group)
            it = shorter(min(failed, key=lambda it: len(it.data)), program.one)
            return program.one(it), it
    it = random.choice(inputs)
    wrong = program.in_pieces(it)
    return (f"in pieces, {wrong}", it) if wrong else None


def search(program, mutator, seconds):
    """Tries inputs for so long. Returns the counts, and what is wrong."""
    counts, until = Counts(), time.monotonic() + seconds
    while time.monotonic() < until:
        inputs = [mutator.input() for _ in range(BATCH)]
        for it in inputs:
            counts.add(it)
        if found := tried(program, inputs):
            return counts, found
    return counts, None


def main():
    parser = argparse.ArgumentParser(usage=__doc__.split("usage: ")[1].split("\n")[0])
    parser.add_argument("--binary", default=f"{ROOT}/crates/nlshow/out/nlshow")
    parser.add_argument("--seconds", type=int, default=600)
    parser.add_argument("--seed", type=int, default=1)
    parser.add_argument("--corpus", type=Path)
    asked = parser.parse_args()
    random.seed(asked.seed)
    seeds = [*stored(), *(of_corpus(asked.corpus) if asked.corpus else ())]
    print(f"{len(seeds)} stored inputs", flush=True)
    # (a folder in memory is faster)
    with tempfile.TemporaryDirectory(dir="/dev/shm" if os.path.isdir("/dev/shm") else None) as folder:
        program = Program(asked.binary, folder)
        if found := tried(program, seeds):
            counts = Counts()
        else:
            counts, found = search(program, Mutator(seeds), asked.seconds)
    if counts.inputs:
        counts.show()
    if found:
        wrong, given = found
        path = Path(__file__).parent / "out/difference"
        path.parent.mkdir(exist_ok=True)
        path.write_bytes(given.data)
        print(f"DIFFERENCE {' '.join(['nlshow', *given.arguments, str(path)])}: {wrong}")
    print(f"{counts.inputs - bool(found):,} inputs passed, {int(bool(found))} failed")
    return 1 if found else 0


if __name__ == "__main__":
    sys.exit(main())
