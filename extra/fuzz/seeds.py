#!/usr/bin/env python3
"""seeds.py DIR [requests|captures]: the inputs that the fuzzer starts from, as files of DIR.

They are the lists of bench, those that Linux sent and those of the runs of nlshow, each behind a byte with the number of its
family; and arrays of values to write, behind a byte whose highest bit is set too. For captures, they are the inputs of
runs/captures, behind the byte that captures/fuzz.c describes; for requests, those of bindings/requests.tsv, and descriptions of
values, as requests/fuzz.c describes."""
import struct
import subprocess
import sys
import tempfile
from pathlib import Path

TOP = Path(__file__).resolve().parents[2]
sys.dont_write_bytecode = True
sys.path.insert(0, f"{TOP}/extra")
sys.path.insert(0, f"{TOP}/extra/fuzz/captures")
import mutate  # noqa: E402
from random_lines import SETS, captured, lists_of, stored  # noqa: E402

# The longest input that the fuzzer makes.
MOST = 1 << 17


def of_bench():
    with tempfile.TemporaryDirectory() as room:
        subprocess.run([sys.executable, f"{TOP}/bench/make_lists.py", room], check=True)
        for line in Path(TOP, "bench/original.tsv").read_text(encoding="utf-8").splitlines()[1:]:
            name, family = line.split("\t")[:2]
            yield family, bytes.fromhex(Path(room, f"{name}.hex").read_text(encoding="utf-8"))


def arrays():
    """For each family, values of its first attribute types, each by itself and before an element."""
    for family in range(len(SETS)):
        for kind in range(64):
            value = struct.pack("<HHHBBIIQQ16s", kind, 0, 0, 0, 0, 1, 6, 1, 0, b"\x02")
            element = struct.pack("<HHHBBIIQQ16s", kind, 1, 0, 0, 1, 2, 4, 3, 0, b"\x0a")
            yield from ((0x80 | family, value), (0x80 | family, value + element))


def of_lists():
    lists = [*of_bench(), *captured(), *lists_of(stored())]
    return [*((SETS.index(name), data) for name, data in lists), *arrays()]


def of_captures():
    """The inputs, which are read in pieces of up to 1 to 64 bytes."""
    found = [it for it in mutate.stored() if len(it.data) < MOST]
    return [(2 * (number % 64) + it.is_raw, it.data) for number, it in enumerate(found)]


def of_requests():
    """Each request with 15 bytes more room and no change, with a change of each field, and with more octets; and descriptions: a
    head, then a name, an IFLA_LINKINFO with a kind and its data, and one value of the data."""
    lines = Path(TOP, "bindings/requests.tsv").read_text(encoding="utf-8").splitlines()
    for number, line in enumerate(lines):
        message = bytes.fromhex(line.split("\t")[1])
        yield 0x8F, message
        yield from ((0x90, bytes([number % 8, field, 1, 0]) + message) for field in range(19))
        # (the first value has as many bytes as an attribute can have, or one more)
        yield from ((0xA0, bytes([0, 11, 0, 0, 0, 8, size, 0xFF]) + message.ljust(0xFFFC, b"\0")) for size in (0xFB, 0xFC))
    # (type, flags, index, address family and other fields; then a byte for each step of `of_description`, and what it takes)
    head = bytes([0, 0, 1, 0, *[0] * 6])
    for kind in range(30):
        is_port = kind in (18, 19)
        data = bytes([0, 20, 1, 2 + is_port, kind, 4, 1 - is_port])
        yield from ((0x07, head + data + bytes([7, value, 1, 1, 0])) for value in range(32))


def main():
    seeds = list({"captures": of_captures, "requests": of_requests}.get(" ".join(sys.argv[2:]), of_lists)())
    Path(sys.argv[1]).mkdir(parents=True, exist_ok=True)
    for number, (first, data) in enumerate(seeds):
        Path(sys.argv[1], f"{number:04}").write_bytes(bytes([first]) + data)
    print(f"{len(seeds)} seeds")


if __name__ == "__main__":
    main()
