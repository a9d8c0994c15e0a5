#!/usr/bin/env python3
"""Compares the Rust crate and the Python package with the C API, on random lists.

usage: bindings/compare.py [--lists N] [--seed S] [--rust PROGRAM | --without-rust] [--c PROGRAM]

Each program reads lines `FAMILY CHANGES NUMBER =HEX`, and prints for each list, before a line `end`:

- `fault AT PLACE CAUSE KIND INNER FIRST SECOND` and `text TEXT` if the list is malformed;
- otherwise `value DEPTH KIND NAME CONTENT` for each value, and `text LINE` for each line that nlshow prints; then what
  is written of the values, `bytes HEX`, or `rejected INDEX NAME CODE TEXT`.

If CHANGES is 1, the values are changed before they are written, and the attribute of the unknown type 99 is appended:

- a bond: IFLA_BOND_MIIMON is set to NUMBER, IFLA_BOND_ARP_IP_TARGET to two addresses; IFLA_BOND_AD_INFO is appended;
- a bridge: IFLA_BR_FORWARD_DELAY is set, IFLA_BR_MCAST_HASH_MAX appended, and IFLA_BR_PRIORITY removed;
- a VLAN: IFLA_VLAN_FLAGS and IFLA_VLAN_PROTOCOL are set, IFLA_VLAN_EGRESS_QOS is appended;
- a CAN controller: IFLA_CAN_BITTIMING is set, IFLA_CAN_RESTART_MS appended.

Most of these numbers fit, but some VLAN protocols cannot be written.

Lists have attributes that the set knows and others, and many have some of their bytes changed. What C writes of a list
that is not changed must also be what nlroute_rewrite() writes.

The programs are those that bindings/compare.c and rust/examples/compare.rs become with the library in $NLROUTE_LIB_DIR,
which Python uses too. The last line is 'N passed, M failed', and the status 0 only if all passed.
"""
import argparse
import ctypes
import os
import random
import subprocess
import sys
import tempfile

sys.dont_write_bytecode = True
HERE = os.path.dirname(os.path.realpath(__file__))
sys.path[:0] = [HERE, f"{HERE}/python"]
FOLDER = os.environ.get("NLROUTE_LIB_DIR")
if not FOLDER:
    sys.exit("compare.py: set NLROUTE_LIB_DIR to the folder of the library")
os.environ["NLROUTE_LIBRARY"] = f"{FOLDER}/libnlroute.so"
from compare_python import lines_of  # noqa: E402

from nlroute import Family, _tables  # noqa: E402
from nlroute._kinds import Form  # noqa: E402
from nlroute._library import LIBRARY  # noqa: E402

LENGTHS = {
    Form.EMPTY: 0,
    Form.BOOL: 1,
    Form.MAC: 6,
    Form.IPV4: 4,
    Form.IPV6: 16,
    Form.BRIDGE_ID: 8,
    Form.VLAN_INFO: 4,
    Form.QOS_MAPPING: 8,
    Form.BERR_COUNTER: 4,
    Form.BITTIMING: 32,
    Form.BITTIMING_CONST: 48,
    Form.MASKED: 8,
}


def attribute(kind, payload):
    """Returns the bytes of an attribute."""
    return (4 + len(payload)).to_bytes(2, "little") + kind.to_bytes(2, "little") + payload + bytes(-len(payload) % 4)


def payload(row):
    """Returns a payload for an attribute type, mostly of a correct length."""
    if row.form == Form.LIST:
        rows = row.elements or (row.item,)
        count = random.choice([0, 1, 2, 3, 5])
        if row.item and row.item.form in (Form.UNSIGNED, Form.SIGNED):
            return random.randbytes(count * random.choice([2, 4, 4, 8]))
        chosen = random.choices(rows, k=count)
        return b"".join(attribute(flagged(it.kind), payload(it)) for it in chosen) + some_unknown()
    length = LENGTHS.get(row.form)
    if length is None:
        length = random.choice([0, 1, 6, 20] if row.form in (Form.BYTES, Form.TEXT, Form.HELD, Form.PEER) else [1, 2, 4, 4, 8])
    found = random.choice([random.randbytes(length), bytes([random.randrange(8)]) + bytes(max(0, length - 1))])[:length]
    return b"\x88\xa8" if row.name.endswith("VLAN_PROTOCOL") and random.random() < 0.5 else found


def some_unknown():
    """Returns nothing or, at times, an attribute that most sets do not know."""
    if random.random() > 0.1:
        return b""
    kind = random.choice([0, random.randrange(64), random.randrange(1 << 14)])
    return attribute(flagged(kind), random.randbytes(random.randrange(9)))


def flagged(kind):
    """Returns an attribute type, at times with NLA_F_NESTED or NLA_F_NET_BYTEORDER."""
    return kind | random.choice([0, 0, 0, 0x8000, 0x4000, 0xC000])


def one(table):
    """Returns an attribute of a set, at times with one after it whose type is not known, or of another length."""
    row = random.choice(list(table.by_kind.values()))
    content = payload(row)
    if random.random() < 0.01:
        content = content[: random.randrange(len(content) + 1)]
    return attribute(flagged(row.kind), content) + some_unknown()


def well_formed(family, data):
    """Returns whether a list decodes."""
    return LIBRARY.nlroute_first_fault(family, data, len(data), ctypes.create_string_buffer(40)) < 0


def made():
    """Returns a random list: the family, whether it is changed, a number, and the bytes."""
    family = random.choice(list(Family))
    parts = (one(_tables.TABLES[family]) for _ in range(random.randrange(12)))
    if random.random() < 0.8:
        parts = (it for it in parts if well_formed(family, it))
    data = bytearray(b"".join(parts))
    if data and random.random() < 0.3:
        for _ in range(random.choice([1, 1, 2, 5])):
            data[random.randrange(len(data))] = random.randrange(256)
    if random.random() < 0.1:
        data = data[: random.randrange(len(data) + 1)]
    number = random.choice([0, 700, 0x8100, 0x88A8, 0x8100, 0x88A8, random.randrange(1 << 32)])
    return family, random.randrange(2), number, bytes(data)


def programs(options, room):
    """Returns the paths of the programs in C and Rust, and builds those that are not named."""
    rust, c = options.rust, options.c
    if not rust and not options.without_rust:
        words = ["cargo", "build", "--quiet", "--offline", "--release", "--example", "compare"]
        target = os.environ.get("CARGO_TARGET_DIR", f"{room}/target")
        words += ["--manifest-path", f"{HERE}/rust/Cargo.toml", "--target-dir", target]
        subprocess.run(words, check=True)
        rust = f"{target}/release/examples/compare"
    if not c:
        words = [os.environ.get("CC", "cc"), "-std=gnu11", "-Wall", "-Wextra", "-Werror", "-O1", "-g"]
        words += ["-I", f"{HERE}/../crates/nlroute_ffi/include", "-o", f"{room}/compare"]
        words += [f"{HERE}/compare.c", f"{FOLDER}/libnlroute.so"]
        subprocess.run(words, check=True)
        c = f"{room}/compare"
    return [c, rust] if rust else [c]


def said(program, lists):
    """Returns what a program prints of each list."""
    lines = "".join(f"{int(family)} {changes} {number} ={data.hex()}\n" for family, changes, number, data in lists)
    path = os.pathsep.join(filter(None, [FOLDER, os.environ.get("LD_LIBRARY_PATH")]))
    environment = {**os.environ, "LD_LIBRARY_PATH": path}
    ran = subprocess.run([program], input=lines, stdout=subprocess.PIPE, text=True, check=True, env=environment)
    found = ran.stdout.split("end\n")[:-1]
    if len(found) != len(lists):
        sys.exit(f"compare.py: {program} prints {len(found)} of {len(lists)} lists")
    return found


def rewritten(family, data):
    """Returns what nlroute_rewrite() writes, or None."""
    rewrite = LIBRARY.nlroute_rewrite
    rewrite.restype, rewrite.argtypes = ctypes.c_ssize_t, LIBRARY.nlroute_values.argtypes
    out = ctypes.create_string_buffer(len(data) + 4)
    length = rewrite(family, data, len(data), out, len(data) + 4)
    return out.raw[:length] if length >= 0 else None


def agree(given, printed):
    """Returns whether the programs print the same for a list, and whether C writes it as nlroute_rewrite() does."""
    family, changes, _, data = given
    if len(set(printed)) != 1:
        return False
    lines = printed[0].splitlines()
    if changes or lines[0].startswith("fault "):
        return True
    return lines[-1] == f"bytes {rewritten(family, data).hex()}"


def main():
    parser = argparse.ArgumentParser()
    parser.add_argument("--lists", type=int, default=5000)
    parser.add_argument("--seed", type=int, default=1)
    parser.add_argument("--rust")
    parser.add_argument("--without-rust", action="store_true")
    parser.add_argument("--c")
    options = parser.parse_args()
    random.seed(options.seed)
    lists = [made() for _ in range(options.lists)]
    with tempfile.TemporaryDirectory() as room:
        in_others = [said(it, lists) for it in programs(options, room)]
    printed = list(zip(*in_others, (lines_of(*it) for it in lists), strict=True))
    wrong = [it for it in zip(lists, printed, strict=True) if not agree(*it)]
    for (family, changes, number, data), texts in wrong[:3]:
        print(f"{family.name} changes {changes} number {number}: {data.hex()}", *texts, sep="\n")
    good = sum("\nbytes " in f"\n{it[0]}" for it in printed)
    rejected = sum("\nrejected " in f"\n{it[0]}" for it in printed)
    print(f"of {len(lists)} lists, {good} are written, {rejected} rejected, and {len(lists) - good - rejected} malformed")
    print(f"{len(lists) - len(wrong)} passed, {len(wrong)} failed")
    return 1 if wrong else 0


if __name__ == "__main__":
    sys.exit(main())
