#!/usr/bin/env python3
"""Compares the structs that C callers pass with those of the sources: size, number of fields, and the offset, size and name
of each field.

usage: tools/layouts.py

A struct of the sources with `#[repr(C)]` names in its comment the struct of C that it is, as `struct nlroute_fault`. Its
fields, in order, give the layout of C by the rules of C. A comment that ends with "`type` in C." names a field in C. The C
compiler compares this with the struct of nlroute.h, of nlroute_requests.h, or of the kernel's headers. No contract says
anything of it: in the logic, a struct has names and no offsets.

The last line is 'N passed, M failed', counted in structs, their sizes, fields and numbers of fields, and the status 0 only
if all passed.
"""
import os
import re
import subprocess
import sys

ROOT = os.path.dirname(os.path.dirname(os.path.realpath(__file__)))
SOURCES = ["crates/link_entries/src", "crates/link_requests/src", "crates/nlroute_ffi/src"]
HEADERS = '#include <stddef.h>\n#include "nlroute_requests.h"\n#include <linux/can/netlink.h>\n'
STRUCT = re.compile(r"((?:^///[^\n]*\n)+)(?:^#\[[^\n]*\n)*?^#\[repr\(C\)\]\n(?:^#\[[^\n]*\n)*^pub struct (\w+) \{\n([^}]*)^\}", re.MULTILINE)
FIELD = re.compile(r"^    (?:///[^\n]*, `(\w+)` in C\.\n    )?pub (\w+): (?:\[u(\d+); (\d+)\]|[ui](\d+)),$", re.MULTILINE)


def structs(text):
    """The structs of a source: names in C and in Rust, the size, and the fields: name, offset and size."""
    for comment, name, body in STRUCT.findall(text):
        named = re.search(r"`struct (\w+)`", comment)
        fields, end, widest = [], 0, 1
        for in_c, field, of, count, width in FIELD.findall(body):
            size = int(of or width) // 8
            start = -(-end // size) * size
            fields.append((in_c or field, start, size * int(count or 1)))
            end, widest = start + fields[-1][2], max(widest, size)
        if len(fields) != len(re.findall(r"^    pub \w+:", body, re.MULTILINE)):
            raise ValueError(f"{name} has a field that is neither a number nor an array of numbers")
        yield named[1] if named else None, name, -(-end // widest) * widest, fields


def claims(found):
    """What the compiler has to find: what it is about, the words for it, and the line of C that has no error if it is so."""
    for struct, _, size, fields in found:
        yield f"struct {struct}", *asserted(f"sizeof(struct {struct}) == {size}")
        for field, start, width in fields:
            same = f"offsetof(struct {struct}, {field}) == {start} && sizeof(((struct {struct} *)0)->{field}) == {width}"
            yield f"struct {struct}, {field}", *asserted(same)
        # (a further field can lie where the sources have padding: the compiler misses its value)
        values = ", ".join(["{1}"] * len(fields))
        yield f"struct {struct}, fields", f"it has {len(fields)} of them", f"struct {struct} all = {{{values}}};"


def asserted(claim):
    return claim, f'_Static_assert({claim}, "");'


def differences(text, folder):
    """What differs, for each struct, each field of it and their number, or None. The folder has the headers."""
    found = [*structs(text)]
    for struct, name, *_ in found:
        yield None if struct else f"{name}: its comment names no struct of C"
    for about, claim, line in claims(it for it in found if it[0]):
        command = ["cc", "-std=c11", "-fsyntax-only", "-Werror=missing-field-initializers", "-I", folder, "-x", "c", "-"]
        ran = subprocess.run(command, input=f"{HEADERS}{line}\n", capture_output=True, text=True)
        yield None if ran.returncode == 0 else f"{about}: it is not so in C that {claim}"


def sources():
    """The texts of the sources that have such structs."""
    for folder in SOURCES:
        for file in sorted(os.listdir(f"{ROOT}/{folder}")):
            if file.endswith(".rt"):
                with open(f"{ROOT}/{folder}/{file}", encoding="utf-8") as it:
                    yield it.read()


def main():
    header = f"{ROOT}/crates/nlroute_ffi/include"
    results = [it for text in sources() if "#[repr(C)]" in text for it in differences(text, header)]
    print(*(f"FAILED {it}" for it in results if it), sep="\n", end="\n" if any(results) else "")
    print(f"{results.count(None)} passed, {len(results) - results.count(None)} failed")
    return 0 if results and not any(results) else 1


if __name__ == "__main__":
    sys.exit(main())
