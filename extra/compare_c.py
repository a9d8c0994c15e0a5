#!/usr/bin/env python3
"""Compares the C API with `nlshow`, value by value.

usage: extra/compare_c.py [--binary PATH] [--library PATH] [--lines N] [--seed S]

The lists are those of runs/, random ones, and each prefix of a list that has the stored attributes of an attribute set.
compare_c.c prints each by `nlroute_values`, `nlroute_kind_name` and `nlroute_text`, or its first error by
`nlroute_fault_text`. Names, texts and errors must be those of `nlshow`. In C, a list of another set has no text but its
length; what `nlshow` prints below it is left out. `nlroute_write` must give the values back as `nlroute_rewrite` does. It
needs `cc`. CI does not run it.

The last line is 'N lists passed, M failed', and the status 0 only if all passed.
"""
import re
import subprocess
import sys
import tempfile

sys.dont_write_bytecode = True
from random_lines import ROOT, SETS, lists_of, options, random_list, shown, stored  # noqa: E402
from crates import kit_folder  # noqa: E402

def lists(count):
    """The lists to compare: those that are stored, their prefixes, and random ones."""
    found = lists_of(stored())
    for name in SETS:
        longest = max((data for of, data in found if of == name and len(data) <= 300), key=len)
        found += [(name, longest[:length]) for length in range(len(longest))]
    while len(found) < count:
        found.append(random_list())
    return found


def in_c(library, given, room):
    """What compare_c.c prints of each list."""
    kit = kit_folder()
    words = ["cc", "-std=c11", "-Wall", "-Wextra", "-Werror", "-O1", "-g", "-I", f"{ROOT}/crates/nlroute_ffi/include"]
    words += ["-o", f"{room}/compare", f"{ROOT}/extra/compare_c.c", library, f"{kit}/c/libos_c.a", f"{kit}/c/liblibc_c.a"]
    subprocess.run(words, check=True)
    lines = "".join(f"{SETS.index(name)} {data.hex()}\n" for name, data in given)
    ran = subprocess.run([f"{room}/compare"], input=lines.encode(), stdout=subprocess.PIPE, check=True)
    return [it.split("\n")[:-1] for it in re.split(r"^end\n", ran.stdout.decode(), flags=re.MULTILINE)[:-1]]


def as_printed(lines):
    """The lines of compare_c.c as `nlshow` prints a list: the elements of an array or a list of addresses in one line, with
    their unit at its end; of an array whose places have names, only those that are not 0, and how many are."""
    found, zeros = [], None
    for line in [*lines, ""]:
        head, _, text = line.partition(" ")
        name, _, value = text.partition(" ")
        place = r"(?!type$)[a-z]\w*" if zeros is None else r"(?!type$)[a-z]\w*|\[\d+\]"
        if re.fullmatch(place, name) and found and head == "1":
            zeros = (zeros or 0) + (value == "0")
            found[-1] += f" {name} {value}" * (value != "0")
            continue
        found[-1:] = [f"{it} ({zeros} zero)" if zeros else it for it in found[-1:]]
        zeros = None
        if not head.isdigit():
            found += [line] * bool(line)
        elif name.startswith("[") and found:
            unit = value.partition(" ")[2]
            found[-1] = (found[-1].removesuffix(f" {unit}") if unit else found[-1]) + f" {value}"
        else:
            found.append(f"{'  ' * (1 + int(head))}{text}".rstrip())
    return found


def without_lists(wanted, found):
    """The lines of `nlshow` without those of lists that have only their length among the lines of compare_c.c."""
    kept, lengths = [], [re.fullmatch(r"( *)(\S+) \(\d+ bytes?, not decoded\)", it) for it in found]
    for line in wanted:
        at = len(kept)
        if at and at <= len(found) and lengths[at - 1] and kept[-1] == found[at - 1] and line.startswith(f"{lengths[at - 1][1]}  "):
            continue
        length = lengths[at] if at < len(found) else None
        is_opened = length and re.fullmatch(rf"{length[1]}{re.escape(length[2])}( ifindex .*?)?( \(\w+\))?( \(empty\))?", line)
        kept.append(found[at] if is_opened else line)
    return kept


def agree(plain, lines):
    """Whether the lines of compare_c.c say what `nlshow` does."""
    wanted = plain.decode().split("\n")[:-1]
    errors = [it.strip() for it in wanted if it.startswith("  error at")]
    if errors or lines[:1] and lines[0].startswith("error at"):
        return errors[:1] == lines
    found = as_printed(lines)
    # (in C, an empty list of addresses is a list like others)
    return [it.removesuffix(" (empty)") for it in without_lists(wanted, found)] == [it.removesuffix(" (empty)") for it in found]


def main():
    asked = options(8000, library=f"{ROOT}/crates/nlroute_ffi/out/libnlroute_ffi.a")
    given = lists(asked.lines)
    with tempfile.TemporaryDirectory() as room:
        printed = in_c(asked.library, given, room)
    plain = shown(asked.binary, [f"{name} {data.hex()}" for name, data in given])
    wrong = [it for it in zip(given, plain, printed) if not agree(it[1], it[2])]
    for (name, data), text, lines in wrong[:3]:
        print(name, data.hex(), text.decode(), *lines, sep="\n")
    print(f"{len(given) - len(wrong)} lists passed, {len(wrong)} failed")
    return 1 if wrong or len(printed) != len(given) else 0


if __name__ == "__main__":
    sys.exit(main())
