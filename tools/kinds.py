#!/usr/bin/env python3
"""Writes crates/nlroute_ffi/include/nlroute_kinds.h: the attribute types, by the kernel's names, each with the form of its
values, what its number counts, and whether it is read-only or write-only, which the comments of variants say. And beside it
nlroute_numbers.h, as tools/numbers_of_enums.py says: the numbers and flags that have names.

usage: tools/kinds.py [--check | --compare]

The types are those of the tables in specs/, whose rows are what the contracts cover. A row names its payloads by a word
of link_base/specs/Payloads.antt, which has the form; of a struct, the row has the layout too.

With --check it says whether the headers are what would be written, and no constant is in two of them or twice, and ends with
'N passed, M failed'; CI does this. With --compare, each type, number and flag that the kernel's headers of this machine have is
compared with theirs, by the C compiler.
"""
import re
import subprocess
import sys
import textwrap

sys.dont_write_bytecode = True
import numbers_of_enums as numbers  # noqa: E402
from families import families  # noqa: E402
from pages import ROOT, Tree  # noqa: E402

HEADER = "crates/nlroute_ffi/include/nlroute_kinds.h"
WORD = re.compile(r"^(\w+)(?: \w+)* = (?:plain |with_names |record \{ form = )\(?forms\.(?:Number \w+ \w+ roles\.|Bytes looks\.)?(Numbers I32|\w+)", re.MULTILINE)
PLACES = re.compile(r"^abbrev pub (\w+)_names .*\n.* =((?:\n? +\(\d+, codes \"\w+\"\) ∷)+)", re.MULTILINE)
# The forms of the header, by those of the tables (of a number, its role; of bytes, their look), and by the layouts of structs.
FORMS = {
    "Nothing": "EMPTY", "Bool": "BOOL", "FlagOrBool": "BOOL", "Plain": "UNSIGNED", "Coded": "NAMED", "Signed": "SIGNED",
    "Enum": "NAMED", "Protocol": "NAMED", "Flags": "FLAGS", "LowFlags": "FLAGS", "MaskedFlags": "MASKED", "Pair": "QOS_MAPPING",
    "Mac": "MAC", "Ipv4": "IPV4", "Ipv6": "IPV6", "Address": "BYTES", "Text": "TEXT", "Held": "HELD", "Peer": "PEER", "Limits": "BITTIMING_CONST",
    "Numbers": "LIST of UNSIGNED", "Numbers I32": "LIST of SIGNED", "Struct": "BYTES",
}  # fmt: skip
# The structs that have forms of their own.
STRUCTS = {
    "BridgeId": "BRIDGE_ID", "VlanInfo": "VLAN_INFO", "BooleanOptions": "MASKED", "BitTiming": "BITTIMING",
    "Clock": "UNSIGNED", "CtrlMode": "MASKED", "BerrCounter": "BERR_COUNTER",
}  # fmt: skip
# What numbers count, by the quantities of the tables.
UNITS = {
    "": "", "Mask": "", "ClockTicks": "1/100 s", "Milliseconds": "ms", "Seconds": "s", "Nanoseconds": "ns",
    "BitsPerSecond": "bit/s", "Ohms": "ohms", "Hertz": "Hz", "InterfaceIndex": "interface index",
}  # fmt: skip
KERNEL = "".join(
    f"#include <linux/{it}.h>\n"
    for it in "if_link if_bridge can/netlink devlink veth if if_addr if_bonding if_ether if_tun if_vlan rtnetlink".split()
)
TOP = """\
/*
 * The attribute types that the library knows, by the names of the kernel's headers with NLROUTE_ before them, each with the
 * form of its values, without NLROUTE_FORM_, and the unit of its number, if it has one: 1/100 s are clock ticks (USER_HZ).
 * Older headers of the kernel lack some of the types. A type that is read-only is reported by the kernel and cannot be set:
 * leave it out of a request that repeats a reply, since some are refused there. One that is write-only can be set and is not
 * reported. tools/kinds.py writes this file.
 */
#ifndef NLROUTE_KINDS_H
#define NLROUTE_KINDS_H
"""


def tables():
    """What has the attributes, and the rows, for each attribute set, then for each of its nested lists: numbers, names and
    forms, in the order of the table."""
    tree = Tree(ROOT)
    form_of = {word: FORMS.get(form) for word, form in WORD.findall(tree.text("crates/link_base/specs/Payloads.antt"))}
    lists = {"Nested": "LIST of attributes", "Addresses 4": "LIST of IPV4", "Addresses 16": "LIST of IPV6"}

    def rows(table):
        for number, (name, quantity, shape) in tree.tables[table].items():
            word, *more = shape.split()
            form = STRUCTS.get((more or [""])[0]) or lists.get(word) or lists.get(shape) or form_of[word]
            said = form, UNITS[quantity], tree.ways.get(table, {}).get(name)
            yield int(number), name, ", ".join(it for it in said if it)

    for family in families(tree.text):
        yield f"NLROUTE_{family['NAME']}", [*rows(family["table"])]
        owners = {}
        for name, _, shape in tree.tables[family["table"]].values():
            if shape.startswith("Nested "):
                owners.setdefault(shape.split()[-1], []).append(name)
        for table, names in owners.items():
            yield f"elements of {' and '.join(names)}", [*rows(table)]


def tables_of_sets(tree):
    """The names of the tables of each attribute set, and of its nested lists."""
    for family in families(tree.text):
        yield family["table"]
        for _, _, shape in tree.tables[family["table"]].values():
            if shape.startswith("Nested "):
                yield shape.split()[-1]


def text():
    """The text of the header."""
    parts, known = [TOP], {}
    for owner, rows in tables():
        new = [it for it in rows if it[1] not in known]
        known = {name: form for _, name, form in rows} | known
        if new:
            commas = [","] * (len(new) - 1) + [""]
            lines = "".join(f"    NLROUTE_{it[1]} = {it[0]}{comma} /* {it[2]} */\n" for it, comma in zip(new, commas))
            of = f"Attributes of {owner}" if owner.startswith("NLROUTE") else owner.replace("e", "E", 1)
            parts.append(f"/* {of}. */\nenum {{\n{lines}}};\n")
        elif owner.startswith("elements"):
            found = (f"NLROUTE_{name}" + f" ({form})" * (form != known[name]) for _, name, form in rows)
            parts.append(f"/* {owner.replace('e', 'E', 1)}: {', '.join(found)}. */\n")
        else:
            names = ", ".join(f"NLROUTE_{name}" for _, name, _ in rows)
            said = f"{owner} knows {names} only. Every other attribute of an IFLA_PROTINFO has UNKNOWN there. Read the list with"
            said += " NLROUTE_BRIDGE_PORT: its attributes then have the forms above."
            lines = textwrap.wrap(said, 117, break_long_words=False)
            parts.append("/*\n" + "".join(f" * {line}\n" for line in lines) + " */\n")
    return "\n".join([*parts, *places({*known}), "#endif\n"])


def places(known):
    """The enums of the places of arrays, without constants that others have."""
    for name, found in PLACES.findall(Tree(ROOT).text("crates/link_common/specs/Places.antt")):
        prefix = "NLROUTE_" if name.startswith("link_stats") else f"NLROUTE_{name.upper()}_"
        rows = [(f"{prefix}{it[1].upper()}", it[0]) for it in re.findall(r'\((\d+), codes "(\w+)"\)', found)]
        new = [it for it in rows if it[0] not in known]
        known |= {it[0] for it in rows}
        lines = ",\n".join(f"    {constant} = {number}" for constant, number in new)
        yield f"/* Places of the array {name}. */\nenum {{\n{lines}\n}};\n"


def headers():
    """The texts of the headers that this writes, by their paths."""
    tree = Tree(ROOT)
    return {HEADER: text(), numbers.HEADER: numbers.text(tree, tables_of_sets(tree))}


def compare():
    """Compares types, numbers and flags with those of the kernel's headers of this machine."""
    tree = Tree(ROOT)
    ours = {name for _, found in tables() for _, name, _ in found} | {*numbers.constants(tree, tables_of_sets(tree))}
    words = ["cc", "-E", "-P", "-x", "c", "-"], ["cc", "-E", "-dM", "-x", "c", "-"]
    said = [subprocess.run(it, input=KERNEL, stdout=subprocess.PIPE, text=True, check=True).stdout for it in words]
    both = sorted(ours & {*re.findall(r"\b[A-Z][A-Z0-9_]+\b", "".join(said))})
    asserts = "".join(f'_Static_assert(NLROUTE_{it} == {it}, "{it}");\n' for it in both)
    source = f'{KERNEL}#include "{ROOT}/{HEADER}"\n#include "{ROOT}/{numbers.HEADER}"\n{asserts}'
    subprocess.run(["cc", "-std=gnu11", "-fsyntax-only", "-x", "c", "-"], input=source, text=True, check=True)
    print(f"kinds: the kernel's headers of this machine have {len(both)} of {len(ours)}, with the same numbers")


def check():
    """Says what is wrong with the headers."""
    tree, wanted = Tree(ROOT), headers()
    wrong = [f"{path}: it is not what tools/kinds.py writes: run that" for path, it in wanted.items() if tree.text_or_none(path) != it]
    folder = HEADER.rpartition("/")[0]
    all_texts = [wanted.get(f"{folder}/{it}") or tree.text(f"{folder}/{it}") for it in numbers.HEADERS]
    twice = [f"{it}: two headers have it, or one has it twice" for it in numbers.repeated(all_texts)]
    print("".join(f"{it}\n" for it in [*wrong, *twice]), end="")
    failed = len(wrong) + bool(twice)
    print(f"{len(wanted) + 1 - failed} passed, {failed} failed")
    return failed > 0


def main():
    option = "".join(sys.argv[1:])
    if option == "--compare":
        compare()
    elif option == "--check":
        sys.exit(check())
    elif option:
        sys.exit(__doc__)
    else:
        for path, it in headers().items():
            with open(f"{ROOT}/{path}", "w", encoding="utf-8") as file:
                file.write(it)


if __name__ == "__main__":
    main()
