"""Writes the text of crates/nlroute_ffi/include/nlroute_numbers.h, for tools/kinds.py: the numbers of enums and the bits of
flags that have names, each as a constant of C.

A row of a table in specs/ names the list of its names, as in `row 1 "IFLA_BOND_MODE" (u8_enum mode_names)`. The list in src/
that the prover compares with it has the kernel's constants too: `BOND_MODE_8023AD = 4, Ieee8023Ad, "802.3ad"`, or in a comment
the prefix that all of them have. If the kernel has no constants, they are made of the library's type and the name. No constant
may be one of another list or header: `repeated` finds those that are.
"""
import re
import textwrap
from typing import NamedTuple

HEADER = "crates/nlroute_ffi/include/nlroute_numbers.h"
HEADERS = ["nlroute.h", "nlroute_kinds.h", "nlroute_numbers.h", "nlroute_requests.h"]
# A list in src: the comment above it, its kind, the type, and what follows.
LIST = re.compile(r"((?:^///[^\n]*\n)*)^impl (NamedNumber for |NumberNames for |FlagSet for |)(\w+) \{\n(.*?)^\}", re.M | re.S)
MACRO = re.compile(r"((?:^///[^\n]*\n)+)^macro_rules! (?:names|flags) \{(.*?)^\}", re.M | re.S)
LISTED = re.compile(r'^ +(\w+) = (\w+), \w+, "(.*?)"', re.M)
NAMES = re.compile(r"names!\[(.*?)\]", re.S)
NAME = re.compile(r'\b(\w+) "(.*?)"|Name \{\s+number: (\w+)(?: as u64)?,\s+text: "(.*?)",\s+\}')
TABLE = re.compile(r"^(\w+) =", re.M)
CONSTANT = re.compile(r"^const (\w+): u\d+ = (\w+);", re.M)
# The words of rows that name such a list.
NAMED = re.compile(r"_enum$|_coded$|flags|^vlan_protocol$")
# What begins the constants of flags that the kernel numbers: these are places of bits.
PLACES = "BR_BOOLOPT_"
DEFINED = re.compile(r"\b(NLROUTE_\w+) = |^#define (NLROUTE_\w+)(?= )", re.M)
TOP = """\
/*
 * The numbers of enums, and the flags, that have names: by the kernel's constants with NLROUTE_ before them. Comments have
 * the names that nlroute_text() prints; a flag's is the end of its constant. Older headers of the kernel lack some of the
 * constants, and some are in none of its headers for programs. Where the library knows no constant of the kernel, the name
 * of the enum in the library begins it, as in NLROUTE_LINK_EVENT_REBOOT. tools/kinds.py writes this file.
 */
#ifndef NLROUTE_NUMBERS_H
#define NLROUTE_NUMBERS_H
"""


class Names(NamedTuple):
    """A list of names: whether they are those of bits, and for each number its constant in C and its text."""

    is_flags: bool
    rows: list


def as_constant(text):
    return re.sub(r"\W", "_", text).upper()


def of_type(name):
    """BondMode as BOND_MODE."""
    return re.sub(r"(?<=[a-z0-9])(?=[A-Z])", "_", name).upper()


def constants_of(comment, owner, texts):
    """The constants for these names, as the comment of their list says."""
    words = " ".join(comment.replace("///", " ").split())
    prefix = re.search(r"constants' names without `(\w+)`", words)
    named = re.match(r"The numbers of `(\w+)` and `(\w+)`", words)
    if named:
        return [*named.groups()]
    start = prefix[1] if prefix else f"{of_type(owner)}_"
    return [start + as_constant(it) for it in texts]


def lists_of(text):
    """The lists of names of a source, by the names of their definitions."""
    numbers = dict(CONSTANT.findall(text))
    for comment, kind, owner, body in LIST.findall(text):
        defined = re.search(r"ghost (?:bit_)?names = \{ (\w+) \};", body) or re.search(r"texts_of (\w+) \}", body)
        if not defined:
            continue
        if kind.startswith(("NamedNumber", "FlagSet")):
            comment, macro = next(iter(MACRO.findall(text)))
            rows = LISTED.findall(macro)
        else:
            listed = NAMES.search(body)
            found = NAME.findall(listed[1] if listed else body)
            rows = [(number or other, number or other, name or text) for number, name, other, text in found]
        texts = [name for _, _, name in rows]
        is_known = rows and not rows[0][0][0].isdigit() and "the kernel has no names" not in " ".join(comment.split())
        constants = [it[0] for it in rows] if is_known else constants_of(comment, owner, texts)
        found = [int(numbers.get(number, number), 0) for _, number, _ in rows]
        is_flags = kind.startswith("FlagSet") or comment.startswith("/// The bits")
        yield defined[1], Names(is_flags, [*zip(found, constants, texts)])


class Sources:
    """The lists of names of the crates, each read once."""

    def __init__(self, tree):
        self.tree, self.lists, self.crates = tree, {}, {}
        for path in tree.files:
            if re.match(r"crates/[^/]+/specs/.*\.antt", path):
                self.crates |= {it: path.split("/")[1] for it in TABLE.findall(tree.text(path))}

    def of(self, crate):
        """The lists of a crate, by the names of their definitions."""
        if crate not in self.lists:
            texts = self.tree.of(rf"crates/{crate}/src/.*\.rt")
            self.lists[crate] = {name: found for it in texts if "names" in it for name, found in lists_of(it)}
        return self.lists[crate]

    def named(self, table, shape):
        """The list that a row of a table names, or None. Places of arrays are no numbers of values. ValueError if the list is
        not found."""
        word, *more = shape.split()
        if word.endswith("_counters"):
            return None
        crate, words = ("link_base", ["vlan_protocols"]) if word == "vlan_protocol" else (self.crates[table], more)
        found = next((self.of(crate)[it] for it in words if it in self.of(crate)), None)
        if found is None and NAMED.search(word):
            raise ValueError(f"{table}: no list in src/ is that of `{shape}`")
        return found


def blocks(tree, tables):
    """The lists of names in the order of the tables, each with the attributes that have it."""
    sources, found = Sources(tree), {}
    for table in tables:
        for name, _, shape in tree.tables[table].values():
            names = sources.named(table, shape)
            if names:
                found.setdefault(id(names), (names, {}))[1][name] = None
    return [(names, [*attributes]) for names, attributes in found.values()]


def block(found, names):
    """The text of the constants of a list."""
    are_places = found.rows[0][1].startswith(PLACES)
    what = "Flags, by the places of their bits," if are_places else "Flags" if found.is_flags else "Numbers"
    said = f"{what} of {', '.join(f'NLROUTE_{it}' for it in names)}."
    lines = textwrap.wrap(said, 117, break_long_words=False)
    head = f"/* {said} */\n" if len(lines) == 1 else "/*\n" + "".join(f" * {line}\n" for line in lines) + " */\n"
    if found.is_flags and not are_places:
        return head + "".join(f"#define NLROUTE_{constant} {number:#x}u\n" for number, constant, _ in found.rows)
    commas = [","] * (len(found.rows) - 1) + [""]
    numbers = [number.bit_length() - 1 if are_places else number for number, _, _ in found.rows]
    rows = (f"    NLROUTE_{it[1]} = {number}{comma} /* {it[2]} */\n" for it, number, comma in zip(found.rows, numbers, commas))
    return f"{head}enum {{\n{''.join(rows)}}};\n"


def text(tree, tables):
    return "\n".join([TOP, *(block(*it) for it in blocks(tree, tables)), "#endif\n"])


def constants(tree, tables):
    return [constant for found, _ in blocks(tree, tables) for _, constant, _ in found.rows]


def repeated(texts):
    """The constants that these headers have more than once."""
    found = [one or other for it in texts for one, other in DEFINED.findall(re.sub(r"(?ms)^#else\n.*?^#endif", "", it))]
    return sorted({it for it in found if found.count(it) > 1})
