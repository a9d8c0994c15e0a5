"""The list of attribute sets, and the lists of other files that repeat it or have to agree with it.

The list is the macro `families!` of crates/netlink_packet_route/src/family.rt: a row has the variant of `Family`, the
name, the enum of attributes, the number in C, and what holds its lists, in brackets. The prover compares it with
specs/Family.antt. The comment of the variant says whose attributes they are.

What only repeats the list, `written` has: tools/made.py writes it. These are the constants of nlroute.h, which
bindings/generate.py reads, the names in nlroute.1 and calls.c, the words for the families in three READMEs, the list of all
in specs/Families, and a proof with an equal part for each set. LISTS are parts of pages that are written by hand. COVERED
is what the runs have for each attribute set.
"""
import os
import re

ROOT = os.path.dirname(os.path.dirname(os.path.realpath(__file__)))
LIST = "crates/netlink_packet_route/src/family.rt"
# The definitions that the contracts compare the list with, and what the crate hands on of them.
DEFINED = "crates/netlink_packet_route/specs/Family.antt"
HANDED_ON = "crates/netlink_packet_route/specs/Lib.antt"
ROW = re.compile(r'^ +([A-Z]\w+) +"(\w+)" +(\w+) +(\d+) +\[?(\w.*?)\]?$', re.MULTILINE)
HOLDER = re.compile(r'(\w+)(?: \((?:b"(\w+)"|(?:Family::\w+, )?(\w+))\))?(?:, |$)')
TABLE = re.compile(r'^family_row \w+ = row \(codes "(\w+)"\) .*\b(\w+)$', re.MULTILINE)
# Whose attributes a set has, and what else is said of it, in the comment of its variant.
COMMENT = re.compile(r"^    /// `(\w+)`: attributes of (.*?),\s+(?:/// )?\[`\w+`\]\(.*?\)(?:: (.*))?\.$", re.MULTILINE)
# For each file, what it has once for each attribute set, as a regular expression. {name}, {NAME}, {variant},
# {attributes}, {number} and {table} are those of the row.
LISTS = [
    ("docs/nlroute.1", r"^\.BR? .*\b{name}\b"),
]
# Only of sets that a kind selects, or an AF_BRIDGE message.
IN_MESSAGES = r"^  {name} at \d+\n    \w"
COVERED = [
    ("runs/debug/", r"^> {name} [0-9a-f]"),
    ("runs/debug/", r"^> check {name}$"),
    ("runs/debug/", IN_MESSAGES),
    ("runs/plain/", r"^> {name} [0-9a-f]"),
    ("runs/json/", r"^< {name} [0-9a-f]"),
    ("runs/nlroute/", r"^arguments: {name}$"),
]
# The runs that tools/sets.py makes, which count for each folder.
GENERATED = "runs/sets/"
# The attributes that hold a list next to a kind. A message holds its list itself.
HOLDERS = {"InfoKind": "IFLA_INFO_DATA", "PortKind": "IFLA_INFO_SLAVE_DATA"}


def text_below_root(path):
    with open(f"{ROOT}/{path}", encoding="utf-8") as file:
        return file.read()


def families(text_of):
    """The rows of the list: for each attribute set what a pattern of LISTS can name, `holders`, the attributes that hold
    its lists, with "" for a message, `kinds`, and whether debug forms of messages have its lists."""
    keys = ("variant", "name", "attributes", "number", "NAME", "holders", "kinds", "in_messages", "table", "whose", "more")
    table_of = dict(TABLE.findall(text_of(DEFINED) or ""))
    text = text_of(LIST) or ""
    said = {name: (whose, more) for name, whose, more in COMMENT.findall(text)}
    found = []
    for *it, holders in ROW.findall(text):
        held = HOLDER.findall(holders)
        attributes = list(dict.fromkeys(HOLDERS.get(how, what) for how, _, what in held))
        kinds = [kind for _, kind, _ in held if kind]
        # (what `nlshow` opens in an IFLA_PROTINFO is a NestedBridgeAttribute)
        in_messages = bool(kinds) or any(how == "BridgeAttribute" and what != "IFLA_PROTINFO" for how, _, what in held)
        found.append((*it, it[1].upper(), attributes, kinds, in_messages, table_of.get(it[1], ""), *said.get(it[1], ("", ""))))
    return [dict(zip(keys, it)) for it in found]


def names(text_of=text_below_root):
    """The names of attribute sets, by their numbers."""
    return [it["name"] for it in families(text_of)]


def disagreements(text_of):
    """The lists that differ from the list of attribute sets: path, line and message. `text_of` gives the text of a
    file, or of all files of a folder, whose path ends with a slash, or None if there is none."""
    rows = families(text_of)
    if not rows:
        yield LIST, 1, "there is no list of attribute sets"
    if [it["number"] for it in rows] != [str(it) for it in range(len(rows))]:
        yield LIST, 1, "the numbers of attribute sets do not go from 0 in order"
    for path, pattern in LISTS + COVERED:
        text = text_of(path)
        text = f"{text}\n{text_of(GENERATED)}" if text and (path, pattern) in COVERED else text
        for row in rows if text is not None else []:
            if pattern == IN_MESSAGES and not row["in_messages"]:
                continue
            wanted = pattern.format(**{key: re.escape(it) for key, it in row.items() if isinstance(it, str)})
            if not re.search(wanted, text, re.MULTILINE):
                yield path, 1, f"it does not have {row['name']} as families! has it: no text is as {pattern}"
    for module in re.findall(r"^use (Rattle\.link_\w+\.specs\.\w+)\.", text_of(DEFINED) or "", re.MULTILINE):
        if not re.search(rf"\b{re.escape(module)}\b", text_of(HANDED_ON) or ""):
            yield HANDED_ON, 1, f"it does not hand on {module}, which {DEFINED} uses"


# ---- what tools/made.py writes


def constants(rows):
    """The constants of enum nlroute_family."""
    for row in rows:
        holder = row["holders"][0]
        what = row["whose"] if holder in row["whose"] else f"{holder} of {row['whose']}"
        more = f"{what}: {row['more']}".removesuffix(": ").replace("`", "")
        yield f"    NLROUTE_{row['NAME']} = {row['number']}{',' * (row is not rows[-1])} /* {more} */\n"


def names_held(rows, holder):
    """A line of a man page with the names of the sets whose lists this attribute holds."""
    found = [it["name"] for it in rows if holder in it["holders"]]
    return f".B{'R' * (len(found) > 1)} " + ' ", " '.join(found)


def whose_lists(rows):
    """Words for the devices and ports whose attributes the sets have."""
    whose = [it["whose"] for it in rows if it["kinds"]]
    others = [it for it in whose if not it.endswith(" devices")]
    *first, last = [name for it in whose if it not in others for name in it.removesuffix(" devices").split(" and ")]
    return f"{', '.join(others)}, and {' and '.join([', '.join(first)] * bool(first) + [last])} devices"


def in_calls(rows):
    """The names of the sets in C, by their numbers."""
    return "".join(f'    [NLROUTE_{it["NAME"]}] = "{it["name"]}",\n' for it in rows)


def in_order(rows):
    """The definition of the list of all sets, in a proof."""
    return " ∷\n".join(f"    sets.{it['variant']}" for it in rows) + " ∷ []\n"


def answers(rows):
    """The proof of the clause `answer` of `rewrite`, which has a goal for each set, named after the variant."""
    for row in rows:
        goal = f"returns-in-{row['variant']}-clause-answer"
        call = "rewrite_as" if row is rows[0] else f"rewrite_as-in-{row['variant']}"
        yield f"\npub {goal} : goal.{goal}\n{goal} c = rw c.in-{row['variant']}.is c.{call}.ensures.answer\n"


# For each file, the place of its list as a regular expression, and what belongs there.
IN_BINDINGS = r"(?<=link attributes, such as those of ).*?(?=\. It has)"
WRITTEN = [
    (
        "crates/nlroute_ffi/include/nlroute.h",
        r"(?<=^enum nlroute_family \{\n)(?: .*\n)*",
        lambda rows: "".join(constants(rows)),
    ),
    (
        "docs/nlroute.1",
        r"^\.BR? .*(?=\nThe list is IFLA_INFO_DATA\b)",
        lambda rows: names_held(rows, "IFLA_INFO_DATA"),
    ),
    (
        "docs/nlroute.1",
        r"^\.BR? .*(?=\nThe list is IFLA_INFO_SLAVE_DATA\b)",
        lambda rows: names_held(rows, "IFLA_INFO_SLAVE_DATA"),
    ),
    (
        "README.md",
        r"(?<=\bThey cover ).*?(?=\]\(docs/families\.md\))",
        lambda rows: f"{whose_lists(rows)} ([{len(rows)} attribute sets",
    ),
    ("crates/nlroute_ffi/examples/calls.c", r"(?<=^static const char \*const sets\[\] = \{\n)(?: .*\n)*", in_calls),
    ("crates/netlink_packet_route/specs/Families.antt", r"(?<=^all_families =\n)(?: .*\n)*", in_order),
    ("bindings/python/README.md", IN_BINDINGS, whose_lists),
    ("bindings/rust/README.md", IN_BINDINGS, whose_lists),
    (
        "crates/netlink_packet_route/proofs/rewriting/rewrite/Answers.antt",
        r"(?<=proofs\.rewriting\.rewrite\.Goals as goal\n)(?:.*\n)*",
        lambda rows: "".join(answers(rows)),
    ),
]


def replaced(text, pattern, new):
    """A text with another at the places that are as the pattern, and how many these are."""
    return re.subn(pattern, lambda _: new, text, flags=re.MULTILINE)


def written(text_of):
    """The texts of the files that repeat the list, by their paths. If a place is not there once, that is a ValueError."""
    rows, found = families(text_of), {}
    for path, pattern, words in WRITTEN:
        found[path], places = replaced(found.get(path) or text_of(path), pattern, words(rows))
        if places != 1:
            raise ValueError(f"{path}: {places} places are as {pattern}, and one has to be")
    return found
