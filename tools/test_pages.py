#!/usr/bin/env python3
"""Tests of tools/pages.py and families.py: a small tree with right pages passes, and each mistake in it is found at its
line. Each case of CASES is a change of one file, and what is then found.

Its last line is 'N passed, M failed', and its status 0 only if nothing failed.
"""
import collections
import contextlib
import io
import os
import sys
import tempfile
import unittest.mock

sys.dont_write_bytecode = True
sys.path.insert(0, os.path.dirname(os.path.realpath(__file__)))
import contracts  # noqa: E402
import families  # noqa: E402
import inventories  # noqa: E402
import made  # noqa: E402
import pages  # noqa: E402

# Files of the small tree below that have no list of attribute sets.
UNLISTED = "README.md runs/debug/".split()
families.LISTS, families.COVERED = ([it for it in them if it[0] not in UNLISTED] for them in (families.LISTS, families.COVERED))
LISTED = dict(families.LISTS + families.COVERED)

# The lines of these pages are named in the cases.
PAGE = """\
# Pairs, `one` by one

See [the calls](docs/rattle.md#what-is-a-pair), [`lib.rt`](crates/pairs/src/lib.rt) and [above](#pairs-one-by-one).

<!-- from: crates/pairs/src/lib.rt -->
```rust
pub fn len_of(&self) -> usize
..
{
    let one = 1;
    one + 1
}
```

It has the clause `ensures length { result ≡ 2 }`, and `requires { .. }`.

| Code | Is |
|---|---|
| `pairs::len_of`, `len_of(pair)` | in `src/lib.rt` of `crates/pairs` |
| `std::mem::swap`, `to_string()` | in `std` |

- 2<!-- count: tests of pairs --> tests, three<!-- count: mutants --> mutants, one<!-- count: mutants of definitions
  --> of definitions, 1<!-- count: must-fail edits --> must-fail edit. The other names are `IsPair`, `pair_delay` and `nla_type`.
- 1,001<!-- count: calls that allocate --> calls allocate, 1<!-- count: calls that do not allocate --> does not.
- 2<!-- count: lists of plain --> lists, one<!-- count: check lines of plain --> `check`, 7<!-- count: runs --> runs,
  1<!-- count: message lines of plain --> message, 2<!-- count: tap lines --> others.

```text
src/lib.rt   len_of: IsPair, IsPairPair, NAME.rt, ./made/by_rt.rt
```

<!-- made: tools/pairs.py -->
| One | Two |
|---|---|
| a | b |
"""
CALLING = "# Calling\n\n## What *is* a `Pair`?\n\n## What is a pair\n\n[Back](../README.md), [down](../crates/pairs).\n"
MANUAL = """\
.TH PAIRS 1
.TP
.BR dsa ", " vlan
.\\" not_a_name
Calls \\fBlen_of\\fP,
of src/lib.rt and a\\-b.
.BR nlroute (1)
.\\" from: crates/pairs/src/lib.rt
.EX
let one = 1;
.EE
"""
SOURCE = """\
pub struct Pair(u8, u8);

impl Pair {
    /// Its length.
    pub fn len_of(&self) -> usize
        requires { IsPair self.now }
        ensures length { result ≡
            2 }
    {
        let one = 1;
        one + 1
    }
}
"""
SMALL = """\
pub trait Small {
    ghost small = { λ s. s < 2 };

    fn len_of(&self) -> usize
        ensures { result ≡ 1 };
}
"""
OWNING = """\
pub trait Owner {
    ghost table: { Table };
    ghost lawful: { IsLawful table };
}

impl<'a> Owner for Pair<'a> {
    ghost table = { pair_table };
    ghost lawful = { proof };

    fn plain(&self) -> u8 { 1 }
}

impl From<u8> for Pair<'_> {
    ghost from_gives = { λ a b. a ≡ b };
}

impl Pair<'_> {
    /// Nothing is promised.
    pub const fn bare() {}

    fn hidden() ensures { result ≡ 1 } { 1 }
}

#[unsafe(no_mangle)]
pub extern "C" fn free() -> u8
    ensures { result ≡ 1 }
{
    1
}

macro_rules! more {
    () => { pub fn made() {} }
}
"""
Rows = collections.namedtuple("Rows", "rows tables ways")
ROWED = Rows(
    {"1 PAIR_AGE Age as Seconds", "12 PAIR_ENDS Ends", "1 END_INDEX Index"},
    {"pair_table": {"1": ("PAIR_AGE", "Seconds", "u32"), "12": ("PAIR_ENDS", "", "Nested false end_rows")},
     "end_rows": {"1": ("END_INDEX", "", "u32")}, "other": {"1": ("OTHER", "", "u8")}},
    {"pair_table": {"PAIR_AGE": "read-only"}},
)  # fmt: skip
PAIR_ROWS = ["pair_table", " 1  PAIR_AGE   Age   u32 as Seconds, read-only", "12  PAIR_ENDS  Ends  Nested false end_rows", ""]
END_ROWS = ["end_rows", "1  END_INDEX  Index  u32", ""]
KINDS = """\
rows! {
    PAIR_AGE = 1, Age: u32 as Seconds;
    PAIR_ENDS = 2 | NLA_F_NESTED, Ends(first, last): NestedList<End>;
    PAIR_KIND = 3, Kind: u32;
}
rows! {
    END_INDEX = 1, Index: Named<End> as Index;
}
"""
TABLES = """\
use Rattle.link_pairs.specs.Pair.{pair_table}
pair_table : Table
pair_table = prefixed "PAIR_" (
    row_in Seconds 1 "PAIR_AGE" u32 ∷
    nested_row 2 "PAIR_ENDS" false end_rows ∷
    row 3 "PAIR_KIND" u32 ∷ [])

end_rows = prefixed "END_" (leaf_row_in Index 1 "END_INDEX" (u32_enum ends) ∷ [])
"""
# The list of attribute sets, and lists that agree with it.
FAMILIES = """\
            Dsa   "dsa"   InfoDsa  0  [InfoKind (b"dsa")]
            Vlan  "vlan"  InfoVlan 1  [BridgeAttribute (IFLA_VLAN)]
"""
# Pages with a number of words, and what is said of all pages.
LONG = [
    ({"README.md": "a b\n\n```text\nc\n```\n\n<!-- d -->\n", "docs/x.1": "e " * 9, "docs/nlshow.1": '.B f\n.\\" g\n', "docs/families.md": "h " * 9}, []),
    ({"README.md": "a b", "docs/y.md": "<!-- made: x -->\n| a |\n| b |\n\nc\n", "bindings/x/README.md": "d e"},
     ["README.md:1: the pages have 5 words, and may have 4: tools/pages.py --words"]),
    ({"README.md": "a b c d", "CHANGELOG.md": "e f g"}, []),
    ({"CHANGELOG.md": "a b c d"}, ["CHANGELOG.md:1: it has 4 words, and may have 3"]),
]
LIB, SPEC, MAN = "crates/pairs/src/lib.rt", "crates/pairs/specs/Pair.antt", "docs/nlroute.1"
HEADER, RUN = "crates/nlroute_ffi/include/nlroute.h", "runs/plain/more/vlan"
ROUTE = "crates/netlink_packet_route"
TREE = {
    "README.md": PAGE,
    "CHANGELOG.md": "# Changes\n\n12 tests, 13 mutants of `old_name`.\n",
    "docs/rattle.md": CALLING,
    "docs/DIFFERENCES.md": "# Others\n\n`other_name`\n",
    LIB: SOURCE,
    SPEC: TABLES,
    "crates/pairs/src/small.rt": SMALL,
    "crates/pairs/src/kinds.rt": KINDS,
    "crates/pairs/src/tests.rt": "#[test]\nfn one() {}\n\n#[test]\nfn two() {}\n// no #[test]\n",
    "crates/pairs/mutants.edits": "# Mutants\n\n## a\nfile: src/lib.rt\n\n## b\nfile: specs/Lib.antt\n",
    "crates/small/mutants.edits": "## c\nfile: src/lib.rt\n",
    "crates/pairs/must-fail/gives_three.edit": "file: src/lib.rt\nold: one + 1\nnew: 3\n",
    "crates/pairs/out/made.md": "",
    "crates/refusals/stdin": "# Calls\n\n" + 1001 * "12 read_list dsa 00\n" + "0 read_list dsa\n",
    f"{ROUTE}/src/family.rt": FAMILIES,
    f"{ROUTE}/specs/Family.antt": "use Rattle.link_pairs.specs.Pair.{pair_table}\n",
    f"{ROUTE}/specs/Lib.antt": "pub use Rattle.link_pairs.specs.Pair\n",
    MAN: MANUAL,
    "runs/plain/lists": "program: nlshow\n\n# Lists\n> dsa 00\ndsa 00\n\n> check dsa\n< message 00\n< tap\n> tap\n",
    RUN: "program: nlshow\n\n> vlan 00\n",
    "runs/plain/other": "program: nlroute\n\n< dsa 00\n",
    "runs/json/pairs": 'program: nlshow\n\n< dsa 00\n< vlan 00\n{"name":"pair_delay"}\n',
    "runs/nlroute/sets": "program: nlroute\n\n== one set\narguments: dsa\n\n== another\narguments: vlan\n",
    "runs/plain/inputs/stored": "program\n",
    "runs/debug/other": "# dsa 00\nprogram: nlshow\n\n",
}

NO_PART = "the sample is not a part of crates/pairs/src/lib.rt from this line on"
DIFFERS = f"11: {NO_PART}: its line 11 differs"
MARK, NO_MARK = "<!-- from: crates/pairs/src/lib.rt -->", "5: `{}` is not a mark `<!-- from: PATH -->` above a code block"
NO_LINK, NO_FILE, NO_NAME = "3: the link leads to {}, which does not exist", "there is no file `{}`", "no source has the name `{}`"
NO_CLAUSE = "15: no .rt file has the clause `{}`"
NOT_COUNT = "{} is not the count of {}"
NO_SET = "1: it does not have vlan as families! has it: no text is as {}"
# For each file that is changed: its old text, the new one, and what is then found. If the page of a finding is not
# named, it is README.md.
CASES = [
    ("README.md", "    one + 1\n}\n", "    one + 2\n}\n", DIFFERS),
    ("README.md", "    one + 1\n}\n", "   one + 1\n}\n", DIFFERS),
    ("README.md", "    one + 1\n}\n", "}\n", DIFFERS),
    (LIB, "        one + 1\n", "        one + 2\n", DIFFERS),
    ("README.md", "pub fn len_of(&self) -> usize\n", "pub fn len(&self) -> usize\n", f"7: {NO_PART}"),
    ("README.md", "    let one = 1;\n    one + 1\n}\n", "    let one = 1;\n...\n    one + 1\n"),
    ("README.md", "{\n    let one = 1;\n    one + 1\n}\n", "    one + 1\n...\n    let one = 1;\n", f"11: {NO_PART}"),
    ("README.md", PAGE[PAGE.index("pub") : PAGE.index("}\n```")] + "}\n", "", "6: the code block is empty"),
    ("README.md", MARK, MARK.replace("src/", ""), "5: there is no file crates/pairs/lib.rt"),
    ("README.md", "from: crates", "from crates", NO_MARK.format(MARK.replace(":", ""))),
    ("README.md", "```rust\n", "A line.\n\n```rust\n", NO_MARK.format(MARK)),
    ("README.md", "result ≡ 2 }`", "result ≡ 3 }`", NO_CLAUSE.format("ensures length { result ≡ 3 }")),
    ("README.md", "requires { .. }`", "requires { .. } ensures one`", NO_CLAUSE.format("requires { .. } ensures one")),
    ("README.md", "docs/rattle.md#", "docs/CALLS.md#", NO_LINK.format("docs/CALLS.md")),
    ("README.md", "(crates/pairs/src/lib.rt)", "(crates/pairs/out/made.md)", NO_LINK.format("crates/pairs/out/made.md")),
    ("docs/rattle.md", "/pairs", "/pair", "docs/rattle.md:7" + NO_LINK.format("crates/pair")[1:]),
    ("README.md", "(#pairs-one-by-one)", "(#pairs)", "3: `#pairs` is not a heading of README.md"),
    ("README.md", "#what-is-a-pair", "#what-is-a-pair-1"),
    ("README.md", "#what-is-a-pair", "#what-is-a-pair-2", "3: `#what-is-a-pair-2` is not a heading of docs/rattle.md"),
    ("README.md", "`src/lib.rt`", "`src/main.rt`", "19: " + NO_FILE.format("src/main.rt")),
    ("README.md", "`crates/pairs`", "`crates/pair`", "19: " + NO_FILE.format("crates/pair")),
    ("README.md", "`src/lib.rt`", "`tests.py`", "19: " + NO_FILE.format("tests.py")),
    ("README.md", "src/lib.rt   ", "src/lip.rt   ", "29: " + NO_FILE.format("src/lip.rt")),
    *(("README.md", "`src/lib.rt`", f"`{it}`") for it in "crates/NAME/src docs/*.md src/{a,b}.rt net/a.c linux/a.h out/pairs 1/2".split()),
    ("README.md", "pairs::len_of`", "pairs::length`", "19: there is no function `length`, which `pairs::length` names"),
    ("README.md", "`len_of(pair)`", "`length(pair)`", "19: there is no function `length`, which `length(pair)` names"),
    *(("README.md", "`nla_type`", f"`{it}`", "23: " + NO_NAME.format(it.split("::")[-1])) for it in ("len_off", "IsPairs", "Pair::is_pair")),
    *(("README.md", "`nla_type`", f"`{it}`") for it in ("len_of", "PAIR_LEN", "pair", "Pairs")),
    ("README.md", "len_of: ", "len_off: ", "29: " + NO_NAME.format("len_off")),
    ("runs/json/pairs", "pair_delay", "pair_age", "23: " + NO_NAME.format("pair_delay")),
    ("README.md", "IsPairPair", "IsPairPairs", "29: " + NO_NAME.format("IsPairPairs")),
    ("README.md", "- 2<!-- count: t", "- 3<!-- count: t", "22: " + NOT_COUNT.format(3, "tests of pairs, which is 2")),
    ("README.md", "three<", "two<", "22: " + NOT_COUNT.format("two", "mutants, which is 3")),
    ("README.md", "1,001", "1,002", "24: " + NOT_COUNT.format("1,002", "calls that allocate, which is 1,001")),
    ("README.md", "  1<", "  2<", "26: " + NOT_COUNT.format(2, "message lines of plain, which is 1")),
    ("README.md", "7<!-- count: runs -->", "3<!-- count: runs of plain -->"),
    (RUN, "> vlan 00\n", "> vlan 00\n< vlan\nvlan\n", "25: " + NOT_COUNT.format(2, "lists of plain, which is 3")),
    (RUN, "> vlan 00\n", "> vlan 00\n= ff0a\n= 76 6c 61 6e\n", "25: " + NOT_COUNT.format(2, "lists of plain, which is 3")),
    (RUN, "> vlan 00\n", "> vlan 00\n@ fi\r\n< vlan\n@ fi\n"),
    (RUN, "> vlan 00\n", "== a\n> vlan 00\n== b\nstatus: 1\n> vlan\n",
     "25: " + NOT_COUNT.format(2, "lists of plain, which is 3"), "25: " + NOT_COUNT.format(7, "runs, which is 8")),
    ("crates/pairs/src/tests.rt", "fn two", "#[test]\nfn three() {}\nfn two", "22: " + NOT_COUNT.format(2, "tests of pairs, which is 3")),
    ("README.md", "mutants -->", "mutant -->", "22: `<!-- count: mutant -->` does not name a count"),
    ("README.md", "three<", "some<", "22: there is no number before `<!-- count: mutants -->`"),
    *(("README.md", "The other names", it, f"23: '{it}' has no mark `<!-- count: NAME -->` after the number")
      for it in ("8 tests", "275 mutants", "1 must-fail edit")),
    (MAN, "len_of", "len_off", f"{MAN}:5: {NO_NAME.format('len_off')}"),
    (MAN, "of src/lib", "of src/lip", f"{MAN}:6: {NO_FILE.format('src/lip.rt')}"),
    (MAN, ".BR nlroute (1)", ".BR nlroute (3)", f"{MAN}:7: the link leads to docs/nlroute.3, which does not exist"),
    (MAN, "let one = 1", "let one = 2", f"{MAN}:10: {NO_PART}"),
    (MAN, "vlan", "van", f"{MAN}:{NO_SET.format(LISTED[MAN])}"),
    (RUN, "> vlan 00", "> vlan zz", f"runs/plain/:{NO_SET.format(LISTED['runs/plain/'])}"),
    ("runs/nlroute/sets", "vlan", "vlan x", f"runs/nlroute/:{NO_SET.format(LISTED['runs/nlroute/'])}"),
    ("runs/json/pairs", "< vlan 00", "< vlan", f"runs/json/:{NO_SET.format(LISTED['runs/json/'])}"),
    (f"{ROUTE}/src/family.rt", "1  [Bridge", "2  [Bridge",
     f"{ROUTE}/src/family.rt:1: the numbers of attribute sets do not go from 0 in order"),
    (f"{ROUTE}/src/family.rt", FAMILIES, "\n", f"{ROUTE}/src/family.rt:1: there is no list of attribute sets",
     "25: `<!-- count: lists of plain -->` does not name a count"),
    (f"{ROUTE}/specs/Lib.antt", "specs.Pair", "specs.Pairs",
     f"{ROUTE}/specs/Lib.antt:1: it does not hand on Rattle.link_pairs.specs.Pair, which {ROUTE}/specs/Family.antt uses"),
]

# Pages that list all of something, with their sources; what is changed there, and what is then missing.
KEPT = {
    "crates.txt": "# Crates.\nlink_pairs: bstr\nprogram:\n", "docs/ARCHITECTURE.md": "`link_pairs`, `program`, pairs/\n",
    ".ci/run": "before=1\npart rt ci\n    part tools/runs.py\n", "CONTRIBUTING.md": "`rt ci`, then `runs.py`. `a.py`, `b.sh`\n",
    HEADER: "#define NLROUTE_VERSION 0x00010au\n",
    "README.md": "Version: 0.1.10, unreleased.\n",
    "docs/proofs/ASSURANCE.md": "`bstr` (names)\n", "runs/pairs/one": "", "runs/README": "", "bench/README.md": "`run.py`, `out`\n",
    "tools/a.py": "", "extra/b.sh": "", "bench/run.py": "", "bench/out/one": "",
}  # fmt: skip
LACKING = [
    ("crates.txt", "program", "programs", "docs/ARCHITECTURE.md: it lacks the crate programs"),
    (".ci/run", "runs", "kinds", "CONTRIBUTING.md: it lacks the part of CI kinds.py"),
    ("crates.txt", "bstr", "bstr hex", "docs/proofs/ASSURANCE.md: it lacks the crate of the kit hex"),
    ("docs/ARCHITECTURE.md", "pairs/", "", "docs/ARCHITECTURE.md: it lacks the folder of runs pairs"),
    ("CONTRIBUTING.md", "a.py", "a.sh", "CONTRIBUTING.md: it lacks the file a.py"),
    ("CONTRIBUTING.md", "b.sh", "b.py", "CONTRIBUTING.md: it lacks the file or folder b.sh"),
    ("bench/README.md", "out", "outer", "bench/README.md: it lacks the file or folder out"),
    (HEADER, "10a", "10b", "README.md: it does not have the version of nlroute.h, 0.1.11"),
    ("README.md", "", ""),
]

# A list of attribute sets, with comments, and files that repeat it before and after they are written.
COMMENTED = """\
    /// `dsa`: attributes of DSA ports, [`InfoDsa`](crate::link::InfoDsa).
    /// `dsa_port`: attributes of ports of
    /// [`Dsa`].
    /// `vlan`: attributes of `IFLA_VLAN` in AF_BRIDGE messages,
    /// [`InfoVlan`](crate::link::InfoVlan): type 1 only.
            Dsa   "dsa"   InfoDsa  0  [InfoKind (b"dsa")]
            Hsr   "hsr"   InfoHsr  1  [InfoKind (b"hsr"), InfoKind (b"prp"), Within (Family::Vlan, IFLA_VLAN)]
            Port  "port"  InfoPort 2  [PortKind (b"dsa")]
            Vlan  "vlan"  InfoVlan 3  [BridgeAttribute (IFLA_VLAN)]
            All   "all"   AllInfos 4  [LinkMessage, Within (Family::Hsr, IFLA_PEER)]
            Part  "part"  Part     5  [Within (Family::All, IFLA_PART), Inet6Attribute (IFLA_VLAN)]
    /// `hsr`: attributes of HSR devices, [`InfoHsr`](crate::link::InfoHsr).
    /// `port`: attributes of ports, [`InfoPort`](crate::link::InfoPort).
    /// `all`: attributes of messages, [`AllInfos`](crate::link::AllInfos).
    /// `part`: attributes of links for IPv6, [`Part`](crate::link::Part).
"""
ANSWERS, GOALS = f"{ROUTE}/proofs/rewriting/rewrite/Answers.antt", "use Rattle.n.proofs.rewriting.rewrite.Goals as goal\n"
BINDINGS = [f"bindings/{it}/README.md" for it in ("python", "rust")]
REPEATING = {
    HEADER: ("enum other {\n    B = 1\n};\nenum nlroute_family {\n    B = 0, /* a */\n};\n", """\
enum other {
    B = 1
};
enum nlroute_family {
    NLROUTE_DSA = 0, /* IFLA_INFO_DATA of DSA ports */
    NLROUTE_HSR = 1, /* IFLA_INFO_DATA of HSR devices */
    NLROUTE_PORT = 2, /* IFLA_INFO_SLAVE_DATA of ports */
    NLROUTE_VLAN = 3, /* IFLA_VLAN in AF_BRIDGE messages: type 1 only */
    NLROUTE_ALL = 4, /* messages */
    NLROUTE_PART = 5 /* IFLA_PART of links for IPv6 */
};
"""),
    MAN: (".B a\nThe list is IFLA_INFO_DATA of a\n.BR a\nThe list is IFLA_INFO_SLAVE_DATA of a\n.B a\nThe list is A\n",
          '.BR dsa ", " hsr\nThe list is IFLA_INFO_DATA of a\n.B port\nThe list is IFLA_INFO_SLAVE_DATA of a\n.B a\nThe list is A\n'),
    "README.md": ("They cover a](docs/families.md) b\n", "They cover DSA ports, ports, and HSR devices ([6 attribute sets](docs/families.md) b\n"),
    **{it: ("link attributes, such as those of a. It has b\n",
            "link attributes, such as those of DSA ports, ports, and HSR devices. It has b\n") for it in BINDINGS},
    ANSWERS: (f"-- A\n{GOALS}\nold\n", f"-- A\n{GOALS}" + "".join(f"""
pub returns-in-{it}-clause-answer : goal.returns-in-{it}-clause-answer
returns-in-{it}-clause-answer c = rw c.in-{it}.is c.rewrite_as{'' if it == 'Dsa' else f'-in-{it}'}.ensures.answer
""" for it in ("Dsa", "Hsr", "Port", "Vlan", "All", "Part"))),
    "crates/nlroute_ffi/examples/calls.c": ("static const char *const sets[] = {\n    old\n};\n", "static const char *const sets[] = {\n" + "".join(
        f'    [NLROUTE_{it.upper()}] = "{it}",\n' for it in ("dsa", "hsr", "port", "vlan", "all", "part")) + "};\n"),
    f"{ROUTE}/specs/Families.antt": ("-- A\nall_families =\n    old\n\n-- B\n", "-- A\nall_families =\n" + " ∷\n".join(
        f"    sets.{it}" for it in ("Dsa", "Hsr", "Port", "Vlan", "All", "Part")) + " ∷ []\n\n-- B\n"),
}  # fmt: skip
ROWS = "".join(f'family_row {it} = row (codes "{it.lower()}") 0 {it.lower()}_table\n' for it in ("Dsa", "Hsr", "Port", "Vlan"))


def repeated(place):
    """What is written to the files above, of which `place` gives the text before and the one after; or why nothing is."""
    texts = {families.LIST: COMMENTED, families.DEFINED: ROWS} | {path: place(it) for path, it in REPEATING.items()}
    try:
        return families.written(texts.get)
    except ValueError as error:
        return str(error)


# What tools/made.py makes: heads of files, a row, comments and declarations, contracts, lines of a promise, a packet.
MADE = [
    (made.header("//! A pair: `a.b`, and\n//! more. Not this.\n\n//! Nor this.\n", "rt"), "A pair: `a.b`, and more"),
    (made.header("use A.{b}\n-- Late.\n", "antt"), ""),
    (made.row("src/lib.rt", "Pairs"), "src/lib.rt" + 24 * " " + "Pairs"),
    ([*made.paragraphs(" * It calls nlroute_f(), with:\n * - a-b,\n *   and c;\n *\n * .so on\n")],
     [".PP\nIt calls \\fBnlroute_f\\fP(), with:\n", ".IP \\(bu 2\na\\-b, and c;\n", ".PP\n\\&.so on\n"]),
    (made.declared("NLROUTE_MUST_USE\nbool f(void);\n#define NLROUTE_A 1\n#ifdef X\n"), "bool f(void);\n#define NLROUTE_A 1"),
    (made.declared("static inline int f(int a)\n{\n    return a;\n}\n"), "int f(int a);"),
    (made.declared("#ifdef __cplusplus\n#define A b\n#else\n#define A c d\n#endif\n"), "#define A c d"),
    (contracts.clauses("fn f(a: A) requires { x } ensures { y {z} } ensures* w { v } ensures named { u } { body; ensures { t } }"),
     [("requires", "x"), ("–", "y {z}"), ("named", "u")]),
    (contracts.of_file(SOURCE, []), [("Pair::len_of", [("requires", "IsPair self.now"), ("length", "result ≡ 2")])]),
    (contracts.of_file(SMALL, []), [("Small", [("small", "λ s. s < 2")]), ("Small::len_of", [("–", "result ≡ 1")])]),
    (contracts.of_file(OWNING, contracts.theorems([OWNING])), [
        ("Owner", [("table", "Table"), ("lawful", "IsLawful table")]),
        ("Pair as Owner", [("table", "pair_table")]), ("Pair as From<u8>", [("from_gives", "λ a b. a ≡ b")]),
        ("Pair::bare", []), ("free", [("–", "result ≡ 1")])]),
    ([*contracts.table([("f", [("–", "a")]), ("Pair::g", [("named", "b"), ("requires", "c")]), ("h", [])])],
     ["f        –         a", "Pair::g  named     b", "         requires  c", "h                  no clause"]),
    ([*contracts.broken("one (two three) four", 16)], ["one (two three)", "four"]),
    ([*contracts.broken("one", 16)], ["one"]),
    ([*contracts.rows(ROWED, ["pair"])], PAIR_ROWS + END_ROWS),
    ([*contracts.rows(ROWED, [])], END_ROWS + PAIR_ROWS),
    (repeated(lambda it: it[0]), {path: it[1] for path, it in REPEATING.items()}),
    (repeated(lambda it: it[1]), {path: it[1] for path, it in REPEATING.items()}),
    ([(it["holders"], it["kinds"], it["in_messages"]) for it in families.families({families.LIST: COMMENTED}.get)][1:],
     [(["IFLA_INFO_DATA", "IFLA_VLAN"], ["hsr", "prp"], True), (["IFLA_INFO_SLAVE_DATA"], ["dsa"], True), (["IFLA_VLAN"], [], True),
      (["", "IFLA_PEER"], [], False), (["IFLA_PART", "IFLA_VLAN"], [], False)]),
    (repeated(lambda it: it[0].replace("They cover", "Of")),
     f"README.md: 0 places are as {families.WRITTEN[3][1]}, and one has to be"),
    (repeated(lambda it: it[0] * (1 + it[0].startswith(".B"))),
     f"{MAN}: 2 places are as {families.WRITTEN[1][1]}, and one has to be"),
    (made.counted("Two<!-- count: a -->, 1**<!-- count:\nb --> and 3<!-- count: c -->", collections.namedtuple("Tree", "counts")({"a": 2, "b": 1234})),
     "Two<!-- count: a -->, 1,234**<!-- count:\nb --> and 3<!-- count: c -->"),
    (made.measured("a\n<!-- made: x.tsv: C, A -->\n```text\nold\n```\n", collections.namedtuple("Tree", "text")(lambda _: "n\tw\tA\tC\nx\tone\t1\t2.0\n")),
     "a\n<!-- made: x.tsv: C, A -->\n```text\n       C  A\none  2.0  1\n```\n"),
    (made.capture("# One\n# two\n> message 01\nNo\n# three\n")[-40:-4], made.COOKED + b"\1\0\0\0\1\0\7\0One two\0\0\0\0\0"),
]  # fmt: skip


def said(tree, *named):
    """What is said of the pages of a tree, and the status."""
    with tempfile.TemporaryDirectory(prefix="pages-test-") as root:
        for path, text in tree.items():
            os.makedirs(os.path.dirname(f"{root}/{path}"), exist_ok=True)
            with open(f"{root}/{path}", "w", encoding="utf-8") as file:
                file.write(text)
        with contextlib.redirect_stdout(io.StringIO()) as printed:
            status = pages.check(root, list(named))
    return printed.getvalue().splitlines(), status


def failures():
    """What is not found as wanted, for each case, or None."""
    rules = len(pages.RULES)
    for named, wanted in (
        ([], f"{5 * rules + 4} passed, 0 failed"),
        (["README.md", "docs/rattle.md"], f"{2 * rules} passed, 0 failed"),
        (["docs/proofs/MODEL.md"], "docs/proofs/MODEL.md:1: there is no such page\n0 passed, 1 failed"),
    ):
        found = "\n".join(said(TREE, *named)[0])
        yield None if found == wanted else f"{named}: {found}"
    for tree, wanted in LONG:
        with unittest.mock.patch.multiple(pages, TOTAL=4, HISTORY_WORDS=3):
            *found, _ = said(tree)[0]
        found = [it for it in found if " words" in it]
        yield None if found == wanted else f"{tree}: {found}, not {wanted}"
    for found, wanted in MADE:
        yield None if found == wanted else f"{found!r}, not {wanted!r}"
    for path, old, new, *wanted in LACKING:
        tree = KEPT | {path: KEPT[path].replace(old, new)}
        found = [f"{it}: {message}" for it, _, message in inventories.missing(tree, tree.get)]
        yield None if found == wanted else f"{path}, {old!r}: {found}, not {wanted}"
    for path, old, new, *wanted in CASES:
        text = TREE.get(path, "")
        (*lines, last), status = said(TREE | {path: text.replace(old, new) if text else new})
        wanted = sorted(f"README.md:{it}" if it[:1].isdigit() else it for it in wanted)
        is_told = (status == 0, last.endswith(" 0 failed")) == (not lines, not lines)
        is_once = text.count(old) == 1 or not text
        yield None if is_told and is_once and sorted(lines) == wanted else f"{path}, {old!r}: {lines}, {last}, not {wanted}"


if __name__ == "__main__":
    results = [*failures()]
    print(*(f"FAILED {it}" for it in results if it), sep="\n", end="\n" if any(results) else "")
    print(f"{results.count(None)} passed, {len(results) - results.count(None)} failed")
    sys.exit(1 if any(results) else 0)
