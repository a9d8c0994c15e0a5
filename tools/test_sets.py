#!/usr/bin/env python3
"""Tests of tools/sets.py and new_set.py: sets/ gives the files that are there, each mistake in a line changes them or is
refused with its line, and the template is what dsa.rt and hsr.rt have. Also of the comments that tools/pages.py reads.

The last line is 'N passed, M failed', and the status 0 only if nothing failed.
"""
import re
import sys
import unittest

sys.dont_write_bytecode = True
import new_set  # noqa: E402
import sets  # noqa: E402
from pages import ROOT, Tree  # noqa: E402

TREE = Tree(ROOT)
HSR = "sets/hsr.tsv"
HEAD = "# Some attributes.\n# set link_vlan_can::some::InfoSome IFLA_SOME_\n"


def written(path, text):
    """What is made if a file has this text."""
    return sets.written([*TREE.files, path], lambda it: text if it == path else TREE.text(it))


def of_class(its_class, size="", quantity="", number="7"):
    """What is made of an attribute type with this class: the row of the table, the value of `means`, the payload and its texts."""
    fields = {"none": "", "(u32, u32)": " x y"}.get(its_class, " x")
    text = f"{HEAD}{number}\tIFLA_SOME_ONE\tOne{fields}\t{its_class}\t{size}\t{quantity}\n"
    files = [*TREE.files, "crates/link_vlan_can/specs/Nested.antt"]
    nested = "abbrev pub tdc_pairs_rows : Rows\nabbrev pub tdc_pairs_leaf : Leaf\n"
    it = sets.Set("sets/some.tsv", files, lambda path: text if path == "sets/some.tsv" else nested if "Nested" in path else TREE.text(path))
    made = sets.specs(it)
    table, means = re.search(r'^some_table = prefixed "IFLA_SOME_" \((.*) ∷ \[\]\)$', made, re.MULTILINE)[1], re.search(r" = Case (.*)", made)[1]
    return table, means, sets.sample(it.rows[0]), made


class Sets(unittest.TestCase):
    def test_the_files_are_those_of_sets(self):
        for path, text in sets.written(TREE.files, TREE.text).items():
            self.assertEqual(TREE.text(path), text, path)

    def test_mistakes_are_found(self):
        text = TREE.text(HSR)
        for old, new, *changed in (
            ("6\tIFLA_HSR_VERSION", "9\tIFLA_HSR_VERSION", f"{HSR}:9: 7 is not above 9"),
            ("8\tIFLA_HSR_INTERLINK", "9\tIFLA_HSR_INTERLINK", "Hsr.antt", "hsr"),
            ("IFLA_HSR_SLAVE1", "IFLA_HSR_SLAVE2", "Hsr.antt", "hsr"),
            ("Port1 index\tu32\t\tInterfaceIndex", "Port1 index\tu32", "Hsr.antt", "hsr"),
            ("Port1", "Port2", "Hsr.antt", "hsr"),
            ("[u8; 6]", "Vec<u8>", "Hsr.antt", "hsr"),
            ("HsrProtocol>\t1", "HsrProtocol>\t2", "Hsr.antt", "hsr"),
            ("u16", "u24", f"{HSR}:7: there is no class `u24`"),
            ("HsrProtocol>\t1", "HsrProtocol>", f"{HSR}:9: `` is not a size of `Named<HsrProtocol>`"),
            ("Version version\tu8", "Version version\tu8\t1", f"{HSR}:8: `1` is not a size of `u8`"),
            ("Named<HsrProtocol>\t1", "Coded<HsrProtocol>\t8", f"{HSR}:9: Payloads has no word `u64_coded`"),
            ("u16\t\t\tread-only", "Counters<HsrProtocol>\t2", f"{HSR}:7: `2` is not a size of `Counters<HsrProtocol>`"),
            ("u16\t\t\tread-only", "CodedFlags<HsrProtocol>", f"{HSR}:7: `` is not a size of `CodedFlags<HsrProtocol>`"),
            ("<HsrProtocol>", "<Mode>", f"{HSR}:9: specs/ has no `names` of `Mode`"),
            ("u32\t\tInterfaceIndex\n3", "u32\t\tIndex\n3", f"{HSR}:4: there is no quantity `Index`"),
            ("u16\t\t\tread-only", "u16\t\t\tsent", f"{HSR}:7: there is no way `sent`"),
            ("u16\t\t\tread-only", "u16\t\t\twrite-only"),
            ("Version version", "Version", f"{HSR}:8: `Version` has 0 names of fields"),
            ("6\tIFLA_HSR_VERSION", "6\tIFLA_VERSION", f"{HSR}:8: `IFLA_VERSION` does not begin with IFLA_HSR_"),
            ("InfoHsr IFLA_HSR_", "InfoHsr IFLA_", "Hsr.antt", "hsr"),
            ("5\tIFLA", "five\tIFLA", f"{HSR}:7: its cells are not number, name, variant, class, size, quantity and way"),
            ("# set", "# sets", f"{HSR}:1: it has no head with a header, then `set` or `list`, an enum, and what its names begin with"),
        ):
            wrong = text.replace(old, new, 1)
            self.assertNotEqual(text, wrong)
            try:
                found = sorted(path.split("/")[-1] for path, made in written(HSR, wrong).items() if TREE.data(path) != made.encode())
            except ValueError as error:
                found = [str(error)]
            self.assertEqual(changed, found, new)

    def test_classes(self):
        named = '{"number":199,"name":null}'
        for its_class, row, means, *sample in (
            ("u8", "u8", "Number 1 x", b"\7", "7", "7", "7"),
            (("u16", "", "Ohms"), "u16", "Number 2 x", b"\7\x18", "6151 ohm", "6151", "6151"),
            (("u16", "", "Mask"), "u16", "Number 2 x", b"\7\x18", "6151 (0x1807)", "6151", "6151"),
            (("u32", "", "ClockTicks"), "u32", "Number 4 x", b"\7\x18\x29\x3a", "975771655 (9757716.55 s)", *["975771655"] * 2),
            ("Be<u16>", "u16_be", "Raw (bytes_be 2 x)", b"\7\x18", "1816", "1816", "1816"),
            ("Be<u32>", "u32_be", "Raw (bytes_be 4 x)", b"\7\x18\x29\x3a", *["119023930"] * 3),
            ("i32", "i32", "Integer x", b"\7\x18\x29\xba", *["-1171711993"] * 3),
            ("bool", "truth", "Boolean x", b"\1", "on", "true", "true"),
            ("Option<bool>", "flag_or_bool", "flag_value x", b"", "on", "None", "true"),
            ("Shown<Text>", "text", "Raw x.items", b"text 7\0", '"text 7"', "[116, 101, 120, 116, 32, 55, 0]", '"text 7"'),
            ("Shown<Held>", "held", "Raw x.items", bytes.fromhex("0718293a4b"), "(5 bytes, not decoded)",
             "[7, 24, 41, 58, 75]", '{"hex":"0718293a4b"}'),
            (("Shown<Held>", "hsr"), "held", "Raw x.items", bytes.fromhex("0400ff3f"), "\n    type 16383 (empty)",
             "[4, 0, 255, 63]", '[{"name":"16383","value":{"type":16383,"flags":{"number":0,"names":[]},"hex":""}}]'),
            ("Peer", "peer", "Raw (peer_octets x)", bytes.fromhex("00000000 07000000 00000000 00000000 0400ff3f"),
             "ifindex 7\n    type 16383 (empty)",
             "Peer { header: [0, 0, 0, 0, 7, 0, 0, 0, 0, 0, 0, 0, 0, 0, 0, 0], attributes: [4, 0, 255, 63] }",
             '{"family":{"number":0,"name":"AF_UNSPEC"},"type":{"number":0,"name":null},"index":7,'
             '"flags":{"number":0,"names":[]},"change":{"number":0,"names":[]},'
             '"attrs":[{"name":"16383","value":{"type":16383,"flags":{"number":0,"names":[]},"hex":""}}]}'),
            (("CodedFlags<CanState>", "4"), "(u32_flags can_state_names)", "Number 4 x", bytes(4), "0", "0", '{"number":0,"names":[]}'),
            (("Counters<CanState>", "4"), "(u32_counters can_state_names)", "Raw (octets_of 4 x.items)", b"", "(empty)", "[]", "{}"),
            (("Counters<CanState>", "i32"), "(i32_counters can_state_names)", "Raw (octets_by 4 (cast_unsigned w32) x.items)",
             b"", "(empty)", "[]", "{}"),
            (("Counters<CanState>", "8"), "(u64_counters can_state_names)", "Raw (octets_of 8 x.items)", b"", "(empty)", "[]", "{}"),
            ("none", "no_value", "Nothing", b"", "", "", "true"),
            ("[u8; 6]", "mac", "Raw x", bytes.fromhex("0718293a4b5c"), "07:18:29:3a:4b:5c", "[7, 24, 41, 58, 75, 92]", '"07:18:29:3a:4b:5c"'),
            ("Ipv4Addr", "ipv4", "Raw (four_octets x)", b"\7\x18\x29\x3a", "7.24.41.58", "7.24.41.58", '"7.24.41.58"'),
            ("Vec<u8>", "bytes", "Raw x.items", bytes.fromhex("0718293a4b"), "07:18:29:3a:4b", "[7, 24, 41, 58, 75]", '"07:18:29:3a:4b"'),
            (("Vec<u16>", "", "Ohms"), "u16s", "Raw (octets_of 2 x.items)", b"\7\x18\x29\x3a", "6151 14889 ohm", "[6151, 14889]", "[6151,14889]"),
            ("Vec<u64>", "u64s", "Raw (octets_of 8 x.items)", bytes.fromhex("0718293a4b5c6d7e8fa0b1c2d3e4f506"),
             "9110039099408455687 501558531677331599", *(f"[9110039099408455687,{it}501558531677331599]" for it in (" ", ""))),
            ("(u32, u32)", "pair", "Raw (octets_of 4 (x ∷ y ∷ []))"),
            (("Named<HsrProtocol>", "1"), "(u8_enum hsr_protocol_names)",
             "seen_value 1 (numbers_of hsr_protocol_names) (hsr_protocol_seen x)", b"\xc7", "199", "Other(199)", named),
            (("FlagBits<VlanFlags>", "2"), "(u16_flags vlan_bit_names)", "Number 2 (vlan_bits x)"),
            (("BeFlagBits<VlanFlags>", "2"), "(u16_be_flags vlan_bit_names)", "Raw (bytes_be 2 (vlan_bits x))"),
            ("MaskedFlags<VlanFlags>", "(masked_flags vlan_bit_names)", "Raw (octets_of 4 (vlan_bits x.0 ∷ vlan_bits x.1 ∷ []))"),
            ("Struct<CanClock>", "(struct_of layouts.Clock clock_fields)", "Raw (packed (clock_held x))"),
            (("Struct<SomeTiming>", "AtLeast 4"),
             "(struct_of (layouts.Other (lengths.AtLeast 4)) timing_fields)", "Raw (packed (timing_held x))"),
        ):  # fmt: skip
            its_class, *more = (its_class,) if isinstance(its_class, str) else its_class
            table, value, found, _ = of_class(its_class, *more)
            self.assertEqual((f'7 "IFLA_SOME_ONE" {row}', f"7 (Single {sets.bracketed(means)})"), (table[table.index("7") :], value))
            self.assertEqual(tuple(sample) or None, found)
        table, value, _, made = of_class("NestedList<CanTdcPairs>", number="7 | NLA_F_NESTED")
        self.assertEqual(('nested_row 7 "IFLA_SOME_ONE" true tdc_pairs_rows', "7 (Inner true (map tdc_pairs_leaf x.items))"), (table, value))
        self.assertIn("specs.Prelude.{[], ◌∷◌, map, true}\nuse Rattle.link_base.specs.Table.{Table, AttrValue, Case, Inner, nested_row, prefixed}\n", made)
        table, value, *_ = of_class("AddressList<Ipv6Addr>")
        self.assertEqual(('address_row 7 "IFLA_SOME_ONE" 16', "7 (Listed (map sixteen_octets x.items))"), (table, value))

    def test_a_nested_list(self):
        head = "# A list.\n# list link_vlan_can::some::part::Part IFLA_PART_\n"
        made = written("sets/part.tsv", f"{head}1\tIFLA_PART_A\tA a\tu32\t\tSeconds\n2\tIFLA_PART_PAD\t\tno row\n")
        self.assertNotIn("runs/sets/part", made)
        self.assertEqual("""\
-- A list.
use Rattle.std.specs.Prelude.{[], ◌∷◌}
use Rattle.link_base.specs.Class.{Number}
use Rattle.link_base.specs.Payloads.{u32}
use Rattle.link_base.specs.declared.rows.label.Quantity.TheVariants.{Seconds}
use Rattle.link_base.specs.Table.{Rows, Leaf, Case, leaf_row_in, prefixed}
use Rattle.link_base.specs.Default.{default_means}
use Rattle.link_vlan_can.specs.declared.some.part.Part.{Part}
use Rattle.link_vlan_can.specs.declared.some.part.Part.TheVariants as infos

-- one row for each attribute type. Type 2, IFLA_PART_PAD, has no row
abbrev pub part_rows : Rows
part_rows = prefixed "IFLA_PART_" (leaf_row_in Seconds 1 "IFLA_PART_A" u32 ∷ [])

-- the attribute that a value represents
abbrev pub part_leaf : Part → Leaf
part_leaf (infos.A a) = Case 1 (Number 4 a)
part_leaf (infos.Other other) = default_means other
""", made["crates/link_vlan_can/specs/Part.antt"])  # fmt: skip

    def test_lists_come_before_sets(self):
        # (a set before its nested list by name, and neither of the files in specs/)
        texts = {
            "sets/a.tsv": "# A set.\n# set link_vlan_can::a::A IFLA_A_\n1\tIFLA_A_B\tB x\tNestedList<LastB>\n",
            "sets/last_b.tsv": "# A list.\n# list link_vlan_can::b::LastB IFLA_B_\n1\tIFLA_B_C\tC x\tu8\n",
        }
        made = sets.written([*TREE.files, *texts], lambda it: texts.get(it) or TREE.text(it))
        self.assertIn('nested_row 1 "IFLA_A_B" false last_b_rows', made["crates/link_vlan_can/specs/A.antt"])
        self.assertIn("last_b_leaf", made["crates/link_vlan_can/specs/LastB.antt"])
        # no attribute type of the set has a sample, and so it has no run
        self.assertNotIn("runs/sets/a", made)

    def test_samples_of_held_lists_in_a_run(self):
        text = f"{HEAD}7\tIFLA_SOME_ONE\tOne x\tShown<Held>\thsr\n8\tIFLA_SOME_TWO\tTwo x\tShown<Held>\n"
        made = written("sets/some.tsv", text)["runs/sets/some"]
        lines = "  IFLA_SOME_ONE\n    type 16383 (empty)\n  IFLA_SOME_TWO (5 bytes, not decoded)\n\n"
        self.assertIn(f"> some 08000700 0400ff3f 09000800 08192a3b 4c000000\n{lines}", made)
        self.assertIn("\nhsr at 4\n", made)
        made = written("sets/some.tsv", f"{HEAD}7\tIFLA_SOME_ONE\tOne x\tbool\n8\tIFLA_SOME_TWO\tTwo x\tPeer\n")["runs/sets/some"]
        self.assertIn("\nlink at 28\n  Other(DefaultNla { kind: 16383, value: [] })\n", made)

    def test_names_of_definitions(self):
        head = HEAD.replace("IFLA_SOME_", "IFLA_SOME_ other")
        made = written("sets/some.tsv", f"{head}7\tIFLA_SOME_ONE\tOne x\tu8\n")
        self.assertIn("abbrev pub other_table : Table\n", made["crates/link_vlan_can/specs/Some.antt"])
        self.assertIn("\nother_means (infos.One x) = ", made["crates/link_vlan_can/specs/Some.antt"])
        self.assertIn("> some 05000700", made["runs/sets/some"])


class Ways(unittest.TestCase):
    def test_a_line_says_what_the_comment_does(self):
        self.assertEqual([], [*sets.unlike_comments(TREE.files, TREE.text, TREE.ways)])
        ways = TREE.ways | {"hsr_table": {"IFLA_HSR_SEQ_NR": "read-only", "IFLA_HSR_VERSION": "write-only"}}
        said = "of {}, the comment of its variant says `{}`"
        self.assertEqual(
            [(HSR, 6, said.format("IFLA_HSR_SUPERVISION_ADDR", "")), (HSR, 8, said.format("IFLA_HSR_VERSION", "write-only"))],
            [*sets.unlike_comments([HSR, *(it for it in TREE.files if not it.startswith("sets/"))], TREE.text, ways)],
        )

    def test_what_comments_say(self):
        self.assertEqual("read-only", TREE.ways["macvlan_table"]["IFLA_MACVLAN_BC_QUEUE_LEN_USED"])
        self.assertEqual("write-only", TREE.ways["macvlan_table"]["IFLA_MACVLAN_MACADDR"])
        # (another list has this type too, and both directions)
        self.assertEqual({}, TREE.ways["mac_vlan_address_rows"])
        self.assertEqual(set(TREE.tables["ad_info_rows"][it][0] for it in "12345"), set(TREE.ways["ad_info_rows"]))
        self.assertEqual({"read-only"}, set(TREE.ways["ad_info_rows"].values()))


class Template(unittest.TestCase):
    def test_it_is_what_sets_have(self):
        # without the variants and rows, and the lines that name the theorem of an enum
        for name, words in (("dsa", "DSA port"), ("hsr", "HSR and PRP device")):
            text = TREE.text(f"crates/link_vlan_can/src/{name}.rt")
            made = new_set.filled(name, f"Info{name.title()}", "link_vlan_can", words)
            impls = made[made.index("\nimpl TryClone") :] if name == "hsr" else made
            left = [it for it in impls.splitlines() if "ghost use" not in it and "thorough" not in it]
            place = iter(text.splitlines())
            self.assertEqual([], [it for it in left if it not in place])
            self.assertEqual(name == "dsa", {*impls.splitlines()} <= {*text.splitlines()})
        self.assertNotIn("Conduit", made)

    def test_nested_lists(self):
        # those of link_common differ in their words, rows, classes and the flag only
        for name, its_type, prefix, held in (
            ("link_xdp", "LinkXdp", "IFLA_XDP_", "`IFLA_XDP`"),
            ("devlink_port", "DevlinkPort", "DEVLINK_ATTR_", "`IFLA_DEVLINK_PORT`"),
        ):
            text = TREE.text(f"crates/link_common/src/{name}.rt")
            made = new_set.filled(name, its_type, "link_common", "Words", prefix, held, True)
            self.assertTrue(made.startswith("//! Words.\n"))
            self.assertIn(f"/// An element of {held} (`{prefix}*`, `include/uapi/linux/if_link.h`).\n#[derive", made)
            impls = made[made.index("\nmacro_rules") :]
            place = iter(text.splitlines())
            self.assertEqual([], [it for it in impls.splitlines() if "FLAGGED" not in it and it not in place])
            self.assertNotRegex(made, "(?i)dpll|pin\\b")

    def test_a_list_that_another_set_holds(self):
        made = new_set.filled("inet6", "AfSpecInet6", "link_common", "IPv6", held="`AF_INET6` of `IFLA_AF_SPEC`")
        self.assertTrue(made.startswith("//! IPv6 attributes (`AF_INET6` of `IFLA_AF_SPEC`).\n"))
        self.assertIn('            "IFLA_INET6_";\n        }\n', made)

    def test_lines_of_modules(self):
        for text, line, wanted in (
            ("mod a;\nmod c;\n\npub use a::A;\n", "mod b;", "mod a;\nmod b;\nmod c;\n\npub use a::A;\n"),
            ("mod b;\n", "mod a;", "mod a;\nmod b;\n"),
            ("mod inet;\nmod link;\n", "mod inet6;", "mod inet;\nmod inet6;\nmod link;\n"),
            ("mod b;\n", "mod b;", "mod b;\n"),
            ("mod b;\n", "pub use b::B;", "mod b;\n\npub use b::B;\n"),
            ("", "pub mod B", "pub mod B\n"),
        ):
            self.assertEqual(wanted, new_set.with_line(text, line))


if __name__ == "__main__":
    ran = unittest.main(exit=False).result
    failed = len(ran.failures) + len(ran.errors)
    print(f"{ran.testsRun - failed} passed, {failed} failed")
    sys.exit(1 if failed else 0)
