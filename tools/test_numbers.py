#!/usr/bin/env python3
"""Tests of tools/numbers_of_enums.py: the constants that it makes of small lists of names.

The last line is 'N passed, M failed', and the status 0 only if nothing failed.
"""
import os
import sys
import unittest

sys.dont_write_bytecode = True
sys.path.insert(0, os.path.dirname(os.path.realpath(__file__)))
import numbers_of_enums as numbers  # noqa: E402

ENUM = """\
/// The numbers{said}, variants and `Display` output.
macro_rules! names {{
    ($call:ident($($argument:tt)*)) => {{
        link_base::by_names! {{ $call($($argument)*)
            BOND_MODE_XOR = 2, BalanceXor, "balance-xor" | "2";
            BOND_MODE_8023AD = 4, Ieee8023Ad, "802.3ad" | "4";
        }}
    }};
}}

impl NamedNumber for BondMode {{
    ghost names = {{ mode_names }};
}}
"""
CODED = """\
/// {said}
impl NumberNames for XdpFlags {{
    ghost names = {{ xdp_names }};

    fn names() -> &'static [Name] {{
        link_base::names![0 "no mode" 0x10 "replace"]
    }}
}}
"""
FLAGS = [(1, "BR_BOOLOPT_NO_LL_LEARN", "NO_LL_LEARN"), (4, "BR_BOOLOPT_MST_ENABLE", "MST_ENABLE")]


class Numbers(unittest.TestCase):
    def rows(self, text):
        ((name, found),) = numbers.lists_of(text)
        return name, found.is_flags, found.rows

    def test_constants_of_the_kernel_are_kept(self):
        rows = [(2, "BOND_MODE_XOR", "balance-xor"), (4, "BOND_MODE_8023AD", "802.3ad")]
        found = self.rows(ENUM.format(said=" (`include/uapi/linux/if_bonding.h`)"))
        self.assertEqual(found, ("mode_names", False, rows))

    def test_others_begin_with_the_type(self):
        _, _, rows = self.rows(ENUM.format(said=", for which the kernel has no names"))
        self.assertEqual([it[1] for it in rows], ["BOND_MODE_BALANCE_XOR", "BOND_MODE_802_3AD"])
        _, _, rows = self.rows(CODED.format(said="The numbers, and their names as `ip` prints them."))
        self.assertEqual([it[1] for it in rows], ["XDP_FLAGS_NO_MODE", "XDP_FLAGS_REPLACE"])

    def test_a_prefix_and_two_constants(self):
        said = "The bits, and the constants' names without `XDP_`, in lower case."
        found = self.rows(CODED.format(said=said))
        self.assertEqual(found, ("xdp_names", True, [(0, "XDP_NO_MODE", "no mode"), (16, "XDP_REPLACE", "replace")]))
        _, _, rows = self.rows(CODED.format(said="The numbers of `NETKIT_PASS` and `NETKIT_DROP`, and their names."))
        self.assertEqual([it[1] for it in rows], ["NETKIT_PASS", "NETKIT_DROP"])

    def test_flags_are_macros_or_places(self):
        text = numbers.block(numbers.Names(True, [(1 << 31, "IF_READY", "READY")]), ["IFLA_INET6_FLAGS"])
        self.assertEqual(text, "/* Flags of NLROUTE_IFLA_INET6_FLAGS. */\n#define NLROUTE_IF_READY 0x80000000u\n")
        text = numbers.block(numbers.Names(True, FLAGS), ["IFLA_BR_MULTI_BOOLOPT"])
        self.assertIn("NLROUTE_BR_BOOLOPT_NO_LL_LEARN = 0, /*", text)
        self.assertIn("NLROUTE_BR_BOOLOPT_MST_ENABLE = 2 /*", text)

    def test_repeated_constants_are_found(self):
        one, other = "enum {\n    NLROUTE_BOND = 1,\n};\n", "#define NLROUTE_BOND 0x1u\n#define NLROUTE_BRIDGE 0x2u\n"
        self.assertEqual(numbers.repeated([one, other]), ["NLROUTE_BOND"])
        self.assertEqual(numbers.repeated([one, "#define NLROUTE_X 1\n#else\n#define NLROUTE_X 2\n#endif\n"]), [])


if __name__ == "__main__":
    ran = unittest.main(exit=False).result
    failed = len(ran.failures) + len(ran.errors)
    print(f"{ran.testsRun - failed} passed, {failed} failed")
    sys.exit(1 if failed else 0)
