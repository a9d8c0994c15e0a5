#!/usr/bin/env python3
"""Tests of tools/layouts.py: what it says of small structs in C and in a source, for which it asks the C compiler.

The last line is 'N passed, M failed', and the status 0 only if nothing failed.
"""
import os
import sys
import tempfile
import unittest

sys.dont_write_bytecode = True
sys.path.insert(0, os.path.dirname(os.path.realpath(__file__)))
import layouts  # noqa: E402

HEADER = """\
#include <stdint.h>
struct nlroute_place {
    uint16_t type;
    uint32_t at;
    uint8_t name[3];
    uint8_t depth;
};
"""
SOURCE = """\
/// A place, as `struct nlroute_place`.
#[derive(Clone, Copy)]
#[repr(C)]
pub struct Place {
    /// What it is a place of, `type` in C.
    pub of: u16,
    pub at: u32,
    /// Its name.
    pub name: [u8; 3],
    pub depth: u8,
}
"""


class Layouts(unittest.TestCase):
    def found(self, old="", new="", header=HEADER):
        """What is found of the source with this change: what each difference is about."""
        source = SOURCE.replace(old, new) if old else SOURCE
        self.assertNotEqual(bool(old), source == SOURCE)
        with tempfile.TemporaryDirectory(prefix="layouts-test-") as folder:
            with open(f"{folder}/nlroute_requests.h", "w", encoding="utf-8") as file:
                file.write(header)
            found = [*layouts.differences(source, folder)]
        return len(found), [it.partition(":")[0] for it in found if it]

    def test_a_struct_has_the_layout_of_c(self):
        fields = [("type", 0, 2), ("at", 4, 4), ("name", 8, 3), ("depth", 11, 1)]
        self.assertEqual([("nlroute_place", "Place", 12, fields)], [*layouts.structs(SOURCE)])
        self.assertEqual((7, []), self.found())

    def test_differences_are_found(self):
        of, name, depth = "struct nlroute_place", "    pub name: [u8; 3],\n", "    pub depth: u8,\n"
        swapped, fields = [f"{of}, name", f"{of}, depth"], f"{of}, fields"
        for old, new, differ in (
            (f"{name}{depth}", f"{depth}{name}", swapped[::-1]),
            ("pub at: u32", "pub at: u64", [of, f"{of}, at", *swapped]),
            (depth, "", [fields]),
            ("    pub at: u32,\n", "", [of, *swapped, fields]),
            ("pub at", "pub place", [f"{of}, place"]),
            ("[u8; 3]", "[u8; 2]", swapped),
            (depth, f"{depth}    pub more: u8,\n", [of, f"{of}, more", fields]),
            ("nlroute_place", "nlroute_places", [f"{of}s", *(f"{of}s, {it}" for it in ("type", "at", "name", "depth", "fields"))]),
            ("`struct nlroute_place`", "a struct", ["Place"]),
        ):
            self.assertEqual(differ, self.found(old, new)[1], new or old)
        more = HEADER.replace("depth;", "depth;\n    uint32_t more;")
        self.assertEqual([of, fields], self.found(header=more)[1])

    def test_a_field_of_another_type_is_an_error(self):
        with self.assertRaisesRegex(ValueError, "Place has a field that is neither a number nor an array of numbers"):
            self.found("pub depth: u8", "pub depth: bool")


if __name__ == "__main__":
    ran = unittest.main(exit=False).result
    failed = len(ran.failures) + len(ran.errors)
    print(f"{ran.testsRun - failed} passed, {failed} failed")
    sys.exit(1 if failed else 0)
