#!/usr/bin/env python3
"""Writes, once, what every attribute set copies: src/NAME.rt of a crate, and the lines of its modules in both lib files.

usage: tools/new_set.py [--list] [--prefix PREFIX] [--held HOLDER] NAME TYPE CRATE WORDS

It is src/dsa.rt of link_vlan_can with these names in place of its own, and WORDS in place of `DSA port`, but without
variants and rows. Write these from the kernel's headers, and not from sets/NAME.tsv: the prover compares the two. A file
that is there is not changed. Nothing is checked later. By hand, name the theorems of enums, flags and structs in `thorough`.

PREFIX is what the names of types begin with, if that is not IFLA_NAME_. HOLDER is what holds the list, if that is not the
IFLA_INFO_DATA of a kind NAME: '`IFLA_AF_SPEC`'. With --list it is a nested list, which is written as src/dpll_pin.rt of
link_common is: WORDS are its header, and HOLDER is needed. By hand, write whether it has NLA_F_NESTED (`FLAGGED`), and the
header file of its constants, if that is not if_link.h.
"""
import argparse
import os
import re
import sys

ROOT = os.path.dirname(os.path.dirname(os.path.realpath(__file__)))
EXAMPLE = f"{ROOT}/crates/link_vlan_can/src/dsa.rt"
NESTED = f"{ROOT}/crates/link_common/src/dpll_pin.rt"
NEW = "//! Attribute sets.\n#![tactic(auto)]\n"


def text_of(path, default=""):
    if not os.path.isfile(path):
        return default
    with open(path, encoding="utf-8") as file:
        return file.read()


def filled(name, its_type, crate, words, prefix="", held="", is_list=False):
    """The text of src/NAME.rt."""
    text = text_of(NESTED if is_list else EXAMPLE)
    text = re.sub(r"^    /// (?!An \w+ of any)(?:(?!///).|\n    ///)*\n    \w+\(\w+\),\n", "", text, flags=re.MULTILINE)
    text = re.sub(r"^ +(?:IFLA_DSA|DPLL_A_PIN)_\w+ = .*\n|^///\n/// Of the elements.*\n", "", text, flags=re.MULTILINE)
    file = name.title().replace("_", "")
    kind = f"`IFLA_INFO_DATA` of a link whose `IFLA_INFO_KIND` is `{name}`"
    names = {
        "The pin of a clock that is recovered from a link": words, "`IFLA_DPLL_PIN`": held, "DpllPin": its_type, "dpll_pin": name,
        "dpll.h": "if_link.h", "link_common": crate, "specs.DpllPin": f"specs.{file}",
        "DPLL_A_PIN_": prefix or f"IFLA_{name.upper()}_",
    } if is_list else {
        "`IFLA_INFO_DATA` of a link whose `IFLA_INFO_KIND` is `dsa`": held or kind, "InfoDsa": its_type, "link_vlan_can": crate,
        "specs.Dsa": f"specs.{file}", "DSA port": words, "IFLA_DSA_": prefix or f"IFLA_{name.upper()}_", "dsa": name,
    }  # fmt: skip
    longest = sorted(names, key=len, reverse=True)
    return re.sub("|".join(map(re.escape, longest)), lambda it: names[it[0]], text)


def order(line):
    """What a line of lib.rt is put in order by."""
    return re.split(r"\W+", line)


def with_line(text, line):
    """A text with a line among those of its kind, which are in order; at the end if there are none."""
    lines = text.splitlines()
    same = [at for at, it in enumerate(lines) if it.split()[:-1] == line.split()[:-1]]
    above = [at for at in same if order(lines[at]) < order(line)]
    if not same:
        lines += ["", line]
    elif line not in lines:
        lines.insert(above[-1] + 1 if above else same[0], line)
    return "\n".join(lines).lstrip() + "\n"


def main():
    parser = argparse.ArgumentParser(usage=__doc__)
    parser.add_argument("--list", action="store_true")
    for it in ("--prefix", "--held"):
        parser.add_argument(it, default="")
    for it in ("name", "type", "crate", "words"):
        parser.add_argument(it)
    given = parser.parse_args()
    name, its_type, crate = given.name, given.type, given.crate
    source, code, specs = (f"{ROOT}/crates/{crate}/{it}" for it in (f"src/{name}.rt", "src/lib.rt", "specs/Lib.antt"))
    if os.path.exists(source):
        sys.exit(f"{source} is there")
    texts = {source: filled(name, its_type, crate, given.words, given.prefix, given.held, given.list)}
    texts[code] = with_line(with_line(text_of(code, NEW), f"mod {name};"), f"pub use {name}::{its_type};")
    texts[specs] = with_line(text_of(specs), f"pub mod {name.title().replace('_', '')}")
    for path, text in texts.items():
        os.makedirs(os.path.dirname(path), exist_ok=True)
        with open(path, "w", encoding="utf-8") as file:
            file.write(text)


if __name__ == "__main__":
    main()
