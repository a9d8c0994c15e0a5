#!/usr/bin/env python3
"""Prints the file `copyright` of the Debian packages, for an unpacked release: its licence, and those of other code in it.

usage: copyright.py TREE

Debian has the text of Apache-2.0, so the file only says where.
"""
import os
import sys

APACHE = "On Debian systems, the text of the Apache License 2.0 is in /usr/share/common-licenses/Apache-2.0."


def text(path):
    with open(path, encoding="utf-8") as file:
        return file.read().strip()


def headed(title, words):
    return f"{title}\n{'=' * len(title)}\n\n{words}\n"


def licence(path):
    """Returns the text of a licence, or where Debian has it."""
    words = text(path)
    return APACHE if "Apache License" in words and "Version 2.0, January 2004" in words else words


def main():
    if len(sys.argv) != 2:
        sys.exit(__doc__)
    tree = sys.argv[1]
    folder = f"{tree}/licences"
    print(headed("nlroute", text(f"{tree}/LICENSE")))
    print(headed("Other code in the binaries", text(f"{folder}/CRATES")))
    for crate in sorted(it for it in os.listdir(folder) if it != "CRATES"):
        found = sorted(os.listdir(f"{folder}/{crate}"))
        print(headed(crate, "\n\n".join(f"{it}:\n\n{licence(f'{folder}/{crate}/{it}')}" for it in found)))


if __name__ == "__main__":
    main()
