#!/usr/bin/env python3
"""Writes the tables of attribute types, enums and flags of the bindings, from what the installed C library returns.

usage: bindings/generate.py [--check]

The library is that of $NLROUTE_LIB_DIR or, without this variable, of pkg-config. It needs the same version as nlroute.h
of this tree. With --check nothing is written: each file is compared with what would be written, and the last line is
'N passed, M failed'.
"""
import os
import sys

sys.dont_write_bytecode = True
HERE = os.path.dirname(os.path.realpath(__file__))
sys.path.insert(0, HERE)
import generate_attributes  # noqa: E402
import generate_python  # noqa: E402
import generate_rust  # noqa: E402
import model  # noqa: E402
from library import Library  # noqa: E402

# Each file with the function that returns its text for a model.
FILES = {
    "python/nlroute/_kinds.py": generate_python.text,
    "rust/src/kinds.rs": generate_rust.text,
    "rust/src/attributes.rs": generate_attributes.text,
}


def stored(path):
    """Returns the text of a file, or "" if there is none."""
    try:
        with open(path, encoding="utf-8") as file:
            return file.read()
    except FileNotFoundError:
        return ""


def check(texts):
    """Compares the files with the texts, and returns the number of those that differ."""
    failed = 0
    for name, text in texts.items():
        old, new = stored(os.path.join(HERE, name)).splitlines(), text.splitlines()
        if old == new:
            continue
        failed += 1
        line = next((i for i, (a, b) in enumerate(zip(old, new)) if a != b), min(len(old), len(new)))
        print(f"bindings/{name}:{line + 1}: bindings/generate.py writes another file: run it, and commit the result")
    return failed


def main():
    if sys.argv[1:] not in ([], ["--check"]):
        sys.exit(__doc__)
    asked = model.ask(Library())
    texts = {name: write(asked) for name, write in FILES.items()}
    if sys.argv[1:]:
        failed = check(texts)
        print(f"{len(texts) - failed} passed, {failed} failed")
        sys.exit(failed != 0)
    for name, text in texts.items():
        with open(os.path.join(HERE, name), "w", encoding="utf-8") as file:
            file.write(text)
    lists = [it for that in asked.sets for it in that.attributes]
    elements = sum(len(it.elements) + bool(it.item and it.item.name) for it in lists)
    print(f"{len(lists)} attributes, {elements} elements, {len(asked.types)} enums and sets of flags")


if __name__ == "__main__":
    main()
