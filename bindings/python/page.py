#!/usr/bin/env python3
"""Runs the samples of a page: blocks of Markdown with the language `pycon`, in order, as one session.

usage: bindings/python/page.py PAGE

The last line is 'N passed, M failed': each sample is one.
"""
import doctest
import re
import sys

BLOCK = re.compile(r"^```pycon\n(.*?)^```$", re.MULTILINE | re.DOTALL)


def main():
    if len(sys.argv) != 2:
        sys.exit(__doc__)
    with open(sys.argv[1], encoding="utf-8") as file:
        page = file.read()
    # (a line outside of the blocks is empty: so failures have the lines of the page)
    kept = [""] * (page.count("\n") + 1)
    for block in BLOCK.finditer(page):
        first = page.count("\n", 0, block.start(1))
        for number, line in enumerate(block[1].splitlines()):
            kept[first + number] = line
    test = doctest.DocTestParser().get_doctest("\n".join(kept), {}, sys.argv[1], sys.argv[1], 0)
    results = doctest.DocTestRunner().run(test)
    print(f"{results.attempted - results.failed} passed, {results.failed} failed")
    sys.exit(results.failed != 0 or not results.attempted)


if __name__ == "__main__":
    main()
