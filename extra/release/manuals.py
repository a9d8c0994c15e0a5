#!/usr/bin/env python3
"""Copies the manuals, the changelog and the examples that users need to an unpacked release or, with --debian, to where the
Debian packages have them.

usage: manuals.py TREE | manuals.py --debian FOLDER

In the copies, a link to a file of the release leads to that file. Of other links, which lead to sources, the text is left.
Comments, which only check the pages, are left out.
"""
import os
import posixpath
import re
import shutil
import sys

TOP = os.path.join(os.path.dirname(os.path.realpath(__file__)), "../..")
EXAMPLES = "crates/nlroute_ffi/examples"
# The pages, each with the Debian package that has it, if one has.
PAGES = {
    "c.md": "libnlroute-dev",
    "families.md": "libnlroute-dev",
    "messages.md": "libnlroute-dev",
    "json.md": "nlshow",
    "programs.md": "nlshow",
    "python.md": "python3-nlroute",
    "rust.md": None,
}
C = ["first.c", "tasks.c", "links.c", "bridge.c", "requests.c", "manager.c", "structs.cpp"]
RUST = ["first.rs", "bridge.rs", "links.rs", "manager.rs", "typed.rs"]
PYTHON = ["first.py", "links.py", "manager.py"]
CHANGELOG = "CHANGELOG.md"
LINK = re.compile(r"\[((?:[^\[\]]|\[[^\[\]]*\])*)\]\(([^()\s]+)\)")
COMMENT = re.compile(r"^<!--.*-->\n|<!--.*?-->", re.MULTILINE)


def common():
    """Returns where files are in a release and, below usr, in the Debian packages, by their paths in this repository."""
    headers = ["nlroute.h", "nlroute_kinds.h", "nlroute_numbers.h", "nlroute_requests.h"]
    places = {f"crates/nlroute_ffi/include/{it}": f"include/{it}" for it in headers}
    return places | {"docs/nlshow.jq": "share/jq/nlshow.jq"}


def in_tree():
    """Returns the copies to make in a release, and where its other files are."""
    copies = {f"docs/{it}": f"share/doc/nlroute/{it}" for it in PAGES} | {CHANGELOG: CHANGELOG}
    copies |= {f"{EXAMPLES}/{it}": f"share/doc/nlroute/examples/{it}" for it in C}
    copies |= {f"bindings/rust/examples/{it}": f"rust/examples/{it}" for it in RUST}
    copies |= {f"bindings/python/examples/{it}": f"python/examples/{it}" for it in PYTHON}
    return copies, common() | {"LICENSE": "LICENSE", "bindings/rust": "rust", "bindings/python": "python"}


def in_debian():
    """Returns likewise for the Debian packages."""
    copies = {f"docs/{it}": f"share/doc/{package}/{it}" for it, package in PAGES.items() if package}
    copies |= {f"{EXAMPLES}/{it}": f"share/doc/libnlroute-dev/examples/{it}" for it in C}
    copies |= {f"bindings/python/examples/{it}": f"share/doc/python3-nlroute/examples/{it}" for it in PYTHON}
    return copies, common()


def read(path):
    with open(os.path.join(TOP, path), encoding="utf-8") as file:
        return file.read()


def linked(page, places):
    """Returns a page of this repository as it is at its place, with links to places."""

    def link(found):
        words, target = found.groups()
        path, mark, anchor = target.partition("#")
        to = places.get(posixpath.normpath(posixpath.join(posixpath.dirname(page), path)))
        if not path or "://" in target:
            return found[0]
        if to is None:
            return words
        return f"[{words}]({posixpath.relpath(to, posixpath.dirname(places[page]) or '.')}{mark}{anchor})"

    parts = re.split(r"(^```.*?^```$)", COMMENT.sub("", read(page)), flags=re.MULTILINE | re.DOTALL)
    return "".join(it if it.startswith("```") else LINK.sub(link, it) for it in parts)


def write(path, text):
    os.makedirs(os.path.dirname(path), exist_ok=True)
    with open(path, "w", encoding="utf-8") as file:
        file.write(text)


def copy(folder, copies, others):
    """Makes the copies in a folder."""
    for source, place in copies.items():
        path = os.path.join(folder, place)
        if source.endswith(".md"):
            write(path, linked(source, copies | others))
        else:
            os.makedirs(os.path.dirname(path), exist_ok=True)
            shutil.copyfile(os.path.join(TOP, source), path)


def main():
    words = sys.argv[1:]
    if len(words) == 2 and words[0] == "--debian":
        copy(words[1], *in_debian())
    elif len(words) == 1 and not words[0].startswith("-"):
        copy(words[0], *in_tree())
        # (what its links lead to is in neither package)
        for folder in ["rust", "python"]:
            write(os.path.join(words[0], folder, CHANGELOG), linked(CHANGELOG, {CHANGELOG: CHANGELOG}))
    else:
        sys.exit(__doc__)


if __name__ == "__main__":
    main()
