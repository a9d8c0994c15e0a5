#!/usr/bin/env python3
"""Counts how many attributes `nlshow` names in captures and messages.

usage: extra/named.py [--binary PATH] [--goal PERCENT] FILE..

FILE is a capture (pcap, pcapng), messages one after another, as `rtmon` records them, or lines such as `message HEX`. Each
attribute of `nlshow --format json` counts, those of links and of lists, at any depth, elements of nested lists included. It is
named if its name is no number and its value is no bytes in hexadecimal. So these are not:

- a type without a name;
- a list that no attribute set reads, and a text that is not UTF-8. What such a list holds does not count.

Malformed attributes are left out; their number is printed.

It prints for each FILE the share, and below it what is not named, with its number. The last line is 'N of M attributes are
named, P %', and the status 0 if the share is at least PERCENT (default 0), 1 if it is less, 2 if there was nothing to count.

--binary names `nlshow`; the default is the one that `rt run` leaves in crates/nlshow.
"""
import argparse
import collections
import json
import os
import shutil
import subprocess
import sys

sys.dont_write_bytecode = True
ROOT = os.path.dirname(os.path.dirname(os.path.realpath(__file__)))
sys.path.insert(0, f"{ROOT}/extra/fuzz/captures")
import reader  # noqa: E402

# How many of the attributes that are not named are printed for a file.
MOST_SHOWN = 10


class Count:
    """How many attributes there are, those that are not named, by their path, and malformed ones."""

    def __init__(self):
        self.all, self.unnamed, self.malformed = 0, collections.Counter(), 0

    @property
    def named(self):
        return self.all - self.unnamed.total()

    def add(self, attributes, path):
        """Adds an array of attributes, and what is in it."""
        for it in attributes:
            if "name" not in it:
                self.malformed += 1
                continue
            self.all += 1
            here, value = f"{path}{it['name']}", it.get("value")
            if it["name"].isdecimal() or isinstance(value, dict) and "hex" in value:
                self.unnamed[here] += 1
            elif is_list(value):
                self.add(value, f"{here} / ")

    def __iadd__(self, other):
        self.all, self.malformed = self.all + other.all, self.malformed + other.malformed
        self.unnamed.update(other.unnamed)
        return self

    def share(self):
        percent = 100 * self.named / self.all if self.all else 0
        return f"{self.named} of {self.all} attributes are named, {percent:.2f} %", percent


def is_list(value):
    """Whether a value is an array of attributes. Other arrays are of numbers and texts."""
    return isinstance(value, list) and all(isinstance(it, dict) and not {"name", "error"}.isdisjoint(it) for it in value)


def is_raw(data):
    """Whether an input is messages, one after another: neither a capture nor lines."""
    return reader.form_of(data) == "lines" and b"\0" in data


def count(binary, path):
    """The Count of a file."""
    with open(path, "rb") as file:
        words = ["--raw"] * is_raw(file.read())
    ran = subprocess.run([binary, "--format", "json", *words, path], capture_output=True, timeout=600)
    if ran.returncode not in (0, 1) or ran.stderr:
        sys.exit(f"named: nlshow ends with status {ran.returncode} for {path}: {ran.stderr.decode(errors='replace')[:200]}")
    found = Count()
    for line in ran.stdout.splitlines():
        document = json.loads(line)
        for part in ("link", "list"):
            found.add(document.get(part, {}).get("attrs", []), "")
    return found


def main():
    parser = argparse.ArgumentParser(usage="extra/named.py [--binary PATH] [--goal PERCENT] FILE..")
    parser.add_argument("--binary", default=f"{ROOT}/crates/nlshow/out/nlshow")
    parser.add_argument("--goal", type=float, default=0)
    parser.add_argument("files", nargs="+")
    asked = parser.parse_args()
    binary = shutil.which(asked.binary)
    if lacking := [it for it in asked.files if not os.path.isfile(it)] + [asked.binary] * (not binary):
        print(f"named: there is no {lacking[0]}", file=sys.stderr)
        return 2
    total = Count()
    for path in asked.files:
        found = count(os.path.abspath(binary), path)
        print(f"{path}: {found.share()[0]}" + f", {found.malformed} are malformed" * bool(found.malformed))
        for name, times in found.unnamed.most_common(MOST_SHOWN):
            print(f"  {times} {name}")
        total += found
    text, percent = total.share()
    print(text)
    return 2 if not total.all else 1 if percent < asked.goal else 0


if __name__ == "__main__":
    sys.exit(main())
