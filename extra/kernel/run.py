#!/usr/bin/env python3
"""Makes devices on the running kernel by each binding, changes them, reads them back, and compares.

usage: extra/kernel/run.py [--programs FOLDER] [PREFIX]

The programs devices.c, devices.rs and devices.py use the library that tools/install.sh has installed in the folder PREFIX
or, if none is named, in $NLROUTE_PREFIX. Each runs in a network namespace of its own, so the links of the machine stay as
they are. Without root, it needs user namespaces. With --programs, what is built is kept in this folder, and what is there
is not built again, also if cases.tsv changes: so a machine with another kernel can run it.

A row of cases.tsv has the name of a case, a request, a link, and fields. The request is that of the bindings: create,
change, property, property_delete, bridge, bridge_delete; read and bridge_read send none. The fields are

- `kind`, `link`, `master` and `alternative`, with a name; `up`;
- `options SET`: one call with the values that follow, `NAME VALUE`. @LINK is an index, [..] a list of one, N/M two numbers;
- `NAME VALUE = TEXT`: Linux sends TEXT back; `NAME VALUE =`: it sends nothing back.

A row is a call in Rust. The other programs get lines: the request (`create LINK`, `change @LINK`), each field, `send`, and
`read @LINK` or, for AF_BRIDGE, if the request begins so, `bridge_read @LINK`. A program prints `refused ERRNO`, or `index N`
and each list of the link: `list SET`, and what nlshow prints of it; then `end`. Each value of the row has to be there, after
.._delete not.

A table has for each case and binding how many values agree; `absent`, if Linux lacks what the case needs (EOPNOTSUPP), by
each binding; or FAILED. The last line is 'N passed, M failed'. The status is 0 if none failed, 1 if one failed, 2 if none
passed. CAN controllers and DSA ports need hardware, and TUN devices are made by other calls: no case has them.
"""
import argparse
import collections
import errno
import os
import re
import subprocess
import sys
import tempfile

HERE = os.path.dirname(os.path.realpath(__file__))
ROOT = os.path.dirname(os.path.dirname(HERE))
BINDINGS = ("C", "Rust", "Python")
FIELD = re.compile(r"(\S+)(?: ([^=]*?))?(?: =(?: (.*))?)?")
# What Linux sends back of fields that are no values of options.
OF_LINK = {"kind": "IFLA_INFO_KIND", "link": "IFLA_LINK", "master": "IFLA_MASTER", "alternative": "IFLA_ALT_IFNAME"}
PACKAGE = """package = {{ name = "devices", version = "0.1.0", edition = "2021" }}
bin = [{{ name = "devices", path = "{here}/devices.rs" }}]
dependencies = {{ nlroute = {{ path = "{root}/bindings/rust" }} }}
"""


def lines_of(_, request, name, *fields):
    """Yields what a program gets for a row."""
    if not request.endswith("read"):
        yield f"create {name}" if request == "create" else f"{request} @{name}"
        for field in fields:
            yield re.sub("^(link|master) ", r"\1 @", re.sub(" =.*", "", field))
        yield "send"
    yield f"{'bridge_read' if request.startswith('bridge') else 'read'} @{name}"


def call_of(_, request, name, *fields):
    """Returns the call of a row in Rust."""
    made, end = f"Request::{request}" + (f'("{name}")' if request == "create" else f'(index("{name}"))'), ""
    for field in fields:
        word, value, _ = FIELD.fullmatch(field).groups()
        if word == "options":
            made += f"{end}.options(&List::<{''.join(it.capitalize() for it in value.split('_'))}>::new()"
            end = ")"
        elif word.isupper():
            made += f'.with({word}, told("{value}"))'
        elif word == "alternative":
            made += f'.with(IFLA_PROP_LIST, List::new().with(prop_list::IFLA_ALT_IFNAME, told("{value}")))'
        else:
            argument = {"up": "", "kind": f'"{value}"'}.get(word, f'index("{value}")')
            made, end = f"{made}{end}.{word}({argument})", ""
    made = "None" if request.endswith("read") else f"Some({made}{end})"
    return f'    netlink.row("{name}", {str(request.startswith("bridge")).lower()}, {made})?;\n'


def wanted_of(fields, indexes):
    """Yields what the reply should have: a set, and the start of a line."""
    options = ""
    for field in fields:
        word, value, read = FIELD.fullmatch(field).groups()
        if word == "options":
            options = value
        elif word in ("link", "master"):
            yield "link", f"{OF_LINK[word]} ifindex {indexes.get(value)}"
        elif word in OF_LINK:
            yield "link", f'{OF_LINK[word]} "{value}"'
        elif value and value.startswith("@"):
            yield options, f"{word} ifindex {indexes.get(value[1:])}"
        elif value and not field.endswith(" ="):
            yield options, f"{word} {read or value.strip('[]')}"


def build(prefix, folder, rows):
    """Builds the programs that the folder lacks."""
    if not os.path.exists(f"{folder}/devices"):
        words = [os.environ.get("CC", "cc"), "-std=gnu11", "-Wall", "-Wextra", "-Werror", "-O1", "-g"]
        words += ["-I", f"{ROOT}/crates/nlroute_ffi/include", "-o", f"{folder}/devices", f"{HERE}/devices.c"]
        subprocess.run([*words, f"{prefix}/lib/libnlroute.a"], check=True)
    if not os.path.exists(f"{folder}/release/devices"):
        with open(f"{folder}/rows.rs", "w", encoding="utf-8") as file:
            calls = "".join(call_of(*row) for row in rows)
            file.write(f"fn rows(mut netlink: Netlink) -> io::Result<()> {{\n{calls}    Ok(())\n}}\n")
        with open(f"{folder}/Cargo.toml", "w", encoding="utf-8") as file:
            file.write(PACKAGE.format(here=HERE, root=ROOT))
        words = ["cargo", "build", "--offline", "--quiet", "--release", "--manifest-path", f"{folder}/Cargo.toml"]
        variables = {"NLROUTE_LIB_DIR": f"{prefix}/lib", "ROWS": f"{folder}/rows.rs", "CARGO_TARGET_DIR": folder}
        subprocess.run(words, check=True, env={**os.environ, **variables})


def blocks(binding, prefix, folder, rows):
    """Runs a program. Returns the lines that it prints for each row."""
    python = [sys.executable, "-B", f"{HERE}/devices.py"]
    program = {"C": [f"{folder}/devices"], "Rust": [f"{folder}/release/devices"], "Python": python}[binding]
    variables = {"PYTHONPATH": f"{ROOT}/bindings/python", "NLROUTE_LIBRARY": f"{prefix}/lib/libnlroute.so"}
    lines = "".join(f"{line}\n" for row in rows for line in lines_of(*row))
    words, env = ["unshare", "-n" if os.getuid() == 0 else "-rn", *program], {**os.environ, **variables}
    ran = subprocess.run(words, input=lines, stdout=subprocess.PIPE, text=True, env=env, timeout=300)
    found = [it.splitlines() for it in ran.stdout.split("end\n")[:-1]]
    return found + [[f"refused 0 the program ended with status {ran.returncode}"]] * (len(rows) - len(found))


class Cell:
    """What was found of a case by a binding."""

    def __init__(self):
        self.agree, self.absent, self.differences = 0, False, []

    def __str__(self):
        return "FAILED" if self.differences else "absent" if self.absent else str(self.agree)

    def add(self, row, lines, indexes):
        """Compares what was read after a row with its fields, and adds the index of its link to those that are known."""
        _, request, name, *fields = row
        word, number, text = [*(lines or ["refused 0 there is no link"])[0].split(" ", 2), ""][:3]
        if word == "refused":
            self.absent = int(number) == errno.EOPNOTSUPP
            if not self.absent:
                self.differences.append(f"{request} {name}: {errno.errorcode.get(int(number), text)}")
            return
        indexes[name] = number
        lists, family = collections.defaultdict(list), ""
        for line in lines[1:]:
            family = line.removeprefix("list ") if line.startswith("list ") else family
            lists[family].append(f"{line.strip()} ")
        for family, wanted in wanted_of(fields, indexes):
            if any(line.startswith(f"{wanted} ") for line in lists[family]) != request.endswith("_delete"):
                self.agree += 1
            else:
                has = [line.strip() for line in lists[family] if line.split()[0] == wanted.split()[0]]
                self.differences.append(f"{request} {name}: {wanted}, but Linux sends {'; '.join(has) or 'nothing'}")


def compare(prefix, folder, rows):
    """Runs the programs, and prints the table. Returns the exit status."""
    table = {row[0]: {it: Cell() for it in BINDINGS} for row in rows}
    for binding in BINDINGS:
        indexes, lacking = {}, set()
        for row, lines in zip(rows, blocks(binding, prefix, folder, rows)):
            cell = table[row[0]][binding]
            cell.absent |= bool(lacking & {*re.findall(r"\w+", " ".join(row[2:]))})
            if not cell.absent and not cell.differences:
                cell.add(row, lines, indexes)
            if row[1] == "create" and row[2] not in indexes:
                lacking.add(row[2])
    width, said = max(map(len, table)), []
    print("case".ljust(width), *(f" {it:>6}" for it in BINDINGS))
    for name, cells in table.items():
        for it in cells.values():
            if it.absent and not all(other.absent for other in cells.values()):
                it.differences.append("absent")
        print(name.ljust(width), *(f" {cells[it]!s:>6}" for it in BINDINGS))
        said += [f"FAILED {name} by {it}: {text}" for it in BINDINGS for text in cells[it].differences]
    print("".join(f"{it}\n" for it in said), end="")
    found = [str(it) for row in table.values() for it in row.values()]
    failed = found.count("FAILED")
    passed = len(found) - failed - found.count("absent")
    print(f"{passed} passed, {failed} failed")
    return 1 if failed else 0 if passed else 2


def main():
    parser = argparse.ArgumentParser(usage="extra/kernel/run.py [--programs FOLDER] [PREFIX]")
    parser.add_argument("--programs")
    parser.add_argument("prefix", nargs="?", default=os.environ.get("NLROUTE_PREFIX"))
    asked = parser.parse_args()
    if not asked.prefix:
        parser.error("name the folder of an installed library")
    with open(f"{HERE}/cases.tsv", encoding="utf-8") as file:
        rows = [line.rstrip("\n").split("\t") for line in file if not line.startswith("#")]
    with tempfile.TemporaryDirectory() as room:
        prefix, folder = os.path.abspath(asked.prefix), os.path.abspath(asked.programs or room)
        os.makedirs(folder, exist_ok=True)
        build(prefix, folder, rows)
        return compare(prefix, folder, rows)


if __name__ == "__main__":
    sys.exit(main())
