#!/usr/bin/env python3
"""Writes what is made from the sources: docs/families.md, docs/nlroute.3, docs/captured.pcapng, the lists of attribute sets,
what tools/sets.py makes from sets/, and of pages counts and tables of what was measured. It also prints what people look up.

usage: tools/made.py [--check | --map | --claims CRATE.. | --rows [SET..]]

families.md has a row for each attribute set of `families!`, in its order, and the words of its comment in `Family`. The
other lists of attribute sets, such as the constants of nlroute.h, are parts of files: tools/families.py has their places.

nlroute.3 is the man page of nlroute.h and nlroute_requests.h: the declarations, and the comment above each as paragraphs. A comment without
declarations begins a section, whose name is its first words. What is only for the preprocessor is left out, and of two
definitions of a macro the one for C++. An inline function has no body there. The example is that of docs/c.md.

captured.pcapng has the messages of runs/plain/captured as packets, each with the comment above it. Their times are not
known, and are 0.

A table of what was measured has the columns that a mark names, of a file that bench/ writes:
`<!-- made: bench/measured.tsv: Read, Check -->`. A count is the number before a mark, as tools/pages.py has them: `148<!-- count: tests of refusals --> tests`.

--map prints the files of the crates, in the order of crates.txt, each with the first sentence of its header. A file of src/
begins with lines `//!`, one of specs/ or proofs/ with lines `--`. Lib.antt, which only lists the others, and the proofs of
single functions, in folders below proofs/, are left out. --claims prints the contracts of crates, --rows the attribute types
of all attribute sets, or of those named: tools/contracts.py explains both.

With --check it says which files are not what would be written, which have no header, and which public functions have no
clause though CLAIMS.md does not name them, and ends with 'N passed, M failed'; CI does this.
"""
import glob
import os
import re
import signal
import struct
import sys
import textwrap

sys.dont_write_bytecode = True
import contracts  # noqa: E402
import families  # noqa: E402
import sets  # noqa: E402
from pages import HISTORY, PAGES, ROOT, SPELLED, Tree  # noqa: E402

# ---- the map

HEADER = {"rt": re.compile(r"(?://!.*\n)+"), "antt": re.compile(r"(?:-- .*\n)+")}
COLUMN, WIDTH = 34, 118


def header(text, suffix):
    """The first sentence of a file's header; nothing if it has none."""
    found = HEADER[suffix].match(text)
    words = " ".join(line[3:].strip() for line in found[0].split("\n")) if found else ""
    return re.split(r"(?<=\.)\s", words.strip())[0].rstrip(".")


def files(crate):
    """The files of a crate that the page lists: its code, then its definitions, then its lemmas."""
    code = glob.glob("**/*.rt", root_dir=f"{ROOT}/crates/{crate}/src", recursive=True)
    yield from (f"src/{it}" for it in sorted(code, key=lambda it: (it not in ("lib.rt", "main.rt"), it)))
    for part in ("specs", "proofs"):
        found = sorted(glob.glob("*.antt", root_dir=f"{ROOT}/crates/{crate}/{part}"))
        yield from (f"{part}/{it}" for it in found if it != "Lib.antt")


def row(path, words):
    """The lines of one file."""
    lines = textwrap.wrap(words, WIDTH - COLUMN, break_long_words=False)
    first = f"{path:<{COLUMN - 1}} {lines[0]}" if len(path) < COLUMN else f"{path}\n{' ' * COLUMN}{lines[0]}"
    return "\n".join([first, *(" " * COLUMN + it for it in lines[1:])])


def crates_in(tree):
    """The crates of the repository, in the order of crates.txt."""
    return re.findall(r"^(\w+)[^:\n#]*:", tree.text("crates.txt"), re.MULTILINE)


def map_of(tree):
    """The lines of the map, and the files without a header."""
    lines, ill = [], []
    for crate in crates_in(tree):
        found = {path: header(tree.text(f"crates/{crate}/{path}"), path.rpartition(".")[2]) for path in files(crate)}
        ill += [f"crates/{crate}/{path}" for path, words in found.items() if not words]
        lines += [crate, *(row(path, words) for path, words in found.items() if words), ""]
    return lines, ill


# ---- docs/nlroute.3

NLROUTE_H = "crates/nlroute_ffi/include/nlroute.h"
REQUESTS_H = "crates/nlroute_ffi/include/nlroute_requests.h"
FRONT = """\
.\\" tools/made.py writes this page from nlroute.h and nlroute_requests.h.
.TH NLROUTE 3 "" "nlroute {version}" "Library Functions Manual"
.\\" Names are not hyphenated.
.nh
.SH NAME
nlroute \\- parse, print, write and check lists of netlink link attributes
.SH SYNOPSIS
.nf
.B #include <nlroute.h>
.B #include <nlroute_kinds.h>
.B #include <nlroute_numbers.h>
.B #include <nlroute_requests.h>
.PP
.B cc main.c $(pkg\\-config \\-\\-cflags \\-\\-libs nlroute)
.fi
.SH DESCRIPTION
"""
BACK = """\
.SH SEE ALSO
.BR nlroute (1),
.BR nlshow (1),
.BR rtnetlink (7)
"""
# A comment that begins a line, and what follows it up to an empty line.
PART = re.compile(r"^/\*(?P<said>(?:[^*]|\*(?!/))*)\*/\n(?P<code>(?:(?!/\*).+\n)*)", re.MULTILINE)


def escaped(text):
    """A text of a man page that is printed as it is."""
    text = text.replace("\\", "\\e").replace("-", "\\-")
    return re.sub(r"^(?=[.'])", "\\\\&", text, flags=re.MULTILINE)


def paragraphs(comment):
    """The paragraphs of a comment, and the items of its lists, as a man page has them."""
    lines = [re.sub(r"^ ?\* ?", "", it).rstrip() for it in comment.strip().split("\n")]
    found = [["", ""]]
    for line in lines:
        is_item, goes_on = line.startswith("- "), found[-1][1] and (line.startswith("  ") or found[-1][0] == ".PP")
        if is_item or not line or not goes_on:
            found.append([".IP \\(bu 2" if is_item else ".PP", ""])
        found[-1][1] += f" {line.removeprefix('- ').strip()}"
    for macro, words in found:
        if words.strip():
            yield f"{macro}\n" + re.sub(r"\b(nlroute_\w+)\(\)", r"\\fB\1\\fP()", escaped(words.strip())) + "\n"


def declared(code):
    """The declarations of some code: without attributes, bodies and what is for the preprocessor."""
    code = re.sub(r"^#ifdef __cplusplus\n#.*\n#else\n", "", code, flags=re.MULTILINE)
    code = re.sub(r"^(#(?!define \w+ \S).*|NLROUTE_MUST_USE|struct \w+;)\n", "", code, flags=re.MULTILINE)
    code = re.sub(r"^static inline (.*?)\n\{\n.*?^\}\n?", r"\1;\n", code, flags=re.MULTILINE | re.DOTALL)
    return code.replace("NLROUTE_EXTENSION ", "").rstrip()


def manual(tree):
    """The text of nlroute.3."""
    text = tree.text(NLROUTE_H)
    version = re.search(r"#define NLROUTE_VERSION 0x(\w\w)(\w\w)(\w\w)u", text)
    parts = [FRONT.format(version=".".join(str(int(it, 16)) for it in version.groups()))]
    first, *others = PART.finditer(text)
    parts += [*paragraphs(first["said"]), ".SH VERSION, SETS AND ERRORS\n", *declarations(others)]
    first, *others = PART.finditer(tree.text(REQUESTS_H))
    parts += [".SH REQUESTS\n", *paragraphs(first["said"]), *declarations(others)]
    return "".join([*parts, ".SH EXAMPLES\n.nf\n", escaped(example(tree)), "\n.fi\n", BACK])


def declarations(others):
    """The parts of a man page of these comments of a header, and of what follows each."""
    parts = []
    for part in others:
        code, said = declared(part["code"]), [*paragraphs(part["said"])]
        if "#if" in part["code"] and not re.search(r"^#define NLROUTE_NO", code, re.MULTILINE):
            continue
        if code:
            bare = re.sub(r"/\*.*?\*/", "", code, flags=re.DOTALL)
            names = re.findall(r"\bnlroute_\w+(?=\()|^(?:enum|struct) \w+(?= \{)|(?<=define )\w+", bare, re.MULTILINE)
            parts.append(f".SS {escaped(', '.join(names))}\n.nf\n{escaped(code)}\n.fi\n")
        else:
            title = re.match(r"[^.,]*", re.sub(r"\s+", " ", part["said"].replace("*", " ")).strip())[0]
            parts.append(f".SH {escaped(title.upper().replace('NLROUTE_WRITE()', 'nlroute_write'))}\n")
        parts += said
    return parts


def example(tree):
    """The program of docs/c.md."""
    return re.search(r"^```c\n(#include.*?)\n```$", tree.text("docs/c.md"), re.MULTILINE | re.DOTALL)[1]


# ---- docs/families.md

FAMILIES = """\
# Attribute sets

A set, or *family*, is the attribute types of one kind of list. What holds the list, and the kind of device, select it.

| Set | Attributes of | The list is | The kind is | In Rattle |
|---|---|---|---|---|
"""
BELOW_FAMILIES = """
The kind is `IFLA_INFO_KIND` or, for a port, `IFLA_INFO_SLAVE_KIND`: that of its master. Without the latter, the kinds
`bond_slave` and `bridge_slave` of `IFLA_INFO_KIND` tell it. The list of `link` follows `struct ifinfomsg`, and that of
`reply` is the attributes `NLMSGERR_ATTR_*`. `AF_INET`, `AF_INET6` and `AF_MCTP` are in `IFLA_AF_SPEC`. In AF_INET6
messages, `IFLA_PROTINFO` is a list of `inet6`. `proto_bridge` knows attribute type 45 only, as upstream does; for others,
use `bridge_port`. No set reads the lists of virtual functions (`IFLA_VFINFO_LIST`, `IFLA_VF_PORTS`, `IFLA_PORT_SELF`) and
the data of other devices. `tools/made.py` writes this page.

These kinds have no attributes of their own: `dummy`, `ifb`, `lowpan`, `netdevsim`, `nlmon`, `pfcp`, `team`, `vcan`,
`virt_wifi`, `vsockmon` and `wireguard`. For most, Linux sends no `IFLA_INFO_DATA`.
"""
# What holds a list that no attribute holds, by the name of its set.
WHOLE_LISTS = {"link": "a message about a link", "reply": "a reply"}


def one_of(names):
    return " or ".join(f"`{it}`" for it in names) or "–"


def page_of_families(tree):
    """The page with a row for each attribute set."""
    page = FAMILIES
    for it in families.families(tree.text_or_none):
        held = one_of(filter(None, it["holders"]))
        if it["name"] in WHOLE_LISTS:
            held = WHOLE_LISTS[it["name"]] + f" or {held}" * (held != "–")
        page += f"| `{it['name']}` | {it['whose']} | {held} | {one_of(it['kinds'])} | `{it['attributes']}` |\n"
    return page + BELOW_FAMILIES


# ---- docs/captured.pcapng

CAPTURED = "runs/plain/captured"
WHOLE = "Messages about links, as Linux sent them on x86-64. Their times are not known, and are 0."
MESSAGE = re.compile(r"^((?:# .*\n)+)> message (\w+)\n", re.MULTILINE)
# What packets of link type 253 begin with: of type PACKET_OUTGOING, ARPHRD_NETLINK, of NETLINK_ROUTE.
COOKED = struct.pack(">HHIIHH", 4, 824, 0, 0, 0, 0)


def padded(data):
    return data + bytes(-len(data) % 4)


def block(kind, body, comment=""):
    """A block of pcapng, with a comment as its option."""
    text = comment.encode()
    options = struct.pack("<HH", 1, len(text)) + padded(text) + bytes(4) if text else b""
    length = struct.pack("<I", len(body + options) + 12)
    return struct.pack("<I", kind) + length + body + options + length


def capture(text):
    """A run's messages as a pcapng file: a section, an interface, and a packet for each message."""
    blocks = [block(0x0A0D0D0A, struct.pack("<IHHq", 0x1A2B3C4D, 1, 0, -1), WHOLE), block(1, struct.pack("<HHI", 253, 0, 0))]
    for comment, digits in MESSAGE.findall(text):
        packet = COOKED + bytes.fromhex(digits)
        head = struct.pack("<5I", 0, 0, 0, len(packet), len(packet))
        blocks.append(block(6, head + padded(packet), " ".join(comment.replace("#", " ").split())))
    return b"".join(blocks)


# ---- counts

MARKED = re.compile(rf"(\d[\d,]*|\b(?:{'|'.join(SPELLED)}))(?=\W?\**<!--\s*count:\s*([^>]*?)\s*-->)", re.IGNORECASE)


def counted(text, tree):
    """The text of a page with the numbers of the tree at its marks. A number in letters stays, if it is right."""

    def number(found):
        there, name = found[1], " ".join(found[2].split())
        is_right = there.lower() in SPELLED and SPELLED.index(there.lower()) == tree.counts.get(name)
        return there if is_right or name not in tree.counts else f"{tree.counts[name]:,}"

    return MARKED.sub(number, text)


# ---- what was measured

MEASURED = re.compile(r"^(<!-- made: (\S+\.tsv): (.*) -->\n```text\n)(?:(?!```).*\n)*(?=```$)", re.MULTILINE)


def measured(text, tree):
    """A page with its tables of what was measured: below a mark with a file, the columns that it names."""

    def table(found):
        titles, *rows = (line.split("\t") for line in tree.text(found[2]).splitlines())
        places = [titles.index(it) for it in found[3].split(", ")]
        lines = [["", *(titles[at] for at in places)], *([row[1], *(row[at] for at in places)] for row in rows)]
        first, *widths = (max(map(len, column)) for column in zip(*lines))
        cells = (f"{name:<{first}}" + "".join(f"  {it:>{width}}" for it, width in zip(row, widths)) for name, *row in lines)
        return found[1] + "".join(f"{line}\n" for line in cells)

    return MEASURED.sub(table, text)


# ---- public functions without a clause

CLAIMS = "docs/proofs/CLAIMS.md"
# Crates that only test.
TESTING = ("refusals", "library_tests", "list_tests")


def unnamed(tree):
    """The public functions that have no clause, and that CLAIMS.md does not name."""
    page = tree.text(CLAIMS)
    for crate in crates_in(tree):
        found = contracts.without_clause(tree, crate) if crate not in TESTING else []
        yield from (f"{crate}: {name} has no clause, and {CLAIMS} does not name it" for name in found if f"`{name}`" not in page)


# ---- all of them


def write(made):
    """Writes files, by their paths."""
    for path, data in made.items():
        os.makedirs(os.path.dirname(f"{ROOT}/{path}"), exist_ok=True)
        with open(f"{ROOT}/{path}", "wb") as file:
            file.write(data)


def made_of(tree, lists):
    """The bytes of all files that are made, by their paths; `lists` has the texts of some."""
    texts = lists | {"docs/families.md": page_of_families(tree), "docs/nlroute.3": manual(tree)}
    pages = {path: texts.get(path) or tree.text(path) for path in tree.files if PAGES.fullmatch(path) and path != HISTORY}
    texts |= {path: measured(counted(text, tree), tree) for path, text in pages.items() if MARKED.search(text) or MEASURED.search(text)}
    return {path: text.encode() for path, text in texts.items()} | {"docs/captured.pcapng": capture(tree.text(CAPTURED))}


def compare(made, tree):
    """Says what is not as it would be written, and how much is."""
    _, ill = map_of(tree)
    changed = [path for path, data in made.items() if tree.data(path) != data]
    bare = [*unnamed(tree)]
    print(*(f"{path}: it has no header" for path in ill), *bare, sep="\n", end="\n" * bool(ill + bare))
    print(*(f"{path}: it is not what tools/made.py writes: run that" for path in changed), sep="\n", end="\n" * bool(changed))
    failed = len(changed) + bool(ill) + bool(bare)
    print(f"{len(made) + 2 - failed} passed, {failed} failed")
    return failed > 0


def main():
    option, *named = sys.argv[1:] or [""]
    # (`| head` is no error)
    signal.signal(signal.SIGPIPE, signal.SIG_DFL)
    tree = Tree(ROOT)
    try:
        if option == "--map" and not named:
            print(*map_of(tree)[0], sep="\n")
        elif option == "--claims" and named:
            print(*(line for crate in named for line in contracts.claims(tree, crate)), sep="\n")
        elif option == "--rows":
            print(*contracts.rows(tree, named), sep="\n")
        elif option not in ("", "--check") or named:
            sys.exit(__doc__)
        else:
            lists = sets.written(tree.files, tree.text)
            lists |= families.written(lambda path: lists.get(path) or tree.text(path))
            if option:
                sys.exit(compare(made_of(tree, lists), tree))
            write({path: text.encode() for path, text in lists.items()})
            tree = Tree(ROOT)
            write(made_of(tree, lists))
    except ValueError as error:
        sys.exit(f"{error}\n0 passed, 1 failed")


if __name__ == "__main__":
    main()
