#!/usr/bin/env python3
"""Checks the pages of the repository: their samples, clauses, links, names, counts and lengths.

usage: tools/pages.py [--words | PAGE..]

The pages are README.md, CONTRIBUTING.md, CHANGELOG.md, docs/*.md, docs/proofs/*.md, docs/nlshow.1, docs/nlroute.1 and the
README.md of bench, tools, extra, bindings and crates, or those that are named. Each page is checked by seven rules:

- samples: a code block below a line `<!-- from: PATH -->` is a verbatim part of that file. The indentation that its
  lines share may be removed, and blanks at the end of a line do not count. A line `..` or `...` represents any lines.
- clauses: inline code that begins with `requires ` or `ensures ` is in an .rt file of crates/. White space does not
  count, and ` .. ` represents any text.
- links: a relative link leads to a file or folder, and its `#anchor` to a heading of that page.
- files: inline code that looks like a path, with a slash or one of SUFFIXES, is one: from the top, from the page's
  folder, or the end of a longer path. One with `NAME` or a wildcard is skipped, and so are those of ELSEWHERE. A word
  with one of SUFFIXES in a block of text that is not a sample is looked up too.
- functions: inline code `name(..)`, or `path::name` if the path begins with a crate or a module, names a function of an
  .rt file or of nlroute.h. Those of OTHER_NAMES are skipped.
- names: a word in snake_case or CamelCase, in inline code or such a block, is in a source: a file of SOURCES, or a document
  of runs/json. Those of OTHER_NAMES are skipped. So are CHANGELOG.md and docs/DIFFERENCES.md, which have names of the
  past and of others.
- counts: a number with a mark, as in `148<!-- count: tests of refusals --> tests`, is that of the tree. A number of
  tests, mutants or edits has a mark, except in CHANGELOG.md.

A man page is read as such a page: its examples (.EX) are code blocks, a comment `.\\" from: PATH` above one is a mark, a
reference to a page of ours is a link, and words in snake_case or CamelCase, and those with a slash, are inline code.

Unless pages are named, more checks compare what pages, runs and comments have for each attribute set with the list in
family.rt and with sets/, as tools/families.py and sets.py say (tools/made.py compares the lists that it writes), and pages
that list all of something with the sources (tools/inventories.py). And all pages together have at most TOTAL words, besides
CHANGELOG.md, which has at most HISTORY_WORDS. Code blocks, comments, docs/families.md and tables below a line
`<!-- made: .. -->`, which tools write, do not count; of man pages, each word of the source does. --words prints how many
each page has.

The names of counts are `tests`, `mutants`, `must-fail edits` and those `of CRATE`: the functions with `#[test]`, the
headings `## NAME` of mutants.edits, and the files must-fail/*.edit; `mutants of definitions`: those of files in specs/;
`calls that allocate`, `calls that do not allocate`: the lines of crates/refusals/stdin; `runs`, `runs of FOLDER`: the
runs below runs/; `lists`, and `WORD lines` for other first words, each also `of FOLDER`: what the runs of `nlshow` have
as standard input.

The last line is 'N passed, M failed', where each rule counts once for each page, and the status 0 only if all passed.
"""
import collections
import functools
import os
import posixpath
import re
import sys
import urllib.parse

sys.dont_write_bytecode = True
sys.path.insert(0, os.path.dirname(os.path.realpath(__file__)))
import families  # noqa: E402
import inventories  # noqa: E402
import sets  # noqa: E402
from runs import is_run, runs_of  # noqa: E402

ROOT = os.path.dirname(os.path.dirname(os.path.realpath(__file__)))
PAGES = re.compile(
    r"(README|CONTRIBUTING|CHANGELOG)\.md|docs/((proofs/)?[^/]+\.md|nl(show|route)\.1)|(bench|tools|extra|(bindings|crates)/[^/]+)/README\.md"
)
# The most words that all pages may have, but for the history, and the most for that.
TOTAL, HISTORY_WORDS = 27_000, 500
HISTORY, COMPARISON = "CHANGELOG.md", "docs/DIFFERENCES.md"
# A page that tools/made.py writes.
MADE = "docs/families.md"
SOURCES = (".rt", ".antt", ".h", ".c", ".rs", ".py", ".sh")
SUFFIXES = (".rt", ".antt", ".py", ".md", ".h", ".sh", ".edit", ".edits")
# Paths that are not of this tree: of Linux and C, of Cargo projects, of what tools make, of releases, of the kit's pages, and
# of a crate of the reader.
ELSEWHERE = re.compile(
    r"(?!.*nlroute).*\.h|(drivers|net|Documentation|include/(uapi|linux|net))(/.*)?"
    r"|(.*/)?(main|build|lib)\.rs|(.*/)?(out|target)(/.*)?|licen[cs]es/CRATES|(crates/)?mine(/.*)?"
    r"|(.*/)?(ANTT|CONTRACTS|FIRST_PROOFS|GENERIC|LANGUAGE|READING|SHORTER_PROOFS|START|START-HERE)\.md"
)
# Names of std, of C, of jq, of the kit and of Linux.
OTHER_NAMES = re.compile(
    r"as_slice|bond_miimon|clone|collect|from|from_entries|get_attrs?|into|iter|len|main|malloc|printf|repr|to_string|(ifi|nla|nlmsg|rtnl|sockaddr)_\w+"
)

FENCE = re.compile(r"\s*(`{3,}|~{3,})(.*)")
# Inline code is of one paragraph, row of a table, or item of a list.
CODE_OR_COMMENT = re.compile(
    r"(?<!`)(?P<ticks>`+)(?!`)(?P<code>(?:(?!\n\s*(?:\n|\||#|[-*+] |\d+\. )).)+?)(?<!`)(?P=ticks)(?!`)"
    r"|<!--(?P<comment>.*?)-->",
    re.DOTALL,
)
HEADING = re.compile(r"^ {0,3}#{1,6}\s+(.*?)\s*#*\s*$", re.MULTILINE)
LINK = re.compile(r"\]\(\s*<?([^()\s<>]+)")
DOTS = re.compile(r"\s*\.\.\.?\s*")
GAP = re.compile(r"(?:^|\s)(?:\.\.\.?|…)(?:\s|$)")
ROW_OF_CODE = re.compile(r"\b([A-Z]+_\w+) = (\d+)(?: \| \w+)?, (\w+)(?:\([\w, ]+\))?(?:: [^;]*?( as \w+)?)?;")
ENUM = re.compile(r"((?:^///.*\n)+)(?:#\[.*\n)*pub enum (\w+) \{\n((?: .*\n|\n)*)", re.MULTILINE)
TABLE_OF_ENUM = re.compile(r"^impl (?:Meaning|NestedAttribute) for (\w+) \{\n(?: .*\n|\n)*? +ghost (?:table|rows) = \{ (\w+) \}", re.MULTILINE)
ROW_OF_TABLE = re.compile(r"\b(leaf_|nested_|address_)?row(?:_in (\w+))? (\d+) \"(\w+)\" \(?(.*?)\)* ∷")
DRAWN = re.compile(r"(?<![\w./+-])\w[\w./+-]*")
CALL = re.compile(r"(?P<path>(?:\w+::)*)(?P<name>[a-z_]\w*)(?:::<[^>]*>)?(?P<arguments>\(.*\))?\??", re.DOTALL)
FN = re.compile(r"\b(?:fn |macro |macro_rules! )(\w+)")
NAME = re.compile(r"\b(?=\w*[a-z])[a-zA-Z]\w*(?:_\w+|[a-z0-9][A-Z]\w*)\b")
SPELLED = "zero one two three four five six seven eight nine ten eleven twelve".split()
NUMBER = re.compile(rf"(\d[\d,]*|\b(?:{'|'.join(SPELLED)}))\W?\**\Z", re.IGNORECASE)
UNMARKED = re.compile(r"(?<![\w.,:-])\d[\d,]*(?:\s+must-fail)?\s+(?:tests?|mutants?|edits?)\b")


class Page:
    """A page. `blocks` has its code blocks by the line of the fence, and `prose` the rest, with blank lines for them. Of
    the prose, `spans` has inline code and `comments` comments, each with its offset; `plain` has dots for both.
    `marks` has the comments that begin with `from`, with the lines of each and of the block below it, or 0."""

    def __init__(self, text, path):
        self.source, self.path, self.folder, self.blocks = text, path, posixpath.dirname(path), {}
        self.is_manual = path.endswith(".1")
        self.lines = (of_manual(text) if self.is_manual else text).split("\n")
        self.prose = "\n".join(self.lines_outside())
        found = [*CODE_OR_COMMENT.finditer(self.prose)]
        # (in a row of a table, `\|` is `|`)
        self.spans = [(it.start(), " ".join(it["code"].split()).replace("\\|", "|")) for it in found if it["code"]]
        self.comments = [(it.start(), it["comment"].strip()) for it in found if not it["code"]]
        self.plain = CODE_OR_COMMENT.sub(lambda it: re.sub(r"\S", "·", it[0]), self.prose)
        marks = [(self.line(at), it) for at, it in self.comments if it.startswith("from")]
        self.marks = [(line, it, self.block_below(line)) for line, it in marks]

    def lines_outside(self):
        """The lines, with empty ones for those of code blocks."""
        fence, block = None, []
        for number, line in enumerate(self.lines, 1):
            found = FENCE.fullmatch(line)
            if fence is None and (not found or "`" in found[2]):
                yield line
                continue
            yield ""
            if fence is None:
                fence, block = found[1], self.blocks.setdefault(number, [])
            elif found and found[1].startswith(fence) and not found[2].strip():
                fence = None
            else:
                block.append(line.rstrip())

    def block_below(self, line):
        """The line of the fence that is next below a line, or 0."""
        return next((it for it in self.blocks if it > line and not "".join(self.lines[line : it - 1]).strip()), 0)

    def drawings(self):
        """The lines of blocks of text that are not samples, with their numbers."""
        samples_here = [below for _, _, below in self.marks]
        for number, block in self.blocks.items():
            if number not in samples_here and self.lines[number - 1].strip(" `~") in ("", "text"):
                yield from enumerate(block, number + 1)

    def code(self):
        """Inline code, and the words of such blocks, with their lines."""
        yield from ((self.line(at), it) for at, it in self.spans)
        yield from ((line, it) for line, text in self.drawings() for it in DRAWN.findall(text))

    def line(self, offset):
        """The number of the line of an offset in the prose."""
        return self.prose.count("\n", 0, offset) + 1

    def anchors(self):
        """The anchors of the headings, as GitHub makes them."""
        found = set()
        for heading in HEADING.findall(re.sub(r"<!--.*?-->", "", self.prose)):
            text = re.sub(r"!?\[([^\]]*)\]\([^)]*\)", r"\1", heading).strip().lower()
            anchor = re.sub(r"[^\w\- ]", "", text).replace(" ", "-")
            more = (f"{anchor}-{number}" for number in range(1, len(found) + 2))
            found.add(next(it for it in [anchor, *more] if it not in found))
        return found


def of_manual(text):
    """A man page as a page with the same lines."""
    lines = []
    for line in text.split("\n"):
        if line.startswith('.\\"'):
            line = f"<!-- {line[3:].strip()} -->"
        elif line in (".EX", ".EE"):
            line = "```console" if line == ".EX" else "```"
        elif not line.startswith((".SH", ".SS", ".TH")):
            line = re.sub(r"^\.[A-Z]+ ?", "", re.sub(r"\\f[A-Z]", "", line))
            line = line.replace("\\-", "-").replace("\\(dq", '"').replace("\\(oq", "‘").replace("\\(cq", "’")
            line = re.sub(r"(?<![\w/.-])(nlshow|nlroute) \((\d)\)", r"[\1](\1.\2)", line)
            line = re.sub(r"(?<![\w/.\]()-])[\w.-]*(?:[a-z]_[a-z]|[a-z][A-Z]|\w/\w)[\w./-]*\w", r"`\g<0>`", line)
        lines.append(line)
    return "\n".join(lines)


class Tree:
    """The files and folders of the repository, except those that tools make."""

    def __init__(self, root):
        self.root, self.files, self.paths = root, [], set()
        for at, folders, files_here in os.walk(root):
            folders[:] = [it for it in folders if it not in (".git", "out", "target", "__pycache__")]
            inside = at[len(root) :].lstrip("/") + "/" * (at != root)
            self.files += [inside + it for it in files_here]
            self.paths |= {inside + it for it in [*files_here, *folders]}

    def pages(self):
        """The paths of the pages, in order."""
        return sorted(filter(PAGES.fullmatch, self.files))

    def data(self, path):
        """The bytes of a file; nothing if there is none."""
        with open(f"{self.root}/{path}" if path in self.files else os.devnull, "rb") as file:
            return file.read()

    def text(self, path):
        # (runs have bytes that are not UTF-8)
        with open(f"{self.root}/{path}", encoding="utf-8", errors="surrogateescape") as file:
            return file.read()

    def text_or_none(self, path):
        """The text of a file, or those of the files in a folder, whose path ends with a slash. None if there is none."""
        found = [it for it in self.files if it == path or path.endswith("/") and it.startswith(path)]
        return "\n".join(map(self.text, found)) if found else None

    def of(self, pattern):
        """The texts of the files whose paths match."""
        return [self.text(it) for it in self.files if re.fullmatch(pattern, it)]

    @functools.cached_property
    def endings(self):
        """The ends of paths, as `src/lib.rt`, and those of sources without their suffix."""
        whole = [*self.paths, *(it.rpartition(".")[0] for it in self.files if it.endswith((".rt", ".antt")))]
        parts = [it.split("/") for it in whole]
        return {"/".join(it[at:]) for it in parts for at in range(len(it))}

    @functools.cached_property
    def sources(self):
        """The texts of the .rt files of crates/, by path, each as one line."""
        found = [it for it in self.files if it.startswith("crates/") and it.endswith(".rt")]
        return {it: " ".join(self.text(it).split()) for it in found}

    @functools.cached_property
    def modules(self):
        """The names of crates and modules."""
        parts = [it.removesuffix(".rt").split("/")[1:] for it in self.sources]
        return {name for it in parts for name in it} - {"src", "lib", "main", "mod"}

    @functools.cached_property
    def functions(self):
        """The names of functions and macros, of the bindings too, and of what the headers declare."""
        declared = [re.findall(r"\bnlroute_\w+", text) for text in self.of(r".*/nlroute(_requests)?\.h")]
        declared += [re.findall(r"\b(?:fn|def) (\w+)", text) for text in self.of(r"bindings/.*\.(rs|py)")]
        return {name for found in [*map(FN.findall, self.sources.values()), *declared] for name in found}

    @functools.cached_property
    def names(self):
        """The words of the sources, and of the paths of all files."""
        sources = [it for it in self.files if it.endswith(SOURCES) and not it.startswith("tools/test_")]
        texts = map(self.text, [*sources, *(it for it in self.files if it.startswith("runs/json/"))])
        return {word for text in [*texts, *self.files] for word in re.findall(r"\w+", text)}

    @functools.cached_property
    def rows(self):
        """The rows of src/, as `1 IFLA_VLAN_ID Id` or `6 IFLA_CAN_RESTART_MS RestartMs as Milliseconds`."""
        found = [it for text in self.sources.values() for it in ROW_OF_CODE.findall(text)]
        return {f"{number} {name} {variant}{quantity}" for name, number, variant, quantity in found}

    @functools.cached_property
    def ways(self):
        """The types that the kernel only sends, `read-only`, or only accepts, `write-only`, by tables: so say the comments of
        variants."""
        ways, texts = {}, "\n".join(self.of(r"crates/link_\w+/src/.*\.rt"))
        enums = {enum: (comment, re.sub(r"\n +///", "", body)) for comment, enum, body in ENUM.findall(texts)}
        for enum, table in TABLE_OF_ENUM.findall(texts):
            comment, body = enums.get(enum, ("", ""))
            of_all = "read-only" if re.search(r"\bAll are\s+(?:///\s+)?read-only\b", comment) else ""
            found = re.findall(r"\(`([A-Z]+_\w+)`[^()]*?(?:, (\w+-only))?\)", body)
            ways[table] = {name: way or of_all for name, way in found if way or of_all}
        return ways

    @functools.cached_property
    def tables(self):
        """The tables in specs/, by name: their rows by number, each with a name, a quantity or '', and a shape without
        brackets."""
        tables = {}
        lists = {"nested_": "Nested ", "address_": "Addresses "}
        for text in self.of(r"crates/[^/]+/specs/.*\.antt"):
            for table, body in re.findall(r"^(\w+) =(.*(?:\n[ \t].*|\n)*)", re.sub(r"--.*", "", text), re.MULTILINE):
                # (a variant may be named with its module, as `layouts.Clock`)
                found = ROW_OF_TABLE.findall(re.sub(r"\b[a-z]+\.(?=[A-Z])", "", " ".join(body.split())))
                here = {number: (name, unit, lists.get(of, "") + re.sub(r"[()]", "", shape)) for of, unit, number, name, shape in found}
                tables |= {table: here} if here else {}
        return tables

    @functools.lru_cache(maxsize=None)
    def page(self, path):
        return Page(self.text(path), path)

    @functools.cached_property
    def counts(self):
        """The numbers of the tree, by the names of counts."""
        numbers = collections.Counter({"mutants of definitions": 0})
        for crate in sorted({it.split("/")[1] for it in self.files if re.match(r"crates/[^/]+/", it)}):
            mutants = [it for text in self.of(f"crates/{crate}/mutants.edits") for it in re.split(r"(?m)^## ", text)[1:]]
            tests = re.findall(r"(?m)^\s*#\[test\]", "\n".join(self.of(rf"crates/{crate}/.*\.rt")))
            edits = self.of(rf"crates/{crate}/must-fail/[^/]+\.edit")
            for name, found in (("tests", tests), ("mutants", mutants), ("must-fail edits", edits)):
                numbers[name] += len(found)
                numbers[f"{name} of {crate}"] = len(found)
            numbers["mutants of definitions"] += sum("file: specs/" in it for it in mutants)
        for call in re.findall(r"(?m)^(\d+) ", self.text_or_none("crates/refusals/stdin") or ""):
            numbers["calls that do not allocate" if call == "0" else "calls that allocate"] += 1
        sets = families.names(self.text_or_none)
        for path in [it for it in self.files if it.startswith("runs/") and is_run(it)]:
            folder = path.split("/")[1]
            for run in runs_of(self.root, path.removeprefix("runs/")):
                lines = run.stdin.decode(errors="replace").split("\n") if run.program == "nlshow" else []
                words = [it.split()[0] for it in lines if it.strip() and it[0] != "#"]
                kinds = ["lists" if it in sets else f"{it} lines" for it in words]
                numbers.update([*kinds, "runs", *(f"{it} of {folder}" for it in ["runs", *kinds])])
        return numbers


def samples(page, tree):
    """What is wrong with the code blocks that are marked as parts of files."""
    for line, comment, below in page.marks:
        found = re.fullmatch(r"from: (\S+)", comment)
        if not found or not below:
            yield line, f"`<!-- {comment} -->` is not a mark `<!-- from: PATH -->` above a code block"
        elif found[1] not in tree.files:
            yield line, f"there is no file {found[1]}"
        else:
            source = [it.rstrip() for it in tree.text(found[1]).split("\n")]
            parts = parts_of(page.blocks[below])
            tried = [misfit(parts, source, it) for it in {re.match(r"\s*", line)[0] for line in source}]
            if not parts:
                yield below, "the code block is empty"
            elif None not in tried:
                offset, at = max(tried)
                beside = f": its line {at} differs" if at else ""
                yield below + offset, f"the sample is not a part of {found[1]} from this line on{beside}"


def parts_of(block):
    """The parts of a block between lines of dots, without shared indentation, each with its first line's number."""
    shared = min((len(it) - len(it.lstrip()) for it in block if it), default=0)
    parts, last = [], None
    for number, line in enumerate(block, 1):
        if line and not DOTS.fullmatch(line):
            if last is None:
                parts.append((number, []))
            # (blank lines only count between others)
            parts[-1][1].extend([""] * (number - 1 - (last or number - 1)) + [line[shared:]])
            last = number
        elif line:
            last = None
    return parts


def misfit(parts, source, indent):
    """None if a source has the parts in their order, all with this indentation. Otherwise the number of the first line
    of the block that it does not have, and that of the line that it has in its place, or 0."""
    place = 0
    for number, lines in parts:
        wanted = [indent + it if it else "" for it in lines]
        fits = [len(os.path.commonprefix([wanted, source[at : at + len(wanted)]])) for at in range(place, len(source))]
        best = max(fits, default=0)
        if best < len(wanted):
            return number + best, place + fits.index(best) + best + 1 if best else 0
        place += fits.index(best) + best
    return None


def clauses(page, tree):
    """The quoted clauses that no source has."""
    for at, code in page.spans:
        if code.startswith(("requires ", "ensures ")) and "NAME" not in code:
            pattern = re.compile(".*?".join(re.escape(it.strip()) for it in GAP.split(code)))
            if not any(map(pattern.search, tree.sources.values())):
                yield page.line(at), f"no .rt file has the clause `{code}`"


def links(page, tree):
    """The links that lead nowhere."""
    for found in LINK.finditer(page.plain):
        if re.match(r"[a-z][a-z0-9+.-]*:|//", found[1]):
            continue
        file, _, anchor = map(urllib.parse.unquote, found[1].partition("#"))
        path = posixpath.normpath(posixpath.join(page.folder, file)) if file else page.path
        line = page.line(found.start())
        if path != "." and path not in tree.paths:
            yield line, f"the link leads to {path}, which does not exist"
        elif anchor and path.endswith(".md") and anchor not in tree.page(path).anchors():
            yield line, f"`#{anchor}` is not a heading of {path}"


def files(page, tree):
    """The names of files that do not exist."""
    drawn = {line for line, _ in page.drawings()}
    for line, code in page.code():
        if line in drawn and not code.endswith(SUFFIXES) or "NAME" in code or ELSEWHERE.fullmatch(code):
            continue
        paths = posixpath.normpath(posixpath.join(page.folder, code)), posixpath.normpath(code)
        if is_path(code) and paths[0] not in tree.paths and paths[1] not in tree.endings:
            yield line, f"there is no file `{code}`"


def is_path(code):
    """Whether inline code looks like a path."""
    has_form = re.fullmatch(r"(?=.*[a-zA-Z])[\w.@+-]+(/[\w.@+-]+)*/?", code)
    return has_form and ("/" in code or code.endswith(SUFFIXES) and code not in SUFFIXES)


def functions(page, tree):
    """The names of functions that do not exist."""
    for at, code in page.spans:
        found = CALL.fullmatch(code)
        if not found or not found["path"] and not found["arguments"]:
            continue
        first, name = found["path"].partition("::")[0], found["name"]
        if first and first not in tree.modules or not first and OTHER_NAMES.fullmatch(name):
            continue
        if name not in tree.functions and not (first and name in tree.modules):
            yield page.line(at), f"there is no function `{name}`, which `{code}` names"


def names(page, tree):
    """The names that no file of the tree has."""
    for line, code in [] if page.path in (HISTORY, COMPARISON) else page.code():
        for name in [] if is_path(code) else NAME.findall(code):
            # (the prover joins two names for the `impl` of a trait for a type)
            joined = [(name[: it.start()], name[it.start() :]) for it in re.finditer(r"[A-Z]", name)]
            known = name in tree.names or any(a in tree.names and b in tree.names for a, b in joined)
            if not known and not OTHER_NAMES.fullmatch(name):
                yield line, f"no source has the name `{name}`"


def counts(page, tree):
    """The marked numbers that are not the tree's, and the numbers of tests and mutants without a mark."""
    for offset, comment in page.comments:
        if not comment.startswith("count"):
            continue
        line, found = page.line(offset), NUMBER.search(page.prose[:offset])
        name = re.sub(r"\Acount: ", "", comment)
        if name not in tree.counts:
            yield line, f"`<!-- {comment} -->` does not name a count"
        elif not found:
            yield line, f"there is no number before `<!-- {comment} -->`"
        else:
            text = found[1].replace(",", "").lower()
            if (int(text) if text.isdigit() else SPELLED.index(text)) != tree.counts[name]:
                yield line, f"{found[1]} is not the count of {name}, which is {tree.counts[name]:,}"
    for found in [] if page.path == HISTORY else UNMARKED.finditer(page.plain):
        number = " ".join(found[0].split())
        yield page.line(found.start()), f"'{number}' has no mark `<!-- count: NAME -->` after the number"


RULES = [samples, clauses, links, files, functions, names, counts]


def words(page):
    """How many words a page has, besides code blocks, comments, and what tools write."""
    if page.path == MADE:
        return 0
    text = "\n".join(it for it in page.source.split("\n") if not it.startswith('.\\"')) if page.is_manual else page.prose
    text = re.sub(r"<!-- made: .*? -->\n+(?:\|.*(?:\n|$))+", " ", text)
    return len(re.sub(r"(?s)<!--.*?-->", " ", text).split())


def too_long(tree):
    """Whether all pages have too many words, or the history has."""
    found = {it: words(tree.page(it)) for it in tree.pages()}
    history = found.pop(HISTORY, 0)
    if sum(found.values()) > TOTAL:
        yield "README.md", 1, f"the pages have {sum(found.values()):,} words, and may have {TOTAL:,}: tools/pages.py --words"
    if history > HISTORY_WORDS:
        yield HISTORY, 1, f"it has {history:,} words, and may have {HISTORY_WORDS:,}"


def print_words(tree):
    """Prints how many words each page has, and all."""
    found = {it: words(tree.page(it)) for it in tree.pages()}
    for path, number in found.items():
        print(f"{number:>7,} {path}")
    print(f"{sum(found.values()) - found.get(HISTORY, 0):>7,} without {HISTORY}, of {TOTAL:,}")


def check(root, named):
    """Checks the pages, and prints what is wrong, and how many checks passed and failed."""
    tree, results = Tree(root), []
    for path in named or tree.pages():
        if path in tree.files:
            results += [[(path, *it) for it in rule(tree.page(path), tree)] for rule in RULES]
        else:
            results.append([(path, 1, "there is no such page")])
    if not named:
        results.append([*families.disagreements(tree.text_or_none)])
        results.append([*sets.unlike_comments(tree.files, tree.text, tree.ways)])
        results.append([*inventories.missing(tree.files, tree.text)])
        results.append([*too_long(tree)])
    for path, line, message in sorted(it for wrong in results for it in wrong):
        print(f"{path}:{line}: {message}")
    print(f"{results.count([])} passed, {len(results) - results.count([])} failed")
    return 0 if results.count([]) == len(results) else 1


if __name__ == "__main__":
    if sys.argv[1:] == ["--words"]:
        sys.exit(print_words(Tree(ROOT)))
    sys.exit(__doc__ if any(it.startswith("-") for it in sys.argv[1:]) else check(ROOT, sys.argv[1:]))
