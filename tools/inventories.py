"""Pages that list all of something, compared with the sources: a name that they lack is an error.

A list of LISTS is a page, the files that have the names, as a regular expression of their paths, and a pattern whose first
group is a name. In PLACES, the first group of the expression is a name itself. A name is on the page if it is there as a
word. TRUSTED has each crate of the kit that crates.txt names. VERSIONED has the files that state the version of nlroute.h,
each with a pattern around it. USED has the page that says how nlshow is used, and the definition with which its usage text is
compared in a contract.
"""
import re

LISTS = [
    ("docs/ARCHITECTURE.md", r"crates\.txt", r"^(\w+)[^:\n#]*:", "crate"),
    ("CONTRIBUTING.md", r"\.ci/run", r"^ *part (?:(?:tools|extra)/)?([\w.]+)", "part of CI"),
    ("docs/rattle.md", r"crates/link_messages/src/(?!laws).*\.rt", r"^pub fn (\w+)", "function"),
    ("docs/programs.md", r"crates/show_lines/src/replies\.rt", r"^  (?:-\w, )?--(\w+)", "option of nlshow"),
    ("docs/nlshow.1", r"crates/show_lines/src/replies\.rt", r"^  (?:-\w, )?--(\w+)", "option of nlshow"),
]
PLACES = [
    ("docs/ARCHITECTURE.md", r"runs/(\w+)/.+", "folder of runs"),
    ("CONTRIBUTING.md", r"tools/([\w.]+)", "file"),
    ("CONTRIBUTING.md", r"extra/([\w.]+)(?:/.+)?", "file or folder"),
    ("bench/README.md", r"bench/(?!README)([\w.]+)(?:/.+)?", "file or folder"),
]
TRUSTED = "docs/proofs/ASSURANCE.md"
HEADER = "crates/nlroute_ffi/include/nlroute.h"
VERSIONED = [
    ("README.md", "Version: {}[,.]"),
    ("CHANGELOG.md", "## {}"),
    ("bindings/rust/Cargo.toml", 'version = "{}"'),
    ("bindings/python/pyproject.toml", 'version = "{}"'),
    ("crates/show_lines/src/replies.rt", '"nlshow {}\\\\n"'),
]
USED = ("docs/programs.md", "crates/show_lines/specs/Arguments.antt")


def words_on(page):
    """The words of a page, with and without the ends that follow a point."""
    return {*re.findall(r"[\w.]+\w", page)} | {*re.findall(r"\w+", page)}


def kit_crates(text):
    """The crates of the kit that crates.txt names: those that no line of it begins with."""
    lines = [it.partition("#")[0].partition(":") for it in text.splitlines()]
    own = {head.split()[0] for head, colon, _ in lines if colon}
    return {name for _, _, rest in lines for name in rest.split()} - own


def names_of(files, text_of):
    """What pages have to name: the page, what it is, and the names."""
    for page, sources, pattern, what in LISTS:
        texts = [text_of(it) for it in files if re.fullmatch(sources, it)]
        yield page, what, {it for text in texts for it in re.findall(pattern, text, re.MULTILINE)}
    for page, places, what in PLACES:
        yield page, what, {found[1] for found in (re.fullmatch(places, it) for it in files) if found}
    yield TRUSTED, "crate of the kit", kit_crates(text_of("crates.txt") if "crates.txt" in files else "")


def missing(files, text_of):
    """What the pages lack: path, line and message. `files` has all paths, and `text_of` gives the text of a file."""
    for page, what, names in names_of(files, text_of):
        for name in sorted(names - words_on(text_of(page))) if page in files else ():
            yield page, 1, f"it lacks the {what} {name}"
    found = re.search(r"#define NLROUTE_VERSION 0x(\w\w)(\w\w)(\w\w)u", text_of(HEADER)) if HEADER in files else None
    version = ".".join(str(int(it, 16)) for it in found.groups()) if found else ""
    for path, pattern in VERSIONED if version else []:
        if path in files and not re.search(pattern.format(re.escape(version)), text_of(path)):
            yield path, 1, f"it does not have the version of nlroute.h, {version}"
    page, definition = USED
    usage = re.search(r'usage_line = codes "usage: (.*?) \| (.*)"', text_of(definition)) if definition in files else None
    if usage and page in files and f"\n{usage[1]}\nnlshow {usage[2]}\n" not in text_of(page):
        yield page, 1, f"it does not say how nlshow is used: {usage[1]} | {usage[2]}"
    for path in ("bindings/python/LICENSE", "bindings/rust/LICENSE"):
        if path in files and text_of(path) != text_of("LICENSE"):
            yield path, 1, "it is not the LICENSE of the repository"
