"""Edits of the code, the files that hold them, and the functions that they change.

A file mutants.edits has a heading `## NAME` for each mutant, and below it the lines of its edit. Each is a line `file:`,
`old:`, `new:`, `goal:` or `at:` with a text, or a blank one.

A source file is read by the layout that `rt fmt` gives it: a function's body is between a line that ends in `{` and a
line that is `}`, both indented as the line of its `fn`, or is a line `{}` indented so.
"""
import os
import re

FN = re.compile(r'( *)(?:pub(?:\([^)]*\))? |const |unsafe |extern "C" )*fn (\w+)')
ENSURES = re.compile(r" +ensures\b")
CYCLE = re.compile(r" *#\[cycle\((\w+)\)\]")
BLOCK = re.compile(r"( *)(?:pub(?:\([^)]*\))? |unsafe )*(impl|trait|mod)\b(.*)")
HEADING = re.compile(r"## ([A-Za-z0-9_-]+)")
EDIT_LINE = re.compile(r"(?:file|goal|at): \S+$|old: .|new:(?: |$)")


class EditError(Exception):
    """Why an edit cannot be read or applied."""


def entries_of(text):
    """The mutants of a file mutants.edits: [(line, name, edit, what is wrong with them)]."""
    found, lines = [], {}
    for number, line in enumerate(text.split("\n"), 1):
        if line.startswith("##") or line.strip() and not found:
            name = HEADING.fullmatch(line)
            wrong = "" if name else "this is no heading '## NAME', with letters, digits, _ and - in its name"
            if name and name[1] in lines:
                wrong = f"line {lines[name[1]]} has the same heading"
            found.append([number, name[1] if name else "", "", wrong])
            lines.setdefault(found[-1][1], number)
        elif line.strip():
            found[-1][2] += f"{line}\n"
            if not EDIT_LINE.match(line):
                why = f"line {number} is no line 'file:', 'old:', 'new:', 'goal:' or 'at:' with a text"
                found[-1][3] = found[-1][3] or why
    return found or [[1, "", "", "the file has no mutant"]]


def values_of(edit, word):
    """The texts of an edit's lines that begin with a word, as in `at: TEXT`."""
    return re.findall(rf"^{word}: (\S+)$", edit, re.MULTILINE)


def edited_texts(edit, folder, before=None):
    """The texts of the files that the edit changes, by their path in the folder of the crate, and of those that edits
    before it changed."""
    path, old, pairs, texts = "", None, 0, dict(before or {})
    for line in edit.split("\n"):
        word, _, rest = line.partition(":")
        rest = rest.removeprefix(" ")
        if old is not None and word != "new":
            raise EditError("an 'old:' line has no 'new:' line")
        if word == "file":
            path = rest.strip()
            if os.path.normpath(path) != path or not path.startswith(("src/", "specs/", "proofs/")):
                raise EditError("a 'file:' line names no file below src/, specs/ or proofs/")
            if path not in texts:
                texts[path] = text_of(folder, path)
        elif word == "old":
            old = rest
        elif word == "new":
            if not path or not old:
                raise EditError("a 'new:' line is before any 'file:' or 'old:' line")
            found = texts[path].count(old)
            if found != 1:
                raise EditError(f"its old text is in {path} {found} times, and not once: adapt or drop the edit")
            if old.endswith("{") and rest.startswith(old):
                # what is first in a body takes a line of its own
                rest = f"{old}\n{rest[len(old) :]}"
            texts[path], old, pairs = texts[path].replace(old, rest), None, pairs + 1
    if not pairs:
        raise EditError("it has no 'old:' and 'new:' pair")
    return texts


def text_of(folder, path):
    if not os.path.isfile(f"{folder}/{path}"):
        raise EditError(f"there is no file {path}")
    with open(f"{folder}/{path}", encoding="utf-8") as file:
        return file.read()


class Function:
    """A function with a body: the lines where its attributes begin and its body opens and ends, counted from 0. It is a law
    if it does nothing and ensures something: its contract is a theorem. Functions with one `cycle` have one proof."""

    def __init__(self, blocks, name, head, opening, end, lines):
        self.blocks, self.name, self.head, self.opening, self.end = blocks, name, head, opening, end
        self.lines = lines[opening + 1 : end]
        self.is_law = opening == end and any(ENSURES.match(it) for it in lines[head:opening])
        self.cycle = next((it[1] for it in map(CYCLE.match, lines[head:opening]) if it), "")

    def has_line(self, number):
        """Whether a line, counted from 1, is one of its own."""
        return self.head < number <= self.end + 1

    def path(self, file):
        """Its name as a check prints it, below the crate: module, type and trait, function."""
        return "::".join(it for it in [module_of(file), *self.blocks, self.name] if it)


def module_of(file):
    """The module of a source file, or '' for the root and for what is no source file."""
    inside = re.fullmatch(r"src/(.*?)(/mod)?\.rt", file)
    return "" if not inside or inside[1] in ("lib", "main") else inside[1].replace("/", "::")


def functions_in(file, text):
    """The functions of a source file by their paths."""
    return {it.path(file): it for it in functions_of(text)}


def functions_of(text):
    """The functions with a body, in their order. A function inside another one belongs to its body."""
    lines, found, blocks, at = text.split("\n"), [], [], 0
    while at < len(lines):
        line = lines[at]
        fn, block = FN.match(line), BLOCK.match(line)
        if blocks and line == blocks[-1][0] + "}":
            blocks.pop()
        elif fn:
            opening = opening_of(lines, at, fn[1])
            end = end_of(lines, opening, fn[1]) if opening is not None else None
            if end is not None:
                found.append(Function([it for _, it in blocks], fn[2], top_of(lines, at), opening, end, lines))
                at = end
        elif block:
            opening = opening_of(lines, at, block[1])
            if opening is not None:
                blocks.append((block[1], block_name(block[2], " ".join(lines[at : opening + 1]))))
                at = opening
        at += 1
    return found


def opening_of(lines, at, indent):
    """The first line from there, indented so, that ends an item's head, if that opens a body."""
    depth = 0
    for number in range(at, len(lines)):
        line = lines[number]
        is_deeper = line.startswith(indent + " ")
        # (a clause may have lines of its own that end in a semicolon)
        depth += line.count("{") - line.count("}")
        if line.endswith(";") and not depth or line.endswith(("{", "}")) and not is_deeper:
            return number if line.endswith("{") or line == indent + "{}" else None
    return None


def top_of(lines, at):
    """The first line of the comments and attributes above an item: a refusal is told at the first attribute."""
    while at and lines[at - 1].strip() and not lines[at - 1].endswith(("{", "}", ";")):
        at -= 1
    return at


def end_of(lines, opening, indent):
    if lines[opening] == indent + "{}":
        return opening
    return next((it for it in range(opening + 1, len(lines)) if lines[it] == indent + "}"), None)


def block_name(kind, header):
    """How a check names an impl, a trait or a module: an impl of a trait by type and trait, as U16FromLength. Its
    parameters have no part in that, unless one is the whole type: Any."""
    head = re.split(r"\bwhere\b|\{", header, maxsplit=1)[0]
    head = head[re.search(rf"\b{kind}\b", head).end() :]
    if kind != "impl":
        return re.match(r"\s*(\w+)", head)[1]
    listed, head = parameters_and_rest(head)
    own = {re.match(r"(?:const\s+)?('?\w+)", it)[1] for it in listed}
    trait, is_of_trait, of = head.rpartition(" for ")
    if is_of_trait:
        return (type_name(of, own) or "Any") + type_name(trait, own)
    base, _, arguments = of.partition("<")
    listed = [it for it in parts_of(arguments.strip().removesuffix(">")) if not it.startswith("'")]
    # (one of a type with these very arguments)
    words = [] if all(it in own for it in listed) else re.findall(r"(?<!')\b\w+", " ".join(listed))
    return "+".join([type_name(base, own), *words])


def parameters_and_rest(head):
    """The parameters of an impl, as `A: Trait` of `<A: Trait>`, and its head without them."""
    if not head.startswith("<"):
        return [], head
    depth = 0
    for at, letter in enumerate(head):
        depth += (letter == "<") - (letter == ">" and head[at - 1] != "-")
        if not depth:
            return parts_of(head[1:at]), head[at + 1 :]
    return [], head


def parts_of(listed):
    """The types of a list, which commas part. One inside a type parts nothing."""
    parts, depth = [""], 0
    for at, letter in enumerate(listed):
        depth += (letter in "<([") - (letter in ")]" or letter == ">" and listed[at - 1] != "-")
        if letter == "," and not depth:
            parts.append("")
        else:
            parts[-1] += letter
    return [it.strip() for it in parts if it.strip()]


def type_name(written, own):
    """A type's last name, with a capital, and the names of its arguments. `&[u8]` is RefSliceU8, `(u8, u8)` Tuple2U8U8. One
    of an impl's own parameters has no name."""
    written = written.strip()
    reference = re.match(r"&\s*(?:'\w+\s+)?(mut\s+)?", written)
    if reference:
        return ("RefMut" if reference[1] else "Ref") + type_name(written[reference.end() :], own)
    if written.startswith("["):
        element, _, length = written.strip("[]").partition(";")
        return ("Array" if length else "Slice") + type_name(element, own) + type_name(length, own)
    if written.startswith("("):
        parts = parts_of(written[1:-1])
        return f"Tuple{len(parts)}{''.join(type_name(it, own) for it in parts)}" if parts else "Unit"
    if written in own:
        return ""
    base, _, arguments = written.partition("<")
    last = base.split("::")[-1].strip()
    arguments = parts_of(arguments.strip().removesuffix(">"))
    return last[:1].upper() + last[1:] + "".join(type_name(it, own) for it in arguments if not it.startswith("'"))
