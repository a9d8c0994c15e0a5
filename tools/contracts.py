"""The contracts of the public functions of a crate, and the rows of attribute sets: tools/made.py prints them.

A line of contracts has a function, a clause, or – if it has no name, and what it says, as the source has it; conditions have
`requires` before the name. A function of a public trait is public. Of an `impl` of a trait, there are only the clauses and
definitions that it adds. A function without a clause has a line that says so. Macros that write functions are left out.

A row has the number of an attribute type, its name in the kernel, the variant, and its payloads, as the table in specs/ has
them, with their quantity, and the way they are sent.
"""
import re

COLUMNS = 140
ITEM = re.compile(r"^(?P<head>(?:pub )?(?:trait|impl)\b[^{;]*)\{\n(?P<body>(?:.*\n)*?)\}$", re.MULTILINE)
HEAD = re.compile(r"(?P<public>pub )?(?P<what>trait|impl)(?:<(?:[^<>]|<[^<>]*>)*>)? (?:(?P<of>[^{]*?) for )?(?P<name>[^{]*)")
FUNCTION = re.compile(r"^(?P<above> *)(?P<public>pub )?(?:const )?(?:extern \"C\" )?fn (?P<name>\w+)", re.MULTILINE)
GHOST = re.compile(r"^    ghost (?P<name>\w+)(?P<sign>:| =) \{ (?P<says>(?:[^{}]|\{[^{}]*\})*?),? \};", re.MULTILINE)
CLAUSE = re.compile(r"\b(?P<what>requires|ensures)(?P<hidden>\*?) (?P<name>\w* ?)\{ ")
# What a ghost item of a trait says if it is a theorem: in an `impl`, the item is its proof.
THEOREM = re.compile(r"\((?:\w+ )+:|(?:Is|Are|All)[A-Z]|.*≡|Self\.exact$")


def clauses(text):
    """The clauses of a function, from its text: names, or –, and what they say."""
    head, found, place = " ".join(text.split()), [], 0
    while it := CLAUSE.search(head, place):
        # (an opening brace that no clause has begins the body)
        if "{" in head[place : it.start()]:
            break
        end, depth = it.end(), 1
        while depth:
            depth += {"{": 1, "}": -1}.get(head[end], 0)
            end += 1
        place = end
        name = " ".join(["requires"] * (it["what"] == "requires") + it["name"].split())
        found += [] if it["hidden"] else [(name or "–", head[it.end() : end - 1].strip().rstrip(","))]
    return found


def functions(text, public):
    """The functions in the text of an item or a file, and whether each is public: names and clauses."""
    found = [*FUNCTION.finditer(text)]
    for it, end in zip(found, [*(it.start() for it in found[1:]), len(text)]):
        if public or it["public"]:
            yield it["name"], clauses(text[it.start() : end])


def theorems(texts):
    """The names of the theorems that traits of these sources require."""
    bodies = [it["body"] for text in texts for it in ITEM.finditer(text) if it["head"].startswith("pub trait")]
    ghosts = [it for body in bodies for it in GHOST.finditer(body)]
    return {it["name"] for it in ghosts if it["sign"] == ":" and THEOREM.match(it["says"])}


def owned(item, proofs):
    """What an item with functions adds: the whole name of each function or type, and its clauses."""
    head = HEAD.match(" ".join(item["head"].split()))
    is_trait, of = head["what"] == "trait", head["of"]
    name = re.match(r"(?:\w+::)*\w+|.*", head["name"].lstrip("&'_ "))[0]
    ghosts = [(it["name"], " ".join(it["says"].split())) for it in GHOST.finditer(item["body"])]
    shown = ghosts if is_trait and head["public"] else [it for it in ghosts if not is_trait and it[0] not in proofs]
    if shown:
        yield f"{name} as {of}" if of else name, shown
    for function, found in functions(item["body"], bool(of) or is_trait and bool(head["public"])):
        if found or not of:
            yield f"{name}::{function}", found


def of_file(text, proofs):
    """The public functions and types of a source, in order, with their clauses."""
    text = re.sub(r"^ *//.*\n|#\[.*\]\n|^macro_rules! (?:.*\n)*?\}$", "", text, flags=re.MULTILINE)
    found = [(it.start(), row) for it in ITEM.finditer(text) for row in owned(it, proofs)]
    rest = ITEM.sub(lambda it: re.sub(r"[^\n]", " ", it[0]), text)
    places = {it["name"]: it.start() for it in FUNCTION.finditer(rest)}
    found += [(places[name], (name, rows)) for name, rows in functions(rest, False)]
    return [row for _, row in sorted(found, key=lambda it: it[0])]


def sources(tree, crate):
    """The paths of the sources of a crate, without tests."""
    return sorted(it for it in tree.files if re.fullmatch(rf"crates/{crate}/src/(?!.*\btests\b).*\.rt", it))


def broken(text, width):
    """A promise in lines of at most this width, broken where the fewest brackets are open; the first is longer by two."""
    depths = [text[:at].count("(") - text[:at].count(")") for at in range(len(text))]
    start, limit = 0, width
    while len(text) - start > limit:
        spaces = [at for at in range(start + limit // 2, start + limit + 1) if text[at] == " "]
        end = min(spaces, key=lambda at: (depths[at], -at), default=text.find(" ", start + limit))
        if end < 0:
            break
        yield text[start:end]
        start, limit = end + 1, width - 2
    yield text[start:]


def table(rows):
    """The lines of functions and their clauses."""
    rows = [(name, found or [("", "no clause")]) for name, found in rows]
    first = min(max(len(name) for name, _ in rows), 48) + 2
    second = max(len(clause) for _, found in rows for clause, _ in found) + 2
    for name, found in rows:
        for clause, promise in found:
            if len(name) > first - 2:
                yield name
                name = ""
            line, *others = broken(promise, COLUMNS - first - second)
            yield f"{name:<{first}}{clause:<{second}}{line}"
            yield from (" " * (first + second + 2) + it for it in others)
            name = ""


def claims(tree, crate):
    """The lines of the contracts of a crate, or a ValueError if there is none of this name."""
    proofs = theorems(tree.text(it) for it in sources(tree, r"\w+"))
    found = [(it, of_file(tree.text(it), proofs)) for it in sources(tree, crate)]
    if not any(rows for _, rows in found):
        raise ValueError(f"there is no crate {crate} with public functions")
    for path, rows in found:
        if rows:
            yield f"-- {path.partition('/')[2]}"
            yield from table(rows)
            yield ""


def without_clause(tree, crate):
    """The names of the public functions of a crate that have no clause."""
    return [name for it in sources(tree, crate) for name, found in of_file(tree.text(it), []) if not found]


def rows(tree, named):
    """The lines of the rows of all tables, or of those of these attribute sets, with the lists in them; or a ValueError if
    there is none."""
    parts = (it.split() for it in tree.rows)
    variants = {(number, name): variant for number, name, variant, *_ in parts}
    tables = {
        table: [(number, name, variants.get((number, name), "–"), shape, unit) for number, (name, unit, shape) in found.items()]
        for table, found in tree.tables.items()
        if any((number, name) in variants for number, (name, *_) in found.items())
    }
    wanted = dict.fromkeys(it for it in sorted(tables) if not named or re.sub(r"_(table|rows)$", "", it) in named)
    lists = [word for table in wanted for *_, shape, _ in tables[table] for word in shape.split() if word in tables]
    wanted |= dict.fromkeys(lists)
    if not wanted:
        raise ValueError(f"there is no attribute set {' '.join(named)}")
    for table in wanted:
        yield table
        widths = [max(len(row[at]) for row in tables[table]) for at in range(3)]
        for number, name, variant, shape, unit in tables[table]:
            way = tree.ways.get(table, {}).get(name, "")
            more = f" as {unit}" * bool(unit) + f", {way}" * bool(way)
            yield f"{number:>{widths[0]}}  {name:<{widths[1]}}  {variant:<{widths[2]}}  {shape}{more}"
        yield ""
