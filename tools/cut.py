"""Copies of crates with cut bodies: a function that is not to be judged only calls one of C that is assumed to ensure `⊥`.

What is proved of a function rests on its own body and on contracts, types, definitions and constants, which stay. So a
check over such copies judges a function though nothing else is proved. A cut body meets any contract, so it is proved at
once, and not again by a later check with the same `--incremental`. The function of C is in no contract, and only cut bodies
call it. Theorems, functions with an empty body, are cut too. A `const fn` stays whole, since a type or a definition may
compute it, and so do tests. Lemmas stay, and a proof by hand stays with its function.
"""
import os
import re
import shutil

from edits import CYCLE, functions_in, module_of, text_of

BY_HAND = ("Answers.antt", "Invariants.antt", "Proof.antt")
MACRO = re.compile(r"( *)macro_rules! \w+ \{$")
STAYS = re.compile(r"\bconst (?:unsafe )?fn\b|#\[(?:cfg\(test\)|test)\]")
# The name of a declaration that is refused, since it is of no type.
NO_OFFERS = "no-offers"
# The module of the function that cut bodies call.
CUT_AWAY = """\
unsafe extern "C" {
    pub(crate) safe fn never()
        ensures { ⊥ };
}
"""


def cut_text(file, text, whole=()):
    """The text of a source file in which only the functions with these paths are whole."""
    lines = text.split("\n")
    macros = lines_of_macros(lines)
    for path, it in reversed(functions_in(file, text).items()):
        head = lines[it.head : it.opening + 1]
        if path in whole or it.opening in macros or STAYS.search("\n".join(head)):
            continue
        indent = lines[it.end][: -len(lines[it.end].lstrip())]
        body = [f"{indent}    crate::cut_away::never();", f"{indent}    unreachable!()", f"{indent}}}"]
        # what is cut calls nothing, so it is in no cycle
        above = [line for line in head[:-1] if not CYCLE.match(line)]
        lines[it.head : it.end + 1] = [*above, head[-1].removesuffix("}"), *body]
    return "\n".join(lines)


def lines_of_macros(lines):
    """The numbers of the lines in definitions of macros, whose text is that of functions elsewhere."""
    found, end = set(), None
    for number, line in enumerate(lines):
        start = MACRO.match(line)
        end = start[1] + "}" if start and end is None else end
        if end is not None:
            found.add(number)
            end = None if line == end else end
    return found


def folders_of(functions, whole):
    """The folders of proofs/ for the functions with these paths: each its own, and that of its cycle."""
    own = {it.replace("::", "/") for it in whole}
    cycles = {(module_of(file).replace("::", "/"), it.cycle) for file, it in map(functions.get, whole) if it.cycle}
    return own | {f"{module}/+{cycle}".lstrip("/") for module, cycle in cycles}


def with_cycles(functions, whole):
    """These paths of functions, with those that are proved together with them."""
    cycles = {(file, it.cycle) for file, it in map(functions.get, whole) if it.cycle}
    return {*whole, *(path for path, (file, it) in functions.items() if (file, it.cycle) in cycles)}


def cut_crate(crate, folder, texts=None, whole=()):
    """Writes a copy of the crate, with these texts in the place of its own, in which all bodies are cut but those of the
    functions with these paths. Returns the copy's functions: {path: (file, function)}."""
    texts, found, whole = texts or {}, {}, with_cycles(crate.functions, whole)
    folders = folders_of(crate.functions, whole)
    for path in dict.fromkeys([*crate.files(), *texts]):
        part, _, at = os.path.dirname(path).partition("/")
        is_by_hand = part == "proofs" and os.path.basename(path) in BY_HAND
        if is_by_hand and at not in folders and path not in texts:
            continue
        os.makedirs(os.path.dirname(f"{folder}/{path}"), exist_ok=True)
        if not path.endswith(".rt") and path not in texts:
            shutil.copy(f"{crate.folder}/{path}", f"{folder}/{path}")
            continue
        text = texts[path] if path in texts else text_of(crate.folder, path)
        if part == "src":
            text = cut_text(path, text, whole)
            found |= {name: (path, it) for name, it in functions_in(path, text).items()}
        if path == crate.root:
            text += "mod cut_away;\n"
            write(f"{folder}/src/cut_away.rt", CUT_AWAY)
        write(f"{folder}/{path}", text)
    return found


def without_offers(crate, seats, texts):
    """The texts of the files that have answers by hand for these functions, as they are or as these texts have them, each
    with a declaration that is refused: so a check does not offer files for what it refuses, which takes as long again."""
    found, whole = {}, with_cycles(crate.functions, seats)
    # (functions of a cycle have one folder)
    own = {it.replace("::", "/") for it in whole if crate.functions[it][1].cycle}
    for folder in sorted(folders_of(crate.functions, whole) - own):
        path, by_hand = f"proofs/{folder}/Answers.antt", f"{crate.folder}/proofs/{folder}/Proof.antt"
        if not os.path.isfile(by_hand):
            is_there = path in texts or os.path.isfile(f"{crate.folder}/{path}")
            found[path] = (texts.get(path) or text_of(crate.folder, path)) + "\n" if is_there else ""
            found[path] += f"{NO_OFFERS} : {NO_OFFERS}\n{NO_OFFERS} = {NO_OFFERS}\n"
    return found


def write(path, text):
    with open(path, "w", encoding="utf-8") as file:
        file.write(text)


def without_answers(crate, goals):
    """The texts of the files that have answers by hand for these goals, {path of a function: goals}, without the answers."""
    listed, texts = {}, {}
    for seat, names in goals.items():
        for folder in folders_of(crate.functions, [seat]):
            listed.setdefault(f"proofs/{folder}/Answers.antt", set()).update(names)
    for path, names in listed.items():
        if os.path.isfile(f"{crate.folder}/{path}"):
            answer = re.compile(rf"(?:--.*\n)*pub (?:{'|'.join(map(re.escape, sorted(names)))}) :")
            parts = text_of(crate.folder, path).split("\n\n")
            left = [it for it in parts if not answer.match(it)]
            if left != parts:
                texts[path] = "\n\n".join(left)
    return texts
