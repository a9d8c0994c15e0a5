"""The crates of crates.txt, and the words by which the toolchain checks them."""
import os
import re
import subprocess
import sys

from edits import functions_in

PARTS = ("src", "specs", "proofs")
# What a check over cut sources of all crates takes, in bytes.
MEMORY_OF_A_CHECK = 3_500_000_000


class Crate:
    def __init__(self, root, head, uses, crates, kit):
        name, *kind = head
        self.name, self.folder, self.kit = name, f"{root}/crates/{name}", kit
        self.line = f"{' '.join(head)}: {' '.join(uses)}"
        self.kind = ["--crate-type", *kind] if kind else []
        self.deps = [crates[it] for it in uses if it in crates]
        self.of_kit = ["std", *(it for it in uses if it not in crates)]
        self.rlib = f"{self.folder}/out/rlib/{name}.rlib"
        self.root = f"src/{'main' if os.path.isfile(f'{self.folder}/src/main.rt') else 'lib'}.rt"
        # a folder with sources to check crates above over, in the place of the proved library
        self.source = ""

    def below(self):
        """The repository's libraries below this crate, each after those that it uses."""
        found = []
        for dep in self.deps:
            found += [it for it in [*dep.below(), dep] if it not in found]
        return found

    def files(self):
        """The files of its parts, by their paths in its folder."""
        walked = [it for part in PARTS for it in os.walk(f"{self.folder}/{part}")]
        return sorted(os.path.relpath(f"{at}/{it}", self.folder) for at, _, files in walked for it in files)

    def is_built(self):
        """Whether its library is there, and was made or put there after the last change of its sources."""
        if not os.path.isfile(f"{self.rlib}/format"):
            return False
        changed = max((os.path.getmtime(f"{self.folder}/{it}") for it in self.files()), default=0)
        # (rt ci puts libraries of earlier runs there, whose time of change is that of a new link)
        return os.stat(f"{self.rlib}/format").st_ctime > changed

    def words(self):
        """The words of a check of this crate over the libraries below it: each proved, or the sources that it has in place
        of that."""
        kit = dict.fromkeys([*self.of_kit, *(it for lib in self.below() if lib.source for it in ["core", *lib.of_kit])])
        words = ["--crate-name", self.name, self.root]
        for name in kit:
            words += ["--extern", f"{name}={self.kit}/rlibs/{name}.rlib"]
        words += ["-L", f"dependency={self.kit}/rlibs"]
        for lib in self.below():
            words += lib.words_above(lib in self.deps or any(it.source and lib in it.deps for it in self.below()))
        words += ["--antt-project", f"{self.kit}/rattle/logic/antt-project.json"]
        return [*words, "--logic-built", f"{self.kit}/logic_built", *self.kind]

    def words_above(self, is_named):
        """The words by which a crate above is checked over this one, whether a crate of sources names it or not."""
        if self.source:
            uses = ",".join(dict.fromkeys(["core", *self.of_kit, *(it.name for it in self.deps)]))
            return ["--lib", f"{self.name}:{uses}={self.source}/src/lib.rt"]
        words = ["-L", f"dependency={os.path.dirname(self.rlib)}"]
        return [*words, "--extern", f"{self.name}={self.rlib}"] if is_named else words

    def read_functions(self):
        """Reads its sources, and the functions in them: {path: (file, function)}."""
        self.texts = self.texts_of("src")
        found = {file: functions_in(file, text) for file, text in self.texts.items()}
        self.functions = {path: (file, it) for file, functions in found.items() for path, it in functions.items()}

    def texts_of(self, part):
        """The texts of the files below a part of its folder, by their paths."""
        texts = {}
        for path in self.files():
            if path.startswith(f"{part}/"):
                with open(f"{self.folder}/{path}", encoding="utf-8") as file:
                    texts[path] = file.read()
        return texts


def crates_of(root, kit):
    """The crates of crates.txt, by name, each after those that it uses."""
    with open(f"{root}/crates.txt", encoding="utf-8") as file:
        lines = [it.partition("#")[0].strip() for it in file]
    rows = [(it.partition(":")[0].split(), it.partition(":")[2].split()) for it in lines if it]
    heads, listed = {head[0]: head for head, _ in rows}, {head[0]: uses for head, uses in rows}
    crates = {}
    while len(crates) < len(listed):
        ready = [it for it in listed if it not in crates and all(use in crates for use in listed[it] if use in listed)]
        if not ready:
            sys.exit("mutants: crates of crates.txt stand on one another in a ring")
        for name in ready:
            crates[name] = Crate(root, heads[name], listed[name], crates, kit)
    return crates


def lanes(jobs):
    """How many checks run at once: one a processor, as many as memory holds, and at most as many as asked for."""
    with open("/proc/meminfo", encoding="ascii") as file:
        memory = 1024 * int(re.search(r"MemAvailable:\s+(\d+)", file.read())[1])
    return max(1, min(len(os.sched_getaffinity(0)), memory // MEMORY_OF_A_CHECK, jobs or sys.maxsize))


def kit_folder():
    """The folder of the toolchain, which `rt doc` names."""
    page = subprocess.run(["rt", "doc"], stdout=subprocess.PIPE, text=True, check=True).stdout.strip()
    return os.path.dirname(page)
