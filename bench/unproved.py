#!/usr/bin/env python3
"""unproved.py [FOLDER [OBJECT]]: builds a static library or a program without proofs, to measure or try code before it is proved. FOLDER is bench/calls,
the default, or a static library or a program of crates.txt, as crates/nlroute_ffi. The result is bench/out/libNAME.a or bench/out/NAME. Use it for nothing
else: nothing shows that it does what it should. `tools/install.sh --fast` installs such builds. With OBJECT, the result is this object file, with the counters
of libFuzzer; so extra/fuzz/run.sh builds extra/fuzz/views.

`rt lib` and `rt run` build only what is proved. `rt try` compiles a program without proofs, but with checks, and `rt try --test` what the tests reach. So
this runs it on a copy of the repository, with a copy of the kit, made of links, whose clang keeps the LLVM module and stops. From the module it removes the
checks and what only they use, the marks of memory that is not yet written, and what is there for the sanitizer. It adds the hints on inlining, which `rt try` leaves out, from the
sources, and the processor that a proved module names. Then the kit's clang compiles the module as it is said to compile a proved one, at -O3. bench/README.md has how far the instructions differ from those of `rt lib`."""
import collections, glob, os, re, shutil, subprocess, sys, tempfile
here = os.path.dirname(os.path.abspath(__file__))
top = os.path.dirname(here)
# The line of crates.txt of a crate outside crates, such as bench/calls. Its name, bench_calls, is the end of its path.
LINE = "{} staticlib: link_base netlink_packet_route\n"
# What LLVM calls the hints on inlining.
HINTS = {"inline": "inlinehint", "inline(always)": "alwaysinline", "inline(never)": "noinline", "cold": "cold"}
# A line of a module that only checks: calls of what `rt try` adds, and a write over memory that is not yet written.
CHECK = re.compile(r'  call void (@"rattle-(llvm-checks::|try::site-)|@llvm\.memset\S+\(ptr %\w+, i8 -86,)')
# What only the checks that were removed use: two arms without code, stores to a variable that is never read, and results. A proved module has none. LLVM
# removes them too, but later: until then, they keep variables in memory.
ARMS = re.compile(r"  br i1 %r\d+, label %(then\.\d+), label %(else\.\d+)\n\n\1: [^\n]*\n  br label %(join\.\d+)\n\n\2: [^\n]*\n  br label %\3\n\n\3: [^\n]*\n")
STORE = re.compile(r"  store \S+ \S+, ptr (%r\d+),")
RESULT = re.compile(r"  (%r\d+) = (alloca|ptrtoaddr|getelementptr|load(?! atomic| volatile)|and|or|xor|add|sub|icmp|zext|trunc) ")
ATTRIBUTES = re.compile(r'sanitize_address|"frame-pointer"="all"|"stack-probe-size"="\d+"')
FLAGS = "-march=x86-64 -ffunction-sections -fdata-sections --no-default-config -fPIC -O3".split() + [
    word for it in ("no-trap-after-noreturn", "trap-unreachable", "no-x86-call-frame-opt", "disable-machine-licm", "disable-postra-machine-licm",
                    "sink-common-insts=false") for word in ("-mllvm", f"-{it}")]


def after_brackets(text):
    """What follows the <..> that the text begins with, if it does."""
    depth = 0
    for at, it in enumerate(text):
        depth += (it == "<") - (it == ">" and text[at - 1] != "-")
        if not depth: return text[at + (it == ">"):].strip()
    return text


def owner(head):
    """What the names of an impl's functions have in front: the type, and the trait if there is one."""
    text = after_brackets(head.strip())
    parameters = re.findall(r"[<,]\s*(?:const )?(\w+)", head[:len(head) - len(text)])
    text = re.split(r"\bwhere\b", text)[0]
    parts = re.fullmatch(r"(.*?)\bfor\b(.*)", text, re.S)
    def name(of):
        of = re.sub(r"^&('\w+ )?(mut )?", "", of.strip())
        if of.startswith("["): return "slice+" + re.match(r"\[(\w*)", of)[1]
        of = re.match(r"[\w:]*", of)[0].split("::")[-1]
        return "Any" if of in parameters else of
    # (of a number's type, the first letter is a capital only before a trait)
    return name(parts[2])[:1].upper() + name(parts[2])[1:] + name(parts[1]) if parts else name(text)


def hints_of(folders):
    """The hints on inlining of each function, by its path, and by trait and name for what a trait gives."""
    found = {}
    for crate, folder in folders.items():
        for file in glob.glob(f"{folder}/**/*.rt", recursive=True):
            path = [crate, *os.path.relpath(file, folder)[:-3].split("/")]
            if path[-1] in ("lib", "main", "mod"): path.pop()
            now, trait, hints, text = "", "", [], open(file).read()
            for line in re.finditer(r"(?m)^.*$", text):
                it = line[0]
                head = re.match(r"(?:pub(?:\(\w+\))? )?(?:unsafe )?(impl\b|trait (\w+))", it)
                if head:
                    trait = head[2] or ""
                    now = trait or owner(text[line.start() + head.end():text.index("{", line.start())])
                elif it == "}": now = trait = ""
                mark = re.match(r"\s*#\[(inline(?:\(\w+\))?|cold)\]", it)
                if mark: hints.append(HINTS[mark[1]])
                name = re.match(r"\s*(?:pub(?:\([\w ]+\))? )?(?:const )?(?:unsafe )?(?:extern \"C\" )?fn (\w+)", it)
                if name:
                    found["::".join([*path, *[now] * bool(now), name[1]])] = hints
                    if trait: found[trait, name[1]] = hints
                if name or (it.strip() and not it.strip().startswith(("#", "//"))): hints = []
    return found


def hints_for(found, traits, symbol):
    name = symbol.partition("::<")[0]
    if name in found or "::fn::" in name: return found.get(name, [])
    *_, owner, function = ["", *name.split("::")][-2:]
    return next((found[it, function] for it in traits if owner.endswith(it) and (it, function) in found), [])


def converted(module, crate, exports, found):
    """The lines of the module as those of a library that exports these functions, or of a program if there are none."""
    traits = {it[0] for it in found if type(it) is tuple}
    of_export = re.compile(rf'@"{crate}::(?:\w+::)*({"|".join(exports)})"\(')
    for line in module:
        if CHECK.match(line): continue
        line = of_export.sub(r"@\1(", line)
        if line.startswith("define "):
            symbol = re.search(r'@"([^"]*)"\(', line)
            if symbol: line = line.replace(" #0 {", " ".join([" #0", *hints_for(found, traits, symbol[1]), "{"]))
            if "@main(" in line: line = line.replace("define ", "define internal ") if exports else line
            elif not symbol: line = line.replace("define internal ", "define ")
        if line.startswith("attributes #"):
            line = ATTRIBUTES.sub("", line).replace('"target-cpu"="x86-64"', '"target-cpu"="x86-64-v2"')
            if re.search(r"\{\s*\}", line): line = line.replace("{", "{ nounwind")
        yield line


def without_unused(lines):
    """The text of a module without what only the removed checks use."""
    text = "".join(lines)
    for function in re.split(r"(?ms)^(define .*?^}\n)", text):
        if function.startswith("define "):
            while True:
                before, function = function, ARMS.sub("", function)
                if function == before: break
            body = function.splitlines(keepends=True)
            while True:
                names = collections.Counter(re.findall(r"%r\d+\b", "".join(body)))
                stores = collections.Counter(it[1] for it in map(STORE.match, body) if it)
                unread = {it[1] for it in map(RESULT.match, body) if it and it[2] == "alloca" and names[it[1]] == 1 + stores[it[1]]}
                used = [it for it in body if not ((made := RESULT.match(it)) and names[made[1]] == 1 or (made := STORE.match(it)) and made[1] in unread)]
                if len(used) == len(body): break
                body = used
            function = "".join(body)
        yield function


def module_of(room, kit, folder):
    """The LLVM module of the program, or of what the tests of the crate reach, as text."""
    os.makedirs(f"{room}/kit/toolchain/bin")
    for it in os.listdir(kit):
        if it == "bin": shutil.copytree(f"{kit}/bin", f"{room}/kit/bin")
        elif it != "toolchain": os.symlink(f"{kit}/{it}", f"{room}/kit/{it}")
    os.symlink(f"{kit}/toolchain/lib", f"{room}/kit/toolchain/lib")
    for it in os.listdir(f"{kit}/toolchain/bin"):
        if it != "clang": os.symlink(f"{kit}/toolchain/bin/{it}", f"{room}/kit/toolchain/bin/{it}")
    clang = f"{room}/kit/toolchain/bin/clang"
    with open(clang, "w") as it:
        it.write(f"""#!/bin/sh
case " $* " in
*" -x ir module.bc "*" -fsanitize=address "*) cp module.bc '{room}/module.bc'; exit 1 ;;
esac
exec '{kit}/toolchain/bin/clang' "$@"
""")
    os.chmod(clang, 0o755)
    tests = ["--test"] * (not os.path.exists(f"{folder}/src/main.rt"))
    ran = subprocess.run([f"{room}/kit/bin/rt", "try", *tests], cwd=folder, stdin=subprocess.DEVNULL, stdout=subprocess.PIPE, stderr=subprocess.STDOUT, text=True)
    if not os.path.exists(f"{room}/module.bc"): sys.exit(f"{ran.stdout}\nunproved.py: there is no module")
    subprocess.run([f"{kit}/toolchain/bin/clang", "-x", "ir", f"{room}/module.bc", "-S", "-emit-llvm", "-Xclang", "-disable-llvm-passes", "-o", f"{room}/module.ll"], check=True)
    return open(f"{room}/module.ll")


def main(folder=f"{here}/calls", counted=None):
    kit = os.path.dirname(subprocess.run(["rt", "doc"], capture_output=True, text=True, check=True).stdout.strip())
    folder = os.path.abspath(folder)
    is_outside = os.path.dirname(folder) != f"{top}/crates"
    crate = "_".join(folder.split("/")[-2:]) if is_outside else os.path.basename(folder)
    with tempfile.TemporaryDirectory() as room:
        copy = f"{room}/repository"
        shutil.copytree(f"{top}/crates", f"{copy}/crates", ignore=shutil.ignore_patterns("out"))
        shutil.copy(f"{top}/crates.txt", copy)
        if is_outside:
            with open(f"{copy}/crates.txt", "a") as it: it.write(LINE.format(crate))
            os.makedirs(f"{copy}/crates/{crate}/src")
            for it in glob.glob(f"{folder}/*.rs"):
                shutil.copy(it, f"{copy}/crates/{crate}/src/{os.path.basename(it)[:-3]}.rt")
        module = module_of(room, kit, f"{copy}/crates/{crate}")
        folders = {os.path.basename(it): f"{it}/src" for it in [*glob.glob(f"{kit}/rattle/*"), *glob.glob(f"{copy}/crates/*")]}
        sources = "".join(open(it).read() for it in glob.glob(f"{folders[crate]}/**/*.rt", recursive=True))
        exports = re.findall(r'#\[unsafe\(no_mangle\)\]\s*pub extern "C" fn (\w+)', sources)
        with open(f"{room}/library.ll", "w") as it: it.writelines(without_unused(converted(module, crate, exports, hints_of(folders))))
        def compiled(made, *more):
            subprocess.run([f"{kit}/toolchain/bin/clang", *FLAGS, *more, "-c", "-x", "ir", f"{room}/library.ll", "-o", made], check=True)
        if counted: return compiled(counted, "-fsanitize=fuzzer-no-link")
        os.makedirs(f"{here}/out", exist_ok=True)
        made = f"{here}/out/" + (f"lib{crate}.a" if exports else crate)
        compiled(f"{room}/library.o")
        if os.path.exists(made): os.remove(made)
        if exports: words = [f"{kit}/toolchain/bin/llvm-ar", "--format=gnu", "rc", made, f"{room}/library.o"]
        else:
            words = [f"{kit}/bin/rattle-link", "--target", "x86_64-unknown-linux-gnu", "--toolchain", f"{kit}/toolchain", "-o", made]
            words += [f"{room}/library.o", f"{kit}/c/libos_c.a", f"{kit}/c/liblibc_c.a"]
        subprocess.run(words, check=True)
        print(made)


if __name__ == "__main__":
    main(*sys.argv[1:])
