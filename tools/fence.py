#!/usr/bin/env python3
"""The fence between crates for callers and inner crates. Run from the repository's root, before anything is proved.

A function with a `requires` that another crate calls has to be `pub`, and whoever lists its crate can call it. So crates.txt is the fence:

1. A crate's name says its part. `plan_..` and `verify_..` are inner crates of planning, `run_..` of elimination, `job_..` of job, `offset_..` of offsets, `load_..` of loads:
   each may be listed by the open crate of its part and by inner crates of the same part, and by nobody else; planning's `plan_..` do not list its
   `verify_..`. `store_..` are inner crates that every part may list, and that list none of the parts'; so may the crate of the exported functions. No crate
   lists that one.
2. An open function of a library for callers (any other crate with a src/lib.rt) has no `requires`, and has an `ensures`. Open are the functions
   marked `pub` in src/lib.rt and in its public modules, and those of private modules that a `pub use` names. An inner crate is not handed on
   by `pub use`. A `pub use` that the fence cannot follow is a breach: one of all names, under another name, of names in two pairs of braces, or of nothing
   that it finds.
3. What a reader must believe does not rest on what only the prover reads: no file of specs/ or src/ cites a module of the repository's `proofs`.

Prints a line for each breach, and ends with status 1 if there is one.
"""
import os
import re
import sys

# The open crate of the part that a name's first word stands for; `store` stands for every part.
PART_OF = {"plan": "planning", "verify": "planning", "run": "elimination", "job": "job", "offset": "offsets", "load": "loads"}
SHARED = "store"
EXPORTED = "dalumiveth"
KIT = ("std",)
# A `pub use` that the fence does not read.
NOT_READ = re.compile(r"\*|\bas\b|\{[^}]*\{")


def listed():
    """The crates of crates.txt, with what each lists. Behind a name may stand what it is made to, as `staticlib`."""
    crates = {}
    with open("crates.txt") as file:
        for line in file:
            line = line.split("#")[0].strip()
            if line:
                name, _, uses = line.partition(":")
                crates[name.split()[0]] = uses.split()
    return crates


def word_of(name):
    """The first word of an inner crate's name, None for any other crate."""
    word, _, rest = name.partition("_")
    return word if rest and (word in PART_OF or word == SHARED) else None


def part_of(name):
    """The open crate of the part that a crate belongs to, its own name where it is no inner crate."""
    word = word_of(name)
    return name if word is None else PART_OF.get(word)


def may_list(name, used):
    """Whether the fence lets a crate list another one."""
    word = word_of(used)
    if used == EXPORTED:
        return False
    if word is None:
        return word_of(name) != SHARED or used not in PART_OF.values()
    if word == SHARED:
        return word_of(name) is not None or name in PART_OF.values() or name == EXPORTED
    return part_of(name) == PART_OF[word] and not (word_of(name) == "plan" and word == "verify")


def list_breaches(crates):
    for name, uses in crates.items():
        for used in uses:
            if not may_list(name, used):
                yield f"crates.txt: {name} lists {used}, which is not for it"


def without_comments(path):
    """The text of a file of code, or of definitions, with the comments' lines empty."""
    with open(path) as file:
        return re.sub(r"//[^\n]*" if path.endswith(".rt") else r"(?m)(^|(?<=\s))--[^\n]*", "", file.read())


def past(text, at, opening, closing):
    """The place behind the bracket that closes the one at `at`."""
    depth = 0
    while True:
        depth += {opening: 1, closing: -1}.get(text[at], 0)
        at += 1
        if depth == 0:
            return at


def contracts(text):
    """The functions marked `pub`, each with the kinds of its clauses: `requires`, `ensures`."""
    for found in re.finditer(r'\bpub\s+(?:(?:const|unsafe|extern\s+"C")\s+)*fn\s+(\w+)', text):
        at = past(text, text.index("(", found.end()), "(", ")")
        clauses = set()
        while True:
            brace = text.index("{", at)
            kinds = set(re.findall(r"\b(requires|ensures)\b", text[at:brace]))
            if not kinds:
                break
            clauses |= kinds
            at = past(text, brace, "{", "}")
        yield found.group(1), clauses


def contract_breaches(path, name, clauses):
    if "requires" in clauses:
        yield f"{path}: {name} is open to callers and has a requires"
    if "ensures" not in clauses:
        yield f"{path}: {name} is open to callers and has no ensures"


def open_breaches(folder, module):
    """The breaches of one file and of the modules that it declares."""
    path = os.path.join(folder, module + ".rt")
    text = without_comments(path)
    for name, clauses in contracts(text):
        yield from contract_breaches(path, name, clauses)
    if re.search(r"\bmod\s+\w+\s*\{", text):
        yield f"{path}: a module that is written inside a file, which the fence does not read"
    inside = inside_of(folder, module)
    for public, name in re.findall(r"\b(pub\s+)?mod\s+(\w+)\s*;", text):
        if public:
            yield from open_breaches(inside, name)
    for names in re.findall(r"\bpub\s+use\s+([^;]+);", text):
        yield from handed_on_breaches(inside, path, names)


def inside_of(folder, module):
    """The folder of the modules that a module declares."""
    return folder if module == "lib" else os.path.join(folder, module)


def source_folder(path):
    """The src/ folder of the crate that a file of code is in."""
    return path.partition("/src/")[0] + "/src"


def handed_on_breaches(inside, path, names):
    """The breaches of one `pub use` of the file at `path`, whose modules are in the folder `inside`."""
    if NOT_READ.search(names):
        yield f"{path}: a pub use of all names, under another name or of names in two pairs of braces, which the fence does not read"
        return
    for name in each_name(names):
        yield from one_handed_on(inside, path, name)


def each_name(names):
    """What a `pub use` names, one by one: `m::{a, b}` is `m::a` and `m::b`."""
    head, brace, listed_there = names.partition("{")
    if not brace:
        return [names.strip()]
    return [head.strip() + name.strip() for name in listed_there.rstrip("} \n").split(",") if name.strip()]


def one_handed_on(inside, path, names):
    """The breaches of one name of a `pub use`."""
    parts = [part.strip() for part in names.split("::")]
    folder = source_folder(path) if parts[0] == "crate" else inside
    parts = parts[1:] if parts[0] in ("crate", "self") else parts
    if os.path.exists(os.path.join(folder, parts[0] + ".rt")):
        yield from opened_breaches(folder, path, parts)
    elif word_of(parts[0]) is not None:
        yield f"{path}: pub use of {'::'.join(parts)} hands an inner crate on"
    elif not os.path.isdir(os.path.join("crates", parts[0])) and parts[0] not in KIT:
        yield f"{path}: pub use of {names.strip()}, which the fence does not find"


def opened_breaches(folder, path, parts):
    """The breaches of what a `pub use` opens: a module, or of a module a function, a module of its own or what it hands on itself."""
    source = os.path.join(folder, *parts[:-1]) + ".rt"
    if len(parts) == 1:
        yield from open_breaches(folder, parts[0])
    elif not os.path.exists(source):
        yield f"{path}: pub use of {'::'.join(parts)}, which the fence does not find"
    else:
        text, inside = without_comments(source), os.path.join(folder, *parts[:-1])
        for name, clauses in contracts(text):
            if name == parts[-1]:
                yield from contract_breaches(source, name, clauses)
        if re.search(rf"\bpub\s+mod\s+{parts[-1]}\s*;", text):
            yield from open_breaches(inside, parts[-1])
        for names in re.findall(r"\bpub\s+use\s+([^;]+);", text):
            if NOT_READ.search(names):
                yield from handed_on_breaches(inside, source, names)
            else:
                for name in each_name(names):
                    if name.split("::")[-1] == parts[-1]:
                        yield from one_handed_on(inside, source, name)


def citing_breaches(name):
    """The files of specs/ and src/ that cite a module of the repository's `proofs`; those of the kit's libraries hold definitions too."""
    for part in ("specs", "src"):
        for folder, _, files in os.walk(os.path.join("crates", name, part)):
            for path in (os.path.join(folder, file) for file in sorted(files) if file.endswith((".rt", ".antt"))):
                for number, line in enumerate(without_comments(path).split("\n"), 1):
                    if re.search(r"\bproofs\.|\bproofs::", re.sub(rf"\bRattle\.(?:{'|'.join(KIT)})\.proofs\.", "", line)):
                        yield f"{path}:{number}: cites proofs: what it needs belongs in specs"


def main():
    crates = listed()
    breaches = list(list_breaches(crates))
    for name in crates:
        folder = os.path.join("crates", name, "src")
        if word_of(name) is None and os.path.exists(os.path.join(folder, "lib.rt")):
            breaches += open_breaches(folder, "lib")
        breaches += citing_breaches(name)
    for breach in breaches:
        print("fence:", breach)
    if breaches:
        sys.exit(1)
    inner = [name for name in crates if word_of(name) is not None]
    print(f"fence: {len(inner)} inner crates of {len(set(PART_OF.values()))} parts, {len(crates) - len(inner)} other crates")


if __name__ == "__main__":
    main()
