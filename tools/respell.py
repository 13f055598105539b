#!/usr/bin/env python3
"""Brings the repository's own names to the spelling of today's Rattle: words in snake case, a dash only between two names.

usage: tools/respell.py [--list]

It goes over crates/: definitions and lemmas (.antt), the clauses of sources (.rt) and the must-fail edits, with docs/, README.md and tools/bends for the names
that they cite. Names of functions, types and exported symbols, and strings, keep their spelling. It is run once, right after port.py and before rt fmt.
--list prints each name with its new spelling and changes nothing.
"""
import os
import re
import sys

# A lemma that would have its function's name ends in `_lem`; a name that would fall together with another one gets a spelling of its own here
APART = {"openRow": "opened_row", "in-range": "in_range_lem"}
# lemmas that port.py has spelled already as a definition is spelled now
SPELLED = {name: name + "_lem" for name in ("chosen_by", "least_above", "list_cases", "next_row", "one_number", "is_digit")} | {"starts_fit": "starts_fitting"}
# Words of operators and shapes that stand in lemma names as names do
WORDS = {"append", "nil", "cons", "suc", "zero", "one", "add", "sub", "mul", "le", "lt", "eq", "leb", "ltb", "eqb", "and", "or", "not"}
# and words of English that happen to be names of definitions
PLAIN = {"at", "of", "is", "in", "on", "to", "up", "no", "step", "run", "start", "first", "last", "next", "more", "over", "all", "any", "same", "list", "end", "less", "right", "left", "row", "column", "place", "held", "here", "kept", "true", "false", "none", "half", "stops", "reads", "holds", "size"}
TOKEN = re.compile(r"[A-Za-z_](?:[A-Za-z0-9_'₀-₉]|-(?=[A-Za-z0-9_]))*")
DECLARED = re.compile(r"^\s*(?:(?:unfoldable|abbrev|pattern|pub)\s+)*([a-z][\w'-]*)(?:\s+\{[^:]*\})?\s+:(?:\s|$)")
BOUND = re.compile(r"\blet\s+\(?([a-z][\w'-]*)|[({](?:[a-z][\w'-]*\s+)*?([a-z][\w'-]*)(?:\s+[a-z][\w'-]*)*\s+:|λ\s+([^.]*)\.")
FOREIGN = re.compile(r"^\s*(?:pub\s+)?(?:ghost\s+)?use\s+((?:Rattle\.std|Prim|native|lib|mathlib|borrow|denote|contract|mir|types|prog|base)\b[\w.◌·'-]*?)(?:\.\{([^}]*)\}|\s|;|$)")


def files(root, *endings):
    for folder, dirs, names in os.walk(root):
        dirs[:] = sorted(d for d in dirs if d not in ("out", "__pycache__"))
        for name in sorted(names):
            if name.endswith(endings):
                yield os.path.join(folder, name)


def read(path):
    with open(path, encoding="utf-8") as f:
        return f.read()


def snake(word):
    """One part of a name: camel case becomes snake case; what begins with a capital is a type's name and stays."""
    if word[:1].isupper():
        return word
    word = re.sub(r"(?<=[a-z0-9])D(?=$)", "_or", word) if word == "getD" else word
    word = re.sub(r"([a-z0-9'])([A-Z][a-z])", r"\1_\2", word)
    word = re.sub(r"([a-z0-9'])([A-Z]+)", r"\1_\2", word)
    return re.sub(r"[A-Z]+", lambda m: m.group(0).lower(), word)


def is_proof_of_function(path):
    return os.path.basename(path) in ("Proof.antt", "Answers.antt", "Invariants.antt")


def foreign_names(text):
    names = set()
    for line in text.split("\n"):
        m = FOREIGN.match(line)
        if m:
            for part in (m.group(2) or "").split(","):
                names.update(p.strip() for p in part.split(" as "))
    return names


def stated(path):
    """The names that a file of definitions or lemmas states: at its top, in records and in `where`."""
    found = (DECLARED.match(line) for line in read(path).split("\n") if not line.lstrip().startswith("--"))
    return {m.group(1) for m in found if m}


def declared(path):
    """Those, and the names that it binds."""
    names = stated(path)
    for line in read(path).split("\n"):
        if line.lstrip().startswith("--"):
            continue
        for m in re.finditer(r"\blet\s+([a-z][\w'-]*)", line):
            names.add(m.group(1))
        for m in re.finditer(r"[({]([a-z][\w' -]*?)\s+:\s", line):
            names.update(m.group(1).split())
        for m in re.finditer(r"λ\s+([^.(]*)\.", line):
            names.update(w for w in m.group(1).split() if re.match(r"[a-z]", w))
    return names


def table():
    antt = list(files("crates", ".antt"))
    foreign, own, words = set(), set(), set(WORDS)
    for path in antt + list(files("crates", ".rt")):
        foreign |= foreign_names(read(path))
    for path in antt:
        if is_proof_of_function(path):
            # names that are bound there alone: camel case only
            own |= {n for n in declared(path) if re.search(r"[a-z0-9'][A-Z]", n)}
        else:
            own |= declared(path)
        if "/specs/" in path:
            words |= {snake(n) for n in stated(path) if "-" not in n} - PLAIN
    words |= {n for n in foreign if re.match(r"^[a-z][a-z_0-9]*$", n)} - PLAIN
    renamed = {}
    for name in sorted(own - foreign):
        parts = [snake(p) for p in name.split("-")]
        new = parts[0]
        for before, part in zip(parts, parts[1:]):
            joins = (before in words or before[:1].isupper()) and (part in words or part[:1].isupper()) and len(before) > 1 and len(part) > 1
            new += ("-" if joins else "_") + part
        new = APART.get(name, new)
        if new != name:
            renamed[name] = new
    of_camel = {new for old, new in renamed.items() if "-" not in old}
    for old, new in renamed.items():
        if "-" in old and (new in of_camel or new in own):
            renamed[old] = new + "_lem"
    return renamed, own, foreign


def turn(text, renamed, comments, camel_only):
    """Replaces tokens. Strings stay. In comments only names in camel case are turned, since a dash there may be English."""
    out = []
    for line in text.split("\n"):
        m = re.search(r"(?:^|\s)(?:%s)\s" % comments, line + " ") if comments else None
        cut = m.start() if m else len(line)
        code, note = line[:cut], line[cut:]

        def put(m):
            word = m.group(0)
            return renamed.get(word, word)

        def put_camel(m):
            word = m.group(0)
            return renamed.get(word, word) if re.search(r"[a-z0-9'][A-Z]", word) else word

        pieces = re.split(r'("(?:[^"\\]|\\.)*")', code)
        pieces = [p if i % 2 else TOKEN.sub(put_camel if camel_only else put, p) for i, p in enumerate(pieces)]
        out.append("".join(pieces) + TOKEN.sub(put_camel, note))
    return "\n".join(out)


def main():
    os.chdir(os.path.join(os.path.dirname(os.path.abspath(__file__)), ".."))
    renamed, own, foreign = table()
    back = {}
    for old, new in renamed.items():
        back.setdefault(new, []).append(old)
    together = {new: olds for new, olds in back.items() if len(olds) > 1 or new in own and new not in renamed or new in foreign}
    for new, olds in sorted(together.items()):
        print("falls together: %s <- %s%s" % (new, ", ".join(olds), " (a name already)" if new in own or new in foreign else ""))
    if "--list" in sys.argv:
        for old, new in sorted(renamed.items()):
            print(old, new)
        return
    for path in list(files("crates", ".antt")):
        again = {} if is_proof_of_function(path) else {name: new for name, new in SPELLED.items() if name in renamed.values()}
        change(path, turn(read(path), again | renamed, "--", False))
    for path in files("crates", ".rt"):
        change(path, turn(read(path), renamed, "//", True))
    for path in list(files("docs", ".md")) + ["README.md"] + list(files("tools/bends", ".txt")):
        change(path, turn(read(path), renamed, "", True))


def change(path, text):
    if text != read(path):
        with open(path, "w", encoding="utf-8") as f:
            f.write(text)


if __name__ == "__main__":
    main()
