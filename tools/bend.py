#!/usr/bin/env python3
"""Bends the definitions, one line at a time, and says which bent ones nobody refuses.

  python3 tools/bend.py [-j JOBS] [--only TEXT] [--resume] [--wrap COMMAND] [--list PATH]

Each change of the lists (tools/bends/, one for each file of definitions) is made to a copy of crates/lists and crates/foundation.
First the tables of the file's own part are proved of the bent definitions, then all tables of computed cases. A change that they
let pass is held against every theorem.

  table     a row of a table refuses it
  proof     the tables let it pass; a theorem or a proof refuses it
  same      all let it pass, or only a proof's wording refuses it, and the list says why it means the same
  SURVIVED  all let it pass, and the list does not say why
  MARK      the list says that it means the same, and a row refuses it
  FORM      the bent definition is not well formed: the list is to be mended
  LIMIT     the prover came to no verdict: the list or the row is to be mended

It ends with status 0 if every change ends in the first three.

A list: a line 'file: PATH' (below crates/) holds for the changes after it; a change is a line 'old: TEXT', which stands in that
file once and in one line, a line 'new: TEXT', and, where it means the same, a line 'same: REASON'. Other lines are comments.

--only TEXT     the changes whose file or lines have TEXT in them, more than one allowed
--resume        keep the verdicts of an earlier run over the same tree (target/bend/verdicts.txt)
--wrap COMMAND  put COMMAND before each check (or set BEND_WRAP)
It needs the Rattle kit (rt) and Python 3.
"""
import argparse
import concurrent.futures
import hashlib
import os
import re
import shlex
import shutil
import subprocess
import sys
import tempfile
import threading

ROOT = os.path.dirname(os.path.dirname(os.path.abspath(__file__)))
CRATES = ("lists", "foundation")
TABLES = ("Open", "Marked", "Cases")          # the proofs by computation, with what they open
GOOD = ("table", "proof", "same")
STAGES = ("own", "table", "proof")

# the tables of a file's own part, where they are not those of its name
OWN = {"Functions": ["Lists"], "Sets": ["Lists"], "Table": ["Lists"], "Numbers": ["Numbers", "Faint"], "Answer": ["Numbers"], "Square": ["Numbers"], "Text": ["Numbers"],
       "Plan": ["Plan", "PlanParts", "Tall"], "PlanParts": [], "Subscripts": ["Plan"], "Slots": ["Plan"], "Pattern": ["Pattern", "Tall"], "PlanCall": ["PlanCall", "LentPlan", "Tall"], "RunCall": ["RunCall", "Tall"],
       "Reference": ["Reference", "Stopping", "Back", "StepParts", "Faint"], "Facts": [], "Closed": [], "Claims": [], "Marked": [],
       "OffsetReading": ["Offset"], "OffsetRounding": ["Offset"], "OffsetCall": ["Offset"], "Offsets": [], "TallyCalls": ["Tally"], "Tallies": [],
       "Draw": ["Load"], "LoadCall": ["Load"], "Loads": []}


class Change:
    def __init__(self, number, path, old, new):
        self.number, self.path, self.old, self.new, self.reason = number, path, old, new, None

    def key(self):
        return hashlib.sha256("\0".join((self.path, self.old, self.new)).encode()).hexdigest()[:16]


def read_lists(path):
    names = sorted(os.path.join(path, name) for name in os.listdir(path)) if os.path.isdir(path) else [path]
    changes, where, old = [], None, None
    for name in names:
        with open(name, encoding="utf-8") as lines:
            for line in lines.read().splitlines():
                word, _, rest = line.partition(": ")
                if word == "file":
                    where = rest
                elif word == "old":
                    old = rest
                elif line.startswith("new:"):
                    changes.append(Change(len(changes) + 1, where, old, line[4:].removeprefix(" ")))
                elif word == "same":
                    changes[-1].reason = rest
    return changes


def bent(text, change):
    """The text with the change made, or None where its old line does not stand there once."""
    if not change.old or text.count(change.old) != 1 or change.old == change.new:
        return None
    return text.replace(change.old, change.new)


class Kit:
    """How rt calls the prover."""

    def __init__(self, wrap):
        rt = shutil.which("rt")
        if not rt:
            sys.exit("bend: no rt on the path")
        self.home = os.path.dirname(os.path.dirname(os.path.realpath(rt)))
        self.wrap = shlex.split(wrap)

    def check(self, tree):
        """Proves foundation, with lists as source, in one run over the tree's incremental folder."""
        home = self.home
        words = [os.path.join(home, "bin", "rattle"), "check", "--crate-name", "foundation", "foundation/src/lib.rt",
                 *[word for name in ("core", "std") for word in ("--extern", f"{name}={home}/rlibs/{name}.rlib")],
                 "--lib", "lists:core,std=lists/src/lib.rt", "-L", f"dependency={home}/rlibs",
                 "--antt-project", f"{home}/rattle/logic/antt-project.json", "--logic-built", f"{home}/logic_built", "--incremental", "kept"]
        done = subprocess.run(self.wrap + words, cwd=tree, stdout=subprocess.PIPE, stderr=subprocess.STDOUT, text=True)
        return done.returncode, done.stdout


def copy_tree(to, tables_only):
    """The two crates, whole or with no proofs but the tables'."""
    for crate in CRATES:
        for part in ("src", "specs", "proofs"):
            shutil.copytree(os.path.join(ROOT, "crates", crate, part), os.path.join(to, crate, part))
    if not tables_only:
        return
    shutil.rmtree(os.path.join(to, "lists", "proofs"))
    proofs = os.path.join(to, "foundation", "proofs")
    for name in os.listdir(proofs):
        if name.split(".")[0] not in TABLES:
            path = os.path.join(proofs, name)
            shutil.rmtree(path) if os.path.isdir(path) else os.remove(path)
    with open(os.path.join(proofs, "Lib.antt"), "w", encoding="utf-8") as file:
        file.write("".join(f"pub mod {name}\n" for name in TABLES))


def own_tables(tree, path):
    """Leaves of a tree with all tables those of the file's own part, and what these use. False where it has none."""
    name = path.split("/")[-1].split(".")[0]
    wanted, specs = list(OWN.get(name, [name])), os.path.join(tree, "foundation", "specs")
    if not wanted:
        return False
    proofs, needed, marked = os.path.join(tree, "foundation", "proofs"), list(wanted) + ["Show"], False
    for table in needed:
        with open(os.path.join(specs, "Cases", table + ".antt"), encoding="utf-8") as file:
            text = file.read()
        needed += [other for other in re.findall(r"specs\.Cases\.(\w+)\.", text) if other not in needed]
        marked = marked or "specs.Marked." in text
    for folder, kept in ((specs, needed), (proofs, wanted)):
        for file in os.listdir(os.path.join(folder, "Cases")):
            if file.split(".")[0] not in kept:
                os.remove(os.path.join(folder, "Cases", file))
        with open(os.path.join(folder, "Cases.antt"), "w", encoding="utf-8") as file:
            file.write("".join(f"pub mod {table}\n" for table in kept))
    os.remove(os.path.join(proofs, "Marked.antt"))
    if not marked:
        os.remove(os.path.join(specs, "Marked.antt"))
    for node, gone in ((proofs, True), (specs, not marked)):
        with open(os.path.join(node, "Lib.antt"), encoding="utf-8") as file:
            lines = file.read()
        with open(os.path.join(node, "Lib.antt"), "w", encoding="utf-8") as file:
            file.write(lines.replace("pub mod Marked\n", "") if gone else lines)
    return True


def judged(status, said, stage):
    """Accepted, refused by STAGE, FORM or LIMIT."""
    if status == 0 and re.search(r"^logic=proved", said, re.M):
        return "accepted"
    errors = re.findall(r"^(\S+?):\d+:\d+: error(?:\[\w+\])?: (.*)$", said, re.M)
    if status != 1 or not re.search(r"^logic=not-proved", said, re.M) or not errors:
        return "LIMIT" if status == 3 or "step limit" in said else "FORM"
    if any("/specs/" in where for where, _ in errors):
        return "FORM"
    if all("step limit" in what for _, what in errors):
        return "LIMIT"
    if stage == "table" and not any(re.search("expected type|types differ", what) for _, what in errors):
        return "LIMIT" if any("step limit" in what for _, what in errors) else "FORM"
    return stage


class Worker:
    """A pair of trees of its own: the tables alone, and everything."""

    def __init__(self, kit, room, bases):
        self.kit, self.bases = kit, bases
        self.room = tempfile.mkdtemp(dir=room)

    def verdict_at(self, change, stage):
        tree = os.path.join(self.room, stage)
        shutil.rmtree(tree, ignore_errors=True)
        shutil.copytree(self.bases["table" if stage == "own" else stage], tree)
        if stage == "own" and not own_tables(tree, change.path):
            return "accepted", ""
        stage = "table" if stage == "own" else stage
        path = os.path.join(tree, *change.path.split("/"))
        if not os.path.isfile(path):
            return "FORM", "no such file"
        with open(path, encoding="utf-8") as file:
            text = bent(file.read(), change)
        if text is None:
            return "FORM", "the old line does not stand there once"
        with open(path, "w", encoding="utf-8") as file:
            file.write(text)
        status, said = self.kit.check(tree)
        return judged(status, said, stage), first_error(said)

    def verdict(self, change):
        for stage in STAGES:
            found, said = self.verdict_at(change, stage)
            if found != "accepted":
                break
        if found == "accepted":
            return ("same" if change.reason else "SURVIVED"), said
        if change.reason and found == "table":
            return "MARK", said
        if change.reason and found == "proof":
            return "same", said
        return found, said


def first_error(said):
    line = next((line for line in said.splitlines() if ": error" in line), "")
    return line[:160]


def tree_sum():
    """A sum of both crates, comments left out."""
    total = hashlib.sha256()
    for crate in CRATES:
        for folder, inner, names in os.walk(os.path.join(ROOT, "crates", crate)):
            inner.sort()
            for name in sorted(names):
                if name.endswith((".antt", ".rt")):
                    with open(os.path.join(folder, name), encoding="utf-8") as file:
                        total.update("".join(line for line in file if not line.lstrip().startswith("--")).encode())
    return total.hexdigest()[:16]


def make_bases(kit, room):
    """Trees that are proved unbent, so that a check loads what a change does not touch."""
    bases = {}
    for stage in ("table", "proof"):
        bases[stage] = os.path.join(room, "base-" + stage)
        copy_tree(bases[stage], stage == "table")
        status, said = kit.check(bases[stage])
        if status != 0:
            sys.exit("bend: the definitions as they stand are not proved\n" + said[-2000:])
    return bases


def main():
    parse = argparse.ArgumentParser(description=__doc__, formatter_class=argparse.RawDescriptionHelpFormatter)
    parse.add_argument("-j", type=int, default=1)
    parse.add_argument("--only", action="append", default=[])
    parse.add_argument("--resume", action="store_true")
    parse.add_argument("--wrap", default=os.environ.get("BEND_WRAP", ""))
    parse.add_argument("--list", default=os.path.join(ROOT, "tools", "bends"))
    asked = parse.parse_args()
    if asked.j < 1:
        parse.error("-j has to be 1 or more")
    if not os.path.exists(asked.list):
        parse.error(f"there is no list {asked.list}")
    changes = read_lists(asked.list)
    wanted = [c for c in changes if not asked.only or any(t in "\n".join((c.path, c.old, c.new)) for t in asked.only)]
    log = os.path.join(ROOT, "target", "bend", "verdicts.txt")
    os.makedirs(os.path.dirname(log), exist_ok=True)
    tree, known = tree_sum(), {}
    if asked.resume and os.path.isfile(log):
        with open(log, encoding="utf-8") as lines:
            for line in lines:
                of, key, found = line.split()[:3]
                if of == tree:
                    known[key] = found
    kit, lock, results = Kit(asked.wrap), threading.Lock(), {}
    with tempfile.TemporaryDirectory(prefix="bend-") as room, open(log, "a" if asked.resume else "w", encoding="utf-8") as kept:
        todo = [c for c in wanted if c.key() not in known or (known[c.key()] == "same") != bool(c.reason)]
        bases = make_bases(kit, room) if todo else {}
        free = [Worker(kit, room, bases) for _ in range(asked.j if todo else 0)]

        def run(change):
            with lock:
                worker = free.pop()
            found, said = worker.verdict(change)
            with lock:
                free.append(worker)
                results[change.number] = found
                print(tree, change.key(), found, change.path, file=kept, flush=True)
                print(f"{len(results)}/{len(todo)} {found:9} {change.path}: {change.new.strip()}", flush=True)
                if found not in GOOD:
                    print(f"          was: {change.old.strip()}\n          said: {said}", flush=True)

        with concurrent.futures.ThreadPoolExecutor(max_workers=asked.j) as pool:
            list(pool.map(run, todo))
    for change in wanted:
        results.setdefault(change.number, known.get(change.key()))
    counts = {}
    for found in results.values():
        counts[found] = counts.get(found, 0) + 1
    print(f"{len(wanted)} changes:", ", ".join(f"{name} {count}" for name, count in sorted(counts.items())))
    for change in wanted:
        if results[change.number] not in GOOD:
            print(f"{results[change.number]} {change.path}\n  old: {change.old}\n  new: {change.new}")
    sys.exit(0 if all(found in GOOD for found in results.values()) else 1)


if __name__ == "__main__":
    main()
