#!/usr/bin/env python3
"""Turns the walks of functions (proofs/F/Proof.antt, by the names of an older Rattle) into Invariants.antt and Answers.antt.

usage: tools/walks.py CRATE [FUNCTION..]

It reads each walk as it stood in the commit that the second line of docs/PORT.md names, asks `rt check --generated DIR --old-names` for the old and the new name of each
goal, place and field, and writes both files. What a tactic alone answered (`search rules`, `omega arith`, `tt`, `refl`) is left to the check. It was written for the
change to this Rattle and proves nothing: `rt check` decides. What it could not turn it says.
"""
import json
import os
import re
import shutil
import subprocess
import sys
import tempfile

ROOT = os.path.normpath(os.path.join(os.path.dirname(os.path.abspath(__file__)), ".."))
NAME = r"[A-Za-zμ_][\w'₀-₉]*(?:-[\w'₀-₉]+)*"
TRIVIAL_PART = r"(?:search rules|omega arith|tt|refl|λ [^.()]*\. tt|\(\))"
TRIVIAL = re.compile(r"^(?:%s|\(%s(?:,\s*%s)*,?\s*\))$" % (TRIVIAL_PART, TRIVIAL_PART, TRIVIAL_PART))
PLACE = re.compile(r"⟪([^⟫]*)⟫")


def plain(name):
    return name.replace("_", "-")


def read(path):
    with open(path, encoding="utf-8") as f:
        return f.read()


def write(path, text):
    os.makedirs(os.path.dirname(path), exist_ok=True)
    with open(path, "w", encoding="utf-8") as f:
        f.write(text)


def clauses():
    """(crate, function) -> the names of its requires and of its ensures."""
    found = {}
    for folder, dirs, names in os.walk(os.path.join(ROOT, "crates")):
        dirs[:] = [d for d in dirs if d != "out"]
        for n in names:
            if not n.endswith(".rt"):
                continue
            crate = os.path.relpath(folder, os.path.join(ROOT, "crates")).split(os.sep)[0]
            fn = None
            for line in read(os.path.join(folder, n)).split("\n"):
                m = re.match(r"\s*(?:pub(?:\([^)]*\))? )?(?:unsafe )?(?:extern \"C\" )?fn (\w+)", line)
                if m:
                    fn = m.group(1)
                    found.setdefault((crate, fn), ([], []))
                m = re.match(r"\s*(requires|ensures)\*?\s*(\w+)?\s*\{", line)
                if m and fn:
                    found[(crate, fn)][m.group(1) == "ensures"].append(m.group(2))
    return found


CLAUSES = clauses()


def generated(folder):
    out = tempfile.mkdtemp(prefix="names-")
    run = subprocess.run(["rt", "check", "--generated", out, "--old-names"], cwd=folder, capture_output=True, text=True)
    path = os.path.join(out, "names.json")
    if not os.path.exists(path):
        sys.exit(run.stdout[-3000:] + run.stderr[-1000:])
    table = json.loads(read(path))
    shutil.rmtree(out)
    out = tempfile.mkdtemp(prefix="made-")
    subprocess.run(["rt", "check", "--generated", out, "--allow-holes"], cwd=folder, capture_output=True, text=True)
    return table, out


def blocks(text):
    lines = text.split("\n")
    at, head = 0, []
    while at < len(lines) and (lines[at].startswith(("--", "use ", "pub use ")) or not lines[at].strip()):
        if lines[at].startswith("--") and any(l.startswith("use ") for l in head):
            break
        head.append(lines[at])
        at += 1
    decls = []
    for part in re.split(r"\n\n+", "\n".join(lines[at:]).strip("\n")):
        ls = part.split("\n")
        comment = []
        while ls and ls[0].startswith("--"):
            comment.append(ls.pop(0))
        comment = [c for c in comment if "name_paths.py" not in c]
        if ls or comment:
            decls.append((comment, ls))
    return head, decls


def parts_of(text):
    """A tuple in brackets as its parts, or None."""
    text = text.strip()
    if not text.startswith("("):
        return None
    depth, parts, start = 0, [], 1
    for i, ch in enumerate(text):
        if ch in "([{":
            depth += 1
        elif ch in ")]}":
            depth -= 1
            if depth == 0:
                if text[i + 1:].strip():
                    return None
                parts.append(text[start:i])
                break
        elif ch == "," and depth == 1:
            parts.append(text[start:i])
            start = i + 1
    if parts and not parts[-1].strip():
        parts.pop()
    return [p.strip("\n ") for p in parts] if len(parts) > 1 else None


class Function:
    def __init__(self, crate, path, table, made):
        self.crate, self.path, self.t = crate, path, table
        self.module = path.replace("/", ".")
        self.said = []
        self.answers = {}  # an answer that others may cite: its new name, its place, whether that is wrapped
        self.helpers = {}  # a helper lemma: the place that it speaks of
        self.place = {}  # by plain old name: its index
        for i, p in enumerate(table["places"]):
            self.place[plain(p[0])] = i
        self.goals = table["needs"]
        self.asked = {n: o for (o, n), (o, _) in []}
        folder = os.path.join(made, "Rattle-%s-proofs" % crate, path)
        self.lts = read(os.path.join(folder, "Lts.antt")) if os.path.exists(os.path.join(folder, "Lts.antt")) else ""
        self.tie = read(os.path.join(folder, "Tie.antt")) if os.path.exists(os.path.join(folder, "Tie.antt")) else ""
        fn = path.split("/")[-1].lstrip("+")
        self.own = CLAUSES.get((crate, fn), ([], []))

    # ---- places

    def parent(self, i):
        p = self.t["places"][i][1]
        return None if p is None else self.place.get(plain(p))

    def up(self, i, k):
        for _ in range(k):
            if i is None:
                return None
            i = self.parent(i)
        return i

    def steps(self, i, j):
        """How many `.before` lead from place i to place j now."""
        n, at = 0, i
        while at is not None and at != j:
            arm = self.t["arms"][at]
            at = self.up(at, arm[1] if arm else 1)
            n += 1
        return n if at == j else None

    def named(self, name):
        i = self.place.get(plain(name))
        if i is None:
            self.said.append("no place %s" % name)
        return self.whole(i)

    def whole(self, i):
        """Steps into an arm of a `match` are one place now: the last of them."""
        arm = self.t["arms"][i] if i is not None else None
        if not arm:
            return i
        for j, other in enumerate(self.t["arms"]):
            if other and other[0] == arm[0] and other[1] > self.t["arms"][i][1] and self.up(j, other[1] - arm[1]) == i:
                i = j
        return i

    def type_of(self, i):
        p = self.t["places"][i]
        return ("Past-" if self.t["arms"][i] else "") + p[0]

    # ---- fields

    def fields(self, at, chain):
        """The fields that a chain of old ones is now, read at a place."""
        chain = [c.strip("«»") for c in chain]
        f = plain(chain[0])
        f = {"good": "well-formed", "pre": "requires", "inv": "invariant"}.get(f, f)
        rest = chain[1:]
        if f == "args":
            if rest:
                rest[0] = re.sub("_lem$", "", rest[0]).replace("-", "_")
            return ["args"] + rest
        if f == "well-formed":
            return ["well_formed"] + rest
        if f == "requires":
            names = self.own[0]
            return ["requires"] + self.clause(names, rest)
        seen = at
        while seen is not None:
            arm = self.t["arms"][seen]
            if arm:
                for member, step, way in arm[2]:
                    if plain(step) in (f, plain(re.sub("-lem$", "", f))) and rest[: len(way)] == way:
                        return [arm[0], member] + rest[len(way):]
            seen = self.parent(seen)
        seen = at
        while seen is not None:
            name, _, (old, new), called, renamed = self.t["places"][seen]
            if plain(old).lower() in (f.lower(), re.sub("-lem$", "", f).lower()):
                return self.step(seen, new, called, dict((plain(a), b) for a, b in renamed), rest)
            seen = self.parent(seen)
        self.said.append("no field %s at %s" % (".".join(chain), self.t["places_by_name"][at] if at is not None else "?"))
        return chain

    def clause(self, names, rest):
        """`.0`, `.1.0`, `.1.1` of three clauses are now their names."""
        if len(names) < 2 or not rest or None in names:
            return rest
        k = 0
        while k < len(names) - 1:
            if not rest or rest[0] not in ("0", "1"):
                return ["1"] * k + rest
            way, rest = rest[0], rest[1:]
            if way == "0":
                return [names[k]] + rest
            k += 1
        return [names[k]] + rest

    def step(self, place, new, called, renamed, rest):
        out = [new]
        if not rest:
            return out
        r = {"taken": "true", "left": "false", "inv": "invariant", "kept": "auto", "last": "new", "post": "ensures"}.get(rest[0], rest[0])
        if plain(rest[0]) in renamed:
            r = renamed[plain(rest[0])]
        elif plain(r) in renamed:
            r = renamed[plain(r)]
        rest = rest[1:]
        if called and r in ("auto", "new"):
            n = 0
            while rest and rest[0] == "1":
                n += 1
                rest = rest[1:]
            params = self.t["params"].get(called)
            if rest and rest[0] == "0" and params and n < len(params):
                return out + [r, params[n]] + rest[1:]
            return out + [r] + ["1"] * n + rest
        if called and r == "ensures":
            bits = called.split("::")
            names = CLAUSES.get((bits[0], bits[-1]), ([], []))[1]
            return out + [r] + self.clause(names, rest)
        if r == "branch":
            return out + ["branch-raw"] + rest
        if self.t["places"][place][0].startswith("At-loop") and r not in ("invariant",):
            r = re.sub("_lem$", "", r).replace("-", "_") if not r.startswith("long-") else r
        return out + [r] + rest

    # ---- expressions

    def expression(self, text, root, at, wrapped, paths):
        """Turns an expression in which `root` names the place `at`; `wrapped`: whether its type now has one more `.before`."""

        def places_in(text, name, place):
            pattern = r"(?<![\w.'-])%s(?![\w'₀-₉-])((?:\.before)*)" % re.escape(name)

            def put(m):
                k = m.group(1).count(".before")
                to = self.up(place, k)
                return "⟪%d⟫" % (self.place["Start"] if to is None else to)
            return re.sub(pattern, put, text)

        if root:
            text = places_in(text, root, at)
        way = "|".join(re.escape(p) for p in sorted(paths, key=len, reverse=True)) or r"(?!)"
        while True:
            old = text
            text = re.sub(r"\((⟪\d+⟫)\)", r"\1", text)
            text = re.sub(r"(⟪(\d+)⟫)((?:\.before)+)(?![\w'-])", lambda m: "⟪%s⟫" % (self.up(int(m.group(2)), m.group(3).count(".before")) or self.place["Start"]), text)
            text = re.sub(r"(?<![\w.'-])(%s) ⟪\d+⟫(?!\.)" % way, lambda m: "⟪%d⟫" % paths[m.group(1)], text)
            m = re.search(r"\blet (%s) = ⟪(\d+)⟫ in(?:\n *| )" % NAME, text)
            if m:
                text = text[: m.start()] + places_in(text[m.end():], m.group(1), int(m.group(2)))
            if text == old:
                break
        # `let (j, at) = c.requires in` of several clauses
        names = self.own[0]

        def put_lets(m):
            bound = parts_of(m.group(1))
            while bound and len(bound) < len(names) and parts_of(bound[-1]):
                bound = bound[:-1] + parts_of(bound[-1])
            if len(names) < 2 or not bound or len(bound) != len(names):
                return m.group(0)
            return " in\n    ".join("let %s = %s.requires.%s" % (x, m.group(2), n) for x, n in zip(bound, names)) + " in"
        text = re.sub(r"\blet (\([\w'(), -]+\)) = (⟪\d+⟫)\.(?:requires|pre) in(?=\s)", put_lets, text)
        # `let a = c.append in`: a step under a name of its own
        steps = {}
        for m in re.finditer(r"\blet (%s) = ⟪\d+⟫\.(%s) in(?=\s)" % (NAME, NAME), text):
            steps[m.group(1)] = m.group(2)
        for name, step in steps.items():

            def put_step(m):
                new = self.fields(at, [step] + m.group(1)[1:].split("."))
                first = self.fields(at, [step])
                return ".".join([name] + new[len(first):]) if new[: len(first)] == first else ".".join([root] + new)
            text = re.sub(r"(?<![\w.'-])%s((?:\.[\w'«»₀-₉]+(?:-[\w'₀-₉]+)*)+)" % re.escape(name), put_step, text)
        # `⊎_elim (λ x. ..) (λ y. ..) ⟪n⟫.if1.branch`
        text = self.branches(text)

        def put(m):
            place, chain = int(m.group(2)), m.group(3)
            if chain:
                return "%s%s.%s" % (m.group(1) or "", root, ".".join(self.fields(at, chain[1:].split("."))))
            wanted = (m.group(1) or "").strip()
            if wanted in self.answers:
                new, there, boxed = self.answers[wanted]
                n = self.steps(at, there)
                if boxed and there != at:
                    self.said.append("an answer cites %s from elsewhere" % new)
                return new + " " + root + ("" if there == at else ".before" * ((n or 0) + (1 if wrapped else 0)))
            place = self.whole(self.helpers.get(wanted, place))
            n = self.steps(at, place)
            if n is None:
                self.said.append("no steps to %s" % self.t["places_by_name"][place])
                n = 0
            way = root + ".before" * (n + (1 if wrapped else 0))
            return (m.group(1) or "") + way
        text = re.sub(r"((?<![\w.'-])%s )?⟪(\d+)⟫((?:\.[\w'«»₀-₉]+(?:-[\w'₀-₉]+)*)*)" % NAME, put, text)
        # a step that has a name of its own in a `let` keeps its old fields there
        return re.sub(r"(?<=[\w)])\.inv(?![\w'-])", ".invariant", text)

    def branches(self, text):
        out, at = "", 0
        for m in re.finditer(r"⟪(\d+)⟫\.(%s)\.branch(?![\w-])" % NAME, text):
            pass
        pattern = re.compile(r"⊎_elim\s*\(λ (%s)\. " % NAME)
        pos = 0
        while True:
            m = pattern.search(text, pos)
            if not m:
                return text
            first_end = self.close(text, text.index("(", m.start()))
            second = re.compile(r"\s*\(λ (%s)\. " % NAME).match(text, first_end)
            if not second:
                pos = m.end()
                continue
            second_end = self.close(text, text.index("(", first_end))
            third = re.compile(r"\s*⟪(\d+)⟫\.(%s)\.branch(?![\w-])" % NAME).match(text, second_end)
            if not third:
                pos = m.end()
                continue
            place, step = int(third.group(1)), third.group(2)
            while place is not None and not (self.t["places"][place][0].startswith("Joined") and plain(self.t["places"][place][2][0]) == plain(step)):
                place = self.parent(place)
            if place is None:
                pos = m.end()
                continue
            records = re.findall(r"record By-\d+-%s-(\S+) : Type 0 where\n((?:[ \t]+.*\n|\n(?=[ \t]+pub (?!record|data)))*?)\n" % re.escape(self.t["places"][place][0]), self.lts)
            fields = [re.findall(r"^\s+pub (\S+) :", body, re.M) for _, body in records]
            pieces = []
            for k, (v, start, end) in enumerate([(m.group(1), m.start(), first_end), (second.group(1), first_end, second_end)]):
                piece = text[start:end]
                names = fields[k] if k < len(fields) else []

                def put(x):
                    n = int(x.group(1))
                    if n >= len(names):
                        self.said.append("no part %d of %s" % (n, names))
                        return x.group(0)
                    tail = {".taken": ".true", ".left": ".false"}.get(x.group(2) or "", x.group(2) or "")
                    if not tail:
                        return "%s.%s" % (v, names[n])
                    return "%s.%s%s" % (v, names[n], tail)
                piece = re.sub(r"(?<![\w.'-])%s\.(\d+)(\.taken|\.left|\.true|\.false)?" % re.escape(v), put, piece)
                pieces.append(piece)
            text = text[: m.start()] + pieces[0] + pieces[1] + text[second_end:]
            pos = m.start() + 7

    @staticmethod
    def close(text, at):
        depth = 0
        for i in range(at, len(text)):
            if text[i] == "(":
                depth += 1
            elif text[i] == ")":
                depth -= 1
                if depth == 0:
                    return i + 1
        return len(text)

    def record(self, body, names, what):
        """A tuple of the answers to several clauses becomes a record of their names."""
        if len(names) < 2 or None in names:
            return body
        cut = 0
        while True:
            m = re.compile(r"\s*let ").match(body, cut)
            if not m:
                break
            depth, i = 0, m.end()
            lets = 0
            while i < len(body):
                if body[i] in "([{":
                    depth += 1
                elif body[i] in ")]}":
                    depth -= 1
                elif depth == 0 and re.match(r"\blet ", body[i:]) and not re.match(r"\w", body[i - 1]):
                    lets += 1
                elif depth == 0 and re.match(r"in\b", body[i:]) and body[i - 1] in " \n)":
                    if lets == 0:
                        break
                    lets -= 1
                i += 1
            if i >= len(body):
                break
            cut = i + 2
        lead, tail = body[:cut], body[cut:]
        parts = parts_of(tail)
        while parts and 1 < len(parts) < len(names) and parts_of(parts[-1]):
            parts = parts[:-1] + parts_of(parts[-1])
        whole = re.match(r"\s*(\w+\.requires)\s*$", tail)
        if whole and len(self.own[0]) == len(names):
            parts = ["%s.%s" % (whole.group(1), n) for n in self.own[0]]
        elif not parts and re.match(r"\s*[A-Za-z][\w'-]*(?: |$)", tail) and not re.match(r"\s*(?:record|search|omega|grind|simp|rw|cc|elim|let|subst)\b", tail):
            ways = [".1" * i + ("" if i == len(names) - 1 else ".0") for i in range(len(names))]
            lead = lead + (" " if lead and not lead.endswith((" ", "\n")) else "") + "let given = %s in" % tail.strip()
            parts = ["given" + w for w in ways]
        if not parts or len(parts) != len(names):
            self.said.append("%s has several clauses: %s" % (what, ", ".join(names)))
            return body
        return lead + (" " if lead and not lead.endswith((" ", "\n")) else "") + "record {\n" + "".join("      %s = %s;\n" % (n, p.strip()) for n, p in zip(names, parts)) + "    }"


def convert(folder, crate, path, table, made, source):
    fn = Function(crate, path, table, made)
    head, decls = blocks(source)
    title = [l for l in head if l.startswith("--")]
    own = "Rattle.%s.proofs.%s." % (crate, fn.module)
    uses = [l for l in head if l.startswith(("use ", "pub use ")) and not l.startswith("use " + own)]
    type_pattern = r"tie\.((?!Need-)[A-Z][\w'₀-₉-]*)(?:\s+(?:invariant|decreases)-[\w-]+)*"
    paths = {}
    for comment, ls in decls:
        text = "\n".join(ls)
        m = re.match(r"abbrev (%s)\s*:\s*%s\s*→\s*%s\s*\n\1 (%s) =\s*([\s\S]*)" % (NAME, type_pattern, type_pattern, NAME), text)
        if m:
            to = fn.named(m.group(3))
            if to is not None:
                paths[m.group(1)] = to
    for comment, ls in decls:
        m = re.match(r"(?:abbrev )?(%s)\s*:\s*(?:\(%s : )?%s" % (NAME, NAME, type_pattern), "\n".join(ls))
        if m and m.group(1) not in paths and fn.place.get(plain(m.group(2))) is not None:
            fn.helpers[m.group(1)] = fn.whole(fn.place[plain(m.group(2))])
    invariants, answers, used = [], [], set()
    goals = []
    for comment, ls in decls:
        text = "\n".join(ls)
        if not text.strip() or "tie.close" in text:
            continue
        m = re.match(r"(abbrev )?(pub )?(%s)\s*:\s*([\s\S]*)" % NAME, text)
        if not m:
            fn.said.append("not read: " + ls[0])
            continue
        name = m.group(3)
        if name in paths:
            continue
        loop = re.match(r"(invariant|decreases)-([\w'-]+)$", name)
        if m.group(1) and loop and re.match(r"tie\.(invariant|decreases)-", m.group(4)):
            kind, which = loop.groups()
            entry = [(n, v, c) for ((o, n), v), c in zip(table["loops"], table["changed"]) if plain(o) == plain(which)]
            if not entry:
                fn.said.append("no loop %s" % which)
                continue
            new, variables, changed = entry[0]
            b = re.match(r"[^\n]*\n((?:unfolding [^\n]*\n)?)%s((?:\s+%s)*)\s*=\s*([\s\S]*)" % (re.escape(name), NAME), text)
            unfolding, given, value = b.groups()
            given = given.split()
            wanted = ["l." + v if not c else "l.initial." + v for v, c in zip(variables, changed)] + ["l." + v for v, c in zip(variables, changed) if c]
            if len(given) != len(wanted):
                fn.said.append("%s takes %d of %d" % (name, len(given), len(wanted)))
            where = dict(zip(given, wanted))
            value = re.sub(r"(?<![\w.'-])(%s)(?![\w'₀-₉-])" % NAME, lambda t: where.get(t.group(1), t.group(1)), value)
            one = " " if "\n" not in value.strip() and len(value) < 100 else "\n    "
            invariants.append((comment, "abbrev pub %s-%s : goal.%s-%s\n%s%s-%s l =%s%s" % (kind, new, kind, new, unfolding, kind, new, one, value.strip())))
            continue
        need = re.match(r"tie\.Need-(%s)" % NAME, m.group(4))
        if need:
            b = re.search(r"\n((?:unfolding [^\n]*\n(?:    [^\n]*\n)*)?)%s((?:[ \n]+[\w'₀-₉()_, ]+?)*)\s*=(?=\s)\s*([\s\S]*)" % re.escape(name), text)
            goals.append([comment, plain(need.group(1)), b.groups() if b else None, text, name])
            answers.append(("goal", len(goals) - 1))
            continue
        answers.append(("helper", comment, text))
    listed = len(goals) == len(fn.goals)
    byname = {plain(o): k for k, (o, n) in enumerate(fn.goals)}
    which = []
    for at, g in enumerate(goals):
        old = g[1]
        guesses = (old, re.sub(r"^(overflow|slice-bounds)-", "", old), old.replace("slice-bounds-", "part-"), old.replace("holds", "init"))
        which.append(at if listed else next((byname[x] for x in guesses if x in byname), None))
        if which[-1] is not None:
            k = which[-1]
            place = fn.named(table["asked_at"][k][0])
            fn.answers[g[4]] = (fn.goals[k][1], place, bool(table["typed"][place]))
    cited = {n for n in fn.answers if re.search(r"[(= ,]%s \w" % re.escape(n), "\n".join(g[2][2] for g in goals if g[2]) + "\n".join(a[2] for a in answers if a[0] == "helper"))}
    out = []
    for a in answers:
        if a[0] == "goal":
            comment, old, body, text, declared = goals[a[1]]
            k = which[a[1]]
            if k is None:
                if not re.match(r"slice-aggregate|enum|known|same-length", old):
                    fn.said.append("no goal for %s" % old)
                continue
            new = fn.goals[k][1]
            if body is None:
                fn.said.append("not read: " + text[:80].replace("\n", " "))
                continue
            unfolding, args, value = body
            if TRIVIAL.match(re.sub(r"\s+", " ", value.strip())) and not unfolding and declared not in cited:
                continue
            if re.match(r"shape_of-|long-", new):
                continue
            at = fn.named(table["asked_at"][k][0])
            args = args.split()
            if "-requires" in new and len(args) == 2 and args[1] == "κs":
                args = args[:1]
            value = fn.expression(value, args[0] if args else None, at, bool(table["typed"][at]), paths)
            if new.startswith("returns"):
                value = fn.record(value, fn.own[1], new)
            if table["asked"].get(table["needs"][k][0]):
                value = fn.record(value, table["asked"][table["needs"][k][0]], new)
            called = re.match(r"(.*)-requires(?:-.*)?$", new)
            if called:
                for p in table["places"]:
                    if p[2][1] == called.group(1) and p[3]:
                        bits = p[3].split("::")
                        value = fn.record(value, CLAUSES.get((bits[0], bits[-1]), ([], []))[0], new)
            one = " " if "\n" not in value and len(value) < 110 else "\n    "
            out.append((comment, "pub %s : goal.%s\n%s%s %s =%s%s" % (new, new, unfolding, new, " ".join(args), one, value.strip())))
            continue
        _, comment, text = a
        found = re.findall(type_pattern, text.split("=")[0])
        m = re.search(r"\((%s) : tie\." % NAME, text)
        root = m.group(1) if m else None
        if not root and found:
            b = re.search(r"\n%s (%s)" % (NAME, NAME), text)
            root = b.group(1) if b else None
        at = fn.named(found[0]) if found else None
        if at is not None:
            text = re.sub(type_pattern, lambda t: "TYPE⟨%s⟩" % t.group(1), text)
            if len(set(found)) > 1 or text.count("TYPE⟨") > 1 and len(re.findall(r"TYPE⟨", text)) > 1:
                fn.said.append("a helper of several places: %s" % text.split("\n")[0][:100])
            # the binder and the clause's argument stay
            text = re.sub(r"\(%s : TYPE" % re.escape(root), "(BINDER : TYPE", text)
            text = re.sub(r"(?m)^(%s) %s(?![\w'-])" % (NAME, re.escape(root)), r"\1 BINDER", text)
            text = fn.expression(text, root, at, False, paths).replace("BINDER", root)

            def put_type(t):
                i = fn.named(t.group(1))
                used.add(i)
                return table["places_by_name"][i]
            text = re.sub(r"TYPE⟨([^⟩]*)⟩", put_type, text)
        out.append((comment, text))
    loops = [new for (old, new), _ in table["loops"]]
    given = "".join(" goal.the-invariant-%s" % n for n in loops) + "".join(" goal.the-decreases-%s" % n for n in loops)
    claims = " tie.the-claims" if any(p[3] for p in table["places"]) else ""
    handed = " tie.handed_clauses" if max(map(len, fn.own)) > 1 or table["asked"] else ""
    abbrevs = []
    for i in sorted(used):
        new = table["places_by_name"][i]
        abbrevs.append(([], "abbrev %s : Type 0\n%s = lts.%s%s reads.Pre reads.Post%s%s" % (new, new, fn.type_of(i), claims, given, handed)))
    target = os.path.join(folder, "proofs", path)
    if invariants:
        body = "\n\n".join("\n".join(c + [t]) for c, t in invariants)
        write(os.path.join(target, "Invariants.antt"), "\n".join(title + needed(uses, body) + ["use %sGiven as goal" % own, "", body, ""]))
    if out:
        body = "\n\n".join("\n".join(c + [t]) for c, t in abbrevs + out)
        if any(t.startswith("pub ") for _, t in out):
            need = needed(uses, body) + ["use %sGoals as goal" % own]
            if abbrevs:
                need += ["use %sLts as lts" % own, "use %sReads as reads" % own] + (["use %sTie as tie" % own] if claims or handed else [])
            write(os.path.join(target, "Answers.antt"), "\n".join(title + need + ["", body, ""]))
    return fn.said


def needed(uses, body):
    words = set(re.findall(r"[^\s(){}\[\];,.]+", body)) | set(re.findall(NAME, body))
    out = []
    for line in uses:
        m = re.match(r"(?:pub )?use ([^{]*)\.\{([^}]*)\}", line)
        if not m:
            out.append(line)
            continue

        def used(n):
            last = n.split(" as ")[-1]
            if "[" in last:
                return last in body
            if "◌" in last:
                return all(p in body for p in re.split(r"[◌\s]", last) if p)
            return last in words
        keep = [n.strip() for n in m.group(2).split(",") if used(n.strip())]
        if keep:
            out.append("use %s.{%s}" % (m.group(1), ", ".join(keep)))
    return out


def main():
    crate, only = sys.argv[1], sys.argv[2:]
    folder = os.path.join(ROOT, "crates", crate)
    commit = read(os.path.join(ROOT, "docs/PORT.md")).split("\n")[1].strip()
    listed = subprocess.run(["git", "ls-tree", "-r", "--name-only", commit, "crates/%s/proofs" % crate], cwd=ROOT, capture_output=True, text=True).stdout.split("\n")
    walks = [p.split("/proofs/")[1][: -len("/Proof.antt")] for p in listed if p.endswith("/Proof.antt") and "/+" not in p]
    walks = [w for w in walks if not only or w.split("/")[-1] in only]
    for w in walks:
        for n in ("Proof", "Answers", "Invariants"):
            p = os.path.join(folder, "proofs", w, n + ".antt")
            if os.path.exists(p):
                os.remove(p)
    table, made = generated(folder)
    for w in walks:
        key = "Rattle-%s-proofs.%s.Lts" % (crate, w.replace("/", "."))
        if key not in table:
            print("%s: no names for %s" % (crate, w))
            continue
        source = subprocess.run(["git", "show", "%s:crates/%s/proofs/%s/Proof.antt" % (commit, crate, w)], cwd=ROOT, capture_output=True, text=True).stdout
        for said in convert(folder, crate, w, table[key], made, source):
            print("walks: %s %s: %s" % (crate, w, said))
    shutil.rmtree(made)


if __name__ == "__main__":
    main()
