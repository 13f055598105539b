#!/usr/bin/env python3
"""Names the ways back through the walk in proof files, so that a person can read them.

  python3 tools/name_paths.py [--check] [CRATE..]

In crates/CRATE/proofs/**/Proof.antt what an earlier place of the walk knows is reached by `c .before .before .. .copy-in .ensures`. The generated `Lts`
of each function says what place `c` is at each need and which place stands before which. From it this tool

1. writes path functions behind the file's `use` lines (behind the invariants and measures, where there are some): TARGET-from-SOURCE leads from the place
   SOURCE back to the place TARGET, by way of the others where it can, so that nearly every stretch is written once;
2. replaces each long chain of `.before` by a call of one of them, and binds the places that a need cites more than once by `let`s at its top, each from
   the one before, under the name of what it leads to (`start`, `at-copy-in`, or `copy-in` where only what was learnt there is cited);
3. binds a place that a `rw` cites by a `let` of the chain written out: behind a path function `rw` does not find what it is to rewrite;
4. breaks long lines and leaves the layout to `rattle fmt`.

A place is named by the code: `start`, a call (`copy-in`, the second one `copy-in2`), a loop (`loop` its head, `in-loop`, `after-loop`), an arm by the arms
taken since such a place (`pivot-then`), and a step in between by what is asked for there (`calling-trade2`, `reading-p`, `making-cell`, `end`).
A chain gets a function if that is worth its lines: its uses in the file times its `.before` above two come to six. Path functions that someone wrote
(`abbrev entry : tie.In-loop .. → tie.Start ..`) are used under their name behind the place where they stand, and so are `let`s with a name of their own.

Run it over the crates that changed, or over all (no CRATE), once they are proved; then prove them again. target/generated/CRATE is made (`rt dev CRATE
--generated`, as long as a check) where it is missing or older than the crate's code. A second run changes nothing. After the code changed, run it
again: paths are found anew by the names of their two places, a chain that leads to a place without the field that is read there is led to the place that has it
(a line tells of each), new chains are named and unused functions go. For a new need write `c .before .before .. .copy-in .ensures` with three `.before` or more.

It does not look into `where`; in the files of functions that call each other (`+f`) it only breaks lines.
--check  write nothing; say which files would change and end with status 1 if there are any
"""
import argparse
import glob
import os
import re
import shutil
import subprocess
import sys
import tempfile
from collections import Counter

from proof_text import KEYWORDS, WIDTH, Piece, broken_lines, leading_lets_end, let_end, pieces, rewriting_spans, tokens
from walk import Walk

ROOT = os.path.dirname(os.path.dirname(os.path.abspath(__file__)))
SHORT = 2           # a chain of so many `.before` stays as it is
WORTH = 6           # a path gets a function if its uses times its `.before` above SHORT come to this
TITLE = "-- Paths: TARGET-from-SOURCE leads from a place of the walk back to an earlier one. Made by tools/name_paths.py from the names of the two places."
STEP = " .before"


class Citation:
    """A path in a clause: the text from start to end leads from the place variable `root` to the place `target`."""

    def __init__(self, root, source, target, written, span):
        self.root, self.source, self.target = root, source, target
        self.written = written          # how many `.before` it writes out; a call of a path function counts as a long chain
        self.start, self.end = span
        self.field = None               # the field that is read there
        self.let = None                 # the name that a `let` gives exactly this place
        self.named = False              # whether a `let` names it or its field
        self.rewrites = False           # whether a `rw` cites it, or a `let` that a `rw` names


def split_arrows(text):
    """The parts of a type between its outermost arrows, as tokens."""
    parts, depth = [[]], 0
    for token in tokens(text):
        depth += token.deeper()
        if token.text == "→" and depth == 0:
            parts.append([])
        else:
            parts[-1].append(token)
    return parts


def named_groups(part):
    """The groups `(a b : T)` or `{a : T}` that a part of a type consists of: bracket, names, T's tokens. None where it is no such part."""
    groups, at = [], 0
    while at < len(part) and part[at].text in ("(", "{"):
        depth, end = 1, at + 1
        while depth:
            depth += part[end].deeper()
            end += 1
        inner = part[at + 1:end - 1]
        colon = next((n for n, token in enumerate(inner) if token.text == ":"), None)
        if colon is None:
            return None
        groups.append((part[at].text, [token.text for token in inner[:colon]], inner[colon + 1:]))
        at = end
    return groups or None


def times_bound(found, name):
    """How often a `let` or a `λ` binds the name."""
    lets = sum(a.text == "let" and b.text == name for a, b in zip(found, found[1:]))
    return lets + sum(token.binds(name) for token in found)


def rewritten_names(found, spans):
    """The names that a `rw` cites, and those that a `let` of such a name cites."""
    names = {token.text for token in found if any(a <= token.start < b for a, b in spans)}
    for at in range(len(found) - 2, -1, -1):
        if found[at].text == "let" and found[at + 1].text in names:
            names |= {token.text for token in found[at + 2:let_end(found, at)]}
    return names


class Types:
    """Which places the functions of a proof file take and give."""

    def __init__(self, tie, walk):
        self.tie, self.walk = tie, walk
        self.parameters = {}            # function -> its parameters' places, None for what is no place
        self.between = {}               # function from one place to another -> (source, target)
        self.made = set()               # those of them that stand in the block
        self.by_hand = {}               # (source, target) -> the path function that someone wrote

    def place_of(self, part):
        """The place that a type's tokens name, None if they name none."""
        name = part[0].text.removeprefix(self.tie + ".") if part and part[0].text.startswith(self.tie + ".") else None
        return name if self.walk.is_place(name) else None

    def is_need(self, piece):
        return piece.kind == "signature" and re.search(rf"\s:\s+{re.escape(self.tie)}\.(Need-\S+)", piece.text)

    def read_signature(self, piece):
        need = self.is_need(piece)
        if need:
            self.parameters[piece.name] = [("c", self.walk.needs.get(need.group(1)))]
            return
        parts, taken = split_arrows(piece.text[re.search(r"\s:\s", piece.text).end():]), []
        for part in parts[:-1]:
            for bracket, names, kind in named_groups(part) or [("(", [None], part)]:
                taken += [(name, self.place_of(kind)) for name in names if bracket == "("]
        self.parameters[piece.name] = taken
        result = self.place_of(parts[-1])
        if result and len(taken) == 1 and taken[0][1]:
            self.between[piece.name] = (taken[0][1], result)
            if "abbrev" in piece.marks:
                self.by_hand[(taken[0][1], result)] = piece.name


class Reader:
    """Finds the paths in a clause."""

    def __init__(self, types, notes):
        self.types, self.walk, self.notes = types, types.walk, notes

    def citations(self, text, places):
        """Each path in the text, in order. A place that a `let` binds counts as its path from the root."""
        found = tokens(text)
        scope = {name: (name, place, place) for name, place in places.items() if not any(token.binds(name) for token in found)}
        spans = rewriting_spans(found)
        rewritten = rewritten_names(found, spans)
        cited, at = [], next((n for n, token in enumerate(found) if token.text in ("=", ":")), 0)
        while at < len(found):
            let = None
            if found[at].text == "let" and at + 2 < len(found) and found[at + 2].text == "=":
                let, at = found[at + 1].text, at + 3
                scope.pop(let, None)
            one, after = self.citation_at(found, at, scope)
            if one:
                one.named = let is not None
                one.rewrites = let in rewritten or any(a <= one.start < b for a, b in spans)
                if let and after < len(found) and found[after].text == "in" and times_bound(found, let) == 1:
                    self.bind(one, let)
                    scope[let] = (one.root, one.source, one.target)
                cited.append(one)
            at = after if one else at + 1
        return cited

    def bind(self, one, let):
        """Notes that a `let` names this place. One that has a place's own name leads there, wherever it led before the code changed."""
        one.let = let
        if let == "start" or let.startswith(("at-", "in-")):
            one.target = self.mended(one.source, one.target, lambda place: self.walk.let_name(place) == let, let)

    def citation_at(self, found, at, scope):
        """The path that starts at token `at`, and the token behind it."""
        if at >= len(found) or at and found[at - 1].ends_term():
            return None, at
        place = self.place_at(found, at, scope)
        if place is None or place[3] == 0 or place[4] < len(found) and found[place[4]].starts_argument():
            return None, at
        root, source, target, written, after = place
        one = Citation(root, source, target, written, (found[at].start, found[after - 1].end))
        if after < len(found) and found[after].kind == "field":
            one.field = found[after].text[1:]
            if one.field not in self.walk.fields[target]:
                one.target = self.mended(source, target, lambda place: one.field in self.walk.fields[place], f"{found[at].text}.. .{one.field}")
        return one, after

    def place_at(self, found, at, scope):
        """The place that is written at token `at`, as `c`, `F c` or `F (..)`, each with `.before`s: root, source, target, length, token behind."""
        if at >= len(found) or found[at].kind != "word":
            return None
        word = found[at].text
        if word in scope:
            (root, source, place), written, after = scope[word], 0, at + 1
        elif word in self.types.between:
            called = self.call_at(found, at, scope)
            if called is None:
                return None
            root, source, place, written, after = called
        else:
            return None
        while after < len(found) and found[after].text == ".before" and place in self.walk.before:
            place, written, after = self.walk.before[place], written + 1, after + 1
        return root, source, place, written, after

    def call_at(self, found, at, scope):
        """The place to which a call of a path function leads. One of the block is taken by its target, whatever place it stands at now."""
        name = found[at].text
        if at + 1 < len(found) and found[at + 1].kind == "open":
            inner = self.place_at(found, at + 2, scope)
            if inner is None or inner[4] >= len(found) or found[inner[4]].text != ")":
                return None
            after = inner[4] + 1
        else:
            inner, after = self.place_at(found[:at + 2], at + 1, scope), at + 2
        if inner is None:
            return None
        root, source, place, written, _ = inner
        takes, target = self.types.between[name]
        if name not in self.types.made and takes != place:
            return None
        if not self.walk.is_place(target) or self.walk.distance(place, target) is None:
            self.notes.append(f"{name}: no path from {place} to {target}")
            return None
        return root, source, target, written + SHORT + 1, after

    def mended(self, source, target, fits, what):
        """A path that was counted before the code changed: the first place on the way from source that fits, since each thing's name is its own."""
        place = source
        while place is not None and not fits(place):
            place = self.walk.before.get(place)
        if place is None or place == target:
            return target
        self.notes.append(f"{what}: led to {target}, leads to {place} now")
        return place


class Clause:
    """A clause, or a signature that cites places, with what it will call and bind."""

    def __init__(self, piece, places, may_bind, hand_made, reader):
        self.piece, self.places, self.may_bind, self.hand_made = piece, places, may_bind, hand_made
        self.walk, self.reader = reader.walk, reader
        self.write_out_rewritten()
        self.cited = [one for one in reader.citations(piece.text, places) if self.counts(one)]
        self.lets = self.leading_lets()                         # (root, target) -> the name that it has already
        self.uses = Counter((one.root, one.target) for one in self.cited if one.let is None)
        self.rewritten = {(one.root, one.target) for one in self.cited if one.rewrites}
        self.bases = self.find_bases()                          # (root, target) -> the cited place from which it is reached, None for the root

    def counts(self, one):
        return (one.written > SHORT or one.let) and (self.may_bind or not one.rewrites)

    def write_out_rewritten(self):
        """Writes out what a `rw` cites, should someone have put a path function there."""
        text, made = self.piece.text, self.reader.types.made
        for one in reversed(self.reader.citations(text, self.places)):
            if one.rewrites and any(token.text in made for token in tokens(text[one.start:one.end])):
                text = text[:one.start] + one.root + STEP * self.walk.distance(one.source, one.target) + text[one.end:]
        self.piece.text = text

    def leading_lets(self):
        end, lets = leading_lets_end(self.piece.text), {}
        for one in self.cited:
            if one.let and one.start < end and self.may_bind:
                lets.setdefault((one.root, one.target), one.let)
            else:
                one.let = None
        return lets

    def find_bases(self):
        """From the nearest place to the farthest, each from the one before. What a `rw` cites is reached from such places alone."""
        bases, all_cited = {}, set(self.uses) | set(self.lets)
        for root, target in sorted(all_cited, key=lambda pair: self.walk.distance(self.places[pair[0]], pair[1])):
            nearer = [other for of, other in all_cited if of == root and other != target and self.walk.distance(other, target) is not None
                      and ((root, target) not in self.rewritten or (root, other) in self.rewritten)]
            nearer = nearer if self.may_bind else []
            bases[(root, target)] = min(nearer, key=lambda other: self.walk.distance(other, target), default=None)
        return bases

    def source(self, pair):
        return self.bases[pair] or self.places[pair[0]]

    def references(self, pair):
        """How often the clause refers to a place: the paths to farther ones count."""
        return self.uses[pair] + sum(root == pair[0] and base == pair[1] for (root, _), base in self.bases.items())

    def is_bound(self, pair):
        """Whether the clause has a `let` for a place. What a `rw` cites has one where the chain is long, and no `let` names it yet."""
        if not self.may_bind or pair in self.lets:
            return pair in self.lets
        if self.references(pair) > 1:
            return True
        return pair in self.rewritten and self.walk.distance(self.source(pair), pair[1]) > SHORT + 2 and not any(
            one.named for one in self.cited if (one.root, one.target) == pair)

    def demands(self):
        """The path functions that the clause could call, with how often it would."""
        wanted = Counter()
        for pair in self.bases:
            stretch = (self.source(pair), pair[1])
            if pair not in self.rewritten and self.walk.distance(*stretch) > SHORT and stretch not in self.hand_made:
                wanted[stretch] += 1 if self.is_bound(pair) else self.uses[pair]
        return wanted

    def bound_field(self, pair):
        """The field that the `let` of a place names, where only what was learnt there is cited; None where it names the place."""
        own = self.walk.own(pair[1])
        cited = [one.field for one in self.cited if (one.root, one.target) == pair]
        return own if pair not in self.lets and self.uses[pair] == self.references(pair) and set(cited) == {own} else None

    def rewrite(self, functions, top_names):
        """Writes the clause anew with the path functions of the file."""
        if not self.cited:
            return
        taken = {token.text.rstrip(".") for token in tokens(self.piece.text)} | top_names | KEYWORDS
        names, lets = {}, []
        for pair in sorted(self.bases, key=lambda pair: self.walk.distance(self.places[pair[0]], pair[1])):
            value = self.value(pair, names, functions)
            if not self.is_bound(pair):
                names[pair] = value
                continue
            field = self.bound_field(pair)
            names[pair] = self.lets.get(pair) or free_name(field or self.walk.let_name(pair[1]), taken)
            taken.add(names[pair])
            lets.append(f"let {names[pair]} = {value}{' .' + field if field else ''} in")
        self.piece.text = with_lets(self.replaced(names), lets)

    def value(self, pair, names, functions):
        """The term for a place: from the place before it in the clause."""
        root, target = pair
        argument = names[(root, self.bases[pair])] if self.bases[pair] else root
        if pair in self.rewritten:
            return argument + STEP * self.walk.distance(self.source(pair), target)
        return functions.call(self.source(pair), target, argument, self.hand_made)

    def replaced(self, names):
        """The text with each path by its name, and without the `let`s that will stand at the top."""
        text = self.piece.text
        for one in reversed(self.cited):
            pair = (one.root, one.target)
            if one.let:
                start = text.rindex("let", 0, one.start)
                end = one.end + re.match(r"\s*in\b\s*", text[one.end:]).end()
                text = text[:start] + text[end:]
            elif one.written > SHORT:
                end = one.end
                if self.is_bound(pair) and self.bound_field(pair):
                    end += re.match(r"\s*\.[^\s(){}\[\],;.]+", text[end:]).end()
                text = text[:one.start] + names[pair] + text[end:]
        bare = {name for name in names.values() if " " not in name}
        return re.sub(r"(?<=[\s(])\(([^\s(){}\[\],;]+)\)(?=[\s)},]|$)", lambda m: m.group(1) if m.group(1) in bare else m.group(), text)


def free_name(name, taken):
    while name in taken:
        name = "the-" + name
    return name


def with_lets(text, lets):
    """The clause with `let`s at the top of its body."""
    if not lets:
        return text
    equals = re.search(r"\s=\s+", text)
    return f"{text[:equals.start()]} =\n" + "".join(f"    {let}\n" for let in lets) + "    " + text[equals.end():]


class Functions:
    """The path functions of a file."""

    def __init__(self, clauses, types):
        self.walk, self.types = types.walk, types
        self.used, self.by_way_of = set(), {}
        self.choose(clauses)

    def choose(self, clauses):
        """A path that is written once gets no function of its own if it is short, or is two that the file needs anyway."""
        wanted = sum((clause.demands() for clause in clauses), Counter())
        far, cited = self.walk.distance, {target for _, target in wanted}
        worthy = {pair for pair, count in wanted.items() if count * (far(*pair) - SHORT) >= WORTH}
        self.used = {pair for pair in worthy if wanted[pair] > 1 or pair[0] in cited}
        for source, target in sorted(worthy - self.used, key=lambda pair: (far(*pair), self.walk.order[pair[0]])):
            middles = [middle for start, middle in self.used if start == source and (middle, target) in self.used]
            if middles:
                self.by_way_of[(source, target)] = min(middles, key=lambda middle: far(middle, target))
            else:
                self.used.add((source, target))

    def call(self, source, target, argument, hand_made):
        """The term that leads from source, where the term `argument` stands, to target."""
        if (source, target) in hand_made:
            return f"{self.types.by_hand[(source, target)]} {argument}"
        if (source, target) in self.by_way_of:
            middle = self.by_way_of[(source, target)]
            return f"{self.walk.path_name(middle, target)} ({self.walk.path_name(source, middle)} {argument})"
        if (source, target) in self.used:
            return f"{self.walk.path_name(source, target)} {argument}"
        return argument + STEP * self.walk.distance(source, target)

    def body(self, source, target, argument):
        """The cheapest way from source to target by `.before` and by the other path functions."""
        way = [source]
        while way[-1] != target:
            way.append(self.walk.before[way[-1]])
        index = {place: number for number, place in enumerate(way)}
        best = {0: (0, argument)}           # how far on the way -> the cheapest term that leads there
        for here, place in enumerate(way[:-1]):
            cost, term = best[here]
            inner = f"({term})" if " " in term else term
            moves = [(here + 1, cost + 1, term + STEP)]
            moves += [(index[end], cost + 1.5, f"{self.walk.path_name(start, end)} {inner}") for start, end in sorted(self.used)
                      if start == place and end in index and (start, end) != (source, target)]
            for there, price, text in moves:
                if there not in best or price < best[there][0]:
                    best[there] = (price, text)
        return best[len(way) - 1][1]

    def block(self, arguments):
        """The block of path functions; `arguments` are what each place's type takes (invariants and measures)."""
        out, tie = [TITLE, ""], self.types.tie
        for source, target in sorted(self.used, key=lambda pair: (self.walk.order[pair[0]], -self.walk.order[pair[1]])):
            name = self.walk.path_name(source, target)
            out += [f"abbrev {name} : {tie}.{source}{arguments} → {tie}.{target}{arguments}", f"{name} c = {self.body(source, target, 'c')}", ""]
        return "\n".join(out) if self.used else ""


def without_block(found, types):
    """The file's pieces without the block that an earlier run wrote, whose functions are noted."""
    kept, at, tie = [], 0, re.escape(types.tie)
    while at < len(found):
        if found[at].kind == "comment" and found[at].text.startswith(TITLE[:40]):
            at += 1
            while at < len(found) and (path := re.match(rf"abbrev (\S+-from-\S+) : {tie}\.([^\s→]+)[^→]* → {tie}\.(\S+)", found[at].text)):
                types.between[path.group(1)] = (path.group(2), path.group(3))
                types.made.add(path.group(1))
                at += 2
        else:
            kept.append(found[at])
            at += 1
    return kept


def block_place(found, arguments):
    """Where the block goes: behind the `use` lines and what the places' types name, never between a signature and its clause."""
    at = max((n + 1 for n, piece in enumerate(found) if piece.kind == "use" or piece.name in arguments.split()), default=0)
    while 0 < at < len(found) and found[at - 1].kind in ("signature", "unfolding"):
        at += 1
    return at


def read_clauses(found, types, reader):
    """The pieces that cite places, and the path functions that someone wrote. A clause may call those that stand before it."""
    clauses, by_hand = [], []
    for piece in found:
        parameters = types.parameters.get(piece.name, [])
        seen = {types.between[other.name] for other in by_hand}
        if piece.kind == "signature" and not types.is_need(piece):
            clauses.append(Clause(piece, {name: place for name, place in parameters if name and place}, False, seen, reader))
        elif piece.kind == "clause" and piece.name in types.by_hand.values():
            by_hand.append(piece)
        elif piece.kind == "clause":
            clauses.append(Clause(piece, {name: place for name, (_, place) in zip(piece.parameters, parameters) if place}, True, seen, reader))
    return clauses, by_hand


def rewritten(text, walk, notes):
    """The file with its paths named, once over."""
    tie = re.search(r"^use \S+\.Tie as (\S+)$", text, re.M)
    if walk is None or tie is None:
        return broken_lines(text)
    types = Types(tie.group(1), walk)
    found = without_block(pieces(text), types)
    for piece in found:
        if piece.kind == "signature":
            types.read_signature(piece)
    given = re.search(rf": {re.escape(types.tie)}\.Need-\S+((?: [^\s→]+)*)$", text, re.M)
    arguments = given.group(1) if given else ""
    reader = Reader(types, notes)
    clauses, by_hand = read_clauses(found, types, reader)
    functions = Functions(clauses, types)
    used = {name for piece in found if piece.kind == "use" for name in re.findall(r"[^\s{},.()]+", piece.text)}
    for clause in clauses:
        clause.rewrite(functions, used | {piece.name for piece in found if piece.name})
    for piece in by_hand:
        source, target = types.between[piece.name]
        if len(piece.parameters) == 1 and reader.citations(piece.text, {piece.parameters[0]: source}):
            head, tail = re.match(r"(?s)(.*?\s=)\s", piece.text).group(1), re.search(r"\s*$", piece.text).group()
            piece.text = f"{head} {functions.body(source, target, piece.parameters[0])}{tail}"
    block = functions.block(arguments)
    if block:
        found.insert(block_place(found, arguments), Piece(block))
    return broken_lines(re.sub(r"\n{3,}", "\n\n", "\n".join(piece.text for piece in found)))


# -- a repository


def formatted(text):
    """The text as `rattle fmt` lays it out."""
    rattle = os.path.join(os.path.dirname(os.path.realpath(shutil.which("rt"))), "rattle")
    with tempfile.TemporaryDirectory() as folder:
        path = os.path.join(folder, "Proof.antt")
        with open(path, "w", encoding="utf-8") as file:
            file.write(text)
        done = subprocess.run([rattle, "fmt", "--write", path], capture_output=True, text=True)
        if done.returncode != 0:
            raise ValueError(done.stderr.strip() or done.stdout.strip())
        return contents(path)


def contents(path):
    with open(path, encoding="utf-8") as file:
        return file.read()


def settled(text, walk, layout=formatted):
    """The file rewritten until nothing changes, and what there is to tell of it."""
    told = []
    for _ in range(8):
        notes = []
        new = layout(rewritten(text, walk, notes))
        told = told or list(dict.fromkeys(notes))
        if new == text:
            break
        text = new
    return text, told


def generated_folder(crate):
    return os.path.join(ROOT, "target", "generated", crate)


def generate(crate):
    """Has the `Lts` of a crate written, unless they are there and its code is not newer."""
    folder = generated_folder(crate)
    code = glob.glob(os.path.join(ROOT, "crates", crate, "src", "**", "*.rt"), recursive=True)
    if not os.path.isdir(folder) or os.path.getmtime(folder) < max(map(os.path.getmtime, code)):
        shutil.rmtree(folder, ignore_errors=True)
        os.makedirs(os.path.dirname(folder), exist_ok=True)
        subprocess.run(["rt", "dev", crate, "--generated", folder], cwd=ROOT, stdout=subprocess.DEVNULL)


def walk_of(crate, function):
    """The walk of a function, None where none was generated."""
    for root in (f"Rattle·{crate}·proofs", f"Rattle·{crate}"):
        path = os.path.join(generated_folder(crate), root, "proofs", function, "Lts.antt")
        if os.path.exists(path):
            return Walk(contents(path))
    return None


def proof_files(crate):
    """The proof files of a crate that have a path or a long line."""
    for path in sorted(glob.glob(os.path.join(ROOT, "crates", crate, "proofs", "**", "Proof.antt"), recursive=True)):
        text = contents(path)
        if STEP in text or any(len(line) > WIDTH for line in text.split("\n")):
            yield path


def crate_changes(crate):
    """The proof files of a crate that change, each with its text and what it becomes."""
    for path in proof_files(crate):
        shown = os.path.relpath(path, ROOT)
        walk = walk_of(crate, os.path.relpath(os.path.dirname(path), os.path.join(ROOT, "crates", crate, "proofs")))
        try:
            new, notes = settled(contents(path), walk)
        except ValueError as fault:
            print(f"{shown}: not rewritten: {fault}")
            continue
        if walk is None and STEP in new:
            notes.append("no walk was generated: only its lines are broken")
        for note in notes:
            print(f"{shown}: {note}")
        if new != contents(path):
            yield path, contents(path), new


def main():
    parser = argparse.ArgumentParser(description=__doc__, formatter_class=argparse.RawDescriptionHelpFormatter)
    parser.add_argument("--check", action="store_true")
    parser.add_argument("crates", nargs="*", metavar="CRATE")
    asked = parser.parse_args()
    crates = asked.crates or re.findall(r"^(\w+):", contents(os.path.join(ROOT, "crates.txt")), re.M)
    for crate in crates:                # all before the first file changes: rt would prove a changed crate anew before it looks at one above it
        if any(STEP in contents(path) for path in proof_files(crate)):
            generate(crate)
    changed = 0
    for crate in crates:
        for path, old, new in crate_changes(crate):
            changed += 1
            print(f"{os.path.relpath(path, ROOT)}: .before {old.count(STEP)} -> {new.count(STEP)}, characters {len(old)} -> {len(new)}")
            if not asked.check:
                with open(path, "w", encoding="utf-8") as file:
                    file.write(new)
    print(f"name_paths: {changed} files {'would change' if asked.check else 'changed'}")
    sys.exit(1 if asked.check and changed else 0)


if __name__ == "__main__":
    main()
