#!/usr/bin/env python3
"""Says which statements, records, definitions and functions stand in two or more places.

  python3 tools/laws_twice.py [--check]

Of each crate's specs/ and proofs/ it compares, private or pub, up to the names of variables:

  law         the statement, hypotheses and the types of its variables included, in any order; a module's parameters count where the law or its
              proof uses them. A theorem that hands a law on (`Theorems`) is no copy of it
  record      the fields' types, in their order
  definition  type and body (marked `unfoldable` or `abbrev`, or what gives data: a number, a list)

and of src/ the functions, by parameters and body. Names are compared by what they mean in their file: through `use` and `pub use` to the module that declares them;
the kit's names, which several of its modules hand on, by themselves. Left out are statements about the goals of one function (`goal.`, `lts.`), those behind a `where` that speak of their clause's own variables, short names for a term within
a module, and definitions and functions of a few words.

--check  end with status 1 if a group is not in tools/laws_twice_allowed.txt: a line for each, its members as they are printed in brackets, a colon and
         the reason
"""
import argparse
import glob
import os
import re
import sys
from collections import defaultdict

ROOT = os.path.dirname(os.path.dirname(os.path.abspath(__file__)))
ALLOWED = os.path.join(ROOT, "tools", "laws_twice_allowed.txt")
DATA = {"ℕ", "Bool", "List", "Float", "Type", "Option", "Char", "String"}     # what a function gives that states nothing
FACTS = {"≡", "≤", "<", "≢", "⊎", "⊥"}                                         # what a hypothesis has in it that a search finds
FEW_WORDS = 4            # a definition's body below this says too little to be a copy
FEW_CODE_WORDS = 25      # and so does a function's

TOKEN = re.compile(r"[(){}\[\],;]|λ|\.[^\s(){}\[\],;.]+|[^\s(){}\[\],;λ]+|\.")
GENERATED = ("goal", "lts", "reads", "tie")                                    # what a proof file calls the modules that are written for its function
MARKS = r"(?:(?:pub|abbrev|unfoldable|private) )*"


def words(text):
    """The tokens of a term, a variable and each of its fields by itself; the dot that ends the names of a `λ` stands alone."""
    found = []
    for token in TOKEN.findall(text):
        stops = len(token) > 1 and token.endswith(".") and not token.startswith(".")
        found += fields_of(token[:-1] if stops else token) + ["."] * stops
    return found


def fields_of(token):
    """`w.plan.height` as `w`, `.plan`, `.height`; a name of a module, `Sets.member`, stays whole."""
    head, *fields = re.split(r"(?<=[^.])\.(?=[^.])", token)
    if token.startswith(".") or not re.match(r"[^\W\dA-Z]", head) or head in GENERATED:
        return [token]
    return [head] + [f".{field}" for field in fields]


def without_comments(text):
    return re.sub(r"(?m)(?:^|(?<=[\s(){}]))--[^\n]*", "", text)


def closing(found, at):
    """The place behind the bracket that closes the one at `at`."""
    depth = 0
    while at < len(found):
        depth += (found[at] in "({[") - (found[at] in ")}]")
        at += 1
        if depth == 0:
            break
    return at


def parts_of(found, between="→"):
    """A type cut at its outermost arrows, or at another word."""
    parts, depth = [[]], 0
    for word in found:
        depth += (word in "({[") - (word in ")}]")
        if word == between and depth == 0:
            parts.append([])
        else:
            parts[-1].append(word)
    return parts


def groups_of(found):
    """The named groups `(a b : T)`, `{a : T}`, `{a}` that the words consist of, as (names, T); None where they are something else."""
    groups, at = [], 0
    while at < len(found):
        if found[at] not in ("(", "{"):
            return None
        end = closing(found, at)
        inner = found[at + 1:end - 1]
        if ":" in inner and not any(word in "({[" for word in inner[:inner.index(":")]):
            groups.append((inner[:inner.index(":")], inner[inner.index(":") + 1:]))
        elif found[at] == "{" and all(re.match(r"[^\W\d][^=.]*$", word) for word in inner):
            groups.append((inner, []))
        else:
            return None
        at = end
    return groups


def bound_inside(found):
    """The names that groups, `λ` and `let` bind anywhere in the words."""
    names = set()
    for at, word in enumerate(found):
        if word in ("(", "{"):
            names.update(name for group in groups_of(found[at:closing(found, at)]) or [] for name in group[0])
        elif word == "λ":
            while at + 1 < len(found) and found[at + 1] not in (".", "(", "{"):
                at += 1
                names.add(found[at])
        elif word == "let" and at + 1 < len(found):
            names.add(found[at + 1])
    return names


def pattern_of(clause):
    """What a clause matches: the words before its `=`, behind its name."""
    return clause[1:clause.index("=")] if "=" in clause else []


def indent_of(line):
    return len(line) - len(line.lstrip())


class Declared:
    """A law, definition or record with the module parameters in front of it."""

    def __init__(self, module, line, name, marks, outer, stated):
        self.module, self.line, self.name, self.marks, self.outer = module, line, name, marks, outer
        self.stated, self.clauses, self.fields = stated, [], None
        self.enclosing = set()           # what the clause matches behind whose `where` it stands

    def member(self):
        return f"{self.module.crate}/{self.module.name}.{self.name}"


class Module:
    """A file of definitions and laws: what its names mean, and what it declares."""

    def __init__(self, crate, name, path, text):
        self.crate, self.name, self.path = crate, name, path
        self.full = f"Rattle.{crate}.{name}"
        self.imports, self.handed_on, self.declared = {}, {}, []
        lines = [(number, line) for number, line in enumerate(without_comments(text).split("\n"), 1) if line.strip()]
        self.read_block(lines, [])
        for one in self.declared:
            self.imports.setdefault(one.name, f"{self.full}.{one.name}")

    def read_block(self, lines, outer):
        """The declarations of one indentation, with the parameters of the modules around them."""
        at = 0
        while at < len(lines):
            indent, end = indent_of(lines[at][1]), at + 1
            while end < len(lines) and (indent_of(lines[end][1]) > indent or lines[end][1].lstrip()[0] in ")}]"):
                end += 1
            self.read_item(lines[at:end], outer)
            at = end

    def read_item(self, lines, outer):
        number, text = lines[0][0], " ".join(line.strip() for _, line in lines)
        if text.startswith(("use ", "pub use ")):
            self.read_use(text)
        elif re.match(MARKS + "module ", text):
            head = next(n for n, (_, line) in enumerate(lines) if re.search(r"\bwhere\s*$", line))
            header = words(" ".join(line for _, line in lines[:head + 1]))
            self.read_block(lines[head + 1:], outer + (groups_of(header[header.index("module") + 2:-1]) or []))
        elif re.match(MARKS + "(?:record|data) ", text):
            self.read_record(lines, outer)
        elif found := re.match(rf"({MARKS})([^\s:(){{}}=]+)((?: \{{[^}}]*\}})*) :(?= |$)(.*)", text):
            levels = groups_of(words(found.group(3))) or []
            self.declared.append(Declared(self, number, found.group(2), found.group(1), outer + levels, words(found.group(4))))
        elif self.declared and not text.startswith("unfolding "):
            self.read_clause(lines, outer)

    def read_clause(self, lines, outer):
        """A clause of what was declared last under its name; what stands behind its `where` is declared too."""
        end = next((n for n, (_, line) in enumerate(lines) if line.strip() == "where"), len(lines))
        clause = words(" ".join(line for _, line in lines[:end]))
        named = [one for one in self.declared if one.name == clause[0]]
        (named or self.declared)[-1].clauses.append(clause)
        first = len(self.declared)
        self.read_block(lines[end + 1:], outer)
        for one in self.declared[first:]:
            one.enclosing |= {word for word in pattern_of(clause) if word not in "(){}"}

    def read_use(self, text):
        """`use M.{a, b as c}` and `use M as m`: what a, c, m mean here; `pub use` hands them on."""
        found = re.match(r"(pub )?use (\S+?)(?:\.\{(.*)\}|\.\(.*\)| as (\S+))?$", text)
        if not found:
            return
        source = re.sub(r"^Rattle\.std\..*", "std", found.group(2))
        names = [name.split() for name in (found.group(3) or "").split(",") if name.strip()]
        for name, *renamed in names:
            here = renamed[-1] if renamed else name
            self.imports[here] = f"{source}.{name}"
            if found.group(1):
                self.handed_on[f"{self.full}.{here}"] = f"{source}.{name}"
        if not names:
            self.imports[found.group(4) or source.split(".")[-1]] = source

    def read_record(self, lines, outer):
        """A record with its parameters and its fields' types; the cases of a `data` count as fields."""
        head = next((n for n, (_, line) in enumerate(lines) if re.search(r"\bwhere\s*$", line)), len(lines) - 1)
        text = " ".join(line.strip() for _, line in lines[:head + 1])
        found = re.match(rf"({MARKS})(?:record|data) (\S+)(.*)", text)
        parameters = parts_of(words(found.group(3)), between=":")[0]
        one = Declared(self, lines[0][0], found.group(2), found.group(1), outer + (groups_of(parameters) or []), [])
        one.fields = []
        for _, line in lines[head + 1:]:
            field = re.match(r"\s+(?:pub )?([^\s:(){}]+) :(?= |$)(.*)", line)
            if field:
                one.fields.append((field.group(1), words(field.group(2))))
            elif one.fields:
                one.fields[-1][1].extend(words(line))
        self.declared.append(one)


class Tree:
    """All modules, with what each name means across them."""

    def __init__(self, modules):
        self.modules = modules
        self.handed_on = {name: source for module in modules for name, source in module.handed_on.items()}

    def meaning(self, module, word):
        """What a word means in a module: the full name of what it declares or uses, else the word itself."""
        full = module.imports.get(word) or module.imports.get(f"◌{word}◌")
        if full is None and "." in word.strip("."):
            head, _, rest = word.partition(".")
            full = f"{module.imports[head]}.{rest}" if head in module.imports else None
        while full in self.handed_on:
            full = self.handed_on[full]
        return full or word

    def text(self, module, found, numbers, variables):
        """Words as text, each variable by the number that it got when it was first met; the fields of a record that is written out stay."""
        out = []
        for before, word, after in zip(["", *found], found, [*found[1:], ""]):
            if before in ("{", ";") and after == "=":
                out.append(word)
            elif word in variables:
                out.append(f"${numbers.setdefault(word, len(numbers))}")
            else:
                out.append(self.meaning(module, word))
        return " ".join(out)

    # -- normal forms

    def own_words(self, one):
        """The words of a declaration but for those that it binds itself."""
        parts = [one.stated] + one.clauses + [kind for _, kind in one.fields or []]
        bound = set().union(*(bound_inside(part) for part in parts), *map(pattern_of, one.clauses)) if one.fields is None else set()
        return {word for part in parts for word in part} - bound

    def used_words(self, one, seen=frozenset()):
        """The words of a declaration and of what it cites beside it, since that uses the same modules' parameters."""
        used = self.own_words(one)
        for other in one.module.declared:
            if other.outer and other.name in used and other is not one and other.name not in seen:
                used |= self.used_words(other, seen | {one.name, other.name})
        return used

    def outer_parameters(self, one):
        """The parameters of the modules around a declaration that it uses. A search without a name sees every fact about what is used."""
        used, outer = self.used_words(one), []
        searches = any(re.search(r"omega arith|search|decide", " ".join(clause)) for clause in one.clauses)
        for name, kind in reversed([(name, kind) for names, kind in one.outer for name in names]):
            if name in used or searches and FACTS & set(kind) and used & set(kind) - FACTS:
                used |= set(kind)
                outer.insert(0, (name, kind))
        return outer

    def parameters(self, one):
        """The parameters of a declaration, as (name or None, type), and what it gives."""
        own, parts = [], parts_of(one.stated)
        for part in parts[:-1]:
            groups = groups_of(part)
            own += [(name, kind) for names, kind in groups for name in names] if groups else [(None, part)]
        return self.outer_parameters(one) + own, parts[-1]

    def type_text(self, module, kind, numbers, variables, any_type):
        """The type of a variable. A law of lists of numbers is a copy of the law of all lists: numbers and what is any type are alike."""
        if kind and kind[0] == "Type":
            return "Type"
        return self.text(module, ["•" if word in ("ℕ", "Bool", "Float") or word in any_type else word for word in kind], numbers, variables - any_type)

    def statement(self, one):
        """The statement in a form that no naming and no order of hypotheses changes."""
        parameters, conclusion = self.parameters(one)
        types = [kind for _, kind in parameters] + [conclusion]
        variables = {name for name, _ in parameters if name} | {name for kind in types for name in bound_inside(kind)}
        cited = {word for kind in types for word in kind}
        facts = [kind for name, kind in parameters if name not in cited]
        shape = {id(kind): " ".join("$" if word in variables else self.meaning(one.module, word) for word in kind) for kind in facts}
        numbers = {}
        said = self.text(one.module, conclusion, numbers, variables)
        asked = [self.text(one.module, kind, numbers, variables) for kind in sorted(facts, key=lambda kind: shape[id(kind)])]
        kinds, over = {name: kind for name, kind in parameters if name in cited}, []
        any_type = {name for name, kind in kinds.items() if kind and kind[0] == "Type"}
        while len(over) < len(numbers):
            name = list(numbers)[len(over)]
            over.append(f"${numbers[name]} : {self.type_text(one.module, kinds.get(name, []), numbers, variables, any_type)}")
        return " → ".join(asked + [said]) + " | " + ", ".join(over)

    def record(self, one):
        """The fields' types, and their names where no field says anything of another or of a parameter: that is data, not a statement."""
        parameters, _ = self.parameters(one)
        variables = {name for name, _ in parameters} | {name for name, _ in one.fields} | {name for _, kind in one.fields for name in bound_inside(kind)}
        numbers = {}
        fields = [self.text(one.module, kind, numbers, variables) for _, kind in one.fields]
        if not numbers:
            fields = [f"{name} : {field}" for (name, _), field in zip(one.fields, fields)]
        kinds = [self.text(one.module, kind, numbers, variables) for name, kind in parameters if name in numbers]
        return "; ".join(fields) + " | " + ", ".join(kinds)

    def definition(self, one):
        """Type and clauses; a name in a clause's patterns that means nothing in the file is a variable."""
        stated, clauses = self.statement(one), []
        for clause in one.clauses:
            variables = {word for word in pattern_of(clause) if self.meaning(one.module, word) == word and re.match(r"[^\W\d]", word)}
            variables |= bound_inside(clause) | {name for names, _ in one.outer for name in names}
            clauses.append(self.text(one.module, ["self" if word == one.name else word for word in clause], {}, variables - {one.name}))
        return stated + " := " + "; ".join(clauses)

    def kind(self, one):
        """law, definition, record, or None for what is not compared."""
        if one.fields is not None:
            return "record" if one.fields else None
        if one.enclosing & self.own_words(one) or self.names_a_term(one):
            return None
        if not one.clauses or any(word.split(".")[0] in GENERATED or word.startswith("statement") for word in one.stated):
            return None
        conclusion = parts_of(one.stated)[-1]
        single = len(conclusion) == 1 and self.meaning(one.module, conclusion[0]) != conclusion[0]
        if re.search("abbrev|unfoldable", one.marks) or not conclusion or conclusion[0] in DATA or single:
            return "definition" if sum(map(len, one.clauses)) - len(one.clauses) * 2 >= FEW_WORDS else None
        return "law"

    def names_a_term(self, one):
        """Whether it only gives a term of its module's parameters a short name there."""
        return one.outer and "abbrev" in one.marks and "pub" not in one.marks and len(parts_of(one.stated)) == 1

    def groups(self):
        """What stands in two or more places: (kind, normal form, members)."""
        found = defaultdict(list)
        for module in self.modules:
            for one in module.declared:
                kind = self.kind(one)
                if kind:
                    form = {"law": self.statement, "record": self.record, "definition": self.definition}[kind](one)
                    found[(kind, form)].append(one)
        for (kind, form), members in found.items():
            members = [one for one in members if not self.hands_on(one, members)]
            if len(members) > 1:
                yield kind, form, [(one.member(), f"{one.module.path}:{one.line}") for one in members]

    def hands_on(self, one, members):
        """Whether a theorem only cites a law that says the same."""
        others = {f"{other.module.full}.{other.name}" for other in members if other is not one}
        return one.module.name.endswith("Theorems") and any(self.meaning(one.module, word) in others for clause in one.clauses for word in clause)


# -- functions of src/

CODE_KEYWORDS = set("as bool break continue else enum f64 false fn for i64 if in let loop match mut return struct true u8 u16 u32 u64 usize while".split())
CODE_TOKEN = re.compile(r"[A-Za-z_]\w*|\d[\w.]*|::|->|=>|[-+*/%&|^<>=!]+|[^\s\w]")


def code_functions(text):
    """The functions of a file: name, line, and the words of parameters, result and body, contracts left out."""
    for found in re.finditer(r"\bfn\s+(\w+)", text):
        rest = CODE_TOKEN.findall(text[found.end():])
        end = closing(rest, rest.index("("))
        head, at = rest[:end], end
        while at < len(rest) and rest[at] != "{":
            if rest[at] in ("requires", "ensures", "decreases"):
                at = closing(rest, rest.index("{", at))
            else:
                head.append(rest[at])
                at += 1
        yield found.group(1), text.count("\n", 0, found.start()) + 1, head, rest[at:closing(rest, at)]


def code_form(name, head, body):
    """Parameters and body with each local name by its number; what is called, the fields and the types stay."""
    found, numbers, out = head + body, {}, []
    for at, word in enumerate(found):
        after, before = found[at + 1] if at + 1 < len(found) else "", found[at - 1] if at else ""
        local = re.match(r"[a-z_]", word) and word not in CODE_KEYWORDS and after not in ("(", "::") and before not in (".", "::")
        out.append("self" if word == name else f"${numbers.setdefault(word, len(numbers))}" if local else word)
    return " ".join(out)


def code_groups(files):
    """The functions of (crate, path, text) that stand in two or more places."""
    found = defaultdict(list)
    for crate, path, text in files:
        text = re.sub(r"//[^\n]*", "", text)
        for name, line, head, body in code_functions(text):
            if len(body) >= FEW_CODE_WORDS:
                found[code_form(name, head, body)].append((f"{crate}/{name}", f"{path}:{line}"))
    return [("function", form, members) for form, members in found.items() if len(members) > 1]


# -- a repository


def read_files(crate, part, ending):
    for path in sorted(glob.glob(os.path.join(ROOT, "crates", crate, part, "**", "*" + ending), recursive=True)):
        with open(path, encoding="utf-8") as file:
            yield path, file.read()


def read_tree():
    crates = sorted(os.listdir(os.path.join(ROOT, "crates")))
    modules, code = [], []
    for crate in crates:
        for part in ("specs", "proofs"):
            for path, text in read_files(crate, part, ".antt"):
                name = os.path.relpath(path, os.path.join(ROOT, "crates", crate)).removesuffix(".antt").replace(os.sep, ".")
                modules.append(Module(crate, name, os.path.relpath(path, ROOT), text))
        code += [(crate, os.path.relpath(path, ROOT), text) for path, text in read_files(crate, "src", ".rt")]
    return Tree(modules), code


def read_allowed(text):
    """The groups that may stand, as sets of members. A line without a reason is refused."""
    allowed = []
    for number, line in enumerate(text.split("\n"), 1):
        line = line.split("#")[0].strip()
        if line:
            members, _, reason = line.partition(":")
            if not reason.strip():
                sys.exit(f"laws_twice: {os.path.relpath(ALLOWED, ROOT)}:{number}: no reason is given")
            allowed.append(frozenset(members.split()))
    return allowed


def shown(form):
    """A normal form for the eye: without the modules' names, and not too long."""
    return " ".join(word if word.startswith(".") else word.split(".")[-1] for word in form.split(" | ")[0].split())[:200]


def main():
    parser = argparse.ArgumentParser(description=__doc__, formatter_class=argparse.RawDescriptionHelpFormatter)
    parser.add_argument("--check", action="store_true")
    asked = parser.parse_args()
    tree, code = read_tree()
    allowed = []
    if os.path.exists(ALLOWED):
        with open(ALLOWED, encoding="utf-8") as file:
            allowed = read_allowed(file.read())
    groups = sorted(tree.groups(), key=lambda group: (group[0], group[2])) + code_groups(code)
    unknown = [group for group in groups if frozenset(member for member, _ in group[2]) not in allowed]
    for kind, form, members in unknown:
        print(f"{kind} [{' '.join(sorted(member for member, _ in members))}]")
        print(f"  {shown(form)}")
        for _, place in members:
            print(f"  {place}")
    print(f"laws_twice: {len(unknown)} groups stand in two or more places, {len(groups) - len(unknown)} more are allowed")
    sys.exit(1 if asked.check and unknown else 0)


if __name__ == "__main__":
    main()
