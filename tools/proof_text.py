"""The text of a proof file: its tokens, the pieces that start in its first column, and long lines broken."""
import re

WIDTH = 160

TOKEN = re.compile(r"(?P<comment>(?<![^\s(){}\[\],;])--[^\n]*)|(?P<space>\s+)|(?P<field>\.[^\s(){}\[\],;.]+)|(?P<open>[({\[])|(?P<close>[)}\]])"
                   r"|(?P<comma>[,;])|(?P<word>[^\s(){}\[\],;]+)")
KEYWORDS = {"let", "in", "λ", "=", "elim", "record", "rw", "at", "omega", "search", "simp", "unfold", "abbrev", "pub", "unfoldable", ":"}


class Token:
    __slots__ = ("kind", "text", "start", "end")

    def __init__(self, match):
        self.kind, self.text, self.start, self.end = match.lastgroup, match.group(), match.start(), match.end()

    def is_operator(self):
        return self.kind == "word" and not any(x.isalnum() or x == "_" for x in self.text)

    def binds(self, name):
        """Whether this is the last name of a `λ` before its dot, and that name."""
        return self.kind == "word" and self.text == name + "."

    def ends_term(self):
        """Whether what follows can be an argument or a field of the term that ends here."""
        return self.kind in ("close", "field") or (self.kind == "word" and not self.is_operator() and self.text not in KEYWORDS
                                                   and not self.text.endswith("."))

    def starts_argument(self):
        return self.kind == "open" or (self.kind == "word" and not self.is_operator() and self.text not in ("in", "=", ":", "at"))

    def deeper(self):
        """By how much the brackets are deeper behind this token."""
        return (self.kind == "open") - (self.kind == "close")


def tokens(text):
    return [token for token in map(Token, TOKEN.finditer(text)) if token.kind not in ("space", "comment")]


def group_end(found, at):
    """The number of the token behind the term at number `at`: a word, or all to the bracket that closes."""
    depth = 0
    while at < len(found):
        depth += found[at].deeper()
        at += 1
        if depth <= 0:
            break
    return at


class Piece:
    """What starts in the first column: a comment, a `use` line, a signature, an `unfolding` line or a clause."""

    def __init__(self, text):
        self.text, self.kind, self.name = text, "other", None
        signature = re.match(r"((?:(?:abbrev|pub|unfoldable) )*)([^\s:]+)(?: \{[^}]*\})? :\s", text)
        clause = re.match(r"([^\s(){}=]+)((?:\s+[^\s=]+)*?)\s+=\s", text)
        if text.lstrip().startswith("--"):
            self.kind = "comment"
        elif re.match(r"(pub )?use ", text):
            self.kind = "use"
        elif text.startswith("unfolding "):
            self.kind = "unfolding"
        elif signature:
            self.kind, self.name, self.marks = "signature", signature.group(2), signature.group(1)
        elif clause:
            self.kind, self.name, self.parameters = "clause", clause.group(1), clause.group(2).split()


def pieces(text):
    """The file cut at each line that starts in the first column; blank lines stay at the end of the piece before."""
    found, current = [], []
    for line in text.split("\n"):
        if line and not line[0].isspace() and line[0] not in ")}]" and current:
            found.append("\n".join(current))
            current = []
        current.append(line)
    return [Piece(text) for text in found + ["\n".join(current)]]


def rewriting_spans(found):
    """Where each `rw` has its equations and, behind `at`, what it rewrites."""
    spans = []
    for at, token in enumerate(found[:-1]):
        if token.text == "rw":
            end = group_end(found, at + 1)
            spans.append((found[at + 1].start, found[end - 1].end))
            if end + 1 < len(found) and found[end].text == "at":
                spans.append((found[end + 1].start, found[group_end(found, end + 1) - 1].end))
    return spans


def let_end(found, at):
    """The number of the `in` that ends the `let` at number `at`."""
    depth, open_lets = 0, 0
    while at < len(found):
        depth += found[at].deeper()
        if depth == 0:
            open_lets += (found[at].text == "let") - (found[at].text == "in")
            if open_lets == 0:
                break
        at += 1
    return at


def leading_lets_end(text):
    """Where the `let`s with which a clause's body begins end."""
    found = tokens(text)
    at = next((n for n, token in enumerate(found) if token.text == "="), None)
    if at is None:
        return 0
    at += 1
    while at < len(found) and found[at].text == "let":
        at = let_end(found, at) + 1
    return found[at].start if at < len(found) else len(text)


# -- lines


def broken_lines(text):
    """The text with its long lines broken; `rattle fmt` lays it out afterwards."""
    out = []
    for line in text.split("\n"):
        clause = re.match(r"([^\s(){}=]+(?: [^\s=]+)*? =) (\S.*)$", line)
        if len(line) <= WIDTH or line.lstrip().startswith("--"):
            out.append(line)
        elif re.match(r"(pub )?use ", line):
            out += split_use(line)
        elif clause:
            out += broken(clause.group(1)) + broken("    " + clause.group(2))
        else:
            out += broken(line)
    return "\n".join(out)


def split_use(line):
    """A `use` of many names as several of the same module: broken otherwise, the layout gives each name its line."""
    found = re.fullmatch(r"(.*\.\{)([^{}]*)\}", line)
    if not found:
        return [line]
    head, out, current = found.group(1), [], []
    for name in found.group(2).split(", "):
        if current and len(head + ", ".join(current + [name])) >= WIDTH:
            out.append(f"{head}{', '.join(current)}}}")
            current = []
        current.append(name)
    return out + [f"{head}{', '.join(current)}}}"]


def opened_group(found):
    """The end of the first bracket of the outermost tuple or record that reaches past the width: the layout gives each of its parts a line."""
    stack, groups = [], []
    for token in found:
        if token.kind == "open":
            stack.append([token, False])
        elif token.kind == "comma" and stack:
            stack[-1][1] = True
        elif token.kind == "close" and stack:
            start, listed = stack.pop()
            if listed and token.end > WIDTH >= start.end:
                groups.append(start.end)
    groups += [start.end for start, listed in stack if listed and start.end <= WIDTH]
    return min(groups, default=None)


def may_break(before, token):
    """Whether a line may end between two tokens: not within a `let`'s head, a `λ`'s, a `rw`'s, nor between a path function and its place."""
    return before.text not in ("λ", "let", "at", "rw", "unfold") and not before.text.startswith("λ") and "-from-" not in before.text \
        and token.text not in ("in", "=", "at")


def break_cost(depth, before, token):
    """How bad a line's end between two tokens is: best outermost, far right and behind an operator, worst within a chain of fields."""
    cost = depth * 30 - token.start
    if before.is_operator() and before.text != "→" or token.text == "→":
        cost -= 80
    if token.is_operator() and token.text != "→":
        cost += 60
    if token.kind == "field":
        cost += 1000
    return cost + (60 if token.start < WIDTH // 3 else 0)


def best_break(line, indent):
    """The column at which a long line is best broken; None if there is none."""
    found, depth, best = tokens(line), 0, None
    for before, token in zip(found, found[1:]):
        depth += (before.kind == "open") - (token.kind == "close")
        if len(indent) + 20 < token.start <= WIDTH and line[token.start - 1] == " " and may_break(before, token):
            cost = break_cost(depth, before, token)
            if best is None or cost <= best[0]:
                best = (cost, token.start)
    return best and best[1]


def broken(line):
    """A line cut until each part is below the width."""
    indent, rest, out = re.match(r"\s*", line).group() or "    ", line, []
    while len(rest) > WIDTH:
        group = opened_group(tokens(rest))
        if group and rest[group:].strip():
            return out + [rest[:group], indent + "  " + rest[group:].lstrip()]
        column = best_break(rest, indent)
        if column is None:
            break
        out.append(rest[:column].rstrip())
        rest = indent + rest[column:]
    return out + [rest]
