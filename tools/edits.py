#!/usr/bin/env python3
"""The table of must-fail edits in docs/PROMISES.md, made from the edits themselves. Run from the repository's root.

  python3 tools/edits.py            prints the table
  python3 tools/edits.py --write    puts it into docs/PROMISES.md, between the two marker comments
  python3 tools/edits.py --check    ends with status 1 if the table there is another one, if an edit does not say what it shows, or if one is stale

An edit (crates/NAME/must-fail/*.edit) is read by `rt`: a line 'file: PATH' holds for the pairs 'old: TEXT' and 'new: TEXT' after it, and every
other line is free text. `rt` puts in pair after pair, and takes an old text only where it stands once in its file; an edit is stale where one does
not. Of the free text this tool reads three kinds of line, and no other:

  # document 01, SECTION: WORDS     the sentence that the edit breaks, or the wrong program that it is; the first one is the edit's first line
  # document 02, TICKET: WORDS      the same, where a request of document 02 changed the sentence or made it
                                    (in a crate that neither document speaks of, as `streams`: # WORDS)
  # WORDS                           one of the mistakes of the edit, where it has several

It needs Python 3 and nothing else.
"""
import argparse
import os
import re
import sys

CRATES = "crates"
PAGE = os.path.join("docs", "PROMISES.md")
BEGIN = "<!-- edits: written by tools/edits.py --write -->"
END = "<!-- end of edits -->"
SENTENCE = re.compile(r"# document (\d\d), (.*)")

# The sections of document 01 and the requests of document 02 that an edit may name: a name that is not here is a slip, since the reader could not find it.
SECTIONS = {"01": ("Pattern", "Plan", "Shared subscripts", "Elimination", "Free elimination", "Job", "Where each refusal is checked",
            "Fields worked through", "Mistakes near at hand", "Agreement on statements", "Which form belongs where"),
            "02": ("Ticket 4", "Ticket 5", "Ticket 6", "Ticket 7", "Ticket 9", "Ticket 10", "Ticket 11", "Ticket 14")}

# Crates whose specs/ are the definitions of documents 01 and 02; the specs/ of every other crate are the statements of its functions.
DEFINING = ("foundation", "lists")
KINDS = ("code", "statement", "definition")

# Crates that neither document speaks of: the first line of an edit there is '# WORDS'.
UNNAMED = ("streams",)


class BadEdit(Exception):
    """An edit that does not say what it shows, or that is stale."""


class Edit:
    """What one edit changes, and what it says of itself."""

    def __init__(self, crate, name):
        self.crate, self.name = crate, name
        self.kinds = set()
        self.changes = []            # the file, the old text and the new one of each pair, as `rt` reads them
        self.said = []               # pairs: a sentence of a document, and the mistakes under it


def kind_of(crate, path, old):
    """What a change is a change of. A contract in src/ is a statement: the code under it stays right, and has to miss the wrong contract. In src/ only
    contracts have signs as ≡ and ×."""
    if path.startswith("specs/"):
        return "definition" if crate in DEFINING else "statement"
    if re.search(r"\b(ensures|requires)\b|[^\x00-\x7f]", old):
        return "statement"
    return "code"


def sentence_of(line):
    """The section and the words of a line that names a sentence."""
    document, said = SENTENCE.fullmatch(line).groups()
    section, colon, words = said.partition(": ")
    if not colon or not words.strip() or section not in SECTIONS.get(document, ()):
        raise BadEdit(f"'{line}' names no section of document 01 or request of document 02, or says nothing of it")
    return f"{section}: {words.strip()}"


def read_edit(crate, name, text):
    """An edit from its text."""
    edit, path, old = Edit(crate, name), "", ""
    lines = text.splitlines()
    if crate in UNNAMED and lines and lines[0].startswith("# ") and not SENTENCE.fullmatch(lines[0]):
        edit.said.append((lines[0].removeprefix("# ").strip(), []))
        lines = lines[1:]
    elif not lines or not SENTENCE.fullmatch(lines[0]):
        raise BadEdit("the first line has to begin with '# document 01, ' or '# document 02, ' and to say what the edit shows")
    for line in lines:
        if line.startswith("file: "):
            path = line.removeprefix("file: ")
        elif line.startswith("old: "):
            old = line.removeprefix("old: ")
            edit.kinds.add(kind_of(crate, path, line))
        elif line.startswith("new:"):
            edit.changes.append((path, old, line.removeprefix("new:").removeprefix(" ")))
            old = ""
        elif SENTENCE.fullmatch(line):
            edit.said.append((sentence_of(line), []))
        elif line.startswith("#"):
            edit.said[-1][1].append(line.lstrip("#").strip())
    return edit


def try_edit(edit):
    """Puts in pair after pair, as `rt` does, and writes nothing; a BadEdit tells of the first old text that does not stand once in its file."""
    texts = {}
    for path, old, new in edit.changes:
        whole = os.path.join(CRATES, edit.crate, path)
        if path not in texts:
            if not os.path.isfile(whole):
                raise BadEdit(f"'file: {path}' for 'old: {old}' names no file of the crate")
            with open(whole, encoding="utf-8") as file:
                texts[path] = file.read()
        found = texts[path].count(old) if old else 0
        if found != 1:
            raise BadEdit(f"'old: {old}' stands {found} times in {whole}, not once")
        texts[path] = texts[path].replace(old, new)
    if not edit.changes:
        raise BadEdit("it has no pair 'old: ' and 'new: '")


def edit_paths():
    """The edits of all crates, by crate and name."""
    for crate in sorted(os.listdir(CRATES)):
        folder = os.path.join(CRATES, crate, "must-fail")
        if os.path.isdir(folder):
            for file in sorted(os.listdir(folder)):
                if file.endswith(".edit"):
                    yield crate, file[:-len(".edit")], os.path.join(folder, file)


def read_edits():
    """The edits that say what they show, and a line for each that does not."""
    edits, faults = [], []
    for crate, name, path in edit_paths():
        with open(path, encoding="utf-8") as file:
            try:
                edits.append(read_edit(crate, name, file.read()))
            except BadEdit as fault:
                faults.append(f"{path}: {fault}")
    return edits, faults


def stale_edits(edits):
    """A line for each edit that is stale."""
    faults = []
    for edit in edits:
        try:
            try_edit(edit)
        except BadEdit as fault:
            faults.append(f"{os.path.join(CRATES, edit.crate, 'must-fail', edit.name)}.edit: {fault}")
    return faults


def shown(edit):
    """The last column: each sentence, with the mistakes under it in brackets."""
    parts = [sentence + (f" ({'; '.join(mistakes)})" if mistakes else "") for sentence, mistakes in edit.said]
    return ". ".join(parts).replace("|", "\\|")


def kinds_of(edit):
    return ", ".join(kind for kind in KINDS if kind in edit.kinds)


def counted(edits):
    """How many edits there are of each kind, so that nobody has to count rows."""
    groups = {}
    for edit in edits:
        groups.setdefault(kinds_of(edit), []).append(edit)
    counts = ", ".join(f"{len(groups[kind])} of {kind}" for kind in sorted(groups, key=lambda kind: (-len(groups[kind]), kind)))
    return f"{len(edits)} edits in {len({edit.crate for edit in edits})} crates: {counts}."


def table(edits):
    """The table in Markdown."""
    lines = [counted(edits), "", "| Crate | Edit | Edited | What it shows: document 01, by section, and document 02, by ticket |", "|---|---|---|---|"]
    lines += [f"| `{edit.crate}` | {edit.name} | {kinds_of(edit)} | {shown(edit)} |" for edit in edits]
    return "\n".join(lines) + "\n"


def parted(page):
    """The page up to the table, the table and the page behind it; None where the markers do not stand there once and in order."""
    found = re.fullmatch(f"(.*{re.escape(BEGIN)}\n)(.*)({re.escape(END)}.*)", page, re.S)
    return found.groups() if found and page.count(BEGIN) == page.count(END) == 1 else None


def page_faults(made, write):
    """Puts the table into the page where `write` asks for it; else says so if the page has another one."""
    with open(PAGE, encoding="utf-8") as file:
        parts = parted(file.read())
    if parts is None:
        return [f"{PAGE}: not one '{BEGIN}' with one '{END}' behind it"]
    head, body, tail = parts
    if write:
        with open(PAGE, "w", encoding="utf-8") as file:
            file.write(head + made + tail)
        return []
    return [] if body == made else [f"{PAGE}: the table is not that of the edits; tools/edits.py --write makes it anew"]


def main(words=None):
    parser = argparse.ArgumentParser(description="The table of must-fail edits.")
    parser.add_argument("--write", action="store_true", help=f"put the table into {PAGE}")
    parser.add_argument("--check", action="store_true", help="status 1 if the table there is another one, if an edit does not say what it shows, or if one is stale")
    asked = parser.parse_args(words)
    edits, faults = read_edits()
    made = table(edits)
    if asked.check:
        faults += stale_edits(edits)
    if asked.write and not faults or asked.check:
        faults += page_faults(made, asked.write and not faults)
    for fault in faults:
        print("edits:", fault, file=sys.stderr)
    if faults:
        return 1
    print(f"edits: {counted(edits)}" if asked.write or asked.check else made.rstrip("\n"))
    return 0


if __name__ == "__main__":
    sys.exit(main())
