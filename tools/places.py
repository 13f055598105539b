#!/usr/bin/env python3
"""Counts, in crates/*/src, the places that docs/DESIGN-PASS.md speaks of. Run from the repository's root; with -v each place is shown.

    python3 tools/places.py [-v] [COMMIT]      without a commit, the files as they stand

Each count is of lines that a pattern finds, comments left out where it says so; what a count cannot see (twins, parallel arrays) is listed on the page by hand.
"""
import re
import subprocess
import sys

# What is counted: its point, what it is, and the pattern that a line of code has.
LINES = [
    (1, "enums", r"^\s*(pub )?enum "),
    (1, "refusals told as numbers", r"(Refused|Err)\(\d+\)|^\s*return (1|2|3|4|5|25);"),
    (1, "flags that are numbers", r"\b(flag|bad): usize|\bbad = 1;|flag != 0"),
    (1, "rows, steps or places that are 0 for none", r"\b(p|l|rho|set|row|fault|listed) (==|!=) 0\b|row: 0\b|=> 0,"),
    (3, "loops that are no `for`", r"^\s*('\w+: )?(while|loop)\b"),
    (3, "loops that are `for`", r"^\s*('\w+: )?for \w|^\s*for [(&]"),
    (4, "derives of equality or order", r"derive\([^)]*\b(PartialEq|PartialOrd|Ord)\b"),
    (4, "impls of From, TryFrom, Display", r"^\s*impl.* (From|TryFrom)<|^\s*impl.*\bDisplay for"),
    (7, "parameters that switch", r"\b(upper|joins|search|by_list): bool|\bwhich: "),
]
SIGNATURE = re.compile(r"^(?:    )?(?:pub )?(?:extern \"C\" )?fn (\w+)(?:<[^(]*>)?\((.*?)\)(?: ->|\s*$|\s*\{|\s*\n)", re.S | re.M)
MANY = 8


def texts(commit):
    """Each source file's name and its text."""
    if commit:
        names = subprocess.run(["git", "ls-tree", "-r", "--name-only", commit], capture_output=True, text=True, check=True).stdout.split()
    else:
        names = subprocess.run(["git", "ls-files", "-co", "--exclude-standard"], capture_output=True, text=True, check=True).stdout.split()
    for name in sorted(n for n in names if re.fullmatch(r"crates/\w+/src/.*\.rt", n)):
        if commit:
            yield name, subprocess.run(["git", "show", f"{commit}:{name}"], capture_output=True, text=True, check=True).stdout
        else:
            try:
                with open(name) as file:
                    yield name, file.read()
            except FileNotFoundError:
                continue


def parameters(text):
    """Each function's line, name and number of parameters."""
    for found in SIGNATURE.finditer(text):
        inner = re.sub(r"<[^<>]*>|\[[^\[\]]*\]|\([^()]*\)", "", found[2])
        count = len([part for part in inner.split(",") if part.strip()])
        yield text.count("\n", 0, found.start()) + 1, found[1], count


def main():
    arguments = sys.argv[1:]
    verbose = "-v" in arguments
    commit = next((a for a in arguments if a != "-v"), None)
    files = list(texts(commit))
    for point, what, pattern in LINES:
        places = []
        for name, text in files:
            for number, line in enumerate(text.split("\n"), 1):
                if re.search(pattern, line.split("//")[0]):
                    places.append(f"{name}:{number}: {line.strip()}")
        print(f"{point}. {what}: {len(places)}")
        if verbose:
            print("\n".join("    " + place for place in places))
    many = [(name, line, function, count) for name, text in files for line, function, count in parameters(text) if count >= MANY]
    total = sum(1 for name, text in files for _ in parameters(text))
    print(f"5. functions of {MANY} parameters and more: {len(many)} of {total}, {sum(m[3] for m in many)} parameters")
    if verbose:
        print("\n".join(f"    {name}:{line}: {function}, {count}" for name, line, function, count in many))


if __name__ == "__main__":
    main()
