#!/usr/bin/env python3
"""Brings the repository's own definitions and lemmas to one spelling: words in snake case, types in camel case. Run once, at the top, after the kit's own upgrade.

A name is taken from the line that declares it in a file of specs/ or proofs/; names that the checker makes (answers to goals, invariants, measures) and names of
src/ stay. A name is respelled wherever it stands as a whole word: in specs/, proofs/, in the ghost items, clauses and comments of src/, and between back quotes in docs.
With --list it writes nothing and prints each name with its new spelling.
"""
import pathlib
import re
import sys

SIGN = re.compile(r"^(\s*)(?:(?:abbrev|unfoldable|pub)\s+)*([^\s:(){};,.]+)\s*:(?:\s+(.*))?$")
KIND = re.compile(r"^\s*pub (record|data) ([^\s:(){};,.]+)|^\s*(record|data) ([^\s:(){};,.]+)")
WORD = r"[^\s:(){};,.\[\]`\"=λ→×|←⟨⟩]"
MADE = re.compile(r":\s*goal\.|:\s*need\.|:\s*given\.")
# names that would be a tactic's
OTHER = {"first_of": "first_piece"}
SKIP = {"let", "in", "use", "pub", "abbrev", "unfoldable", "module", "mutual", "ruleset", "record", "data", "where"}


def files():
    for folder in ("specs", "proofs"):
        yield from sorted(pathlib.Path("crates").glob(f"*/{folder}/**/*.antt"))


def is_odd(name):
    return "-" in name.strip("-") and re.search(r"[^\W\d_]", name) or re.match(r"[a-z]\w*[A-Z]|[A-Z]\w*_", name)


def parts(name):
    out = []
    for piece in re.split(r"[-_]", name):
        out += re.findall(r"[A-Z]?[^A-Z]+|[A-Z]+(?![a-z])", piece)
    return [p for p in out if p]


def snake(name):
    return "_".join(p.lower() for p in parts(name.replace("getD", "get")))


def camel(name):
    return "".join(p[0].upper() + p[1:] for p in parts(name))


def declared():
    """The names that are declared, whether each is a type, and the crates that declare it."""
    names, homes = {}, {}
    for path in files():
        home = path.parts[1]
        text = path.read_text()
        lines = text.split("\n")
        for i, line in enumerate(lines):
            if line.lstrip().startswith(("--", "use ", "let ", "in ")) or " let " in line.split(":")[0]:
                continue
            m = KIND.match(line)
            if m:
                names[m[2] or m[4]] = True
                homes.setdefault(m[2] or m[4], set()).add(home)
                continue
            m = SIGN.match(line)
            if not m or MADE.search(line) or m[2] in SKIP or "=" in m[2]:
                continue
            whole = m[3] or ''
            j = i + 1
            while j < len(lines) and lines[j].startswith("      ") and not re.search(r"\s=\s", lines[j]):
                whole += " " + lines[j].strip()
                j += 1
            is_type = bool(re.search(r"(?:^|→ )Type \d\s*$", whole))
            names[m[2]] = names.get(m[2], False) or is_type
            homes.setdefault(m[2], set()).add(home)
    # variables, and names given by `as`
    for path in [*files(), *sorted(pathlib.Path("crates").glob("*/src/**/*.rt"))]:
        for line in path.read_text().split("\n"):
            line = re.sub(r'"[^"]*"', "", line)
            if path.suffix == ".rt":
                line = " ".join(re.findall(r" as (\w+)", line)) if line.startswith("ghost use") else ""
            for name in re.findall(r"(?<![\w.'-])[a-z]+[A-Z]\w*", "" if line.lstrip().startswith("--") else line):
                names.setdefault(name, False)
                homes.setdefault(name, set()).add(path.parts[1])
    return names, homes


def spelling(name, is_type):
    if name[0].isupper() or is_type:
        # a lemma that begins with a fact's name keeps the fact's capital
        if is_type:
            return camel(name)
        head, _, rest = name.partition("-")
        return head + "_" + snake(rest) if rest else name
    return snake(name)


def main():
    listing = "--list" in sys.argv
    found, homes = declared()
    names = {n: spelling(n, t) for n, t in found.items() if is_odd(n)}
    names = {a: b for a, b in names.items() if a != b}
    # two names of one crate that fall together: the one with dashes is a lemma about the other
    for a in sorted(names):
        others = [b for b in names if b != a and names[b] == names[a]] + [names[a]] * (names[a] in found)
        if "-" in a and any(homes[a] & homes[b] for b in others):
            names[a] += "_lem"
            print("together:", a, "->", names[a], file=sys.stderr)
    names |= {a: b for a, b in OTHER.items() if a in found}
    if listing:
        for a, b in sorted(names.items()):
            print(a, "->", b)
        return
    word = re.compile(rf"(?<!{WORD})(" + "|".join(sorted(map(re.escape, names), key=len, reverse=True)) + rf")(?!{WORD})")
    turn = lambda m: names[m[1]]
    for path in files():
        old = path.read_text()
        new = "\n".join(l if re.match(r"use Rattle\.std|use lib|use Prim|use mathlib|use borrow|use denote|use mir", l) else word.sub(turn, l) for l in old.split("\n"))
        if new != old:
            path.write_text(new)
    for path in sorted(pathlib.Path("crates").glob("*/src/**/*.rt")):
        old = path.read_text()
        new = "\n".join(re.sub(r"(?<= as )(\w+)", lambda m: names.get(m[1], m[1]), l) if l.startswith("ghost use Rattle.std") else word.sub(turn, l) for l in old.split("\n"))
        if new != old:
            path.write_text(new)
    for path in [pathlib.Path("README.md"), *sorted(pathlib.Path("docs").glob("*.md"))]:
        old = path.read_text()
        new = re.sub(r"`[^`\n]*`", lambda m: word.sub(turn, m[0]), old)
        if new != old:
            path.write_text(new)


main()
