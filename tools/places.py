#!/usr/bin/env python3
"""Counts the places of the design pass in crates/*/src: for each point, the lines that a pattern finds.

    python3 tools/places.py          the counts
    python3 tools/places.py -l       the lines too
"""
import glob
import re
import sys
from collections import defaultdict

SHOW = "-l" in sys.argv[1:]


def code(path):
    """The lines of a file without comments and ghost imports, with their numbers."""
    for n, line in enumerate(open(path, encoding="utf-8"), 1):
        line = line.rstrip("\n")
        bare = line.strip()
        if bare and not bare.startswith("//") and not bare.startswith("ghost use"):
            yield n, line


FILES = sorted(glob.glob("crates/*/src/**/*.rt", recursive=True))
LINES = [(f, n, l) for f in FILES for n, l in code(f)]

# what a single line shows
LINE = [
    ("1 own enums", r"^\s*(pub(\(crate\))? )?enum "),
    ("1 flags", r"\b[a-z_]+: bool\b"),
    ("1 numbers for kinds, causes and shapes", r"\b(kind|cause|shape|code|relation|p): u8\b"),
    ("1 numbers in which 0 is none", r"\b(next|child|column|node): u(8|16)\b"),
    ("1 refusals by return", r"return (Err|None|stop)\b"),
    ("3 loops by while", r"^\s*while "),
    ("3 loops over a range", r"^\s*for \w+ in .*\.\."),
    ("3 elements by a counter", r"\[(i|at|start|at \+ i)\]"),
    ("3 elements by literal numbers", r"\w\[[0-9]\]"),
    ("4 numbers of cases", r"=> [0-9]+,$"),
    ("4 words of cases", r"=> \"[^\"]*\",$|=> format!"),
    ("4 functions that convert or tell", r"fn (number|is_[a-z_]+|[a-z_]*_(word|words|text|name|note|of))(<[^(]*>)?\("),
    ("6 a buffer with a length or place beside it", r"(buffer|out|bytes|file): &(mut |'\w+ )*\[u8\], (length|len|at|start)\b"),
    ("6 arrays with a part in use", r"\[[^\[\];]+; ([A-Z_]+|[0-9]+)\]"),
    ("7 traits of one function, and stages", r"trait Fault|enum Stage|match self\.stage"),
    ("7 calls through a function object", r"impl .*\bFault for\b"),
]


def show(name, places):
    print(f"{name}: {len(places)}")
    if SHOW:
        for place in places:
            print("   ", place)


for name, pattern in LINE:
    rx = re.compile(pattern)
    show(name, [f"{f}:{n}: {l.strip()}" for f, n, l in LINES if rx.search(l) and "tests" not in f])

# clauses whose text stands in three functions or more
clauses = defaultdict(list)
for f, n, l in LINES:
    m = re.match(r"\s*(requires|ensures)( \w+)? \{ (.*) \}[;]?$", l)
    if m:
        clauses[m.group(3)].append(f"{f}:{n}")
repeated = {c: p for c, p in clauses.items() if len(p) >= 3}
show("5 clauses that stand three times or more", [f"{len(p)} x {c}" for c, p in sorted(repeated.items())])

# parameters that travel together in three functions or more
heads = re.compile(r"fn \w+(?:<[^(]*>)?\(([^{;]*?)\)(?: ->|\s*$|\s*\{|\n)", re.S)
pairs = defaultdict(set)
for f in FILES:
    if "tests" in f:
        continue
    text = "\n".join(l for _, l in code(f))
    for m in re.finditer(r"fn (\w+)(?:<[^(]*>)?\((.*?)\)", text, re.S):
        names = [p.strip().split(":")[0].strip() for p in m.group(2).split(",") if ":" in p]
        names = [n for n in names if n and n != "self"]
        for i, a in enumerate(names):
            for b in names[i + 1:]:
                pairs[(a, b)].add(f"{f}: {m.group(1)}")
together = {k: v for k, v in pairs.items() if len(v) >= 3}
show("5 parameters that travel together", [f"{len(v)} x {a}, {b}" for (a, b), v in sorted(together.items())])

# functions of one name in several places, but for those of a trait's impls
names = defaultdict(set)
for f in FILES:
    inside = None
    for n, l in code(f):
        m = re.match(r"(impl|pub trait|trait|pub\(crate\) trait)\b(.*)", l)
        if m and not l.startswith(" "):
            inside = " for " in l or "trait" in m.group(1)
        elif not l.startswith((" ", "}")):
            inside = False
        m = re.match(r"\s*(?:pub(?:\(crate\))? )?(?:const )?fn (\w+)", l)
        if m and not inside:
            names[m.group(1)].add(f"{f}:{n}")
show("2 functions of one name", [f"{k}: {', '.join(sorted(v))}" for k, v in sorted(names.items()) if len(v) > 1])

# proofs
answers = defaultdict(int)
for f in sorted(glob.glob("crates/*/proofs/**/*.antt", recursive=True)):
    answers[f.split("/")[1]] += sum(1 for _ in open(f, encoding="utf-8"))
print("8 lines of proofs:", ", ".join(f"{k} {v}" for k, v in sorted(answers.items())), f"(in all {sum(answers.values())})")
