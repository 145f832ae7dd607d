"""The planted bugs as a table: reads planted/ and what became of each (planted/tried.tsv), and writes docs/PLANTED.md."""
import functools
import hashlib
import os.path
import pathlib
import re
import subprocess
from typing import NamedTuple

TOP = pathlib.Path(__file__).resolve().parent.parent
PLANTED = TOP / "planted"
TRIED = PLANTED / "tried.tsv"
PAGE = TOP / "docs" / "PLANTED.md"

ITEM = re.compile(r"\s*(?:pub(?:\([a-z]+\))? )?(?:unsafe )?(?:extern \"C\" )?(?:fn|const|struct|enum|trait) (\w+)")
# what rt says of an edit, and the words for it here; the first that fits
BECAME = [
    (re.compile(r"refused, as it must be \(only because a proof file names"), "refused, since a proof names what is gone"),
    (re.compile(r"refused, as it must be \(only by a limit"), "refused by a limit of the prover"),
    (re.compile(r"refused"), "refused"),
    (re.compile(r"NOT REFUSED"), "survived"),
    (re.compile(r"BAD EDIT"), "bad edit"),
    (re.compile(r"NOT TRIED"), "not tried"),
]
AT_SOURCE = re.compile(r"(src/\S+?):(\d+):\d+: (.*)")
AT_PROOF = re.compile(r"(?:\./)?proofs/(\S+?)\.antt:\d+:\d+: (.*)")
GOAL_LAST, GOAL_FIRST = re.compile(r"\(`([\w-]+)`\)"), re.compile(r"`([\w-]+)`")
# the most of an old or new text that is shown
SHOWN = 56


def crates_planted():
    return sorted(path.name for path in PLANTED.iterdir() if path.is_dir())


def planted_in(crate):
    return sorted((PLANTED / crate).glob("*.edit"))


def gate_edits(crate):
    return sorted(path.stem for path in (TOP / "crates" / crate / "must-fail").glob("*.edit"))


def crates_of_repository():
    """In the order of crates.txt."""
    return [line.split(":")[0].split()[0] for line in (TOP / "crates.txt").read_text().splitlines() if ":" in line]


def sum_of(bug):
    """A short sum of an edit's text: what was tried is of this edit alone."""
    path = PLANTED / f"{bug}.edit"
    return hashlib.sha256(path.read_bytes()).hexdigest()[:12] if path.is_file() else ""


@functools.cache
def kit():
    return subprocess.run(["rt", "version"], capture_output=True, text=True).stdout.split()[0]


# Edits.


class Edit(NamedTuple):
    file: str
    pairs: list


def read_edit(path):
    file, pairs = "", []
    for line in path.read_text().splitlines():
        if line.startswith("file: "):
            file = line.removeprefix("file: ").strip()
        elif line.startswith("old: "):
            pairs.append([line.removeprefix("old: "), ""])
        elif line.startswith("new:"):
            pairs[-1][1] = line.removeprefix("new:").removeprefix(" ")
    return Edit(file, pairs)


def implemented(text):
    """The type that the first line of an impl is for."""
    rest, depth = text.removeprefix("impl"), 0
    if rest.startswith("<"):
        for at, letter in enumerate(rest):
            depth += (letter == "<") - (letter == ">" and rest[at - 1] != "-")
            if depth == 0:
                rest = rest[at + 1 :]
                break
    name = re.match(r"\W*([\w:]+)", rest.split(" for ")[-1])
    return name[1].split("::")[-1] if name else ""


def item_at(crate, file, line):
    """The function (or other item) that a line of a source file stands in, or that an attribute there is of; nothing where it is not found."""
    path = TOP / "crates" / crate / file
    lines = path.read_text().splitlines() if path.is_file() else []
    while 0 < line < len(lines) and re.match(r"\s*(#\[|//)", lines[line - 1]):
        line += 1
    found = within = ""
    for text in lines[:line]:
        item = ITEM.match(text)
        if text.startswith("impl"):
            within = implemented(text)
        elif not text.startswith((" ", "}", ")")):
            within = "" if text and item else within
        if item:
            found = f"{within}::{item[1]}" if within and text.startswith(" ") else item[1]
    return found


def items_of(crate, edit):
    """The functions that the pairs of an edit stand in, each once."""
    path = TOP / "crates" / crate / edit.file
    text = path.read_text() if path.is_file() else ""
    places = [text[: text.index(old)].count("\n") + 1 for old, _ in edit.pairs if old in text]
    return list(dict.fromkeys(filter(None, (item_at(crate, edit.file, line) for line in places))))


# What became of them.


class Tried(NamedTuple):
    bug: str
    sum: str
    kit: str
    became: str
    by: str

    def is_refused(self):
        return self.became == "refused"

    @staticmethod
    def of(crate, name, said):
        """By what rt said of an edit."""
        became = next((words for pattern, words in BECAME if pattern.match(said)), said)
        return Tried(f"{crate}/{name}", sum_of(f"{crate}/{name}"), kit(), became, refused_by(crate, said) if became == "refused" else "")


def refused_by(crate, said):
    """The function whose goal was not proved, and the goal; or the proof that no longer holds."""
    source, proof = AT_SOURCE.search(said), AT_PROOF.search(said)
    if source:
        goal = GOAL_LAST.findall(source[3])
        return " ".join(f"`{it}`" for it in [item_at(crate, source[1], int(source[2])), *goal[:1]] if it)
    if proof:
        goal = GOAL_FIRST.findall(proof[2])
        written = proof[1].endswith("/Answers")
        return " ".join(f"`{it}`" for it in [proof[1].split("/")[-2] if written else proof[1], *goal[:1]])
    return ""


def read_tried():
    """What was tried, by bug; not what was tried of another text of the edit."""
    if not TRIED.is_file():
        return {}
    rows = (Tried(*line.split("\t")) for line in TRIED.read_text().splitlines()[1:])
    return {row.bug: row for row in rows if row.sum and row.sum == sum_of(row.bug)}


def record(crate, rows):
    """Puts what became of a crate's bugs in the place of what was known of them."""
    kept = [row for row in read_tried().values() if row.bug.split("/")[0] != crate]
    lines = ["\t".join(row) for row in sorted([*kept, *rows])]
    TRIED.write_text("\n".join(["\t".join(Tried._fields), *lines]) + "\n")


# The page.


def code(text):
    text = text.replace("|", "\\|")
    return f"`` {text} ``" if "`" in text else f"`{text}`"


def cut(text, start, end):
    """What is shown of a text whose part from start to end matters."""
    spare = max(0, SHOWN - (end - start)) // 2
    left, right = max(0, start - spare), min(len(text), end + spare)
    if right - left > 2 * SHOWN:
        right = left + 2 * SHOWN
    return ("…" if left else "") + text[left:right].strip() + ("…" if right < len(text) else "")


def change(old, new):
    """A pair of texts in a few words: what is there, and what is planted."""
    old, new = old.strip(), new.strip()
    same = len(os.path.commonprefix([old, new]))
    tail = len(os.path.commonprefix([old[same:][::-1], new[same:][::-1]]))
    shown = [cut(text, same, len(text) - tail) if len(text) > SHOWN else text for text in (old, new)]
    return f"{code(shown[0])} → {code(shown[1]) if shown[1] else 'nothing'}"


def row_of(crate, path, tried):
    edit = read_edit(path)
    place = ", ".join(f"`{it}`" for it in items_of(crate, edit))
    where = f"{edit.file.removeprefix('src/')}{': ' + place if place else ''}"
    row = tried.get(f"{crate}/{path.stem}")
    became = f"{row.became}{': ' + row.by if row.by else ''}" if row else "not tried"
    return f"| {path.stem} | {where} | {'; '.join(change(*pair) for pair in edit.pairs)} | {became} |"


def section(crate, tried):
    edits, lines = gate_edits(crate), [f"## {crate}", ""]
    if planted_in(crate):
        lines += ["| bug | where | planted | what became of it |", "|---|---|---|---|"]
        lines += [row_of(crate, path, tried) for path in planted_in(crate)]
        lines.append("")
    if edits:
        lines += [f"The gate's: {', '.join(edits)}.", ""]
    return lines


def summary(crates, tried):
    lines = ["| crate | in the gate | planted here | refused | survived | not tried |", "|---|---|---|---|---|---|"]
    totals = [0, 0, 0, 0, 0]
    for crate in crates:
        bugs = [f"{crate}/{path.stem}" for path in planted_in(crate)]
        rows = [tried[bug] for bug in bugs if bug in tried]
        refused, survived = sum(row.is_refused() for row in rows), sum(row.became == "survived" for row in rows)
        counts = [len(gate_edits(crate)), len(bugs), refused, survived, len(bugs) - refused - survived]
        totals = [a + b for a, b in zip(totals, counts)]
        lines.append(f"| {crate} | {' | '.join(map(str, counts))} |")
    return [*lines, f"| all | {' | '.join(map(str, totals))} |", ""], totals


HEAD = """# Planted bugs

A planted bug is a change of the code that keeps its shape and compiles: another constant, `<` for `<=`, two arguments swapped, a write left out, a refusal tried in another order. The checker must refuse it, since the code no longer does what the contracts say.
There are {all} of them. The {gate} must-fail edits of the gate (`crates/NAME/must-fail`) are such bugs, and each is tried at every gate; the {planted} of `planted/` are tried when they are asked for. Of these {refused} were refused, {survived} survived, and {rest} were not tried yet.

`tools/plant` tries them: it copies the repository, applies one bug at a time, and has the whole crate checked again. `tools/plant --table CRATE..` also writes this page, of which other crates keep their rows; what is known of each bug is in `planted/tried.tsv`, with the sum of its edit, so a bug that was changed counts as not tried. {kits}
A refusal names the function whose proof failed first, and the goal: `returns` is what the function ensures, at its return (`returns-clause-NAME` the clause of that name), `NAME-requires` what a callee requires, `loop-…` a loop's invariant, `invariant_of-…` what holds of every value of a type; `in-`, `then-`, `else-` and `after-` name the branch. Where a written proof failed first, its name stands there.
None is planted where no contract speaks: in how the words of a command or a call are read (which rule and family they name), and in what a program reads and prints; tests, samples and examples try these.
"""


def write():
    tried, crates = read_tried(), [it for it in crates_of_repository() if planted_in(it) or gate_edits(it)]
    table, (gate, planted, refused, survived, rest) = summary(crates, tried)
    kits = sorted({row.kit for row in tried.values()})
    head = HEAD.format(all=gate + planted, gate=gate, planted=planted, refused=refused, survived=survived, rest=rest, kits=f"They were tried with {' and '.join(kits)}." if kits else "")
    lines = [*head.splitlines(), "", *table]
    for crate in crates:
        lines += section(crate, tried)
    PAGE.write_text("\n".join(lines).rstrip() + "\n")
