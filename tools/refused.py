#!/usr/bin/env python3
"""Tries the edits crates/NAME/refused/*.edit on a copy of each crate: the compiler must refuse each, in one message that has the words of its line `says:`.

They are written as must-fail edits are, with that line more, and are of the kind that `rt must-fail` calls bad: no proof is needed to refuse them. `rt ci` goes before, since it builds the libraries.
"""
import glob
import os
import re
import shutil
import subprocess
import sys
import tempfile

ROOT = os.path.dirname(os.path.dirname(os.path.abspath(__file__)))
KIT = os.path.dirname(os.path.dirname(os.path.realpath(shutil.which("rt"))))


def library(name):
    """Where a library lies, of the repository or of the kit."""
    built = f"{ROOT}/crates/{name}/out/rlib/{name}.rlib"
    return built if os.path.isdir(f"{ROOT}/crates/{name}") else f"{KIT}/rlibs/{name}.rlib"


def words(crate):
    """The words of a check of a crate."""
    with open(f"{ROOT}/crates.txt", encoding="utf-8") as lines:
        named = dict(line.split(":", 1) for line in lines if ":" in line)
    root = "src/main.rt" if os.path.isfile(f"{ROOT}/crates/{crate}/src/main.rt") else "src/lib.rt"
    found = ["--crate-name", crate, root]
    for name in ["std", *named[crate].split()]:
        found += ["--extern", f"{name}={library(name)}"]
    for folder in [f"{KIT}/rlibs", *glob.glob(f"{ROOT}/crates/*/out/rlib")]:
        found += ["-L", f"dependency={folder}"]
    return [*found, "--antt-project", f"{KIT}/rattle/logic/antt-project.json", "--logic-built", f"{KIT}/logic_built", "--only="]


def fault(edit):
    """What is wrong with an edit, or None where the compiler refuses it as it should."""
    with open(edit, encoding="utf-8") as lines:
        said = dict(line.rstrip("\n").split(": ", 1) for line in lines if ": " in line)
    crate = edit.split(os.sep)[-3]
    with tempfile.TemporaryDirectory() as room:
        for part in ("src", "specs", "proofs"):
            if os.path.isdir(f"{ROOT}/crates/{crate}/{part}"):
                shutil.copytree(f"{ROOT}/crates/{crate}/{part}", f"{room}/{part}")
        with open(f"{room}/{said['file']}", encoding="utf-8") as it:
            text = it.read()
        if text.count(said["old"]) != 1:
            return "the old text does not stand in the file once"
        with open(f"{room}/{said['file']}", "w", encoding="utf-8") as it:
            it.write(text.replace(said["old"], said["new"]))
        ran = subprocess.run([f"{KIT}/bin/rattle", "check", *words(crate)], cwd=room, capture_output=True, text=True, timeout=600)
    errors = [line for line in (ran.stdout + ran.stderr).split("\n") if re.search(r"\berror\b", line)]
    if ran.returncode != 1 or len(errors) != 1 or said["says"] not in errors[0]:
        return f"status {ran.returncode}: " + " | ".join(errors or (ran.stdout + ran.stderr).strip().split("\n")[-3:])
    print(f"refused, as it must be: {os.path.relpath(edit, ROOT)}: {errors[0]}")
    return None


def main():
    status = 0
    for edit in sorted(glob.glob(f"{ROOT}/crates/*/refused/*.edit")):
        why = fault(edit)
        if why:
            print(f"not refused as it should be: {os.path.relpath(edit, ROOT)}: {why}")
            status = 1
    return status


if __name__ == "__main__":
    sys.exit(main())
