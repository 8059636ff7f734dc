#!/usr/bin/env python3
"""list_gone.py FOLDER: public functions and types, theorems of specs/, and names of must-fail edits that stood in an earlier checkout
and stand here no more. FOLDER holds that checkout (git archive COMMIT | tar x -C FOLDER); run it at the top."""
import glob
import os
import re
import sys


def texts(root, pattern):
    for path in sorted(glob.glob(f"{root}/crates/*/{pattern}", recursive=True)):
        yield path[len(root) + 8 :].split("/")[0], path, open(path).read()


def functions(root):
    """Each crate's public functions and types, methods behind the type's name."""
    found = {}
    for crate, _, text in texts(root, "src/**/*.rt"):
        around = ""
        for line in text.split("\n"):
            if of := re.match(r"impl(?:<[^>]*>)? (?:\w+(?:<[^>]*>)? for )?(\w+)", line):
                around = of.group(1) + "::"
            if line.startswith("}"):
                around = ""
            if name := re.match(r"\s*pub fn (\w+)", line):
                found.setdefault(crate, set()).add((around if line.startswith(" ") else "") + name.group(1))
            if name := re.match(r"pub (?:struct|enum) (\w+)", line):
                found.setdefault(crate, set()).add(name.group(1))
    return found


def theorems(root, *folders):
    """Names that are declared with `pub`, and neither `abbrev` nor `unfoldable`, with an equation or the like as their type."""
    found = {}
    for folder in folders:
        for crate, path, text in texts(root, f"{folder}/**/*.antt"):
            for name, what in re.findall(r"^\s*pub ([^\s:({\[=]+) :(.*)$", text, re.M):
                if re.search(r"[≡≤<⊥]|→ [A-Z]", what) and not what.endswith("Type 0"):
                    found.setdefault(name, (crate, os.path.basename(path)))
    return found


def edits(root):
    """Names of wrong versions, and of edit files with one."""
    found = {}
    for crate, path, text in texts(root, "must-fail/*.edit"):
        names = re.findall(r"^# (?!refused)(.*)$", text, re.M) or [os.path.basename(path)[:-5]]
        for name in names:
            found.setdefault(name, crate)
    return found


def main():
    old, new = sys.argv[1].rstrip("/"), "."
    was, now = functions(old), functions(new)
    for crate in sorted(was):
        if gone := sorted(was[crate] - now.get(crate, set())):
            print(f"{crate}: functions and types: {', '.join(gone)}")
    stands = theorems(new, "specs", "proofs")
    for name, (crate, file) in sorted(theorems(old, "specs").items(), key=lambda it: it[1]):
        if name not in stands:
            print(f"{crate}: {file}: {name}")
    left = edits(new)
    for name, crate in sorted(edits(old).items()):
        if name not in left:
            print(f"{crate}: edit {name}")


main()
