#!/usr/bin/env python3
"""Lists lemmas whose statements are the same but for the names of what they bind, where they stand in two files of specs/ or proofs/.

usage: twin_lemmas.py [DIR]

A statement is read from the name's line and the lines that continue it, where it has an equation, a bound or a choice. Parameters of the module
around it are not read, so that two may differ in what those are: each pair is to be looked at. What differs in the order of its arguments, in the two
sides of an equation or in a type's other name is not seen.
"""
import collections, os, re, subprocess, sys

HEAD = re.compile(r"(\s*)(?:unfoldable |abbrev )?(?:pub )?(?!use |mod |record |data |module )(\S+)(?: \{[ℓκμν ]+\})? : (.+)$")


def statements(path):
    lines = open(path, encoding="utf-8").read().split("\n")
    inside = None
    for i, line in enumerate(lines):
        indent = len(line) - len(line.lstrip())
        if inside is not None and line.strip() and indent <= inside:
            inside = None
        if re.match(r"\s*(pub )?(record|data) .*where$", line):
            inside = indent
            continue
        found = HEAD.match(line)
        if inside is not None or not found or line.lstrip().startswith("--"):
            continue
        text = found.group(3)
        for more in lines[i + 1 :]:
            if not re.match(r"\s*→ ", more):
                break
            text += " " + more.strip()
        if "→" in text and re.search(r"[≡≤<⊎]", text):
            yield found.group(2), text


def renamed(text):
    bound = []
    for group in re.findall(r"[({]([^(){}:]+) : ", text):
        bound += group.split()
    names = {name: f"v{i}" for i, name in enumerate(dict.fromkeys(bound))}
    return "".join(names.get(word, word) for word in re.split(r"(\s+|[(){}.,])", text))


root = sys.argv[1] if len(sys.argv) > 1 else subprocess.run(["git", "rev-parse", "--show-toplevel"], capture_output=True, text=True).stdout.strip()
where = collections.defaultdict(set)
for folder, _, files in os.walk(os.path.join(root, "crates")):
    if not {"specs", "proofs"} & set(folder.split(os.sep)):
        continue
    for name in files:
        if name.endswith(".antt") and name not in ("Answers.antt", "Goals.antt"):
            path = os.path.join(folder, name)
            for lemma, text in statements(path):
                where[renamed(text)].add((os.path.relpath(path, root), lemma))
twins = {text: found for text, found in where.items() if len({path for path, _ in found}) > 1}
for text in sorted(twins):
    print(text)
    for path, lemma in sorted(twins[text]):
        print("   ", path, lemma)
print(f"{len(twins)} statements in two files or more")
