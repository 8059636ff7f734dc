#!/usr/bin/env python3
"""What the repository promises beside what it promised at another commit, for docs/DESIGN-PASS.md: the public functions whose
signature or clauses changed, the definitions that changed, and the theorems whose statement changed, old and new; and those that are
gone. It goes by text, with the kit's own comparison.

    python3 tools/list_changes.py OLD      # OLD: a folder with the other commit's crates/
"""

import collections
import importlib.util
import pathlib
import re
import shutil
import sys

ROOT = pathlib.Path(__file__).resolve().parent.parent
PUBLIC = re.compile(r'^\s*pub (?:const )?(?:extern "C" )?fn (\w+)', re.M)
VALUES = ("abbrev", "unfoldable", "pub record", "record", "pub data", "data", "pub unfoldable", "pub ruleset", "ruleset")


def comparison():
    kit = pathlib.Path(shutil.which("rt")).resolve().parent.parent
    at = next(p for p in (kit / "port/contracts.py", kit.parent / "port/contracts.py") if p.exists())
    spec = importlib.util.spec_from_file_location("contracts", at)
    module = importlib.util.module_from_spec(spec)
    spec.loader.exec_module(module)
    return module


def public_functions(root):
    """The names of the public functions of each crate."""
    found = collections.defaultdict(set)
    for path in root.glob("crates/*/src/**/*.rt"):
        found[path.relative_to(root).parts[1]].update(PUBLIC.findall(path.read_text(encoding="utf-8")))
    return found


def statement(text, name):
    """A definition whole; of a lemma what it states, without its proof."""
    if text.startswith(VALUES):
        return text
    cut = [m.start() for m in re.finditer(r"(?:^| )(?:unfolding |" + re.escape(name) + r"(?: |$))", text)]
    return text[: cut[1]].strip() if len(cut) > 1 else text


def clauses(parts):
    return "; ".join((f"{name}: " if name else "") + text for name, text in parts)


def cell(text):
    return "`" + text.replace("|", "\\|").replace("`", "'") + "`" if text else ""


def changed_functions(report, public, still):
    signatures = {row[0]: row[1:] for row in report["signatures changed"]}
    contracts = {row[0]: row[1:] for row in report["contracts changed"]}
    for place in sorted(set(signatures) | set(contracts)):
        crate, name = place.split()[0], place.split()[-1].split("::")[-1]
        if name not in public[crate]:
            continue
        old, new = [], []
        if place in signatures:
            old.append(signatures[place][0])
            new.append(signatures[place][1])
        if place in contracts:
            needs, gives, needed, given = contracts[place]
            old += [f"{word} {clauses(parts)}" for word, parts in (("requires", needs), ("ensures", gives)) if parts]
            new += [f"{word} {clauses(parts)}" for word, parts in (("requires", needed), ("ensures", given)) if parts]
        if name not in still[crate]:
            new.insert(0, "private:")
        yield place.replace(" src/", " ", 1), " ".join(old), " ".join(new)


def changed_definitions(report):
    for crate, name, old, new in report["definitions"]["changed"]:
        before = [statement(text, name) for text in old]
        after = [statement(text, name) for text in new]
        if gone := [text for text in before if text not in after]:
            yield f"{crate} {name}", " / ".join(gone), " / ".join(text for text in after if text not in before)


def table(rows):
    print("| Where | Old | New |\n|---|---|---|")
    for where, old, new in rows:
        print(f"| {where} | {cell(old)} | {cell(new)} |")


def main():
    old = pathlib.Path(sys.argv[1]).resolve()
    report = comparison().compare(str(old), str(ROOT))
    print("### Public functions that stand where they stood\n")
    table(changed_functions(report, public_functions(old), public_functions(ROOT)))
    print("\n### Definitions, and statements of theorems and lemmas in specs/\n")
    table(changed_definitions(report))
    gone = collections.defaultdict(list)
    for crate, name in report["definitions"]["gone"]:
        gone[crate].append(name)
    print("\n### Definitions and lemmas of specs/ that are gone\n")
    print("| Crate | Names |\n|---|---|")
    for crate in sorted(gone):
        print(f"| {crate} | {', '.join(f'`{name}`' for name in sorted(gone[crate]))} |")


if __name__ == "__main__":
    main()
