#!/usr/bin/env python3
"""count_places.py [ROOT] [--list] [--point N]: counts, for the eight points of docs/DESIGN-PASS.md, the places in crates/*/src.

A line for each count: its name, and how many places. --list prints the places too, as file:line, the function or type, and what was found.
A count whose name ends in `?` has candidates: reading decides them, and the page says which were taken.
The files are read in rt fmt's layout: an item ends at the first `}` that stands as far in as its first word.
"""
import argparse, collections, glob, os, re

INTEGERS = {"u8", "u16", "u32", "u64", "u128", "usize", "i8", "i16", "i32", "i64", "isize"}
PRIMITIVES = INTEGERS | {"bool", "char"}
KEYWORDS = set("as break const continue else enum fn for if impl in let loop match mod move mut pub ref return self Self static struct trait true false type unsafe use where while".split())
FLAGS = {"given", "found", "more", "some", "good", "fine", "met", "present"}
KINDS = {"kind", "sort", "label", "class", "limit", "wiretype", "column", "asked", "case"}
NUMBERS = KINDS | {"number"}
COLUMNS = {"owner", "target", "kind", "label", "set", "settings", "boxed", "copy", "eq", "entries", "can", "who", "sums", "first", "end", "marks", "memo", "ranges", "setting"}
LITERAL = r"(?:\d[\w]*|b?'(?:\\.[^']*|[^'\\])')"
TOKEN = re.compile(r"[A-Za-z_]\w*!?|\d\w*|\"\"|''|->|=>|::|\.\.=?|[<>=!]=|&&|\|\||\S")


class Function:
    def __init__(self, path, line, name):
        self.path, self.line, self.name = path, line, name
        self.owner, self.comment, self.parameters, self.result, self.clauses, self.body = "", "", [], "", [], []

    def where(self):
        return f"{self.path}:{self.line} {self.owner + '::' if self.owner else ''}{self.name}"

    def text(self):
        return "\n".join(t for _, t in self.body)


class Type:
    def __init__(self, path, line, kind, name):
        self.path, self.line, self.kind, self.name, self.fields = path, line, kind, name, []

    def where(self):
        return f"{self.path}:{self.line} {self.name}"


# ---- reading the sources

def bare(line):
    """The line without its comment, with empty strings and characters."""
    line = re.sub(r'b?"(?:\\.|[^"\\])*"', '""', line)
    line = re.sub(r"b?'(?:\\[^']*|[^'\\])'", "''", line)
    return re.sub(r"//.*", "", line).rstrip()


def split_top(text, mark=","):
    """The parts of a text between marks that stand in no bracket."""
    parts, depth, part = [], 0, ""
    for i, c in enumerate(text):
        if c in "([{" or c == "<" and mark == ",":
            depth += 1
        elif c in ")]}" or c == ">" and mark == "," and text[i - 1] not in "-=":
            depth -= 1
        if c == mark and depth == 0:
            parts.append(part.strip())
            part = ""
        else:
            part += c
    return [p for p in parts + [part.strip()] if p]


def closing(text, start):
    """The place of the bracket that closes the one at start."""
    depth = 0
    for i in range(start, len(text)):
        depth += text[i] in "([{"
        depth -= text[i] in ")]}"
        if depth == 0:
            return i
    return len(text) - 1


def read_signature(function, text):
    """Parameters and result, of the text from the name on."""
    opened = 0
    if text.startswith("<"):
        depth = 0
        for opened, c in enumerate(text):
            depth += (c == "<") - (c == ">" and text[opened - 1] != "-")
            if depth == 0:
                break
    start = text.index("(", opened)
    end = closing(text, start)
    for part in split_top(text[start + 1:end]):
        name, _, kind = part.partition(":")
        function.parameters.append((name.strip().removeprefix("mut "), " ".join(kind.split())))
    result = re.match(r"\s*->\s*([^{;]*?)\s*(?:\bwhere\b|\{|;|$)", text[end + 1:].replace("\n", " "))
    function.result = result.group(1) if result else ""


def read_clauses(function, lines):
    """The clauses among the lines between a signature and its body."""
    text = "\n".join(lines)
    for found in re.finditer(r"\b(requires|ensures)\*?\s+(\w+\s+)?\{", text):
        end = closing(text, found.end() - 1)
        function.clauses.append((found.group(1), text[found.end():end].strip()))


def comment_above(lines, at):
    """The comment right above a line, attributes between them."""
    first = at
    while first and re.match(r" *(?:///?|#\[)", lines[first - 1]):
        first -= 1
    return " ".join(re.sub(r"^ *///? ?", "", x) for x in lines[first:at] if not re.match(r" *#\[", x))


def read_function(path, lines, at, owner):
    """The function whose first line is lines[at], and the number of its last line."""
    indent = re.match(r" *", lines[at]).group()
    name = re.search(r"\bfn (\w+)", lines[at]).group(1)
    function = Function(path, at + 1, name)
    function.owner, function.comment = owner, comment_above(lines, at)
    head, end = [], at
    while end < len(lines):
        line = bare(lines[end])
        head.append(line)
        if line == indent + "{" or line.endswith((" {", ";")) and not re.match(r"\s*(requires|ensures)", line):
            break
        if line.endswith("}") and "{" in line and not re.match(r"\s*(requires|ensures)", line):
            break
        end += 1
    text = "\n".join(head)
    read_signature(function, re.split(r"\n\s*(?:requires|ensures)", text.split("fn " + name, 1)[1])[0])
    read_clauses(function, [lines[i] for i in range(at, min(end + 1, len(lines)))])
    if head[-1].endswith(";"):
        return function, end
    if head[-1].endswith("}"):
        function.body = [(end + 1, head[-1][head[-1].index("{") + 1:-1])]
        return function, end
    start = end + 1
    while end + 1 < len(lines) and lines[end + 1] != indent + "}":
        end += 1
    function.body = [(i + 1, bare(lines[i])) for i in range(start, end + 1)]
    return function, end + 1


def read_type(path, lines, at):
    """The struct or enum whose first line is lines[at], and the number of its last line."""
    found = re.match(r"( *)(?:pub(?:\(\w+\))? )?(struct|enum) (\w+)", lines[at])
    item = Type(path, at + 1, found.group(2), found.group(3))
    if not bare(lines[at]).endswith("{"):
        return item, at
    end = at + 1
    while end < len(lines) and lines[end] != found.group(1) + "}":
        line = bare(lines[end]).strip().rstrip(",")
        if line and not line.startswith(("#", "ghost")):
            name, _, rest = re.match(r"(?:pub(?:\(\w+\))? )?(\w+)\s*(:?)(.*)", line).groups() if re.match(r"(?:pub(?:\(\w+\))? )?\w+", line) else ("", "", "")
            item.fields.append((name, rest.strip()))
        end += 1
    return item, end


def read_file(root, path):
    """All functions and types of a file, tests left out. A name for an integer type counts as one."""
    text = open(os.path.join(root, path), encoding="utf-8").read()
    for found in re.finditer(r"\btype (\w+) = (\w+);", text):
        if found.group(2) in INTEGERS:
            PRIMITIVES.add(found.group(1))
            INTEGERS.add(found.group(1))
    lines = text.split("\n")
    functions, types, owner, at = [], [], "", 0
    while at < len(lines):
        line = lines[at]
        if re.match(r" *(?:pub )?mod tests \{", line):
            break
        if re.match(r"impl\b", line):
            owner = re.sub(r"^impl(?:<.*?>)? (?:.* for )?&?(?:'\w+ )?(\w+).*", r"\1", line)
        elif line == "}":
            owner = ""
        if re.match(r" *(?:pub(?:\(\w+\))? )?(?:const )?(?:unsafe )?(?:extern \"C\" )?fn \w+", line):
            function, at = read_function(path, lines, at, owner)
            functions.append(function)
        elif re.match(r" *(?:pub(?:\(\w+\))? )?(?:struct|enum) \w+", line):
            item, at = read_type(path, lines, at)
            types.append(item)
        at += 1
    return functions, types


def read_sources(root):
    functions, types = [], []
    for path in sorted(glob.glob(os.path.join(root, "crates/*/src/**/*.rt"), recursive=True)):
        more = read_file(root, os.path.relpath(path, root))
        functions += more[0]
        types += more[1]
    return functions, types


def tokens(text):
    return TOKEN.findall(text)


def lines_with(functions, pattern):
    """Each line of a body in which the pattern stands."""
    rows = []
    for f in functions:
        for number, line in f.body:
            if re.search(pattern, line):
                rows.append(f"{f.path}:{number} {f.name}: {line.strip()}")
    return rows


# ---- 1: enums of Option's and Result's shape, flags beside values, numbers for kinds and refusals

def valued_enums(types):
    return [f"{t.where()}: {', '.join(n + r for n, r in t.fields)}" for t in types
            if t.kind == "enum" and any(rest for _, rest in t.fields)]


def flagged_structs(types):
    return [f"{t.where()}: {n}" for t in types if t.kind == "struct" and len(t.fields) > 1
            for n, kind in t.fields if n in FLAGS and "bool" in kind]


def flag_parameters(functions):
    return [f"{f.where()}: {n}" for f in functions for n, kind in f.parameters if n in FLAGS and kind == "bool"]


def kind_parameters(functions):
    return [f"{f.where()}: {n}: {kind}" for f in functions for n, kind in f.parameters if n in KINDS and kind in INTEGERS]


def kind_tests(functions):
    return lines_with(functions, rf"\b(?:{'|'.join(NUMBERS)}) (?:==|!=|<|<=) (?:\d|'')|(?:\d\w*|'') (?:<|<=) (?:\w+\.)?(?:{'|'.join(KINDS)})\b")


def calls(text):
    """Each call in a text: the function's name and its arguments."""
    for found in re.finditer(r"\b([a-z_]\w*)\(", text):
        end = closing(text, found.end() - 1)
        yield found, split_top(" ".join(text[found.end():end].split()))


def literal_arguments(functions):
    """Calls that give a literal for a kind or a field number."""
    places = {(f.name, len(f.parameters)): [i for i, (n, k) in enumerate(f.parameters) if n in NUMBERS and k in INTEGERS] for f in functions}
    rows = []
    for f in functions:
        for found, given in calls(f.text()):
            for i in places.get((found.group(1), len(given)), []):
                if re.fullmatch(r"\d\w*|''", given[i]):
                    line = f.body[f.text()[:found.start()].count("\n")][0]
                    rows.append(f"{f.path}:{line} {f.name}: {found.group(1)}({', '.join(given)})")
    return rows


def number_answers(functions):
    """Functions whose result is an integer that is a literal on some way, or of which the comment says what it is for none."""
    return [f.where() for f in functions if f.result in INTEGERS
            and (re.search(r"return \d+;|(?:^|\n)\s+\d+$|=> \d+,|return [A-Z]+;", f.text())
                 or re.search(r"\bnone\b|\b0 (?:where|for)\b|counted from 1|one more than", f.comment))]


def none_parameters(functions):
    """Parameters that are one more than a row's or a oneof's index, and 0 for none."""
    return [f"{f.where()}: {n}: {k}" for f in functions for n, k in f.parameters
            if n in ("up", "code") and k in INTEGERS or n == "c" and k == "usize"]


def none_fields(types):
    return [f"{t.where()}: {n}: {k}" for t in types if t.kind == "struct"
            for n, k in t.fields if n in ("kind", "up", "code", "oneof", "entryend", "worth", "wiretype", "number") and k in INTEGERS]


# ---- 2: twins

def normalised(function, keep_calls):
    """Parameters' types, result and body with placeholders for names, numbers, strings and types; called functions and fields are kept or not."""
    names, out = {}, []
    kinds = [re.sub(r"'\w+ ", "", k) for _, k in function.parameters]
    words = tokens(" , ".join(kinds) + " -> " + function.result + " ; " + function.text())
    for i, word in enumerate(words):
        after = words[i + 1] if i + 1 < len(words) else ""
        before = words[i - 1] if i else ""
        if word in PRIMITIVES:
            out.append("T")
        elif re.match(r"\d", word) or word in ('""', "''"):
            out.append("N")
        elif word in KEYWORDS or not re.match(r"[A-Za-z_]", word):
            out.append(word)
        elif keep_calls and (after in ("(", "::") or before in (".", "::") or word[0].isupper()) and not word.isupper():
            out.append(word)
        else:
            out.append(str(names.setdefault(word, len(names))))
    return " ".join(out)


def families(functions, keep_calls, least):
    """Groups of functions with one normal form of at least so many words."""
    groups = collections.defaultdict(list)
    for f in functions:
        form = normalised(f, keep_calls)
        if f.body and len(form.split()) >= least:
            groups[form].append(f)
    return sorted((g for g in groups.values() if len(g) > 1), key=lambda g: (-len(g), g[0].path))


def family_rows(groups):
    return ["; ".join(f.where() for f in g) for g in groups]


def word_groups(function, size=4):
    """The groups of four words that stand in a row in a function, all names alike."""
    words = ["n" if re.fullmatch(r"\d+", w) else w for w in normalised(function, False).split()]
    return collections.Counter(tuple(words[i:i + size]) for i in range(len(words) - size + 1))


def much_alike(functions, least=60, share=0.8):
    """Groups of functions of so many words, each of which shares four fifths of its groups of words with another."""
    rows = [(f, g, sum(g.values())) for f, g in ((f, word_groups(f)) for f in functions)]
    rows = [row for row in rows if row[2] >= least - 3]
    group = list(range(len(rows)))
    for i, (_, a, m) in enumerate(rows):
        for j, (_, b, n) in enumerate(rows[:i]):
            if min(m, n) >= share * max(m, n) and sum(min(a[w], b[w]) for w in a) >= share * sum(max(a[w], b[w]) for w in a | b):
                old, new = group[i], group[j]
                group = [new if g == old else g for g in group]
    found = collections.defaultdict(list)
    for g, (f, _, _) in zip(group, rows):
        found[g].append(f)
    return sorted((fs for fs in found.values() if len(fs) > 1), key=lambda fs: (-len(fs), fs[0].path))


def twin_types(types):
    """Types with the same fields but for their integers' sizes."""
    groups = collections.defaultdict(list)
    for t in types:
        shape = tuple((n, re.sub(r"\b(?:%s)\b" % "|".join(INTEGERS), "T", k)) for n, k in t.fields)
        if len(shape) > 1:
            groups[t.kind, shape].append(t)
    return ["; ".join(t.where() for t in g) for g in groups.values() if len(g) > 1]


# ---- 3: loops

def step_loops(functions):
    return [f.where() for f in functions for _ in re.findall(r"\bloop \{\s*match [\w:]*read_step\(", f.text())]


def other_loops(functions):
    return [f.where() for f in functions for _ in re.findall(r"\bloop \{(?!\s*match [\w:]*read_step\()", f.text())]


def while_loops(functions):
    return lines_with(functions, r"\bwhile ")


# ---- 4: by hand what a derive, From, TryFrom, Display or std's operators do

def bodies(functions, pattern):
    return [f.where() for f in functions if re.fullmatch(pattern, " ".join(tokens(f.text())))]


def casts(functions):
    return bodies(functions, r"\w+(?: \. \w+)? as \w+")


def extremes(functions):
    return bodies(functions, r"if \w+ < \w+ \{ return \w+ ; \} \w+")


def truth_chains(functions):
    """A bool's function that is ifs with `true` or `false` in one branch, and so is made of `&&` and `||`."""
    return [f.where() for f in functions if f.result == "bool" and not re.search(r"\b(loop|while|for|match)\b", f.text())
            and re.search(r"return (?:true|false);|\n\s+(?:true|false)$", "\n" + f.text())]


def truth_matches(functions):
    return [f.where() for f in functions if f.result == "bool" and len(re.findall(r"=> (?:true|false)\b", f.text())) > 1]


def copied_fields(functions):
    """A struct literal with two fields or more out of one value: a copy with changes."""
    rows = []
    for f in functions:
        counts = collections.Counter(re.findall(r"^\s+(\w+): (\w+)\.\1,?$", f.text(), re.M) and
                                     [b for a, b in re.findall(r"^\s+(\w+): (\w+)\.\1,?$", f.text(), re.M)])
        if any(n > 1 for n in counts.values()):
            rows.append(f.where())
    return rows


def turned_enums(functions):
    """A match whose every arm makes a value of another enum, or a number of each."""
    return [f.where() for f in functions if re.search(r"\bmatch \w+ \{", f.text())
            and len(re.findall(r"[A-Z]\w*::\w+(?:\(\w+\))? => (?:return )?(?:[A-Z]\w*::\w+(?:\(\w+\))?|with_place\(.*\)|coded\(.*\)),", f.text())) > 1]


def compared_bytes(functions):
    return lines_with(functions, r"\w+\[\w+\] != \w+\[\w+\]|\bsame_bytes\(|\bsame_row\(")


def cast_lines(functions):
    return lines_with(functions, r"\bas (?:%s|Index)\b" % "|".join(INTEGERS))


# ---- 5: parameters that go together, facts in several contracts

def parameter_runs(functions, least=3, length=2):
    """Runs of parameters (names and types) that stand in a row in so many functions; a run within a longer one counts if it is in more functions."""
    found = collections.defaultdict(set)
    for i, f in enumerate(functions):
        row = f.parameters
        for a in range(len(row)):
            for b in range(a + length, len(row) + 1):
                found[tuple(row[a:b])].add(i)
    kept = {run: at for run, at in found.items() if len(at) >= least}
    most = [run for run in kept if not any(len(o) == len(run) + 1 and kept[o] == kept[run] and (o[1:] == run or o[:-1] == run) for o in kept)]
    return {run: kept[run] for run in most}


def run_rows(functions):
    runs = parameter_runs(functions)
    return [f"{len(at)} functions: {', '.join(f'{n}: {k}' for n, k in run)}" for run, at in sorted(runs.items(), key=lambda x: (-len(x[1]), x[0]))]


def run_functions(functions, length):
    """Functions with a run of so many parameters that three functions have."""
    ids = set().union(*[at for run, at in parameter_runs(functions, 3, length).items()] or [set()])
    return [functions[i].where() for i in sorted(ids)]


def conjuncts(functions, kind):
    """What stands in the clauses of three functions or more; conjuncts of results apart."""
    found = collections.defaultdict(list)
    for f in functions:
        facts = {" ".join(c.split()) for k, text in f.clauses if k == kind for c in split_top(text, "×")}
        for fact in {c[1:-1].strip() if c.startswith("(") and closing(c, 0) == len(c) - 1 else c for c in facts}:
            found[fact].append(f)
    return sorted(((fact, fs) for fact, fs in found.items() if len(fs) > 2), key=lambda x: (-len(x[1]), x[0]))


def conjunct_rows(functions, kind):
    return [f"{len(fs)} functions: {fact}" for fact, fs in conjuncts(functions, kind)]


def terms(functions):
    """Terms in parentheses that stand in the clauses of three functions or more."""
    found = collections.defaultdict(set)
    for i, f in enumerate(functions):
        for _, text in f.clauses:
            for start in re.finditer(r"\((?=\w+ [^()\s])", text):
                found[" ".join(text[start.start() + 1:closing(text, start.start())].split())].add(i)
    return [f"{len(at)} functions: {term}" for term, at in sorted(found.items(), key=lambda x: (-len(x[1]), x[0])) if len(at) > 2 and re.search(r"\.(?:now|old|new)|\bf\b", term)]


def with_word(functions, word):
    return [f.where() for f in functions if any(re.search(rf"\b{word}\b", text) for _, text in f.clauses)]


# ---- 6: lengths and places beside buffers, parallel arrays, tables of numbers

def sized_slices(functions):
    """A slice with a number right behind it."""
    return [f"{f.where()}: {n}, {m}" for f in functions for (n, k), (m, l) in zip(f.parameters, f.parameters[1:])
            if re.match(r"&(?:'\w+ )?(?:mut )?\[", k) and l in ("usize", "u32") and m not in KINDS]


def parallel_columns(functions):
    return [f.where() for f in functions if sum(n in COLUMNS and re.match(r"&(?:mut )?\[", k) is not None for n, k in f.parameters) > 1]


def parallel_fields(types):
    return [f"{t.where()}: {', '.join(n for n, k in t.fields if k.startswith('['))}" for t in types if sum(k.startswith("[") for _, k in t.fields) > 1]


def number_tables(functions):
    return [f.where() for f in functions if any(re.match(r"&(?:mut )?\[(?:u16|usize|u64)\]", k) and n not in COLUMNS for n, k in f.parameters)]


def row_places(functions):
    return lines_with(functions, r"\w+ \* (?:4|5|7|8|18|384|ROW)\b|[+/%] ROW\b")


# ---- 7: switches on which step to run

def switches(functions):
    """A parameter that is tested against literals, each branch a call of its own, or an enum opened so."""
    rows = []
    for f in functions:
        for name, kind in f.parameters:
            if kind not in PRIMITIVES and not re.fullmatch(r"[A-Z]\w*", kind):
                continue
            chain = re.findall(rf"if !?{name}(?: == (?:\d\w*|''))? \{{\s*return (?:Ok\()?([\w:]+)\(", f.text())
            arms = re.findall(r"=> (?:return )?([\w:]+)\(", f.text()) if re.search(rf"match {name} \{{", f.text()) else []
            if chain or len(arms) > 1:
                rows.append(f"{f.where()}: {name}")
    return rows


def function_values(functions):
    return lines_with(functions, r"\[fn\(|: fn\(|&dyn |impl Fn|Box<dyn")


# ---- 8: proofs

def proof_files(root, name):
    return sorted(os.path.relpath(p, root) for p in glob.glob(os.path.join(root, f"crates/*/proofs/**/{name}"), recursive=True))


def declarations(root, path):
    """The names of a proof file that are declared with a type: `name : ..` or `abbrev name : ..`, also in a module."""
    text = open(os.path.join(root, path), encoding="utf-8").read()
    return re.findall(r"^(?: {2,4})?(?:(?:abbrev|unfoldable|pub|opaque) )*([^\s:(){}]+) (?:\{[^}]*\} |\([^)]*\) )*: ", text, re.M)


def answers(root):
    rows = []
    for path in proof_files(root, "Answers.antt"):
        text = open(os.path.join(root, path), encoding="utf-8").read()
        rows += [f"{path} {n}" for n in re.findall(r"^(?:abbrev )?(?:pub )?(\S+) : goal\.", text, re.M)]
    return rows


def lemma_files(root):
    own = {"Answers.antt", "Invariants.antt", "Proof.antt", "Lib.antt"}
    return [p for p in proof_files(root, "*.antt") if os.path.basename(p) not in own]


def lemmas(root):
    return [f"{p} {n}" for p in lemma_files(root) for n in declarations(root, p)]


def repeated_answers(root):
    """Answers whose text stands in three functions' files or more."""
    found = collections.defaultdict(set)
    for path in proof_files(root, "Answers.antt"):
        for part in open(os.path.join(root, path), encoding="utf-8").read().split("\n\n"):
            body = part.split("=", 1)
            if " : goal." in part and len(body) == 2 and len(body[1].split()) > 3:
                found[" ".join(body[1].split())].add(path)
    return [f"{len(at)} files: {text}" for text, at in sorted(found.items(), key=lambda x: -len(x[1])) if len(at) > 2]


# ---- what is printed

def all_counts(root):
    f, t = read_sources(root)
    yield 0, "functions", [x.where() for x in f]
    yield 0, "structs and enums", [x.where() for x in t]
    yield 1, "enums with values ?", valued_enums(t)
    yield 1, "structs with a flag beside a value", flagged_structs(t)
    yield 1, "parameters that are such a flag ?", flag_parameters(f)
    yield 1, "parameters that are a kind's number", kind_parameters(f)
    yield 1, "lines that test a kind's or a field's number against a literal", kind_tests(f)
    yield 1, "calls that give one as a literal", literal_arguments(f)
    yield 1, "functions that answer an integer, on some way a literal ?", number_answers(f)
    yield 1, "parameters that are 0 for none ?", none_parameters(f)
    yield 1, "fields that are a kind's number, or 0 for none ?", none_fields(t)
    same, alike = families(f, True, 1), families(f, False, 24)
    yield 2, "families of functions alike but for names, types and numbers", family_rows(same)
    yield 2, "functions in them", [x.where() for g in same for x in g]
    yield 2, "families alike also but for what they call and read ?", family_rows(alike)
    yield 2, "functions in them ?", [x.where() for g in alike for x in g]
    near = much_alike(f)
    yield 2, "groups of longer functions that are four fifths alike ?", family_rows(near)
    yield 2, "functions in them ?", [x.where() for g in near for x in g]
    yield 2, "families of types with the same fields", twin_types(t)
    yield 3, "loops over read_step", step_loops(f)
    yield 3, "other `loop`s", other_loops(f)
    yield 3, "`while`s", while_loops(f)
    yield 4, "functions that are a cast", casts(f)
    yield 4, "functions that are min or max", extremes(f)
    yield 4, "bool functions that are ifs with true or false", truth_chains(f)
    yield 4, "matches that give true or false for each variant", truth_matches(f)
    yield 4, "struct literals that copy two fields or more of a value", copied_fields(f)
    yield 4, "matches that turn each variant into another enum's, or a number", turned_enums(f)
    yield 4, "lines that compare bytes by hand or by same_bytes", compared_bytes(f)
    yield 4, "lines with a cast", cast_lines(f)
    yield 5, "runs of two or more parameters in three functions or more", run_rows(f)
    yield 5, "functions with such a run", run_functions(f, 2)
    yield 5, "functions with such a run of three or more", run_functions(f, 3)
    yield 5, "conjuncts of `requires` in three functions or more", conjunct_rows(f, "requires")
    yield 5, "conjuncts of `ensures` in three functions or more", conjunct_rows(f, "ensures")
    yield 5, "terms of values in the clauses of three functions or more", terms(f)
    yield 5, "functions that say Wrote", with_word(f, "Wrote")
    yield 6, "slices with a length or place behind them", sized_slices(f)
    yield 6, "functions with parallel columns", parallel_columns(f)
    yield 6, "structs with parallel arrays", parallel_fields(t)
    yield 6, "functions over tables of numbers", number_tables(f)
    yield 6, "lines that reckon a row's place ?", row_places(f)
    yield 7, "parameters that choose what to call ?", switches(f)
    yield 7, "lines with function values or dyn", function_values(f)
    yield 8, "Invariants.antt", proof_files(root, "Invariants.antt")
    yield 8, "Answers.antt", proof_files(root, "Answers.antt")
    yield 8, "answers", answers(root)
    yield 8, "Proof.antt", proof_files(root, "Proof.antt")
    yield 8, "lemma files", lemma_files(root)
    yield 8, "declarations in them", lemmas(root)
    yield 8, "answers that three functions or more repeat", repeated_answers(root)


def main():
    parser = argparse.ArgumentParser(description=__doc__, formatter_class=argparse.RawDescriptionHelpFormatter)
    parser.add_argument("root", nargs="?", default=".")
    parser.add_argument("--list", action="store_true", help="print each place")
    parser.add_argument("--point", type=int, help="only this point")
    args = parser.parse_args()
    for point, name, rows in all_counts(args.root):
        if args.point in (None, point):
            print(f"{point or ' '} {len(rows):5} {name}")
            if args.list:
                print("".join(f"        {row}\n" for row in rows), end="")


if __name__ == "__main__":
    main()
