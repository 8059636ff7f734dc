# The functions of message_graph.rs and context.rs over sets of fields. oracle/graph_cases writes `stdin` and `stdout` with it: the
# answers on large sets are these, those on small ones the Rust's.
import sys

GROUP, MESSAGE, REPEATED = 10, 11, 3
COPY = {1, 2, 3, 4, 5, 6, 7, 8, 13, 14, 15, 16, 17, 18}
EQ = {3, 4, 5, 6, 7, 8, 9, 12, 13, 14, 15, 16, 17, 18}


class Set:
    # rows: owner, target, type, label, boxed setting
    def __init__(self, rows):
        self.rows = rows
        self.edges = {}
        self.own = {}
        self.known = {}
        for row in rows:
            self.own.setdefault(row[0], []).append(row)
            if row[2] == MESSAGE and row[3] != REPEATED:
                self.edges.setdefault(row[0], set()).add(row[1])

    def is_nested(self, outer, inner):
        seen, todo = {outer}, [outer]
        while todo:
            for y in self.edges.get(todo.pop(), ()):
                if y not in seen:
                    seen.add(y)
                    todo.append(y)
        return inner in seen

    def should_box(self, row):
        owner, target, kind, label, _ = row
        return label != REPEATED and kind in (MESSAGE, GROUP) and self.is_nested(target, owner)

    def message(self, derive, x):
        key = derive, x
        if key not in self.known:
            self.known[key] = all(getattr(self, derive)(row) for row in self.own.get(x, []))
        return self.known[key]

    def copy(self, row):
        owner, target, kind, label, setting = row
        if label == REPEATED:
            return False
        if kind == MESSAGE:
            if self.is_nested(target, owner) or setting == 1:
                return False
            return self.message("copy", target)
        return kind in COPY

    def eq(self, row):
        owner, target, kind, label, _ = row
        if kind == MESSAGE:
            if label == REPEATED or self.is_nested(target, owner):
                return False
            return self.message("eq", target)
        return kind in EQ

    # which fields are boxed, and which of the first messages can derive Copy and Eq
    def answers(self, messages=64):
        return (
            [self.should_box(row) for row in self.rows],
            [self.message("copy", x) for x in range(messages)],
            [self.message("eq", x) for x in range(messages)],
        )


def large(case):
    rows = []
    for i in range(2048):
        last = i >= 2040
        kind = {1: 5, 6: 5, 7: 5, 2: 2, 3: 9}.get(case, 11) if last else 11
        if case == 4:
            kind = 10
        label = 3 if case == 5 or (case == 6 and last) else 1
        rows.append((i // 8, (i // 8 + 1) % 256, kind, label, 1 if case == 7 and i == 800 else 0))
    return Set(rows)


def random_set(r):
    n = r.randint(0, 64)
    messages = r.randint(1, 63)
    links = r.random()
    rows = []
    for owner in sorted(r.randrange(messages) for _ in range(n)):
        kind = r.choice((10, 11, 11, 11, 11, 11)) if r.random() < links else r.choice((1, 2, 3, 5, 8, 9, 12, 14, 5, 5, 5, 18, 7))
        rows.append((owner, r.randrange(messages), kind, r.choice((1, 1, 1, 1, 1, 2, 3)), int(r.random() < 0.1)))
    # what is left over are int32 fields of the last message
    return Set(rows + [(255, 0, 5, 1, 0)] * (64 - n))


def line(answers):
    return " ".join("".join("1" if f else "0" for f in flags) for flags in answers)


def large_lines():
    """How many fields are boxed, and how many messages can derive Copy and Eq."""
    sys.setrecursionlimit(10000)
    return [" ".join(str(sum(a)) for a in large(case).answers(256)) for case in range(8)]
