"""Sets for the name check: a corner each, and random ones whose names are few, so that many meet."""

import random

from model import BOOL, ENUM, INT32, MAP_KEYS, MESSAGE, OPTIONAL, REPEATED, STRING
from model import Enum, Field, File, Message, Value, encode
from wire import NO_OPTIONS, options

NAMES = "a A b B a_b aB AB _1 _A a1 A1 x X_y xY type Type self".split()
PACKAGES = [None, None, "a", "A", "b", "a.b", "a.B", "A.b", "x", "type"]


def field(name, number=1, **rest):
    return Field(name, number, OPTIONAL, BOOL, **rest)


def named(names):
    return [field(name, at + 1) for at, name in enumerate(names)]


def in_oneof(names, index=0, **rest):
    return [field(name, at + 1, oneof_index=index, **rest) for at, name in enumerate(names)]


def messages(*found, package=None, enums=(), rows=()):
    return encode([File(package, "proto3", list(found), list(enums))]), options(list(rows))


def packages(*names):
    return encode([File(name, "proto3") for name in names]), NO_OPTIONS


def map_entry(name):
    key, value = Field("key", 1, OPTIONAL, INT32), Field("value", 2, OPTIONAL, STRING)
    return Message(name, [key, value], map_entry=True)


def module_corners():
    """Structs, enums, oneof enums and modules of one module."""
    yield b"", NO_OPTIONS
    yield messages(Message("M"), Message("N"))
    yield messages(Message("a_b"), Message("AB"))
    yield messages(Message("a_b"), Message("aB"))
    yield messages(Message("M"), enums=[Enum("m")])
    yield messages(enums=[Enum("E"), Enum("e")])
    # Struct and module are both called _1.
    yield messages(Message("_1"))
    yield messages(Message("_1", nested=[Message("N")]))
    yield messages(Message("_1", enums=[Enum("E")]))
    yield messages(Message("_1", in_oneof(["f"]), oneofs=["o"]))
    yield messages(Message("M", nested=[Message("N")]), Message("m_", nested=[Message("N")]))
    yield messages(Message("HTTPServer", nested=[Message("N")]), Message("http_server", nested=[Message("N")]))
    yield messages(Message("A1B", nested=[Message("N")]), Message("a1_b"))
    yield messages(Message("M", nested=[Message("N"), Message("n")]))
    yield messages(Message("M", nested=[Message("N")], enums=[Enum("n")]))
    # A oneof's enum: called OneOf where a nested declaration has its name, a map entry too.
    yield messages(Message("M", in_oneof(["f"]), [Message("N")], oneofs=["n"]))
    yield messages(Message("M", in_oneof(["f"]), [Message("N"), Message("NOneOf")], oneofs=["n"]))
    yield messages(Message("M", in_oneof(["f"]), [Message("N"), Message("n_one_of")], oneofs=["n"]))
    yield messages(Message("M", in_oneof(["f"]), enums=[Enum("N"), Enum("NOneOf")], oneofs=["n"]))
    both = in_oneof(["f"]) + in_oneof(["g"], 1)
    yield messages(Message("M", both, oneofs=["o", "O"]))
    yield messages(Message("M", both, oneofs=["o", "p"]))
    yield messages(Message("M", both, [Message("O")], oneofs=["o", "o_one_of"]))
    repeated = Field("f", 1, REPEATED, MESSAGE, ".M.O")
    yield messages(Message("M", [repeated, *in_oneof(["g"])], [map_entry("O")], oneofs=["o"]))
    yield messages(Message("M", [repeated, *in_oneof(["g"])], [map_entry("O"), Message("OOneOf")], oneofs=["o"]))


def member_corners():
    """Fields and oneofs of a struct, variants of a oneof."""
    yield messages(Message("M", named(["f", "g"])))
    yield messages(Message("M", named(["f", "f"])))
    yield messages(Message("M", named(["a_b", "aB"])))
    yield messages(Message("M", named(["type", "Type"])))
    yield messages(Message("M", named(["self", "self_"])))
    yield messages(Message("M", named(["_1", "1".rjust(2, "_")])))
    yield messages(Message("M", named(["f"]) + in_oneof(["g"]), oneofs=["f"]))
    yield messages(Message("M", in_oneof(["f", "g"]), oneofs=["f"]))
    yield messages(Message("M", in_oneof(["a_b", "AB"]), oneofs=["o"]))
    yield messages(Message("M", in_oneof(["a_b", "aB"]), oneofs=["o"]))
    yield messages(Message("M", in_oneof(["f"]) + in_oneof(["f"], 1), oneofs=["o", "p"]))
    # Enum values don't count.
    yield messages(enums=[Enum("E", [Value("A_B", 0), Value("C", 1)])])
    # A map field's name counts, its entry's doesn't.
    repeated = Field("f", 1, REPEATED, MESSAGE, ".M.N")
    yield messages(Message("M", [repeated], [map_entry("N")]))
    yield messages(Message("M", [repeated, field("F", 2)], [map_entry("N")]))
    yield messages(Message("M", [repeated], [map_entry("N"), Message("n")]))


def unwritten_corners():
    """What isn't written: oneofs left without fields, what an extern path takes."""
    synthetic = in_oneof(["f"], proto3_optional=True)
    yield messages(Message("M", synthetic, oneofs=["f"]))
    yield messages(Message("M", synthetic, oneofs=["_f"]))
    yield messages(Message("M", synthetic, [Message("F")], oneofs=["_f"]))
    yield messages(Message("M", named(["o"]), oneofs=["o"]))
    yield messages(Message("_1", synthetic, oneofs=["_f"]))
    yield messages(Message("_1", named(["f"]), oneofs=["o"]))
    for path in (".M", ".m", ".M.N", ".M.n", ".x"):
        yield messages(Message("M", nested=[Message("N"), Message("n")]), Message("m"), rows=[(1, path, "::x")])
        yield messages(Message("M", nested=[Message("N")]), Message("m"), rows=[(1, path, "::x")])
    # A module is written though all in it is taken, and counts.
    yield messages(Message("_1", nested=[Message("N")]), rows=[(1, "._1.N", "::x")])
    yield messages(Message("M", nested=[Message("N")]), Message("m_", nested=[Message("N")]), rows=[(1, ".m_.N", "::x")])
    # An entry alone opens no module.
    repeated = Field("f", 1, REPEATED, MESSAGE, "._1.N")
    yield messages(Message("_1", [repeated], [map_entry("N")]))
    # A oneof's own name is never taken.
    yield messages(Message("M", in_oneof(["f"]), [Message("O")], oneofs=["o"]), rows=[(1, ".M.o", "::x")])
    yield messages(Message("Timestamp"), Message("timestamp"), package="google.protobuf", rows=[(12, "", "::t")])
    yield messages(Message("Timestamp"), Message("timestamp"), package="google.protobuf")


def package_corners():
    """Package segments as modules."""
    for names in (
        ("a", "a"),
        ("a", "A"),
        ("a.b", "a.c"),
        ("a.b", "A.b"),
        ("a.b", "a.B"),
        ("a.b", "a"),
        ("HTTP", "http"),
        ("a1", "a_1"),
        ("a_b", "aB"),
        ("type", "Type"),
        (None, "a", None),
        ("x.a", "y.A"),
        ("a.a", "a.A"),
        ("a.b.c", "a.b.C"),
    ):
        yield packages(*names)
    inside = Message("M", nested=[Message("N")])
    for package in ("a", "m", "M", "n", "m.x", "N.m"):
        yield encode([File(None, "proto3", [inside]), File(package, "proto3")]), NO_OPTIONS
        yield encode([File("p", "proto3", [inside]), File("p." + package, "proto3")]), NO_OPTIONS
        yield encode([File("p", "proto3", [inside]), File("p." + package)]), options([(1, ".p.M", "::x")])
        yield encode([File("p", None, [Message("_1")]), File("p._1")]), NO_OPTIONS
    # One package in two files is one module.
    for second in ("M", "m", "N"):
        yield encode([File("p", None, [Message("M")]), File("p", None, [Message(second + "_")])]), NO_OPTIONS
        yield encode([File("p", None, [Message("M")]), File("P", None, [Message(second + "_")])]), NO_OPTIONS
        yield encode([File("p", None, [Message("M")]), File("q", None, [Message(second + "_")])]), NO_OPTIONS


def corners():
    for found in (module_corners, member_corners, unwritten_corners, package_corners):
        yield from found()


class Draw:
    """A random set whose names are out of a short list."""

    def __init__(self, rng):
        self.rng = rng
        self.names = rng.sample(NAMES, rng.randint(3, 10))
        self.taken = set()

    def name(self, scope):
        """A name whose full name is new; none after a few tries."""
        for _ in range(4):
            name = self.rng.choice(self.names)
            if (scope, name) not in self.taken:
                self.taken.add((scope, name))
                return name
        return None

    def message(self, scope, level):
        name = self.name(scope)
        if name is None:
            return []
        rng, found = self.rng, Message(name)
        inner = f"{scope}.{name}"
        found.oneofs = [rng.choice(self.names) for _ in range(rng.choice((0, 0, 0, 1, 1, 2)))]
        for at in range(rng.choice((0, 0, 1, 2, 3))):
            found.fields.append(self.field(found, at + 1))
        if level < 3:
            for _ in range(rng.choice((0, 0, 0, 1, 1, 2))):
                found.nested += self.message(inner, level + 1)
        for _ in range(rng.choice((0, 0, 0, 0, 1))):
            found.enums += self.enum(inner)
        if rng.random() < 0.1:
            entry = self.name(inner)
            if entry is not None:
                value = Field("value", 2, OPTIONAL, BOOL)
                key = Field("key", 1, OPTIONAL, rng.choice(MAP_KEYS))
                found.nested.append(Message(entry, [key, value], map_entry=True))
                found.fields.append(Field(rng.choice(self.names), 9, REPEATED, MESSAGE, f"{inner}.{entry}"))
        return [found]

    def field(self, message, number):
        rng = self.rng
        found = field(rng.choice(self.names), number)
        if message.oneofs and rng.random() < 0.6:
            found.oneof_index = rng.randrange(len(message.oneofs))
            found.proto3_optional = True if rng.random() < 0.25 else None
        return found

    def enum(self, scope):
        name = self.name(scope)
        return [] if name is None else [Enum(name)]

    def case(self):
        rng, files = self.rng, []
        for _ in range(rng.choice((1, 1, 2, 3))):
            package = rng.choice(PACKAGES)
            scope = "" if package is None else "." + package
            found = File(package, "proto3")
            for _ in range(rng.choice((0, 1, 1, 2))):
                found.messages += self.message(scope, 1)
            for _ in range(rng.choice((0, 0, 0, 1))):
                found.enums += self.enum(scope)
            files.append(found)
        return encode(files), options(self.rows())

    def rows(self):
        paths = [f"{scope}.{name}" for scope, name in sorted(self.taken)]
        if not paths or self.rng.random() < 0.6:
            return []
        count = min(len(paths), self.rng.choice((1, 1, 2)))
        return [(1, path, "::x") for path in self.rng.sample(paths, count)]


def random_names(seed):
    return Draw(random.Random(f"names {seed}")).case()
