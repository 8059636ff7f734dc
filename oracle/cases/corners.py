"""One small case for each corner that document 01 names and for each form of text."""

from model import (
    BOOL,
    BYTES,
    DOUBLE,
    ENUM,
    FLOAT,
    GROUP,
    INT32,
    INT64,
    MAP_KEYS,
    MESSAGE,
    OPTIONAL,
    REPEATED,
    REQUIRED,
    SCALARS,
    SINT32,
    STRING,
    UINT32,
    Enum,
    Field,
    File,
    Message,
    Value,
    encode,
)
from names import KEYWORDS
from wire import options


def file(messages=(), enums=(), package="a.b", syntax="proto3"):
    return File(package, syntax, list(messages), list(enums))


def field(name, type_=SINT32, target=None, label=OPTIONAL, number=1, **more):
    return Field(name, number, label, type_, target, **more)


def entry(name, key=STRING, value=BYTES, target=None):
    return Message(
        name, [field("key", key), field("value", value, target, number=2)], map_entry=True
    )


def names():
    fields = [
        field(word, number=at + 1)
        for at, word in enumerate(KEYWORDS + ["_1", "a1B", "XYz", "HTTPServer"])
    ]
    yield [file([Message("self", fields), Message("_1"), Message("XYz")])], []
    enums = [
        Enum(
            "Mode",
            [Value("ModeSelf", 0), Value("Mode1", 1), Value("MODE_ON", -1), Value("Modern", 2)],
        ),
        Enum("_1", [Value("_1_A", 5)]),
        Enum("Self", [Value("SELF_X", 0), Value("Self_self", 1)]),
    ]
    yield [file(enums=enums)], []
    yield [file(enums=enums)], [(11, "", "")]


def defaults():
    escapes = rb"\a\b\f\n\r\t\v\\\?\'" + rb"\"\101\x0a\X0A\08\7\77\377" + "\u00e9~ \"'".encode()
    yield [file([Message("M", [field("f", BYTES, default=escapes)])], syntax=None)], [(2, "f", "")]
    text = "a\t\r\n'\"\\ ~\x00\x7f\u00e9\u20ac\U0001f680"
    fields = [
        field(f"f{type_}", type_, number=type_, default=text.encode())
        for type_ in SCALARS
        if type_ != BYTES
    ]
    yield [file([Message("M", fields)], syntax="proto2")], []
    enum = Enum("Mode", [Value("MODE_ON", 0)])
    fields = [
        field("a", ENUM, ".a.b.Mode", default=b"MODE_ON"),
        field("b", ENUM, ".a.b.Mode", default=b"mode_self", number=2),
        field("c", MESSAGE, ".a.b.M", default=b"x", number=3),
        field("d", INT32, label=REPEATED, default=b"", number=4),
    ]
    yield [file([Message("M", fields)], [enum])], []
    yield [file([Message("M", fields)], [enum])], [(11, "", "")]


def paths():
    forms = [".", ".M", "f", ".M.o", "o.f", ".M.o.f", "M.o.f", "o", ".M.f", "M", ".x"]
    message = Message("M", [field("f", STRING, oneof_index=0), field("g", number=2)], oneofs=["o"])
    enum = Enum("M", [Value("f", 0), Value("g", 1)])
    for kind in (5, 6, 7, 8):
        rows = [(kind, form, f"#[{form}]") for form in forms]
        yield [file([message], package=None), file(enums=[enum], package="o")], rows
    for kind in (2, 3, 4, 9):
        for form in forms:
            inner = Message(
                "M",
                [
                    field("f", BYTES, oneof_index=0),
                    field("f", BYTES, number=2),
                    field("f", MESSAGE, ".M.E", REPEATED, 3),
                ],
                [entry("E", value=BYTES)],
                oneofs=["o"],
            )
            yield [file([inner], package=None)], [(kind, form, "")]


def externs():
    inner = Message("In", nested=[Message("msg")])
    user = Message(
        "U",
        [
            field("a", MESSAGE, ".g.In.msg"),
            field("b", MESSAGE, ".g.In", REPEATED, 2),
            field("c", ENUM, ".g.E", number=3),
        ],
    )
    files = [file([inner], [Enum("E")], package="g"), file([user], package="a")]
    for rows in (
        [(1, ".g", "crate::MyMod")],
        [(1, ".g", "::x::Type::self")],
        [(1, ".g.In", "crate::In<T>")],
        [(1, ".g.In.msg", "a b"), (1, ".g", "crate")],
        [(1, ".g.E", "E")],
        [(1, ".a", "x"), (1, ".g.I", "y")],
        [(1, ".g.In.msg", "x")],
        [(1, ".a.U.o", "x")],
    ):
        yield files, rows
    known = [
        Message(name)
        for name in ("Any", "BoolValue", "BytesValue", "StringValue", "Empty", "UInt64Value")
    ]
    user = Message(
        "U",
        [
            field(f"f{at}", MESSAGE, f".google.protobuf.{each.name}", number=at + 1)
            for at, each in enumerate(known)
        ],
    )
    for rows in (
        [],
        [(12, "", "::prost_types")],
        [(12, "", "crate::Types"), (10, "", "crate::p")],
        [(1, ".google", "g"), (12, "", "T")],
    ):
        yield [file(known, package="google.protobuf"), file([user])], rows


def links():
    ring = [
        Message("A", [field("b", MESSAGE, ".a.b.B")]),
        Message("B", [field("c", MESSAGE, ".a.b.C", oneof_index=0)], oneofs=["o"]),
        Message(
            "C", [field("a", MESSAGE, ".a.b.A", REQUIRED), field("d", MESSAGE, ".a.b.D", number=2)]
        ),
        Message("D"),
    ]
    yield [file(ring)], []
    yield [file(ring)], [(1, ".a.b.B", "x::B")]
    yield [
        file(
            [
                Message(
                    "M",
                    [
                        field("m", MESSAGE, ".a.b.M"),
                        field("g", GROUP, ".a.b.M", number=2),
                        field("r", MESSAGE, ".a.b.M", REPEATED, 3),
                    ],
                )
            ]
        )
    ], []
    yield [
        file(
            [
                Message("M", [field("g", GROUP, ".a.b.N")]),
                Message("N", [field("m", MESSAGE, ".a.b.M")]),
            ],
            syntax="proto2",
        )
    ], []
    holder = Message(
        "M",
        [field("f", MESSAGE, ".a.b.M.E", REPEATED)],
        [entry("E", value=MESSAGE, target=".a.b.M")],
    )
    yield [file([holder])], []
    for path in (".a.b.M.f", ".a.b.M.o.f", ".a.b.M.o", "f"):
        inner = Message(
            "M",
            [
                field("f", MESSAGE, ".a.b.N", oneof_index=0),
                field("g", BOOL, number=2, oneof_index=0),
                field("f", number=3),
            ],
            oneofs=["o"],
        )
        yield [file([inner, Message("N")])], [(4, path, "")]
    for type_ in (FLOAT, DOUBLE, INT64, STRING, BYTES, ENUM, MESSAGE, GROUP):
        target = {ENUM: ".a.b.E", MESSAGE: ".a.b.N", GROUP: ".a.b.N"}.get(type_)
        for label in (OPTIONAL, REPEATED):
            yield [
                file([Message("M", [field("f", type_, target, label)]), Message("N")], [Enum("E")])
            ], []


def forms():
    for syntax in ("proto2", "proto3"):
        fields = []
        for label in (OPTIONAL, REQUIRED, REPEATED):
            for type_ in (INT32, STRING, ENUM, MESSAGE, GROUP):
                target = {ENUM: ".a.b.E", MESSAGE: ".a.b.N", GROUP: ".a.b.N"}.get(type_)
                for optional in (None, False, True):
                    fields.append(
                        field("f", type_, target, label, len(fields) + 1, proto3_optional=optional)
                    )
        yield [file([Message("M", fields), Message("N")], [Enum("E")], syntax=syntax)], []
        fields = [
            field("f", UINT32, label=REPEATED, number=1),
            field("f", UINT32, label=REPEATED, number=2, options=True),
            field("f", UINT32, label=REPEATED, number=3, packed=False),
            field("f", UINT32, label=REPEATED, number=4, packed=True),
            field("f", STRING, label=REPEATED, number=5, packed=False),
            field("f", number=6, packed=False, deprecated=True),
            field("f", label=REPEATED, number=7, deprecated=True),
            field("f", number=8, deprecated=False),
        ]
        yield [file([Message("M", fields)], syntax=syntax)], []
    values = [
        Value("A", 0),
        Value("B", 0),
        Value("C", -(2**31), deprecated=True),
        Value("a", 0),
        Value("D", 2**31 - 1, options=True),
    ]
    yield [file(enums=[Enum("E", values), Enum("Empty")])], []
    yield [file(enums=[Enum("E", values)])], [(9, "E", ""), (10, "", "p"), (6, "C", "#[c]")]
    for optional in (None, True):
        inner = Message(
            "M",
            [
                field("x", oneof_index=0, proto3_optional=optional),
                field("y", number=2, oneof_index=2, deprecated=True, default=b"1"),
            ],
            oneofs=["o", "left_out", "type"],
        )
        yield [file([inner])], []


def nesting():
    for taken in ("nested", "entry", "enum"):
        inner = Message("M", [field("x", oneof_index=0)], oneofs=["my_kind"])
        if taken == "nested":
            inner.nested.append(Message("MyKind"))
        elif taken == "enum":
            inner.enums.append(Enum("MY_KIND"))
        else:
            inner.nested.append(entry("My_Kind"))
            inner.fields.append(field("m", MESSAGE, ".a.b.M.My_Kind", REPEATED, 2))
        yield [file([inner])], []
    deep = Message(
        "M",
        [field("x", oneof_index=0)],
        [Message("N", nested=[Message("P", enums=[Enum("E", [Value("X", 0)])])])],
        oneofs=["o"],
    )
    yield [file([deep])], [(10, "", "crate::prost"), (9, ".", "")]
    yield [file([Message("M", nested=[Message("N")])])], [(1, ".a.b.M.N", "x::N")]
    yield [file([Message("M", enums=[Enum("E")])])], [(1, ".a.b.M.E", "x::E")]
    inside = Message(
        "I",
        [
            field("a", MESSAGE, ".a.c.T"),
            field("b", MESSAGE, ".a.b.T", number=2),
            field("c", MESSAGE, ".T", number=3),
            field("d", MESSAGE, ".a.b.M.I", REPEATED, 4),
            field("e", MESSAGE, ".a.b.M", REPEATED, 5),
        ],
    )
    outside = Message("M", list(inside.fields), [inside])
    yield [
        file([outside, Message("T")]),
        file([Message("T")], package="a.c"),
        file([Message("T")], package=None),
    ], []
    variants = Message(
        "M",
        [
            field("a", MESSAGE, ".a.c.T", oneof_index=0),
            field("b", ENUM, ".a.b.M.E", number=2, oneof_index=0),
        ],
        enums=[Enum("E")],
        oneofs=["o"],
    )
    yield [file([variants]), file([Message("T")], package="a.c")], []


def maps():
    for key in MAP_KEYS:
        inner = Message("M", [field("f", MESSAGE, ".a.b.M.E", REPEATED)], [entry("E", key, BYTES)])
        yield [file([inner])], []
    for value in SCALARS + [ENUM, MESSAGE]:
        target = {ENUM: ".a.b.K", MESSAGE: ".a.b.M"}.get(value)
        inner = Message(
            "M",
            [field("f", MESSAGE, ".a.b.M.E", REPEATED, deprecated=True, default=b"x")],
            [entry("E", STRING, value, target)],
        )
        yield [file([inner], [Enum("K")])], [
            (3, "f", ""),
            (2, ".a.b.M.f", ""),
            (4, "f", ""),
            (6, "f", "#[f]"),
        ]
    inner = Message(
        "M",
        [field("f", MESSAGE, ".a.b.M.E", REPEATED), field("g", MESSAGE, ".a.b.M.E", REPEATED, 2)],
        [entry("E")],
    )
    yield [file([inner])], [(2, ".a.b.M.value", "")]


def oneof_bytes():
    """A bytes setting for a oneof's field: at the message's path and at the oneof's."""
    inner = Message(
        "M",
        [field("f", BYTES, oneof_index=0), field("g", BYTES, number=2, oneof_index=0), field("h", BYTES, number=3)],
        oneofs=["o"],
    )
    for paths in ([".a.b.M.f"], [".a.b.M.o.f"], [".a.b.M.o"], [".a.b.M.f", ".a.b.M.o.g"], ["o.f"]):
        yield [file([inner])], [(2, path, "") for path in paths]


def overlaps_taken():
    """Variants that overlap in an enum that isn't written: an extern path takes it, or a message around it."""
    enum = Enum("Mode", [Value("MODE_ON", 0), Value("ModeOn", 1), Value("ON", 2)])
    for whole in ([], [(11, "", "")]):
        yield [file(enums=[enum])], [(1, ".a.b.Mode", "x::Mode")] + whole
        yield [file([Message("M", enums=[enum])])], [(1, ".a.b.M.Mode", "x::Mode")] + whole
        yield [file([Message("M", nested=[Message("N", enums=[enum])])])], [(1, ".a.b.M", "x::M")] + whole
        yield [file(enums=[enum])], [(1, ".a", "x")] + whole


def corner_cases():
    for group in (names, defaults, paths, externs, links, forms, nesting, maps, oneof_bytes, overlaps_taken):
        for files, rows in group():
            yield encode(files), options(rows)
