"""Sets whose texts are timed: real and made ones for both sides, then ones at the limits, made to be
slow, for the text call alone."""

from limits import STICK, of_length
from model import BOOL, ENUM, INT32, MESSAGE, OPTIONAL, REPEATED, STRING
from model import Enum, Field, File, Message, Value, encode
from random_sets import random_case
from real_sets import PROTOS, DEBIAN, protoc
from wire import NO_OPTIONS, options, part

PROTOBUF = DEBIAN[0] / "google/protobuf"
REAL = [
    (PROTOS, PROTOS / "joystick.proto"),
    (PROTOS, PROTOS / "motor.proto"),
    (DEBIAN[0], PROTOBUF / "timestamp.proto"),
    (DEBIAN[0], PROTOBUF / "struct.proto"),
    (DEBIAN[0], PROTOBUF / "type.proto"),
    (DEBIAN[0], PROTOBUF / "descriptor.proto"),
    (DEBIAN[1], DEBIAN[1] / "grpc/testing/worker_service.proto"),
    (DEBIAN[1], DEBIAN[1] / "grpc/channelz/v1/channelz.proto"),
]


def letters(count):
    """Names of one to three letters, all different."""
    found = []
    for at in range(count):
        name = ""
        at += 1
        while at:
            at -= 1
            name = chr(97 + at % 26) + name
            at //= 26
        found.append(name)
    return found


def one(*messages, enums=()):
    return encode([File("a", "proto3", list(messages), list(enums))])


def shared():
    """(name, file index, set, options) of those run on both sides."""
    yield "document 01's Stick", 0, STICK, NO_OPTIONS
    for root, file in REAL:
        found = protoc(root, file, True)
        last = sum(1 for _ in files(found)) - 1
        yield f"{file.name}", last, found, NO_OPTIONS
    found = protoc(DEBIAN[0], PROTOBUF / "descriptor.proto", True)
    rows = [(5, ".", "#[derive(Eq)]"), (6, "name", "#[x]"), (3, ".", ""), (9, ".", ""), (4, "options", "")]
    yield "descriptor.proto, five settings", 0, found, options(rows)
    largest = sorted((random_case(seed) for seed in range(2000, 2300)), key=lambda case: len(case[0]))
    for at in (150, 270, 298, 299):
        set_bytes, rows = largest[at]
        yield f"random set, {sum(1 for _ in files(set_bytes))} files", 0, set_bytes, rows
    numbers = letters(1300)
    flat = [Field(name, at + 1, OPTIONAL, INT32) for at, name in enumerate(numbers)]
    yield "one message of 1,300 fields", 0, one(Message("M", flat)), NO_OPTIONS
    few = [Message(name.upper(), [Field(each, 1, OPTIONAL, STRING) for each in "abcde"]) for name in letters(120)]
    yield "120 messages of 5 fields", 0, one(*few), NO_OPTIONS
    chain = [Message(f"M{at}", [Field("n", 1, OPTIONAL, MESSAGE, f".a.M{at + 1}")]) for at in range(255)]
    yield "chain of 256 messages", 0, one(*chain, Message("M255")), NO_OPTIONS
    values = [Value(name, at) for at, name in enumerate(letters(256))]
    yield "enum of 256 values", 0, one(enums=[Enum("E", values)]), NO_OPTIONS


def files(set_bytes):
    from damaged import tree

    return (record for record in tree(set_bytes) if record[0] == 1)


def linked(count, degree, target):
    """Messages with so many links each, to where the function says."""
    names = letters(count)
    found = []
    for at, name in enumerate(names):
        inner = [
            Field("f", 1, OPTIONAL, MESSAGE, "." + names[target(at, each)])
            for each in range(degree)
            if target(at, each) < count
        ]
        found.append(Message(name, inner))
    return encode([File(None, None, found)])


def oneofs(count, nested=0, enums=0):
    """Oneofs of one field each, beside nested messages and enums, none of which has their name."""
    fields = [Field("f", 1, OPTIONAL, BOOL, oneof_index=at) for at in range(count)]
    inside = [Message(f"N{at}") for at in range(nested)]
    declared = [Enum(f"E{at}") for at in range(enums)]
    return encode([File(None, "proto3", [Message("M", fields, inside, declared, ["o"] * count)])])


def deep(trees):
    """Messages nested 16 deep."""
    found = []
    for name in letters(trees):
        message = Message("X")
        for _ in range(14):
            message = Message("X", nested=[message])
        found.append(Message(name, nested=[message]))
    return encode([File(None, "proto3", found)])


def maps(count):
    names = letters(count)
    entries, fields = [], []
    for name in names:
        key, value = Field("key", 1, OPTIONAL, INT32), Field("value", 2, OPTIONAL, MESSAGE, ".M")
        entries.append(Message(name, [key, value], map_entry=True))
        fields.append(Field(name, 1, REPEATED, MESSAGE, ".M." + name))
    return encode([File(None, "proto3", [Message("M", fields, entries)])])


def hostile():
    """(name, file index, set, options) at the limits."""
    # 32,768 bytes hold about 1,900 links.
    yield "chain of 256 messages, 7 links each to the next", 0, linked(256, 7, lambda at, _: at + 1), NO_OPTIONS
    yield "ring of 256 messages, 7 links each to the next", 0, linked(256, 7, lambda at, _: (at + 1) % 256), NO_OPTIONS
    spread = linked(256, 7, lambda at, each: (at * 5 + each * 37 + 1) % 256)
    yield "256 messages, 7 links each across the set", 0, spread, NO_OPTIONS
    yield "256 messages, a link to each of the next 7", 0, linked(256, 7, lambda at, each: at + 1 + each), NO_OPTIONS
    fields = encode([File(None, "proto3", [Message("M", [Field("f", 1, OPTIONAL, BOOL)] * 2048)])])
    yield "2,048 fields", 0, fields, NO_OPTIONS
    for path in (".", "f", ".M.f"):
        yield f"2,048 fields, 64 field attributes at `{path}`", 0, fields, options([(6, path, "#")] * 64)
    unmet = [(kind, ".M.x" + "y" * 40, "v" if kind in (5, 6, 7, 8) else "") for kind in (2, 4, 5, 6) * 16]
    yield "2,048 fields, 64 rows that meet nothing", 0, fields, options(unmet)
    yield "1,700 oneofs of one field", 0, oneofs(1700), NO_OPTIONS
    yield "1,000 oneofs beside 255 nested messages and 256 enums", 0, oneofs(1000, 255, 256), NO_OPTIONS
    many = options([(1, ".a" + "b" * 20 + name, "::x") for name in letters(64)])
    yield "1,792 links, 64 extern paths that meet nothing", 0, spread, many
    yield "256 messages nested 16 deep", 0, deep(16), NO_OPTIONS
    yield "127 map fields", 0, maps(127), NO_OPTIONS
    values = [Enum(name.upper(), [Value(each, at) for at, each in enumerate(letters(256))]) for name in letters(14)]
    yield "enum of 256 values", 0, one(enums=values[:1]), NO_OPTIONS
    yield "14 enums of 256 values", 0, one(enums=values), NO_OPTIONS
    long = [Value("a" * 54 + name, at) for at, name in enumerate(letters(256))]
    yield "enum of 256 long values", 0, one(enums=[Enum("E", long)]), NO_OPTIONS
    default = Field("f", 1, OPTIONAL, STRING, default=b"\x01" * 255)
    yield "120 defaults of 255 bytes", 0, encode([File(None, None, [Message("M", [default] * 120)])]), NO_OPTIONS
    segments = ".".join(["a"] * 16000).encode()
    yield "a package of 16,000 segments", 0, part(1, part(2, segments)), NO_OPTIONS
    few = ".".join(["a"] * 500).encode()
    yield "32 packages of 500 segments", 0, part(1, part(2, few)) * 32, NO_OPTIONS
    yield "32 files of 64 fields", 31, spread_files(), NO_OPTIONS
    yield "a set of 32,768 bytes that are skipped", 0, of_length(STICK, 32768), NO_OPTIONS
    yield "a file of 10,900 records that are skipped", 0, part(1, b"\xa0\x06\x00" * 10900), NO_OPTIONS
    boxed = [(4, f".{name}.f", "") for name in letters(64)]
    yield "1,792 links across the set, 64 boxed settings", 0, spread, options(boxed)


def spread_files():
    return encode(
        [File("p" + name, "proto3", [Message("M", [Field("f", 1, OPTIONAL, BOOL)] * 64)]) for name in letters(32)]
    )


def speed_cases():
    for name, file, set_bytes, rows in shared():
        yield set_bytes, rows, f"{file} {name}".encode()
    for name, file, set_bytes, rows in hostile():
        yield set_bytes, rows, f"{file} !{name}".encode()
