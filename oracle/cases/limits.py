"""Sets and options at each of document 01's limits and one past it."""

from model import (
    BOOL,
    BYTES,
    ENUM,
    MESSAGE,
    OPTIONAL,
    STRING,
    Enum,
    Field,
    File,
    Message,
    Value,
    encode,
)
from wire import NO_OPTIONS, key, options, part, varint


def spread(count):
    """Names of two letters, all different."""
    return [chr(97 + i // 26) + chr(97 + i % 26) for i in range(count)]


def of_length(data, wanted):
    """The set, brought to a length by a record that the reader skips."""
    left = wanted - len(data)
    for digits in (1, 2, 3):
        room = left - len(key(100, 2)) - digits
        if room >= 0 and len(varint(room)) == digits:
            return data + key(100, 2) + varint(room) + bytes(room)
    raise ValueError(f"no record of {left} bytes")


STICK = encode([File("chair", "proto3", [Message("Stick", [Field("dx", 1, OPTIONAL, 17)])])])


def messages(count):
    return encode([File("a", "proto3", [Message(name) for name in spread(count)])])


def fields(count, files):
    """Fields shared among files, one message in each."""
    found = []
    for at in range(files):
        share = count // files + (1 if at < count % files else 0)
        inner = [Field("a", 1 + i % 15, OPTIONAL, BOOL) for i in range(share)]
        found.append(File("p" + chr(97 + at), "proto3", [Message("M", inner)]))
    return encode(found)


def enums(count, files):
    """Enums shared among files."""
    found = [File("a", "proto3") for _ in range(files)]
    for at, name in enumerate(spread(count)):
        found[at % files].enums.append(Enum(name))
    return encode(found)


def values(count):
    found = [Value(name, number) for number, name in enumerate(spread(count))]
    return encode([File("a", "proto3", [], [Enum("Mode", found)])])


def nested(levels, inside=None):
    message = inside or Message(f"M{levels}")
    for level in range(levels - 1, 0, -1):
        message = Message(f"M{level}", nested=[message])
    return encode([File("a", "proto3", [message])])


def unreadable_nested(levels):
    """A message below the last level whose inside can't be read."""
    payload = b"\xff\xff"
    for level in range(levels - 1, 0, -1):
        payload = part(1, f"M{level}".encode()) + part(3, payload)
    return part(1, part(4, payload))


def names(length):
    """A set for each place of a name, with a name of that length there."""
    long = "L" + "o" * (length - 2) + "g"
    yield encode([File("a", None, [Message(long)])])
    yield encode([File("a", None, [Message("M", [Field(long, 1, OPTIONAL, BOOL)])])])
    yield encode(
        [
            File(
                "a",
                None,
                [Message("M", [Field("f", 1, OPTIONAL, BOOL, oneof_index=0)], oneofs=[long])],
            )
        ]
    )
    yield encode([File("a", None, [], [Enum(long)])])
    yield encode([File("a", None, [], [Enum("E", [Value(long, 0)])])])
    for package in (long, "a." + long, long + ".a"):
        yield encode([File(package)])


def full_names(length):
    """A message and an enum whose full name has that length."""
    segments = ["a" * 60, "b" * 60, "c" * 60]
    last = "d" * (length - len("." + ".".join(segments) + "."))
    yield encode([File(".".join(segments), None, [Message(last)])])
    yield encode([File(".".join(segments), None, [], [Enum(last)])])
    # With an enclosing message, and where the name is missing and counts 0.
    yield encode(
        [File(".".join(segments[:2]), None, [Message(segments[2], nested=[Message(last)])])]
    )
    yield encode([File(".".join(segments[:2]), None, [Message(segments[2], enums=[Enum(last)])])])


def defaults(length):
    for type_ in (STRING, BYTES, ENUM):
        name = ".a.E" if type_ == ENUM else None
        field = Field("f", 1, OPTIONAL, type_, name, b"x" * length)
        yield encode([File("a", None, [Message("M", [field])], [Enum("E")])])


def text_of(length):
    """A case whose one text has that length."""
    head = "#[derive(Clone, Copy, PartialEq, Eq, Hash, ::prost::Message)]\npub struct M {\n}\n"
    line = '    #[prost(bool, tag = "1")]\n    pub a: bool,\n'
    count = (length - len(head) - 100) // len(line)
    attribute = length - len(head) - count * len(line) - 1
    found = [Field("a", 1, OPTIONAL, BOOL) for _ in range(count)]
    return encode([File(None, "proto3", [Message("M", found)])]), options(
        [(5, ".M", "#" * attribute)]
    )


def chain(length, links):
    """Messages each with so many links to the next: the last but one is asked for `links` times, the
    one before it `links` squared, and so on."""
    found = []
    for at in range(length):
        inner = [Field("a", 1, OPTIONAL, MESSAGE, f".M{at + 1}") for _ in range(links)]
        found.append(Message(f"M{at}", inner if at + 1 < length else []))
    return encode([File(None, "proto3", found)])


def limit_sets():
    yield b""
    yield of_length(STICK, 32768)
    yield of_length(STICK, 32769)
    for count in (32, 33):
        yield encode([File() for _ in range(count)])
    for count in (256, 257):
        yield messages(count)
        yield enums(count, 4)
        yield enums(count, 1)
        yield values(count)
    for count in (2048, 2049):
        yield fields(count, 2)
        yield fields(count, 1)
    for levels in (16, 17, 18):
        yield nested(levels)
        yield unreadable_nested(levels)
    for length in (64, 65):
        yield from names(length)
    for length in (255, 256):
        yield from full_names(length)
        yield from defaults(length)
    yield chain(10, 2)
    yield chain(256, 1)


def limit_options():
    row = (4, ".x", "")
    yield options([row] * 64)
    yield options([row] * 65)
    for length in (4096, 4097):
        yield options([(5, ".", "#" * (length - 2 - 8 - 1))])
    for kind in range(14):
        for path, value in (("", ""), (".a", ""), ("", "b"), (".a", "b")):
            yield options([(kind, path, value)])
    for kind in (10, 12):
        yield options([(kind, "", "a"), (kind, "", "b")])
    yield options([(11, "", ""), (11, "", "")])
    for path in (".", "..", ".a.", "a", ".a..b", "a.b"):
        yield options([(1, path, "x")])
    yield options([(1, ".a", "x"), (1, ".a", "y")])
    for path in (".google.protobuf", ".google.protobuf.Empty", ".google.protobuf.Any", ".google"):
        yield options([(1, path, "x"), (12, "", "y")])
        yield options([(12, "", "y"), (1, path, "x")])
    yield b""
    yield b"\x00"


def limit_cases():
    for set_bytes in limit_sets():
        yield set_bytes, NO_OPTIONS
    for each in limit_options():
        yield STICK, each
    for length in (65536, 65537):
        yield text_of(length)
