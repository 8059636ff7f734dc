"""The smallest sets of docs/DIFFERENCES.md and docs/ORACLE.md on which both sides don't agree or can't be compared."""

from model import BOOL, BYTES, ENUM, INT32, MESSAGE, OPTIONAL, REPEATED, REQUIRED, Enum, Field, File, Message, Value, encode
from wire import NO_OPTIONS, number, part


def field(tag, label, kind):
    return part(1, b"f") + number(3, tag) + number(4, label) + number(5, kind)


def sets():
    # Escapes that the Rust reads.
    for default in (rb"\x+5", rb"\X+f", rb"\400", rb"a\777b"):
        yield encode([File(None, None, [Message("M", [Field("f", 1, OPTIONAL, BYTES, default=default)])])])
    # Other defaults and overlapping variants, on which it panics.
    for default in (b"\\", rb"\q", rb"\x5", rb"\xg0"):
        yield encode([File(None, None, [Message("M", [Field("f", 1, OPTIONAL, BYTES, default=default)])])])
    yield encode([File(None, None, [], [Enum("E", [Value("a_b", 0), Value("A_B", 1)])])])
    # Sets that its decoder refuses.
    for found in ("0a020800", "0a030a01ff", "0a034201ff", "808080801000"):
        yield bytes.fromhex(found)
    scalar = part(1, b"f") + number(3, 1) + number(4, OPTIONAL) + number(5, INT32) + part(6, b"\xff")
    yield part(1, part(4, part(1, b"M") + part(2, scalar)))
    # Names and syntax that it takes or panics on.
    yield encode([File(None, None, [Message("M", [Field("_", 1, OPTIONAL, BOOL)])])])
    yield encode([File(None, "proto4")])
    yield part(1, part(2, b"a") * 2)
    yield bytes.fromhex("1314")
    yield encode([File(None, None, [Message("M", [Field("a-b", 1, OPTIONAL, INT32)])])])
    for package in (b"", b"a..b"):
        yield part(1, part(2, package) + part(4, part(1, b"M")))
    # Fields that it takes, reads otherwise, leaves out or panics on.
    for record in (
        field(0, OPTIONAL, INT32),
        field(1, OPTIONAL, 99),
        field(1, 9, INT32),
        field(1, OPTIONAL, INT32) + number(9, 1),
        field(1, REQUIRED, INT32) + number(9, 0),
        field(1, REPEATED, INT32) + number(9, 0),
        field(1, OPTIONAL, MESSAGE),
        field(1, OPTIONAL, ENUM) + part(6, b".E") + part(7, b"1a"),
    ):
        message = part(1, b"M") + part(2, record) + part(8, part(1, b"o"))
        yield part(1, part(4, message) + part(5, part(1, b"E") + part(2, part(1, b"A") + number(2, 0))))


def difference_cases():
    for found in sets():
        yield found, NO_OPTIONS
