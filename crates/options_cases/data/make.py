"""Writes the lists that the program compares, each line of four parts separated by tabs: what is asked (o, p, e), options in
hex, a name, the answer.

options.txt: options files good and bad at each rule of document 01's "Options file" and of refusal 2, and number and place
from the document (0 0 where there is no refusal). paths.txt and extern.txt: the recorded answers of the Rust, their rows
as options. Run it beside oracle/recorded: make.py FOLDER
"""

import sys

WRAPPERS = "BoolValue BytesValue DoubleValue Empty FloatValue Int32Value Int64Value StringValue UInt32Value UInt64Value"
TYPES = [".google.protobuf"] + [".google.protobuf." + name for name in WRAPPERS.split()]
PATH_AND_VALUE, PATH_ONLY, VALUE_ONLY = (1, 5, 6, 7, 8), (2, 3, 4, 9), (10, 12)


def number(n):
    return n.to_bytes(2, "little")


def header(kind, path, value, zero=0):
    return number(kind) + number(path) + number(value) + number(zero)


def encode(rows, count=None):
    """Options of (kind, path, value) rows."""
    data = number(len(rows) if count is None else count)
    for kind, path, value in rows:
        data += header(kind, len(path), len(value))
    for _, path, value in rows:
        data += path + value
    return data


def good_row(kind, path=b".a", value=b"v"):
    return (
        kind,
        path if kind in PATH_AND_VALUE + PATH_ONLY else b"",
        value if kind in PATH_AND_VALUE + VALUE_ONLY else b"",
    )


def layout_cases():
    """Refusal 1. Options, then the place, None, or another refusal as it is printed."""
    good = good_row(5)
    # the row count, cut or above 64
    yield b"", 0
    yield b"\x00", 0
    yield b"\x01", 0
    yield number(0), None
    yield encode([good] * 64), None
    yield encode([good] * 65), 0
    yield number(65), 0
    yield number(256), 0
    yield number(65535), 0
    # little-endian
    yield b"\x00\x01" + b"\x00" * 2048, 0
    # a wrong length: the place is n
    yield number(0) + b"x", 0
    yield number(3), 3
    for rows in ([good], [good] * 3, [good] * 64):
        whole = encode(rows)
        yield whole, None
        yield whole + b"x", len(rows)
        for cut in range(1, min(len(whole) - 2, 14)):
            yield whole[:-cut], len(rows)
    for cut in range(2, len(encode([good] * 2))):
        yield encode([good] * 2)[:cut], 2
    # 4,096 bytes, and one more
    for size in (4095, 4096):
        yield encode([good_row(5, b".a", b"v" * (size - 12))]), None
    yield encode([good_row(5, b".a", b"v" * 4085)]), 1
    yield encode([good_row(5, b"p" * 4085, b"v")]), None
    yield encode([good_row(5, b"p" * 4086, b"v")]), 1
    yield encode([good, good_row(5, b".a", b"v" * 4076)]), 2
    # what lies past byte 4,096 is cut, and isn't judged
    yield encode([good_row(5, b".a", b"v" * 4084 + b"\x7f")]), 1
    yield encode([good_row(5, b".a", b"\x7f" + b"v" * 4084)]), 1
    yield encode([good_row(5, b".a", b"v" * 4000), good_row(5, b"\x20", b"v" * 200)]), 2
    # kinds
    for kind in range(0, 16):
        yield encode([(kind, b"", b"")]), None if kind == 11 else 0
        yield encode([good_row(kind)]), None if 1 <= kind <= 12 else 0
        yield encode([(kind, b".a", b"v")]), None if kind in PATH_AND_VALUE else 0
        yield encode([(kind, b".a", b"")]), None if kind in PATH_ONLY else 0
        yield encode([(kind, b"", b"v")]), None if kind in VALUE_ONLY else 0
    for kind in (257, 266, 0x0500, 65535):
        yield encode([good, (kind, b".a", b"v")]), 1
    # the zero
    for zero in (1, 256, 65535):
        yield number(1) + header(5, 2, 1, zero) + b".av", 0
        yield number(2) + header(5, 2, 1) + header(5, 2, 1, zero) + b".av.av", 1
    # bytes of paths and values
    for byte in (0x00, 0x1F, 0x20, 0x21, 0x7E, 0x7F, 0x80, 0xFF):
        each = bytes([byte])
        path_good, value_good = 0x21 <= byte <= 0x7E, 0x20 <= byte <= 0x7E
        for kind in PATH_AND_VALUE:
            for path in (each + b"aa", b"a" + each + b"a", b"aa" + each):
                # of an extern path, refusal 2 follows: it has no `.` in front
                yield encode([good, (kind, path, b"v")]), ("2 1" if kind == 1 else None) if path_good else 1
            for value in (each + b"vv", b"v" + each + b"v", b"vv" + each):
                yield encode([good, (kind, b".a", value)]), None if value_good else 1
        for kind in PATH_ONLY:
            yield encode([good, (kind, b"a" + each, b"")]), None if path_good else 1
        for kind in VALUE_ONLY:
            yield encode([good, (kind, b"", b"v" + each)]), None if value_good else 1
    # kinds 10 and 12 once each, 11 as often as one likes
    for kind in range(1, 13):
        row, other = good_row(kind, b".a"), good_row(kind, b".b")
        late = 2 if kind in VALUE_ONLY else None
        yield encode([row, good, other]), late
        yield encode([row, good, other, other if kind != 1 else good]), late
    yield encode([good_row(10), good_row(12)]), None
    yield encode([good_row(11)] * 64), None
    # the lowest broken row, before a wrong length
    yield encode([good, (0, b"", b""), (13, b"", b"")]), 1
    yield encode([good, (0, b"", b"")]) + b"x", 1
    yield number(2) + header(5, 2, 1) + header(13, 0, 0), 1
    yield number(2) + header(5, 2, 1) + header(13, 0, 0)[:7], 2
    yield number(2) + header(13, 2, 1), 0
    yield number(2) + header(5, 2, 1) + header(5, 2, 1) + b".a\x7f.", 0
    yield number(2) + header(5, 2, 1) + header(5, 2, 1) + b".av\x7f", 2


def extern_cases():
    """Refusal 2. Rows, then the place or None."""
    def row(path):
        return (1, path.encode(), b"v")

    types, other = (12, b"", b"t"), (5, b"..", b"v")
    for path in (".a", ".a.b", ".a.b.c", ".A_1.b", ".-", ".a/b", ".google", ".google.protobuf"):
        yield [row(path)], None
        yield [other, row(path)], None
    for path in ("a", "a.b", ".", "..", ".a.", "..a", ".a..b", ".a.b.", "...", "a.", ".a.b..", ".a...b"):
        yield [row(path)], 0
        yield [other, row(".z"), row(path), row("a")], 2
    # doubled, the later of two
    yield [row(".a"), row(".a")], 1
    yield [row(".a"), other, row(".b"), row(".a")], 3
    yield [row(".a"), row(".b"), row(".b"), row(".a")], 2
    yield [row(".a"), row(".a.b"), row(".a.b.c"), row(".b")], None
    yield [row(".a"), row(".A")], None
    yield [(5, b".a", b"v"), row(".a"), (5, b".a", b"v")], None
    yield [row(".%d" % i) for i in range(64)], None
    yield [row(".%d" % i) for i in range(63)] + [row(".0")], 63
    # against prost types
    yield [types], None
    for path in TYPES:
        yield [row(path)], None
        yield [types, row(path)], 1
        yield [row(path), types], 1
        yield [row(path), other, types, row(path)], 2
        yield [row(path + "x"), types], None
        yield [row(path + ".x"), types, row(path[:-1])], None
    yield [row(".google"), types, row(".google.protobuf.Any")], None
    yield [row(TYPES[3]), types, row(TYPES[4])], 1
    yield [types, row(TYPES[4]), row("a")], 1
    yield [types, row("a"), row(TYPES[4])], 1


def options_lines():
    for data, place in layout_cases():
        yield data, "0 0" if place is None else place if isinstance(place, str) else "1 %d" % place
    for rows, place in extern_cases():
        yield encode(rows), "0 0" if place is None else "2 %d" % place


def path_lines(lines):
    for line in lines:
        given, _, answer = line.partition(" = ") if " = " in line else line.partition("= ")
        path, *paths = given.split(" ")
        first, every = answer.split(" ")
        rows = [(5, each.encode(), str(i).encode()) for i, each in enumerate(paths)]
        yield encode(rows), path, answer
        # rows of another kind between them
        mixed = [part for each in rows for part in ((6, each[1], b"x"), each)]
        yield encode(mixed), path, "%s %s" % ("-" if first == "-" else 2 * int(first) + 1, every)


def extern_lines(lines):
    for line in lines:
        ident, prost, types, *rows, answer = line.split("\t")
        entries = [(1, *(part.encode() for part in row.split("=", 1))) for row in rows]
        if prost != "::prost":
            entries.append((10, b"", prost.encode()))
        if types != "-":
            entries.append((12, b"", types.encode()))
        yield encode(entries), ident, answer[2:]


def write(path, asked, lines):
    with open(path, "w", newline="\n") as out:
        for data, name, answer in lines:
            out.write("\t".join((asked, data.hex(), name, answer)) + "\n")


def main(recorded):
    read = lambda name: open(recorded + "/" + name, newline="\n").read().splitlines()
    write("options.txt", "o", ((data, "", answer) for data, answer in options_lines()))
    write("paths.txt", "p", path_lines(read("paths.txt")))
    write("extern.txt", "e", extern_lines(read("extern.txt")))


main(sys.argv[1])
