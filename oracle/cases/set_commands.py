"""Sets with their answers, as the commands that the program set_cases reads.

A command is five little-endian 16-bit numbers, the first of which says what is done:

    0               a new set, with no bytes
    1 a b           the b bytes that follow are added to the set a times
    2 a b c         the first a bytes of the set have refusal b at place c (0 and 0: none)
    3 a b c d       with the byte b at a, the set has refusal c at place d

The answers are those of refusals.py, which was written from document 01.
"""

import pathlib
import random
import struct

from limits import STICK, names, full_names, defaults, nested, of_length, unreadable_nested
from model import BOOL, OPTIONAL, Enum, Field, File, Message, Value, encode
from refusals import Refused, declared, limits, read
from wire import cases, key, number, part, varint

ANSWERS = pathlib.Path(__file__).parent.parent / "recorded/answers.bin"
REAL = (b"joystick.proto", b"grpc/health/v1/health.proto")


def real_sets():
    """Two sets that protoc made, out of the recorded ones."""
    recorded = [each for each, _, _ in cases(ANSWERS.read_bytes())]
    return [min((each for each in recorded if name in each), key=len) for name in REAL]


def answer(data):
    """Refusal and place of a set alone; 0 and 0 without one."""
    try:
        if len(data) > 32768:
            raise Refused(4, 1)
        found = read(data, 0, len(data), "set")
        limits(found.files, declared(found.files))
    except Refused as refused:
        return refused.number, refused.place
    return 0, 0


def command(*numbers):
    return struct.pack("<5H", *(numbers + (0,) * (5 - len(numbers))))


def runs(data):
    """The data as (times, bytes), where a part that comes again is said once."""
    at, plain = 0, b""
    while at < len(data):
        best = (0, 0, 0)
        for period in range(1, 64):
            times, piece = 1, data[at : at + period]
            while data[at + times * period : at + (times + 1) * period] == piece:
                times += 1
            best = max(best, ((times - 1) * period, times, period))
        if best[0] > 20:
            if plain:
                yield 1, plain
            plain = b""
            yield best[1], data[at : at + best[2]]
            at += best[1] * best[2]
        else:
            plain += data[at : at + 1]
            at += 1
    if plain:
        yield 1, plain


def build(data):
    return command(0) + b"".join(command(1, times, len(each)) + each for times, each in runs(data))


def whole(data):
    return build(data) + command(2, len(data), *answer(data))


def truncations(data):
    return build(data) + b"".join(
        command(2, size, *answer(data[:size])) for size in range(len(data) + 1)
    )


def changes(data, source):
    """Each byte changed in turn, every other one in one bit."""
    found = build(data)
    for at in range(len(data)):
        byte = data[at] ^ 1 << source.randrange(8) if at % 2 else source.randrange(256)
        changed = data[:at] + bytes([byte]) + data[at + 1 :]
        found += command(3, at, byte, *answer(changed))
    return found


def counted():
    """Each limit that counts, at it and one past it."""
    for count in (32, 33):
        yield encode([File() for _ in range(count)])
    for count in (256, 257):
        yield encode([File("a", None, [Message("M") for _ in range(count)])])
        yield encode([File("a", None, [Message("M", nested=[Message("N") for _ in range(count - 1)])])])
        yield encode([File("a", None, [Message("M") for _ in range(count - 128)]), File("b", None, [Message("M") for _ in range(128)])])
        yield encode([File("a", None, [], [Enum("E") for _ in range(count)])])
        yield encode([File("a", None, [Message("M", enums=[Enum("E") for _ in range(count - 1)])], [Enum("E")])])
        yield encode([File("a", None, [], [Enum("E", [Value("V", 0) for _ in range(count)])])])
        yield encode([File("a", None, [Message("M", enums=[Enum("E", [Value("V", 0) for _ in range(count)])])])])
    for count in (2048, 2049):
        inner = [Field("a", 1, OPTIONAL, BOOL) for _ in range(count)]
        yield encode([File("a", None, [Message("M", inner)])])
        yield encode([File("a", None, [Message("M", inner[:1000], nested=[Message("N", inner[1000:])])])])


def deep(count):
    """A message at nesting 16 that holds this many, which are neither read nor counted."""
    payload = part(1, b"M") + part(3, b"\xff") * count
    for _ in range(15):
        payload = part(3, payload)
    return part(1, part(4, payload))


def faults_at(level):
    """A message at this nesting, in which each thing that it may hold has a fault, or none, at its innermost."""
    for inside in (b"", number(1, 1), number(2, 1), number(3, 1), number(7, 1), b"\x08", part(1, b""), part(2, b""), part(3, b""), part(7, b"")):
        for way in ((2,), (2, 8), (4,), (4, 2), (4, 2, 3), (7,), (8,)):
            payload = inside
            for at in reversed(way):
                payload = part(at, payload)
            for _ in range(level - 1):
                payload = part(3, payload)
            yield part(1, part(4, payload))


def encodings():
    """The encoding's own cases: padded varints, the tenth byte, wire types, keys above 32 bits."""
    for pad in range(11):
        yield varint(10, pad) + varint(0, pad)
        yield part(1, key(100, 0) + varint(1, pad))
    for last in (0, 1, 2, 127, 128):
        yield key(100, 0) + b"\xff" * 9 + bytes([last])
        yield key(100, 0) + b"\x80" * 9 + bytes([last, 0])
    for wire_type in range(8):
        yield key(100, wire_type) + bytes(8)
        yield key(1, wire_type) + bytes(8)
        yield part(1, key(2, wire_type) + bytes(8))
        yield part(1, part(4, key(1, wire_type) + bytes(8)))
        yield part(1, part(4, part(2, key(3, wire_type) + bytes(8))))
    for field in (0, 1 << 28, 1 << 29, 1 << 32, 1 << 60, (1 << 61) - 1):
        yield key(field, 0) + b"\x01"
        yield part(1, key(field, 2) + b"\x00")
    yield key(1, 2) + varint(1 << 63)
    yield key(1, 2) + varint((1 << 64) - 1)
    for twice in (part(2, b"a"), part(12, b"a"), part(4, part(1, b"a") * 2), part(4, part(7, b"") * 2)):
        yield part(1, twice * 2)
    yield part(1, part(4, part(2, number(3, 1) * 2)))
    yield part(1, part(4, part(2, number(17, 1) * 2)))


def set_commands():
    source = random.Random(1)
    yield whole(b"")
    for real in (STICK, *real_sets()):
        yield truncations(real)
        yield changes(real, source)
    for size in (32768, 32769):
        yield whole(of_length(STICK, size))
        # Refusal 3 comes after limit 1 and before the others.
        yield whole(b"\x00" + of_length(STICK, size - 1))
    for each in counted():
        yield whole(each)
        yield whole(each + b"\x00")
    for levels in (16, 17, 18):
        yield whole(nested(levels))
        yield whole(unreadable_nested(levels))
    for count in (1, 300):
        yield whole(deep(count))
    for level in (1, 15, 16, 17):
        yield from map(whole, faults_at(level))
    for length in (64, 65):
        yield from map(whole, names(length))
    for length in (255, 256):
        yield from map(whole, full_names(length))
        yield from map(whole, defaults(length))
    # An empty package adds nothing to a full name, a missing name counts 0.
    for length in (64, 65):
        yield whole(part(1, part(2, b"") + part(4, part(1, b"m" * length))))
        yield whole(part(1, part(2, b".".join([b"a" * length] * 3)) + part(4, b"")))
    for length in (60, 61, 62, 63):
        yield whole(part(1, part(2, b".".join([b"a" * length] * 4)) + part(4, part(3, b""))))
        yield whole(part(1, part(2, b".".join([b"a" * length] * 4)) + part(5, b"")))
    yield from map(whole, encodings())
