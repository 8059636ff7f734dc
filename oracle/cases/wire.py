"""Bytes of sets, options files and packs of cases."""

import struct

MAGIC = b"CEMICASE"


def varint(value, pad=0):
    """A varint of the value's low 64 bits; `pad` more bytes than needed, ten at most."""
    value &= (1 << 64) - 1
    groups = [value & 0x7F]
    value >>= 7
    while value:
        groups.append(value & 0x7F)
        value >>= 7
    groups += [0] * min(pad, 10 - len(groups))
    return bytes([group | 0x80 for group in groups[:-1]] + [groups[-1]])


def read_varint(data, at):
    """The varint at a place of readable bytes, and where it ends."""
    value = shift = 0
    while True:
        value |= (data[at] & 0x7F) << shift
        shift += 7
        at += 1
        if data[at - 1] < 0x80:
            return value, at


def key(field, wire_type):
    return varint(field << 3 | wire_type)


def number(field, value):
    return key(field, 0) + varint(value)


def part(field, payload):
    return key(field, 2) + varint(len(payload)) + payload


def options(rows):
    """An options file of (kind, path, value) rows."""
    head = struct.pack("<H", len(rows))
    bodies = b""
    for kind, path, value in rows:
        path, value = path.encode("ascii"), value.encode("ascii")
        head += struct.pack("<HHHH", kind, len(path), len(value), 0)
        bodies += path + value
    return head + bodies


NO_OPTIONS = options([])


def case(set_bytes, options_bytes=NO_OPTIONS, output=b""):
    """One case of a pack."""
    lengths = struct.pack("<III", len(set_bytes), len(options_bytes), len(output))
    return lengths + set_bytes + options_bytes + output


def cases(pack):
    """The (set, options, output) triples of a pack's bytes."""
    if pack[:8] != MAGIC:
        raise ValueError("no pack of cases")
    at = 8
    while at < len(pack):
        parts = []
        lengths = struct.unpack_from("<III", pack, at)
        at += 12
        for length in lengths:
            parts.append(pack[at : at + length])
            at += length
        yield tuple(parts)
