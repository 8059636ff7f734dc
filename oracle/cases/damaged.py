"""Damaged copies of a case: cut, changed in single bytes, with records changed one at a time."""

from wire import key, read_varint, varint

# Embedded messages: field number to the name of the inner message.
INNER = {
    "set": {1: "file"},
    "file": {4: "message", 5: "enum"},
    "message": {2: "field", 3: "message", 4: "enum", 7: "options", 8: "oneof"},
    "field": {8: "options"},
    "enum": {2: "value"},
    "value": {3: "options"},
}


def tree(data, kind="set"):
    """The records of a readable set: [field, wire type, bytes or inner records]."""
    at, found = 0, []
    while at < len(data):
        tag, at = read_varint(data, at)
        field, wire_type = tag >> 3, tag & 7
        start = at
        if wire_type == 0:
            _, at = read_varint(data, at)
        elif wire_type == 2:
            length, start = read_varint(data, at)
            at = start + length
        else:
            at += 8 if wire_type == 1 else 4
        value = data[start:at]
        inner = INNER.get(kind, {}).get(field) if wire_type == 2 else None
        found.append([field, wire_type, tree(value, inner) if inner else value])
    return found


def flat(records):
    """The bytes of records; a record may also be bytes as they are."""
    return b"".join(each if isinstance(each, bytes) else flat_record(*each) for each in records)


def flat_record(field, wire_type, value):
    value = flat(value) if isinstance(value, list) else value
    return key(field, wire_type) + (varint(len(value)) if wire_type == 2 else b"") + value


def places(records):
    """Each list of records with each index in it, outer ones first."""
    for at, record in enumerate(records):
        yield records, at
        if isinstance(record[2], list):
            yield from places(record[2])


def record_changes(record):
    """What one record may be replaced by: lists of records."""
    field, wire_type, value = record
    plain = flat(value) if isinstance(value, list) else value
    yield [record, record]
    yield []
    payloads = {0: b"\x01", 1: b"\x01" * 8, 2: b"\x61", 5: b"\x01" * 4}
    for other, payload in payloads.items():
        if other != wire_type:
            yield [[field, other, payload]]
    for other in (3, 4, 6, 7):
        yield [key(field, other) + plain]
    yield [[0, wire_type, value]]
    yield [[field + 1, wire_type, value]]
    yield [record, [field, wire_type, payloads[wire_type]]]
    if wire_type == 2:
        yield [[field, 2, b""]]
        yield [key(field, 2) + varint(len(plain) + 1) + plain]
        yield [key(field, 2) + varint((1 << 64) - 1) + plain]
        if not isinstance(value, list):
            yield [[field, 2, plain + b"_"]]
            yield [[field, 2, plain + b"\xff"]]
            yield [[field, 2, b"__"]]
            yield [[field, 2, b"1" + plain]]
    if wire_type == 0:
        numbers = (0, 1, 2, 3, 18, 19, 536870911, 536870912, 1 << 31, (1 << 64) - 1)
        for number in numbers:
            yield [[field, 0, varint(number)]]
        yield [[field, 0, b"\xff" * 9 + b"\x02"]]
        yield [[field, 0, b"\x80" * 10 + b"\x00"]]


def changed_records(data):
    """The set with one record changed, for each record and each change."""
    records = tree(data)
    for inside, at in list(places(records)):
        record = inside[at]
        for change in record_changes(record):
            inside[at : at + 1] = change
            yield flat(records)
            inside[at : at + len(change)] = [record]


def cut(data):
    for length in range(len(data)):
        yield data[:length]


def changed_bytes(data):
    for at, byte in enumerate(data):
        for other in {byte ^ 1, byte ^ 0x80, (byte + 8) & 0xFF, 0, 0xFF, 0x5F} - {byte}:
            yield data[:at] + bytes([other]) + data[at + 1 :]


def damaged(set_bytes, options_bytes):
    """Every damaged copy of a case."""
    for change in (cut, changed_bytes, changed_records):
        for other in change(set_bytes):
            yield other, options_bytes
    for change in (cut, changed_bytes):
        for other in change(options_bytes):
            yield set_bytes, other
    yield set_bytes, options_bytes + b"\x00"
