"""Document 01's refusals, written from the document alone and not from the Rust.

The makers are checked by it: a case made to be valid has none of 1 to 7. It also tells which
damaged copies are still accepted, so that their texts can be compared.
"""

import re
from dataclasses import dataclass, field as member

from convert import camel, strip, unescapes

NAME = re.compile(rb"[A-Za-z_][A-Za-z0-9_]*\Z")
GROUP, MESSAGE, BYTES, ENUM = 10, 11, 12, 14
KEY_TYPES = {3, 4, 5, 6, 7, 8, 9, 13, 15, 16, 17, 18}
WRAPPERS = [
    "",
    ".BoolValue",
    ".BytesValue",
    ".DoubleValue",
    ".Empty",
    ".FloatValue",
    ".Int32Value",
    ".Int64Value",
    ".StringValue",
    ".UInt32Value",
    ".UInt64Value",
]


class Refused(Exception):
    def __init__(self, number, place):
        super().__init__(f"refused {number} {place}")
        self.number, self.place = number, place


# Options: refusals 1 and 2.

PATH_AND_VALUE, PATH_ONLY, VALUE_ONLY, NEITHER = {1, 5, 6, 7, 8}, {2, 3, 4, 9}, {10, 12}, {11}


def read_options(data):
    """The (kind, path, value) rows."""
    if len(data) < 2 or int.from_bytes(data[:2], "little") > 64:
        raise Refused(1, 0)
    count = int.from_bytes(data[:2], "little")
    whole = data[:4096]
    rows, seen, body = [], set(), 2 + 8 * count
    for row in range(count):
        head = whole[2 + 8 * row : 10 + 8 * row]
        if len(head) < 8:
            raise Refused(1, count)
        kind, path_length, value_length, zero = (
            int.from_bytes(head[i : i + 2], "little") for i in (0, 2, 4, 6)
        )
        has_path = kind in PATH_AND_VALUE | PATH_ONLY
        has_value = kind in PATH_AND_VALUE | VALUE_ONLY
        known = has_path or has_value or kind in NEITHER
        if not known or zero or has_path != (path_length > 0) or has_value != (value_length > 0):
            raise Refused(1, row)
        if kind in VALUE_ONLY and kind in seen:
            raise Refused(1, row)
        seen.add(kind)
        end = body + path_length + value_length
        if end <= len(whole):
            path, value = whole[body : body + path_length], whole[body + path_length : end]
            if not all(0x21 <= c <= 0x7E for c in path) or not all(
                0x20 <= c <= 0x7E for c in value
            ):
                raise Refused(1, row)
            rows.append((kind, path.decode(), value.decode()))
        body = end
    if body != len(data) or len(data) > 4096:
        raise Refused(1, count)
    return rows


def extern_paths(rows):
    """All extern paths, those of prost types among them."""
    taken, faults = {}, []
    for row, (kind, path, _) in enumerate(rows):
        listed = (
            [path]
            if kind == 1
            else [".google.protobuf" + each for each in WRAPPERS]
            if kind == 12
            else []
        )
        for each in listed:
            if each in taken or not each.startswith(".") or "" in each.split(".")[1:]:
                faults.append(row)
            taken[each] = row
    if faults:
        raise Refused(2, min(faults))
    return set(taken)


def is_taken(paths, full_name):
    segments = full_name.split(".")
    return any(".".join(segments[:end]) in paths for end in range(2, len(segments) + 1))


# Reading a set: refusal 3.

# Message to its known fields: number to (attribute, inner message or kind of value, repeated).
KNOWN = {
    "set": {1: ("files", "file", True)},
    "file": {
        2: ("package", "bytes", False),
        4: ("messages", "message", True),
        5: ("enums", "enum", True),
        12: ("syntax", "bytes", False),
    },
    "message": {
        1: ("name", "bytes", False),
        2: ("fields", "field", True),
        3: ("nested", "message", True),
        4: ("enums", "enum", True),
        7: ("options", "message options", False),
        8: ("oneofs", "oneof", True),
    },
    "field": {
        1: ("name", "bytes", False),
        3: ("number", "int", False),
        4: ("label", "int", False),
        5: ("type", "int", False),
        6: ("type_name", "bytes", False),
        7: ("default", "bytes", False),
        8: ("options", "field options", False),
        9: ("oneof_index", "int", False),
        17: ("proto3_optional", "bool", False),
    },
    "oneof": {1: ("name", "bytes", False)},
    "enum": {1: ("name", "bytes", False), 2: ("values", "value", True)},
    "value": {
        1: ("name", "bytes", False),
        2: ("number", "int", False),
        3: ("options", "value options", False),
    },
    "message options": {7: ("map_entry", "bool", False)},
    "field options": {2: ("packed", "bool", False), 3: ("deprecated", "bool", False)},
    "value options": {1: ("deprecated", "bool", False)},
}


class Node:
    """A message of the set. Absent singular fields are None, repeated fields are lists."""

    def __init__(self, kind):
        for attribute, _, repeated in KNOWN[kind].values():
            setattr(self, attribute, [] if repeated else None)


def read_varint(data, at, end, key_at):
    value = 0
    for count in range(10):
        if at >= end:
            raise Refused(3, key_at)
        byte = data[at]
        at += 1
        value |= (byte & 0x7F) << (7 * count)
        if byte < 0x80:
            if value >= 1 << 64:
                break
            return value, at
    raise Refused(3, key_at)


def read(data, at, end, kind, level=0):
    """The message that stands from `at` to `end`; `level` is the nesting of a message."""
    node = Node(kind)
    while at < end:
        key_at = at
        key, at = read_varint(data, at, end, key_at)
        field, wire_type = key >> 3, key & 7
        if field == 0 or wire_type not in (0, 1, 2, 5):
            raise Refused(3, key_at)
        attribute, inner, repeated = KNOWN[kind].get(field, (None, None, None))
        if attribute and wire_type != (0 if inner in ("int", "bool") else 2):
            raise Refused(3, key_at)
        if wire_type == 0:
            value, at = read_varint(data, at, end, key_at)
            start = at
        else:
            length, at = (
                read_varint(data, at, end, key_at)
                if wire_type == 2
                else (8 if wire_type == 1 else 4, at)
            )
            start, at = at, at + length
            if at > end:
                raise Refused(3, key_at)
        if not attribute:
            continue
        if not repeated and getattr(node, attribute) is not None:
            raise Refused(3, key_at)
        if inner == "int":
            value &= 0xFFFFFFFF
            value -= (value >> 31) << 32
        elif inner == "bool":
            value = value != 0
        elif inner == "bytes":
            value = data[start:at]
        elif inner == "message" and level == 16:
            value = None
        else:
            value = read(data, start, at, inner, level + 1 if inner == "message" else level)
        if repeated:
            getattr(node, attribute).append(value)
        else:
            setattr(node, attribute, value)
    return node


# The declarations of a set, with their files and full names.


@dataclass
class Declared:
    messages: list = member(default_factory=list)  # (file, full name, node, parent or None)
    enums: list = member(default_factory=list)  # (file, full name, node, parent or None)
    too_deep: bool = False


def declared(files):
    found = Declared()
    for at, file in enumerate(files):
        scope = b"." + file.package if file.package else b""
        for message in file.messages:
            declare(found, at, scope, message, None)
        for enum in file.enums:
            found.enums.append((at, scope + b"." + (enum.name or b""), enum, None))
    return found


def declare(found, at, scope, message, parent):
    full_name = scope + b"." + (message.name or b"")
    found.messages.append((at, full_name, message, parent))
    for nested in message.nested:
        if nested is None:
            found.too_deep = True
        else:
            declare(found, at, full_name, nested, message)
    for enum in message.enums:
        found.enums.append((at, full_name + b"." + (enum.name or b""), enum, message))


def limits(files, found):
    """Refusal 4, but for limit 1."""
    fields = [field for _, _, message, _ in found.messages for field in message.fields]
    names = [part.name for _, _, part, _ in found.messages + found.enums] + [
        field.name for field in fields
    ]
    names += [oneof.name for _, _, message, _ in found.messages for oneof in message.oneofs]
    names += [value.name for _, _, enum, _ in found.enums for value in enum.values]
    names += [segment for file in files for segment in (file.package or b"").split(b".")]
    full_names = [full_name for _, full_name, _, _ in found.messages + found.enums]
    longest = lambda parts: max((len(part or b"") for part in parts), default=0)  # noqa: E731
    passed = {
        2: len(files) > 32,
        3: len(found.messages) > 256,
        4: len(fields) > 2048,
        5: len(found.enums) > 256,
        6: any(len(enum.values) > 256 for _, _, enum, _ in found.enums),
        7: found.too_deep,
        8: longest(names) > 64,
        9: longest(full_names) > 255,
        10: longest(field.default for field in fields) > 255,
    }
    for limit, is_passed in passed.items():
        if is_passed:
            raise Refused(4, limit)


# Names and types: refusals 6 and 7.


def is_name(name):
    return name is not None and NAME.match(name) is not None and name.strip(b"_") != b""


def field_fault(field, oneofs):
    if not is_name(field.name) or field.number is None or not 1 <= field.number <= 536870911:
        return True
    if field.label not in (1, 2, 3) or field.type is None or not 1 <= field.type <= 18:
        return True
    if field.type in (GROUP, MESSAGE, ENUM) and field.type_name is None:
        return True
    if field.oneof_index is not None and not (0 <= field.oneof_index < oneofs and field.label == 1):
        return True
    if field.default is None:
        return False
    if field.type == ENUM:
        return not is_name(field.default)
    try:
        field.default.decode("utf-8")
    except UnicodeDecodeError:
        return True
    return False


def is_entry(message):
    return message.options is not None and bool(message.options.map_entry)


def entry_fault(entry, full_name, parent, all_fields):
    if len(entry.fields) != 2 or entry.nested or entry.enums or entry.oneofs or parent is None:
        return True
    key, value = entry.fields
    if (key.name, key.number, key.label) != (b"key", 1, 1) or key.type not in KEY_TYPES:
        return True
    if (value.name, value.number, value.label) != (b"value", 2, 1) or value.type == GROUP:
        return True
    naming = [field for field in all_fields if field.type_name == full_name]
    fitting = [
        field
        for field in parent.fields
        if field.type_name == full_name and field.type == MESSAGE and field.label == 3
    ]
    return not fitting or len(naming) != len(fitting)


def names(files, found):
    """Refusal 6."""
    faults = set()
    for at, file in enumerate(files):
        if file.syntax not in (None, b"proto2", b"proto3"):
            faults.add(at)
        if file.package is not None and not all(is_name(part) for part in file.package.split(b".")):
            faults.add(at)
    all_fields = [field for _, _, message, _ in found.messages for field in message.fields]
    for at, full_name, message, parent in found.messages:
        parts = [message] + message.oneofs
        if not all(is_name(part.name) for part in parts):
            faults.add(at)
        if any(field_fault(field, len(message.oneofs)) for field in message.fields):
            faults.add(at)
        if is_entry(message) and entry_fault(message, full_name, parent, all_fields):
            faults.add(at)
    for at, _, enum, _ in found.enums:
        if not is_name(enum.name) or not all(
            is_name(v.name) and v.number is not None for v in enum.values
        ):
            faults.add(at)
    if faults:
        raise Refused(6, min(faults))


def types(found):
    """Refusal 7."""
    faults = set()
    messages = {full_name for _, full_name, _, _ in found.messages}
    enums = {full_name for _, full_name, _, _ in found.enums}
    for at, _, message, _ in found.messages:
        for field in message.fields:
            wanted = {GROUP: messages, MESSAGE: messages, ENUM: enums}.get(field.type)
            if wanted is not None and field.type_name not in wanted:
                faults.add(at)
    first = {}
    for at, full_name, _, _ in sorted(found.messages + found.enums, key=lambda each: each[0]):
        if full_name in first:
            faults.add(at)
        first.setdefault(full_name, at)
    if faults:
        raise Refused(7, min(faults))


# A file's own refusals: 8 and 9.


def overlap(found, at, paths, strips):
    for its_file, full_name, enum, _ in found.enums:
        if its_file != at or is_taken(paths, full_name.decode()):
            continue
        numbers, variants = set(), set()
        enum_name = camel(enum.name.decode())
        for value in enum.values:
            if value.number in numbers:
                continue
            numbers.add(value.number)
            variant = camel(value.name.decode())
            variant = strip(enum_name, variant) if strips else variant
            if variant in variants:
                return True
            variants.add(variant)
    return False


def unescapable(found, at, paths):
    for its_file, full_name, message, _ in found.messages:
        if its_file != at or is_entry(message) or is_taken(paths, full_name.decode()):
            continue
        for field in message.fields:
            plain = field.oneof_index is None or field.proto3_optional
            if (
                plain
                and field.type == BYTES
                and field.default is not None
                and not unescapes(field.default)
            ):
                return True
    return False


def checked_set(set_bytes, options):
    """Files, declarations and options rows of a case without refusals 1 to 7, 5 aside."""
    rows = read_options(options)
    paths = extern_paths(rows)
    if len(set_bytes) > 32768:
        raise Refused(4, 1)
    files = read(set_bytes, 0, len(set_bytes), "set").files
    found = declared(files)
    limits(files, found)
    names(files, found)
    types(found)
    return files, found, rows, paths


def refusals(set_bytes, options):
    """The refusal of the whole case, or a list with each file's own (None where its text is due)."""
    try:
        files, found, rows, paths = checked_set(set_bytes, options)
    except Refused as refused:
        return refused.number, refused.place
    strips = all(kind != 11 for kind, _, _ in rows)
    each = []
    for at in range(len(files)):
        own = (
            (8, 0)
            if overlap(found, at, paths, strips)
            else (9, 0)
            if unescapable(found, at, paths)
            else None
        )
        each.append(own)
    return each
