"""A descriptor set as a value, with the bytes it is written in.

`records` gives the records of a message in field order; a `shuffle` may reorder them (records of
one repeated field keep their order) and add records that document 01's reader skips.
"""

from dataclasses import dataclass, field as member

from wire import number, part

DOUBLE, FLOAT, INT64, UINT64, INT32, FIXED64, FIXED32, BOOL, STRING = range(1, 10)
GROUP, MESSAGE, BYTES, UINT32, ENUM, SFIXED32, SFIXED64, SINT32, SINT64 = range(10, 19)
SCALARS = [t for t in range(1, 19) if t not in (GROUP, MESSAGE, ENUM)]
MAP_KEYS = [t for t in SCALARS if t not in (DOUBLE, FLOAT, BYTES)]
OPTIONAL, REQUIRED, REPEATED = 1, 2, 3


def flags(fields):
    """The records of an options message; flags that are None are left out."""
    return b"".join(number(at, int(value)) for at, value in fields if value is not None)


@dataclass
class Value:
    name: str
    number: int
    options: bool = False  # the options message is there
    deprecated: bool = None

    def records(self, order):
        found = [(1, part(1, self.name.encode())), (2, order.number(2, self.number))]
        if self.options or self.deprecated is not None:
            found.append((3, part(3, order.mix(flags([(1, self.deprecated)]), "value options"))))
        return order.join(found, "value")


@dataclass
class Enum:
    name: str
    values: list = member(default_factory=list)

    def records(self, order):
        found = [(1, part(1, self.name.encode()))]
        found += [(2, part(2, value.records(order))) for value in self.values]
        return order.join(found, "enum")


@dataclass
class Field:
    name: str
    number: int
    label: int
    type: int
    type_name: str = None
    default: bytes = None
    options: bool = False  # the options message is there
    packed: bool = None
    deprecated: bool = None
    oneof_index: int = None
    proto3_optional: bool = None

    def records(self, order):
        found = [
            (1, part(1, self.name.encode())),
            (3, order.number(3, self.number)),
            (4, order.number(4, self.label)),
            (5, order.number(5, self.type)),
        ]
        if self.type_name is not None:
            found.append((6, part(6, self.type_name.encode())))
        if self.default is not None:
            found.append((7, part(7, self.default)))
        if self.options or self.packed is not None or self.deprecated is not None:
            inner = flags([(2, self.packed), (3, self.deprecated)])
            found.append((8, part(8, order.mix(inner, "field options"))))
        if self.oneof_index is not None:
            found.append((9, order.number(9, self.oneof_index)))
        if self.proto3_optional is not None:
            found.append((17, order.number(17, int(self.proto3_optional))))
        return order.join(found, "field")


@dataclass
class Message:
    name: str
    fields: list = member(default_factory=list)
    nested: list = member(default_factory=list)
    enums: list = member(default_factory=list)
    oneofs: list = member(default_factory=list)  # their names
    options: bool = False  # the options message is there
    map_entry: bool = None

    def records(self, order):
        found = [(1, part(1, self.name.encode()))]
        found += [(2, part(2, field.records(order))) for field in self.fields]
        found += [(3, part(3, message.records(order))) for message in self.nested]
        found += [(4, part(4, enum.records(order))) for enum in self.enums]
        if self.options or self.map_entry is not None:
            found.append((7, part(7, order.mix(flags([(7, self.map_entry)]), "message options"))))
        for name in self.oneofs:
            found.append((8, part(8, order.join([(1, part(1, name.encode()))], "oneof"))))
        return order.join(found, "message")


@dataclass
class File:
    package: str = None
    syntax: str = None
    messages: list = member(default_factory=list)
    enums: list = member(default_factory=list)

    def records(self, order):
        found = []
        if self.package is not None:
            found.append((2, part(2, self.package.encode())))
        found += [(4, part(4, message.records(order))) for message in self.messages]
        found += [(5, part(5, enum.records(order))) for enum in self.enums]
        if self.syntax is not None:
            found.append((12, part(12, self.syntax.encode())))
        return order.join(found, "file")


class Plain:
    """Records in field order, nothing added."""

    def number(self, field, value):
        return number(field, value)

    def mix(self, inner, where):
        return inner

    def join(self, found, where):
        return b"".join(record for _, record in found)


def encode(files, order=Plain()):
    return order.join([(1, part(1, file.records(order))) for file in files], "set")
