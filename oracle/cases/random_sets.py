"""Seeded random cases, valid by construction: none of document 01's refusals 1 to 7 applies.

The four draws of a case: the files and declarations, then the fields (which may name any
declaration), then the options, then the order and padding of the records.
"""

import random
import re

from model import (
    BYTES,
    ENUM,
    GROUP,
    MAP_KEYS,
    MESSAGE,
    OPTIONAL,
    REPEATED,
    REQUIRED,
    SCALARS,
    SINT32,
    STRING,
    Enum,
    Field,
    File,
    Message,
    Plain,
    Value,
    encode,
)
from names import bare, name
from wire import key, number, options, part, read_varint, varint

# How often a size is drawn, its files, messages at top level, most nesting, fields of a message.
SIZES = [
    (40, (1, 1), (0, 3), 2, (0, 4)),
    (35, (1, 4), (0, 4), 4, (0, 8)),
    (15, (2, 8), (1, 5), 5, (0, 12)),
    (5, (1, 2), (1, 2), 16, (0, 2)),
    (5, (3, 12), (2, 8), 3, (2, 16)),
]
WRAPPERS = """BoolValue BytesValue DoubleValue Empty FloatValue Int32Value Int64Value StringValue
UInt32Value UInt64Value""".split()
WELL_KNOWN = WRAPPERS + ["Timestamp", "Any", "NullValue"]
SET_LIMIT, FULL_NAME_LIMIT, NESTING_LIMIT, MESSAGE_LIMIT, FIELD_LIMIT = 32768, 255, 16, 256, 2048


class Order(Plain):
    """Shuffled records, padded varints, and records that are skipped by document 01's reader and by
    prost-types' decoder alike."""

    # Fields that descriptor.proto knows and document 01 doesn't, with fitting payloads.
    KNOWN = {
        "file": [part(1, b"bench/chair.proto"), part(3, b"base.proto"), part(8, part(1, b"x.y"))],
        "message": [part(5, number(1, 100) + number(2, 200)), part(10, b"old_name")],
        "field": [part(10, b"jsonName"), part(2, b".x.Extended")],
        "enum": [part(3, number(2, 1)), part(5, b"GONE")],
        "message options": [number(3, 1), number(1, 0)],
        "field options": [number(1, 1), number(5, 1), number(10, 0)],
    }

    def __init__(self, rng):
        self.rng = rng
        self.mixed = rng.random() < 0.5
        self.noise = rng.choice((0, 0, 0.02, 0.2))
        self.padding = rng.choice((0, 0, 0.1))

    def number(self, field, value):
        pad = self.rng.randrange(1, 9) if self.rng.random() < self.padding else 0
        if pad and self.rng.random() < 0.3 and field != 17:
            value += self.rng.randrange(1, 1 << 32) << 32  # only the low 32 bits count
        elif value < 0 and self.rng.random() < 0.3:
            value &= 0xFFFFFFFF
        return key(field, 0) + varint(value, pad)

    def mix(self, inner, where):
        return b"".join(self.skipped(where)) + inner

    def skipped(self, where):
        while self.rng.random() < self.noise:
            known = self.KNOWN.get(where)
            if known and self.rng.random() < 0.6:
                yield self.rng.choice(known)
            else:
                yield self.unknown()

    def unknown(self):
        field = self.rng.choice((100, 998, 5000, 18999, 536870911))  # 999 is known in options
        wire_type = self.rng.choice((0, 1, 2, 5))
        if wire_type == 0:
            return key(field, 0) + varint(self.rng.getrandbits(64), self.rng.randrange(3))
        if wire_type == 2:
            return part(field, self.rng.randbytes(self.rng.randrange(6)))
        return key(field, wire_type) + self.rng.randbytes(8 if wire_type == 1 else 4)

    def join(self, found, where):
        found = list(found)
        if self.mixed:
            places = [field for field, _ in found]
            self.rng.shuffle(places)
            queues = {}
            for field, record in found:
                queues.setdefault(field, []).append(record)
            records = [queues[field].pop(0) for field in places]
        else:
            records = [record for _, record in found]
        for record in self.skipped(where):
            records.insert(self.rng.randrange(len(records) + 1), record)
        return b"".join(map(self.padded, records))

    def padded(self, record):
        """The record, sometimes with a longer key and length."""
        if self.rng.random() >= self.padding / 2:
            return record
        tag, at = read_varint(record, 0)
        longer = varint(tag, self.rng.randrange(3))
        if tag & 7 == 2:
            length, at = read_varint(record, at)
            longer += varint(length, self.rng.randrange(3))
        return longer + record[at:]


class Draw:
    """One random set and its options."""

    def __init__(self, rng, overlap=False, unescapable=False):
        self.rng = rng
        self.overlap = overlap  # written enum variants may overlap (8)
        self.unescapable = unescapable  # bytes defaults may not unescape (9)
        self.odd = rng.choice((0.05, 0.3, 0.7))
        self.full_names = set()
        self.messages = []  # (full name, message, file), map entries left out
        self.enums = []  # (full name, enum)
        self.all_messages = 0
        self.all_fields = 0
        weights = [size[0] for size in SIZES]
        _, files, self.top, self.nesting, self.counts = rng.choices(SIZES, weights)[0]
        self.well_known = rng.random() < 0.25
        self.files = [self.file(index) for index in range(rng.randint(*files))]
        if self.well_known:
            self.files.append(self.well_known_file())
        for full_name, message, file in list(self.messages):
            self.fill(full_name, message, file)
        self.cut_doubled_links()

    # Declarations.

    def package(self):
        segments = ["a", "b", "c", "chair", "chair", "base", "v1", "MyPkg", "type", "self"]
        if self.rng.random() < 0.15:
            return None
        if self.rng.random() < 0.1:
            return ".".join(name(self.rng, self.odd, 20) for _ in range(self.rng.randint(1, 3)))
        return ".".join(self.rng.choice(segments) for _ in range(self.rng.randint(1, 3)))

    def file(self, _index):
        file = File(self.package(), self.rng.choice(("proto3", "proto3", "proto2", None)))
        scope = "" if file.package is None else "." + file.package
        for _ in range(self.rng.randint(*self.top)):
            self.declare_message(scope, file.messages, file, 1)
        for _ in range(self.rng.choice((0, 0, 1, 2))):
            self.declare_enum(scope, file.enums)
        return file

    def well_known_file(self):
        file = File("google.protobuf", "proto3")
        for wanted in self.rng.sample(WELL_KNOWN, self.rng.randint(1, 6)):
            full_name = ".google.protobuf." + wanted
            if full_name in self.full_names:
                continue
            self.full_names.add(full_name)
            if wanted == "NullValue":
                enum = Enum(wanted, [Value("NULL_VALUE", 0)])
                file.enums.append(enum)
                self.enums.append((full_name, enum))
            else:
                self.all_messages += 1
                message = Message(wanted)
                file.messages.append(message)
                self.messages.append((full_name, message, file))
        return file

    def full_name(self, scope, wanted=None):
        """A full name not declared before, and its last segment; none if there is no room."""
        for most in (64, 64, 20, 8, 4, 4, 4):
            last = wanted or name(self.rng, self.odd, most)
            full_name = f"{scope}.{last}"
            if len(full_name) <= FULL_NAME_LIMIT and full_name not in self.full_names:
                self.full_names.add(full_name)
                return full_name, last
            wanted = None
        return None, None

    def declare_message(self, scope, into, file, level):
        full_name, last = self.full_name(scope)
        if last is None or self.all_messages >= MESSAGE_LIMIT - 40:
            return
        self.all_messages += 1
        message = Message(last, options=self.rng.random() < 0.05)
        if self.rng.random() < 0.05:
            message.map_entry = False
        into.append(message)
        self.messages.append((full_name, message, file))
        if level < self.nesting:
            deep = self.nesting > 8
            often = (1,) if deep else (0, 0, 0, 1, 1, 2)
            for _ in range(self.rng.choice(often)):
                self.declare_message(full_name, message.nested, file, level + 1)
        for _ in range(self.rng.choice((0, 0, 0, 1, 2))):
            self.declare_enum(full_name, message.enums)

    def declare_enum(self, scope, into):
        full_name, last = self.full_name(scope)
        if last is None or len(self.enums) >= 200:
            return
        enum = Enum(last)
        into.append(enum)
        self.enums.append((full_name, enum))
        used = set()
        for at in range(self.rng.choice((0, 1, 1, 2, 3, 5, 9))):
            self.declare_value(enum, used, at)

    def declare_value(self, enum, used, at):
        for _ in range(5):
            found = name(self.rng, self.odd)
            if self.rng.random() < 0.6:
                found = (
                    (enum.name.upper() + "_" + found)[:64]
                    if self.rng.random() < 0.8
                    else enum.name + found
                )
                found = found[:64]
            forms = {bare(found)}
            if bare(found).startswith(bare(enum.name)):
                forms.add(bare(found)[len(bare(enum.name)) :])
            if not used & forms or self.overlap:
                break
        else:
            return
        used |= forms
        numbers = (at, at, at, at, -at, self.rng.randrange(-5, 5), 2**31 - 1, -(2**31))
        value = Value(found, self.rng.choice(numbers), options=self.rng.random() < 0.05)
        if self.rng.random() < 0.15:
            value.deprecated = self.rng.random() < 0.8
        enum.values.append(value)

    # Fields.

    def fill(self, full_name, message, file):
        rng = self.rng
        for _ in range(rng.choice((0, 0, 0, 1, 1, 2))):
            taken = [nested.name for nested in message.nested] + [
                enum.name for enum in message.enums
            ]
            same = taken and rng.random() < 0.3
            message.oneofs.append(rng.choice(taken) if same else name(rng, self.odd))
        used = set()
        for _ in range(rng.randint(*self.counts)):
            if self.all_fields >= FIELD_LIMIT - 60:
                return
            field = self.field(full_name, message, file)
            if field.number not in used or rng.random() < 0.1:
                used.add(field.number)
                message.fields.append(field)
                self.all_fields += 1
            elif field.type_name and field.type_name in self.entry_names(full_name, message):
                message.fields.append(field)
                self.all_fields += 1

    def entry_names(self, full_name, message):
        return [f"{full_name}.{nested.name}" for nested in message.nested if nested.map_entry]

    def field(self, full_name, message, file):
        rng = self.rng
        numbers = (rng.randint(1, 20), rng.randint(1, 20), rng.randint(1, 3000), 536870911)
        field = Field(name(rng, self.odd), rng.choice(numbers), OPTIONAL, SINT32)
        if rng.random() < 0.12 and self.map_field(full_name, message, file, field):
            return field
        field.label = rng.choice((OPTIONAL, OPTIONAL, OPTIONAL, REPEATED, REQUIRED))
        if file.syntax == "proto3" and field.label == REQUIRED and rng.random() < 0.9:
            field.label = OPTIONAL
        field.type, field.type_name = self.type(full_name, file)
        if message.oneofs and rng.random() < 0.4:
            field.label = OPTIONAL
            field.oneof_index = rng.randrange(len(message.oneofs))
            if file.syntax == "proto3" and rng.random() < 0.2:
                field.proto3_optional = True
        elif rng.random() < (0.15 if file.syntax == "proto3" else 0.02):
            field.proto3_optional = rng.random() < 0.8
        self.field_options(field)
        if rng.random() < (0.08 if file.syntax == "proto3" else 0.4):
            field.default = self.default(field.type)
        return field

    def field_options(self, field):
        rng = self.rng
        field.options = rng.random() < 0.08
        if rng.random() < 0.12:
            field.packed = rng.random() < 0.5
        if rng.random() < 0.12:
            field.deprecated = rng.random() < 0.8

    def type(self, full_name, file):
        """A type and a type name of the set."""
        rng = self.rng
        pick = rng.random()
        if pick < 0.3:
            near = [each for each, _, its_file in self.messages if its_file is file]
            target = rng.choice(near) if rng.random() < 0.6 else rng.choice(self.messages)[0]
            if rng.random() < 0.1:
                target = full_name
            return (GROUP if rng.random() < 0.12 else MESSAGE), target
        if pick < 0.45 and self.enums:
            return ENUM, rng.choice(self.enums)[0]
        odd_name = rng.choice(("", "x", ".no.such", "\u00e9")) if rng.random() < 0.02 else None
        return rng.choice(SCALARS + [BYTES, STRING]), odd_name

    def map_field(self, full_name, message, file, field):
        """Makes the field a map field, its entry declared in the message."""
        rng = self.rng
        outside = 0 if file.package is None else file.package.count(".") + 1
        if (
            self.all_messages >= MESSAGE_LIMIT - 1
            or full_name.count(".") - outside >= NESTING_LIMIT
        ):
            return False
        wanted = "".join(word.capitalize() for word in field.name.split("_"))[:50] + "Entry"
        if wanted[0].isdigit():
            wanted = "_" + wanted
        entry_name, last = self.full_name(full_name, wanted)
        if last is None:
            return False
        self.all_messages += 1
        self.all_fields += 2
        value_type, type_name = self.type(full_name, file)
        if value_type == GROUP:
            value_type = MESSAGE
        key_field = Field("key", 1, OPTIONAL, rng.choice(MAP_KEYS))
        value_field = Field("value", 2, OPTIONAL, value_type, type_name)
        for inner in (key_field, value_field):
            if rng.random() < 0.1:
                self.field_options(inner)
                inner.default = self.default(inner.type)
        entry = Message(last, [key_field, value_field], map_entry=True)
        message.nested.insert(rng.randrange(len(message.nested) + 1), entry)
        field.label, field.type, field.type_name = REPEATED, MESSAGE, entry_name
        if rng.random() < 0.1:
            field.proto3_optional = rng.random() < 0.5
        if rng.random() < 0.1:
            self.field_options(field)
            field.default = self.default(field.type)
        return True

    def default(self, type_):
        rng = self.rng
        if type_ == ENUM:
            values = [value.name for _, enum in self.enums for value in enum.values]
            return (
                rng.choice(values or ["X"]).encode()
                if rng.random() < 0.8
                else name(rng, 1.0).encode()
            )
        if type_ == BYTES:
            return self.bytes_default()
        if rng.random() < 0.5:
            usual = ("0", "1", "-1", "true", "false", "inf", "-inf", "nan", "1e-7", "0x1F", "")
            return rng.choice(usual).encode()
        letters = list(
            "ab \t\r\n'\"\\{}\x00\x1f~\x7f\x80\u00e9\u0301\u07ff\u0800\ud7ff\ue000\uffff\U00010000\U0010ffff"
        )
        found = "".join(rng.choice(letters) for _ in range(rng.choice((1, 3, 8, 60))))
        return found.encode()[:252].decode("utf-8", "ignore").encode()

    def bytes_default(self):
        rng = self.rng
        found = b""
        escapes = [b"\\" + bytes([c]) for c in b"abfnrtv\\?'\""]
        wrong = [b"\\q", b"\\x5", b"\\xg0", b"\\8", b"\\x", b"\\"]
        for _ in range(rng.choice((0, 1, 3, 8, 30))):
            pick = rng.randrange(6)
            if pick == 0:
                found += rng.choice(escapes)
            elif pick == 1:
                octal = oct(rng.randrange(256))[2:]
                found += b"\\" + octal.zfill(rng.randrange(1, 4)).encode()
            elif pick == 2:
                digits = "%02x" % rng.randrange(256)
                found += (
                    rng.choice((b"\\x", b"\\X")) + rng.choice((digits, digits.upper())).encode()
                )
            elif pick == 3:
                found += rng.choice(("\u00e9", "\u20ac", "\U0001f680", "8", "\x7f", '"')).encode()
            else:
                # No digit that would make a shorter octal escape longer, and above 255.
                octal_before = re.search(rb"\\[0-7]{1,2}\Z", found)
                found += bytes([rng.choice(b"aZ 89'x~" if octal_before else b"aZ 09'x~")])
        if self.unescapable and rng.random() < 0.3:
            found += rng.choice(wrong)
        return found

    # The Rust asks for Copy and Eq again at every link, so chains of doubled links take it
    # exponential time. Messages past a small count of such questions get repeated fields.

    def cut_doubled_links(self, most=2000):
        found = {full_name: message for full_name, message, _ in self.messages}
        links = {
            full_name: [
                f.type_name for f in message.fields if f.type == MESSAGE and f.label != REPEATED
            ]
            for full_name, message in found.items()
        }
        for full_name, message in found.items():  # map entries aren't among the links
            links[full_name] = [target for target in links[full_name] if target in found]
        reach = {full_name: reachable(links, full_name) for full_name in found}
        memo = {}

        def cost(full_name):
            if full_name not in memo:
                inner = [t for t in links[full_name] if full_name not in reach[t]]
                memo[full_name] = 1 + sum(cost(target) for target in inner)
                if memo[full_name] > most:
                    for field in found[full_name].fields:
                        if field.type == MESSAGE and field.oneof_index is None:
                            field.label = REPEATED
                    memo[full_name] = 1
            return memo[full_name]

        for full_name in found:
            cost(full_name)

    # Options.

    def options(self):
        rng = self.rng
        rows = []
        budget = 3500
        used = set()
        kinds = [kind for kind in range(1, 12) for _ in range(3)]
        if self.well_known:
            kinds += [12] * 30
        if rng.random() < 0.25:
            return rows
        for _ in range(rng.choice((1, 3, 6, 12, 40))):
            kind = rng.choice(kinds)
            path = self.path(kind) if kind < 10 else ""
            value = self.value(kind) if kind in (1, 5, 6, 7, 8, 10, 12) else ""
            budget -= 8 + len(path) + len(value)
            if budget < 0:
                break
            if kind in (10, 12):
                if kind in used:
                    continue
                used.add(kind)
            rows.append((kind, path, value))
        return self.valid_extern(rows)

    def path(self, kind):
        """A path of the set in one of its forms, or one that meets nothing."""
        rng = self.rng
        pick = rng.random()
        if kind == 1:
            return self.extern_path()
        if pick < 0.05:
            return rng.choice((".", ".", "x", ".x.y", "M.", "..", "!"))
        if not self.messages or pick < 0.25:
            pool = [full_name for full_name, _ in self.enums]
            pool += [f"{n}.{v.name}" for n, enum in self.enums for v in enum.values]
        else:
            pool = []
            for full_name, message, _ in self.messages:
                pool.append(full_name)
                pool += [f"{full_name}.{name}" for name in message.oneofs]
                for field in message.fields:
                    pool.append(f"{full_name}.{field.name}")
                    if field.oneof_index is not None:
                        pool.append(f"{full_name}.{message.oneofs[field.oneof_index]}.{field.name}")
                pool.append(f"{full_name}.value")
        if not pool:
            return "."
        path = rng.choice(pool)
        segments = path[1:].split(".")
        if pick < 0.6:
            return path
        if pick < 0.85:
            return ".".join(segments[rng.randrange(len(segments)) :])
        return "." + ".".join(segments[: rng.randint(1, len(segments))])

    def extern_path(self):
        rng = self.rng
        pool = [full_name for full_name, _, _ in self.messages] + [each for each, _ in self.enums]
        if not pool or rng.random() < 0.1:
            return rng.choice(
                (".x", ".a", ".chair", ".a.b", ".a.b.c.d", ".google.protobuf.Timestamp")
            )
        path = rng.choice(pool)
        segments = path[1:].split(".")
        if rng.random() < 0.5:
            return path
        return "." + ".".join(segments[: rng.randint(1, len(segments))])

    def valid_extern(self, rows):
        """The rows without extern paths that are listed twice or among those of prost types."""
        taken = set()
        if any(kind == 12 for kind, _, _ in rows):
            taken = {".google.protobuf"} | {".google.protobuf." + each for each in WRAPPERS}
        kept = []
        for kind, path, value in rows:
            if kind == 1:
                if path in taken:
                    continue
                taken.add(path)
            kept.append((kind, path, value))
        return kept

    def value(self, kind):
        rng = self.rng
        if kind == 1:
            usual = (
                "crate::MyMod",
                "::ext",
                "::ext::Type",
                "super::self",
                "a::crate::B",
                "crate",
                "Box<u8>",
                "my-crate::x y",
                "HTTPServer::V1",
                "::",
                "::a::::b",
                "()",
                "_",
            )
            return rng.choice(usual)
        if kind == 10:
            return rng.choice(("::prost", "crate::prost", "::my::Prost", "p", '"quoted\\"'))
        if kind == 12:
            return rng.choice(("::prost_types", "crate::WellKnown", "::prost::types", "T"))
        usual = (
            "#[derive(Eq)]",
            '#[serde(rename = "x\\y")]',
            '#[cfg(feature = "a")]',
            "//@ -",
            "pub struct Fake;",
            " ",
            "}",
            "#[allow(dead_code)] /* { */",
            "~",
        )
        return rng.choice(usual)


def reachable(links, start):
    """What a message leads to, itself too."""
    seen, stack = {start}, [start]
    while stack:
        for target in links[stack.pop()]:
            if target not in seen:
                seen.add(target)
                stack.append(target)
    return seen


def random_case(seed, overlap=False, unescapable=False):
    """The set and options of a seed, within limit 1."""
    attempt = 0
    while True:
        rng = random.Random(f"{seed}/{attempt}/{int(overlap)}{int(unescapable)}")
        draw = Draw(rng, overlap, unescapable)
        rows = draw.options()
        set_bytes = encode(draw.files, Order(rng))
        if len(set_bytes) <= SET_LIMIT:
            return set_bytes, options(rows)
        attempt += 1
