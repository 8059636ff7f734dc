"""Inputs of the recorded lists, each a list of lines for one of the oracle's line commands."""

import itertools
import random
import re

from names import KEYWORDS, ODD, name


def over(alphabet, most):
    """All strings over an alphabet with 1 to `most` letters."""
    for length in range(1, most + 1):
        for letters in itertools.product(alphabet, repeat=length):
            yield "".join(letters)


def once(lines):
    return list(dict.fromkeys(lines))


def ident_names():
    """Names to convert. Those of separators only are left out: document 01 refuses them."""
    rng = random.Random("ident")
    found = list(over("aB1_", 5)) + list(over("aAbB", 4)) + list(over("aB1-<", 3))
    for word in KEYWORDS:
        half = len(word) // 2
        found += [word, word.capitalize(), word.upper(), word.lower(), f"{word}_", f"_{word}"]
        found += [
            word[:half] + word[half:].capitalize(),
            f"{word}1",
            f"1{word}",
            f"r_{word}",
            f"{word}_{word}",
        ]
    found += ODD
    found += [
        f"{a}{b}{c}"
        for a in ("HTTP", "Http", "http", "H")
        for b in ("", "2", "_")
        for c in ("Server", "server", "SERVER", "S", "s")
    ]
    found += ["AAa" * 21 + "A", "a" * 64, "A" * 64, "aA" * 32, "a_" * 32, "_" * 63 + "a", "1" * 64]
    found += [name(rng, 0.6) for _ in range(1200)]
    return [each for each in once(found) if re.search("[A-Za-z0-9]", each)]


def strip_pairs():
    """Prefix and name, as `strip_enum_prefix` gets them."""
    short = list(over("Aa1_", 3))
    found = [
        f"{prefix}\t{name}" for prefix in short for name in short if name.startswith(prefix[0])
    ]
    rests = [
        "Self",
        "Self_",
        "self",
        "1",
        "_1",
        "Off",
        "off",
        "",
        "_",
        "Mode",
        "ModeOff",
        "R#Type",
        "Type",
        "SELF",
    ]
    for prefix in ("Mode", "Self_", "_1", "Mod", "M", "ModeMode"):
        found += [f"{prefix}\t{prefix}{rest}" for rest in rests]
        found += [f"{prefix}\t{rest}" for rest in rests if rest]
    return once(found)


def left_out(default):
    """Where document 01 refuses what the Rust takes: a sign in hex, octal above 255."""
    return re.search(rb"\\[xX]\+|\\[4-7][0-7][0-7]", default)


def unescape_defaults():
    rng = random.Random("unescape")
    found = [b"", b"abc", b"\\"]
    found += [b"\\" + bytes([c]) for c in range(128)]
    found += [b"a\\" + bytes([c]) + b"z" for c in range(32, 127)]
    found += [b"\\%o" % n for n in range(256)] + [b"\\%03o" % n for n in range(0, 256, 5)]
    found += [
        b"\\08",
        b"\\0018",
        b"\\1a",
        b"\\18",
        b"\\378",
        b"\\0",
        b"\\00",
        b"\\000",
        b"\\0000",
        b"\\377\\377",
    ]
    for x in (b"\\x", b"\\X"):
        found += [
            x,
            x + b"5",
            x + b"g0",
            x + b"0g",
            x + b"5\\",
            x + b"-1",
            x + b" 1",
            x + b"1 ",
            x + b"\xc3\xa9",
            x + b"1\xc3\xa9",
        ]
        found += [x + b"%02x" % n for n in range(0, 256, 7)] + [
            x + b"%02X1" % n for n in range(5, 256, 11)
        ]
    pieces = [
        b"\\n",
        b"\\\\",
        b"\\'",
        b'\\"',
        b"\\?",
        b"\\1",
        b"\\12",
        b"\\123",
        b"\\x0a",
        b"\\XfF",
        b"a",
        b"9",
        b" ",
        b"\xc3\xa9",
        b"\xf0\x9f\x9a\x80",
        b"\\q",
        b"\\x",
    ]
    for _ in range(400):
        found.append(b"".join(rng.choices(pieces, [4] * 15 + [1, 1], k=rng.randrange(1, 9))))
    return [each.hex() for each in once(found) if not left_out(each)]


def escape_texts():
    rng = random.Random("escape")
    points = list(range(0x180)) + [
        0x7FF,
        0x800,
        0xFFF,
        0x1000,
        0x20AC,
        0xD7FF,
        0xE000,
        0xFFFD,
        0xFFFF,
        0x10000,
        0xFFFFF,
        0x100000,
        0x10FFFF,
    ]
    found = [chr(point).encode().hex() for point in points] + [""]
    found += [
        "".join(chr(rng.choice(points)) for _ in range(rng.randrange(2, 12))).encode().hex()
        for _ in range(150)
    ]
    found += ["b%02x" % byte for byte in range(256)] + ["b"]
    found += ["b" + rng.randbytes(rng.randrange(2, 12)).hex() for _ in range(100)]
    return once(found)


def path_lines():
    """A path, then the rows' paths."""
    rng = random.Random("paths")
    found = [
        f".M.o.f {form}"
        for form in ".M.o.f M.o.f o.f f .M.o .M . .o .o.f M.o o M .f x .M.o.f.g .M. .. M..o".split()
    ]
    segments = ["a", "b", "M", "a1"]
    for _ in range(600):
        path = "".join("." + rng.choice(segments) for _ in range(rng.randint(1, 5)))
        rows = [path_form(rng, path, segments) for _ in range(rng.randrange(7))]
        found.append(" ".join([path] + rows))
    return once(found)


def path_form(rng, path, segments):
    parts = path[1:].split(".")
    pick = rng.randrange(5)
    if pick == 0:
        return rng.choice((path, "."))
    if pick == 1:
        return ".".join(parts[rng.randrange(len(parts)) :])
    if pick == 2:
        return "." + ".".join(parts[: rng.randint(1, len(parts))])
    if pick == 3:
        return ".".join(parts[: rng.randint(1, len(parts))])
    return rng.choice(("", ".")) + ".".join(rng.choice(segments) for _ in range(rng.randint(1, 3)))


def extern_lines():
    """An identifier, the prost path, the path of prost types or `-`, then the rows, by tabs."""
    rng = random.Random("extern")
    values = [
        "crate::MyMod",
        "::ext::Type",
        "crate",
        "x",
        "a::crate::B",
        "super::self",
        "::",
        "::a::::b",
        "my-crate::x y",
        "()",
        "Vec<u8>",
    ]
    segments = ["g", "In", "msg", "type", "a1B", "_1", "google", "protobuf"]
    known = ["Any", "BoolValue", "BytesValue", "StringValue", "Empty", "UInt64Value", "Value.Inner"]
    found = [".g.In.msg\t::prost\t-\t.g=crate::MyMod"]
    for _ in range(600):
        path = "".join("." + rng.choice(segments) for _ in range(rng.randint(1, 4)))
        if rng.random() < 0.3:
            path = ".google.protobuf." + rng.choice(known)
        paths = [path_form(rng, path, segments) for _ in range(rng.randrange(5))]
        types = rng.choice(("-", "::prost_types", "crate::Types"))
        if rng.random() < 0.8:  # rows that are not refused
            paths = once("." + each.strip(".") for each in paths if each != ".")
            paths = [
                each for each in paths if types == "-" or not each.startswith(".google.protobuf")
            ]
        rows = [f"{each}={rng.choice(values)}" for each in paths]
        found.append("\t".join([path, rng.choice(("::prost", "crate::p")), types] + rows))
    return once(found)
