"""What document 01's program prints for a case: the oracle's texts, document 01's refusals."""

import re

from refusals import refusals

UNANSWERED = (b"undecodable", b"options", b"extern")


class Differs(Exception):
    """Document 01's refusals and the Rust don't fit together."""


def last_line(output):
    return output.rstrip(b"\n").rsplit(b"\n", 1)[-1]


def check_stop(told, options, answer, panicked):
    """The answer stops at the first file refused by 8 or 9, and only there by a panic."""
    refused = [at for at, own in enumerate(told) if own]
    if panicked and not refused:
        raise Differs("a panic without refusal 8 or 9")
    if b"//@" in options:
        return  # an option's value may look like a file's line
    written = len(re.findall(rb"^//@ ", answer, re.M))
    if panicked and written != refused[0]:
        raise Differs(f"told {told}, but the panic is at file {written}")
    if not panicked and refused and refused[0] <= written:
        raise Differs(f"told {told}, but no panic up to file {written}")


def expected(set_bytes, options, answer):
    """The output, and in a word how it came about; no output where the case isn't compared."""
    told = refusals(set_bytes, options)
    if isinstance(told, tuple):
        return b"refused %d %d\n" % told, f"refused {told[0]}"
    last = last_line(answer)
    if last == b"undecodable":
        return None, "undecodable"
    if last in UNANSWERED:
        raise Differs(f"accepted, but the answer is {last.decode()}")
    check_stop(told, options, answer, last == b"panicked")
    if last == b"panicked":
        number, place = next(own for own in told if own)
        line = b"refused %d %d\n" % (number, place)
        return answer.removesuffix(b"panicked\n") + line, f"refused {number}"
    if last.startswith(b"refused 10 "):
        return answer, "refused 10"
    if any(told):
        raise Differs(f"told {told}, but the answer has all texts")
    return answer, "texts"
