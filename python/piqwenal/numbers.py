"""Whole numbers of single entries and commands."""

from __future__ import annotations

import re
from typing import Tuple

from .errors import FormatError

BLANKS = rb"[ \t]*"
NUMBER = rb"(-?[0-9]+)"
NATURAL = rb"([0-9]+)"

VALUE = re.compile(BLANKS + b"=" + BLANKS + NUMBER + BLANKS)
LONE = re.compile(BLANKS + NUMBER + BLANKS)
PAIR = re.compile(BLANKS + NUMBER + rb"[ \t]+" + NUMBER + BLANKS)
VECTOR = re.compile(
    rb"[ \t]+".join([BLANKS + NUMBER, NUMBER, NUMBER + BLANKS + b":" + BLANKS + NUMBER + BLANKS])
)
CONTACT = re.compile(BLANKS + NUMBER + rb"[ \t]+" + NUMBER + BLANKS + b":" + BLANKS + NUMBER + BLANKS)
SPAN = re.compile(BLANKS + NATURAL + BLANKS + b"-" + BLANKS + NATURAL + BLANKS)

BEYOND = 1 << 62


def whole(text: bytes) -> int:
    """The number of a text that is one. One that is too large for any range is cut to 2^62."""
    negative = text.startswith(b"-")
    digits = text.lstrip(b"-").lstrip(b"0") or b"0"
    value = int(digits) if len(digits) <= 18 else BEYOND
    return -value if negative else value


def numbers(form: "re.Pattern[bytes]", text: bytes, line: int) -> Tuple[int, ...]:
    """The numbers of an entry of this form."""
    match = form.fullmatch(text)
    if match is None:
        raise FormatError(line, "BadLine", f"{text[:60]!r} has another form")
    return tuple(whole(each) for each in match.groups())


def within(value: int, least: int, greatest: int, what: str, line: int) -> int:
    """The number, where it is in its range."""
    if not least <= value <= greatest:
        raise FormatError(line, "OutOfLimit", f"{what} is {value}, and may be {least} to {greatest}")
    return value


def span(text: bytes, greatest: int, line: int) -> Tuple[int, int]:
    """The monomers of `a` or `a-b`, counted from 0, the last one exclusive."""
    form = LONE if LONE.fullmatch(text) else SPAN
    ends = [within(each, 1, greatest, "a monomer", line) for each in numbers(form, text, line)]
    if ends[-1] < ends[0]:
        raise FormatError(line, "BadMonomer", "the range ends before it begins")
    return ends[0] - 1, ends[-1]


def valued_span(text: bytes, greatest: int, line: int) -> Tuple[int, int, int]:
    """The monomers of `a:t` or `a-b:t` as in `span`, and t."""
    monomers, colon, value = text.partition(b":")
    if not colon:
        raise FormatError(line, "BadLine", f"{text[:60]!r} has another form")
    first, last = span(monomers, 1 << 18, line)
    (number,) = numbers(LONE, value, line)
    return first, last, within(number, 0, greatest, "the value", line)
