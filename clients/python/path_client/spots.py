"""A place as people count it, and what the finders for texts and for queries have in common."""
from __future__ import annotations

import re
from typing import NamedTuple, Optional, Tuple

EXPONENT = r"[eE](?:[+-]?[0-9]*)"
NUMBER_FRONT = re.compile(rf"-?(?:(?:0|[1-9][0-9]*)(?:\.(?:[0-9]+(?:{EXPONENT})?)?|{EXPONENT})?)?")
NUMBER = re.compile(r"-?(?:0|[1-9][0-9]*)(?:\.[0-9]+)?(?:[eE][+-]?[0-9]+)?")


class Place(NamedTuple):
    """A place in a text: the bytes before it, its line and column (counted from 1, a column is a character), and what is said of it.

    `expected` is what may stand there, if something else was found, and else None.
    """

    byte: int
    line: int
    column: int
    message: str
    expected: Optional[str] = None

    def __str__(self) -> str:
        return f"line {self.line}, column {self.column} (byte {self.byte}): {self.message}"


class Stop(Exception):
    """From this character on the text does not follow its grammar."""

    def __init__(self, at: int, expected: str):
        super().__init__(at, expected)
        self.at, self.expected = at, expected


def is_beyond(number: str) -> bool:
    exponent = re.search("[eE][+-]?([0-9]+)", number)
    return len(number) > 256 or (exponent is not None and int(exponent[1]) > 999_999_999)


def found_at(data: bytes, at: int) -> str:
    if at >= len(data):
        return "the end of the text"
    return f"'{chr(data[at])}'" if 0x20 <= data[at] < 0x7F else f"byte 0x{data[at]:02x}"


def spot(data: bytes, at: int) -> Tuple[int, int, int]:
    front = data[:at]
    line = front[front.rfind(b"\n") + 1:]
    return at, front.count(b"\n") + 1, sum(byte & 0xC0 != 0x80 for byte in line) + 1


def expected_place(data: bytes, at: int, expected: str) -> Place:
    return Place(*spot(data, at), f"expected {expected}, found {found_at(data, at)}", expected)
