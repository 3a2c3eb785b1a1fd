"""Where a query is refused: at the end of the longest front with which some JSONPath query (RFC 9535, section 2.1.1) begins, or at the first part
that breaks a rule."""
from __future__ import annotations

import re
from typing import Dict, Optional, Pattern, Tuple

from .spots import NUMBER, NUMBER_FRONT, Place, Stop, expected_place, is_beyond, spot

END = "\0"
"""Stands behind the last character. No query has it."""
LEVEL_LIMIT = 32
LEVEL_RULE = f"level {LEVEL_LIMIT + 1}, at most {LEVEL_LIMIT} are read"
WHOLE_LIMIT = 9_007_199_254_740_991
BLANKS = re.compile(r"[ \t\n\r]*")
NAME = re.compile(r"[A-Za-z_\x80-\U0010ffff][0-9A-Za-z_\x80-\U0010ffff]*")
WORD = re.compile(r"[a-z][a-z0-9_]*")
WHOLE = re.compile(r"-?[1-9][0-9]*|0")
PLAIN = {quote: re.compile(r"[^\\\x00-\x1f" + quote + "]*") for quote in "'\""}
HEXADECIMAL = "0123456789ABCDEFabcdef"
COMPARED = ("literal", "singular", "function")
OPERANDS = {"": "'@', '$', a literal, a function, '!' or '('", "!": "'@', '$', a function or '('", "==": "'@', '$', a literal or a function"}
"""What may stand first, behind `!`, and behind the sign of a comparison."""
BEHIND = {"filter": ",]", "parenthesis": ")", "call": ",)"}
JOINED = {"filter": "'&&', '||', ',' or ']'", "parenthesis": "'&&', '||' or ')'", "call": "'&&', '||', ',' or ')'"}
QUERY_RULE = "the argument is a query"
ARGUMENTS: Dict[str, Tuple[Tuple[str, ...], str]] = {
    "length": (COMPARED, "the argument is a literal, a query of names and indexes, or a function"),
    "count": (("singular", "query"), QUERY_RULE),
    "value": (("singular", "query"), QUERY_RULE),
}
"""What a function's argument may be, and the rule that others break."""


class Reader:
    """Reads a query. Each method reads a part, and raises Stop at a character that cannot stand."""

    def __init__(self, text: str) -> None:
        self.text, self.at, self.levels = text + END, 0, 0
        self.broken: Optional[Tuple[int, str]] = None
        """The first part that breaks a rule, and the rule."""

    @property
    def sign(self) -> str:
        return self.text[self.at]

    @property
    def is_at_end(self) -> bool:
        return self.at == len(self.text) - 1

    def take(self, signs: str, expected: str) -> str:
        sign = self.sign
        if sign not in signs:
            raise Stop(self.at, expected)
        self.at += 1
        return sign

    def read(self, pattern: Pattern[str]) -> str:
        found = pattern.match(self.text, self.at)
        self.at = found.end() if found else self.at
        return found.group() if found else ""

    def open_level(self) -> None:
        if self.levels == LEVEL_LIMIT:
            raise Stop(self.at, "")
        self.levels += 1
        self.at += 1

    def breaks(self, at: int, rule: str) -> None:
        if self.broken is None or at < self.broken[0]:
            self.broken = at, rule

    def query(self) -> None:
        self.take("$", "'$'")
        self.segments(is_whole=True)

    def segments(self, is_whole: bool = False, is_bound: bool = False) -> str:
        """The segments of the whole query, or of one in a filter: what such an operand is. One that is bound selects a node at most."""
        is_singular = True
        while True:
            is_blank = bool(self.read(BLANKS))
            if self.sign == "[":
                is_singular = self.brackets(is_bound) and is_singular
            elif self.sign == ".":
                is_singular = self.dots(is_bound) and is_singular
            elif self.is_at_end and not is_whole:
                raise Stop(self.at, "'.', '[' or what follows a query in a filter")
            elif is_whole and (is_blank or not self.is_at_end):
                raise Stop(self.at, "'.' or '['" if is_blank else "'.', '[' or the end of the query")
            else:
                return "singular" if is_singular else "query"

    def dots(self, is_bound: bool) -> bool:
        """A segment that begins with a dot: whether it is a name."""
        self.at += 1
        if self.read(NAME):
            return True
        if is_bound:
            raise Stop(self.at, "a name")
        if self.take("*.", "a name, '*' or '.'") == "." and not self.read(NAME):
            if self.sign == "[":
                self.brackets(is_bound)
            else:
                self.take("*", "a name, '*' or '['")
        return False

    def brackets(self, is_bound: bool) -> bool:
        """Selectors in brackets: whether they are one name or one index."""
        is_single = True
        while True:
            self.at += 1
            self.read(BLANKS)
            if self.sign in "'\"":
                self.string()
            elif self.sign in "-0123456789" or self.sign == ":" and not is_bound:
                is_single = self.index(is_bound) and is_single
            elif is_bound:
                raise Stop(self.at, "a name in quotes or an index")
            else:
                is_single = False
                if self.sign == "?":
                    self.open_level()
                    self.expression("filter")
                    self.levels -= 1
                else:
                    self.take("*", "a name in quotes, a number, ':', '*' or '?'")
            self.read(BLANKS)
            if self.sign == "]":
                self.at += 1
                return is_single
            if is_bound or self.sign != ",":
                raise Stop(self.at, "']'" if is_bound else "',' or ']'")
            is_single = False

    def index(self, is_bound: bool) -> bool:
        """An index or a slice: whether it is an index."""
        part = 0
        while True:
            start, number = self.at, self.read(WHOLE)
            if not number and self.sign == "-":
                raise Stop(start + 1, "a digit from 1 to 9")
            if number and abs(int(number)) > WHOLE_LIMIT:
                self.breaks(start, f"an index is between -{WHOLE_LIMIT} and {WHOLE_LIMIT}")
            self.read(BLANKS)
            if self.sign in ",]":
                return part == 0
            if is_bound:
                raise Stop(self.at, "']'")
            if part == 2 or self.sign != ":":
                raise Stop(self.at, ("" if number else "a number, ") + ("':', " if part < 2 else "") + "',' or ']'")
            part += 1
            self.at += 1
            self.read(BLANKS)

    def string(self) -> None:
        quote = self.sign
        self.at += 1
        self.read(PLAIN[quote])
        while self.take(quote + "\\", "a character or the closing quote") == "\\":
            if self.take("bfnrt/\\u" + quote, "an escape") == "u":
                self.unit()
            self.read(PLAIN[quote])

    def unit(self) -> None:
        """The digits of an escape. The first half of a surrogate pair is followed by the second one."""
        if self.digit() not in "Dd":
            self.digit()
        elif self.take("0123456789ABab", "a digit of a character, or of the first half of a pair") in "89ABab":
            self.digit()
            self.digit()
            for signs in ("\\", "u", "Dd", "CDEFcdef"):
                self.take(signs, "the second half of a surrogate pair")
        self.digit()
        self.digit()

    def digit(self) -> str:
        return self.take(HEXADECIMAL, "four hexadecimal digits")

    def expression(self, around: str) -> str:
        """What stands in a filter, a parenthesis or a call, up to the sign behind it: what it is as an argument."""
        side, is_plain = "", True
        while True:
            self.read(BLANKS)
            start = self.at
            if self.sign == "!" and not side:
                side, is_plain = "!", False
                self.at += 1
                continue
            is_plain = is_plain and self.sign != "("
            operand = self.operand(side)
            self.read(BLANKS)
            sign, is_argument = self.sign, is_plain and around == "call"
            if sign in "=!<>" and not side and operand in COMPARED:
                side, is_plain = "==", False
                self.comparison()
                continue
            is_literal, is_joined = operand == "literal" and not side, sign in "&|"
            if not is_joined and sign not in BEHIND[around] or is_literal and (is_joined or not is_argument):
                compares = "a comparison, " if not side and operand in COMPARED else ""
                left = "a comparison, ',' or ')'" if is_argument else "a comparison"
                raise Stop(self.at, left if is_literal else compares + JOINED[around])
            if operand == "function" and side != "==" and (is_joined or not is_argument):
                self.breaks(start, "a function is no test: compare its value")
            if not is_joined:
                return operand if is_plain else "group"
            self.at += 1
            self.take(sign, f"'{sign}'")
            side, is_plain = "", False

    def comparison(self) -> None:
        if self.take("=!<>", "") in "=!":
            self.take("=", "'='")
        elif self.is_at_end:
            raise Stop(self.at, "'=', '@', '$', a literal or a function")
        elif self.sign == "=":
            self.at += 1

    def operand(self, side: str) -> str:
        start, word = self.at, self.read(WORD)
        if word:
            return self.word(start, word, side)
        if self.sign in "@$":
            self.at += 1
            return self.segments(is_bound=side == "==")
        if self.sign == "(" and side != "==":
            self.open_level()
            self.expression("parenthesis")
            self.levels -= 1
            self.at += 1
            return "group"
        if self.sign in "'\"" and side != "!":
            self.string()
            return "literal"
        number = "" if side == "!" else self.read(NUMBER_FRONT)
        if not number:
            raise Stop(start, OPERANDS[side])
        if not NUMBER.fullmatch(number):
            raise Stop(self.at, "a digit")
        if is_beyond(number):
            self.breaks(start, "a number has at most 256 bytes and an exponent of at most 999999999")
        return "literal"

    def word(self, start: int, word: str, side: str) -> str:
        if self.sign == "(":
            self.open_level()
            if word in ("match", "search"):
                self.breaks(start, "match and search are not in this server")
            elif word not in ARGUMENTS:
                self.breaks(start, "the functions are length, count and value")
            self.arguments(word)
            self.levels -= 1
            return "function"
        if word in ("true", "false", "null") and side != "!" and not self.is_at_end:
            return "literal"
        raise Stop(self.at, "true, false, null, or a function with its '('")

    def arguments(self, name: str) -> None:
        self.read(BLANKS)
        if self.is_at_end:
            raise Stop(self.at, "an argument or ')'")
        start, number = self.at, 0
        kinds, rule = ARGUMENTS.get(name, ((), ""))
        while self.sign != ")" or number:
            kind, number = self.expression("call"), number + 1
            if number > 1:
                self.breaks(start, "a function has one argument")
            if kinds and kind not in kinds:
                self.breaks(start, rule)
            if self.take(",)", "") == ")":
                return
            start = self.at
        self.breaks(start, "a function has one argument")
        self.at += 1


def query_place(data: bytes, refusal: str) -> Optional[Place]:
    """The place at which a query is refused as NotWellFormed or NotValid. None if it is not."""
    try:
        front = len(data.decode("utf-8").encode())
    except UnicodeDecodeError as error:
        front = error.start
    whole = data[:front].decode("utf-8")
    reader = Reader(whole)
    stop: Optional[Stop] = None
    try:
        reader.query()
    except Stop as found:
        stop = found
    if refusal == "NotValid":
        at, rule = reader.broken or (0, "")
        return Place(*spot(data, len(whole[:at].encode())), rule) if rule and stop is None else None
    if front < len(data) and (stop is None or stop.at == len(whole)):
        return expected_place(data, front, "UTF-8")
    if stop is None:
        return None
    at = len(whole[:stop.at].encode())
    return expected_place(data, at, stop.expected) if stop.expected else Place(*spot(data, at), LEVEL_RULE)
