"""Where a text or a query is refused.

The server says which refusal applies and not where, so that it reads fast. Whoever holds the text finds the place:

    place = find_place(text, "NotJson")
    print(place)            # line 3, column 1 (byte 24): expected a name in double quotes, found '}'
    print(place.byte)       # 24

A place of NotJson is the end of the longest front with which some JSON text (RFC 8259) begins, and one of NotWellFormed that of a query (RFC 9535).
"""
from __future__ import annotations

import re
from typing import Dict, Iterator, List, Optional, Tuple, Union

from .query_places import query_place
from .spots import NUMBER, NUMBER_FRONT, Place, Stop, expected_place, is_beyond, spot

BLANKS = re.compile(r"[ \t\n\r]*")
STRING = re.compile(r'"(?:[^"\\\x00-\x1f]+|\\(?:["\\/bfnrt]|u[0-9A-Fa-f]{4}))*')
ESCAPE = re.compile(r"\\(?:u[0-9A-Fa-f]{0,3})?")
UNIT = re.compile(r"\\u([0-9A-Fa-f]{4})|\\.|[^\\]", re.DOTALL)
SHORT = {"b": "\b", "f": "\f", "n": "\n", "r": "\r", "t": "\t"}
DEPTH_LIMIT = 256
OF_TEXTS = ("NotUtf8", "NotJson", "TooDeep", "NumberLimit", "LoneSurrogate", "DuplicateName")
OF_QUERIES = ("NotWellFormed", "NotValid")
"""The refusals that have a place."""
NUMBER_RULE = "a number of more than 256 bytes, or with an exponent above 999999999"


def tokens(text: str) -> Iterator[Tuple[str, int, int]]:
    """The tokens of a text with the characters between which they stand: `[`, `{`, `]`, `}`, `number`, `string` and `name`."""
    opens: List[str] = []
    at, wants = 0, "a value"
    while True:
        at = BLANKS.match(text, at).end()  # type: ignore[union-attr]
        sign = text[at:at + 1]
        if wants in ("a value", "a value or ']'"):
            if sign == "]" and wants == "a value or ']'":
                yield opens.pop(), at, at + 1
                at, wants = at + 1, "behind"
            elif sign in ("[", "{") and sign:
                yield sign, at, at + 1
                opens.append("]" if sign == "[" else "}")
                at, wants = at + 1, "a value or ']'" if sign == "[" else "a name in double quotes or '}'"
            else:
                kind, end = scalar(text, at, wants)
                yield kind, at, end
                at, wants = end, "behind"
        elif wants == "':'":
            if sign != ":":
                raise Stop(at, wants)
            at, wants = at + 1, "a value"
        elif wants == "behind":
            close = opens[-1] if opens else ""
            if not opens:
                if sign:
                    raise Stop(at, "the end of the text")
                return
            if sign == ",":
                wants = "a value" if close == "]" else "a name in double quotes"
            elif sign == close:
                yield opens.pop(), at, at + 1
            else:
                raise Stop(at, f"',' or '{close}'")
            at += 1
        elif sign == "}" and wants.endswith("'}'"):
            yield opens.pop(), at, at + 1
            at, wants = at + 1, "behind"
        elif sign == '"':
            end = string_end(text, at)
            yield "name", at, end
            at, wants = end, "':'"
        else:
            raise Stop(at, wants)


def scalar(text: str, at: int, wants: str) -> Tuple[str, int]:
    """What a number, a string or a word is, and where it ends."""
    sign = text[at:at + 1]
    if sign == '"':
        return "string", string_end(text, at)
    for word in ("true", "false", "null"):
        if sign == word[0]:
            for more, letter in enumerate(word):
                if text[at + more:at + more + 1] != letter:
                    raise Stop(at + more, f"'{letter}'")
            return "word", at + len(word)
    front = NUMBER_FRONT.match(text, at)
    if not front or front.end() == at:
        raise Stop(at, wants)
    if not NUMBER.fullmatch(front.group()):
        raise Stop(front.end(), "a digit")
    return "number", front.end()


def string_end(text: str, at: int) -> int:
    end = STRING.match(text, at).end()  # type: ignore[union-attr]
    sign = text[end:end + 1]
    if sign == '"':
        return end + 1
    if sign != "\\":
        raise Stop(end, "a character or '\"'")
    behind = ESCAPE.match(text, end).end()  # type: ignore[union-attr]
    raise Stop(behind, "an escape" if behind == end + 1 else "four hexadecimal digits")


def units(text: str, start: int, end: int) -> Iterator[Tuple[int, int]]:
    """What the characters of a string mean, as units of UTF-16 from escapes and as code points, with their places."""
    for found in UNIT.finditer(text, start + 1, end - 1):
        if found[1]:
            yield found.start(), int(found[1], 16)
        else:
            letter = found.group()[-1]
            yield found.start(), ord(SHORT.get(letter, letter) if len(found.group()) > 1 else letter)


def meaning(text: str, start: int, end: int) -> str:
    joined = "".join(chr(unit) for _, unit in units(text, start, end))
    return joined.encode("utf-16", "surrogatepass").decode("utf-16", "replace")


def lone(text: str, start: int, end: int) -> Optional[int]:
    high = None
    for at, unit in units(text, start, end):
        if high is not None and not 0xDC00 <= unit <= 0xDFFF:
            return high
        if high is None and 0xDC00 <= unit <= 0xDFFF:
            return at
        high = at if 0xD800 <= unit <= 0xDBFF else None
    return high


def find_place(text: Union[str, bytes], refusal: str) -> Optional[Place]:
    """The place at which a text or a query is refused for this reason, by the status's name. None if it is not, or where there is no place."""
    data = text.encode("utf-8", "surrogatepass") if isinstance(text, str) else bytes(text)
    if refusal in OF_QUERIES:
        return query_place(data, refusal)
    if refusal not in OF_TEXTS:
        return None
    try:
        whole = data.decode("utf-8")
    except UnicodeDecodeError as error:
        return expected_place(data, error.start, "UTF-8") if refusal == "NotUtf8" else None

    def made(at: int, message: str) -> Place:
        return Place(*spot(data, len(whole[:at].encode())), message)

    depth = 0
    names: List[Tuple[Dict[str, int], int]] = []
    try:
        for kind, start, end in tokens(whole):
            if kind in "[{":
                depth += 1
                names.append(({}, start))
                if refusal == "TooDeep" and depth > DEPTH_LIMIT:
                    return made(start, f"level {DEPTH_LIMIT + 1}, at most {DEPTH_LIMIT} are read")
            elif kind in "]}":
                depth -= 1
                names.pop()
            elif kind == "number":
                if refusal == "NumberLimit" and is_beyond(whole[start:end]):
                    return made(start, NUMBER_RULE)
            elif refusal == "LoneSurrogate" and kind in ("string", "name"):
                at = lone(whole, start, end)
                if at is not None:
                    return made(at, "a surrogate without its partner")
            elif refusal == "DuplicateName" and kind == "name":
                meant = meaning(whole, start, end)
                before = names[-1][0].setdefault(meant, start)
                if before != start:
                    first = Place(*spot(data, len(whole[:before].encode())), "")
                    return made(start, f"the name {whole[start:end]} again, first at {str(first)[:-2]}")
    except Stop as stop:
        if refusal == "NotJson":
            return expected_place(data, len(whole[:stop.at].encode()), stop.expected)
    return None
