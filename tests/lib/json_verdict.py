"""The verdict on a JSON text by Python's json, under this program's limits.

Python's json takes the grammar of RFC 8259 but for NaN and Infinity, which are refused here; it hands over the numbers' texts and the
members in order, from which the other refusals follow.
"""
import json
import re

TEXT_LIMIT = 4_194_304
DEPTH_LIMIT = 256


def refuse_constant(_):
    raise ValueError("no constant of JSON")


def verdict(source):
    """The name of the refusal, the first that applies, or nothing."""
    seen = set()

    def number(text):
        exponent = re.search("[eE](.*)", text)
        if len(text) > 256 or (exponent and abs(int(exponent[1])) > 999_999_999):
            seen.add("NumberLimit")
        return 0

    def members(pairs):
        names = [name for name, _ in pairs]
        if len(set(names)) < len(names):
            seen.add("DuplicateName")
        return pairs

    if len(source) > TEXT_LIMIT:
        return "TooLong"
    try:
        text = source.decode("utf-8")
    except UnicodeDecodeError:
        return "NotUtf8"
    try:
        value = json.loads(text, parse_int=number, parse_float=number, parse_constant=refuse_constant, object_pairs_hook=members)
    except ValueError:
        return "NotJson"
    if depth(text) > DEPTH_LIMIT:
        return "TooDeep"
    if re.search("[\ud800-\udfff]", strings_of(value)):
        seen.add("LoneSurrogate")
    return next((name for name in ("NumberLimit", "LoneSurrogate", "DuplicateName") if name in seen), None)


def depth(text):
    """How many containers of a JSON text lie in one another."""
    most = level = 0
    for sign in re.findall(r'[\[{]|[\]}]', re.sub(r'"(?:[^"\\]|\\.)*"', "", text)):
        level += 1 if sign in "[{" else -1
        most = max(most, level)
    return most


def strings_of(value):
    """All strings and names of a value."""
    if isinstance(value, str):
        return value + "\n"
    if isinstance(value, (list, tuple)):
        return "".join(strings_of(part) for part in value)
    return ""
