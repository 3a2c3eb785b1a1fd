"""Values of Python as JSON texts, and back."""
from __future__ import annotations

import decimal
import json
from typing import Any, Iterator


def to_json(value: Any) -> bytes:
    """The JSON text of a value. A decimal.Decimal is written with its own digits. Raises TypeError or ValueError for what has no JSON."""
    try:
        text = json.dumps(value, ensure_ascii=False, allow_nan=False, separators=(",", ":"))
    except TypeError:
        text = "".join(_pieces(value))
    return text.encode("utf-8")


def from_json(text: bytes, exact: bool) -> Any:
    """The value of a JSON text. If it is to be exact, a number with a fraction or an exponent is a decimal.Decimal."""
    return json.loads(text, parse_float=decimal.Decimal) if exact else json.loads(text)


def _pieces(value: Any) -> Iterator[str]:
    if isinstance(value, decimal.Decimal):
        if not value.is_finite():
            raise ValueError("{} has no JSON".format(value))
        yield str(value)
    elif isinstance(value, dict):
        for place, (name, item) in enumerate(value.items()):
            if not isinstance(name, str):
                raise TypeError("beside a Decimal, the names of an object are str, not {}".format(type(name).__name__))
            yield ("," if place else "{") + json.dumps(name, ensure_ascii=False) + ":"
            yield from _pieces(item)
        yield "}" if value else "{}"
    elif isinstance(value, (list, tuple)):
        for place, item in enumerate(value):
            yield "," if place else "["
            yield from _pieces(item)
        yield "]" if value else "[]"
    else:
        yield json.dumps(value, ensure_ascii=False, allow_nan=False)
