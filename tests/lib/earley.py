"""Reads grammars in ABNF (RFC 5234) and finds the longest front of a text with which some text of the grammar begins.

The parser is Earley's ("An Efficient Context-Free Parsing Algorithm", 1970), with nullable symbols as Aycock and Horspool have them ("Practical
Earley Parsing", 2002). It knows nothing of JSON or of queries: a set of items that is not empty says that some text goes on from here, as each
rule of these grammars gives some text.
"""
import re
from pathlib import Path

TOKEN = re.compile(r'\s+|;[^\n]*|(?P<string>"[^"]*")|(?P<code>%x[0-9A-Fa-f.-]+)|(?P<repeat>\d*\*\d*|\d+)|(?P<name>[A-Za-z][A-Za-z0-9-]*)|(?P<sign>[()\[\]/=])')


class Grammar:
    """Rules by their names: each has alternatives, each of these symbols. A symbol is a name, or a tuple of ranges that one character is in."""

    def __init__(self, text):
        self.rules, self.tokens = {}, []
        for found in TOKEN.finditer(text):
            if found.lastgroup:
                self.tokens.append((found.lastgroup, found.group(), found.start()))
        starts = {at for at, (kind, _, _) in enumerate(self.tokens) if kind == "name" and self.is_definition(at)}
        self.at = 0
        while self.at < len(self.tokens):
            name = self.tokens[self.at][1]
            self.at += 2
            self.end = min([at for at in starts if at >= self.at], default=len(self.tokens))
            self.rules[name] = self.alternation()
        self.nullable = set()
        while True:
            more = {name for name, ways in self.rules.items() if name not in self.nullable and any(all(it in self.nullable for it in way) for way in ways)}
            if not more:
                break
            self.nullable |= more

    def is_definition(self, at):
        return at + 1 < len(self.tokens) and self.tokens[at + 1][1] == "="

    def peek(self):
        return self.tokens[self.at] if self.at < self.end else ("end", "", 0)

    def made(self, ways):
        name = f"({len(self.rules)}"
        self.rules[name] = ways
        return name

    def alternation(self):
        ways = [self.concatenation()]
        while self.peek()[1] == "/":
            self.at += 1
            ways.append(self.concatenation())
        return ways

    def concatenation(self):
        symbols = []
        while self.peek()[0] in ("string", "code", "repeat", "name") or self.peek()[1] in ("(", "["):
            symbols += self.repetition()
        return tuple(symbols)

    def repetition(self):
        kind, word, _ = self.peek()
        if kind != "repeat":
            return self.element()
        self.at += 1
        one = self.element()
        if "*" not in word:
            return one * int(word)
        least, most = word.split("*")
        if most:
            raise ValueError("no grammar here has a greatest number")
        many = self.made([])
        self.rules[many] += [(), (many, *one)]
        return one * int(least or 0) + [many]

    def element(self):
        kind, word, _ = self.peek()
        self.at += 1
        if kind == "name":
            return [word]
        if kind == "string":
            return [tuple((ord(it), ord(it)) for it in {c.lower(), c.upper()}) for c in word[1:-1]]
        if kind == "code":
            if "-" in word:
                first, last = word[2:].split("-")
                return [((int(first, 16), int(last, 16)),)]
            return [((int(it, 16), int(it, 16)),) for it in word[2:].split(".")]
        ways = self.alternation()
        self.at += 1
        return [self.made(ways + [()] if word == "[" else ways)]


def grammar(name):
    return Grammar((Path(__file__).resolve().parent / name).read_text(encoding="utf-8"))


def closure(grammar, start_items, sets, place):
    """All items of a set: (name, way, dot, origin)."""
    items, todo = set(start_items), list(start_items)
    done = {}

    def add(item):
        if item not in items:
            items.add(item)
            todo.append(item)

    waiting = {}
    while todo:
        item = todo.pop()
        name, way, dot, origin = item
        if dot < len(way):
            symbol = way[dot]
            if isinstance(symbol, str):
                waiting.setdefault(symbol, []).append(item)
                for other in grammar.rules[symbol]:
                    add((symbol, other, 0, place))
                if symbol in grammar.nullable or symbol in done:
                    add((name, way, dot + 1, origin))
        elif origin == place:
            done[name] = True
            for before in list(waiting.get(name, [])):
                add((before[0], before[1], before[2] + 1, before[3]))
        else:
            for before in sets[origin].get(name, []):
                add((before[0], before[1], before[2] + 1, before[3]))
    return items, waiting


def longest(grammar, start, text):
    """How many characters the longest front of the text has with which some text of the grammar begins, and whether the whole text is one."""
    sets = []
    items = [(start, way, 0, 0) for way in grammar.rules[start]]
    for place in range(len(text) + 1):
        items, waiting = closure(grammar, items, sets, place)
        sets.append(waiting)
        if place == len(text):
            return place, any(name == start and dot == len(way) and origin == 0 for name, way, dot, origin in items)
        code = ord(text[place])
        items = [
            (name, way, dot + 1, origin) for name, way, dot, origin in items
            if dot < len(way) and not isinstance(way[dot], str) and any(first <= code <= last for first, last in way[dot])
        ]
        if not items:
            return place, False
    raise AssertionError
