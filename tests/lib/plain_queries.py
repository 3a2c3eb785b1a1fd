"""A plain evaluator of JSONPath queries and of their charge, for the scripts of tests/.

It knows the whole language of docs/QUERIES.md (RFC 9535, sections 2.3 to 2.5), and takes only texts and queries that are
accepted: of others it says nothing, or raises Unknown. A query's charge is the sum over its segments, their input nodes (of a
descendant segment each of those and of their descendants) and their selectors of 1; for a slice also the number of nodes that
it selects; for a wildcard also the number of children; for a filter also the number of children, and for each of them 1 and
the charge of each query in the expression, whatever the others give.
"""
import functools
import json
import re
import sys
from decimal import Decimal

BLANK = r"[ \t\n\r]*"
STRING = r"\"(?:[^\"\\]|\\.)*\"|'(?:[^'\\]|\\.)*'"
NUMBER = r"-?[0-9]+(?:\.[0-9]+)?(?:[eE][+-]?[0-9]+)?"
FIRST = r"A-Za-z_\x80-\U0010ffff"
TOKEN = re.compile(r'"(?:[^"\\]|\\.)*"|[\[\]{}:,]|[^\s\[\]{}:,"]+')
SHORT = {"'": "\\'", "\\": "\\\\", "\b": "\\b", "\t": "\\t", "\n": "\\n", "\f": "\\f", "\r": "\\r"}
NOTHING = ("nothing",)
sys.setrecursionlimit(10_000)


class Unknown(Exception):
    """A query that is no query of the language."""


# ---- texts

class Node:
    """A value of a text: its place there, its own label, and its children or what it means."""

    __slots__ = ("kind", "start", "end", "parent", "label", "children", "meaning")

    def __init__(self, parent, label, start):
        self.parent, self.label, self.start, self.children, self.meaning = parent, label, start, [], None

    def visit(self):
        yield self
        for child in self.children:
            yield from child.visit()

    def path(self):
        """The normalized path (RFC 9535, section 2.7)."""
        if self.parent is None:
            return "$"
        step = self.label
        if isinstance(step, str):
            step = "".join(["'", *(SHORT.get(c) or (f"\\u{ord(c):04x}" if c < " " else c) for c in step), "'"])
        return f"{self.parent.path()}[{step}]"


@functools.lru_cache(maxsize=64)
def tree(source):
    """The tree of an accepted text."""
    text = source.decode("utf-8")
    places = [0]
    for character in text:
        places.append(places[-1] + len(character.encode("utf-8")))
    tokens = [(it[0], places[it.start()], places[it.end()]) for it in TOKEN.finditer(text)]

    def read(at, parent, label):
        sign, start, end = tokens[at]
        node, at = Node(parent, label, start), at + 1
        if sign not in ("[", "{"):
            node.kind, node.end, node.meaning = "leaf", end, meant(json.loads(sign, parse_int=Decimal, parse_float=Decimal))
            return node, at
        node.kind = "array" if sign == "[" else "object"
        while tokens[at][0] not in ("]", "}"):
            at += tokens[at][0] == ","
            name, at = (json.loads(tokens[at][0]), at + 2) if sign == "{" else (len(node.children), at)
            child, at = read(at, node, name)
            node.children.append(child)
        node.end = tokens[at][2]
        return node, at + 1

    return read(0, None, None)[0]


def meant(value):
    """A scalar with its kind, so that no number equals a word."""
    return {str: "string", Decimal: "number", bool: "bool"}.get(type(value), "null"), value


def meaning(node):
    """What a node means, as a value that equals those of the nodes that are equal to it (RFC 9535, section 2.3.5.2.2)."""
    if node.meaning is None:
        parts = (meaning(child) for child in node.children)
        names = (child.label for child in node.children)
        node.meaning = ("array", tuple(parts)) if node.kind == "array" else ("object", frozenset(zip(names, parts)))
    return node.meaning


# ---- queries

class Reader:
    """Reads a query's text: a query is its start and its segments, a segment whether it descends and its selectors."""

    def __init__(self, text):
        self.text, self.at = text, 0

    def take(self, pattern):
        """What the pattern matches here, blanks before it passed by; or None, and no blank is passed by."""
        found = re.compile(f"{BLANK}({pattern})").match(self.text, self.at)
        self.at = found.end() if found else self.at
        return found and found[1]

    def need(self, pattern):
        found = self.take(pattern)
        if found is None:
            raise Unknown(self.text, self.at)
        return found

    def segments(self):
        found, sign = [], self.take(r"\.\.?|\[")
        while sign:
            if sign == "[" or sign == ".." and self.text[self.at:self.at + 1] == "[" and self.need(r"\["):
                found.append((sign == "..", self.selectors()))
            else:
                name = self.need(rf"\*|[{FIRST}][{FIRST}0-9]*")
                found.append((sign == "..", [("wild",) if name == "*" else ("name", name)]))
            sign = self.take(r"\.\.?|\[")
        return found

    def selectors(self):
        found = [self.selector()]
        while self.need(r",|\]") == ",":
            found.append(self.selector())
        return found

    def selector(self):
        string = self.take(STRING)
        if string:
            return "name", text_of(string)
        if self.take(r"\*"):
            return ("wild",)
        if self.take(r"\?"):
            return "filter", self.either()
        start = self.take(r"-?[0-9]+")
        if not self.take(":"):
            return "index", int(start if start is not None else self.need("-?[0-9]+"))
        stop = self.take(r"-?[0-9]+")
        step = self.take(r"-?[0-9]+") if self.take(":") else None
        return ("slice", *(None if it is None else int(it) for it in (start, stop, step)))

    def either(self):
        parts = [self.both()]
        while self.take(r"\|\|"):
            parts.append(self.both())
        return ("any", parts) if len(parts) > 1 else parts[0]

    def both(self):
        parts = [self.basic()]
        while self.take("&&"):
            parts.append(self.basic())
        return ("each", parts) if len(parts) > 1 else parts[0]

    def basic(self):
        if self.take("!"):
            return "not", self.basic()
        if self.take(r"\("):
            inside = self.either()
            self.need(r"\)")
            return inside
        left = self.comparable()
        sign = self.take("==|!=|<=|>=|<|>")
        return ("compare", left, sign, self.comparable()) if sign else ("test", left[1])

    def comparable(self):
        start = self.take(r"[@$]")
        if start:
            return "query", (start == "$", self.segments())
        name = self.take(r"(?:length|count|value)\(")
        if name:
            inside = self.comparable()
            self.need(r"\)")
            return "call", name[:-1], inside
        string = self.take(STRING)
        if string:
            return "literal", ("string", text_of(string))
        return "literal", meant(json.loads(self.need(f"{NUMBER}|true|false|null"), parse_int=Decimal, parse_float=Decimal))


def text_of(string):
    """What a string literal means, in quotes of either kind."""
    inside = re.sub(r"\\'|\"", lambda it: "'" if it[0] == "\\'" else '\\"', string[1:-1]) if string[0] == "'" else string[1:-1]
    return json.loads(f'"{inside}"', strict=False)


@functools.lru_cache(maxsize=256)
def query_of(text):
    """The segments of a query."""
    reader = Reader(text)
    reader.need(r"\$")
    segments = reader.segments()
    if reader.at < len(text):
        raise Unknown(text, reader.at)
    return segments


def queries_in(part):
    """The queries of an expression or a comparable, those within other queries left out."""
    if part[0] in ("query", "test"):
        return [part[1]]
    return [query for it in part[1:] if isinstance(it, (tuple, list)) and part[0] != "literal"
            for inner in (it if isinstance(it, list) else [it]) for query in queries_in(inner)]


# ---- evaluation

class Evaluation:
    """A query's nodes and charges on one text; what was found for a node is kept."""

    def __init__(self, root):
        self.root, self.picked, self.charged = root, {}, {}

    def nodes(self, segments, node):
        """The nodes that segments select from a node, in order, with duplicates, one after the other (2.5)."""
        found = iter([node])
        for segment in segments:
            found = self.step(segment, found)
        return found

    def step(self, segment, nodes):
        for start in nodes:
            for node in self.inputs(segment, start):
                for part in segment[1]:
                    yield from self.select(part, node)

    @staticmethod
    def inputs(segment, node):
        return node.visit() if segment[0] else [node]

    def select(self, selector, node):
        """The children that a selector selects (2.3)."""
        key = id(selector), id(node)
        if key not in self.picked:
            self.picked[key] = self.found(selector, node)
        return self.picked[key]

    def found(self, selector, node):
        kind, children = selector[0], node.children
        if kind == "wild":
            return children
        if kind == "filter":
            return [child for child in children if self.holds(selector[1], child)]
        if kind == "name":
            return [child for child in children if node.kind == "object" and child.label == selector[1]]
        if node.kind != "array":
            return []
        if kind == "index":
            return children[selector[1]:selector[1] + 1 or None] if -len(children) <= selector[1] < len(children) else []
        return [] if selector[3] == 0 else children[slice(*selector[1:])]

    def holds(self, part, child):
        """Whether an expression holds for a child (2.3.5)."""
        kind = part[0]
        if kind == "any":
            return any([self.holds(it, child) for it in part[1]])
        if kind == "each":
            return all([self.holds(it, child) for it in part[1]])
        if kind == "not":
            return not self.holds(part[1], child)
        if kind == "test":
            return any(True for _ in self.asked(part[1], child))
        left, right = self.value(part[1], child), self.value(part[3], child)
        low, high = (right, left) if part[2] in (">", ">=") else (left, right)
        less = part[2] not in ("==", "!=") and low[0] == high[0] and low[0] in ("number", "string") and low[1] < high[1]
        return less or part[2] in ("==", "<=", ">=") and left == right or part[2] == "!=" and left != right

    def asked(self, query, child):
        return self.nodes(query[1], self.root if query[0] else child)

    def value(self, part, child):
        """What a comparable means (2.3.5.2, 2.4)."""
        if part[0] == "literal":
            return part[1]
        if part[0] == "query":
            found = next(self.asked(part[1], child), None)
            return meaning(found) if found else NOTHING
        if part[1] == "length":
            kind, *of = self.value(part[2], child)
            return ("number", Decimal(len(of[0]))) if kind in ("string", "array", "object") else NOTHING
        found = list(self.asked(part[2][1], child))
        if part[1] == "count":
            return "number", Decimal(len(found))
        return meaning(found[0]) if len(found) == 1 else NOTHING

    def charge(self, segments, node, at=0):
        """The charge of the segments from the one at a place on."""
        if at == len(segments):
            return 0
        key = id(segments), at, id(node)
        if key not in self.charged:
            pairs = [(part, it) for it in self.inputs(segments[at], node) for part in segments[at][1]]
            own = sum(self.cost(part, it) for part, it in pairs)
            rest = (self.charge(segments, to, at + 1) for part, it in pairs for to in self.select(part, it))
            self.charged[key] = own if at + 1 == len(segments) else own + sum(rest)
        return self.charged[key]

    def cost(self, selector, node):
        """What a selector costs on a node, but for what the segments behind it do."""
        if selector[0] == "slice":
            return 1 + len(self.select(selector, node))
        if selector[0] == "wild":
            return 1 + len(node.children)
        if selector[0] != "filter":
            return 1
        queries = queries_in(selector[1])
        asked = (self.charge(query[1], self.root if query[0] else child) for child in node.children for query in queries)
        return 1 + 2 * len(node.children) + sum(asked)


def asked(source, query):
    """The charge of a query on an accepted text, and the paths and values of its hits, one after the other."""
    root = tree(source)
    evaluation, segments = Evaluation(root), query_of(query)
    return evaluation.charge(segments, root), ((it.path(), source[it.start:it.end]) for it in evaluation.nodes(segments, root))


def charge(source, query):
    """The charge of a query on an accepted text."""
    return asked(source, query)[0]


def hits(source, query):
    """The paths and values of the nodes that a query selects in an accepted text."""
    return list(asked(source, query)[1])
