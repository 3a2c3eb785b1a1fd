"""Random JSONPath queries, each with the jq program that says the same, and random JSON values, for the scripts of tests/."""
import json

COMMON = ["a", "b", "c"]
NAMES = COMMON + ["é", "x y", "it's", "\\", "\n", "😀", ""]
NUMBERS = [0, 1, 2, 10, -1, 0.5]
STRINGS = ["", "a", "ab", "é", "😀", "\uffff"]


def quoted(text):
    """A JSONPath string literal."""
    escapes = {"'": "\\'", "\\": "\\\\", "\n": "\\n"}
    return "'" + "".join(escapes.get(c, c) for c in text) + "'"


class Queries:
    """Random queries, each as the pair of its JSONPath text and its jq program."""

    def __init__(self, chance):
        self.chance = chance

    def name(self):
        name = self.chance.choice(self.chance.choice([COMMON, COMMON, NAMES]))
        return quoted(name), f"member({json.dumps(name)})"

    def index(self):
        i = self.chance.randint(-3, 3)
        return str(i), f"at({i})"

    def slice(self):
        bounds = [self.chance.choice([None, None, *range(-5, 6)]) for _ in range(2)]
        step = self.chance.choice([None, 1, 2, 3, -1, -2, 0])
        text = ":".join("" if bound is None else str(bound) for bound in bounds)
        written = ["null" if bound is None else str(bound) for bound in bounds]
        return text + ("" if step is None else f":{step}"), f"slice({written[0]}; {written[1]}; {1 if step is None else step})"

    def filter(self, depth):
        text, jq = self.logical(depth)
        return "?" + text, f"(wild | select({jq}))"

    def selector(self, depth):
        kinds = [self.name, self.name, self.index, self.slice, lambda: ("*", "wild")]
        if depth > 0:
            kinds += [lambda: self.filter(depth - 1)] * 2
        return self.chance.choice(kinds)()

    def segment(self, depth):
        selectors = [self.selector(depth) for _ in range(self.chance.choice([1, 1, 1, 2, 3]))]
        text = "[" + ",".join(text for text, _ in selectors) + "]"
        jq = "(" + ", ".join(jq for _, jq in selectors) + ")"
        return (".." + text, f".. | {jq}") if self.chance.random() < 0.2 else (text, jq)

    def query(self, depth):
        segments = [self.segment(depth) for _ in range(self.chance.randint(0, 3))]
        return "".join(text for text, _ in segments), " | ".join([".", *(jq for _, jq in segments)])

    def inner(self, depth, parts):
        """A query in a filter, from the child or from the root."""
        if self.chance.random() < 0.2:
            return "$" + parts[0], f"($root | {parts[1]})"
        return "@" + parts[0], f"({parts[1]})"

    def singular(self):
        segments = [self.chance.choice([self.name, self.index])() for _ in range(self.chance.randint(0, 2))]
        return "".join(f"[{text}]" for text, _ in segments), " | ".join([".", *(jq for _, jq in segments)])

    def comparable(self, depth):
        """A side of a comparison; its jq program gives a list of one value, or of none."""
        kind = self.chance.randint(0, 5)
        if kind == 0:
            value = self.chance.choice([*NUMBERS, None, True, False])
            return json.dumps(value), f"[{json.dumps(value)}]"
        if kind == 1:
            value = self.chance.choice(STRINGS)
            return quoted(value), f"[{json.dumps(value)}]"
        if kind == 2:
            text, jq = self.inner(depth, self.singular())
            return f"length({text})", f"([{jq}] | long)"
        if kind == 3:
            text, jq = self.inner(depth, self.query(depth))
            function, of = self.chance.choice([("count", "[length]"), ("value", "lone")])
            return f"{function}({text})", f"([{jq}] | {of})"
        text, jq = self.inner(depth, self.singular())
        return text, f"[{jq}]"

    def comparison(self, depth):
        (left, x), (right, y) = self.comparable(depth), self.comparable(depth)
        operator, jq = self.chance.choice([
            ("==", f"{x} == {y}"), ("!=", f"{x} != {y}"), ("<", f"less({x}; {y})"), (">", f"less({y}; {x})"),
            ("<=", f"(less({x}; {y}) or {x} == {y})"), (">=", f"(less({y}; {x}) or {x} == {y})")])
        return left + operator + right, f"({jq})"

    def logical(self, depth):
        kind = self.chance.randint(0, 6)
        if kind < 3:
            return self.comparison(depth)
        if kind < 5:
            text, jq = self.inner(depth, self.query(depth))
            return text, f"([{jq}] | length > 0)"
        (left, x), (right, y) = self.logical(depth), self.logical(depth)
        if kind == 5:
            return f"({left}&&{right})", f"({x} and {y})"
        return f"!({left}||{right})", f"(({x} or {y}) | not)"


def document(chance, depth):
    kind = chance.randint(0, 9) if depth > 0 else chance.randint(0, 3)
    if kind == 0:
        return chance.choice([None, True, False])
    if kind == 1:
        return chance.choice(STRINGS)
    if kind < 4:
        return chance.choice(NUMBERS)
    if kind < 7:
        return [document(chance, depth - 1) for _ in range(chance.randint(0, 5))]
    names = chance.sample(chance.choice([COMMON, NAMES]), chance.randint(0, 3))
    return {name: document(chance, depth - 1) for name in names}
