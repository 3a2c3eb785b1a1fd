#!/usr/bin/env python3
"""Times `path_server query` on texts and queries that were made to take long: bench/hostile.py [SECONDS [WORD]].

Each text has up to 1,048,576 bytes, or as many as the environment's MEBIBYTES (1 to 4) says, each query up to 4,096. A row of the table is
the shape, how the program ended, its seconds of processor time, and the aim: 1 s for each mebibyte, 0.6 s for what has a charge of nearly
10,000,000 units, and 0.1 s for each mebibyte for what a product asks. The program has a stack of 256 KiB, and is stopped after so many SECONDS
(5). With a WORD, only the rows that have it in their names are run. The last line is the number of rows above their aim, and the exit
status is 1 where there is one. The program is the one that bin/build makes, or the one that the environment's PATH_SERVER names.
"""
import collections
import functools
import itertools
import os
import resource
import subprocess
import sys
import tempfile

from running import PROGRAM, need_program

MEBIBYTES = int(os.environ.get("MEBIBYTES") or 1)
TEXT, QUERY, STACK = MEBIBYTES << 20, 4_096, 256 << 10
DEPTH = 254
AIM, AIM_OF_UNITS, AIM_OF_ASKED = 1.0 * MEBIBYTES, 0.6, 0.1 * MEBIBYTES
NUMBER, STRING = "7" * 256, '"' + "s" * 998 + '"'
LEAVES = {"zeros": "0", "words": "true", "long numbers": NUMBER, "strings": '"a"', "long strings": STRING,
          "escapes": '"' + "\\u0061" * 160 + '"', "arrays": "[0]", "empty arrays": "[]", "objects": '{"a":0}',
          "deep": "[" * 20 + "]" * 20}


# ---- texts

def many(part, open_with="[", close_with="]", room=TEXT, last=""):
    """A container with the part as often as there is room, and perhaps another behind."""
    count = (room - len(open_with.encode()) - len(close_with.encode()) - len(last.encode()) - 1) // (len(part.encode()) + 1)
    return open_with + ",".join([part] * count + [last] * bool(last)) + close_with


def members(names, value="0", room=TEXT):
    """An object with these names, as many as there is room for."""
    parts, size = [], 2
    for name in names:
        part = f'"{name}":{value}'
        size += len(part.encode()) + 1
        if size > room:
            break
        parts.append(part)
    return "{" + ",".join(parts) + "}", len(parts)


def numbered(count=200_000 * MEBIBYTES):
    return (f"k{at:05}" for at in range(count))


def escaped(count=200_000 * MEBIBYTES):
    return (f"\\u006b{at:05}" for at in range(count))


def long_names(count=20_000 * MEBIBYTES):
    return (f"\\u006b{at:05}".ljust(68, "x") for at in range(count))


def scalars(low=0x80):
    return itertools.chain(range(low, 0xD800), range(0xE000, 0x110000))


def fnv(state, scalar):
    return (state ^ scalar) * 0x01000193 % 2**32


@functools.lru_cache(maxsize=None)
def meeting(state):
    """Pairs of characters that bring this state of the FNV hash to one other state, and that one."""
    found = collections.defaultdict(list)
    for first in scalars():
        found[fnv(state, first) >> 21].append(first)
    firsts = max(found.values(), key=len)
    high = fnv(state, firsts[0]) & ~0x1FFFFF | 0x20000
    pairs = [(first, fnv(state, first) ^ high) for first in firsts]
    return [chr(a) + chr(b) for a, b in pairs if 0x80 <= b < 0xD800 or 0xE000 <= b < 0x110000], fnv(0, high)


def meeting_by_fnv():
    """Names that meet in the hash by which the members of two objects are guessed to be twins."""
    first, state = meeting(0x811C9DC5)
    second, _ = meeting(state)
    return (a + b for a in first for b in second)


def meeting_by_places():
    """Names that meet in the hash by which repeated names are looked for: a character counts 256 times as much as the next."""
    return (chr(0x20000 + a) + chr(0x30000 - 256 * a + b) + chr(0x40000 - 256 * b) for a in range(200) for b in range(300))


def twins(names, value="0", turned=True, last="0"):
    """Two objects of the same members, in opposite orders."""
    one, count = members(names, value, TEXT // 2 - 2)
    order = one[1:-1].split(f":{value},")
    order = [part.removesuffix(f":{value}") for part in order][::-1 if turned else 1]
    other = "{" + ",".join(f"{name}:{last if at == count - 1 else value}" for at, name in enumerate(order)) + "}"
    return f"[{one},{other}]"


def nested(depth, step):
    """The value within such steps, the innermost first."""
    text = "0"
    for at in range(depth):
        text = step(text, at)
    return text


# ---- queries

def filled(part, between="||", start="$[?", end="]"):
    """A query with the part as often as 4,096 bytes have room."""
    count = (QUERY - len(start) - len(end) + len(between)) // (len(part.encode()) + len(between))
    return start + between.join([part] * count) + end


def within(depth, start, inner, end="]"):
    return start * depth + inner + end * depth


# ---- rows

def rooted():
    """A query from the root in a filter, asked of each child."""
    for name, leaf in LEAVES.items():
        text = many(leaf)
        yield f"{name}, not the last one", text, "$[?@!=$[-1]]"
        yield f"{name}, below the last one, often", text, filled("@<$[-1]")
        yield f"{name}, all of them counted", text, "$[?count($[*])<2]"
    for name, leaf in LEAVES.items():
        text, count = members(numbered(), leaf)
        yield f"members that are {name}, not the last one", text, f"$[?@!=$.k{count - 1:05}]"
    text = '{"items":' + many('{"name":"tea","price":4,"tags":["a","b"]}', room=TEXT - 11) + "}"
    yield "prices above the last one", text, "$.items[?@.price>$.items[-1].price]"
    yield "tags as many as those of the last one", text, "$.items[?count(@.tags[*])==count($.items[-1].tags[*])]"
    yield "names of the descendants of the root", text, "$.items[?@.name==value($..nothing)]"


def levels():
    """Filters in one another, each from the root."""
    for name, leaf in LEAVES.items():
        yield f"four {name}, 32 filters in one another", many(leaf, room=4 * len(leaf) + 10), within(31, "$[?", "$[?@]")
    yield "zeros, 32 filters in one another", many("0"), within(31, "$[?", "$[?@]")
    yield "zeros, 32 filters of children in one another", many("[0]"), "$" + "[?@" * 31 + "[?@]" + "]" * 31
    yield "brackets, a filter of descendants in each", many(nested(100, lambda it, _: f"[{it}]")), "$..[?@..[?@..[?@]]]"


def equality():
    """Two values that are compared with one another as often as a query can ask."""
    names = {"plain names": numbered, "escaped names": escaped, "long names": long_names, "names that meet": meeting_by_fnv,
             "names that meet by places": meeting_by_places}
    often, unlike = filled("@==$[0]", "&&"), filled("@!=$[0]", "&&")
    for name, made in names.items():
        for value in ("0", '"a"', "[0]"):
            yield f"two objects of {name}, values {value}, turned", twins(made(), value), "$[?@!=$[0]]"
        yield f"two objects of {name}, turned, often", twins(made()), often
        yield f"two objects of {name}, one value unlike, often", twins(made(), turned=False, last="1"), unlike
    for name, leaf in LEAVES.items():
        half = many(leaf, room=TEXT // 2 - 2)
        yield f"two arrays of {name}, often", f"[{half},{half}]", often
    same = '"' + "x" * (TEXT // 2 - 8)
    yield "two strings, often", f'[{same}",{same}"]', often
    spelt = "\\u0078" * (TEXT // 8)
    yield "two strings, one escaped, often", f'["{"x" * (TEXT // 8)}","{spelt}"]', often
    yield "two strings, which is less, often", f'[{same}a",{same}b"]', filled("@>=$[0]", "&&")
    yield from sorted_strings()
    yield from kept_pairs()
    yield "numbers of 256 digits, which is less, often", many(NUMBER), filled("@<=$[0]", "&&")
    yield "numbers of one value with other exponents", many("1e999999999", last="10e999999998"), filled("@==$[-1]", "&&")


def sorted_strings():
    """Strings of one beginning, each of which is compared with each."""
    for count in (20, 95, 380):
        for name, (first, part) in {"plain": ("", "s"), "an escape and then plain": ("\\n", "s"), "escapes between plain": ("", "s" * 40 + "\\n"),
                                    "escaped": ("", "\\u0061"), "pairs of surrogates": ("", "\\ud83d\\ude00"), "backslashes": ("", "\\\\")}.items():
            times = (TEXT // count - len(first) - 10) // len(part)
            parts = [f'"{first}{part * times}{at:03}"' for at in range(count)]
            yield f"{count} strings, {name}, each with each", "[" + ",".join(parts) + "]", distinct(f"@<$[{at}]" for at in range(count))


def kept_pairs():
    """Pairs of long values that are compared again: two in turn whose numbers are alike but for 1,024, and many for each child."""
    def values(count, room):
        times = TEXT // count - room
        yield "strings", ('"' + "s" * times + f'{at:03}"' for at in range(count)), 1
        yield "strings of escapes", ('"' + "\\n" * (times // 2) + f'{at:03}"' for at in range(count)), 1
        yield "arrays", ("[" + "0," * (times // 2) + f"{900 + at}]" for at in range(count)), times // 2 + 2

    for name, made, nodes in values(3, 1_000):
        first, second, third = made
        zeros = "0," * (-nodes % 1_024)
        text = f"[{first},{zeros}{second},{third}]"
        yield f"three long {name}, two of them in turn", text, filled(f"@==$[0]||@==$[{zeros.count('0') + 1}]")
    for name, made, _ in values(28, 1_000):
        text = "[" + ",".join(made) + ",0" * 13_000 + "]"
        yield f"28 {name}, pairs of them for each of 13,000 zeros", text, distinct(f"$[{at}]==$[{other}]" for at in range(28) for other in range(at))


def depths():
    """Values as deep as they may be."""
    def turned(way):
        return nested(DEPTH, lambda it, at: f'{{"a":{it},"b":{at}}}' if at % 2 == way else f'{{"b":{at},"a":{it}}}')
    yield f"two objects {DEPTH} deep, turned at each level", f"[{turned(0)},{turned(1)}]", "$[?@==$[0]]"
    array = nested(DEPTH, lambda it, _: f"[{it}]")
    yield f"two arrays {DEPTH} deep", f"[{array},{array}]", "$[?@==$[0]]"
    wide = nested(DEPTH, lambda it, _: "{" + ",".join(f'"b{at}":0' for at in range(64)) + f',"a":{it}}}')
    yield f"two wide objects {DEPTH} deep", f"[{wide},{wide}]", filled("@==$[0]", "&&")
    brackets = "[" * DEPTH + many("0", room=TEXT - 2 * DEPTH - 8) + "]" * DEPTH
    for query in ("$..[0]..[0]..zz", "$..*..zz", "$..[-1]..[-1]..zz", "$..[?@]..zz", "$..[:1]..[:1]..zz", "$..[?@[0]]..zz",
                  "$..*..*..*..zz"):
        yield f"{DEPTH} brackets round zeros, {query}", brackets, query
    braces = '{"a":' * DEPTH + many("0", room=TEXT - 6 * DEPTH - 44) + "}" * DEPTH
    for query in ("$..a..a..zz", "$..a..a..a..a..zz", "$..['a','b']..['a','b']..zz", "$..[?@.a]..zz", "$..[?@..a]..zz"):
        yield f"{DEPTH} braces round zeros, {query}", braces, query


def selectors():
    """Many selectors on one node, and many nodes."""
    for name in ("zeros", "arrays", "objects"):
        text = many(LEAVES[name])
        for part in ("-1", "400000", "-2:", "::100000", "'a'"):
            yield f"{name}, {part} as often as may be", text, filled(part, ",", "$[")
        yield f"{name}, a filter as often as may be", text, filled("?@[0]==1", ",", "$[") + ".zz"
        at = text.count(",") // 2
        for part in (f"{at}", f"{at}:{at + 1}", f"{-at}:{1 - at}", f"{at}:{at - 1}:-1", f"{at}::{at // 2}"):
            yield f"{name}, {part} in the middle as often as may be", text, filled(part, ",", "$[")
    turns = many("[[[[[[[[[[[[[[[[[[[[0]]]]]]]]]]]]]]]]]]]],0,0,0,0,0")
    at = turns.count(",") // 2
    for part in (f"{at}", f"{at}:{at + 1}"):
        yield f"deep arrays and zeros, {part} in the middle as often as may be", turns, filled(part, ",", "$[")
    text, count = members(numbered())
    yield "a wide object, its last name often", text, filled(f"'k{count - 1:05}'", ",", "$[")
    yield "a wide object, names that it has not", text, filled("'k'", ",", "$..[")
    for name, made in {"": meeting_by_fnv, " by places": meeting_by_places}.items():
        text, count = members(made())
        last = next(itertools.islice(made(), count - 1, None))
        yield f"a wide object whose names meet{name}, its last often", text, filled(f"'{last}'", ",", "$[")


def filters():
    """Long expressions on many nodes."""
    for name in ("arrays", "objects", "zeros"):
        text = many(LEAVES[name])
        yield f"{name}, 780 names in a filter of descendants", text, filled("@.b", "||", "$..[?@.a&&(", ")]")
        yield f"{name}, names in a filter", text, filled("@.b", "||")
        yield f"{name}, comparisons in a filter", text, filled("@.b==1")
        yield f"{name}, chains in a filter", text, filled("@.a.b.c.d==1", "||")
        yield f"{name}, negations in a filter", text, filled("!@.b", "&&", end="&&@.b]")
    for of in ("'a'", "@", "@[0]", "$[0]"):
        for name, leaf in {"a long string": '"' + "é" * 250_000 + '"', "a long escaped string": '"' + "\\u00e9" * 100_000 + '"',
                           "an array": many("0", room=500_000)}.items():
            text = "[" + leaf + ",0" * 150_000 + "]"
            yield f"{name} and zeros, the length of {of}", text, f"$[?length({of})<9]"
            yield f"{name} and zeros, the length of {of}, often", text, filled(f"length({of})<9")
    text = many("[0,1,2,3,4,5,6,7]")
    holding = ("count(@.*)>1", "count(@..*)>1", "@[::-1]", "count(@[?@>$[0][3]])>3")
    for part in (*holding, "value(@..*)==1", "length(@)>9", "@[?@>7]"):
        yield f"arrays of eight, {part}", text, f"$[?{part}]"
        yield f"arrays of eight, {part}, often", text, filled(part, "&&" if part in holding else "||")


def lengths():
    """Strings to which a query comes a million times, by names that it gives twice."""
    half = TEXT // 2 - 100
    plain, escaped = '"' + "s" * half + '"', '"' + "\\n" * (half // 2) + '"'
    leaves = {"a long string": ([plain], 20), "a long string of escapes": ([escaped], 20), "two long strings in turn": ([plain, plain], 19),
              "two long strings of escapes in turn": ([escaped, escaped[:-3] + '"'], 19),
              "a thousand strings of escapes": (['"' + "\\n" * 400 + '"'] * 1_000, 11)}
    for name, (strings, times) in leaves.items():
        text = '{"a":' * times + "[" + ",".join(strings) + "]" + "}" * times
        yield f"{name}, the length often", text, "$" + "['a','a']" * times + "[?length(@)<1]"


def readings():
    """Texts and queries that take long to read."""
    of_names = {"long names": long_names, "names that meet by places": meeting_by_places, "names that meet": meeting_by_fnv}
    for name, made in of_names.items():
        text, _ = members(itertools.chain(made(), ["last"]))
        yield f"one object of {name}", text, "$.none"
    few, _ = members(itertools.islice(meeting_by_places(), 80))
    yield "many objects whose names meet by places", many(few), "$.none"
    text, _ = members(itertools.chain(["\u4000\u8000", "\u4001\u7f00"], long_names()), room=TEXT)
    yield "long names, and two that meet", text, "$.none"
    for name in LEAVES:
        yield f"a text of {name}", many(LEAVES[name]), "$.none"
    yield "brackets without an end", "[" * TEXT, "$"
    yield "quotes and backslashes", '"' + "\\\\" * (TEXT // 2 - 1) + '"', "$.none"
    queries = {"parentheses": "$[?" + "(" * 4_000, "negations": "$[?" + within(31, "!(", "@", ")") + "]",
               "blanks": "$" + " " * 4_090 + ".a", "filters": "$" + "[?@" * 1_000, "commas": "$[" + "0," * 2_000,
               "escapes": "$['" + "\\u0061" * 680 + "']", "calls": "$[?" + "count(" * 600,
               "arguments": "$[?" + within(31, "length(", "@", ")") + "==1]"}
    for name, query in queries.items():
        yield f"a query of {name}", "[0]", query


def units():
    """Queries whose charge is nearly 10,000,000 units, and that select nothing."""
    zeros, wide, eights = many("0", room=200_003), many("0", room=1_000_003), "[0,0,0,0,0,0,0,0]"

    def often(part, count, between=",", end="]"):
        return "$[" + between.join([part] * count) + end

    rows = {"wildcards": (zeros, often("*", 49, end="].zz")),
            "slices": (zeros, often(":", 49, end="].zz")),
            "slices downwards": (zeros, often("::-1", 49, end="].zz")),
            "filters by literals": (zeros, often("?@==1", 49)),
            "filters by names": (zeros, "$[?" + "||".join(["@.a"] * 97) + "]"),
            "filters from the root": (zeros, "$[?" + "||".join(["$[0]==1"] * 97) + "]"),
            "counts of wildcards": (zeros, "$[?" + "||".join(["count(@.*)>1"] * 97) + "]"),
            "names of descendants": (wide, "$..[" + ",".join(f"'{name}'" for name in "abcdefghijklmnopqrs") + "]"),
            "indexes of descendants": (wide, "$..[" + ",".join(["0"] * 19) + "].zz"),
            "names in a wide object": (members(numbered(), room=300_000)[0], "$[?" + "||".join(["@.a.b"] * 360) + "]"),
            "comparisons of containers": (many(eights, room=396_000), "$[?" + "||".join(["@!=$[0]"] * 450) + "]"),
            "filters in filters": (many(eights, room=200_000), "$[?" + "||".join(["@[?@>1]"] * 48) + "]"),
            "hits": (many("0", room=10_403), often("*", 1_900))}
    for name, (text, query) in rows.items():
        yield f"10,000,000 units of {name}", text, query


def distinct(parts, between="||", start="$[?", end="]"):
    """A query with these parts, as many as 4,096 bytes have room for."""
    query = start + next(parts)
    for part in parts:
        if len(query) + len(between) + len(part) + len(end) > QUERY:
            break
        query += between + part
    return query + end


def free():
    """Operands that are charged nothing."""
    texts = {"zeros": many("0"), "strings": many('"a"'), "numbers with exponents": many("1e5"), "numbers below 0": many("-1.5")}
    parts = {"two numbers": "1==2", "two strings": '"a"=="b"', "less than 0": "@<0", "equal to 2": "@==2", "0 less than it": "0<@",
             "itself": "@!=@", "the text": "@==$", "one": "count(@)==2", "its length": "length(@)==2", "the value": "value(@)==2",
             "not and not": "!(@!=2)"}
    for (name, text), (word, part) in itertools.product(texts.items(), parts.items()):
        yield f"{name}, {word} for nothing", text, filled(part)
    orders = {"ascending": range(1, 2_000), "descending": range(2_000, 1, -1), "mixed": (at * 577 % 2_000 for at in range(1, 2_000))}
    for name, order in orders.items():
        keys = list(order)
        yield f"zeros, {name} keys for nothing", texts["zeros"], distinct(f"@=={key}" for key in keys)
        yield f"zeros, {name} ranges for nothing", texts["zeros"], distinct(f"@>{key}&&@<{key + 1}" for key in keys)
        yield f"strings, {name} keys for nothing", texts["strings"], distinct(f'@=="{key:04}"' for key in keys)
        yield f"numbers with exponents, {name} keys for nothing", texts["numbers with exponents"], distinct(f"@=={key}e3" for key in keys)
    prefix = "x" * 199
    yield "strings of one long prefix for nothing", many(f'"{prefix}y"'), distinct(f'@=="{prefix}{chr(at)}"' for at in range(97, 120))
    yield "zeros, parentheses 31 deep for nothing", texts["zeros"], within(31, "(", "||".join(["@==2"] * 660), ")").join(["$[?", "]"])
    yield "zeros, a name and keys for nothing", texts["zeros"], distinct(itertools.chain(["@.a"], (f"@=={key}" for key in range(1, 2_000))))
    between = (f"@=={key}" if key % 40 else f"@.a{key}" for key in range(1, 2_000))
    yield "zeros, names between keys for nothing", texts["zeros"], distinct(between)
    yield "zeros, a name between keys in parentheses for nothing", texts["zeros"], distinct(itertools.chain(["@.a"], (f"!(@!={key}&&@!={key + 1})" for key in range(1, 2_000))))
    pairs = [a + op + b for a, b in ["@$", "$@", "@@", "$$"] for op in ["==", "!=", "<", "<=", ">", ">="]]
    yield "zeros, all pairs for nothing", texts["zeros"], distinct(itertools.cycle(pairs))
    yield "zeros, pairs and keys for nothing", texts["zeros"], distinct(f"@==$&&@=={key}" for key in range(1, 2_000))
    yield "arrays, all pairs for nothing", many("[0]"), distinct(itertools.cycle(pairs))
    yield "objects, the text for nothing", many('{"a":0}'), filled("@==$")
    yield "an object of zeros, all pairs for nothing", members(numbered())[0], distinct(itertools.cycle(pairs))
    sides = itertools.cycle(["@", "length(@)", "count(@)", "value(@)", "$"])
    turns = list(zip(sides, range(1, 2_000)))
    yield "zeros, five sides for nothing", texts["zeros"], distinct(f"{side}=={key}" for side, key in turns)
    yield "zeros, five sides by && for nothing", texts["zeros"], distinct((f"{side}!={key}" for side, key in turns), "&&")
    yield "strings, five sides in ! for nothing", texts["strings"], distinct(f"!({side}!={key})" for side, key in turns)
    yield from mixed_sides(texts)


def mixed_sides(texts):
    """Operands that are charged nothing and have several sides in themselves."""
    zeros, strings, keys = texts["zeros"], texts["strings"], range(2, 2_000)
    lengths = "[" + ",".join('"' + "a" * (at % 120) + '"' for at in range(16_000 * MEBIBYTES)) + "]"
    yield "strings, lengths and keys for nothing", strings, distinct(f'@>="{key}"&&length(@)=={key}' for key in keys)
    yield "strings of many lengths, lengths and keys for nothing", lengths, distinct(f'@>="{key}"&&length(@)=={key}' for key in keys)
    letters = [chr(at) for at in range(48, 123) if chr(at) not in '"\\']
    starts, sizes = [a + b for a in letters for b in letters[::24]], range(2, 66)
    cells = "[" + ",".join('"' + starts[at % len(starts)].ljust(sizes[at * 7919 // len(starts) % len(sizes)], "a") + '"' for at in range(28_000 * MEBIBYTES)) + "]"
    yield "strings of most cells, lengths and keys for nothing", cells, distinct(f'@>="{starts[at * 3 % len(starts)]}"&&length(@)=={sizes[at % len(sizes)]}' for at in range(2_000))
    yield "strings, lengths or keys in ! for nothing", strings, distinct(f'!(@<"{key}"||length(@)!={key})' for key in keys)
    yield "strings, a name beside lengths and keys for nothing", strings, distinct(itertools.chain(["@.a"], (f'@>="{key}"&&length(@)=={key}' for key in keys)))
    yield "zeros, it and the text in one for nothing", zeros, filled("@<1&&$<1")
    yield "zeros, three numbers and a length in one for nothing", zeros, filled("@<1&&@<1&&@<1&&length(@)<1")
    yield "zeros, lengths in parentheses for nothing", zeros, filled("(@<1&&length(@)<1||@>2)&&@>3")
    yield "zeros, lengths by && in parentheses for nothing", zeros, filled("(@<1||@>2&&length(@)<1)", "&&")
    yield "zeros, five sides in one for nothing", zeros, filled("@<1&&length(@)!=1&&count(@)==1&&value(@)<1&&$<1")
    deep = "(@<1&&(length(@)<1||" * 15 + "||".join(["@<1&&length(@)<1"] * 180) + "))" * 15
    yield "zeros, lengths 31 deep for nothing", zeros, "$[?" + deep + "]"
    yield "zeros, the text's length in one for nothing", zeros, filled("@<length($)&&@<1")
    yield "zeros, its length and the text's in one for nothing", zeros, filled("length(@)<length($)&&@<1")
    yield "zeros, counts without a literal in one for nothing", zeros, filled("@<count(@)&&$<1")
    yield "strings, lengths of literals in one for nothing", strings, distinct(f'length(@)<=length("{"a" * (key % 60)}")&&@>="{key}"' for key in keys)
    yield "strings, the length of the value for nothing", strings, distinct(f"length(value(@))=={key}" for key in keys)


def asked():
    """Queries that a product asks, on items."""
    items, size = [], 0
    for at in itertools.count():
        country, tags = "de" if at % 3 else "fr", f'["new","t{at % 10}"]' if at % 5 == 0 else f'["t{at % 10}"]'
        item = f'{{"id":{at},"name":"item {at}","price":{at % 100}.5,"stock":{at % 7},"tags":{tags},"maker":{{"country":"{country}"}}}}'
        size += len(item) + 1
        if size > TEXT - 64:
            break
        items.append(item)
    text = '{"limit":50,"country":"de","items":[' + ",".join(items) + "]}"
    queries = ["$.items[17].name", "$.items[-10:]", "$.items[*].name", "$..name", "$.items[?@.id==4000]", "$.items[?@.price<10].name",
               "$.items[?@.price<10&&@.stock>0&&@.maker.country=='de']", "$.items[?@.price<$.limit&&@.maker.country==$.country].id",
               "$.items[?@.id==1||@.id==20||@.id==300||@.id==4000||@.id==5000]", "$.items[?@.tags[?@=='new']].id",
               "$.items[?length(@.name)>8&&count(@.tags[*])>1]", "$..[?@.country=='fr']"]
    for query in queries:
        yield f"items, {query}", text, query


ROWS = {asked: AIM_OF_ASKED, free: AIM, rooted: AIM, levels: AIM, equality: AIM, depths: AIM, selectors: AIM, filters: AIM, lengths: AIM, readings: AIM,
        units: AIM_OF_UNITS}


def limit_stack():
    resource.setrlimit(resource.RLIMIT_STACK, (STACK, resource.getrlimit(resource.RLIMIT_STACK)[1]))


def processor_time():
    used = resource.getrusage(resource.RUSAGE_CHILDREN)
    return used.ru_utime + used.ru_stime


def run(text, query, seconds):
    """How the program ended on a text and a query, and its processor time."""
    assert len(text.encode()) <= TEXT and len(query.encode()) <= QUERY, (len(text.encode()), len(query.encode()))
    with tempfile.TemporaryFile() as source:
        source.write(text.encode())
        source.seek(0)
        pipes = {"stdin": source, "stdout": subprocess.DEVNULL, "stderr": subprocess.PIPE}
        before = processor_time()
        with subprocess.Popen([PROGRAM, "query", query], preexec_fn=limit_stack, **pipes) as process:
            try:
                said = process.communicate(timeout=seconds)[1].decode().replace("path_server: ", "").strip()
            except subprocess.TimeoutExpired:
                process.kill()
                said = "stopped"
    taken = processor_time() - before
    return f"signal {-process.returncode}" if process.returncode < 0 and said != "stopped" else said or "done", taken


def measured(seconds, word=""):
    """Of each row with that word: its shape, how the program ended, its seconds, the aim, and whether it is above it."""
    for made, aim in ROWS.items():
        for name, text, query in made():
            if word in name:
                end, taken = run(text, query, seconds)
                yield name, end, taken, aim, taken > aim or end == "stopped" or end.startswith("signal")


def main():
    need_program()
    count = above = 0
    print("| shape | end | seconds | aim |\n|---|---|---|---|")
    for name, end, taken, aim, is_above in measured(float(sys.argv[1]) if len(sys.argv) > 1 else 5.0, sys.argv[2] if len(sys.argv) > 2 else ""):
        count, above = count + 1, above + is_above
        print(f"| {name} | {end} | {taken:.3f} | {aim}{' ABOVE' if is_above else ''} |", flush=True)
    print(f"hostile: {count} rows, {above} above their aim")
    sys.exit(1 if above else 0)


if __name__ == "__main__":
    main()
