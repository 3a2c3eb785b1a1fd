"""What an edit is, how it is put in place, and which ones may be tried together. An edit is a wrong body that the prover has to refuse: lines of three kinds, and blank ones.

    file: src/lib.rt     the file that the pairs after it change, below src/, specs/ or proofs/ of its crate
    old: TEXT            a text that stands exactly once in that file, as the pairs before it left it
    new: TEXT            what takes its place

An edit is judged by the functions that it changes. One of anything else, as of a definition, names those that have to refuse it in a line of its own:

    # by: laws::one_tree    the paths of functions in the crate

One that is about a clause may name it, and is refused only where that clause of its function is open:

    # at: accepted_text    the clause's name, or `returns` for a clause that is alone
"""
import re
from pathlib import Path

TOGETHER = 64
FUNCTION = re.compile(r"( *)(?:pub(?:\([a-z]+\))? )?(const )?(?:unsafe )?fn (\w+)")
BLOCK = re.compile(r" *(?:pub(?:\([a-z]+\))? )?(?:unsafe )?(impl|trait|mod)\b")
TYPE = re.compile(r"^(?:pub(?:\([a-z]+\))? )?(?:struct|enum) (\w+)", re.M)
CYCLE = re.compile(r"^ *#\[cycle\((\w+)\)\]\n", re.M)
# the lines of a check that tell of an open goal: where in a source file, or in which proof file
OPEN = re.compile(r"note: (?:\./)?(src/\S+?):(\d+):\d+: (?:it is not proved that|`search` found no proof)|note: `[^`]+` of (proofs/\S+) must prove|(?:\./)?(proofs/\S+?):\d+:\d+: error: ")
# of these, a proof that names what is gone
NAMES = re.compile(r"(?:\./)?proofs/.*(has no field|is not in scope|has no `|was not admitted)")
# what says so in a line of its own
CONTINUED = re.compile(r" +(has no field|is not in scope|has no `|was not admitted)")


class Misfit(Exception):
    """Why an edit does not fit its crate."""


def pairs_of(lines):
    """The triples of file, old text and new text; a Misfit says which line is out of place."""
    file, old, found = None, None, []
    for number, line in enumerate(lines, 1):
        word, _, text = line.partition(": ")
        if old is not None and not line.startswith("new:"):
            raise Misfit(f"line {number} stands between an 'old:' and its 'new:'")
        if word == "file":
            file = text.strip()
        elif word == "old" and file and text:
            old = text
        elif line.startswith("new:") and old is not None:
            found.append((file, old, text))
            old = None
        elif line.strip() and not line.startswith(("# by: ", "# at: ")):
            raise Misfit(f"line {number} is no 'file:', 'old:' or 'new:' in its place: {line[:60]}")
    if old is not None:
        raise Misfit("its last 'old:' has no 'new:'")
    if not found:
        raise Misfit("it has no pair of 'old:' and 'new:'")
    return found


def pairs_in(edit):
    """The triples of an edit's file."""
    if not re.fullmatch(r"[A-Za-z0-9_-][A-Za-z0-9_.-]*\.edit", edit.name) or not edit.is_file():
        raise Misfit("an edit is a file whose name is of letters, digits, _, - and ., and ends in .edit")
    return pairs_of(edit.read_text(encoding="utf-8").split("\n"))


def apply(pairs, crate, texts):
    """Puts the pairs into the texts, which are by file those of the crate that were changed already."""
    for file, old, new in pairs:
        if not re.fullmatch(r"(src|specs|proofs)/[\w./-]+", file) or ".." in file.split("/"):
            raise Misfit(f"it names no file below src/, specs/ or proofs/: {file}")
        if file not in texts:
            try:
                texts[file] = (crate / file).read_text(encoding="utf-8")
            except OSError as error:
                raise Misfit(f"{error.filename} cannot be read: {error.strerror}") from error
        times = texts[file].count(old)
        if times != 1:
            raise Misfit(f"the text stands {times} times in {file}, and not once: {old}")
        if old == new:
            raise Misfit(f"it puts the same text in place of: {old}")
        texts[file] = texts[file].replace(old, new)


def joined(lines):
    """The lines of a check, where what a proof lacks stands in one line with the proof."""
    found = []
    for line in lines:
        if found and CONTINUED.match(line):
            found[-1] += " " + line.strip()
        else:
            found.append(line)
    return found


def is_open(line):
    """Whether a line of a check tells of an open goal, and not of a proof that names what an edit took away."""
    return bool(OPEN.match(line)) and not NAMES.match(line)


STOPPED = "`search` gave up at one of its limits"
AT_CLAUSE, IN_AN_ANSWER, STOPPED_SEARCH = "at a clause", "in an answer", "where a search stopped"
KINDS = (AT_CLAUSE, IN_AN_ANSWER, STOPPED_SEARCH)


def goal_of(line):
    """The name of the goal that a line of a check tells of."""
    found = re.search(r"\(`([^`]+)`\)|note: `([^`]+)` of proofs/|error: `([^`]+)`", line)
    return next((it for it in found.groups() if it), "") if found else ""


def kind_of(line):
    """How an open goal refuses: the prover found it open, what was written as its proof does not fit any more, or the search for a proof stopped, so that
    it may hold."""
    if STOPPED in line:
        return STOPPED_SEARCH
    found = OPEN.match(line)
    return AT_CLAUSE if found and found[1] else IN_AN_ANSWER


def is_about(line, clauses):
    """Whether the goal of a line is one of these clauses. A clause that is alone has no name in its function's goals."""
    goal = goal_of(line)
    return any(goal.endswith(f"clause-{it}") or it == "returns" and goal.startswith("returns") and "-clause-" not in goal for it in clauses)


def that_refuse(told, clauses):
    """Of the open goals of an edit, those that count: all, or, if it names its clauses, those of these clauses that the prover found open itself."""
    return [it for it in told if kind_of(it) == AT_CLAUSE and is_about(it, clauses)] if clauses else told


class Function:
    """A function of a source file that has a body: its path in its crate, its lines from its first attribute on, and its parts."""

    def __init__(self, file, blocks, lines, first, start, opening, last, homes):
        self.file, self.name, self.first, self.last = file, FUNCTION.match(lines[start])[3], first + 1, last + 1
        module = homes.get(blocks[0].name) if blocks and blocks[0].is_of_a_type else None
        module = module_of(file) if module is None else module
        self.path = "::".join([*module, *[it.name for it in blocks], self.name])
        self.text = "\n".join(lines[start : last + 1])
        self.body = "\n".join(lines[opening : last + 1])
        self.opening = opening + 1
        head = "\n".join(lines[first : opening + 1])
        cycle = CYCLE.search(head)
        self.cycle = (file, cycle[1]) if cycle else None
        self.is_const = bool(FUNCTION.match(lines[start])[2])
        # the prover wants these whole: what a trait or a test has, and a result whose type only the body tells
        self.stays = any(it.kind == "trait" or it.is_test for it in blocks) or bool(re.search(r"#\[test\]|-> [^{]*\bimpl\b", head))

    def calls(self, other):
        return bool(re.search(rf"\b{other.name}(::<[^(]*>)?\(", self.text))

    def proof(self):
        """The folder of its proof, in its crate."""
        return f"proofs/{self.path.replace('::', '/')}"

    def is_at(self, line):
        """Whether a line of a check tells of an open goal of this function."""
        if not is_open(line):
            return False
        found = OPEN.match(line)
        if found[1]:
            return found[1] == self.file and self.first <= int(found[2]) <= self.last
        folder = Path(found[3] or found[4]).parent
        if self.cycle and folder.name == f"+{self.cycle[1]}":
            return bool(re.search(rf"`{self.name}(-[^`]*)?`", line))
        return str(folder) == self.proof()


class Block:
    """An `impl`, a trait or a module within a source file: its last line, and its name in the paths of its functions."""

    def __init__(self, kind, head, last, is_test):
        self.kind, self.last, self.is_test = kind, last, is_test
        self.is_of_a_type = kind == "impl" and " for " not in without_parameters(head)
        self.name = type_name(head.split(":")[0]) if kind != "impl" else impl_name(head)


def without_parameters(text):
    while re.search(r"<[^<>]*>", text):
        text = re.sub(r"<[^<>]*>", "", text)
    return text


def type_name(text):
    """The name of a type or a trait, without its parameters and the modules that it lies in."""
    return re.sub(r"\bwhere\b.*", "", without_parameters(text), flags=re.S).strip().lstrip("&").split("::")[-1].strip()


def impl_name(head):
    """The name of an `impl`: the type's, then the trait's, then those of the trait's own parameters, as `FaultFromIoError`."""
    head, depth = head.strip(), 0
    for at, char in enumerate(head if head.startswith("<") else ""):
        depth += (char == "<") - (char == ">")
        if depth == 0:
            head = head[at + 1 :].strip()
            break
    trait, is_of, owner = head.partition(" for ")
    if not is_of:
        return type_name(head)
    inner = re.fullmatch(r"[^<]*<(.*)>", trait.strip())
    types = [it for it in re.split(r",(?![^<]*>)", inner[1]) if not it.strip().startswith("'")] if inner else []
    spelled = (without_parameters(it).strip().lstrip("&").split("::") for it in types)
    return type_name(owner) + type_name(trait) + "".join(part[:1].upper() + part[1:] for it in spelled for part in it)


def module_of(file):
    return [it for it in Path(file).with_suffix("").parts[1:] if it not in ("lib", "main", "mod")]


def homes_of(texts):
    """The modules of a crate's types, by name. The prover names a type's own functions by its module, whichever file they stand in."""
    return {name: module_of(file) for file, text in texts.items() for name in TYPE.findall(text)}


def sources_of(crate):
    """The texts of a crate's source files."""
    return {str(it.relative_to(crate)): it.read_text(encoding="utf-8") for it in sorted((crate / "src").rglob("*.rt"))}


def functions_of(file, text, homes={}):
    """The functions of a formatted text, but those within another's body, and those whose body is one line with their head. A body opens in
    the first line that stands as far left as the function and leaves a brace open, also one that an edit has put more into; it closes at the next
    brace alone in a line that stands as far left. homes has the modules of the crate's types."""
    lines = text.split("\n")
    opens = lambda line: line.count("{") > line.count("}")
    found, blocks, past = [], [], 0
    for number, line in enumerate(lines):
        blocks = [it for it in blocks if it.last > number]
        far = len(line) - len(line.lstrip())
        is_left = lambda at: lines[at].startswith(" " * far) and lines[at][far : far + 1] not in ("", " ")
        if number < past or not (FUNCTION.match(line) or BLOCK.match(line)) or line.endswith("}") and not opens(line):
            continue
        opening = next((at for at in range(number, len(lines)) if is_left(at) and (opens(lines[at]) or lines[at].endswith("{}")) or lines[at].endswith(";")), None)
        if opening is None or not is_left(opening) or not opens(lines[opening]) and not lines[opening].endswith("{}"):
            continue
        last = opening if not opens(lines[opening]) else next((at for at in range(opening + 1, len(lines)) if lines[at] == " " * far + "}"), len(lines) - 1)
        if FUNCTION.match(line):
            first = number
            while first and re.match(r" *(#\[|//)", lines[first - 1]):
                first -= 1
            found.append(Function(file, blocks, lines, first, number, opening, last, homes))
            past = last + 1
        else:
            head = " ".join(lines[number : opening + 1]).rstrip("{} ").lstrip()
            blocks.append(Block(BLOCK.match(line)[1], head[head.index(BLOCK.match(line)[1]) + len(BLOCK.match(line)[1]) :], last, number > 0 and lines[number - 1].strip() == "#[cfg(test)]"))
    return found


def functions_in(crate):
    """The functions of all source files of a crate."""
    texts = sources_of(crate)
    homes = homes_of(texts)
    return [it for file, text in texts.items() for it in functions_of(file, text, homes)]


class Edit:
    """An edit of a crate: its pairs, the functions that they lie in, which are none where one lies elsewhere, and the paths of those that judge it."""

    def __init__(self, path, crate):
        self.name, self.pairs = path.name, pairs_in(path)
        lines = path.read_text(encoding="utf-8").splitlines()
        named = [line.split()[2:] for line in lines if line.startswith("# by: ")]
        self.clauses = [it for line in lines if line.startswith("# at: ") for it in line.split()[2:]]
        places, texts, homes = [], {}, homes_of(sources_of(crate))
        for file, old, new in self.pairs:
            before = texts.get(file)
            apply([(file, old, new)], crate, texts)
            places.append(place_of(file, before or (crate / file).read_text(encoding="utf-8"), old, homes))
        self.functions = list({it.path: it for it, _ in places if it}.values()) if all(it for it, _ in places) else []
        self.is_of_bodies = bool(self.functions) and all(is_inside for _, is_inside in places)
        self.judges = [it.path for it in self.functions] or [it for words in named for it in words]

    def goes_with(self, other):
        """Whether the two may be tried together: bodies of different functions may, and where one changes a clause, what calls its function may not."""
        mine, others = self.functions, other.functions
        if not mine or not others or {it.path for it in mine} & {it.path for it in others}:
            return False
        return self.is_of_bodies and other.is_of_bodies or not any(one.calls(two) or two.calls(one) for one in mine for two in others)


def place_of(file, text, old, homes):
    """The function that a part of a source file's text lies in, or nothing, and whether it lies in that function's body."""
    start = text.index(old)
    first, last = text.count("\n", 0, start) + 1, text.count("\n", 0, start + len(old)) + 1
    inside = [it for it in functions_of(file, text, homes) if it.first <= first and last <= it.last] if file.startswith("src/") else []
    return (inside[-1], inside[-1].opening < first) if inside else (None, False)


def fit_together(edits, crate):
    """Whether each still finds its text once where those before it are in place."""
    texts = {}
    try:
        for edit in edits:
            apply(edit.pairs, crate, texts)
    except Misfit:
        return False
    return True


def in_groups(edits, crate):
    """The edits of a crate in groups that may be tried together."""
    groups = []
    for edit in edits:
        fitting = (group for group in groups if len(group) < TOGETHER and all(edit.goes_with(it) for it in group) and fit_together([*group, edit], crate))
        group = next(fitting, None)
        if group is None:
            groups.append([edit])
        else:
            group.append(edit)
    return groups
