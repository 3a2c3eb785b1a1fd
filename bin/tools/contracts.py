"""What the contracts of exported items name, told from the sources alone.

A crate exports what its src/lib.rt declares or brings out as `pub`, and of an exported type its public methods and its impls of traits that are
not private. The contract of such an item is its `requires` and `ensures`, the ghost fields of a type, the ghost members of a trait or an impl, and the
`Value` of a model. The `view` and the `invariant` of a model speak of private fields, which no clause of a caller can name: they are left out.

A name in a contract is that of a definition where a `ghost use` of its file or its impl has it from a file in specs/, and so on in that file. A
crate hands on files of another one by `pub use` lines of its specs/Lib.antt.
"""
import re
from functools import lru_cache
from pathlib import Path

from edits import type_name

ITEM = re.compile(r" *(pub )?(?:pub\([a-z]+\) )?(?:(?:const |unsafe |extern \S+ )*(fn)|(impl|trait|mod|struct|enum|ghost use|ghost|use|const|static|type))\b ?(\w*)")
CLAUSES = re.compile(r"^ *(?:requires|ensures)\b", re.M)
IMPORT = re.compile(r"(pub )?use Rattle\.(\w+)\.specs\.([A-Z]\w*)(?: as (\w+))?(?:\.\{([^}]*)\})?")
# what a crate hands on of another one's files, in its specs/Lib.antt
HANDED_ON = re.compile(r"^pub use Rattle\.(\w+)\.specs\.(\w+)$", re.M)
# a definition's first line, which gives its name
HEAD = re.compile(r" *(?:(?:abbrev )?(?:mutual|module)\b|(?:(?:abbrev|unfoldable|pub|record|data) )+([^\s:({]+))")
# the first line of a function of one argument that gives data
FUNCTION_OF_ONE = re.compile(r".* : (\w+) → (?!Type )[^→]+")
CONSTRUCTORS = re.compile(r" *((?:[^\s:(){}→]+ )+): ")
# a name with what is projected from it, where it is not itself declared or, as a field, given a value, or an operator
WORD = re.compile(r"(?<![\w.'])([^\W\d][\w'-]*)(?![\w'-]| [=:]\s)((?:\.[\w'«»:-]+)*)|([^\w\s(){}\[\].,;']+)")


def far(line):
    return len(line) - len(line.lstrip())


def imports_of(text):
    """By the names that a text imports from specs/: the crate, the file, and the name there, or None where it is the file's own."""
    found = {}
    for _, crate, module, alias, names in IMPORT.findall(text):
        for name in filter(None, (it.strip() for it in names.split(","))):
            there, _, here = name.partition(" as ")
            found[(here or there).strip("◌")] = (crate, module, there.strip("◌"))
        if not names:
            found[alias or module] = (crate, module, None)
    return found


class Definition:
    """A definition of a file in specs/, where what a `mutual` holds is one: its lines without comments, and what names may stand for in it."""

    def __init__(self, file, lines, around, scope):
        self.file, self.lines, self.scope = file, lines, scope
        self.text = "\n".join([*around, *lines])

    def names(self):
        """The names that it gives: its own, its constructors and, in a `mutual`, those of all in it. A record's fields are none."""
        kind, left = "", 0
        for line in self.lines:
            head = HEAD.match(line)
            if head and head[1] and not (kind == "record" and far(line) > left):
                kind, left = head[0].split()[-2], far(line)
                yield head[1].strip("◌")
            elif kind == "data" and CONSTRUCTORS.match(line):
                yield from CONSTRUCTORS.match(line)[1].split()


class File:
    """A file in specs/: its definitions, by each name that they give, and what it hands on of other files."""

    def __init__(self, path):
        text = path.read_text(encoding="utf-8")
        self.name = "/".join(path.parts[-3:])
        self.begins, self.lines = text.split("\n")[0], text.count("\n")
        self.scope, self.named = imports_of(text), {}
        self.handed_on = imports_of("\n".join(it for it in text.split("\n") if it.startswith("pub use ")))
        lines = (it.split("--")[0].rstrip() for it in text.split("\n"))
        self.take([it for it in lines if it and not re.match(r" *(?:(?:pub )?use|infix[lr]?) ", it)], [])

    def take(self, lines, around):
        """Takes the definitions of these lines, which stand in modules that begin so."""
        if not lines:
            return
        left = min(map(far, lines))
        starts = [at for at, it in enumerate(lines) if far(it) == left and HEAD.match(it)]
        for start, end in zip(starts, [*starts[1:], len(lines)]):
            if lines[start].split()[0] == "module":
                self.take(lines[start + 1 : end], [*around, lines[start]])
                continue
            made = Definition(self.name, lines[start:end], around, self.scope)
            self.named.update((it, made) for it in made.names())


class Item:
    """An item of a formatted source file, or of a block in one: its kind and name, its lines up to where its body opens, and the body's."""

    def __init__(self, found, lines):
        self.is_public, self.kind, self.name = bool(found[1]), found[2] or found[3], found[4]
        self.head, self.body = lines, []

    def text(self):
        return "\n".join(self.head)

    def clauses(self):
        found = CLAUSES.search(self.text())
        return self.text()[found.start() :] if found else ""


def items_of(lines):
    """The items of these lines that stand farthest to the left."""
    left, found, at = min(map(far, filter(None, lines)), default=0), [], 0
    is_left = lambda line: far(line) == left and line != ""
    while at < len(lines):
        line = ITEM.match(lines[at]) if is_left(lines[at]) else None
        if not line:
            at += 1
            continue
        ends = (";", "},") if line[3] == "ghost" else ";"
        has_body = bool(line[2]) or line[3] in ("impl", "trait", "mod", "struct", "enum")
        last = next(k for k in range(at, len(lines)) if lines[k].endswith(ends) or has_body and is_left(lines[k]) and lines[k].endswith(("{", "{}")))
        item = Item(line, lines[at : last + 1])
        if lines[last].endswith("{"):
            opening, last = last, next(k for k in range(last + 1, len(lines)) if lines[k] == " " * left + "}")
            item.body = lines[opening + 1 : last]
        found.append(item)
        at = last + 1
    return found


class Contract:
    """A part of an exported item's contract: its crate, its public path, the type or trait that it belongs to, the text, and what names stand for in it."""

    def __init__(self, crate, path, owner, text, scope):
        self.crate, self.path, self.owner, self.text, self.scope = crate, path, owner, text, scope


def exports_of(modules, inside="", front=""):
    """What a module exports, of which the path begins so: its crate's own items by module and name, with their public paths, and by the path of one that
    another crate has, its path there."""
    own, others = {}, {}
    for item in filter(lambda it: it.is_public, modules[inside]):
        if item.kind == "mod":
            more = exports_of(modules, f"{inside}::{item.name}".strip(":"), f"{front}{item.name}::")
            own.update(more[0])
            others.update(more[1])
        elif item.kind == "use":
            path, names = re.fullmatch(r"pub use (?:crate::)?([\w:]+)::(\w+(?: as \w+)?|\{.*\});", " ".join(map(str.strip, item.head))).groups()
            for there, _, here in (it.strip().partition(" as ") for it in names.strip("{} ,").split(",")):
                if path in modules:
                    own[path, there] = front + (here or there)
                else:
                    others[front + (here or there)] = f"{path}::{there}"
        else:
            own[inside, item.name] = front + item.name
    return own, others


class Crate:
    """A crate's exported contracts, and what it hands on of other crates."""

    def __init__(self, folder):
        self.name, self.contracts = folder.name, []
        modules = {}
        for path in sorted((folder / "src").rglob("*.rt")):
            parts = [it for it in path.relative_to(folder / "src").with_suffix("").parts if it not in ("lib", "mod")]
            modules["::".join(parts)] = items_of(path.read_text(encoding="utf-8").split("\n"))
        self.own, self.others = exports_of(modules)
        for module, name in self.own:
            if not any(it.name == name for it in modules[module]):
                raise LookupError(f"{self.name} exports {name}, which is not found in {module}")
        kinds = ("struct", "enum", "trait")
        self.private = {it.name for module, items in modules.items() for it in items if it.kind in kinds and (module, it.name) not in self.own}
        self.private -= {name for _, name in self.own}
        for module, items in modules.items():
            scope = imports_of("\n".join(it.text() for it in items if it.kind == "ghost use"))
            for item in items:
                self.take(module, item, scope)

    def take(self, module, item, scope):
        if item.kind == "impl":
            self.take_impl(item, scope)
        elif (module, item.name) in self.own:
            path = self.own[module, item.name]
            if item.kind == "fn":
                self.add(path, None, item.clauses(), scope)
            else:
                self.take_members(path, item, scope, is_whole=True)

    def take_impl(self, item, scope):
        head = re.sub(r"^impl\s*(<(?:[^<>]|<[^<>]*>)*>)?", "", " ".join(item.head)).rstrip("{} ")
        trait, is_of, owner = head.partition(" for ")
        names = {type_name(it) for it in (trait, owner) if it}
        if not names & self.private:
            self.take_members(type_name(owner or trait), item, scope, is_whole=bool(is_of), is_model=is_of and type_name(trait) == "Model")

    def take_members(self, path, item, scope, is_whole, is_model=False):
        """Takes the members of an item that are exported with it, which all are in a whole one, and of a model its `Value`."""
        members = items_of(item.body)
        scope = {**scope, **imports_of("\n".join(it.text() for it in members if it.kind == "ghost use"))}
        for it in members:
            if it.kind == "fn" and (is_whole or it.is_public):
                self.add(f"{path}::{it.name}", path, it.clauses(), scope)
            elif it.kind == "ghost" and not (is_model and it.name in ("view", "invariant")):
                self.add(path, path, it.text(), scope)

    def add(self, path, owner, text, scope):
        self.contracts.append(Contract(self.name, path, owner, re.sub(r"//.*", "", text), scope))


class Sources:
    """All crates of a repository that are libraries, and all their files in specs/."""

    def __init__(self, root):
        folders = sorted((root / "crates").iterdir())
        self.crates = {it.name: Crate(it) for it in folders if (it / "src/lib.rt").is_file()}
        self.files = {(it.name, path.stem): File(path) for it in folders for path in sorted((it / "specs").glob("*.antt")) if path.stem != "Lib"}
        for it in filter(Path.is_file, (folder / "specs/Lib.antt" for folder in folders)):
            for crate, module in HANDED_ON.findall(it.read_text(encoding="utf-8")):
                self.files[it.parent.parent.name, module] = self.files[crate, module]

    def definition(self, crate, module, name):
        """The definition that a file gives this name, wherever the file has it from; None where the file is not one of ours."""
        file = self.files.get((crate, module))
        if file is None:
            return None
        if name not in file.named and name in file.handed_on:
            return self.definition(*file.handed_on[name])
        if name not in file.named:
            raise LookupError(f"{file.name} has no definition of {name}")
        return file.named[name]

    def named_in(self, text, scope, file=None):
        """The definitions that a text names, where names stand for these or, first, for what its own file defines."""
        found = set()
        for name, projected, operator in WORD.findall(text):
            name = name or operator
            if file and name in file.named:
                found.add(file.named[name])
            elif name in scope:
                crate, module, there = scope[name]
                there = there or projected[1:].split(".")[0]
                found.add(self.definition(crate, module, there) if there else None)
        return found - {None}

    @lru_cache(maxsize=None)
    def next_to(self, definition):
        """The definitions that one names."""
        crate, _, module = definition.file[: -len(".antt")].split("/")
        return self.named_in(definition.text, definition.scope, self.files[crate, module])

    def reached(self, definitions, but=frozenset()):
        """These definitions and all that they stand on, however far, but for some."""
        found, waiting = set(), set(definitions)
        while waiting:
            it = waiting.pop()
            found.add(it)
            waiting |= self.next_to(it) - found - but
        return found

    def contracts_of(self, path):
        """The contracts below a public path, as `json_tape::Document` or `json_tape::Document::read`."""
        name, _, inner = path.partition("::")
        crate = self.crates.get(name)
        if crate is None:
            return []
        front = f"{inner}::" if inner else ""
        found = [it for it in crate.contracts if f"{it.path}::".startswith(front)]
        for here, there in crate.others.items():
            if f"{here}::".startswith(front) or front.startswith(f"{here}::"):
                found += self.contracts_of(there + inner[len(here) :])
        return found

    def of_values(self, contracts):
        """What the values stand for of the types whose contracts these are: the types of their models' values, and the functions of such a value alone."""
        owners = {(it.crate, it.owner) for it in contracts}
        models = [it for crate in self.crates.values() for it in crate.contracts if (it.crate, it.owner) in owners and it.text.split()[:2] == ["ghost", "Value"]]
        values = set().union(*(self.named_in(it.text, it.scope) for it in models))
        names = {name for it in values for name in it.names()}
        one = {it: FUNCTION_OF_ONE.fullmatch(it.lines[0]) for file in self.files.values() for it in file.named.values()}
        return values | {it for it, found in one.items() if found and found[1] in names and values & self.next_to(it)}
