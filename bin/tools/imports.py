"""The names that a file imports and does not use, and the proofs of other crates that it cites.

An import is the name of a `use` or `ghost use`, as it is called in the file. It is used where the name stands outside of imports and comments, or,
of a name with blanks for its operands (`◌++◌`), where each of its parts does. Not told are names that are handed on (`pub use`), all names of
a module (`*`), the operator of `do`, and traits, whose methods are called without their name.
"""
import re

STATEMENT = {".rt": re.compile(r"^(?:ghost )?use\s[^;]*;", re.M), ".antt": re.compile(r"^use\s.*$", re.M)}
COMMENT = {".rt": re.compile(r"//.*$", re.M), ".antt": re.compile(r"(?:^|(?<=\s))--(?:\s.*)?$", re.M)}
TRAIT = re.compile(r"^\s*(?:pub(?:\([a-z]+\))? )?trait (\w+)", re.M)
FOREIGN_TRAITS = {"BufRead", "Digest", "Display", "IsTerminal", "OpenListener", "OpenStream", "Read", "ToSocketAddrs", "Write"}
"""Traits of the kit's crates that the repository imports for their methods."""
PROOFS = re.compile(r"^(?:ghost )?use Rattle\.(\w+)\.proofs\.", re.M)
READER = {"bit_words", "byte_masks", "escape_runs", "string_spans", "structural_index", "json_text", "json_strings", "tape_cells", "name_stamps", "name_order",
          "json_walk", "json_tape", "text_faults", "text_places"}
"""The crates of the reader, and of the places of its refusals. Their proofs cite those of the crates below."""


def imported(statement):
    """The names that a statement brings into a file."""
    path = re.sub(r"^(?:ghost )?use\s+", "", statement).rstrip(";").strip()
    named = re.fullmatch(r"(.*?)(?:::|\.)\{(.*)\}", path, re.S)
    items = [item.strip() for item in named.group(2).split(",")] if named else [path]
    for item in filter(None, items):
        item = re.split(r"\sas\s", item)[-1].strip()
        if item == "self":
            item = named.group(1)
        yield item if "◌" in item else re.split(r"::|\.", item)[-1]


def stands(name, words, text):
    parts = [part for part in name.split("◌") if part]
    return all(part in words or not re.match(r"\w", part) and part in text for part in parts)


def unused(path, traits):
    """The names that the file at this path imports and does not use."""
    text = path.read_text(encoding="utf-8")
    statement, comment = STATEMENT[path.suffix], COMMENT[path.suffix]
    body = comment.sub("", statement.sub("", text))
    words = set(re.split(r"[\s(){}\[\],;.:&*!?<>|=]+", body)) | set(re.findall(r"\w+", body)) | set(re.split(r"[\s(){}\[\],;]+", body))
    names = [name for found in statement.findall(text) for name in imported(found)]
    spared = traits | FOREIGN_TRAITS | {"*"} | ({"◌>>=◌"} if "do" in words else set())
    return [name for name in names if name not in spared and not stands(name, words, body)]


def unused_in(crates):
    """For each file of the crates that has some: its path, and the names."""
    files = [path for path in sorted(crates.glob("*/*/**/*")) if path.suffix in STATEMENT and not {"out", "must-fail", "planted"} & set(path.parts)]
    traits = {name for path in files if path.suffix == ".rt" for name in TRAIT.findall(path.read_text(encoding="utf-8"))}
    for path in files:
        if names := unused(path, traits):
            yield path, names


def cited_in(crates):
    """For each file of a crate above the reader that imports proofs of another crate of the repository: its path, and those crates."""
    names = {path.name for path in crates.iterdir()}
    for path in sorted(crates.glob("*/*/**/*.antt")):
        crate, folder = path.relative_to(crates).parts[:2]
        if folder in {"specs", "proofs"} and crate not in READER:
            others = set(PROOFS.findall(path.read_text(encoding="utf-8"))) & names - {crate}
            if others:
                yield path, sorted(others)
