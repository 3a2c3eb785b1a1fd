#!/usr/bin/env python3
"""Counts the places of a change: tests/walks.py compares the lines of crates/*/src and crates/*/specs that name a neighbour of the thing that is added
(WALKS) with the table "Places" of CONTRIBUTING.md. So a file or a line that a further status, metric, command, operator or option wants is seen.
`tests/walks.py --write` writes the table anew, and its difference is what a review reads. A walk with an aim (AIMS) fails above it.

A place is a line that names the neighbour and is no comment. The lengths of tables with an entry for each status, command or metric are places too.
"""
import re
import sys

from lib.running_server import TOP, Report

PAGE = TOP / "CONTRIBUTING.md"
BEGINS, ENDS = "<!-- The lines up to the next mark are written by tests/walks.py. -->", "<!-- The end of what tests/walks.py writes. -->"
CELL = 190
COMMENT = re.compile(r"\s*(?://|--)")
# what is added, the neighbour that it stands beside, and the lines that name that one: everywhere, or in some crates. The first kind has to be there;
# the others are numbers that a table's length would do instead of
TABLES = ("admin_pages", "client_commands", "log_lines", "protocol")
WALKS = {
    "a status": ("Exists", [(r"(?<!Condition::)(?<!Condition-F\.)\bExists\b(?!\()", None), (r"(?<![.\d])(?:24|25|225)\b", TABLES)]),
    "a metric": ("path_server_tenant_refused_bytes_total", [(r"TenantRefused|tenant_refused|\bserved\.refused\b", None), (r"\bTENANT_TOTALS: usize = \d|(?<![.\d])26\b", TABLES)]),
    "a command": ("PUT_NEW", [(r"PutNew|PUT_NEW|put_new", None), (r"\bcommand'? < 9\b|nat_lt command 9\b|COMMANDS: usize = 9\b|\b225\b", TABLES),
                              (r"nat_le command 8\b", ("wire_frames",))]),
    "an operator": ("<=", [(r"\b(?:Le|ops\.Le)\b", None)]),
    "an option": ("--stall", [(r"\bstall\b", None)]),
}
# the most lines of a walk, and the most files
AIMS = {"a status": (12, 6), "a metric": (5, 3), "a command": (63, 25), "an operator": (8, 6)}


def sources():
    """The text of each file by its path from the top."""
    found = [*TOP.glob("crates/*/src/**/*.rt"), *TOP.glob("crates/*/specs/**/*.antt")]
    return {str(it.relative_to(TOP)): it.read_text(encoding="utf-8") for it in sorted(found)}


def places(files, patterns):
    """How many lines of each file name the neighbour, by the crate and the file in it."""
    found = {}
    for path, text in files.items():
        crate, file = path.split("/", 2)[1:]
        wanted = [re.compile(pattern) for pattern, crates in patterns if crates is None or crate in crates]
        count = sum(any(it.search(line) for it in wanted) for line in text.splitlines() if not COMMENT.match(line))
        if count:
            found[crate, file] = count
    return found


def rows(files):
    """The rows of the table: for each walk and crate its files with their lines, in as many rows as a cell's length asks for."""
    for what, (neighbour, patterns) in WALKS.items():
        found = places(files, patterns)
        yield f"| {what}, as `{neighbour}` | | {sum(found.values())} lines in {len(found)} files |"
        for crate in sorted({it for it, _ in found}):
            pieces = [f"`{file}` {count}" for (of, file), count in found.items() if of == crate]
            while pieces:
                take = max(n for n in range(1, len(pieces) + 1) if n == 1 or len(", ".join(pieces[:n]).replace("`", "")) <= CELL)
                yield f"| | `{crate}` | {', '.join(pieces[:take])} |"
                pieces = pieces[take:]


def table(files):
    return "\n".join([BEGINS, "", "| you add | crate | files and lines |", "|---|---|---|", *rows(files), "", ENDS])


def kept(page):
    """The part of the page that this script writes."""
    return page[page.index(BEGINS):page.index(ENDS) + len(ENDS)]


def finds_new_places(report, files):
    """Makes a file, a line and a comment that name a neighbour: the first two change the table, and the comment does not."""
    now, (path, text) = table(files), next(iter(files.items()))
    for line, is_seen in (("    StoreFault::Exists => 1,", True), ("// Exists", False), ("    Condition::Exists(query)", False), ("    Op::Le => true,", True)):
        report.case("a line more is seen", line, is_seen, table({**files, path: f"{text}\n{line}\n"}) != now)
        report.case("a file more is seen", line, is_seen, table({**files, "crates/made/src/lib.rt": line}) != now)


def above(found, aim):
    """Whether places are more lines or more files than an aim."""
    return sum(found.values()) > aim[0] or len(found) > aim[1]


def keeps_aims(report, files):
    """Each walk is within its aim, and one that gains lines or files above it is not."""
    for what, aim in AIMS.items():
        found = places(files, WALKS[what][1])
        report.case(f"{what}, at most {aim[0]} lines in {aim[1]} files", found, False, above(found, aim))
        report.case("lines above an aim are seen", what, True, above({**found, ("made", "src/lib.rt"): aim[0]}, aim))
        report.case("files above an aim are seen", what, True, above({("made", str(number)): 1 for number in range(aim[1] + 1)}, aim))


def main():
    report, files, page = Report(), sources(), PAGE.read_text(encoding="utf-8")
    if sys.argv[1:] == ["--write"]:
        PAGE.write_text(page.replace(kept(page), table(files)), encoding="utf-8")
        return
    there, here = kept(page).splitlines(), table(files).splitlines()
    report.case("CONTRIBUTING.md, places (tests/walks.py --write writes them)", "", [], [f"+ {it}" for it in here if it not in there] + [f"- {it}" for it in there if it not in here])
    report.case("CONTRIBUTING.md, the order of places", "", here, there)
    for what, (neighbour, patterns) in WALKS.items():
        report.case("a neighbour that is named", (what, patterns[0]), True, bool(places(files, patterns[:1])))
    keeps_aims(report, files)
    finds_new_places(report, files)
    report.close("walks")


if __name__ == "__main__":
    main()
