"""Manual pages from the pages of docs/: manual(NAME, LINE, TEXT, VERSION) is the source for man(1), by the macros of man(7)."""
import re

ESCAPES = {"\\": "\\e", "-": "\\-", "`": "\\`", "'": "\\(aq"}


def plain(text):
    return "".join(ESCAPES.get(it, it) for it in text)


def prose(text):
    """Words with their marks: code and what is bold in bold, links by their words."""
    text = re.sub(r"<!--.*?-->", "", text)
    text = re.sub(r"!?\[([^\]]*)\]\([^)]*\)", r"\1", text)
    parts = re.split(r"(`[^`]*`|\*\*[^*]*\*\*)", text)
    return guarded("".join(f"\\fB{plain(it.strip('`*'))}\\fR" if it[:1] == "`" or it[:2] == "**" else plain(it) for it in parts))


def guarded(line):
    """A line that begins with a control character is text all the same."""
    return f"\\&{line}" if line.startswith((".", "\\(aq")) else line


def code(lines):
    return [".PP", ".RS 4", ".nf", *[guarded(plain(it)) for it in lines], ".fi", ".RE"]


def table(rows):
    """A row is an item: its first cell, and behind it the others."""
    cells = [[it.strip().replace("\\|", "|") for it in re.split(r"(?<!\\)\|", row.strip().strip("|"))] for row in rows]
    found = []
    for first, *rest in cells[2:]:
        found += [".TP", prose(first) or "\\&", prose("; ".join(f"{head}: {it}" if len(rest) > 1 and head else it for head, it in zip(cells[0][1:], rest) if it)) or "\\&"]
    return found


def blocks(text):
    """Paragraphs, each with its lines; what stands between fences is one."""
    block, is_fenced = [], False
    for line in [*text.splitlines(), ""]:
        if line.startswith("```"):
            if block:
                yield block
            is_fenced, block = not is_fenced, [] if is_fenced else ["```"]
        elif line or is_fenced:
            block.append(line)
        elif block:
            yield block
            block = []


def manual(name, line, text, version):
    found = [f'.TH {name.upper()} 1 "" "path_server {version}"', ".SH NAME", f"{plain(name)} \\- {plain(line)}", ".SH DESCRIPTION"]
    for block in blocks(text.partition("\n")[2]):
        if block[0] == "```":
            found += code(block[1:])
        elif block[0].startswith("#"):
            found += [(".SH " if block[0].startswith("## ") else ".SS ") + prose(block[0].lstrip("# ")).upper()]
        elif block[0].startswith("    "):
            found += code(it[4:] for it in block)
        elif block[0].startswith("|"):
            found += table(block)
        elif block[0].startswith("- ") or re.match(r"\d+\. ", block[0]):
            for item in re.split(r"\n(?=- |\d+\. )", "\n".join(block)):
                mark, _, rest = item.partition(" ")
                found += [".IP {} 4".format("\\(bu" if mark == "-" else mark), prose(" ".join(rest.split()))]
        else:
            found += [".PP", prose(" ".join(block))]
    return "\n".join(found) + "\n"
