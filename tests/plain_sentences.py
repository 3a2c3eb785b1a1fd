#!/usr/bin/env python3
"""Counts words: tests/plain_sentences.py [--split] [PAGE..] reports each sentence of the pages with more than 30 words, each cell of a table with
more than 200 characters, and each table with more than five columns, as docs/STYLE.md asks. So it does with the sentences of doc comments, and with those of
`--help` and of messages, the strings in the sources of the command lines. In README.md, CONTRIBUTING.md and docs/ it reports sentences
that begin with a pronoun or a clause where a noun is clearer (VAGUE), and phrases that docs/STYLE.md rewrites (REWRITTEN). With --split it first
makes several rows of one with such a cell, if the cell is a list whose items end with a semicolon. At last it tries itself on sentences of each
kind (TRIED).

A sentence ends at a full stop, a question mark or an exclamation mark before a blank or the paragraph's end. Code between backquotes, a number or a
path is one word. Blocks of code are left out.
"""
import re
import sys

from lib.running_server import TOP, Report
from pages import pages, parts

WORDS, CELL, COLUMNS = 30, 200, 5
COMMAND_LINES = ("server_arguments", "client_commands")
STRING = re.compile(r'"((?:[^"\\]|\\.)*)"')
COMMENT = re.compile(r"\s*//[/!] ?(.*)")
# how a sentence begins that has a pronoun or a clause where a noun is clearer. A question may begin so, and a heading
VAGUE = {
    "a pronoun": re.compile(r"(?:What|Nothing of)\b(?!.*\?$)"),
    "Who": re.compile(r"(?:Who|Whoever)\b(?!.*\?$)"),
    "a clause": re.compile(r"(?:Which|Whether)\b(?!.*\?$)"),
    "That without a noun": re.compile(r"That (?:is|was|has|had|may|can|would|does|costs|gives|makes|means|saves|takes)\b(?!.*\?$)"),
    "Of": re.compile(r"Of\b(?!.*\?$)"),
}
# phrases that docs/STYLE.md rewrites: "there is none" is plain, and "else" means otherwise to nobody. Latin and filling words say no more
REWRITTEN = {
    "told of": re.compile(r"\btold of\b"),
    "is none": re.compile(r"(?<!there )\bis none\b"),
    "else": re.compile(r"\b(?:and|or) else\b|\bElse\b"),
    "words without a meaning": re.compile(r"\b(?:in order to|due to the fact|utili[sz]es?|simply|obviously|basically|etc)\b|\band/or\b|\b(?:e\.g|i\.e)\."),
}
# sentences of each kind, and others like them that are plain
TRIED = [("What a query costs is a number.", "a pronoun"), ("What does it cost?", None), ("Nothing of it is kept.", "a pronoun"),
         ("Whoever has a key may ask.", "Who"), ("Who answers it?", None), ("A client that has a key may ask.", None),
         ("Which place it is, tests say.", "a clause"), ("Whether it is so, no clause says.", "a clause"), ("Tests say which place it is.", None),
         ("That is granted at once.", "That without a noun"), ("That share is granted at once.", None), ("That is it?", None),
         ("Of a query, the server says where.", "Of"), ("The server says of a query where.", None), ("Offers are refused.", None),
         ("An end is told of.", "told of"), ("The line is none.", "is none"), ("It says that there is none.", None),
         ("It takes 400 units, and else 10,000.", "else"), ("Else it waits.", "else"), ("Nobody else waits.", None),
         ("It waits in order to read.", "words without a meaning"), ("Names, texts etc. are kept.", "words without a meaning"), ("It waits in order.", None)]
STARTS_ITEM = re.compile(r"(?:[-*]|\d+\.|#+|>) ")


def plain(text):
    """Text without marks: code as one word, a link as its words."""
    text = re.sub(r"<!--.*?-->", " ", text)
    text = re.sub(r"`[^`]*`", "CODE", text)
    text = re.sub(r"!?\[([^\]]*)\]\([^)]*\)", r"\1", text)
    return text.replace("**", "").replace("*", "")


def paragraphs(lines):
    """Prose, one paragraph, item or heading each."""
    found = []
    for line in lines:
        if STARTS_ITEM.match(line.lstrip()) or not found:
            found.append(line.strip())
        else:
            found[-1] += " " + line.strip()
    return found


def sentences(text):
    return [it for it in re.split(r"(?<=[.?!])[)\"]*\s+", plain(text)) if it]


def words(sentence):
    return [it for it in sentence.split() if re.search(r"\w", it)]


def shown(cell):
    """A cell as a reader sees it."""
    return re.sub(r"\[([^\]]*)\]\([^)]*\)", r"\1", cell).replace("`", "").replace("**", "")


def cells(line):
    return [it.strip() for it in re.split(r"(?<!\\)\|", line.strip().strip("|"))]


def split_rows(text):
    """Tables whose lists, between semicolons, stand in as many rows as their cells want."""
    made = []
    for line in text.split("\n"):
        row = cells(line) if line.startswith("|") else []
        long = next((at for at, cell in enumerate(row) if len(shown(cell)) > CELL and "; " in cell), None)
        if long is None:
            made.append(line)
            continue
        pieces = [""]
        for item in row[long].split("; "):
            joined = f"{pieces[-1]}; {item}" if pieces[-1] else item
            if pieces[-1] and len(shown(joined)) > CELL:
                pieces.append(item)
            else:
                pieces[-1] = joined
        made += ["| " + " | ".join(row[:long] + [piece] + row[long + 1:]) + " |" for piece in pieces]
    return "\n".join(made)


def judge(report, name, text):
    for language, lines in parts(text):
        if language is not None:
            continue
        of_table = [line for line in lines if line.lstrip().startswith("|")]
        for line in of_table:
            found = cells(line)
            if len(found) > COLUMNS:
                report.case(f"{name}: columns", line[:100], f"at most {COLUMNS}", len(found))
            for cell in found:
                if len(shown(cell)) > CELL:
                    report.case(f"{name}: characters of a cell", cell[:100], f"at most {CELL}", len(shown(cell)))
        texts = paragraphs([line for line in lines if line not in of_table])
        count_words(report, name, texts)
        if re.fullmatch(r"README\.md|CONTRIBUTING\.md|docs/\w+\.md", name):
            find_vague(report, name, texts)
            find_rewritten(report, name, [*texts, *(cell for line in of_table for cell in cells(line))])


def vague(sentence):
    """How a sentence begins, if it is in a way of VAGUE."""
    return next((kind for kind, pattern in VAGUE.items() if pattern.match(sentence)), None)


def rewritten(text):
    """The first kind of phrase of REWRITTEN in a text, if it has one."""
    return next((kind for kind, pattern in REWRITTEN.items() if pattern.search(text)), None)


def find_vague(report, name, texts):
    """Reports the sentences that do not begin with a noun."""
    for text in texts:
        item = STARTS_ITEM.match(text)
        for sentence in sentences(text[item.end():] if item else text) if not text.startswith("#") else []:
            report.case(f"{name}: the subject of a sentence", sentence, None, vague(sentence))


def find_rewritten(report, name, texts):
    """Reports the phrases that stand on no page but docs/STYLE.md."""
    for text in texts if name != "docs/STYLE.md" else []:
        report.case(f"{name}: a phrase that docs/STYLE.md rewrites", text[:200], None, rewritten(plain(text)))


def try_itself(report):
    for sentence, kind in TRIED:
        report.case("a sentence that is tried", sentence, kind, vague(sentence) or rewritten(sentence))
    report.case("kinds that are tried", "", {*VAGUE, *REWRITTEN}, {kind for _, kind in TRIED if kind})


def doc_comments(source):
    """The doc comments of a source, as pages."""
    found = [COMMENT.fullmatch(line) for line in source.splitlines()]
    return "\n".join(it[1].strip() if it else "" for it in found)


def count_words(report, name, texts):
    for sentence in (it for text in texts for it in sentences(text)):
        count = len(words(sentence))
        report.case(f"{name}: words of a sentence", sentence, f"at most {WORDS}", f"at most {WORDS}" if count <= WORDS else count)


def main():
    report, given = Report(), [it for it in sys.argv[1:] if it != "--split"]
    for page in pages():
        name = str(page.relative_to(TOP))
        if given and name not in given:
            continue
        if "--split" in sys.argv:
            page.write_text(split_rows(page.read_text(encoding="utf-8")), encoding="utf-8")
        judge(report, name, page.read_text(encoding="utf-8"))
    for source in sorted(TOP.glob("crates/*/src/*.rt")):
        name, text = str(source.relative_to(TOP)), source.read_text(encoding="utf-8")
        if given and name not in given:
            continue
        judge(report, name, doc_comments(text))
        if source.parent.parent.name in COMMAND_LINES:
            count_words(report, name, STRING.findall(text))
    try_itself(report)
    report.close("sentences")


if __name__ == "__main__":
    main()
