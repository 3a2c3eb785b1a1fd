#!/usr/bin/env python3
"""Draws the two pictures of docs/ARCHITECTURE.md: docs/pictures/draw.py writes way_of_a_text.svg and way_of_a_request.svg beside itself.

With --check it writes nothing, and ends with status 1 where a file is not what it would write.
"""
import sys
from html import escape
from pathlib import Path

FOLDER = Path(__file__).resolve().parent
PROVED, PLAIN, DATA = "#e6f0fa", "#f4f4f4", "#fff6dc"
FONT = 'font-family="DejaVu Sans, Helvetica, Arial, sans-serif"'


class Picture:
    """Boxes and arrows, in the order in which they were put."""

    def __init__(self, width, height, title):
        self.parts = [f'<svg xmlns="http://www.w3.org/2000/svg" viewBox="0 0 {width} {height}" width="{width}" height="{height}" {FONT}>',
                      f"<title>{escape(title)}</title>",
                      '<defs><marker id="tip" viewBox="0 0 8 8" refX="7" refY="4" markerWidth="8" markerHeight="8" orient="auto">'
                      '<path d="M0 0 L8 4 L0 8 z" fill="#444"/></marker></defs>',
                      f'<rect width="{width}" height="{height}" fill="white"/>']

    def text(self, x, y, words, size=12, weight="normal", anchor="middle", fill="#222"):
        self.parts.append(f'<text x="{x}" y="{y}" font-size="{size}" font-weight="{weight}" text-anchor="{anchor}" fill="{fill}">{escape(words)}</text>')

    def box(self, x, y, width, height, title, lines=(), fill=PROVED):
        self.parts.append(f'<rect x="{x}" y="{y}" width="{width}" height="{height}" rx="6" fill="{fill}" stroke="#666"/>')
        top = y + (height - 15 * len(lines)) / 2 + 5
        self.text(x + width / 2, top, title, 13, "bold")
        for at, line in enumerate(lines):
            self.text(x + width / 2, top + 15 * (at + 1), line, 11)

    def frame(self, x, y, width, height, title, at=10):
        self.parts.append(f'<rect x="{x}" y="{y}" width="{width}" height="{height}" rx="8" fill="none" stroke="#888" stroke-dasharray="5 4"/>')
        self.text(x + at, y + 17, title, 11, anchor="start", fill="#555")

    def arrow(self, points, label="", at=None, anchor="start"):
        path = " ".join(f"{'M' if first else 'L'}{x} {y}" for first, (x, y) in zip([True] + [False] * len(points), points))
        self.parts.append(f'<path d="{path}" fill="none" stroke="#444" stroke-width="1.4" marker-end="url(#tip)"/>')
        if label:
            (x, y), (u, v) = points[0], points[1]
            place = at or ((x + u) / 2 + 8, (y + v) / 2 + 4)
            self.text(*place, label, 11, anchor=anchor, fill="#444")

    def refusal(self, x, y, names, width=150):
        self.parts.append(f'<path d="M{x} {y} L{x + 34} {y}" stroke="#a33" stroke-width="1.2" marker-end="url(#tip)"/>')
        for at, name in enumerate(names):
            self.text(x + 40, y + 4 + 14 * (at - (len(names) - 1) / 2), name, 11, anchor="start", fill="#a33")

    def svg(self):
        return "\n".join([*self.parts, "</svg>", ""])


def way_of_a_text():
    it = Picture(640, 664, "The way of a text")
    it.box(190, 16, 240, 40, "bytes of a text", fill=DATA)
    it.arrow([(310, 56), (310, 84)])
    it.box(190, 84, 240, 52, "length", ["json_tape"])
    it.refusal(430, 110, ["TooLong"])
    it.frame(30, 158, 580, 184, "for each block of 64 bytes", 420)
    it.arrow([(310, 136), (310, 150), (135, 150), (135, 188)])
    it.box(60, 188, 150, 60, "classes of bytes", ["brackets, quotes, ..", "byte_masks"])
    it.box(235, 188, 150, 60, "escaped bytes", ["after a backslash", "escape_runs"])
    it.box(410, 188, 150, 60, "strings", ["from quote to quote", "string_spans"])
    it.arrow([(210, 218), (235, 218)])
    it.arrow([(385, 218), (410, 218)])
    it.arrow([(485, 248), (485, 268), (310, 268), (310, 284)])
    it.box(175, 284, 270, 46, "places of tokens, UTF-8, and a copy", ["structural_index · simdutf8"])
    it.refusal(445, 307, ["NotUtf8"])
    it.arrow([(310, 330), (310, 380)], "places", (318, 366))
    it.box(190, 380, 240, 52, "walk: a token at each place", ["json_walk: second_stage, lexing"])
    it.refusal(430, 406, ["NotJson"])
    it.arrow([(310, 432), (310, 470)], "entries", (318, 456))
    it.box(190, 470, 240, 40, "tape", ["tape_cells: builder, cells"], fill=DATA)
    it.arrow([(310, 510), (310, 536)])
    it.box(140, 536, 340, 52, "four checks", ["depth · numbers (decimal_order) · surrogates · names"])
    it.refusal(480, 562, ["TooDeep", "NumberLimit", "LoneSurrogate", "DuplicateName"])
    it.arrow([(310, 588), (310, 612)])
    it.box(140, 612, 340, 40, "Document", ["text, tape, order of large objects"], fill=DATA)
    return it


def way_of_a_request():
    it = Picture(840, 660, "The way of a request")
    it.box(60, 20, 220, 40, "socket of a connection", fill=PLAIN)
    it.arrow([(140, 60), (140, 96)], "at most 64 KiB", (150, 82))
    it.box(60, 96, 720, 56, "event_loop: a turn for each connection that can make progress", ["outbox: reads once, answers up to 64 requests, writes twice, never waits"])
    it.arrow([(140, 152), (140, 208)], "a piece of the stream", (150, 176))
    it.frame(30, 184, 780, 400, "path_hub, as hub_core lends it to the loop", 280)
    it.box(60, 208, 220, 52, "Framer", ["wire_frames: whole frames"])
    it.arrow([(170, 260), (170, 292)], "a frame", (180, 280))
    it.box(60, 292, 220, 52, "read_request", ["wire_frames: command, key, fields"])
    it.refusal(280, 234, ["FrameFault"])
    it.refusal(280, 318, ["Short, BadCommand, BadFields"])
    it.arrow([(170, 344), (170, 376)], "key", (180, 364))
    it.box(60, 376, 220, 52, "tenant of the key", ["tenant_map: Tenants"])
    it.refusal(280, 402, ["NoTenant"])
    it.arrow([(120, 428), (120, 464)], "PUT, GET, ..", (128, 450))
    it.arrow([(240, 428), (240, 446), (400, 446), (400, 464)], "QUERY", (300, 440))
    it.box(50, 464, 200, 66, "map of documents", ["tenant_map: quotas, lists", "each text read by json_tape"])
    it.box(300, 464, 200, 66, "query over a collection", ["tenant_store, tape_select", "normal_paths: path of each hit"])
    it.box(560, 464, 220, 66, "compiled query", ["query_cache", "path_grammar, path_types"])
    it.arrow([(560, 497), (500, 497)])
    it.arrow([(250, 512), (300, 512)])
    it.text(660, 446, "QueryTooLong, NotWellFormed, NotValid", 11, fill="#a33")
    it.parts.append('<path d="M670 464 L670 452" stroke="#a33" stroke-width="1.2" marker-end="url(#tip)"/>')
    it.arrow([(150, 530), (150, 556), (796, 556), (796, 318), (780, 318)])
    it.arrow([(400, 530), (400, 556)])
    it.box(560, 292, 220, 52, "reply", ["status, number, payload"], fill=DATA)
    it.arrow([(670, 292), (670, 152)], "appended to the output", (662, 240), "end")
    it.arrow([(720, 96), (720, 40), (280, 40)], "bytes of replies, in the order of the requests", (380, 34))
    it.text(30, 612, "PUT: the text is read and the quotas are checked before one place of the map changes.", 12, anchor="start")
    it.text(30, 632, "Memory for a short reply is reserved before a frame is taken, so that each frame gets a reply.", 12, anchor="start")
    return it


def main():
    pictures = {"way_of_a_text.svg": way_of_a_text(), "way_of_a_request.svg": way_of_a_request()}
    differing = []
    for name, picture in pictures.items():
        file = FOLDER / name
        if "--check" not in sys.argv:
            file.write_text(picture.svg(), encoding="utf-8")
        elif not file.is_file() or file.read_text(encoding="utf-8") != picture.svg():
            differing.append(name)
    for name in differing:
        print(f"docs/pictures/{name} is not what docs/pictures/draw.py writes")
    sys.exit(1 if differing else 0)


main()
