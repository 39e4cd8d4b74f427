#!/usr/bin/env python3
"""Tests of card.py's report: python3 tools/test_report.py

They need no program: a stand-in prints a sheet or a refusal. Where the environment variable SHEET names the
compiled program `sheet`, the texts that it refuses are also given to it.
"""

import html.parser
import os
import pathlib
import re
import subprocess
import sys
import tempfile
import unittest

import card_report
from calling import BLANK_SHEET, CARD_PY, MARKED_SHEET, call
from card_text import parse, to_cards
from sheet_rows import MARKED, REFUSALS, Row, decimal, refusal, rows

EXAMPLES = CARD_PY.parent.parent / "examples"
SHEET = os.environ.get("SHEET")
VOID = {"meta", "br", "hr", "img", "link"}
HEAD = "diameter 1\nfineness 1\n"
MARKED_TEXT = HEAD + "column 1 10\ncolumn 2 20\ncolumn 3 30\npart aft 1\n"


class Reader(html.parser.HTMLParser):
    """A page's tags, which must be balanced, its words by the tag around them, and its tables."""

    def __init__(self, page):
        super().__init__()
        self.open, self.tags, self.words, self.tables = [], [], [], []
        self.feed(page)
        self.close()
        assert not self.open, self.open

    def handle_starttag(self, tag, attributes):
        self.tags.append((tag, dict(attributes)))
        self.open += [] if tag in VOID else [tag]
        if tag == "table":
            self.tables.append([])
        if tag == "tr":
            self.tables[-1].append([])
        if tag in ("th", "td"):
            self.tables[-1][-1].append("")
        if tag == "br":
            self.handle_data(", ")

    def handle_startendtag(self, tag, attributes):
        self.tags.append((tag, dict(attributes)))

    def handle_endtag(self, tag):
        assert self.open and self.open.pop() == tag, (tag, self.getpos())

    def handle_data(self, data):
        if self.open:
            self.words.append((self.open[-1], data))
            if self.open[-1] in ("th", "td"):
                self.tables[-1][-1][-1] += data

    def all_words(self, tag):
        return [words for around, words in self.words if around == tag]


def page(text, sheet, warnings=()):
    """The page of a text and of what the program prints for it."""
    rocket, lines = parse("-", text.split("\n")), sheet.removesuffix("\n").split("\n")
    refused = refusal("-", lines)
    return card_report.page(rocket, [] if refused else rows("-", lines), refused, list(warnings))


def reported(sheet, name):
    """The report of a text's file, made with a program that prints the sheet."""
    with tempfile.TemporaryDirectory() as folder:
        program = pathlib.Path(folder, "sheet")
        program.write_text(f"#!{sys.executable}\nimport sys\nsys.stdin.buffer.read()\nprint({sheet!r}, end='')\n")
        program.chmod(0o755)
        return call("report", b"", str(name), "--sheet", str(program))


class Examples(unittest.TestCase):
    def test_pages(self):
        for name, sheet in (("club_rocket", (EXAMPLES / "club_rocket.sheet").read_text()),
                            ("club_rocket_refused", "refused 11 card 0\n")):
            status, output, errors = reported(sheet, EXAMPLES / f"{name}.txt")
            self.assertEqual((status, errors), (3 if "refused" in sheet else 0, ""))
            self.assertEqual(output, (EXAMPLES / f"{name}.html").read_bytes())
            if SHEET:
                done = call("report", b"", str(EXAMPLES / f"{name}.txt"), "--sheet", SHEET)
                self.assertEqual(done, (status, output, errors))

    def test_whole(self):
        for text in (page(MARKED_TEXT, MARKED_SHEET), (EXAMPLES / "club_rocket.html").read_text("utf-8"),
                     (EXAMPLES / "club_rocket_refused.html").read_text("utf-8")):
            self.assertTrue(text.startswith('<!DOCTYPE html>\n<html lang="en">\n<head>\n<meta charset="utf-8">\n'))
            read = Reader(text)
            # Nothing is fetched from anywhere.
            self.assertNotRegex(text, "http|url|@import|<link|<script|<iframe|<img")
            self.assertFalse([tag for tag in read.tags if {"src", "href", "xlink:href"} & set(tag[1])])
            self.assertEqual(len(read.tables), len(read.all_words("caption")))
            scopes = [attributes["scope"] for tag, attributes in read.tags if tag == "th"]
            wanted = [["col"] * len(table[0]) + ["row"] * (len(table) - 1) for table in read.tables]
            self.assertEqual(scopes, sum(wanted, []))

    def test_order(self):
        text = page("name A rocket\n" + MARKED_TEXT, MARKED_SHEET, [(3, "a slip")])
        places = [text.index(word) for word in ("<h1>A rocket", "Reference diameter", ">Parts", ">Drag coefficients, referred to",
                                                MARKED, "<svg", ">Warnings<", "Line 3: a slip")]
        self.assertEqual(places, sorted(places))
        self.assertEqual(Reader(text).all_words("title"), ["A rocket", "A rocket"])  # the page's and the plot's
        self.assertEqual(Reader(page(MARKED_TEXT, MARKED_SHEET)).all_words("h1"), ["Rocket"])

    def test_plot(self):
        svg = next(attributes for tag, attributes in Reader(page("name A\n" + MARKED_TEXT, MARKED_SHEET)).tags
                   if tag == "svg")
        self.assertEqual((svg["role"], svg["aria-label"]), ("img", "A: Drag coefficient against Mach"))
        text = page("name A\n" + MARKED_TEXT, MARKED_SHEET)
        self.assertIn("part 0, nose", Reader(text).all_words("text"))


class Numbers(unittest.TestCase):
    def cells(self, read):
        """The sheet's cells, row by row, as the tables after the parts' have them."""
        found = {}
        for table in read.tables[1:]:
            for name, *cells in zip(*table):
                self.assertEqual(found.setdefault(name, list(cells)), list(cells))
        return found

    def held_against(self, text, sheet):
        """Every cell of the sheet stands in the page with its mark, or its row is said to be 0."""
        read, found = Reader(page(text, sheet)), rows("-", sheet.removesuffix("\n").split("\n"))
        cells = self.cells(read)
        self.assertEqual(cells.pop("Mach"), [f"{x:.10g}" for x in found[0].numbers])
        asked = parse("-", text.split("\n")).columns
        self.assertEqual(list(map(float, cells.pop("Reynolds"))), [column.reynolds for column in asked])
        zero = [words for words in read.all_words("p") if words.startswith("0 at each Mach number: ")]
        zero = zero[0][len("0 at each Mach number: "):-1].split("; ") if zero else []
        for row in found[1:]:
            name = next(name for name in [*cells, *zero] if name.split(",")[0] == row.name)
            if name in zero:
                self.assertFalse(any(row.numbers) or any(row.marks))
            else:
                self.assertEqual(cells.pop(name), [decimal(x) + "+" * m for x, m in zip(row.numbers, row.marks)])
        self.assertEqual(cells, {})
        self.assertEqual(sum(MARKED in words for words in read.all_words("p")), "+" in sheet)
        return zero

    def test_cells(self):
        for name in ("club_rocket", "club_rocket_finishes"):
            text, sheet = ((EXAMPLES / (name + ending)).read_text("utf-8") for ending in (".txt", ".sheet"))
            self.assertEqual(self.held_against(text, sheet), ["part 1, tube"])
        self.assertEqual(self.held_against(MARKED_TEXT, MARKED_SHEET), [])
        odd = MARKED_SHEET.replace("+", "").replace("3fd0000000000000", "7ff8000000000000")
        self.assertEqual(self.held_against(MARKED_TEXT, odd), [])

    def test_zero_rows(self):
        # A row of zeros that has a mark keeps its column, and one of zeros alone is named.
        zero = re.sub("(part 0|friction|base) .*", lambda match: match[1] + " 0000000000000000 8000000000000000"
                      " 0000000000000000", MARKED_SHEET)
        self.assertEqual(self.held_against(MARKED_TEXT, zero), ["part 0, nose", "friction", "base"])
        marked = zero.replace("8000000000000000 0000000000000000\nf", "8000000000000000 0000000000000000+\nf")
        self.assertEqual(self.held_against(MARKED_TEXT, marked), ["friction", "base"])

    def test_parts(self):
        text = ("diameter 0.054\nroughness 2e-6 2e-5\nfineness 20\n"
                "part haack 0 length 0.25 aft 0.054 angle 0.5 wetted 12.11 roughness 0\npart length 0.8 aft 0.054\n"
                "part ogive 1.5 length 1 aft 0.1\npart length nan aft 0.04 angle inf\n")
        sheet = "mach\npart 0\npart 1\npart 2\npart 3\nfriction 0\nfriction 1\nbase\ntotal 0\ntotal 1\n"
        read = Reader(page(text, sheet))
        self.assertEqual(read.tables[0], [
            ["part", "shape, parameter", "length, m", "aft diameter, m", "joint angle, rad", "joint angle, degrees",
             "wetted, ratio", "roughness"],
            ["part 0, nose", "haack 0", "0.25", "0.054", "0.5", "28.65", "12.11", "0"],
            ["part 1, tube", "conical", "0.8", "0.054", "0", "0", "0", "the settings'"],
            ["part 2, shoulder", "ogive 1.5", "1", "0.1", "0", "0", "0", "the settings'"],
            ["part 3, boattail", "conical", "nan", "0.04", "inf", "inf", "0", "the settings'"]])
        self.assertEqual(read.all_words("p")[0],
                         "Reference diameter 0.054 m; fineness 20; finishes by roughness: 0: 2e-06, 1: 2e-05.")
        self.assertEqual(Reader(page(MARKED_TEXT, MARKED_SHEET)).all_words("p")[0],
                         "Reference diameter 1 m; fineness 1; roughness 0.")

    def test_nothing_asked(self):
        columns = "The text has no columns, so there is no Mach number to give the drag at."
        parts = "The text has no parts."
        for text, sheet, said, tables in (
                ("", BLANK_SHEET, ["The text says nothing of the rocket yet: no settings, no columns, no parts."], 0),
                (HEAD, BLANK_SHEET, [parts, columns], 0),
                (HEAD + "part aft 1\n", "mach\npart 0\nfriction\nbase\ntotal\n", [columns], 1),
                (HEAD + "column 1 1\n", BLANK_SHEET.replace("\n", " 3ff0000000000000\n"), [parts], 1)):
            read = Reader(page(text, sheet))
            self.assertEqual(read.all_words("p")[-len(said):], said)
            self.assertEqual((len(read.tables), "svg" in dict(read.tags)), (tables, "column" in text))

    def test_no_plot(self):
        text = page(MARKED_TEXT, re.sub("3f[bcde]c?0+", "7ff8000000000000", MARKED_SHEET))
        self.assertNotIn("<svg", text)
        self.assertIn("There is no plot: no number is finite", text)

    def test_escaping(self):
        name = "<b>Tom & \"Jerry's\"</b> http://example é\x01"
        slip = [(1, "<i>1 & 2</i>")]
        for sheet in (MARKED_SHEET, "refused 11 card 1\n"):
            text = f"name {name}\n" + MARKED_TEXT.replace("part aft 1", "part aft 1 # <b>&amp;")
            read = Reader(page(text, sheet, slip))
            self.assertFalse({"b", "i"} & set(dict(read.tags)))
            self.assertEqual(read.all_words("h1"), [name.replace("\x01", "\ufffd")])
            self.assertEqual(read.all_words("li"), ["Line 1: <i>1 & 2</i>"])
            self.assertEqual(read.all_words("pre"), ["part aft 1 # <b>&amp;"] if "refused" in sheet else [])


class Refusals(unittest.TestCase):
    # Texts that `sheet` refuses; the refusal; the line that is to blame; words of the advice.
    TEXTS = [
        ("diameter 1\nfineness 0\ncolumn 0 0\n", 1, 0, "fineness 0", "a fineness above 0"),
        (HEAD + "column 0 0\ncolumn -1 5\n", 1, 0, "column -1 5", "that are 0 or more"),
        (HEAD + "column 0 inf\n", 1, 0, "column 0 inf", "that are 0 or more"),
        (HEAD + "part length 1\npart aft 1 angle 30 # degrees\n", 1, 2, "part aft 1 angle 30 # degrees", "joint angle"),
        (HEAD + "part ogive 0.9 length 1 aft 1\n", 2, 1, "part ogive 0.9 length 1 aft 1", "tangent ogive"),
        (HEAD + "part haack 0.4 length 1 aft 1\n", 3, 1, "part haack 0.4 length 1 aft 1", "1/3"),
        (HEAD + "".join(f"column 0 {k}\n" for k in range(1, 41)), 7, 0, "column 0 33", "until there are 32"),
        (HEAD + "".join(f"part wetted {k}\n" for k in range(1, 21)), 9, 17, "part wetted 17", "until there are 16"),
        ("diameter 54000\nroughness 0\nfineness 1\n", 11, 0, "diameter 54000", "in metres"),
        ("diameter 1\nroughness 0 20\nfineness 1\n", 11, 0, "roughness 0 20", "a height over the rocket's length"),
        (HEAD + "part\npart length 250\n", 11, 2, "part length 250", "250 mm are 0.25"),
        (HEAD + "part roughness 2\n", 11, 1, "part roughness 2", "no unit"),
    ]

    def test_texts(self):
        for text, number, card, line, advice in self.TEXTS:
            answer = f"refused {number} card {card}\n"
            read = Reader(page(text, answer))
            self.assertEqual(read.all_words("pre"), [line])
            why, (said, what) = read.all_words("strong")[0], read.all_words("p")[-2:]
            self.assertEqual(said, f"Line {text.split(chr(10)).index(line) + 1} of the text:")
            self.assertTrue(why.startswith("Refused at ") and why.endswith(f"(refusal {number})"), why)
            meant = REFUSALS[number]
            self.assertIn(meant if isinstance(meant, str) else meant[min(card, 1)], why)
            self.assertIn(advice, what)
            self.assertFalse({"svg"} & set(dict(read.tags)))
            self.assertEqual(len(read.tables), int("part" in text))  # no sheet
            if SHEET:
                cards = to_cards(parse("-", text.split("\n")))
                self.assertEqual(subprocess.run([SHEET], input=cards, capture_output=True).stdout.decode(), answer)

    def test_others(self):
        # No text leads to these; the page says what to do all the same.
        for number in REFUSALS:
            for card in (0, 1):
                read = Reader(page(MARKED_TEXT, f"refused {number} card {card}\n"))
                self.assertEqual(len(read.all_words("strong")), 1)
                self.assertGreater(len(read.all_words("p")[-1]), 30)
                self.assertEqual(read.all_words("pre"), ["part aft 1"] if card else read.all_words("pre")[:1])

    def test_command(self):
        with tempfile.TemporaryDirectory() as folder:
            name = pathlib.Path(folder, "rocket.txt")
            name.write_text(self.TEXTS[4][0])
            status, output, errors = reported("refused 2 card 1\n", name)
        self.assertEqual((status, errors), (3, ""))
        self.assertEqual(Reader(output.decode()).all_words("pre"), ["part ogive 0.9 length 1 aft 1"])


class Print(unittest.TestCase):
    def largest(self):
        """A text of 16 parts that all have drag, 32 columns, 4 finishes, and its sheet with many marks."""
        text = "name The largest\ndiameter 1\nfineness 20\nroughness 1e-6 1e-5 1e-4 1e-3\n"
        text += "".join(f"column {k / 10:.1f} {k}000000\n" for k in range(32))
        text += "".join(f"part haack 0.333 length 0.125 aft {1 + k % 2} angle 0.125 wetted 10.25\n" for k in range(16))
        names = ["mach", *(f"part {k}" for k in range(16)), *(f"friction {j}" for j in range(4)), "base",
                 *(f"total {j}" for j in range(4))]
        found = [Row(name, [k / 10 if name == "mach" else 0.123456 + k for k in range(32)],
                     [k > 9 and name.startswith(("part", "total")) for k in range(32)]) for name in names]
        return parse("-", text.split("\n")), found

    def measured(self, text):
        """What a page takes in print: its tables' width and all its height in mm, and the letters' size in points."""
        size = float(re.search(r"@media print\{\nbody\{font-size:([0-9.]+)pt;line-height:1.1;", text)[1])
        plot = float(re.search(r"svg\{width:100%;height:([0-9]+)mm", text)[1]) if "<svg" in text else 0
        read = Reader(text)
        # In Arial a digit is 0.556 of the size wide; a cell has 0.95 beside it. A table has two lines of heads,
        # a caption, and 0.8 around it.
        wide = max([sum(max(len(max(cell.split(", "), key=len)) for cell in column) * 0.556 + 0.95
                        for column in zip(*table)) for table in read.tables] + [0])
        lines = sum(1.1 * (len(table) + 2) + 0.8 for table in read.tables)
        lines += sum(1.1 * -(-len(words) * 0.5 * size * 0.3528 // 190) + 0.2 for words in
                     read.all_words("p") + read.all_words("li") + read.all_words("pre") + read.all_words("strong"))
        lines += sum(2.5 for _ in read.all_words("h1") + read.all_words("h2"))
        return wide * size * 0.3528, lines * size * 0.3528 + plot, size

    def test_one_page(self):
        rocket, found = self.largest()
        slips = [(k, "a warning of some length that the table should see " * 3) for k in range(16)]
        for warnings, least in (([], 5), (slips, 4)):
            text = card_report.page(rocket, found, None, warnings)
            wide, high, size = self.measured(text)
            self.assertTrue(wide < 190 and high < 277 and size >= least, (wide, high, size))
        self.assertIn("@page{size:A4 portrait;margin:10mm}", text)
        self.assertEqual(len(Reader(text).tables), 3)  # the sheet stands in two tables
        for name in ("club_rocket", "club_rocket_refused"):
            wide, high, size = self.measured((EXAMPLES / f"{name}.html").read_text("utf-8"))
            self.assertTrue(wide < 190 and high < 277 and size > 8, (wide, high, size))

    def test_screen(self):
        # Wide tables move by themselves, and the plot shrinks.
        text = card_report.page(*self.largest(), None, [])
        self.assertEqual(text.count('<div class="wide"><table>'), text.count("<table>"))
        self.assertIn(".wide{overflow-x:auto}", text)
        self.assertIn("svg{display:block;max-width:100%;height:auto", text)


if __name__ == "__main__":
    unittest.main()
