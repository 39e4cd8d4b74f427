#!/usr/bin/env python3
"""Tests of card.py's plot: python3 tools/test_plot.py"""

import pathlib
import re
import struct
import tempfile
import unittest
import xml.etree.ElementTree

from calling import BLANK_SHEET, CARD_PY, FINISHES_NAMES, MARKED_SHEET, PAPER_SHEET, call

EXAMPLES = CARD_PY.parent.parent / "examples"
SVG = "{http://www.w3.org/2000/svg}"
NAMES = "724.0"  # where the names of the rows begin
MOST = ["mach", *(f"part {k}" for k in range(16)), *(f"friction {j}" for j in range(4)), "base",
        *(f"total {j}" for j in range(4))]


def sheet(**rows):
    """A sheet's text: its rows' numbers by their names, a blank written as _."""
    return "".join(" ".join([name.replace("_", " "), *(struct.pack(">d", x).hex() for x in numbers)]) + "\n"
                   for name, numbers in rows.items())


class Drawn(unittest.TestCase):
    def plotted(self, text, card=None):
        """The lines of a sheet's plot, with a card's text where one is given."""
        with tempfile.TemporaryDirectory() as folder:
            name = pathlib.Path(folder, "rocket.txt")
            name.write_text(card or "", "utf-8")
            status, output, errors = call("plot", text, *(["--text", str(name)] if card else []))
        self.assertEqual((status, errors), (0, ""))
        self.picture = xml.etree.ElementTree.fromstring(output)
        return output.decode().splitlines()

    def words(self, text, card=None):
        """The words of a sheet's plot."""
        self.plotted(text, card)
        return [node.text for node in self.picture.iter(SVG + "text")]

    def names(self, text, card=None):
        """The names of the rows, in the order of their places in the picture."""
        self.plotted(text, card)
        found = [node for node in self.picture.iter(SVG + "text") if node.get("x") == NAMES]
        return [node.text for node in sorted(found, key=lambda node: float(node.get("y")))]


class Words(Drawn):
    CARD = "name {}\ndiameter 1\nfineness 1\ncolumn 0 0\npart aft 1\n"

    def test_title(self):
        self.assertEqual(self.words(PAPER_SHEET)[0], "Drag coefficient against Mach")
        nameless = self.CARD.replace("name {}\n", "")
        self.assertEqual(self.words(PAPER_SHEET, nameless)[0], "Drag coefficient against Mach")
        words = self.words(PAPER_SHEET, self.CARD.format("Club  rocket"))
        self.assertEqual(words[:2], ["Club rocket", "drag coefficient against Mach"])

    def test_long_title(self):
        for name in ("W" * 300, "a rocket " * 30, "火" * 99):
            shown = self.words(PAPER_SHEET, self.CARD.format(name))[0]
            self.assertTrue(shown.endswith("…") and name.startswith(shown[:-1]), shown)
            self.assertGreater(len(shown), 40)
            # In the widest of the usual fonts W and 火 are as wide as the size, and most letters 0.5 of it.
            self.assertLess(100 + 16 * len(shown) * (0.5 if name[0] == "a" else 1), 960)
            self.assertEqual(self.picture.find(SVG + "title").text, name.strip())

    def test_any_title(self):
        name = "Tom & <\"Jerry's\"> é火 \x01\x7f\x85"
        words = self.words(PAPER_SHEET, self.CARD.format(name + "x"))
        self.assertEqual(words[0], "Tom & <\"Jerry's\"> é火 \ufffd\ufffd x")

    def test_labels(self):
        columns = dict(mach=[0.5, 1], part_0=[1, 2], part_1=[2, 3], part_2=[3, 4], part_3=[4, 5], friction=[5, 6],
                       base=[6, 7], total=[7, 8])
        card = ("diameter 1\nfineness 1\ncolumn 0.5 1\ncolumn 1 1\npart length 1 aft 1\npart length 1 aft 1\n"
                "part length 1 aft 2\npart length 1 aft 1\n")
        self.assertEqual(self.names(sheet(**columns), card), [
            "total", "base", "friction", "part 3, boattail", "part 2, shoulder", "part 1, tube", "part 0, nose"])
        self.assertEqual(self.names(sheet(**columns))[-2:], ["part 1", "part 0, nose"])

    def test_names_at_their_curves(self):
        # The name of a curve that ends alone stands at its last dot's height, and before it a line of the curve's look.
        lines = self.plotted(MARKED_SHEET)
        for name, colour, y in (("total", "#111111", 259.3), ("part 0, nose", "#1b6ca8", 338.4)):
            self.assertIn(f'<text x="{NAMES}" y="{y + 4:.1f}">{name}</text>', lines)
            self.assertIn(f'<line x1="688.0" y1="{y:.1f}" x2="718.0" y2="{y:.1f}" stroke="{colour}" stroke-width="2"/>',
                          lines)

    def test_all_names_have_room(self):
        for value in (lambda k: 1, lambda k: k, lambda k: 0, lambda k: k % 2, lambda k: 1 if k == 24 else 1e-3):
            rows = {name.replace(" ", "_"): [value(k)] for k, name in enumerate(MOST)}
            names = self.names(sheet(**rows))
            self.assertEqual(sorted(name.split(":")[0].split(",")[0] for name in names), sorted(MOST[1:]))
            heights = sorted(float(node.get("y")) for node in self.picture.iter(SVG + "text") if node.get("x") == NAMES)
            self.assertGreater(min(high - low for low, high in zip(heights, heights[1:])), 15)
            self.assertTrue(20 < heights[0] and heights[-1] < float(self.picture.get("height")) - 5, heights)

    def test_zero_rows(self):
        text = sheet(mach=[0.5, 1], part_0=[0.1, 0.2], part_1=[0.0, -0.0], friction=[-0.0, -0.0], base=[0, 1],
                     total=[0, 0])
        self.assertEqual(self.names(text), ["base", "part 0, nose", "part 1: 0 throughout", "friction: 0 throughout",
                                            "total: 0 throughout"])
        self.assertEqual(len(list(self.picture.iter(SVG + "path"))), 2)
        card = "diameter 1\nfineness 1\ncolumn 0.5 1\ncolumn 1 1\npart length 1 aft 1\npart length 1 aft 1\n"
        self.assertIn("part 1, tube: 0 throughout", self.names(text, card))
        self.assertEqual(self.names(sheet(mach=[1], friction=[0], base=[0], total=[0])),
                         ["friction: 0 throughout", "base: 0 throughout", "total: 0 throughout"])
        self.assertEqual(list(self.picture.iter(SVG + "path")), [])

    def test_captions(self):
        dots = "dots: the Mach numbers asked; straight lines between them"
        dashed = "dashed: beyond its table, the last value held"
        words = self.words(MARKED_SHEET)
        self.assertIn(dots, words)
        self.assertIn(dashed, words)
        words = self.words(MARKED_SHEET.replace("+", ""))
        self.assertIn(dots, words)
        self.assertNotIn(dashed, words)
        self.assertIn("dots: the Mach numbers asked", self.words(PAPER_SHEET))  # no line between one column

    def test_examples(self):
        for name in ("club_rocket", "club_rocket_finishes"):
            done = call("plot", b"", str(EXAMPLES / f"{name}.sheet"), "--text", str(EXAMPLES / f"{name}.txt"))
            self.assertEqual(done, (0, (EXAMPLES / f"{name}.svg").read_bytes(), ""))


class Lines(Drawn):
    # The points of the lines of MARKED_SHEET's plot, Mach 1, 2 and 3.
    PART = ["286.7,232.9", "473.3,338.4", "660.0,338.4"]
    FRICTION = ["286.7,338.4", "473.3,391.2", "660.0,391.2"]
    BASE = ["286.7,391.2", "473.3,391.2", "660.0,417.6"]
    TOTAL = ["286.7,74.6", "473.3,232.9", "660.0,259.3"]

    def line(self, points, colour, dashes=""):
        dashes = f' stroke-dasharray="{dashes}"' if dashes else ""
        return f'<path d="M{" L".join(points)}" fill="none" stroke="{colour}" stroke-width="2"{dashes}/>'

    def drawn(self, text):
        """The lines of the plot that draw rows, and those that say held."""
        lines = self.plotted(text)
        return ([line for line in lines if mark in line] for mark in ("<path", ">held<"))

    def test_marks(self):
        drawn, words = self.drawn(MARKED_SHEET)
        self.assertEqual(drawn, [
            self.line(self.PART[:1], "#1b6ca8"), self.line(self.PART, "#1b6ca8", "3 7"),
            self.line(self.FRICTION, "#c8553d"), self.line(self.BASE, "#2e8b57"),
            self.line(self.TOTAL[:1], "#111111"), self.line(self.TOTAL, "#111111", "3 7")])
        # The word stands once, above the middle of the total's first stretch.
        self.assertEqual([word.split(" stroke")[0] for word in words], ['<text x="380.0" y="144.7"'])

    def test_without_marks(self):
        drawn, words = self.drawn(MARKED_SHEET.replace("+", ""))
        self.assertEqual(drawn, [self.line(self.PART, "#1b6ca8"), self.line(self.FRICTION, "#c8553d"),
                                 self.line(self.BASE, "#2e8b57"), self.line(self.TOTAL, "#111111")])
        self.assertEqual(words, [])

    def test_last_column(self):
        # Dashed from the number before on, by Mach and not by column; a row that has finishes' dashes too.
        last = MARKED_SHEET.replace("+ ", " ")
        turned = "".join(" ".join([line.rsplit(" ", 3)[0]] + line.split(" ")[:-4:-1]) + "\n"
                         for line in last.splitlines())
        friction, total = last.splitlines()[2], last.splitlines()[4]
        several = last.replace("friction", "friction 0").replace("base", friction.replace("n", "n 1") + "\nbase")
        several = several.replace("total", "total 0") + total.replace("total", "total 1") + "\n"
        for text, dashes in ((last, ""), (turned, ""), (several, "6 4")):
            drawn, _ = self.drawn(text)
            self.assertEqual(drawn[-2:], [self.line(self.TOTAL[:2], "#111111", dashes),
                                          self.line(self.TOTAL[1:], "#111111", "3 7")])

    def test_all_held(self):
        first = MARKED_SHEET.replace("3fe0000000000000 ", "3fe0000000000000+ ")
        first = first.replace("3fec000000000000", "3fec000000000000+")
        drawn, _ = self.drawn(first)
        self.assertEqual(drawn[:2], [self.line(self.PART, "#1b6ca8", "3 7"), self.line(self.FRICTION, "#c8553d")])
        one = PAPER_SHEET.replace("3feb333333333333", "3feb333333333333+")
        drawn, words = self.drawn(one.replace("3fef0a3d70a3d70a", "3fef0a3d70a3d70a+"))
        self.assertEqual((len(drawn), sum("3 7" in line for line in drawn), len(words)), (3, 2, 1))

    def test_no_number(self):
        # A NaN is no point of the line, and where no number is held no word stands.
        text = MARKED_SHEET.replace("3fd0000000000000+", "7ff8000000000000+")
        drawn, _ = self.drawn(text)
        self.assertEqual(drawn[1], self.line(self.PART[:1], "#1b6ca8", "3 7"))
        alone = PAPER_SHEET.replace("3feb333333333333", "7ff8000000000000+")
        alone = alone.replace("3fef0a3d70a3d70a", "7ff8000000000000+")
        self.assertEqual(list(self.drawn(alone)), [[self.line(["100.0,64.0"], "#2e8b57")], []])
        self.assertEqual(self.names(alone), ["base", "part 0, nose: not finite", "friction: 0 throughout",
                                             "total: not finite"])

    def test_interrupted(self):
        friction, zero = [4, 3, float("inf"), 1, 0], [0] * 5
        drawn, _ = self.drawn(sheet(mach=range(5), friction=friction, base=zero, total=zero))
        self.assertEqual(drawn, [self.line(["100.0,64.0", "240.0,159.0 M520.0,349.0", "660.0,444.0"], "#c8553d")])

    def test_dots(self):
        lines = self.plotted(MARKED_SHEET)
        dots = [re.search(r'cx="(.*?)" cy="(.*?)" r="2.8" fill="(.*?)"', line) for line in lines if "<circle" in line]
        wanted = [(point, colour) for points, colour in ((self.PART, "#1b6ca8"), (self.FRICTION, "#c8553d"),
                                                         (self.BASE, "#2e8b57"), (self.TOTAL, "#111111"))
                  for point in points]
        self.assertEqual([(f"{dot[1]},{dot[2]}", dot[3]) for dot in dots if float(dot[2]) < 444], wanted)
        self.assertEqual(len(dots), len(wanted) + 2)  # and two in the caption

    def test_columns_in_any_order(self):
        drawn, _ = self.drawn(sheet(mach=[2, 0, 1, 1], friction=[4, 0, 2, 3], base=[0] * 4, total=[0] * 4))
        self.assertEqual(drawn, [self.line(["100.0,444.0", "380.0,254.0", "380.0,159.0", "660.0,64.0"], "#c8553d")])

    def test_looks(self):
        rows = {name.replace(" ", "_"): [1, 2] for name in MOST}
        drawn, _ = self.drawn(sheet(**rows))
        looks = [line[line.index("stroke="):] for line in drawn]
        self.assertEqual((len(looks), len(set(looks))), (25, 25))  # no two rows look alike
        dashes = [look.split("dasharray=")[1:] for look in looks]
        self.assertEqual(dashes[16:20], dashes[21:])  # a finish has the same dashes in both
        self.assertEqual([look.split('"')[1] for look in looks[21:]], ["#111111"] * 4)
        rows = {name.replace(" ", "_"): [1] for name in FINISHES_NAMES}
        self.assertEqual(self.names(sheet(**rows)), FINISHES_NAMES[1:])

    def test_nothing_to_plot(self):
        huge = PAPER_SHEET.replace("3fb", "7fe")
        for text, wanted in (("refused 7 card 0\n", 3), (BLANK_SHEET, 1), (huge, 1),
                             (PAPER_SHEET.replace("mach 000", "mach 7ff"), 1),
                             (sheet(mach=[1], friction=[float("nan")], base=[float("nan")], total=[float("inf")]), 1)):
            status, output, errors = call("plot", text)
            self.assertEqual((status, output, errors.count("\n")), (wanted, b"", 1))


if __name__ == "__main__":
    unittest.main()
