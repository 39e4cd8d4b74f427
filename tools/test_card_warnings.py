#!/usr/bin/env python3
"""Tests of card.py's warnings, at their thresholds: python3 tools/test_card_warnings.py"""

import pathlib
import sys
import tempfile
import unittest

from calling import CARD_PY, PAPER_SHEET, PAPER_TEXT, call

HEAD = "fineness 20\n"


class Warn(unittest.TestCase):
    def warned(self, text):
        """The lines and the words of the warnings of write; bytes and status are the same without them."""
        text = HEAD + text
        status, output, errors = call("write", text)
        self.assertEqual((status, output, ""), call("write", text, "--no-warnings"))
        self.assertEqual(status, 0, errors)
        self.assertTrue(output)
        found = []
        for warning in errors.splitlines():
            name, _, line, kind, words = warning.split(":", 4)
            self.assertEqual((name, kind), ("card.py", " warning"), errors)
            found.append((int(line), words.strip()))
        return found

    def lines(self, text):
        return [line for line, _ in self.warned(text)]

    def one(self, text, line, *words):
        """One warning, at this line and with these words."""
        found = self.warned(text)
        self.assertEqual([at for at, _ in found], [line], (text, found))
        for word in words:
            self.assertIn(word, found[0][1])


class Millimetres(Warn):
    PARTS = "part length 0.25 aft 0.054\npart length 0.8 aft 0.054\npart length 0.03 aft 0.04\n"
    IN_MILLIMETRES = "part length 250 aft 54\npart length 800 aft 54\npart length 30 aft 40\n"

    def test_diameter(self):
        self.one("diameter 54\n" + self.PARTS, 2, "millimetres among metres: diameter 54, beside aft 0.054 in line 3",
                 "54 mm is written 0.054")

    def test_aft(self):
        self.one("diameter 0.054\npart length 0.25 aft 54\n", 3,
                 "millimetres among metres: aft 54, beside diameter 0.054 in line 2", "54 mm is written 0.054")

    def test_length(self):
        self.one("diameter 0.054\n" + self.PARTS.replace("0.25", "250"), 3,
                 "millimetres among metres: length 250, beside", "250 mm is written 0.25")

    def test_line_once(self):
        self.one("diameter 0.054\n" + self.PARTS.replace("0.8 aft 0.054", "800 aft 54"), 4,
                 "aft 54 and length 800, beside diameter 0.054 in line 2")

    def test_odd_one_in_metres(self):
        self.one("diameter 0.054\n" + self.IN_MILLIMETRES, 2, "metres among millimetres: diameter 0.054, beside",
                 "54 mm is written 0.054")
        lengths = self.PARTS.replace("0.054", "54").replace("0.04", "40")
        self.assertEqual(self.lines("diameter 54\n" + lengths), [3, 4, 5])
        self.one("diameter 54\npart length 0.25 aft 54\n", 3, "length 0.25, beside diameter 54 in line 2")
        # 3 mm is too short to be told by the widths, and too long to be metres.
        self.assertEqual(self.lines("diameter 0.054\n" + self.IN_MILLIMETRES.replace("length 30", "length 3")), [2])

    def test_all_in_one_unit(self):
        self.assertEqual(self.lines("diameter 0.054\n" + self.PARTS), [])
        self.assertEqual(self.lines("diameter 54\n" + self.IN_MILLIMETRES), [])
        self.assertEqual(self.lines("diameter 1\npart length 5 aft 1\npart length 20 aft 1\n"), [])
        self.assertEqual(call("write", PAPER_TEXT)[2], "")

    def test_widths(self):
        # 100 times another, and 2 at least.
        for diameter, aft, lines in [("2", "0.02", [2]), ("2.01", "0.02", [2]), ("1.99", "0.01", []),
                                     ("2", "0.0201", []), ("2", "0.01", [2])]:
            self.assertEqual(self.lines(f"diameter {diameter}\npart length 0.1 aft {aft}\npart aft {aft}\n"), lines)

    def test_lengths(self):
        # 100 times the widest, and 2 at least; else they are long.
        for length, words in [("3", "millimetres among"), ("3.01", "millimetres among"), ("2.99", "99.7 times")]:
            self.one(f"diameter 0.03\npart length {length} aft 0.03\n", 3, words)
        for length, words in [("1.99", "199 times"), ("2", "millimetres among")]:
            self.one(f"diameter 0.01\npart length {length} aft 0.01\n", 3, words)

    def test_flat(self):
        # All widths 20 times the whole length, and 2 at least.
        for width, length, lines in [("20", "1", [3]), ("20.1", "1", [3]), ("19.9", "1", []), ("1.9", "0.01", []),
                                     ("2", "0.01", [3])]:
            self.assertEqual(self.lines(f"diameter {width}\npart length {length} aft {width}\n"), lines)


class Long(Warn):
    def test_threshold(self):
        for length, lines in [("0.99", []), ("1", []), ("1.001", [4])]:
            text = f"diameter 0.02\npart length 0.1 aft 0.02\npart length {length} aft 0.01\n"
            self.assertEqual(self.lines(text), lines)
        self.one("diameter 0.02\npart length 1.5 aft 0.02\n", 3, "length 1.5 is 75 times the part's diameter 0.02")

    def test_larger_diameter(self):
        self.assertEqual(self.lines("diameter 0.1\npart length 1 aft 0.02\npart length 4 aft 0.1\n"), [])
        self.assertEqual(self.lines("diameter 0.1\npart length 1.1 aft 0.02\npart length 4 aft 0.1\n"), [3])

    def test_no_diameter(self):
        self.assertEqual(self.lines("diameter 0.1\npart length 1\n"), [])


class Degrees(Warn):
    def test_tube(self):
        # A tube's angle is not looked at by the formulas.
        for angle, lines in [("0.99", []), ("1", [4]), ("12.5", [4]), ("90", [4]), ("90.1", [])]:
            text = f"diameter 0.1\npart length 0.2 aft 0.1 angle 0.24\npart length 1 aft 0.1 angle {angle}\n"
            self.assertEqual(self.lines(text), lines, angle)

    def test_slope(self):
        # The slope of this part is 45 degrees, and twice that 1.5708.
        for angle, lines in [("1.5", []), ("1.57", []), ("1.571", [3])]:
            self.assertEqual(self.lines(f"diameter 0.1\npart length 0.05 aft 0.1 angle {angle}\n"), lines, angle)
        # And of this boattail.
        self.assertEqual(self.lines("diameter 0.1\npart length 1 aft 0.1\npart length 0.05 aft 0 angle 1.5\n"), [])

    def test_others(self):
        self.one("diameter 0.1\npart length 0.2 aft 0.1 angle 14\n", 3, "14 degrees are 0.244346 radians")
        # Of a boattail, and of a flat face, which has a right angle's slope.
        self.one("diameter 0.1\npart length 1 aft 0.1\npart length 0.1 aft 0.05 angle 14\n", 4, "reads like degrees")
        self.one("diameter 0.1\npart aft 0.1 angle 45\n", 3, "45 degrees are 0.785398 radians")
        self.assertEqual(self.lines("diameter 0.1\npart aft 0.1 angle 1.57\n"), [])


class Columns(Warn):
    def test_swapped(self):
        self.one("diameter 1\ncolumn 7.8e6 0.3\n", 3, "Mach number 7800000 and Reynolds number 0.3 look swapped")
        self.one("diameter 1\ncolumn 7.8e6 0\n", 3, "look swapped")

    def test_mach(self):
        for mach, lines in [("99.9", []), ("100", [3]), ("340", [3])]:
            self.assertEqual(self.lines(f"diameter 1\ncolumn {mach} 1e6\n"), lines)
        self.one("diameter 1\ncolumn 7.8e6 7.8e6\n", 3, "Mach number 7800000 looks like a Reynolds number")

    def test_reynolds(self):
        for reynolds, lines in [("0", []), ("-0", []), ("0.001", [3]), ("99.9", [3]), ("100", []), ("1e9", [])]:
            self.assertEqual(self.lines(f"diameter 1\ncolumn 0.3 {reynolds}\n"), lines)
        self.one("diameter 1\ncolumn 0.3 0.5\n", 3, "Reynolds number 0.5 looks like a Mach number")

    def test_zeros(self):
        self.assertEqual(self.lines("diameter 1\ncolumn 0 0\n"), [])


class Shapes(Warn):
    def test_other_shape(self):
        for shape, words in [("power 1", "power 1 is a cone"), ("power 0", "power 0 is a flat face"),
                             ("power -0", "is a flat face"), ("parabolic 0", "parabolic 0 is a cone"),
                             ("ogive 100", "ogive 100 is nearly a cone"), ("ogive 1e6", "is nearly a cone")]:
            self.one(f"diameter 1\npart {shape} length 3 aft 1\n", 3, words)

    def test_own_shape(self):
        for shape in ("power 0.999", "power 0.5", "power 0.001", "parabolic 1", "parabolic 0.001", "ogive 1",
                      "ogive 99.9", "haack 0", "haack 0.3333", "conical", "elliptical"):
            self.assertEqual(self.lines(f"diameter 1\npart {shape} length 3 aft 1\n"), [], shape)


class Quiet(Warn):
    def test_no_number(self):
        # NaN and infinities are no slips.
        for number in ("nan", "inf", "-inf"):
            text = f"diameter {number}\n" + "".join(
                f"part {shape} length {length} aft {aft} angle {number}\n" for shape, length, aft in [
                    (f"ogive {number}", "1", "1"), (f"power {number}", number, "1"),
                    (f"parabolic {number}", "1", number), (f"haack {number}", number, number), ("conical", "1", "1")])
            columns = f"column {number} {number}\ncolumn {number} 1e6\ncolumn 1 {number}\n"
            self.assertEqual(self.warned(text + columns), [])

    def test_examples(self):
        for path in sorted((CARD_PY.parent.parent / "examples").glob("*.txt")):
            self.assertEqual(call("write", "", str(path))[2], "", path)

    def test_order(self):
        self.assertEqual(self.lines("column 1 2\ndiameter 54\npart power 1 length 1 aft 0.1 angle 5\ncolumn 1 2\n"),
                         [2, 3, 4, 4, 5])

    def test_refused_text(self):
        self.assertEqual(call("write", "fineness 1\ndiameter 1\ncolumn 1 2\ncolour\n")[2].count("\n"), 1)


class Report(unittest.TestCase):
    def test_report(self):
        text = PAPER_TEXT.replace("aft 1", "aft 1 angle 5")
        with tempfile.TemporaryDirectory() as folder:
            program = pathlib.Path(folder, "sheet")
            program.write_text(f"#!{sys.executable}\nprint({PAPER_SHEET!r}, end='')\n")
            program.chmod(0o755)
            status, page, errors = call("report", text, "--sheet", str(program))
            silent = call("report", text, "--sheet", str(program), "--no-warnings")
        words = "angle 5 reads like degrees: 5 degrees are 0.0872665 radians"
        self.assertEqual((status, errors), (0, f"card.py: -:4: warning: {words}\n"))
        self.assertIn(words, page.decode())
        self.assertEqual((silent[0], silent[2]), (0, ""))
        self.assertNotIn(words, silent[1].decode())


if __name__ == "__main__":
    unittest.main()
