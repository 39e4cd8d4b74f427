#!/usr/bin/env python3
"""Tests of card.py's write and read: python3 tools/test_card.py

Where the environment variable SHEET names the compiled program `sheet`, the example cards are
also run through it and must give the example sheets byte for byte.
"""

import os
import struct
import subprocess
import unittest

from calling import (BLANK_SHEET, CARD_PY, FINISHES_CARD, FINISHES_NAMES, FINISHES_TEXT, MARKED_SHEET, PAPER_CARD,
                     PAPER_SHEET, PAPER_TEXT, Refusing, call)

EXAMPLES = CARD_PY.parent.parent / "examples"
SHEET = os.environ.get("SHEET")

# What is read from MARKED_SHEET, with the marks and without.
MARKED_READ = """mach             1         2          3
part 0    0.500000  0.250000+  0.250000+
friction  0.250000  0.125000   0.125000
base      0.125000  0.125000   0.062500
total     0.875000  0.500000+  0.437500+
+: a table that the number rests on ends below that Mach number, and its last value is held there
"""
UNMARKED_READ = """mach             1         2         3
part 0    0.500000  0.250000  0.250000
friction  0.250000  0.125000  0.125000
base      0.125000  0.125000  0.062500
total     0.875000  0.500000  0.437500
"""
NOTHING = ("the card had no bytes, or neither columns nor parts; if card.py write stands before sheet and refused the "
           "text, its message is above\n")


class Write(Refusing):
    def written(self, text):
        status, output, errors = call("write", text, "--no-warnings")
        self.assertEqual((status, errors), (0, ""))
        return output

    def test_paper(self):
        self.assertEqual(self.written(PAPER_TEXT), PAPER_CARD)

    def test_comments_and_line_ends(self):
        text = "\ufeff# a comment\r\n\r\n" + PAPER_TEXT.replace("\n", "  # more\r\n")
        self.assertEqual(self.written(text), PAPER_CARD)
        self.assertEqual(self.written("\r\n# von Kármán\r\n" + PAPER_TEXT), PAPER_CARD)

    def test_name(self):
        self.assertEqual(self.written("name Club rocket, <b> & 5 mm  # 1\n" + PAPER_TEXT), PAPER_CARD)
        self.assertEqual(self.written("name Club rocket\n"), b"")
        self.refused("write", "name # none\n", 1, "the rocket's name is missing after 'name'")
        self.refused("write", "name a\nname b\n", 2, "'name' is given twice")

    def test_all_fields(self):
        head = "fineness 3\nroughness 0.5\ndiameter 2\n"
        start = b"\x07" + struct.pack("<3d", 2, 0.5, 3)
        self.assertEqual(self.written(head), start)
        for number, shape in enumerate(["conical", "ogive 7", "elliptical", "power 7", "parabolic 7", "haack 7"]):
            values = (7, 1, 2, 3, 4, 5) if " " in shape else (1, 2, 3, 4, 5)
            part = bytes([0x7f if " " in shape else 0x7d, number]) + struct.pack(f"<{len(values)}d", *values)
            line = f"part {shape} wetted 4 roughness 5 angle 3 aft 2 length 1\n"
            self.assertEqual(self.written(head + line * 2), start + part * 2)
        self.assertEqual(self.written(head + "part\n"), start + b"\x00")

    def test_own_roughness(self):
        head = "diameter 1\nroughness 0.5\nfineness 1\n"
        start = b"\x07" + struct.pack("<3d", 1, 0.5, 1)
        for line, part in [("part roughness 0.25", b"\x40" + struct.pack("<d", 0.25)),
                           ("part roughness -0", b"\x40" + struct.pack("<d", -0.0)),
                           ("part roughness 0.25 wetted 2", b"\x60" + struct.pack("<2d", 2, 0.25)),
                           ("part wetted 2", b"\x20" + struct.pack("<d", 2))]:
            self.assertEqual(self.written(head + line + "\n"), start + part)

    def test_finishes(self):
        self.assertEqual(self.written(FINISHES_TEXT), FINISHES_CARD)
        for count in range(1, 5):
            values = [0.25, 1, -0.0, 5][:count]
            text = "diameter 1\nfineness 1\nroughness " + " ".join(map(str, values)) + "\n"
            floats = struct.pack(f"<{count}d", *values)
            one = b"\x07" + struct.pack("<d", 1) + floats + struct.pack("<d", 1)
            several = b"\x15" + struct.pack("<2dB", 1, 1, count) + floats
            self.assertEqual(self.written(text), one if count == 1 else several)
        for line in ("roughness 1", "roughness 1 2"):
            for again in ("roughness 1", "roughness 1 2"):
                self.refused("write", f"{line}\n{again}\n", 2, "'roughness' is given twice")

    def test_nothing(self):
        for text in ("", "\n", "\r\n \t\r\n", "\ufeff", "# a comment\n\n  # another"):
            self.assertEqual(self.written(text), b"")

    def test_any_number(self):
        words = ["nan", "inf", "-inf", "-0", "1e-320", "-1.5E+300", ".5", "5.", "+3"]
        text = "diameter 1\nfineness 1\n" + "".join(f"part length {word}\n" for word in words)
        parts = self.written(text)[17:]
        self.assertEqual(parts, b"".join(b"\x04" + struct.pack("<d", float(word)) for word in words))

    def test_most_columns(self):
        cards = self.written("diameter 1\nfineness 1\n" + "column 0.5 1e6\n" * 255)
        self.assertEqual((cards[17], len(cards)), (255, 18 + 255 * 16))
        self.refused("write", "diameter 1\nfineness 1\n" + "column 0.5 1e6\n" * 256, 258, "255 columns")

    def test_bad_text(self):
        for line, words in [
            ("colour 3", "unknown word 'colour'"), ("diameter", "missing"), ("diameter x", "'x' is not a number\n"),
            ("roughness 1 2 3 4 5", "5 finishes"), ("roughness", "missing"), ("roughness 1 x", "'x' is not"),
            ("column 0.3", "missing"), ("column", "missing"), ("column 1 2 3", "'3' is too much"),
            ("column 1 1_0", "'1_0' is not a number\n"), ("fineness 1e999", "too large"),
            ("fineness infinity", "not a number"), ("fineness 0x1", "not a number"),
            ("part cubic", "unknown shape 'cubic'"), ("part ogive length 1", "missing after 'ogive'"),
            ("part power", "missing after 'power'"), ("part parabolic aft 1", "missing after 'parabolic'"),
            ("part haack x", "missing after 'haack'"), ("part conical 1", "takes no parameter"),
            ("part elliptical nan length 1", "takes no parameter"), ("part length", "missing after 'length'"),
            ("part length aft 1", "'aft' is not a number"), ("part aft 1 aft 1", "'aft' is given twice"),
            ("part conical width 1", "unknown word 'width'"), ("part length 1 2", "unknown word '2'"),
            ("part roughness", "missing after 'roughness'"), ("part roughness x", "'x' is not a number"),
            ("part roughness 0 aft 1 roughness 0", "'roughness' is given twice"),
        ]:
            self.refused("write", "# first\n\n" + line + "\ncolumn x x\n", 3, words)
        for key in ("diameter", "roughness", "fineness"):
            self.refused("write", f"{key} 1\n\n{key} 1\n", 3, f"'{key}' is given twice")
        self.refused("write", "diameter 1\nroughness 0\n", 2, "'fineness' is not given")
        self.refused("write", "fineness 1", 1, "'diameter' is not given")
        self.refused("write", "\ncolumn 1 1", 2, "'diameter' is not given")
        self.refused("write", "part\n", 1, "'diameter' is not given")
        self.refused("write", b"diameter 1\nfineness \xff\n", 2, "not text")


class Read(Refusing):
    def test_paper(self):
        status, output, errors = call("read", PAPER_SHEET)
        self.assertEqual((status, errors), (0, ""))
        words = [line.rsplit(maxsplit=1) for line in output.decode().splitlines()]
        self.assertEqual(words, [["mach", "0"], ["part 0", "0.850000"], ["friction", "0.000000"],
                                 ["base", "0.120000"], ["total", "0.970000"]])
        self.assertEqual(len({len(line) for line in output.splitlines()}), 1)

    def test_odd_numbers(self):
        status, output, _ = call("read", PAPER_SHEET.replace("3feb333333333333", "7ff8000000000000"))
        self.assertEqual((status, output.decode().splitlines()[1].split()), (0, ["part", "0", "nan"]))

    def test_nothing_asked(self):
        self.assertEqual(call("read", BLANK_SHEET), (0, (BLANK_SHEET + NOTHING).encode(), ""))
        several = "\n".join(FINISHES_NAMES) + "\n"
        self.assertEqual(call("read", several), (0, (several + NOTHING).encode(), ""))
        parts = "mach\npart 0\nfriction\nbase\ntotal\n"
        self.assertEqual(call("read", parts), (0, parts.encode(), ""))

    def test_finishes(self):
        for count in (2, 3, 4):
            names = ["mach", "part 0"] + [f"friction {j}" for j in range(count)] + ["base"]
            names += [f"total {j}" for j in range(count)]
            lines = [f"{name} 3feb333333333333" for name in names]
            status, output, errors = call("read", "\n".join(lines) + "\n")
            self.assertEqual((status, errors), (0, ""))
            self.assertEqual([line.rsplit(maxsplit=1)[0] for line in output.decode().splitlines()], names)
            # A line left out, or one too many, is told where it is missed.
            for missing in range(count + 2, len(lines)):
                self.refused("read", "\n".join(lines[:missing] + lines[missing + 1:]) + "\n", missing + 1)
            for more in (f"total {count} 3feb333333333333", "total 3feb333333333333"):
                self.assertEqual(call("read", "\n".join(lines + [more]) + "\n")[0], 1)
        for names in (["friction 0", "base", "total 0"], ["friction", "friction 0", "base", "total"],
                      ["friction 1", "friction 2", "base", "total 1", "total 2"], ["friction", "base", "total 0"],
                      [f"friction {j}" for j in range(5)] + ["base"] + [f"total {j}" for j in range(5)]):
            self.assertEqual(call("read", "\n".join(["mach"] + names) + "\n")[:2], (1, b""), names)

    def test_refusals(self):
        said = set()
        for number in [*range(1, 12), 16, 19]:
            for place, where in [(0, "the settings, card 0"), (1, "part 0, the nose, card 1"),
                                 (3, "part 2, the third part, card 3")]:
                status, output, errors = call("read", f"refused {number} card {place}\n")
                self.assertEqual((status, errors), (3, ""))
                self.assertTrue(output.decode().startswith(f"refused at {where}: "), output)
                said.add(output.decode().split(": ", 1)[1])
        self.assertEqual(len(said), 13 + 3)  # 1, 6 and 11 have words of their own for settings and parts
        self.assertIn("roughness not within 0 to 1 ", call("read", "refused 11 card 1\n")[1].decode())

    def test_malformed(self):
        lines = PAPER_SHEET.splitlines(keepends=True)
        bad = [("", 1), ("\n", 1), ("refused 12 card 0\n", 1), ("refused 1 card\n", 1), ("refused 1 card 0\nx\n", 2),
               (PAPER_SHEET + "\n", 6), (PAPER_SHEET + "total\n", 6), (PAPER_SHEET.replace("part 0", "part 1"), 2),
               (PAPER_SHEET.replace("3fb", "3FB"), 4), (PAPER_SHEET.replace("3fbe", "3fb"), 4),
               (PAPER_SHEET.replace("base ", "base  "), 4),
               (PAPER_SHEET.replace("0\nbase", "0 " + "0" * 16 + "\nbase"), 3)]
        bad += [("".join(lines[:count]), count + 1) for count in range(1, 5)]
        for text, line in bad:
            for command in ("read", "plot"):
                self.refused(command, text, line)

    def test_marks(self):
        self.assertEqual(call("read", MARKED_SHEET), (0, MARKED_READ.encode(), ""))
        self.assertEqual(call("read", MARKED_SHEET.replace("+", "")), (0, UNMARKED_READ.encode(), ""))
        # A mark widens its own column; a NaN is marked like any number.
        one = MARKED_SHEET.replace("0000+\n", "0000\n").replace("3fd0000000000000+", "7ff8000000000000+")
        lines = call("read", one)[1].decode().splitlines()
        self.assertEqual(lines[0], "mach             1         2          3")
        self.assertEqual(lines[1], "part 0    0.500000       nan+  0.250000")
        self.assertEqual(lines[4:], ["total     0.875000  0.500000+  0.437500", MARKED_READ.splitlines()[5]])

    def test_bad_marks(self):
        for old, new, line in [
            ("mach 3ff0000000000000", "mach 3ff0000000000000+", 1), ("4008000000000000", "4008000000000000+", 1),
            ("3fd0000000000000+\n", "3fd0000000000000++\n", 2), ("3fd0000000000000+ ", "3fd0000000000000 + ", 2),
            ("part 0 ", "part 0 +", 2), ("part 0 ", "part 0+ ", 2), ("3fd0000000000000+ ", "3fd000000000000+ ", 2),
            ("3fd0000000000000+ ", "3fd0000000000000+3", 2), ("3fd0000000000000+\n", "3fd0000000000000+ \n", 2),
            ("3fd0000000000000 ", "3fd0000000000000+ ", 3), ("3fb0000000000000", "3fb0000000000000+", 4),
            ("3fdc000000000000+", "3fdc000000000000 +", 5), ("3fdc000000000000+", "3fdc000000000000-", 5),
        ]:
            self.assertEqual(MARKED_SHEET.count(old), 1, old)
            for command in ("read", "plot"):
                self.refused(command, MARKED_SHEET.replace(old, new), line)


class Example(unittest.TestCase):
    NAMES = ["club_rocket", "club_rocket_finishes"]

    def kept(self, name, ending):
        return (EXAMPLES / (name + ending)).read_bytes()

    def test_card(self):
        for name in self.NAMES:
            self.assertEqual(call("write", self.kept(name, ".txt")), (0, self.kept(name, ".card"), ""))
            self.assertEqual(call("read", self.kept(name, ".sheet"))[0], 0)

    def test_same_rocket(self):
        one, several = ({line.rsplit(b" ", 12)[0]: line.split(b" ")[-12:] for line in
                         self.kept(name, ".sheet").splitlines()} for name in self.NAMES)
        for name, cells in one.items():
            name = {b"friction": b"friction 1", b"total": b"total 1"}.get(name, name)
            self.assertEqual(several[name], cells)

    def test_marks(self):
        # Mach 2 and 2.5 are beyond the tables of the nose.
        for name in self.NAMES:
            for line in self.kept(name, ".sheet").splitlines():
                marks = [word.endswith(b"+") for word in line.split(b" ")[-12:]]
                self.assertEqual(marks, [False] * 10 + [line.startswith((b"part 0", b"total"))] * 2)

    @unittest.skipUnless(SHEET, "SHEET doesn't name the compiled program")
    def test_program(self):
        blank = call("write", "")[1], BLANK_SHEET.encode()
        examples = [(self.kept(name, ".card"), self.kept(name, ".sheet")) for name in self.NAMES]
        for cards, sheet in examples + [(PAPER_CARD, PAPER_SHEET.encode()), blank]:
            done = subprocess.run([SHEET], input=cards, capture_output=True)
            self.assertEqual(done.stdout, sheet)


if __name__ == "__main__":
    unittest.main()
