#!/usr/bin/env python3
"""Tests of distance.py: python3 tools/test_distance.py"""

import math
import pathlib
import struct
import subprocess
import sys
import unittest
from fractions import Fraction

HERE = pathlib.Path(__file__).resolve().parent
sys.path.insert(0, str(HERE))
import distance  # noqa: E402

STORED = HERE.parent / "crates/formula_vectors/stdin"


def call(*words):
    """distance.py as a command: (status, output, errors)."""
    done = subprocess.run([sys.executable, str(HERE / "distance.py"), *words], capture_output=True, text=True)
    return done.returncode, done.stdout, done.stderr


def number(word):
    return struct.unpack(">d", bytes.fromhex(word.zfill(16)))[0]


class Tables(unittest.TestCase):
    def test_points(self):
        tables = distance.read_tables()
        self.assertEqual(len(tables), 9)
        self.assertEqual(sum(map(len, tables.values())), 149)
        self.assertEqual(tables["VonKarman"][-1], (1.994, 0.0794))

    def test_corners(self):
        longer = [name for name, points in distance.read_tables().items() if len(distance.corners(points)) > len(points)]
        self.assertEqual(longer, ["PowerQuarter", "Ellipsoid"])


class Lookup(unittest.TestCase):
    def test_stored_answers(self):
        """The answers of the original, which the library replays in the gate, bit for bit."""
        tables = list(distance.read_tables().values())
        asked = 0
        for line in STORED.read_text().splitlines():
            words = line.split()
            if words[0] != "l" or int(words[1], 16) > 8 or math.isnan(number(words[2])):
                continue
            asked += 1
            value = distance.lookup(tables[int(words[1], 16)], number(words[2]))
            self.assertEqual(struct.pack(">d", value).hex(), words[8].zfill(16), line)
        self.assertGreater(asked, 500)


class One(unittest.TestCase):
    def test_midway(self):
        """docs/DISTANCE.md, the segment by hand: half way, two numbers are equally near."""
        points = distance.read_tables()["VonKarman"]
        value = distance.lookup(points, 1.45)
        self.assertEqual(distance.error(points, 1.45, value), Fraction(1, 2**57))
        status, out, _ = call("VonKarman", "1.45")
        self.assertEqual(status, 0)
        self.assertIn("  apart 1/144115188075855872\n", out)
        self.assertEqual(call("8", "1.45"), call("VonKarman", "1.45"))

    def test_outside(self):
        for nose, mach, height in (("Ellipsoid", "0", "0.0"), ("0", "-0", "0.0"), ("VonKarman", "9", "0.0794")):
            status, out, _ = call(nose, mach) if mach != "-0" else call("--", nose, mach)
            self.assertEqual(status, 0)
            self.assertIn(f"= {height}\n  apart 0\n", out)

    def test_no_library(self):
        status, out, errors = call("--port", "no_such.so", "VonKarman", "1")
        self.assertEqual((status, out), (1, ""))
        self.assertTrue(errors.startswith("distance.py: "))

    def test_wrong_words(self):
        for words in (("Cone", "1"), ("9", "1"), ("VonKarman",), ("VonKarman", "nan"), ("VonKarman", "inf"), ("--", "VonKarman", "-1")):
            status, out, errors = call(*words)
            self.assertEqual((status, out), (2, ""), words)
            self.assertIn("distance.py: error: ", errors)


class All(unittest.TestCase):
    def test_all(self):
        status, out, _ = call("--searched", "100")
        self.assertEqual(status, 0)
        lines = out.splitlines()
        self.assertEqual([line.split()[0] for line in lines[1:-2]], list(distance.read_tables()))
        self.assertTrue(lines[-2].startswith("at every tabled Mach, 0.8 included: 0; "))
        self.assertEqual(lines[-1], "a rounded slope over its segment: at most 0.106 × 2^-54; the steepest: 1.074")


if __name__ == "__main__":
    unittest.main()
