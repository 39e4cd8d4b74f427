"""What the tests of card.py share: its call as a subprocess, how it refuses, and small cards and sheets."""

import pathlib
import struct
import subprocess
import sys
import unittest

CARD_PY = pathlib.Path(__file__).resolve().parent / "card.py"

# The example of docs/REFERENCE.md: its text, its bytes, its five lines.
PAPER_TEXT = "diameter 1\nfineness 1\ncolumn 0 0\npart aft 1\n"
PAPER_CARD = bytes.fromhex("0d" + "000000000000f03f" * 2 + "01" + "00" * 16 + "08" + "000000000000f03f")
PAPER_SHEET = """mach 0000000000000000
part 0 3feb333333333333
friction 0000000000000000
base 3fbeb851eb851eb8
total 3fef0a3d70a3d70a
"""

# D and B of 1, one column, three finishes, no parts.
FINISHES_TEXT = "diameter 1\nroughness 0.5 0 1\nfineness 1\ncolumn 0 0\n"
FINISHES_CARD = b"\x1d" + struct.pack("<2dB2d", 1, 1, 1, 0, 0) + b"\x03" + struct.pack("<3d", 0.5, 0, 1)

# What is printed for no card at all, and the rows of three finishes without parts.
BLANK_SHEET = "mach\nfriction\nbase\ntotal\n"
FINISHES_NAMES = ["mach", "friction 0", "friction 1", "friction 2", "base", "total 0", "total 1", "total 2"]

# Three columns, Mach 1 to 3; in the last two the nose's table has ended.
MARKED_SHEET = """mach 3ff0000000000000 4000000000000000 4008000000000000
part 0 3fe0000000000000 3fd0000000000000+ 3fd0000000000000+
friction 3fd0000000000000 3fc0000000000000 3fc0000000000000
base 3fc0000000000000 3fc0000000000000 3fb0000000000000
total 3fec000000000000 3fe0000000000000+ 3fdc000000000000+
"""


def call(command, data=b"", *more):
    """card.py with data on standard input: (status, output as bytes, errors as text)."""
    data = data.encode() if isinstance(data, str) else data
    done = subprocess.run([sys.executable, str(CARD_PY), command, *more], input=data, capture_output=True)
    return done.returncode, done.stdout, done.stderr.decode()


class Refusing(unittest.TestCase):
    """What tests of errors share."""

    def refused(self, command, data, line, words=""):
        """One line on standard error that begins with the line of standard input, 0 for none, and has the words."""
        status, output, errors = call(command, data)
        self.assertEqual((status, output), (1, b""), data)
        self.assertTrue(errors.startswith(f"card.py: -:{line}: " if line else "card.py: -: "), (data, errors))
        self.assertIn(words, errors)
        self.assertEqual(errors.count("\n"), 1, errors)
