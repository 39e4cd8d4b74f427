#!/usr/bin/env python3
"""Tests of what card.py advises in its errors, of its exit statuses, and of how report runs the program `sheet`:
python3 tools/test_card_errors.py
"""

import os
import pathlib
import signal
import subprocess
import sys
import tempfile
import unittest
from unittest import mock

import card
import files
from calling import BLANK_SHEET, CARD_PY, FINISHES_CARD, PAPER_CARD, PAPER_SHEET, PAPER_TEXT, Refusing, call


class Advice(Refusing):
    """What to write in place of a comma or a unit."""

    def test_comma(self):
        for line, number in [("diameter 0,054", "0.054"), ("column 0.3 7,8e6", "7.8e6"), ("part ogive 1,5", "1.5"),
                             ("part aft -,5 length 1", "-.5"), ("roughness 1 0,5", "0.5")]:
            self.refused("write", line, 1, f"is not a number; write the point: {number}\n")

    def test_metres(self):
        for word, metres in [("54mm", "0.054"), ("54 mm", "0.054"), ("54,5 mm", "0.0545"), ("5.4cm", "0.054"),
                             ("0.25m", "0.25"), ("2in", "0.0508"), ('2 "', "0.0508"), ("1ft", "0.3048"),
                             ("1.10MM", "0.0011"), ("-3e1mm", "-0.03"), ("0mm", "0"), ("2500000um", "2.5"),
                             ("1e-400mm", "1E-403")]:
            self.refused("write", f"diameter {word}\n", 1,
                         f"'{word}' is not a number; write metres without a unit: {metres}\n")
        for line in ("part aft 54mm", "part conical length 54 mm aft 1", "part aft 1 length 54 mm"):
            self.refused("write", line, 1, "mm' is not a number; write metres without a unit: 0.054\n")

    def test_radians(self):
        for word, radians in [("3.5deg", "0.0610865"), ("5\u00b0", "0.0872665"), ("5 \u00b0", "0.0872665"),
                              ("90 degrees", "1.5708"), ("0.1rad", "0.1")]:
            self.refused("write", f"part angle {word}", 1, f"write radians without a unit: {radians}\n")

    def test_other_units(self):
        for line, words in [("roughness 20um", "a roughness is relative, its height over the body's length"),
                            ("roughness 2e-5 20 um", "a roughness is relative"), ("part roughness 2mm", "is relative"),
                            ("diameter 5deg", "'diameter' is in metres, without a unit"),
                            ("part angle 5mm", "'angle' is in radians, without a unit"),
                            ("fineness 20 mm", "a number after 'fineness' has no unit"),
                            ("column 340m 7e6", "a number after 'column' has no unit"),
                            ("part ogive 1m", "a number after 'ogive' has no unit")]:
            self.refused("write", line, 1, words)

    def test_none(self):
        # Words that have neither comma nor unit get no advice.
        for line, end in [("diameter 54x", "is not a number\n"), ("diameter 54 x", "too much after 'diameter'\n"),
                          ("diameter mm", "is not a number\n"), ("part width 5 mm", "(known: conical"),
                          ("part length 5 mm2", "(known: length")]:
            self.refused("write", line, 1, end)


class Mistaken(Refusing):
    """Files of another kind than the command takes."""

    def test_card_bytes(self):
        for cards in (PAPER_CARD, FINISHES_CARD, bytes.fromhex("05000000000000e03f0000000000000040")):
            for command in ("read", "plot"):
                self.refused(command, cards, 0, f"these are card bytes: run sheet < FILE | card.py {command}\n")
            for command in ("write", "report"):
                self.refused(command, cards, 0, "these are card bytes already: they are for the program sheet\n")

    def test_text(self):
        for text in (PAPER_TEXT, "\ufeff# a comment\r\n\r\n  name x", "part"):
            for command in ("read", "plot"):
                words = f"this is a card text: run card.py write FILE | sheet | card.py {command}\n"
                self.refused(command, text, 0, words)

    def test_sheet(self):
        for sheet in (PAPER_SHEET, BLANK_SHEET, "refused 1 card 0\n"):
            for command in ("write", "report"):
                self.refused(command, sheet, 0, "this is a sheet: use card.py read or card.py plot\n")

    def test_anything_else(self):
        for command in ("read", "plot"):
            self.refused(command, "<svg>\n", 1, "this is no sheet: '<svg>' stands where mach was expected\n")
            self.refused(command, "", 1, "this is no sheet, nothing stands where mach was expected: did the program ")
            self.refused(command, b"\x89PNG\n", 1, "not text")

    def test_named(self):
        with tempfile.TemporaryDirectory() as folder:
            name = os.path.join(folder, "x.card")
            pathlib.Path(name).write_bytes(PAPER_CARD)
            self.assertEqual(call("read", "", name)[2],
                             f"card.py: {name}: these are card bytes: run sheet < {name} | card.py read\n")


class Usage(unittest.TestCase):
    def run_card(self, *arguments, **more):
        done = subprocess.run([sys.executable, str(CARD_PY), *arguments], capture_output=True, **more)
        self.assertNotIn(b"Traceback", done.stderr)
        return done.returncode, done.stdout, done.stderr.decode()

    def test_wrong(self):
        for arguments in ([], ["draw", "x"], ["read", "a", "b"], ["read", "--text", "x"], ["read", "--no-warnings"],
                          ["plot", "--sheet", "x"], ["plot", "--text"], ["plot", "--text", "-"]):
            status, output, errors = self.run_card(*arguments)
            self.assertEqual((status, output), (2, b""), arguments)
            self.assertTrue(errors.startswith("usage: card.py"), errors)

    def test_help(self):
        status, output, errors = self.run_card("--help")
        self.assertEqual((status, errors), (0, ""))
        for words in ("name Club rocket ", "diameter 0.054 ", "A + right after a number of a sheet", "Exit status: 0;"):
            self.assertIn(words, output.decode())
        for command, words in [("write", "--no-warnings"), ("read", "FILE"), ("plot", "--text TEXT"),
                               ("report", "--sheet PROGRAM")]:
            status, output, errors = self.run_card(command, "-h")
            self.assertEqual((status, errors), (0, ""))
            self.assertTrue(output.decode().startswith(f"usage: card.py {command}"))
            self.assertIn(words, output.decode())

    def test_file(self):
        # Left out, - and a name are the same file.
        with tempfile.TemporaryDirectory() as folder:
            name = os.path.join(folder, "paper.txt")
            pathlib.Path(name).write_text(PAPER_TEXT)
            self.assertEqual(call("write", "", name), (0, PAPER_CARD, ""))
            self.assertEqual(call("write", PAPER_TEXT, "-"), (0, PAPER_CARD, ""))
            self.assertEqual(call("write", PAPER_TEXT), (0, PAPER_CARD, ""))

    def test_unreadable(self):
        with tempfile.TemporaryDirectory() as folder:
            for arguments, words in [(["read", folder], "Is a directory"), (["write", folder + "/none"], "No such"),
                                     (["report", folder + "/none"], "No such"), (["plot", "a\nb"], "No such")]:
                status, output, errors = self.run_card(*arguments)
                self.assertEqual((status, output), (1, b""))
                self.assertTrue(errors.startswith(f"card.py: {arguments[1]}: {words}"), errors)


class Streams(unittest.TestCase):
    def run_to(self, output, *arguments, data=PAPER_SHEET):
        return subprocess.run([sys.executable, str(CARD_PY), *arguments], input=data.encode(), stdout=output,
                              stderr=subprocess.PIPE)

    def test_broken_pipe(self):
        for arguments, data in [(["read"], PAPER_SHEET), (["plot"], PAPER_SHEET), (["write"], PAPER_TEXT),
                                (["--help"], ""), (["plot", "--help"], "")]:
            reading, writing = os.pipe()
            os.close(reading)
            with open(writing, "wb") as output:
                done = self.run_to(output, *arguments, data=data)
            self.assertEqual((done.returncode, done.stderr), (141, b""), arguments)

    @unittest.skipUnless(os.path.exists("/dev/full"), "there is no /dev/full")
    def test_full(self):
        for arguments in (["read"], ["plot"], ["--help"]):
            with open("/dev/full", "wb") as output:
                done = self.run_to(output, *arguments)
            self.assertEqual((done.returncode, done.stderr), (1, b"card.py: output: No space left on device\n"))

    def test_interrupted(self):
        with subprocess.Popen([sys.executable, str(CARD_PY), "read"], stdin=subprocess.PIPE, stdout=subprocess.PIPE,
                              stderr=subprocess.PIPE, preexec_fn=lambda: signal.signal(
                                  signal.SIGINT, signal.default_int_handler)) as running:
            running.stdin.write(b"#" * 1000000)  # more than a pipe holds: it is read
            running.stdin.flush()
            running.send_signal(signal.SIGINT)
            output, errors = running.communicate()
        self.assertEqual((running.returncode, output, errors), (130, b"", b""))

    def test_written_in_pieces(self):
        pieces = []
        with mock.patch("os.write", lambda stream, data: pieces.append((stream, bytes(data[:3]))) or 3):
            files.put(1, b"abcdef")
        self.assertEqual(pieces, [(1, b"abc"), (1, b"def")])

    def test_refused_write_in_a_pipe(self):
        # Nothing is written for a bad text, sheet prints the names for nothing, and read tells where to look.
        self.assertEqual(call("write", "diameter x")[:2], (1, b""))
        status, output, errors = call("read", BLANK_SHEET)
        self.assertEqual((status, errors), (0, ""))
        self.assertIn("if card.py write stands before sheet and refused the text", output.decode().splitlines()[-1])


class Refusals(unittest.TestCase):
    WORDS = "refused at the settings, card 0: more than 32 columns (refusal 7)"

    def test_plot(self):
        self.assertEqual(call("plot", "refused 7 card 0\n"),
                         (3, b"", f"card.py: -:1: there is nothing to plot: {self.WORDS}\n"))

    def test_read(self):
        self.assertEqual(call("read", "refused 7 card 0\n"), (3, self.WORDS.encode() + b"\n", ""))

    def test_empty_sheet(self):
        status, output, errors = call("plot", BLANK_SHEET)
        self.assertEqual((status, output), (1, b""))
        self.assertTrue(errors.startswith("card.py: -:1: there is nothing to plot: the card had no bytes, or"), errors)


class PlotText(unittest.TestCase):
    """The text that names the parts of a plot."""

    def plotted(self, text, sheet=PAPER_SHEET):
        with tempfile.TemporaryDirectory() as folder:
            name = os.path.join(folder, "x.txt")
            pathlib.Path(name).write_text(text)
            status, output, errors = call("plot", sheet, "--text", name)
            return status, output.decode(), errors.replace(folder, "")

    def test_names(self):
        status, picture, errors = self.plotted("name A <rocket>\n" + PAPER_TEXT)
        self.assertEqual((status, errors), (0, ""))
        self.assertIn(">A &lt;rocket&gt;<", picture)
        self.assertIn(">part 0, nose<", picture)

    def test_parts(self):
        sheet = PAPER_SHEET.replace("friction", "part 1 3feb333333333333\nfriction")
        status, picture, errors = self.plotted(PAPER_TEXT + "part length 1 aft 1\n", sheet)
        self.assertEqual((status, errors), (0, ""))
        self.assertIn(">part 1, tube<", picture)
        self.assertIn(">part 1<", call("plot", sheet)[1].decode())

    def test_without(self):
        for picture in (self.plotted(PAPER_TEXT)[1], call("plot", PAPER_SHEET)[1].decode()):
            self.assertIn(">Drag coefficient against Mach<", picture)
            self.assertIn(">part 0, nose<", picture)

    def test_another_text(self):
        for text, words in [(PAPER_TEXT + "part\n", "other parts, 2 here and 1 there"),
                            (PAPER_TEXT + "column 0 0\n", "other columns, 2 here and 1 there"),
                            (PAPER_TEXT + "roughness 0 1\n", "other finishes, 2 here and 1 there"),
                            (PAPER_TEXT.replace("column 0", "column 1"), "other Mach numbers")]:
            status, picture, errors = self.plotted(text)
            self.assertEqual((status, picture), (1, ""))
            self.assertEqual(errors, f"card.py: /x.txt: the sheet (-) is not this text's: {words}\n")

    def test_no_text(self):
        status, picture, errors = self.plotted(PAPER_SHEET)
        self.assertEqual((status, picture, errors),
                         (1, "", "card.py: /x.txt: this is a sheet: use card.py read or card.py plot\n"))


class Report(unittest.TestCase):
    """How report runs the program `sheet`, with small programs in its place."""

    def setUp(self):
        self.folder = tempfile.TemporaryDirectory()
        self.addCleanup(self.folder.cleanup)

    def program(self, prints, status=0, before=""):
        """A program that prints this and exits with this status if it is given the paper's card."""
        path = pathlib.Path(self.folder.name, "sheet")
        path.write_text(f"#!{sys.executable}\nimport sys\n{before}\n"
                        f"if sys.stdin.buffer.read() == {PAPER_CARD!r}: print({prints!r}, end='')\n"
                        f"sys.exit({status})\n")
        path.chmod(0o755)
        return str(path)

    def failed(self, program, words):
        status, output, errors = call("report", PAPER_TEXT, "--sheet", program)
        self.assertEqual((status, output, errors), (1, b"", f"card.py: {program}{words}\n"))

    def test_page(self):
        for more, named in [(["--sheet", self.program(PAPER_SHEET)], None), ([], self.program(PAPER_SHEET)),
                            (["--sheet", self.program(PAPER_SHEET)], "/none")]:
            with mock.patch.dict(os.environ, {"SHEET": named} if named else {}):
                status, page, errors = call("report", "name A rocket\n" + PAPER_TEXT, *more)
            self.assertEqual((status, errors), (0, ""))
            self.assertIn("<title>A rocket</title>", page.decode())
            self.assertIn("0.850000", page.decode())

    def test_refused(self):
        status, page, errors = call("report", PAPER_TEXT, "--sheet", self.program("refused 11 card 1\n"))
        self.assertEqual((status, errors), (3, ""))
        self.assertIn("(refusal 11)", page.decode())

    def test_built(self):
        self.assertEqual(card.BUILT_SHEET, CARD_PY.parent.parent / "target" / "bin" / "sheet")
        missing = pathlib.Path(self.folder.name, "target", "sheet")
        options = mock.Mock(file=self.text(), sheet=None, no_warnings=True)
        with mock.patch.object(card, "BUILT_SHEET", missing), mock.patch.dict(os.environ, {"SHEET": ""}):
            with self.assertRaises(files.Problem) as raised:
                card.report(options)
        self.assertIn("run tools/build.sh sheet, or name it by --sheet PROGRAM", str(raised.exception))
        self.assertTrue(str(raised.exception).startswith(f"{missing}: "))

    def text(self):
        path = pathlib.Path(self.folder.name, "paper.txt")
        path.write_text(PAPER_TEXT)
        return str(path)

    def test_no_program(self):
        self.failed(self.folder.name + "/none", ": the program sheet is not there: run tools/build.sh sheet, or name "
                                                "it by --sheet PROGRAM or in the environment variable SHEET")
        self.failed(self.folder.name, ": the program sheet can't be started: Permission denied")

    def test_no_sheet(self):
        for prints in ("", "hello\n", "name x\n"):
            self.failed(self.program(prints), ": this is not the program sheet: what it printed is no sheet")
        self.failed(self.program(PAPER_SHEET.replace("base", "bass")),
                    ":4: 'bass 3fbeb851eb851eb' stands where base was expected")
        self.failed(self.program("refused 77 card 0\n"), ":1: there is no refusal 77")

    def test_failing_program(self):
        self.failed(self.program(PAPER_SHEET, 4), ": the program sheet failed, with exit status 4")

    def test_endless_program(self):
        program = self.program(PAPER_SHEET, before="import time; time.sleep(60)")
        with mock.patch.object(card, "SECONDS", 0.2), self.assertRaises(files.Problem) as raised:
            card.sheet_of(PAPER_CARD, program)
        self.assertEqual(str(raised.exception), f"{program}: the program sheet has not ended after 0.2 seconds")

    def test_another_sheet(self):
        program = self.program(BLANK_SHEET)
        status, page, errors = call("report", PAPER_TEXT, "--sheet", program)
        self.assertEqual((status, page), (1, b""))
        words = "is not this text's: other parts, 1 here and 0 there"
        self.assertEqual(errors, f"card.py: -: the sheet ({program}) {words}\n")


if __name__ == "__main__":
    unittest.main()
