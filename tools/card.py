#!/usr/bin/env python3
"""Cards and sheets of the program `sheet`, as readable text, decimals, a plot and a report.

  card.py write rocket.txt > rocket.card    readable text in, card bytes out
  sheet < rocket.card > rocket.sheet        the program itself
  card.py read rocket.sheet                 the sheet's rows as decimals
  card.py plot rocket.sheet > rocket.svg    the sheet's rows against Mach
  card.py report rocket.txt > rocket.html   text, sheet and plot on one page

A file left out, or -, is standard input. `card.py read --help` tells more of read, and
so on for each command. Exit status: 0; 1 if something is wrong with a file or the output;
2 if it is the command line; 3 if the sheet is a refusal; 141 if nobody reads the output to
its end; 130 after Ctrl-C.

The text has one statement a line; # starts a comment, blank lines are skipped.
A text without any statement makes a card file without any bytes.

  name Club rocket          the rocket's name, the title of plot and report; writes no byte
  diameter 0.054            reference diameter in metres (must be given)
  roughness 2e-5            relative roughness, 0 to 1 (left out: 0); several, up
                            to 4, are as many finishes side by side
  fineness 20.5             length of the body over its diameter (must be given)
  column 0.3 7.8e6          Mach and Reynolds number; one line for each column
  part ogive 1 length 0.25 aft 0.054 angle 0 wetted 12.43 roughness 2e-6
                            one line for each part, from the nose backwards

A part is: the shape, its parameter, then names with a number in any order:
length and aft diameter in metres, joint angle in radians, wetted area over
reference area, its own roughness, 0 to 1, in every finish (left out: the
settings' roughness). Any other name left out counts as 0, a shape left out as conical.
Shapes with a parameter: ogive (radius ratio, 1 is tangent), power (exponent),
parabolic, haack (0 is von Karman). Shapes without: conical, elliptical.
Numbers are decimal, or nan, inf, -inf. Any number is written as it stands, and
only what is given; whether it is accepted is for `sheet` to say.

write and report warn of numbers that look like slips, millimetres among metres or an
angle in degrees: a line on standard error, and nothing else changes.

A + right after a number of a sheet says that a table which the number rests on
ends below that Mach number, so that the table's last value is held. read keeps
the +, and plot dashes the line from the last number without one on.
"""

import argparse
import os
import pathlib
import re
import shutil
import subprocess
import sys

import card_report
import sheet_plot
from card_text import STATEMENTS, parse, to_cards
from card_warnings import warnings
from files import Problem, load, put, tell, to_lines
from sheet_rows import MARKED, NOTHING_ASKED, nothing_asked, refusal, rows, table

HERE = pathlib.Path(__file__).resolve().parent
BUILT_SHEET = HERE.parent / "target" / "bin" / "sheet"  # where tools/build.sh puts the program
SECONDS = 10  # more than any run of the program takes

# First bytes of the settings cards that write makes.
CARD_STARTS = b"\x05\x07\x0d\x0f\x15\x1d"
# What to do with a file of the first kind where one of the second is wanted.
MISTAKEN = {
    ("card", "sheet"): "these are card bytes: run sheet < {file} | card.py {command}",
    ("text", "sheet"): "this is a card text: run card.py write {file} | sheet | card.py {command}",
    ("card", "text"): "these are card bytes already: they are for the program sheet",
    ("sheet", "text"): "this is a sheet: use card.py read or card.py plot",
}


def kind_of(data):
    """What a file is by its look: "card" (bytes), "sheet", "text" (of a card), or "" for anything else."""
    if data[:1] and data[0] in CARD_STARTS and re.search(rb"[\0-\x08]", data[1:]):
        return "card"
    if re.match(rb"mach(\s|$)|refused [0-9]", data):
        return "sheet"
    first = re.match(rb"(?:\xef\xbb\xbf)?(?:\s|#.*\n)*(\w+)", data)
    return "text" if first and first[1].decode("latin-1") in STATEMENTS else ""


def lines_of(source, wanted, command):
    """The lines of a sheet or of a card text; Problem where the file is of another kind."""
    data = load(source)
    mistaken = MISTAKEN.get((kind_of(data), wanted))
    if mistaken:
        raise Problem(source, 0, mistaken.format(file="FILE" if source == "-" else source, command=command))
    return to_lines(source, data)


def rocket_of(source, command):
    """The rocket that a text tells."""
    return parse(source, lines_of(source, "text", command))


def warn(rocket, options):
    """The warnings of a text, told on standard error."""
    found = [] if options.no_warnings else warnings(rocket)
    for line, words in found:
        tell(f"{rocket.source}:{line}: warning: {words}")
    return found


def check_same(rocket, found, sheet_source):
    """Problem where a sheet's rows are not those of a text's rocket."""
    names = [row.name for row in found]
    for what, of_text, of_sheet in (
            ("parts", len(rocket.parts), sum(name.startswith("part") for name in names)),
            ("columns", len(rocket.columns), len(found[0].numbers)),
            ("finishes", len(rocket.settings.get("roughness", [0])), sum(name.startswith("total") for name in names)),
            ("Mach numbers", [column.mach for column in rocket.columns], found[0].numbers)):
        if of_text != of_sheet:
            counts = "" if what == "Mach numbers" else f", {of_text} here and {of_sheet} there"
            raise Problem(rocket.source, 0, f"the sheet ({sheet_source}) is not this text's: other {what}{counts}")


def write(options):
    """The text's card bytes."""
    rocket = rocket_of(options.file, "write")
    cards = to_cards(rocket)
    warn(rocket, options)
    return 0, cards


def read(options):
    """The sheet's rows as decimals, or its refusal in words."""
    lines = lines_of(options.file, "sheet", "read")
    refused = refusal(options.file, lines)
    if refused:
        return 3, (refused.words() + "\n").encode()
    found = rows(options.file, lines)
    marked = any(any(row.marks) for row in found)
    last = NOTHING_ASKED if nothing_asked(found) else MARKED if marked else ""
    return 0, (table(found) + (last + "\n" if last else "")).encode()


def plot(options):
    """The sheet's rows against Mach, as SVG."""
    lines = lines_of(options.file, "sheet", "plot")
    rocket = rocket_of(options.text, "plot") if options.text else None
    refused = refusal(options.file, lines)
    if refused:
        tell(Problem(options.file, 1, f"there is nothing to plot: {refused.words()}"))
        return 3, b""
    found = rows(options.file, lines)
    title, labels = sheet_plot.NO_NAME, {"part 0": "part 0, nose"}
    if rocket:
        check_same(rocket, found, options.file)
        title = rocket.name or title
        labels = rocket.labels()
    if nothing_asked(found):
        raise Problem(options.file, 1, f"there is nothing to plot: {NOTHING_ASKED}")
    picture = sheet_plot.plot(found, title, labels)
    if picture is None:
        raise Problem(options.file, 0, "can't be plotted: no columns, no finite numbers, or numbers too large")
    return 0, picture.encode()


def sheet_of(cards, program):
    """The lines that the program `sheet` prints for card bytes."""
    try:
        command = [shutil.which(program) or os.path.abspath(program)]
        done = subprocess.run(command, input=cards, stdout=subprocess.PIPE, timeout=SECONDS)
    except FileNotFoundError:
        raise Problem(program, 0, "the program sheet is not there: run tools/build.sh sheet, or name it by "
                                  "--sheet PROGRAM or in the environment variable SHEET") from None
    except OSError as error:
        raise Problem(program, 0, f"the program sheet can't be started: {error.strerror}") from None
    except subprocess.TimeoutExpired:
        raise Problem(program, 0, f"the program sheet has not ended after {SECONDS} seconds") from None
    if done.returncode:
        raise Problem(program, 0, f"the program sheet failed, with exit status {done.returncode}")
    if kind_of(done.stdout) != "sheet":
        raise Problem(program, 0, "this is not the program sheet: what it printed is no sheet")
    return to_lines(program, done.stdout)


def report(options):
    """One page of the text, its sheet and its plot."""
    rocket = rocket_of(options.file, "report")
    program = options.sheet or os.environ.get("SHEET") or str(BUILT_SHEET)
    lines = sheet_of(to_cards(rocket), program)
    refused = refusal(program, lines)
    found = [] if refused else rows(program, lines)
    if found:
        check_same(rocket, found, program)
    page = card_report.page(rocket, found, refused, warn(rocket, options))
    return 3 if refused else 0, page.encode()


class Parser(argparse.ArgumentParser):
    """A parser whose help is written like any other output."""

    def print_help(self, file=None):
        put(1, self.format_help().encode())


def to_options(arguments):
    """The command line's command, file and options."""
    parser = Parser(prog="card.py", description=__doc__, formatter_class=argparse.RawDescriptionHelpFormatter)
    commands = parser.add_subparsers(title="commands", metavar="COMMAND", required=True)

    def command(run, takes):
        added = commands.add_parser(run.__name__, help=run.__doc__, description=run.__doc__)
        added.add_argument("file", metavar="FILE", nargs="?", default="-",
                           help=f"{takes}; left out, or -: standard input")
        added.set_defaults(run=run)
        return added

    text, sheet = "a card's text", "what the program sheet printed"
    writes = command(write, text)
    command(read, sheet)
    plots = command(plot, sheet)
    plots.add_argument("--text", metavar="TEXT",
                       help="the text that the sheet was made from: its name is the title, and the parts are "
                            "labelled by what they are")
    reports = command(report, text)
    reports.add_argument("--sheet", metavar="PROGRAM",
                         help="the program sheet; left out: what the environment variable SHEET names, or "
                              "target/bin/sheet beside tools/")
    for added in (writes, reports):
        added.add_argument("--no-warnings", action="store_true", help="don't warn of what looks like a slip")
    options = parser.parse_args(arguments)
    if options.run is plot and options.text == options.file == "-":
        plots.error("FILE and TEXT can't both be standard input")
    return options


def main(arguments):
    try:
        options = to_options(arguments)
        status, output = options.run(options)
        put(1, output)
        return status
    except Problem as problem:
        tell(problem)
    except BrokenPipeError:
        return 141  # as a shell tells of a program that SIGPIPE ended
    except OSError as error:
        tell(f"output: {error.strerror}")
    except KeyboardInterrupt:
        return 130  # and of one that SIGINT ended
    return 1


if __name__ == "__main__":
    sys.exit(main(sys.argv[1:]))
