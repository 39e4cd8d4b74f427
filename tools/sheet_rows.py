"""What the program `sheet` prints, for card.py: rows of numbers with their marks, or a refusal in words.

A sheet is read strictly: a line that `sheet` wouldn't print is refused with its number.
"""

import re
import struct
from typing import NamedTuple

from card_text import FINISHES, of_card
from files import Problem

PLACES = 16
COLUMNS = 32

# What a sheet without columns and parts comes from.
NOTHING_ASKED = ("the card had no bytes, or neither columns nor parts; if card.py write stands before sheet and "
                 "refused the text, its message is above")

# What a + means to somebody who reads a sheet.
MARKED = "+: a table that the number rests on ends below that Mach number, and its last value is held there"

# What each refusal number means to somebody who wrote the cards; a pair: settings card, part card.
REFUSALS = {
    1: ("body fineness, a Mach or a Reynolds number is not one that the drag formulas allow: they must be "
        "finite and not negative, the fineness above 0",
        "a number of this part is not one that the drag formulas allow: joint angle 0 to pi/2; power and "
        "parabolic parameter 0 to 1; haack parameter not negative; length over growth in diameter finite"),
    2: "the ogive's radius ratio is not a finite number of at least 1",
    3: "the haack parameter is above 1/3",
    4: "the bytes end inside this card",
    5: "a bit that must be 0 is set, or the shape number is above 5",
    6: ("diameter or fineness is missing, or one roughness and several stand together",
        "ogive, power, parabolic and haack need their parameter, and other shapes may not have one"),
    7: f"more than {COLUMNS} columns",
    8: "a place that is not in the design, or a column that is not there",
    9: f"there are {PLACES} parts already, and no more fit",
    10: (f"too few cells or marks for the sheet: of both {PLACES + 1} and two for each finish are needed for each "
         "column"),
    11: ("the diameter is not within 0.001 to 100, or a roughness not within 0 to 1",
         "length or aft diameter is not within 0 to 100, the wetted ratio not within 0 to 10000, or the part's "
         "own roughness not within 0 to 1"),
    16: "a Mach number is below the one before it in a walk along a table",
    19: f"no finish at all, or more than {FINISHES}",
}


class Row(NamedTuple):
    """A line of a sheet: its name, its numbers, and whether each is marked with a +."""
    name: str
    numbers: list
    marks: list


class Refused(NamedTuple):
    """The refusal that a sheet's place was taken by."""
    number: int
    card: int  # 0 is the settings card, 1 the nose's

    def why(self):
        """What its number means for this card."""
        words = REFUSALS[self.number]
        return words if isinstance(words, str) else words[min(self.card, 1)]

    def words(self):
        """The refusal in one line."""
        return f"refused at {of_card(self.card)}: {self.why()} (refusal {self.number})"


def refusal(name, lines):
    """What a `refused N card K` input says; None for any other."""
    match = re.fullmatch(r"refused ([0-9]{1,9}) card ([0-9]{1,9})", lines[0], re.ASCII)
    if not match:
        return None
    refused = Refused(int(match[1]), int(match[2]))
    if refused.number not in REFUSALS:
        raise Problem(name, 1, f"there is no refusal {refused.number}")
    if len(lines) > 1:
        raise Problem(name, 2, "something follows a refusal")
    return refused


def row_name(done, line):
    """The name that a line must have after the rows done; for none left, 'nothing'. Several finishes are numbered."""
    names = [row.name for row in done]
    frictions, totals = (sum(name.startswith(word) for name in names) for word in ("friction", "total"))
    if not names:
        return "mach"
    if "base" in names:
        next_total = "total" if "friction" in names else f"total {totals}"
        return next_total if totals < frictions else "nothing"
    if not frictions:
        if line.startswith("part"):
            return f"part {len(done) - 1}"
        return "friction 0" if line.split(" ")[:2] == ["friction", "0"] else "friction"
    last = frictions > 1 and not line.startswith("friction")
    return "base" if "friction" in names or frictions == FINISHES or last else f"friction {frictions}"


def to_row(done, line):
    """The row of a line; ValueError says what is wrong."""
    name = row_name(done, line)
    if line != name and not line.startswith(name + " "):
        if not (done or line):
            raise ValueError("this is no sheet, nothing stands where mach was expected: did the program sheet run?")
        raise ValueError(f"{'' if done else 'this is no sheet: '}'{line[:20]}' stands where {name} was expected")
    words = line[len(name):].split(" ")[1:]
    for word in words:
        if not re.fullmatch(r"[0-9a-f]{16}\+?", word):
            raise ValueError(f"'{word}' is not 16 hexadecimal digits, with one + right after them or none")
        if word.endswith("+") and not name.startswith(("part", "total")):
            raise ValueError(f"'{word}' has a + on the line {name}, and only parts and totals have one")
    if done and len(words) != len(done[0].numbers):
        raise ValueError(f"{len(words)} numbers, but the mach line has {len(done[0].numbers)}")
    numbers = [struct.unpack(">d", bytes.fromhex(word[:16]))[0] for word in words]
    return Row(name, numbers, [word.endswith("+") for word in words])


def rows(name, lines):
    """The list of rows: mach, part 0, part 1, .., friction, base, total; several finishes have a friction and a
    total each: friction 0, friction 1, .., base, total 0, total 1, .."""
    done = []
    for number, line in enumerate(lines, 1):
        try:
            done.append(to_row(done, line))
        except ValueError as error:
            raise Problem(name, number, str(error)) from None
    if row_name(done, "") != "nothing":
        raise Problem(name, len(done) + 1, f"the sheet ends where {row_name(done, '')} was expected")
    return done


def nothing_asked(found):
    """Whether the rows are those of a sheet without columns and parts."""
    return bool(found) and not any(row.numbers or row.name.startswith("part") for row in found)


def decimal(x):
    """Six places, for very small and very large numbers six digits."""
    return format(x, ".6f" if x == 0 or 1e-3 <= abs(x) < 1e6 else ".6g")


def table(found):
    """The rows as aligned decimals, those that are marked with their +; where a column has a +, its others end in a
    blank."""
    marked = [any(marks) for marks in zip(*(row.marks for row in found))]
    texts = []
    for row in found:
        words = [f"{x:.10g}" if row.name == "mach" else decimal(x) for x in row.numbers]
        ends = ["+" if mark else " " if of_column else "" for mark, of_column in zip(row.marks, marked)]
        texts.append([row.name] + [word + end for word, end in zip(words, ends)])
    widths = [max(map(len, column)) for column in zip(*texts)]
    lines = [[words[0].ljust(widths[0])] + [word.rjust(width) for word, width in zip(words[1:], widths[1:])]
             for words in texts]
    return "".join("  ".join(words).rstrip() + "\n" for words in lines)
