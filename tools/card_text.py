"""The readable text of a card, for card.py: what its lines say, and the bytes that `sheet` reads.

What a line may say is told by `card.py --help`. A text is refused with its line; what it says is never
changed, so whether a number is accepted is for `sheet` to tell.
"""

import decimal
import math
import re
import struct
from typing import NamedTuple

from files import Problem

SHAPES = ["conical", "ogive", "elliptical", "power", "parabolic", "haack"]
WITH_PARAMETER = {"ogive", "power", "parabolic", "haack"}
SETTINGS = ["diameter", "roughness", "fineness"]  # bits 0 to 2 of the settings card
SEVERAL = 4  # its bit for several finishes
PART_NAMES = ["length", "aft", "angle", "wetted", "roughness"]  # bits 2 to 6 of a part card
STATEMENTS = ["name", *SETTINGS, "column", "part"]
FINISHES = 4
MOST_COLUMNS = 255  # that a count byte can tell
NUMBER = re.compile(r"[+-]?([0-9]+\.?[0-9]*|\.[0-9]+)([eE][+-]?[0-9]+)?|nan|-?inf", re.ASCII)
METRES = ["diameter", "length", "aft"]  # the names whose number is in metres
LENGTHS = {"mm": "0.001", "cm": "0.01", "m": "1", "in": "0.0254", "inch": "0.0254", "inches": "0.0254", '"': "0.0254",
           "ft": "0.3048", "um": "0.000001", "\u00b5m": "0.000001", "\u03bcm": "0.000001"}  # in metres
ANGLES = {"deg": math.pi / 180, "degree": math.pi / 180, "degrees": math.pi / 180, "\u00b0": math.pi / 180,
          "rad": 1.0}  # in radians
WITH_UNIT = re.compile(r"([+-]?(?:[0-9]+[.,]?[0-9]*|[.,][0-9]+)(?:[eE][+-]?[0-9]{1,3})?)(.*)", re.ASCII | re.DOTALL)
ORDINALS = ["first", "second", "third", "fourth", "fifth", "sixth", "seventh", "eighth", "ninth", "tenth",
            "eleventh", "twelfth", "13th", "14th", "15th", "16th", "17th"]


class Column(NamedTuple):
    """What the drag is asked at, and the line that says so."""
    line: int
    mach: float
    reynolds: float


class Part(NamedTuple):
    """A part as its line gives it."""
    line: int
    shape: str  # "" where none is given, which is conical
    parameter: float  # None where none is given
    numbers: dict  # from PART_NAMES, those that are given

    def number(self, name):
        """A number of the part; one that is left out counts as 0."""
        return self.numbers.get(name, 0.0)


class Rocket:
    """What a text says."""

    def __init__(self, source):
        self.source = source  # the text's file
        self.text = []  # its lines
        self.name = ""
        self.settings = {}  # from SETTINGS to their numbers, those that are given
        self.lines = {}  # from name and SETTINGS to the lines that give them
        self.columns = []
        self.parts = []

    def is_blank(self):
        """Whether it says nothing that is written into a card."""
        return not (self.settings or self.columns or self.parts)

    def kind(self, place):
        """What the part at a place is to somebody who looks at the rocket; "" where a diameter is no number."""
        fore = self.parts[place - 1].number("aft") if place else 0.0
        aft, length = self.parts[place].number("aft"), self.parts[place].number("length")
        if place == 0:
            return "nose"
        if aft == fore:
            return "tube"
        if aft < fore:
            return "boattail"
        if aft > fore:
            return "shoulder" if length > 0 else "step"
        return ""

    def label(self, place):
        """A part's name in rows and legends, and what it is."""
        kind = self.kind(place) if place < len(self.parts) else ""
        return f"part {place}, {kind}" if kind else f"part {place}"

    def labels(self):
        """The labels of the parts' rows, by the rows' names."""
        return {f"part {place}": self.label(place) for place in range(len(self.parts))}

    def card_line(self, card):
        """The line of the text that a part's card comes from, the nose's being 1; 0 where there is none."""
        return self.parts[card - 1].line if card <= len(self.parts) else 0


def of_card(card):
    """A card's place for people: the settings are card 0, the nose is part 0 and card 1."""
    if card == 0:
        return "the settings, card 0"
    part = "the nose" if card == 1 else f"the {ORDINALS[card - 1]} part" if card <= len(ORDINALS) else f"part {card}"
    return f"part {card - 1}, {part}, card {card}"


def to_metres(number, unit):
    """A length in metres, right to the digits given, as a word."""
    metres = (decimal.Decimal(number) * decimal.Decimal(LENGTHS[unit])).normalize()
    return f"{metres:f}" if -20 < metres.adjusted() < 20 else str(metres)


def advice(word, name):
    """What to write in place of a word after a name that is a number but for a comma or a unit; "" for any other."""
    match = WITH_UNIT.fullmatch(word)
    if not match:
        return ""
    number, unit = match[1].replace(",", "."), match[2].strip().lower()
    if not unit:
        return f"write the point: {number}" if "," in word else ""
    if unit not in LENGTHS and unit not in ANGLES:
        return ""
    if name in METRES and unit in LENGTHS:
        return f"write metres without a unit: {to_metres(number, unit)}"
    if name in METRES:
        return f"'{name}' is in metres, without a unit"
    if name == "angle" and unit in ANGLES:
        return f"write radians without a unit: {float(number) * ANGLES[unit]:.6g}"
    if name == "angle":
        return "'angle' is in radians, without a unit"
    if name == "roughness":
        return "a roughness is relative, its height over the body's length, and has no unit"
    return f"a number after '{name}' has no unit"


def to_number(word, name):
    """The number that a word after a name stands for; ValueError says what is wrong."""
    if not NUMBER.fullmatch(word):
        what = advice(word, name)
        raise ValueError(f"'{word}' is not a number" + (f"; {what}" if what else ""))
    if math.isinf(float(word)) and "inf" not in word:
        raise ValueError(f"'{word}' is too large for a number (write inf if that is meant)")
    return float(word)


def check_unit(number, unit, name):
    """ValueError if a word after a number is its unit."""
    what = advice(f"{number} {unit}", name) if NUMBER.fullmatch(number) or advice(number, name) else ""
    if what:
        raise ValueError(f"'{number} {unit}' is not a number; {what}")


def to_numbers(words, count, name):
    """Exactly so many numbers."""
    for number, unit in zip(words, words[1:]):
        check_unit(number, unit, name)
    if len(words) < count:
        raise ValueError(f"a number is missing after '{name}'")
    if len(words) > count:
        raise ValueError(f"'{words[count]}' is too much after '{name}'")
    return [to_number(word, name) for word in words]


def to_shape(words):
    """A shape and its parameter, which are taken from the words."""
    shape = words.pop(0)
    if shape not in SHAPES:
        raise ValueError(f"unknown shape '{shape}' (known: {', '.join(SHAPES)})")
    given = bool(words) and (NUMBER.fullmatch(words[0]) is not None or advice(words[0], shape) != "")
    if given and shape not in WITH_PARAMETER:
        raise ValueError(f"'{shape}' takes no parameter, but '{words[0]}' follows")
    if not given and shape in WITH_PARAMETER:
        raise ValueError(f"a number, the parameter, is missing after '{shape}'")
    return shape, to_number(words.pop(0), shape) if given else None


def to_part(line, words):
    """A part out of the words after `part`."""
    words = list(words)
    shape, parameter = to_shape(words) if words and words[0] not in PART_NAMES else ("", None)
    numbers = {}
    while words:
        name, value, words = words[0], words[1:2], words[2:]
        if name not in PART_NAMES:
            raise ValueError(f"unknown word '{name}' (known: {', '.join(PART_NAMES)})")
        if name in numbers:
            raise ValueError(f"'{name}' is given twice")
        if value and words:
            check_unit(value[0], words[0], name)
        numbers[name] = to_numbers(value, 1, name)[0]
    return Part(line, shape, parameter, numbers)


def take(rocket, line, key, words):
    """Takes one line of the text into the rocket."""
    if key in rocket.lines:
        raise ValueError(f"'{key}' is given twice")
    if key == "name":
        if not words:
            raise ValueError("the rocket's name is missing after 'name'")
        rocket.name = " ".join(words)
        rocket.lines[key] = line
    elif key in SETTINGS:
        if key == "roughness" and len(words) > FINISHES:
            raise ValueError(f"{len(words)} finishes after 'roughness', and no more than {FINISHES} fit")
        count = len(words) if key == "roughness" and words else 1
        rocket.settings[key] = to_numbers(words, count, key)
        rocket.lines[key] = line
    elif key == "column":
        if len(rocket.columns) == MOST_COLUMNS:
            raise ValueError(f"more than {MOST_COLUMNS} columns can't be written into a card")
        rocket.columns.append(Column(line, *to_numbers(words, 2, key)))
    elif key == "part":
        rocket.parts.append(to_part(line, words))
    else:
        raise ValueError(f"unknown word '{key}' (known: {', '.join(STATEMENTS)})")


def parse(source, lines):
    """The rocket that a text's lines tell."""
    rocket = Rocket(source)
    rocket.text = lines
    for number, line in enumerate(lines, 1):
        words = line.split("#", 1)[0].split()
        if not words:
            continue
        try:
            take(rocket, number, words[0], words[1:])
        except ValueError as error:
            raise Problem(source, number, str(error)) from None
    for key in ("diameter", "fineness"):
        if key not in rocket.settings and not rocket.is_blank():
            raise Problem(source, len(lines), f"'{key}' is not given in any line up to this last one")
    return rocket


def floats(numbers):
    return struct.pack(f"<{len(numbers)}d", *numbers)


def card(fields):
    """A bit map byte, then the fields that stand, in the order of their bits."""
    return bytes([sum(1 << bit for bit in fields)]) + b"".join(fields[bit] for bit in sorted(fields))


def settings_card(rocket):
    """The bytes of the settings card."""
    fields = {SETTINGS.index(key): floats(numbers) for key, numbers in rocket.settings.items() if len(numbers) == 1}
    if len(rocket.settings.get("roughness", [])) > 1:
        numbers = rocket.settings["roughness"]
        fields[SEVERAL] = bytes([len(numbers)]) + floats(numbers)
    if rocket.columns:
        pairs = [floats([column.mach, column.reynolds]) for column in rocket.columns]
        fields[3] = bytes([len(pairs)]) + b"".join(pairs)
    return card(fields)


def part_card(part):
    """The bytes of a part card."""
    fields = {2 + PART_NAMES.index(name): floats([number]) for name, number in part.numbers.items()}
    if part.shape:
        fields[0] = bytes([SHAPES.index(part.shape)])
    if part.parameter is not None:
        fields[1] = floats([part.parameter])
    return card(fields)


def to_cards(rocket):
    """The settings card and the part cards; no bytes for a text that says nothing."""
    if rocket.is_blank():
        return b""
    return settings_card(rocket) + b"".join(map(part_card, rocket.parts))
