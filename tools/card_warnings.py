"""Warnings of slips in a card's text that `sheet` takes as they stand, for card.py.

Drag has no scale, so a text wholly in millimetres is no slip: sizes are only held against each other.
"""

import math
from typing import NamedTuple

# ---- From where on a number looks like a slip. ----
# In millimetres a size is at least this: no tube is 2 mm wide, and no club's rocket is 2 m wide.
MILLIMETRES = 2
# And at least so many times a width in metres: the slip makes it 1000 times too large, and the widest of a rocket is
# seldom 10 times as wide as the narrowest, nor a part's length below a tenth of its width.
MIXED = 100
# With all widths in millimetres and all lengths in metres, the widest is at least so many times the sum of the lengths:
# that is what the slip makes of a rocket 50 times as long as wide, and of a shorter one more.
FLAT = 20
# The length of a part over the larger of its diameters: whole club rockets have 10 to 40, darts too.
LONG = 50
# An angle in degrees is at least this, the least that people write; in radians it is 57 degrees, which no joint that
# flies has. It is at most a right angle.
ANGLES = 1, 90
# And it is more than so many times the slope of the part's sides, so that the angle of a blunt cone is none.
STEEP = 2
# A Mach number is below this, and a Reynolds number not: reentry is at Mach 30, and a rocket of 1 m length has a
# Reynolds number of 100 at 1.5 mm a second.
MACH_BELOW = 100
# The radius ratio of an ogive that is nearly a cone: it bulges a hundredth as far as the tangent ogive does.
STRAIGHT = 100
# The parameters at which a shape is another one.
OTHER_SHAPES = {
    ("power", 1): "is a cone, which is written conical (a half gives the paraboloid)",
    ("power", 0): "is a flat face (a half gives the paraboloid)",
    ("parabolic", 0): "is a cone, which is written conical (1 gives the full parabola)",
}


class Size(NamedTuple):
    """A width or a length of the text, finite and above 0."""
    line: int
    name: str
    value: float

    def __str__(self):
        return f"{self.name} {self.value:.10g}"


def sizes(rocket):
    """The widths, and the lengths."""
    given = [(rocket.lines["diameter"], "diameter", number) for number in rocket.settings.get("diameter", [])]
    given += [(part.line, name, part.number(name)) for part in rocket.parts for name in ("length", "aft")]
    found = [Size(*size) for size in given if 0 < size[2] < math.inf]
    return [size for size in found if size.name != "length"], [size for size in found if size.name == "length"]


def in_millimetres(widths, lengths):
    """The sizes that look like millimetres beside others in metres."""
    least = min(width.value for width in widths)
    large = [width for width in widths if width.value >= max(MILLIMETRES, MIXED * least)]
    widest = max(width.value for width in widths if width not in large)
    if least >= MILLIMETRES and lengths and widest >= FLAT * sum(length.value for length in lengths):
        return widths
    return large + [length for length in lengths if length.value >= max(MILLIMETRES, MIXED * widest)]


def mixed_sizes(rocket):
    """A warning for each line that has sizes in the unit that fewer of the text's sizes have."""
    widths, lengths = sizes(rocket)
    large = in_millimetres(widths, lengths) if widths else []
    small = [size for size in widths + lengths if size not in large and size.value < MILLIMETRES]
    if not (large and small):
        return []
    few, many = sorted((large, small), key=len)
    odd = "millimetres among metres" if few is large else "metres among millimetres"
    found = []
    for line in sorted({size.line for size in few}):
        here = [size for size in few if size.line == line]
        slip = here[0].value if few is large else many[0].value
        found.append((line, f"this reads like {odd}: {' and '.join(map(str, here))}, beside {many[0]} in line "
                            f"{many[0].line}; all sizes are in metres, {slip:.10g} mm is written {slip / 1000:.10g}"))
    return found


def long_part(rocket, place):
    """The words for a part that is too long for its diameters, or None."""
    part = rocket.parts[place]
    width = max(part.number("aft"), rocket.parts[place - 1].number("aft") if place else 0.0)
    length = part.number("length")
    if not (width > 0 and LONG * width < length < math.inf):
        return None
    return (f"length {length:.10g} is {length / width:.3g} times the part's diameter {width:.10g}, and whole club "
            "rockets are 10 to 40 times as long as wide: is the point misplaced in one of the two?")


def degrees(rocket, place):
    """The words for a joint angle that reads like degrees, or None."""
    part = rocket.parts[place]
    angle, fore = part.number("angle"), rocket.parts[place - 1].number("aft") if place else 0.0
    slope = math.atan2(abs(part.number("aft") - fore), 2 * part.number("length"))
    if not (ANGLES[0] <= angle <= ANGLES[1] and angle > STEEP * slope):
        return None
    return f"angle {angle:.10g} reads like degrees: {angle:.10g} degrees are {math.radians(angle):.6g} radians"


def other_shape(rocket, place):
    """The words for a parameter at which the shape is another one, or None."""
    _, shape, parameter, _ = rocket.parts[place]
    words = OTHER_SHAPES.get((shape, parameter))
    if shape == "ogive" and STRAIGHT <= parameter < math.inf:
        words = "is nearly a cone, which is written conical (1 gives the tangent ogive)"
    return words and f"{shape} {parameter:.10g} {words}"


def swapped(column):
    """The words for a Mach number that looks like a Reynolds number, or the other way round, or None."""
    _, mach, reynolds = column
    large = MACH_BELOW <= mach < math.inf
    if large and 0 <= reynolds < MACH_BELOW:
        return (f"Mach number {mach:.10g} and Reynolds number {reynolds:.10g} look swapped: the Mach number stands "
                "first")
    if large:
        return f"Mach number {mach:.10g} looks like a Reynolds number, or a speed: the Mach number stands first"
    if 0 < reynolds < MACH_BELOW:
        return f"Reynolds number {reynolds:.10g} looks like a Mach number: the Reynolds number stands second, or 0"
    return None


def warnings(rocket):
    """What looks like a slip: a list of lines and words, in the order of the lines."""
    found = mixed_sizes(rocket)
    told = {line for line, _ in found}
    for place, part in enumerate(rocket.parts):
        words = [degrees(rocket, place), other_shape(rocket, place)]
        if part.line not in told:
            words.append(long_part(rocket, place))
        found += [(part.line, word) for word in words if word]
    found += [(column.line, swapped(column)) for column in rocket.columns if swapped(column)]
    return sorted(found, key=lambda warning: warning[0])
