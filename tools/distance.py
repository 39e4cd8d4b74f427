#!/usr/bin/env python3
"""How far the table lookup is from the exact broken line through Stoney's points.

    python3 tools/distance.py                     the worst error found for each nose
    python3 tools/distance.py NOSE MACH           one Mach number, worked out exactly
    python3 tools/distance.py --port FILE ...     the same of the compiled library's lookup

NOSE is a number from 0 to 8 (docs/REFERENCE.md, Tables) or a name as in the list that is printed.
--searched N sets how many Mach numbers of each segment are tried (20000), --port asks a shared
library made from target/staticlib/libcobalnis.a (docs/DISTANCE.md) and not the lookup below.

The points are read from crates/stoney/specs/Tables.antt. Python's floats are binary64 and its
operators round as IEEE 754 says, so `lookup` is the lookup of crates/stoney/src/lib.rt operation
by operation. The line and the distance are whole numbers and fractions; nothing in them is rounded.
"""

import argparse
import ctypes
import functools
import math
import pathlib
import random
import re
import signal
import sys
from fractions import Fraction

TABLES = pathlib.Path(__file__).resolve().parent.parent / "crates/stoney/specs/Tables.antt"
BOUND = Fraction(1, 2**50)
UNIT = 1074  # every binary64 number is a whole number of 2^-1074
LIMIT = 0.8  # where the two tables that start at 1.2 are run down to


def read_tables():
    """The noses in order, each with its points (Mach, drag) as binary64 numbers."""
    text = TABLES.read_text(encoding="utf-8")
    names = re.search(r"^noses = (.*)$", text, re.M).group(1).replace(" ∷ []", "").split(" ∷ ")
    tables = {}
    for name in names:
        body = re.search(rf"^tabled {name} =\n((?:    .*\n)+)", text, re.M).group(1)
        pairs = [(int(m), int(c)) for m, c in re.findall(r"\((\d+), (\d+)\)", body)]
        # a quotient of two whole numbers is the binary64 number nearest to it
        tables[name] = [(m / 1000, c / 10000) for m, c in pairs]
    return tables


def lookup(points, mach):
    """crates/stoney/src/lib.rt, `walk_points`: the value alone."""
    m0, c0 = points[0]
    if mach < m0:
        if m0 > LIMIT:
            return c0 / (m0 - LIMIT) * (mach - LIMIT) if mach >= LIMIT else 0.0
        return c0
    for m1, c1 in points[1:]:
        if mach < m1:
            return c0 + (c1 - c0) / (m1 - m0) * (mach - m0)
        m0, c0 = m1, c1
    return c0


def port_lookup(path):
    """The same question, with the nose's number, to the compiled library."""
    try:
        ask = ctypes.CDLL(str(pathlib.Path(path).resolve())).cobalnis_nose_lookup
    except (OSError, AttributeError) as error:
        sys.exit(f"distance.py: {error}")
    ask.argtypes = [ctypes.c_uint32, ctypes.c_double, ctypes.POINTER(ctypes.c_uint64)]
    ask.restype = ctypes.c_uint32
    words = (ctypes.c_uint64 * 3)()

    def answer(nose, mach):
        if ask(nose, mach, words) != 0:
            sys.exit(f"distance.py: the library refused nose {nose}")
        return ctypes.c_double.from_buffer(words).value

    return answer


def corners(points):
    """The line's corners: a table that starts at 1.2 has one more, drag 0 at Mach 0.8."""
    return [(LIMIT, 0.0)] + points if points[0][0] > LIMIT else points


def units(number):
    over, under = number.as_integer_ratio()
    return (over << UNIT) // under


def around(line, mach):
    """The two corners around a Mach number; outside the line the corner at its end, twice."""
    for left, right in zip(line, line[1:]):
        if left[0] <= mach < right[0]:
            return left, right
    end = line[0] if mach < line[0][0] else line[-1]
    return end, end


def height(left, right, mach):
    """The line's height there as (over, under), in units of 2^-1074."""
    if left == right:
        return units(left[1]), 1
    x, y, z, w = (units(number) for number in (*left, *right))
    m = units(mach)
    return y * (z - m) + w * (m - x), z - x


def error(line, mach, value):
    over, under = height(*around(line, mach), mach)
    return Fraction(abs(units(value) * under - over), under << UNIT)


def on_the_line(line):
    """Mach numbers at which nothing may be off: the corners, and all that is level."""
    first, last = line[0][0], line[-1][0]
    outside = [0.0, -0.0, 5e-324, 0.5, math.nextafter(first, 0.0), math.nextafter(last, math.inf)]
    return [mach for mach, _ in line] + outside + [10.0, sys.float_info.max]


def worst(line, answer, count, source):
    """The largest error found between the corners, and where: beside each corner and at random."""
    found = (Fraction(0), 0.0)
    for left, right in zip(line, line[1:]):
        (x, y), (z, w) = map(units, left), map(units, right)
        here = (0, left[0])
        tried = [math.nextafter(left[0], right[0]), math.nextafter(right[0], left[0])]
        tried += (source.uniform(left[0], right[0]) for _ in range(count))
        for mach in tried:
            if left[0] <= mach < right[0]:
                m = units(mach)
                off = abs(units(answer(mach)) * (z - x) - (y * (z - m) + w * (m - x)))
                here = max(here, (off, mach))
        found = max(found, (Fraction(here[0], (z - x) << UNIT), here[1]))
    return found


def rounded_slope(line):
    """Of all segments the slope's largest error over the width, in steps of 2^-54, and the steepest."""
    slopes = [(left, right, (right[1] - left[1]) / (right[0] - left[0])) for left, right in zip(line, line[1:])]
    off = max(abs(Fraction(s) * (Fraction(b[0]) - Fraction(a[0])) - (Fraction(b[1]) - Fraction(a[1]))) for a, b, s in slopes)
    return off * 2**54, max(abs(s) for _, _, s in slopes)


def show_all(tables, answers, count):
    print("nose                   points  worst error  of 2^-50  at Mach")
    most = Fraction(0)
    slopes = [rounded_slope(corners(points)) for points in tables.values()]
    for name, points in tables.items():
        line, answer = corners(points), answers[name]
        for mach in on_the_line(line):
            if error(line, mach, answer(mach)) != 0:
                sys.exit(f"distance.py: {name} is off the line at Mach {mach!r}")
        off, mach = worst(line, answer, count, random.Random(name))
        most = max(most, off)
        print(f"{name:22} {len(points):6}   {float(off):.3e}    {float(off / BOUND):.4f}  {mach!r}", flush=True)
    print(f"at every tabled Mach, 0.8 included: 0; the worst of all: {float(most / BOUND):.4f} of 2^-50")
    print(f"a rounded slope over its segment: at most {float(max(slopes)[0]):.3f} × 2^-54; the steepest: {max(s for _, s in slopes):.3f}")
    if most > BOUND:
        sys.exit("distance.py: above the bound")


def show_one(name, points, mach, value):
    line = corners(points)
    left, right = around(line, mach)
    over, under = height(left, right, mach)
    exact = Fraction(over, under << UNIT)
    print(f"{name} at Mach {mach!r}")
    for word, (m, c) in (("from", left), ("to", right)):
        print(f"  {word:5} Mach {m!r} = {Fraction(m)}")
        print(f"        drag {c!r} = {Fraction(c)}")
    print(f"  line  {exact}")
    print(f"        = {float(exact)!r}, rounded")
    print(f"  value {Fraction(value)}")
    print(f"        = {value!r}")
    off = abs(Fraction(value) - exact)
    print(f"  apart {off}")
    print(f"        = {float(off):.4e}, {float(off / BOUND):.4f} of 2^-50")


def main():
    parser = argparse.ArgumentParser(description=__doc__.splitlines()[0])
    parser.add_argument("nose", nargs="?")
    parser.add_argument("mach", nargs="?", type=float)
    parser.add_argument("--port", metavar="FILE")
    parser.add_argument("--searched", metavar="N", type=int, default=20000)
    given = parser.parse_args()
    tables = read_tables()
    names = list(tables)
    if given.port:
        ask = port_lookup(given.port)
        answers = {name: functools.partial(ask, place) for place, name in enumerate(names)}
    else:
        answers = {name: functools.partial(lookup, points) for name, points in tables.items()}
    if given.nose is None:
        show_all(tables, answers, given.searched)
        return
    name = names[int(given.nose)] if given.nose.isdigit() and int(given.nose) < len(names) else given.nose
    if name not in tables:
        parser.error(f"no nose {given.nose}; there are {', '.join(names)}, or 0 to {len(names) - 1}")
    if given.mach is None or not math.isfinite(given.mach) or given.mach < 0:
        parser.error("give a finite Mach number from 0 up")
    show_one(name, tables[name], given.mach, answers[name](given.mach))


if __name__ == "__main__":
    if hasattr(signal, "SIGPIPE"):
        signal.signal(signal.SIGPIPE, signal.SIG_DFL)
    main()
