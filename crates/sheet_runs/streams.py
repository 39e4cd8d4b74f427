#!/usr/bin/env python3
"""The streams of `sheet_runs`: each line of the list below is a stream of card bytes and the answer that docs/REFERENCE.md gives for it.

    streams.py write > stdin     the streams, each after its length in two bytes, low byte first
    streams.py check < stdout    compares the answers that were printed with the list

An expected answer is `refused N card K`, or how many parts an accepted sheet has, how many columns, and, where that isn't one, how
many finishes; then each line that has a marked cell, its name and for each column `+` or, without a mark, `-`.
"""
import math
import struct
import sys

NAN = float("nan")
INF = float("inf")
THIRD = 1.0 / 3.0
ABOVE_THIRD = struct.unpack("<d", struct.pack("<Q", struct.unpack("<Q", struct.pack("<d", THIRD))[0] + 1))[0]
ABOVE_ONE = struct.unpack("<d", bytes.fromhex("010000000000f03f"))[0]
HALF_PI = struct.unpack("<d", bytes.fromhex("182d4454fb21f93f"))[0]
ABOVE_HALF_PI = struct.unpack("<d", bytes.fromhex("192d4454fb21f93f"))[0]


def f64(*xs):
    return b"".join(struct.pack("<d", x) for x in xs)


def settings(d=1.0, b=1.0, columns=None, roughness=None, finishes=None):
    """A settings card; no columns field where `columns` is None, no finishes field where `finishes` is."""
    fields = [(1, roughness), (3, columns), (4, finishes)]
    bits = 0b101 | sum(1 << k for k, field in fields if field is not None)
    body = f64(d) + (f64(roughness) if roughness is not None else b"") + f64(b)
    if columns is not None:
        body += bytes([len(columns)]) + b"".join(f64(m, r) for m, r in columns)
    if finishes is not None:
        body += bytes([len(finishes)]) + f64(*finishes)
    return bytes([bits]) + body


def part(shape=None, x=None, length=None, d=None, angle=None, w=None, roughness=None):
    """A part card with the fields that are given."""
    bits, body = 0, b""
    for k, value in enumerate([shape, x, length, d, angle, w, roughness]):
        if value is not None:
            bits |= 1 << k
            body += bytes([value]) if k == 0 else f64(value)
    return bytes([bits]) + body


def refused(n, k):
    return f"refused {n} card {k}"


STREAMS = []


def add(stream, answer):
    STREAMS.append((stream, answer))


ONE = settings(columns=[(0.0, 0.0)])
FIVE = [(0.0, 1e5), (0.5, 1e6), (0.9, 2e6), (1.2, 5e6), (2.0, 1e7)]
BARE = settings()

# the example (docs/REFERENCE.md, Example), and the last two rows of its Values
add(ONE + part(d=1.0), (1, 1))
add(ONE + part(length=1.0, d=1.0, angle=HALF_PI), (1, 1))
add(ONE + part(length=1.0, d=1.0, angle=ABOVE_HALF_PI), refused(1, 1))
add(ONE + part(5, THIRD, 1.0, 1.0), (1, 1))
add(ONE + part(5, ABOVE_THIRD, 1.0, 1.0), refused(3, 1))
# 1: B, a Mach, a Reynolds number, a joint angle, a power exponent, an overflowing fineness
add(settings(b=0.0), refused(1, 0))
add(settings(b=-1.0, columns=[(NAN, 0.0)]), refused(1, 0))
add(settings(columns=[(0.5, 1.0), (-0.5, 1.0)]), refused(1, 0))
add(settings(columns=[(0.5, INF)]), refused(1, 0))
add(ONE + part(d=1.0) + part(length=1.0, d=2.0, angle=NAN), refused(1, 2))
add(BARE + part(d=1.0) + part(d=0.5) + part(3, NAN, 1.0, 0.75), refused(1, 3))
add(BARE + part(length=100.0, d=5e-324), refused(1, 1))
# 2: an ogive's radius ratio, untested on a part that narrows
add(ONE + part(1, 0.9, 1.0, 1.0), refused(2, 1))
add(BARE + part(d=1.0) + part(1, NAN, 1.0, 2.0), refused(2, 2))
add(ONE + part(d=1.0) + part(1, 0.9, 1.0, 0.5), (2, 1))
# 3: Haack above 1/3
add(ONE + part(5, 0.4, 1.0, 1.0), refused(3, 1))
add(BARE + part(d=1.0) + part(5, INF, 1.0, 2.0), refused(3, 2))
# no bytes at all: the names alone
add(b"", (0, 0))
# 4: bytes that end inside a card, after one byte too
add(b"\x05", refused(4, 0))
add(b"\x0d", refused(4, 0))
add(ONE[:-1], refused(4, 0))
add(ONE + b"\x01", refused(4, 1))
add(BARE + part(d=1.0) + part(1, 1.0, 1.0)[:-1], refused(4, 2))
# 5: reserved bits, and shape bytes above 5, before anything that is missing; bit 4 of settings alone is 6, D and B being missed
add(b"\x10", refused(6, 0))
add(b"\xff", refused(5, 0))
add(b"\x80" + f64(1.0, 1.0), refused(5, 0))
add(ONE + b"\x80", refused(5, 1))
add(ONE + b"\xc0" + f64(0.5), refused(5, 1))
add(BARE + part(d=1.0) + b"\x81\x09", refused(5, 2))
add(BARE + part(6), refused(5, 1))
add(BARE + part(255, 1.0), refused(5, 1))
# 6: D or B missing; a parameter missing or barred, before its bytes
add(b"\x01", refused(6, 0))
add(b"\x04" + f64(1.0), refused(6, 0))
add(b"\x00", refused(6, 0))
add(BARE + b"\x01\x01", refused(6, 1))
add(BARE + part(d=1.0) + b"\x03\x00", refused(6, 2))
add(BARE + b"\x02", refused(6, 1))
add(BARE + b"\x03\x02", refused(6, 1))
add(BARE + b"\x03\x05", refused(4, 1))
# 7: at the count byte, before D is judged
add(settings(columns=[])[:-1] + bytes([33]), refused(7, 0))
add(settings(d=NAN, columns=[])[:-1] + bytes([255]) + bytes(16), refused(7, 0))
# 11: D, the roughness, L, d and w outside their intervals, NaN patterns too
add(settings(d=0.0009), refused(11, 0))
add(b"\x05" + bytes.fromhex("010000000000f07f") + f64(1.0), refused(11, 0))
add(settings(d=100.0, roughness=1.5), refused(11, 0))
add(settings(d=0.001, roughness=1.0, columns=[(0.3, 1e6)]), (0, 1))
add(ONE + part(length=101.0), refused(11, 1))
add(BARE + part(d=1.0) + part(length=1.0, d=NAN), refused(11, 2))
add(BARE + part(d=1.0) + part(d=1.0) + part(d=1.0, w=-1.0), refused(11, 3))
# no columns, a Mach of -0, a friction that is NaN, all shapes
add(BARE, (0, 0))
add(settings(columns=[]) + part(0, None, 1.0, 1.0, 0.2, 3.0) + part(2, None, 1.0, 2.0), (2, 0))
add(settings(columns=[(-0.0, 1e6)]), (0, 1))
add(settings(b=1e-320, columns=[(0.3, 1e6)]), (0, 1))
for shape, x in [(None, None), (0, None), (1, 1.0), (2, None)]:
    add(settings(columns=FIVE) + part(shape, x, 3.0, 1.0, 0.1, 8.0), (1, 5))
for shape, x in [(3, 0.5), (4, 1.0), (5, 0.0)]:
    add(settings(columns=FIVE) + part(shape, x, 3.0, 1.0, 0.1, 8.0), (1, 5, "part 0 ----+", "total ----+"))
# a club rocket: an ogive nose, a tube, a boattail
CLUB = settings(d=0.066, roughness=2e-5, b=18.0, columns=FIVE)
STACK = [part(1, 1.0, 0.3, 0.066, 0.0, 12.0), part(0, None, 0.8, 0.066, None, 48.0), part(0, None, 0.05, 0.05, None, 2.6)]
add(CLUB + b"".join(STACK), (3, 5))
# 16 parts, a 17th, a broken 17th, junk after the 17th; 32 columns and 16 parts are the longest text
SIXTEEN = b"".join(part(length=0.5, d=0.1 * (k + 1)) for k in range(16))
add(BARE + SIXTEEN, (16, 0))
add(ONE + SIXTEEN, (16, 1))
add(settings(columns=[(0.1 * k, 1e6) for k in range(32)]) + SIXTEEN, (16, 32))
add(BARE + SIXTEEN + part(d=1.0), refused(9, 17))
add(ONE + SIXTEEN + part(length=101.0), refused(9, 17))
add(BARE + SIXTEEN + b"\x08", refused(4, 17))
add(BARE + SIXTEEN + b"\x40", refused(4, 17))
add(BARE + SIXTEEN + b"\x80", refused(5, 17))
add(BARE + SIXTEEN + b"\x02", refused(6, 17))
add(BARE + SIXTEEN + part() + bytes(range(256)), refused(9, 17))
# a part's own roughness: on the nose alone, at both ends of its interval, -0 and in between; alone in its card; on a part that narrows
for k in [0.0, -0.0, 1.0, 5e-6]:
    add(CLUB + part(1, 1.0, 0.3, 0.066, 0.0, 12.0, k) + STACK[1], (2, 5))
add(ONE + b"\x40" + f64(2e-5), (1, 1))
add(ONE + part(d=1.0) + part(length=1.0, d=0.5, w=1.0, roughness=0.5), (2, 1))
# cut before its first byte and before its last
add(ONE + b"\x40", refused(4, 1))
add(ONE + b"\x40" + f64(2e-5)[:-1], refused(4, 1))
# outside its interval, after a w that is too; before the part's curve, and after a 17th part
for k in [1.5, -1.0, NAN, ABOVE_ONE, -5e-324]:
    add(ONE + part(roughness=k), refused(11, 1))
add(CLUB + STACK[0] + part(0, None, 0.8, 0.066, None, 48.0, 1.5), refused(11, 2))
add(ONE + part(w=-1.0, roughness=1.5), refused(11, 1))
add(ONE + part(1, 0.9, 1.0, 1.0, roughness=1.5), refused(11, 1))
add(BARE + SIXTEEN + part(roughness=1.5), refused(9, 17))
# the longest cards: 32 columns, 16 parts with every field and 16 roughnesses, a 17th, and the 17th cut before its last byte
LONGEST = settings(roughness=1e-5, columns=[(0.1 * k, 1e6) for k in range(32)])
LONGEST += b"".join(part(1, 1.0, 0.5, 0.1 * (k + 1), 0.0, 1.0, 1e-6 * (k + 1)) for k in range(16))
SEVENTEENTH = part(1, 1.0, 0.5, 1.7, 0.0, 1.0, 1e-6)
add(LONGEST, (16, 32))
add(LONGEST + SEVENTEENTH, refused(9, 17))
add(LONGEST + SEVENTEENTH[:-1], refused(4, 17))
# a stream cut after every byte of a stack of two parts, the first with its own roughness: whole only at a card's end
cards = [settings(roughness=1e-5, columns=[(0.5, 1e6)]), part(1, 1.0, 0.3, 0.066, 0.0, 12.0, 5e-6), STACK[1]]
whole = b"".join(cards)
ends = [len(b"".join(cards[: k + 1])) for k in range(len(cards))]
for cut in range(1, len(whole) + 1):
    passed = sum(1 for end in ends if end <= cut)
    add(whole[:cut], (passed - 1, 1) if cut in ends else refused(4, passed))

# a settings card's bits 5 to 7 are reserved, also with all others that may stand
for bits in [0x20, 0x40, 0x35, 0x3D, 0xF5, 0x3F]:
    add(bytes([bits]) + f64(1.0, 1.0), refused(5, 0))
# 1 to 4 finishes: without columns, and for the club's stack; both ends of the interval, -0, and one finish twice
PAINTS = [2e-6, 2e-5, 6e-5, 2e-4]


def sheet_of(parts, columns, finishes):
    """The answer for a sheet that is accepted."""
    return (parts, columns) if finishes == 1 else (parts, columns, finishes)


for count in range(1, 5):
    add(settings(finishes=PAINTS[:count]), sheet_of(0, 0, count))
    add(settings(d=0.066, b=18.0, columns=FIVE, finishes=PAINTS[:count]) + b"".join(STACK), sheet_of(3, 5, count))
add(settings(columns=FIVE, finishes=[0.0, -0.0, 1.0, 1.0]) + part(length=1.0, d=1.0, w=8.0), (1, 5, 4))
# a part's own roughness holds in every finish, among parts without one
add(settings(columns=FIVE, finishes=PAINTS) + part(1, 1.0, 3.0, 1.0, 0.0, 12.0, 1e-6) + part(length=9.0, d=1.0, w=40.0), (2, 5, 4))
# 19 at the count byte, after D's and B's bytes and the columns', whatever they are, and before a float that is cut or out of range
for count in [0, 5, 255]:
    add(settings(finishes=[])[:-1] + bytes([count]), refused(19, 0))
    add(settings(d=NAN, b=0.0, columns=[(NAN, NAN)], finishes=[])[:-1] + bytes([count]) + f64(1.5), refused(19, 0))
    add(settings(finishes=[])[:-1] + bytes([count]) + f64(1e-5)[:-1], refused(19, 0))
    add(settings(finishes=[])[:-1] + bytes([count]) + f64(*PAINTS) + part(d=1.0), refused(19, 0))
add(settings(columns=[], finishes=[])[:-2] + bytes([33, 5]), refused(7, 0))
# 6: one roughness and several together, also with D or B missing; before any byte of a field, and after a reserved bit
for bits in [0x17, 0x1F, 0x16, 0x13, 0x12]:
    add(bytes([bits]), refused(6, 0))
add(settings(roughness=1e-5, finishes=PAINTS), refused(6, 0))
add(settings(roughness=1.5, columns=FIVE, finishes=[]) + part(d=1.0), refused(6, 0))
for bits in [0x14, 0x11, 0x18]:
    add(bytes([bits]) + f64(1.0), refused(6, 0))
add(b"\x37", refused(5, 0))
# 4: the count byte missing, a float cut before its first byte and before its last, in the first finish and in the fourth
add(settings(finishes=[])[:-1], refused(4, 0))
add(settings(columns=FIVE, finishes=[])[:-1], refused(4, 0))
for count in [1, 4]:
    whole = settings(columns=[(0.5, 1e6)], finishes=PAINTS[:count])
    for cut in [1, 7, 8, 9]:
        add(whole[:-cut], refused(4, 0))
add(settings(finishes=[])[:-1] + bytes([3]) + f64(1.5, NAN), refused(4, 0))
# 11 for any roughness, before 1 for B and for a column
for at in range(4):
    for k in [2.0, ABOVE_ONE, NAN, -5e-324]:
        add(settings(b=0.0, columns=[(NAN, 0.0)], finishes=PAINTS[:at] + [k] + PAINTS[at + 1 :]), refused(11, 0))
add(settings(d=0.0, finishes=[2.0]), refused(11, 0))
add(settings(b=0.0, finishes=PAINTS), refused(1, 0))
# a part's own roughness out of range, and a 17th part
add(settings(finishes=PAINTS) + part(roughness=1.5), refused(11, 1))
add(settings(finishes=PAINTS) + SIXTEEN + part(d=1.0), refused(9, 17))
# the longest settings card, and with 16 parts of every field the longest stream and the longest text; a 17th, whole and cut
LONGEST = settings(columns=[(0.1 * k, 1e6) for k in range(32)], finishes=PAINTS)
LONGEST_STACK = b"".join(part(1, 1.0, 0.5, 0.1 * (k + 1), 0.0, 1.0, 1e-6 * (k + 1)) for k in range(16))
add(LONGEST, (0, 32, 4))
add(LONGEST[:-1], refused(4, 0))
add(LONGEST + LONGEST_STACK, (16, 32, 4))
add(LONGEST + LONGEST_STACK + SEVENTEENTH, refused(9, 17))
add(LONGEST + LONGEST_STACK + SEVENTEENTH[:-1], refused(4, 17))
# a stream cut after every byte of a settings card of two finishes and a part
cards = [settings(columns=[(0.5, 1e6)], finishes=[2e-6, 2e-5]), STACK[1]]
whole = b"".join(cards)
for cut in range(1, len(whole) + 1):
    passed = sum(1 for end in [len(cards[0]), len(whole)] if end <= cut)
    add(whole[:cut], (passed - 1, 1, 2) if cut in [len(cards[0]), len(whole)] else refused(4, passed))
# marks: a column just below, at and just above the last Mach of each of Stoney's tables, which are power 1/2, power 3/4, parabola 1/2 and
# 3/4, parabola 1, LV-Haack, von Karman, power 1/4 and ellipsoid; a shape is marked from just above the first of those that it reads
ENDS = [1.941, 1.967, 1.968, 1.975, 1.977, 1.994, 3.587]
BESIDE = settings(columns=[(mach, 1e7) for end in ENDS for mach in [math.nextafter(end, 0.0), end, math.nextafter(end, INF)]])
FROM = {
    1.941: "--+ +++ +++ +++ +++ +++ +++",
    1.967: "--- --+ +++ +++ +++ +++ +++",
    1.968: "--- --- --+ +++ +++ +++ +++",
    1.977: "--- --- --- --- --+ +++ +++",
    3.587: "--- --- --- --- --- --- --+",
}
# both references of a bracket are read, also at its ends, where the weight of one is 0
READS = [(2, None, 3.587)]
READS += [(3, 0.0, 3.587), (3, 0.125, 3.587), (3, 0.25, 1.941), (3, 0.4, 1.941)]
READS += [(3, 0.5, 1.941), (3, 0.6, 1.941), (3, 0.75, 1.967), (3, 0.9, 1.967), (3, 1.0, 1.967)]
READS += [(4, 0.0, 1.968), (4, 0.25, 1.968), (4, 0.5, 1.968), (4, 0.6, 1.968), (4, 0.75, 1.968), (4, 0.9, 1.968), (4, 1.0, 1.968)]
READS += [(5, 0.0, 1.977), (5, 0.2, 1.977), (5, THIRD, 1.977)]
for shape, x, end in READS:
    marks = FROM[end].replace(" ", "")
    add(BESIDE + part(shape, x, 3.0, 1.0, 0.1, 8.0), (1, 21, "part 0 " + marks, "total " + marks))
# cone and ogive read no table, and a part without length is a step whatever its shape
for shape, x, length in [(0, None, 3.0), (0, None, 0.5), (1, 1.0, 3.0), (1, 2.0, 0.5), (2, None, 0.0), (5, 0.0, 0.0), (5, 0.0, None)]:
    add(BESIDE + part(shape, x, length, 1.0, 0.1, 8.0), (1, 21))
# columns in any order, from Mach 0 to the largest; below Mach 0.8 no table is read, and an ellipsoid between 0.8 and 1.2 reads its at 1.2
MIXED = [(2.5, 1e7), (0.0, 1e5), (0.7, 1e6), (sys.float_info.max, 1e7), (0.8, 1e6), (1.0, 2e6), (1.9, 4e6), (4.0, 0.0)]
add(settings(columns=MIXED) + part(5, 0.1, 3.0, 1.0, 0.1, 8.0), (1, 8, "part 0 +--+---+", "total +--+---+"))
add(settings(columns=MIXED) + part(2, None, 3.0, 1.0, 0.1, 8.0), (1, 8, "part 0 ---+---+", "total ---+---+"))
add(settings(columns=MIXED) + part(2, None, 0.2, 1.0, 0.1, 8.0), (1, 8, "part 0 ---+---+", "total ---+---+"))
# a marked part before one that narrows or is level, which read no table whatever their shapes; a shoulder behind a cone is marked
TWO = settings(columns=[(1.9, 1e7), (2.5, 1e7)])
KARMAN = part(5, 0.0, 3.0, 1.0, 0.0, 8.0)
MARKED = ("part 0 -+", "total -+")
add(TWO + KARMAN + part(length=1.0, d=0.5, w=1.0), (2, 2, *MARKED))
add(TWO + KARMAN + part(5, 0.0, 1.0, 0.5, 0.0, 1.0), (2, 2, *MARKED))
add(TWO + KARMAN + part(5, 0.0, 9.0, 1.0, 0.0, 40.0), (2, 2, *MARKED))
add(TWO + KARMAN + part(d=0.0), (2, 2, *MARKED))
add(TWO + part(d=1.0) + part(5, 0.0, 9.0, 1.0), (2, 2))
add(TWO + part(0, None, 3.0, 1.0, 0.1, 8.0) + part(5, 0.0, 3.0, 1.5, 0.1, 8.0), (2, 2, "part 1 -+", "total -+"))
# marked parts whose tables end apart: a total is marked where either is
add(
    settings(columns=[(1.95, 1e7), (2.5, 1e7), (3.6, 1e7)]) + part(2, None, 3.0, 1.0) + part(3, 0.5, 3.0, 1.5) + part(1, 1.0, 3.0, 2.0),
    (3, 3, "part 0 --+", "part 1 +++", "total +++"),
)
# a cell that the area ratio makes 0, d so small that d * d is 0, is marked; not so a step, a cone and a part as wide as nothing before it
add(TWO + part(5, 0.0, 1e-170, 1e-170), (1, 2, *MARKED))
add(TWO + part(5, 0.0, 0.0, 1e-170), (1, 2))
add(TWO + part(0, None, 1e-170, 1e-170), (1, 2))
add(TWO + part(5, 0.0, 1.0, 0.0), (1, 2))
# finishes: every total is marked, no friction is
for count in range(2, 5):
    totals = [f"total {j} -+" for j in range(count)]
    add(settings(columns=[(1.9, 1e7), (2.5, 1e7)], finishes=PAINTS[:count]) + KARMAN + part(d=0.5), (2, 2, count, "part 0 -+", *totals))
# refused cards after a marked part
add(TWO + KARMAN + part(1, 0.9, 1.0, 2.0), refused(2, 2))
add(TWO + KARMAN + b"\x80", refused(5, 2))
# no columns and no marks; the longest text, with every part marked in every column
add(BARE + KARMAN, (1, 0))
SIXTEEN_MARKED = b"".join(part(5, 0.2, 0.5, 0.1 * (k + 1), 0.0, 1.0, 1e-6 * (k + 1)) for k in range(16))
ALL = [f"part {k}" for k in range(16)] + [f"total {j}" for j in range(4)]
LONGEST = settings(columns=[(2.0 + 0.1 * k, 1e6) for k in range(32)], finishes=PAINTS)
add(LONGEST + SIXTEEN_MARKED, (16, 32, 4, *(name + " " + "+" * 32 for name in ALL)))


def row_names(sheet):
    """The names of the lines that a sheet has, by how many of them are parts' and frictions'."""
    parts, finishes = (sum(line.startswith(word) for line in sheet) for word in ["part", "friction"])
    of_finish = [f" {j}" for j in range(finishes)] if finishes > 1 else [""]
    names = ["mach"] + [f"part {k}" for k in range(parts)] + ["friction" + j for j in of_finish]
    return parts, finishes, names + ["base"] + ["total" + j for j in of_finish]


def is_cell(name, word):
    """Whether a word is 16 digits, with or without a mark behind them; a Mach has none."""
    digits = word if name == "mach" else word.removesuffix("+")
    return len(digits) == 16 and "+" not in digits


def answer_of(sheet):
    """The numbers of parts, columns and finishes of a sheet's lines and the marks of those that have any, or the lines where they are no
    sheet's."""
    parts, finishes, names = row_names(sheet)
    rows = [line[len(name) :].split(" ")[1:] for name, line in zip(names, sheet)]
    good = len(names) == len(sheet) and all(f"{line} ".startswith(name + " ") for name, line in zip(names, sheet))
    good = good and all(len(row) == len(rows[0]) and all(is_cell(name, word) for word in row) for name, row in zip(names, rows))
    marks = [(name, "".join("+" if word.endswith("+") else "-" for word in row)) for name, row in zip(names, rows)]
    marked = tuple(f"{name} {row}" for name, row in marks if "+" in row)
    return sheet_of(parts, len(rows[0]), finishes) + marked if good else "\n".join(sheet)


def answers(text):
    """The printed answers: `refused ..`, or the numbers of a sheet."""
    found, sheet = [], []
    for line in text.split("\n")[:-1]:
        if line.startswith("refused "):
            found.append(line)
            continue
        sheet.append(line)
        if sum(x.startswith("total") for x in sheet) == sum(x.startswith("friction") for x in sheet) > 0:
            found.append(answer_of(sheet))
            sheet = []
    return found


if sys.argv[1:] == ["write"]:
    for stream, _ in STREAMS:
        sys.stdout.buffer.write(struct.pack("<H", len(stream)) + stream)
elif sys.argv[1:] == ["check"]:
    found = answers(sys.stdin.read())
    wanted = [answer for _, answer in STREAMS]
    bad = [(k, w, f) for k, (w, f) in enumerate(zip(wanted, found)) if w != f]
    for k, w, f in bad:
        print(f"stream {k}: expected {w}, found {f}")
    print(f"{len(wanted)} streams, {len(found)} answers, {len(bad)} differ")
    sys.exit(bool(bad) or len(found) != len(wanted))
else:
    sys.exit(__doc__)
