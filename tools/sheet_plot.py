"""The plot of a sheet's rows against Mach, as SVG, for card.py and its report.

Every row that isn't zero throughout is a line with a dot at each column, and from its last dot a thin
line leads to its name, so that print without colours can be read as well. Where a row's numbers are
marked, a table that they rest on has ended: the row's line is dashed from the last number before them
on, and a word at the highest of the dashed lines says that it is held.
"""

import html
import math
import re

LEFT, TOP, WIDTH, HEIGHT = 100, 64, 560, 380  # the frame around the curves
RIGHT, LOW = LEFT + WIDTH, TOP + HEIGHT
NAMES = RIGHT + 64  # where the names of the rows begin
WHOLE, HIGH = 960, LOW + 96  # the picture
MARGIN = 12
SIZE, LARGE = 13, 16  # of the letters, and of the title's
GAP = 17  # from one name to the next
NO_NAME = "Drag coefficient against Mach"

# The look of a row: parts are told apart by colour, then by dashes; of the other rows each has its
# colour, and finishes differ by their dashes alone.
PARTS = ["#1b6ca8", "#8e5ea2", "#b8860b", "#5b7083", "#d0648f", "#3aa6a0"]
COLOURS = {"friction": "#c8553d", "base": "#2e8b57", "total": "#111111"}
DASHES = ["", ' stroke-dasharray="6 4"', ' stroke-dasharray="2 3"', ' stroke-dasharray="10 3 2 3"']
HELD = ' stroke-dasharray="3 7"'  # of a line beyond its table, which no row has


def escape(words):
    """Words for XML and HTML; a character that these may not have becomes a replacement mark."""
    barred = "[^\t\n\x20-\x7e\xa0-\ud7ff\ue000-\ufdcf\ufdf0-\ufffd\U00010000-\U0010ffff]|[\U0001fffe\U0001ffff]"
    return html.escape(re.sub(barred, "\ufffd", words))


def room(words, size):
    """The room that words take at a size of letters, rather more than less."""
    ems = (1.0 if char in "mwMW@%" or not char.isascii() else 0.8 if char.isupper() else
           0.42 if char in " ,.:;'!|()ijlrtf" else 0.65 for char in words)
    return size * sum(ems)


def fitted(words, size, most):
    """Words that run no further than is allowed: shortened, with an ellipsis at their end."""
    if room(words, size) <= most:
        return words
    while words and room(words + "…", size) > most:
        words = words[:-1]
    return words.rstrip() + "…"


def ticks(values):
    """Round numbers around 0 and all the values."""
    low, high = min(values + [0.0]), max(values + [0.0])
    rough = (high - low if high - low > 1e-300 else 1.0) / 10
    power = 10.0 ** math.floor(math.log10(rough))
    step = next(m * power for m in (1, 2, 2.5, 5, 10, 20) if m * power >= rough)
    first, last = math.floor(low / step + 1e-9), math.ceil(high / step - 1e-9)
    return [k * step for k in range(first, max(last, first + 1) + 1)]


def svg_line(x1, y1, x2, y2, more):
    return f'<line x1="{x1:.1f}" y1="{y1:.1f}" x2="{x2:.1f}" y2="{y2:.1f}" {more}/>'


def svg_text(x, y, words, more=""):
    return f'<text x="{x:.1f}" y="{y:.1f}"{more}>{escape(words)}</text>'


def line_through(points, look):
    """A line through the points, interrupted where a number isn't finite; nothing where none is."""
    path, pen = "", "M"
    for x, y, _ in points:
        if math.isfinite(y):
            path += f"{pen}{x:.1f},{y:.1f} "
        pen = "L" if math.isfinite(y) else "M"
    return [f'<path d="{path.strip()}" fill="none" {look}/>'] if path else []


def stretches(points):
    """The points before the first that is marked, and those held: the last of the former and all from the first on."""
    first = next((k for k, (_, _, mark) in enumerate(points) if mark), len(points))
    return points[:first], points[max(first - 1, 0):] if first < len(points) else []


def look(name):
    """The colour and the dashes of a row."""
    kind, place = re.fullmatch(r"([a-z]+) ?([0-9]*)", name).groups()
    dash, colour = divmod(int(place or 0), len(PARTS)) if kind == "part" else (int(place or 0), None)
    return PARTS[colour] if kind == "part" else COLOURS[kind], DASHES[dash]


def curve(points, colour, dash):
    """One row: its line, dashed where it is held, and a dot at each column."""
    dots = [f'<circle cx="{x:.1f}" cy="{y:.1f}" r="2.8" fill="{colour}"/>' for x, y, _ in points if math.isfinite(y)]
    stroke = f'stroke="{colour}" stroke-width="2"'
    before, held = stretches(points)
    return dots + line_through(before, stroke + dash) + line_through(held, stroke + HELD)


def held_word(curves):
    """The word for the dashes, once: above the highest line that has them, from the middle of its first stretch on."""
    firsts = [[(x, y) for x, y, _ in stretches(points)[1][:2] if math.isfinite(y)] for points in curves]
    middles = [[sum(numbers) / len(first) for numbers in zip(*first)] for first in firsts if first]
    if not middles:
        return []
    x, y = min(middles, key=lambda middle: middle[1])
    halo = ' stroke="#ffffff" stroke-width="4" paint-order="stroke"'
    return [svg_text(min(x, RIGHT - 32), y - 9, "held", halo)]


def axes(xs, ys, to_x, to_y):
    """Grid lines, numbers at them, the frame, and the names of the axes."""
    grey, middle, end = 'stroke="#dddddd"', ' text-anchor="middle"', ' text-anchor="end"'
    half = TOP + HEIGHT / 2
    words = [f"{x:.6g}" for x in xs]
    apart = 2 if max(map(len, words)) > 5 else 1  # long numbers need the room of two
    out = [svg_line(to_x(x), TOP, to_x(x), LOW + 5, grey) for x in xs]
    out += [svg_line(LEFT - 5, to_y(y), RIGHT, to_y(y), grey) for y in ys]
    out += [svg_text(to_x(x), LOW + 21, word, middle) for x, word in list(zip(xs, words))[::apart]]
    out += [svg_text(LEFT - 8, to_y(y) + 4, f"{y:.6g}", end) for y in ys]
    out.append(f'<rect x="{LEFT}" y="{TOP}" width="{WIDTH}" height="{HEIGHT}" fill="none" stroke="#444444"/>')
    out.append(svg_text(LEFT + WIDTH / 2, LOW + 41, "Mach", middle))
    return out + [svg_text(16, half, "drag coefficient", middle + f' transform="rotate(-90 16 {half:.1f})"')]


def heading(title):
    """The title, and below a rocket's name what the plot shows."""
    out = [svg_text(LEFT, 28, fitted(title, LARGE, WHOLE - LEFT - MARGIN), f' font-size="{LARGE}"')]
    return out if title == NO_NAME else out + [svg_text(LEFT, 48, NO_NAME[0].lower() + NO_NAME[1:])]


def captions(columns, held):
    """What dots, lines and dashes mean, each with a sample before it."""
    black, end = 'stroke="#111111" stroke-width="2"', LEFT + 30
    out = [f'<circle cx="{x}" cy="{LOW + 60}" r="2.8" fill="#111111"/>' for x in (LEFT + 3, end)[:columns]]
    out += [svg_line(LEFT + 3, LOW + 60, end, LOW + 60, black)] if columns > 1 else []
    between = "; straight lines between them" if columns > 1 else ""
    out.append(svg_text(end + 10, LOW + 64, "dots: the Mach numbers asked" + between))
    if held:
        out.append(svg_line(LEFT, LOW + 78, end, LOW + 78, black + HELD))
        out.append(svg_text(end + 10, LOW + 82, "dashed: beyond its table, the last value held"))
    return out


def spread(wanted, lowest):
    """Heights near the wanted ones, which rise, with a gap between them, none below the lowest."""
    heights = []
    for y in wanted:
        heights.append(max([y] + [above + GAP for above in heights[-1:]]))
    for k in range(len(heights) - 1, -1, -1):
        heights[k] = min(heights[k], lowest - GAP * (len(heights) - 1 - k))
    return heights


def names(rows, curves, labels):
    """The names of the rows: at the curves' ends, in the order of these; then of those that have no curve."""
    ends, bare = [], []
    for row, points in zip(rows, curves):
        last = [(y, x) for x, y, _ in points if math.isfinite(y)][-1:]
        label = labels.get(row.name, row.name)
        if last and any(row.numbers):
            ends.append((*last[0], label, *look(row.name)))
        else:
            bare.append(label + (": not finite" if any(row.numbers) else ": 0 throughout"))
    ends.sort(key=lambda end: end[0])
    heights = spread([end[0] for end in ends], HIGH - MARGIN - GAP * len(bare))
    out, thin, swatch = [], 'stroke="#888888" stroke-width="0.6"', NAMES - 36
    for (y, x, label, colour, dash), at in zip(ends, heights):
        out += [svg_line(x, y, RIGHT, y, thin)] if x < RIGHT else []
        out.append(svg_line(RIGHT, y, swatch, at, thin))
        out.append(svg_line(swatch, at, NAMES - 6, at, f'stroke="{colour}" stroke-width="2"{dash}'))
    last = heights[-1] if heights else TOP
    heights += [last + GAP * (k + 1) for k in range(len(bare))]
    words = [fitted(word, SIZE, WHOLE - NAMES - MARGIN) for word in [end[2] for end in ends] + bare]
    return out + [svg_text(NAMES, at + 4, word) for word, at in zip(words, heights)]


def plot(found, title, labels):
    """The rows of a sheet as an SVG picture; None where they are no picture."""
    machs, rows = found[0].numbers, found[1:]
    finite = [x for row in rows for x in row.numbers if math.isfinite(x)]
    if not finite or not all(abs(x) < 1e100 for x in machs + finite):
        return None
    xs, ys = ticks(machs), ticks(finite)
    to_x = lambda x: LEFT + WIDTH * (x - xs[0]) / (xs[-1] - xs[0])
    to_y = lambda y: TOP + HEIGHT * (ys[-1] - y) / (ys[-1] - ys[0])
    order = sorted(range(len(machs)), key=machs.__getitem__)
    curves = [[(to_x(machs[k]), to_y(row.numbers[k]), row.marks[k]) for k in order] for row in rows]
    drawn = [(row, points) for row, points in zip(rows, curves) if any(row.numbers)]
    held = held_word([points for _, points in drawn])
    shown = escape(title if title == NO_NAME else f"{title}: {NO_NAME}")
    out = [f'<svg xmlns="http://www.w3.org/2000/svg" viewBox="0 0 {WHOLE} {HIGH}" width="{WHOLE}" height="{HIGH}" '
           f'font-family="sans-serif" font-size="{SIZE}" fill="#222222" role="img" aria-label="{shown}">',
           f"<title>{escape(title)}</title>",
           f'<rect width="{WHOLE}" height="{HIGH}" fill="#ffffff"/>']
    out += heading(title) + axes(xs, ys, to_x, to_y) + names(rows, curves, labels)
    for row, points in drawn:
        out += curve(points, *look(row.name))
    return "\n".join(out + held + captions(len(machs), bool(held)) + ["</svg>"]) + "\n"
