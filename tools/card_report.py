"""The report of a rocket, for card.py: one page of HTML with what its text says and what `sheet` answers.

The page needs nothing else, no script and no other file. It is to be printed on one sheet of A4, however many
parts, columns and finishes there are, so the size of the letters is reckoned from all that has to stand on it.
"""

import math
from typing import NamedTuple

import sheet_plot
from card_text import FINISHES
from sheet_plot import escape, room
from sheet_rows import COLUMNS, MARKED, PLACES, decimal

# What to do about each refusal, as a pair: for the settings card, for a part card.
ADVICE = {
    1: ("Write a fineness above 0, and Mach and Reynolds numbers that are 0 or more.",
        "Look at the joint angle first: it is in radians, at most pi/2 (1.570796, 90 degrees). Then look at the "
        "shape's parameter, and at the diameters of this part and the part before it."),
    2: "Write 1 for a tangent ogive, or more than 1 for one that is flatter.",
    3: "Write a parameter from 0 (von Kármán) to 1/3 (LV-Haack, 0.3333).",
    6: ("Give diameter and fineness, and the roughness either alone or by finish.",
        "Give ogive, power, parabolic and haack their parameter, and no parameter to other shapes."),
    7: f"Leave columns out until there are {COLUMNS}; the others can go on a second card.",
    9: f"Leave parts out until there are {PLACES}, or join tubes that follow one another: their lengths and their "
       "wetted ratios add up.",
    11: ("The diameter is in metres: 54 mm are 0.054. The roughness is a height over the rocket's length, without a "
         "unit: 0.02 mm of paint on 1 m is 2e-5.",
         "Length and aft diameter are in metres: 250 mm are 0.25. The wetted ratio is the part's wetted area over the "
         "reference area, the roughness a height over the rocket's length: both have no unit."),
    19: f"Give at least one roughness, and no more than {FINISHES}.",
}
OTHER_ADVICE = "No text leads to this: write the card again with card.py write, and run sheet on it."

DIAMETERS = 0.001, 100  # of reference that refusal 11 lets pass

WIDE, HIGH = 190, 277  # A4 within its margins, in mm
POINT = 0.3528  # mm
LINE, DIGIT = 1.14, 0.58  # a line's height and a digit's width over their letters' size
SIZES = [tenths / 10 for tenths in range(95, 39, -1)]  # of the letters in print, in points, the best first
GOOD = 7  # a size at which the sheet needs no second table for larger letters
PLOT_LOWEST, PLOT_HIGHEST = 66, WIDE * sheet_plot.HIGH / sheet_plot.WHOLE  # of the plot in print, in mm

STYLE = """@page{size:A4 portrait;margin:10mm}
body{font-family:Arial,"Liberation Sans",Helvetica,sans-serif;color:#111;background:#fff;line-height:1.35;
max-width:62rem;margin:1rem auto;padding:0 1rem}
h1{font-size:1.6em;line-height:1.2;margin:0 0 .3em;overflow-wrap:anywhere}
h2{font-size:1.1em;margin:1em 0 .3em}
p,ul{margin:.3em 0}
ul{padding-left:1.2em}
pre{font-family:monospace;font-size:1em;white-space:pre-wrap;overflow-wrap:anywhere;margin:.3em 0;
padding:.2em .6em;border-left:3px solid #111}
.wide{overflow-x:auto}
table{border-collapse:collapse;font-size:.85em;font-variant-numeric:tabular-nums;margin:.8em 0}
caption{text-align:left;font-weight:bold}
th,td{text-align:right;padding:.1em .8em .1em .15em;white-space:nowrap;vertical-align:bottom}
th:first-child,.text{text-align:left}
th{font-weight:normal}
thead tr,tbody tr:nth-child(5n){border-bottom:1px solid #999}
.marked{padding-right:.22em}
svg{display:block;max-width:100%;height:auto;margin-top:.5em}
"""
PRINT = """@media print{{
body{{font-size:{size:.1f}pt;line-height:1.1;max-width:none;margin:0;padding:0}}
h2{{margin:.5em 0 .2em}}
p,ul{{margin:.2em 0}}
.wide{{overflow:visible}}
table{{font-size:1em;margin:.4em 0}}
th,td{{padding-top:0;padding-bottom:0}}
svg{{width:100%;height:{plot:.0f}mm;margin-top:.2em}}
}}
"""
HEADING = "Drag coefficients, referred to the circle of the reference diameter"
TEXT, MARK = ' class="text"', ' class="marked"'  # of a table's cells


class Column(NamedTuple):
    """A column of a table: the lines at its head, and its cells."""
    head: list
    cells: list
    text: bool = False  # words, which stand at the left

    def ems(self):
        """The room that it takes, in sizes of a letter."""
        return 0.95 + DIGIT * max(map(len, self.head + self.cells))


def given(x):
    """A number of the text."""
    return f"{x:.10g}"


def settings(rocket):
    """The settings in one sentence."""
    if rocket.is_blank():
        return "The text says nothing of the rocket yet: no settings, no columns, no parts."
    finishes = [given(x) for x in rocket.settings.get("roughness", [0.0])]
    rough = "roughness " + finishes[0]
    if len(finishes) > 1:
        rough = "finishes by roughness: " + ", ".join(f"{j}: {words}" for j, words in enumerate(finishes))
    diameter, fineness = (given(*rocket.settings[key]) for key in ("diameter", "fineness"))
    return f"Reference diameter {diameter} m; fineness {fineness}; {rough}."


def part_columns(rocket):
    """The table of the parts."""
    parts = rocket.parts
    shapes = [part.shape or "conical" for part in parts]
    shapes = [shape if part.parameter is None else f"{shape} {given(part.parameter)}"
              for shape, part in zip(shapes, parts)]
    numbers = {name: [part.number(name) for part in parts] for name in ("length", "aft", "angle", "wetted")}
    return [Column(["part"], [rocket.label(place) for place in range(len(parts))]),
            Column(["shape, parameter"], shapes, True),
            Column(["length", "m"], list(map(given, numbers["length"]))),
            Column(["aft diameter", "m"], list(map(given, numbers["aft"]))),
            Column(["joint angle", "rad"], list(map(given, numbers["angle"]))),
            Column(["joint angle", "degrees"], [f"{math.degrees(x):.4g}" for x in numbers["angle"]]),
            Column(["wetted", "ratio"], list(map(given, numbers["wetted"]))),
            Column(["roughness"], [given(part.numbers["roughness"]) if "roughness" in part.numbers else "the settings'"
                                   for part in parts])]


def is_bare(row):
    """Whether a row needs no column: it is zero throughout, and nothing in it is marked."""
    return not any(row.numbers) and not any(row.marks)


def sheet_columns(rocket, found):
    """The sheet, a line for each Mach number: what stands before each line, and the rows that aren't bare."""
    columns = [Column(["Mach"], list(map(given, found[0].numbers))),
               Column(["Reynolds"], [given(column.reynolds) for column in rocket.columns])]
    labels = rocket.labels()
    return columns, [Column(labels.get(row.name, row.name).split(", "),
                            [decimal(x) + "+" * mark for x, mark in zip(row.numbers, row.marks)])
                     for row in found[1:] if not is_bare(row)]


def notes(rocket, found):
    """What is to be said below the numbers: what is 0, what a mark means."""
    labels = rocket.labels()
    bare = [labels.get(row.name, row.name) for row in found[1:] if is_bare(row)]
    out = ["0 at each Mach number: " + "; ".join(bare) + "."] if bare else []
    return out + ([MARKED] if any(any(row.marks) for row in found) else [])


def line_of(rocket, refused):
    """The line of the text that a refusal comes from, 0 where none is known."""
    columns = rocket.columns
    if refused.card:
        return rocket.card_line(refused.card)
    if refused.number == 7:
        return columns[COLUMNS].line if len(columns) > COLUMNS else 0
    if refused.number == 1 and 0 < rocket.settings["fineness"][0] < math.inf:
        sound = (0 <= column.mach < math.inf and 0 <= column.reynolds < math.inf for column in columns)
        return next((column.line for column, good in zip(columns, sound) if not good), 0)
    narrowest, widest = DIAMETERS
    size = "roughness" if narrowest <= rocket.settings["diameter"][0] <= widest else "diameter"
    key = {1: "fineness", 11: size, 19: "roughness"}.get(refused.number)
    return rocket.lines.get(key, 0)


def refusal_words(rocket, refused):
    """The refusal, where it comes from, what that line says, and what to do; the line's are "" where none is known."""
    line = line_of(rocket, refused)
    advice = ADVICE.get(refused.number, OTHER_ADVICE)
    said = f"Line {line} of the text:" if line else ""
    words = refused.words()
    return (words[0].upper() + words[1:], said, rocket.text[line - 1].strip() if line else "",
            advice if isinstance(advice, str) else advice[min(refused.card, 1)])


def refusal_html(words):
    """The refusal where the sheet would stand."""
    why, said, line, advice = map(escape, words)
    quoted = [f"<p>{said}</p>", f"<pre>{line}</pre>"] if said else []
    return ["<h2>No sheet</h2>", f"<p><strong>{why}</strong></p>", *quoted, f"<p>{advice}</p>"]


def table(caption, columns):
    """A table whose first column names its lines."""
    heads = [f'<th scope="col"{TEXT * column.text}>{"<br>".join(map(escape, column.head))}</th>' for column in columns]
    out = ['<div class="wide"><table>', f"<caption>{escape(caption)}</caption>",
           f"<thead><tr>{''.join(heads)}</tr></thead>", "<tbody>"]
    for words in zip(*(column.cells for column in columns)):
        looks = [TEXT if column.text else MARK * word.endswith("+") for column, word in zip(columns, words)]
        cells = [f"<td{look}>{escape(word)}</td>" for look, word in zip(looks, words)]
        out.append(f'<tr><th scope="row">{escape(words[0])}</th>{"".join(cells[1:])}</tr>')
    return out + ["</tbody></table></div>"]


def split(before, columns, count):
    """The sheet's columns in so many tables, each with the same columns before them."""
    most = max(1, math.ceil(len(columns) / count))
    return [before + columns[first:first + most] for first in range(0, max(1, len(columns)), most)]


def largest(tables, words, lowest):
    """The largest size of the letters in print at which everything fits, and how much height is left for the plot."""
    wide = max([sum(column.ems() for column in columns) for columns in tables] + [0])
    for size in SIZES:
        lines = sum(len(columns[0].cells) + 4 for columns in tables)
        lines += sum(math.ceil(room(word, 1) * size * POINT / WIDE) for word in words)
        rest = HIGH - lines * size * POINT * LINE
        if wide * size * POINT <= WIDE and rest >= lowest:
            return size, min(rest, PLOT_HIGHEST)
    return SIZES[-1], lowest


def print_layout(parts, sheet, words, lowest):
    """For print: the letters' size, the plot's height, and the tables that the sheet is split into."""
    found = []
    for count in (1, 2, 3):
        tables = split(*sheet, count) if sheet else []
        found.append((*largest(([parts] if parts[0].cells else []) + tables, words, lowest), tables))
        if found[-1][0] >= GOOD:
            return found[-1]
    return max(found, key=lambda layout: layout[0])


def sheet_html(rocket, found, tables, picture):
    """The sheet's numbers and its plot, or why there are none."""
    if not rocket.columns:
        return ["<p>The text has no columns, so there is no Mach number to give the drag at.</p>"]
    out = []
    for columns in tables:
        out += table(HEADING if not out else f"{HEADING}, continued", columns)
    out += [f"<p>{escape(words)}</p>" for words in notes(rocket, found)]
    return out + [picture or "<p>There is no plot: no number is finite, or one is too large.</p>"]


def page(rocket, found, refused, warnings):
    """The page: found are the sheet's rows, none where it was refused; a warning is a line and words."""
    title = rocket.name or "Rocket"
    parts, sheet = part_columns(rocket), sheet_columns(rocket, found) if found and rocket.columns else None
    picture = sheet_plot.plot(found, rocket.name or sheet_plot.NO_NAME, rocket.labels()) if sheet else None
    why = refusal_words(rocket, refused) if refused else ()
    slips = [f"Line {line}: {words}" for line, words in warnings]
    words = [title * 2, settings(rocket), *why, *notes(rocket, found), *slips]
    size, high, tables = print_layout(parts, sheet, words + ["a head"] * 5, PLOT_LOWEST if picture else 0)
    out = ["<!DOCTYPE html>", '<html lang="en">', "<head>", '<meta charset="utf-8">',
           '<meta name="viewport" content="width=device-width, initial-scale=1">', f"<title>{escape(title)}</title>",
           f"<style>\n{STYLE}{PRINT.format(size=size, plot=high)}</style>", "</head>", "<body>",
           f"<h1>{escape(title)}</h1>", f"<p>{escape(settings(rocket))}</p>"]
    if rocket.parts:
        out += table("Parts, from the nose backwards", parts)
    elif not rocket.is_blank():
        out.append("<p>The text has no parts.</p>")
    if refused:
        out += refusal_html(why)
    elif not rocket.is_blank():
        # In HTML the picture's language needs no name.
        inline = (picture or "").replace(' xmlns="http://www.w3.org/2000/svg"', "", 1).rstrip("\n")
        out += sheet_html(rocket, found, tables, inline)
    if slips:
        out += ["<h2>Warnings</h2>", "<ul>", *(f"<li>{escape(words)}</li>" for words in slips), "</ul>"]
    return "\n".join(out + ["</body>", "</html>"]) + "\n"
