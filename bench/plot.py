#!/usr/bin/env python3
"""plot.py TABLES OUT.svg: draws the tables that bench/run prints, port and original: time by the length of the name, by the limit and by
the rules, and what packs made to be slow and the slowest answers found take.

TABLES may hold other text too, so docs/SPEED.md does as well as what bench/run has printed. Every number in the picture stands in TABLES.
"""
import math
import re
import sys
from collections import namedtuple
from xml.sax.saxutils import escape

WIDTH, MARGIN, GAP = 1200, 40, 36
PORT, ORIGINAL, CHECKED = "port", "original", "port, checked call"
# colour, dashes, marker: to be told apart in grey and without colour too
Style = namedtuple("Style", "colour dashes marker")
STYLES = {PORT: Style("#12356f", "", "disc"), ORIGINAL: Style("#d9730d", "7 4", "box"), CHECKED: Style("#5b8fc9", "2 3", "ring")}
# what is drawn for a time that the tables round to 0.000 seconds
SHORTEST = 0.0005
INK, FAINT, GRID, PAPER = "#1d2530", "#5a6472", "#dde2e8", "#fbfbf9"

# a table: the cells of its head, and those of each row
Table = namedtuple("Table", "head rows")
# a line of a plot: its side, and its points
Line = namedtuple("Line", "side points")
# a plot: title, the sides of its axes, its lines, the places that are named at the foot, and a word in a corner
Plot = namedtuple("Plot", "title foot lines ticks word")
# a row of bars: words, seconds by side, and the sides that were cut
Bar = namedtuple("Bar", "words seconds cut")


# ---- reading

def cells_of(line):
    return [cell.strip() for cell in line.strip().strip("|").split("|")]


def tables_of(text):
    """Every table of a text; a row with fewer cells than its head is left out."""
    tables = []
    for block in re.findall(r"^\|.*\n\|[-|]+\n(?:\|.*\n?)*", text, re.MULTILINE):
        head, _, *rows = map(cells_of, block.strip().split("\n"))
        tables.append(Table(head, [row for row in rows if len(row) == len(head)]))
    return tables


def table_of(tables, first, wanted):
    """The table whose first column has this name and which has that column too; None where there is none."""
    return next((table for table in tables if table.head[0].startswith(first) and wanted in table.head), None)


def column(table, name):
    place = table.head.index(name)
    return [row[place] for row in table.rows]


def machine_of(text):
    """The line that says what was measured on."""
    found = re.search(r"^\w+ \w+, .*rustc [0-9.]*[0-9]", text, re.MULTILINE)
    return found.group(0) if found else ""


# ---- what is drawn

def length_plots(table):
    """A plot for each setting."""
    rows = [re.match(r"(\w+, limit \d+), (\d+) bytes", words) for words in column(table, table.head[0])]
    port, original, times = (column(table, name) for name in ("port, µs", "original, µs", "original / port"))
    for setting in dict.fromkeys(row.group(1) for row in rows):
        taken = [place for place, row in enumerate(rows) if row.group(1) == setting]
        lengths = [int(rows[place].group(2)) for place in taken]
        lines = [Line(side, [(length, float(values[place])) for length, place in zip(lengths, taken)])
                 for side, values in ((ORIGINAL, original), (PORT, port))]
        word = "%s times as fast at %d bytes" % (times[taken[-1]], lengths[-1])
        yield Plot(setting, "bytes of the name", lines, lengths, word)


def limit_plot(table):
    limits = [int(limit) for limit in column(table, "limit")]
    lines = [Line(side, list(zip(limits, map(float, column(table, name))))) for side, name in ((ORIGINAL, "original, µs"), (PORT, "port, µs"))]
    word = "%s times as fast at limit %d" % (column(table, "original / port")[-1], limits[-1])
    return Plot("By the limit (surnames, approx)", "limit", lines, limits, word)


def rules_plot(table):
    sizes = [int(size) for size in column(table, "bytes of the pack")]
    names = ((ORIGINAL, "the original's, µs"), (CHECKED, "a checked call, µs"), (PORT, "a name in bulk, µs"))
    lines = [Line(side, list(zip(sizes, map(float, column(table, name))))) for side, name in names]
    word = "%s times as fast by all rules" % column(table, "original / port")[-1]
    return Plot("By the rules (surnames, approx, limit 20)", "bytes of the pack", lines, sizes, word)


def seconds_in(cell, scale):
    """Seconds of a cell, and whether it says only that they were more."""
    found = re.fullmatch(r"(over )?([0-9.]+)", cell)
    return (float(found.group(2)) * scale, found.group(1) is not None) if found else (None, False)


def bars_of(table, unit, scale):
    """A row for each of a table, without what a side has no time for."""
    for place, words in enumerate(column(table, table.head[0])):
        told = {side: seconds_in(column(table, "%s, %s" % (side, unit))[place], scale) for side in (PORT, ORIGINAL)}
        seconds = {side: max(value, SHORTEST * scale) for side, (value, _) in told.items() if value is not None}
        yield Bar(words, seconds, [side for side, (_, cut) in told.items() if cut])


# ---- drawing

class Drawing:
    """The parts of an SVG file, one under the other."""

    def __init__(self):
        self.parts, self.height = [], MARGIN

    def put(self, part, *values):
        self.parts.append(part % values)

    def text(self, x, y, words, size=13, colour=INK, anchor="start", weight="normal", turned=False):
        turn = ' transform="rotate(-90 %.1f %.1f)"' % (x, y) if turned else ""
        self.put('<text x="%.1f" y="%.1f" font-size="%d" fill="%s" text-anchor="%s" font-weight="%s"%s>%s</text>', x, y, size, colour, anchor,
                 weight, turn, escape(words))

    def line(self, x, y, to_x, to_y, colour=GRID, width=1.0, dashes=""):
        self.put('<line x1="%.1f" y1="%.1f" x2="%.1f" y2="%.1f" stroke="%s" stroke-width="%.1f"%s/>', x, y, to_x, to_y, colour, width,
                 ' stroke-dasharray="%s"' % dashes if dashes else "")

    def path(self, points, style):
        dashes = ' stroke-dasharray="%s"' % style.dashes if style.dashes else ""
        places = " ".join("%.1f,%.1f" % point for point in points)
        self.put('<polyline points="%s" fill="none" stroke="%s" stroke-width="2.2"%s/>', places, style.colour, dashes)

    def marker(self, x, y, style):
        if style.marker == "box":
            self.put('<rect x="%.1f" y="%.1f" width="9" height="9" fill="%s" stroke="%s" stroke-width="2"/>', x - 4.5, y - 4.5, PAPER, style.colour)
        else:
            self.put('<circle cx="%.1f" cy="%.1f" r="4.8" fill="%s" stroke="%s" stroke-width="2"/>', x, y,
                     style.colour if style.marker == "disc" else PAPER, style.colour)

    def arrow(self, x, y, style):
        """That it is more than this."""
        self.put('<path d="M %.1f %.1f l 9 0 m -5 -5 l 6 5 l -6 5" fill="none" stroke="%s" stroke-width="2"/>', x + 6, y, style.colour)

    def whole(self):
        head = ('<svg xmlns="http://www.w3.org/2000/svg" width="%d" height="%d" viewBox="0 0 %d %d" font-family="DejaVu Sans, Verdana, sans-serif">'
                % (WIDTH, self.height, WIDTH, self.height))
        return "\n".join([head, '<rect width="100%%" height="100%%" fill="%s"/>' % PAPER] + self.parts + ["</svg>", ""])


class Scale:
    """From values to places, by logarithms."""

    def __init__(self, low, high, start, end):
        self.low, self.high, self.start, self.end = math.log10(low), math.log10(high), start, end

    def __call__(self, value):
        return self.start + (math.log10(value) - self.low) / (self.high - self.low) * (self.end - self.start)

    def decades(self):
        return [10.0 ** power for power in range(math.ceil(self.low - 1e-9), math.floor(self.high + 1e-9) + 1)]


def around(values):
    """Decades around values."""
    low, high = math.floor(math.log10(min(values)) + 1e-9), math.ceil(math.log10(max(values)) - 1e-9)
    return 10.0 ** low, 10.0 ** max(high, low + 1)


def shown_time(seconds):
    """A round time with its unit."""
    for unit, scale in (("s", 1), ("ms", 1e-3), ("µs", 1e-6)):
        if seconds >= scale * 0.999:
            return "%.0f %s" % (seconds / scale, unit)
    return "%.1f µs" % (seconds * 1e6)


def draw_plot(drawing, plot, frame, bounds):
    """A plot within a frame (left, top, width, height) whose times go between bounds."""
    left, top, width, height = frame
    across = Scale(min(plot.ticks) / 1.15, max(plot.ticks) * 1.15, left, left + width)
    up = Scale(*bounds, top + height, top)
    for value in up.decades():
        drawing.line(left, up(value), left + width, up(value))
        drawing.text(left - 8, up(value) + 4, shown_time(value * 1e-6), 12, FAINT, "end")
    for value in plot.ticks:
        drawing.line(across(value), top + height, across(value), top + height + 5, FAINT)
        drawing.text(across(value), top + height + 19, "%d" % value, 12, FAINT, "middle")
    drawing.line(left, top + height, left + width, top + height, FAINT)
    drawing.text(left + width / 2, top + height + 37, plot.foot, 13, INK, "middle")
    drawing.text(left, top - 12, plot.title, 14, INK, weight="bold")
    drawing.text(left + width, top + height - 9, plot.word, 12, FAINT, "end")
    for line in plot.lines:
        places = [(across(x), up(y)) for x, y in line.points]
        drawing.path(places, STYLES[line.side])
        for place in places:
            drawing.marker(*place, STYLES[line.side])


def draw_row(drawing, plots, height):
    """Plots side by side, with the same times."""
    bounds = around([y for plot in plots for line in plot.lines for _, y in line.points])
    room, top = (WIDTH - 2 * MARGIN + GAP - 18) / len(plots), drawing.height + 24
    drawing.text(MARGIN + 8, top + height / 2, "time for a name", 13, INK, "middle", turned=True)
    for number, plot in enumerate(plots):
        draw_plot(drawing, plot, (MARGIN + 76 + number * room, top, room - GAP - 58, height), bounds)
    drawing.height += height + 100


def cut_words(words, most):
    """Words in lines of about so many characters."""
    lines = [""]
    for word in words.split(" "):
        if lines[-1] and len(lines[-1]) + 1 + len(word) > most:
            lines.append("")
        lines[-1] = (lines[-1] + " " + word).strip()
    return lines


def draw_bars(drawing, title, foot, bars, labels):
    """A row for each, its words at the left in a room of `labels`, its times as markers."""
    top, left = drawing.height + 30, MARGIN + labels
    words = [cut_words(bar.words, int(labels / 6.6)) for bar in bars]
    heights = [max(24, 15 * len(lines) + 9) for lines in words]
    bottom = top + sum(heights)
    scale = Scale(*around([value for bar in bars for value in bar.seconds.values()]), left, WIDTH - MARGIN - 30)
    drawing.text(MARGIN, drawing.height, title, 14, INK, weight="bold")
    for value in scale.decades():
        drawing.line(scale(value), top - 6, scale(value), bottom)
        drawing.text(scale(value), bottom + 19, shown_time(value), 12, FAINT, "middle")
    for bar, lines, height in zip(bars, words, heights):
        middle = top + height / 2 - 3
        for number, line in enumerate(lines):
            drawing.text(left - 14, middle + 4 + 15 * (number - (len(lines) - 1) / 2), line, 12, INK, "end")
        draw_bar(drawing, bar, scale, middle)
        top += height
    drawing.text((left + WIDTH - MARGIN) / 2, bottom + 37, foot, 13, INK, "middle")
    drawing.height = bottom + 88


def draw_bar(drawing, bar, scale, y):
    """The markers of a row, one above the other where they would hide each other."""
    places = {side: scale(value) for side, value in bar.seconds.items()}
    near = len(places) == 2 and abs(places[PORT] - places[ORIGINAL]) < 9
    if len(places) == 2:
        drawing.line(places[PORT], y, places[ORIGINAL], y, "#b9c1cb", 2)
    for side, x in places.items():
        place = y + (0 if not near else -5.5 if side == PORT else 5.5)
        drawing.marker(x, place, STYLES[side])
        if side in bar.cut:
            drawing.arrow(x, place, STYLES[side])


def draw_head(drawing, machine):
    drawing.text(MARGIN, drawing.height + 10, "Time to spell a name: the port and the original", 22, INK, weight="bold")
    drawing.text(MARGIN, drawing.height + 34, "%s; processor time, all scales logarithmic, lower is better" % machine, 13, FAINT)
    x = MARGIN
    for side, style in STYLES.items():
        drawing.path([(x, drawing.height + 60), (x + 44, drawing.height + 60)], style)
        drawing.marker(x + 22, drawing.height + 60, style)
        drawing.text(x + 54, drawing.height + 64.5, side, 13)
        x += 84 + 8 * len(side)
    drawing.height += 104


def picture(text):
    """The picture of the tables of a text; those that it lacks are left out."""
    tables, drawing = tables_of(text), Drawing()
    draw_head(drawing, machine_of(text))
    lengths = table_of(tables, "rules, limit, bytes", "port, µs")
    if lengths:
        drawing.text(MARGIN, drawing.height, "By the length of the name (one word), a name in bulk", 14, INK, weight="bold")
        drawing.height += 22
        draw_row(drawing, list(length_plots(lengths)), 230)
    limits, rules = table_of(tables, "limit", "port, µs"), table_of(tables, "rules", "bytes of the pack")
    plots = ([limit_plot(limits)] if limits else []) + ([rules_plot(rules)] if rules else [])
    if plots:
        draw_row(drawing, plots, 210)
    slow, slowest = table_of(tables, "texts, bytes they share", "port, µs"), table_of(tables, "what", "port, s")
    if slow:
        draw_bars(drawing, "A name by packs made to be slow (%s)" % slow.head[0], "time for the name", list(bars_of(slow, "µs", 1e-6)), 230)
    if slowest:
        draw_bars(drawing, "The slowest answers found", "time for the name; an arrow where a side was cut", list(bars_of(slowest, "s", 1)), 520)
    drawing.height += MARGIN - 44
    return drawing.whole()


def main(source, target):
    with open(source, encoding="utf-8") as file:
        text = file.read()
    with open(target, "w", encoding="utf-8") as file:
        file.write(picture(text))


if __name__ == "__main__":
    if len(sys.argv) != 3:
        sys.exit(__doc__)
    main(*sys.argv[1:])
