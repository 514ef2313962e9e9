#!/usr/bin/env python3
"""Draws a show as one page: viewer/show.py TRACE OUTPUT > page.html

TRACE is what the player read, OUTPUT what it wrote. The page has time across, the arrivals of each input above and the
departures of each output below, with a line for as long as a cell waited. It needs no network and no script.
"""
import re
import sys
from collections import defaultdict, deque
from html import escape

REFUSALS = {
    1: ("bad size", "the number of ports is not 1 to 16"),
    3: ("clock end", "the clock is at 4,294,967,295"),
    4: ("no such port", "an input or an output is not below the number of ports"),
    5: ("no such flow", "a flow is above 7"),
    6: ("out of turn", "an input is not above the one of the record before"),
    7: ("falling rank", "a cell of higher rank of the same flow is in the switch"),
    8: ("full", "64 cells of this input are in the switch"),
    9: ("bad line", "the text breaks the grammar"),
}

# Eight colours that stay apart for every common kind of colour vision. Inputs 8 to 15 take them again, drawn hollow.
COLOURS = ["#3b5bdb", "#e8590c", "#66ccee", "#aa3377", "#f1c232", "#8ab17d", "#8d6e63", "#bbbbbb"]
DARK_COLOURS = {"#3b5bdb", "#aa3377", "#8d6e63"}  # these take white letters

COLUMN = 54  # width of a slot at least
AXIS = 30  # height of the slot numbers
HEADING = 30  # height of a heading over lanes
ARRIVAL_LANE = 24
BLOCK_WIDTH, BLOCK = 48, 36  # a departure's block
LANE_GAP = 10
LABELS = 86  # width of the labels at the left


class Cell:
    """A cell of the show: `arrived` and `left` count slots from the first; `left` is None if it never did."""

    def __init__(self, line, arrived, fields):
        self.line, self.arrived, self.left = line, arrived, None
        self.input, self.output, self.flow, self.rank, self.tag = fields

    def flow_of(self):
        return self.input, self.output, self.flow

    def end(self, last):
        """The slot up to which it waited, in a show that ends before slot `last`."""
        return last if self.left is None else self.left


class Show:
    """What both texts say: the number of ports and the first slot (None if refused before), how many slots were played,
    their cells, the cells of the refused block, and the refusal's number and line or None."""

    def __init__(self):
        self.ports = self.first = self.refusal = None
        self.played, self.cells, self.turned_back = 0, [], []

    def slot_number(self, at):
        return self.first + at


# Reading


class Lines:
    """The lines of a text, each a key and a number."""

    def __init__(self, text):
        self.lines, self.at = text.split("\n")[:-1], 0

    def number(self, key):
        """The number of the next line if that has this key, or None."""
        if self.at == len(self.lines):
            return None
        found = re.fullmatch(key + "=(0|[1-9][0-9]{0,9})", self.lines[self.at])
        if found is None:
            return None
        self.at += 1
        return int(found[1])

    def record(self, keys):
        """The numbers of the next lines, one for each key, or None if one of them is not there."""
        start = self.at
        numbers = [self.number(key) for key in keys]
        if None in numbers:
            self.at = start
            return None
        return numbers


def read_trace(trace):
    """Ports and first slot, and the arrivals of each block, as far as the trace keeps its grammar."""
    lines, blocks = Lines(trace), []
    header = lines.record(["ports", "first"])
    while header is not None and lines.number("slot") is not None:
        block = []
        while len(block) < 16:
            line = lines.at + 1
            fields = lines.record(["in", "out", "flow", "rank", "tag"])
            if fields is None:
                break
            block.append(Cell(line, len(blocks), fields))
        blocks.append(block)
    return header, blocks


def read_departure(lines):
    """Input, output, flow, rank and tag of the next departure, or None."""
    fields = lines.record(["out", "in", "flow", "rank", "tag"])
    if fields is None:
        return None
    output, source, *rest = fields
    return (source, output, *rest)


def depart(show, waiting, fields):
    """A flow leaves in the order in which it was accepted, so the departure is its oldest cell."""
    cell = waiting.popleft() if waiting else None
    if cell is None or fields != (*cell.flow_of(), cell.rank, cell.tag):
        sys.exit(f"show.py: a departure of slot {show.slot_number(show.played)} is no cell of TRACE")
    cell.left = show.played


def read_slots(show, lines, blocks):
    waiting = defaultdict(deque)
    while lines.number("slot") is not None:
        if show.played == len(blocks):
            sys.exit("show.py: OUTPUT has more slots than TRACE")
        for cell in blocks[show.played]:
            show.cells.append(cell)
            waiting[cell.flow_of()].append(cell)
        while (fields := read_departure(lines)) is not None:
            depart(show, waiting[fields[:3]], fields)
        show.played += 1


def read_refusal(lines):
    refusal = lines.record(["refused", "line"])
    if refusal is None or refusal[0] not in REFUSALS:
        sys.exit(f"show.py: line {lines.at + 1} of OUTPUT is none that the player writes")
    return refusal


def read_show(trace, output):
    """The show, or SystemExit if the two texts are not of one show."""
    show, lines = Show(), Lines(output)
    expected, blocks = read_trace(trace)
    header = lines.record(["ports", "first"])
    if header is None:
        show.refusal = read_refusal(lines)
        return show
    if header != expected:
        sys.exit("show.py: ports or first of OUTPUT are not those of TRACE")
    show.ports, show.first = header
    read_slots(show, lines, blocks)
    if lines.number("end") is None:
        show.refusal = read_refusal(lines)
        show.turned_back = blocks[show.played] if show.played < len(blocks) else []
    return show


# Words


def counted(n, thing):
    return f"{n} {thing}" if n == 1 else f"{n} {thing}s"


def waited(cell):
    return cell.left - cell.arrived


def fate(show, cell):
    if cell.arrived == show.played:
        return f"turned back in slot {show.slot_number(cell.arrived)}"
    came = f"arrived in slot {show.slot_number(cell.arrived)}"
    if cell.left is None:
        return f"{came}, still waits at the end"
    if cell.left == cell.arrived:
        return f"{came} and left in it"
    return f"{came}, left in slot {show.slot_number(cell.left)}, waited {counted(waited(cell), 'slot')}"


def story(show, cell):
    """What is said of a cell under the pointer."""
    head = f"tag {cell.tag}: input {cell.input} to output {cell.output}, flow {cell.flow}, rank {cell.rank}"
    return f"<title>{head}\n{fate(show, cell)}</title>"


def summary(show):
    if show.ports is None:
        return "The show did not begin."
    gone = [c for c in show.cells if c.left is not None]
    words = [counted(show.ports, "port")]
    if show.played:
        last = show.slot_number(show.played - 1)
        words.append(f"slots {show.first} to {last}" if show.played > 1 else f"slot {last}")
    else:
        words.append("no slot played")
    words.append(f"{counted(len(show.cells), 'cell')} in, {len(gone)} out")
    if gone:
        words.append(f"longest wait {counted(max(map(waited, gone)), 'slot')}")
    if len(gone) < len(show.cells):
        words.append(f"{len(show.cells) - len(gone)} still waiting at the end")
    return ", ".join(words) + "."


def quote(trace, line):
    """A line of the trace as the page names it. The line after the last line feed is unfinished or missing."""
    lines = trace.split("\n")
    content = "".join(lines[line - 1:line])[:60]
    if line >= len(lines):
        return f"<code>{escape(content)}</code> where the text stops" if content else "where the text stops"
    return f"<code>{escape(content)}</code>" if content else "empty"


def refusal_note(show, trace):
    if show.refusal is None:
        return ""
    number, line = show.refusal
    word, reason = REFUSALS[number]
    head = f"<b>Refused with {number}, {word}</b>, at line {line} ({quote(trace, line)})"
    return f'<p class="refusal">{head}: {reason}.</p>'


# Drawing


def kind(port):
    """The classes that give an input its colour and, from 8 on, its hollow look."""
    return f"c{port % 8}" + (" hollow" if port >= 8 else "")


def rows_of(cells, last):
    """A row for each waiting line of an output, so that no two lines lie on each other, and how many rows there are.
    Of cells that came together the first to leave is on top."""
    ends, rows = [], {}
    for cell in sorted(cells, key=lambda cell: (cell.arrived, cell.end(last))):
        if cell.left == cell.arrived:
            continue
        row = next((k for k, reached in enumerate(ends) if reached < cell.arrived), len(ends))
        ends[row:row + 1] = [cell.end(last)]
        rows[cell] = row
    return rows, len(ends)


class Lane:
    """The lane of an output: its blocks on top, the waiting lines below them."""

    def __init__(self, top, cells, last):
        self.top = top
        self.rows, count = rows_of(cells, last)
        self.pitch = max(2.5, min(6, 96 / max(count, 1)))
        self.height = BLOCK + 12 + count * self.pitch + (4 if count else 0)

    def row_height(self, cell):
        return self.top + 6 + BLOCK + 7 + self.rows[cell] * self.pitch


class Layout:
    """Where everything stands."""

    def __init__(self, show):
        self.column = max(COLUMN, 8 * len(str(show.slot_number(show.played))) + 6)
        self.end = show.played * self.column
        self.width = self.end + (0 if show.refusal is None else self.column)
        self.arrivals = AXIS + HEADING
        self.departures = self.arrivals + show.ports * ARRIVAL_LANE + HEADING + LANE_GAP
        self.lanes, top = [], self.departures
        for output in range(show.ports):
            self.lanes.append(Lane(top, [c for c in show.cells if c.output == output], show.played))
            top += self.lanes[-1].height + LANE_GAP
        self.height = top

    def middle(self, at):
        return at * self.column + self.column // 2

    def arrival(self, cell):
        return self.middle(cell.arrived), self.arrivals + cell.input * ARRIVAL_LANE + ARRIVAL_LANE / 2


def text(x, y, words, classes):
    return f'<text x="{x}" y="{y:g}" class="{classes}">{words}</text>'


def rect(x, y, width, height, classes, radius=5):
    return f'<rect x="{x}" y="{y:g}" width="{width}" height="{height:g}" rx="{radius}" class="{classes}"/>'


def draw_arrival(x, y, look, output):
    return rect(x - 10, y - 9, 20, 18, f"mark {look}", 9) + text(x, y + 4, output, f"small {look}")


def draw_block(x, y, look, source, slots, rank):
    """A departure's block: the input, the slots waited if any, and below the rank if it has room."""
    parts = [rect(x - BLOCK_WIDTH // 2, y, BLOCK_WIDTH, BLOCK, f"mark {look}")]
    if slots:
        parts.append(text(x - 11, y + 17, source, f"from {look}"))
        parts.append(text(x + 20, y + 16, f"+{slots}", f"{'small' if slots < 100 else 'tiny'} at-end {look}"))
    else:
        parts.append(text(x, y + 17, source, f"from {look}"))
    if rank < 10 ** 6:
        parts.append(text(x, y + 30, rank, f"small {look}"))
    return "".join(parts)


def draw_line(x, y, way, look):
    dot = f'<circle cx="{x}" cy="{y:g}" r="2.5" class="dot {look}"/>'
    return f'<path d="M{x} {y:g}{way}" class="line {look}"/>{dot}'


def draw_wait(layout, cell):
    """From the slot of arrival to that of departure and up to the block, or to the end of the show."""
    lane = layout.lanes[cell.output]
    way = f"H{layout.end - 6}" if cell.left is None else f"H{layout.middle(cell.left)}V{lane.top + 6 + BLOCK:g}"
    look = kind(cell.input) + (" dense" if lane.pitch < 4 else "")
    return draw_line(layout.middle(cell.arrived), lane.row_height(cell), way, look)


def draw_cell(show, layout, cell):
    parts = [draw_arrival(*layout.arrival(cell), kind(cell.input), cell.output)]
    if cell.left != cell.arrived:
        parts.append(draw_wait(layout, cell))
    if cell.left is not None:
        y = layout.lanes[cell.output].top + 6
        parts.append(draw_block(layout.middle(cell.left), y, kind(cell.input), cell.input, waited(cell), cell.rank))
    return f'<g class="cell">{story(show, cell)}{"".join(parts)}</g>'


def draw_axis(show, layout):
    return "".join(text(layout.middle(at), 20, show.slot_number(at), "slot") for at in range(show.played))


def draw_lanes(show, layout):
    lanes = [rect(0, layout.arrivals, layout.width, show.ports * ARRIVAL_LANE, "lane")]
    lanes += [rect(0, lane.top, layout.width, lane.height, "lane") for lane in layout.lanes]
    grid = f'<rect y="{AXIS}" width="{layout.width}" height="{layout.height - AXIS:g}" fill="url(#grid)"/>'
    return "".join(lanes) + grid


def draw_turned_back(show, layout, cell):
    """An arrival of the refused block, marked if the refusal names its line."""
    fault = "fault" if cell.line == show.refusal[1] else ""
    mark = draw_arrival(*layout.arrival(cell), f"refused {fault}", cell.output if cell.output < 100 else "…")
    return f"<g>{story(show, cell)}{mark}</g>"


def draw_refusal(show, layout):
    """The column of the refused block."""
    if show.refusal is None:
        return ""
    number, line = show.refusal
    parts = [f"<title>refused with {number}, {REFUSALS[number][0]}, at line {line}</title>"]
    parts.append(rect(layout.end, 4, layout.column, layout.height - 4 - LANE_GAP, "stop"))
    parts.append(text(layout.middle(show.played), 20, f"no. {number}", "slot fault"))
    parts += [draw_turned_back(show, layout, cell) for cell in show.turned_back if cell.input < show.ports]
    return f'<g>{"".join(parts)}</g>'


def draw_labels(show, layout):
    parts = [text(LABELS - 12, 20, "slot", "label")]
    parts.append(text(0, layout.arrivals - 10, "Arrivals", "heading"))
    parts.append(text(0, layout.departures - 10, "Departures", "heading"))
    for port in range(show.ports):
        y = layout.arrivals + port * ARRIVAL_LANE + ARRIVAL_LANE / 2 + 4
        parts.append(text(LABELS - 12, y, f"input {port}", "label"))
        parts.append(text(LABELS - 12, layout.lanes[port].top + 24, f"output {port}", "label"))
    return f'<svg class="labels" width="{LABELS}" height="{layout.height:g}" aria-hidden="true">{"".join(parts)}</svg>'


def draw_chart(show):
    layout = Layout(show)
    cells = "".join(draw_cell(show, layout, cell) for cell in show.cells)
    return f"""<div class="chart">{draw_labels(show, layout)}
<svg width="{layout.width}" height="{layout.height:g}" role="img" aria-label="Arrivals and departures, slot by slot">
<defs><pattern id="grid" width="{layout.column}" height="8" patternUnits="userSpaceOnUse">
<path d="M{layout.column - 0.5} 0V8" class="grid"/></pattern></defs>
{draw_lanes(show, layout)}{draw_axis(show, layout)}{draw_refusal(show, layout)}
<g class="cells">{cells}</g></svg></div>"""


# The page


def key(width, height, drawing, words):
    """An entry of the legend."""
    return f'<li><svg width="{width}" height="{height}" aria-hidden="true">{drawing}</svg>{words}</li>'


def swatch(port):
    look = kind(port)
    return key(28, 22, rect(1, 1, 26, 20, f"mark {look}") + text(14, 16, port, f"from {look}"), f"input {port}")


def legend(show):
    inputs = "".join(swatch(port) for port in range(show.ports))
    arrival = key(24, 22, draw_arrival(12, 11, "plain", 1), "arrival for output 1")
    block = key(52, 40, draw_block(26, 2, "plain", 0, 2, 7), "departure from input 0 after 2 slots, rank 7")
    line = key(48, 22, draw_line(6, 16, "H42V2", "plain"), "the slots in which a cell waited")
    return f"""<ul>{inputs}</ul>
<ul>{arrival}{block}{line}</ul>
<p class="hint">Point at a cell for its flow, rank and tag.</p>"""


def palette():
    rules = []
    for k, colour in enumerate(COLOURS):
        letters = "#fff" if colour in DARK_COLOURS else "#16181d"
        rules.append(f".c{k} {{ --colour: {colour}; --letters: {letters} }}")
    return "\n".join(rules)


STYLE = """
:root { --page: #fff; --ink: #1d2129; --quiet: #667080; --lane: #f4f5f7; --rule: #e2e5ea }
:root { --fault: #c92a2a; --stop: #fdeaea }
@media (prefers-color-scheme: dark) {
  :root { --page: #16181d; --ink: #e8eaee; --quiet: #98a1b0; --lane: #1f2229; --rule: #30343d }
  :root { --fault: #ff8787; --stop: #3a2023 }
}
body { margin: 28px 32px; background: var(--page); color: var(--ink) }
body { font: 15px/1.5 system-ui, "DejaVu Sans", sans-serif }
h1 { margin: 0; font-size: 26px; line-height: 1.2 }
p { margin: 6px 0; max-width: 76ch }
.hint { color: var(--quiet); font-size: 13px }
.refusal { margin: 14px 0; padding: 8px 14px; border-left: 4px solid var(--fault); background: var(--stop) }
code { font: 13px ui-monospace, "DejaVu Sans Mono", monospace }
ul { display: flex; flex-wrap: wrap; align-items: center; gap: 6px 20px; margin: 12px 0; padding: 0; list-style: none }
li { display: flex; align-items: center; gap: 7px; font-size: 13px }
.chart { display: flex; overflow-x: auto; margin-top: 8px; padding-bottom: 12px }
.chart svg { flex: none }
.labels { position: sticky; left: 0; background: var(--page) }
text { fill: var(--ink); font-size: 12px; font-variant-numeric: tabular-nums; text-anchor: middle }
.label { text-anchor: end; fill: var(--quiet) }
.heading { text-anchor: start; font-weight: 600 }
.slot { fill: var(--quiet) }
.lane { fill: var(--lane) }
.grid { stroke: var(--rule) }
.stop { fill: var(--stop) }
.mark { fill: var(--colour); stroke: var(--colour); stroke-width: 2 }
.mark.hollow { fill: var(--page) }
.mark.refused { fill: var(--stop); stroke: var(--quiet); stroke-width: 1.5; stroke-dasharray: 3 2 }
.mark.fault { stroke: var(--fault); stroke-width: 2.5; stroke-dasharray: none }
.from, .small, .tiny { fill: var(--letters) }
.from { font-size: 14px; font-weight: 700 }
.small { font-size: 11px }
.tiny { font-size: 9px }
.at-end { text-anchor: end }
text.hollow, text.refused { fill: var(--ink) }
.slot.fault { fill: var(--fault); font-weight: 700 }
.line { fill: none; stroke: var(--colour); stroke-width: 2 }
.line.hollow { stroke-dasharray: 5 3 }
.line.dense { stroke-width: 1.2 }
.dot { fill: var(--colour) }
.plain { --colour: var(--rule); --letters: var(--ink) }
.line.plain, .dot.plain { --colour: var(--quiet) }
.cells:hover .cell:not(:hover) { opacity: 0.25 }
.cell:hover .line { stroke-width: 4 }
"""


def page(trace, output, name):
    show = read_show(trace, output)
    chart = legend(show) + draw_chart(show) if show.played or show.turned_back else ""
    return f"""<!DOCTYPE html>
<html lang="en">
<head>
<meta charset="utf-8">
<meta name="viewport" content="width=device-width">
<title>A show</title>
<style>{STYLE}{palette()}
</style>
</head>
<body>
<h1>A show</h1>
<p><code>{escape(name)}</code>: {summary(show)}</p>
{refusal_note(show, trace)}
{chart}
</body>
</html>
"""


def main():
    if len(sys.argv) != 3:
        sys.exit(__doc__.strip())
    # A trace may hold any bytes: each is a character here, and a line ends at a line feed alone.
    texts = [open(name, encoding="latin-1", newline="\n").read() for name in sys.argv[1:]]
    sys.stdout.buffer.write(page(*texts, sys.argv[1]).encode())


if __name__ == "__main__":
    main()
