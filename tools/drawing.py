"""A picture as a drawing in SVG: a lane for each thread, a row for each line of the run, arrows between rows, and a rail for each cell."""
import bisect
import functools

ROW = 20
CHARACTER = 6.65
MARGIN = 46
HEAD = 46
RAIL = 14
# With more threads than these the texts stand in one column beside narrow lanes.
MOST_WIDE_LANES = 4
MOST_CELLS = 8
# Of a longer run a drawing has so many rows at its beginning and at its end, and those around a race.
MOST_ROWS = 600
ROWS_KEPT = 150
ROWS_AROUND_RACE = 20
LONGEST_SOURCE = 90
COLOURS = {"from": "#1f6fb5", "sync": "#1a8a3a", "stack": "#7b3fa0", "thread": "#777777", "wake": "#d17a00", "race": "#d0021b"}
LEGEND = {"from": "reads from", "sync": "synchronizes with", "stack": "stack goes on", "thread": "makes a thread", "wake": "wakes",
          "race": "race"}
STYLE = """
text { font: 11px 'DejaVu Sans Mono', monospace; fill: #222; dominant-baseline: middle; }
.head { font-weight: bold; } .number, .source { fill: #777; } .event .number { text-anchor: end; } .label { paint-order: stroke; stroke: #fff; stroke-width: 4px; }
.lane { stroke: #ddd; } .dot { fill: #444; } .record .dot, .ending .dot { fill: #bbb; } .record .label { fill: #777; }
.race .label, .race .number { fill: #d0021b; font-weight: bold; } .race .dot { fill: #d0021b; }
.arrow { fill: none; stroke-width: 1.4; } .arrow.race { stroke-width: 2.4; stroke-dasharray: 6 3; } .arrow.thread { stroke-dasharray: 3 3; }
.cell { stroke: #e2c9a0; stroke-width: 2; } .value { fill: #a06a10; } .value-dot { fill: #a06a10; } .fold { fill: #999; font-style: italic; }
.event:hover .label { fill: #000; text-decoration: underline; }
"""


def rows_to_show(picture):
    """The numbers of the rows that a drawing has: all, or of a long run those at its beginning, its end and its race."""
    count = len(picture.rows)
    if count <= MOST_ROWS:
        return list(range(count))
    shown = set(range(ROWS_KEPT)) | set(range(count - ROWS_KEPT, count))
    for arrow in picture.arrows:
        if arrow.kind == "race":
            shown |= set(range(max(arrow.first - ROWS_AROUND_RACE, 0), arrow.first + ROWS_AROUND_RACE))
    return sorted(shown)


class Drawing:
    """The places of all things of a picture, and their texts. One drawing may have only a part of the rows.

    What is said of a row stands in its title, or, for a page whose script says it, only what the row itself does not show.
    """

    def __init__(self, picture, has_titles=True):
        self.picture, self.has_titles = picture, has_titles
        self.wide = len(picture.threads) <= MOST_WIDE_LANES
        self.lane_x, self.label_x = {}, {}
        self.place_lanes()
        self.cells = [(name, order) for name, order in picture.cells if len(order) > 1][:MOST_CELLS]
        self.place_cells()
        self.races = {row for arrow in picture.arrows if arrow.kind == "race" for row in (arrow.first, arrow.last)}
        self.kinds = {arrow.kind for arrow in picture.arrows}
        self.numbers = [row.number for row in picture.rows]
        self.arrows_of_row = {}
        for arrow in picture.arrows:
            self.arrows_of_row.setdefault(arrow.first, []).append(arrow)
            self.arrows_of_row.setdefault(arrow.last, []).append(arrow)

    def place_lanes(self):
        """Gives each thread its lane, with a rail for each stack that it was on."""
        widest = dict.fromkeys(self.picture.threads, 4)
        for row in self.picture.rows:
            if row.thread in widest and row.kind not in ("ending", "race"):
                widest[row.thread] = max(widest[row.thread], len(row.label))
        x = MARGIN if self.wide else MARGIN + round((max(widest.values()) + 4) * CHARACTER) + 24
        for thread in self.picture.threads:
            self.lane_x[thread] = x + 8
            rails = RAIL * max(len(self.picture.stacks[thread]) - 1, 0) if len(self.picture.stacks[thread]) <= 6 else 0
            self.label_x[thread] = x + 8 + rails + 10
            x = self.label_x[thread] + (round(widest[thread] * CHARACTER) + 24 if self.wide else 8)
        if not self.wide:
            self.label_x = dict.fromkeys(self.picture.threads, MARGIN)
            x += 16
        self.lanes_end = x
        self.dots = [self.dot(row) for row in self.picture.rows]

    def place_cells(self):
        """Gives each cell that was written a rail, and the sources a column."""
        x, self.cell_x = self.lanes_end, []
        for name, order in self.cells:
            widest = max([len(name)] + [len(value_label(one)) for one in order])
            self.cell_x.append(x + 6)
            x += 18 + round(widest * CHARACTER) + 10
        self.source_x = x + 6
        widest = max([min(len(row.source), LONGEST_SOURCE) for row in self.picture.rows] + [0])
        endings = [MARGIN + len(row.label) * CHARACTER + 20 for row in self.picture.rows if row.kind in ("ending", "race")]
        self.width = round(max([self.source_x + widest * CHARACTER + 16, *endings]))

    def dot(self, row):
        """The x of the dot of a row: on the rail of its stack."""
        if row.thread is None:
            return self.lane_x[self.picture.threads[0]]
        stacks = self.picture.stacks[row.thread]
        if row.stack not in stacks or len(stacks) > 6:
            return self.lane_x[row.thread]
        return self.lane_x[row.thread] + RAIL * stacks.index(row.stack)

    def draw(self, shown, marker):
        """The text of the SVG element with the rows whose numbers are given; `marker` is a name for the arrows' heads."""
        y_of = self.heights(shown)
        bottom = HEAD + ROW * (len(y_of) + 1)
        parts = [f'<svg xmlns="http://www.w3.org/2000/svg" class="run" width="{self.width:.0f}" height="{bottom}" '
                 f'viewBox="0 0 {self.width:.0f} {bottom}">', f"<style>{STYLE}</style>", self.heads(marker),
                 f'<rect width="{self.width:.0f}" height="{bottom}" fill="#fff"/>']
        parts += self.draw_lanes(bottom - ROW)
        parts += self.draw_cells(shown, y_of)
        arrows = dict.fromkeys(arrow for number in shown for arrow in self.arrows_of_row.get(number, ()))
        parts += [self.draw_arrow(arrow, y_of, marker, bottom) for arrow in arrows]
        parts += [self.draw_row(number, y_of[number]) for number in shown]
        parts += self.draw_folds(shown, y_of)
        parts.append("</svg>")
        return "\n".join(part for part in parts if part)

    def heights(self, shown):
        """The y of each row that is shown; where rows are left out there is room for a line that says so."""
        y_of, y, before = {}, HEAD, shown[0] - 1 if shown else 0
        for number in shown:
            y += ROW if number == before + 1 else 2 * ROW
            y_of[number], before = y, number
        return y_of

    def heads(self, marker):
        """The heads of arrows, by colour."""
        heads = [f'<marker id="{marker}-{kind}" viewBox="0 0 8 8" refX="7" refY="4" markerWidth="7" markerHeight="7" orient="auto">'
                 f'<path d="M0 0L8 4L0 8z" fill="{colour}"/></marker>' for kind, colour in COLOURS.items()]
        return f"<defs>{''.join(heads)}</defs>"

    def draw_lanes(self, bottom):
        """The lanes with their names, and the legend."""
        parts = []
        x = MARGIN
        for kind in COLOURS:
            if kind in self.kinds:
                parts.append(f'<text x="{x:.0f}" y="12" style="fill:{COLOURS[kind]}">&#8594; {LEGEND[kind]}</text>')
                x += (len(LEGEND[kind]) + 4) * CHARACTER
        for thread in self.picture.threads:
            stacks = self.picture.stacks[thread]
            rails = stacks if 1 < len(stacks) <= 6 else [None]
            for index, stack in enumerate(rails):
                x = self.lane_x[thread] + RAIL * index
                parts.append(f'<line class="lane" x1="{x:.0f}" y1="{HEAD}" x2="{x:.0f}" y2="{bottom}"/>')
                if stack is not None:
                    parts.append(f'<text class="number" x="{x - 6:.0f}" y="{HEAD - 2}">s{stack}</text>')
            parts.append(f'<text class="head" x="{self.lane_x[thread] - 6:.0f}" y="{HEAD - 16}">t{thread}</text>')
        return parts

    def draw_cells(self, shown, y_of):
        """The rails of cells: each value of the modification order at the row that wrote it."""
        parts, first = [], shown[0] if shown else 0
        for x, (name, order) in zip(self.cell_x, self.cells):
            parts.append(f'<text class="head value" x="{x:.0f}" y="{HEAD - 16}">{escape(name)}</text>')
            # The first value of an order has no row; the others are sorted by theirs.
            at = bisect.bisect_left(order, first, lo=1, key=lambda one: one.row)
            end = bisect.bisect_right(order, shown[-1] if shown else -1, lo=at, key=lambda one: one.row)
            seen = [(HEAD - 2, order[at - 1])] + [(y_of[one.row], one) for one in order[at:end] if one.row in y_of]
            parts.append(f'<line class="cell" x1="{x + 4:.0f}" y1="{seen[0][0]}" x2="{x + 4:.0f}" y2="{seen[-1][0]}"/>')
            for y, one in seen:
                parts.append(f'<circle class="value-dot" cx="{x + 4:.0f}" cy="{y}" r="3"/>')
                parts.append(f'<text class="value label" x="{x + 12:.0f}" y="{y}">{escape(value_label(one))}</text>')
        return parts

    def draw_arrow(self, arrow, y_of, marker, bottom):
        """An arrow; where one end is not shown it comes from the top, or goes to the bottom."""
        kind, first, last = arrow.kind, arrow.first, arrow.last
        x1, x2 = self.dots[first], self.dots[last]
        y1, y2 = y_of.get(first, HEAD), y_of.get(last, bottom - ROW // 2)
        if kind == "from":
            y1, y2 = y1 - 2, y2 - 2
        if x1 == x2 and self.picture.rows[first].thread == self.picture.rows[last].thread:
            bend = min(10 + (y2 - y1) // 12, 30)
            path = f"M{x1} {y1}C{x1 - bend} {y1 + 6},{x2 - bend} {y2 - 6},{x2 - 4} {y2}"
        elif x1 < x2:
            reach = min((x2 - x1) // 2, 80)
            path = f"M{x1} {y1}C{x1 + reach} {y1},{x2 - reach} {y2},{x2 - 4} {y2}"
        else:
            reach = min((x1 - x2) // 2, 80)
            path = f"M{x1} {y1}C{x1 - reach} {y1},{x2 + reach} {y2},{x2 + (4 if x2 < x1 else -4)} {y2}"
        numbers = self.numbers
        return (f'<path class="arrow {kind}" data-first="{first}" data-last="{last}" d="{path}" stroke="{COLOURS[kind]}" '
                f'marker-end="url(#{marker}-{kind})"><title>{LEGEND[kind]}: {numbers[first]} to {numbers[last]}</title></path>')

    def draw_row(self, number, y):
        """A row: its number, its dot, its text, its source, and what is said where somebody points at it."""
        row = self.picture.rows[number]
        if row.number is None:
            return self.draw_other_row(number, row, y)
        kind = f"{row.kind} race" if number in self.races else row.kind
        label = row.label if self.wide else f"t{row.thread:<3} {row.label}"
        return (f'<g class="event {kind}" id="e{row.number}" data-row="{number}"{self.said_of(number)}<text class="number" '
                f'x="{MARGIN - 14}" y="{y}">{row.number}</text><circle class="dot" cx="{self.dots[number]}" cy="{y}" r="3.5"/>'
                f'<text class="label" x="{self.label_x[row.thread]}" y="{y}">{label}</text>'
                f'<text class="source" x="{self.source_x}" y="{y}">{shortened(row.source)}</text></g>')

    def draw_other_row(self, number, row, y):
        """The row of a record or of the ending; that of a race stands in the lane of its thread."""
        label_x = self.label_x.get(row.thread, MARGIN) if row.kind == "record" else MARGIN
        label, source = row.label, shortened(row.source)
        if row.kind == "record" and row.thread is not None and not self.wide:
            label = f"t{row.thread:<3} {label}"
        if row.kind == "race" and self.wide:
            label_x += self.lane_x[row.thread] - self.lane_x[self.picture.threads[0]] + 18
            source = ""
        dot = f'<circle class="dot" cx="{self.dots[number]}" cy="{y}" r="3.5"/>' if row.kind != "ending" else ""
        return (f'<g class="event {row.kind}" id="row{number}" data-row="{number}"{self.said_of(number)}<text class="number"/>{dot}'
                f'<text class="label" x="{label_x}" y="{y}">{escape(label)}</text>'
                f'<text class="source" x="{self.source_x}" y="{y}">{source}</text></g>')

    def said_of(self, number):
        """The end of a row's tag, with what is said of the row where somebody points at it."""
        if self.has_titles:
            return f"><title>{escape(chr(10).join(self.picture.details(number)))}</title>"
        source = self.picture.rows[number].source
        whole = f' data-source="{escape(source)}"' if len(source) > LONGEST_SOURCE else ""
        remarks = "&#10;".join(self.picture.remarks(number))
        return f'{whole} data-says="{remarks}">' if remarks else whole + ">"

    def draw_folds(self, shown, y_of):
        """Where rows are left out, how many."""
        parts = []
        for before, number in zip(shown, shown[1:]):
            if number != before + 1:
                parts.append(f'<text class="fold" x="{MARGIN}" y="{y_of[number] - ROW}">{number - before - 1} lines are not drawn</text>')
        return parts


def value_label(modification):
    """The text beside a value of a cell: its position and the value."""
    value = "?" if modification.value is None else modification.value
    return f"{modification.position}: {value if len(value) <= 10 else value[:8] + '..'}"


def svg(picture):
    """The picture as a file of its own."""
    text = Drawing(picture).draw(rows_to_show(picture), "head")
    first, rest = text.split(">", 1)
    return f"{first}>\n<title>{escape(picture.command)}</title>{rest}\n"


@functools.lru_cache(None)
def shortened(source):
    """A line of the source as it stands in its column."""
    return escape(source if len(source) <= LONGEST_SOURCE else source[:LONGEST_SOURCE - 2] + "..")


def escape(text):
    """A text as it stands in SVG and HTML, also in an attribute."""
    if "<" in text or "&" in text or ">" in text or '"' in text:
        return text.replace("&", "&amp;").replace("<", "&lt;").replace(">", "&gt;").replace('"', "&quot;")
    return text
