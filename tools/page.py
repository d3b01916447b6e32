"""A picture as a page: one file, which needs no other and no network.

A long run is cut into parts, of which the first, the last and those of a race are open; the others are opened by a click, or by a click on
the number of an event. Pointing at an event says its source line and what it could have read, and fades all arrows but its own.
"""
from drawing import Drawing, escape

PART = 200
LONGEST_WHOLE = 400
MOST_VALUES = 200

STYLE = """
body { margin: 0 0 9em 0; font: 13px 'DejaVu Sans', sans-serif; color: #222; }
header { padding: 8px 14px; } code, ol, #details { font-family: 'DejaVu Sans Mono', monospace; font-size: 12px; }
#details { position: fixed; bottom: 0; left: 0; right: 0; height: 7.2em; overflow: auto; margin: 0; padding: 8px 14px; background: #fffbe8;
  border-top: 1px solid #ccc; white-space: pre-wrap; }
details { margin: 4px 14px; } summary { cursor: pointer; color: #555; } svg.run { display: block; }
svg.pointed .arrow { opacity: 0.12; } svg.pointed .arrow.own { opacity: 1; stroke-width: 2.6; } .event { cursor: pointer; }
table { border-collapse: collapse; } td { padding: 1px 8px; vertical-align: top; } .number { fill: #777; }
"""

SCRIPT = """
const details = document.getElementById('details');
const rest = details.textContent;
let pinned = null;
function said_of(event) {
  const [number, label, source] = ['.number', '.label', '.source'].map(it => event.querySelector(it).textContent);
  const said = [number ? 'event ' + number + ': ' + label : label];
  if (source) said.push(details.dataset.file + ' ' + (event.dataset.source || source));
  return said.concat(event.dataset.says || []).join('\\n');
}
function say(event) {
  const row = event.dataset.row, svg = event.closest('svg');
  details.textContent = said_of(event);
  svg.classList.add('pointed');
  for (const arrow of svg.querySelectorAll('.arrow'))
    arrow.classList.toggle('own', arrow.dataset.first === row || arrow.dataset.last === row);
}
function forget() {
  for (const svg of document.querySelectorAll('svg.pointed')) svg.classList.remove('pointed');
  if (pinned) say(pinned); else details.textContent = rest;
}
function pin() {
  pinned = location.hash ? document.getElementById(location.hash.slice(1)) : null;
  if (pinned) {
    const part = pinned.closest('details');
    if (part) part.open = true;
    pinned.scrollIntoView({block: 'center'});
  }
  forget();
}
document.addEventListener('mouseover', it => { const event = it.target.closest('.event'); if (event) say(event); });
document.addEventListener('mouseout', it => { if (it.target.closest('.event')) forget(); });
document.addEventListener('click', it => { const event = it.target.closest('.event'); if (event) location.hash = event.id; });
window.addEventListener('hashchange', pin);
pin();
"""

REST = "Point at an event: its source line, and what it could have read. A click keeps it. Nothing here is proved but the lines themselves."


def parts_of(picture):
    """The parts of the page: (first row, row after the last, whether it is open)."""
    count = len(picture.rows)
    if count <= LONGEST_WHOLE:
        return [(0, count, True)]
    races = {row for arrow in picture.arrows if arrow.kind == "race" for row in (arrow.first, arrow.last)}
    parts = []
    for first in range(0, count, PART):
        last = min(first + PART, count)
        parts.append((first, last, first == 0 or last == count or any(first <= row < last for row in races)))
    return parts


def summary(picture, first, last):
    """What a part that can be folded says of its rows."""
    rows = picture.rows[first:last]
    numbers = [row.number for row in rows if row.number is not None]
    said = f"lines {first + 1} to {last}" + (f", events {numbers[0]} to {numbers[-1]}" if numbers else "")
    threads = sorted({row.thread for row in rows if row.thread is not None})
    return said + ", of " + " ".join(f"t{thread}" for thread in threads)


def cells_table(picture):
    """The modification order of each cell, as a list."""
    rows = []
    for name, order in picture.cells:
        values = [f"{one.position}: {'?' if one.value is None else one.value}{link(picture, one)}" for one in order[:MOST_VALUES]]
        more = f" .. and {len(order) - MOST_VALUES} more" if len(order) > MOST_VALUES else ""
        rows.append(f'<tr class="order"><td>{escape(name)}</td><td>{" &#8594; ".join(values)}{more}</td></tr>')
    return "<table>" + "\n".join(rows) + "</table>"


def link(picture, modification):
    """A link to the event that wrote a value."""
    if modification.row is None:
        return " (initial)"
    number = picture.rows[modification.row].number
    return f' (<a href="#e{number}">{number}</a>)'


def page(picture):
    """The text of the page."""
    drawing = Drawing(picture, has_titles=False)
    parts = []
    for index, (first, last, is_open) in enumerate(parts_of(picture)):
        drawn = drawing.draw(list(range(first, last)), f"head{index}")
        if (first, last) == (0, len(picture.rows)):
            parts.append(drawn)
        else:
            state = " open" if is_open else ""
            parts.append(f'<details class="part"{state}><summary>{summary(picture, first, last)}</summary>\n{drawn}</details>')
    body = "\n".join(parts)
    return f"""<!DOCTYPE html>
<html lang="en">
<meta charset="utf-8">
<title>{escape(picture.command)}</title>
<style>{STYLE}</style>
<header><code>{escape(picture.command)}</code></header>
{body}
<details class="cells" open><summary>Modification order of each cell: position, value, event</summary>
{cells_table(picture)}</details>
<p id="details" data-file="{escape(picture.file)}">{REST}</p>
<script>{SCRIPT}</script>
</html>
"""
