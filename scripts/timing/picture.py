"""The picture of docs/BENCHMARKS.md: time and memory of kati next to ckati and make, drawn from its table."""
import re
from collections import namedtuple
from html import escape

HEADING = "## The whole program"
CELL = re.compile(r"([\d,]+) \((\d+)\)")

# A tool's milliseconds and megabytes are None where it wasn't run or didn't end.
Row = namedtuple("Row", "label size kati ckati make")
Figures = namedtuple("Figures", "time memory")

TOOLS = ("kati", "ckati", "make")
COLOURS = {"kati": "#1f6fb4", "ckati": "#9a9a9a", "make": "#d3cbb8"}
LABELS, PANEL, GAP, BAR, ROW, TOP = 375, 250, 40, 8, 34, 64
MOST = 2.0


def figures_of(cell):
    found = CELL.match(cell)
    return Figures(int(found[1].replace(",", "")), int(found[2])) if found else None


def rows_of(document):
    """The rows of the table under the heading, each case at its larger size."""
    table = document.split(HEADING, 1)[1].split("\n## ", 1)[0].split("\n### ", 1)[0]
    rows = {}
    for line in table.splitlines():
        cells = [cell.strip() for cell in line.strip().strip("|").split("|")]
        if len(cells) >= 6 and cells[1].replace(",", "").isdigit():
            rows[cells[0]] = Row(cells[0], cells[1], figures_of(cells[2]), figures_of(cells[4]), figures_of(cells[5]))
    return list(rows.values())


def shares(row, part):
    """Each tool's figure over a base: the time of the faster of ckati and make; the memory of ckati, or
    else of make."""
    values = {tool: getattr(getattr(row, tool), part, None) for tool in TOOLS}
    others = [values[tool] for tool in ("ckati", "make") if values[tool]]
    base = values["ckati"] if part == "memory" and values["ckati"] else min(others)
    return {tool: value / base for tool, value in values.items() if value}


def bars(row, part, left, top):
    """A bar for each tool; one that is longer than the panel ends in its figure."""
    for place, (tool, share) in enumerate(shares(row, part).items()):
        length = min(share, MOST) / MOST * PANEL
        y = top + place * BAR
        yield f'<rect x="{left}" y="{y}" width="{length:.1f}" height="{BAR - 1}" fill="{COLOURS[tool]}"/>'
        if tool == "kati" or share > MOST:
            x, anchor = (left + length + 3, "start") if share <= MOST else (left + PANEL - 3, "end")
            yield f'<text x="{x:.1f}" y="{y + BAR - 1}" font-size="9" text-anchor="{anchor}">{share:.2f}</text>'


def panel(title, left, height):
    """The heading of a panel, and its lines at a half, at one and at two."""
    yield f'<text x="{left}" y="{TOP - 24}" font-weight="bold">{escape(title)}</text>'
    for share in (0.5, 1.0, MOST):
        x = left + share / MOST * PANEL
        yield f'<line x1="{x}" y1="{TOP - 6}" x2="{x}" y2="{height - 12}" stroke="#c4c4c4" stroke-dasharray="2 3"/>'
        yield f'<text x="{x}" y="{TOP - 10}" font-size="9" text-anchor="middle">{share:g}</text>'


def legend():
    for place, tool in enumerate(TOOLS):
        x = 12 + place * 84
        yield f'<rect x="{x}" y="{TOP - 34}" width="10" height="10" fill="{COLOURS[tool]}"/>'
        yield f'<text x="{x + 14}" y="{TOP - 25}">{tool}</text>'


def draw(rows):
    """The picture as SVG."""
    lefts = {"time": LABELS, "memory": LABELS + PANEL + GAP}
    width, height = LABELS + 2 * (PANEL + GAP), TOP + ROW * len(rows) + 12
    lines = [f'<svg xmlns="http://www.w3.org/2000/svg" width="{width}" height="{height}" font-family="sans-serif" '
             'font-size="12" role="img">',
             "<title>Time and memory of kati next to ckati and make</title>",
             f'<rect width="{width}" height="{height}" fill="#ffffff"/>',
             *legend(),
             *panel("Time, over the faster of ckati and make", lefts["time"], height),
             *panel("Peak memory, over that of ckati", lefts["memory"], height)]
    for place, row in enumerate(rows):
        top = TOP + place * ROW
        lines.append(f'<text x="12" y="{top + 15}">{escape(row.label.replace("`", ""))}</text>')
        lines.append(f'<text x="{LABELS - 10}" y="{top + 15}" text-anchor="end" font-size="10">{row.size}</text>')
        for part, left in lefts.items():
            lines += bars(row, part, left, top)
    return "\n".join([*lines, "</svg>", ""])
