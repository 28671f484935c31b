"""Draws docs/performance.svg: what one durable add takes beside sqlite3, lmdb and tdb.

    python3 reference/chart.py [FILE]

The figures are those of the table in docs/PERFORMANCE.md that has the heading "An add beside other stores". Each bar
has its number beside it, so the chart is read without colour, in light and dark, and by who can't see it.
"""

import re
import sys
from html import escape
from pathlib import Path
from typing import NamedTuple

DOCS = Path(__file__).resolve().parent.parent / "docs"
HEADING = "## An add beside other stores"
WIDE, NAMES, LINE, TITLE = 760, 170, 22, 30
STYLE = """
text { font: 13px sans-serif; fill: #1d2126 } .title { font-weight: bold } rect { fill: #8a8f98 } .own { fill: #1f6f54 }
@media (prefers-color-scheme: dark) { text { fill: #e7e5df } rect { fill: #7b818b } .own { fill: #56b894 } }
"""


class Measure(NamedTuple):
    """A column of the table: what it says, and the number of each system."""

    title: str
    values: list


def read_table(text: str) -> tuple:
    """The systems and the measures of the first table after the heading."""
    table = re.search(r"^\|.*\n\|[-|]+\n(?:\|.*\n)+", text.partition(HEADING)[2], re.MULTILINE)[0]
    rows = [[cell.strip() for cell in line.strip("|").split("|")] for line in table.splitlines()]
    systems = [row[0] for row in rows[2:]]
    columns = zip(*(row[1:] for row in rows[2:]))
    return systems, [Measure(name, list(column)) for name, column in zip(rows[0][1:], columns)]


def group(measure: Measure, systems: list, top: int) -> list:
    """The bars of one measure, each as long as its share of the greatest."""
    lines = [f'<text class="title" x="0" y="{top + 16}">{escape(measure.title)}</text>']
    numbers = [float(it.replace(",", "")) for it in measure.values]
    for at, (name, shown, number) in enumerate(zip(systems, measure.values, numbers)):
        y = top + TITLE + LINE * at
        wide = max(1, round((WIDE - NAMES - 90) * number / max(numbers)))
        kind = ' class="own"' if name == "newton" else ""
        lines.append(f'<text x="{NAMES - 8}" y="{y + 12}" text-anchor="end">{escape(name)}</text>')
        lines.append(f'<rect{kind} x="{NAMES}" y="{y}" width="{wide}" height="{LINE - 6}"/>')
        lines.append(f'<text x="{NAMES + wide + 6}" y="{y + 12}">{escape(shown)}</text>')
    return lines


def chart(systems: list, measures: list) -> str:
    each = TITLE + LINE * len(systems) + 14
    told = "; ".join(f"{it.title}: " + ", ".join(map(" ".join, zip(systems, it.values))) for it in measures)
    lines = [
        f'<svg xmlns="http://www.w3.org/2000/svg" viewBox="0 0 {WIDE} {each * len(measures)}" role="img">',
        f"<title>One durable add beside other stores</title><desc>{escape(told)}</desc><style>{STYLE}</style>",
    ]
    for at, measure in enumerate(measures):
        lines += group(measure, systems, each * at)
    return "\n".join([*lines, "</svg>", ""])


def main(words: list) -> int:
    systems, measures = read_table((DOCS / "PERFORMANCE.md").read_text(encoding="utf-8"))
    target = Path(words[0]) if words else DOCS / "performance.svg"
    target.write_text(chart(systems, measures), encoding="utf-8")
    return 0


if __name__ == "__main__":
    sys.exit(main(sys.argv[1:]))
