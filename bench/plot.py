#!/usr/bin/env python3
"""Keeps the figures of docs/SPEED.md, and draws its charts.

  plot.py [PRINTED]

PRINTED is a file with what bench/run.sh printed. Its figures go into the tables and the lists of
docs/SPEED.md, with today's date, and into the table of README.md. Then the charts are drawn from
the tables of docs/SPEED.md: docs/workers.svg, the time by workers for each circuit, and, where the
page has the table by gates, docs/sizes.svg, the time of a gate by the number of gates.
"""

import math
import re
import sys
import textwrap
from datetime import date
from pathlib import Path
from xml.sax.saxutils import escape

TOP = Path(__file__).resolve().parents[1]

# A row of the benchmark: a name; gates, AND gates, and the milliseconds of garbling and of
# evaluating, each on one thread and by one, two and four workers.
PRINTED_ROW = re.compile(r"(.+?)((?: +[\d,]+){2})((?: +\d+\.\d+){8})")

# The heads of the tables of docs/SPEED.md.
COLUMNS = "AND | Garbling: one thread | 1 | 2 | 4 | Evaluating: one thread | 1 | 2 | 4 |"
BY_WORKERS = f"\n| Circuit | Gates | {COLUMNS}\n"
BY_GATES = f"\n| Gates | {COLUMNS}\n"

# The heads of tables that bench/commands.py prints as they are in docs/SPEED.md.
OF_COMMANDS = (
    "\n| Circuit | `check` | `locate` | `stats` | `garble` by 1 | by 4 | `eval` by 1 | by 4"
    " | `audit` | SHA-256 |\n"
)
OF_JOBS = "\n| `jobs` | by 1 worker | by 2 | by 4 |\n"

# The heads of those that bench/side_by_side.py prints.
OF_SEVERAL = (
    "\n| Milliseconds | Garbling | Each of two | Ratio | Evaluating | Each of four | Ratio |\n"
)
OF_AND_GATES = (
    "\n| Nanoseconds an AND gate | Garbling | Each of two | 4 hashes | Evaluating | Each of four"
    " | 2 hashes |\n"
)

# The heads of those that bench/streaming.py prints.
OF_PIECES = "\n| In pieces | Garbling | of 256 | of 4,096 | Evaluating | of 256 | of 4,096 |\n"
OF_PROCESSES = (
    "\n| Two processes | All at once | Pipelined | Ratio | First row pair | Pipelined |\n"
)

# The tables that are printed as they are in docs/SPEED.md.
AS_PRINTED = OF_SEVERAL, OF_AND_GATES, OF_COMMANDS, OF_JOBS, OF_PIECES, OF_PROCESSES

# The part of docs/SPEED.md on circuits of a thousand to sixteen million gates, and what follows it.
GATES_PART = f"""\
## By the number of gates

In nanoseconds a gate, by the same calls. Gates read within a thousand, and half of them are AND.

![The time of a gate by the number of gates](sizes.svg)
{BY_GATES}|---|---|---|---|---|---|---|---|---|---|

"""
NEXT_PART = "## Parts\n"

WAYS = ["one thread", "1 worker", "2 workers", "4 workers"]
COLOURS = ["#9aa0a6", "#7fb3e6", "#2f78c4", "#123f73"]
WORK = ["Garbling", "Evaluating"]

SVG = """\
<svg xmlns="http://www.w3.org/2000/svg" width="{wide}" height="{high}" viewBox="0 0 {wide} {high}" \
font-family="sans-serif" font-size="12">
<rect width="{wide}" height="{high}" fill="white"/>
{shapes}
</svg>
"""


def printed_rows(text):
    """The gates, the AND gates and the milliseconds of each circuit that was timed, by its name."""
    found = {}
    for line in text.splitlines():
        if row := PRINTED_ROW.fullmatch(line):
            counts = [int(it.replace(",", "")) for it in row[2].split()]
            found[row[1].strip()] = *counts, [float(it) for it in row[3].split()]
    return found


def cells_of(line):
    return [it.strip() for it in line.strip("|\n").split("|")]


def table_of(page, head):
    """The rows of the table with this head, as lists of cells."""
    rows = page.partition(head)[2].splitlines()[1:]
    ends = (i for i, row in enumerate(rows) if not row.startswith("|"))
    return [cells_of(row) for row in rows[: next(ends, len(rows))]]


def with_table(page, head, rows):
    """The page with these rows in the table with this head."""
    before, head, rest = page.partition(head)
    line, *rest = rest.splitlines(keepends=True)
    while rest and rest[0].startswith("|"):
        del rest[0]
    made = [f"| {' | '.join(row)} |\n" for row in rows]
    return "".join([before, head, line, *made, *rest])


def numbers(cells):
    return [float(it.replace(",", "")) for it in cells]


def with_figures(page, circuits, sizes):
    """docs/SPEED.md with the times of these circuits, and of circuits of these sizes."""
    if BY_GATES not in page:
        page = page.replace(NEXT_PART, GATES_PART + NEXT_PART)
    rows = [
        [name, f"{gates:,}", f"{ands:,}", *[f"{it:.0f}" for it in times]]
        for name, (gates, ands, times) in circuits.items()
    ]
    page = with_table(page, BY_WORKERS, rows)
    rows = [
        [f"{gates:,}", f"{ands:,}", *[f"{it * 1e6 / gates:.0f}" for it in times]]
        for gates, ands, times in sizes.values()
    ]
    return with_table(page, BY_GATES, rows)


def with_lists(page, printed):
    """The page with the lines of its lists as they were printed, each by its first words."""
    for line in printed.splitlines():
        name, colon, rest = line.partition(": ")
        item = re.compile(rf"^- (`?){re.escape(name)}\1: .*(\n  .*)*", re.M)
        if colon and (found := item.search(page)):
            said = f"- {found[1]}{name}{found[1]}: {rest}"
            page = page.replace(found[0], textwrap.fill(said, 120, subsequent_indent="  "))
    today = f"{date.today():%d %B %Y}".lstrip("0")
    return re.sub("(those of one run on )[0-9]+ [A-Z][a-z]+ [0-9]+", rf"\g<1>{today}", page)


def with_readme_figures(readme, page):
    """README.md with the figures of docs/SPEED.md: on one thread and by four workers."""
    for cells in table_of(page, BY_WORKERS):
        name, gates, ands, garbling, _, _, garbling_4, evaluating, _, _, evaluating_4 = cells
        row = [name, gates, ands, garbling, garbling_4, evaluating, evaluating_4]
        old = rf"^\| {re.escape(name)} \|.*$"
        readme = re.sub(old, f"| {' | '.join(row)} |", readme, flags=re.M)
    return readme


def text(x, y, said, anchor="start", more=""):
    return f'<text x="{x:.0f}" y="{y:.0f}" text-anchor="{anchor}"{more}>{escape(said)}</text>'


def rect(x, y, wide, high, colour):
    return f'<rect x="{x:.1f}" y="{y:.1f}" width="{wide:.1f}" height="{high}" fill="{colour}"/>'


def legend(x, y):
    """What each colour is."""
    for place, (way, colour) in enumerate(zip(WAYS, COLOURS)):
        yield rect(x + 105 * place, y - 10, 12, 12, colour)
        yield text(x + 105 * place + 18, y, way)


def bars(rows):
    """A group of bars for each circuit, garbling next to evaluating."""
    left, panel, bar, group = 290, 330, 11, 56
    wide, high = left + len(WORK) * panel, 70 + group * len(rows)
    most = max(max(numbers(row[3:])) for row in rows)
    shapes = [text(10, 22, "Milliseconds, by workers", more=' font-weight="bold"')]
    shapes += legend(left, 22)
    shapes += [text(left + panel * i, 46, it) for i, it in enumerate(WORK)]
    for place, (name, gates, _, *times) in enumerate(rows):
        y = 56 + group * place
        shapes.append(text(10, y + 20, name))
        shapes.append(text(10, y + 35, f"{gates} gates", more=' fill="#666666"'))
        for i, took in enumerate(times):
            work, way = divmod(i, len(WAYS))
            start, top = left + panel * work, y + bar * way
            length = (panel - 60) * numbers([took])[0] / most
            shapes.append(rect(start, top, length, bar - 1, COLOURS[way]))
            shapes.append(text(start + length + 4, top + bar - 2, took, more=' font-size="10"'))
    return SVG.format(wide=wide, high=high, shapes="\n".join(shapes))


def lines(rows):
    """The time of a gate over the number of gates, garbling next to evaluating."""
    left, panel, plot, top, tall = 50, 420, 360, 60, 300
    rows = [numbers(row) for row in rows]
    gates = [row[0] for row in rows]
    most = max(max(row[2:]) for row in rows)
    step = 10 ** math.floor(math.log10(most))
    step /= 1 if most / step > 4 else 4
    low, high = math.log10(min(gates)), math.log10(max(gates))
    across = lambda n: plot * (math.log10(n) - low) / (high - low)
    up = lambda took: top + tall * (1 - took / most)
    title = "Nanoseconds a gate, by the number of gates"
    shapes = [text(10, 22, title, more=' font-weight="bold"'), *legend(left + panel - 60, 22)]
    for i, work in enumerate(WORK):
        x = left + panel * i
        shapes.append(text(x, 46, work))
        for tick in range(math.floor(most / step) + 1):
            y = up(tick * step)
            shapes.append(f'<path d="M{x} {y:.1f}h{plot}" stroke="#dddddd"/>')
            shapes.append(text(x - 6, y + 4, f"{tick * step:g}", "end"))
        for n in gates:
            number = f"{n / 1e6:g}M" if n >= 1e6 else f"{n / 1e3:g}k"
            shapes.append(text(x + across(n), top + tall + 18, number, "middle"))
        for way, colour in enumerate(COLOURS, 2 + len(WAYS) * i):
            points = "L".join(f"{x + across(row[0]):.1f} {up(row[way]):.1f}" for row in rows)
            style = f'fill="none" stroke="{colour}" stroke-width="2"'
            shapes.append(f'<path d="M{points}" {style}/>')
    return SVG.format(wide=left + panel * len(WORK), high=top + tall + 36, shapes="\n".join(shapes))


def keep_figures(page, readme, printed):
    """Puts what the benchmark printed into both documents."""
    text = Path(printed).read_text()
    rows = printed_rows(text)
    sizes = {name: it for name, it in rows.items() if name.startswith("size ")}
    circuits = {name: it for name, it in rows.items() if name not in sizes}
    tables = [(head, table_of(text, head)) for head in AS_PRINTED]
    if not circuits or not sizes or not all(rows for _, rows in tables):
        sys.exit(f"plot.py: not all tables of bench/run.sh are in {printed}")
    figures = with_figures(page.read_text(), circuits, sizes)
    for head, rows in tables:
        figures = with_table(figures, head, rows)
    page.write_text(with_lists(figures, text))
    readme.write_text(with_readme_figures(readme.read_text(), page.read_text()))


def main():
    page, readme = TOP / "docs/SPEED.md", TOP / "README.md"
    for printed in sys.argv[1:]:
        keep_figures(page, readme, printed)
    for name, draw, head in (("workers", bars, BY_WORKERS), ("sizes", lines, BY_GATES)):
        if rows := table_of(page.read_text(), head):
            (TOP / f"docs/{name}.svg").write_text(draw(rows))


if __name__ == "__main__":
    main()
