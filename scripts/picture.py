#!/usr/bin/env python3
"""Prints an SVG picture of the program, the C library and the crates that they use, made from
crates.txt.

  picture.py

A crate is one row above the highest crate that it uses. An arrow leads from a crate to each crate
that it uses, unless a path of other arrows leads there.
"""

from graphlib import TopologicalSorter
from pathlib import Path

PROGRAM, LIBRARY = "halfgates", "halfgates_c"
CRATES = Path(__file__).resolve().parent.parent / "crates.txt"

# What each crate of the picture is.
WHAT = {
    "gc_netlist": "what circuits are",
    "gc_lanes": "SHA-256 in lanes",
    "gc_tokens": "tokens of texts",
    "gc_circuit": "reading circuits, digests",
    "gc_depth": "order of gates",
    "gc_label": "labels and seeds",
    "gc_half": "half gates, laws",
    "gc_file": "the files' formats",
    "gc_audit": "audits and statistics",
    "gc_workers": "what workers share",
    "gc_store": "garbling in progress",
    "gc_work": "garbling by workers",
    "gc_rounds": "rounds at banks",
    "gc_gates": "shared gate words",
    "gc_job": "binding and evaluating",
    "gc_steps": "steps of seats",
    "gc_eval": "evaluation by workers",
    "gc_bank": "lists of jobs",
    "gc_kept": "values behind handles",
    "halfgates_c": "the C library",
    "gc_order": "command line parser",
    "gc_disk": "files by name",
    "gc_command": "the program's commands",
    "gc_explain": "sentences about faults",
    "gc_cli": "a whole run",
    "halfgates": "the program's main",
}

# Pixels: the heights of a box and of a row, the widths of a letter of a name and of a text below
# it, the room in a box around them, and the room between boxes, between the arrows at one side of a
# box, and at the edge.
BOX, ROW, LETTER, SMALL_LETTER, PADDING = 44, 88, 9, 6.5, 20
GAP, PORT, MARGIN = 24, 14, 20

# The pull between two bends of an arrow, where all others are 1, and how often places follow it.
STIFFNESS, SWEEPS = 30, 300

SVG = """\
<svg xmlns="http://www.w3.org/2000/svg" viewBox="0 0 {wide} {high}" width="{wide}" height="{high}">
<title>The crates of the program and of the C library, each above those that it uses</title>
<marker id="head" refX="9" refY="4" markerWidth="9" markerHeight="8" orient="auto">
<path d="M0 0L9 4L0 8z"/></marker>
<rect width="{wide}" height="{high}" fill="white"/>
<g fill="none" stroke="black">
{lines}</g>
<g fill="white" stroke="black" font-family="monospace" font-size="14" text-anchor="middle">
{boxes}</g>
</svg>"""


def read_uses():
    """By crate of the repository, the crates of the repository that it uses."""
    lines = [line.partition("#")[0].partition(":") for line in CRATES.read_text().splitlines()]
    rows = {head.split()[0]: words.split() for head, colon, words in lines if colon}
    return {name: [used for used in words if used in rows] for name, words in rows.items()}


def arrange(uses):
    """The row of each crate, the lowest being 0, and the arrows of the program and the library, and
    of the crates below them.
    """
    row_of, below = {}, {}
    for name in TopologicalSorter(uses).static_order():
        row_of[name] = max((row_of[used] + 1 for used in uses[name]), default=0)
        below[name] = set(uses[name]).union(*(below[used] for used in uses[name]))
    all_shown = {PROGRAM, LIBRARY} | below[PROGRAM] | below[LIBRARY]
    shown = [name for name in uses if name in all_shown]
    pairs = [(name, used) for name in shown for used in uses[name]]
    return row_of, [(a, b) for a, b in pairs if not any(b in below[it] for it in uses[a])]


def width(place):
    if not isinstance(place, str):
        return 0
    return round(max(LETTER * len(place), SMALL_LETTER * len(WHAT[place]))) + PADDING


class Picture:
    """Places in rows: crates, by their names, and bends, where an arrow passes a row."""

    def __init__(self, row_of, arrows):
        self.chains = [
            [a, *((a, b, row) for row in range(row_of[a] - 1, row_of[b], -1)), b] for a, b in arrows
        ]
        self.row_of = {it: row_of[c[0]] - i for c in self.chains for i, it in enumerate(c)}
        rows = range(max(self.row_of.values()) + 1)
        self.rows = [[it for it in self.row_of if self.row_of[it] == row] for row in rows]
        self.above, self.below = {it: [] for it in self.row_of}, {it: [] for it in self.row_of}
        for upper, lower in (link for chain in self.chains for link in zip(chain, chain[1:])):
            self.below[upper].append(lower)
            self.above[lower].append(upper)
        self.order()
        self.spread()

    def order(self):
        """Orders each row by the one above, and then swaps neighbours while fewer arrows cross."""
        self.at = {place: i for row in self.rows for i, place in enumerate(row)}
        for row in reversed(self.rows[:-1]):
            row.sort(key=self.mean_above)
            self.at.update((place, i) for i, place in enumerate(row))
        while any(self.swap(row, i) for row in self.rows for i in range(len(row) - 1)):
            pass

    def mean_above(self, place):
        """The mean of the places in the row above that arrows to this one come from, if any."""
        ends = self.above[place]
        return sum(map(self.at.get, ends)) / len(ends) if ends else self.at[place]

    def swap(self, row, i):
        """Swaps two neighbours if fewer arrows cross then, and says whether it did."""
        one, other = row[i : i + 2]
        pairs = [(p, q) for far in (self.above, self.below) for p in far[one] for q in far[other]]
        fewer = sum((self.at[p] > self.at[q]) - (self.at[p] < self.at[q]) for p, q in pairs)
        if fewer > 0:
            row[i : i + 2] = other, one
            self.at[one], self.at[other] = i + 1, i
        return fewer > 0

    def spread(self):
        """Moves the places of each row to where their arrows pull them, as far as there is room."""
        self.x = dict.fromkeys(self.row_of, 0.0)
        for row in SWEEPS * self.rows:
            self.spread_row(row)
        left = min(x - width(place) / 2 for place, x in self.x.items())
        self.x = {place: round(x - left + MARGIN) for place, x in self.x.items()}

    def spread_row(self, row):
        """Places a row where the squares of the pulls are least. Touching places are one group."""
        groups, room = [], 0.0
        for place in row:
            offset, room = room + width(place) / 2, room + width(place) + GAP
            ends = self.above[place] + self.below[place]
            pulls = [STIFFNESS if width(place) + width(it) == 0 else 1 for it in ends]
            pulled = sum(pull * (self.x[it] - offset) for pull, it in zip(pulls, ends))
            groups.append((pulled, sum(pulls), [(place, offset)]))
            while len(groups) > 1 and groups[-2][0] * groups[-1][1] > groups[-1][0] * groups[-2][1]:
                last = groups.pop()
                groups[-1] = tuple(mine + more for mine, more in zip(groups[-1], last))
        for pulled, pull, places in groups:
            self.x.update((place, pulled / pull + offset) for place, offset in places)

    def top(self, place):
        return MARGIN + ROW * (len(self.rows) - 1 - self.row_of[place])

    def port(self, place, end, ends):
        """Where at a side of a place the arrow to one of these ends begins."""
        ends = sorted(ends, key=self.x.get)
        return self.x[place] + PORT * ends.index(end) - PORT * (len(ends) - 1) // 2

    def line(self, chain):
        """An arrow, which is straight where it passes a row."""
        path = f"M{self.port(chain[0], chain[1], self.below[chain[0]])} {self.top(chain[0]) + BOX}"
        for upper, lower in zip(chain, chain[1:]):
            a = self.port(upper, lower, self.below[upper])
            b, y = self.port(lower, upper, self.above[lower]), self.top(lower)
            half = y - (ROW - BOX) // 2
            path += f"C{a} {half} {b} {half} {b} {y}" + (f"v{BOX}" if lower != chain[-1] else "")
        return f'<path d="{path}" marker-end="url(#head)"/>'

    def box(self, name):
        x, y, wide = self.x[name], self.top(name), width(name)
        text = 'fill="black" stroke="none"'
        return (
            f'<rect x="{x - wide // 2}" y="{y}" width="{wide}" height="{BOX}" rx="4"/>\n'
            f'<text x="{x}" y="{y + 19}" {text}>{name}</text>\n'
            f'<text x="{x}" y="{y + 36}" {text} font-family="sans-serif" font-size="12">'
            f"{WHAT[name]}</text>"
        )

    def svg(self):
        wide = max(x + width(place) // 2 for place, x in self.x.items()) + MARGIN
        high = 2 * MARGIN + ROW * (len(self.rows) - 1) + BOX
        lines = "\n".join(map(self.line, self.chains))
        boxes = "\n".join(self.box(it) for it in self.x if isinstance(it, str))
        return SVG.format(wide=wide, high=high, lines=lines, boxes=boxes)


if __name__ == "__main__":
    print(Picture(*arrange(read_uses())).svg())
