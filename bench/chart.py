#!/usr/bin/env python3
"""A chart of what bench/run measured: of each load a panel, in which each row has a bar for bitcaskd and one for C, as
nanoseconds of one operation on a logarithmic axis.
usage: bench/chart.py FILE.tsv >FILE.svg
"""

import html
import math
import pathlib
import sys
import types

COLOURS = {"bitcaskd": "#0072b2", "C": "#e69f00"}
LEFT, WIDTH, BAR, GAP, TOP = 190, 420, 9, 8, 64
STYLE = "font-family: sans-serif; font-size: 12px; fill: #222"


class Panel:
    """The bars of one load."""

    def __init__(self, rows, x, y, least, most):
        self.rows, self.x, self.y, self.least, self.most = rows, x, y, math.log10(least), math.log10(most)
        self.parts = []

    @property
    def height(self):
        return len(self.rows) * (2 * BAR + GAP) + 44

    def place(self, value):
        return (math.log10(value) - self.least) / (self.most - self.least) * WIDTH

    def text(self, x, y, words, anchor="start", weight="normal"):
        self.parts.append(f'<text x="{self.x + x:.0f}" y="{self.y + y:.0f}" text-anchor="{anchor}" '
                          f'style="{STYLE}; font-weight: {weight}">{html.escape(words)}</text>')

    def axis(self):
        bottom = 24 + len(self.rows) * (2 * BAR + GAP)
        for power in range(round(self.least), round(self.most) + 1):
            at = LEFT + self.place(10 ** power)
            self.parts.append(f'<path d="M{self.x + at:.0f} {self.y + 20} v{bottom - 20}" stroke="#ccc"/>')
            number, unit = 10 ** (power % 3), ("ns", "µs", "ms", "s")[power // 3]
            self.text(at, bottom + 14, f"{number} {unit}", "middle")

    def drawn(self):
        self.text(0, 12, f"{self.rows[0].keys:,} keys, values of {self.rows[0].value_bytes:,} bytes", weight="bold")
        self.axis()
        for number, row in enumerate(self.rows):
            y = 24 + number * (2 * BAR + GAP)
            self.text(LEFT - 8, y + BAR + 4, f"{row.what}, {row.group}", "end")
            for half, (name, value) in enumerate((("bitcaskd", row.program), ("C", row.raw))):
                length = self.place(value)
                self.parts.append(f'<rect x="{self.x + LEFT}" y="{self.y + y + half * BAR}" width="{length:.1f}" height="{BAR - 1}" '
                                  f'fill="{COLOURS[name]}"><title>{name}: {value:,.0f} ns</title></rect>')
                self.parts.append(f'<text x="{self.x + LEFT + length + 3:.0f}" y="{self.y + y + half * BAR + BAR - 1}" '
                                  f'style="{STYLE}; font-size: 9px">{value:,.0f}</text>')
        return "\n".join(self.parts)


def svg(rows, under):
    """The chart of these rows; those without a number of C have no bars."""
    rows = [row for row in rows if row.raw]
    values = [value for row in rows for value in (row.program, row.raw)]
    least, most = 10 ** math.floor(math.log10(min(values))), 10 ** math.ceil(math.log10(max(values) * 1.01))
    loads = dict.fromkeys((row.keys, row.value_bytes) for row in rows)
    panels, y = [], TOP
    for load in loads:
        panels.append(Panel([row for row in rows if (row.keys, row.value_bytes) == load], 16, y, least, most))
        y += panels[-1].height + 16
    width = LEFT + WIDTH + 80
    legend = "".join(f'<rect x="{16 + 90 * number}" y="44" width="10" height="10" fill="{colour}"/>'
                     f'<text x="{32 + 90 * number}" y="53" style="{STYLE}">{name}</text>' for number, (name, colour) in enumerate(COLOURS.items()))
    return (f'<svg xmlns="http://www.w3.org/2000/svg" width="{width}" height="{y}" viewBox="0 0 {width} {y}">\n'
            f'<rect width="{width}" height="{y}" fill="white"/>\n'
            f'<text x="16" y="20" style="{STYLE}; font-weight: bold">Nanoseconds of one operation, bitcaskd pipe beside raw C</text>\n'
            f'<text x="16" y="36" style="{STYLE}; font-size: 10px">{html.escape(under)}</text>\n'
            f'{legend}\n' + "\n".join(panel.drawn() for panel in panels) + "\n</svg>\n")


def rows_of(text):
    """The rows of a file that bench/run wrote."""
    for line in text.splitlines():
        keys, value_bytes, group, what, program, raw = line.split("\t")
        yield types.SimpleNamespace(keys=int(keys), value_bytes=int(value_bytes), group=group, what=what, program=float(program),
                                    raw=float(raw) if raw else None)


if __name__ == "__main__":
    sys.stdout.write(svg(list(rows_of(pathlib.Path(sys.argv[1]).read_text())), ""))
