#!/usr/bin/env python3
"""Draws figures of docs/PERFORMANCE.md as SVG, out of that page's own tables and of tools/revocation_bytes.py.

    python3 tools/draw_figures.py revocation > PICTURE.svg    # bytes that a revocation moves, by the archive's size
    python3 tools/draw_figures.py files > PICTURE.svg         # seconds of a script, by its number of files
    python3 tools/draw_figures.py requests > PICTURE.svg      # requests a second, by their kind
"""
import html
import math
import re
import sys

from common import ROOT

PAGE = ROOT / "docs" / "PERFORMANCE.md"
WIDTH, HEIGHT, LEFT, RIGHT, TOP, FOOT = 640, 356, 104, 28, 60, 56
BLUE, ORANGE, GREY, INK = "#0969da", "#bc4c00", "#8c959f", "#24292f"
MIB = 1024 * 1024


def table_of(heading, first):
    """The rows of the table below a heading of the page whose head begins so."""
    section = PAGE.read_text().split(f"\n## {heading}\n")[1].split("\n## ")[0]
    lines = section[section.index(first) :].split("\n\n")[0].splitlines()
    return [[cell.strip() for cell in line.strip("|").split("|")] for line in lines[2:]]


def number(text):
    return float(re.match(r"[\d.,]+", text).group().replace(",", ""))


class Figure:
    """A drawing with a scale for each axis, from numbers to places."""

    def __init__(self, title, along, up):
        self.parts, self.along, self.up = [], along, up
        self.text(LEFT, 24, title, size=15, weight="bold")

    def text(self, x, y, words, size=12, colour=INK, weight="normal", anchor="start"):
        self.parts.append(
            f'<text x="{x:.0f}" y="{y:.0f}" font-size="{size}" fill="{colour}" font-weight="{weight}"'
            f' text-anchor="{anchor}">{html.escape(words)}</text>'
        )

    def x(self, value):
        low, high, scale = self.along
        return LEFT + (WIDTH - LEFT - RIGHT) * (scale(value) - scale(low)) / (scale(high) - scale(low))

    def y(self, value):
        low, high, scale = self.up
        return HEIGHT - FOOT - (HEIGHT - TOP - FOOT) * (scale(value) - scale(low)) / (scale(high) - scale(low))

    def axes(self, below, beside, names):
        for value, word in beside:
            y = self.y(value)
            self.parts.append(f'<path d="M{LEFT} {y:.0f}H{WIDTH - RIGHT}" stroke="{GREY}" stroke-width="0.5"/>')
            self.text(LEFT - 8, y + 4, word, anchor="end")
        for value, word in below:
            self.text(self.x(value), HEIGHT - FOOT + 18, word, anchor="middle")
        self.text((LEFT + WIDTH - RIGHT) / 2, HEIGHT - 12, names[0], anchor="middle")
        self.text(8, TOP - 14, names[1])

    def line(self, points, colour, word):
        path = "L".join(f"{self.x(a):.1f} {self.y(b):.1f}" for a, b in points)
        self.parts.append(f'<path d="M{path}" fill="none" stroke="{colour}" stroke-width="2.5"/>')
        for a, b in points:
            self.parts.append(f'<circle cx="{self.x(a):.1f}" cy="{self.y(b):.1f}" r="3.5" fill="{colour}"/>')
        self.text(self.x(points[-1][0]), self.y(points[-1][1]) - 9, word, colour=colour, weight="bold", anchor="end")

    def bar(self, x, width, value, colour, word):
        y = self.y(value)
        self.parts.append(
            f'<rect x="{x:.0f}" y="{y:.0f}" width="{width:.0f}" height="{HEIGHT - FOOT - y:.0f}" fill="{colour}"/>'
        )
        self.text(x + width / 2, y - 4, word, size=11, anchor="middle")

    def svg(self):
        head = f'<svg xmlns="http://www.w3.org/2000/svg" viewBox="0 0 {WIDTH} {HEIGHT}" font-family="sans-serif">'
        ground = f'<rect width="{WIDTH}" height="{HEIGHT}" fill="white"/>'
        return "\n".join([head, ground, *self.parts, "</svg>"])


def age_size(length, recipients):
    return 22 + 98 * recipients + 48 + 16 + length + 16 * max(1, math.ceil(length / 65536))


def revocation():
    """One of eight readers leaves 1,000 files, as tools/revocation_bytes.py counts it."""
    sizes = [MIB << shift for shift in range(7)]
    figure = Figure("One of eight readers leaves 1,000 files", (MIB, 64 * MIB, math.log), (1e4, 1e9, math.log))
    figure.axes(
        [(size, f"{size // MIB} MiB") for size in sizes],
        [(10.0**power, f"{10**power:,}") for power in range(4, 10)],
        ("bytes of the archive", "bytes that move, each line ten times the one below"),
    )
    moved = [(size, sum(1000 * age_size(size // 1000, readers) for readers in (8, 7))) for size in sizes]
    figure.line(moved, ORANGE, "age: fetched and sent again")
    figure.line([(size, 115_000) for size in sizes], BLUE, "overstore: frames of the revocations")
    return figure


def files():
    rows = [(number(row[0]), number(row[1])) for row in table_of("Files of a script", "| files |")]
    figure = Figure("Creating and reading files of 1 MiB, user and system time", (0, rows[-1][0], float), (0, 1.8, float))
    figure.axes(
        [(count, f"{count:.0f}") for count, _ in rows],
        [(value / 10, f"{value / 10:.1f} s") for value in range(0, 19, 3)],
        ("files of the script", "time"),
    )
    figure.line(rows, BLUE, "overstore run full")
    return figure


def requests():
    kinds = {
        "Hello": "Hello",
        "Ask": "Ask",
        "List": "List",
        "Update, ext4 on a disk of the machine": "Update, on a disk",
    }
    found = table_of("Over the network", "| | `overstored`")
    rows = [(kinds[row[0]], number(row[1]), number(row[3])) for row in found if row[0] in kinds]
    figure = Figure("Requests a second, one session over the loopback", (0, len(rows), float), (0, 60_000, float))
    figure.axes(
        [(at + 0.5, row[0]) for at, row in enumerate(rows)],
        [(value, f"{value:,}") for value in range(0, 60_001, 20_000)],
        ("left: overstored; right: an echo in plain Rust", "a second"),
    )
    for at, (_, served, echoed) in enumerate(rows):
        figure.bar(figure.x(at + 0.12), 48, served, BLUE, f"{served:,.0f}")
        figure.bar(figure.x(at + 0.12) + 52, 48, echoed, GREY, f"{echoed:,.0f}")
    return figure


FIGURES = {"revocation": revocation, "files": files, "requests": requests}

if len(sys.argv) != 2 or sys.argv[1] not in FIGURES:
    sys.exit("usage: draw_figures.py " + "|".join(FIGURES))
print(FIGURES[sys.argv[1]]().svg())
