#!/usr/bin/env python3
"""Draws the two layers of a store, and what one user's keys lead to, as an SVG.

Run: python3 tools/draw_store.py MODE USER < store.book > PICTURE.svg

At the left stand the users' own nodes in the base layer and in the surface layer, then the sets of several
users with their edges, and at the right the files, each under the node of its base coat and, where it has
one, of its surface coat. What the user's keys lead to is drawn in green; a file is green where all its keys
are. A dashed arrow is an access token.
"""
import html
import sys

from all_files import end, expect_enrolled
from store_layers import last_store

ROW, BOX, COLUMNS, TOP = 44, (132, 28), (24, 236, 472), 58
GREEN, GREY, INK = "#1a7f37", "#8c959f", "#24292f"


class Picture:
    def __init__(self, store, user):
        self.store, self.user, self.parts, self.places = store, user, [], {}

    def text(self, x, y, words, size=13, colour=INK, weight="normal"):
        self.parts.append(
            f'<text x="{x}" y="{y}" font-size="{size}" fill="{colour}" font-weight="{weight}">{html.escape(words)}</text>'
        )

    def box(self, key, column, y, words, reached):
        x, colour = COLUMNS[column], GREEN if reached else GREY
        self.places[key] = (x, y)
        self.parts.append(
            f'<rect x="{x}" y="{y}" width="{BOX[0]}" height="{BOX[1]}" rx="5" fill="white" stroke="{colour}" stroke-width="2"/>'
        )
        self.text(x + 10, y + 19, words, colour=colour)

    def arrow(self, start, end_, reached, dashed=False):
        (x, y), (to_x, to_y) = self.places[start], self.places[end_]
        colour, dash = "green" if reached else "grey", ' stroke-dasharray="5 4"' if dashed else ""
        # within a column an arrow goes round at its left
        bend, x = (-34, x) if x == to_x else (40, x + BOX[0])
        y, to_y = y + BOX[1] // 2, to_y + BOX[1] // 2
        self.parts.append(
            f'<path d="M{x} {y} C{x + bend} {y}, {to_x - 44} {to_y}, {to_x - 4} {to_y}" fill="none"'
            f' stroke="{GREEN if reached else GREY}" stroke-width="1.5"{dash} marker-end="url(#{colour})"/>'
        )

    def layer(self, name, layer, y, title, has_key, reaches):
        """One layer from this height on; the height below it is the result. A node is green where the user has
        its key for files, and an edge where the user can go on from its start."""
        self.text(COLUMNS[0], y, title, size=14, weight="bold")
        count = len(self.store.users)
        heights = {node: y + 14 + ROW * node for node in range(count)}
        heights.update({node: y + 14 + ROW * (node - count) + ROW // 2 for node in range(count, len(layer.sets))})
        for node, users in enumerate(layer.sets):
            names = ", ".join(self.store.users[user] for user in sorted(users)) or "nobody"
            self.box((name, node), int(node >= count), heights[node], names, has_key(node))
        for node, starts in enumerate(layer.starts):
            for start in starts:
                self.arrow((name, start), (name, node), reaches(start))
        return max(heights.values(), default=y) + ROW + 22

    def is_within(self, layer):
        return lambda node: self.user in layer.sets[node]

    def draw(self):
        store, user = self.store, self.user
        self.text(COLUMNS[0], 26, f"What {store.users[user]}'s keys lead to", size=16, weight="bold")
        holds = lambda node: user in store.holders(node)
        below = self.layer("base", store.base, TOP, "Base layer: the owner's coat, laid once", holds, self.is_within(store.base))
        within = self.is_within(store.surface)
        down = self.layer("surface", store.surface, below + 10, "Surface layer: the server's coat", within, within)
        for holder, node in sorted(store.accesses):
            self.arrow(("base", holder), ("base", node), holder == user, dashed=True)
        files = [file for file in store.files if file is not None]
        gap = (down - TOP) / (len(files) + 1)
        for number, file in enumerate(files):
            self.box(number, 2, round(TOP + gap * (number + 1)) - BOX[1], file.name, store.reads(user, file))
            self.arrow(("base", file.base), number, user in store.holders(file.base))
            if file.surface is not None:
                self.arrow(("surface", file.surface), number, user in store.surface.sets[file.surface])
        return self.svg(COLUMNS[2] + BOX[0] + 24, down)

    def svg(self, width, height):
        heads = "".join(
            f'<marker id="{name}" viewBox="0 0 8 8" refX="7" refY="4" markerWidth="7" markerHeight="7" orient="auto">'
            f'<path d="M0 0 L8 4 L0 8 z" fill="{colour}"/></marker>'
            for name, colour in (("green", GREEN), ("grey", GREY))
        )
        begin = f'<svg xmlns="http://www.w3.org/2000/svg" viewBox="0 0 {width} {height}" width="{width}" font-family="sans-serif">'
        back = f'<rect width="{width}" height="{height}" fill="white"/>'
        return "\n".join([begin, f"<defs>{heads}</defs>", back, *self.parts, "</svg>", ""])


def main():
    if len(sys.argv) != 3 or sys.argv[1] not in ("full", "delta"):
        end(2, "usage: draw_store.py full|delta USER < store.book > PICTURE.svg")
    store = last_store(sys.stdin.buffer.read(), "standard input", sys.argv[1])
    expect_enrolled(sys.argv[2], store.users, "this store.book")
    sys.stdout.write(Picture(store, store.users.index(sys.argv[2])).draw())


if __name__ == "__main__":
    main()
