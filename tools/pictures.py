#!/usr/bin/env python3
"""Draws the pictures of the documents: tools/pictures.py [FOLDER]

It writes window.svg and tree.svg into the folder, which is docs/ if none is named. Both are of
queries with a window of 3600 and a slide of 600, as the README's first one.
"""
import os
import sys

SIZE, SLIDE = 3600, 600
INK, GREY, BLUE, RED = "#222222", "#8a8a8a", "#2b6cb0", "#c53030"

# what each tuple says, and its time, in the order in which they come
TUPLES = [
    ("5108 transfer 1187", 1764201600),
    ("1187 transfer 2033", 1764201900),
    ("2033 withdraw north", 1764202000),
    ("7345 transfer 1187", 1764202500),
    ("9001 pays harbour", 1764205800),
    ("2033 transfer 7345", 1764201900),
]


def left_edge(clock):
    """The time up to which edges have left the window at this clock."""
    return clock // SLIDE * SLIDE - SIZE


def until(time):
    """The clock from which on an edge of this time has left: a multiple of the slide."""
    return -(-(time + SIZE) // SLIDE) * SLIDE


class Picture:
    """The lines of an SVG picture."""

    def __init__(self, width, height, title):
        self.lines = [
            f'<svg xmlns="http://www.w3.org/2000/svg" viewBox="0 0 {width} {height}" '
            f'width="{width}" height="{height}" font-family="sans-serif" font-size="13">',
            f"<title>{title}</title>",
            f'<rect width="{width}" height="{height}" fill="white"/>',
        ]

    def text(self, x, y, said, colour=INK, anchor="start", size=13):
        self.lines.append(
            f'<text x="{x:.0f}" y="{y:.0f}" fill="{colour}" text-anchor="{anchor}" '
            f'font-size="{size}">{said}</text>'
        )

    def bar(self, x, y, width, height, colour):
        self.lines.append(
            f'<rect x="{x:.1f}" y="{y:.1f}" width="{width:.1f}" height="{height}" '
            f'fill="{colour}"/>'
        )

    def line(self, x, y, to_x, to_y, colour=GREY, more=""):
        self.lines.append(
            f'<line x1="{x:.1f}" y1="{y:.1f}" x2="{to_x:.1f}" y2="{to_y:.1f}" '
            f'stroke="{colour}" {more}/>'
        )

    def dot(self, x, y, colour, filled):
        fill = colour if filled else "white"
        self.lines.append(
            f'<circle cx="{x:.1f}" cy="{y:.1f}" r="5" fill="{fill}" stroke="{colour}" '
            f'stroke-width="1.5"/>'
        )

    def box(self, x, y, said, below, colour=INK):
        self.lines.append(
            f'<rect x="{x - 62}" y="{y - 18}" width="124" height="36" rx="6" fill="white" '
            f'stroke="{colour}" stroke-width="1.5"/>'
        )
        self.text(x, y + 5, said, colour, "middle")
        self.text(x, y + 34, below, BLUE, "middle", 12)

    def save(self, path):
        with open(path, "w", encoding="utf-8") as file:
            file.write("\n".join([*self.lines, "</svg>"]) + "\n")


def window():
    """A row for each tuple, with the window after it and the edges that are there."""
    first, last = 1764197800, 1764206000
    picture = Picture(900, 330, "A window that slides over six tuples")

    def x_of(time):
        return 210 + (time - first) * 660 / (last - first)

    for mark in range(first // SLIDE * SLIDE + SLIDE, last, SLIDE):
        picture.line(x_of(mark), 34, x_of(mark), 286, "#e3e3e3")
    for mark in (1764198000, 1764201600, 1764205200):
        picture.text(x_of(mark), 26, mark, GREY, "middle", 11)
    clock = 0
    for row, (said, time) in enumerate(TUPLES, 1):
        y = 20 + 44 * row
        clock = max(clock, time)
        edge = left_edge(clock)
        picture.text(12, y + 5, f"@{row}")
        picture.text(44, y + 5, said)
        picture.bar(x_of(edge), y - 9, x_of(clock) - x_of(edge), 18, "#dbe7f3")
        for _, earlier in TUPLES[: row - 1]:
            picture.dot(x_of(earlier), y, GREY, earlier > edge)
        picture.dot(x_of(time), y, BLUE if time > edge else RED, time > edge)
    picture.text(12, 318, "Along: time. Down: the order in which tuples come.", GREY)
    picture.text(400, 318, "blue: the new edge; filled: in the window", GREY)
    picture.text(680, 318, "red: came too late", RED)
    return picture


def tree():
    """The tree of one source, with the edge that raised a node, and the one that it replaced."""
    picture = Picture(900, 250, "The tree of paths of one source")
    places = {"5108": (90, 70), "1187": (330, 70), "2033": (570, 70), "north": (810, 70)}
    edges = {
        ("5108", "1187"): 1764201600,
        ("1187", "2033"): 1764201900,
        ("2033", "north"): 1764202000,
        ("5108", "2033"): 1764202300,
    }
    kept = [("5108", "1187"), ("2033", "north")]
    for source, target in kept:
        arrow(picture, places[source], places[target], edges[source, target], INK, "")
    arrow(picture, places["1187"], places["2033"], edges["1187", "2033"], GREY, "5 4")
    raised = edges["5108", "2033"]
    x, y = places["5108"]
    to_x, to_y = places["2033"]
    picture.lines.append(
        f'<path d="M {x} {y + 44} C {x + 60} {y + 150}, {to_x - 60} {to_y + 150}, {to_x} '
        f'{to_y + 42}" fill="none" stroke="{INK}" stroke-width="1.5" marker-end="url(#end)"/>'
    )
    picture.text((x + to_x) / 2, y + 142, f"transfer, until {until(raised)}", INK, "middle", 12)
    root = "acct:5108"
    at_2033 = until(raised)
    at_north = min(at_2033, until(edges["2033", "north"]))
    picture.box(*places["5108"], root, "the source")
    picture.box(*places["1187"], "acct:1187", f"until {until(edges['5108', '1187'])}")
    picture.box(*places["2033"], "acct:2033", f"until {at_2033}")
    picture.box(*places["north"], "atm:north", f"until {at_north}", RED)
    picture.text(12, 238, "dashed: an edge on no path of the tree; red: an answer", GREY)
    return picture


def arrow(picture, start, end, time, colour, dashes):
    more = f'stroke-width="1.5" stroke-dasharray="{dashes}" marker-end="url(#end)"'
    picture.line(start[0] + 64, start[1], end[0] - 70, end[1], colour, more)
    middle = (start[0] + end[0]) / 2
    picture.text(middle, start[1] - 22, f"until {until(time)}", colour, "middle", 11)


MARKER = (
    '<defs><marker id="end" viewBox="0 0 8 8" refX="7" refY="4" markerWidth="8" '
    f'markerHeight="8" orient="auto"><path d="M 0 0 L 8 4 L 0 8 z" fill="{INK}"/></marker></defs>'
)


def main():
    docs = os.path.join(os.path.dirname(os.path.abspath(__file__)), "..", "docs")
    folder = sys.argv[1] if len(sys.argv) > 1 else docs
    window().save(os.path.join(folder, "window.svg"))
    drawn = tree()
    drawn.lines.insert(1, MARKER)
    drawn.save(os.path.join(folder, "tree.svg"))
    return 0


if __name__ == "__main__":
    sys.exit(main())
