#!/usr/bin/env python3
"""Draws the pictures of docs/ARCHITECTURE.md: docs/pictures/NAME.svg of docs/pictures/NAME.txt, for each such text.
The head of each text says how its lines are read.

    dev/pictures.py           draws them all
    dev/pictures.py --look    tells which of them aren't those of their texts, and draws none

The last line of --look is 'N passed, M failed'; the status is 0 where M is 0.
"""
import glob
import os
import sys
from html import escape

FOLDER = os.path.join(os.path.dirname(os.path.dirname(os.path.abspath(__file__))), "docs", "pictures")
COLOURS = ["#f3e3c3", "#dbe9d2", "#cfe3f1", "#dcd7ef", "#f1d6dc", "#d2ebe8", "#f0ddcb"]
INK, PALE = "#222222", "#8a8a8a"
SANS = "DejaVu Sans, Verdana, sans-serif"
MONO = "DejaVu Sans Mono, Menlo, Consolas, monospace"


class Drawing:
    """An SVG picture of this size, as its elements."""

    def __init__(self, width, height):
        self.width, self.height = width, height
        self.parts = [f'<rect width="{width}" height="{height}" fill="#ffffff"/>']

    def text(self, x, y, words, size=12, mono=False, colour=INK, anchor="start", bold=False):
        weight = ' font-weight="bold"' if bold else ""
        self.parts.append(f'<text x="{x}" y="{y}" font-family="{MONO if mono else SANS}" font-size="{size}"{weight} '
                          f'fill="{colour}" text-anchor="{anchor}">{escape(words)}</text>')

    def box(self, x, y, width, height, fill):
        self.parts.append(f'<rect x="{x}" y="{y}" width="{width}" height="{height}" rx="4" fill="{fill}" '
                          f'stroke="{INK}" stroke-width="0.7"/>')

    def line(self, points, colour=INK, head=False, dashed=False):
        """A line through these points, with an arrow's head at its end where it is wanted."""
        path = " ".join(f"{x},{y}" for x, y in points)
        more = (' marker-end="url(#head)"' if head else "") + (' stroke-dasharray="5 4"' if dashed else "")
        self.parts.append(f'<polyline points="{path}" fill="none" stroke="{colour}" stroke-width="1"{more}/>')

    def svg(self):
        head = (f'<defs><marker id="head" viewBox="0 0 8 8" refX="7" refY="4" markerWidth="7" markerHeight="7" '
                f'orient="auto"><path d="M0,0 L8,4 L0,8 z" fill="{INK}"/></marker></defs>')
        size = f'width="{self.width}" height="{self.height}" viewBox="0 0 {self.width} {self.height}"'
        return f'<svg xmlns="http://www.w3.org/2000/svg" {size}>\n{head}\n' + "\n".join(self.parts) + "\n</svg>\n"


def lines_of(text):
    """The lines of a picture's text but those of its head, which begin with #."""
    return [line.strip() for line in text.splitlines() if line.strip() and not line.startswith("#")]


def steps(lines):
    """A path: each step stands as far to the right as its layer, below the step before it."""
    layers = lines[0].removeprefix("layers:").split()
    top, row, indent, width, notes = 14, 30, 30, 176, 474
    it = Drawing(notes + 386, top + row * (len(lines) - 1) + 6)
    before = None
    for place, line in enumerate(lines[1:]):
        y = top + place * row
        if line.startswith("--"):
            it.line([(10, y + 10), (it.width - 10, y + 10)], PALE, dashed=True)
            words = line.removeprefix("--").strip()
            it.parts.append(f'<rect x="94" y="{y}" width="{round(len(words) * 5.7) + 12}" height="20" fill="#ffffff"/>')
            it.text(100, y + 14, words, 11, colour="#555555")
            before = None
            continue
        crate, rest = line.split(": ", 1)
        call, note = rest.split(" | ")
        layer = layers.index(crate)
        x = 98 + indent * layer
        it.text(90, y + 15, crate, 11, mono=True, anchor="end", colour="#555555")
        if before is not None:
            if before < x:
                it.line([(before + 14, y - (row - 22)), (before + 14, y + 11), (x, y + 11)], head=True)
            else:
                it.line([(x + 14, y - (row - 22)), (x + 14, y)], head=True)
        it.box(x, y, width, 22, COLOURS[layer % len(COLOURS)])
        it.text(x + 8, y + 15, call, 11, mono=True)
        it.text(notes, y + 15, note, 12)
        before = x
    return it.svg()


def levels(lines):
    """Levels: on the left what the code keeps, on the right what it stands for, the relation between them."""
    top, row, gap = 40, 44, 34
    left, right, width, far = 16, 470, 300, 374
    heads = lines[0].removeprefix("heads:").split(" | ")
    height = top + 10
    for line in lines[1:]:
        height += gap if line.startswith("--") else row
    it = Drawing(right + far + 16, height)
    it.text(left, 24, heads[0].strip(), 13, bold=True)
    it.text((left + width + right) / 2, 24, heads[1], 13, bold=True, anchor="middle")
    it.text(right, 24, heads[2], 13, bold=True)
    y, place = top, 0
    for line in lines[1:]:
        if line.startswith("--"):
            code, word = line.removeprefix("--").strip().split(" | ")
            it.line([(left + 26, y - 6), (left + 26, y + gap - 2)], head=True)
            it.text(left + 38, y + 18, code, 11, colour="#555555")
            it.line([(right + 26, y - 6), (right + 26, y + gap - 2)], head=True)
            it.text(right + 38, y + 18, word, 11, mono=True, colour="#555555")
            y += gap
            continue
        name, rest = line.split(": ", 1)
        keeps, relation, stands = rest.split(" | ")
        colour = COLOURS[place % len(COLOURS)]
        it.box(left, y, width, 38, colour)
        it.text(left + 8, y + 15, name, 12, mono=True, bold=True)
        it.text(left + 8, y + 31, keeps, 11)
        it.box(right, y, far, 38, colour)
        it.text(right + 8, y + 23, stands, 12)
        it.line([(left + width, y + 24), (right, y + 24)], head=True)
        it.text((left + width + right) / 2, y + 18, relation, 12, mono=True, anchor="middle")
        y += row
        place += 1
    return it.svg()


def drawn(path):
    """The picture of the text at this path."""
    with open(path, encoding="utf-8") as it:
        lines = lines_of(it.read())
    return steps(lines) if lines[0].startswith("layers:") else levels(lines)


def is_drawn(path):
    """Whether the picture of the text at this path is there as it would be drawn."""
    picture = path.removesuffix(".txt") + ".svg"
    if not os.path.exists(picture):
        return False
    with open(picture, encoding="utf-8") as it:
        return it.read() == drawn(path)


def main():
    paths = sorted(glob.glob(f"{FOLDER}/*.txt"))
    if sys.argv[1:] == ["--look"]:
        wrong = [path for path in paths if not is_drawn(path)]
        for path in wrong:
            print(f"WRONG: {os.path.basename(path)}: its picture is another; run dev/pictures.py")
        print(f"{len(paths) - len(wrong)} passed, {len(wrong)} failed")
        return 1 if wrong or not paths else 0
    for path in paths:
        with open(path.removesuffix(".txt") + ".svg", "w", encoding="utf-8") as it:
            it.write(drawn(path))
    return 0


if __name__ == "__main__":
    sys.exit(main())
