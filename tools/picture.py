#!/usr/bin/env python3
"""Draws the subregion letters of region 3 over T and p as an SVG, from the lines of the program `letters` itself:
tools/picture.py >docs/letters.svg
What is refused with 8, beyond the border with region 2, is grey; the border is the line of R7-97's equation 6."""

import math
import struct
import subprocess
import sys
from pathlib import Path

TOP = Path(__file__).resolve().parent.parent
WIDE, HIGH, CELL = 300, 240, 1.5  # the cells of a panel, and a cell's side in the picture

# title, T from and to, p from and to, and whether p is on a logarithmic scale
PANELS = [
    ("the whole box", 623.15, 863.15, 16.529, 100.0, True),
    ("19.5 to 25.5 MPa", 632.0, 668.0, 19.5, 25.5, False),
    ("22.45 to 23.05 MPa", 644.0, 656.0, 22.45, 23.05, False),
    ("round the critical point", 645.6, 648.6, 21.85, 22.2, False),
]


class Panel:
    def __init__(self, title, t_from, t_to, p_from, p_to, log):
        self.title, self.log = title, log
        self.t, self.p = (t_from, t_to), (p_from, p_to)

    def p_at(self, share):
        low, high = self.p
        return low * (high / low) ** share if self.log else low + (high - low) * share

    def p_share(self, p):
        low, high = self.p
        return math.log(p / low) / math.log(high / low) if self.log else (p - low) / (high - low)

    def t_at(self, share):
        return self.t[0] + (self.t[1] - self.t[0]) * share

    def points(self):
        """The middle of each cell, row by row from the highest pressure down."""
        for y in range(HIGH):
            for x in range(WIDE):
                yield self.p_at(1 - (y + 0.5) / HIGH), self.t_at((x + 0.5) / WIDE)


def letters(points):
    given = b"".join(struct.pack("<2d", p, t) for p, t in points)
    ran = subprocess.run([TOP / "tools" / "run", "letters"], input=given, stdout=subprocess.PIPE, check=True)
    *lines, _ = ran.stdout.decode().splitlines()
    found = [line.split()[1:] for line in lines]
    assert all((letter == "-") == (refusal == "8") for letter, refusal in found)
    return [letter for letter, _ in found]


def border(p):
    return 0.57254459862746e3 + math.sqrt((p - 0.13918839778870e2) / 0.10192970039326e-2)


def colour(letter):
    """Neighbours in the alphabet lie far apart on the colour circle; region 2 is grey."""
    if letter == "-":
        return "#ddd"
    place = ord(letter) - ord("a")
    return f"hsl({place * 137 % 360} {(45, 60)[place % 2]}% {(78, 68, 84)[place % 3]}%)"


def blocks(cells):
    """Rectangles of one letter that cover the cells: runs along a row, grown downwards while the next row has the same run."""
    rows = [[] for _ in range(HIGH)]
    for y in range(HIGH):
        start = 0
        for x in range(1, WIDE + 1):
            if x == WIDE or cells[y][x] != cells[y][start]:
                rows[y].append((start, x, cells[y][start]))
                start = x
    open_runs, done = {}, []
    for y in range(HIGH + 1):
        here = set(rows[y]) if y < HIGH else set()
        for run in [run for run in open_runs if run not in here]:
            done.append((*run, open_runs.pop(run), y))
        for run in here:
            open_runs.setdefault(run, y)
    return done


def label_places(cells):
    """For each letter the middle of its widest run near the middle of its rows, and the room there."""
    found = {}
    for letter in sorted({letter for row in cells for letter in row}):
        rows = [y for y in range(HIGH) if letter in cells[y]]
        best = (0, 0, 0)
        for y in rows:
            start = None
            for x in range(WIDE + 1):
                if x < WIDE and cells[y][x] == letter:
                    start = x if start is None else start
                elif start is not None:
                    up = next((k for k in range(y, -1, -1) if cells[k][(start + x) // 2] != letter), -1)
                    down = next((k for k in range(y, HIGH) if cells[k][(start + x) // 2] != letter), HIGH)
                    room = min(x - start, 2 * min(y - up, down - y))
                    if room > best[0]:
                        best = (room, (start + x) / 2, y + 0.5)
                    start = None
        if best[0] >= 5:
            found[letter] = best
    return found


def ticks(low, high):
    step = 10 ** math.floor(math.log10((high - low) / 3))
    step *= next(k for k in (1, 2, 5, 10) if (high - low) / (k * step) <= 6)
    first = math.ceil(low / step - 1e-9)
    return [round(k * step, 6) for k in range(first, math.floor(high / step + 1e-9) + 1)]


def draw(panel, cells, left, top):
    wide, high = WIDE * CELL, HIGH * CELL
    out = [f'<g transform="translate({left} {top})">']
    out.append(f'<text x="{wide / 2}" y="-8" text-anchor="middle" font-weight="bold">{panel.title}</text>')
    paths = {}
    for start, end, letter, first, last in blocks(cells):
        paths.setdefault(letter, []).append(f"M{start} {first}h{end - start}v{last - first}h{start - end}z")
    out.append(f'<g transform="scale({CELL})" shape-rendering="crispEdges">')
    for letter in sorted(paths):
        out.append(f'<path fill="{colour(letter)}" d="{"".join(sorted(paths[letter]))}"/>')
    out.append("</g>")
    for letter, (room, x, y) in label_places(cells).items():
        size = max(9, min(22, room * CELL * 0.7))
        name = "region 2" if letter == "-" else letter
        out.append(f'<text x="{x * CELL:.1f}" y="{y * CELL + size * 0.35:.1f}" font-size="{size:.0f}" '
                   f'text-anchor="middle">{name}</text>')
    line = []
    for share in (k / 200 for k in range(201)):
        x = (border(panel.p_at(share)) - panel.t[0]) / (panel.t[1] - panel.t[0])
        if 0 <= x <= 1:
            line.append(f"{x * wide:.1f} {(1 - share) * high:.1f}")
    if line:
        out.append(f'<path d="M{"L".join(line)}" fill="none" stroke="#333" stroke-width="1.5"/>')
    out.append(f'<rect width="{wide}" height="{high}" fill="none" stroke="#333"/>')
    for t in ticks(*panel.t):
        x = (t - panel.t[0]) / (panel.t[1] - panel.t[0]) * wide
        out.append(f'<path d="M{x:.1f} {high}v5" stroke="#333"/><text x="{x:.1f}" y="{high + 18}" '
                   f'text-anchor="middle">{t:g}</text>')
    for p in [20, 25, 30, 40, 50, 70, 100] if panel.log else ticks(*panel.p):
        y = (1 - panel.p_share(p)) * high
        out.append(f'<path d="M0 {y:.1f}h-5" stroke="#333"/><text x="-9" y="{y + 4:.1f}" text-anchor="end">{p:g}</text>')
    out.append(f'<text x="{wide / 2}" y="{high + 34}" text-anchor="middle">T in K</text>')
    out.append(f'<text transform="translate(-42 {high / 2}) rotate(-90)" text-anchor="middle">p in MPa</text>')
    out.append("</g>")
    return out


def main():
    panels = [Panel(*words) for words in PANELS]
    found = letters(point for panel in panels for point in panel.points())
    step_x, step_y = WIDE * CELL + 70, HIGH * CELL + 70
    width, height = 2 * step_x + 10, 2 * step_y + 10
    out = [f'<svg xmlns="http://www.w3.org/2000/svg" viewBox="0 0 {width:g} {height:g}" font-family="sans-serif" font-size="12">',
           "<title>The subregion letters of region 3 over T and p, as the program letters gives them</title>",
           f'<rect width="{width:g}" height="{height:g}" fill="white"/>']
    for k, panel in enumerate(panels):
        first = k * WIDE * HIGH
        cells = [found[first + y * WIDE:first + (y + 1) * WIDE] for y in range(HIGH)]
        out += draw(panel, cells, 60 + k % 2 * step_x, 30 + k // 2 * step_y)
    out.append("</svg>")
    print("\n".join(out))


if __name__ == "__main__":
    sys.exit(main())
