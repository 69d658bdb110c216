#!/usr/bin/env python3
"""Draws how costs grow: `python3 benches/run.py all | tee FIGURES`, then `python3 benches/plot.py FIGURES` writes
benches/figures.svg. It draws the cost against the size of a home, for each table that has one, both on logarithmic
scales. Of several turns it uses the fastest. Uses only the standard library."""
import math
import os
import re
import sys
import typing
from collections.abc import Iterable, Sequence

sys.path.insert(0, os.path.dirname(os.path.dirname(os.path.abspath(__file__))))
from tools import repo

# For each line of a drawing, the nanoseconds at each size.
Costs = dict[str, dict[int, float]]
WIDTH, HEIGHT, EDGE = 300, 220, 46
COLUMNS = 3
COLOURS = ("#0b6bcb", "#c2410c", "#2f7d32", "#7c3aed")


class Drawing(typing.NamedTuple):
    """A drawing: its program, its title, and the name of each line with the column of its nanoseconds. In a row the
    column `size` has the number of LRAs in the home, and each column of `rows` must have that word."""

    program: str
    title: str
    size: int
    lines: dict[str, int]
    rows: dict[int, str] = {}


DRAWINGS = (
    Drawing("status", "a status", 0, {"by records": 1, "by facts": 2}),
    Drawing("prepare", "a join, prepared and applied", 0, {"a join": 1}),
    Drawing("pages", "a record", 0, {"found": 1, "put before all": 2, "put behind all": 3}),
    Drawing("duties", "the list of duties, 29 to complete each", 2, {"roots": 5}, {0: "roots", 1: "complete", 3: "29"}),
    Drawing("merge", "a merge of what two nodes heard", 0, {"merge": 1, "union of facts": 2}),
    Drawing("frame", "a frame of one changed record", 0, {"made": 1, "taken": 2}),
    Drawing("news", "the frame since a base, one record new", 0, {"by the index": 1, "by a scan": 2}),
    Drawing("world", "an event, of 2 nodes", 1, {"an event": 2}, {0: "2"}),
)


def rows_of(text: str) -> dict[str, list[list[list[str]]]]:
    """Returns for each program the rows of each turn, each as its words. Lines of prose are left out."""
    found: dict[str, list[list[list[str]]]] = {}
    for head, body in re.findall(r"^== (\w+), turn \d+ of \d+\n(.*?)(?=^== |\Z)", text, re.M | re.S):
        rows = [line.split() for line in body.splitlines() if re.fullmatch(r"[a-z ]*[\d ]+", line.strip() or "-")]
        found.setdefault(head, []).append(rows)
    return found


def costs_of(drawing: Drawing, turns: Iterable[list[list[str]]]) -> Costs:
    """Returns the least nanoseconds of each line at each size. A program may print several tables: only the first row
    of a size counts. For frames only rows with three columns count, which are those of one record."""
    width = 3 if drawing.program == "frame" else None
    found: Costs = {name: {} for name in drawing.lines}
    for rows in turns:
        seen: set[int] = set()
        for row in rows:
            if width not in (None, len(row)) or any(row[at] != word for at, word in drawing.rows.items()):
                continue
            size = int(row[drawing.size])
            if size in seen:
                continue
            seen.add(size)
            for name, at in drawing.lines.items():
                found[name][size] = min(float(row[at]), found[name].get(size, math.inf))
    return found


def spelled(nanos: float) -> str:
    """Returns a time with a suitable unit."""
    for unit, most in (("ns", 1e3), ("us", 1e6), ("ms", 1e9)):
        if nanos < most:
            return f"{nanos * 1e3 / most:.3g} {unit}"
    return f"{nanos / 1e9:.3g} s"


def text_at(x: float, y: float, text: str, more: str = "") -> str:
    return f'<text x="{x:.1f}" y="{y:.1f}" {more}>{text}</text>'


def edges_of(title: str, floor: int, top: int) -> list[str]:
    """Returns a drawing's title, and the grid lines and labels for the powers of ten."""
    left, right, low, high = EDGE, WIDTH - 12, HEIGHT - 34, 30
    parts = [text_at(left, 18, title, 'font-weight="bold"')]
    for power in range(floor, top + 1):
        y = low - (power - floor) / max(top - floor, 1) * (low - high)
        parts.append(f'<path d="M{left} {y:.1f}H{right}" stroke="#ddd"/>')
        parts.append(text_at(left - 4, y + 3, spelled(10.0 ** power), 'text-anchor="end" fill="#555"'))
    return parts


def drawn(drawing: Drawing, costs: Costs) -> str:
    """Returns a drawing as a group of SVG."""
    left, right, low, high = EDGE, WIDTH - 12, HEIGHT - 34, 30
    all_costs = [cost for line in costs.values() for cost in line.values()]
    sizes = sorted({size for line in costs.values() for size in line})
    floor, top = math.floor(math.log10(min(all_costs))), math.ceil(math.log10(max(all_costs)))

    def place(size: int, cost: float) -> tuple[float, float]:
        across = math.log(size / sizes[0]) / max(math.log(sizes[-1] / sizes[0]), 1e-9)
        up = (math.log10(cost) - floor) / max(top - floor, 1)
        return left + across * (right - left), low - up * (low - high)

    parts = edges_of(drawing.title, floor, top)
    for size in sizes:
        parts.append(text_at(place(size, min(all_costs))[0], low + 14, str(size), 'text-anchor="middle" fill="#555"'))
    for at, (name, line) in enumerate(costs.items()):
        colour = COLOURS[at % len(COLOURS)]
        points = [place(size, cost) for size, cost in sorted(line.items())]
        way = " ".join(f"{x:.1f},{y:.1f}" for x, y in points)
        parts.append(f'<polyline points="{way}" fill="none" stroke="{colour}" stroke-width="2"/>')
        parts += [f'<circle cx="{x:.1f}" cy="{y:.1f}" r="2.5" fill="{colour}"/>' for x, y in points]
        parts.append(text_at(left + at * 84, low + 28, name, f'fill="{colour}"'))
    return "\n".join(parts)


def side_by_side(drawings: Sequence[str]) -> str:
    """Returns the drawings side by side."""
    high = HEIGHT * math.ceil(len(drawings) / COLUMNS)
    parts = [f'<svg xmlns="http://www.w3.org/2000/svg" viewBox="0 0 {WIDTH * COLUMNS} {high}" font-family="sans-serif"'
             ' font-size="10">', '<rect width="100%" height="100%" fill="white"/>']
    for at, drawing in enumerate(drawings):
        x, y = at % COLUMNS * WIDTH, at // COLUMNS * HEIGHT
        parts.append(f'<g transform="translate({x} {y})">\n{drawing}\n</g>')
    return "\n".join([*parts, "</svg>"]) + "\n"


def main() -> int:
    if len(sys.argv) != 2 or sys.argv[1].startswith("-"):
        sys.exit(__doc__)
    with open(sys.argv[1], encoding="utf-8") as file:
        turns = rows_of(file.read())
    missing = [drawing.program for drawing in DRAWINGS if not turns.get(drawing.program)]
    if missing:
        sys.exit(f"the figures lack {', '.join(missing)}")
    repo.write("benches/figures.svg", side_by_side([drawn(one, costs_of(one, turns[one.program])) for one in DRAWINGS]))
    return 0


if __name__ == "__main__":
    sys.exit(main())
