#!/usr/bin/env python3
"""Draws docs/speed.svg from the measured figures of docs/SPEED.md: seconds for all vertex surfaces by number of tetrahedra.

    bench/pictures.py

The picture of the floors is drawn by tools/floors.py.
"""
import math
import os
import re
from typing import Dict, List, Tuple

TOP = os.path.dirname(os.path.dirname(os.path.realpath(__file__)))
WIDE, HIGH, LEFT, BELOW = 720, 400, 70, 50
# of each name its points: tetrahedra and seconds
Series = Dict[str, List[Tuple[float, float]]]
COLOURS = {"trinorm": "#1f6fb4", "Regina, default": "#c2571a"}


def figures() -> Series:
    """Of each series its points: tetrahedra (ideal tables a little to the right) and seconds. A cell has the number of surfaces,
    and behind it the seconds of each series."""
    series: Series = {name: [] for name in COLOURS}
    families: List[str] = []
    with open(os.path.join(TOP, "docs", "SPEED.md"), encoding="utf8") as file:
        for line in file:
            cells = [cell.strip() for cell in line.strip().strip("|").split("|")]
            if cells[0] == "Tetrahedra":
                families = cells
            for family, cell in zip(families, cells):
                matched = re.fullmatch(r"[\d,]+: ([\d.]+), ([\d.]+)", cell)
                if matched and family in ("closed", "ideal"):
                    at = int(cells[0]) + (0.25 if family == "ideal" else 0)
                    for name, seconds in zip(COLOURS, matched.groups()):
                        series[name].append((at, float(seconds)))
    return {name: points for name, points in series.items() if points}


def place(at: float, seconds: float, first: float, last: float, least: int, most: int) -> Tuple[float, float]:
    across = LEFT + (at - first) / (last - first) * (WIDE - LEFT - 20)
    up = (math.log10(seconds) - least) / (most - least)
    return across, HIGH - BELOW - up * (HIGH - BELOW - 20)


def picture(series: Series) -> str:
    points = [point for them in series.values() for point in them]
    first, last = math.floor(min(at for at, _ in points)) - 0.5, math.ceil(max(at for at, _ in points)) + 0.5
    least, most = math.floor(math.log10(min(s for _, s in points))), math.ceil(math.log10(max(s for _, s in points)))
    parts = [f'<svg xmlns="http://www.w3.org/2000/svg" width="{WIDE}" height="{HIGH}" font-family="sans-serif" font-size="13">']
    for power in range(least, most + 1):
        _, y = place(first, 10 ** power, first, last, least, most)
        parts.append(f'<line x1="{LEFT}" x2="{WIDE - 20}" y1="{y:.0f}" y2="{y:.0f}" stroke="#ddd"/>'
                     f'<text x="{LEFT - 8}" y="{y + 4:.0f}" text-anchor="end">{10 ** power:g} s</text>')
    for at in range(math.ceil(first), math.floor(last) + 1):
        x, _ = place(at, 10 ** least, first, last, least, most)
        parts.append(f'<text x="{x:.0f}" y="{HIGH - BELOW + 18}" text-anchor="middle">{at}</text>')
    parts.append(f'<text x="{(LEFT + WIDE) / 2:.0f}" y="{HIGH - 12}" text-anchor="middle">'
                 'tetrahedra (closed tables, and ideal ones a little to the right)</text>')
    for number, (name, them) in enumerate(series.items()):
        for size, seconds in them:
            x, y = place(size, seconds, first, last, least, most)
            parts.append(f'<circle cx="{x:.1f}" cy="{y:.1f}" r="4.5" fill="{COLOURS[name]}"/>')
        parts.append(f'<circle cx="{LEFT + 20}" cy="{30 + 22 * number}" r="4.5" fill="{COLOURS[name]}"/>'
                     f'<text x="{LEFT + 32}" y="{34 + 22 * number}">{name}</text>')
    return "\n".join(parts + ["</svg>"]) + "\n"


if __name__ == "__main__":
    with open(os.path.join(TOP, "docs", "speed.svg"), "w", encoding="utf8") as out:
        out.write(picture(figures()))
