"""What all pictures share: points in the plane, and the parts of an SVG file."""
from __future__ import annotations

import math
from html import escape
from typing import Iterable, Tuple

BLUE, GREY = "#1f6fb4", "#888"
Point = Tuple[float, float]


def svg(wide: float, high: float, parts: Iterable[str]) -> str:
    """A picture of this size on white."""
    size = f'width="{wide:.0f}" height="{high:.0f}"'
    head = f'<svg xmlns="http://www.w3.org/2000/svg" {size} font-family="sans-serif" font-size="13">'
    return "\n".join([head, f'<rect {size} fill="white"/>', *parts, "</svg>"]) + "\n"


def text(at: Point, words: object, more: str = 'text-anchor="middle"') -> str:
    """A word whose middle is at a point."""
    return f'<text x="{at[0]:.1f}" y="{at[1] + 4.5:.1f}" {more}>{escape(str(words))}</text>'


def line(one: Point, other: Point, more: str) -> str:
    """A straight line."""
    return f'<line x1="{one[0]:.1f}" y1="{one[1]:.1f}" x2="{other[0]:.1f}" y2="{other[1]:.1f}" {more}/>'


def polygon(corners: Iterable[Point], more: str) -> str:
    """A polygon with these corners."""
    return f'<polygon points="{" ".join(f"{x:.1f},{y:.1f}" for x, y in corners)}" {more}/>'


def between(one: Point, other: Point, part: float) -> Point:
    """The point so far on the way from one to the other."""
    return one[0] + part * (other[0] - one[0]), one[1] + part * (other[1] - one[1])


def towards(at: Point, angle: float, far: float) -> Point:
    """The point in a direction at a distance."""
    return at[0] + far * math.cos(angle), at[1] + far * math.sin(angle)


def direction(one: Point, other: Point) -> float:
    """The angle in which one point sees another."""
    return math.atan2(other[1] - one[1], other[0] - one[0])
