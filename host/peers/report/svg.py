"""The few shapes that the plot is drawn with, and an axis on which equal steps are equal factors."""

from html import escape
from math import ceil, floor, log
from typing import NamedTuple

GREY, BLACK = "#cccccc", "#000000"
# Colours that also those tell apart who see fewer.
BLUE, ORANGE, GREEN, PURPLE, BROWN = "#0072b2", "#e69f00", "#009e73", "#cc79a7", "#8c510a"


class Box(NamedTuple):
    """Where a panel's values stand; its words are around it."""

    left: float
    top: float
    right: float
    bottom: float


def text(x: float, y: float, words: str, anchor: str = "start", size: int = 12) -> str:
    return f'<text x="{x:.1f}" y="{y:.1f}" text-anchor="{anchor}" font-size="{size}">{escape(words)}</text>'


def path(points: list[tuple[float, float]], colour: str, dashes: str = "none", width: float = 1.5) -> str:
    places = " ".join(f"{x:.1f},{y:.1f}" for x, y in points)
    return f'<polyline points="{places}" fill="none" stroke="{colour}" stroke-width="{width}" stroke-dasharray="{dashes}"/>'


def blank(x: float, y: float, width: float, height: float) -> str:
    return f'<rect x="{x:.1f}" y="{y:.1f}" width="{width}" height="{height}" fill="white"/>'


def dot(x: float, y: float, colour: str, full: bool = True) -> str:
    return f'<circle cx="{x:.1f}" cy="{y:.1f}" r="4" fill="{colour if full else "white"}" stroke="{colour}" stroke-width="1.5"/>'


def picture(width: int, height: int, shapes: list[str]) -> str:
    head = f'<svg xmlns="http://www.w3.org/2000/svg" viewBox="0 0 {width} {height}" font-family="sans-serif">'
    return "\n".join([head, blank(0, 0, width, height), *shapes, "</svg>\n"])


class Axis:
    """From the whole power of the base below all values to the one above them."""

    def __init__(self, values: list[float], start: float, end: float, base: int) -> None:
        slack = 1e-9
        self._base, self._start, self._end = base, start, end
        self._low = floor(log(min(values), base) + slack)
        self._high = max(ceil(log(max(values), base) - slack), self._low + 1)

    def place(self, value: float) -> float:
        part = (log(value, self._base) - self._low) / (self._high - self._low)
        return self._start + part * (self._end - self._start)

    def marks(self) -> list[tuple[float, str]]:
        """The powers of the base: their places and how they are written."""
        powers = [float(self._base) ** power for power in range(self._low, self._high + 1)]
        return [(self.place(power), f"{power:,.10g}") for power in powers]


def grid_across(axis: Axis, box: Box, words: str) -> list[str]:
    """The lines of an axis that runs to the right, its marks, and what it shows."""
    shapes = [text((box.left + box.right) / 2, box.bottom + 36, words, "middle")]
    for x, mark in axis.marks():
        shapes += [path([(x, box.top), (x, box.bottom)], GREY, width=1), text(x, box.bottom + 16, mark, "middle")]
    return shapes


def grid_up(axis: Axis, box: Box) -> list[str]:
    """The lines of an axis that runs upwards, and its marks."""
    shapes = []
    for y, mark in axis.marks():
        shapes += [path([(box.left, y), (box.right, y)], GREY, width=1), text(box.left - 6, y + 4, mark, "end")]
    return shapes
