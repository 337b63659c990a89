"""The panels with our own times as they grow with the message and with the store."""

from typing import NamedTuple

import svg
import tables
from svg import Axis, Box
from times import Case, Times


class Curve(NamedTuple):
    name: str
    colour: str
    dashes: str
    points: list[tuple[float, float]]


def by_bytes(times: Times, box: Box) -> list[str]:
    looks = [(svg.BLUE, "none"), (svg.BLUE, "5 4"), (svg.ORANGE, "none"), (svg.ORANGE, "5 4")]

    def curve(bits: int, call: str, colour: str, dashes: str) -> Curve:
        points = [(size, times.ours(Case("eme2", call, bits, size)) / size) for size in times.sizes("eme2")]
        return Curve(f"AES-{bits}, {call}", colour, dashes, points)

    curves = [curve(*column, *look) for column, look in zip(tables.COLUMNS, looks)]
    return panel(box, "EME2 by the message's length, ns a byte", "bytes", curves, base=2, names_at=(0.45, 0.08))


def by_slots(times: Times, box: Box) -> list[str]:
    work = "long sheets"
    looks = [(svg.BLUE, "none"), (svg.GREEN, "5 4"), (svg.ORANGE, "2 3"), (svg.BROWN, "none"), (svg.PURPLE, "none")]

    def curve(call: str, name: str, colour: str, dashes: str) -> Curve:
        points = [(slots, tables.per_unit(times, work, call, slots)) for slots in times.sizes(work)]
        return Curve(name, colour, dashes, points)

    named = zip(tables.ON_A_SHEET + tables.OVER_ALL, tables.slot_heads())
    curves = [curve(*call, *look) for call, look in zip(named, looks)]
    return panel(box, "Full stores of sheets of 2,096 bytes, ns", "slots", curves, base=10, names_at=(0.05, 0.35))


def panel(box: Box, title: str, words: str, curves: list[Curve], base: int, names_at: tuple[float, float]) -> list[str]:
    sizes, values = zip(*(point for curve in curves for point in curve.points))
    across = Axis(list(sizes), box.left, box.right, 4)
    up = Axis(list(values), box.bottom, box.top, base)
    paths = [svg.path([(across.place(size), up.place(value)) for size, value in curve.points], curve.colour, curve.dashes)
             for curve in curves]
    left = box.left + names_at[0] * (box.right - box.left)
    top = box.top + names_at[1] * (box.bottom - box.top)
    return [
        svg.text(box.left, box.top - 14, title, size=14),
        *svg.grid_across(across, box, words),
        *svg.grid_up(up, box),
        *names(curves, left, top),
        *paths,
    ]


def names(curves: list[Curve], left: float, top: float) -> list[str]:
    line = 16
    shapes = [svg.blank(left, top, 150, line * len(curves) + 4)]
    for place, curve in enumerate(curves):
        y = top + line * (place + 0.5) + 2
        shapes += [svg.path([(left + 4, y), (left + 28, y)], curve.colour, curve.dashes), svg.text(left + 34, y + 4, curve.name)]
    return shapes
