"""The panel with the peers: each one's time as a ratio to ours."""

import svg
from svg import Axis, Box
from times import OURS, Case, Times

# What is shown: a name, a colour, how far from the middle of the peer's line, what the peer does and what we do beside it, bytes.
KINDS = [
    ("AES over 4,096 bytes", svg.BLUE, -5, "aes", "aes", 4096),
    ("EME2 over a sheet of 2,096 bytes", svg.ORANGE, 5, "eme2", "eme2", 2096),
    ("EME beside our EME2, 2,048 bytes", svg.GREEN, 0, "eme", "eme2", 2048),
]


def beside_peers(times: Times, box: Box) -> list[str]:
    names = times.peers("aes") + times.peers("eme")
    step = (box.bottom - box.top) / len(names)
    middle = {who: box.top + (row + 0.5) * step for row, who in enumerate(names)}
    dots = [(middle[who] + off, colour, keying == "each", times.ratio(who, keying, case(work, size), case(beside, size)))
            for _, colour, off, work, beside, size in KINDS for who in times.peers(work) for keying in ("each", "once")]
    across = Axis([1, *(ratio for *_, ratio in dots)], box.left, box.right, 10)
    one = across.place(1)
    return [
        svg.text(24, box.top - 48, "AES-128, enciphering: time as a ratio to ours (left of 1 is faster than we are)", size=14),
        *legend(box),
        *svg.grid_across(across, box, "ratio to Lagunedo; full dot: key set up in each call, ring: key set up once outside"),
        svg.path([(one, box.top), (one, box.bottom)], svg.BLACK),
        svg.text(one, box.top - 6, OURS, "middle"),
        *(svg.text(box.left - 10, y + 4, who, "end") for who, y in middle.items()),
        *(svg.dot(across.place(ratio), y, colour, full) for y, colour, full, ratio in dots),
    ]


def case(work: str, size: int) -> Case:
    return Case(work, "encipher", 128, size)


def legend(box: Box) -> list[str]:
    shapes = []
    for place, (name, colour, *_) in enumerate(KINDS):
        x = 30 + 300 * place
        shapes += [svg.dot(x, box.top - 30, colour), svg.text(x + 9, box.top - 26, name)]
    return shapes
