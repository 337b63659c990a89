"""Puts the figures of a run into docs/SPEED.md and docs/speed.svg: report RUN DOCS, where RUN holds the files times and machine."""

import re
import sys
from pathlib import Path

import svg
import tables
from growth import by_bytes, by_slots
from svg import Box
from times import Times
from versus import beside_peers

# The parts of the page that a run writes stand between two comments; all else is kept.
PART = re.compile(r"(<!-- begin ([a-z-]+) -->\n).*?(<!-- end \2 -->)", re.DOTALL)


def filled(text: str, parts: dict[str, str]) -> str:
    """The page with each part in its place. A part without a place, or a place without a part, is an error."""
    places = [name for _, name, _ in PART.findall(text)]
    if sorted(places) != sorted(parts):
        raise SystemExit(f"report: the page has the places {places}, the run gives {list(parts)}")
    return PART.sub(lambda place: f"{place[1]}{parts[place[2]]}\n{place[3]}", text)


def plot(times: Times) -> str:
    """The peers beside us above, and how our times grow below."""
    above = beside_peers(times, Box(250, 70, 860, 320))
    below = by_bytes(times, Box(60, 410, 420, 640)) + by_slots(times, Box(520, 410, 860, 640))
    return svg.picture(900, 700, above + below)


def main(run: Path, docs: Path) -> None:
    times = Times((run / "times").read_text().splitlines())
    machine = (run / "machine").read_text().splitlines()
    parts = tables.parts(times, machine)
    speed = docs / "SPEED.md"
    speed.write_text(filled(speed.read_text(), parts))
    (docs / "speed.svg").write_text(plot(times))
    print("\n\n".join(parts.values()))


if __name__ == "__main__":
    main(*map(Path, sys.argv[1:]))
