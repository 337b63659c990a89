"""The times of a run: one row for each case in each round, as host/peers/bench.h describes them."""

from statistics import median
from typing import NamedTuple

OURS = "Lagunedo"


class Case(NamedTuple):
    """What is timed, whoever does it."""

    work: str
    call: str
    bits: int
    size: int


class Times:
    def __init__(self, lines: list[str]) -> None:
        # By who does it, how the key is set up, and the case; then by the place at which the code was linked.
        self._rounds: dict[tuple[str, str, Case], dict[str, list[float]]] = {}
        for line in lines:
            name, work, call, keying, bits, size, time = line.split("\t")
            who, _, place = name.partition(" at ")
            places = self._rounds.setdefault((who, keying, Case(work, call, int(bits), int(size))), {})
            places.setdefault(place, []).append(float(time))

    def peers(self, work: str) -> list[str]:
        """Who else does such work, in the order in which they ran."""
        return list(dict.fromkeys(who for who, _, case in self._rounds if case.work == work and who != OURS))

    def sizes(self, work: str) -> list[int]:
        """The sizes at which such work was timed, rising."""
        return sorted({case.size for _, _, case in self._rounds if case.work == work})

    def ours(self, case: Case) -> float:
        """Our time, in nanoseconds a call."""
        return median(self._bests(OURS, "each", case))

    def ratio(self, who: str, keying: str, case: Case, beside: Case | None = None) -> float:
        """A peer's time as a part of ours: on the same case, or beside another one of ours."""
        return median(self._bests(who, keying, case)) / self.ours(beside or case)

    def rounds(self) -> int:
        return min(len(rounds) for rounds in self._runs())

    def spread(self) -> float:
        """By how much the median round is above the best one, in the median case."""
        return median(median(rounds) / min(rounds) - 1 for rounds in self._runs())

    def spread_of_places(self) -> list[float]:
        """By how much our slowest place is above the quickest, in each case, rising."""
        bests = [self._bests(*key) for key in self._rounds if key[0] == OURS]
        return sorted(max(places) / min(places) - 1 for places in bests)

    def _runs(self) -> list[list[float]]:
        return [rounds for places in self._rounds.values() for rounds in places.values()]

    def _bests(self, who: str, keying: str, case: Case) -> list[float]:
        """The best round at each place: other work on the machine only ever adds time, so it is the least disturbed."""
        return [min(rounds) for rounds in self._rounds[who, keying, case].values()]
