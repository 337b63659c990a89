"""The tables of docs/SPEED.md, by the names of their places there."""

from collections.abc import Callable
from statistics import median

from times import OURS, Case, Times

BLOCK, PAGE, SHEET = 16, 4096, 2096

# The columns: AES-128 and AES-256, both ways.
COLUMNS = [(bits, call) for bits in (128, 256) for call in ("encipher", "decipher")]

# The store's calls: those that are on one sheet, and those that go over all slots, whose times are for one slot.
ON_A_SHEET = ["read", "add", "revise"]
OVER_ALL = ["check", "rekey"]


def parts(times: Times, machine: list[str]) -> dict[str, str]:
    return {
        "machine": machine_list(times, machine),
        "page": table("", four_heads(), [ours(times, "aes", PAGE), *peers(times, "aes", PAGE)]),
        "block": table("", four_heads(), [ours(times, "aes", BLOCK), slice_call(times), *peers(times, "aes", BLOCK)]),
        "sheet": table("", four_heads(), [ours(times, "eme2", SHEET), *peers(times, "eme2", SHEET)]),
        "beside": table("", ["AES-128", "AES-256"], beside_rows(times)),
        "eme": table("", four_heads(), eme_rows(times)),
        "bytes": table("bytes", four_heads(), bytes_rows(times)),
        "slots-long": table("slots", slot_heads(), slot_rows(times, "long sheets")),
        "slots-short": table("slots", slot_heads(), slot_rows(times, "short sheets")),
    }


def machine_list(times: Times, machine: list[str]) -> str:
    places = times.spread_of_places()
    noise = [
        f"Rounds: {times.rounds()}; in half of the cases the median round took at most {times.spread():.1%} longer than the best",
        f"Places of our code: the slowest took {median(places):.1%} longer than the quickest in the median case, "
        f"and {places[-1]:.0%} longer in the worst",
    ]
    return "\n".join(f"- {line}" for line in machine + noise)


def table(corner: str, heads: list[str], rows: list[list[str]]) -> str:
    lines = [[corner, *heads], ["---", *("---:" for _ in heads)], *rows]
    return "\n".join(f"| {' | '.join(line)} |" for line in lines)


def four_heads() -> list[str]:
    return [f"AES-{bits}, {call}" for bits, call in COLUMNS]


def four(cell: Callable[[int, str], str]) -> list[str]:
    return [cell(bits, call) for bits, call in COLUMNS]


def ours(times: Times, work: str, size: int) -> list[str]:
    """Our own times, to which the ratios below them are: of a byte, or where there is one block of that."""
    count, unit = (1, "block") if size == BLOCK else (size, "byte")
    return [f"{OURS}, ns a {unit}", *four(lambda bits, call: f"**{times.ours(Case(work, call, bits, size)) / count:,.1f}**")]


def slice_call(times: Times) -> list[str]:
    def cell(bits: int, call: str) -> str:
        return ratio(times.ours(Case("aes slice", call, bits, BLOCK)) / times.ours(Case("aes", call, bits, BLOCK)))

    return [f"{OURS}, slice call", *four(cell)]


def peers(times: Times, work: str, size: int, beside: str | None = None) -> list[list[str]]:
    """A row for each peer: the key set up in each call, and in brackets once outside."""

    def row(who: str) -> list[str]:
        def cell(bits: int, call: str) -> str:
            case, reference = Case(work, call, bits, size), Case(beside or work, call, bits, size)
            each, once = (ratio(times.ratio(who, keying, case, reference)) for keying in ("each", "once"))
            return f"{each} ({once})"

        return [who, *four(cell)]

    return [row(who) for who in times.peers(work)]


def beside_rows(times: Times) -> list[list[str]]:
    """What the mode adds to AES, and the store to the mode: our own times on a sheet, each beside a smaller one of ours."""
    bare = {way: ("eme2", way, SHEET) for way in ("encipher", "decipher")}
    pairs = [
        ("enciphering, beside AES over as many bytes", bare["encipher"], ("aes slice", "encipher", SHEET)),
        ("deciphering, beside AES over as many bytes", bare["decipher"], ("aes slice", "decipher", SHEET)),
        ("read, beside deciphering", ("long sheets", "read", 1), bare["decipher"]),
        ("add, beside enciphering", ("long sheets", "add", 1), bare["encipher"]),
        ("revise, beside enciphering", ("long sheets", "revise", 1), bare["encipher"]),
        ("a step that converts, beside enciphering", ("long sheets", "rekey", 1), bare["encipher"]),
    ]

    def cell(over: tuple[str, str, int], under: tuple[str, str, int], bits: int) -> str:
        time, beside = (times.ours(Case(work, call, bits, size)) for work, call, size in (over, under))
        return f"{time / beside:.2f}"

    return [[name, *(cell(over, under, bits) for bits in (128, 256))] for name, over, under in pairs]


def eme_rows(times: Times) -> list[list[str]]:
    rows = []
    for size in times.sizes("eme"):
        for row in [ours(times, "eme2", size), *peers(times, "eme", size, beside="eme2")]:
            rows.append([f"{size:,} bytes: {row[0]}", *row[1:]])
    return rows


def bytes_rows(times: Times) -> list[list[str]]:
    def row(size: int) -> list[str]:
        def cell(bits: int, call: str) -> str:
            time = times.ours(Case("eme2", call, bits, size))
            return f"{time:,.0f} ({time / size:.1f})"

        return [f"{size:,}", *four(cell)]

    return [row(size) for size in times.sizes("eme2")]


def slot_heads() -> list[str]:
    return [f"{call} the last" for call in ON_A_SHEET] + [f"{call}, a slot" for call in OVER_ALL]


def slot_rows(times: Times, work: str) -> list[list[str]]:
    def row(slots: int) -> list[str]:
        return [f"{slots:,}", *(f"{per_unit(times, work, call, slots):,.0f}" for call in ON_A_SHEET + OVER_ALL)]

    return [row(slots) for slots in times.sizes(work)]


def per_unit(times: Times, work: str, call: str, slots: int) -> float:
    return times.ours(Case(work, call, 128, slots)) / (slots if call in OVER_ALL else 1)


def ratio(value: float) -> str:
    """Two digits that count, and all before the point."""
    return f"{value:#.2g}" if value < 9.95 else f"{value:.0f}"
