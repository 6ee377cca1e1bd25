#!/usr/bin/env python3
"""Build the sessions that the console programs are run on, and the text expected of each.

    python3 tools/water_cases.py crates

writes crates/yardrain/data/site.ter, stdin and stdout, and of crates/yardrain_cases
data/NAME.ter, data/NAME.in, args (one NAME a line) and stdout.

The expected text owes nothing to the programs, and no litre is poured by recursion over
the tree as they do it. Here litres walk from record to record, one at a time; only of
rains above SINGLE_LITRES do they walk in runs (see Site.run). Every session is also
played all in runs, the sessions made by hand state their answers as literals, and the
worked examples are literals too. The script stops where two of these differ, so none is
trusted alone. From terrain_cases.py come the bytes of a file and the number of the
question that refuses one.
"""

from __future__ import annotations

import re
import sys
from dataclasses import dataclass
from itertools import permutations
from pathlib import Path

# The import below is to leave no folder beside the tools.
sys.dont_write_bytecode = True

from terrain_cases import (
    BASIN,
    MERGE,
    NEW,
    OLD,
    OUTLET,
    SEVEN,
    THREE,
    VOLUME_LIMIT,
    Edition,
    Record,
    Refused,
    basin,
    load,
    merge,
    outlet,
    patched,
    record_line,
    replaced,
    right_chain_site,
    terrain,
    text_note,
)

# ---------------------------------------------------------------------------
# The rules of water
# ---------------------------------------------------------------------------

RAIN_LIMIT = 2**60
SINGLE_LITRES = 4096

NO_LEAF, ABOVE_RAIN_LIMIT, NOT_WELL_FORMED = 21, 22, 31


class Site:
    def __init__(self, records: list[Record]) -> None:
        self.records = records
        self.water = [0] * len(records)
        self.accepted = 0
        self.pumped = 0
        self.parent: dict[int, int] = {}
        self.sides: dict[int, tuple[int, int]] = {}
        waiting: list[int] = []
        for index, record in enumerate(records):
            if record.kind == MERGE:
                right, left = waiting.pop(), waiting.pop()
                self.sides[index] = (left, right)
                self.parent[left] = self.parent[right] = index
            waiting.append(index)

    def full(self) -> list[bool]:
        """Of every record whether it is full. Both sides come before their merge."""
        full: list[bool] = []
        for index, record in enumerate(self.records):
            used_up = self.water[index] == record.volume
            if record.kind == OUTLET:
                full.append(False)
            elif record.kind == BASIN:
                full.append(used_up)
            else:
                left, right = self.sides[index]
                full.append(full[left] and full[right] and used_up)
        return full

    def resting_place(self, leaf: int) -> int:
        """The record in which a litre comes to rest that falls at the leaf."""
        full = self.full()
        at = leaf
        while full[at]:
            parent = self.parent[at]
            left, right = self.sides[parent]
            if at == left:
                sibling, landing = right, self.records[parent].right
            else:
                sibling, landing = left, self.records[parent].left
            at = parent if full[sibling] else landing
        return at

    def single(self, leaf: int, litres: int) -> None:
        """The litres fall one after another."""
        for _ in range(litres):
            self.water[self.resting_place(leaf)] += 1

    def run(self, leaf: int, litres: int) -> None:
        """The same for many litres.

        A litre's way depends only on which records are full, and none becomes full before
        the one in which the litres come to rest. Until then all of them go there.
        """
        while litres > 0:
            place = self.resting_place(leaf)
            record = self.records[place]
            # A litre stands at a merge only above two full sides, so not above an outlet.
            room = litres if record.kind == OUTLET else record.volume - self.water[place]
            assert room > 0
            together = min(litres, room)
            self.water[place] += together
            litres -= together

    def is_leaf(self, number: int) -> bool:
        return number < len(self.records) and self.records[number].is_leaf

    def rain(self, leaf: int, litres: int, single_up_to: int) -> str:
        if not self.is_leaf(leaf):
            return f"no {NO_LEAF}"
        if self.accepted + litres > RAIN_LIMIT:
            return f"no {ABOVE_RAIN_LIMIT}"
        self.accepted += litres
        if litres <= single_up_to:
            self.single(leaf, litres)
        else:
            self.run(leaf, litres)
        return "ok"

    def held(self, top: int) -> int:
        """All the water in the subtree of a record."""
        total, below = 0, [top]
        while below:
            index = below.pop()
            total += self.water[index]
            below += self.sides.get(index, ())
        return total

    def level(self, leaf: int) -> str:
        if not self.is_leaf(leaf):
            return f"no {NO_LEAF}"
        if self.records[leaf].kind == OUTLET:
            return "0"
        full = self.full()
        topmost = at = leaf
        while at in self.parent:
            at = self.parent[at]
            if all(full[side] for side in self.sides[at]):
                topmost = at
        return str(self.held(topmost))

    def totals(self) -> str:
        kinds = [record.kind for record in self.records]
        return f"{self.accepted} {self.water[kinds.index(OUTLET)]} {self.pumped}"


# ---------------------------------------------------------------------------
# The console
# ---------------------------------------------------------------------------

# The longest file of the format: a note of 1,024 bytes, 1,023 long records, a trailer.
FILE_LIMIT = 17_404

RAIN_LINE = re.compile(rb"R ([0-9]{1,19}) ([0-9]{1,19})")
LEVEL_LINE = re.compile(rb"L ([0-9]{1,19})")
TOTALS_LINE = re.compile(rb"O")


def lines_of(data: bytes) -> list[bytes]:
    lines = data.split(b"\x0a")
    # No bytes after the last 0A are no line.
    return lines if lines[-1] else lines[:-1]


def answer(site: Site, line: bytes, single_up_to: int) -> str:
    if words := RAIN_LINE.fullmatch(line):
        return site.rain(int(words[1]), int(words[2]), single_up_to)
    if words := LEVEL_LINE.fullmatch(line):
        return site.level(int(words[1]))
    if TOTALS_LINE.fullmatch(line):
        return site.totals()
    return f"no {NOT_WELL_FORMED}"


@dataclass(frozen=True)
class Case:
    name: str
    file: bytes | None  # None: there is no such file
    records: list[Record]  # of an accepted file
    input: bytes
    answers: list[str] | None = None  # stated by hand


def played(case: Case, single_up_to: int) -> list[str]:
    """What the console answers, line by line."""
    file = case.file or b""
    try:
        text = load(file if len(file) <= FILE_LIMIT else b"")
    except Refused as refused:
        return [f"no {refused.number}"]
    numbered = [record_line(*pair) for pair in enumerate(case.records)]
    assert text.splitlines(keepends=True)[1:-1] == numbered, case.name
    site = Site(case.records)
    return [answer(site, line, single_up_to) for line in lines_of(case.input)]


def text_of(answers: list[str]) -> str:
    return "".join(line + "\n" for line in answers)


# ---------------------------------------------------------------------------
# The worked examples
# ---------------------------------------------------------------------------


def worked_examples_hold() -> bool:
    site = Site(SEVEN)
    site.single(0, 12)
    first = site.water == [10, 2, 0, 0, 0, 0, 0]
    site.single(1, 7)
    second = site.water == [10, 6, 3, 0, 0, 0, 0] and site.level(0) == "19"
    site.single(0, 4)
    third = site.water == [10, 6, 4, 3, 0, 0, 0]
    site.single(3, 9)
    fourth = site.water == [10, 6, 4, 5, 3, 4, 0] and site.level(3) == "28"

    reversed_pair = Site(SEVEN)
    reversed_pair.single(1, 7)
    halfway = reversed_pair.water == [1, 6, 0, 0, 0, 0, 0]
    reversed_pair.single(0, 12)
    same = reversed_pair.water == [10, 6, 3, 0, 0, 0, 0]
    return all([first, second, third, fourth, halfway, same])


# ---------------------------------------------------------------------------
# Sessions made by hand
# ---------------------------------------------------------------------------

Session = list[tuple[str, str]]  # each line, and its answer


def session_case(
    name: str, edition: Edition, records: list[Record], session: Session
) -> Case:
    lines = "".join(line + "\n" for line, _ in session)
    stated = [said for _, said in session]
    return Case(name, terrain(edition, records), records, lines.encode("latin-1"), stated)


SEVEN_SESSION: Session = [
    # The worked examples, with the levels between them.
    ("R 0 12", "ok"),
    ("R 1 7", "ok"),
    ("L 0", "19"),
    ("O", "19 0 0"),
    ("L 1", "19"),
    ("L 3", "0"),
    ("L 5", "0"),
    ("R 0 4", "ok"),
    ("L 0", "20"),
    ("L 3", "3"),
    ("O", "23 0 0"),
    # Basin 3 is just full: merge 4 is non-empty with no water of its own.
    ("R 3 2", "ok"),
    ("L 3", "25"),
    ("R 3 7", "ok"),
    ("L 3", "28"),
    ("L 0", "28"),
    ("L 5", "0"),
    ("O", "32 4 0"),
    ("R 5 5", "ok"),
    ("O", "37 9 0"),
    ("R 1 0", "ok"),
    # No leaves: merges, numbers that are not used, and those that a narrower number
    # would take for leaf 0 or 5.
    ("R 2 1", "no 21"),
    ("R 4 0", "no 21"),
    ("R 6 1", "no 21"),
    ("R 7 1", "no 21"),
    ("L 2", "no 21"),
    ("L 6", "no 21"),
    ("L 7", "no 21"),
    ("L 1023", "no 21"),
    ("R 65535 1", "no 21"),
    ("R 65536 1", "no 21"),
    ("L 65535", "no 21"),
    ("L 65536", "no 21"),
    ("L 65541", "no 21"),
    ("L 4294967296", "no 21"),
    ("R 1000000000000000000 1", "no 21"),
    ("L 1000000000000000000", "no 21"),
    ("L 9999999999999999999", "no 21"),
    ("O", "37 9 0"),
    # The limit is 1152921504606846976: one litre above it, the leaf asked first, up to
    # one litre below, and then exactly to it.
    ("R 0 1152921504606846940", "no 22"),
    ("R 5 9999999999999999999", "no 22"),
    ("R 2 9999999999999999999", "no 21"),
    ("O", "37 9 0"),
    ("R 0 1152921504606846938", "ok"),
    ("O", "1152921504606846975 1152921504606846947 0"),
    ("R 3 2", "no 22"),
    ("R 3 1", "ok"),
    ("O", "1152921504606846976 1152921504606846948 0"),
    ("R 3 1", "no 22"),
    ("R 5 1", "no 22"),
    ("R 0 0", "ok"),
    ("R 5 0", "ok"),
    ("R 4 0", "no 21"),
    ("L 0", "28"),
    # 19 and 20 digits.
    ("R 0000000000000000003 0000000000000000000", "ok"),
    ("R 0 0000000000000000001", "no 22"),
    ("L 0000000000000000003", "28"),
    ("R 00000000000000000003 0", "no 31"),
    ("R 3 00000000000000000000", "no 31"),
    ("L 00000000000000000003", "no 31"),
    ("R 0 10000000000000000000", "no 31"),
    ("R 0 18446744073709551616", "no 31"),
    # Empty, and other ends of lines.
    ("", "no 31"),
    ("\r", "no 31"),
    ("O\r", "no 31"),
    ("L 0\r", "no 31"),
    ("R 0 0\r", "no 31"),
    # Spaces and tabs.
    ("R\t0 0", "no 31"),
    ("R 0\t0", "no 31"),
    ("L\t0", "no 31"),
    ("O\t", "no 31"),
    (" ", "no 31"),
    (" R 0 0", "no 31"),
    ("R  0 0", "no 31"),
    ("R 0  0", "no 31"),
    ("R 0 0 ", "no 31"),
    (" L 0", "no 31"),
    ("L  0", "no 31"),
    ("L 0 ", "no 31"),
    (" O", "no 31"),
    ("O ", "no 31"),
    # Signs, and what is no digit.
    ("L +0", "no 31"),
    ("L -0", "no 31"),
    ("R 0 -1", "no 31"),
    ("R +0 0", "no 31"),
    ("R 0 1.0", "no 31"),
    ("R 0 0x0", "no 31"),
    ("R 0 1_0", "no 31"),
    ("L 0/", "no 31"),
    ("L 0:", "no 31"),
    ("L \xb3", "no 31"),
    ("\xef\xbb\xbfO", "no 31"),
    ("O\x00", "no 31"),
    # Letters, and too few or too many words.
    ("r 0 0", "no 31"),
    ("l 0", "no 31"),
    ("o", "no 31"),
    ("O 1", "no 31"),
    ("OO", "no 31"),
    ("R", "no 31"),
    ("R ", "no 31"),
    ("R 0", "no 31"),
    ("R 0 ", "no 31"),
    ("R  0", "no 31"),
    ("R 0 0 0", "no 31"),
    ("R0 0", "no 31"),
    ("L", "no 31"),
    ("L ", "no 31"),
    ("L0", "no 31"),
    ("L 0 0", "no 31"),
    # Nothing of all that has changed the water.
    ("O", "1152921504606846976 1152921504606846948 0"),
    ("L 1", "28"),
    ("L 3", "28"),
]


def yardrain_case() -> Case:
    case = session_case("site", OLD, SEVEN, SEVEN_SESSION)
    # The last line ends with the input.
    return Case(case.name, case.file, case.records, case.input[:-1], case.answers)


def order_cases() -> list[Case]:
    """Rains in every order, with equal ends."""
    brim = ["R 0 12", "R 1 7", "R 0 4", "R 3 9"]
    brim_end = [("O", "32 4 0"), ("L 0", "28"), ("L 1", "28"), ("L 3", "28"), ("L 5", "0")]
    # One litre of the six on basin 3 crosses to basin 1, and merge 2 is not filled.
    part = ["R 0 9", "R 1 8", "R 3 6", "R 5 2"]
    part_end = [("O", "25 2 0"), ("L 0", "18"), ("L 1", "18"), ("L 3", "5"), ("L 5", "0")]
    pair = ["R 0 12", "R 1 7"]
    pair_end = [("O", "19 0 0"), ("L 0", "19"), ("L 1", "19"), ("L 3", "0"), ("L 5", "0")]
    cases: list[Case] = []
    for name, rains, end in (
        ("pair", pair, pair_end),
        ("brim", brim, brim_end),
        ("part", part, part_end),
    ):
        for order in permutations(range(len(rains))):
            digits = "".join(str(place) for place in order)
            session = [(rains[place], "ok") for place in order] + end
            cases.append(session_case(f"order_{name}_{digits}", OLD, SEVEN, session))
    return cases


def small_cases() -> list[Case]:
    return [
        session_case(
            "outlet_alone",
            OLD,
            [outlet()],
            [
                ("L 0", "0"),
                ("R 0 5", "ok"),
                ("O", "5 5 0"),
                ("L 0", "0"),
                ("L 1", "no 21"),
                ("R 1 1", "no 21"),
                ("R 0 1152921504606846972", "no 22"),
                ("R 0 1152921504606846971", "ok"),
                ("O", "1152921504606846976 1152921504606846976 0"),
                ("R 0 1", "no 22"),
                ("R 0 0", "ok"),
                ("R 1 0", "no 21"),
                ("L 0", "0"),
            ],
        ),
        session_case(
            "basin_and_outlet",
            NEW,
            THREE,
            [
                ("R 0 3", "ok"),
                ("L 0", "3"),
                ("R 0 5", "ok"),
                ("L 0", "8"),
                ("O", "8 0 0"),
                ("R 0 1", "ok"),
                ("L 0", "8"),
                ("O", "9 1 0"),
                ("L 1", "0"),
                ("R 1 4", "ok"),
                ("O", "13 5 0"),
                ("R 2 1", "no 21"),
                ("L 2", "no 21"),
            ],
        ),
        session_case(
            "outlet_and_basin",
            NEW,
            [outlet(), basin(8), merge(0, 0, 1)],
            [
                ("R 1 9", "ok"),
                ("L 1", "8"),
                ("O", "9 1 0"),
                ("R 0 1", "ok"),
                ("O", "10 2 0"),
                ("L 0", "0"),
            ],
        ),
        session_case(
            "basin_without_volume",
            OLD,
            [basin(0), outlet(), merge(0, 0, 1)],
            [("L 0", "0"), ("R 0 1", "ok"), ("L 0", "0"), ("O", "1 1 0")],
        ),
        session_case(
            "merge_without_volume",
            OLD,
            [basin(2), basin(3), merge(0, 0, 1), outlet(), merge(0, 1, 3)],
            [
                ("R 0 2", "ok"),
                ("L 0", "2"),
                ("R 0 3", "ok"),
                ("L 0", "5"),
                ("L 1", "5"),
                ("O", "5 0 0"),
                ("R 1 1", "ok"),
                ("L 1", "5"),
                ("O", "6 1 0"),
            ],
        ),
        # Both sides are full from the start, so a dry merge counts as non-empty.
        session_case(
            "merge_over_basins_without_volume",
            NEW,
            [basin(0), basin(0), merge(3, 0, 1), outlet(), merge(0, 0, 3)],
            [
                ("L 0", "0"),
                ("R 1 2", "ok"),
                ("L 0", "2"),
                ("L 1", "2"),
                ("R 0 2", "ok"),
                ("L 1", "3"),
                ("O", "4 1 0"),
            ],
        ),
        # The litre lands on basin 0, which is full, and crosses on to basin 1.
        session_case(
            "landing_is_full",
            OLD,
            [
                basin(1),
                basin(5),
                merge(2, 0, 1),
                basin(2),
                merge(1, 0, 3),
                outlet(),
                merge(0, 3, 5),
            ],
            [
                ("R 0 1", "ok"),
                ("R 3 3", "ok"),
                ("L 0", "1"),
                ("L 1", "1"),
                ("L 3", "2"),
                ("O", "4 0 0"),
            ],
        ),
        # The two differ in the landing on the open side only.
        session_case(
            "landing_is_outlet",
            OLD,
            [basin(4), outlet(), merge(0, 0, 1), basin(3), merge(0, 1, 3)],
            [("R 3 5", "ok"), ("L 3", "3"), ("L 0", "0"), ("O", "5 2 0")],
        ),
        session_case(
            "landing_is_basin_beside_outlet",
            OLD,
            [basin(4), outlet(), merge(0, 0, 1), basin(3), merge(0, 0, 3)],
            [("R 3 5", "ok"), ("L 3", "3"), ("L 0", "2"), ("O", "5 0 0")],
        ),
    ]


def large_cases() -> list[Case]:
    # 511 basins and 510 merges of 1099511627775 litres: 1122601371958275 in all, which
    # the rain of 2^59 fills, so that every further litre flows out.
    chain = right_chain_site()
    chain_session = [
        ("R 511 1099511627775", "ok"),
        ("L 511", "1099511627775"),
        ("R 511 1", "ok"),
        ("L 511", "1099511627775"),
        ("L 510", "1"),
        ("R 510 1099511627774", "ok"),
        ("L 511", "2199023255550"),
        ("R 1 1152921504606846976", "no 22"),
        ("R 1 576460752303423488", "ok"),
        ("O", "576462951326679038 575340349954720763 0"),
        ("L 1", "1122601371958275"),
        ("L 511", "1122601371958275"),
        ("L 0", "0"),
        ("R 300 576458553280167938", "ok"),
        ("O", "1152921504606846976 1151798903234888701 0"),
        ("L 300", "1122601371958275"),
        ("R 300 1", "no 22"),
        ("R 511 0", "ok"),
    ]
    chain_input = "".join(line + "\n" for line, _ in chain_session).encode("ascii")
    chain_answers = [said for _, said in chain_session]
    too_long = terrain(NEW, chain, text_note(1025))
    longest = terrain(NEW, chain, text_note(1024))
    assert (len(longest), len(too_long)) == (FILE_LIMIT, FILE_LIMIT + 1)
    return [
        Case("file_longest", longest, chain, chain_input, chain_answers),
        # Read in full it would be refused for its note, with 6.
        Case("file_too_long", too_long, chain, chain_input, ["no 1"]),
        session_case(
            "volume_largest_new",
            NEW,
            replaced(THREE, 0, basin(2**40 - 1)),
            [
                ("R 0 1099511627774", "ok"),
                ("L 0", "1099511627774"),
                ("O", "1099511627774 0 0"),
                ("R 0 1", "ok"),
                ("L 0", "1099511627775"),
                ("R 0 1", "ok"),
                ("L 0", "1099511627775"),
                ("O", "1099511627776 1 0"),
                ("R 0 1152920405095219201", "no 22"),
                ("R 0 1152920405095219200", "ok"),
                ("O", "1152921504606846976 1152920405095219201 0"),
            ],
        ),
        session_case(
            "volume_largest_old",
            OLD,
            replaced(THREE, 0, basin(2**32 - 1)),
            [
                ("R 0 4294967296", "ok"),
                ("L 0", "4294967295"),
                ("O", "4294967296 1 0"),
                ("R 0 1152921500311879680", "ok"),
                ("O", "1152921504606846976 1152921500311879681 0"),
                ("L 0", "4294967295"),
            ],
        ),
        # All at once from dry: 3 * 1099511627775 stay.
        session_case(
            "rain_limit_from_dry",
            NEW,
            [
                basin(VOLUME_LIMIT),
                basin(VOLUME_LIMIT),
                merge(VOLUME_LIMIT, 0, 1),
                outlet(),
                merge(0, 0, 3),
            ],
            [
                ("R 1 1152921504606846977", "no 22"),
                ("O", "0 0 0"),
                ("R 1 1152921504606846976", "ok"),
                ("O", "1152921504606846976 1152918206071963651 0"),
                ("L 0", "3298534883325"),
                ("L 1", "3298534883325"),
                ("L 3", "0"),
            ],
        ),
    ]


def input_cases() -> list[Case]:
    """Inputs that are odd as a whole, and files that are refused."""
    seven = terrain(OLD, SEVEN)
    rain = b"R 0 1\nO\n"
    two_outlets = terrain(OLD, [outlet(), outlet(), merge(0, 0, 1)])
    wrong_side = terrain(NEW, replaced(SEVEN, 4, merge(3, 3, 3)))
    wrong_kind = patched(terrain(OLD, SEVEN), (0, 0))
    return [
        Case("input_empty", seven, SEVEN, b"", []),
        Case("input_one_end", seven, SEVEN, b"\n", ["no 31"]),
        Case("input_two_ends", seven, SEVEN, b"\n\n", ["no 31", "no 31"]),
        Case("input_without_last_end", seven, SEVEN, b"R 3 4\nL 3", ["ok", "4"]),
        Case("input_last_space", seven, SEVEN, b"O\n ", ["0 0 0", "no 31"]),
        Case("input_carriage_returns", seven, SEVEN, b"O\rO\r", ["no 31"]),
        Case(
            "input_long_line",
            seven,
            SEVEN,
            b"R 0 " + b"0" * 9000 + b"\n" + b" " * 5000 + b"\nR 0 1\n" + b"O" * 4097 + b"\nO\n",
            ["no 31", "no 31", "ok", "no 31", "1 0 0"],
        ),
        Case(
            "input_every_byte",
            seven,
            SEVEN,
            b"".join(b"L " + bytes([byte]) + b"\n" for byte in range(256) if byte != 0x0A),
            ["no 31"] * 47
            + ["0", "0", "no 21", "0", "no 21", "0", "no 21", "no 21", "no 21", "no 21"]
            + ["no 31"] * 198,
        ),
        Case("file_missing", None, [], rain, ["no 1"]),
        Case("file_empty", b"", [], rain, ["no 1"]),
        Case("file_wrong_kind", wrong_kind, [], rain, ["no 7"]),
        Case("file_landing_on_wrong_side", wrong_side, [], rain, ["no 11"]),
        Case("file_two_outlets", two_outlets, [], rain, ["no 14"]),
        Case("file_two_outlets_no_input", two_outlets, [], b"", ["no 14"]),
    ]


# ---------------------------------------------------------------------------
# Long chains
# ---------------------------------------------------------------------------


def left_chain(outlet_at: int) -> list[Record]:
    """1,023 records: leaves 0, 1, 3, 5, .. 1021; merge n joins all before it and leaf n - 1.

    Each merge lands on the left side's newest leaf, so that water that comes down goes
    through every side on its way.
    """
    records: list[Record] = []

    def leaf() -> None:
        here = len(records)
        records.append(outlet() if here == outlet_at else basin(1 + here % 3))

    leaf()
    while len(records) < 1023:
        leaf()
        here = len(records)
        is_open = outlet_at < here
        volume = 0 if is_open else here // 2 % 3
        records.append(merge(volume, max(here - 3, 0), here - 1))
    return records


def right_chain(outlet_at: int) -> list[Record]:
    """1,023 records: leaves 0 to 511; merge n joins leaf 1022 - n and all leaves after it."""
    records = [
        outlet() if here == outlet_at else basin(1 + here % 3) for here in range(512)
    ]
    for left in range(510, -1, -1):
        is_open = outlet_at >= left
        records.append(merge(0 if is_open else left % 3, left, left + 1))
    return records


def chain_cases() -> list[Case]:
    cases: list[Case] = []
    for name, records, near, middle, far in (
        ("chain_left_outlet_last", left_chain(1021), 1019, 501, 0),
        ("chain_left_outlet_first", left_chain(0), 1021, 501, 1),
        ("chain_right_outlet_last", right_chain(511), 0, 255, 510),
        ("chain_right_outlet_first", right_chain(0), 1, 255, 511),
    ):
        lines = []
        for leaf, litres in ((far, 1), (far, 9), (near, 7), (middle, 30), (far, 200)):
            lines += [f"R {leaf} {litres}", f"L {far}", f"L {middle}", f"L {near}", "O"]
        lines += ["L 1022", "R 1022 1", "L 1023", "R 1023 0"]
        for leaf, litres in ((near, 600), (middle, 700), (far, 800), (near, 1)):
            lines += [f"R {leaf} {litres}", f"L {far}", f"L {middle}", f"L {near}", "O"]
        data = "".join(line + "\n" for line in lines).encode("ascii")
        cases.append(Case(name, terrain(OLD, records), records, data))
    return cases


# ---------------------------------------------------------------------------
# Sites and sessions at random
# ---------------------------------------------------------------------------


class Numbers:
    """The same numbers for a seed under every version of Python."""

    def __init__(self, seed: int) -> None:
        self.state = seed

    def below(self, bound: int) -> int:
        self.state = (self.state * 6364136223846793005 + 1442695040888963407) % 2**64
        return (self.state >> 20) * bound >> 44

    def one_of(self, things: list[int]) -> int:
        return things[self.below(len(things))]


def random_site(numbers: Numbers, leaf_count: int, largest: int) -> list[Record]:
    records: list[Record] = []
    leaves_left = leaf_count
    outlet_turn = numbers.below(leaf_count)

    def volume() -> int:
        return 0 if numbers.below(4) == 0 else numbers.below(largest + 1)

    def grow(count: int) -> tuple[list[int], bool]:
        nonlocal leaves_left
        if count == 1:
            leaves_left -= 1
            is_outlet = leaves_left == outlet_turn
            records.append(outlet() if is_outlet else basin(volume()))
            return [len(records) - 1], is_outlet
        left_count = 1 + numbers.below(count - 1)
        left, left_open = grow(left_count)
        right, right_open = grow(count - left_count)
        is_open = left_open or right_open
        landings = numbers.one_of(left), numbers.one_of(right)
        records.append(merge(0 if is_open else volume(), *landings))
        return left + right, is_open

    grow(leaf_count)
    return records


def random_session(numbers: Numbers, records: list[Record], largest: int) -> bytes:
    leaves = [index for index, record in enumerate(records) if record.is_leaf]
    odd = ["", "R 0", "L", "O 0", "R 0 1 ", "L 0\r", "r 0 1", "R  0 1", "L -1"]
    lines: list[str] = []
    for _ in range(50 + numbers.below(140)):
        draw = numbers.below(100)
        if draw < 45:
            lines.append(f"R {numbers.one_of(leaves)} {numbers.below(largest + 2)}")
        elif draw < 85:
            lines.append(f"L {numbers.one_of(leaves)}")
        elif draw < 92:
            lines.append("O")
        elif draw < 95:
            lines.append(f"R {numbers.below(len(records) + 2)} {numbers.below(largest + 2)}")
        elif draw < 98:
            lines.append(f"L {numbers.below(len(records) + 2)}")
        else:
            lines.append(odd[numbers.below(len(odd))])
    lines.append("O")
    lines += [f"L {leaf}" for leaf in leaves]
    return "".join(line + "\n" for line in lines).encode("ascii")


def random_cases() -> list[Case]:
    cases: list[Case] = []
    for seed in range(36):
        numbers = Numbers(1000 + seed)
        # 7 and 30 share no factor, so every number of leaves up to 30 has its turn.
        leaf_count = 1 + (seed * 7) % 30
        largest = (3, 9, 20)[seed % 3]
        records = random_site(numbers, leaf_count, largest)
        data = random_session(numbers, records, largest)
        edition = (OLD, NEW)[seed % 2]
        cases.append(Case(f"random_{seed:02}", terrain(edition, records), records, data))
    for seed in range(8):
        numbers = Numbers(2000 + seed)
        records = random_site(numbers, 4 + 3 * seed, VOLUME_LIMIT)
        # In the last half so much falls that the limit is passed.
        largest = VOLUME_LIMIT if seed < 4 else 2**56
        data = random_session(numbers, records, largest)
        cases.append(Case(f"random_large_{seed}", terrain(NEW, records), records, data))
    return cases


# ---------------------------------------------------------------------------
# Writing
# ---------------------------------------------------------------------------


def make_cases() -> list[Case]:
    return (
        order_cases()
        + small_cases()
        + large_cases()
        + input_cases()
        + chain_cases()
        + random_cases()
    )


def complaints(cases: list[Case]) -> list[str]:
    """Where two of the ways to an answer differ."""
    found: list[str] = []
    if not worked_examples_hold():
        found.append("a worked example does not hold")
    names = [case.name for case in cases]
    found += [f"{name}: name used twice" for name in set(names) if names.count(name) > 1]
    for case in cases:
        walked = played(case, SINGLE_LITRES)
        if walked != played(case, 0):
            found.append(f"{case.name}: single litres and runs differ")
        if case.answers is not None and walked != case.answers:
            found.append(f"{case.name}: stated {case.answers}, got {walked}")
    return found


def write(path: Path, data: bytes) -> None:
    path.parent.mkdir(parents=True, exist_ok=True)
    path.write_bytes(data)


def write_yardrain(case: Case, out: Path) -> None:
    assert case.file is not None
    write(out / "data" / "site.ter", case.file)
    write(out / "stdin", case.input)
    write(out / "stdout", text_of(played(case, SINGLE_LITRES)).encode("ascii"))


def write_cases(cases: list[Case], out: Path) -> None:
    stdout = ""
    for case in cases:
        if case.file is not None:
            write(out / "data" / f"{case.name}.ter", case.file)
        write(out / "data" / f"{case.name}.in", case.input)
        stdout += f"== {case.name}\n" + text_of(played(case, SINGLE_LITRES))
    args = "".join(case.name + "\n" for case in cases)
    write(out / "args", args.encode("ascii"))
    write(out / "stdout", stdout.encode("ascii"))


def main(arguments: list[str]) -> int:
    if len(arguments) != 1:
        print("usage: water_cases.py CRATES", file=sys.stderr)
        return 2
    yardrain, cases = yardrain_case(), make_cases()
    problems = complaints([yardrain, *cases])
    for problem in problems:
        print(problem, file=sys.stderr)
    if problems:
        return 1
    crates = Path(arguments[0])
    write_yardrain(yardrain, crates / "yardrain")
    write_cases(cases, crates / "yardrain_cases")
    return 0


if __name__ == "__main__":
    sys.exit(main(sys.argv[1:]))
