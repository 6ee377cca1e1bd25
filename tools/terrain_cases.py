#!/usr/bin/env python3
"""Build the terrain test files and the text expected for each of them.

    python3 tools/terrain_cases.py OUT

writes OUT/data/NAME.ter, OUT/args (one file name a line) and OUT/stdout.

The expected text comes from the reference check in this file. Every case also
states its first line by hand, with the place as a literal number. The script
stops when the two differ, so neither is trusted alone.
"""

from __future__ import annotations

import sys
from collections.abc import Callable
from dataclasses import dataclass
from pathlib import Path
from typing import Literal

# ---------------------------------------------------------------------------
# The format
# ---------------------------------------------------------------------------

BASIN, MERGE, OUTLET = 1, 2, 3
KIND_NAMES = {BASIN: "basin", MERGE: "merge", OUTLET: "outlet"}

TRAILER_LENGTH = 12
NOTE_LIMIT = 1024
RECORD_LIMIT = 1023
VOLUME_LIMIT = 2**40 - 1


@dataclass(frozen=True)
class Edition:
    """What differs between the two editions of the format."""

    digit: int
    order: Literal["little", "big"]
    record_length: int
    volume_length: int

    def number(self, raw: bytes) -> int:
        return int.from_bytes(raw, self.order)

    def raw(self, number: int, length: int) -> bytes:
        return number.to_bytes(length, self.order)


OLD = Edition(digit=1, order="little", record_length=12, volume_length=4)
NEW = Edition(digit=2, order="big", record_length=16, volume_length=8)

# ---------------------------------------------------------------------------
# The reference check
# ---------------------------------------------------------------------------

# Number: (layer, question in words).
QUESTIONS: dict[int, tuple[str, str]] = {
    1: ("trailer", "at least 12 bytes?"),
    2: ("trailer", "last four bytes F, T, 1 or 2, 0A?"),
    3: ("trailer", "trailer bytes 6 and 7 zero?"),
    4: ("trailer", "count 1 to 1023?"),
    5: (
        "trailer",
        "distance equal to count times record length,"
        " and at most the bytes before the trailer?",
    ),
    6: ("trailer", "note at most 1024 bytes?"),
    7: ("record", "kind 1 to 3?"),
    8: ("record", "record bytes 1, 6 and 7 zero?"),
    9: ("record", "volume at most 1099511627775, and 0 for the outlet?"),
    10: ("tree", "two subtrees waiting for the merge?"),
    11: (
        "tree",
        "landings 0 for a leaf,"
        " a leaf of the left and of the right side for a merge?",
    ),
    12: ("tree", "volume 0 for an open merge?"),
    13: ("tree", "one subtree after the last record?"),
    14: ("tree", "one outlet?"),
}


class Refused(Exception):
    """The first question that was answered no."""

    def __init__(self, number: int, place: int, found: tuple[int, ...]) -> None:
        super().__init__(number, place, found)
        self.number = number
        self.place = place
        self.found = found

    def text(self) -> str:
        layer, question = QUESTIONS[self.number]
        found = " ".join(str(value) for value in self.found)
        return f"no {self.number} {layer} {self.place}\n{question} found {found}\n"


def ask(number: int, answer: bool, place: int, *found: int) -> None:
    """Raising ends the load, so that no later question is asked."""
    if not answer:
        raise Refused(number, place, found)


@dataclass(frozen=True)
class Layout:
    edition: Edition
    note: int  # bytes before the first record, hence also where it starts
    count: int


@dataclass(frozen=True)
class Record:
    kind: int
    left: int
    right: int
    volume: int

    @property
    def is_leaf(self) -> bool:
        return self.kind != MERGE


@dataclass(frozen=True)
class Subtree:
    # The leaves are kept as a plain set. It is slower than a range of record
    # numbers, but it is the rule itself and needs no argument about numbering.
    leaves: frozenset[int]
    is_open: bool
    height: int


def read_trailer(data: bytes) -> Layout:
    n = len(data)
    ask(1, n >= TRAILER_LENGTH, 0, n)
    trailer = data[n - TRAILER_LENGTH :]

    signature = trailer[8:12]
    ask(2, signature in (b"FT1\x0a", b"FT2\x0a"), n - 4, *signature)
    # From here on numbers can be read: the digit settles the byte order.
    edition = OLD if signature[2:3] == b"1" else NEW

    ask(3, trailer[6] == 0 and trailer[7] == 0, n - 6, trailer[6], trailer[7])

    count = edition.number(trailer[4:6])
    ask(4, 1 <= count <= RECORD_LIMIT, n - 8, count)

    distance = edition.number(trailer[0:4])
    fits = distance <= n - TRAILER_LENGTH
    ask(5, distance == count * edition.record_length and fits, n - 12, distance)

    note = n - TRAILER_LENGTH - distance
    ask(6, note <= NOTE_LIMIT, 0, note)
    return Layout(edition, note, count)


def read_record(raw: bytes, start: int, edition: Edition) -> Record:
    kind = raw[0]
    ask(7, kind in KIND_NAMES, start, kind)

    ask(8, raw[1] == raw[6] == raw[7] == 0, start + 1, raw[1], raw[6], raw[7])

    volume = edition.number(raw[8:])
    limit = 0 if kind == OUTLET else VOLUME_LIMIT
    ask(9, volume <= limit, start + 8, volume)
    return Record(kind, edition.number(raw[2:4]), edition.number(raw[4:6]), volume)


def add_leaf(waiting: list[Subtree], index: int, record: Record, start: int) -> None:
    no_landings = record.left == 0 and record.right == 0
    ask(11, no_landings, start + 2, record.left, record.right)
    waiting.append(Subtree(frozenset([index]), record.kind == OUTLET, 0))


def add_merge(waiting: list[Subtree], record: Record, start: int) -> None:
    ask(10, len(waiting) >= 2, start, len(waiting))
    right = waiting.pop()
    left = waiting.pop()

    on_sides = record.left in left.leaves and record.right in right.leaves
    ask(11, on_sides, start + 2, record.left, record.right)

    # More than one outlet may still stand in the file here, so both sides can
    # be open at once. Only question 14 objects to that.
    is_open = left.is_open or right.is_open
    ask(12, record.volume == 0 or not is_open, start + 8, record.volume)

    height = 1 + max(left.height, right.height)
    waiting.append(Subtree(left.leaves | right.leaves, is_open, height))


def record_line(index: int, record: Record) -> str:
    name = KIND_NAMES[record.kind]
    if record.kind == OUTLET:
        return f"{index} {name}\n"
    if record.kind == BASIN:
        return f"{index} {name} {record.volume}\n"
    return f"{index} {name} {record.volume} landings {record.left} {record.right}\n"


def load(data: bytes) -> str:
    """The text for an accepted file; raises Refused for every other file."""
    layout = read_trailer(data)
    length = layout.edition.record_length
    records: list[Record] = []
    waiting: list[Subtree] = []
    for index in range(layout.count):
        # A record is read and joined before the next one is looked at: a tree
        # fault in an early record comes before a record fault in a later one.
        start = layout.note + index * length
        record = read_record(data[start : start + length], start, layout.edition)
        if record.is_leaf:
            add_leaf(waiting, index, record, start)
        else:
            add_merge(waiting, record, start)
        records.append(record)

    end = len(data) - TRAILER_LENGTH
    ask(13, len(waiting) == 1, end, len(waiting))
    outlets = sum(record.kind == OUTLET for record in records)
    ask(14, outlets == 1, end, outlets)

    digit = layout.edition.digit
    lines = [f"ok edition {digit} note {layout.note} records {layout.count}\n"]
    lines += [record_line(index, record) for index, record in enumerate(records)]
    total = sum(record.volume for record in records)
    lines.append(f"volume {total} height {waiting[0].height}\n")
    return "".join(lines)


def expected_text(data: bytes) -> str:
    try:
        return load(data)
    except Refused as refused:
        return refused.text()


# ---------------------------------------------------------------------------
# Building files
# ---------------------------------------------------------------------------


def basin(volume: int, left: int = 0, right: int = 0) -> Record:
    return Record(BASIN, left, right, volume)


def merge(volume: int, left: int, right: int) -> Record:
    return Record(MERGE, left, right, volume)


def outlet(volume: int = 0, left: int = 0, right: int = 0) -> Record:
    return Record(OUTLET, left, right, volume)


def record_bytes(edition: Edition, record: Record) -> bytes:
    return (
        bytes([record.kind, 0])
        + edition.raw(record.left, 2)
        + edition.raw(record.right, 2)
        + bytes(2)
        + edition.raw(record.volume, edition.volume_length)
    )


def trailer_bytes(edition: Edition, distance: int, count: int) -> bytes:
    return (
        edition.raw(distance, 4)
        + edition.raw(count, 2)
        + bytes(2)
        + b"FT"
        + str(edition.digit).encode("ascii")
        + b"\x0a"
    )


def terrain(
    edition: Edition,
    records: list[Record],
    note: bytes = b"",
    count: int | None = None,
    distance: int | None = None,
) -> bytes:
    """A file; count and distance are the true ones unless given."""
    body = b"".join(record_bytes(edition, record) for record in records)
    stated_count = len(records) if count is None else count
    stated_distance = len(body) if distance is None else distance
    return note + body + trailer_bytes(edition, stated_distance, stated_count)


def patched(data: bytes, *changes: tuple[int, int]) -> bytes:
    """The data with single bytes replaced; a negative place counts from the end."""
    raw = bytearray(data)
    for place, value in changes:
        raw[place] = value
    return bytes(raw)


def in_record(edition: Edition, index: int, byte: int) -> int:
    """Place of a byte of a record in a file without a note."""
    return index * edition.record_length + byte


def text_note(length: int) -> bytes:
    return (b"Survey of the upper valley. " * 40)[:length]


# ---------------------------------------------------------------------------
# Sites
# ---------------------------------------------------------------------------

# Files without a note: 96 bytes in edition 1, 124 in edition 2.
SEVEN = [
    basin(10),
    basin(6),
    merge(4, 0, 1),
    basin(5),
    merge(3, 1, 3),
    outlet(),
    merge(0, 3, 5),
]

# Files without a note: 48 bytes in edition 1, 60 in edition 2.
THREE = [basin(8), outlet(), merge(0, 0, 1)]


def replaced(site: list[Record], index: int, record: Record) -> list[Record]:
    return site[:index] + [record] + site[index + 1 :]


def balanced_site() -> list[Record]:
    """1,023 records, 512 leaves, every leaf under nine merges."""
    records: list[Record] = []
    leaves_made = 0

    def grow(height: int) -> tuple[list[int], bool]:
        nonlocal leaves_made
        if height == 0:
            is_outlet = leaves_made == 300
            leaves_made += 1
            records.append(outlet() if is_outlet else basin(len(records) * 37))
            return [len(records) - 1], is_outlet
        left, left_open = grow(height - 1)
        right, right_open = grow(height - 1)
        is_open = left_open or right_open
        volume = 0 if is_open else len(records)
        # Leaves away from the ends, to see that any leaf of a side will do.
        left_landing = left[len(left) // 3]
        right_landing = right[2 * len(right) // 3]
        records.append(merge(volume, left_landing, right_landing))
        return left + right, is_open

    grow(9)
    return records


def right_chain_site() -> list[Record]:
    """1,023 records: 512 leaves wait at once, then every merge adds one more.

    The outlet is leaf 0 and is joined last, so that every other record is
    closed and carries the largest volume; the total passes 2^49.
    """
    records = [outlet()] + [basin(VOLUME_LIMIT)] * 511
    for left in range(510, -1, -1):
        right = (left + 1, 511, (left + 512) // 2)[left % 3]
        records.append(merge(0 if left == 0 else VOLUME_LIMIT, left, right))
    return records


# ---------------------------------------------------------------------------
# Cases
# ---------------------------------------------------------------------------


@dataclass(frozen=True)
class Case:
    name: str
    data: bytes
    first_line: str  # stated by hand, compared with the reference check


class Cases:
    def __init__(self) -> None:
        self.all: list[Case] = []

    def one(self, name: str, data: bytes, first_line: str) -> None:
        self.all.append(Case(name, data, first_line))

    def both(
        self,
        name: str,
        build: Callable[[Edition], bytes],
        first_line_old: str,
        first_line_new: str,
    ) -> None:
        self.one(name + "_old", build(OLD), first_line_old)
        self.one(name + "_new", build(NEW), first_line_new)


def add_accepted(cases: Cases) -> None:
    cases.both(
        "seven",
        lambda e: terrain(e, SEVEN),
        "ok edition 1 note 0 records 7",
        "ok edition 2 note 0 records 7",
    )
    cases.both(
        "outlet_alone",
        lambda e: terrain(e, [outlet()]),
        "ok edition 1 note 0 records 1",
        "ok edition 2 note 0 records 1",
    )
    cases.one(
        "records_1023_balanced_old",
        terrain(OLD, balanced_site()),
        "ok edition 1 note 0 records 1023",
    )
    cases.one(
        "records_1023_right_chain_new",
        terrain(NEW, right_chain_site()),
        "ok edition 2 note 0 records 1023",
    )
    cases.one(
        "volume_largest_old",
        terrain(OLD, replaced(THREE, 0, basin(2**32 - 1))),
        "ok edition 1 note 0 records 3",
    )
    cases.one(
        "volume_largest_new",
        terrain(NEW, replaced(THREE, 0, basin(2**40 - 1))),
        "ok edition 2 note 0 records 3",
    )
    cases.one("note_0_new", terrain(NEW, THREE), "ok edition 2 note 0 records 3")
    cases.one(
        "note_1_old",
        terrain(OLD, THREE, text_note(1)),
        "ok edition 1 note 1 records 3",
    )
    cases.both(
        "note_1024",
        lambda e: terrain(e, THREE, text_note(1024)),
        "ok edition 1 note 1024 records 3",
        "ok edition 2 note 1024 records 3",
    )
    # The note is a whole file of the other edition. Only the last trailer counts.
    cases.one(
        "note_ends_like_trailer_old",
        terrain(OLD, THREE, terrain(NEW, SEVEN)),
        "ok edition 1 note 124 records 3",
    )
    cases.one(
        "note_ends_like_trailer_new",
        terrain(NEW, THREE, terrain(OLD, SEVEN)),
        "ok edition 2 note 96 records 3",
    )


def add_trailer_refusals(cases: Cases) -> None:
    # 1
    cases.one("length_0", b"", "no 1 trailer 0")
    cases.one("length_11", trailer_bytes(OLD, 12, 1)[1:], "no 1 trailer 0")

    # 2
    cases.one("length_12_zeros", bytes(12), "no 2 trailer 8")
    cases.one(
        "signature_f_wrong_old",
        patched(terrain(OLD, THREE), (-4, ord("f"))),
        "no 2 trailer 44",
    )
    cases.one(
        "signature_t_wrong_new",
        patched(terrain(NEW, THREE), (-3, ord("t"))),
        "no 2 trailer 56",
    )
    cases.one(
        "signature_digit_0",
        patched(terrain(OLD, THREE), (-2, ord("0"))),
        "no 2 trailer 44",
    )
    cases.one(
        "signature_digit_3",
        patched(terrain(NEW, THREE), (-2, ord("3"))),
        "no 2 trailer 56",
    )
    # The number 1 instead of the ASCII digit.
    cases.one(
        "signature_digit_not_ascii",
        patched(terrain(OLD, THREE), (-2, 1)),
        "no 2 trailer 44",
    )
    cases.one(
        "signature_end_wrong_old",
        patched(terrain(OLD, THREE), (-1, 0x0D)),
        "no 2 trailer 44",
    )
    cases.one(
        "byte_after_trailer_new",
        terrain(NEW, THREE) + b"\x0a",
        "no 2 trailer 57",
    )

    # 3
    cases.one(
        "trailer_byte_6_old",
        patched(terrain(OLD, THREE), (-6, 1)),
        "no 3 trailer 42",
    )
    cases.one(
        "trailer_byte_7_new",
        patched(terrain(NEW, THREE), (-5, 255)),
        "no 3 trailer 54",
    )

    # 4
    cases.one("length_12_count_0_new", trailer_bytes(NEW, 0, 0), "no 4 trailer 4")
    cases.one("count_0_old", terrain(OLD, [], text_note(5)), "no 4 trailer 9")
    # One basin after a full site: places 1024 * 12 + 4 and 1024 * 16 + 4.
    cases.both(
        "records_1024",
        lambda e: terrain(e, balanced_site() + [basin(1)]),
        "no 4 trailer 12292",
        "no 4 trailer 16388",
    )

    # 5
    cases.one(
        "length_12_trailer_alone_old", trailer_bytes(OLD, 12, 1), "no 5 trailer 0"
    )
    # With a note, so that one more is still within the file.
    cases.one(
        "distance_one_less_old",
        terrain(OLD, THREE, text_note(5), distance=35),
        "no 5 trailer 41",
    )
    cases.one(
        "distance_one_more_new",
        terrain(NEW, THREE, text_note(5), distance=49),
        "no 5 trailer 53",
    )
    # Equal to count times record length, but the first byte is missing.
    cases.both(
        "distance_beyond_file",
        lambda e: terrain(e, THREE)[1:],
        "no 5 trailer 35",
        "no 5 trailer 47",
    )
    cases.one(
        "distance_largest_new",
        terrain(NEW, THREE, distance=2**32 - 1),
        "no 5 trailer 48",
    )
    # The record length of edition 1 under the digit of edition 2.
    cases.one(
        "distance_other_record_length_new",
        terrain(NEW, THREE, distance=36),
        "no 5 trailer 48",
    )

    # 6
    cases.both(
        "note_1025",
        lambda e: terrain(e, THREE, text_note(1025)),
        "no 6 trailer 0",
        "no 6 trailer 0",
    )


def add_byte_order_refusals(cases: Cases) -> None:
    # The count 1 reads as 256 and passes; the distance 12 reads as 201326592.
    cases.one(
        "byte_order_digit_2_over_little_endian",
        patched(terrain(OLD, [outlet()]), (-2, ord("2"))),
        "no 5 trailer 12",
    )
    # The distance 16 reads as 268435456.
    cases.one(
        "byte_order_digit_1_over_big_endian",
        patched(terrain(NEW, [outlet()]), (-2, ord("1"))),
        "no 5 trailer 16",
    )
    # The count 7 reads as 1792 and is refused before the distance is looked at.
    cases.one(
        "byte_order_seven_digit_2_over_little_endian",
        patched(terrain(OLD, SEVEN), (-2, ord("2"))),
        "no 4 trailer 88",
    )


def add_record_refusals(cases: Cases) -> None:
    # 7
    cases.one("kind_0_old", patched(terrain(OLD, SEVEN), (0, 0)), "no 7 record 0")
    # A note of five bytes moves every place by five.
    cases.both(
        "kind_4_after_note",
        lambda e: terrain(e, replaced(SEVEN, 3, Record(4, 0, 0, 5)), text_note(5)),
        "no 7 record 41",
        "no 7 record 53",
    )

    # 8
    for byte in (1, 6, 7):
        cases.both(
            f"record_byte_{byte}",
            lambda e: patched(terrain(e, SEVEN), (in_record(e, 4, byte), 9)),
            "no 8 record 49",
            "no 8 record 65",
        )

    # 9
    cases.both(
        "outlet_volume",
        lambda e: terrain(e, replaced(SEVEN, 5, outlet(1))),
        "no 9 record 68",
        "no 9 record 88",
    )
    cases.one(
        "basin_volume_2_to_the_40_new",
        terrain(NEW, replaced(SEVEN, 1, basin(2**40))),
        "no 9 record 24",
    )
    cases.one(
        "merge_volume_2_to_the_64_less_1_new",
        terrain(NEW, replaced(SEVEN, 2, merge(2**64 - 1, 0, 1))),
        "no 9 record 40",
    )


def add_tree_refusals(cases: Cases) -> None:
    # 10
    cases.one(
        "merge_none_waiting_old",
        terrain(OLD, [merge(0, 0, 0), basin(1), outlet()]),
        "no 10 tree 0",
    )
    cases.both(
        "merge_one_waiting",
        lambda e: terrain(e, [outlet(), merge(0, 0, 0), basin(1)]),
        "no 10 tree 12",
        "no 10 tree 16",
    )

    # 11
    cases.one(
        "basin_left_landing_old",
        terrain(OLD, replaced(SEVEN, 1, basin(6, left=1))),
        "no 11 tree 14",
    )
    cases.one(
        "basin_right_landing_new",
        terrain(NEW, replaced(SEVEN, 1, basin(6, right=1))),
        "no 11 tree 18",
    )
    cases.one(
        "outlet_landing_new",
        terrain(NEW, replaced(SEVEN, 5, outlet(right=5))),
        "no 11 tree 82",
    )
    cases.one(
        "left_landing_on_right_side_old",
        terrain(OLD, replaced(SEVEN, 4, merge(3, 3, 3))),
        "no 11 tree 50",
    )
    cases.one(
        "right_landing_on_left_side_new",
        terrain(NEW, replaced(SEVEN, 4, merge(3, 1, 0))),
        "no 11 tree 66",
    )
    cases.one(
        "left_landing_names_merge_old",
        terrain(OLD, replaced(SEVEN, 4, merge(3, 2, 3))),
        "no 11 tree 50",
    )
    cases.one(
        "right_landing_names_merge_itself_new",
        terrain(NEW, replaced(SEVEN, 4, merge(3, 1, 4))),
        "no 11 tree 66",
    )
    cases.one(
        "right_landing_names_later_leaf_old",
        terrain(OLD, replaced(SEVEN, 4, merge(3, 1, 5))),
        "no 11 tree 50",
    )
    cases.one(
        "right_landing_past_end_old",
        terrain(OLD, replaced(SEVEN, 6, merge(0, 3, 7))),
        "no 11 tree 74",
    )
    cases.one(
        "left_landing_65535_new",
        terrain(NEW, replaced(SEVEN, 6, merge(0, 65535, 5))),
        "no 11 tree 98",
    )
    # Leaf 0 waits, but the merge joins leaves 1 and 2.
    cases.one(
        "left_landing_on_waiting_leaf_outside_new",
        terrain(NEW, [basin(1), basin(2), outlet(), merge(0, 0, 2), merge(0, 0, 2)]),
        "no 11 tree 50",
    )

    # 12
    cases.both(
        "open_merge_volume",
        lambda e: terrain(e, replaced(SEVEN, 6, merge(1, 3, 5))),
        "no 12 tree 80",
        "no 12 tree 104",
    )
    # The outlet lies two merges down, on the left side.
    cases.one(
        "open_merge_volume_outlet_deep_old",
        terrain(OLD, THREE + [basin(4), merge(7, 0, 3)]),
        "no 12 tree 56",
    )

    # 13
    cases.both(
        "two_subtrees_left",
        lambda e: terrain(e, [*SEVEN, basin(2)]),
        "no 13 tree 96",
        "no 13 tree 128",
    )
    # The most subtrees that can wait.
    cases.one(
        "leaves_only_1023_old",
        terrain(OLD, [outlet()] + [basin(1)] * 1022),
        "no 13 tree 12276",
    )

    # 14
    cases.one("basin_alone_new", terrain(NEW, [basin(5)]), "no 14 tree 16")
    cases.one("no_outlet_old", terrain(OLD, SEVEN[:5]), "no 14 tree 60")
    # After a note, so that the place is not the distance.
    cases.both(
        "two_outlets",
        lambda e: terrain(e, [outlet(), outlet(), merge(0, 0, 1)], text_note(5)),
        "no 14 tree 41",
        "no 14 tree 53",
    )


def add_pairs(cases: Cases) -> None:
    """Two faults in one file: the question that is asked first is the refusal."""
    cases.one(
        "pair_signature_and_trailer_byte_6_old",
        patched(terrain(OLD, THREE), (-4, ord("G")), (-6, 1)),
        "no 2 trailer 44",
    )
    cases.one(
        "pair_trailer_byte_7_and_count_0_new",
        patched(terrain(NEW, THREE, count=0), (-5, 1)),
        "no 3 trailer 54",
    )
    cases.one(
        "pair_count_0_and_distance_old",
        terrain(OLD, THREE, count=0, distance=36),
        "no 4 trailer 40",
    )
    cases.one(
        "pair_distance_and_note_1025_new",
        terrain(NEW, THREE, text_note(1025), distance=47),
        "no 5 trailer 1073",
    )
    cases.one(
        "pair_note_1025_and_kind_0_old",
        terrain(OLD, replaced(THREE, 0, Record(0, 0, 0, 8)), text_note(1025)),
        "no 6 trailer 0",
    )
    cases.one(
        "pair_kind_and_byte_1_new",
        patched(terrain(NEW, SEVEN), (in_record(NEW, 1, 0), 0xFF), (17, 1)),
        "no 7 record 16",
    )
    cases.one(
        "pair_byte_6_and_outlet_volume_old",
        patched(terrain(OLD, replaced(SEVEN, 5, outlet(3))), (66, 1)),
        "no 8 record 61",
    )
    cases.one(
        "pair_outlet_volume_and_outlet_landing_new",
        terrain(NEW, replaced(SEVEN, 5, outlet(3, left=5))),
        "no 9 record 88",
    )
    cases.one(
        "pair_merge_volume_and_none_waiting_new",
        terrain(NEW, [merge(2**40, 0, 0), outlet()]),
        "no 9 record 8",
    )
    cases.one(
        "pair_one_waiting_and_landings_old",
        terrain(OLD, [outlet(), merge(0, 9, 9)]),
        "no 10 tree 12",
    )
    cases.one(
        "pair_landings_and_open_volume_new",
        terrain(NEW, replaced(SEVEN, 6, merge(2, 5, 3))),
        "no 11 tree 98",
    )
    cases.one(
        "pair_open_volume_then_later_kind_old",
        terrain(OLD, [basin(8), outlet(), merge(1, 0, 1), Record(7, 0, 0, 0)]),
        "no 12 tree 32",
    )
    cases.one(
        "pair_leaf_landing_then_later_byte_1_new",
        patched(terrain(NEW, replaced(SEVEN, 0, basin(10, left=1))), (17, 1)),
        "no 11 tree 2",
    )
    cases.one(
        "pair_landings_then_later_volume_new",
        terrain(
            NEW, replaced(replaced(SEVEN, 2, merge(4, 1, 0)), 3, basin(2**40))
        ),
        "no 11 tree 34",
    )
    cases.one(
        "pair_two_outlets_and_open_volume_old",
        terrain(OLD, [outlet(), outlet(), merge(5, 0, 1)]),
        "no 12 tree 32",
    )
    cases.one(
        "pair_last_kind_and_two_outlets_new",
        terrain(NEW, [outlet(), outlet(), Record(0, 0, 1, 0)]),
        "no 7 record 32",
    )
    cases.one(
        "pair_two_subtrees_and_no_outlet_old",
        terrain(OLD, [basin(1), basin(2)]),
        "no 13 tree 24",
    )
    cases.one(
        "pair_three_subtrees_and_two_outlets_new",
        terrain(NEW, [outlet(), basin(2), outlet()]),
        "no 13 tree 48",
    )


def make_cases() -> list[Case]:
    cases = Cases()
    add_accepted(cases)
    add_trailer_refusals(cases)
    add_byte_order_refusals(cases)
    add_record_refusals(cases)
    add_tree_refusals(cases)
    add_pairs(cases)
    return cases.all


def complaints(cases: list[Case]) -> list[str]:
    """Where the hand-stated first lines and the reference check differ."""
    found: list[str] = []
    names = [case.name for case in cases]
    found += [f"{name}: name used twice" for name in set(names) if names.count(name) > 1]
    for case in cases:
        first_line = expected_text(case.data).split("\n", 1)[0]
        if first_line != case.first_line:
            found.append(f"{case.name}: stated {case.first_line!r}, got {first_line!r}")
    return found


def write_cases(cases: list[Case], out: Path) -> None:
    data_folder = out / "data"
    data_folder.mkdir(parents=True, exist_ok=True)
    args: list[str] = []
    stdout: list[str] = []
    for case in cases:
        file_name = case.name + ".ter"
        (data_folder / file_name).write_bytes(case.data)
        args.append(file_name + "\n")
        stdout.append(f"== {file_name}\n" + expected_text(case.data))
    # Bytes, so that no platform turns 0A into something else.
    (out / "args").write_bytes("".join(args).encode("ascii"))
    (out / "stdout").write_bytes("".join(stdout).encode("ascii"))


def main(arguments: list[str]) -> int:
    if len(arguments) != 1:
        print("usage: terrain_cases.py OUT", file=sys.stderr)
        return 2
    cases = make_cases()
    problems = complaints(cases)
    for problem in problems:
        print(problem, file=sys.stderr)
    if problems:
        return 1
    write_cases(cases, Path(arguments[0]))
    return 0


if __name__ == "__main__":
    sys.exit(main(sys.argv[1:]))
