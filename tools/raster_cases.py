#!/usr/bin/env python3
"""What raster_show must print, worked out apart from the program.

Each layer is a dictionary from cells to numbers that is made whole by its rule, pushing cells from below to where they
show; the program goes the other way and asks for one cell at a time. A cell that is in no dictionary has no number.

    tools/raster_cases.py > crates/raster_show/stdout
"""
from fractions import Fraction

LARGEST = 4_294_967_295


def zones(rows, cols, rectangles):
    """Painted from the last rectangle to the first, so that the first lies on top."""
    painted = {(r, c): 0 for r in range(rows) for c in range(cols)}
    for top, left, height, width, number in reversed(rectangles):
        for r in range(rows):
            for c in range(cols):
                if r in range(top, top + height) and c in range(left, left + width):
                    painted[r, c] = number
    return painted


def shifted(rows, cols, below, dr, dc):
    """Every number moves by (dr, dc); what moves off is lost, and what nothing moves to is 0."""
    moved = {(r, c): 0 for r in range(rows) for c in range(cols)}
    for (r, c), number in below.items():
        if (r + dr, c + dc) in moved:
            moved[r + dr, c + dc] = number
    return moved


def weighted(below, p, q):
    """As fractions, cut to whole litres."""
    return {cell: int(Fraction(number * p, q)) for cell, number in below.items() if q != 0 and number <= LARGEST}


def plain(rows, cols, numbers):
    """One number after another, as far as they go."""
    cells = [(r, c) for r in range(rows) for c in range(cols)]
    return dict(zip(cells, numbers))


def show(title, rows, cols, raster):
    print(title)
    for r in range(rows):
        print(" ".join(str(raster.get((r, c), "-")) for c in range(cols)))


def main():
    rows, cols = 5, 8
    one = zones(rows, cols, [(0, 2, 3, 3, 12), (1, 3, 65535, 4, 9)])
    show("zones", rows, cols, one)
    two = shifted(rows, cols, one, 1, -2)
    show("shifted by 1 and -2", rows, cols, two)
    show("weighted by 3/4", rows, cols, weighted(two, 3, 4))
    show("plain", 3, 4, plain(3, 4, [0, 1, 2, 3, 10, 11, 12, 13, 20, 21]))


if __name__ == "__main__":
    main()
