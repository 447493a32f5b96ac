#!/usr/bin/env python3
"""squares.py N: N rows of N squares as well-known text on standard output, a POLYGON on each line.

Neighbouring squares share their corners, as parcels do. N = 900 gives 60 MB.
"""

import sys

SIDE = 64


def square(column, row):
    left, low = SIDE * column, SIDE * row
    right, high = left + SIDE, low + SIDE
    return f"POLYGON (({left} {low}, {right} {low}, {right} {high}, {left} {high}, {left} {low}))\n"


def main():
    count = int(sys.argv[1])
    for row in range(count):
        sys.stdout.write("".join(square(column, row) for column in range(count)))


if __name__ == "__main__":
    main()
