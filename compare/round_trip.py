#!/usr/bin/env python3
"""round_trip.py: how far a colour comes back from itself, converted at 4:4:4 and turned back to RGB by the rules of documents 01 and 02.
For each depth, range and named matrix, at P = 13 or another given as an argument: the largest difference of a channel over random colours,
the largest over all greys, and how far apart the three channels of a grey come back. Takes a minute or two."""
from random import Random
from sys import argv

from model import TABLE, Settings, code, colours

COLOURS = 20000


def codes(s, rgb):
    w, middle = s.settle(), 2 ** (s.depth - 1)
    return (code(s.precision, s.bias_y(), w[0:3], rgb), code(s.precision, middle, w[3:6], rgb), code(s.precision, middle, w[6:9], rgb))


def back(s, rgb):
    return colours(s, *codes(s, rgb))


def difference(s, rgb):
    return max(abs(a - b) for a, b in zip(back(s, rgb), rgb))


def line(s, random):
    m = s.m()
    drawn = max(difference(s, [random.randint(0, m) for _ in range(3)]) for _ in range(COLOURS))
    corners = max(difference(s, [m * (n >> k & 1) for k in range(3)]) for n in range(8))
    greys = [(back(s, [grey] * 3), grey) for grey in range(m + 1)]
    grey = max(abs(c - g) for rgb, g in greys for c in rgb)
    tint = max(max(rgb) - min(rgb) for rgb, _ in greys)
    return f'depth {s.depth} {"full" if s.full else "limited":7} {s.matrix:9} colours {max(drawn, corners):4} greys {grey:4} tint {tint:4}'


def main():
    precision, random = int(argv[1]) if len(argv) > 1 else 13, Random(6)
    for depth in range(10, 17):
        for full in (True, False):
            for matrix in TABLE:
                s = Settings(depth, precision, matrix, full, 2, 0, 1, 1, 0)
                refusal = s.settle()
                print(f'depth {depth} {"full" if full else "limited":7} {matrix:9} refusal {refusal}' if isinstance(refusal, int) else line(s, random))


main()
