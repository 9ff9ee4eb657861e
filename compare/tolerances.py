#!/usr/bin/env python3
"""tolerances.py: prints the table of docs/TOLERANCE.md, document 01's tolerance in codes, rounded up to a hundredth."""
from model import tolerance


def shown(m, precision, pixels):
    hundredths = -(-tolerance(m, precision, pixels) * 100 // 1)
    return f'{hundredths // 100}.{hundredths % 100:02}'


def main():
    print('| depth | codes | P = 13, one pixel | P = 13, two or four pixels | P = 8, one pixel | P = 1, one pixel |')
    print('|---|---|---|---|---|---|')
    for depth in range(10, 17):
        m = 2 ** depth - 1
        print(f'| {depth} | 0 to {m} | {shown(m, 13, 1)} | {shown(m, 13, 4)} | {shown(m, 8, 1)} | {shown(m, 1, 1)} |')


main()
