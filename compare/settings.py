#!/usr/bin/env python3
"""settings.py FILE: works out every line of FILE, the output of the program run_settings, afresh and says which differ."""
import sys
from fractions import Fraction

from cases import differing
from model import TABLE, from_bits, settle


def answer(line):
    question = line.split(':')[0]
    words = question.split()
    named = words[0] if words[0] in TABLE else None
    if named or len(words) == 4:
        pair = (Fraction(0), Fraction(0))
    else:
        pair = (from_bits(int(words[1], 16)), from_bits(int(words[2], 16)))
    got = settle(named, pair, words[-3] == 'full', int(words[-2]), int(words[-1]))
    return question + ':' + (f' refused {got}' if isinstance(got, int) else ''.join(f' {n}' for n in got))


def main():
    lines = open(sys.argv[1]).read().splitlines()
    wrong = differing(lines, [answer(line) for line in lines])
    named = {tuple(line.split(':')[0].split()) for line in lines if line.split()[0] in TABLE}
    wanted = {(n, r, str(d), str(p)) for n in TABLE for r in ('limited', 'full') for d in range(10, 17) for p in range(1, 14)}
    print(f'{len(lines)} lines, {len(wrong)} differ, {len(wanted & named)} of the 910 named settings among them')
    print('given by refusal:', {n: sum(line.endswith(f'refused {n}') for line in lines) for n in range(1, 6)})
    sys.exit(1 if wrong or not wanted <= named else 0)


main()
