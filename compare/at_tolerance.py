#!/usr/bin/env python3
"""at_tolerance.py: where a code can lie exactly at the tolerance, over all named settings that settle, all codes and all channel sums:
|code − exact| = h/2 + 153·m/(100·2^P), in whole numbers. Prints at how many codes of how many settings the numerator that is needed is
whole and in reach, with the sums of one example. Takes a minute or two."""
from collections import Counter
from fractions import Fraction
from math import gcd

from model import TABLE, ranges, settle, tolerance


def factors(kind, kr, kb):
    """The factor of each channel's sum in the numerator of the exact fraction, and the denominator without its n·m."""
    kg = 10000 - kr - kb
    return {'Y': ((kr, kg, kb), 10000), 'Cb': ((-kr, -kg, 10000 - kb), 2 * (10000 - kb)),
            'Cr': ((10000 - kr, -kg, -kb), 2 * (10000 - kr))}[kind]


def sums(k, numerator, most):
    """Three sums from 0 to most whose numerator this is, or None."""
    step = gcd(k[1], k[2])
    for red in range(most + 1):
        rest = numerator - k[0] * red
        if rest % step:
            continue
        modulus = abs(k[2]) // step
        green = rest // step * pow(k[1] // step, -1, modulus) % modulus
        for green in range(green, most + 1, modulus):
            blue = (rest - k[1] * green) // k[2]
            if 0 <= blue <= most:
                return red, green, blue
    return None


def numerators(kind, pixels, kr, kb, full, depth, precision):
    """Codes that lie exactly at the tolerance, each with the numerator that it needs: in reach, and a multiple of the factors' divisor."""
    m = 2 ** depth - 1
    bias_y, range_y, range_uv = ranges(depth, full)
    bias, span = (bias_y, range_y) if kind == 'Y' else (2 ** (depth - 1), range_uv)
    k, divisor = factors(kind, kr, kb)
    divisor *= pixels * m
    allowed = divisor * tolerance(m, precision, pixels)
    if allowed.denominator != 1:
        return
    low, high = (sum(choose(0, n) for n in k) * pixels * m for choose in (min, max))
    for code in range(m + 1):
        for side in (-1, 1):
            numerator = Fraction((code - bias) * divisor + side * allowed.numerator, span)
            if numerator.denominator == 1 and low <= numerator <= high and numerator % gcd(*k) == 0:
                yield code, int(numerator)


def main():
    codes, settings, example = Counter(), Counter(), {}
    for name, (kr, kb) in TABLE.items():
        for full, depth, precision in ((f, d, p) for f in (False, True) for d in range(10, 17) for p in range(1, 14)):
            if isinstance(settle(name, None, full, depth, precision), int):
                continue
            for kind, pixels in (('Y', 1),) + tuple((kind, n) for kind in ('Cb', 'Cr') for n in (1, 2, 4)):
                found = list(numerators(kind, pixels, kr, kb, full, depth, precision))
                codes[kind, pixels, precision] += len(found)
                settings[kind, pixels, precision] += bool(found)
                for code, numerator in found[::len(found) // 16 + 1]:
                    if (kind, pixels, precision) not in example:
                        made = sums(factors(kind, kr, kb)[0], numerator, pixels * (2 ** depth - 1))
                        if made:
                            example[kind, pixels, precision] = (name, 'full' if full else 'limited', depth, code, made)
    for key in sorted(codes):
        if codes[key]:
            print('{} of {} pixels at P = {}:'.format(*key), codes[key], 'codes of', settings[key], 'settings, as', *example.get(key, 'none'))
    for kind in ('Y', 'Cb', 'Cr'):
        print(kind, 'at P =', sorted({p for k, _, p in codes if k == kind and codes[k, _, p]}) or 'none')


main()
