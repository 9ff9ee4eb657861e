#!/usr/bin/env python3
"""checks.py FILE...: works out every line of FILE, the output of the programs run_checks and run_edges, afresh and says which differ."""
import sys
from copy import copy
from math import ceil, floor

from cases import FORMER, MATRICES, Case, checked_numbers, checksum, counted, differing, line_of
from model import (COUNT, PLACES, Frame, Settings, block, check, convert, exact_chroma, exact_luma, formed, pixel, tolerance)


def exact_at(s, f, source, plane, row, element):
    """The exact value of a sample, and the tolerance around it."""
    if plane == 0:
        return exact_luma(s, pixel(s, f, source, row, element)), tolerance(s.m(), s.precision, 1)
    pixels = [pixel(s, f, source, y, x) for y, x in block(s, f, row, element // 2)]
    return exact_chroma(s, pixels, element % 2 == s.order), tolerance(s.m(), s.precision, len(pixels))


def words(s, f, source, *place):
    """How many of the 65,536 words are accepted at a place, the first and the last of them, and how many are not."""
    exact, allowed = exact_at(s, f, source, *place)
    accepted = [v for v in range(65536) if (code := formed(s, v)) is not None and abs(code - exact) <= allowed]
    return [len(accepted), accepted[0], accepted[-1], 65536 - len(accepted)]


def edges(s, f, source, places):
    """The lowest and the highest code within the tolerance at each place, then how many words lie next to these: one code down, and one
    code up where a word can hold it. They are wrong, and the check names their place."""
    numbers, beyond = [], 0
    for place in places:
        exact, allowed = exact_at(s, f, source, *place)
        low, high = max(0, ceil(exact - allowed)), min(s.m(), floor(exact + allowed))
        numbers += [low, high]
        beyond += (low > 0) + (high + 1 < (2 ** 16 if s.packing == 1 else 2 ** s.depth))
    return numbers + [beyond]


def block_of(depth, precision, matrix, full, pixels, *sums):
    """A frame of one chroma block, by its settings and the sums of its channels."""
    subsampling, width, height = {1: (2, 1, 1), 2: (1, 2, 1), 4: (0, 2, 2)}[pixels]
    settings = Settings(depth, precision, MATRICES[matrix], full == 1, subsampling, 0, 1, 1, 0)
    assert not isinstance(settings.settle(), int)
    source = [total // pixels + (i < total % pixels) for i in range(pixels) for total in sums]
    return settings, Frame(width, height, 3 * width, width, 2), source


BLOCK_PLACES = ((0, 0, 0), (1, 0, 0), (1, 0, 1))


def at_tolerance(numbers):
    """At how many places of a block a code lies exactly at the tolerance."""
    s, f, source = block_of(*numbers)
    limits = [exact + side * allowed for place in BLOCK_PLACES for exact, allowed in [exact_at(s, f, source, *place)] for side in (-1, 1)]
    return sum(limit.denominator == 1 and 0 <= limit <= s.m() for limit in limits)


def in_all(answers):
    """How many answers accept, how many name a wrong sample, and a checksum of the refusal, of whether a sample is wrong and of its place
    in all of them."""
    total = checksum(n for answer in answers for n in checked_numbers(answer)[:5])
    return [sum(answer == 'accepted' for answer in answers), sum(answer.startswith('wrong') for answer in answers), total]


def faulty(c, plane, stride, wide, row, fault):
    """A row whose elements hold the first one's word (0) or the first two's (1), or codes as far on the other side of grey (2)."""
    s, start = c.settings, row * stride
    changed = list(plane)
    for i in range(start, start + wide):
        if fault < 2:
            changed[i] = plane[start + (i - start) % (fault + 1)]
        else:
            code = formed(s, plane[i])
            changed[i] = s.word(2 ** s.depth - code) if code else plane[i]
    return changed


def faults(c, source, luma, chroma, fault):
    """Each row of a plane at fault by itself."""
    s, f = c.settings, c.frame
    wide, high = s.chroma_size(f.width, f.height)
    if fault == 0:
        planes = [(faulty(c, luma, f.luma_stride, f.width, row, fault), chroma) for row in range(f.height)]
    else:
        planes = [(luma, faulty(c, chroma, f.chroma_stride, wide, row, fault)) for row in range(high)]
    return in_all([check(s, f, source, *both) for both in planes])


def partner(n, size):
    return n - 1 if n % 2 == 1 else n + 1 if n + 1 < size else n


def lost(c, source, luma, row):
    """Chroma of pictures in which a pixel is the one beside it, or the one above or below it, beside the right luma."""
    s, f = c.settings, c.frame
    answers = []
    for column in (x for x in range(16) if x % 4 < 2):
        for other in ((row, partner(column, f.width)), (partner(row, f.height), column)):
            changed = list(source)
            for place in PLACES[s.channels]:
                changed[row * f.source_stride + column * COUNT[s.channels] + place] = \
                    source[other[0] * f.source_stride + other[1] * COUNT[s.channels] + place]
            answers.append(check(s, f, source, luma, convert(s, f, changed, *c.planes())[2]))
    return in_all(answers)


def flipped(plane, at):
    return [v ^ 32768 if i == at else v for i, v in enumerate(plane)]


def pair(c, source, luma, chroma, a, b):
    both = luma + chroma
    for at in {a, b}:
        both = flipped(both, at)
    return check(c.settings, c.frame, source, both[:len(luma)], both[len(luma):])


def left(c, source, luma, chroma, old, plane, first, count):
    stride = (c.frame.luma_stride, c.frame.chroma_stride)[plane]
    planes = [luma, chroma]
    planes[plane] = [o if first * stride <= i < (first + count) * stride else v
                     for i, (v, o) in enumerate(zip(planes[plane], old[plane]))]
    return check(c.settings, c.frame, source, *planes)


def former(c, source):
    """Planes written by the numbers that Bt470_6 had, judged by the settings of the case."""
    settings = copy(c.settings)
    settings.matrix = FORMER
    return check(c.settings, c.frame, source, *convert(settings, c.frame, source, *c.planes())[1:])


def work_out(lines):
    """Each line as it should be."""
    c = source = luma = chroma = old = None
    answer = None
    for line in lines:
        name, *numbers = line.split()
        numbers = [int(n) for n in numbers] if name not in ('accepted', 'wrong', 'refused') else numbers
        if name == 'case':
            c = Case(line)
            source = c.source()
            luma, chroma = convert(c.settings, c.frame, source, *c.planes())[1:]
            yield line
        elif name == 'words':
            yield line_of(name, numbers[:3] + words(c.settings, c.frame, source, *numbers[:3]))
        elif name == 'edges':
            plane, row, last = numbers[:3]
            places = [(plane, row, element) for element in (0, last // 2, last)]
            yield line_of(name, numbers[:3] + edges(c.settings, c.frame, source, places))
        elif name == 'faults':
            yield line_of(name, numbers[:1] + faults(c, source, luma, chroma, *numbers[:1]))
        elif name == 'lost':
            yield line_of(name, numbers[:1] + lost(c, source, luma, *numbers[:1]))
        elif name == 'block':
            yield line_of(name, numbers[:8] + edges(*block_of(*numbers[:8]), BLOCK_PLACES))
        elif name == 'pair':
            answer = pair(c, source, luma, chroma, *numbers)
            yield line
        elif name == 'over':
            old = convert(c.settings, c.frame, c.source(numbers[0]), *c.planes())[1:]
            yield line
        elif name == 'left':
            answer = left(c, source, luma, chroma, old, *numbers)
            yield line
        elif name == 'former':
            answer = former(c, source)
            yield line
        elif name == 'unwritten':
            answer = check(c.settings, c.frame, source, *c.planes())
            yield line
        else:
            yield answer


def main():
    lines = [line for path in sys.argv[1:] for line in open(path).read().splitlines()]
    wrong = differing(lines, work_out(lines))
    print(f'{len(lines)} lines, {len(wrong)} differ')
    names = [line.split()[0] for line in lines]
    print({name: names.count(name) for name in ('case', 'words', 'pair', 'left', 'former', 'unwritten', 'edges', 'faults', 'lost', 'block')})
    blocks = [[int(n) for n in line.split()[1:9]] for line in lines if line.startswith('block ')]
    print('places of blocks with a code exactly at the tolerance:', sum(at_tolerance(numbers) for numbers in blocks))
    for name in ('pair', 'left', 'former', 'unwritten'):
        answers = [b for a, b in zip(lines, lines[1:]) if a.split()[0] == name]
        print(f'{name}:', counted(answers), sorted({a.split()[1] for a in answers if a.startswith('refused')}, key=int))
    sys.exit(1 if wrong else 0)


main()
