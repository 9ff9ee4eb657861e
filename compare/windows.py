#!/usr/bin/env python3
"""windows.py FILE: works out every call of FILE, the output of the program run_windows, afresh and says which differ."""
import sys

from cases import Case, convert_and_check, differing, frame_lines, line_of, padded, ring_lines
from model import convert_ring


def high(c, at):
    """The line of a frame with one element too large: all that convert and check give."""
    source = c.source()
    source[at] = 65535
    by_convert, by_check, _ = convert_and_check(c, source, c.planes())
    return line_of('high', [at, *by_convert, by_check[0], *by_check[-3:]])


def second(c, at):
    """The line of a ring of two frames with one element of the second too large."""
    source = c.source()
    source[at] = 65535
    written, refusal, *_ = convert_ring(c.settings, c.frame, 2, source, *c.planes())
    return line_of('second', [at, written, *padded(refusal, 4)])


def work_out(lines):
    """Each line as it should be: a case and its window, then a count where it is a ring, say what follows."""
    c = None
    for i, line in enumerate(lines):
        name, *numbers = line.split()
        if name == 'case':
            c = Case(line, lines[i + 1])
            yield line
            yield lines[i + 1]
            if not lines[i + 2].startswith('ring '):
                yield from frame_lines(c)
        elif name == 'ring':
            yield line
            yield from ring_lines(c, int(numbers[0]))
        elif name in ('high', 'second'):
            yield (high if name == 'high' else second)(c, int(numbers[0]))


def answers(lines, name):
    """The numbers of each line of a name, but for the first."""
    return [[int(n) for n in line.split()[2:]] for line in lines if line.startswith(f'{name} ')]


def tallied(refusals):
    return {n: refusals.count(n) for n in sorted(set(refusals))}


def main():
    lines = open(sys.argv[1]).read().splitlines()
    wrong = differing(lines, work_out(lines))
    frames = [int(line.split()[1]) for line in lines if line.startswith('answer ')]
    rings = [numbers[0] for numbers in answers(lines, 'ringed')]
    print(f'{len(frames)} windows, {len(rings)} rings, {len(lines)} lines, {len(wrong)} differ')
    print('answers of convert:', tallied(frames), 'of a ring:', tallied(rings))
    tried, in_ring = answers(lines, 'high'), answers(lines, 'second')
    print(f'one element too large: {len(tried)} frames,', sum(n[0] == 10 for n in tried), 'refused;',
          f'{len(in_ring)} rings,', sum(n[1] == 10 for n in in_ring), 'refused')
    sys.exit(1 if wrong else 0)


main()
