#!/usr/bin/env python3
"""exports.py FILE: works out every call of FILE, the output of the program run_exports, afresh and says which differ."""
import sys

from cases import UNNAMED, Case, checked_numbers, differing, line_of, padded, ring_lines, shown
from model import check, convert


def settled(c):
    """The refusal, or 0, and nine weights, each 0 on a refusal."""
    answer = c.settings.settle() if c.named else UNNAMED
    return [answer] + [0] * 9 if isinstance(answer, int) else [0] + answer


def checked(c, source, luma, chroma):
    """All numbers of check's answer; what does not apply is 0."""
    return checked_numbers(check(c.settings, c.frame, source, luma, chroma) if c.named else f'refused {UNNAMED}')


def work_out(case):
    c = Case(case)
    source = c.source()
    refusal, luma, chroma = convert(c.settings, c.frame, source, *c.planes()) if c.named else ((UNNAMED,), *c.planes())
    return [case, line_of('settled', settled(c)), line_of('converted', padded(refusal, 4)), shown('luma', luma), shown('chroma', chroma),
            line_of('checked', checked(c, source, luma, chroma)), *ring_lines(c, 1)]


def main():
    lines = open(sys.argv[1]).read().splitlines()
    calls = [lines[i:i + 9] for i in range(0, len(lines), 9)]
    wrong = differing(['\n'.join(call) for call in calls], ['\n'.join(work_out(call[0])) for call in calls])
    answers = [int(call[2].split()[1]) for call in calls]
    print(f'{len(calls)} calls of each function, {len(wrong)} differ')
    print('answers of convert:', {n: answers.count(n) for n in sorted(set(answers))})
    sys.exit(1 if wrong else 0)


main()
