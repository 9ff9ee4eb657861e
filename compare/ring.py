#!/usr/bin/env python3
"""ring.py FILE: works out every call of FILE, the output of the program run_ring, afresh and says which differ."""
import sys

from cases import Case, differing, ring_lines


def work_out(case, ring):
    """The five lines of a call, by the first two."""
    return [case, ring, *ring_lines(Case(case), int(ring.split()[1]))]


def main():
    lines = open(sys.argv[1]).read().splitlines()
    calls = [lines[i:i + 5] for i in range(0, len(lines), 5)]
    wrong = differing(['\n'.join(call) for call in calls], ['\n'.join(work_out(*call[:2])) for call in calls])
    answers = [[int(n) for n in call[2].split()[1:]] for call in calls]
    refusals = [refusal for _, refusal, *_ in answers]
    print(f'{len(calls)} rings, {len(lines)} lines, {len(wrong)} differ')
    print('answers:', {n: refusals.count(n) for n in sorted(set(refusals))})
    print('frames written:', sum(written for written, *_ in answers),
          'in all; before a refused one:', sorted({written for written, refusal, *_ in answers if refusal == 10}))
    sys.exit(1 if wrong else 0)


main()
