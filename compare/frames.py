#!/usr/bin/env python3
"""frames.py FILE: works out every case of FILE, the output of the program run_frames, afresh and says which differ."""
import sys

from cases import Case, checksum, convert_and_check, counted, differing, frame_lines, line_of
from model import COUNT


def high(c, row):
    """Of the frames with one sample too large, by the elements from the first, the middle and the last pixel of a row on: how many
    convert and check refuse as 10, how many convert takes, how many check accepts, and checksums of the places that convert and that
    check give with refusal 10."""
    s, f, source = c.settings, c.frame, c.source()
    answers, planes = [], c.planes()
    for column in (0, (f.width - 1) // 2, f.width - 1):
        for element in range(5):
            for sample in (s.m() + 1, 65535):
                at = row * f.source_stride + column * COUNT[s.channels] + element
                changed = source[:at] + [sample] + source[at + 1:] if at < len(source) else source
                *both, planes = convert_and_check(c, changed, planes)
                answers.append(both)
    by_convert, by_check = zip(*answers)
    places, places_by_check = ([answer[-3:] for answer in given if answer[0] == 10] for given in (by_convert, by_check))
    done = sum(answer[0] == 0 for answer in by_convert)
    accepted = sum(not any(answer) for answer in by_check)
    sums = [checksum(sum(given, [])) for given in (places, places_by_check)]
    return line_of('high', [row, len(places), len(places_by_check), done, accepted, *sums])


def from_on(c, at, planes):
    """The line of a frame whose source is 65535 from an element on, and both planes after."""
    source = c.source()
    by_convert, by_check, planes = convert_and_check(c, source[:at] + [65535] * (len(source) - at), planes)
    return line_of('from', [at, *by_convert, by_check[0], *by_check[-3:]]), planes


def work_out(lines):
    """Each line as it should be."""
    c = planes = None
    for line in lines:
        if line.startswith('case '):
            c = Case(line)
            planes = c.planes()
            yield line
            yield from frame_lines(c)
        elif line.startswith('high '):
            yield high(c, int(line.split()[1]))
        elif line.startswith('from '):
            line, planes = from_on(c, int(line.split()[1]), planes)
            yield line


def numbers_of(lines, name):
    return [[int(n) for n in line.split()[1:]] for line in lines if line.startswith(f'{name} ')]


def main():
    lines = open(sys.argv[1]).read().splitlines()
    wrong = differing(lines, work_out(lines))
    cases = [lines[i:i + 7] for i, line in enumerate(lines) if line.startswith('case ')]
    answers = [int(case[1].split()[1]) for case in cases]
    print(f'{len(cases)} frames, {len(lines)} lines, {len(wrong)} differ')
    print('answers:', {n: answers.count(n) for n in range(11)})
    for k, name in ((4, 'as written'), (5, 'chroma spoiled'), (6, 'both spoiled')):
        print(f'checks {name}:', counted([case[k] for case in cases]))
    rows = numbers_of(lines, 'high')
    print(f'one sample too large in {len(rows)} rows: refused, refused by check, done, accepted', [sum(n) for n in list(zip(*rows))[1:5]])
    sources = numbers_of(lines, 'from')
    print(f'{len(sources)} sources too large from an element on:', sum(n[1] == 10 for n in sources), 'refused,',
          len({tuple(n[2:5]) for n in sources if n[1] == 10}), 'places')
    sys.exit(1 if wrong else 0)


main()
