#!/usr/bin/env python3
"""rgb.py FILE: works out every call of FILE, the output of the program run_rgb, afresh and says which differ."""
import sys

from cases import UNNAMED, Case, differing, line_of, padded, shown
from model import COUNT, PLACES, convert, to_rgb


def converted(c, source):
    """The planes that a source is converted to; 7 in every element where that is refused."""
    return convert(c.settings, c.frame, source, *c.planes())[1:] if c.named else c.planes()


def greys(c):
    """A row of eight pixels, all elements of each the same."""
    m = c.settings.m()
    return [grey for grey in (0, m, 1, m // 2, m // 2 + 1, m // 3, m // 5, m - m // 7) for _ in range(COUNT[c.settings.channels])]


def pattern_of(depth, number):
    """The luma codes that meet each chroma pair, and four chroma pairs (Cb, Cr)."""
    m, scale = 2 ** depth - 1, 2 ** (depth - 10)
    black, white, grey, highest = (n * scale for n in (64, 940, 512, 960))
    if number == 0:
        return (0, m, black - 1, white + 1), ((0, 0), (m, 0), (0, m), (m, m))
    return (black - 1, white + 1, black, white), ((grey, grey), (black, highest), (highest, black), (grey - 1, grey + 1))


def patterned(c, number):
    """Planes of 8×2 pixels that hold the codes of a pattern. A row has the four pairs once, or twice at 4:4:4."""
    s, f = c.settings, c.frame
    luma, chroma = c.planes()
    luma_codes, pairs = pattern_of(s.depth, number)
    for row in range(2):
        for column in range(8):
            chroma_row, pair = s.chroma_place(row, column)
            turn = 2 * row + (column // 4 if s.subsampling == 2 else column % 2)
            luma[row * f.luma_stride + column] = s.word(luma_codes[turn])
            at = chroma_row * f.chroma_stride + 2 * pair
            chroma[at + s.order], chroma[at + 1 - s.order] = (s.word(code) for code in pairs[pair % 4])
    return luma, chroma


def put(c, planes, plane, row, element, word):
    """The planes with one word changed."""
    changed = [list(words) for words in planes]
    changed[plane][row * (c.frame.luma_stride, c.frame.chroma_stride)[plane] + element] = word
    return changed


def restored_lines(c, planes):
    """The lines of the answer, all its numbers, and of the RGB buffer after, which was filled with 7 before."""
    rgb = [7] * c.lengths[0]
    refusal, rgb = to_rgb(c.settings, c.frame, *planes, rgb) if c.named else ((UNNAMED,), rgb)
    return [line_of('restored', padded(refusal, 4)), shown('rgb', rgb)]


def work_out(lines):
    """Each line as it should be: the planes of a call are those that the case's source is converted to, but for what the lines before it
    say."""
    c = written = planes = None
    for i, line in enumerate(lines):
        name, *numbers = line.split()
        numbers = [int(n) for n in numbers] if name in ('codes', 'put') else numbers
        if name == 'restored':
            yield from restored_lines(c, planes)
            planes = written
            continue
        if name == 'case':
            c = Case(line, lines[i + 1])
            written = planes = converted(c, c.source())
        elif name == 'unwritten':
            planes = c.planes()
        elif name == 'codes':
            planes = patterned(c, *numbers)
        elif name == 'greys':
            planes = converted(c, greys(c))
        elif name == 'put':
            planes = put(c, planes, *numbers)
        if name != 'rgb':
            yield line


def tallied(numbers):
    return {n: numbers.count(n) for n in sorted(set(numbers))}


def grey_pixels(lines):
    """Each grey that was turned back, and its red, green and blue."""
    for i, line in enumerate(lines):
        if line == 'greys' and lines[i + 1] == 'restored 0 0 0 0':
            c, rgb = Case(lines[i - 2], lines[i - 1]), [int(n) for n in lines[i + 2].split()[1:]]
            before, count = greys(c), COUNT[c.settings.channels]
            for at in range(0, len(rgb), count):
                yield before[at], [rgb[at + place] for place in PLACES[c.settings.channels]]


def main():
    lines = open(sys.argv[1]).read().splitlines()
    wrong = differing(lines, work_out(lines))
    cases = sum(line.startswith('case ') for line in lines)
    answers = [tuple(int(n) for n in line.split()[1:]) for line in lines if line.startswith('restored ')]
    print(f'{cases} cases, {len(answers)} calls, {len(lines)} lines, {len(wrong)} differ')
    print('answers:', tallied([refusal for refusal, *_ in answers]))
    places = [place for refusal, *place in answers if refusal == 13]
    print('planes that refusal 13 names:', tallied([plane for plane, *_ in places]), f'at {len(set(map(tuple, places)))} places')
    pixels = list(grey_pixels(lines))
    print(f'{len(pixels)} greys:', sum(len(set(rgb)) == 1 for _, rgb in pixels), 'with red, green and blue the same,',
          sum(rgb == [grey] * 3 for grey, rgb in pixels), 'as they were')
    sys.exit(1 if wrong else 0)


main()
