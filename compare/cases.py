"""Cases as the programs print them: settings, a frame and buffers by numbers, and the samples drawn for them."""
from fractions import Fraction
from itertools import zip_longest

from model import TABLE, Frame, Settings, check, convert, convert_ring, f32

ROOM = 65540
ROW = (1023, 0, 0, 0, 0, 1023, 1023, 1023, 1023)
# the numbers of Bt470_6 before request Three of document 02, as floats
FORMER = (f32(Fraction(2220, 10000)), f32(Fraction(713, 10000)))
MATRICES = dict(enumerate(TABLE)) | {5: (Fraction(1, 4), Fraction(1, 8)), 54: FORMER, 55: (Fraction(0), Fraction(0))}
# the refusal of a number that names no case of its enumeration, before all others
UNNAMED = 18


def source_of(depth, seed, length, at, sample):
    m = 2 ** depth - 1 if 10 <= depth <= 16 else 1023
    if seed == 0:
        source = [ROW[i % 9] for i in range(length)]
    else:
        source, x = [], seed % 65537
        for _ in range(length):
            x = (x * 75 + 74) % 65537
            source.append(x % (m + 1) % 65536)
    if at < length:
        source[at] = sample
    return source


class Case:
    """The twenty numbers of a line that begins with 'case', and the three of one that begins with 'window', where there is one."""

    def __init__(self, line, window='window'):
        n = [int(word) for word in line.split()[1:]]
        # each enumeration's number names a case: range, subsampling, order, packing, byte order, channels
        self.named = n[2] in MATRICES and all(number < cases for number, cases in zip(n[3:9], (2, 3, 2, 2, 2, 4)))
        self.settings = Settings(n[0], n[1], MATRICES.get(n[2]), n[3] == 1, *n[4:9])
        self.frame = Frame(*n[9:14], *[int(word) for word in window.split()[1:]])
        self.lengths = [min(length, ROOM) for length in n[14:17]]
        self.seed, self.at, self.sample = n[17:20]

    def source(self, seed=None):
        return source_of(self.settings.depth, self.seed if seed is None else seed, self.lengths[0], self.at, self.sample)

    def planes(self):
        """Both planes before anything is written."""
        return [7] * self.lengths[1], [7] * self.lengths[2]


def line_of(name, numbers):
    return ' '.join([name] + [str(n) for n in numbers])


def checksum(numbers):
    total = 0
    for v in numbers:
        total = (total * 31 + v + 1) % 65521
    return total


def shown(name, plane):
    """A plane's line: its words, or a checksum of many."""
    return line_of(name, plane) if len(plane) <= 256 else f'{name} sum {checksum(plane)}'


def padded(numbers, count):
    """So many numbers: those that apply, then 0."""
    return [*numbers] + [0] * (count - len(numbers))


def ring_lines(c, count):
    """The lines of a ring of so many frames: all numbers of the answer, and both planes after."""
    written, refusal, luma, chroma = (convert_ring(c.settings, c.frame, count, c.source(), *c.planes()) if c.named
                                      else (0, (UNNAMED,), *c.planes()))
    return [line_of('ringed', [written, *padded(refusal, 4)]), shown('luma', luma), shown('chroma', chroma)]


def checked_numbers(answer):
    """An answer of check as the exported function gives it: refusal, wrong, the plane, row and element of the wrong sample, and the row,
    pixel and channel of the one that is too large."""
    word, *numbers = answer.split()
    numbers = [int(n) for n in numbers]
    if word == 'refused':
        return padded(numbers[:1], 5) + padded(numbers[1:], 3)
    return padded([0, 1, *numbers] if word == 'wrong' else [], 8)


def spoiled(plane, seed):
    """One element, padding or not, is again what it was before the frame came."""
    at = seed % 13
    return plane[:at] + [7] + plane[at + 1:] if at < len(plane) else plane


def frame_lines(c):
    """The six lines of a frame: convert's answer, both planes, and what check says of them as written, with chroma spoiled, and with both
    spoiled."""
    s, f, source = c.settings, c.frame, c.source()
    refusal, luma, chroma = convert(s, f, source, *c.planes())
    spoiled_luma, spoiled_chroma = spoiled(luma, c.seed), spoiled(chroma, c.seed)
    checks = [check(s, f, source, a, b) for a, b in ((luma, chroma), (luma, spoiled_chroma), (spoiled_luma, spoiled_chroma))]
    return [line_of('answer', refusal or (0,)), shown('luma', luma), shown('chroma', chroma)] + checks


def convert_and_check(c, source, planes):
    """Refusal, row, pixel and channel as convert gives them, all that check gives, and both planes after."""
    refusal, *planes = convert(c.settings, c.frame, source, *planes)
    return padded(refusal, 4), checked_numbers(check(c.settings, c.frame, source, *planes)), planes


def differing(lines, right):
    """Each line that is not as it was worked out, with what it should be; the first ten are printed."""
    found = [(a, b) for a, b in zip_longest(lines, right) if a != b]
    for a, b in found[:10]:
        print(f'{a}\n  should be {b}')
    return found


def counted(answers):
    """How many answers of check there are of each kind."""
    return {kind: sum(f'{answer} '.startswith(f'{kind} ') for answer in answers) for kind in ('accepted', 'wrong 0', 'wrong 1', 'refused')}
