#!/usr/bin/env python3
"""calls.py: the exported functions called through ctypes: document 01's whole frames, J's weights, limits, empty buffers, and random
settings, windows, rings, samples that are too large and planes turned back to RGB held against the model; and libraries of other versions
or without functions, which must not load."""
import ctypes
import os
import random
from fractions import Fraction

import model
from cases import padded
from library import EXPORTED, PATH, VERSION, Frame, FunctionMissing, Library, OtherVersion, Settings, samples

J = (10, 13, 0, 0.0, 0.0, 1, 0, 0, 1, 1, 0)
J_WEIGHTS = [2449, 4809, 934, -1382, -2714, 4096, 4096, -3430, -666]
ROW = [1023, 0, 0, 0, 0, 1023, 1023, 1023, 1023]
GREATEST = 2 ** 64 - 1


def numbers_of(record):
    """The numbers of a record's fields, those of a record within it in its place."""
    numbers = []
    for name, kind in record._fields_:
        field = getattr(record, name)
        numbers += numbers_of(field) if hasattr(kind, '_fields_') else [field]
    return numbers


def whole_frame(library, rows):
    frame, source = Frame.whole(3, rows, 9, 4, 6), samples(ROW * rows)
    luma, chroma = samples([7] * 4 * rows), samples([7] * 6)
    assert numbers_of(library.convert(Settings(*J), frame, source, luma, chroma)) == [0, 0, 0, 0]
    assert luma[:] == [306, 117, 1023, 7] * rows and chroma[:] == [682, 726, 512, 512, 7, 7]
    assert numbers_of(library.check(Settings(*J), frame, source, luma, chroma)) == [0, 0, 0, 0, 0, 0, 0, 0]
    luma[4 * rows - 2] = 0
    assert numbers_of(library.check(Settings(*J), frame, source, luma, chroma)) == [0, 1, 0, rows - 1, 2, 0, 0, 0]


def window(library):
    """Document 01's frame amid samples that are too large; then one of its own is."""
    sensor = [65535] * 3 * 16
    sensor[16 + 3:16 + 3 + 9] = ROW
    frame, source = Frame(3, 1, 16, 4, 6, 1, 1, 3), samples(sensor)
    luma, chroma = samples([7] * 4), samples([7] * 6)
    assert numbers_of(library.convert(Settings(*J), frame, source, luma, chroma)) == [0, 0, 0, 0]
    assert luma[:] == [306, 117, 1023, 7] and chroma[:] == [682, 726, 512, 512, 7, 7]
    assert numbers_of(library.check(Settings(*J), frame, source, luma, chroma)) == [0] * 8
    source[16 + 3] = 1024
    assert numbers_of(library.convert(Settings(*J), frame, source, luma, chroma)) == [10, 0, 0, 0]
    source[16 + 3], source[16 + 3 + 8] = 1023, 1024
    assert numbers_of(library.convert(Settings(*J), frame, source, luma, chroma)) == [10, 0, 2, 2]
    assert numbers_of(library.check(Settings(*J), frame, source, luma, chroma)) == [10, 0, 0, 0, 0, 0, 2, 2]


def back_to_rgb(library):
    """The planes of document 01's frame, in a window on an RGB buffer; then words that are not well formed, in padding and not."""
    frame, rgb = Frame(3, 1, 16, 4, 6, 1, 1, 3), samples([7] * 3 * 16)
    luma, chroma = samples([306, 117, 1023, 65535]), samples([682, 726, 512, 512, 65535, 1024])
    assert numbers_of(library.to_rgb(Settings(*J), frame, luma, chroma, rgb)) == [0, 0, 0, 0]
    restored = [7] * 19 + [606, 95, 607, 417, 0, 418, 1023, 1023, 1023] + [7] * 20
    assert rgb[:] == restored and luma[:] == [306, 117, 1023, 65535] and chroma[:] == [682, 726, 512, 512, 65535, 1024]
    for plane, number, element in ((chroma, 1, 3), (chroma, 1, 0), (luma, 0, 2), (luma, 0, 0)):
        plane[element] = 1024
        assert numbers_of(library.to_rgb(Settings(*J), frame, luma, chroma, rgb)) == [13, number, 0, element]
    custom = *J[:2], 5, 0.25, 0.125, *J[5:]
    assert numbers_of(library.to_rgb(Settings(*custom), frame, luma, chroma, rgb)) == [6, 0, 0, 0]
    assert rgb[:] == restored


def no_buffers(library):
    """What is no buffer of 16-bit words is not passed on."""
    frame, luma, chroma = Frame.whole(3, 1, 9, 4, 6), samples([7] * 4), samples([7] * 6)
    for rgb in ([7] * 9, bytes(18), (ctypes.c_uint8 * 18)(), (ctypes.c_uint32 * 9)()):
        try:
            library.to_rgb(Settings(*J), frame, luma, chroma, rgb)
        except ctypes.ArgumentError:
            continue
        assert False, f'{rgb} was passed on'


def refused(library, settings, frame, number):
    """All services, with buffers of the lengths of a 3 x 1 frame and with empty ones; nothing is touched."""
    for lengths in ((9, 4, 6), (0, 0, 0)):
        source, luma, chroma = (samples([7] * n) for n in lengths)
        assert numbers_of(library.convert(settings, frame, source, luma, chroma)) == padded([number], 4)
        for count in (1, 65):
            assert numbers_of(library.convert_ring(settings, frame, count, source, luma, chroma)) == padded([0, number], 5)
        assert numbers_of(library.check(settings, frame, source, luma, chroma)) == padded([number], 8)
        assert numbers_of(library.to_rgb(settings, frame, luma, chroma, source)) == padded([number], 4)
        assert [source[:], luma[:], chroma[:]] == [[7] * length for length in lengths]


def ring_refused(library, count, lengths, number):
    source, luma, chroma = (samples([7] * n) for n in lengths)
    assert numbers_of(library.convert_ring(Settings(*J), Frame.whole(3, 1, 9, 4, 6), count, source, luma, chroma)) == padded([0, number], 5)
    assert luma[:] == [7] * lengths[1] and chroma[:] == [7] * lengths[2]


def ring_limits(library):
    """Counts, and lengths of one frame, of a frame more or fewer, and of an element more or fewer in one buffer."""
    for count in (0, 65, 2 ** 32 + 1, 2 ** 63 + 1, GREATEST):
        ring_refused(library, count, (9, 4, 6), 11)
    ring_refused(library, 65, (65 * 9, 65 * 4, 65 * 6), 11)
    for lengths in ((9, 4, 6), (18, 8, 12), (36, 16, 24), (26, 12, 18), (28, 12, 18), (27, 11, 18), (27, 13, 18), (27, 12, 17), (27, 12, 19)):
        ring_refused(library, 3, lengths, 9)
    for count in (-1, 2 ** 64, 2 ** 64 + 1):
        try:
            ring_refused(library, count, (9, 4, 6), 11)
        except OverflowError as error:
            assert str(error) == f'{count} is no size_t'
        else:
            assert False, f'{count} was passed on'


def with_number(numbers, place, number):
    return [*numbers[:place], number, *numbers[place + 1:]]


def window_limits(library):
    """Each number of a window too large, rows that end below the source, and numbers that no size_t can hold."""
    settings, whole = Settings(*J), (3, 1, 9, 4, 6, 0, 0, 1)
    for place in (5, 6, 7):
        for number in (16385, 2 ** 32, 2 ** 63, GREATEST):
            refused(library, settings, Frame(*with_number(whole, place, number)), 12)
    for first_row, source_rows in ((0, 0), (1, 1), (2, 1), (16384, 16384), (GREATEST, GREATEST), (GREATEST, 1)):
        refused(library, settings, Frame(*whole[:5], 0, first_row, source_rows), 12)
    refused(library, settings, Frame(*whole[:5], GREATEST, GREATEST, GREATEST), 12)
    refused(library, settings, Frame(0, *whole[1:5], GREATEST, GREATEST, GREATEST), 7)
    refused(library, settings, Frame(3, 1, 0, 0, 0, 0, 0, 0), 12)
    for first_column, first_row, source_rows in ((1, 0, 1), (16384, 16383, 16384)):
        refused(library, settings, Frame(*whole[:5], first_column, first_row, source_rows), 8)
    for place in range(8):
        for number in (-1, 2 ** 64):
            assert_no_frame(OverflowError, f'{number} is no size_t', with_number(whole, place, number))
    assert_no_frame(TypeError, "missing 3 required positional arguments: 'first_column', 'first_row', and 'source_rows'", whole[:5])


def assert_no_frame(error, message, numbers):
    try:
        Frame(*numbers)
    except error as raised:
        assert str(raised).endswith(message), raised
    else:
        assert False, f'{numbers} are a frame'


def limits(library):
    settings = Settings(*J)
    sizes = 3, 1, 9, 4, 6
    for place in range(2):
        for size in (0, 16385, GREATEST):
            refused(library, settings, Frame.whole(*with_number(sizes, place, size)), 7)
    for place in (2, 3, 4):
        for stride in (0, 65537, GREATEST):
            refused(library, settings, Frame.whole(*with_number(sizes, place, stride)), 8)
    for place, number in ((2, 6), (5, 2), (6, 3), (7, 2), (8, 2), (9, 2), (10, 4)):
        for wrong in (number, 2 ** 32 - 1):
            unnamed = list(J)
            unnamed[place] = wrong
            refused(library, Settings(*unnamed), Frame.whole(0, 0, 0, 0, 0), 18)
            assert library.settle(Settings(*unnamed)) == (18, [0] * 9)
    for pair in ((float('nan'), 0.1), (0.1, float('inf')), (0.0, 0.5), (0.5, 0.5), (-0.1, 0.5)):
        custom = list(J)
        custom[2:5] = [5, *pair]
        refused(library, Settings(*custom), Frame.whole(*sizes), 3)


def settled(library, draw, count):
    names = list(model.TABLE)
    for _ in range(count):
        depth, precision, matrix, full = draw.randint(9, 17), draw.randint(0, 14), draw.randint(0, 4), draw.randint(0, 1)
        right = model.settle(names[matrix], None, full == 1, depth, precision)
        expected = (right, [0] * 9) if isinstance(right, int) else (0, right)
        assert library.settle(Settings(depth, precision, matrix, 0.0, 0.0, full, *J[6:])) == expected


def drawn_layout(draw):
    """Settings and a frame of at most 6 x 5, in half of the cases a window with up to 3 columns and rows of its source on each side."""
    depth, subsampling, channels = draw.randint(10, 16), draw.randint(0, 2), draw.randint(0, 3)
    s = model.Settings(depth, 13, 'Bt709', False, subsampling, 0, 1, 1, channels)
    return s, drawn_frame(draw, s)


def drawn_frame(draw, s, padding=0):
    """The planes have up to so many elements of padding in each row."""
    width, height = draw.randint(1, 6), draw.randint(1, 5)
    most = draw.choice((0, 3))
    left, right, above, below = (draw.randint(0, most) for _ in range(4))
    stride = (left + width + right) * model.COUNT[s.channels] + draw.randint(0, 2)
    luma, chroma = (row + (draw.randint(0, padding) if padding else 0) for row in (width, s.chroma_size(width, height)[0]))
    return model.Frame(width, height, stride, luma, chroma, left, above, above + height + below)


def drawn_source(draw, s, f, share):
    """A frame's source in which such a share of all samples is 65535, those that are never read among them."""
    return [65535 if draw.random() < share else draw.randint(0, s.m()) for _ in range(model.lengths(s, f)[0])]


def numbered(s, f):
    """The model's settings and its frame as records."""
    matrix = (list(model.TABLE).index(s.matrix), 0.0, 0.0) if isinstance(s.matrix, str) else (5, *map(float, s.matrix))
    settings = Settings(s.depth, s.precision, *matrix, s.full, s.subsampling, s.order, s.packing, s.endianness, s.channels)
    return settings, Frame(f.width, f.height, f.source_stride, f.luma_stride, f.chroma_stride, f.first_column, f.first_row, f.source_rows)


def answered(library, s, f, source, planes):
    """The numbers of the model's refusal, or none. Convert and check give the same, and convert leaves both planes as the model does."""
    refusal, *right = model.convert(s, f, source, *planes)
    call = *numbered(s, f), samples(source), *map(samples, planes)
    assert numbers_of(library.convert(*call)) == padded(refusal, 4)
    assert [plane[:] for plane in call[3:]] == right
    assert numbers_of(library.check(*call)) == padded(refusal[:1], 5) + padded(refusal[1:], 3)
    return refusal


def too_large(library, draw, count):
    """Samples that are too large. Gives how many frames were refused as 10, and how many of these were windows with columns and rows before
    them."""
    refused_count, of_windows = 0, 0
    for _ in range(count):
        s, f = drawn_layout(draw)
        source = drawn_source(draw, s, f, draw.choice((0.02, 0.1, 0.5, 1)))
        planes = [[7] * length for length in model.lengths(s, f)[1:]]
        if answered(library, s, f, source, planes)[:1] == (10,):
            refused_count += 1
            of_windows += f.first_column > 0 and f.first_row > 0
    return refused_count, of_windows


def moved_windows(library, draw, count):
    """Frames of which one number of the window is another one than their buffers were made for. Gives the refusals, 0 for none."""
    refusals = []
    for _ in range(count):
        s, f = drawn_layout(draw)
        source = drawn_source(draw, s, f, 0)
        planes = [[7] * length for length in model.lengths(s, f)[1:]]
        name = draw.choice(('first_column', 'first_row', 'source_rows'))
        number = getattr(f, name)
        setattr(f, name, draw.choice((number + 1, max(0, number - 1), 16385, GREATEST)))
        refusals.append((*answered(library, s, f, source, planes), 0)[0])
    return refusals


def rings(library, draw, count):
    """Rings of which some have a sample that is too large or a wrong count: the whole answer and both planes. Gives the answers' refusals, and
    those of windows with columns and rows before them."""
    refusals, of_windows = [], []
    for _ in range(count):
        s, f = drawn_layout(draw)
        frames = draw.choice((1, 2, 3, 4, 5, 8, 64))
        given = draw.choice([frames] * 7 + [0, 65, frames - 1, frames + 1])
        source = [sample for _ in range(frames) for sample in drawn_source(draw, s, f, draw.choice((0, 0, 0, 0.02, 1)))]
        planes = [[7] * length * frames for length in model.lengths(s, f)[1:]]
        written, refusal, *right = model.convert_ring(s, f, given, source, *planes)
        settings, frame = numbered(s, f)
        lent = [samples(plane) for plane in planes]
        answer = library.convert_ring(settings, frame, given, samples(source), *lent)
        assert numbers_of(answer) == [written] + padded(refusal, 4)
        assert [plane[:] for plane in lent] == right
        refusals.append(answer.refusal)
        if f.first_column > 0 and f.first_row > 0:
            of_windows.append(answer.refusal)
    return refusals, of_windows


def drawn_settings(draw):
    depth, precision, matrix = draw.randint(10, 16), draw.choice((13, draw.randint(1, 13))), draw.choice(list(model.TABLE))
    full, subsampling, order, packing, endianness, channels = (draw.randrange(cases) for cases in (2, 3, 2, 2, 2, 4))
    return model.Settings(depth, precision, matrix, full == 1, subsampling, order, packing, endianness, channels)


def drawn_words(draw, s, length, share):
    """Words of codes, at either end of the range or anywhere, of which such a share is any word."""
    codes = draw.choice(((0, s.m()), range(s.m() + 1)))
    return [draw.randrange(65536) if draw.random() < share else s.word(draw.choice(codes)) for _ in range(length)]


def damage(draw, s, f, buffers):
    """Spoils one thing, be it refused then or not."""
    name, number = draw.choice((('depth', 9), ('precision', 14), ('matrix', (Fraction(1, 2), Fraction(1, 2))),
                                ('matrix', (Fraction(1, 4), Fraction(1, 8))), ('width', 0), ('height', 16385), ('source_rows', 0),
                                ('first_row', GREATEST), ('source_stride', 2), ('luma_stride', 65537), ('length', None)))
    if name == 'length':
        draw.choice(buffers).append(7)
    else:
        setattr(s if hasattr(s, name) else f, name, number)


def turned_back(library, draw, count):
    """Planes of any settings, some with words that are not well formed, and some calls damaged: the whole answer, and all buffers after.
    Gives the refusals, 0 for none, and the planes that refusal 13 named."""
    refusals, planes_named = [], []
    for _ in range(count):
        s = drawn_settings(draw)
        f = drawn_frame(draw, s, 2)
        rgb, luma, chroma = model.lengths(s, f)
        buffers = [*(drawn_words(draw, s, length, draw.choice((0, 0, 0, 0.02, 0.5))) for length in (luma, chroma)), [7] * rgb]
        if draw.random() < 0.3:
            damage(draw, s, f, buffers)
        refusal, restored = model.to_rgb(s, f, *buffers)
        lent = [samples(buffer) for buffer in buffers]
        assert numbers_of(library.to_rgb(*numbered(s, f), *lent)) == padded(refusal, 4)
        assert [buffer[:] for buffer in lent] == [*buffers[:2], restored]
        refusals.append((*refusal, 0)[0])
        planes_named += refusal[1:2]
    return refusals, planes_named


def assert_not_loaded(name, error, message):
    path = os.path.join(os.path.dirname(PATH), name)
    try:
        Library(path)
    except error as raised:
        assert str(raised) == f'{path} has {message}', raised
    else:
        assert False, f'{path} was loaded'


def others_not_loaded():
    written_for = f', and library.py was written for interface {VERSION}: build both from one commit'
    assert_not_loaded('other_version.so', OtherVersion, f'interface {VERSION + 1}{written_for}')
    assert_not_loaded('no_version.so', OtherVersion, f'no ayresokum_version{written_for}')
    missing = ', '.join(name for name in EXPORTED if name != 'ayresokum_version')
    assert_not_loaded('version_alone.so', FunctionMissing, f'no {missing}: build it from the commit of library.py')


def main():
    others_not_loaded()
    library = Library()
    assert library.settle(Settings(*J)) == (0, J_WEIGHTS)
    whole_frame(library, 1)
    whole_frame(library, 2)
    window(library)
    back_to_rgb(library)
    no_buffers(library)
    limits(library)
    window_limits(library)
    ring_limits(library)
    settled(library, random.Random(2026), 2000)
    refused_count, of_windows = too_large(library, random.Random(2026), 1000)
    assert refused_count > 500 and of_windows > 100
    refusals = moved_windows(library, random.Random(2026), 1000)
    assert all(refusals.count(number) > 30 for number in (0, 8, 9, 12))
    refusals, of_windows = rings(library, random.Random(2026), 600)
    assert all(refusals.count(number) > 30 and of_windows.count(number) > 15 for number in (0, 9, 10, 11))
    refusals, planes_named = turned_back(library, random.Random(2026), 2000)
    assert all(refusals.count(number) > 30 for number in (0, 1, 2, 3, 5, 6, 7, 8, 9, 12, 13))
    assert all(planes_named.count(plane) > 100 for plane in (0, 1))
    print('calls from Python: as they should be')


main()
