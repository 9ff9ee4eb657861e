#!/usr/bin/env python3
"""others.py: frames of random pixels converted to 4:4:4 by ffmpeg's zscale (zimg) and by its swscale, each sample judged by
ayresokum_check. Needs ffmpeg and build/libayresokum.so (make lib)."""
import random
import struct
import subprocess
import tempfile
from collections import Counter

from library import Frame, Library, Settings, samples

SIDE = 128
MATRICES = {'bt709': (1, '709', 'bt709'), 'bt2020': (2, '2020_ncl', 'bt2020'), 'bt601': (0, '170m', 'smpte170m')}


def filters(matrix, full):
    zimg, sws = MATRICES[matrix][1:]
    out = 'full' if full else 'limited'
    return {'zscale': f'zscale=matrixin=gbr:matrix={zimg}:rangein=full:range={out}',
            'swscale': f'scale=in_range=full:out_range={out}:out_color_matrix={sws}:flags=accurate_rnd+full_chroma_int+full_chroma_inp'}


def planes(data, length):
    return [struct.unpack(f'<{length}H', data[2 * length * i:2 * length * (i + 1)]) for i in range(3)]


def ffmpeg(chain, depth, pixels):
    """Three planes Y, U, V of a picture of pixels (r, g, b)."""
    with tempfile.NamedTemporaryFile(suffix='.raw') as source:
        for channel in (1, 2, 0):
            source.write(struct.pack(f'<{len(pixels)}H', *[p[channel] for p in pixels]))
        source.flush()
        command = ['ffmpeg', '-v', 'error', '-f', 'rawvideo', '-pix_fmt', f'gbrp{depth}le', '-s', f'{SIDE}x{SIDE}', '-i', source.name,
                   '-vf', f'{chain},format=yuv444p{depth}le', '-f', 'rawvideo', '-pix_fmt', f'yuv444p{depth}le', '-']
        return planes(subprocess.run(command, check=True, capture_output=True).stdout, len(pixels))


def judge(library, settings, pixel, y, u, v):
    """How far Y, U and V lie from what our converter writes, and which are wrong: each is judged with the other two as ours."""
    frame = Frame.whole(1, 1, 3, 1, 2)
    source = samples(pixel)
    luma, chroma = samples([0]), samples([0, 0])
    assert library.convert(settings, frame, source, luma, chroma).refusal == 0
    theirs = ((0, 0, y), (1, 0, u), (1, 1, v))
    apart, wrong = [], []
    for name, (plane, element, code) in zip('YUV', theirs):
        trial = [samples(luma[:]), samples(chroma[:])]
        apart.append(abs(trial[plane][element] - code))
        trial[plane][element] = code
        answer = library.check(settings, frame, source, *trial)
        assert answer.refusal == 0
        if answer.wrong:
            assert (answer.place.plane, answer.place.row, answer.place.element) == (plane, 0, element)
            wrong.append(name)
    return apart, wrong


def main():
    library = Library()
    draw = random.Random(2026)
    print(f'{SIDE * SIDE} pixels in each line')
    print('| converter | matrix | range | depth | Y wrong | U wrong | V wrong | furthest from convert, in codes |\n|---|---|---|---|---|---|---|---|')
    for matrix in MATRICES:
        for full in (False, True):
            for depth in (10, 12):
                m = 2 ** depth - 1
                pixels = [tuple(draw.choice((0, m, draw.randint(0, m))) for _ in range(3)) for _ in range(SIDE * SIDE)]
                settings = Settings(depth, 13, MATRICES[matrix][0], 0.0, 0.0, int(full), 2, 0, 1, 1, 0)
                for name, chain in filters(matrix, full).items():
                    count, furthest = Counter(), [0, 0, 0]
                    for pixel, *codes in zip(pixels, *ffmpeg(chain, depth, pixels)):
                        apart, wrong = judge(library, settings, pixel, *codes)
                        furthest = [max(pair) for pair in zip(furthest, apart)]
                        count.update(wrong)
                    shares = ' | '.join(f'{100 * count[k] / len(pixels):.2f} %' for k in 'YUV')
                    print(f'| {name} | {matrix} | {"full" if full else "limited"} | {depth} | {shares} |'
                          f' {", ".join(map(str, furthest))} |', flush=True)


main()
