"""A model of document 01, with requests One to Four and Six of document 02, that shares nothing with the proved code: exact fractions,
32-bit floats rounded from them to the nearest (ties to even), and whole numbers of any size."""
import struct
from fractions import Fraction
from functools import lru_cache

TABLE = {'Bt601': (2990, 1140), 'Bt709': (2126, 722), 'Bt2020': (2627, 593), 'Smpte240': (2120, 870), 'Bt470_6': (2990, 1140)}
COUNT = (3, 4, 4, 3)
PLACES = ((0, 1, 2), (0, 1, 2), (2, 1, 0), (2, 1, 0))
LARGEST = Fraction(2 ** 24 - 1) * 2 ** 104


def f32(x):
    """The 32-bit float nearest to a fraction, as a fraction, or an infinity."""
    if x == 0:
        return Fraction(0)
    size = abs(x)
    e = max(-149, size.numerator.bit_length() - size.denominator.bit_length() - 25)
    while size >= Fraction(2) ** (e + 24):
        e += 1
    n, rest = divmod(size, Fraction(2) ** e)
    if rest * 2 > Fraction(2) ** e or (rest * 2 == Fraction(2) ** e and n % 2 == 1):
        n += 1
    size = n * Fraction(2) ** e
    if size > LARGEST:
        return float('inf') if x > 0 else float('-inf')
    return size if x > 0 else -size


def special(x):
    return isinstance(x, float)


def sub(a, b):
    return f32(a - b) if not (special(a) or special(b)) else float(a) - float(b)


def mul(a, b):
    return f32(a * b) if not (special(a) or special(b)) else float(a) * float(b)


def div(a, b):
    if special(a) or special(b):
        return float(a) / float(b) if b != 0 else float('nan')
    return f32(a / b) if b != 0 else float('nan')


def from_bits(bits):
    x = struct.unpack('<f', struct.pack('<I', bits))[0]
    return x if x != x or x in (float('inf'), float('-inf')) else Fraction(x)


def forward(m, range_y, range_uv, kr, kb):
    kg = sub(sub(Fraction(1), kr), kb)
    half = Fraction(1, 2)

    def luma(k):
        return div(mul(k, range_y), m)

    def other(k, own):
        return div(mul(div(mul(-half, k), sub(Fraction(1), own)), range_uv), m)

    def own():
        return div(mul(half, range_uv), m)

    return [luma(kr), luma(kg), luma(kb), other(kr, kb), other(kg, kb), own(), own(), other(kg, kr), other(kb, kr)]


def inverse(m, range_y, range_uv, kr, kb):
    """y_coef, cr_coef, cb_coef, g_coeff_1 and g_coeff_2, each operation in the order of get_inverse_transform."""
    ratio_uv = div(m, range_uv)
    kg = sub(sub(Fraction(1), kr), kb)

    def own(k):
        return mul(mul(2, sub(Fraction(1), k)), ratio_uv)

    def green(k):
        return mul(mul(2, div(mul(sub(Fraction(1), k), k), kg)), ratio_uv)

    return [div(m, range_y), own(kr), own(kb), green(kr), green(kb)]


def nearest(x):
    """Halves away from zero."""
    n = int(abs(x) + Fraction(1, 2))
    return n if x >= 0 else -n


def code(p, bias, w, pixel):
    return (sum(a * b for a, b in zip(w, pixel)) + bias * 2 ** p + 2 ** (p - 1) - 1) // 2 ** p


@lru_cache(maxsize=None)
def ranges(depth, full):
    """bias_y, range_y and range_uv."""
    m = 2 ** depth - 1
    return (0, m, m) if full else tuple(n * 2 ** (depth - 8) for n in (16, 219, 224))


def floats(named):
    """Kr and Kb of a named matrix: the floats nearest to them."""
    return [f32(Fraction(n, 10000)) for n in TABLE[named]]


@lru_cache(maxsize=None)
def settle(named, pair, full, depth, p):
    """The number of the refusal, or the nine weights."""
    if not 10 <= depth <= 16:
        return 1
    if not 1 <= p <= 13:
        return 2
    m = 2 ** depth - 1
    bias_y, range_y, range_uv = ranges(depth, full)
    bias_uv = 2 ** (depth - 1)
    if named:
        kr, kb = floats(named)
    else:
        kr, kb = pair
        if not (kr > 0 and kb > 0 and sub(sub(Fraction(1), kr), kb) > 0):
            return 3
    w = [nearest(mul(x, 2 ** p)) for x in forward(m, range_y, range_uv, kr, kb)]
    if named:
        r, b = TABLE[named]
        g = 10000 - r - b
        cb, cr = 2 * (10000 - b), 2 * (10000 - r)
        exact = [Fraction(n * range_y, 10000 * m) for n in (r, g, b)]
        exact += [Fraction(n * range_uv, cb * m) for n in (-r, -g, 10000 - b)]
        exact += [Fraction(n * range_uv, cr * m) for n in (10000 - r, -g, -b)]
        if any(abs(a - 2 ** p * e) > Fraction(51, 100) for a, e in zip(w, exact)):
            return 4
    codes = [code(p, bias_y, w[0:3], (m, m, m)), code(p, bias_uv, w[3:6], (0, 0, m)), code(p, bias_uv, w[3:6], (m, m, 0)),
             code(p, bias_uv, w[6:9], (m, 0, 0)), code(p, bias_uv, w[6:9], (0, m, m))]
    return 5 if any(not 0 <= c <= m for c in codes) else w


@lru_cache(maxsize=None)
def inverse_weights(named, full, depth, p):
    """The five weights of the way back, for settings that settle accepts."""
    kr, kb = floats(named)
    return [nearest(mul(x, 2 ** p)) for x in inverse(Fraction(2 ** depth - 1), *ranges(depth, full)[1:], kr, kb)]


class Settings:
    """Numbers as yuvutils-rs has them: range 0 limited, subsampling 0 is 4:2:0, 1 4:2:2, 2 4:4:4, order 0 UV, packing 0 most
    significant, endianness 0 big, channels Rgb, Rgba, Bgra, Bgr. The matrix is a name or a pair of floats."""

    def __init__(self, depth, precision, matrix, full, subsampling, order, packing, endianness, channels):
        self.depth, self.precision, self.matrix, self.full, self.subsampling = depth, precision, matrix, full, subsampling
        self.order, self.packing, self.endianness, self.channels = order, packing, endianness, channels

    def settle(self):
        named = isinstance(self.matrix, str)
        return settle(self.matrix if named else None, None if named else self.matrix, self.full, self.depth, self.precision)

    def inverse_weights(self):
        return inverse_weights(self.matrix, self.full, self.depth, self.precision)

    def m(self):
        return 2 ** self.depth - 1

    def bias_y(self):
        return ranges(self.depth, self.full)[0]

    def chroma_size(self, width, height):
        wide = 2 * width if self.subsampling == 2 else 2 * -(-width // 2)
        return wide, -(-height // 2) if self.subsampling == 0 else height

    def chroma_place(self, row, column):
        """Row and pair of the chroma that a pixel takes."""
        return row // 2 if self.subsampling == 0 else row, column if self.subsampling == 2 else column // 2

    def word(self, c):
        v = c << (16 - self.depth) if self.packing == 0 else c
        return v % 256 * 256 + v // 256 if self.endianness == 0 else v


class Frame:
    """A window on a source; without its numbers, the whole of a source of the frame's rows."""

    def __init__(self, width, height, source_stride, luma_stride, chroma_stride, first_column=0, first_row=0, source_rows=None):
        self.width, self.height = width, height
        self.source_stride, self.luma_stride, self.chroma_stride = source_stride, luma_stride, chroma_stride
        self.first_column, self.first_row = first_column, first_row
        self.source_rows = height if source_rows is None else source_rows


def pixel(s, f, source, row, column):
    """Rows and columns count from the window's corner."""
    at = (f.first_row + row) * f.source_stride + (f.first_column + column) * COUNT[s.channels]
    return tuple(source[at + p] for p in PLACES[s.channels])


def block(s, f, row, pair):
    """Rows and columns of the pixels of a chroma pair."""
    columns = [pair] if s.subsampling == 2 else [x for x in (2 * pair, 2 * pair + 1) if x < f.width]
    rows = [y for y in (2 * row, 2 * row + 1) if y < f.height] if s.subsampling == 0 else [row]
    return [(y, x) for y in rows for x in columns]


def too_large(s, f, source):
    """Row, pixel and channel of each visible colour sample above m, row by row, and in a pixel red before green before blue."""
    return ((y, x, channel) for y in range(f.height) for x in range(f.width)
            for channel, sample in enumerate(pixel(s, f, source, y, x)) if sample > s.m())


def shape_refusal(s, f):
    """Refusal 7, 12 or 8, or none: a frame's size, its window and its strides."""
    if not (1 <= f.width <= 16384 and 1 <= f.height <= 16384):
        return (7,)
    if max(f.first_column, f.first_row, f.source_rows) > 16384 or f.first_row + f.height > f.source_rows:
        return (12,)
    wide, _ = s.chroma_size(f.width, f.height)
    covered = (f.first_column + f.width) * COUNT[s.channels]
    strides = ((covered, f.source_stride), (f.width, f.luma_stride), (wide, f.chroma_stride))
    return (8,) if any(not low <= stride <= 65536 for low, stride in strides) else ()


def lengths(s, f):
    """How many elements of the source, of luma and of chroma one frame takes."""
    _, high = s.chroma_size(f.width, f.height)
    return f.source_rows * f.source_stride, f.height * f.luma_stride, high * f.chroma_stride


def length_refusal(s, f, count, *buffers):
    """Refusal 9, or none: each buffer is as long as so many frames."""
    return () if [len(buffer) for buffer in buffers] == [count * length for length in lengths(s, f)] else (9,)


def frame_refusal(s, f, source, luma, chroma):
    """The numbers of a refusal, 7 to 10 or 12, or none: 10 comes with the place of the first sample above m."""
    return (shape_refusal(s, f) or length_refusal(s, f, 1, source, luma, chroma)
            or next(((10, *place) for place in too_large(s, f, source)), ()))


def mean(samples):
    return (sum(samples) + len(samples) // 2) // len(samples)


def convert(s, f, source, luma, chroma):
    """The numbers of the refusal, or none, and both planes after."""
    w = s.settle()
    refusal = (w,) if isinstance(w, int) else frame_refusal(s, f, source, luma, chroma)
    if refusal:
        return refusal, luma, chroma
    luma, chroma = list(luma), list(chroma)
    for y in range(f.height):
        for x in range(f.width):
            luma[y * f.luma_stride + x] = s.word(code(s.precision, s.bias_y(), w[0:3], pixel(s, f, source, y, x)))
    wide, high = s.chroma_size(f.width, f.height)
    for row in range(high):
        for k in range(wide):
            pixels = [pixel(s, f, source, y, x) for y, x in block(s, f, row, k // 2)]
            is_u = k % 2 == s.order
            average = tuple(mean([p[c] for p in pixels]) for c in range(3))
            chroma[row * f.chroma_stride + k] = s.word(code(s.precision, 2 ** (s.depth - 1), w[3:6] if is_u else w[6:9], average))
    return (), luma, chroma


def convert_ring(s, f, count, source, luma, chroma):
    """Frames laid end to end, converted one after the other up to the first that is refused: how many were written, the numbers of the
    refusal that ended it, or none, and both planes after."""
    settled = s.settle()
    refusal = (settled,) if isinstance(settled, int) else shape_refusal(s, f)
    refusal = refusal or (() if 1 <= count <= 64 else (11,)) or length_refusal(s, f, count, source, luma, chroma)
    if refusal:
        return 0, refusal, luma, chroma
    luma, chroma = list(luma), list(chroma)
    for i in range(count):
        x, y, z = (slice(i * length, (i + 1) * length) for length in lengths(s, f))
        refusal, luma[y], chroma[z] = convert(s, f, source[x], luma[y], chroma[z])
        if refusal:
            return i, refusal, luma, chroma
    return count, (), luma, chroma


def formed(s, word):
    """The code that is stored as a word, or None."""
    v = word % 256 * 256 + word // 256 if s.endianness == 0 else word
    if s.packing == 1:
        return v if v <= s.m() else None
    return v >> (16 - s.depth) if v % 2 ** (16 - s.depth) == 0 else None


def exact_luma(s, rgb):
    r, b = TABLE[s.matrix]
    bias_y, range_y, _ = ranges(s.depth, s.full)
    return bias_y + Fraction((r * rgb[0] + (10000 - r - b) * rgb[1] + b * rgb[2]) * range_y, 10000 * s.m())


def exact_chroma(s, pixels, is_u):
    r, b = TABLE[s.matrix]
    range_uv = ranges(s.depth, s.full)[2]
    sums = [sum(p[c] for p in pixels) for c in range(3)]
    blend = r * sums[0] + (10000 - r - b) * sums[1] + b * sums[2]
    own, k = (sums[2], b) if is_u else (sums[0], r)
    return 2 ** (s.depth - 1) + Fraction((10000 * own - blend) * range_uv, 2 * (10000 - k) * len(pixels) * s.m())


def tolerance(m, precision, pixels):
    return Fraction(1 if pixels == 1 else 2, 2) + Fraction(153 * m, 100 * 2 ** precision)


def wrong(s, word, exact, pixels):
    c = formed(s, word)
    return c is None or abs(c - exact) > tolerance(s.m(), s.precision, pixels)


def check(s, f, source, luma, chroma):
    """'refused N', 'refused 10 ROW PIXEL CHANNEL', 'wrong PLANE ROW ELEMENT' or 'accepted'."""
    w = s.settle()
    refusal = (w,) if isinstance(w, int) else () if isinstance(s.matrix, str) else (6,)
    refusal = refusal or frame_refusal(s, f, source, luma, chroma)
    if refusal:
        return ' '.join(['refused', *map(str, refusal)])
    for y in range(f.height):
        for x in range(f.width):
            if wrong(s, luma[y * f.luma_stride + x], exact_luma(s, pixel(s, f, source, y, x)), 1):
                return f'wrong 0 {y} {x}'
    wide, high = s.chroma_size(f.width, f.height)
    for row in range(high):
        for k in range(wide):
            pixels = [pixel(s, f, source, y, x) for y, x in block(s, f, row, k // 2)]
            if wrong(s, chroma[row * f.chroma_stride + k], exact_chroma(s, pixels, k % 2 == s.order), len(pixels)):
                return f'wrong 1 {row} {k}'
    return 'accepted'


def malformed(s, f, luma, chroma):
    """Plane, row and element of each visible sample that is not well formed, all of luma before chroma, each plane row by row."""
    wide, high = s.chroma_size(f.width, f.height)
    planes = (luma, f.width, f.height, f.luma_stride), (chroma, wide, high, f.chroma_stride)
    return ((number, row, k) for number, (plane, elements, rows, stride) in enumerate(planes)
            for row in range(rows) for k in range(elements) if formed(s, plane[row * stride + k]) is None)


def codes(s, f, luma, chroma, row, column):
    """Y, Cb and Cr of a pixel."""
    chroma_row, pair = s.chroma_place(row, column)
    at = chroma_row * f.chroma_stride + 2 * pair
    return [formed(s, word) for word in (luma[row * f.luma_stride + column], chroma[at + s.order], chroma[at + 1 - s.order])]


def colours(s, y, cb, cr):
    """Red, green and blue of a pixel's codes."""
    y_coef, cr_coef, cb_coef, g_coeff_1, g_coeff_2 = s.inverse_weights()
    y, cb, cr = y - s.bias_y(), cb - 2 ** (s.depth - 1), cr - 2 ** (s.depth - 1)
    sums = y * y_coef + cr * cr_coef, y * y_coef - cr * g_coeff_1 - cb * g_coeff_2, y * y_coef + cb * cb_coef
    return [min(max((n + 2 ** (s.precision - 1) - 1) // 2 ** s.precision, 0), s.m()) for n in sums]


def restored_pixel(s, rgb):
    """A pixel's elements in the channel layout, where alpha, if there is one, is m."""
    elements = [s.m()] * COUNT[s.channels]
    for place, colour in zip(PLACES[s.channels], rgb):
        elements[place] = colour
    return elements


def to_rgb(s, f, luma, chroma, rgb):
    """The numbers of the refusal, or none, and the RGB buffer after. Refusal 13 comes with the place of the first sample that is not well
    formed."""
    w = s.settle()
    refusal = (w,) if isinstance(w, int) else () if isinstance(s.matrix, str) else (6,)
    refusal = (refusal or shape_refusal(s, f) or length_refusal(s, f, 1, rgb, luma, chroma)
               or next(((13, *place) for place in malformed(s, f, luma, chroma)), ()))
    if refusal:
        return refusal, rgb
    rgb = list(rgb)
    for y in range(f.height):
        for x in range(f.width):
            at = (f.first_row + y) * f.source_stride + (f.first_column + x) * COUNT[s.channels]
            rgb[at:at + COUNT[s.channels]] = restored_pixel(s, colours(s, *codes(s, f, luma, chroma, y, x)))
    return (), rgb
