"""The exported functions through ctypes, from build/libayresokum.so, which `make lib` writes. A library of another interface is not
called: its records would be misread."""
import ctypes
import os

VERSION = 2
PATH = os.path.join(os.path.dirname(os.path.dirname(os.path.abspath(__file__))), 'build', 'libayresokum.so')
WEIGHTS = ('yr', 'yg', 'yb', 'cb_r', 'cb_g', 'cb_b', 'cr_r', 'cr_g', 'cr_b')


class Settings(ctypes.Structure):
    _fields_ = [('depth', ctypes.c_uint32), ('precision', ctypes.c_uint32), ('matrix', ctypes.c_uint32), ('kr', ctypes.c_float),
                ('kb', ctypes.c_float), ('range', ctypes.c_uint32), ('subsampling', ctypes.c_uint32), ('order', ctypes.c_uint32),
                ('packing', ctypes.c_uint32), ('byte_order', ctypes.c_uint32), ('channels', ctypes.c_uint32)]


def assert_size(number):
    """ctypes would cut a number to the bits of a size_t and pass on what is left."""
    if not 0 <= number < 2 ** (8 * ctypes.sizeof(ctypes.c_size_t)):
        raise OverflowError(f'{number} is no size_t')


class Frame(ctypes.Structure):
    _fields_ = [(name, ctypes.c_size_t) for name in ('width', 'height', 'source_stride', 'luma_stride', 'chroma_stride',
                                                     'first_column', 'first_row', 'source_rows')]

    def __init__(self, width, height, source_stride, luma_stride, chroma_stride, first_column, first_row, source_rows):
        """All of them, since ctypes would take one that is left out as 0."""
        super().__init__()
        numbers = width, height, source_stride, luma_stride, chroma_stride, first_column, first_row, source_rows
        for (name, _), number in zip(self._fields_, numbers):
            setattr(self, name, number)

    def __setattr__(self, name, number):
        assert_size(number)
        super().__setattr__(name, number)

    @classmethod
    def whole(cls, width, height, source_stride, luma_stride, chroma_stride):
        """A frame that is the whole source."""
        return cls(width, height, source_stride, luma_stride, chroma_stride, 0, 0, height)


class Settled(ctypes.Structure):
    _fields_ = [('refusal', ctypes.c_uint32)] + [(name, ctypes.c_int32) for name in WEIGHTS]


class Sample(ctypes.Structure):
    _fields_ = [(name, ctypes.c_uint32) for name in ('row', 'pixel', 'channel')]


class Place(ctypes.Structure):
    _fields_ = [(name, ctypes.c_uint32) for name in ('plane', 'row', 'element')]


class Converted(ctypes.Structure):
    _fields_ = [('refusal', ctypes.c_uint32), ('sample', Sample)]


class Ring(ctypes.Structure):
    _fields_ = [('written', ctypes.c_uint32), ('refusal', ctypes.c_uint32), ('sample', Sample)]


class Checked(ctypes.Structure):
    _fields_ = [('refusal', ctypes.c_uint32), ('wrong', ctypes.c_uint32), ('place', Place), ('sample', Sample)]


class Restored(ctypes.Structure):
    _fields_ = [('refusal', ctypes.c_uint32), ('place', Place)]


SAMPLES = [ctypes.POINTER(ctypes.c_uint16), ctypes.c_size_t]

# What each exported function takes, and what it answers.
EXPORTED = {
    'ayresokum_version': ([], ctypes.c_uint32),
    'ayresokum_settle': ([Settings], Settled),
    'ayresokum_convert': ([Settings, Frame] + SAMPLES * 3, Converted),
    'ayresokum_convert_ring': ([Settings, Frame, ctypes.c_size_t] + SAMPLES * 3, Ring),
    'ayresokum_check': ([Settings, Frame] + SAMPLES * 3, Checked),
    'ayresokum_to_rgb': ([Settings, Frame] + SAMPLES * 3, Restored),
}


class OtherVersion(Exception):
    """The library has another interface than this file was written for."""


class FunctionMissing(Exception):
    """The library has this interface, but is older than one of its functions."""


def assert_version(path, calls):
    """Libraries before version 1 have no ayresokum_version."""
    found = f'interface {calls.ayresokum_version()}' if hasattr(calls, 'ayresokum_version') else 'no ayresokum_version'
    if found != f'interface {VERSION}':
        raise OtherVersion(f'{path} has {found}, and library.py was written for interface {VERSION}: build both from one commit')


def assert_complete(path, calls):
    missing = [name for name in EXPORTED if not hasattr(calls, name)]
    if missing:
        raise FunctionMissing(f'{path} has no {", ".join(missing)}: build it from the commit of library.py')


class Library:
    def __init__(self, path=PATH):
        self.calls = ctypes.CDLL(path)
        assert_version(path, self.calls)
        assert_complete(path, self.calls)
        for name, (arguments, answer) in EXPORTED.items():
            call = getattr(self.calls, name)
            call.argtypes, call.restype = arguments, answer

    def settle(self, settings):
        """The refusal's number or 0, and the nine weights."""
        s = self.calls.ayresokum_settle(settings)
        return s.refusal, [getattr(s, name) for name in WEIGHTS]

    def convert(self, settings, frame, source, luma, chroma):
        """A record Converted, and both planes written where it has no refusal."""
        return self.calls.ayresokum_convert(settings, frame, source, len(source), luma, len(luma), chroma, len(chroma))

    def convert_ring(self, settings, frame, count, source, luma, chroma):
        """A record Ring, and as many frames of both planes written as it says, which are all where it has no refusal."""
        assert_size(count)
        return self.calls.ayresokum_convert_ring(settings, frame, count, source, len(source), luma, len(luma), chroma, len(chroma))

    def check(self, settings, frame, source, luma, chroma):
        """A record Checked."""
        return self.calls.ayresokum_check(settings, frame, source, len(source), luma, len(luma), chroma, len(chroma))

    def to_rgb(self, settings, frame, luma, chroma, rgb):
        """A record Restored, and the window's pixels of the RGB buffer written where it has no refusal."""
        return self.calls.ayresokum_to_rgb(settings, frame, luma, len(luma), chroma, len(chroma), rgb, len(rgb))


def samples(values):
    return (ctypes.c_uint16 * len(values))(*values)
