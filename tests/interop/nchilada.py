"""NChilada files held to document 003, by struct and numpy, and by xdrlib where this Python still has it.

It shares no line with the library or the plain Rust.
"""

import math
import struct
import warnings

import numpy

try:
    with warnings.catch_warnings():
        warnings.simplefilter("ignore", DeprecationWarning)
        import xdrlib
except ImportError:  # from Python 3.13 on
    xdrlib = None

CODES = {numpy.dtype("float32"): 9, numpy.dtype("float64"): 10}
# Seconds from a frame to the next: of any sign, one that rounds, one that is lost in frame 0 alone, one
# that is too much from frame 2 on, and those that are not finite.
STEPS = [60.0, 0.1, 1 / 3, -2.5, 0.0, -0.0, 5e-324, 1.7e308, -math.inf, math.inf, math.nan]


def number_of(data, frame, step):
    """The number that a chunk's file is refused with, 0 where it is not."""
    n, m = data.shape
    if data.dtype not in CODES or m not in (1, 3):
        return 60
    if n == 0:
        return 61
    if numpy.isnan(data).any():
        return 62
    if not math.isfinite(step) or not math.isfinite(frame * step):
        return 63
    return 0


def hold(raw, data, frame, step):
    """Holds the bytes of a file to the chunk that it is of."""
    n, m = data.shape
    assert len(raw) == 28 + (2 + n) * m * data.dtype.itemsize
    magic, time, high, low, dimensions, code = header = struct.unpack_from(">idiiii", raw)
    assert (magic, 2**32 * high + low, dimensions, code) == (1062053, n, m, CODES[data.dtype]), header
    # By its bits: -0.0 is another time than 0.0.
    assert struct.pack(">d", time) == struct.pack(">d", frame * step), header
    values = numpy.frombuffer(raw, data.dtype.newbyteorder(">"), offset=28).reshape(2 + n, m)
    smallest, largest, elements = values[0], values[1], values[2:]
    assert same_bits(elements, data)
    assert (smallest == data.min(axis=0)).all() and (largest == data.max(axis=0)).all()
    # Of equal values numpy finds the first, and so has the sign of a zero.
    columns = range(m)
    assert same_bits(smallest, data[data.argmin(axis=0), columns])
    assert same_bits(largest, data[data.argmax(axis=0), columns])
    if xdrlib is not None:
        assert (header, values.reshape(-1).tolist()) == unpacked(raw)


def same_bits(big, little):
    return big.byteswap().tobytes() == little.tobytes()


def unpacked(raw):
    """The header and all floats or doubles behind it, as xdrlib reads them."""
    unpacker = xdrlib.Unpacker(raw)
    magic, time = unpacker.unpack_int(), unpacker.unpack_double()
    high, low, dimensions, code = header = [unpacker.unpack_int() for _ in range(4)]
    unpack = {9: unpacker.unpack_float, 10: unpacker.unpack_double}[code]
    values = unpacker.unpack_farray((2 + 2**32 * high + low) * dimensions, unpack)
    unpacker.done()
    return (magic, time, *header), values
