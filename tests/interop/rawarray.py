"""RawArray files, made and read by document 004 and by W-209 with struct and numpy, and as bart has them.

It shares no line with the library or the plain Rust.
"""

import math
import struct
import subprocess

import numpy

# The first word of a file, as document 004 has od print it.
MAGIC = struct.pack("<Q", 8746397786917265778)
# Codes of elements, by numpy's kinds of types; one byte of text stands for a character.
CODES = {"i": 1, "u": 2, "S": 2, "f": 3, "c": 4}
LETTERS = {1: "i", 2: "u", 3: "f"}
# The types of GSD, by code and width.
TYPES = {(2, 1): 1, (2, 2): 2, (2, 4): 3, (2, 8): 4, (1, 1): 5, (1, 2): 6, (1, 4): 7, (1, 8): 8,
         (3, 4): 9, (3, 8): 10}
# For any place of a header.
WORDS = [0, 1, 2, 3, 4, 5, 8, 16, 2**31, 2**32 - 1, 2**32, 2**61, 2**63, 2**64 - 1]


def pack(code, width, shape, data):
    return struct.pack(f"<8s{5 + len(shape)}Q", MAGIC, 0, code, width, len(data), len(shape),
                       *shape) + data


def file_of(array, order="C"):
    """The file of an array. A file's first dimension is the fast one: numpy's last in C's order, and its
    first in Fortran's."""
    shape = array.shape if order == "F" else array.shape[::-1]
    return pack(CODES[array.dtype.kind], array.dtype.itemsize, shape, array.tobytes(order))


def hold(raw, data, n):
    """Holds the bytes of a file to the chunk that it is of, which has n rows: where it has no columns,
    the array has no rows."""
    m = data.shape[1]
    magic, flags, code, width, length, dimensions, *shape = header = struct.unpack_from("<8s7Q", raw)
    assert (magic, flags, dimensions, shape) == (b"rawarray", 0, 2, [m, n]), header
    assert (code, width, length) == (CODES[data.dtype.kind], data.dtype.itemsize, data.nbytes), header
    assert len(raw) == 64 + length
    kind = numpy.dtype(f"<{LETTERS[code]}{width}")
    assert kind == ("uint8" if data.dtype.kind == "S" else data.dtype)
    values = numpy.frombuffer(raw, kind, offset=64)
    assert values.tobytes() == data.tobytes()
    if m > 0:
        # By row, and by column as the file has its dimensions.
        by_column = numpy.ndarray(shape, kind, raw, offset=64, order="F")
        for array in values.reshape(n, m), by_column.T:
            assert array.shape == data.shape and array.tobytes() == data.tobytes()


def read(raw):
    """A file's type, N, M and data, or the number that it is refused with."""
    if len(raw) < 48:
        return 70
    magic, flags, code, width, length, dimensions = struct.unpack_from("<8s5Q", raw)
    if magic != MAGIC:
        return 71
    if flags != 0:
        return 72
    if (code, width) not in TYPES:
        return 73
    if dimensions not in (1, 2) or len(raw) < 48 + 8 * dimensions:
        return 74
    shape = struct.unpack_from(f"<{dimensions}Q", raw, 48)
    data = raw[48 + 8 * dimensions:]
    if length != math.prod(shape) * width or length > len(data):
        return 75
    m, n = shape if dimensions == 2 else (1, *shape)
    if m > 4_294_967_295:
        return 76
    return TYPES[code, width], n, m, data[:length]


def sheet(raw, name):
    """The sheet of one row that a file becomes under a name, or the number that it is refused with."""
    found = read(raw)
    if isinstance(found, int):
        return found
    if not 1 <= len(name) <= 255 or 0 in name:
        return 78
    kind, n, m, data = found
    return struct.pack("<IQIBBH", 1, n, m, kind, len(name), 0) + name + data


TWO = file_of(numpy.array([[1, 2, 3], [4, 5, 6]], "uint16"))
ONE = file_of(numpy.array([7, 8], "float64"))


def taken():
    """Files that are read under any good name."""
    return [TWO, ONE, TWO + b"more", pack(2, 1, (0,), b""), pack(3, 8, (2**32 - 1, 0), b""),
            pack(1, 4, (0, 2**64 - 1), b"")]


def refused():
    """Files and the number for each."""
    made = [(70, b""), (70, TWO[:47]), (74, ONE[:48]), (74, ONE[:55]), (75, ONE[:56]), (75, ONE[:-1]),
            (74, TWO[:48]), (74, TWO[:63]), (75, TWO[:64]), (75, TWO[:-1]),
            (71, b"R" + TWO[1:]), (71, b"rawarraz" + TWO[8:])]
    # Complex numbers, floats of two bytes and of sixteen.
    for kind in ["complex64", "complex128", "float16", "longdouble"]:
        made += [(73, file_of(numpy.ones(shape, kind))) for shape in [0, 3, (2, 3), (2, 3, 4)]]
    # The structure of document 004, brain floats, and widths that no type has.
    for code, width in [(0, 80), (0, 1), (5, 2), (1, 0), (1, 3), (2, 0), (2, 16), (3, 1), (2**64 - 2, 4)]:
        made.append((73, pack(code, width, (0,), b"")))
    made += [(74, file_of(numpy.ones(shape, "float32"))) for shape in [(), (2, 3, 4)]]
    # No product wraps, whether that of the dimensions is too much or that with the width.
    for width, shape in [(1, (2**32, 2**32)), (1, (2**63, 2)), (8, (2**61,)), (8, (8, 2**58)), (2, (2**63,)),
                         (1, (2**64 - 1,))]:
        made.append((75, pack(2, width, shape, b"")))
    made += [(76, pack(2, 1, (m, 0), b"")) for m in [2**32, 2**64 - 1]]
    for number, at, values in [(72, 8, [1, 2**32, 2**63]), (73, 16, [2**32 + 2]), (73, 24, [2**32 + 2]),
                               (75, 32, [11, 13, 2**32 + 12]), (74, 40, [0, 3, 2**32 + 2]), (75, 48, [2, 4]),
                               (75, 56, [1, 3])]:
        for value in values:
            raw = bytearray(TWO)
            put(raw, at, value)
            made.append((number, bytes(raw)))
    return made


def changed(rng, raw):
    """The file with one or two changes: of words in its header, of any byte, cut, or with bytes behind it."""
    raw = bytearray(raw)
    for _ in range(rng.choice([1, 1, 2])):
        at = 8 * rng.choice([0, 1, 2, 2, 3, 3, 4, 4, 5, 5, 6, 6, 6, 7, 7])
        what = rng.choice(["word", "word", "next", "shape", "shape", "byte", "cut", "more"])
        if what == "word":
            put(raw, at, rng.choice(WORDS))
        elif what == "next":
            put(raw, at, word(raw, at) + rng.choice([-1, 1]))
        elif what == "shape":
            # The length is the product, or its low word alone, or another.
            put(raw, 40, 2)
            put(raw, 48, rng.choice(WORDS))
            put(raw, 56, rng.choice(WORDS))
            product = word(raw, 48) * word(raw, 56) * word(raw, 24)
            put(raw, 32, rng.choice([product, product, word(raw, 32), 0]))
        elif what == "byte":
            raw[rng.randrange(len(raw))] = rng.randrange(256)
        elif what == "cut":
            del raw[rng.choice([rng.randrange(len(raw)), len(raw) - 1, rng.randrange(40, 72)]):]
        else:
            raw += rng.randbytes(rng.choice([1, 8, 100]))
        if len(raw) < 64:
            break
    return bytes(raw)


def word(raw, at):
    return int.from_bytes(raw[at:at + 8], "little")


def put(raw, at, value):
    raw[at:at + 8] = (value % 2**64).to_bytes(8, "little")


def bart(*words):
    """Runs bart, the Berkeley MRI toolbox; answers what it prints."""
    words = ["bart", *map(str, words)]
    return subprocess.run(words, check=True, capture_output=True, text=True, timeout=60).stdout


def bart_version():
    """None where it is not here."""
    try:
        return bart("version").strip()
    except (OSError, subprocess.SubprocessError):
        return None


def hold_bart(raw, *shape):
    """Holds a file that bart made to this layout, with complex floats and these dimensions, behind which
    it may have more, each 1; answers its data."""
    magic, flags, code, width, length, dimensions = header = struct.unpack_from("<8s5Q", raw)
    assert (magic, flags, code, width) == (b"rawarray", 0, 4, 8), header
    found = struct.unpack_from(f"<{dimensions}Q", raw, 48)
    assert found[:len(shape)] == shape and set(found[len(shape):]) <= {1}, found
    assert length == 8 * math.prod(shape) and len(raw) == 48 + 8 * dimensions + length, header
    return raw[48 + 8 * dimensions:]
