"""Images of this library read by the real GSD library, and its files by ours.

Usage: interop.py PEER FILES [SEED]: the helper program, and the folder of stored files: data/ has
them, stdout their listings, each under its file's name.
The last line is 'N passed, M failed'.

Files of 1.0 are read alone: that of the real library's package, those made by hand (handmade.py, which
is a third reader of them too), and what gsd.fl itself writes into one, or makes of it as it upgrades it.

Conditions, for what is more than GSD allows cannot be read by it: names in UTF-8, M at least 1, at
least one slot and one segment, flags 0. Characters it reads as one text, so they are UTF-8 with N at
least 1 and M 1, and gsd.fl drops zeros at their end; it writes ASCII alone. A library that knows no
characters, as gsd 2.7.0, refuses the file or the chunk. A frame may have no chunk, but the number of the
last one that has some is to be below the number of slots. An image whose last append was stopped is for
this library's own readers only, until the clearing stores of the next append are made: the C reader
finds the list's end by halving, and looks at slots behind it. gsd.fl writes NaNs, floats and doubles
that are not a number; ours reads them, and refuses an append that has one with 30.
In 1.0 gsd.fl wants a zero at the end of the name block, and gsd.pygsd wants nothing else behind a name.

Of all that ours reads it also writes the NChilada files, or refuses them: nchilada.py, made from document
003, reads these. It writes the RawArray file of each chunk too, and reads it back: rawarray.py, made from
document 004, reads these as well, and makes files that ours reads, which gsd.fl reads then as chunks.
"""

import contextlib
import itertools
import math
import os
import random
import shutil
import struct
import subprocess
import sys
import tempfile
import traceback
import zlib

import numpy
import gsd.fl
import gsd.pygsd
import gsd.version

import handmade
import nchilada
import rawarray

GSD = getattr(gsd, "__version__", None) or gsd.version.version
READ, WRITE, GROW = ("rb", "wb", "rb+") if GSD.startswith("2.") else ("r", "w", "r+")
# numpy has no type of characters: one byte of text stands for it.
TYPES = {
    1: "uint8", 2: "uint16", 3: "uint32", 4: "uint64", 5: "int8",
    6: "int16", 7: "int32", 8: "int64", 9: "float32", 10: "float64", 11: "S1",
}
NUMBERS = {numpy.dtype(name): number for number, name in TYPES.items()}
CHARACTERS = 11 in gsd.pygsd.gsd_type_mapping
ASCII = "ab 7~\n" if CHARACTERS else ""
LETTERS = ASCII + "éµ温" if CHARACTERS else ""
# Bits of floats and doubles: of numbers at an edge, infinities among them, and of NaNs.
EDGES = {
    9: [0x7F800000, 0xFF800000, 0x80000000, 1, 0x7F7FFFFF],
    10: [0x7FF0000000000000, 0xFFF0000000000000, 0x8000000000000000, 1, 0x7FEFFFFFFFFFFFFF],
}
NANS = {
    9: [0x7F800001, 0x7FC00000, 0xFFC00000, 0xFFFFFFFF],
    10: [0x7FF0000000000001, 0x7FF8000000000000, 0xFFF8000000000000, 0xFFFFFFFFFFFFFFFF],
}
STORED_WITH_NANS = ["extremes.gsd", "random_0003.gsd", "ten_types.gsd", "2.1/extremes.gsd"]
NAMES = ["a", "probe", "heater", "fan", "position", "particles/position", "größe/µ", "温度",
         "x" * 63, "y" * 64, "z" * 200]
SHORT_NAMES = [name for name in NAMES if len(name.encode()) <= 63]
ALL = 2**64 - 1
CHUNKS = os.path.join(os.path.dirname(os.path.abspath(__file__)), "..", "files")
# What gsd.fl and gsd.pygsd make of hand-made images of 1.0 that they do not both read as ours: "reads"
# it, "names" are others and each chunk is the same, "other" chunks, "opens" what ours refuses, "corrupt".
OTHERWISE = {
    "behind_zero": ("names", "other"),
    "behind_last_zero": ("corrupt", "names"),
    "behind_entries": ("corrupt", "reads"),
    "no_columns": ("other", "corrupt"),
    "no_slots": ("corrupt", "reads"),
    "greatest_frame": ("corrupt", "corrupt"),
    "twice_in_frame": ("opens", "opens"),
    "falling": ("opens", "corrupt"),
    "open_segment": ("opens", "corrupt"),
    "equal_names": ("opens", "opens"),
    "characters": ("opens", "opens") if CHARACTERS else ("corrupt", "corrupt"),
    "not_listed": ("corrupt", "corrupt"),
    "frame_too_great": ("corrupt", "corrupt"),
}


class Peer:
    """This library, on files."""

    def __init__(self, program, folder):
        self.program = program
        self.sheet, self.whole, self.files, self.sheets, self.name = (
            os.path.join(folder, name) for name in ["sheet", "whole", "files", "sheets", "name"])

    def run(self, *words):
        words = [self.program, *map(str, words)]
        return subprocess.run(words, check=True, capture_output=True, text=True).stdout

    def create(self, path, length, slots, segments):
        return int(self.run("create", path, length, slots, segments))

    def append(self, path, frame, limit=ALL):
        """The number, the stores done and whole, and the entries copied, which are held to the images
        before and after the whole append, whatever the limit. The frame may be a sheet already."""
        save(self.sheet, frame if isinstance(frame, bytes) else sheet(frame))
        before = content(path)
        number, done, whole, copied = answer = self.append_sheet(path, limit)
        if number != 0:
            assert (done, whole, copied) == (0, 0, 0), answer
            return answer
        if done < whole:
            save(self.whole, before)
            path = self.whole
            assert self.append_sheet(path, ALL) == (0, whole, whole, copied)
        assert copied == moved_entries(before, content(path)), answer
        return answer

    def append_sheet(self, path, limit):
        return tuple(map(int, self.run("append", path, self.sheet, limit).split()))

    def listed(self, path):
        """The number where refused, else the count of frames, the names, and of each entry the fields, the
        place and length of its chunk, and its elements as 'kind:bits', up to 64."""
        lines = self.run("list", path).splitlines()
        if lines[0] != "0":
            return int(lines[0])
        frames, names, entries = map(int, lines[1].split())
        assert len(lines) == 2 + names + entries
        listed = [bytes.fromhex(line[len("name "):]) for line in lines[2:2 + names]]
        words = [line.split()[1:] for line in lines[2 + names:]]
        return frames, listed, [(*map(int, each[:9]), each[9:]) for each in words]

    def read(self, path):
        """The number where refused, else the names and for each frame a dict of name to array."""
        found = self.listed(path)
        if isinstance(found, int):
            return found
        frames, names, entries = found
        names = [name.decode() for name in names]
        image = content(path)
        chunks = [{} for _ in range(frames)]
        for frame, n, location, m, name, kind, _, start, length, elements in entries:
            assert start == location
            data = numpy.frombuffer(image[start:start + length], TYPES[kind]).reshape(n, m)
            assert same_elements(data, kind, elements), (frame, names[name], data, elements)
            chunks[frame][names[name]] = data
        return names, chunks

    def nchilada(self, path, step):
        """The number where refused, else by frame and id the NChilada file of each chunk, or its number."""
        first, *lines = self.run("nchilada", path, repr(step), self.files).splitlines()
        if first != "0":
            return int(first)
        raw, at, found = content(self.files), 0, {}
        for line in lines:
            frame, name, number, length = map(int, line.split())
            found[frame, name] = number or raw[at:at + length]
            at += 0 if number else length
        assert at == len(raw) and len(found) == len(lines)
        return found

    def rawarray(self, path):
        """The number where refused, else by frame and id the RawArray file of each chunk and the sheet that
        it becomes under the name 'again'."""
        first, *lines = self.run("rawarray", path, self.files, self.sheets).splitlines()
        if first != "0":
            return int(first)
        answers = [tuple(map(int, line.split())) for line in lines]
        assert all(number == 0 for _, _, number, _ in answers)
        lengths = [length for *_, length in answers]
        files = parts(content(self.files), lengths)
        # Where a file has 64 bytes, its sheet has 20 and the name.
        sheets = parts(content(self.sheets), [length - 39 for length in lengths])
        found = {answer[:2]: each for answer, *each in zip(answers, files, sheets)}
        assert len(found) == len(lines)
        return found

    def sheet_of(self, raw, name):
        """The sheet that a RawArray file becomes, or the number that it is refused with."""
        save(self.files, raw)
        save(self.name, name)
        number = int(self.run("sheet", self.files, self.name, self.sheet))
        return number or content(self.sheet)


def parts(raw, lengths):
    """The bytes in parts of these lengths."""
    ends = [0, *itertools.accumulate(lengths)]
    assert ends[-1] == len(raw)
    return [raw[start:end] for start, end in zip(ends, ends[1:])]


def same_elements(data, kind, words):
    """Whether the elements answered are those of the array, up to 64 of them."""
    flat = (data.view("uint8") if kind == 11 else data).reshape(-1)[:64]
    return len(words) == len(flat) and all(
        same_element(element, kind, word) for element, word in zip(flat, words))


def same_element(element, kind, word):
    """Whether 'kind:bits' is the element as the real library's type has it."""
    expected = 1 if kind <= 4 or kind == 11 else 2 if kind <= 8 else kind - 6
    answered, bits = map(int, word.split(":"))
    if expected <= 2:
        return (answered, bits) == (expected, int(element) % 2**64)
    raw = numpy.asarray(element).tobytes()
    return (answered, bits) == (expected, int.from_bytes(raw, "little"))


def sheet(frame):
    table, bodies = struct.pack("<I", len(frame)), b""
    for name, data in frame.items():
        raw = name.encode()
        table += struct.pack("<QIBBH", *data.shape, NUMBERS[data.dtype], len(raw), 0)
        bodies += raw + data.tobytes()
    return table + bodies


def characters(raw, columns=1):
    return numpy.frombuffer(raw, TYPES[11]).reshape(-1, columns)


def random_text(rng, letters):
    return characters("".join(rng.choices(letters, k=rng.randint(1, 9))).encode())


def size_of(kind):
    return numpy.dtype(TYPES[kind]).itemsize


def is_nan(raw):
    return math.isnan(struct.unpack("<f" if len(raw) == 4 else "<d", raw)[0])


def random_float(rng, kind, nans):
    """The bytes of a float or a double, any or at an edge; of a NaN only where asked for."""
    size = size_of(kind)
    edges = EDGES[kind] + (NANS[kind] if nans else [])
    while True:
        raw = rng.choice([rng.randbytes(size), rng.choice(edges).to_bytes(size, "little")])
        if nans or not is_nan(raw):
            return raw


def random_chunk(rng, kind, n, m, nans):
    if kind in NANS:
        raw = b"".join(random_float(rng, kind, nans) for _ in range(n * m))
    else:
        raw = rng.randbytes(n * m * size_of(kind))
    return numpy.frombuffer(raw, TYPES[kind]).reshape(n, m)


def random_frame(rng, letters="", nans=False, names=NAMES):
    """Some chunks, empty ones too; where letters are given characters, and where asked for NaNs, which
    the real library alone can append."""
    frame = {}
    for name in rng.sample(names, rng.randint(1, 4)):
        kind = rng.randint(1, 11 if letters else 10)
        if kind == 11:
            frame[name] = random_text(rng, letters)
            continue
        n, m = rng.choice([0, 1, 1, 2, 3, 7]), rng.choice([1, 1, 1, 2, 3, 4])
        frame[name] = random_chunk(rng, kind, n, m, nans)
    return frame


def real_frame(rng):
    """A frame that the real library can write."""
    return random_frame(rng, ASCII, nans=True)


def float_frame(rng):
    """Some chunks for NChilada files, or nearly so: of few values each, so that many are equal, zeros of
    both signs among them."""
    frame = {}
    for name in rng.sample(NAMES, rng.randint(1, 4)):
        kind, n, m = rng.choice([9, 10]), rng.choice([1, 1, 2, 3, 40, 300]), rng.choice([1, 1, 3, 3, 3, 2])
        zeros = [bytes(size_of(kind)), EDGES[kind][2].to_bytes(size_of(kind), "little")]
        values = [random_float(rng, kind, False) for _ in range(rng.choice([1, 3, 100]))]
        raw = b"".join(rng.choices(rng.choice([zeros, values, zeros + values]), k=n * m))
        frame[name] = numpy.frombuffer(raw, TYPES[kind]).reshape(n, m)
    return frame


def random_array(rng, kind):
    """An array of 1 or 2 dimensions, the order in which its file has it, and the chunk that this becomes."""
    n, m = rng.choice([0, 1, 1, 2, 3, 7, 40, 500]), rng.choice([1, 1, 2, 3, 4])
    order = rng.choice(["vector", "C", "C", "F"])
    data = random_chunk(rng, kind, n, 1 if order == "vector" else m, nans=False)
    if order == "vector":
        return data[:, 0], "C", data
    return (data, "C", data) if order == "C" else (data.T, "F", data)


def random_frames(rng, most):
    """Up to so many of them."""
    return [real_frame(rng) for _ in range(rng.randint(0, most))]


def with_nan(rng, frame):
    """The frame with a chunk more, one element of which is a NaN: the first, the last or any."""
    kind, n, m = rng.choice([9, 10]), rng.choice([1, 1, 2, 3, 40]), rng.choice([1, 1, 3])
    bits = random_chunk(rng, kind, n, m, nans=False).view(f"u{size_of(kind)}").copy()
    bits.flat[rng.choice([0, -1, rng.randrange(n * m)])] = rng.choice(NANS[kind])
    rows = [*frame.items(), ("nan", bits.view(TYPES[kind]))]
    rng.shuffle(rows)
    return dict(rows)


def holds_nan(frame):
    return any(data.dtype.kind == "f" and numpy.isnan(data).any() for data in frame.values())


def without_nans(frame):
    """The frame with infinities in place of its NaNs."""
    return {name: numpy.where(numpy.isnan(data), data.dtype.type("inf"), data)
            if data.dtype.kind == "f" else data for name, data in frame.items()}


def spread(rng, frames):
    """The frames, with gaps before and between them: frames without a chunk, one or some in a row."""
    return [each for frame in frames for each in [{}] * rng.choice([0, 0, 1, 3]) + [frame]]


def same(found, data):
    """Whether what GSD read is what was written, in type, shape and every byte."""
    if isinstance(found, str):
        found = characters(found.encode())
    n, m = data.shape
    shapes = [(n, m)] if m > 1 else [(n, 1), (n,)]
    if data.size == 0:
        shapes.append((0,))
    return (found.dtype, found.tobytes()) == (data.dtype, data.tobytes()) and found.shape in shapes


def readers(path):
    """Both readers of the real library, yet to open the file."""
    return [lambda: gsd.fl.open(path, READ), lambda: gsd.pygsd.GSDFile(open(path, "rb"))]


def real_reads(path, frames, layer, names=None):
    """Holds both readers of the real library to the frames and the version of the file layer."""
    for reader in readers(path):
        with reader() as file:
            assert file.gsd_version == layer, (file.gsd_version, layer)
            if names is not None:
                assert file.find_matching_chunk_names("") == names
            hold(file, frames)


def corrupt(reader):
    try:
        reader().close()
    except RuntimeError as error:
        assert "Corrupt GSD file" in str(error), error
        return True
    return False


def real_refuses(path, frames):
    """A library that knows no characters takes a file with some for a corrupt one; gsd.fl looks at
    few entries as it opens, and where it meets none it reads the file without them."""
    fl, pygsd = readers(path)
    assert corrupt(pygsd)
    if not corrupt(fl):
        with fl() as file:
            hold(file, frames)


def hold(file, frames):
    assert file.nframes == len(frames), (file.nframes, len(frames))
    asked = sorted({name for frame in frames for name in frame} | {"no such name"})
    for number, frame in enumerate(frames):
        for name in asked:
            assert file.chunk_exists(number, name) == (name in frame), (number, name)
            if name in frame:
                data = frame[name]
                try:
                    found = file.read_chunk(number, name)
                except ValueError:
                    assert NUMBERS[data.dtype] == 11 and not CHARACTERS, (number, name)
                else:
                    assert same(found, data), (number, name, found, data)


def ours_reads(peer, path, frames, names=None):
    listed, chunks = peer.read(path)
    assert len(chunks) == len(frames)
    if names is not None:
        assert listed == names
    for found, frame in zip(chunks, frames):
        assert found.keys() == frame.keys()
        for name, data in frame.items():
            assert found[name].shape == data.shape and same(found[name], data)
    chunks = by_id(listed, frames)
    ours_writes(peer, path, chunks)
    ours_writes_raw(peer, path, chunks, {key: len(data) for key, data in chunks.items()})


def by_id(names, frames):
    """All chunks, by frame and id."""
    return {(number, names.index(name)): data
            for number, frame in enumerate(frames) for name, data in frame.items()}


def ours_writes(peer, path, chunks, step=None):
    """Holds the NChilada files of an image to document 003 and to its chunks, which are by frame and id;
    others are refused. Where no step is given, the image's bytes choose one."""
    if step is None:
        step = nchilada.STEPS[zlib.crc32(content(path)) % len(nchilada.STEPS)]
    found = peer.nchilada(path, step)
    assert found.keys() == chunks.keys()
    for (frame, name), data in chunks.items():
        file, number = found[frame, name], nchilada.number_of(data, frame, step)
        if number != 0:
            assert file == number, (frame, name, step, data, file)
        else:
            assert isinstance(file, bytes), (frame, name, step, data, file)
            nchilada.hold(file, data, frame, step)


def ours_writes_raw(peer, path, chunks, rows):
    """Holds the RawArray files of an image to document 004 and to its chunks and the rows of each, and what
    ours reads back of each file to that."""
    found = peer.rawarray(path)
    assert found.keys() == chunks.keys()
    for key, data in chunks.items():
        file, again = found[key]
        rawarray.hold(file, data, rows[key])
        assert again == rawarray.sheet(file, b"again"), (key, data, again)


def header(path):
    with open(path, "rb") as file:
        return struct.unpack("<4Q", file.read(40)[8:])


def moved_entries(before, after):
    """The entries that a whole append between these two images has copied: where the index is at another
    place, those listed before, up to a slot with location 0."""
    (index, slots), (moved,) = struct.unpack_from("<2Q", before, 8), struct.unpack_from("<Q", after, 8)
    if moved == index:
        return 0
    locations = [struct.unpack_from("<Q", before, index + 32 * slot + 16)[0] for slot in range(slots)]
    return [*locations, 0].index(0)


def aligned(path):
    index, _, names, _ = header(path)
    return index % 8 == 0 and names % 8 == 0


def layer_of(path):
    """Major and minor number of the file layer."""
    with open(path, "rb") as file:
        minor, major = struct.unpack("<2H", file.read(48)[44:])
    return major, minor


def make_older(path):
    """Turns a file of 2.1 into one of 2.0."""
    with open(path, "r+b") as file:
        file.seek(44)
        file.write(b"\0")


def content(path):
    with open(path, "rb") as file:
        return file.read()


def save(path, image):
    with open(path, "wb") as file:
        file.write(image)


def ours_refuses(peer, path, frame, number):
    """Holds an append to its refusal, at any limit, and the image to its bytes."""
    before = content(path)
    for limit in [0, 1, ALL]:
        assert peer.append(path, frame, limit) == (number, 0, 0, 0)
    assert content(path) == before


def create(peer, rng, path, length, slots, segments, layers=((2, 0), (2, 1))):
    """A fresh image, which is of 2.1, or the same of 2.0; and the letters of its characters."""
    assert peer.create(path, length, slots, segments) == 0
    assert layer_of(path) == (2, 1)
    if rng.choice(layers) == (2, 1):
        return LETTERS
    make_older(path)
    return ""


def grow(peer, rng, path, stops):
    """An image after whole appends, stopped ones among them; its frames and the layer it began with."""
    slots, segments = rng.choice([1, 2, 4, 64]), rng.choice([1, 2, 16])
    length = 256 + 32 * slots + 64 * segments + rng.choice([50, 3000, 3000, 60_000])
    letters = create(peer, rng, path, length, slots, segments)
    layer = layer_of(path)
    frames = []
    for _ in range(rng.randint(1, 8)):
        frame = random_frame(rng, letters)
        if rng.random() < 0.2:
            # Also where the frame has no room, and where a stop has left something to clear.
            ours_refuses(peer, path, with_nan(rng, frame), 30)
        number, _, whole, copied = peer.append(path, frame, 0)
        if number == 29:
            break
        assert number == 0
        if stops and rng.random() < 0.5:
            limit = rng.randrange(whole)
            assert peer.append(path, frame, limit) == (0, limit, whole, copied)
            if rng.random() < 0.5:
                # Another frame after the restart: the stopped one leaves nothing behind.
                frame = random_frame(rng, letters)
        number, done, whole, _ = peer.append(path, frame)
        if number == 0:
            assert done == whole
            frames.append(frame)
        else:
            # Names of the stopped append are in the way; without a whole append it is not at rest.
            assert number == 29
            return None, layer
    return frames, layer


def clears(path, entries, names):
    """The stores of step 1."""
    _, slots, _, segments = header(path)
    end = sum(len(name.encode()) + 1 for name in names)
    return 4 * (slots - entries) + (64 * segments - end // 8 * 8) // 8


def renumber(path, frames):
    """Gives the entries of an image the frames that they have in this list, which may have gaps."""
    at = header(path)[0]
    with open(path, "r+b") as file:
        for number, frame in enumerate(frames):
            for _ in frame:
                file.seek(at)
                file.write(struct.pack("<Q", number))
                at += 32


def write_frames(file, frames):
    for frame in frames:
        for name, data in frame.items():
            if NUMBERS[data.dtype] == 11:
                data = data.tobytes().decode()
            elif data.shape[1] == 1:
                data = data[:, 0]
            file.write_chunk(name, data)
        file.end_frame()


def write_real(path, frames):
    """A file that the real library writes."""
    texts = {"application": "real", "schema": "interop", "schema_version": [1, 2]}
    with gsd.fl.open(path, WRITE, **texts) as file:
        write_frames(file, frames)


def append_real(path, frames):
    with gsd.fl.open(path, GROW) as file:
        write_frames(file, frames)


def make_longer(path):
    """Room for an append: a file has none behind its end."""
    with open(path, "ab") as file:
        file.write(bytes(100_000))


def listings(path):
    """Each file's listing, by the file's name."""
    found = {}
    with open(path, encoding="ascii") as file:
        for line in file:
            if line.endswith(".gsd\n"):
                name = line[:-1]
                found[name] = ""
            else:
                found[name] += line
    return found


def package_files():
    """The files of 1.0 that come in the real library's package."""
    top = os.path.dirname(gsd.__file__)
    found = [os.path.join(folder, name) for folder, _, names in os.walk(top) for name in names]
    return sorted(path for path in found if path.endswith(".gsd") and layer_of(path) == (1, 0))


def ours_reads_old(peer, path):
    """Holds ours to the reader by documents 001 and 002: the number, or every name, entry, chunk and
    element, the entries in the order of writing."""
    image = content(path)
    found, expected = peer.listed(path), handmade.read(image)
    if isinstance(expected, int):
        assert found == expected, (found, expected)
        assert peer.nchilada(path, 1.0) == peer.rawarray(path) == expected
        return
    assert not isinstance(found, int), found
    frames, names, entries = found
    assert (frames, names) == (handmade.frames_of(expected[1]), expected[0])
    assert len(entries) == len(expected[1])
    for entry, (*fields, start, length, elements) in zip(expected[1], entries):
        assert tuple(fields) == entry
        data = handmade.data_of(image, entry)
        assert (start, length) == (entry.location, len(data))
        assert same_elements(numpy.frombuffer(data, TYPES[entry.kind]), entry.kind, elements), entry
    chunks = {(entry.frame, entry.id): array_by_hand(image, entry) for entry in expected[1]}
    ours_writes(peer, path, chunks)
    ours_writes_raw(peer, path, chunks, {(entry.frame, entry.id): entry.n for entry in expected[1]})


def ours_refuses_old(peer, rng, path, number=20):
    """No append goes into 1.0, whatever the sheet, and with room or without."""
    for _ in range(2):
        for frame in [random_frame(rng), {}, with_nan(rng, {})]:
            ours_refuses(peer, path, frame, number)
        make_longer(path)


def real_makes(reader, frames, names):
    """What a reader of the real library makes of an image of 1.0, in the words of OTHERWISE."""
    try:
        file = reader()
    except RuntimeError as error:
        assert "Corrupt GSD file" in str(error) or "Invalid gsd argument" in str(error), error
        return "corrupt"
    with file:
        assert file.gsd_version == (1, 0)
        if frames is None:
            return "opens"
        try:
            hold(file, frames)
        except (AssertionError, KeyError, ValueError):
            return "other"
        return "reads" if file.find_matching_chunk_names("") == names else "names"


def frames_by_hand(image):
    """Names and frames of an image of 1.0 by documents 001 and 002; None for both where it is refused,
    and for the frames where they are not for an array."""
    found = handmade.read(image)
    if isinstance(found, int):
        return None, None
    names, entries = [name.decode() for name in found[0]], found[1]
    if handmade.frames_of(entries) > 1000:
        return names, None
    frames = [{} for _ in range(handmade.frames_of(entries))]
    for entry in entries:
        frames[entry.frame][names[entry.id]] = array_by_hand(image, entry)
    return names, frames


def array_by_hand(image, entry):
    """The chunk of an entry; an array without columns has no rows."""
    data = numpy.frombuffer(handmade.data_of(image, entry), TYPES[entry.kind])
    return data.reshape(0 if entry.m == 0 else entry.n, entry.m)


class Tests:
    def __init__(self, peer, folder, seed, layer):
        self.peer, self.folder, self.seed = peer, folder, seed
        self.layer = layer  # of the files that the real library writes
        self.passed = self.failed = 0

    def test(self, what, count, body):
        before = self.passed
        for number in range(count):
            rng = random.Random(f"{self.seed} {what} {number}")
            path = os.path.join(self.folder, "image.gsd")
            try:
                body(rng, path)
                self.passed += 1
            except Exception:  # whatever a reader raises on a wrong image
                self.failed += 1
                if self.failed <= 5:
                    print(f"{what} {number}:")
                    traceback.print_exc(file=sys.stdout)
        print(f"{what}: {self.passed - before} of {count}")

    def whole(self, rng, path):
        frames, layer = grow(self.peer, rng, path, stops=False)
        real_reads(path, frames, layer, self.peer.read(path)[0])
        ours_reads(self.peer, path, frames)

    def stopped(self, rng, path):
        frames, layer = grow(self.peer, rng, path, stops=True)
        if frames is not None:
            real_reads(path, frames, layer, self.peer.read(path)[0])
            ours_reads(self.peer, path, frames)

    def cleared(self, rng, path):
        """Stopped anywhere, then only the clearing stores of the next append."""
        letters = create(self.peer, rng, path, 20_000, rng.choice([1, 2, 64]), rng.choice([1, 16]))
        layer = layer_of(path)
        frames = [random_frame(rng, letters) for _ in range(3)]
        for frame in frames:
            assert self.peer.append(path, frame)[0] == 0
        frame = random_frame(rng, letters)
        whole = self.peer.append(path, frame, 0)[2]
        self.peer.append(path, frame, rng.randrange(whole - 8, whole) if whole > 8 else whole - 1)
        names, _ = self.peer.read(path)
        entries = sum(map(len, frames))
        self.peer.append(path, random_frame(rng, letters), clears(path, entries, names))
        real_reads(path, frames, layer, names)
        ours_reads(self.peer, path, frames, names)

    def left_stopped(self, rng, path):
        """Stopped anywhere and left so: gsd.pygsd goes slot by slot, and finds the list's end."""
        letters = create(self.peer, rng, path, 20_000, rng.choice([1, 2, 64]), rng.choice([1, 16]))
        frames = [random_frame(rng, letters) for _ in range(rng.randint(1, 3))]
        for frame in frames:
            assert self.peer.append(path, frame)[0] == 0
        frame = random_frame(rng, letters)
        _, _, whole, copied = self.peer.append(path, frame, 0)
        limit = rng.choice([rng.randrange(whole), whole - 1 - rng.randrange(min(8, whole))])
        assert self.peer.append(path, frame, limit) == (0, limit, whole, copied)
        ours_reads(self.peer, path, frames)
        with gsd.pygsd.GSDFile(open(path, "rb")) as file:
            hold(file, frames)

    def half_a_frame(self, _, path):
        """Why gsd.fl must not be given such an image: it halves, and lists a slot behind the end."""
        probe = numpy.array([[1], [2], [3]], dtype=numpy.float32)
        heater = numpy.array([[40]], dtype=numpy.uint8)
        self.peer.create(path, 1024, 2, 1)
        assert self.peer.append(path, {"probe": probe}) == (0, 23, 23, 0)
        limit = 39
        both = {"probe": probe, "heater": heater}
        assert self.peer.append(path, both, limit) == (0, limit, 43, 1)
        ours_reads(self.peer, path, [{"probe": probe}])
        with gsd.fl.open(path, READ) as file:
            shown = [name for name in both if file.chunk_exists(1, name)]
            assert (file.nframes, shown) == (2, ["heater"]), (file.nframes, shown)

    def texts(self, rng, path):
        """Characters are known in 2.1 alone, and read by a library that knows them."""
        create(self.peer, rng, path, 5_000, 4, 1, layers=[(2, 1)])
        frames = [random_frame(rng) | {"text": random_text(rng, "ab 7~\né温")} for _ in range(2)]
        for frame in frames:
            assert self.peer.append(path, frame)[0] == 0
        ours_reads(self.peer, path, frames)
        if CHARACTERS:
            real_reads(path, frames, (2, 1))
        else:
            real_refuses(path, frames)
        make_older(path)
        assert self.peer.read(path) == 13
        create(self.peer, rng, path, 5_000, 4, 1, layers=[(2, 0)])
        ours_refuses(self.peer, path, frames[0], 24)

    def odd_texts(self, rng, path):
        """Characters that are no text for the real library: ours reads them, and a reader of the
        real one that has an answer has their bytes, but for zeros at the end."""
        create(self.peer, rng, path, 5_000, 4, 1, layers=[(2, 1)])
        frame = {
            "not UTF-8": characters(bytes([200, 255, 128])),
            "empty": characters(b""),
            "columns": characters(b"abcdef", 3),
            "zero at the end": characters(b"ab\0"),
        }
        assert self.peer.append(path, frame)[0] == 0
        ours_reads(self.peer, path, [frame])
        if not CHARACTERS:
            real_refuses(path, [frame])
            return
        for reader in readers(path):
            with reader() as file:
                for name, data in frame.items():
                    with contextlib.suppress(AttributeError, ValueError):
                        found = file.read_chunk(0, name)
                        raw = found.encode() if isinstance(found, str) else found.tobytes()
                        assert raw in (data.tobytes(), data.tobytes().rstrip(b"\0")), (name, found)

    def real_file(self, rng, path):
        frames = random_frames(rng, 40)
        write_real(path, frames)
        self.both_read(path, frames)

    def real_file_with_gaps(self, rng, path):
        """Frames without a chunk behind the last chunk leave nothing in a file: no reader counts them."""
        frames = spread(rng, random_frames(rng, 20))
        write_real(path, frames + [{}] * rng.choice([0, 1, 3]))
        self.both_read(path, frames)
        self.grown(rng, path, frames)

    def both_read(self, path, frames):
        """The real library's file, which both read as it was written."""
        real_reads(path, frames, self.layer)
        with gsd.fl.open(path, READ) as file:
            names = file.find_matching_chunk_names("")
        ours_reads(self.peer, path, frames, names)

    def real_grows_ours(self, rng, path):
        """The real library appends to our image at rest, and both read all of it. It is then of the
        library's layer, if that is newer."""
        letters = create(self.peer, rng, path, 10_000, 64, 16)
        layer = layer_of(path)
        frames = [random_frame(rng, letters) for _ in range(rng.randint(1, 5))]
        for frame in frames:
            assert self.peer.append(path, frame)[0] == 0
        more = [real_frame(rng) for _ in range(rng.randint(1, 5))]
        append_real(path, more)
        ours_reads(self.peer, path, frames + more)
        real_reads(path, frames + more, max(layer, self.layer))

    def both_grow_512(self, rng, path):
        """An image of as many slots and segments as 0 stands for, grown by both."""
        letters = create(self.peer, rng, path, 30_000, 0, 0)
        layer = layer_of(path)
        assert header(path) == (256, 512, 16_640, 16)
        frames = [random_frame(rng, letters) for _ in range(rng.randint(1, 4))]
        for frame in frames:
            assert self.peer.append(path, frame)[0] == 0
        real_reads(path, frames, layer)
        more = [real_frame(rng) for _ in range(rng.randint(1, 4))]
        append_real(path, more)
        assert header(path)[:2] == (256, 512)
        ours_reads(self.peer, path, frames + more)
        real_reads(path, frames + more, max(layer, self.layer))

    def both_grow_gaps(self, rng, path):
        """An image of ours with gaps: each append, ours and the real library's, goes behind the last
        frame, and into no gap."""
        letters = create(self.peer, rng, path, 10_000, 64, 16)
        layer = layer_of(path)
        frames = [random_frame(rng, letters) for _ in range(rng.randint(1, 4))]
        for frame in frames:
            assert self.peer.append(path, frame)[0] == 0
        frames = spread(rng, frames)
        renumber(path, frames)
        ours_reads(self.peer, path, frames)
        real_reads(path, frames, layer)
        frames.append(random_frame(rng, letters))
        assert self.peer.append(path, frames[-1])[0] == 0
        ours_reads(self.peer, path, frames)
        real_reads(path, frames, layer)
        more = spread(rng, [real_frame(rng) for _ in range(rng.randint(1, 4))])
        append_real(path, more)
        ours_reads(self.peer, path, frames + more)
        real_reads(path, frames + more, max(layer, self.layer))

    def far_frame(self, rng, path):
        """A frame not below the slots is one that the real library writes but does not read back; its
        fresh files have 128."""
        frame = random_frame(rng)
        frames = [{}] * 127 + [frame]
        write_real(path, frames)
        assert header(path)[1] == 128
        self.both_read(path, frames)
        make_longer(path)
        assert self.peer.append(path, frame)[0] == 0
        assert header(path)[1] == 128
        ours_reads(self.peer, path, [*frames, frame])
        assert all(map(corrupt, readers(path)))
        write_real(path, [{}, *frames])
        ours_reads(self.peer, path, [{}, *frames])
        assert all(map(corrupt, readers(path)))

    def infinities(self, rng, path):
        """Ours takes no NaN; with infinities in their place it takes the frames, and all read them."""
        letters = create(self.peer, rng, path, 20_000, rng.choice([1, 2, 64]), rng.choice([1, 16]))
        layer = layer_of(path)
        frames = []
        for _ in range(rng.randint(1, 3)):
            frame = with_nan(rng, random_frame(rng, letters))
            ours_refuses(self.peer, path, frame, 30)
            frames.append(without_nans(frame))
            assert self.peer.append(path, frames[-1])[0] == 0
        names, _ = self.peer.read(path)
        real_reads(path, frames, layer, names)
        ours_reads(self.peer, path, frames, names)

    def real_nans(self, rng, path):
        """A file of the real library with NaNs in every frame: ours reads each bit, and appends to it,
        but none of its frames."""
        frames = [with_nan(rng, real_frame(rng)) for _ in range(rng.randint(1, 5))]
        write_real(path, frames)
        self.both_read(path, frames)
        self.grown_over_nans(rng, path, frames)

    def real_nans_in_ours(self, rng, path):
        """The same of an image of ours to which the real library appended NaNs."""
        letters = create(self.peer, rng, path, 10_000, 64, 16)
        layer = layer_of(path)
        frame = random_frame(rng, letters)
        assert self.peer.append(path, frame)[0] == 0
        frames = [frame, *(with_nan(rng, real_frame(rng)) for _ in range(rng.randint(1, 5)))]
        append_real(path, frames[1:])
        real_reads(path, frames, max(layer, self.layer))
        self.grown_over_nans(rng, path, frames)

    def grown_over_nans(self, rng, path, frames):
        """Frames with NaNs are refused; without them they are taken, behind those that have them."""
        layer = layer_of(path)
        make_longer(path)
        ours_reads(self.peer, path, frames)
        for frame in filter(holds_nan, frames):
            ours_refuses(self.peer, path, frame, 30)
        more = [without_nans(frames[-1]), random_frame(rng)]
        for frame in more:
            assert self.peer.append(path, frame)[0] == 0
        ours_refuses(self.peer, path, frames[-1], 30)
        ours_reads(self.peer, path, frames + more)
        real_reads(path, frames + more, layer)

    def files_of_ours(self, rng, path):
        """The NChilada files of an image of ours are those of what the real library reads in it."""
        create(self.peer, rng, path, 200_000, rng.choice([1, 64]), rng.choice([1, 16]))
        layer = layer_of(path)
        frames = [float_frame(rng) for _ in range(rng.randint(1, 4))]
        for frame in frames:
            assert self.peer.append(path, frame)[0] == 0
        real_reads(path, frames, layer)
        ours_reads(self.peer, path, frames)
        self.files_at_each_step(path, frames)

    def files_of_real(self, rng, path):
        """Those of a file of the real library; where it has NaNs, these chunks are refused, and no others."""
        frames = [float_frame(rng) for _ in range(rng.randint(1, 4))]
        frames = spread(rng, [with_nan(rng, frame) if rng.random() < 0.5 else frame for frame in frames])
        write_real(path, frames)
        self.both_read(path, frames)
        self.files_at_each_step(path, frames)

    def files_at_each_step(self, path, frames):
        names, _ = self.peer.read(path)
        for step in nchilada.STEPS:
            ours_writes(self.peer, path, by_id(names, frames), step)

    def raw_arrays(self, rng, path):
        """RawArray files of numpy's arrays, of each type, with bytes behind some: ours makes sheets of them,
        takes these, and the real library reads the arrays."""
        create(self.peer, rng, path, 300_000, rng.choice([1, 64]), rng.choice([1, 16]))
        layer = layer_of(path)
        frames = []
        for kind in rng.sample(range(1, 11), 10):
            array, order, data = random_array(rng, kind)
            name = rng.choice(NAMES)
            raw = rawarray.file_of(array, order) + rng.randbytes(rng.choice([0, 0, 1, 100]))
            made = self.peer.sheet_of(raw, name.encode())
            assert made == sheet({name: data}) == rawarray.sheet(raw, name.encode()), (array, made)
            assert self.peer.append(path, made)[0] == 0
            frames.append({name: data})
        real_reads(path, frames, layer)
        ours_reads(self.peer, path, frames)

    def raw_again(self, rng, path):
        """The chunks of a file of the real library, as RawArray files and read back: an image of ours takes
        all but NaNs, and the real library reads the chunks again, characters as bytes."""
        frames = [with_nan(rng, real_frame(rng)) for _ in range(rng.randint(1, 4))]
        write_real(path, frames)
        self.both_read(path, frames)
        names, _ = self.peer.read(path)
        made = self.peer.rawarray(path)
        create(self.peer, rng, path, 100_000, rng.choice([1, 64]), rng.choice([1, 16]))
        layer = layer_of(path)
        again = []
        for key, data in by_id(names, frames).items():
            chunk = {"again": data.view("uint8") if NUMBERS[data.dtype] == 11 else data}
            if holds_nan(chunk):
                ours_refuses(self.peer, path, made[key][1], 30)
            else:
                assert self.peer.append(path, made[key][1])[0] == 0
                again.append(chunk)
        real_reads(path, again, layer)
        ours_reads(self.peer, path, again)

    def raw_refused(self, *_):
        """Files at the edge of each refusal, and names."""
        for number, raw in rawarray.refused():
            # The file's numbers go before the name's.
            for name in [b"n", b""]:
                assert self.peer.sheet_of(raw, name) == rawarray.sheet(raw, name) == number, (number, raw)
        for raw in rawarray.taken():
            for name in [b"", b"n" * 256, b"\0", b"a\0b", b"n" * 254 + b"\0"]:
                assert self.peer.sheet_of(raw, name) == rawarray.sheet(raw, name) == 78, (name, raw)
            for name in [b"n" * 255, "温度".encode(), b"\xff"]:
                made = rawarray.sheet(raw, name)
                assert isinstance(made, bytes) and self.peer.sheet_of(raw, name) == made, (name, raw)

    def raw_changed(self, rng, _):
        """Any words in a file's header: ours reads or refuses it as the reader by the request does."""
        array, order, _ = random_array(rng, rng.randint(1, 10))
        raw = rawarray.changed(rng, rawarray.file_of(array, order))
        name = rng.choice([b"n", b"n", b"n", b""])
        assert self.peer.sheet_of(raw, name) == rawarray.sheet(raw, name), (raw, name)

    def raw_bart(self, rng, path):
        """Files of bart have this layout and complex floats, which no chunk has. As two floats for each
        number they become a chunk, and one of ours bart reads with its first dimension as the fast one."""
        n, m = rng.randint(1, 6), rng.randint(1, 6)
        made, turned = os.path.join(self.folder, "made.ra"), os.path.join(self.folder, "turned.ra")
        for words, shape in [(("zeros", 2, m, n), (m, n)), (("ones", 1, n), (n,)),
                             (("ones", 3, m, n, 2), (m, n, 2)), (("index", 0, m), (m,))]:
            rawarray.bart(*words, made)
            rawarray.hold_bart(content(made), *shape)
            assert self.peer.sheet_of(content(made), b"bart") == 73
        # 0, 1 and so on along the first dimension, and along the second the same again.
        rawarray.bart("repmat", 1, n, made, turned)
        data = rawarray.hold_bart(content(turned), m, n)
        assert self.peer.sheet_of(content(turned), b"bart") == 73
        frames = [{"bart": numpy.array([range(m)] * n, "complex64").view("float32")},
                  {"bart": random_chunk(rng, 9, n, 2 * m, nans=False)}]
        create(self.peer, rng, path, 10_000, 4, 1)
        layer = layer_of(path)
        first = self.peer.sheet_of(rawarray.pack(3, 4, (2 * m, n), data), b"bart")
        assert self.peer.append(path, first)[0] == self.peer.append(path, frames[1])[0] == 0
        real_reads(path, frames, layer)
        ours_reads(self.peer, path, frames)
        raw = bytearray(self.peer.rawarray(path)[1, 0][0])
        for at, value in [(16, 4), (24, 8), (48, m)]:
            rawarray.put(raw, at, value)
        save(made, raw)
        rawarray.bart("transpose", 0, 1, made, turned)
        found = rawarray.hold_bart(content(turned), n, m)
        assert found == frames[1]["bart"].view("complex64").T.tobytes()

    def ours_grows_real(self, rng, path):
        """We append to the real library's file, and both read all of it."""
        frames = random_frames(rng, 40)
        write_real(path, frames)
        self.grown(rng, path, frames)

    def grown(self, rng, path, frames):
        """We append to a file with room behind it: it stays of its layer."""
        layer = layer_of(path)
        make_longer(path)
        frame = random_frame(rng, LETTERS if layer == (2, 1) else "")
        number, done, whole, _ = self.peer.append(path, frame)
        if not aligned(path):
            assert number == 21
        else:
            assert (number, done) == (0, whole)
            frames = [*frames, frame]
        ours_reads(self.peer, path, frames)
        real_reads(path, frames, layer)

    def stored(self, rng, path, stored, first, nans):
        """A stored file: what both read is the same, also when it has grown, or it is refused as its
        listing's first line says. Frames with NaNs are not appended again, also where there is no room."""
        shutil.copyfile(stored, path)
        found = self.peer.read(path)
        if isinstance(found, int):
            assert found in (14, 15) and first == f"refused {found}", found
            return
        names, frames = found
        assert first.startswith("too long" if os.path.getsize(path) > 65_536 else "frames ")
        if any(NUMBERS[data.dtype] == 11 for frame in frames for data in frame.values()):
            assert layer_of(path) == (2, 1)
            if not CHARACTERS:
                print(f"gsd {GSD} does not know characters, which {os.path.basename(stored)} has")
                real_refuses(path, frames)
                return
        # Frames without a chunk behind the last one are not told from no frame at all.
        real_reads(path, frames, layer_of(path), names)
        again = list(filter(holds_nan, frames))
        assert bool(again) == nans
        for frame in again:
            ours_refuses(self.peer, path, frame, 30 if aligned(path) else 21)
        self.grown(rng, path, frames)


    def package_file(self, rng, path, packed):
        """The real file of 1.0: ours has each name and chunk that gsd.fl and gsd.pygsd have, and finds none
        where they find none. As gsd.fl upgrades it, it has the same chunks."""
        shutil.copyfile(packed, path)
        ours_reads_old(self.peer, path)
        frames, names, entries = self.peer.listed(path)
        counts = frames, len(names), len(entries)
        print(f"{os.path.basename(packed)}: {counts[0]} frames, {counts[1]} names, {counts[2]} entries")
        assert counts == (5, 127, 635) or os.path.basename(packed) != "test_gsd_v1.gsd"
        keys = [(frame, number) for frame, _, _, _, number, *_ in entries]
        assert keys != sorted(keys)
        names, frames = self.peer.read(path)
        assert sum(map(len, frames)) == counts[2]
        real_reads(path, frames, (1, 0), names)
        self.upgraded(rng, path, names, frames)
        shutil.copyfile(packed, path)
        ours_refuses_old(self.peer, rng, path)

    def upgraded(self, rng, path, names, frames):
        """gsd.fl turns a file of 1.0 into one of its own layer, which takes our appends."""
        with gsd.fl.open(path, GROW) as file:
            file.upgrade()
        assert layer_of(path) == self.layer
        real_reads(path, frames, self.layer, names)
        ours_reads(self.peer, path, frames, names)
        self.grown(rng, path, frames)

    def stored_old(self, rng, path, name, stored, listing, chunks):
        """A hand-made image is stored as handmade.py makes it, with its listing and chunks; ours reads or
        refuses it, and the readers of the real library do what OTHERWISE says, or read the same."""
        image = handmade.IMAGES[name]
        assert content(stored) == image
        assert listing == handmade.listing(image)
        assert content(chunks).decode() == handmade.chunk_lines(image)
        shutil.copyfile(stored, path)
        names, frames = frames_by_hand(image)
        made = tuple(real_makes(reader, frames, names) for reader in readers(path))
        assert made == OTHERWISE.get(name, ("reads", "reads")), made
        ours_reads_old(self.peer, path)
        if made == ("reads", "reads"):
            names, frames = self.peer.read(path)
            real_reads(path, frames, (1, 0), names)
        refused = handmade.read(image)
        ours_refuses_old(self.peer, rng, path, refused if isinstance(refused, int) else 20)

    def by_hand(self, rng, path, dirty=False):
        """An image of 1.0 made by hand, which all read alike; where dirty gsd.pygsd does not, and gsd.fl
        has more names."""
        save(path, handmade.random_image(rng, dirty))
        _, frames = frames_by_hand(content(path))
        ours_reads_old(self.peer, path)
        names, found = self.peer.read(path)
        if dirty:
            with gsd.fl.open(path, READ) as file:
                hold(file, found)
        else:
            real_reads(path, found, (1, 0), names)
        ours_reads(self.peer, path, frames, names)
        ours_refuses_old(self.peer, rng, path)

    def by_hand_dirty(self, rng, path):
        self.by_hand(rng, path, dirty=True)

    def by_hand_damaged(self, rng, path):
        """The real library is not asked: it looks at less."""
        image = handmade.random_image(rng, rng.random() < 0.5)
        for _ in range(rng.choice([1, 1, 2])):
            image = handmade.damaged(rng, image)
            if handmade.read(image) in range(1, 9):
                break
        save(path, image)
        ours_reads_old(self.peer, path)

    def real_grows_old(self, rng, path):
        """gsd.fl appends to a file of 1.0, which stays one; then it upgrades it. Characters, which it
        takes in 1.0 too, are not known there."""
        save(path, handmade.random_image(rng, room=9))
        names, frames = frames_by_hand(content(path))
        more = [random_frame(rng, nans=True, names=SHORT_NAMES) for _ in range(rng.randint(1, 2))]
        more = spread(rng, more)
        append_real(path, more)
        frames += more
        ours_reads_old(self.peer, path)
        found, _ = self.peer.read(path)
        assert found[:len(names)] == names
        real_reads(path, frames, (1, 0), found)
        ours_reads(self.peer, path, frames, found)
        ours_refuses_old(self.peer, rng, path)
        if CHARACTERS and rng.random() < 0.3:
            append_real(path, [{"text": random_text(rng, ASCII)}])
            assert layer_of(path) == (1, 0) and self.peer.read(path) == 13
        else:
            self.upgraded(rng, path, found, frames)


def stored_files(folder):
    """The stored files of the real library, as "NAME.gsd" or "2.1/NAME.gsd"."""
    for inner in ["", "2.1/"]:
        for name in sorted(os.listdir(os.path.join(folder, inner))):
            if name.endswith(".gsd"):
                yield inner + name


def main():
    program, files = sys.argv[1:3]
    seed = sys.argv[3] if len(sys.argv) > 3 else "1"
    with tempfile.TemporaryDirectory() as folder:
        fresh = os.path.join(folder, "fresh.gsd")
        write_real(fresh, [])
        layer = layer_of(fresh)
        print(f"gsd {GSD}, which writes layer {layer[0]}.{layer[1]} and",
              "knows" if CHARACTERS else "does not know", f"characters; numpy {numpy.__version__}")
        tests = Tests(Peer(program, folder), folder, seed, layer)
        tests.test("ours after whole appends, read by gsd.fl and gsd.pygsd", 120, tests.whole)
        tests.test("ours after stops and whole appends", 120, tests.stopped)
        tests.test("ours after a stop and clearing stores", 60, tests.cleared)
        tests.test("ours left after a stop, read by gsd.pygsd", 60, tests.left_stopped)
        tests.test("ours left after a stop shows half a frame in gsd.fl", 1, tests.half_a_frame)
        refused = "" if CHARACTERS else ", which are refused"
        tests.test("ours with characters" + refused, 30, tests.texts)
        tests.test("ours with characters that are no text" + refused, 1, tests.odd_texts)
        tests.test("files of gsd.fl, read by ours", 60, tests.real_file)
        tests.test("ours, grown by gsd.fl", 60, tests.real_grows_ours)
        tests.test("ours of 512 slots, as 0 gives, grown by gsd.fl", 30, tests.both_grow_512)
        tests.test("files of gsd.fl, grown by ours", 60, tests.ours_grows_real)
        tests.test("files of gsd.fl with gaps, read and grown by ours", 60, tests.real_file_with_gaps)
        tests.test("ours with gaps, grown by both", 60, tests.both_grow_gaps)
        tests.test("a frame not below the slots, corrupt for gsd.fl and gsd.pygsd", 1, tests.far_frame)
        tests.test("ours with infinities where NaNs were refused", 60, tests.infinities)
        tests.test("files of gsd.fl with NaNs, read and grown by ours", 60, tests.real_nans)
        tests.test("ours with NaNs of gsd.fl, grown by ours", 30, tests.real_nans_in_ours)
        print("NChilada files are read by struct, numpy",
              "and no xdrlib, which this Python has not" if nchilada.xdrlib is None else "and xdrlib")
        tests.test("NChilada files of ours", 60, tests.files_of_ours)
        tests.test("NChilada files of files of gsd.fl", 60, tests.files_of_real)
        tests.test("RawArray files of numpy, read by ours, then by gsd.fl", 60, tests.raw_arrays)
        tests.test("RawArray files of files of gsd.fl, read back, then by gsd.fl", 60, tests.raw_again)
        tests.test("RawArray files that are refused", 1, tests.raw_refused)
        tests.test("RawArray files with changed headers", 500, tests.raw_changed)
        bart = rawarray.bart_version()
        if bart is None:
            print("bart cannot be had here: its RawArray files are not tested")
        else:
            tests.test(f"RawArray files of bart {bart}, and of ours in bart", 10, tests.raw_bart)
        listed = listings(os.path.join(files, "stdout"))
        for name in stored_files(os.path.join(files, "data")):
            stored, nans = os.path.join(files, "data", name), name in STORED_WITH_NANS
            first = listed[name].splitlines()[0]
            tests.test(f"stored {name}", 1, lambda rng, path: tests.stored(rng, path, stored, first, nans))
        packages = package_files()
        if not packages:
            print(f"the package of gsd {GSD} has no file of 1.0: not tested")
        for packed in packages:
            what = f"{os.path.basename(packed)} of the package, of 1.0"
            tests.test(what, 1, lambda rng, path: tests.package_file(rng, path, packed))
        folder_1_0 = os.path.join(files, "data", "1.0")
        stored_names = sorted(name.removesuffix(".gsd") for name in os.listdir(folder_1_0))
        assert stored_names == sorted(handmade.IMAGES), stored_names
        for name in handmade.IMAGES:
            stored, listing = os.path.join(folder_1_0, name + ".gsd"), listed[f"1.0/{name}.gsd"]
            chunks = os.path.join(CHUNKS, "1.0", name + ".chunks")
            tests.test(f"hand-made 1.0/{name}.gsd", 1,
                       lambda rng, path: tests.stored_old(rng, path, name, stored, listing, chunks))
        tests.test("random images of 1.0 made by hand", 60, tests.by_hand)
        tests.test("the same with bytes behind names and lists, read by gsd.fl", 60, tests.by_hand_dirty)
        tests.test("damaged images of 1.0", 300, tests.by_hand_damaged)
        tests.test("images of 1.0, grown and upgraded by gsd.fl", 60, tests.real_grows_old)
    print(f"{tests.passed} passed, {tests.failed} failed")
    return 1 if tests.failed else 0


if __name__ == "__main__":
    sys.exit(main())
