#!/usr/bin/env python3
"""Files of GSD 1.0 by hand: made and read from documents 001 and 002, without a GSD library.

Usage: handmade.py images FOLDER    writes each image there, as NAME.gsd
       handmade.py listings         prints what the listing program must, as crates/gsd_files/stdout has it
       handmade.py chunks FOLDER    writes NAME.chunks there, held to gsd.fl where that reads the image

No document gives the byte order, or a number to a type: these are document 01's, as are the refusals,
with what document 02 changes of them.
"""

import collections
import os
import struct
import sys
import tempfile
import zlib

MAGIC = 0x65DF65DF65DF65DF
VERSION = 0x00010000
HEADER, SLOT, SEGMENT = 256, 32, 64
LONGEST = 65_536  # of what the listing program takes
LETTERS = {1: "B", 2: "H", 3: "I", 4: "Q", 5: "b", 6: "h", 7: "i", 8: "q", 9: "f", 10: "d"}
SIZES = {kind: struct.calcsize("<" + letter) for kind, letter in LETTERS.items()}

Entry = collections.namedtuple("Entry", "frame n location m id kind flags")
# A chunk as it is written: the entry without its location, and the bytes.
Chunk = collections.namedtuple("Chunk", "frame id kind n m data")


def header(index, slots, names, segments):
    return struct.pack("<5Q2I64s64s80x", MAGIC, index, slots, names, segments, 0x00010002, VERSION,
                       b"by hand", b"interop")


def segment(name, behind=b""):
    """A name in its segment, with its zero; what stands behind that means nothing."""
    return (name + b"\0" + behind).ljust(SEGMENT, b"\0")


def slot(entry):
    return struct.pack("<QQQIHBB", *entry)


def values(kind, *numbers):
    return struct.pack(f"<{len(numbers)}{LETTERS[kind]}", *numbers)


def column(frame, number, kind, *numbers):
    """A chunk of one column."""
    return Chunk(frame, number, kind, len(numbers), 1, values(kind, *numbers))


def image(segments, chunks, spare=b"", layout=("index", "names", "data"), gaps=(0, 0, 0)):
    """An image with this name block and these chunks, in their order; `spare` is the slots behind their
    entries. The three parts lie behind the header in the order of `layout`, each behind a gap."""
    block = b"".join(segments)
    data = b"".join(chunk.data for chunk in chunks)
    sizes = {"index": SLOT * len(chunks) + len(spare), "names": len(block), "data": len(data)}
    starts, at = {}, HEADER
    for part, gap in zip(layout, gaps):
        starts[part] = at + gap
        at = starts[part] + sizes[part]
    entries, place = [], starts["data"]
    for chunk in chunks:
        entries.append(Entry(chunk.frame, chunk.n, place, chunk.m, chunk.id, chunk.kind, 0))
        place += len(chunk.data)
    parts = {"index": b"".join(map(slot, entries)) + spare, "names": block, "data": data}
    made = bytearray(b"\xA5" * at)
    made[:HEADER] = header(starts["index"], sizes["index"] // SLOT, starts["names"], len(segments))
    for part, start in starts.items():
        made[start:start + sizes[part]] = parts[part]
    return bytes(made)


EMPTY_SLOT = bytes(SLOT)
EMPTY_SEGMENT = bytes(SEGMENT)
FLOATS = [0x7F7FFFFF, 0xFF7FFFFF, 1, 0x80000000, 0x7F800000, 0xFF800000, 0x7FC00000, 0xFF800001]
DOUBLES = [0x7FEFFFFFFFFFFFFF, 0xFFEFFFFFFFFFFFFF, 1, 1 << 63, 0x7FF0000000000000, 0xFFF0000000000000,
           0x7FF8000000000000, 0xFFF0000000000001]


def fresh():
    return image([EMPTY_SEGMENT] * 2, [], EMPTY_SLOT * 4)


def one():
    return image([segment(b"probe"), EMPTY_SEGMENT], [column(0, 0, 9, 1.5, -2, 0.25)], EMPTY_SLOT * 3)


def writing_order():
    """Each frame's ids in an order of its own; later frames have some of the names."""
    names = [b"configuration/step", b"particles/N", b"particles/position", b"log/temperature"]
    chunks = []
    for frame, ids in enumerate([[3, 2, 1, 0], [1, 3, 0, 2], [0, 1, 2, 3], [2, 0], [3], [2, 3, 1]]):
        made = [column(frame, 0, 4, 1000 * frame),
                column(frame, 1, 3, 2 + frame),
                Chunk(frame, 2, 9, 2, 3, values(9, *(frame + k / 4 for k in range(6)))),
                column(frame, 3, 10, 293.15 - frame, 20.5 * frame)]
        chunks += [made[number] for number in ids]
    return image([*map(segment, names), EMPTY_SEGMENT], chunks, EMPTY_SLOT * 6)


def gaps():
    """Frames 0, 1, 4, 5 and 7 have no chunk."""
    chunks = [column(2, 1, 1, 21), column(2, 0, 1, 20), column(3, 0, 1, 30), column(6, 1, 1, 61),
              column(8, 1, 1, 81), column(8, 0, 1, 80)]
    return image([segment(b"a"), segment(b"b")], chunks, EMPTY_SLOT * 6)


def ten_types():
    """The last type first; the greatest and the least values, and of floats and doubles the smallest
    one, the negative zero, the infinities and two NaNs."""
    names = [segment(b"type %d" % kind) for kind in range(1, 11)]
    chunks = [column(0, 9, 4, *DOUBLES)._replace(kind=10), column(0, 8, 3, *FLOATS)._replace(kind=9)]
    for kind in range(8, 4, -1):
        most = 1 << (8 * SIZES[kind] - 1)
        chunks.append(column(0, kind - 1, kind, most - 1, -most, -1, 0))
    for kind in range(4, 0, -1):
        most = 1 << (8 * SIZES[kind])
        chunks.append(column(0, kind - 1, kind, most - 1, most // 2, 1, 0))
    return image(names, chunks, EMPTY_SLOT * 2)


def names_63():
    """Names of 63 bytes, some of which differ in the last one or are UTF-8, and of 1."""
    names = [b"n" * 62 + b"a", b"n" * 62 + b"b", b"n", "µ".encode() * 31 + b"s", b"n" * 62]
    chunks = [column(0, number, 2, number) for number in (4, 0, 3, 1, 2)]
    return image([*map(segment, names), EMPTY_SEGMENT], chunks, EMPTY_SLOT)


def behind_zero():
    """Bytes behind the names' zeros, and segments behind the list's end: a name once more, one that is
    not closed, and a new one."""
    names = [segment(b"pos", b"pos\0" + b"x" * 56), segment(b"vel", b"\0\0pos"), segment(b"n", b"os"),
             b"\0pos".ljust(SEGMENT, b"y"), segment(b"pos"), b"z" * SEGMENT, segment(b"more")]
    chunks = [column(0, 2, 6, -3), column(0, 0, 6, -1), column(0, 1, 6, -2), column(1, 1, 6, -4)]
    return image(names, chunks, EMPTY_SLOT * 4)


def behind_last_zero():
    """The block's last byte is one behind a name's zero."""
    chunks = [column(0, 1, 6, -2), column(0, 0, 6, -1)]
    return image([segment(b"pos"), segment(b"vel", b"x" * 60)], chunks, EMPTY_SLOT * 2)


def behind_entries():
    """Slots behind the list's end: its own has all but the location, then a whole entry, with a frame
    that falls, a type and an id that are not known and a place behind the image."""
    chunks = [column(0, 1, 5, 1), column(0, 0, 5, 2), column(1, 0, 5, 3)]
    spare = [Entry(7, 9, 0, 3, 5, 99, 8), Entry(0, 9, 99_999, 3, 7, 99, 8), Entry(1, 1, 256, 1, 0, 1, 0)]
    return image([segment(b"a"), segment(b"b")], chunks, b"".join(map(slot, spare)) + EMPTY_SLOT * 2)


def empty_chunks():
    """Chunks with N 0, with M up to the greatest, among others and at the image's end."""
    chunks = [Chunk(0, 2, 9, 0, 3, b""), column(0, 0, 9, 1), Chunk(0, 1, 1, 0, 1, b""),
              Chunk(1, 1, 10, 0, 4_294_967_295, b""), column(1, 2, 7, 5, 6), Chunk(1, 0, 4, 0, 1, b"")]
    return image([segment(b"a"), segment(b"b"), segment(b"c")], chunks, EMPTY_SLOT * 2)


def no_columns():
    """Chunks with M 0."""
    chunks = [Chunk(0, 1, 9, 3, 0, b""), Chunk(0, 0, 1, 2**64 - 1, 0, b""), column(1, 1, 1, 7),
              Chunk(1, 0, 10, 0, 0, b"")]
    return image([segment(b"a"), segment(b"b")], chunks, EMPTY_SLOT * 2)


def omitted():
    """Frames that lack chunks of frame 0, and a name that no entry has."""
    chunks = [column(0, number, 8, -number) for number in (0, 1, 3)]
    chunks += [column(1, 1, 8, 11), column(2, 3, 8, 23), column(2, 0, 8, 20), column(3, 3, 8, 33)]
    return image([segment(name) for name in (b"a", b"b", b"unused", b"d")], chunks, EMPTY_SLOT * 3)


def odd_places():
    """No block and no chunk lies at an even place."""
    chunks = [column(0, 1, 10, 1.5), column(0, 0, 3, 70_000), column(1, 1, 9, -1.5), column(1, 0, 1, 7)]
    return image([segment(b"a"), segment(b"b"), EMPTY_SEGMENT], chunks, EMPTY_SLOT * 2,
                 ("data", "names", "index"), (1, 1, 2))


def index_full():
    """Every slot has an entry, and the image ends with the last."""
    chunks = [column(frame, number, 2, 256 * frame + number) for frame in range(3) for number in (1, 0)]
    return image([segment(b"a"), segment(b"b")], chunks, b"", ("names", "data", "index"))


def names_full():
    """Every segment has a name, and the image ends with the last."""
    names = [b"a", b"b" * 63, b"c" * 63]
    chunks = [column(0, number, 2, number) for number in (2, 0, 1)]
    return image([*map(segment, names)], chunks, EMPTY_SLOT, ("index", "data", "names"))


def no_slots():
    """The header alone: both blocks are empty."""
    return image([], [])


def greatest_frame():
    """The greatest number of a frame, behind frame 0."""
    chunks = [column(0, 0, 1, 1), column(4_294_967_294, 1, 1, 2), column(4_294_967_294, 0, 1, 3)]
    return image([segment(b"a"), segment(b"b")], chunks, EMPTY_SLOT)


def twice_in_frame():
    """One id twice in a frame, with another between."""
    chunks = [column(0, number, 1, 10 + at) for at, number in enumerate((2, 0, 2))]
    return image([segment(b"a"), segment(b"b"), segment(b"c")], chunks, EMPTY_SLOT)


def falling():
    """A frame below the one before."""
    chunks = [column(0, 0, 1, 1), column(1, 1, 1, 2), column(0, 1, 1, 3)]
    return image([segment(b"a"), segment(b"b")], chunks, EMPTY_SLOT)


def open_segment():
    """A segment without a zero, before one that has some."""
    chunks = [column(0, 1, 1, 2), column(0, 0, 1, 1)]
    return image([b"a" * SEGMENT, segment(b"b")], chunks, EMPTY_SLOT * 2)


def equal_names():
    """Two segments whose names are equal, and what stands behind them is not."""
    chunks = [column(0, 1, 1, 2), column(0, 0, 1, 1)]
    return image([segment(b"pos"), segment(b"pos", b"zz"), EMPTY_SEGMENT], chunks, EMPTY_SLOT * 2)


def characters():
    """Type 11, which came with 2.1."""
    chunks = [column(0, 1, 9, 1), Chunk(0, 0, 11, 5, 1, b"probe")]
    return image([segment(b"a"), segment(b"b")], chunks, EMPTY_SLOT * 2)


def not_listed():
    """An id whose segment stands behind the list's end."""
    chunks = [column(0, 0, 1, 1), column(0, 2, 1, 2)]
    return image([segment(b"a"), EMPTY_SEGMENT, segment(b"c")], chunks, EMPTY_SLOT * 2)


def frame_too_great():
    chunks = [column(4_294_967_295, 0, 1, 1)]
    return image([segment(b"a"), EMPTY_SEGMENT], chunks, EMPTY_SLOT)


MADE = [fresh, one, writing_order, gaps, ten_types, names_63, behind_zero, behind_last_zero,
        behind_entries, empty_chunks, no_columns, omitted, odd_places, index_full, names_full, no_slots,
        greatest_frame, twice_in_frame, falling, open_segment, equal_names, characters, not_listed,
        frame_too_great]
IMAGES = {make.__name__: make() for make in MADE}


def random_bytes(rng, size):
    return bytes(rng.choices([0, 0, 97, 98, 255], k=size))


def random_names(rng):
    """Some names, of 1 to 63 bytes, in any order."""
    lengths = rng.choices([1, 1, 2, 5, 21], k=rng.randint(1, 9))
    names = ["".join(rng.choices("abc/µ温", k=length)).encode() for length in lengths]
    return list(dict.fromkeys(names))


def random_chunks(rng, names):
    """Chunks of some frames, with gaps between, in each of which ids have any order."""
    chunks, frame = [], -1
    for _ in range(rng.randint(0, 7)):
        frame += rng.choice([1, 1, 1, 2, 4])
        for number in rng.sample(range(names), rng.randint(1, names)):
            kind, n, m = rng.randint(1, 10), rng.choice([0, 1, 1, 2, 3, 7]), rng.choice([1, 1, 1, 2, 3, 4])
            chunks.append(Chunk(frame, number, kind, n, m, rng.randbytes(n * m * SIZES[kind])))
    return chunks


def random_slot(rng):
    """One without a location."""
    return slot(Entry(rng.randrange(9), rng.randrange(9), 0, rng.randrange(9), rng.randrange(9),
                      rng.randrange(12), rng.randrange(3)))


def random_image(rng, dirty=False, room=0):
    """An image that gsd.fl reads, with its blocks and its data in any order and place, and so many frames
    more below its slots. Where dirty, it has bytes behind the names' zeros, segments behind the list's
    end, and values in the slots without a location."""
    names = random_names(rng)
    chunks = random_chunks(rng, len(names))
    # gsd.fl wants a slot at least, each frame below the slots, and a zero at the name block's end.
    frames = chunks[-1].frame + 1 if chunks else 0
    free = max(1, frames, len(chunks)) + room + rng.choice([0, 0, 1, 5]) - len(chunks)
    more = rng.choice([0, 0, 1, 3])
    if dirty:
        block = [segment(name, random_bytes(rng, SEGMENT - 1 - len(name))) for name in names]
        block += [b"\0" * (number == 0) + random_bytes(rng, SEGMENT) for number in range(more)]
        block = [each[:SEGMENT] for each in block]
        block[-1] = block[-1][:-1] + b"\0"
        spare = b"".join(random_slot(rng) for _ in range(free))
    else:
        block, spare = [*map(segment, names), *[EMPTY_SEGMENT] * more], EMPTY_SLOT * free
    layout = rng.sample(["index", "names", "data"], 3)
    return image(block, chunks, spare, layout, [rng.choice([0, 0, 1, 5, 8]) for _ in layout])


def damaged(rng, raw):
    """The image with a value changed, most often a listed entry's, or two slots in each other's place."""
    raw = bytearray(raw)
    index, slots, names_at, segments = (number_at(raw, at, 8) for at in (8, 16, 24, 32))
    if slots == 0 or segments == 0:
        return bytes(raw)  # an earlier change left none
    places = range(index, index + SLOT * slots, SLOT)
    listed = [place for place in places if number_at(raw, place + 16, 8) != 0]
    at = rng.choice(listed if listed and rng.random() < 0.8 else places)
    other = rng.choice(places)
    what = rng.choice(["slots", "frame", "n", "location", "m", "id", "id", "kind", "name", "blocks", "byte",
                       "end"])
    if what == "slots":
        raw[at:at + SLOT], raw[other:other + SLOT] = raw[other:other + SLOT], raw[at:at + SLOT]
    elif what == "frame":
        frame = max(0, number_at(raw, at, 8) + rng.choice([-1, 1, 2]))
        raw[at:at + 8] = rng.choice([frame, frame, 2**32 - 2, 2**32 - 1, 2**64 - 1]).to_bytes(8, "little")
    elif what == "n":
        raw[at + 8:at + 16] = rng.choice([0, 1, len(raw), 2**61, 2**64 - 1]).to_bytes(8, "little")
    elif what == "location":
        locations = [0, 255, 256, index, names_at, len(raw) - 1, len(raw), 2**63, 2**64 - 1]
        raw[at + 16:at + 24] = rng.choice(locations).to_bytes(8, "little")
    elif what == "m":
        raw[at + 24:at + 28] = rng.choice([0, 1, 2**31, 2**32 - 1]).to_bytes(4, "little")
    elif what == "id":
        # Most often one that the frame has already, next to it or not.
        of_frame = [place for place in places if raw[place:place + 8] == raw[at:at + 8]]
        number = number_at(raw, rng.choice(of_frame) + 28, 2)
        raw[at + 28:at + 30] = rng.choice([number, number, 8, 65_535]).to_bytes(2, "little")
    elif what == "kind":
        raw[at + 30] = rng.choice([0, 10, 11, 12, 255])
    elif what == "name":
        # Of one segment to another, or none closed, or the list ended.
        to = names_at + SEGMENT * rng.randrange(segments)
        of = names_at + SEGMENT * rng.randrange(segments)
        raw[to:to + SEGMENT] = rng.choice([raw[of:of + SEGMENT], b"n" * SEGMENT, bytes(SEGMENT)])
    elif what == "blocks":
        place = rng.choice([8, 16, 24, 32])
        value = max(0, number_at(raw, place, 8) + rng.choice([-64, -32, -1, 1, 32, 64]))
        raw[place:place + 8] = rng.choice([value, value, value, 0, 2**63, 2**64 - 1]).to_bytes(8, "little")
    elif what == "byte":
        raw[rng.randrange(len(raw))] = rng.randrange(256)
    else:
        del raw[rng.choice([rng.randrange(len(raw)), len(raw) - 1]):]
    return bytes(raw)


def number_at(raw, at, size):
    return int.from_bytes(raw[at:at + size], "little")


def meets(start, size, other, other_size):
    """Whether two parts share a byte: an empty one has none."""
    return max(start, other) < min(start + size, other + other_size)


def read(raw):
    """An image of 1.0, not above 1,073,741,824 bytes: the number where it is refused, else its names and
    its entries."""
    if len(raw) < HEADER:
        return 1
    if number_at(raw, 0, 8) != MAGIC:
        return 3
    if number_at(raw, 44, 4) != VERSION:
        return 4
    if 0 not in raw[48:112] or 0 not in raw[112:176]:
        return 5
    index, slots, names_at, segments = (number_at(raw, at, 8) for at in (8, 16, 24, 32))
    if index < HEADER or index + SLOT * slots > len(raw):
        return 6
    if names_at < HEADER or names_at + SEGMENT * segments > len(raw):
        return 7
    if meets(index, SLOT * slots, names_at, SEGMENT * segments):
        return 8
    names = []
    for at in range(names_at, names_at + SEGMENT * segments, SEGMENT):
        if raw[at] == 0:
            break
        names.append(raw[at:at + SEGMENT])
    if any(0 not in name for name in names):
        return 9
    names = [name[:name.index(0)] for name in names]
    if len(names) > 1024:
        return 10
    if len(set(names)) < len(names):
        return 11
    entries = []
    for at in range(index, index + SLOT * slots, SLOT):
        entry = Entry(*struct.unpack("<QQQIHBB", raw[at:at + SLOT]))
        if entry.location == 0:
            break
        if entry.location < HEADER or entry.location >= 2**63:
            return 12
        if entry.kind not in SIZES:
            return 13
        if entry.id >= len(names):
            return 14
        frame = [before.id for before in entries if before.frame == entry.frame]
        if entries and entry.frame < entries[-1].frame or entry.id in frame:
            return 15
        size = entry.n * entry.m * SIZES[entry.kind]
        if entry.location + size > len(raw):
            return 16
        if (meets(entry.location, size, index, SLOT * slots)
                or meets(entry.location, size, names_at, SEGMENT * segments)):
            return 17
        if entry.frame > 4_294_967_294:
            return 18
        entries.append(entry)
    return names, entries


def data_of(raw, entry):
    return raw[entry.location:entry.location + entry.n * entry.m * SIZES[entry.kind]]


def frames_of(entries):
    return entries[-1].frame + 1 if entries else 0


def listing(raw):
    """What the listing program prints for the image."""
    if len(raw) > LONGEST:
        return "too long\n"
    found = read(raw)
    if isinstance(found, int):
        return f"refused {found}\n"
    names, entries = found
    lines = [f"frames {frames_of(entries)} names {len(names)} entries {len(entries)}\n"]
    lines += [f"{e.frame} {e.id} {e.kind} {e.n} {e.m} {e.location}\n" for e in entries]
    return "".join(lines)


def chunk_lines(raw):
    """The lines of NAME.chunks, as tests/files/README.md has them."""
    found = read(raw)
    if isinstance(found, int):
        return f"# refused with {found}\n"
    names, entries = found
    return "".join(f"{e.frame}\t{e.id}\t{e.kind}\t{e.n}\t{e.m}\t{zlib.crc32(data_of(raw, e)):08x}"
                   f"\t{names[e.id].hex()}\n" for e in entries)


def listings():
    return "".join(f"1.0/{name}.gsd\n{listing(raw)}" for name, raw in IMAGES.items())


def not_read_by_fl(raw, folder):
    """What gsd.fl reads otherwise of an image that opens, or an empty text."""
    import gsd.fl
    import gsd.version

    version = getattr(gsd, "__version__", None) or gsd.version.version
    names, entries = read(raw)
    path = os.path.join(folder, "image.gsd")
    with open(path, "wb") as file:
        file.write(raw)
    try:
        with gsd.fl.open(path, "rb" if version.startswith("2.") else "r") as file:
            for entry in entries:
                data = file.read_chunk(entry.frame, names[entry.id].decode())
                shape = (entry.n, entry.m) if entry.m != 1 else (entry.n,)
                family = "u" if entry.kind <= 4 else "i" if entry.kind <= 8 else "f"
                found = data.dtype.kind, data.dtype.itemsize, data.shape, data.tobytes()
                if found != (family, SIZES[entry.kind], shape, data_of(raw, entry)):
                    return f"gsd {version} reads {entry} otherwise"
    except (RuntimeError, ValueError) as error:
        return f"gsd {version}: {error}"
    return ""


def main(words):
    if words == ["listings"]:
        print(listings(), end="")
        return 0
    if len(words) != 2 or words[0] not in ("images", "chunks"):
        print(__doc__, file=sys.stderr)
        return 2
    what, folder = words
    for name, raw in IMAGES.items():
        if what == "images":
            with open(os.path.join(folder, name + ".gsd"), "wb") as file:
                file.write(raw)
            continue
        with open(os.path.join(folder, name + ".chunks"), "w", encoding="ascii") as file:
            file.write(chunk_lines(raw))
        with tempfile.TemporaryDirectory() as place:
            otherwise = "" if isinstance(read(raw), int) else not_read_by_fl(raw, place)
        if otherwise:
            print(f"{name}: {otherwise}".replace(place + "/", ""))
    return 0


if __name__ == "__main__":
    sys.exit(main(sys.argv[1:]))
