//! Document 01 in plain Rust, with what document 02 has changed of it (W-201 to W-209, W-211 and
//! W-214), written from the papers alone.
//!
//! It is the independent second opinion of the differential tests and the baseline of the
//! benchmark: a refusal is `Err` with its number, and nothing else is shared with the library.

use std::collections::HashSet;
use std::ffi::CStr;
use std::ops::Range;

const HEADER: u64 = 256;
const LONGEST_IMAGE: usize = 1 << 30;
const MAGIC: [u8; 8] = [0xDF, 0x65, 0xDF, 0x65, 0xDF, 0x65, 0xDF, 0x65];
const SLOT: usize = 32;
const SEGMENT: usize = 64;
const WORD: usize = 8;
/// New chunks and blocks start on multiples of it.
const ALIGNMENT: usize = 64;
const MOST_NAMES: usize = 1024;
const MOST_ROWS: usize = 64;
/// Longest list of slots or segments that create makes.
const MOST_UNITS: u64 = 65_536;
/// No entry has a frame above.
const GREATEST_FRAME: u64 = 4_294_967_294;

/// The first number of an NChilada file.
const NCHILADA_MAGIC: u32 = 1_062_053;
/// Bytes of it before the extremes.
const NCHILADA_HEADER: usize = 28;

/// The first bytes of a RawArray file.
const RAWARRAY_MAGIC: &[u8] = b"rawarray";
/// Bytes of it before the dimensions.
const RAWARRAY_FRONT: usize = 48;
/// Bytes before the data where there are two.
const RAWARRAY_HEADER: usize = RAWARRAY_FRONT + 2 * WORD;

/// Words of the state of an append in turns.
pub const STATE_WORDS: usize = 406;

/// Words of a reader.
pub const READER_WORDS: usize = 8;

pub type Answer<T> = Result<T, u64>;

#[derive(Clone, Copy, Debug, PartialEq, Eq)]
pub struct Counts {
    pub frames: u64,
    pub names: u64,
    pub entries: u64,
}

#[derive(Clone, Copy, Debug, PartialEq, Eq)]
pub struct Entry {
    pub frame: u64,
    pub n: u64,
    pub location: u64,
    pub m: u32,
    pub id: u16,
    pub kind: u8,
    pub flags: u8,
}

/// A single float and a double go by their bits.
#[derive(Clone, Copy, Debug, PartialEq, Eq)]
pub enum Element {
    Unsigned(u64),
    Signed(i64),
    Single(u32),
    Double(u64),
}

/// How many entries a lookup's search probes, and whether the lookup is refused.
#[derive(Clone, Copy, Debug, PartialEq, Eq)]
pub struct Probes {
    pub count: u64,
    pub answer: Answer<()>,
}

/// What a begun append takes as a whole, with no store made.
#[derive(Clone, Debug)]
pub struct Begun {
    pub state: State,
    pub whole: u64,
    /// Listed entries that the whole append copies where it moves the index.
    pub copied: u64,
}

#[derive(Clone, Copy, Debug, PartialEq, Eq)]
pub struct Stores {
    pub done: u64,
    pub whole: u64,
    /// Listed entries that the whole append copies where it moves the index, whatever the limit.
    pub copied: u64,
}

fn u32_at(bytes: &[u8], at: usize) -> u32 {
    u32::from_le_bytes(bytes[at..at + 4].try_into().unwrap())
}

fn u64_at(bytes: &[u8], at: usize) -> u64 {
    u64::from_le_bytes(bytes[at..at + 8].try_into().unwrap())
}

/// A version that opens.
#[derive(Clone, Copy, PartialEq, Eq)]
enum Version {
    V1_0 = 0x0001_0000,
    V2_0 = 0x0002_0000,
    V2_1 = 0x0002_0001,
}

impl Version {
    fn new(number: u64) -> Option<Version> {
        let versions = [Version::V1_0, Version::V2_0, Version::V2_1];
        versions.into_iter().find(|&version| version as u64 == number)
    }

    fn read(image: &[u8]) -> Option<Version> {
        Version::new(u32_at(image, 44).into())
    }

    fn last_type(self) -> u8 {
        match self {
            Version::V1_0 | Version::V2_0 => 10,
            Version::V2_1 => 11,
        }
    }

    /// Bytes of one element, for the types that the version knows.
    fn size_of(self, kind: u8) -> Option<u64> {
        match kind {
            _ if kind > self.last_type() => None,
            1 | 5 | 11 => Some(1),
            2 | 6 => Some(2),
            3 | 7 | 9 => Some(4),
            4 | 8 | 10 => Some(8),
            _ => None,
        }
    }
}

/// Bytes of N by M elements; `None` from 2^64 on, which is beyond every slice.
fn bytes_of(n: u64, m: u32, size: u64) -> Option<u64> {
    n.checked_mul(u64::from(m) * size)
}

impl Entry {
    fn key(self) -> (u64, u16) {
        (self.frame, self.id)
    }

    fn read(slot: &[u8; SLOT]) -> Entry {
        Entry {
            frame: u64_at(slot, 0),
            n: u64_at(slot, 8),
            location: u64_at(slot, 16),
            m: u32_at(slot, 24),
            id: u16::from_le_bytes([slot[28], slot[29]]),
            kind: slot[30],
            flags: slot[31],
        }
    }

    fn to_bytes(self) -> [u8; SLOT] {
        let mut slot = [0; SLOT];
        slot[..8].copy_from_slice(&self.frame.to_le_bytes());
        slot[8..16].copy_from_slice(&self.n.to_le_bytes());
        slot[16..24].copy_from_slice(&self.location.to_le_bytes());
        slot[24..28].copy_from_slice(&self.m.to_le_bytes());
        slot[28..30].copy_from_slice(&self.id.to_le_bytes());
        slot[30] = self.kind;
        slot[31] = self.flags;
        slot
    }
}

/// A block of the image: `count` slots or segments from `start`, within the slice.
#[derive(Clone, Copy, Debug)]
struct Block {
    start: usize,
    end: usize,
    count: usize,
}

impl Block {
    fn new(start: u64, count: u64, unit: usize, length: usize) -> Option<Block> {
        let end = count.checked_mul(unit as u64)?.checked_add(start)?;
        (start >= HEADER && end <= length as u64).then_some(Block {
            start: start as usize,
            end: end as usize,
            count: count as usize,
        })
    }

    fn read(image: &[u8], field: usize, unit: usize) -> Option<Block> {
        Block::new(u64_at(image, field), u64_at(image, field + 8), unit, image.len())
    }

    /// Whether this block and `start..end` share a byte, where both have one at all.
    fn meets(self, start: usize, end: usize) -> bool {
        start < self.end && self.start < end
    }
}

/// What 15 asks of the order of entries, each given after the one before it: whether it may stand
/// behind the others.
trait Order {
    fn admits(&mut self, entry: Entry) -> bool;
}

/// 2.x: frame and id rise.
#[derive(Default)]
struct Sorted {
    last: Option<(u64, u16)>,
}

impl Order for Sorted {
    fn admits(&mut self, entry: Entry) -> bool {
        let key = Some(entry.key());
        key > self.last.replace(entry.key())
    }
}

/// 1.0: no frame falls, and none has an id twice.
struct Written {
    last: u64,
    /// The last frame of each id.
    frames: Vec<Option<u64>>,
}

impl Written {
    fn new(names: usize) -> Written {
        Written { last: 0, frames: vec![None; names] }
    }
}

impl Order for Written {
    fn admits(&mut self, entry: Entry) -> bool {
        let falls = entry.frame < self.last;
        self.last = entry.frame;
        let before = self.frames[usize::from(entry.id)].replace(entry.frame);
        !falls && before != Some(entry.frame)
    }
}

/// What the entries of an index are tested against.
struct Limits {
    version: Version,
    length: usize,
    names: usize,
    index: Block,
    names_block: Block,
}

/// The entries that are listed.
struct List<'a> {
    entries: &'a [[u8; SLOT]],
    frames: u64,
    /// The greatest of 256 and the ends of blocks and chunks.
    end: usize,
}

impl Limits {
    /// Numbers 12 to 18, entry by entry.
    fn list<'a>(&self, slots: &'a [[u8; SLOT]], mut order: impl Order) -> Answer<List<'a>> {
        let mut listed = 0;
        let mut frames = 0;
        let mut end = self.index.end.max(self.names_block.end);
        for slot in slots {
            let entry = Entry::read(slot);
            if entry.location == 0 {
                break;
            }
            if (entry.location as i64) < HEADER as i64 {
                return Err(12);
            }
            let size = self.version.size_of(entry.kind).ok_or(13_u64)?;
            if usize::from(entry.id) >= self.names {
                return Err(14);
            }
            if !order.admits(entry) {
                return Err(15);
            }
            let chunk_end = bytes_of(entry.n, entry.m, size)
                .and_then(|length| length.checked_add(entry.location))
                .filter(|&end| end <= self.length as u64)
                .ok_or(16_u64)? as usize;
            // Both blocks have bytes: one holds this entry, the other its name.
            let location = entry.location as usize;
            let blocks = [self.index, self.names_block];
            let meets = blocks.iter().any(|block| block.meets(location, chunk_end));
            if meets && location < chunk_end {
                return Err(17);
            }
            if entry.frame > GREATEST_FRAME {
                return Err(18);
            }
            end = end.max(chunk_end);
            frames = entry.frame + 1;
            listed += 1;
        }
        Ok(List { entries: &slots[..listed], frames, end })
    }
}

/// An image that opened.
struct Image<'a> {
    bytes: &'a [u8],
    version: Version,
    index: Block,
    entries: &'a [[u8; SLOT]],
    frames: u64,
    names_block: Block,
    names: Vec<&'a [u8]>,
    /// Where the name list ends, in its block.
    list_end: usize,
    /// The greatest of 256 and the ends of blocks and chunks.
    end: usize,
}

impl<'a> Image<'a> {
    fn open(bytes: &'a [u8]) -> Answer<Image<'a>> {
        Image::open_with(bytes, equal_pair)
    }

    fn open_with(bytes: &'a [u8], two_equal: fn(&[&[u8]]) -> bool) -> Answer<Image<'a>> {
        if bytes.len() < HEADER as usize {
            return Err(1);
        }
        if bytes.len() > LONGEST_IMAGE {
            return Err(2);
        }
        if bytes[..8] != MAGIC {
            return Err(3);
        }
        let version = Version::read(bytes).ok_or(4_u64)?;
        if !bytes[48..112].contains(&0) || !bytes[112..176].contains(&0) {
            return Err(5);
        }
        let index = Block::read(bytes, 8, SLOT).ok_or(6_u64)?;
        let names_block = Block::read(bytes, 24, SEGMENT).ok_or(7_u64)?;
        let both = index.count > 0 && names_block.count > 0;
        if both && index.meets(names_block.start, names_block.end) {
            return Err(8);
        }

        let block = &bytes[names_block.start..names_block.end];
        let (names, list_end) = match version {
            Version::V1_0 => segment_names(block)?,
            Version::V2_0 | Version::V2_1 => closed_names(block)?,
        };
        if names.len() > MOST_NAMES {
            return Err(10);
        }
        if two_equal(&names) {
            return Err(11);
        }

        let (slots, _) = bytes[index.start..index.end].as_chunks::<SLOT>();
        let limits =
            Limits { version, length: bytes.len(), names: names.len(), index, names_block };
        let list = match version {
            Version::V1_0 => limits.list(slots, Written::new(names.len()))?,
            Version::V2_0 | Version::V2_1 => limits.list(slots, Sorted::default())?,
        };
        Ok(Image {
            bytes,
            version,
            index,
            entries: list.entries,
            frames: list.frames,
            names_block,
            names,
            list_end,
            end: list.end,
        })
    }

    fn counts(&self) -> Counts {
        Counts {
            frames: self.frames,
            names: self.names.len() as u64,
            entries: self.entries.len() as u64,
        }
    }

    fn id_of(&self, name: &[u8]) -> Option<u16> {
        self.names.iter().position(|&listed| listed == name).map(|id| id as u16)
    }

    /// Frame and id, of a frame that is there and a name that is listed.
    fn key(&self, frame: u64, name: &[u8]) -> Answer<(u64, u16)> {
        if frame >= self.frames {
            return Err(40);
        }
        self.id_of(name).map(|id| (frame, id)).ok_or(41)
    }

    fn lookup(&self, frame: u64, name: &[u8]) -> Answer<Entry> {
        let key = self.key(frame, name)?;
        let key_at = |slot: &[u8; SLOT]| Entry::read(slot).key();
        let found = match self.version {
            Version::V1_0 => {
                let place = self.entries.partition_point(|slot| key_at(slot).0 < frame);
                let walked = self.entries[place..].iter().map(Entry::read);
                walked.take_while(|entry| entry.frame == frame).find(|entry| entry.key() == key)
            }
            Version::V2_0 | Version::V2_1 => {
                let place = self.entries.binary_search_by_key(&key, key_at).ok();
                place.map(|place| Entry::read(&self.entries[place]))
            }
        };
        found.ok_or(42)
    }

    /// The search of W-202, its probes counted: the middle one of the entries left, or the upper
    /// one of two (W-202 leaves that open, docs/DECISIONS.md does not), until none is left; then the
    /// first that is not below the key, whose place is found. In 1.0 that is the place of the frame,
    /// which is walked: up to the entry sought, or the first behind the frame. The standard
    /// library's search reads others.
    fn search(&self, key: (u64, u16)) -> Probes {
        let (least, most) = match self.version {
            Version::V1_0 => ((key.0, 0), usize::MAX),
            Version::V2_0 | Version::V2_1 => (key, 1),
        };
        let mut count = 0;
        let mut probe = |slot: &[u8; SLOT]| {
            count += 1;
            Entry::read(slot)
        };
        let place = halve(self.entries, |slot| probe(slot).key() < least);
        let mut walked = self.entries[place..].iter().take(most).map(probe);
        let last = walked.find(|entry| entry.frame != key.0 || entry.id == key.1);
        let found = last.is_some_and(|entry| entry.key() == key);
        Probes { count, answer: found.then_some(()).ok_or(42) }
    }

    /// The bytes of a listed chunk, which lies within the slice.
    fn data(&self, entry: Entry) -> &'a [u8] {
        chunk_of(self.bytes, self.version, entry).unwrap_or_default()
    }
}

/// Where slots, in whatever order, are halved to: the upper one of two in the middle is read, and
/// those before it or behind it are left by whether it is below.
fn halve(slots: &[[u8; SLOT]], mut below: impl FnMut(&[u8; SLOT]) -> bool) -> usize {
    let mut left = slots;
    let mut place = 0;
    while !left.is_empty() {
        let half = left.len() / 2;
        if below(&left[half]) {
            place += half + 1;
            left = &left[half + 1..];
        } else {
            left = &left[..half];
        }
    }
    place
}

/// The bytes of any entry's chunk; `None` where its type is not known or it ends beyond the slice.
fn chunk_of(bytes: &[u8], version: Version, entry: Entry) -> Option<&[u8]> {
    let length = bytes_of(entry.n, entry.m, version.size_of(entry.kind)?)?;
    let from = bytes.get(usize::try_from(entry.location).ok()?..)?;
    from.get(..usize::try_from(length).ok()?)
}

/// The names of a block of 1.0, one to a segment, and where their list ends.
fn segment_names(block: &[u8]) -> Answer<(Vec<&[u8]>, usize)> {
    let (segments, _) = block.as_chunks::<SEGMENT>();
    let listed = segments.iter().take_while(|segment| segment[0] != 0);
    let closed = listed.map(|segment| CStr::from_bytes_until_nul(segment).map(CStr::to_bytes));
    let names: Vec<_> = closed.collect::<Result<_, _>>().map_err(|_| 9_u64)?;
    let end = SEGMENT * names.len();
    Ok((names, end))
}

/// The closed names of a block of 2.x, and where their list ends.
fn closed_names(block: &[u8]) -> Answer<(Vec<&[u8]>, usize)> {
    let mut names = Vec::with_capacity(16);
    let mut at = 0;
    while block.get(at).is_some_and(|&first| first != 0) {
        let name = CStr::from_bytes_until_nul(&block[at..]).map_err(|_| 9_u64)?.to_bytes();
        at += name.len() + 1;
        names.push(name);
    }
    Ok((names, at))
}

/// Pair by pair, as document 01 has it: best for the few names of most images.
fn equal_pair(names: &[&[u8]]) -> bool {
    names.iter().enumerate().any(|(later, name)| names[..later].contains(name))
}

fn equal_in_table(names: &[&[u8]]) -> bool {
    let mut seen = HashSet::with_capacity(names.len());
    !names.iter().all(|name| seen.insert(name))
}

pub fn open(image: &[u8]) -> Answer<Counts> {
    Ok(Image::open(image)?.counts())
}

/// [`open`] with a hash table in place of the pairs; for the benchmark, to show what they cost.
pub fn open_with_table(image: &[u8]) -> Answer<Counts> {
    Ok(Image::open_with(image, equal_in_table)?.counts())
}

/// The n-th name, as a part of the image.
pub fn name(image: &[u8], n: u64) -> Answer<&[u8]> {
    let image = Image::open(image)?;
    usize::try_from(n).ok().and_then(|n| image.names.get(n).copied()).ok_or(44)
}

pub fn entry(image: &[u8], n: u64) -> Answer<Entry> {
    let image = Image::open(image)?;
    usize::try_from(n).ok().and_then(|n| image.entries.get(n)).map(Entry::read).ok_or(44)
}

pub fn lookup(image: &[u8], frame: u64, name: &[u8]) -> Answer<Entry> {
    Image::open(image)?.lookup(frame, name)
}

/// The bytes of a chunk, as a part of the image.
pub fn chunk<'a>(image: &'a [u8], frame: u64, name: &[u8]) -> Answer<&'a [u8]> {
    let image = Image::open(image)?;
    Ok(image.data(image.lookup(frame, name)?))
}

pub fn element(image: &[u8], frame: u64, name: &[u8], k: u64) -> Answer<Element> {
    let image = Image::open(image)?;
    let entry = image.lookup(frame, name)?;
    element_of(entry, image.data(entry), k)
}

/// Element k of an entry's chunk.
fn element_of(entry: Entry, data: &[u8], k: u64) -> Answer<Element> {
    // The chunk lies within the slice, so its number of elements does not wrap.
    if k >= entry.n * u64::from(entry.m) {
        return Err(43);
    }
    fn at<const SIZE: usize>(data: &[u8], k: u64) -> [u8; SIZE] {
        data.as_chunks().0[k as usize]
    }
    Ok(match entry.kind {
        1 | 11 => Element::Unsigned(u8::from_le_bytes(at(data, k)).into()),
        2 => Element::Unsigned(u16::from_le_bytes(at(data, k)).into()),
        3 => Element::Unsigned(u32::from_le_bytes(at(data, k)).into()),
        4 => Element::Unsigned(u64::from_le_bytes(at(data, k))),
        5 => Element::Signed(i8::from_le_bytes(at(data, k)).into()),
        6 => Element::Signed(i16::from_le_bytes(at(data, k)).into()),
        7 => Element::Signed(i32::from_le_bytes(at(data, k)).into()),
        8 => Element::Signed(i64::from_le_bytes(at(data, k))),
        9 => Element::Single(u32::from_le_bytes(at(data, k))),
        10 => Element::Double(u64::from_le_bytes(at(data, k))),
        _ => unreachable!("the chunk's type is known"),
    })
}

/// Whether elements of this type, back to back, hold a NaN.
fn holds_nan(kind: u8, data: &[u8]) -> bool {
    match kind {
        9 => any(data, |element| f32::from_le_bytes(element).is_nan()),
        10 => any(data, |element| f64::from_le_bytes(element).is_nan()),
        _ => false,
    }
}

/// All elements are looked at: without an early way out the loop compiles to vector code.
fn any<const SIZE: usize>(data: &[u8], test: impl Fn([u8; SIZE]) -> bool) -> bool {
    data.as_chunks().0.iter().fold(false, |found, &element| found | test(element))
}

/// Writes the NChilada file of a chunk of floats or doubles, all of it big-endian.
pub fn nchilada(image: &[u8], frame: u64, name: &[u8], step: f64, file: &mut [u8]) -> Answer<()> {
    let image = Image::open(image)?;
    let entry = image.lookup(frame, name)?;
    let data = image.data(entry);
    let Entry { n, m, kind, .. } = entry;
    if !matches!((kind, m), (9 | 10, 1 | 3)) {
        return Err(60);
    }
    if n == 0 {
        return Err(61);
    }
    if holds_nan(kind, data) {
        return Err(62);
    }
    let time = entry.frame as f64 * step;
    if !step.is_finite() || !time.is_finite() {
        return Err(63);
    }
    let extremes = 2 * data.len() / n as usize;
    if file.len() != NCHILADA_HEADER + extremes + data.len() {
        return Err(64);
    }

    let (header, rest) = file.split_at_mut(NCHILADA_HEADER);
    header[..4].copy_from_slice(&NCHILADA_MAGIC.to_be_bytes());
    header[4..12].copy_from_slice(&time.to_be_bytes());
    header[12..20].copy_from_slice(&n.to_be_bytes());
    header[20..24].copy_from_slice(&m.to_be_bytes());
    header[24..].copy_from_slice(&u32::from(kind).to_be_bytes());
    match kind {
        9 => put_columns(rest, data, m, f32::from_le_bytes, f32::to_be_bytes),
        _ => put_columns(rest, data, m, f64::from_le_bytes, f64::to_be_bytes),
    }
    Ok(())
}

/// Writes what follows the header of an NChilada file of one column or three.
fn put_columns<F: Copy + PartialOrd, const SIZE: usize>(
    to: &mut [u8],
    data: &[u8],
    columns: u32,
    read: impl Fn([u8; SIZE]) -> F,
    big_endian: impl Fn(F) -> [u8; SIZE],
) {
    let (elements, _) = data.as_chunks();
    let (to, _) = to.as_chunks_mut();
    let from = match columns {
        1 => put_extremes::<F, SIZE, 1>(to, elements, &read, big_endian),
        _ => put_extremes::<F, SIZE, 3>(to, elements, &read, big_endian),
    };
    for (to, &element) in to[from..].iter_mut().zip(elements) {
        *to = element;
        to.reverse();
    }
}

/// Writes the smallest value of each column, then the largest of each, and answers how many that are.
/// Of equal values, as zeros of both signs are, the first is kept.
fn put_extremes<F: Copy + PartialOrd, const SIZE: usize, const COLUMNS: usize>(
    to: &mut [[u8; SIZE]],
    elements: &[[u8; SIZE]],
    read: impl Fn([u8; SIZE]) -> F,
    big_endian: impl Fn(F) -> [u8; SIZE],
) -> usize {
    let (rows, _) = elements.as_chunks::<COLUMNS>();
    let mut smallest = rows[0].map(&read);
    let mut largest = smallest;
    for row in &rows[1..] {
        for (column, &element) in row.iter().enumerate() {
            let value = read(element);
            if value < smallest[column] {
                smallest[column] = value;
            }
            if largest[column] < value {
                largest[column] = value;
            }
        }
    }
    let extremes = smallest.into_iter().chain(largest);
    to.iter_mut().zip(extremes).for_each(|(to, value)| *to = big_endian(value));
    2 * COLUMNS
}

/// Writes the RawArray file of a chunk, its numbers little-endian.
pub fn rawarray_write(image: &[u8], frame: u64, name: &[u8], file: &mut [u8]) -> Answer<()> {
    let image = Image::open(image)?;
    let entry = image.lookup(frame, name)?;
    let data = image.data(entry);
    if file.len() != RAWARRAY_HEADER + data.len() {
        return Err(77);
    }
    let Entry { n, m, kind, .. } = entry;
    let code = match kind {
        5..=8 => 1,
        9 | 10 => 3,
        _ => 2,
    };
    let width = image.version.size_of(kind).unwrap_or_default();
    let words = [0, code, width, data.len() as u64, 2, m.into(), n].map(u64::to_le_bytes);
    let (header, rest) = file.split_at_mut(RAWARRAY_HEADER);
    let (magic, numbers) = header.split_at_mut(WORD);
    magic.copy_from_slice(RAWARRAY_MAGIC);
    numbers.copy_from_slice(words.as_flattened());
    rest.copy_from_slice(data);
    Ok(())
}

/// The chunk that a RawArray file holds.
struct Held<'f> {
    n: u64,
    m: u32,
    kind: u8,
    data: &'f [u8],
}

impl<'f> Held<'f> {
    fn of(file: &'f [u8]) -> Answer<Held<'f>> {
        let (front, rest) = file.split_at_checked(RAWARRAY_FRONT).ok_or(70_u64)?;
        if !front.starts_with(RAWARRAY_MAGIC) {
            return Err(71);
        }
        if u64_at(front, 8) != 0 {
            return Err(72);
        }
        let [code, width, length, dimensions] = [16, 24, 32, 40].map(|at| u64_at(front, at));
        let kind = match (code, width) {
            (2, 1) => 1,
            (2, 2) => 2,
            (2, 4) => 3,
            (2, 8) => 4,
            (1, 1) => 5,
            (1, 2) => 6,
            (1, 4) => 7,
            (1, 8) => 8,
            (3, 4) => 9,
            (3, 8) => 10,
            _ => return Err(73),
        };
        let places = match dimensions {
            1 => WORD,
            2 => 2 * WORD,
            _ => return Err(74),
        };
        let (shape, rest) = rest.split_at_checked(places).ok_or(74_u64)?;
        // The first dimension is the fast one; a single one is that of rows.
        let (m, n) = match dimensions {
            1 => (1, u64_at(shape, 0)),
            _ => (u64_at(shape, 0), u64_at(shape, WORD)),
        };
        let elements = u128::from(m) * u128::from(n);
        if elements.checked_mul(width.into()) != Some(length.into()) {
            return Err(75);
        }
        let length = usize::try_from(length).map_err(|_| 75_u64)?;
        let data = rest.get(..length).ok_or(75_u64)?;
        let m = u32::try_from(m).map_err(|_| 76_u64)?;
        Ok(Held { n, m, kind, data })
    }
}

/// Reads a RawArray file back into the sheet of one row.
pub fn rawarray_read(file: &[u8], name: &[u8], sheet: &mut [u8]) -> Answer<()> {
    let Held { n, m, kind, data } = Held::of(file)?;
    let name_length = match u8::try_from(name.len()) {
        Ok(length @ 1..) if !name.contains(&0) => length,
        _ => return Err(78),
    };
    let table = table_end(1);
    if sheet.len() != table + name.len() + data.len() {
        return Err(79);
    }
    let (row, bodies) = sheet.split_at_mut(table);
    row[..4].copy_from_slice(&1_u32.to_le_bytes());
    row[4..12].copy_from_slice(&n.to_le_bytes());
    row[12..16].copy_from_slice(&m.to_le_bytes());
    row[16..].copy_from_slice(&[kind, name_length, 0, 0]);
    let (text, body) = bodies.split_at_mut(name.len());
    text.copy_from_slice(name);
    body.copy_from_slice(data);
    Ok(())
}

pub fn probes(image: &[u8], frame: u64, name: &[u8]) -> Probes {
    match Image::open(image).and_then(|image| Ok((image.key(frame, name)?, image))) {
        Ok((key, image)) => image.search(key),
        Err(number) => Probes { count: 0, answer: Err(number) },
    }
}

/// What an image lists at a moment, to be asked for later without opening it again. Any numbers are
/// safe: what they say of an image that they were not made of is defined too.
#[derive(Clone, Copy, Debug, PartialEq, Eq)]
pub struct Reader {
    frames: u64,
    names: u64,
    entries: u64,
    index: u64,
    namelist: u64,
    /// Bytes of the list of names.
    size: u64,
    version: u64,
}

/// A reader and an image that it fits.
struct Fitting<'a> {
    image: &'a [u8],
    version: Version,
    frames: u64,
    /// At most so many names are listed.
    names: u64,
    list: &'a [u8],
    slots: &'a [[u8; SLOT]],
}

impl Reader {
    pub fn open(image: &[u8]) -> Answer<Reader> {
        let image = Image::open(image)?;
        let Counts { frames, names, entries } = image.counts();
        Ok(Reader {
            frames,
            names,
            entries,
            index: image.index.start as u64,
            namelist: image.names_block.start as u64,
            size: image.list_end as u64,
            version: image.version as u64,
        })
    }

    /// The last word is 0, and no call looks at it.
    pub fn words(self) -> [u64; READER_WORDS] {
        let Reader { frames, names, entries, index, namelist, size, version } = self;
        [frames, names, entries, index, namelist, size, version, 0]
    }

    pub fn of(words: [u64; READER_WORDS]) -> Reader {
        let [frames, names, entries, index, namelist, size, version, _] = words;
        Reader { frames, names, entries, index, namelist, size, version }
    }

    fn fit(self, image: &[u8]) -> Answer<Fitting<'_>> {
        let within = |start: u64, count: u64, unit: usize| {
            let start = usize::try_from(start).ok()?;
            let length = usize::try_from(count).ok()?.checked_mul(unit)?;
            image.get(start..)?.get(..length)
        };
        let fitting = || {
            let version = Version::new(self.version)?;
            let (slots, _) = within(self.index, self.entries, SLOT)?.as_chunks();
            let list = within(self.namelist, self.size, 1)?;
            let small = image.len() <= LONGEST_IMAGE && self.names <= MOST_NAMES as u64;
            let Reader { frames, names, .. } = self;
            small.then_some(Fitting { image, version, frames, names, list, slots })
        };
        fitting().ok_or(33)
    }

    pub fn name(self, image: &[u8], n: u64) -> Answer<&[u8]> {
        self.fit(image)?.names().nth(usize::try_from(n).unwrap_or(usize::MAX)).ok_or(44)
    }

    pub fn entry(self, image: &[u8], n: u64) -> Answer<Entry> {
        let slots = self.fit(image)?.slots;
        usize::try_from(n).ok().and_then(|n| slots.get(n)).map(Entry::read).ok_or(44)
    }

    pub fn id(self, image: &[u8], name: &[u8]) -> Answer<u64> {
        self.fit(image)?.id_of(name).map(u64::from)
    }

    pub fn find(self, image: &[u8], frame: u64, id: u64) -> Answer<Entry> {
        let image = self.fit(image)?;
        image.search(image.key(frame, id)?)
    }

    pub fn lookup(self, image: &[u8], frame: u64, name: &[u8]) -> Answer<Entry> {
        self.fit(image)?.lookup(frame, name)
    }

    /// The entry of the id in the newest frame that is not behind this one.
    pub fn newest(self, image: &[u8], frame: u64, id: u64) -> Answer<Entry> {
        let image = self.fit(image)?;
        let (frame, id) = image.key(frame, id)?;
        // One above the keys of this frame, or of this frame up to the id.
        let behind = match image.version {
            Version::V1_0 => (frame + 1, 0),
            Version::V2_0 | Version::V2_1 => (frame, id + 1),
        };
        let place = halve(image.slots, |slot| Entry::read(slot).key() < behind);
        let mut older = image.slots[..place].iter().rev().map(Entry::read);
        older.find(|entry| entry.id == id).ok_or(42)
    }

    /// The bytes of a chunk, as a part of the image.
    pub fn chunk<'a>(self, image: &'a [u8], frame: u64, name: &[u8]) -> Answer<&'a [u8]> {
        let image = self.fit(image)?;
        image.data(image.lookup(frame, name)?)
    }

    pub fn element(self, image: &[u8], frame: u64, name: &[u8], k: u64) -> Answer<Element> {
        let image = self.fit(image)?;
        let entry = image.lookup(frame, name)?;
        element_of(entry, image.data(entry)?, k)
    }
}

impl<'a> Fitting<'a> {
    fn names(&self) -> impl Iterator<Item = &'a [u8]> {
        let (segments, running) = match self.version {
            Version::V1_0 => (self.list, &[][..]),
            Version::V2_0 | Version::V2_1 => (&[][..], self.list),
        };
        let segments = segments.as_chunks::<SEGMENT>().0.iter();
        let segments = segments.take_while(|segment| segment[0] != 0);
        let until_zero = segments.filter_map(|segment| segment.split(|&byte| byte == 0).next());
        let running = running.split_inclusive(|&byte| byte == 0);
        let closed = running.map_while(|name| name.strip_suffix(&[0]));
        until_zero.chain(closed.take_while(|name| !name.is_empty())).take(self.names as usize)
    }

    /// Names are few, so an id has 16 bits.
    fn id_of(&self, name: &[u8]) -> Answer<u16> {
        self.names().position(|listed| listed == name).map(|id| id as u16).ok_or(41)
    }

    /// A frame and an id that are there, whether or not the list has so many names.
    fn key(&self, frame: u64, id: u64) -> Answer<(u64, u16)> {
        match id {
            _ if frame >= self.frames => Err(40),
            _ if id >= self.names => Err(41),
            _ => Ok((frame, id as u16)),
        }
    }

    fn lookup(&self, frame: u64, name: &[u8]) -> Answer<Entry> {
        if frame >= self.frames {
            return Err(40);
        }
        self.search((frame, self.id_of(name)?))
    }

    /// The slots may stand in any order, so it is the way of the search that says what is found.
    fn search(&self, key: (u64, u16)) -> Answer<Entry> {
        let (first, most) = match self.version {
            Version::V1_0 => (0, usize::MAX),
            Version::V2_0 | Version::V2_1 => (key.1, 1),
        };
        let place = halve(self.slots, |slot| Entry::read(slot).key() < (key.0, first));
        let walked = self.slots[place..].iter().take(most).map(Entry::read);
        walked.take_while(|entry| entry.frame == key.0).find(|entry| entry.id == key.1).ok_or(42)
    }

    fn data(&self, entry: Entry) -> Answer<&'a [u8]> {
        chunk_of(self.image, self.version, entry).ok_or(33)
    }
}

pub fn create(
    image: &mut [u8],
    application: &[u8],
    schema: &[u8],
    schema_version: u32,
    slots: u64,
    segments: u64,
) -> Answer<()> {
    if image.len() > LONGEST_IMAGE {
        return Err(2);
    }
    if slots > MOST_UNITS || segments > MOST_UNITS {
        return Err(50);
    }
    if [application, schema].iter().any(|text| text.len() > 63 || text.contains(&0)) {
        return Err(51);
    }
    let slots = if slots == 0 { 512 } else { slots };
    let segments = if segments == 0 { 16 } else { segments };
    let index_end = HEADER + SLOT as u64 * slots;
    let names = index_end.next_multiple_of(ALIGNMENT as u64);
    // As long as the alignment, segments end on a multiple of it too.
    let end = (names + SEGMENT as u64 * segments) as usize;
    let fresh = image.get_mut(..end).ok_or(52_u64)?;

    fresh[..index_end as usize].fill(0);
    fresh[names as usize..].fill(0);
    fresh[..8].copy_from_slice(&MAGIC);
    for (at, number) in [(8, HEADER), (16, slots), (24, names), (32, segments)] {
        fresh[at..at + 8].copy_from_slice(&number.to_le_bytes());
    }
    fresh[40..44].copy_from_slice(&schema_version.to_le_bytes());
    fresh[44..48].copy_from_slice(&(Version::V2_1 as u32).to_le_bytes());
    fresh[48..][..application.len()].copy_from_slice(application);
    fresh[112..][..schema.len()].copy_from_slice(schema);
    Ok(())
}

/// A row of an append sheet.
struct Row<'s> {
    kind: u8,
    name: &'s [u8],
    data: &'s [u8],
}

/// The rows of a sheet, by the types of the image's version.
fn rows(sheet: &[u8], version: Version) -> Answer<Vec<Row<'_>>> {
    let (count, rest) = sheet.split_first_chunk().ok_or(22_u64)?;
    let count = u32::from_le_bytes(*count) as usize;
    if count == 0 || count > MOST_ROWS {
        return Err(22);
    }
    let (table, mut bodies) = rest.split_at_checked(16 * count).ok_or(23_u64)?;
    let (table, _) = table.as_chunks::<16>();
    let bad =
        |row: &[u8; 16]| version.size_of(row[12]).is_none() || row[13] == 0 || row[14..] != [0, 0];
    if table.iter().any(bad) {
        return Err(24);
    }
    let mut rows = Vec::with_capacity(count);
    for row in table {
        let (n, m, kind) = (u64_at(row, 0), u32_at(row, 8), row[12]);
        let length = version.size_of(kind).and_then(|size| bytes_of(n, m, size)).ok_or(25_u64)?;
        let (name, rest) = bodies.split_at_checked(row[13].into()).ok_or(25_u64)?;
        let length = usize::try_from(length).map_err(|_| 25_u64)?;
        let (data, rest) = rest.split_at_checked(length).ok_or(25_u64)?;
        rows.push(Row { kind, name, data });
        bodies = rest;
    }
    if !bodies.is_empty() {
        return Err(25);
    }
    if rows.iter().any(|row| row.name.contains(&0)) {
        return Err(26);
    }
    let twice = |(later, row): (usize, &Row)| rows[..later].iter().any(|r| r.name == row.name);
    if rows.iter().enumerate().any(twice) {
        return Err(27);
    }
    if rows.iter().any(|row| holds_nan(row.kind, row.data)) {
        return Err(30);
    }
    Ok(rows)
}

/// Where an append stores what: numbers of the image and the sheet, no part of them.
#[derive(Clone, Debug)]
struct Plan {
    index: Block,
    entries: usize,
    frame: u64,
    names: Block,
    listed_names: usize,
    list_end: usize,
    moved_names: Option<Block>,
    moved_index: Option<Block>,
    rows: Vec<Placed>,
    /// Row numbers, by id.
    order: Vec<usize>,
}

/// A row: where in the sheet it is, its name and then its data, and where the data are stored.
#[derive(Clone, Copy, Debug)]
struct Placed {
    body: usize,
    name_length: usize,
    data_length: usize,
    location: usize,
    /// From the number of listed names on the name is new.
    id: usize,
}

impl Placed {
    fn name<'s>(&self, sheet: &'s [u8]) -> &'s [u8] {
        &sheet[self.body..][..self.name_length]
    }

    fn data<'s>(&self, sheet: &'s [u8]) -> &'s [u8] {
        &sheet[self.body + self.name_length..][..self.data_length]
    }
}

/// Where the bodies of so many rows start in a sheet.
fn table_end(rows: usize) -> usize {
    4 + 16 * rows
}

/// A block behind `position` that has room for `needed` bytes, in place of one that has not.
fn moved(old: Block, unit: usize, needed: usize, position: usize) -> Option<Block> {
    (needed > unit * old.count).then(|| {
        let start = position.next_multiple_of(ALIGNMENT);
        let mut count = 2 * old.count.max(1);
        while unit * count < needed {
            count *= 2;
        }
        Block { start, end: start + unit * count, count }
    })
}

impl Plan {
    fn new(image: &[u8], sheet: &[u8]) -> Answer<Plan> {
        let image = Image::open(image)?;
        if image.version == Version::V1_0 {
            return Err(20);
        }
        let (index, names) = (image.index, image.names_block);
        if index.start % WORD != 0 || names.start % WORD != 0 {
            return Err(21);
        }
        if image.frames > GREATEST_FRAME {
            return Err(31);
        }
        let rows = rows(sheet, image.version)?;

        let listed_names = image.names.len();
        let mut all_names = listed_names;
        let mut list_end = image.list_end;
        let mut body = table_end(rows.len());
        let mut position = image.end.next_multiple_of(ALIGNMENT);
        let mut placed = Vec::with_capacity(rows.len());
        for row in &rows {
            let (name_length, data_length) = (row.name.len(), row.data.len());
            let id = image.id_of(row.name).map_or_else(
                || {
                    list_end += name_length + 1;
                    all_names += 1;
                    all_names - 1
                },
                usize::from,
            );
            let location = position.next_multiple_of(ALIGNMENT);
            placed.push(Placed { body, name_length, data_length, location, id });
            position = location + data_length.next_multiple_of(WORD);
            body += name_length + data_length;
        }
        if all_names > MOST_NAMES {
            return Err(28);
        }
        let mut order: Vec<usize> = (0..placed.len()).collect();
        order.sort_unstable_by_key(|&row| placed[row].id);

        let moved_names = moved(names, SEGMENT, list_end, position);
        position = moved_names.map_or(position, |block| block.end);
        let listed = SLOT * (image.entries.len() + rows.len());
        let moved_index = moved(index, SLOT, listed, position);
        position = moved_index.map_or(position, |block| block.end);
        if position > image.bytes.len() {
            return Err(29);
        }
        Ok(Plan {
            index,
            entries: image.entries.len(),
            frame: image.frames,
            names,
            listed_names,
            list_end: image.list_end,
            moved_names,
            moved_index,
            rows: placed,
            order,
        })
    }

    /// The listed entries that step 5 copies, where there is one.
    fn copied(&self) -> u64 {
        self.moved_index.map_or(0, |_| self.entries as u64)
    }

    /// How many stores there are, and the header's words 8 to 32 after the first `done`.
    fn after(&self, sheet: &[u8], done: u64) -> (u64, [u64; 4]) {
        let (index, names) = (self.index, self.names);
        let header = [index.start, index.count, names.start, names.count];
        let mut counter = Writer { image: &mut [], make: done..done, given: 0, header };
        self.store(sheet, &mut counter);
        (counter.given, counter.header.map(|number| number as u64))
    }

    /// Gives the stores to a writer, in the paper's six steps.
    fn store(&self, sheet: &[u8], to: &mut Writer) {
        to.clear(self.index.start + SLOT * self.entries, self.index.end);
        to.clear(self.names.start + self.list_end, self.names.end);

        for row in &self.rows {
            to.text(row.location, row.data(sheet));
        }

        let mut names = self.names;
        if let Some(block) = self.moved_names {
            to.copy(names.start, self.list_end, block);
            to.number(24, block.start);
            to.number(32, block.count);
            names = block;
        }
        let mut at = names.start + self.list_end;
        for row in self.rows.iter().filter(|row| row.id >= self.listed_names) {
            to.name(at, row.name(sheet));
            at += row.name_length + 1;
        }

        let mut index = self.index;
        if let Some(block) = self.moved_index {
            to.copy(index.start, SLOT * self.entries, block);
            to.number(8, block.start);
            to.number(16, block.count);
            index = block;
        }
        for (place, &number) in self.order.iter().enumerate().rev() {
            let (row, table) = (&self.rows[number], &sheet[table_end(number)..]);
            let entry = Entry {
                frame: self.frame,
                n: u64_at(table, 0),
                location: row.location as u64,
                m: u32_at(table, 8),
                id: row.id as u16,
                kind: table[12],
                flags: 0,
            };
            to.entry(index.start + SLOT * (self.entries + place), entry.to_bytes());
        }
    }
}

/// Takes the stores of an append in their order and makes some of them. Only the slice at the call's
/// end is seen, so neighbours are made as one copy of as many words as are to be made.
struct Writer<'a> {
    image: &'a mut [u8],
    /// The numbers, from 0, of the stores to make; those before were made by turns before.
    make: Range<u64>,
    given: u64,
    /// The words 8 to 32, with what is stored there up to the end of `make`.
    header: [usize; 4],
}

impl Writer<'_> {
    /// Counts `words` stores and answers which of them to make, if any.
    fn take(&mut self, words: usize) -> Option<Range<usize>> {
        let first = self.given;
        self.given += words as u64;
        let [start, end] =
            [self.make.start, self.make.end].map(|at| at.clamp(first, self.given) - first);
        (start < end).then_some(start as usize..end as usize)
    }

    /// Clears from the word that holds `from`, keeping the bytes before it.
    fn clear(&mut self, from: usize, end: usize) {
        let first = from - from % WORD;
        if let Some(words) = self.take((end - first) / WORD) {
            self.image[from.max(first + WORD * words.start)..first + WORD * words.end].fill(0);
        }
    }

    /// Stores a text, padded with zeros to whole words.
    fn text(&mut self, at: usize, text: &[u8]) {
        if let Some(words) = self.take(text.len().div_ceil(WORD)) {
            let (start, end) = (WORD * words.start, WORD * words.end);
            let text = &text[start..end.min(text.len())];
            let (head, pad) = self.image[at + start..at + end].split_at_mut(text.len());
            head.copy_from_slice(text);
            pad.fill(0);
        }
    }

    /// Stores a whole new block: `length` bytes of the old one, then zeros.
    fn copy(&mut self, from: usize, length: usize, to: Block) {
        if let Some(words) = self.take((to.end - to.start) / WORD) {
            let (start, end) = (WORD * words.start, WORD * words.end);
            let copied = length.clamp(start, end);
            if start < copied {
                self.image.copy_within(from + start..from + copied, to.start + start);
            }
            self.image[to.start + copied..to.start + end].fill(0);
        }
    }

    /// Stores a name behind the list, from its highest word to its lowest.
    fn name(&mut self, at: usize, name: &[u8]) {
        let end = at + name.len();
        let (lowest, behind) = (at - at % WORD, end.next_multiple_of(WORD));
        if let Some(words) = self.take((behind - lowest) / WORD) {
            let from = at.max(behind - WORD * words.end);
            let until = end.min(behind - WORD * words.start);
            self.image[from..until].copy_from_slice(&name[from - at..until - at]);
        }
    }

    fn word(&mut self, at: usize, word: [u8; WORD]) {
        if self.take(1).is_some() {
            self.image[at..at + WORD].copy_from_slice(&word);
        }
    }

    /// Stores a word of the header.
    fn number(&mut self, at: usize, number: usize) {
        if self.given < self.make.end {
            self.header[at / WORD - 1] = number;
        }
        self.word(at, (number as u64).to_le_bytes());
    }

    /// Stores an entry, its location at last.
    fn entry(&mut self, at: usize, entry: [u8; SLOT]) {
        let (words, _) = entry.as_chunks::<WORD>();
        for word in [0, 1, 3, 2] {
            self.word(at + WORD * word, words[word]);
        }
    }
}

/// A begun append: what it expects, and how far its turns have gone.
#[derive(Clone, Debug)]
pub struct State {
    image_length: usize,
    sheet_length: usize,
    plan: Plan,
    done: u64,
}

/// Words of a state before those of its rows.
const STATE_HEAD: usize = 16;
/// Words of a row.
const STATE_ROW: usize = 6;

const _: () = assert!(STATE_HEAD + STATE_ROW * MOST_ROWS <= STATE_WORDS);

impl State {
    /// Zeros, which are the state of a refused beginning, stand behind the rows.
    pub fn words(&self) -> [u64; STATE_WORDS] {
        let State { image_length, sheet_length, ref plan, done } = *self;
        let places = |block: Block| [block.start, block.count];
        let [moved_names, moved_index] =
            [plan.moved_names, plan.moved_index].map(|block| block.map_or([0; 2], places));
        let head = [
            [image_length, sheet_length],
            places(plan.index),
            places(plan.names),
            moved_names,
            moved_index,
            [plan.entries, plan.rows.len()],
            [plan.listed_names, plan.list_end],
        ];
        let rows = plan.rows.iter().zip(&plan.order).flat_map(|(row, &number)| {
            let Placed { body, name_length, data_length, location, id } = *row;
            [body, name_length, data_length, location, id, number]
        });
        let numbers = head.into_iter().flatten().map(|number| number as u64);
        let numbers = numbers.chain([plan.frame, done]).chain(rows.map(|number| number as u64));
        let mut words = [0; STATE_WORDS];
        words.iter_mut().zip(numbers).for_each(|(word, number)| *word = number);
        words
    }

    /// Any words: those of no plan that keeps within an image and a sheet of its lengths are none.
    pub fn read(words: &[u64; STATE_WORDS]) -> Option<State> {
        let (head, rows) = words.split_first_chunk::<STATE_HEAD>()?;
        let [numbers @ .., frame, done] = *head;
        // Nothing that was planned is longer than the longest image, and none of these sums wraps.
        let most = 2 * LONGEST_IMAGE as u64;
        let small = |number: u64| (number <= most).then_some(number as usize);
        let [image_length, sheet_length] = [small(numbers[0])?, small(numbers[1])?];
        let block = |at: usize, unit: usize| {
            let block = Block::new(numbers[at], numbers[at + 1], unit, image_length)?;
            (block.start % WORD == 0).then_some(block)
        };
        let moved = |at: usize, unit: usize| match numbers[at + 1] {
            0 => Some(None),
            _ => block(at, unit).map(Some),
        };
        let (index, names) = (block(2, SLOT)?, block(4, SEGMENT)?);
        let (moved_names, moved_index) = (moved(6, SEGMENT)?, moved(8, SLOT)?);
        let [entries, count] = [small(numbers[10])?, small(numbers[11])?];
        let [listed_names, list_end] = [small(numbers[12])?, small(numbers[13])?];
        if count == 0 || count > MOST_ROWS || table_end(count) > sheet_length {
            return None;
        }

        let (rows, _) = rows.as_chunks::<STATE_ROW>();
        let mut placed = Vec::with_capacity(count);
        let mut order = Vec::with_capacity(count);
        let mut text = list_end;
        for row in &rows[..count] {
            let [body, name_length, data_length, location, id, number] = *row;
            let row = Placed {
                body: small(body)?,
                name_length: small(name_length)?,
                data_length: small(data_length)?,
                location: small(location)?,
                id: small(id)?,
            };
            let body_end = row.body + row.name_length + row.data_length;
            let data_end = row.location + row.data_length.next_multiple_of(WORD);
            let inside = body_end <= sheet_length && data_end <= image_length;
            if !inside || row.name_length == 0 || number >= count as u64 {
                return None;
            }
            if row.id >= listed_names {
                text += row.name_length + 1;
            }
            placed.push(row);
            order.push(number as usize);
        }
        let (slots, segments) = (moved_index.unwrap_or(index), moved_names.unwrap_or(names));
        let fits = entries <= index.count
            && list_end <= SEGMENT * names.count
            && entries + count <= slots.count
            && text <= SEGMENT * segments.count;
        let plan = Plan {
            index,
            entries,
            frame,
            names,
            listed_names,
            list_end,
            moved_names,
            moved_index,
            rows: placed,
            order,
        };
        fits.then_some(State { image_length, sheet_length, plan, done })
    }
}

/// Tests all that an append tests, and makes no store.
pub fn begin(image: &[u8], sheet: &[u8]) -> Answer<Begun> {
    let plan = Plan::new(image, sheet)?;
    let (whole, _) = plan.after(sheet, 0);
    let copied = plan.copied();
    let state = State { image_length: image.len(), sheet_length: sheet.len(), plan, done: 0 };
    Ok(Begun { state, whole, copied })
}

/// Makes the next stores of a begun append, `limit` at most, and answers how many. It opens nothing:
/// what it needs to know of the image and the sheet is in the state, but for the values it stores.
pub fn turn(state: &mut State, image: &mut [u8], sheet: &[u8], limit: u64) -> Answer<u64> {
    let State { image_length, sheet_length, ref plan, done } = *state;
    if (image.len(), sheet.len()) != (image_length, sheet_length) {
        return Err(32);
    }
    let (whole, header) = plan.after(sheet, done);
    if [8, 16, 24, 32].map(|at| u64_at(image, at)) != header {
        return Err(32);
    }
    let made = limit.min(whole.saturating_sub(done));
    let make = done..done + made;
    plan.store(sheet, &mut Writer { image, make, given: 0, header: [0; 4] });
    state.done += made;
    Ok(made)
}

/// The two joined.
pub fn append(image: &mut [u8], sheet: &[u8], limit: u64) -> Answer<Stores> {
    let Begun { mut state, whole, copied } = begin(image, sheet)?;
    let done = turn(&mut state, image, sheet, limit)?;
    Ok(Stores { done, whole, copied })
}
