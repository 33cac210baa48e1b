//! Images and sheets written field by field, lawful or not.

use std::collections::BTreeSet;

pub const MAGIC: [u8; 8] = [0xDF, 0x65, 0xDF, 0x65, 0xDF, 0x65, 0xDF, 0x65];

pub const V1_0: u32 = 0x0001_0000;
pub const V2_0: u32 = 0x0002_0000;
pub const V2_1: u32 = 0x0002_0001;

/// Those that open.
pub const VERSIONS: [u32; 3] = [V1_0, V2_0, V2_1];

/// Those that take appends.
pub const GROWING: [u32; 2] = [V2_0, V2_1];

pub const SEGMENT: usize = 64;

/// No image that opens has a frame above.
pub const GREATEST_FRAME: u64 = 4_294_967_294;

/// Of so many frames those to look at: the ones that entries name, those next to them, the ends and
/// the middle. Two entries can make 4,294,967,295 frames, so nothing may go from frame to frame.
pub fn frames_to_ask(named: &[u64], frames: u64) -> BTreeSet<u64> {
    let near = |&frame: &u64| [frame.saturating_sub(1), frame, frame.saturating_add(1)];
    let others = [0, frames / 2, frames.saturating_sub(1)];
    named.iter().flat_map(near).chain(others).filter(|&frame| frame < frames).collect()
}

pub fn put16(bytes: &mut [u8], at: usize, number: u16) {
    bytes[at..at + 2].copy_from_slice(&number.to_le_bytes());
}

pub fn put32(bytes: &mut [u8], at: usize, number: u32) {
    bytes[at..at + 4].copy_from_slice(&number.to_le_bytes());
}

pub fn put64(bytes: &mut [u8], at: usize, number: u64) {
    bytes[at..at + 8].copy_from_slice(&number.to_le_bytes());
}

pub fn get64(bytes: &[u8], at: usize) -> u64 {
    u64::from_le_bytes(bytes[at..at + 8].try_into().unwrap())
}

/// The version that a header says; 0 where the slice has none.
pub fn version(image: &[u8]) -> u32 {
    image.get(44..48).map_or(0, |bytes| u32::from_le_bytes(bytes.try_into().unwrap()))
}

/// `length` bytes of version 2.1, zero but for a header that says where the blocks are.
pub fn blank(length: usize, index: u64, slots: u64, names: u64, segments: u64) -> Vec<u8> {
    let mut image = vec![0; length];
    header(&mut image, index, slots, names, segments);
    image
}

pub fn header(image: &mut [u8], index: u64, slots: u64, names: u64, segments: u64) {
    image[..256].fill(0);
    image[..8].copy_from_slice(&MAGIC);
    for (at, number) in [(8, index), (16, slots), (24, names), (32, segments)] {
        put64(image, at, number);
    }
    put32(image, 44, V2_1);
}

/// Bytes that a name takes in a list: in 1.0 a segment, else its own and a zero.
pub fn room(version: u32, name: &[u8]) -> usize {
    match version {
        V1_0 => SEGMENT,
        _ => name.len() + 1,
    }
}

/// Segments that names need in an image of this version.
pub fn segments_for(version: u32, names: &[impl AsRef<[u8]>]) -> usize {
    names.iter().map(|name| room(version, name.as_ref())).sum::<usize>().div_ceil(SEGMENT)
}

/// Writes names, each with its zero, as the image's version lists them, and answers where their list
/// ends.
pub fn put_names<'a>(
    image: &mut [u8],
    at: usize,
    names: impl IntoIterator<Item = &'a [u8]>,
) -> usize {
    let version = version(image);
    names.into_iter().fold(at, |at, name| {
        image[at..][..name.len()].copy_from_slice(name);
        image[at + name.len()] = 0;
        assert!(name.len() < room(version, name), "a name of 1.0 has at most 63 bytes");
        at + room(version, name)
    })
}

/// An index entry as it lies in the image.
#[derive(Clone, Copy, Debug)]
pub struct Slot {
    pub frame: u64,
    pub n: u64,
    pub location: u64,
    pub m: u32,
    pub id: u16,
    pub kind: u8,
    pub flags: u8,
}

impl Slot {
    /// N bytes of type u8.
    pub fn bytes(frame: u64, id: u16, location: u64, n: u64) -> Slot {
        Slot { frame, n, location, m: 1, id, kind: 1, flags: 0 }
    }

    pub fn put(self, image: &mut [u8], at: usize) {
        put64(image, at, self.frame);
        put64(image, at + 8, self.n);
        put64(image, at + 16, self.location);
        put32(image, at + 24, self.m);
        put16(image, at + 28, self.id);
        image[at + 30] = self.kind;
        image[at + 31] = self.flags;
    }

    /// The numbers that a lookup answers.
    pub fn fields(self) -> [u64; 7] {
        let Slot { frame, n, location, m, id, kind, flags } = self;
        [frame, n, location, m.into(), id.into(), kind.into(), flags.into()]
    }
}

pub fn put_slots(image: &mut [u8], at: usize, slots: &[Slot]) {
    for (number, slot) in slots.iter().enumerate() {
        slot.put(image, at + 32 * number);
    }
}

/// The entries that an image lists: its slots up to the first with location 0.
pub fn listed(image: &[u8]) -> u64 {
    let (index, slots) = (get64(image, 8) as usize, get64(image, 16) as usize);
    let slots = image.get(index..).unwrap_or_default().chunks_exact(32).take(slots);
    slots.take_while(|slot| get64(slot, 16) != 0).count() as u64
}

/// What a search must probe that finds nothing in a frame: of 1.0 its entries, and those next to
/// them; else none of it, and one at least beside the place.
pub fn around(image: &[u8], entries: u64, frame: u64) -> (u64, u64) {
    if version(image) != V1_0 {
        return (0, 1);
    }
    let index = get64(image, 8) as usize;
    let slots = image.get(index..).unwrap_or_default().chunks_exact(32).take(entries as usize);
    let frames: Vec<u64> = slots.map(|slot| get64(slot, 0)).collect();
    let inside = frames.iter().filter(|&&other| other == frame).count() as u64;
    let [before, behind] = [frames.first() < Some(&frame), frames.last() > Some(&frame)];
    (inside, u64::from(before) + u64::from(behind))
}

/// A row of an append sheet.
#[derive(Clone, Debug)]
pub struct Row {
    pub name: Vec<u8>,
    pub kind: u8,
    pub n: u64,
    pub m: u32,
    pub data: Vec<u8>,
}

impl Row {
    pub fn new(name: &[u8], kind: u8, n: u64, m: u32, data: &[u8]) -> Row {
        Row { name: name.to_vec(), kind, n, m, data: data.to_vec() }
    }

    /// One column of bytes.
    pub fn bytes(name: &[u8], data: &[u8]) -> Row {
        Row::new(name, 1, data.len() as u64, 1, data)
    }

    pub fn holds_nan(&self) -> bool {
        holds_nan(self.kind, &self.data)
    }
}

/// The types whose elements can be NaNs, float and double.
pub const FLOATS: [u8; 2] = [9, 10];

/// Whether one of the elements of a chunk is a NaN.
pub fn holds_nan(kind: u8, data: &[u8]) -> bool {
    FLOATS.contains(&kind) && data.chunks_exact(size(kind)).any(is_nan)
}

/// Of a float's four bytes or a double's eight: without its sign, a NaN lies above infinity.
pub fn is_nan(element: &[u8]) -> bool {
    match *element {
        [a, b, c, d] => u32::from_le_bytes([a, b, c, d]) & 0x7FFF_FFFF > 0x7F80_0000,
        _ => get64(element, 0) & 0x7FFF_FFFF_FFFF_FFFF > 0x7FF0_0000_0000_0000,
    }
}

/// How long the NChilada file of a chunk is, by the fields of its entry; where it has none, by its type
/// or M, not longer than can be lent at once.
pub fn file_length([_, n, _, m, _, kind, _]: [u64; 7]) -> usize {
    let row = u128::from(m) * size(kind as u8) as u128;
    let length = 28 + (2 + u128::from(n)) * row;
    let most = if matches!((kind, m), (9 | 10, 1 | 3)) { length } else { 4096 };
    length.min(most) as usize
}

/// How long the RawArray file of a chunk is, by the fields of its entry.
pub fn array_length([_, n, _, m, _, kind, _]: [u64; 7]) -> usize {
    64 + n.wrapping_mul(m) as usize * size(kind as u8)
}

pub fn sheet(rows: &[Row]) -> Vec<u8> {
    let mut sheet = (rows.len() as u32).to_le_bytes().to_vec();
    for row in rows {
        sheet.extend(row.n.to_le_bytes());
        sheet.extend(row.m.to_le_bytes());
        sheet.extend([row.kind, row.name.len() as u8, 0, 0]);
    }
    for row in rows {
        sheet.extend(&row.name);
        sheet.extend(&row.data);
    }
    sheet
}

/// The rows of a sheet that none of 22 to 27 refuses by the types of this version.
pub fn lawful_rows(sheet: &[u8], version: u32) -> Option<Vec<Row>> {
    let count = u32::from_le_bytes(sheet.get(..4)?.try_into().unwrap()) as usize;
    if !(1..=64).contains(&count) {
        return None;
    }
    let (table, mut bodies) = sheet[4..].split_at_checked(16 * count)?;
    let mut rows: Vec<Row> = Vec::new();
    for row in table.chunks(16) {
        let (n, m) = (get64(row, 0), u32::from_le_bytes(row[8..12].try_into().unwrap()));
        let length = u128::from(n) * u128::from(m) * size(row[12]) as u128;
        let (name, rest) = bodies.split_at_checked(row[13].into())?;
        let (data, rest) = rest.split_at_checked(usize::try_from(length).ok()?)?;
        let good = known(version, row[12]) && row[14..] == [0, 0];
        let new = !rows.iter().any(|before| before.name == name);
        if !good || !new || name.is_empty() || name.contains(&0) {
            return None;
        }
        rows.push(Row::new(name, row[12], n, m, data));
        bodies = rest;
    }
    bodies.is_empty().then_some(rows)
}

/// The types that an image of this version may hold are 1 to this one.
pub fn last_type(version: u32) -> u8 {
    if version == V2_1 {
        11
    } else {
        10
    }
}

fn known(version: u32, kind: u8) -> bool {
    (1..=last_type(version)).contains(&kind)
}

/// Bytes of an element of a type; 0 for one that no version knows.
pub fn size(kind: u8) -> usize {
    [0, 1, 2, 4, 8, 1, 2, 4, 8, 4, 8, 1].get(usize::from(kind)).copied().unwrap_or(0)
}
