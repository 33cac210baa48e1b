//! Random images and sheets: lawful, odd and damaged; made as the library makes them now, and as
//! it did before W-211.

use crate::ask::Ask;
use crate::images::{
    array_length, blank, file_length, get64, is_nan, last_type, put16, put32, put64, put_names,
    put_slots, room, segments_for, sheet, size, version, Row, Slot, FLOATS, GREATEST_FRAME,
    GROWING, SEGMENT, V1_0, V2_1, VERSIONS,
};
use crate::library::{Create, Library, Reference};
use crate::model::EARLIER;
use crate::random::Rng;
use crate::reference;

/// Names whose lengths lie around words and segments; some begin alike.
const NAMES: [&[u8]; 20] = [
    b"a",
    b"b",
    b"ab",
    b"abc",
    b"fan",
    b"probe",
    b"heater",
    b"setting",
    b"position",
    b"positions",
    b"po",
    b"\xC3\xA4\xE2\x82\xAC",
    b"\xFF",
    b"fifteen bytes..",
    b"sixteen bytes...",
    b"seventeen bytes..",
    &[b'x'; 62],
    &[b'x'; 63],
    &[b'x'; 64],
    &[b'y'; 255],
];

pub fn name(rng: &mut Rng) -> Vec<u8> {
    match rng.below(10) {
        0 => (0..rng.between(1, 24)).map(|_| rng.byte().max(1)).collect(),
        // Long ones are rarer, they fill small images at once.
        1 => rng.pick(&NAMES).to_vec(),
        _ => rng.pick(&NAMES[..16]).to_vec(),
    }
}

/// Different names.
pub fn names(rng: &mut Rng, count: usize) -> Vec<Vec<u8>> {
    let mut names = Vec::new();
    while names.len() < count {
        let next = name(rng);
        if !names.contains(&next) {
            names.push(next);
        }
    }
    names
}

/// Different names that segments hold; some fill theirs.
pub fn short_names(rng: &mut Rng, count: usize) -> Vec<Vec<u8>> {
    let mut names = Vec::new();
    while names.len() < count {
        let next = match rng.below(8) {
            0 => (0..63).map(|_| rng.byte().max(1)).collect(),
            1 => rng.pick(&NAMES[16..18]).to_vec(),
            _ => name(rng),
        };
        if next.len() < SEGMENT && !names.contains(&next) {
            names.push(next);
        }
    }
    names
}

/// The first frames, those about the last one that opens, and those with which 65,536 times the
/// frame wraps in 64 bits.
const FRAMES: [u64; 13] = [
    0,
    1,
    2,
    3,
    GREATEST_FRAME - 2,
    GREATEST_FRAME - 1,
    GREATEST_FRAME,
    GREATEST_FRAME + 1,
    GREATEST_FRAME + 2,
    1 << 48,
    (1 << 48) + 1,
    1 << 63,
    u64::MAX,
];

/// Frame and id of at most so many entries, rising: mostly frame after frame, with some left out at
/// the start, in the middle, or up to one of the last.
fn keys(rng: &mut Rng, most: usize, names: usize) -> Vec<(u64, u16)> {
    let mut keys: Vec<(u64, usize)> = Vec::new();
    while keys.len() < most && names > 0 && rng.chance(80) {
        let least = keys.last().map_or(0, |key| key.0 + 1);
        let in_frame = keys.last().map(|&(frame, id)| (frame, id + 1 + rng.below(2)));
        match in_frame.filter(|&(_, id)| id < names && rng.chance(70)) {
            Some(key) => keys.push(key),
            None if least > GREATEST_FRAME => break,
            None => keys.push((frame_from(rng, least), rng.below(names))),
        }
    }
    keys.into_iter().map(|(frame, id)| (frame, id as u16)).collect()
}

/// Puts entries into any order within their frames, as 1.0 has them.
pub fn shuffle_frames<T>(rng: &mut Rng, entries: &mut [T], frame: impl Fn(&T) -> u64) {
    for entries in entries.chunk_by_mut(|a, b| frame(a) == frame(b)) {
        rng.shuffle(entries);
    }
}

/// A frame that opens, at least this one.
fn frame_from(rng: &mut Rng, least: u64) -> u64 {
    let frame = match rng.below(12) {
        0 => least + 1,
        1 => least + rng.below(4) as u64,
        2 => GREATEST_FRAME - rng.below(4) as u64,
        3 => least + (rng.number() >> rng.between(32, 60)),
        _ => least,
    };
    frame.clamp(least, GREATEST_FRAME)
}

/// A version that opens, 1.0 with such a chance.
pub fn some_version(rng: &mut Rng, percent: usize) -> u32 {
    if rng.chance(percent) {
        V1_0
    } else {
        rng.pick(&GROWING)
    }
}

/// A version that opens, one near it, or any.
pub fn odd_version(rng: &mut Rng) -> u32 {
    match rng.below(6) {
        0 => rng.pick(&[V2_1 + 1, V1_0 + 1, V1_0 - 1, 0x0003_0000, 0, u32::MAX]),
        1 => rng.pick(&VERSIONS) ^ 1 << rng.below(32),
        2 => rng.number() as u32,
        _ => rng.pick(&VERSIONS),
    }
}

/// A type that not every version knows, or none does, or any.
fn odd_kind(rng: &mut Rng) -> u8 {
    match rng.below(3) {
        0 => 11,
        1 => rng.pick(&[0, 12, 13, 255]),
        _ => rng.below(14) as u8,
    }
}

/// A fresh image of a random shape, dirty behind its blocks.
pub fn fresh(rng: &mut Rng) -> Vec<u8> {
    let mut image = growing(rng);
    if rng.chance(8) {
        put32(&mut image, 44, V1_0);
    }
    image
}

/// The same, of a version that takes appends.
pub fn growing(rng: &mut Rng) -> Vec<u8> {
    made(rng, Maker::Now)
}

/// Who makes an image by create and appends.
#[derive(Clone, Copy)]
enum Maker {
    Now,
    /// The library before W-211, with all starts on multiples of 8.
    Earlier,
}

impl Maker {
    fn library(self) -> &'static dyn Library {
        match self {
            Maker::Now => &Reference,
            Maker::Earlier => &EARLIER,
        }
    }

    fn alignment(self) -> usize {
        match self {
            Maker::Now => 64,
            Maker::Earlier => 8,
        }
    }
}

fn made(rng: &mut Rng, by: Maker) -> Vec<u8> {
    let slots = rng.pick(&[1, 1, 2, 3, 4, 7, 16]);
    let segments = rng.pick(&[1, 1, 2, 3, 5]);
    let used = (256_usize + 32 * slots).next_multiple_of(by.alignment()) + 64 * segments;
    let behind = rng.pick(&[0, 8, 100, 500, 1000, 3000]) + rng.below(64);
    let mut image = rng.bytes(used + behind);
    let texts = [rng.below(64), rng.below(64)].map(|length| vec![b't'; length]);
    let request = Create {
        application: &texts[0],
        schema: &texts[1],
        schema_version: rng.number() as u32,
        slots: slots as u64,
        segments: segments as u64,
    };
    assert_eq!(by.library().create(&mut image, request), 0);
    put32(&mut image, 44, rng.pick(&GROWING));
    image
}

/// N, M and type of a chunk of at most `room` bytes.
fn shape(rng: &mut Rng, version: u32, room: usize) -> (u64, u32, u8) {
    let kind = rng.between(1, last_type(version).into()) as u8;
    let columns = rng.pick(&[1, 1, 1, 2, 3, 4]);
    match rng.below(12) {
        // Honestly empty, however large the other number is.
        0 => (rng.border(), 0, kind),
        1 => (0, rng.number() as u32, kind),
        2 => (0, 1, kind),
        _ => (rng.below(room / (size(kind) * columns) + 1) as u64, columns as u32, kind),
    }
}

/// A row of random data without NaNs.
pub fn row(rng: &mut Rng, version: u32, name: Vec<u8>) -> Row {
    let room = rng.pick(&[9, 17, 40, 100]);
    let (n, m, kind) = shape(rng, version, room);
    let data = rng.bytes((n.wrapping_mul(m.into()) as usize).wrapping_mul(size(kind)));
    let mut row = Row { name, kind, n, m, data };
    make_numbers(&mut row);
    row
}

/// Makes numbers of a row's NaNs, by the highest bit of their exponent.
fn make_numbers(row: &mut Row) {
    if FLOATS.contains(&row.kind) {
        let nans = row.data.chunks_exact_mut(size(row.kind)).filter(|element| is_nan(element));
        nans.for_each(|element| *element.last_mut().unwrap() ^= 0x40);
    }
}

/// The sign of a float or a double, the bits of its fraction, and infinity.
fn float_format(size: usize) -> (u64, usize, u64) {
    let (sign, fraction) = if size == 4 { (1 << 31, 23) } else { (1 << 63, 52) };
    (sign, fraction, (sign - 1) >> fraction << fraction)
}

/// A float's or a double's bits about the borders between numbers, infinities and NaNs.
fn border_bits(rng: &mut Rng, size: usize) -> u64 {
    let (sign, fraction, infinity) = float_format(size);
    let quiet = 1 << (fraction - 1);
    let any = rng.number() % (1 << fraction);
    let bits = match rng.below(10) {
        0 => infinity - 1,
        1 => infinity,
        2 => infinity + 1,
        3 => infinity + quiet - 1,
        4 => infinity + quiet + rng.below(2) as u64,
        5 => sign - 1,
        // One bit of the fraction: of a double's low half too.
        6 => infinity + (1 << rng.below(fraction)),
        7 => infinity + any,
        // A bit of the exponent is missing.
        8 => infinity - (1 << (fraction + rng.below(8))) + any,
        _ => rng.below(2) as u64,
    };
    bits + rng.pick(&[0, sign])
}

/// Puts such bits into a row of any type, as long as an element of it where that has four or eight
/// bytes: as the first, the last or any element; or across two, so that they are none.
fn put_border(rng: &mut Rng, row: &mut Row) {
    let width = match size(row.kind) {
        size @ (4 | 8) => size,
        _ => rng.pick(&[4, 8]),
    };
    let Some(last) = (row.data.len() / width).checked_sub(1) else {
        return;
    };
    let element = match rng.below(4) {
        0 => 0,
        1 => last,
        _ => rng.below(last + 1),
    };
    let across = rng.chance(25);
    let at = width * element + if across { rng.between(1, width - 1) } else { 0 };
    let bits = border_bits(rng, width).to_le_bytes();
    // Across the row's end as many bytes as it has.
    let places = row.data[at..].iter_mut();
    places.zip(&bits[..width]).for_each(|(place, bit)| *place = *bit);
    if across {
        make_numbers(row);
    }
}

/// The bits of a number, of the kinds that are compared wrongly: zeros, the least and the greatest,
/// infinities, neighbours, and any.
fn number_bits(rng: &mut Rng, size: usize) -> u64 {
    let (sign, fraction, infinity) = float_format(size);
    let one = infinity >> fraction >> 1 << fraction;
    let near = rng.below(3) as u64;
    let bits = match rng.below(9) {
        0 | 1 => 0,
        2 => near,
        3 => infinity - near,
        4 => (1 << fraction) + near - 1,
        // By the last bits, or by one that a double's high half or a float still has.
        5 => one + near,
        6 => one + (near << rng.pick(&[fraction - 23, fraction - 20])),
        7 => rng.number() % (1 << fraction),
        _ => rng.number() % infinity,
    };
    bits + rng.pick(&[0, sign])
}

/// A row for a file: mostly of floats or doubles, in one column or three, of few different values;
/// sometimes with a NaN or what is next to one.
fn float_row(rng: &mut Rng, version: u32, name: &[u8]) -> Row {
    let kind = match rng.below(8) {
        0 => rng.between(1, last_type(version).into()) as u8,
        _ => rng.pick(&FLOATS),
    };
    let m = match rng.below(12) {
        0 => rng.pick(&[0, 2, 4, 5]),
        1 => rng.pick(&[257, 259, (1 << 16) + 1, (1 << 24) + 3, u32::MAX]),
        2..=6 => 1,
        _ => 3,
    };
    let n = match rng.below(24) {
        _ if m > 300 => 0,
        _ if m > 5 => rng.below(2),
        0 | 1 => 0,
        2 => rng.between(9, 70),
        3 if rng.chance(10) => rng.between(70, 600),
        _ => rng.between(1, 8),
    };
    let size = size(kind);
    let few: Vec<u64> = (0..rng.between(1, 5)).map(|_| number_bits(rng, size)).collect();
    let mut data = Vec::new();
    for _ in 0..n * m as usize {
        let bits = if rng.chance(85) { rng.pick(&few) } else { number_bits(rng, size) };
        data.extend(&bits.to_le_bytes()[..size]);
    }
    let mut row = Row::new(name, kind, n as u64, m, &data);
    if rng.chance(30) {
        put_border(rng, &mut row);
    }
    row
}

/// An image of such chunks, at odd places, with frames left out, up to the greatest one.
pub fn float_image(rng: &mut Rng) -> Layout {
    let version = some_version(rng, 30);
    let count = rng.between(1, 4);
    let names = short_names(rng, count);
    let most = rng.between(1, 6);
    let mut keys = keys(rng, most, count);
    if version == V1_0 {
        shuffle_frames(rng, &mut keys, |key| key.0);
    }
    let (slots, segments) = (keys.len() + rng.below(2), segments_for(version, &names));
    let (list, data) = (256 + 32 * slots, 256 + 32 * slots + SEGMENT * segments);
    let mut image = blank(data, 256, slots as u64, list as u64, segments as u64);
    put32(&mut image, 44, version);
    let list_end = put_names(&mut image, list, names.iter().map(Vec::as_slice));
    for (slot, &(frame, id)) in keys.iter().enumerate() {
        let Row { kind, n, m, data, .. } = float_row(rng, version, &names[usize::from(id)]);
        let gap = rng.below(9);
        image.extend(rng.bytes(gap));
        let location = image.len() as u64;
        Slot { frame, n, location, m, id, kind, flags: 0 }.put(&mut image, 256 + 32 * slot);
        image.extend(data);
    }
    if rng.chance(50) {
        let behind = rng.below(40);
        image.extend(rng.bytes(behind));
    }
    let (index, name_block) = ((256, 32 * slots), (list, SEGMENT * segments));
    Layout { image, names, version, index, name_block, entries: keys.len(), list_end }
}

/// A step in seconds: mostly one with a finite time, some about the greatest of these in this frame.
pub fn step(rng: &mut Rng, frame: u64) -> f64 {
    let sign = rng.pick(&[0, 0, 1 << 63]);
    let bits = match rng.below(12) {
        0 => border_bits(rng, 8),
        1 => (f64::MAX / frame.max(1) as f64).to_bits() - 2 + rng.below(5) as u64,
        2 => number_bits(rng, 8),
        3 => rng.number(),
        4 => rng.pick(&[0, 1, 1 << 52, 1 << 51]),
        5 | 6 => rng.pick(&[1.0, 60.0, 0.1, 2.5, 1e-3, 1.7e308_f64]).to_bits(),
        // From 2^-31 on, below 2^33.
        _ => (992 << 52) + rng.number() % (64 << 52),
    };
    f64::from_bits(bits ^ sign)
}

/// The length of a slice for the file of an entry: mostly the file's own.
pub fn some_length(rng: &mut Rng, entry: [u64; 7]) -> usize {
    let length = file_length(entry);
    match rng.below(12) {
        0 => length - 1,
        1 => length + 1,
        2 => rng.pick(&[0, 1, 27, 28, 29, length - 4, length + 4, length - 28, 2 * length]),
        3 => rng.below(2 * length),
        _ => length,
    }
}

/// A length of a slice for what has this one, at least 20: mostly that.
fn near_length(rng: &mut Rng, length: usize) -> usize {
    match rng.below(12) {
        0 => length - 1,
        1 => length + 1,
        2 => rng.pick(&[0, 1, 19, 20, 56, 63, 64, length - 8, length + 8, length + 256]),
        3 => rng.below(2 * length),
        4 => length.saturating_sub(256),
        _ => length,
    }
}

/// The length of a slice for the RawArray file of an entry: mostly the file's own.
pub fn some_array_length(rng: &mut Rng, entry: [u64; 7]) -> usize {
    near_length(rng, array_length(entry))
}

/// Types and widths of elements that become ours.
const ARRAY_TYPES: [(u64, u64); 10] =
    [(2, 1), (2, 2), (2, 4), (2, 8), (1, 1), (1, 2), (1, 4), (1, 8), (3, 4), (3, 8)];

/// A word in place of this one: next to it, with a bit more, small, or near a border.
fn odd_word(rng: &mut Rng, word: u64) -> u64 {
    match rng.below(6) {
        0 => word.wrapping_add(1),
        1 => word.wrapping_sub(1),
        2 => word ^ 1 << rng.pick(&[8, 32, 63]),
        3 => word ^ 1 << rng.below(64),
        4 => rng.below(20) as u64,
        _ => rng.border(),
    }
}

/// A file of one dimension or two, mostly with something that is wrong or next to it: an odd type, width
/// or shape, a product that would wrap to the data's length, bytes behind the data or too few of them.
pub fn array_file(rng: &mut Rng) -> Vec<u8> {
    let (mut code, mut width) = rng.pick(&ARRAY_TYPES);
    match rng.below(24) {
        0 => code = rng.below(7) as u64,
        1 => width = rng.pick(&[0, 1, 2, 3, 5, 6, 7, 16, 80]),
        2 => code = odd_word(rng, code),
        3 => width = odd_word(rng, width),
        _ => {}
    }
    let mut dimensions = rng.pick(&[1, 2, 2]);
    let mut m = if dimensions == 1 { 1 } else { rng.pick(&[0, 1, 2, 3, 4, 5, 8]) };
    let mut n = rng.below(7) as u64;
    let small = n.wrapping_mul(m).wrapping_mul(width);
    let mut length = if small < 500 { small } else { rng.below(40) as u64 };
    let mut data = rng.bytes(length as usize);
    if rng.chance(10) {
        data.fill(0xFF);
    }
    // What makes a product of 64 bits the same, or a part of it.
    let wrap = |factor: u64| match factor.trailing_zeros() {
        zeros @ 1..=63 => 1 << (64 - zeros),
        _ => 1 << 32,
    };
    match rng.below(20) {
        0 => n = n.wrapping_add(wrap(m.wrapping_mul(width))),
        1 => n = n.wrapping_add(wrap(m)),
        2 => m = m.wrapping_add(wrap(width)),
        3 => n = n.wrapping_add(1 << 32),
        4 => m = m.wrapping_add(1 << 32),
        5 => (m, n) = (n, m),
        6 => (m, n, length) = (0, rng.border(), 0),
        7 => (m, n, length) = (rng.border(), 0, 0),
        8 => (m, n, length) = ((1 << 32) - 2 + rng.below(4) as u64, 0, 0),
        9 => (m, n, length) = (rng.pick(&[1 << 16, 1 << 31]) + rng.below(3) as u64, 0, 0),
        // So long that its end would wrap.
        10 => {
            n = u64::MAX - rng.below(90) as u64;
            (m, length) = (1, n.wrapping_mul(width));
        }
        11 => length = odd_word(rng, length),
        12 => length = rng.below(2 * length as usize + 2) as u64,
        13 => length = length.wrapping_add(1 << 32),
        _ => {}
    }
    let shape = match dimensions {
        1 => vec![n],
        _ => vec![m, n],
    };
    if rng.chance(8) {
        dimensions = match rng.below(3) {
            0 => rng.pick(&[0, 3, 4]),
            1 => 3 - dimensions,
            _ => odd_word(rng, dimensions),
        };
    }
    let flags = if rng.chance(6) { odd_word(rng, 0) } else { 0 };
    let mut file = b"rawarray".to_vec();
    let words = [flags, code, width, length, dimensions].into_iter().chain(shape);
    file.extend(words.flat_map(u64::to_le_bytes));
    file.extend(data);
    if rng.chance(40) {
        let behind = if rng.chance(30) { 1 } else { rng.below(60) };
        file.extend(rng.bytes(behind));
    }
    match rng.below(24) {
        0 => file[rng.below(8)] ^= rng.pick(&[1, 32, 128]),
        1 => file[..8].reverse(),
        2 => file.truncate(rng.pick(&[0, 7, 8, 16, 47, 48, 49, 55, 56, 57, 63, 64])),
        3 => file.truncate(file.len() - 1),
        4 => {
            let length = rng.below(file.len());
            file.truncate(length);
        }
        5 | 6 => bend_array(rng, &mut file),
        _ => {}
    }
    file
}

/// Changes a word or a byte of a file, mostly before its data.
pub fn bend_array(rng: &mut Rng, file: &mut [u8]) {
    let word = 8 * rng.below(8);
    if rng.chance(60) && file.len() >= word + 8 {
        let other = odd_word(rng, get64(file, word));
        put64(file, word, other);
    } else if let Some(last) = file.len().checked_sub(1) {
        file[rng.below(last.min(80) + 1)] ^= 1 << rng.below(8);
    }
}

/// A name for a row, that a sheet may not have now and then.
pub fn array_name(rng: &mut Rng) -> Vec<u8> {
    let mut name = name(rng);
    match rng.below(16) {
        0 => name.clear(),
        1 => name = vec![b'n'; rng.pick(&[63, 64, 254, 255, 256, 257, 300, 512])],
        2 => {
            let at = rng.pick(&[0, name.len() / 2, name.len() - 1]);
            name[at] = 0;
        }
        _ => {}
    }
    name
}

/// The length of a slice for the sheet of a file: mostly what it says.
pub fn some_sheet_length(rng: &mut Rng, file: &[u8], name: &[u8]) -> usize {
    let told = if file.len() < 40 { 0 } else { get64(file, 32) };
    near_length(rng, 20 + name.len() + told.min(file.len() as u64) as usize)
}

/// As [`rows`], with bits about the borders of NaNs in one or two of them, mostly in floats or
/// doubles.
pub fn border_rows(rng: &mut Rng, version: u32, known: &[Vec<u8>]) -> Vec<Row> {
    let mut rows = rows(rng, version, known);
    let count = rows.len();
    for _ in 0..rng.between(1, 2) {
        let row = &mut rows[rng.below(count)];
        if rng.chance(80) {
            row.kind = match rng.below(4) {
                0 => rng.between(1, last_type(version).into()) as u8,
                _ => rng.pick(&FLOATS),
            };
            (row.n, row.m) = (rng.between(1, 5) as u64, rng.pick(&[1, 1, 2, 4]));
            row.data = rng.bytes(size(row.kind) * (row.n as usize) * row.m as usize);
            make_numbers(row);
        }
        put_border(rng, row);
    }
    rows
}

/// Every chunk of an image that opens, as a row.
pub fn chunk_rows(image: &[u8]) -> Vec<Row> {
    let entries = (0..).map_while(|n| reference::entry(image, n).ok());
    let row = |entry: reference::Entry| {
        let name = reference::name(image, entry.id.into()).unwrap();
        let data = reference::chunk(image, entry.frame, name).unwrap();
        Row::new(name, entry.kind, entry.n, entry.m, data)
    };
    entries.map(row).collect()
}

/// Puts bits about the borders of NaNs into the chunks of an image that opens, without an append.
pub fn put_borders(rng: &mut Rng, image: &mut [u8]) {
    let rows = chunk_rows(image);
    for (n, mut row) in rows.into_iter().enumerate() {
        let location = reference::entry(image, n as u64).unwrap().location as usize;
        put_border(rng, &mut row);
        image[location..][..row.data.len()].copy_from_slice(&row.data);
    }
}

/// Rows with different names, some of them of `known`, in any order, without NaNs. Their types are
/// those of the version, but for a character now and then that it may not know.
pub fn rows(rng: &mut Rng, version: u32, known: &[Vec<u8>]) -> Vec<Row> {
    let count = match rng.below(20) {
        0 => rng.between(5, 64),
        _ => rng.between(1, 4),
    };
    let mut chosen: Vec<Vec<u8>> = Vec::new();
    while chosen.len() < count {
        let next = match rng.below(8) {
            0..=4 if !known.is_empty() => known[rng.below(known.len())].clone(),
            5 => format!("name {}", rng.below(200)).into_bytes(),
            _ => name(rng),
        };
        if !chosen.contains(&next) {
            chosen.push(next);
        } else if rng.chance(20) {
            // The pool may be used up.
            chosen.push(format!("other {}", chosen.len()).into_bytes());
        }
    }
    let mut rows: Vec<_> = chosen.into_iter().map(|name| row(rng, version, name)).collect();
    if rng.chance(4) {
        let row = &mut rows[rng.below(count)];
        let length = rng.below(20);
        *row = Row { kind: 11, ..Row::bytes(&row.name, &rng.bytes(length)) };
    }
    rows
}

/// An image made by appends, and the names in it.
pub fn grown(rng: &mut Rng) -> (Vec<u8>, Vec<Vec<u8>>) {
    let mut image = growing(rng);
    let room = rng.pick(&[1000, 3000]);
    image.extend(rng.bytes(room));
    let known = grow(rng, &mut image, Maker::Now);
    (image, known)
}

/// An image as the library made it before W-211, and the names in it: by appends, or by create
/// alone. Behind what is used there is much room, or not even as much as up to a multiple of 64.
pub fn older(rng: &mut Rng) -> (Vec<u8>, Vec<Vec<u8>>) {
    let mut image = made(rng, Maker::Earlier);
    let mut known = Vec::new();
    let room = rng.pick(&[100, 1000, 3000]);
    image.extend(rng.bytes(room));
    if rng.chance(85) {
        known = grow(rng, &mut image, Maker::Earlier);
    }
    if rng.chance(25) {
        let used = shortest(&image, |part| reference::open(part).is_ok());
        image.truncate(used + rng.below(80));
    }
    (image, known)
}

/// How long the shortest part of an image is for which this holds, as it does for all longer ones.
pub fn shortest(image: &[u8], holds: impl Fn(&[u8]) -> bool) -> usize {
    let (mut least, mut most) = (0, image.len());
    while least < most {
        let middle = (least + most) / 2;
        if holds(&image[..middle]) {
            most = middle;
        } else {
            least = middle + 1;
        }
    }
    most
}

/// One to three appends, whole or stopped, and the names of their rows.
fn grow(rng: &mut Rng, image: &mut [u8], by: Maker) -> Vec<Vec<u8>> {
    let mut known = Vec::new();
    for _ in 0..rng.between(1, 3) {
        let mut rows = rows(rng, version(image), &known);
        rows.truncate(3);
        let limit = if rng.chance(30) { limit(rng) } else { u64::MAX };
        // Some are refused: 2.0 takes no character.
        if by.library().put(image, &sheet(&rows), limit).is_ok() {
            known.extend(rows.into_iter().map(|row| row.name));
        }
    }
    known.sort();
    known.dedup();
    known
}

/// The same, with frames left out at the start or in the middle, some or as many as put the last one
/// at the end.
pub fn gapped(rng: &mut Rng) -> (Vec<u8>, Vec<Vec<u8>>) {
    let (mut image, known) = grown(rng);
    leave_out(rng, &mut image);
    (image, known)
}

/// Gives higher numbers to the frames from one of them on.
fn leave_out(rng: &mut Rng, image: &mut [u8]) {
    let counts = reference::open(image).unwrap();
    let Some(last) = counts.frames.checked_sub(1) else {
        return;
    };
    let first = rng.number() % counts.frames;
    let more = match rng.below(3) {
        0 => rng.between(1, 5) as u64,
        _ => GREATEST_FRAME - rng.below(4) as u64 - last,
    };
    let index = get64(image, 8) as usize;
    for slot in 0..counts.entries as usize {
        let at = index + 32 * slot;
        let frame = get64(image, at);
        if frame >= first {
            put64(image, at, frame + more);
        }
    }
}

/// A limit of stores, of all kinds.
pub fn limit(rng: &mut Rng) -> u64 {
    match rng.below(10) {
        0..=3 => u64::MAX,
        4 => rng.border(),
        5 => rng.below(8) as u64,
        _ => rng.below(120) as u64,
    }
}

/// Where the parts of an image lie, so that damage can be aimed.
pub struct Layout {
    pub image: Vec<u8>,
    pub names: Vec<Vec<u8>>,
    version: u32,
    index: (usize, usize),
    name_block: (usize, usize),
    entries: usize,
    list_end: usize,
}

/// As [`odd_of`], of any version.
pub fn odd(rng: &mut Rng) -> Layout {
    let version = some_version(rng, 30);
    odd_of(rng, version)
}

/// An image built field by field that opens, however odd: blocks in either order, at odd places,
/// touching, empty or at the slice's end; chunks before, between and behind them, sharing bytes,
/// empty anywhere, with NaNs; frames left out; leftovers behind both lists, and in 1.0 behind names.
pub fn odd_of(rng: &mut Rng, version: u32) -> Layout {
    let slots = rng.pick(&[0, 1, 1, 2, 2, 3, 4, 6]);
    let segments = match version {
        V1_0 => rng.pick(&[0, 1, 2, 3, 4, 6]),
        _ => rng.pick(&[0, 1, 1, 1, 2, 3]),
    };
    let unit = if rng.chance(70) { 8 } else { 1 };
    let between = |rng: &mut Rng| match rng.below(3) {
        0 => 0,
        _ => unit * rng.below(48),
    };
    let sizes = [32 * slots, 64 * segments];
    let first = usize::from(rng.chance(50));
    let second = 1 - first;
    let mut starts = [0; 2];
    starts[first] = 256 + between(rng);
    starts[second] = starts[first] + sizes[first] + between(rng);
    let used = starts[second] + sizes[second];
    // At the slice's end, or with room behind.
    let length = match rng.below(4) {
        0 => used,
        1 => used + rng.below(16),
        _ => used + rng.below(1200),
    };
    let [index, name_block] = starts;
    let mut image = if rng.chance(50) { rng.bytes(length) } else { vec![0; length] };
    if image.len() < 256 {
        image.resize(256, 0);
    }
    let reserved = image[176..256].to_vec();
    let header = blank(256, index as u64, slots as u64, name_block as u64, segments as u64);
    image[..256].copy_from_slice(&header);
    image[176..256].copy_from_slice(&reserved);
    image[40] = rng.byte();
    put32(&mut image, 44, version);

    let block = name_block..name_block + sizes[1];
    let (listed, list) = match version {
        V1_0 => odd_segments(rng, &mut image[block]),
        _ => odd_names(rng, &mut image[block]),
    };

    let free: Vec<(usize, usize)> = {
        let mut blocks: Vec<_> = [0, 1].map(|b| (starts[b], starts[b] + sizes[b])).into();
        blocks.retain(|(start, end)| start < end);
        blocks.sort_unstable();
        let mut free = Vec::new();
        let mut at = 256;
        for (start, end) in blocks {
            free.push((at, start));
            at = end;
        }
        free.push((at, image.len()));
        free
    };
    let mut entries: Vec<Slot> = Vec::new();
    let mut keys = keys(rng, slots, listed.len());
    if version == V1_0 {
        shuffle_frames(rng, &mut keys, |key| key.0);
    }
    for (frame, id) in keys {
        let (start, end) = rng.pick(&free);
        let location = start + rng.below(end - start + 1);
        let room = rng.pick(&[end - location, (end - location).min(20)]);
        let (n, m, kind) = shape(rng, version, room);
        let empty = n == 0 || m == 0;
        let location = if empty { rng.between(256, image.len()) } else { location };
        let flags = if rng.chance(30) { rng.byte() } else { 0 };
        entries.push(Slot { frame, n, location: location as u64, m, id, kind, flags });
    }
    put_slots(&mut image, index, &entries);
    for behind in entries.len()..slots {
        let at = index + 32 * behind;
        if rng.chance(50) && behind > entries.len() && !entries.is_empty() {
            // A leftover that would be lawful, but behind the last frame.
            let last = entries[entries.len() - 1];
            Slot { frame: last.frame + 1, ..last }.put(&mut image, at);
        } else if rng.chance(50) {
            rng.fill(&mut image[at..at + 32]);
        }
        if behind == entries.len() {
            put64(&mut image, at + 16, 0);
        }
    }
    if rng.chance(30) {
        put_borders(rng, &mut image);
    }
    let list_end = name_block + list;
    let (index, name_block) = ((index, sizes[0]), (name_block, sizes[1]));
    Layout { image, names: listed, version, index, name_block, entries: entries.len(), list_end }
}

/// Fills a name block of 2.x, and answers the names and the length of their list: names, then
/// nothing; sometimes the last one fills the block.
fn odd_names(rng: &mut Rng, block: &mut [u8]) -> (Vec<Vec<u8>>, usize) {
    block.fill(0);
    let mut at = 0;
    let mut listed = Vec::new();
    let wanted = rng.pick(&[0, 1, 2, 3, 3, 4, 20]);
    for name in names(rng, wanted) {
        if at + name.len() < block.len() {
            block[at..at + name.len()].copy_from_slice(&name);
            at += name.len() + 1;
            listed.push(name);
        }
    }
    if at < block.len() && rng.chance(15) {
        let name = vec![b'z'; block.len() - at - 1];
        if !name.is_empty() {
            block[at..at + name.len()].copy_from_slice(&name);
            at = block.len();
            listed.push(name);
        }
    }
    if at < block.len() && rng.chance(60) {
        // Leftovers: the list ends at the zero.
        rng.fill(&mut block[at + 1..]);
    }
    (listed, at)
}

/// The same of 1.0: whatever stands behind a name's zero means nothing, and so do the segments
/// behind one that starts with zero, names or not.
fn odd_segments(rng: &mut Rng, block: &mut [u8]) -> (Vec<Vec<u8>>, usize) {
    let segments = block.len() / SEGMENT;
    let wanted = rng.pick(&[segments, segments, segments.saturating_sub(1), segments / 2]);
    let names = short_names(rng, segments);
    for (segment, name) in block.chunks_mut(SEGMENT).zip(&names) {
        put_segment(rng, segment, name);
    }
    for segment in block.chunks_mut(SEGMENT).skip(wanted + 1) {
        if rng.chance(30) {
            rng.fill(segment);
        }
    }
    if let Some(end) = block.get_mut(SEGMENT * wanted) {
        *end = 0;
    }
    (names[..wanted].to_vec(), SEGMENT * wanted)
}

/// A name with its zero and any bytes behind it: none, some, or one that looks like a name.
pub fn put_segment(rng: &mut Rng, segment: &mut [u8], name: &[u8]) {
    segment.fill(0);
    let behind = name.len() + 1;
    match rng.below(4) {
        0 => {}
        1 => segment[behind..].fill(b'z'),
        2 => segment[behind..].iter_mut().zip(b"probe\0").for_each(|(to, byte)| *to = *byte),
        _ => rng.fill(&mut segment[behind..]),
    }
    segment[..name.len()].copy_from_slice(name);
}

/// Segments of 1.0, lawful or not: names, some of them equal but for what stands behind their zero,
/// some not closed, and some that start with zero, with names behind them.
pub fn any_segments(rng: &mut Rng, count: usize) -> Vec<u8> {
    let names = short_names(rng, count);
    let mut block = vec![0; SEGMENT * count];
    let bad = rng.pick(&[0, 0, 5, 20]);
    for (n, segment) in block.chunks_mut(SEGMENT).enumerate() {
        put_segment(rng, segment, &names[n]);
        if rng.chance(bad) {
            let other = &names[rng.below(n + 1)];
            match rng.below(4) {
                0 | 1 => segment.iter_mut().for_each(|byte| *byte = (*byte).max(1)),
                2 => segment[0] = 0,
                _ => put_segment(rng, segment, other),
            }
        }
    }
    if rng.chance(30) {
        block[SEGMENT * rng.below(count)] = 0;
    }
    block
}

/// Frames and ids as a writer of 1.0 leaves them, or one that errs: a frame falls, or an id comes
/// again, at once or later in its frame.
pub fn written_keys(rng: &mut Rng, count: usize, names: usize) -> Vec<(u64, u16)> {
    let mut keys: Vec<(u64, u16)> = Vec::new();
    let errs = rng.pick(&[0, 0, 5, 15]);
    let mut frame = frame_from(rng, 0);
    while keys.len() < count {
        let here: Vec<u16> = keys.iter().filter(|key| key.0 == frame).map(|key| key.1).collect();
        let id = rng.below(names) as u16;
        if rng.chance(errs) {
            // Mostly a second entry; else a frame that falls, also with an id that is none, or any.
            match rng.below(8) {
                0 => frame = frame.saturating_sub(1),
                1 => keys.push((frame.saturating_sub(1), names as u16)),
                2 => frame = rng.pick(&FRAMES),
                _ => keys.extend(here.get(rng.below(here.len() + 1)).map(|&id| (frame, id))),
            }
        } else if here.len() < names && rng.chance(85) {
            keys.extend((!here.contains(&id)).then_some((frame, id)));
        } else if frame < GREATEST_FRAME {
            frame = frame_from(rng, frame + 1);
        } else {
            break;
        }
    }
    if !keys.is_empty() && rng.chance(12) {
        // Again at its frame's end, with or without others between.
        let again = keys[rng.below(keys.len())];
        let last = keys.iter().rposition(|key| key.0 == again.0).unwrap();
        keys.insert(last + 1, again);
    }
    keys
}

/// An image of this version with these entries in such names, in as many slots, two more, or one
/// less, and its blocks on multiples of 8 or not. Now and then the list ends earlier, at a location
/// of 0.
pub fn written_image(
    rng: &mut Rng,
    version: u32,
    keys: &[(u64, u16)],
    names: &[Vec<u8>],
) -> Vec<u8> {
    let slots = (keys.len() + rng.below(4)).saturating_sub(1);
    let segments = segments_for(version, names);
    let index = 256 + rng.pick(&[0, 0, 0, 8, 3]);
    // An entry for which there is no slot lies between the blocks.
    let list = index + 32 * slots.max(keys.len()) + rng.pick(&[0, 0, 0, 8, 5]);
    let data = list + SEGMENT * segments;
    let length = data + rng.between(16, 300);
    let mut image = blank(length, index as u64, slots as u64, list as u64, segments as u64);
    rng.fill(&mut image[data..]);
    put32(&mut image, 44, version);
    put_names(&mut image, list, names.iter().map(Vec::as_slice));
    for (n, &(frame, id)) in keys.iter().enumerate() {
        let (m, kind, flags) = (1, rng.pick(&[1, 1, 1, 5]), rng.pick(&[0, 0, 7]));
        let (n_bytes, location) = (rng.below(9) as u64, (data + rng.below(8)) as u64);
        let slot = Slot { frame, n: n_bytes, location, m, id, kind, flags };
        slot.put(&mut image, index + 32 * n);
    }
    if !keys.is_empty() && rng.chance(10) {
        put64(&mut image, index + 32 * rng.below(keys.len()) + 16, 0);
    }
    image
}

/// An odd image whose entries, one at least, are put into the first frames, the last ones or far
/// behind; mostly they rise.
pub fn spread(rng: &mut Rng) -> Layout {
    let mut layout = odd(rng);
    while layout.entries == 0 {
        layout = odd(rng);
    }
    let mut frames: Vec<_> = (0..layout.entries).map(|_| rng.pick(&FRAMES)).collect();
    if rng.chance(80) {
        frames.sort_unstable();
    }
    for (n, frame) in frames.into_iter().enumerate() {
        put64(&mut layout.image, layout.index.0 + 32 * n, frame);
    }
    layout
}

impl Layout {
    /// Changes one or two fields to numbers near borders.
    pub fn bend(&mut self, rng: &mut Rng) {
        for _ in 0..rng.between(1, 2) {
            if self.entries > 0 && rng.chance(60) {
                let slot = self.index.0 + 32 * rng.below(self.entries);
                let near = self.near(rng);
                // In the order of writing there is more to get wrong.
                match rng.below(if self.version == V1_0 { 12 } else { 9 }) {
                    9.. => self.take_key(rng, slot),
                    0 => put64(&mut self.image, slot, rng.pick(&FRAMES)),
                    1 => put64(&mut self.image, slot + 8, rng.border()),
                    2 => put64(&mut self.image, slot + 16, near),
                    3 => self.image[slot + 24 + rng.below(4)] = rng.byte(),
                    4 => self.image[slot + 28 + rng.below(2)] = rng.pick(&[0, 1, 2, 3, 255]),
                    5 => self.image[slot + 30] = odd_kind(rng),
                    6 => {
                        // A product of 2^64 or little more, for some types.
                        let columns = rng.between(0, 4);
                        let near = (1 << (64 - columns - rng.below(4))) + rng.below(3) as u128;
                        put64(&mut self.image, slot + 8, near as u64);
                        put32(&mut self.image, slot + 24, 1 << columns);
                    }
                    7 => {
                        // A chunk within a block, or reaching into it.
                        let (start, size) = rng.pick(&[self.index, self.name_block]);
                        let location = start + rng.below(size + 1);
                        put64(&mut self.image, slot + 8, rng.below(9) as u64);
                        put64(&mut self.image, slot + 16, location as u64);
                        put32(&mut self.image, slot + 24, 1);
                    }
                    _ => {
                        put64(&mut self.image, slot + 8, rng.border());
                        put64(&mut self.image, slot + 16, near);
                    }
                }
            } else if self.version == V1_0 && rng.chance(40) {
                self.bend_segments(rng);
            } else if rng.chance(15) {
                self.bend_names(rng);
            } else {
                let near = self.near(rng);
                match rng.below(7) {
                    0 => put64(&mut self.image, 8, near),
                    1 => put64(&mut self.image, 16, rng.border()),
                    2 => put64(&mut self.image, 24, near),
                    3 => put64(&mut self.image, 32, rng.border()),
                    4 => put64(&mut self.image, 16, self.index.1 as u64 / 32 + 1),
                    5 => put32(&mut self.image, 44, odd_version(rng)),
                    _ => put64(&mut self.image, 32, self.name_block.1 as u64 / 64 + 1),
                }
            }
        }
    }

    /// Another entry's frame or id, or both.
    fn take_key(&mut self, rng: &mut Rng, slot: usize) {
        let other = self.index.0 + 32 * rng.below(self.entries);
        let (frame, id) = (get64(&self.image, other), self.image[other + 28].into());
        let which = rng.below(3);
        if which != 0 {
            put64(&mut self.image, slot, frame);
        }
        if which != 1 {
            put16(&mut self.image, slot + 28, id);
        }
    }

    /// Of 1.0: a segment that is not closed, a name again, or an end of the list, among the others or
    /// behind them.
    fn bend_segments(&mut self, rng: &mut Rng) {
        let (start, size) = self.name_block;
        if size == 0 {
            return;
        }
        let listed = (self.list_end - start) / SEGMENT;
        let at = start + SEGMENT * rng.below(size / SEGMENT).min(listed);
        let segment = &mut self.image[at..at + SEGMENT];
        let name = &self.names[..].get(rng.below(listed + 1));
        match rng.below(3) {
            0 => segment.iter_mut().for_each(|byte| *byte = (*byte).max(1)),
            1 => segment[0] = 0,
            _ => name.iter().for_each(|name| put_segment(rng, segment, name)),
        }
    }

    /// A name again behind the others, or one that is not closed.
    fn bend_names(&mut self, rng: &mut Rng) {
        let end = self.name_block.0 + self.name_block.1;
        if rng.chance(30) {
            self.image[self.list_end..end].fill(b'u');
        } else if !self.names.is_empty() {
            let name = &self.names[rng.below(self.names.len())];
            if self.list_end + room(self.version, name) <= end {
                put_names(&mut self.image, self.list_end, [&name[..]]);
            }
        }
    }

    /// A place near the end of a part, or of the numbers.
    fn near(&self, rng: &mut Rng) -> u64 {
        let (index, names) = (self.index, self.name_block);
        let ends = [256, index.0, index.0 + index.1, names.0, names.0 + names.1, self.image.len()];
        match rng.below(3) {
            0 => rng.border(),
            _ => (rng.pick(&ends) as u64).wrapping_add(rng.below(20) as u64).wrapping_sub(10),
        }
    }

    /// Changes one to three bytes of header, blocks and lists.
    pub fn damage(&mut self, rng: &mut Rng) {
        for _ in 0..rng.between(1, 3) {
            let (start, length) = match rng.below(8) {
                0 => (0, 48),
                1 => (8, 32),
                2 => (48, 128),
                3 | 4 => (self.index.0, (32 * self.entries).max(self.index.1.min(32))),
                5 => self.index,
                _ => self.name_block,
            };
            if length > 0 && start + length <= self.image.len() {
                damage(rng, &mut self.image[start..start + length]);
            }
        }
    }
}

/// Changes one byte.
pub fn damage(rng: &mut Rng, bytes: &mut [u8]) {
    let at = rng.below(bytes.len());
    let byte = &mut bytes[at];
    *byte = match rng.below(6) {
        0 => 0,
        1 => 255,
        2 => *byte ^ (1 << rng.below(8)),
        3 => byte.wrapping_add(1),
        4 => byte.wrapping_sub(1),
        _ => rng.byte(),
    };
}

/// A lawful sheet, changed in one to three places.
pub fn damaged_sheet(rng: &mut Rng, rows: &[Row]) -> Vec<u8> {
    let mut sheet = sheet(rows);
    for _ in 0..rng.between(1, 3) {
        let table = (4 + 16 * rows.len()).min(sheet.len());
        match rng.below(8) {
            0 => sheet.truncate(rng.below(sheet.len() + 1)),
            1 => {
                let more = rng.between(1, 9);
                sheet.extend(rng.bytes(more));
            }
            2 if table >= 4 => damage(rng, &mut sheet[..4]),
            3..=5 if table > 4 => damage(rng, &mut sheet[4..table]),
            _ if !sheet.is_empty() => damage(rng, &mut sheet),
            _ => {}
        }
    }
    sheet
}

/// A sheet of these rows with borders for numbers, zeros in names, equal names and unknown types.
pub fn bent_sheet(rng: &mut Rng, mut rows: Vec<Row>) -> Vec<u8> {
    let count = rows.len();
    for _ in 0..rng.between(1, 2) {
        let other = rows[rng.below(count)].name.clone();
        let row = &mut rows[rng.below(count)];
        match rng.below(8) {
            0 => row.n = rng.border(),
            1 => row.m = rng.border() as u32,
            2 => row.kind = odd_kind(rng),
            3 => row.name.clear(),
            4 if !row.name.is_empty() => {
                let at = rng.below(row.name.len());
                row.name[at] = 0;
            }
            5 => row.name = other,
            // Product 2^64: as many bytes as none.
            6 => (row.n, row.m, row.data) = (1 << 62, 4, Vec::new()),
            _ => {}
        }
    }
    let mut sheet = sheet(&rows);
    if rng.chance(15) {
        put64(&mut sheet, 4 + 16 * rng.below(count), rng.border());
    }
    if rng.chance(10) {
        let count = rng.pick(&[0, 1, 63, 64, 65, 66, 255, 1 << 16, 1 << 28, u32::MAX]);
        sheet[..4].copy_from_slice(&count.to_le_bytes());
    }
    sheet
}
