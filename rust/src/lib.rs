//! Safe calls of libdialmoth.a, which reads GSD 1.0, 2.0 and 2.1 images that lie in memory, appends
//! to those of 2.0 and 2.1, writes their chunks as RawArray files and those of floats and doubles as
//! NChilada files, and reads RawArray files back into what an append takes.
//!
//! ```
//! use dialmoth::{Element, Row, Type};
//!
//! let mut image = vec![0; 4096];
//! dialmoth::create(&mut image, b"regulator", b"night", 0, 64, 16)?;
//! let sheet = dialmoth::sheet(&[Row { name: b"heater", kind: Type::U8, n: 1, m: 1, data: &[40] }]);
//! let mut begun = dialmoth::begin(&image, &sheet)?;
//! dialmoth::turn(&mut begun.state, &mut image, &sheet, u64::MAX)?;
//! assert_eq!(dialmoth::element(&image, 0, b"heater", 0)?, Element::Unsigned(40));
//! # Ok::<(), dialmoth::Refusal>(())
//! ```
//!
//! An append is begun and then made in one turn or many, as there is time; [`append`] is the two in one
//! call. Each call opens its image; a [`Reader`] opens it once, for those who ask much of one.
//!
//! What is not there is a refusal and never a stand-in value: [`Refusal::NO_CHUNK`] says that a
//! frame has no such chunk. A frame may be empty: go from entry to entry, not from frame to frame.
//!
//! The package needs `core` alone, but for [`sheet`], [`nchilada_file`], [`rawarray_file`] and
//! [`rawarray_sheet`], which answer a `Vec`: they are left out without the default feature `alloc`, and
//! [`put_sheet`], [`nchilada()`], [`rawarray_write`] and [`rawarray_read`] write the same bytes to a lent
//! slice.

#![no_std]

#[cfg(feature = "alloc")]
extern crate alloc;

pub mod ffi;
mod nchilada;
mod rawarray;
mod reader;
mod refusal;

use core::fmt;
pub use nchilada::nchilada;
#[cfg(feature = "alloc")]
pub use nchilada::nchilada_file;
#[cfg(feature = "alloc")]
pub use rawarray::{rawarray_file, rawarray_sheet};
pub use rawarray::{rawarray_read, rawarray_sheet_length, rawarray_write};
pub use reader::{Entries, Reader};
pub use refusal::Refusal;

/// The type of a chunk's elements.
#[derive(Clone, Copy, Debug, PartialEq, Eq, Hash)]
#[repr(u8)]
pub enum Type {
    U8 = 1,
    U16 = 2,
    U32 = 3,
    U64 = 4,
    I8 = 5,
    I16 = 6,
    I32 = 7,
    I64 = 8,
    Float = 9,
    Double = 10,
    /// From 2.1 on: an image of 1.0 or 2.0 has none and takes none.
    Character = 11,
}

impl Type {
    const ALL: [Type; 11] = [
        Type::U8,
        Type::U16,
        Type::U32,
        Type::U64,
        Type::I8,
        Type::I16,
        Type::I32,
        Type::I64,
        Type::Float,
        Type::Double,
        Type::Character,
    ];

    /// Bytes of one element.
    pub fn size(self) -> u64 {
        match self {
            Type::U8 | Type::I8 | Type::Character => 1,
            Type::U16 | Type::I16 => 2,
            Type::U32 | Type::I32 | Type::Float => 4,
            Type::U64 | Type::I64 | Type::Double => 8,
        }
    }
}

/// What opening an image tells.
#[derive(Clone, Copy, Debug, PartialEq, Eq)]
pub struct Counts {
    /// The last entry's frame plus 1, or 0 without entries; any frame before it may be empty.
    pub frames: u64,
    pub names: u64,
    pub entries: u64,
}

/// An entry of the index: a chunk of `n` by `m` elements.
#[derive(Clone, Copy, Debug, PartialEq, Eq)]
pub struct Entry {
    pub frame: u64,
    pub n: u64,
    pub location: u64,
    pub m: u32,
    pub id: u16,
    pub kind: Type,
    pub flags: u8,
}

impl Entry {
    /// Of an image that opened, where every type has passed 13.
    fn new(fields: [u64; 7]) -> Entry {
        Entry::known(fields).expect("an entry of an open image has a known type")
    }

    /// Where its type is known.
    fn known([frame, n, location, m, id, kind, flags]: [u64; 7]) -> Option<Entry> {
        let kind = *Type::ALL.get((kind as usize).checked_sub(1)?)?;
        Some(Entry { frame, n, location, m: m as u32, id: id as u16, kind, flags: flags as u8 })
    }
}

/// An element of a chunk; a character is an unsigned number. Floats are equal here when their bits
/// are, NaNs too.
#[derive(Clone, Copy, Debug)]
pub enum Element {
    Unsigned(u64),
    Signed(i64),
    Single(f32),
    Double(f64),
}

impl Element {
    fn new([kind, bits]: [u64; 2]) -> Element {
        match kind {
            1 => Element::Unsigned(bits),
            2 => Element::Signed(bits as i64),
            3 => Element::Single(f32::from_bits(bits as u32)),
            4 => Element::Double(f64::from_bits(bits)),
            _ => unreachable!("an element has one of four kinds"),
        }
    }
}

impl PartialEq for Element {
    fn eq(&self, other: &Element) -> bool {
        match (*self, *other) {
            (Element::Unsigned(a), Element::Unsigned(b)) => a == b,
            (Element::Signed(a), Element::Signed(b)) => a == b,
            (Element::Single(a), Element::Single(b)) => a.to_bits() == b.to_bits(),
            (Element::Double(a), Element::Double(b)) => a.to_bits() == b.to_bits(),
            _ => false,
        }
    }
}

impl Eq for Element {}

/// What the search of a lookup reads.
#[derive(Clone, Copy, Debug, PartialEq, Eq)]
pub struct Probes {
    /// Entries probed; one that is probed twice counts twice.
    pub count: u64,
    /// The lookup's. Only [`Refusal::NO_CHUNK`] comes with a count above 0; with any other no
    /// search was made.
    pub refusal: Option<Refusal>,
}

/// How far an append went, and what it takes as a whole.
#[derive(Clone, Copy, Debug, PartialEq, Eq)]
pub struct Stores {
    pub done: u64,
    pub whole: u64,
    /// Listed entries that the whole append copies where it moves the index, whatever the limit; 0
    /// where it stays.
    ///
    /// Over whole appends they add up to at most the slots that the index has gained, and once it has
    /// moved to fewer than twice the entries listed at the end. An append that was stopped and is
    /// made again may copy them again.
    pub copied: u64,
}

impl Stores {
    /// Whether the last store was made, so that the new frame is there.
    pub fn is_whole(self) -> bool {
        self.done == self.whole
    }
}

/// An append that is begun, and has made no store.
#[derive(Debug)]
pub struct Begun {
    /// Stores of the whole append. The frame is there once its turns have made so many, and not
    /// before.
    pub whole: u64,
    /// As [`Stores::copied`].
    pub copied: u64,
    /// What the first turn takes.
    pub state: State,
}

/// How far an append in turns is: what [`begin`] gives and each [`turn`] takes and moves on.
///
/// It is plain numbers, 3,248 bytes of them, and holds neither image nor sheet: between turns both
/// are free to be read. It is good for these two alone.
///
/// It cannot be copied. A turn must take the state that the last one left, and one of an older copy
/// may not be refused: it would make its stores a second time, over what has come since.
pub struct State([u64; ffi::STATE_WORDS]);

impl fmt::Debug for State {
    fn fmt(&self, f: &mut fmt::Formatter<'_>) -> fmt::Result {
        f.debug_struct("State").finish_non_exhaustive()
    }
}

fn answer<const K: usize>(call: impl FnOnce(*mut [u64; K]) -> u64) -> Result<[u64; K], Refusal> {
    let mut out = [0; K];
    match call(&mut out) {
        0 => Ok(out),
        number => Err(Refusal(number)),
    }
}

fn part(image: &[u8], [start, length]: [u64; 2]) -> &[u8] {
    &image[start as usize..][..length as usize]
}

// Each unsafe block passes pointers and lengths of live slices.

/// Opens the image and counts its frames, names and entries.
pub fn open(image: &[u8]) -> Result<Counts, Refusal> {
    let [frames, names, entries] =
        answer(|out| unsafe { ffi::dialmoth_open(image.as_ptr(), image.len(), out) })?;
    Ok(Counts { frames, names, entries })
}

/// The n-th name, from 0; `n` is its id.
pub fn name(image: &[u8], n: u64) -> Result<&[u8], Refusal> {
    let place = answer(|out| unsafe { ffi::dialmoth_name(image.as_ptr(), image.len(), n, out) })?;
    Ok(part(image, place))
}

/// The n-th entry, from 0.
pub fn entry(image: &[u8], n: u64) -> Result<Entry, Refusal> {
    answer(|out| unsafe { ffi::dialmoth_entry(image.as_ptr(), image.len(), n, out) })
        .map(Entry::new)
}

/// The entry of a name in a frame.
pub fn lookup(image: &[u8], frame: u64, name: &[u8]) -> Result<Entry, Refusal> {
    answer(|out| unsafe {
        let (image, name) = ((image.as_ptr(), image.len()), (name.as_ptr(), name.len()));
        ffi::dialmoth_lookup(image.0, image.1, frame, name.0, name.1, out)
    })
    .map(Entry::new)
}

/// The bytes of a chunk, as that part of the image.
pub fn chunk<'a>(image: &'a [u8], frame: u64, name: &[u8]) -> Result<&'a [u8], Refusal> {
    let place = answer(|out| unsafe {
        let (image, name) = ((image.as_ptr(), image.len()), (name.as_ptr(), name.len()));
        ffi::dialmoth_chunk(image.0, image.1, frame, name.0, name.1, out)
    })?;
    Ok(part(image, place))
}

/// Element `k` of a chunk, from 0.
pub fn element(image: &[u8], frame: u64, name: &[u8], k: u64) -> Result<Element, Refusal> {
    answer(|out| unsafe {
        let (image, name) = ((image.as_ptr(), image.len()), (name.as_ptr(), name.len()));
        ffi::dialmoth_element(image.0, image.1, frame, name.0, name.1, k, out)
    })
    .map(Element::new)
}

/// How many entries of the index the search of [`lookup`], [`chunk`] and [`element`] probes: at most
/// one more than the number of entries has binary digits.
pub fn probes(image: &[u8], frame: u64, name: &[u8]) -> Probes {
    let mut out = [0];
    let number = unsafe {
        let (image, name) = ((image.as_ptr(), image.len()), (name.as_ptr(), name.len()));
        ffi::dialmoth_probes(image.0, image.1, frame, name.0, name.1, &mut out)
    };
    let [count] = out;
    Probes { count, refusal: (number != 0).then_some(Refusal(number)) }
}

/// Makes a fresh image of version 2.1; 0 slots stand for 512 (once for 64), 0 segments for 16. It
/// needs 256 + 32 * slots bytes, rounded up to a multiple of 64, and 64 for each segment; bytes
/// between its two blocks and behind them stay as they are.
///
/// Every append clears the slots and segments that are free, with 512 slots up to 16 KiB until the
/// index first moves, and moves them by itself where it needs more: on flash ask for few.
pub fn create(
    image: &mut [u8],
    application: &[u8],
    schema: &[u8],
    schema_version: u32,
    slots: u64,
    segments: u64,
) -> Result<(), Refusal> {
    let [] = answer(|_| unsafe {
        ffi::dialmoth_create(
            image.as_mut_ptr(),
            image.len(),
            application.as_ptr(),
            application.len(),
            schema.as_ptr(),
            schema.len(),
            schema_version,
            slots,
            segments,
        )
    })?;
    Ok(())
}

/// Makes the first `limit` stores of the append of a sheet's chunks as one new frame; its number is
/// the number of frames so far. It is [`begin`] and one [`turn`] joined. The image keeps its version,
/// and one of 2.0 refuses a character ([`Refusal::BAD_ROW`]).
///
/// Its chunks, empty ones too, and the blocks that it moves start at multiples of 64, counted from
/// the image's start; bytes between are not stored. What lies elsewhere in the image stays there.
///
/// A NaN among the elements of a row of floats or doubles is refused ([`Refusal::NAN_IN_SHEET`]),
/// whatever the limit. Infinities pass, and rows of other types are not looked at. An image that
/// holds NaNs already reads as before and takes appends, but such a chunk of it can be appended again
/// only once its NaNs are gone.
pub fn append(image: &mut [u8], sheet: &[u8], limit: u64) -> Result<Stores, Refusal> {
    let [done, whole, copied] = answer(|out| unsafe {
        let image = (image.as_mut_ptr(), image.len());
        ffi::dialmoth_append(image.0, image.1, sheet.as_ptr(), sheet.len(), limit, out)
    })?;
    Ok(Stores { done, whole, copied })
}

/// Begins an append in turns, for a caller that has little time at once: tests all that [`append`]
/// tests, with its refusals, and makes no store. It takes the time of opening the image.
///
/// From here to the last turn nothing else, no other append either, may write image or sheet. Turns
/// then leave every byte as one append does whose limit is the sum of theirs, and between two of them
/// the image is as after a stopped append. After a cut of power there the state is lost and the
/// append is begun anew:
///
/// ```
/// use dialmoth::{Refusal, Row, Type};
///
/// let mut image = vec![0; 4096];
/// dialmoth::create(&mut image, b"regulator", b"night", 0, 8, 1)?;
/// let sheet = dialmoth::sheet(&[Row { name: b"heater", kind: Type::U8, n: 1, m: 1, data: &[40] }]);
///
/// let mut begun = dialmoth::begin(&image, &sheet)?;
/// assert_eq!(dialmoth::turn(&mut begun.state, &mut image, &sheet, 10)?, 10);
/// drop(begun); // the power is cut
/// assert_eq!(dialmoth::open(&image)?.frames, 0);
///
/// let mut begun = dialmoth::begin(&image, &sheet)?;
/// let mut made = 0;
/// while made < begun.whole {
///     assert_eq!(dialmoth::open(&image)?.frames, 0);
///     made += dialmoth::turn(&mut begun.state, &mut image, &sheet, 10)?;
/// }
/// assert_eq!(dialmoth::open(&image)?.frames, 1);
/// # Ok::<(), Refusal>(())
/// ```
pub fn begin(image: &[u8], sheet: &[u8]) -> Result<Begun, Refusal> {
    let mut state = State([0; ffi::STATE_WORDS]);
    let [whole, copied] = answer(|out| unsafe {
        let (image, sheet) = ((image.as_ptr(), image.len()), (sheet.as_ptr(), sheet.len()));
        ffi::dialmoth_begin(image.0, image.1, sheet.0, sheet.1, &mut state.0, out)
    })?;
    Ok(Begun { whole, copied, state })
}

/// Makes the next `limit` stores of a begun append, or all that are left where these are fewer, and
/// answers how many; after the last one 0. The image is not opened: beside its stores a turn takes a
/// time that grows with the sheet's rows and not with the image.
///
/// Refused, with [`Refusal::NOT_EXPECTED`] and nothing changed, exactly when the length of image or
/// sheet is not that of the begin, or the header's words for places and sizes of index and names (the
/// four at 8, 16, 24 and 32) are not what the append's own stores have left. That does not see all
/// that breaks what [`begin`] asks for: another whole append that moves no block leaves them as they
/// were, and a turn then stores over its frame.
///
/// Whatever image and sheet hold, stores go only to words of that append's own, their places fixed at
/// the beginning; what is stored there may then be anything.
pub fn turn(state: &mut State, image: &mut [u8], sheet: &[u8], limit: u64) -> Result<u64, Refusal> {
    let [made] = answer(|out| unsafe {
        let (image, sheet) = ((image.as_mut_ptr(), image.len()), (sheet.as_ptr(), sheet.len()));
        ffi::dialmoth_turn(&mut state.0, image.0, image.1, sheet.0, sheet.1, limit, out)
    })?;
    Ok(made)
}

/// A chunk to append. The append refuses a sheet whose data are not `n` by `m` elements, and floats
/// or doubles with a NaN among them.
#[derive(Clone, Copy, Debug)]
pub struct Row<'a> {
    pub name: &'a [u8],
    pub kind: Type,
    pub n: u64,
    pub m: u32,
    pub data: &'a [u8],
}

/// Bytes of the sheet of these rows.
pub fn sheet_length(rows: &[Row]) -> usize {
    4 + rows.iter().map(|row| 16 + row.name.len() + row.data.len()).sum::<usize>()
}

/// Writes the append sheet of these rows, a table of contents, then names and data, to the start of
/// `out`, and hands out that part of it.
///
/// `None` where `out` is too short, or a name has over 255 bytes, which a table cannot hold; `out`
/// may then hold a part of the sheet.
pub fn put_sheet<'a>(rows: &[Row], out: &'a mut [u8]) -> Option<&'a [u8]> {
    let sheet = out.get_mut(..sheet_length(rows))?;
    let (count, rest) = sheet.split_at_mut(4);
    count.copy_from_slice(&u32::try_from(rows.len()).ok()?.to_le_bytes());
    let (table, bodies) = rest.split_at_mut(16 * rows.len());
    for (place, row) in table.chunks_exact_mut(16).zip(rows) {
        place[..8].copy_from_slice(&row.n.to_le_bytes());
        place[8..12].copy_from_slice(&row.m.to_le_bytes());
        place[12..].copy_from_slice(&[row.kind as u8, u8::try_from(row.name.len()).ok()?, 0, 0]);
    }
    let bytes = rows.iter().flat_map(|row| row.name.iter().chain(row.data));
    for (place, byte) in bodies.iter_mut().zip(bytes) {
        *place = *byte;
    }
    Some(sheet)
}

/// The append sheet of these rows, as [`put_sheet`] writes it.
///
/// # Panics
///
/// With a name over 255 bytes, which a table cannot hold.
#[cfg(feature = "alloc")]
pub fn sheet(rows: &[Row]) -> alloc::vec::Vec<u8> {
    let mut sheet = alloc::vec![0; sheet_length(rows)];
    put_sheet(rows, &mut sheet).expect("name over 255 bytes");
    sheet
}

#[cfg(test)]
mod tests {
    extern crate std;

    use super::{ffi, put_sheet, Row, State, Type};
    use std::format;
    use std::vec::Vec;

    const HEADER: &str = include_str!("../../include/dialmoth.h");

    #[test]
    fn types_are_those_of_the_header() {
        let (_, types) = HEADER.split_once("enum dialmoth_type {").unwrap();
        let (types, _) = types.split_once("};").unwrap();
        assert_eq!(types.matches("DIALMOTH_").count(), Type::ALL.len());
        for (line, kind) in types.trim().lines().zip(Type::ALL) {
            let named = format!("DIALMOTH_{} = {}", format!("{kind:?}").to_uppercase(), kind as u8);
            assert_eq!(line.trim().split([',', '/']).next().unwrap().trim(), named);
        }
    }

    /// The functions that a text declares, each with the length of its `out`.
    fn outs<'t>(text: &'t str, function: &str, out: &str) -> Vec<(&'t str, Option<&'t str>)> {
        let declared = |rest: &'t str| {
            let (name, rest) = rest.split_once('(').unwrap();
            let (arguments, _) = rest.split_once(')').unwrap();
            (name, arguments.split_once(out).and_then(|(_, length)| length.split(']').next()))
        };
        text.split(function).skip(1).map(declared).collect()
    }

    #[test]
    fn outs_are_as_long_as_those_of_the_header() {
        let header = outs(HEADER, "uint64_t dialmoth_", "uint64_t out[");
        assert!(header.contains(&("append", Some("3"))) && header.contains(&("create", None)));
        assert_eq!(outs(include_str!("ffi.rs"), "fn dialmoth_", "out: *mut [u64; "), header);
    }

    #[test]
    fn states_are_as_long_as_those_of_the_header() {
        assert!(HEADER.contains(&format!("#define DIALMOTH_STATE_WORDS {}\n", ffi::STATE_WORDS)));
        assert_eq!(size_of::<State>(), 8 * ffi::STATE_WORDS);
    }

    #[test]
    fn sheets_are_written_to_slices_that_hold_them() {
        let probe = Row { name: b"probe", kind: Type::Float, n: 3, m: 1, data: b"twelve bytes" };
        let expected = b"\x01\0\0\0\x03\0\0\0\0\0\0\0\x01\0\0\0\x09\x05\0\0probetwelve bytes";
        let mut out = [0; 40];
        assert_eq!(put_sheet(&[probe], &mut out), Some(&expected[..]));
        assert_eq!(put_sheet(&[probe], &mut out[..37]), Some(&expected[..]));
        assert_eq!(put_sheet(&[probe], &mut out[..36]), None);
        let mut out = [0; 1000];
        let longest = Row { name: &[b'n'; 255], ..probe };
        assert_eq!(put_sheet(&[longest], &mut out).map(|sheet| sheet.len()), Some(287));
        assert_eq!(put_sheet(&[Row { name: &[b'n'; 256], ..probe }], &mut out), None);
    }
}
