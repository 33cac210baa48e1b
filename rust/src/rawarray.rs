//! Chunks as RawArray files, and such files as sheets of one row.

use crate::{answer, ffi, Entry, Refusal};

/// Bytes before the data: the opening ones, flags, type, width, length, 2 dimensions and each of them.
const HEADER: u64 = 64;

/// Bytes of a sheet of one row before its name.
const TABLE: usize = 20;

/// Where a file has the length of its data, as a `u64`.
const LENGTH: usize = 32;

impl Entry {
    /// Bytes of the RawArray file of this chunk, 64 + N * M * size: what [`rawarray_write`] takes.
    ///
    /// `None` where no slice is so long, which no entry of an image comes to.
    pub fn rawarray_length(self) -> Option<usize> {
        let row = u64::from(self.m) * self.kind.size();
        let length = self.n.checked_mul(row)?.checked_add(HEADER)?;
        usize::try_from(length).ok()
    }
}

/// Writes a chunk as a RawArray file to `file`, which is exactly as long as [`Entry::rawarray_length`]
/// says.
///
/// After the bytes "rawarray" all numbers are `u64`, little-endian: flags 0; type, 2 for unsigned
/// numbers and characters, 1 for signed ones, 3 for floats and doubles; the bytes of an element; the
/// data's length in bytes; 2 dimensions, M, then N, for the first is the fast one. Then come the chunk's
/// bytes as they are. Nothing in the file tells a character from a `u8`.
///
/// Refused as [`lookup`](crate::lookup), then with [`Refusal::RAWARRAY_LENGTH`], and `file` is then as it
/// was.
///
/// ```
/// use dialmoth::{Row, Type};
///
/// let mut image = vec![0; 4096];
/// dialmoth::create(&mut image, b"regulator", b"night", 0, 8, 1)?;
/// let curve = [400_u16, 900, 1500, 350, 800, 1400].map(u16::to_le_bytes);
/// let fans = Row { name: b"fans", kind: Type::U16, n: 2, m: 3, data: curve.as_flattened() };
/// dialmoth::append(&mut image, &dialmoth::sheet(&[fans]), u64::MAX)?;
///
/// let length = dialmoth::lookup(&image, 0, b"fans")?.rawarray_length();
/// assert_eq!(length, Some(64 + 2 * 3 * 2));
/// let mut file = [0; 76];
/// dialmoth::rawarray_write(&image, 0, b"fans", &mut file)?;
/// assert_eq!(file[..8], *b"rawarray");
/// assert_eq!(file[48..56], 3_u64.to_le_bytes()); // M
/// assert_eq!(file[56..64], 2_u64.to_le_bytes()); // N
/// assert_eq!(file[64..], *fans.data);
/// # Ok::<(), dialmoth::Refusal>(())
/// ```
pub fn rawarray_write(
    image: &[u8],
    frame: u64,
    name: &[u8],
    file: &mut [u8],
) -> Result<(), Refusal> {
    let [] = answer(|_| {
        let (image, name) = ((image.as_ptr(), image.len()), (name.as_ptr(), name.len()));
        let (start, length) = (file.as_mut_ptr(), file.len());
        // The pointers and lengths are those of live slices, and no other one has a byte of `file`.
        unsafe {
            ffi::dialmoth_rawarray_write(image.0, image.1, frame, name.0, name.1, start, length)
        }
    })?;
    Ok(())
}

/// The RawArray file of a chunk, as [`rawarray_write`] writes it, with the refusals of
/// [`lookup`](crate::lookup). The image is opened twice, the first time for the file's length.
///
/// ```
/// # use dialmoth::{Row, Type};
/// # let mut image = vec![0; 4096];
/// # dialmoth::create(&mut image, b"regulator", b"night", 0, 8, 1)?;
/// # let row = Row { name: b"note", kind: Type::Character, n: 9, m: 1, data: b"door open" };
/// # dialmoth::append(&mut image, &dialmoth::sheet(&[row]), u64::MAX)?;
/// let file = dialmoth::rawarray_file(&image, 0, b"note")?;
/// assert_eq!(file[64..], *b"door open");
/// # Ok::<(), dialmoth::Refusal>(())
/// ```
#[cfg(feature = "alloc")]
pub fn rawarray_file(
    image: &[u8],
    frame: u64,
    name: &[u8],
) -> Result<alloc::vec::Vec<u8>, Refusal> {
    let length = crate::lookup(image, frame, name)?.rawarray_length().unwrap_or(0);
    let mut file = alloc::vec![0; length];
    rawarray_write(image, frame, name, &mut file)?;
    Ok(file)
}

/// Bytes of the sheet that [`rawarray_read`] makes of this file under this name: 20, the name's, and the
/// data's, whose length the file has at byte 32.
///
/// It is never more than the file's own length and 275: `None` where the file says more data than it has
/// bytes, is too short to say, or the name has over 255 bytes. Reading then refuses, whatever it is lent.
/// No more of the file is looked at: one that has a length here may be refused all the same.
pub fn rawarray_sheet_length(file: &[u8], name: &[u8]) -> Option<usize> {
    let (length, _) = file.get(LENGTH..)?.split_first_chunk()?;
    let length = usize::try_from(u64::from_le_bytes(*length)).ok()?;
    let told = length <= file.len() && name.len() <= 255;
    told.then(|| TABLE + name.len() + length)
}

/// Reads a RawArray file back into the sheet of one row, under a name. `sheet` is exactly as long as
/// [`rawarray_sheet_length`] says; [`append`](crate::append) and [`begin`](crate::begin) take it as it is.
///
/// A file of 2 dimensions has M, then N; one of 1 has N, and M is 1. Its elements become `u8` to `u64`,
/// `i8` to `i64`, float and double; what [`rawarray_write`] made of a character comes back as `u8`, so
/// that images of 2.0 take it too. What follows the data is ignored. Floats are not tested for a NaN
/// here: the append refuses it ([`Refusal::NAN_IN_SHEET`]).
///
/// Refused with [`Refusal::RAWARRAY_SHORT`], [`Refusal::RAWARRAY_MAGIC`], [`Refusal::RAWARRAY_FLAGS`],
/// [`Refusal::RAWARRAY_TYPE`], [`Refusal::RAWARRAY_DIMENSIONS`], [`Refusal::RAWARRAY_DATA`],
/// [`Refusal::RAWARRAY_COLUMNS`], [`Refusal::RAWARRAY_NAME`] and [`Refusal::RAWARRAY_SHEET`], in this
/// order, and `sheet` is then as it was.
///
/// ```
/// use dialmoth::{Refusal, Type};
///
/// // Three doubles, and a text behind them.
/// let words = [0, 3, 8, 24, 1, 3].map(u64::to_le_bytes);
/// let constants = [1.0625, -0.5, 21.25].map(f64::to_le_bytes);
/// let mut file = [b"rawarray", words.as_flattened(), constants.as_flattened(), b"bench 4"].concat();
///
/// assert_eq!(dialmoth::rawarray_sheet_length(&file, b"calibration"), Some(20 + 11 + 24));
/// let mut sheet = [0; 55];
/// dialmoth::rawarray_read(&file, b"calibration", &mut sheet)?;
///
/// let mut image = vec![0; 4096];
/// dialmoth::create(&mut image, b"regulator", b"night", 0, 8, 1)?;
/// dialmoth::append(&mut image, &sheet, u64::MAX)?;
/// let entry = dialmoth::lookup(&image, 0, b"calibration")?;
/// assert_eq!((entry.n, entry.m, entry.kind), (3, 1, Type::Double));
/// assert_eq!(dialmoth::chunk(&image, 0, b"calibration")?, constants.as_flattened());
///
/// file[16] = 4; // complex numbers, of two floats each
/// let refused = dialmoth::rawarray_read(&file, b"calibration", &mut sheet);
/// assert_eq!(refused, Err(Refusal::RAWARRAY_TYPE));
/// # Ok::<(), Refusal>(())
/// ```
pub fn rawarray_read(file: &[u8], name: &[u8], sheet: &mut [u8]) -> Result<(), Refusal> {
    let [] = answer(|_| {
        let (file, name) = ((file.as_ptr(), file.len()), (name.as_ptr(), name.len()));
        let (start, length) = (sheet.as_mut_ptr(), sheet.len());
        // The pointers and lengths are those of live slices, and no other one has a byte of `sheet`.
        unsafe { ffi::dialmoth_rawarray_read(file.0, file.1, name.0, name.1, start, length) }
    })?;
    Ok(())
}

/// The sheet of a RawArray file under a name, as [`rawarray_read`] makes it, with its refusals. It never
/// takes more memory than the file's own length and 275 bytes, whatever the file says.
///
/// ```
/// # use dialmoth::{Row, Type};
/// # let mut image = vec![0; 4096];
/// # dialmoth::create(&mut image, b"regulator", b"night", 0, 8, 1)?;
/// # let row = Row { name: b"note", kind: Type::Character, n: 9, m: 1, data: b"door open" };
/// # dialmoth::append(&mut image, &dialmoth::sheet(&[row]), u64::MAX)?;
/// let file = dialmoth::rawarray_file(&image, 0, b"note")?;
/// let sheet = dialmoth::rawarray_sheet(&file, b"note")?;
/// dialmoth::append(&mut image, &sheet, u64::MAX)?;
/// assert_eq!(dialmoth::lookup(&image, 0, b"note")?.kind, Type::Character);
/// assert_eq!(dialmoth::lookup(&image, 1, b"note")?.kind, Type::U8);
/// # Ok::<(), dialmoth::Refusal>(())
/// ```
#[cfg(feature = "alloc")]
pub fn rawarray_sheet(file: &[u8], name: &[u8]) -> Result<alloc::vec::Vec<u8>, Refusal> {
    // Where no length is told the call says why, whatever it is lent.
    let length = rawarray_sheet_length(file, name).unwrap_or(0);
    let mut sheet = alloc::vec![0; length];
    rawarray_read(file, name, &mut sheet)?;
    Ok(sheet)
}

#[cfg(test)]
mod tests {
    extern crate std;

    use super::{rawarray_read, rawarray_sheet_length, rawarray_write};
    use crate::{append, chunk, create, lookup, put_sheet, Entry, Refusal, Row, Type};
    use std::vec::Vec;

    /// Of each type of a chunk the type and the width in a file.
    const IN_FILES: [(Type, u64, u64); 11] = [
        (Type::U8, 2, 1),
        (Type::U16, 2, 2),
        (Type::U32, 2, 4),
        (Type::U64, 2, 8),
        (Type::I8, 1, 1),
        (Type::I16, 1, 2),
        (Type::I32, 1, 4),
        (Type::I64, 1, 8),
        (Type::Float, 3, 4),
        (Type::Double, 3, 8),
        (Type::Character, 2, 1),
    ];

    /// Bytes none of whose floats and doubles is a NaN.
    fn data(length: u64) -> Vec<u8> {
        (0..length).map(|at| (7 * at % 120 + 1) as u8).collect()
    }

    fn file_of(kind: u64, width: u64, dimensions: &[u64], data: &[u8]) -> Vec<u8> {
        let words = [0, kind, width, data.len() as u64, dimensions.len() as u64];
        let words = words.iter().chain(dimensions).flat_map(|word| word.to_le_bytes());
        b"rawarray".iter().copied().chain(words).chain(data.iter().copied()).collect()
    }

    fn put(file: &mut [u8], at: usize, word: u64) {
        file[at..at + 8].copy_from_slice(&word.to_le_bytes());
    }

    /// An empty image of this version, 2.0 or 2.1.
    fn fresh(minor: u8) -> Vec<u8> {
        let mut image = std::vec![0; 2048];
        create(&mut image, b"regulator", b"night", 0, 8, 2).unwrap();
        image[44..48].copy_from_slice(&[minor, 0, 2, 0]);
        image
    }

    fn sheet_of(row: Row) -> Vec<u8> {
        put_sheet(&[row], &mut [0; 512]).unwrap().to_vec()
    }

    fn put_row(image: &mut [u8], row: Row) {
        assert!(append(image, &sheet_of(row), u64::MAX).unwrap().is_whole());
    }

    /// An image with the row in frame 2 alone; the frames before it have another.
    fn image_of(kind: Type, n: u64, m: u32, data: &[u8]) -> Vec<u8> {
        let mut image = fresh(1);
        let heater = Row { name: b"heater", kind: Type::U8, n: 1, m: 1, data: &[40] };
        for row in [heater, heater, Row { name: b"probe", kind, n, m, data }] {
            put_row(&mut image, row);
        }
        image
    }

    /// What a call writes to a slice of this length, or its refusal. Slices of other lengths are refused,
    /// with `last` where this one is not, and no refusal writes.
    fn made(
        length: usize,
        last: Refusal,
        call: impl Fn(&mut [u8]) -> Result<(), Refusal>,
    ) -> Result<Vec<u8>, Refusal> {
        let mut bytes = std::vec![7; length + 1];
        let answer = call(&mut bytes[..length]);
        assert_eq!(bytes.pop(), Some(7));
        if answer.is_err() {
            assert!(bytes.iter().all(|&byte| byte == 7));
        }
        for other in [0, 1, length.saturating_sub(1), length + 1, 2 * length + 64] {
            if other == length {
                continue;
            }
            let mut lent = std::vec![7; other];
            assert_eq!(call(&mut lent), Err(answer.err().unwrap_or(last)));
            assert!(lent.iter().all(|&byte| byte == 7));
        }
        answer.map(|()| bytes)
    }

    /// The file of the row's chunk, or the refusal.
    fn written(image: &[u8], frame: u64, name: &[u8]) -> Result<Vec<u8>, Refusal> {
        let length = lookup(image, frame, name).ok().and_then(Entry::rawarray_length).unwrap_or(0);
        let file =
            made(length, Refusal::RAWARRAY_LENGTH, |file| rawarray_write(image, frame, name, file));
        #[cfg(feature = "alloc")]
        assert_eq!(crate::rawarray_file(image, frame, name), file);
        file
    }

    /// The sheet of the file, or the refusal.
    fn read(file: &[u8], name: &[u8]) -> Result<Vec<u8>, Refusal> {
        let length = rawarray_sheet_length(file, name).unwrap_or(0);
        let sheet = made(length, Refusal::RAWARRAY_SHEET, |sheet| rawarray_read(file, name, sheet));
        #[cfg(feature = "alloc")]
        assert_eq!(crate::rawarray_sheet(file, name), sheet);
        sheet
    }

    #[test]
    fn files_are_those_of_the_paper() {
        let image = image_of(Type::I16, 2, 3, b"twelve bytes");
        let expected = [
            &b"rawarray"[..],
            &[0, 0, 0, 0, 0, 0, 0, 0],
            &[1, 0, 0, 0, 0, 0, 0, 0, 2, 0, 0, 0, 0, 0, 0, 0],
            &[12, 0, 0, 0, 0, 0, 0, 0],
            &[2, 0, 0, 0, 0, 0, 0, 0, 3, 0, 0, 0, 0, 0, 0, 0, 2, 0, 0, 0, 0, 0, 0, 0],
            b"twelve bytes",
        ];
        assert_eq!(written(&image, 2, b"probe"), Ok(expected.concat()));
        for (kind, in_file, width) in IN_FILES {
            for (n, m) in [(1, 1), (3, 1), (2, 5), (1, 4), (0, 3), (u64::MAX, 0), (0, u32::MAX)] {
                let data = data(n.wrapping_mul(m.into()) * width);
                let file = written(&image_of(kind, n, m, &data), 2, b"probe");
                assert_eq!(file, Ok(file_of(in_file, width, &[m.into(), n], &data)));
            }
        }
    }

    #[test]
    fn images_of_1_0_are_written_as_those_of_2_x() {
        // One name is listed alike in all versions.
        let mut image = fresh(1);
        put_row(&mut image, Row { name: b"probe", kind: Type::Float, n: 2, m: 1, data: &data(8) });
        let file = written(&image, 0, b"probe");
        assert_eq!(file, Ok(file_of(3, 4, &[1, 2], &data(8))));
        for version in [[0, 0, 1, 0], [0, 0, 2, 0]] {
            image[44..48].copy_from_slice(&version);
            assert_eq!(written(&image, 0, b"probe"), file);
        }
        image[44..48].copy_from_slice(&[0, 0, 3, 0]);
        assert_eq!(written(&image, 0, b"probe"), Err(Refusal::WRONG_VERSION));
    }

    #[test]
    fn writing_is_refused_as_a_lookup() {
        let image = image_of(Type::Float, 2, 1, &data(8));
        assert_eq!(written(&image[..255], 9, b"?"), Err(Refusal::SHORT_IMAGE));
        assert_eq!(written(&image, 3, b"?"), Err(Refusal::NO_FRAME));
        assert_eq!(written(&image, 1, b"?"), Err(Refusal::NO_NAME));
        assert_eq!(written(&image, 1, b"probe"), Err(Refusal::NO_CHUNK));
        assert!(written(&image, 2, b"probe").is_ok());
    }

    #[test]
    fn chunks_come_back_as_they_were() {
        for (kind, _, width) in IN_FILES {
            let back = if kind == Type::Character { Type::U8 } else { kind };
            for (n, m) in [(1, 1), (5, 1), (2, 3), (0, 2), (u64::MAX, 0), (0, u32::MAX)] {
                let data = data(n.wrapping_mul(m.into()) * width);
                let file = written(&image_of(kind, n, m, &data), 2, b"probe").unwrap();
                let sheet = read(&file, b"again").unwrap();
                assert_eq!(sheet, sheet_of(Row { name: b"again", kind: back, n, m, data: &data }));
                for mut image in [fresh(0), fresh(1)] {
                    assert!(append(&mut image, &sheet, u64::MAX).unwrap().is_whole());
                    let entry = lookup(&image, 0, b"again").unwrap();
                    assert_eq!((entry.n, entry.m, entry.kind), (n, m, back));
                    assert_eq!(chunk(&image, 0, b"again"), Ok(&data[..]));
                }
            }
        }
    }

    #[test]
    fn files_of_others_are_read() {
        for (kind, in_file, width) in &IN_FILES[..10] {
            // One dimension is N, and any bytes may follow the data.
            let data = data(3 * width);
            let row = Row { name: b"probe", kind: *kind, n: 3, m: 1, data: &data };
            let mut file = file_of(*in_file, *width, &[3], &data);
            assert_eq!(read(&file, b"probe"), Ok(sheet_of(row)));
            file.extend(b"rawarray, and so on");
            assert_eq!(read(&file, b"probe"), Ok(sheet_of(row)));
            let empty = Row { n: 0, data: b"", ..row };
            assert_eq!(read(&file_of(*in_file, *width, &[0], b""), b"probe"), Ok(sheet_of(empty)));
        }
        // Of two the first is M. The longest name has any bytes but zeros.
        let mut file = file_of(2, 1, &[2, 3], b"123456 and text");
        put(&mut file, 32, 6);
        for name in [&b"a"[..], &[0xFF; 255]] {
            let row = Row { name, kind: Type::U8, n: 3, m: 2, data: b"123456" };
            assert_eq!(read(&file, name), Ok(sheet_of(row)));
        }
    }

    #[test]
    fn types_and_widths_are_those_of_chunks() {
        let kinds = [0, 1, 2, 3, 4, 5, 6, 1 << 8 | 2, 1 << 32 | 2, 1 << 63 | 1, u64::MAX];
        let widths = [0, 1, 2, 3, 4, 5, 6, 7, 8, 9, 16, 1 << 8 | 1, 1 << 32 | 4, 1 << 63, u64::MAX];
        for in_file in kinds {
            for width in widths {
                let known = IN_FILES.iter().find(|known| (known.1, known.2) == (in_file, width));
                let row = |kind| Row { name: b"probe", kind, n: 0, m: 9, data: b"" };
                let sheet = known.map(|known| sheet_of(row(known.0)));
                let file = file_of(in_file, width, &[9, 0], b"");
                assert_eq!(read(&file, b"probe"), sheet.ok_or(Refusal::RAWARRAY_TYPE));
            }
        }
    }

    #[test]
    fn reading_is_refused_in_its_order() {
        // All wrong at once, then put right one after the other.
        let good = file_of(1, 4, &[9, 0], b"");
        let wrong = [
            (0, u64::from_le_bytes(*b"rawArray"), Refusal::RAWARRAY_MAGIC),
            (8, 1 << 63, Refusal::RAWARRAY_FLAGS),
            (24, 3, Refusal::RAWARRAY_TYPE),
            (40, 3, Refusal::RAWARRAY_DIMENSIONS),
            (32, 4, Refusal::RAWARRAY_DATA),
            (48, 1 << 32, Refusal::RAWARRAY_COLUMNS),
        ];
        let long = [b'n'; 256];
        let mut file = good.clone();
        for (at, word, _) in wrong {
            put(&mut file, at, word);
        }
        for (at, _, refusal) in wrong {
            for name in [&b"probe"[..], b"", &long] {
                assert_eq!(read(&file[..47], name), Err(Refusal::RAWARRAY_SHORT));
                assert_eq!(read(&file, name), Err(refusal));
            }
            file[at..at + 8].copy_from_slice(&good[at..at + 8]);
        }
        for name in [&b""[..], b"\0", b"probe\0", b"\0probe", b"pro\0be", &long, &[0; 256]] {
            assert_eq!(read(&file, name), Err(Refusal::RAWARRAY_NAME));
        }
        assert!(read(&file, &long[1..]).is_ok());
        // Each alone.
        for at in 0..8 {
            let mut file = good.clone();
            file[at] ^= 0x20;
            assert_eq!(read(&file, b"probe"), Err(Refusal::RAWARRAY_MAGIC));
            let mut file = good.clone();
            file[8 + at] = 1;
            assert_eq!(read(&file, b"probe"), Err(Refusal::RAWARRAY_FLAGS));
        }
        for dimensions in [0, 3, 1 << 32 | 1, 1 << 61 | 2, 1 << 63, u64::MAX] {
            let mut file = good.clone();
            put(&mut file, 40, dimensions);
            assert_eq!(read(&file, b"probe"), Err(Refusal::RAWARRAY_DIMENSIONS));
        }
        for columns in [1 << 32, 1 << 63, u64::MAX] {
            let file = file_of(1, 4, &[columns, 0], b"");
            assert_eq!(read(&file, b"probe"), Err(Refusal::RAWARRAY_COLUMNS));
        }
    }

    #[test]
    fn cut_files_are_refused() {
        for dimensions in [&[6][..], &[2, 3]] {
            let file = file_of(2, 2, dimensions, &data(12));
            let start = file.len() - 12;
            for length in 0..=file.len() {
                let refused = match length {
                    ..48 => Some(Refusal::RAWARRAY_SHORT),
                    _ if length < start => Some(Refusal::RAWARRAY_DIMENSIONS),
                    _ if length < file.len() => Some(Refusal::RAWARRAY_DATA),
                    _ => None,
                };
                assert_eq!(read(&file[..length], b"probe").err(), refused);
            }
        }
    }

    #[test]
    fn data_are_the_dimensions_times_the_width() {
        // The last three wrap to what the file says.
        for (width, dimensions, length) in [
            (1, &[12][..], 13),
            (1, &[12], 11),
            (4, &[12], 12),
            (1, &[12, 1], 0),
            (1, &[u64::MAX], u64::MAX),
            (1, &[1 << 32, 1 << 32], 0),
            (8, &[1 << 61 | 1], 8),
            (8, &[u64::MAX, u64::MAX], 8),
        ] {
            let mut file = file_of(2, width, dimensions, &data(12));
            put(&mut file, 32, length);
            assert_eq!(read(&file, b"probe"), Err(Refusal::RAWARRAY_DATA));
        }
    }

    #[test]
    fn nans_are_read_and_not_appended() {
        for bits in [0x7FC0_0000_u32, 0xFFC0_0000, 0x7F80_0001, 0xFF80_0001] {
            // As another program's image may hold them.
            let mut image = image_of(Type::Float, 2, 1, &data(8));
            let at = lookup(&image, 2, b"probe").unwrap().location as usize + 4;
            image[at..at + 4].copy_from_slice(&bits.to_le_bytes());
            let file = written(&image, 2, b"probe").unwrap();
            assert_eq!(file[68..], bits.to_le_bytes());
            let sheet = read(&file, b"probe").unwrap();
            assert_eq!(sheet[29..], bits.to_le_bytes());
            assert_eq!(append(&mut image, &sheet, u64::MAX), Err(Refusal::NAN_IN_SHEET));
            // An infinity is a number.
            image[at..at + 4].copy_from_slice(&[0, 0, 0x80, 0x7F]);
            let sheet = read(&written(&image, 2, b"probe").unwrap(), b"probe").unwrap();
            assert!(append(&mut image, &sheet, u64::MAX).unwrap().is_whole());
            assert_eq!(chunk(&image, 3, b"probe"), chunk(&image, 2, b"probe"));
        }
    }

    #[test]
    fn lengths_of_any_fields() {
        let entry = |kind, n, m| Entry { frame: 0, n, location: 0, m, id: 0, kind, flags: 0 };
        for (kind, _, width) in IN_FILES {
            for (n, m) in [(1, 1), (1, 3), (7, 3), (0, 1), (1, 0), (0, 0), (0, u32::MAX)] {
                let length = (64 + n * u64::from(m) * width) as usize;
                assert_eq!(entry(kind, n, m).rawarray_length(), Some(length));
            }
            assert_eq!(entry(kind, u64::MAX, 0).rawarray_length(), Some(64));
            let longest = (u64::MAX - 64) / width;
            assert!(entry(kind, longest, 1).rawarray_length().is_some());
            for (n, m) in [(longest + 1, 1), (u64::MAX, 1), (1 << 63, 2), (u64::MAX, u32::MAX)] {
                assert_eq!(entry(kind, n, m).rawarray_length(), None);
            }
        }
    }

    #[test]
    fn lengths_of_any_sheets() {
        // Nothing but the word at 32 is looked at.
        let mut file = [0; 100];
        for length in [0, 1, 44, 99, 100] {
            put(&mut file, 32, length);
            for name in [0, 1, 255] {
                let told = rawarray_sheet_length(&file, &[0; 255][..name]);
                assert_eq!(told, Some(20 + name + length as usize));
            }
            assert_eq!(rawarray_sheet_length(&file, &[b'n'; 256]), None);
        }
        for length in [101, 1 << 32, 1 << 62, 1 << 63, u64::MAX - 20, u64::MAX] {
            put(&mut file, 32, length);
            assert_eq!(rawarray_sheet_length(&file, b"probe"), None);
        }
        put(&mut file, 32, 40);
        for length in 0..=100 {
            let told = rawarray_sheet_length(&file[..length], b"probe");
            assert_eq!(told, (length >= 40).then_some(65));
        }
    }
}
