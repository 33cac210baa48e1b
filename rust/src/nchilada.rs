//! Chunks of floats and doubles as NChilada files.

use crate::{answer, ffi, Entry, Refusal, Type};

/// Bytes before the extremes: magic, time, the count's two words, dimensions, code.
const HEADER: u64 = 28;

impl Entry {
    /// Bytes of the NChilada file of this chunk, 28 + (2 + N) * M * size: what [`nchilada()`] takes.
    ///
    /// `None` where there is no such file: of another type than float and double, of another M than 1
    /// and 3, of N 0; and where no slice is so long, which no entry of an image comes to.
    pub fn nchilada_length(self) -> Option<usize> {
        let floats = matches!(self.kind, Type::Float | Type::Double);
        if !floats || !matches!(self.m, 1 | 3) || self.n == 0 {
            return None;
        }
        let row = u64::from(self.m) * self.kind.size();
        let length = self.n.checked_add(2)?.checked_mul(row)?.checked_add(HEADER)?;
        usize::try_from(length).ok()
    }
}

/// Writes a chunk of floats or doubles with M 1 or 3 as an NChilada file, one property of one output
/// step, to `file`, which is exactly as long as [`Entry::nchilada_length`] says.
///
/// All numbers are big-endian: magic 1062053, time, N as a high and a low word, M, code 9 or 10, the
/// smallest value of each column, the largest of each, then the elements. Time is the frame's number as
/// an `f64` times `step`, the seconds from a frame to the next, rounded once; a step may be negative.
/// Of equal values the first is kept as the extreme, of -0.0 and 0.0 too, with its sign.
///
/// Refused as [`lookup`](crate::lookup), then with [`Refusal::NOT_FLOATS`], [`Refusal::NO_ROWS`],
/// [`Refusal::NAN_IN_CHUNK`], [`Refusal::NOT_FINITE`] and [`Refusal::FILE_LENGTH`], in this order, and
/// `file` is then as it was. An append takes no NaN, but an image of another program may hold some.
/// Infinities are values.
///
/// ```
/// use dialmoth::{Refusal, Row, Type};
///
/// let mut image = vec![0; 4096];
/// dialmoth::create(&mut image, b"regulator", b"night", 0, 8, 1)?;
/// let readings = [21.5_f32, -2.25, 19.0].map(f32::to_le_bytes);
/// let probe = Row { name: b"probe", kind: Type::Float, n: 3, m: 1, data: readings.as_flattened() };
/// let heater = Row { name: b"heater", kind: Type::U8, n: 1, m: 1, data: &[40] };
/// dialmoth::append(&mut image, &dialmoth::sheet(&[probe, heater]), u64::MAX)?;
///
/// let length = dialmoth::lookup(&image, 0, b"probe")?.nchilada_length();
/// assert_eq!(length, Some(28 + (2 + 3) * 4));
/// let mut file = [0; 48];
/// dialmoth::nchilada(&image, 0, b"probe", 60.0, &mut file)?;
/// assert_eq!(file[..4], 1062053_u32.to_be_bytes());
/// assert_eq!(file[28..32], (-2.25_f32).to_be_bytes()); // the smallest
/// assert_eq!(file[32..36], 21.5_f32.to_be_bytes()); // the largest
/// assert_eq!(file[36..40], 21.5_f32.to_be_bytes()); // the first
///
/// let refused = dialmoth::nchilada(&image, 0, b"heater", 60.0, &mut file);
/// assert_eq!(refused, Err(Refusal::NOT_FLOATS));
/// # Ok::<(), Refusal>(())
/// ```
pub fn nchilada(
    image: &[u8],
    frame: u64,
    name: &[u8],
    step: f64,
    file: &mut [u8],
) -> Result<(), Refusal> {
    let [] = answer(|_| {
        let (image, name) = ((image.as_ptr(), image.len()), (name.as_ptr(), name.len()));
        let (start, length) = (file.as_mut_ptr(), file.len());
        // The pointers and lengths are those of live slices, and no other one has a byte of `file`.
        unsafe {
            ffi::dialmoth_nchilada(image.0, image.1, frame, name.0, name.1, step, start, length)
        }
    })?;
    Ok(())
}

/// The NChilada file of a chunk, as [`nchilada()`] writes it, with its refusals. The image is opened
/// twice, the first time for the file's length.
///
/// ```
/// # use dialmoth::{Row, Type};
/// # let mut image = vec![0; 4096];
/// # dialmoth::create(&mut image, b"regulator", b"night", 0, 8, 1)?;
/// # let data = [0.5_f64, 1.5, -2.0].map(f64::to_le_bytes);
/// # let row = Row { name: b"probe/position", kind: Type::Double, n: 1, m: 3, data: data.as_flattened() };
/// # dialmoth::append(&mut image, &dialmoth::sheet(&[row]), u64::MAX)?;
/// let file = dialmoth::nchilada_file(&image, 0, b"probe/position", 60.0)?;
/// assert_eq!(file.len(), 28 + (2 + 1) * 3 * 8);
/// # Ok::<(), dialmoth::Refusal>(())
/// ```
#[cfg(feature = "alloc")]
pub fn nchilada_file(
    image: &[u8],
    frame: u64,
    name: &[u8],
    step: f64,
) -> Result<alloc::vec::Vec<u8>, Refusal> {
    // Where there is no file the call says why, whatever it is lent.
    let length = crate::lookup(image, frame, name)?.nchilada_length().unwrap_or(0);
    let mut file = alloc::vec![0; length];
    nchilada(image, frame, name, step, &mut file)?;
    Ok(file)
}

#[cfg(test)]
mod tests {
    extern crate std;

    use super::nchilada;
    use crate::{append, create, lookup, put_sheet, Entry, Refusal, Row, Type};
    use std::vec::Vec;

    /// Bits of NaNs, quiet and signalling, of both signs.
    const NANS: [u32; 4] = [0x7FC0_0000, 0xFFC0_0000, 0x7F80_0001, 0xFF80_0001];

    fn floats(values: &[f32]) -> Vec<u8> {
        values.iter().flat_map(|value| value.to_le_bytes()).collect()
    }

    fn doubles(values: &[f64]) -> Vec<u8> {
        values.iter().flat_map(|value| value.to_le_bytes()).collect()
    }

    /// An image with the row in frame 2 alone; the frames before it have another.
    fn image_of(kind: Type, n: u64, m: u32, data: &[u8]) -> Vec<u8> {
        let mut image = std::vec![0; 2048];
        create(&mut image, b"regulator", b"night", 0, 8, 2).unwrap();
        let heater = Row { name: b"heater", kind: Type::U8, n: 1, m: 1, data: &[40] };
        let mut out = [0; 512];
        for row in [heater, heater, Row { name: b"probe", kind, n, m, data }] {
            let sheet = put_sheet(&[row], &mut out).unwrap();
            assert!(append(&mut image, sheet, u64::MAX).unwrap().is_whole());
        }
        image
    }

    /// The file of the row's chunk, or the refusal. Slices of other lengths are refused, and no refusal
    /// writes.
    fn written(image: &[u8], frame: u64, name: &[u8], step: f64) -> Result<Vec<u8>, Refusal> {
        let length = lookup(image, frame, name).ok().and_then(Entry::nchilada_length).unwrap_or(0);
        let mut file = std::vec![7; length + 1];
        let answer = nchilada(image, frame, name, step, &mut file[..length]);
        assert_eq!(file.pop(), Some(7));
        if answer.is_err() {
            assert!(file.iter().all(|&byte| byte == 7));
        }
        for other in [0, 1, length.saturating_sub(1), length + 1, 2 * length + 28] {
            if other == length {
                continue;
            }
            let mut lent = std::vec![7; other];
            let refused = nchilada(image, frame, name, step, &mut lent);
            assert_eq!(refused, Err(answer.err().unwrap_or(Refusal::FILE_LENGTH)));
            assert!(lent.iter().all(|&byte| byte == 7));
        }
        #[cfg(feature = "alloc")]
        assert_eq!(crate::nchilada_file(image, frame, name, step), answer.map(|()| file.clone()));
        answer.map(|()| file)
    }

    #[test]
    fn files_are_those_of_the_paper() {
        let image = image_of(Type::Float, 3, 1, &floats(&[1.5, -2.0, 8.25]));
        let expected = [
            &[0x00, 0x10, 0x34, 0xA5][..], // 1062053
            &150.0_f64.to_be_bytes(),
            &[0, 0, 0, 0, 0, 0, 0, 3, 0, 0, 0, 1, 0, 0, 0, 9],
            &[0xC0, 0, 0, 0, 0x41, 0x04, 0, 0],
            &[0x3F, 0xC0, 0, 0, 0xC0, 0, 0, 0, 0x41, 0x04, 0, 0],
        ];
        assert_eq!(written(&image, 2, b"probe", 75.0), Ok(expected.concat()));

        let values = [1.0_f64, 20.0, -3.0, 2.0, 10.0, -3.5];
        let image = image_of(Type::Double, 2, 3, &doubles(&values));
        let extremes = [1.0, 10.0, -3.5, 2.0, 20.0, -3.0];
        let expected = [
            &[0x00, 0x10, 0x34, 0xA5][..],
            &(-0.5_f64).to_be_bytes(),
            &[0, 0, 0, 0, 0, 0, 0, 2, 0, 0, 0, 3, 0, 0, 0, 10],
            &extremes.map(f64::to_be_bytes).concat(),
            &values.map(f64::to_be_bytes).concat(),
        ];
        assert_eq!(written(&image, 2, b"probe", -0.25), Ok(expected.concat()));
    }

    #[test]
    fn images_of_1_0_are_written_as_those_of_2_x() {
        // One name is listed alike in all versions.
        let mut image = std::vec![0; 1024];
        create(&mut image, b"regulator", b"night", 0, 2, 2).unwrap();
        let data = floats(&[4.0, 5.0]);
        let mut out = [0; 64];
        let row = Row { name: b"probe", kind: Type::Float, n: 2, m: 1, data: &data };
        append(&mut image, put_sheet(&[row], &mut out).unwrap(), u64::MAX).unwrap();
        let file = written(&image, 0, b"probe", 1.0);
        assert!(file.is_ok());
        for version in [[0, 0, 1, 0], [0, 0, 2, 0]] {
            image[44..48].copy_from_slice(&version);
            assert_eq!(written(&image, 0, b"probe", 1.0), file);
        }
        image[44..48].copy_from_slice(&[0, 0, 3, 0]);
        assert_eq!(written(&image, 0, b"probe", 1.0), Err(Refusal::WRONG_VERSION));
    }

    #[test]
    fn extremes_are_the_first_of_equals() {
        for (values, bits) in [([0.0, -0.0], 0), ([-0.0, 0.0], 0x8000_0000_u32)] {
            let file = written(&image_of(Type::Float, 2, 1, &floats(&values)), 2, b"probe", 1.0);
            let extremes = [bits.to_be_bytes(); 2];
            assert_eq!(&file.unwrap()[28..36], extremes.as_flattened());
        }
        let values = [f32::NEG_INFINITY, 0.0, f32::MIN_POSITIVE, f32::INFINITY];
        let file = written(&image_of(Type::Float, 4, 1, &floats(&values)), 2, b"probe", 1.0);
        let extremes = [f32::NEG_INFINITY, f32::INFINITY].map(f32::to_be_bytes);
        assert_eq!(&file.unwrap()[28..36], extremes.as_flattened());
        // Each column for itself, -0.0 met first in the middle one.
        let values = [0.0, -0.0, 1.0, -0.0, 0.0, 2.0];
        let file = written(&image_of(Type::Double, 2, 3, &doubles(&values)), 2, b"probe", 1.0);
        let extremes = [0.0, -0.0, 1.0, 0.0, -0.0, 2.0_f64].map(f64::to_be_bytes);
        assert_eq!(&file.unwrap()[28..76], extremes.as_flattened());
    }

    #[test]
    fn refusals_come_in_their_order() {
        let image = image_of(Type::Float, 2, 1, &floats(&[1.0, 2.0]));
        let refused = |image: &[u8], frame, name, step| written(image, frame, name, step).err();
        assert_eq!(refused(&image[..255], 9, b"?", f64::NAN), Some(Refusal::SHORT_IMAGE));
        assert_eq!(refused(&image, 3, b"?", f64::NAN), Some(Refusal::NO_FRAME));
        assert_eq!(refused(&image, 1, b"?", f64::NAN), Some(Refusal::NO_NAME));
        assert_eq!(refused(&image, 1, b"probe", f64::NAN), Some(Refusal::NO_CHUNK));
        assert_eq!(refused(&image, 1, b"heater", f64::NAN), Some(Refusal::NOT_FLOATS));
        for (kind, m, refusal) in [
            (Type::Double, 5, Refusal::NOT_FLOATS),
            (Type::Float, 0, Refusal::NOT_FLOATS),
            (Type::U32, 1, Refusal::NOT_FLOATS),
            (Type::Float, 1, Refusal::NO_ROWS),
            (Type::Double, 3, Refusal::NO_ROWS),
        ] {
            let empty = image_of(kind, 0, m, &[]);
            assert_eq!(refused(&empty, 2, b"probe", f64::NAN), Some(refusal));
        }
        for m in [0, 2, 4] {
            let data = doubles(&[1.0; 4][..m as usize]);
            let image = image_of(Type::Double, 1, m, &data);
            assert_eq!(refused(&image, 2, b"probe", f64::NAN), Some(Refusal::NOT_FLOATS));
        }
        // A NaN comes before the step, and the step before the length.
        for (place, bits) in [0, 1].into_iter().flat_map(|n| NANS.map(|bits| (n, bits))) {
            let mut image = image.clone();
            let at = lookup(&image, 2, b"probe").unwrap().location as usize + 4 * place;
            image[at..at + 4].copy_from_slice(&bits.to_le_bytes());
            assert_eq!(refused(&image, 2, b"probe", f64::NAN), Some(Refusal::NAN_IN_CHUNK));
        }
        for step in [f64::NAN, f64::INFINITY, f64::NEG_INFINITY, 1.7e308, -1.7e308] {
            assert_eq!(refused(&image, 2, b"probe", step), Some(Refusal::NOT_FINITE));
        }
    }

    #[test]
    fn time_is_the_frame_times_the_step() {
        let image = image_of(Type::Float, 1, 1, &floats(&[1.0]));
        let time = |step| written(&image, 2, b"probe", step).map(|file| file[4..12].to_vec());
        for step in [0.0, -0.0, 0.1, -2.5, 8.9e307, f64::MIN_POSITIVE, 5e-324] {
            assert_eq!(time(step), Ok((2.0 * step).to_be_bytes().to_vec()));
        }
        // In frame 0.
        let mut image = std::vec![0; 1024];
        create(&mut image, b"regulator", b"night", 0, 2, 1).unwrap();
        let row = Row { name: b"probe", kind: Type::Float, n: 1, m: 1, data: &floats(&[1.0]) };
        append(&mut image, put_sheet(&[row], &mut [0; 64]).unwrap(), u64::MAX).unwrap();
        let time = |step| written(&image, 0, b"probe", step).map(|file| file[4..12].to_vec());
        assert_eq!(time(-2.5), Ok((-0.0_f64).to_be_bytes().to_vec()));
        assert_eq!(time(1.7e308), Ok(0.0_f64.to_be_bytes().to_vec()));
        assert_eq!(time(f64::INFINITY), Err(Refusal::NOT_FINITE));
        assert_eq!(time(f64::NAN), Err(Refusal::NOT_FINITE));
    }

    #[test]
    fn lengths_of_any_fields() {
        let entry = |kind, n, m| Entry { frame: 0, n, location: 0, m, id: 0, kind, flags: 0 };
        for kind in Type::ALL {
            for (n, m) in [(1, 1), (1, 3), (7, 1), (7, 3), (0, 1), (0, 3), (1, 0), (1, 2), (1, 4)] {
                let floats = matches!(kind, Type::Float | Type::Double);
                let length = (28 + (2 + n) * u64::from(m) * kind.size()) as usize;
                let expected = (floats && n > 0 && (m == 1 || m == 3)).then_some(length);
                assert_eq!(entry(kind, n, m).nchilada_length(), expected);
            }
            for (n, m) in [(u64::MAX, 1), (u64::MAX - 2, 3), (1 << 62, 1), (u64::MAX, u32::MAX)] {
                assert_eq!(entry(kind, n, m).nchilada_length(), None);
            }
        }
        let longest = (u64::MAX - 28) / 4 - 2;
        assert!(entry(Type::Float, longest, 1).nchilada_length().is_some());
        assert_eq!(entry(Type::Float, longest + 1, 1).nchilada_length(), None);
    }
}
