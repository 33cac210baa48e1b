//! NChilada files, worked out by hand: their bytes, extremes and times, and every edge of 60 to 64.

use crate::ask::Ask;
use crate::cases::{entries, floats, Case, Versioned, ALL};
use crate::images::{file_length, put64, put_names, Slot, GREATEST_FRAME, V2_1};

/// Where the chunk is: on no multiple of anything.
const DATA: usize = 391;

/// Steps by their bits: 0, 1, 60, 0.1, -2.5.
const ZERO: u64 = 0;
const ONE: u64 = 0x3FF0_0000_0000_0000;
const MINUTE: u64 = 0x404E_0000_0000_0000;
const TENTH: u64 = 0x3FB9_9999_9999_999A;
const NEGATIVE: u64 = 0xC004_0000_0000_0000;

const MINUS: u64 = 1 << 63;
const GREATEST: u64 = 0x7FEF_FFFF_FFFF_FFFF;

const NOT_FINITE: [u64; 7] = [
    0x7FF0_0000_0000_0000,
    0xFFF0_0000_0000_0000,
    0x7FF8_0000_0000_0000,
    0xFFF8_0000_0000_0000,
    0x7FF0_0000_0000_0001,
    0xFFF0_0000_0000_0001,
    0xFFFF_FFFF_FFFF_FFFF,
];

/// The entry of a chunk "a".
fn slot(frame: u64, kind: u8, n: u64, m: u32) -> Slot {
    Slot { frame, n, location: DATA as u64, m, id: 0, kind, flags: 0 }
}

/// An image of this chunk, its elements' bits up to the slice's end.
fn image(l: &Versioned, slot: Slot, bits: &[u64]) -> Vec<u8> {
    let mut image = entries(l, DATA, &[slot]);
    image.extend(floats(b"a", slot.kind, bits).data);
    image
}

/// The file of "a", in a slice of its length.
fn file(l: &Versioned, image: &[u8], slot: Slot, step: u64) -> Result<Vec<u8>, u64> {
    l.file(image, slot.frame, b"a", f64::from_bits(step), file_length(slot.fields()))
}

/// Of elements in so many columns.
fn file_of(l: &Versioned, kind: u8, m: u32, bits: &[u64]) -> Result<Vec<u8>, u64> {
    let slot = slot(0, kind, bits.len() as u64 / u64::from(m), m);
    file(l, &image(l, slot, bits), slot, ONE)
}

fn xdr(words: &[u32]) -> Vec<u8> {
    words.iter().flat_map(|word| word.to_be_bytes()).collect()
}

/// What stands behind the header: floats or doubles.
fn values(kind: u8, bits: &[u64]) -> Vec<u8> {
    let words = |&bits: &u64| match kind {
        9 => vec![bits as u32],
        _ => vec![(bits >> 32) as u32, bits as u32],
    };
    xdr(&bits.iter().flat_map(words).collect::<Vec<u32>>())
}

/// One column has these extremes, and so have three that hold its elements.
fn spans(l: &Versioned, kind: u8, column: &[u64], smallest: u64, largest: u64) {
    let file = file_of(l, kind, 1, column).unwrap();
    assert_eq!(file[28..], values(kind, &[&[smallest, largest], column].concat()), "{column:x?}");
    let rows: Vec<u64> = column.iter().flat_map(|&bits| [bits; 3]).collect();
    let file = file_of(l, kind, 3, &rows).unwrap();
    let extremes = [smallest, smallest, smallest, largest, largest, largest];
    assert_eq!(file[28..], values(kind, &[&extremes, &rows[..]].concat()), "{column:x?}");
}

/// Sign, infinity and the highest bit of the fraction.
fn format(kind: u8) -> (u64, u64, u64) {
    match kind {
        9 => (1 << 31, 0x7F80_0000, 1 << 22),
        _ => (1 << 63, 0x7FF0_0000_0000_0000, 1 << 51),
    }
}

/// Of an image.
type Change = fn(&mut Vec<u8>);

/// The same in every version.
pub const CASES: &[Case] = &[
    ("nchilada: a file, byte by byte", |l| {
        // 1.5, -2.5, and a number with four different bytes; frame 3 of minutes.
        let slot = slot(3, 9, 3, 1);
        let image = image(l, slot, &[0x3FC0_0000, 0xC020_0000, 0x0102_0304]);
        let expected = [
            0x00, 0x10, 0x34, 0xA5, // magic
            0x40, 0x66, 0x80, 0x00, 0x00, 0x00, 0x00, 0x00, // 180 seconds
            0x00, 0x00, 0x00, 0x00, 0x00, 0x00, 0x00, 0x03, // rows
            0x00, 0x00, 0x00, 0x01, // columns
            0x00, 0x00, 0x00, 0x09, // floats
            0xC0, 0x20, 0x00, 0x00, // smallest
            0x3F, 0xC0, 0x00, 0x00, // largest
            0x3F, 0xC0, 0x00, 0x00, 0xC0, 0x20, 0x00, 0x00, 0x01, 0x02, 0x03, 0x04,
        ];
        assert_eq!(l.file(&image, 3, b"a", 60.0, 48), Ok(expected.to_vec()));
        assert_eq!(file(l, &image, slot, MINUTE), Ok(expected.to_vec()));
    }),
    ("nchilada: a file of doubles", |l| {
        let slot = slot(1, 10, 2, 1);
        let image = image(l, slot, &[0x0102_0304_0506_0708, 0xC000_0000_0000_0001]);
        let expected = xdr(&[
            [0x0010_34A5, 0xC004_0000, 0, 0, 2, 1, 10].as_slice(),
            &[0xC000_0000, 1, 0x0102_0304, 0x0506_0708],
            &[0x0102_0304, 0x0506_0708, 0xC000_0000, 1],
        ]
        .concat());
        assert_eq!(l.file(&image, 1, b"a", -2.5, 60), Ok(expected));
    }),
    ("nchilada: floats in three columns", |l| {
        let image = image(
            l,
            slot(0, 9, 3, 3),
            &[
                [0x3F80_0000, 0x4120_0000, 0xC0A0_0000], // 1, 10, -5
                [0x4040_0000, 0xC120_0000, 0xC0B0_0000], // 3, -10, -5.5
                [0x4000_0000, 0x0000_0000, 0xC080_0000], // 2, 0, -4
            ]
            .concat(),
        );
        let expected = xdr(&[
            [0x0010_34A5, 0, 0, 0, 3, 3, 9].as_slice(),
            &[0x3F80_0000, 0xC120_0000, 0xC0B0_0000],
            &[0x4040_0000, 0x4120_0000, 0xC080_0000],
            &[0x3F80_0000, 0x4120_0000, 0xC0A0_0000],
            &[0x4040_0000, 0xC120_0000, 0xC0B0_0000],
            &[0x4000_0000, 0x0000_0000, 0xC080_0000],
        ]
        .concat());
        assert_eq!(l.file(&image, 0, b"a", 60.0, 88), Ok(expected));
    }),
    ("nchilada: doubles in three columns", |l| {
        let rows = [
            [ONE, 0xC000_0000_0000_0000, 0x3FE0_0000_0000_0000], // 1, -2, 0.5
            [0xBFF0_0000_0000_0000, 0x4010_0000_0000_0000, 0x3FD0_0000_0000_0000], // -1, 4, 0.25
        ];
        let image = image(l, slot(1, 10, 2, 3), rows.as_flattened());
        let expected = xdr(&[
            [0x0010_34A5, 0x3FE0_0000, 0, 0, 2, 3, 10].as_slice(),
            &[0xBFF0_0000, 0, 0xC000_0000, 0, 0x3FD0_0000, 0],
            &[0x3FF0_0000, 0, 0x4010_0000, 0, 0x3FE0_0000, 0],
            &[0x3FF0_0000, 0, 0xC000_0000, 0, 0x3FE0_0000, 0],
            &[0xBFF0_0000, 0, 0x4010_0000, 0, 0x3FD0_0000, 0],
        ]
        .concat());
        assert_eq!(l.file(&image, 1, b"a", 0.5, 124), Ok(expected));
    }),
    ("nchilada: the count is that of rows", |l| {
        for (m, expected) in [(1, [0, 258, 1, 9]), (3, [0, 258, 3, 9])] {
            let file = file_of(l, 9, m, &vec![0; 258 * m as usize]).unwrap();
            assert_eq!((file.len(), &file[12..28]), (28 + 1040 * m as usize, &xdr(&expected)[..]));
        }
        // One row is its own extremes.
        for (kind, bits) in [(9, 0xC020_0000), (10, 0xC004_0000_0000_0001)] {
            spans(l, kind, &[bits], bits, bits);
        }
    }),
    ("nchilada: 60 for other types and M", |l| {
        let last = if l.version == V2_1 { 11 } else { 10 };
        for kind in 1..=last {
            for m in [0, 1, 2, 3, 4, 5, 7, 9, 257, 259] {
                let slot = slot(0, kind, 2, m);
                let image = image(l, slot, &vec![0; 2 * m as usize]);
                let passes = matches!((kind, m), (9 | 10, 1 | 3));
                let number = file(l, &image, slot, ONE).err();
                assert_eq!(number, (!passes).then_some(60), "type {kind} M {m}");
            }
            // Whatever N is, also where it makes no row at all.
            for m in [0, 2, 5, 0x101, 0x1_0001, 0x0100_0003, 0x8000_0001, u32::MAX] {
                let image = image(l, slot(0, kind, 0, m), &[]);
                assert_eq!(l.file(&image, 0, b"a", 1.0, 28), Err(60));
            }
            let image = image(l, slot(0, kind, ALL, 0), &[]);
            assert_eq!(l.file(&image, 0, b"a", 1.0, 28), Err(60));
        }
    }),
    ("nchilada: 61 for no rows", |l| {
        for (kind, m) in [(9, 1), (9, 3), (10, 1), (10, 3)] {
            let image = image(l, slot(0, kind, 0, m), &[]);
            for length in [0, 27, 28, file_length(slot(0, kind, 0, m).fields())] {
                assert_eq!(l.file(&image, 0, b"a", 1.0, length), Err(61));
            }
        }
    }),
    ("nchilada: 62 for a NaN anywhere", |l| {
        for kind in [9, 10] {
            let (sign, infinity, quiet) = format(kind);
            let nans = [1, quiet - 1, quiet, quiet + 1, 2 * quiet - 1].map(|bits| infinity + bits);
            for m in [1, 3] {
                for n in 1..=9 {
                    let mut elements = vec![0x3F80_0000; n * m];
                    for place in 0..n * m {
                        for nan in nans.into_iter().flat_map(|nan| [nan, nan + sign]) {
                            elements[place] = nan;
                            assert_eq!(file_of(l, kind, m as u32, &elements), Err(62));
                        }
                        elements[place] = 0x3F80_0000;
                    }
                    assert!(file_of(l, kind, m as u32, &elements).is_ok());
                }
            }
        }
        // In the low half of a double alone; and as two floats none of this is a double's NaN.
        assert_eq!(file_of(l, 10, 1, &[0x7FF0_0000_8000_0000]), Err(62));
        for number in [0x7FC0_0000_7FC0_0000, 0x3FF0_0000_7FC0_0000, 0x7FE0_0000_FFFF_FFFF] {
            spans(l, 10, &[number], number, number);
        }
        // Across two floats, or with the bytes of one turned.
        spans(l, 9, &[0x4000_7FC0, 0x4000_7FC0, 0x0000_C07F], 0x0000_C07F, 0x4000_7FC0);
    }),
    ("nchilada: infinities are values", |l| {
        for kind in [9, 10] {
            let (sign, infinity, _) = format(kind);
            let (greatest, minus) = (infinity - 1, infinity + sign);
            spans(l, kind, &[infinity], infinity, infinity);
            spans(l, kind, &[minus], minus, minus);
            for bits in [[infinity, minus], [minus, infinity]] {
                spans(l, kind, &bits, minus, infinity);
            }
            for bits in [[infinity, greatest, infinity], [greatest, infinity, greatest]] {
                spans(l, kind, &bits, greatest, infinity);
            }
            let least = greatest + sign;
            for bits in [[minus, least, minus], [least, minus, least]] {
                spans(l, kind, &bits, minus, least);
            }
        }
    }),
    ("nchilada: of equal values the first", |l| {
        for kind in [9, 10] {
            let (minus, _, _) = format(kind);
            // Both signs of zero are equal; 1 is the least number above them.
            for (column, smallest, largest) in [
                (&[0, minus][..], 0, 0),
                (&[minus, 0], minus, minus),
                (&[minus, 0, minus, 0], minus, minus),
                (&[0, 0, minus], 0, 0),
                (&[1, minus, 0], minus, 1),
                (&[1, 0, minus], 0, 1),
                (&[minus, 1, 0], minus, 1),
                (&[minus + 1, 0, minus], minus + 1, 0),
                (&[minus + 1, minus, 0], minus + 1, minus),
                (&[0, minus + 1, minus], minus + 1, 0),
                (&[minus, 1, minus + 1, 0], minus + 1, 1),
            ] {
                spans(l, kind, column, smallest, largest);
            }
            // Each column its own.
            let rows = [[0, minus, 1], [minus, 0, minus], [0, minus, 0]];
            let file = file_of(l, kind, 3, rows.as_flattened()).unwrap();
            let expected = values(kind, &[0, minus, minus, 0, minus, 1]);
            assert_eq!(file[28..28 + expected.len()], expected);
        }
    }),
    ("nchilada: neighbours, from the least to the greatest", |l| {
        // Each is less than the one behind it.
        let rising: [(u8, &[u64]); 2] = [
            (
                9,
                &[
                    0xFF80_0000,
                    0xFF7F_FFFF,
                    0xBF80_0001,
                    0xBF80_0000,
                    0x8080_0000,
                    0x807F_FFFF,
                    0x8000_0001,
                    0x0000_0000,
                    0x0000_0001,
                    0x007F_FFFF,
                    0x0080_0000,
                    0x3F80_0000,
                    0x3F80_0001,
                    0x7F7F_FFFF,
                    0x7F80_0000,
                ],
            ),
            (
                10,
                &[
                    0xFFF0_0000_0000_0000,
                    0xFFEF_FFFF_FFFF_FFFF,
                    0xBFF0_0000_0000_0001,
                    0xBFF0_0000_0000_0000,
                    0x8010_0000_0000_0000,
                    0x800F_FFFF_FFFF_FFFF,
                    0x8000_0000_0000_0001,
                    0x0000_0000_0000_0000,
                    0x0000_0000_0000_0001,
                    0x000F_FFFF_FFFF_FFFF,
                    0x0010_0000_0000_0000,
                    0x3FF0_0000_0000_0000,
                    0x3FF0_0000_0000_0001,
                    0x3FF0_0000_7FFF_FFFF,
                    0x3FF0_0000_8000_0000,
                    0x3FF0_0001_0000_0000,
                    0x7FEF_FFFF_FFFF_FFFF,
                    0x7FF0_0000_0000_0000,
                ],
            ),
        ];
        for (kind, rising) in rising {
            for pair in rising.windows(2) {
                spans(l, kind, &[pair[0], pair[1]], pair[0], pair[1]);
                spans(l, kind, &[pair[1], pair[0]], pair[0], pair[1]);
            }
            let mut all = rising.to_vec();
            let (smallest, largest) = (all[0], all[all.len() - 1]);
            for _ in 0..all.len() {
                spans(l, kind, &all, smallest, largest);
                all.rotate_left(1);
            }
        }
    }),
    ("nchilada: the time is rounded once", |l| {
        let least_of_last = 0x0000_0000_FFFF_FFFE;
        let times = [
            (0, ONE, ZERO),
            (0, ZERO, ZERO),
            (0, MINUS, MINUS),
            (0, NEGATIVE, MINUS),
            (0, GREATEST, ZERO),
            (0, GREATEST | MINUS, MINUS),
            (2, MINUS, MINUS),
            // Below the least normal number and over it.
            (0, 1, ZERO),
            (3, 1, 3),
            (3, 1 | MINUS, 3 | MINUS),
            (2, 0x000F_FFFF_FFFF_FFFF, 0x001F_FFFF_FFFF_FFFE),
            (GREATEST_FRAME, 1, least_of_last),
            // 0.1 is 0x1999999999999A times a power of two. Seven times it has three bits too many, 6 of
            // 8: up. Three times it two, 2 of 4: up to the even one. Five and ten times: down.
            (7, TENTH, 0x3FE6_6666_6666_6667),
            (3, TENTH, 0x3FD3_3333_3333_3334),
            (5, TENTH, 0x3FE0_0000_0000_0000),
            (10, TENTH, ONE),
            // 3 + 3 * 2^-52 is amid two, and so is 3 + 9 * 2^-52: to the even ones, up and down.
            (3, ONE + 1, 0x4008_0000_0000_0002),
            (3, ONE + 3, 0x4008_0000_0000_0004),
            (3, MINUS | (ONE + 1), 0xC008_0000_0000_0002),
            // 4294967294 has 31 binary digits before its last 0: as a float it would be 2^32.
            (GREATEST_FRAME, ONE, 0x41EF_FFFF_FFC0_0000),
            (GREATEST_FRAME, ONE + 1, 0x41EF_FFFF_FFC0_0002),
            (GREATEST_FRAME, MINUTE, 0x424D_FFFF_FFC4_0000),
            (GREATEST_FRAME, MINUTE | MINUS, 0xC24D_FFFF_FFC4_0000),
            // The greatest steps whose time is finite.
            (2, 0x7FDF_FFFF_FFFF_FFFF, GREATEST),
            (3, 0x7FD5_5555_5555_5554, GREATEST - 1),
            (GREATEST_FRAME, 0x7DF0_0000_001F_FFFF, GREATEST - 1),
            (GREATEST_FRAME, 0xFDF0_0000_001F_FFFF, MINUS | (GREATEST - 1)),
        ];
        let any = [1, 1 << 51, 1 << 52, TENTH, ONE, NEGATIVE, MINUTE, GREATEST];
        let once = any.into_iter().flat_map(|step| [step, step ^ MINUS]);
        for (frame, step, time) in times.into_iter().chain(once.map(|step| (1, step, step))) {
            let slot = slot(frame, 9, 1, 1);
            let file = file(l, &image(l, slot, &[0]), slot, step).unwrap();
            assert_eq!(file[4..12], time.to_be_bytes(), "frame {frame} step {step:016x}");
        }
    }),
    ("nchilada: 63 for a step or time not finite", |l| {
        for kind in [9, 10] {
            let refused = |frame: u64, step: u64| {
                let slot = slot(frame, kind, 1, 1);
                assert_eq!(file(l, &image(l, slot, &[0]), slot, step), Err(63), "{step:016x}");
            };
            for frame in [0, 1, 2, GREATEST_FRAME] {
                NOT_FINITE.into_iter().for_each(|step| refused(frame, step));
            }
            // The last two are amid the greatest number and 2^1024, or little below that.
            for (frame, step) in [
                (2, 1.7e308_f64.to_bits()),
                (2, GREATEST),
                (GREATEST_FRAME, GREATEST),
                (2, 0x7FE0_0000_0000_0000),
                (3, 0x7FD5_5555_5555_5555),
                (GREATEST_FRAME, 0x7DF0_0000_0020_0000),
            ] {
                refused(frame, step);
                refused(frame, step | MINUS);
            }
        }
    }),
    ("nchilada: 64 for every other length", |l| {
        for (kind, m, whole) in [(9, 1, 44), (9, 3, 76), (10, 1, 60), (10, 3, 124)] {
            let image = image(l, slot(0, kind, 2, m), &vec![0; 2 * m as usize]);
            for length in 0..=260 {
                let file = l.file(&image, 0, b"a", 1.0, length);
                let expected = if length == whole { Ok(whole) } else { Err(64) };
                assert_eq!(file.map(|file| file.len()), expected);
            }
        }
    }),
    ("nchilada: numbers in their order", |l| {
        let nan = 0x7FA0_0000;
        let infinite = f64::INFINITY;
        let asked = |slot: Slot, bits: &[u64], step: f64, length: usize| {
            l.file(&image(l, slot, bits), slot.frame, b"a", step, length).map(drop)
        };
        // With all behind it wrong too.
        assert_eq!(asked(slot(2, 3, 0, 1), &[], infinite, 0), Err(60));
        assert_eq!(asked(slot(2, 9, 0, 5), &[], infinite, 0), Err(60));
        assert_eq!(asked(slot(2, 10, 0, 5), &[], infinite, 0), Err(60));
        assert_eq!(asked(slot(2, 9, 1, 2), &[nan, nan], infinite, 0), Err(60));
        assert_eq!(asked(slot(2, 9, 0, 1), &[], infinite, 0), Err(61));
        assert_eq!(asked(slot(2, 9, 0, 3), &[], f64::NAN, 0), Err(61));
        for step in [infinite, 1.7e308, f64::NAN, 1.0] {
            for length in [0, 28, 39, 40, 41] {
                assert_eq!(asked(slot(2, 9, 1, 1), &[nan], step, length), Err(62));
            }
        }
        for step in [infinite, 1.7e308, f64::NAN] {
            for length in [0, 28, 39, 40, 41] {
                assert_eq!(asked(slot(2, 9, 1, 1), &[0], step, length), Err(63));
            }
        }
        for (length, answer) in [(0, Err(64)), (39, Err(64)), (40, Ok(())), (41, Err(64))] {
            assert_eq!(asked(slot(2, 9, 1, 1), &[0], 1.0, length), answer);
        }
    }),
    ("nchilada: the image's and lookup's numbers first", |l| {
        // Frame 5 alone has a chunk; "b" is not listed. Else all is wrong with these.
        let good = image(l, slot(5, 10, 1, 2), &[0x7FF0_0000_0000_0001; 2]);
        for (frame, name, number) in [
            (6, &b"a"[..], 40),
            (6, b"b", 40),
            ((1 << 32) + 5, b"a", 40),
            (ALL, b"a", 40),
            (5, b"b", 41),
            (0, b"", 41),
            (5, b"a\0", 41),
            (0, b"a", 42),
            (4, b"a", 42),
            (5, b"a", 60),
        ] {
            for length in [0, 28, 60, 92] {
                assert_eq!(l.file(&good, frame, name, f64::NAN, length), Err(number));
            }
        }
        let changes: [(Change, u64); 14] = [
            (|image| image.clear(), 1),
            (|image| image.truncate(255), 1),
            (|image| image[7] = 0, 3),
            (|image| image[46] = 3, 4),
            (|image| image[112..176].fill(b's'), 5),
            (|image| put64(image, 8, 255), 6),
            (|image| put64(image, 32, 1 << 58), 7),
            (|image| put64(image, 24, 256), 8),
            (|image| image[320..384].fill(b'n'), 9),
            (|image| put64(image, 256 + 16, 255), 12),
            (|image| image[256 + 30] = 0, 13),
            (|image| image[256 + 28] = 1, 14),
            (|image| image.truncate(DATA + 15), 16),
            (|image| put64(image, 256 + 16, 383), 17),
        ];
        for (change, number) in changes {
            let mut image = good.clone();
            change(&mut image);
            for (frame, name, step) in [(5, &b"a"[..], 1.0), (5, b"a", f64::NAN), (ALL, b"b", 1.0)]
            {
                assert_eq!(l.file(&image, frame, name, step, 60), Err(number));
            }
        }
        let mut late = good;
        put64(&mut late, 256, GREATEST_FRAME + 1);
        assert_eq!(l.file(&late, GREATEST_FRAME + 1, b"a", 1.0, 60), Err(18));
    }),
    ("nchilada: chunks before the blocks, in one place, in frames far apart", |l| {
        let mut image = l.blank(600, 400, 3, 500, 1);
        put_names(&mut image, 500, [&b"a"[..]]);
        image[257..265].copy_from_slice(&[0, 0, 0, 0, 0, 0, 4, 0xC0]); // -2.5
        let doubles = Slot { location: 257, flags: 7, ..slot(5, 10, 1, 1) };
        let last = Slot { frame: GREATEST_FRAME, ..doubles };
        // The same bytes as two floats: 0 and -2.0625.
        let floats = Slot { frame: 6, n: 2, kind: 9, ..doubles };
        for (n, slot) in [doubles, floats, last].into_iter().enumerate() {
            slot.put(&mut image, 400 + 32 * n);
        }
        let double = [0xC004_0000, 0, 0xC004_0000, 0, 0xC004_0000, 0];
        for (slot, header, values) in [
            (doubles, [0x0010_34A5, 0x4014_0000, 0, 0, 1, 1, 10], &double[..]),
            (floats, [0x0010_34A5, 0x4018_0000, 0, 0, 2, 1, 9], &[0xC004_0000, 0, 0, 0xC004_0000]),
            (last, [0x0010_34A5, 0x41EF_FFFF, 0xFFC0_0000, 0, 1, 1, 10], &double),
        ] {
            assert_eq!(file(l, &image, slot, ONE), Ok(xdr(&[&header[..], values].concat())));
        }
        for frame in [0, 4, 7, GREATEST_FRAME - 1] {
            assert_eq!(l.file(&image, frame, b"a", 1.0, 52), Err(42));
        }
    }),
];
