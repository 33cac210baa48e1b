//! RawArray files, worked out by hand: their bytes, the sheets made of them, and every edge of 70 to 79.

use crate::ask::{any_bytes, Ask};
use crate::cases::{entries, floats, fresh, Case, Versioned, ALL};
use crate::images::{
    array_length, put64, sheet, size, Row, Slot, GREATEST_FRAME, V1_0, V2_0, V2_1,
};

/// Where the chunk is: on no multiple of anything.
const DATA: usize = 391;

/// Of each of our types the type and the width in a file.
const IN_FILES: [(u8, u64, u64); 11] = [
    (1, 2, 1),
    (2, 2, 2),
    (3, 2, 4),
    (4, 2, 8),
    (5, 1, 1),
    (6, 1, 2),
    (7, 1, 4),
    (8, 1, 8),
    (9, 3, 4),
    (10, 3, 8),
    (11, 2, 1),
];

/// The entry of a chunk "a".
fn slot(frame: u64, kind: u8, n: u64, m: u32) -> Slot {
    Slot { frame, n, location: DATA as u64, m, id: 0, kind, flags: 9 }
}

/// An image of this chunk, its bytes up to the slice's end.
fn image(l: &Versioned, slot: Slot, data: &[u8]) -> Vec<u8> {
    let mut image = entries(l, DATA, &[slot]);
    image.extend(data);
    image
}

/// A file as W-209 has it: any numbers in their places, then these bytes.
fn file_of(code: u64, width: u64, length: u64, shape: &[u64], rest: &[u8]) -> Vec<u8> {
    let words = [0, code, width, length, shape.len() as u64];
    let words = words.iter().chain(shape).flat_map(|word| word.to_le_bytes());
    b"rawarray".iter().copied().chain(words).chain(rest.iter().copied()).collect()
}

/// The same with its numbers as they should be.
fn right(code: u64, width: u64, shape: &[u64], data: &[u8]) -> Vec<u8> {
    file_of(code, width, data.len() as u64, shape, data)
}

/// Two rows of three i16.
fn six() -> Vec<u8> {
    right(1, 2, &[3, 2], b"twelve bytes")
}

/// Seven u8.
fn seven() -> Vec<u8> {
    right(2, 1, &[7], b"seven..")
}

/// The sheet of a file under the name "a", in a slice of its length.
fn read(l: &Versioned, file: &[u8]) -> Result<Vec<u8>, u64> {
    match l.sheet_of(file, b"a", 0) {
        Err(79) => l.sheet_of(file, b"a", 21 + crate::images::get64(file, 32) as usize),
        refused => refused,
    }
}

fn row(kind: u8, n: u64, m: u32, data: &[u8]) -> Result<Vec<u8>, u64> {
    Ok(sheet(&[Row::new(b"a", kind, n, m, data)]))
}

/// With another word at a place.
fn with(file: &[u8], at: usize, word: u64) -> Vec<u8> {
    let mut file = file.to_vec();
    put64(&mut file, at, word);
    file
}

/// Of an image.
type Change = fn(&mut Vec<u8>);

/// The same in every version.
pub const CASES: &[Case] = &[
    ("rawarray: a file, byte by byte", |l| {
        let image = image(l, slot(3, 6, 2, 3), &[1, 0, 2, 0, 3, 0, 0xFF, 0xFF, 0xFE, 0xFF, 4, 5]);
        let expected = [
            0x72, 0x61, 0x77, 0x61, 0x72, 0x72, 0x61, 0x79, // magic
            0, 0, 0, 0, 0, 0, 0, 0, // flags
            1, 0, 0, 0, 0, 0, 0, 0, // signed
            2, 0, 0, 0, 0, 0, 0, 0, // bytes of an element
            12, 0, 0, 0, 0, 0, 0, 0, // bytes of the data
            2, 0, 0, 0, 0, 0, 0, 0, // dimensions
            3, 0, 0, 0, 0, 0, 0, 0, // M
            2, 0, 0, 0, 0, 0, 0, 0, // N
            1, 0, 2, 0, 3, 0, 0xFF, 0xFF, 0xFE, 0xFF, 4, 5,
        ];
        assert_eq!(l.array(&image, 3, b"a", 76), Ok(expected.to_vec()));
        // As od prints the source document's.
        assert_eq!(expected[..8], 8_746_397_786_917_265_778_u64.to_le_bytes());
    }),
    ("rawarray: each type and shape", |l| {
        let last = if l.version == V2_1 { 11 } else { 10 };
        for (kind, code, width) in &IN_FILES[..last] {
            for (n, m) in [(1, 1), (3, 1), (1, 3), (2, 5), (7, 4), (258, 1), (1, 258)] {
                let data = any_bytes((n * u64::from(m) * width) as usize);
                let image = image(l, slot(0, *kind, n, m), &data);
                let file = l.array(&image, 0, b"a", 64 + data.len());
                assert_eq!(file, Ok(right(*code, *width, &[m.into(), n], &data)), "type {kind}");
            }
            for (n, m) in
                [(0, 0), (0, 1), (0, 3), (0, u32::MAX), (1, 0), (1 << 32, 0), (u64::MAX, 0)]
            {
                let image = image(l, slot(0, *kind, n, m), b"");
                let file = l.array(&image, 0, b"a", 64);
                assert_eq!(file, Ok(right(*code, *width, &[m.into(), n], b"")), "type {kind}");
            }
        }
    }),
    ("rawarray: a NaN is written and read", |l| {
        for (kind, code, width, bits) in
            [(9, 3, 4, 0x7F80_0001), (9, 3, 4, 0xFFC0_0000), (10, 3, 8, 0x7FF0_0000_0000_0001)]
        {
            let data = floats(b"a", kind, &[bits]).data;
            let file = l.array(&image(l, slot(0, kind, 1, 1), &data), 0, b"a", 64 + data.len());
            assert_eq!(file, Ok(right(code, width, &[1, 1], &data)));
            assert_eq!(read(l, &file.unwrap()), row(kind, 1, 1, &data));
        }
    }),
    ("rawarray: 77 for every other length", |l| {
        for (kind, n, m, whole) in [(9, 2, 1, 72), (1, 3, 1, 67), (10, 2, 3, 112), (2, 0, 7, 64)] {
            let image = image(l, slot(0, kind, n, m), &vec![7; whole - 64]);
            for length in 0..=400 {
                let file = l.array(&image, 0, b"a", length);
                let expected = if length == whole { Ok(whole) } else { Err(77) };
                assert_eq!(file.map(|file| file.len()), expected);
            }
            assert_eq!(array_length(slot(0, kind, n, m).fields()), whole);
        }
    }),
    ("rawarray: the image's and lookup's numbers first", |l| {
        // Frame 5 alone has a chunk; "b" is not listed.
        let good = image(l, slot(5, 10, 1, 2), &[7; 16]);
        for (frame, name, number) in [
            (6, &b"a"[..], 40),
            (6, b"b", 40),
            ((1 << 32) + 5, b"a", 40),
            (ALL, b"a", 40),
            (5, b"b", 41),
            (0, b"", 41),
            (5, b"a\0", 41),
            (0, b"a", 42),
            (4, b"a", 42),
        ] {
            for length in [0, 47, 64, 80, 81] {
                assert_eq!(l.array(&good, frame, name, length), Err(number));
            }
        }
        let changes: [(Change, u64); 14] = [
            (|image| image.clear(), 1),
            (|image| image.truncate(255), 1),
            (|image| image[7] = 0, 3),
            (|image| image[46] = 3, 4),
            (|image| image[112..176].fill(b's'), 5),
            (|image| put64(image, 8, 255), 6),
            (|image| put64(image, 32, 1 << 58), 7),
            (|image| put64(image, 24, 256), 8),
            (|image| image[320..384].fill(b'n'), 9),
            (|image| put64(image, 256 + 16, 255), 12),
            (|image| image[256 + 30] = 0, 13),
            (|image| image[256 + 28] = 1, 14),
            (|image| image.truncate(DATA + 15), 16),
            (|image| put64(image, 256 + 16, 383), 17),
        ];
        for (change, number) in changes {
            let mut image = good.clone();
            change(&mut image);
            for (frame, name, length) in [(5, &b"a"[..], 80), (5, b"a", 0), (ALL, b"b", 80)] {
                assert_eq!(l.array(&image, frame, name, length), Err(number));
            }
        }
        let mut late = good;
        put64(&mut late, 256, GREATEST_FRAME + 1);
        assert_eq!(l.array(&late, GREATEST_FRAME + 1, b"a", 80), Err(18));
    }),
    ("rawarray: a sheet, byte by byte", |l| {
        let expected = [
            1, 0, 0, 0, // rows
            2, 0, 0, 0, 0, 0, 0, 0, // N
            3, 0, 0, 0, // M
            6, 3, 0, 0, // i16, the name's length
            b'f', b'a', b'n',
        ];
        let expected = [&expected[..], b"twelve bytes"].concat();
        assert_eq!(l.sheet_of(&six(), b"fan", 35), Ok(expected));
        let expected =
            [&[1, 0, 0, 0, 7, 0, 0, 0, 0, 0, 0, 0, 1, 0, 0, 0, 1, 1, 0, 0, b'f'], &b"seven.."[..]];
        assert_eq!(l.sheet_of(&seven(), b"f", 28), Ok(expected.concat()));
    }),
    ("rawarray: what follows the data is ignored", |l| {
        for file in [six(), seven(), right(3, 4, &[0], b""), right(3, 8, &[9, 0], b"")] {
            let sheet = read(l, &file).unwrap();
            for more in [&b"."[..], b"a note of the night", &[0; 300], &file] {
                assert_eq!(read(l, &[&file, more].concat()), Ok(sheet.clone()));
            }
        }
    }),
    ("rawarray: 70 under 48 bytes", |l| {
        let file = file_of(2, 1, 0, &[0], b"");
        for length in 0..48 {
            assert_eq!(l.sheet_of(&file[..length], b"a", 21), Err(70));
            assert_eq!(l.sheet_of(&vec![0; length], b"", 0), Err(70));
        }
        for length in 48..56 {
            assert_eq!(l.sheet_of(&file[..length], b"a", 21), Err(74));
            assert_eq!(l.sheet_of(&vec![0; length], b"a", 21), Err(71));
        }
        assert_eq!(l.sheet_of(&file, b"a", 21), row(1, 0, 1, b""));
    }),
    ("rawarray: 71 for other opening bytes", |l| {
        for at in 0..8 {
            for bit in 0..8 {
                let mut file = seven();
                file[at] ^= 1 << bit;
                assert_eq!(read(l, &file), Err(71));
            }
        }
        for opening in [b"yarrawar", b"RAWARRAY", b"rawarra\0", b"\0rawarra"] {
            assert_eq!(read(l, &[&opening[..], &seven()[8..]].concat()), Err(71));
        }
    }),
    ("rawarray: 72 for any flag", |l| {
        for bit in 0..64 {
            assert_eq!(read(l, &with(&seven(), 8, 1 << bit)), Err(72));
        }
    }),
    ("rawarray: 73 for types and widths that no chunk has", |l| {
        let known = |code, width| {
            let found = IN_FILES.iter().find(|&&(_, c, w)| (c, w) == (code, width));
            found.map(|&(kind, ..)| kind)
        };
        for code in (0..=300).chain([(1 << 32) + 2, 1 << 63, ALL]) {
            for width in (0..=20).chain([80, 257, 264, (1 << 32) + 1, (1 << 63) + 8, ALL]) {
                let answer = read(l, &file_of(code, width, 0, &[0], b""));
                match known(code, width) {
                    Some(kind) => assert_eq!(answer, row(kind, 0, 1, b"")),
                    None => assert_eq!(answer, Err(73), "type {code} width {width}"),
                }
            }
        }
    }),
    ("rawarray: 74 for other dimensions, or those not all in the file", |l| {
        let rest = [0; 80];
        for count in (0..=300).chain([(1 << 32) + 1, (1 << 61) + 1, (1 << 63) + 2, ALL]) {
            let file = with(&right(2, 1, &[], &rest), 40, count);
            let answer = read(l, &with(&file, 32, 0));
            match count {
                1 => assert_eq!(answer, row(1, 0, 1, b"")),
                2 => assert_eq!(answer, row(1, 0, 0, b"")),
                _ => assert_eq!(answer, Err(74), "{count} dimensions"),
            }
        }
        for (shape, whole) in [(&[0][..], 56), (&[0, 0], 64)] {
            let file = file_of(2, 1, 0, shape, b"");
            for length in 48..whole {
                assert_eq!(read(l, &file[..length]), Err(74));
            }
            assert!(read(l, &file[..whole]).is_ok());
        }
        // With one dimension a file under 64 bytes may have data.
        assert_eq!(seven().len(), 63);
        assert_eq!(read(l, &seven()), row(1, 7, 1, b"seven.."));
    }),
    ("rawarray: 75 for another length, or data beyond the file", |l| {
        for (file, whole) in [(seven(), 7), (six(), 12)] {
            for length in (0..=30).chain([(1 << 32) + whole, (1 << 63) + whole, ALL]) {
                let answer = read(l, &[&with(&file, 32, length), &[0; 20][..]].concat());
                assert_eq!(answer.err(), (length != whole).then_some(75), "{length}");
            }
            for short in 1..=whole as usize {
                assert_eq!(read(l, &file[..file.len() - short]), Err(75));
            }
        }
        // No product wraps: not of the dimensions, not with the width, not the data's end.
        let most = u64::MAX;
        for (code, width, length, shape) in [
            (2, 1, 0, &[1 << 32, 1 << 32][..]),
            (2, 1, 0, &[1 << 63, 2]),
            (2, 1, 4, &[2, (1 << 63) + 2]),
            (2, 8, 0, &[1 << 61]),
            (2, 8, 8, &[(1 << 61) + 1]),
            (3, 4, 8, &[(1 << 62) + 2, 1]),
            (1, 2, 0, &[1 << 31, 1 << 32]),
            (2, 1, 1, &[most, most]),
            (2, 8, 8, &[most, most]),
            (2, 8, 0, &[1 << 63, 1 << 63]),
            (2, 1, most, &[most]),
            (2, 1, most - 55, &[most - 55]),
            (2, 1, most - 56, &[most - 56]),
            (2, 1, most - 63, &[1, most - 63]),
        ] {
            assert_eq!(read(l, &file_of(code, width, length, shape, &[0; 80])), Err(75));
        }
        // The width is a factor: of one byte these are right.
        for width in [2, 4, 8] {
            assert_eq!(read(l, &file_of(2, width, 6, &[3, 2], &[0; 80])), Err(75));
            assert_eq!(read(l, &file_of(2, width, 6 * width, &[3, 2], &[0; 80])).err(), None);
        }
    }),
    ("rawarray: 76 for an M that no row has", |l| {
        for m in [0, 1, 65_536, 1 << 31, 4_294_967_294, 4_294_967_295] {
            let answer = read(l, &file_of(2, 1, 0, &[m, 0], b""));
            assert_eq!(answer, row(1, 0, m as u32, b""));
        }
        for m in [1 << 32, (1 << 32) + 1, 1 << 63, ALL] {
            assert_eq!(read(l, &file_of(2, 1, 0, &[m, 0], b"")), Err(76));
            // 75 goes before it.
            assert_eq!(read(l, &file_of(2, 1, 0, &[m, 1], b"")), Err(75));
        }
        // An N has no bound.
        for n in [1, 1 << 32, 1 << 63, ALL] {
            assert_eq!(read(l, &file_of(1, 8, 0, &[0, n], b"")), row(8, n, 0, b""));
        }
    }),
    ("rawarray: 78 for names that no row has", |l| {
        let file = seven();
        for length in (1..=70).chain(250..=255) {
            let mut name = vec![0xFF; length];
            let sheet = l.sheet_of(&file, &name, 27 + length);
            assert_eq!(sheet, Ok(sheet_of_seven(&name)));
            for at in [0, length / 2, length - 1] {
                name[at] = 0;
                assert_eq!(l.sheet_of(&file, &name, 27 + length), Err(78));
                name[at] = 0xFF;
            }
        }
        for length in [0, 256, 257, 300, 511, 512, 513, 65_537] {
            let name = vec![b'n'; length];
            for slice in [0, 27 + length % 256, 27 + length] {
                assert_eq!(l.sheet_of(&file, &name, slice), Err(78), "{length}");
            }
        }
    }),
    ("rawarray: 79 for every other length", |l| {
        for (file, whole) in [
            (seven(), 28),
            (six(), 33),
            (right(3, 4, &[0], b""), 21),
            (right(2, 1, &[3], b"abc"), 24),
        ] {
            let file = [&file[..], b"more behind it"].concat();
            for length in 0..=400 {
                let sheet = l.sheet_of(&file, b"a", length);
                let expected = if length == whole { Ok(whole) } else { Err(79) };
                assert_eq!(sheet.map(|sheet| sheet.len()), expected);
            }
        }
    }),
    ("rawarray: numbers in their order", |l| {
        // All is wrong; then one after the other is put right.
        let mut file = file_of(0, 3, 1, &[ALL, ALL], b"");
        put64(&mut file, 8, 1);
        put64(&mut file, 40, 3);
        file[0] = 0;
        let read = |file: &[u8]| l.sheet_of(file, b"\0", 0);
        assert_eq!(read(&file[..47]), Err(70));
        assert_eq!(read(&file), Err(71));
        file[0] = b'r';
        assert_eq!(read(&file), Err(72));
        put64(&mut file, 8, 0);
        assert_eq!(read(&file), Err(73));
        put64(&mut file, 16, 2);
        assert_eq!(read(&file), Err(73));
        put64(&mut file, 24, 8);
        assert_eq!(read(&file), Err(74));
        put64(&mut file, 40, 2);
        assert_eq!(read(&file[..63]), Err(74));
        assert_eq!(read(&file), Err(75));
        put64(&mut file, 56, 0);
        assert_eq!(read(&file), Err(75));
        put64(&mut file, 32, 0);
        assert_eq!(read(&file), Err(76));
        put64(&mut file, 48, 4_294_967_295);
        assert_eq!(read(&file), Err(78));
        assert_eq!(l.sheet_of(&file, b"a", 0), Err(79));
        assert_eq!(l.sheet_of(&file, b"a", 21), row(4, 0, u32::MAX, b""));
    }),
    ("rawarray: what is written comes back", |l| {
        let last = if l.version == V2_1 { 11 } else { 10 };
        for kind in 1..=last {
            for (n, m) in [(1, 1), (2, 3), (5, 1), (0, 4), (0, u32::MAX), (9, 0), (u64::MAX, 0)] {
                let data = any_bytes(n.wrapping_mul(m.into()) as usize * size(kind));
                let image = image(l, slot(2, kind, n, m), &data);
                let file = l.array(&image, 2, b"a", 64 + data.len()).unwrap();
                let back = if kind == 11 { 1 } else { kind };
                assert_eq!(read(l, &file), row(back, n, m, &data));
            }
        }
    }),
];

/// The sheet of [`seven`] under a name.
fn sheet_of_seven(name: &[u8]) -> Vec<u8> {
    sheet(&[Row::new(name, 1, 7, 1, b"seven..")])
}

/// Of images that take appends.
pub const GROWING: &[Case] = &[
    ("rawarray: a sheet is appended as it is", |l| {
        for (kind, code, width) in IN_FILES.into_iter().take(10) {
            let data = vec![7; 6 * width as usize];
            let mut image = fresh(l);
            let sheet = read(l, &right(code, width, &[3, 2], &data)).unwrap();
            assert!(l.put(&mut image, &sheet, ALL).is_ok());
            let [_, n, _, m, _, found, _] = l.find(&image, 0, b"a").unwrap();
            assert_eq!((n, m, found), (2, 3, kind.into()));
            assert_eq!(l.bytes(&image, 0, b"a"), Ok(&data[..]));
            // And written again it is the same file.
            let file = l.array(&image, 0, b"a", 64 + data.len());
            assert_eq!(file, Ok(right(code, width, &[3, 2], &data)));
        }
    }),
    ("rawarray: a character goes to 2.0 as u8", |l| {
        let of = |version| Versioned { library: l.library, version };
        let text = image(&of(V2_1), slot(0, 11, 4, 1), b"door");
        let sheet = read(l, &l.array(&text, 0, b"a", 68).unwrap()).unwrap();
        let mut grown = fresh(l);
        assert!(l.put(&mut grown, &sheet, ALL).is_ok());
        assert_eq!(l.find(&grown, 0, b"a").unwrap()[5], 1);
        assert_eq!(l.bytes(&grown, 0, b"a"), Ok(&b"door"[..]));
        // Those of 1.0 and 2.0 know no character.
        for version in [V1_0, V2_0] {
            let text = image(&of(version), slot(0, 11, 4, 1), b"door");
            assert_eq!(l.array(&text, 0, b"a", 68), Err(13));
        }
    }),
    ("rawarray: a NaN is for the append to refuse", |l| {
        for (kind, code, width, nan, infinity) in [
            (9, 3, 4, 0x7FC0_0000, 0x7F80_0000),
            (10, 3, 8, 0x7FF8_0000_0000_0000, 0x7FF0_0000_0000_0000),
        ] {
            for (bits, number) in [(nan, Some(30)), (infinity, None)] {
                let data = floats(b"a", kind, &[bits]).data;
                let sheet = read(l, &right(code, width, &[1], &data)).unwrap();
                assert_eq!(l.put(&mut fresh(l), &sheet, ALL).err(), number);
            }
        }
    }),
];
