//! Readers, worked out by hand: their words, what they answer of an image and of any bytes, every edge
//! of 33, and what the readers of each moment of an append are.

use crate::ask::Ask;
use crate::cases::{fresh, nothing, sheet_a, sheet_b, Case, Versioned, ALL, PROBE};
use crate::images::{
    put32, put64, put_names, put_slots, segments_for, sheet, Row, Slot, V1_0, V2_0, V2_1,
};
use crate::library::{Create, Reader};
use crate::readers::{as_it_is, Moments, Questions, Reading, Through};

const NAMES: [&[u8]; 3] = [b"probe", b"heater", b"fan"];

/// Three floats in frames 0 and 5, a byte in frames 0 and 2, nothing in frame 5 at the slice's end.
const P0: Slot = Slot { frame: 0, n: 3, location: 768, m: 1, id: 0, kind: 9, flags: 0 };
const H0: Slot = Slot { frame: 0, n: 1, location: 784, m: 1, id: 1, kind: 1, flags: 0 };
const H2: Slot = Slot { frame: 2, n: 1, location: 785, m: 1, id: 1, kind: 1, flags: 0 };
const P5: Slot = Slot { frame: 5, n: 3, location: 788, m: 1, id: 0, kind: 9, flags: 0 };
const F5: Slot = Slot { frame: 5, n: 0, location: 1024, m: 1, id: 2, kind: 1, flags: 7 };

/// As the version orders them: in 1.0 the ids fall.
fn listed(l: &Versioned) -> [Slot; 5] {
    match l.version {
        V1_0 => [H0, P0, H2, F5, P5],
        _ => [P0, H0, H2, P5, F5],
    }
}

/// 8 slots at 256, of which 5 are used, 4 segments at 512 with three names, data from 768 to 800.
fn worked(l: &Versioned) -> Vec<u8> {
    let mut image = l.blank(1024, 256, 8, 512, 4);
    put_names(&mut image, 512, NAMES);
    put_slots(&mut image, 256, &listed(l));
    image[768..780].copy_from_slice(&PROBE);
    image[784..786].copy_from_slice(&[40, 50]);
    image[788..800].copy_from_slice(&PROBE);
    image
}

/// Bytes of the list, and where its names start.
fn list(l: &Versioned) -> (u64, [u64; 3]) {
    match l.version {
        V1_0 => (192, [512, 576, 640]),
        _ => (17, [512, 518, 525]),
    }
}

fn words(l: &Versioned) -> Reader {
    [6, 3, 5, 256, 512, list(l).0, l.version.into(), 0]
}

fn through<'a>(l: &Versioned<'a>, reader: Reader, image: &'a [u8]) -> Through<'a> {
    Through { library: l.library, reader, image }
}

/// The worked reader with some words changed.
fn with(l: &Versioned, changes: &[(usize, u64)]) -> Reader {
    let mut reader = words(l);
    changes.iter().for_each(|&(at, word)| reader[at] = word);
    reader
}

/// Every call answers 33, whatever else is asked of it; none writes its out.
fn unfit(l: &Versioned, reader: Reader, image: &[u8]) {
    let asked = through(l, reader, image);
    for n in [0, 1, 1024, ALL] {
        assert_eq!((asked.name(n), asked.entry(n)), (Err(33), Err(33)), "{reader:?}");
    }
    for name in [&b"probe"[..], b"", b"no such name"] {
        assert_eq!(asked.id(name), Err(33));
        for frame in [0, 5, 6, ALL] {
            assert_eq!(asked.lookup(frame, name), Err(33));
            assert_eq!(asked.chunk(frame, name), Err(33));
            assert_eq!(asked.element(frame, name, 0), Err(33));
            assert_eq!(asked.element(frame, name, ALL), Err(33));
        }
    }
    for (frame, id) in [(0, 0), (5, 0), (0, ALL), (ALL, 0), (ALL, ALL)] {
        assert_eq!(asked.find(frame, id), Err(33));
        assert_eq!(asked.newest(frame, id), Err(33));
    }
}

/// No call answers 33 for the reader itself.
fn fits(l: &Versioned, reader: Reader, image: &[u8]) {
    let asked = through(l, reader, image);
    assert_eq!((asked.name(ALL), asked.entry(ALL)), (Err(44), Err(44)), "{reader:?}");
    assert_eq!(asked.id(b"no such name"), Err(41));
    let behind = asked.find(ALL, ALL);
    assert_eq!((behind, asked.newest(ALL, ALL)), (Err(40), Err(40)));
    assert_eq!((asked.lookup(ALL, b""), asked.chunk(ALL, b"")), (Err(40), Err(40)));
    assert_eq!(asked.element(ALL, b"", 0), Err(40));
}

/// All listed names by their bytes.
fn names(asked: &Through) -> Vec<Vec<u8>> {
    let part = |[start, length]: [u64; 2]| &asked.image[start as usize..][..length as usize];
    (0..).map_while(|n| asked.name(n).ok()).map(|place| part(place).to_vec()).collect()
}

/// Of an image, whose last entry stands there.
type Change = fn(&mut Vec<u8>, usize);

/// The same in every version.
pub const CASES: &[Case] = &[
    ("readers: their words", |l| {
        assert_eq!(l.reader(&worked(l)), Ok(words(l)));
        let version = l.version.into();
        // Nothing listed, and no slot or segment at all.
        assert_eq!(l.reader(&l.blank(384, 256, 2, 320, 1)), Ok([0, 0, 0, 256, 320, 0, version, 0]));
        assert_eq!(l.reader(&l.blank(256, 256, 0, 256, 0)), Ok([0, 0, 0, 256, 256, 0, version, 0]));
        // Names before the index, at odd places, with a schema's version and no entry.
        let mut image = l.blank(700, 600, 3, 257, 4);
        put32(&mut image, 40, 0xFFFF_FFFF);
        put_names(&mut image, 257, [&b"a"[..], b"bc"]);
        let size = if l.version == V1_0 { 128 } else { 5 };
        assert_eq!(l.reader(&image), Ok([0, 2, 0, 600, 257, size, version, 0]));
        // Up to the block's end.
        let name = [b'n'; 63];
        put_names(&mut image, 257 + 64, [&name[..]]);
        put64(&mut image, 32, 2);
        put_names(&mut image, 257, [&name[..]]);
        image[257] = b'm';
        assert_eq!(l.reader(&image), Ok([0, 2, 0, 600, 257, 128, version, 0]));
    }),
    ("readers: a refused opening leaves them", |l| {
        let last = 256 + 32 * 4;
        let changes: [(Change, u64); 16] = [
            (|image, _| image.truncate(255), 1),
            (|image, _| image.clear(), 1),
            (|image, _| image[0] = 0, 3),
            (|image, _| image[46] = 3, 4),
            (|image, _| image[48..112].fill(b'x'), 5),
            (|image, _| put64(image, 8, 255), 6),
            (|image, _| put64(image, 24, 961), 7),
            (|image, _| put64(image, 24, 511), 8),
            (|image, _| image[512..768].fill(b'x'), 9),
            (|image, last| put64(image, last + 16, 255), 12),
            (|image, last| image[last + 30] = 12, 13),
            (|image, last| image[last + 28] = 3, 14),
            (|image, last| put64(image, last, 1), 15),
            (|image, last| put64(image, last + 8, 1 << 32), 16),
            (
                |image, last| {
                    put64(image, last + 8, 1);
                    put64(image, last + 16, 256);
                },
                17,
            ),
            (|image, last| put64(image, last, 4_294_967_295), 18),
        ];
        for (change, number) in changes {
            let mut other = worked(l);
            change(&mut other, last);
            assert_eq!((l.reader(&other), l.counts(&other)), (Err(number), Err(number)));
            for mut reader in [words(l), [0; 8], [ALL; 8]] {
                let before = reader;
                assert_eq!((l.reader_open(&other, &mut reader), reader), (number, before));
            }
        }
    }),
    ("readers: the worked image, call by call", |l| {
        let image = worked(l);
        let reader = l.reader(&image).unwrap();
        let asked = through(l, reader, &image);
        let (_, starts) = list(l);
        for (n, (start, name)) in starts.into_iter().zip(NAMES).enumerate() {
            assert_eq!(asked.name(n as u64), Ok([start, name.len() as u64]));
            assert_eq!(asked.id(name), Ok(n as u64));
        }
        assert_eq!(names(&asked), NAMES);
        for (n, slot) in listed(l).into_iter().enumerate() {
            assert_eq!(asked.entry(n as u64), Ok(slot.fields()));
            let name = NAMES[usize::from(slot.id)];
            assert_eq!(asked.lookup(slot.frame, name), Ok(slot.fields()));
            assert_eq!(asked.find(slot.frame, slot.id.into()), Ok(slot.fields()));
            let length = if slot.kind == 9 { 12 } else { slot.n };
            assert_eq!(asked.chunk(slot.frame, name), Ok([slot.location, length]));
            assert_eq!(asked.element(slot.frame, name, slot.n), Err(43));
        }
        assert_eq!(asked.element(5, b"probe", 1), Ok([3, 0xC020_0000]));
        assert_eq!(asked.element(0, b"heater", 0), Ok([1, 40]));
        assert_eq!(asked.element(2, b"heater", 0), Ok([1, 50]));
        for n in [3, 4, 1024, 1 << 32, ALL] {
            assert_eq!(asked.name(n), Err(44));
        }
        for n in [5, 6, 8, 1 << 32, ALL] {
            assert_eq!(asked.entry(n), Err(44));
        }
        let questions = Questions::of(l.library, &image, &[b"prob".to_vec()]);
        assert_eq!(as_it_is(l.library, &image, &questions), Ok(Some(reader)));
    }),
    ("readers: numbers in their order", |l| {
        let image = worked(l);
        let asked = through(l, words(l), &image);
        for frame in [6, 7, 1 << 32, (1 << 32) + 5, ALL] {
            for name in [&b"probe"[..], b"no such name"] {
                assert_eq!(asked.lookup(frame, name), Err(40));
                assert_eq!(asked.chunk(frame, name), Err(40));
                assert_eq!(asked.element(frame, name, ALL), Err(40));
            }
            for id in [0, 3, ALL] {
                assert_eq!((asked.find(frame, id), asked.newest(frame, id)), (Err(40), Err(40)));
            }
        }
        // Frames 1, 3 and 4 are empty, and are there.
        for frame in [0, 1, 3, 5] {
            assert_eq!(asked.lookup(frame, b"no such name"), Err(41));
            assert_eq!(asked.chunk(frame, b"no such name"), Err(41));
            assert_eq!(asked.element(frame, b"no such name", 0), Err(41));
            for id in [3, 4, 65_536, 65_537, 1 << 32, ALL] {
                assert_eq!((asked.find(frame, id), asked.newest(frame, id)), (Err(41), Err(41)));
            }
        }
        for (frame, id) in [(0, 2), (1, 0), (1, 1), (2, 0), (2, 2), (3, 1), (4, 2), (5, 1)] {
            assert_eq!(asked.find(frame, id), Err(42));
            let name = NAMES[id as usize];
            assert_eq!(asked.lookup(frame, name), Err(42));
            assert_eq!(asked.chunk(frame, name), Err(42));
            assert_eq!(asked.element(frame, name, ALL), Err(42));
        }
    }),
    ("readers: the newest at or below a frame", |l| {
        let image = worked(l);
        let asked = through(l, words(l), &image);
        for (id, newest) in [
            [Some(P0), Some(P0), Some(P0), Some(P0), Some(P0), Some(P5)],
            [Some(H0), Some(H0), Some(H2), Some(H2), Some(H2), Some(H2)],
            [None, None, None, None, None, Some(F5)],
        ]
        .into_iter()
        .enumerate()
        {
            for (frame, newest) in newest.into_iter().enumerate() {
                let expected = newest.map(Slot::fields).ok_or(42);
                assert_eq!(asked.newest(frame as u64, id as u64), expected, "{frame} {id}");
            }
        }
        // Frame 0 alone, and nothing.
        let asked = through(l, with(l, &[(0, 1), (2, 2)]), &image);
        assert_eq!(asked.newest(0, 0), Ok(P0.fields()));
        assert_eq!((asked.newest(0, 2), asked.newest(1, 0)), (Err(42), Err(40)));
        let asked = through(l, with(l, &[(2, 0)]), &image);
        assert_eq!((asked.newest(5, 0), asked.newest(6, 0)), (Err(42), Err(40)));
    }),
    ("readers: 33 at every edge of what fits", |l| {
        let image = worked(l);
        let size = list(l).0;
        for changes in [
            &[][..],
            &[(1, 0)],
            &[(1, 1024)],
            // The index up to the slice's end.
            &[(2, 24)],
            &[(2, 0)],
            &[(3, 864)],
            &[(3, 0)],
            &[(3, 1), (2, 31)],
            &[(3, 1024), (2, 0)],
            // The list up to it.
            &[(5, 512)],
            &[(5, 0)],
            &[(4, 1024 - size)],
            &[(4, 0)],
            &[(4, 0), (5, 1024)],
            &[(4, 1024), (5, 0)],
            // Both in one place.
            &[(4, 256)],
            &[(0, 0)],
            &[(0, 1 << 32)],
        ] {
            fits(l, with(l, changes), &image);
            for spare in [1, 1 << 63, ALL] {
                fits(l, with(l, &[changes, &[(7, spare)]].concat()), &image);
            }
        }
        for changes in [
            &[(1, 1025)][..],
            &[(1, (1 << 32) + 3)],
            &[(1, ALL)],
            &[(2, 25)],
            &[(2, 1 << 27)],
            // 32 times these is 2^64, or a little more.
            &[(2, 1 << 59)],
            &[(2, (1 << 59) + 5)],
            &[(2, ALL)],
            &[(3, 865)],
            &[(3, 1), (2, 32)],
            &[(3, 1025), (2, 0)],
            &[(3, 1 << 32)],
            &[(3, ALL), (2, 0)],
            // With what lies between, these are 2^64.
            &[(3, ALL - 31), (2, 1)],
            &[(3, ALL - 159)],
            &[(3, ALL - 159), (2, (1 << 59) + 5)],
            &[(5, 513)],
            &[(5, ALL)],
            &[(5, ALL - 511)],
            &[(4, 1025 - size)],
            &[(4, 0), (5, 1025)],
            &[(4, 1025), (5, 0)],
            &[(4, ALL), (5, 0)],
            &[(4, ALL), (5, 1)],
            &[(4, ALL - 15), (5, 16)],
            &[(4, 1 << 63), (5, 1 << 63)],
            &[(6, 0)],
            &[(6, 1)],
            &[(6, 0x0000_FFFF)],
            &[(6, 0x0001_0001)],
            &[(6, 0x0002_0002)],
            &[(6, 0x0003_0000)],
            &[(6, u64::from(l.version) + (1 << 32))],
            &[(6, u64::from(l.version) << 32)],
            &[(6, ALL)],
        ] {
            for spare in [0, ALL] {
                unfit(l, with(l, &[changes, &[(7, spare)]].concat()), &image);
            }
        }
        for version in [V1_0, V2_0, V2_1] {
            fits(l, with(l, &[(6, version.into())]), &image);
        }
        unfit(l, [0; 8], &image);
        unfit(l, [ALL; 8], &image);
    }),
    ("readers: slices that are no image", |l| {
        let version = l.version.into();
        // Of no byte at all, up to 255; the header is not looked at.
        for length in [0, 1, 31, 32, 64, 255] {
            let image = vec![0xFF; length];
            let end = length as u64;
            for reader in [
                [4, 1, 0, 0, 0, 0, version, 0],
                [4, 1, 0, end, end, 0, version, 9],
                [4, 1, end / 32, end % 32, 0, end, version, ALL],
            ] {
                fits(l, reader, &image);
            }
            unfit(l, [4, 1, 0, end + 1, 0, 0, version, 0], &image);
            unfit(l, [4, 1, 0, 0, end + 1, 0, version, 0], &image);
            unfit(l, [4, 1, end / 32 + 1, 0, 0, 0, version, 0], &image);
        }
        let empty = through(l, [4, 1, 0, 0, 0, 0, version, 0], &[]);
        assert_eq!((empty.name(0), empty.entry(0), empty.id(b"")), (Err(44), Err(44), Err(41)));
        assert_eq!((empty.find(3, 0), empty.newest(3, 0)), (Err(42), Err(42)));
        assert_eq!((empty.lookup(3, b""), empty.lookup(4, b"")), (Err(41), Err(40)));
        // One slot and a name in 66 bytes.
        let mut image = vec![0; 66];
        Slot { flags: 3, ..Slot::bytes(1, 0, 63, 2) }.put(&mut image, 2);
        let place = if l.version == V1_0 { 2 } else { 64 };
        image[place] = b'x';
        let size = if l.version == V1_0 { 64 } else { 2 };
        let one = [2, 1, 1, 2, place as u64, size, version, 0];
        let asked = through(l, one, &image);
        let fields = asked.entry(0).unwrap();
        assert_eq!((asked.name(0), asked.id(b"x")), (Ok([place as u64, 1]), Ok(0)));
        assert_eq!(asked.lookup(fields[0], b"x"), if fields[0] < 2 { Ok(fields) } else { Err(40) });
        for length in [0, 33, 65] {
            unfit(l, one, &image[..length]);
        }
    }),
    ("readers: longer and shorter slices", |l| {
        let image = worked(l);
        let longer = [&image[..], &[b'x'; 3000]].concat();
        let size = list(l).0 as usize;
        for image in [&longer, &longer[..1025]] {
            let asked = through(l, words(l), image);
            assert_eq!(names(&asked), NAMES);
            assert_eq!(asked.chunk(5, b"probe"), Ok([788, 12]));
            assert_eq!(asked.chunk(5, b"fan"), Ok([1024, 0]));
            assert_eq!((asked.entry(5), asked.lookup(6, b"fan")), (Err(44), Err(40)));
        }
        // Without the last bytes chunks are not held any more, and are found still.
        for (length, probe, fan) in [
            (1024, Ok([788, 12]), Ok([1024, 0])),
            (1023, Ok([788, 12]), Err(33)),
            (800, Ok([788, 12]), Err(33)),
            (799, Err(33), Err(33)),
        ] {
            let asked = through(l, words(l), &image[..length]);
            assert_eq!((asked.chunk(5, b"probe"), asked.chunk(5, b"fan")), (probe, fan));
            assert_eq!(asked.element(5, b"probe", 2).err(), probe.err());
            assert_eq!(asked.lookup(5, b"probe"), Ok(P5.fields()));
            assert_eq!(asked.find(5, 2), Ok(F5.fields()));
            assert_eq!(asked.newest(5, 0), Ok(P5.fields()));
            assert_eq!(asked.chunk(0, b"heater"), Ok([784, 1]));
        }
        // The list ends the slice then.
        fits(l, words(l), &image[..512 + size]);
        unfit(l, words(l), &image[..511 + size]);
    }),
    ("readers: chunks that are not held", |l| {
        // The slot of P5, changed behind the reader's back.
        let at = 256 + 32 * listed(l).iter().position(|slot| slot.location == 788).unwrap();
        let changed = |slot: Slot| {
            let mut image = worked(l);
            slot.put(&mut image, at);
            image
        };
        for slot in [
            Slot { n: 60, ..P5 },
            Slot { n: 1 << 61, kind: 10, ..P5 },
            Slot { n: 1 << 32, m: 1 << 31, kind: 2, ..P5 },
            Slot { n: ALL, ..P5 },
            Slot { m: u32::MAX, ..P5 },
            Slot { location: 1013, ..P5 },
            Slot { location: 1024, n: 1, ..P5 },
            Slot { location: 1025, n: 0, ..P5 },
            Slot { location: 1 << 32, ..P5 },
            Slot { location: 1 << 63, n: 1 << 60, kind: 10, ..P5 },
            Slot { location: ALL - 11, ..P5 },
            Slot { location: ALL, n: 0, ..P5 },
            Slot { location: ALL, n: 1, kind: 1, ..P5 },
            Slot { kind: 0, ..P5 },
            Slot { kind: 12, ..P5 },
            Slot { kind: 255, n: 0, ..P5 },
        ] {
            let image = changed(slot);
            let asked = through(l, words(l), &image);
            assert_eq!(asked.chunk(5, b"probe"), Err(33), "{slot:?}");
            for k in [0, 2, 3, ALL] {
                assert_eq!(asked.element(5, b"probe", k), Err(33), "33 goes before 43");
            }
            // The others do not look at the chunk.
            for found in [asked.lookup(5, b"probe"), asked.find(5, 0), asked.newest(5, 0)] {
                assert_eq!(found, Ok(slot.fields()));
            }
            assert_eq!(asked.entry((at as u64 - 256) / 32), Ok(slot.fields()));
        }
        for (slot, place) in [
            (Slot { n: 59, ..P5 }, [788, 236]),
            (Slot { location: 1012, ..P5 }, [1012, 12]),
            (Slot { location: 1024, n: 0, ..P5 }, [1024, 0]),
            (Slot { location: 1024, n: ALL, m: 0, ..P5 }, [1024, 0]),
            // In the header, a block, or nowhere: no opening has tested it.
            (Slot { location: 0, n: 256, ..P5 }, [0, 1024]),
            (Slot { location: 0, n: 0, ..P5 }, [0, 0]),
            (Slot { location: 255, ..P5 }, [255, 12]),
            (Slot { location: 256, n: 40, ..P5 }, [256, 160]),
        ] {
            let image = changed(slot);
            let asked = through(l, words(l), &image);
            assert_eq!(asked.lookup(5, b"probe"), Ok(slot.fields()));
            assert_eq!(asked.chunk(5, b"probe"), Ok(place));
            let [elements, start] = [place[1] / 4, place[0]];
            assert_eq!(asked.element(5, b"probe", elements), Err(43));
            assert_eq!(asked.element(5, b"probe", ALL), Err(43));
            if elements > 0 {
                let bits = u32::from_le_bytes(image[start as usize..][..4].try_into().unwrap());
                assert_eq!(asked.element(5, b"probe", 0), Ok([3, bits.into()]));
            }
        }
    }),
    ("readers: types by the reader's version", |l| {
        let mut image = worked(l);
        let text = Slot { kind: 11, n: 12, ..P5 };
        let at = listed(l).iter().position(|slot| slot.location == 788).unwrap();
        text.put(&mut image, 256 + 32 * at);
        image[788] = 0xC2;
        // Those of 2.x list the same; the header's version says nothing.
        for header in [V1_0, V2_0, V2_1, 0] {
            put32(&mut image, 44, header);
            for version in [V1_0, V2_0, V2_1] {
                if (version == V1_0) != (l.version == V1_0) {
                    continue;
                }
                let asked = through(l, with(l, &[(6, version.into())]), &image);
                let known = version == V2_1;
                let place = if known { Ok([788, 12]) } else { Err(33) };
                assert_eq!(asked.chunk(5, b"probe"), place);
                let first = if known { Ok([1, 0xC2]) } else { Err(33) };
                assert_eq!(asked.element(5, b"probe", 0), first);
                let behind = if known { 43 } else { 33 };
                assert_eq!(asked.element(5, b"probe", 12), Err(behind));
                assert_eq!(asked.lookup(5, b"probe"), Ok(text.fields()));
            }
        }
    }),
    ("readers: names of all lengths", |l| {
        let longest = if l.version == V1_0 { 63 } else { 300 };
        let names: Vec<Vec<u8>> = [1, 2, 62, 63, 64, 255, 256, 257, 300]
            .into_iter()
            .filter(|&length| length <= longest)
            .map(|length| vec![b'n'; length])
            .collect();
        let segments = segments_for(l.version, &names);
        let mut image = l.blank(256 + 64 * segments, 256, 0, 256, segments as u64);
        put_names(&mut image, 256, names.iter().map(Vec::as_slice));
        let reader = l.reader(&image).unwrap();
        let asked = through(l, reader, &image);
        assert_eq!(self::names(&asked), names);
        for (id, name) in names.iter().enumerate() {
            assert_eq!(asked.id(name), Ok(id as u64));
        }
        for length in [0, 3, 61, 65, 254, 258, 299, 301, 512, 556] {
            assert_eq!(asked.id(&vec![b'n'; length]), Err(41), "{length}");
        }
        for other in [&b"N"[..], b"n\0", b"\0", b"no", &[b'n', 0, b'n']] {
            assert_eq!(asked.id(other), Err(41));
        }
    }),
    ("readers: names counted by the second word", |l| {
        let image = worked(l);
        for count in 0..3 {
            let asked = through(l, with(l, &[(1, count as u64)]), &image);
            assert_eq!(names(&asked), NAMES[..count]);
            for (id, name) in NAMES.into_iter().enumerate() {
                let there = id < count;
                assert_eq!(asked.id(name), if there { Ok(id as u64) } else { Err(41) });
                assert_eq!(asked.lookup(5, name).err() == Some(41), !there);
                assert_eq!(asked.find(5, id as u64).err() == Some(41), !there);
                assert_eq!(asked.newest(5, id as u64).err() == Some(41), !there);
                assert_eq!(asked.chunk(2, name).err() == Some(41), !there);
            }
        }
        // No more are listed than there are, but so many ids are sought.
        for count in [4, 1024] {
            let asked = through(l, with(l, &[(1, count)]), &image);
            assert_eq!((names(&asked).len(), asked.name(3)), (3, Err(44)));
            assert_eq!((asked.find(5, 3), asked.newest(5, count - 1)), (Err(42), Err(42)));
            assert_eq!((asked.find(5, count), asked.newest(5, count)), (Err(41), Err(41)));
        }
    }),
    ("readers: names within the bytes of the list", |l| {
        let image = worked(l);
        let old = l.version == V1_0;
        let sizes: &[(u64, usize)] = match old {
            true => &[(0, 0), (63, 0), (64, 1), (127, 1), (128, 2), (191, 2), (192, 3), (256, 3)],
            false => &[(0, 0), (1, 0), (5, 0), (6, 1), (7, 1), (12, 1), (13, 2), (16, 2), (17, 3)],
        };
        for &(size, count) in sizes {
            let asked = through(l, with(l, &[(5, size)]), &image);
            assert_eq!(names(&asked), NAMES[..count], "{size} bytes");
            for (id, name) in NAMES.into_iter().enumerate() {
                assert_eq!(asked.id(name), if id < count { Ok(id as u64) } else { Err(41) });
                // The second word says which ids are sought.
                assert_ne!(asked.find(5, id as u64), Err(41));
            }
        }
        // From the middle of a name on; in 1.0 segments are counted from there.
        let asked = through(l, with(l, &[(4, 513)]), &image);
        let shifted: [&[u8]; 3] =
            if old { [b"robe", b"eater", b"an"] } else { [b"robe", b"heater", b"fan"] };
        assert_eq!(names(&asked), shifted);
        assert_eq!((asked.id(b"robe"), asked.id(b"probe")), (Ok(0), Err(41)));
        // An empty name ends the list, whatever follows.
        let mut cut = image.clone();
        cut[list(l).1[1] as usize] = 0;
        let asked = through(l, words(l), &cut);
        assert_eq!((names(&asked).len(), asked.name(1), asked.id(b"fan")), (1, Err(44), Err(41)));
        assert_eq!(asked.lookup(0, b"heater"), Err(41));
        assert_eq!(asked.find(0, 1), Ok(H0.fields()));
        // No zero at all: in 1.0 a name is its segment, in 2.x there is none.
        let full = vec![b'f'; 1024];
        let asked = through(l, words(l), &full);
        let (count, id) = if old { (3, Ok(0)) } else { (0, Err(41)) };
        assert_eq!((names(&asked).len(), asked.id(&full[..64])), (count, id));
        assert_eq!((asked.id(&full[..63]), asked.id(&full[..65])), (Err(41), Err(41)));
    }),
    ("readers: the first of equal names", |l| {
        let mut image = l.blank(1024, 256, 2, 320, 4);
        put_names(&mut image, 320, [&b"bb"[..], b"aa", b"bb", b"aa"]);
        assert_eq!(l.reader(&image), Err(11));
        let size = if l.version == V1_0 { 256 } else { 12 };
        let slots = [Slot::bytes(0, 2, 640, 1), Slot::bytes(0, 3, 641, 1)];
        put_slots(&mut image, 256, &slots);
        let asked = through(l, [1, 4, 2, 256, 320, size, l.version.into(), 0], &image);
        assert_eq!((asked.id(b"bb"), asked.id(b"aa")), (Ok(0), Ok(1)));
        assert_eq!((asked.name(3).map(|place| place[1]), asked.name(4)), (Ok(2), Err(44)));
        // The first one's id has no entry.
        assert_eq!((asked.lookup(0, b"bb"), asked.find(0, 2)), (Err(42), Ok(slots[0].fields())));
        assert_eq!(asked.newest(0, 3), Ok(slots[1].fields()));
    }),
    ("readers: slots in any order", |l| {
        let image = |keys: &[(u64, u16)]| {
            let mut image = vec![0; 32 * keys.len()];
            for (n, &(frame, id)) in keys.iter().enumerate() {
                Slot::bytes(frame, id, n as u64, 1).put(&mut image, 32 * n);
            }
            image
        };
        let place = |answer: Result<[u64; 7], u64>| answer.map(|fields| fields[2]);
        let reader = |frames: u64, slots: u64| [frames, 9, slots, 0, 0, 0, l.version.into(), 0];
        // The middle one is below frame 1: what is before it is not seen.
        let falling = image(&[(1, 0), (0, 0), (2, 0)]);
        let asked = through(l, reader(3, 3), &falling);
        for (frame, found, newest) in [(0, Err(42), Ok(1)), (1, Err(42), Ok(1)), (2, Ok(2), Ok(2))]
        {
            assert_eq!(place(asked.find(frame, 0)), found, "{frame}");
            assert_eq!(place(asked.newest(frame, 0)), newest, "{frame}");
        }
        // Another frame between: neither a walk nor one slot finds the last.
        let torn = image(&[(3, 2), (4, 0), (3, 0)]);
        let asked = through(l, reader(5, 3), &torn);
        assert_eq!((place(asked.find(3, 0)), place(asked.find(3, 2))), (Err(42), Ok(0)));
        assert_eq!((place(asked.newest(3, 2)), place(asked.newest(3, 0))), (Ok(0), Err(42)));
        // The last slot goes before the one in frame 4.
        assert_eq!((place(asked.newest(4, 2)), place(asked.newest(4, 0))), (Ok(0), Ok(2)));
        // Equal keys: the first of them, and the last.
        let equal = image(&[(1, 1), (1, 1), (1, 1), (1, 1)]);
        let asked = through(l, reader(2, 4), &equal);
        assert_eq!((place(asked.find(1, 1)), place(asked.newest(1, 1))), (Ok(0), Ok(3)));
        assert_eq!((place(asked.find(0, 1)), place(asked.newest(0, 1))), (Err(42), Err(42)));
        // Ids that fall: 1.0 walks its frame, 2.x does not.
        let written = image(&[(7, 3), (7, 2), (7, 1), (7, 0)]);
        let asked = through(l, reader(8, 4), &written);
        let found: Vec<_> = (0..4).map(|id| place(asked.find(7, id))).collect();
        let newest: Vec<_> = (0..4).map(|id| place(asked.newest(7, id))).collect();
        if l.version == V1_0 {
            assert_eq!(found, [Ok(3), Ok(2), Ok(1), Ok(0)]);
            assert_eq!(newest, [Ok(3), Ok(2), Ok(1), Ok(0)]);
        } else {
            // To (7, 0) and (7, 1) no middle is below; to (7, 2) and (7, 3) the third is, and the last.
            assert_eq!(found, [Err(42), Err(42), Err(42), Err(42)]);
            assert_eq!(newest, [Err(42), Ok(2), Ok(1), Ok(0)]);
        }
    }),
    ("readers: frames of 64 bits", |l| {
        let mut image = vec![0; 96];
        let slots =
            [(0, 1), (1 << 48, 0), (ALL, 1)].map(|(frame, id)| Slot::bytes(frame, id, 0, 1));
        put_slots(&mut image, 0, &slots);
        let asked = through(l, [ALL, 2, 3, 0, 0, 0, l.version.into(), 0], &image);
        assert_eq!(asked.find(0, 0), Err(42));
        assert_eq!(asked.find(1 << 48, 0), Ok(slots[1].fields()));
        assert_eq!((asked.find(1 << 48, 1), asked.find((1 << 48) + 1, 0)), (Err(42), Err(42)));
        assert_eq!(asked.newest((1 << 48) - 1, 0), Err(42));
        for frame in [1 << 48, 1 << 63, ALL - 1] {
            assert_eq!(asked.newest(frame, 0), Ok(slots[1].fields()));
            assert_eq!(asked.newest(frame, 1), Ok(slots[0].fields()));
        }
        // The last frame is never below their number.
        assert_eq!((asked.find(ALL, 1), asked.newest(ALL, 1)), (Err(40), Err(40)));
    }),
    ("readers: on a slice that create has made anew", |l| {
        let mut image = worked(l);
        let request =
            Create { application: b"", schema: b"", schema_version: 0, slots: 8, segments: 4 };
        assert_eq!(l.create(&mut image, request), 0);
        // Eight slots of zeros at 256, no name at 512: each is an entry of frame 0 and id 0.
        let asked = through(l, words(l), &image);
        assert_eq!((asked.name(0), asked.id(b"probe"), asked.id(b"")), (Err(44), Err(41), Err(41)));
        assert_eq!((asked.lookup(0, b"probe"), asked.chunk(6, b"probe")), (Err(41), Err(40)));
        for n in 0..5 {
            assert_eq!(asked.entry(n), Ok([0; 7]));
        }
        assert_eq!(asked.entry(5), Err(44));
        assert_eq!(
            (asked.find(0, 0), asked.find(0, 1), asked.find(1, 0)),
            (Ok([0; 7]), Err(42), Err(42))
        );
        assert_eq!((asked.newest(5, 0), asked.newest(5, 1)), (Ok([0; 7]), Err(42)));
        // With a name again: found, of type 0, and so not held.
        put_names(&mut image, 512, [&b"probe"[..]]);
        let asked = through(l, words(l), &image);
        assert_eq!((asked.id(b"probe"), asked.lookup(0, b"probe")), (Ok(0), Ok([0; 7])));
        assert_eq!((asked.chunk(0, b"probe"), asked.element(0, b"probe", 0)), (Err(33), Err(33)));
        assert_eq!(l.reader(&image).map(|reader| reader[..3].to_vec()), Ok(vec![0, 1, 0]));
    }),
    ("readers: of images that list little", |l| {
        for image in [l.blank(256, 256, 0, 256, 0), l.blank(384, 256, 2, 320, 1)] {
            let reader = l.reader(&image).unwrap();
            let questions = Questions::of(l.library, &image, &[b"a".to_vec()]);
            assert_eq!(as_it_is(l.library, &image, &questions), Ok(Some(reader)));
            let asked = through(l, reader, &image);
            assert_eq!((asked.name(0), asked.entry(0), asked.id(b"")), (Err(44), Err(44), Err(41)));
            assert_eq!((asked.find(0, 0), asked.newest(0, 0)), (Err(40), Err(40)));
            assert_eq!(asked.lookup(0, b""), Err(40));
        }
    }),
];

/// The readers of an append's moments, from before its first store to behind its last, each once and
/// in their order. All are asked at every later moment.
fn moments(l: &Versioned, image: &[u8], sheets: &[(Vec<u8>, u64)]) -> (Vec<Reader>, Vec<u8>) {
    let mut last = image.to_vec();
    for (sheet, limit) in sheets {
        l.put(&mut last, sheet, *limit).unwrap();
    }
    // All that was ever listed is listed at the end.
    let mut moments = Moments::new(l.library, Questions::of(l.library, &last, &[]));
    let mut image = image.to_vec();
    for (sheet, limit) in sheets {
        let before = image.clone();
        let [_, whole, _] = l.after(&before, sheet, 0).1.unwrap();
        for limit in 0..=whole.min(*limit) {
            image = l.after(&before, sheet, limit).0;
            moments.add(&image).unwrap();
        }
    }
    assert_eq!(image, last);
    (moments.readers().copied().collect(), image)
}

/// The words of readers by the first six.
fn of(l: &Versioned, readers: &[[u64; 6]]) -> Vec<Reader> {
    let reader = |&[frames, names, entries, index, namelist, size]: &[u64; 6]| {
        [frames, names, entries, index, namelist, size, l.version.into(), 0]
    };
    readers.iter().map(reader).collect()
}

/// The same in both versions that take appends.
pub const GROWING: &[Case] = &[
    ("readers: of all moments of A and B", |l| {
        let (readers, _) = moments(l, &fresh(l), &[(sheet_a(), ALL), (sheet_b(), ALL)]);
        // Its name by the 19th store of A, the frame by the last; the name of B, then its index at its
        // new place, then its frame.
        let expected = of(
            l,
            &[
                [0, 0, 0, 256, 320, 0],
                [0, 1, 0, 256, 320, 6],
                [1, 1, 1, 256, 320, 6],
                [1, 2, 1, 256, 320, 13],
                [1, 2, 1, 576, 320, 13],
                [2, 2, 3, 576, 320, 13],
            ],
        );
        assert_eq!(readers, expected);
    }),
    ("readers: both blocks move in one append", |l| {
        let long = Row::bytes(&[b'n'; 64], b"1");
        let sheet = sheet(&[long, Row::bytes(b"b", b"2"), Row::bytes(b"c", b"3")]);
        let (readers, _) = moments(l, &fresh(l), &[(sheet, ALL)]);
        // Names at 576, three of them one by one; the index at 704; the frame.
        let expected = of(
            l,
            &[
                [0, 0, 0, 256, 320, 0],
                [0, 0, 0, 256, 576, 0],
                [0, 1, 0, 256, 576, 65],
                [0, 2, 0, 256, 576, 67],
                [0, 3, 0, 256, 576, 69],
                [0, 3, 0, 704, 576, 69],
                [1, 3, 3, 704, 576, 69],
            ],
        );
        assert_eq!(readers, expected);
    }),
    ("readers: appends over stopped ones", |l| {
        let (image, _) = l.after(&fresh(l), &sheet_a(), ALL);
        // B after each of its stores but the last, then A or B again, whole.
        for stop in 0..43 {
            for next in [sheet_a(), sheet_b(), nothing(b"fan")] {
                let (readers, last) = moments(l, &image, &[(sheet_b(), stop), (next, ALL)]);
                assert_eq!(readers[0], of(l, &[[1, 1, 1, 256, 320, 6]])[0]);
                assert_eq!(readers.last().map(|reader| reader[0]), Some(2));
                assert_eq!(l.reader(&last).as_ref(), Ok(readers.last().unwrap()));
            }
        }
    }),
    ("readers: from no slot and no segment", |l| {
        let image = l.blank(1024, 256, 0, 256, 0);
        let (readers, _) = moments(l, &image, &[(nothing(b"a"), ALL), (nothing(b"a"), ALL)]);
        // An empty chunk at 256, names at 256 too, then the index behind their 2 segments; the second
        // append finds a slot free.
        let expected = of(
            l,
            &[
                [0, 0, 0, 256, 256, 0],
                [0, 1, 0, 256, 256, 2],
                [0, 1, 0, 384, 256, 2],
                [1, 1, 1, 384, 256, 2],
                [2, 1, 2, 384, 256, 2],
            ],
        );
        assert_eq!(readers, expected);
    }),
    ("readers: made before an append they list nothing of it", |l| {
        let (image, _) = l.after(&fresh(l), &sheet_a(), ALL);
        let reader = l.reader(&image).unwrap();
        let (after, stores) = l.after(&image, &sheet_b(), ALL);
        assert_eq!(stores, Ok([43, 43, 1]));
        for image in [&image, &after] {
            let asked = through(l, reader, image);
            assert_eq!(asked.name(0), Ok([320, 5]));
            assert_eq!((asked.name(1), asked.id(b"heater")), (Err(44), Err(41)));
            assert_eq!(asked.entry(0), Ok([0, 3, 384, 1, 0, 9, 0]));
            assert_eq!((asked.entry(1), asked.lookup(0, b"heater")), (Err(44), Err(41)));
            assert_eq!((asked.lookup(1, b"probe"), asked.lookup(1, b"heater")), (Err(40), Err(40)));
            assert_eq!((asked.find(0, 1), asked.find(1, 0)), (Err(41), Err(40)));
            assert_eq!((asked.newest(0, 1), asked.newest(1, 0)), (Err(41), Err(40)));
            assert_eq!(asked.newest(0, 0), Ok([0, 3, 384, 1, 0, 9, 0]));
            assert_eq!(asked.chunk(0, b"probe"), Ok([384, 12]));
            assert_eq!(image[384..396], PROBE);
            assert_eq!(asked.element(0, b"probe", 2), Ok([3, 0x7F80_0000]));
        }
        // One that is made now does.
        let asked = through(l, l.reader(&after).unwrap(), &after);
        assert_eq!((asked.id(b"heater"), asked.newest(1, 0)), (Ok(1), asked.find(1, 0)));
        assert_eq!((asked.newest(0, 1), asked.newest(1, 1)), (Err(42), asked.find(1, 1)));
    }),
];
