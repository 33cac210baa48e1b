//! The paper's worked cases, and the edges that a hurried builder gets wrong, worked out by hand.
//!
//! Each is a function that panics on a wrong answer, so that the same cases hold the plain Rust
//! implementation and the archive to the paper itself, not only to each other.

use crate::ask::{Answer, Ask};
use crate::demand3::{Call, Run};
use crate::images::{self, get64, put32, put64, put_names, put_slots, sheet, version, Row, Slot};
use crate::images::{frames_to_ask, segments_for, GREATEST_FRAME, GROWING, V1_0, V2_0, V2_1};
use crate::library::{Create, Library, REFUSED};
use crate::{
    move_cases, moving, nchilada_cases, old_cases, rawarray_cases, reader_cases, start_cases,
    turn_cases,
};
use std::ops::Deref;

/// A library, and the version of the images that it is asked about.
pub struct Versioned<'l> {
    pub library: &'l dyn Library,
    pub version: u32,
}

impl<'l> Deref for Versioned<'l> {
    type Target = dyn Library + 'l;

    fn deref(&self) -> &Self::Target {
        self.library
    }
}

impl Versioned<'_> {
    pub fn of_version(&self, mut image: Vec<u8>) -> Vec<u8> {
        put32(&mut image, 44, self.version);
        image
    }

    /// As create makes it, but for the version.
    pub fn fresh(&self, length: usize, slots: u64, segments: u64) -> Result<Vec<u8>, u64> {
        self.library.fresh(length, slots, segments).map(|image| self.of_version(image))
    }

    pub fn blank(
        &self,
        length: usize,
        index: u64,
        slots: u64,
        names: u64,
        segments: u64,
    ) -> Vec<u8> {
        self.of_version(images::blank(length, index, slots, names, segments))
    }

    /// An append in two turns, and beside it as one call: done, whole and copied.
    pub fn put(&self, image: &mut [u8], sheet: &[u8], limit: u64) -> Answer<[u64; 3]> {
        let (joined, stores) = self.library.after(image, sheet, limit);
        let (mut state, begun) = self.begun(image, sheet);
        assert_eq!(begun, stores.map(|[_, whole, copied]| [whole, copied]));
        let mut turn = |limit| self.go_on(&mut state, image, sheet, limit);
        let turns = [turn(limit / 2), turn(limit - limit / 2)];
        match stores {
            Ok([done, ..]) => assert_eq!(turns.map(Result::unwrap).iter().sum::<u64>(), done),
            Err(_) => assert_eq!((turns, state == REFUSED), ([Err(32); 2], true)),
        }
        assert!(*image == joined, "other bytes in turns than by one call");
        stores
    }

    /// The image that `limit` stores leave, with done, whole and copied.
    pub fn after(&self, image: &[u8], sheet: &[u8], limit: u64) -> (Vec<u8>, Answer<[u64; 3]>) {
        let mut image = image.to_vec();
        let stores = self.put(&mut image, sheet, limit);
        (image, stores)
    }
}

pub type Case = (&'static str, fn(&Versioned));

/// Given 2.0, then 2.1.
type Between = (&'static str, fn(&Versioned, &Versioned));

type Test = Box<dyn Fn(&dyn Library)>;

/// All cases: those that hold for some versions once for each, then those between two.
pub fn all() -> Vec<(String, Test)> {
    let mut all: Vec<(String, Test)> = Vec::new();
    let both = [(V2_0, "2.0"), (V2_1, "2.1")];
    let old = [(V1_0, "1.0")];
    let every = [&old[..], &both].concat();
    for (cases, versions) in [
        (READING, &every[..]),
        (CASES, &both),
        (start_cases::CASES, &both),
        (move_cases::CASES, &both),
        (turn_cases::CASES, &both),
        (reader_cases::CASES, &every),
        (reader_cases::GROWING, &both),
        (nchilada_cases::CASES, &every),
        (rawarray_cases::CASES, &every),
        (rawarray_cases::GROWING, &both),
        (old_cases::CASES, &old),
    ] {
        for &(name, case) in cases {
            for &(version, title) in versions {
                let test = move |library: &dyn Library| case(&Versioned { library, version });
                all.push((format!("{name} ({title})"), Box::new(test)));
            }
        }
    }
    for &(name, case) in BETWEEN {
        let test = move |library: &dyn Library| {
            case(&Versioned { library, version: V2_0 }, &Versioned { library, version: V2_1 })
        };
        all.push((name.into(), Box::new(test)));
    }
    all
}

/// All stores.
pub const ALL: u64 = u64::MAX;

/// The last one is infinity, next to the NaNs.
pub const PROBE: [u8; 12] = [0, 0, 0x80, 0x3F, 0, 0, 0x20, 0xC0, 0, 0, 0x80, 0x7F];

pub fn sheet_a() -> Vec<u8> {
    sheet(&[Row::new(b"probe", 9, 3, 1, &PROBE)])
}

pub fn sheet_b() -> Vec<u8> {
    sheet(&[Row::new(b"probe", 9, 3, 1, &PROBE), Row::new(b"heater", 1, 1, 1, &[40])])
}

/// The fresh image of the worked cases: 2 slots at 256, 1 segment at 320, 384 bytes used.
pub fn fresh(l: &Versioned) -> Vec<u8> {
    l.fresh(1024, 2, 1).unwrap()
}

/// A row with no data.
pub fn nothing(name: &[u8]) -> Vec<u8> {
    sheet(&[Row::new(name, 1, 0, 1, b"")])
}

/// 2 slots at 256 and at 320 a segment that lists `names`, or as many as they take.
fn listing(l: &Versioned, length: usize, names: &[&[u8]]) -> Vec<u8> {
    let segments = segments_for(l.version, names).max(1);
    let mut image = l.blank(length, 256, 2, 320, segments as u64);
    put_names(&mut image, 320, names.iter().copied());
    image
}

/// 2 slots at 256 with these entries, name "a" in 1 segment at 320.
pub fn entries(l: &Versioned, length: usize, slots: &[Slot]) -> Vec<u8> {
    let mut image = listing(l, length, &[b"a"]);
    put_slots(&mut image, 256, slots);
    image
}

/// Different names of seven bytes.
pub fn numbered(n: usize) -> Vec<u8> {
    format!("n{n:06}").into_bytes()
}

/// `count` names of seven bytes and their zero, behind 2 slots.
pub fn many_names(l: &Versioned, count: usize) -> Vec<u8> {
    let names: Vec<_> = (0..count).map(numbered).collect();
    let segments = segments_for(l.version, &names) + 1;
    let mut image = l.blank(320 + 64 * segments, 256, 2, 320, segments as u64);
    put_names(&mut image, 320, names.iter().map(Vec::as_slice));
    image
}

/// NaNs by their type: signalling, quiet, of either sign, one bit alone, all ones.
pub const NANS: [(u8, [u64; 8]); 2] = [
    (
        9,
        [
            0x7F80_0001,
            0x7FC0_0000,
            0xFFC0_0000,
            0xFFFF_FFFF,
            0xFF80_0001,
            0x7FBF_FFFF,
            0x7F80_8000,
            0x7FFF_FFFF,
        ],
    ),
    (
        10,
        [
            0x7FF0_0000_0000_0001,
            0x7FF8_0000_0000_0000,
            0xFFF8_0000_0000_0000,
            0xFFFF_FFFF_FFFF_FFFF,
            0xFFF0_0000_0000_0001,
            0x7FF0_0000_8000_0000,
            0x7FF0_0001_0000_0000,
            0x7FFF_FFFF_FFFF_FFFF,
        ],
    ),
];

/// Numbers by their type: infinities, zeros, the least above 0, the greatest of either sign, and those
/// whose bytes in another order, or in halves, are a NaN's.
const NUMBERS: [(u8, [u64; 8]); 2] = [
    (
        9,
        [
            0x7F80_0000,
            0xFF80_0000,
            0x8000_0000,
            0x0000_0001,
            0x0000_0000,
            0x7F7F_FFFF,
            0xFF7F_FFFF,
            0x0100_807F,
        ],
    ),
    (
        10,
        [
            0x7FF0_0000_0000_0000,
            0xFFF0_0000_0000_0000,
            0x8000_0000_0000_0000,
            0x0000_0000_0000_0001,
            0x7FEF_FFFF_FFFF_FFFF,
            0xFFEF_FFFF_FFFF_FFFF,
            0x0100_0000_0000_F07F,
            0x3FF0_0000_7FC0_0000,
        ],
    ),
];

/// A column of floats or doubles with these bits.
pub fn floats(name: &[u8], kind: u8, bits: &[u64]) -> Row {
    let width = images::size(kind);
    let data: Vec<u8> =
        bits.iter().flat_map(|bits| bits.to_le_bytes().into_iter().take(width)).collect();
    Row::new(name, kind, bits.len() as u64, 1, &data)
}

/// A row that holds a NaN.
pub fn nan(name: &[u8]) -> Row {
    floats(name, 9, &[0x7FC0_0000])
}

/// At every limit the append is refused with this number, and changes no byte.
pub fn refused(l: &Versioned, image: &[u8], sheet: &[u8], number: u64) {
    for limit in [0, 1, ALL] {
        let (mut after, mut out) = (image.to_vec(), [0x5555; 3]);
        assert_eq!((l.append(&mut after, sheet, limit, &mut out), out), (number, [0; 3]));
        assert!(after == image, "a refusal changes nothing");
        assert_eq!(l.put(&mut after, sheet, limit), Err(number));
    }
}

/// The append is accepted: no store with limit 0, one with 1, and all of them show the rows' data and
/// whether listed entries were copied.
pub fn accepted(l: &Versioned, image: &[u8], rows: &[Row]) -> Vec<u8> {
    let sheet = sheet(rows);
    let (same, stores) = l.after(image, &sheet, 0);
    let [_, whole, copied] = stores.unwrap();
    assert!(stores == Ok([0, whole, copied]) && same == image);
    assert_eq!(l.after(image, &sheet, 1).1, Ok([1, whole, copied]));
    let (after, stores) = l.after(image, &sheet, whole);
    assert_eq!(stores, Ok([whole, whole, moving::copied(image, &after)]));
    assert_eq!(stores, Ok([whole, whole, copied]));
    let frame = l.counts(&after).unwrap()[0] - 1;
    for row in rows {
        assert_eq!(l.bytes(&after, frame, &row.name), Ok(&row.data[..]));
    }
    after
}

/// Frame and id.
pub type Key = (u64, u16);

/// An index of these entries, with free slots behind them, and the first of the names that
/// [`numbered`] gives. The chunk of the n-th entry is one byte, the lowest of n.
pub fn index(l: &Versioned, keys: &[Key], names: usize, free: usize) -> Vec<u8> {
    let names: Vec<_> = (0..names).map(numbered).collect();
    let (slots, segments) = (keys.len() + free, segments_for(l.version, &names));
    let list = 256 + 32 * slots;
    let data = list + 64 * segments;
    let mut image = l.blank(data + keys.len(), 256, slots as u64, list as u64, segments as u64);
    put_names(&mut image, list, names.iter().map(Vec::as_slice));
    for (n, &(frame, id)) in keys.iter().enumerate() {
        Slot::bytes(frame, id, (data + n) as u64, 1).put(&mut image, 256 + 32 * n);
        image[data + n] = n as u8;
    }
    image
}

/// [`index`] with a free slot, and room behind it for some appends.
fn growing(l: &Versioned, keys: &[Key], names: usize) -> Vec<u8> {
    let mut image = index(l, keys, names, 1);
    image.resize(image.len().next_multiple_of(8) + 1024, 0);
    image
}

/// How many entries lie before the place of one sought, whether it is there, and the probes that it
/// takes. All calls that look it up must answer as it is there or not.
fn search(l: &Versioned, image: &[u8], keys: &[Key], key: Key) -> (usize, bool, u64) {
    let place = keys.iter().filter(|&&listed| listed < key).count();
    let found = keys.get(place) == Some(&key);
    let (frame, id, name) = (key.0, u64::from(key.1), numbered(key.1.into()));
    let entry = l.find(image, frame, &name).map(|entry| (entry[0], entry[4]));
    assert_eq!(entry, found.then_some((frame, id)).ok_or(42));
    let byte = place as u8;
    assert_eq!(l.bytes(image, frame, &name), found.then_some(&[byte][..]).ok_or(42));
    let element = l.nth_element(image, frame, &name, 0);
    assert_eq!(element, found.then_some([1, byte.into()]).ok_or(42));
    let (number, probes) = l.probed(image, frame, &name);
    assert_eq!(number, if found { 0 } else { 42 });
    (place, found, probes)
}

/// W-202's words of the list of entries probed, as far as its length shows them: it holds the found
/// entry, or else those next to its place, and has at most one more than n has binary digits.
fn promised(keys: &[Key], digits: u64, (place, found, probes): (usize, bool, u64)) {
    let held = if found { 1 } else { u64::from(place > 0) + u64::from(place < keys.len()) };
    let entries = keys.len();
    assert!((held..=digits + 1).contains(&probes), "place {place} of {entries}: {probes} probes");
}

/// The places probed in lists of 1 to 5 entries, where none lies before the place sought, one, and
/// so on up to all.
const PROBED_PLACES: [&[&[usize]]; 5] = [
    &[&[0, 0], &[0]],
    &[&[1, 0, 0], &[1, 0, 1], &[1]],
    &[&[1, 0, 0], &[1, 0, 1], &[1, 2, 2], &[1, 2]],
    &[&[2, 1, 0, 0], &[2, 1, 0, 1], &[2, 1, 2], &[2, 3, 3], &[2, 3]],
    &[&[2, 1, 0, 0], &[2, 1, 0, 1], &[2, 1, 2], &[2, 4, 3, 3], &[2, 4, 3, 4], &[2, 4]],
];

/// How many are probed in longer ones. 2^k - 1 entries halve evenly: k probes for each place, and
/// one for what stands there, but nothing does behind the last. Of 2^k the lower part is a power
/// again, so that places 0 and 1 take one probe more. Of 2^k + 1 both parts are powers.
const PROBE_COUNTS: [&[u64]; 6] = [
    &[4, 4, 4, 4, 4, 4, 4, 3],
    &[5, 5, 4, 4, 4, 4, 4, 4, 3],
    &[5, 5, 4, 4, 4, 5, 5, 4, 4, 3],
    &[5, 5, 5, 5, 5, 5, 5, 5, 5, 5, 5, 5, 5, 5, 5, 4],
    &[6, 6, 5, 5, 5, 5, 5, 5, 5, 5, 5, 5, 5, 5, 5, 5, 4],
    &[6, 6, 5, 5, 5, 5, 5, 5, 5, 6, 6, 5, 5, 5, 5, 5, 5, 4],
];

/// The same in all versions.
const READING: &[Case] = &[
    ("worked: 1,024 names", |l| {
        assert_eq!(l.counts(&many_names(l, 1024)), Ok([0, 1024, 0]));
        assert_eq!(l.counts(&many_names(l, 1025)), Err(10));
    }),
    ("worked: location -1", |l| {
        assert_eq!(l.counts(&entries(l, 512, &[Slot::bytes(0, 0, u64::MAX, 0)])), Err(12));
    }),
    ("numbers 1 to 5", |l| {
        assert_eq!(l.counts(&[]), Err(1));
        assert_eq!(l.counts(&fresh(l)[..255]), Err(1));
        let changed = |at: usize, byte: u8| {
            let mut image = fresh(l);
            image[at] = byte;
            l.counts(&image)
        };
        for at in 0..8 {
            assert_eq!(changed(at, 0), Err(3));
        }
        assert_eq!(changed(44, 2), Err(4));
        assert_eq!(changed(46, 3), Err(4));
        for text in [48, 112] {
            let mut image = fresh(l);
            image[text..text + 63].fill(b'x');
            assert!(l.counts(&image).is_ok());
            image[text + 63] = b'x';
            assert_eq!(l.counts(&image), Err(5));
        }
        // Reserved bytes and the schema's version say nothing.
        assert!(changed(40, 255).is_ok() && changed(176, 1).is_ok() && changed(255, 9).is_ok());
    }),
    ("numbers 6 to 8", |l| {
        let verdict = |index, slots, names, segments| {
            l.counts(&l.blank(512, index, slots, names, segments)).err().unwrap_or(0)
        };
        assert_eq!(verdict(255, 1, 320, 1), 6);
        assert_eq!(verdict(481, 1, 256, 1), 6);
        assert_eq!(verdict(480, 1, 256, 1), 0);
        assert_eq!(verdict(256, 1, 255, 1), 7);
        assert_eq!(verdict(256, 1, 449, 1), 7);
        assert_eq!(verdict(256, 1, 448, 1), 0);
        assert_eq!(verdict(256, 2, 319, 1), 8);
        assert_eq!(verdict(256, 2, 320, 1), 0);
        assert_eq!(verdict(320, 2, 256, 1), 0);
        assert_eq!(verdict(319, 2, 256, 1), 8);
        // Blocks at odd places open.
        assert_eq!(verdict(257, 1, 289, 1), 0);
    }),
    ("empty blocks and chunks have a place but no byte", |l| {
        for (place, number) in [(0, 1), (255, 1), (256, 0), (290, 0), (512, 0), (513, 1)] {
            let index = l.counts(&l.blank(512, place, 0, 256, 1)).err().unwrap_or(0);
            assert_eq!(index, 6 * number, "index at {place}");
            let names = l.counts(&l.blank(512, 256, 2, place, 0)).err().unwrap_or(0);
            assert_eq!(names, 7 * number, "names at {place}");
        }
        for (location, number) in [(255, 12), (256, 0), (300, 0), (330, 0), (512, 0), (513, 16)] {
            let image = entries(l, 512, &[Slot::bytes(0, 0, location, 0)]);
            assert_eq!(l.counts(&image).err().unwrap_or(0), number, "chunk at {location}");
        }
    }),
    ("no search, no probe", |l| {
        // No entry at all, whatever is listed.
        for image in [fresh(l), listing(l, 512, &[b"a", b"b"])] {
            for (frame, name) in [(0, &b"a"[..]), (0, b"fan"), (ALL, b"a")] {
                assert_eq!(l.probed(&image, frame, name), (40, 0));
            }
        }
        let good = Slot::bytes(0, 0, 384, 4);
        let image = entries(l, 512, &[good, Slot { frame: 1, ..good }]);
        assert_eq!(l.probed(&image, 1, b"a"), (0, 3));
        for frame in [2, 3, 1 << 32, ALL] {
            assert_eq!(l.probed(&image, frame, b"a"), (40, 0));
            assert_eq!(l.probed(&image, frame, b"fan"), (40, 0));
        }
        for name in [&b""[..], b"\0", b"a\0", b"ab", b"b", &[b'a'; 300]] {
            assert_eq!(l.probed(&image, 0, name), (41, 0));
        }
        assert_eq!(l.probed(&image[..255], 0, b"a"), (1, 0));
        assert_eq!(l.probed(&image[..319], 0, b"a"), (6, 0));
        assert_eq!(l.probed(&image[..387], 0, b"a"), (16, 0));
        for (bad, number) in [
            (Slot { location: 1, ..good }, 12),
            (Slot { kind: 12, ..good }, 13),
            (Slot { id: 1, ..good }, 14),
            (good, 15),
        ] {
            assert_eq!(l.probed(&entries(l, 512, &[good, bad]), 0, b"a"), (number, 0));
        }
    }),
    ("block sizes do not wrap", |l| {
        for slots in [1 << 59, 3 << 59, 1 << 63, ALL] {
            assert_eq!(l.counts(&l.blank(512, 256, slots, 320, 1)), Err(6));
            assert_eq!(l.counts(&l.blank(512, 256, 2, 320, slots)), Err(7));
        }
        assert_eq!(l.counts(&l.blank(512, 256, 2, 320, 1 << 58)), Err(7));
        assert_eq!(l.counts(&l.blank(512, ALL - 31, 1, 320, 1)), Err(6));
        assert_eq!(l.counts(&l.blank(512, 256, 2, ALL - 63, 1)), Err(7));
        assert_eq!(l.counts(&l.blank(512, ALL, 0, 320, 1)), Err(6));
    }),
    ("chunk sizes do not wrap", |l| {
        let chunk = |n, m, kind| Slot { frame: 0, n, location: 384, m, id: 0, kind, flags: 0 };
        let verdict = |slot| l.counts(&entries(l, 512, &[slot])).err().unwrap_or(0);
        assert_eq!(verdict(chunk(1 << 62, 4, 1)), 16);
        assert_eq!(verdict(chunk(1 << 61, 1, 10)), 16);
        assert_eq!(verdict(chunk(1 << 32, u32::MAX, 4)), 16);
        assert_eq!(verdict(chunk(ALL, u32::MAX, 10)), 16);
        assert_eq!(verdict(chunk(ALL - 383, 1, 1)), 16);
        assert_eq!(verdict(chunk(ALL, 0, 10)), 0);
        assert_eq!(verdict(chunk(0, u32::MAX, 10)), 0);
        let image = entries(l, 512, &[chunk(ALL, 0, 10)]);
        assert_eq!(l.nth_element(&image, 0, b"a", 0), Err(43));
        assert_eq!(l.bytes(&image, 0, b"a"), Ok(&b""[..]));
    }),
    ("locations are signed for 12 and do not wrap", |l| {
        let verdict = |location, n| {
            l.counts(&entries(l, 512, &[Slot::bytes(0, 0, location, n)])).err().unwrap_or(0)
        };
        assert_eq!(verdict(1 << 63, 1), 12);
        assert_eq!(verdict((1 << 63) - 1, 1), 16);
        assert_eq!(verdict((1 << 63) - 1, 0), 16);
        assert_eq!(verdict((1 << 63) - 1, (1 << 63) + 385), 16);
        assert_eq!(verdict(1, 0), 12);
    }),
    ("the first bad entry decides, in it the lowest number", |l| {
        let verdict = |slots: &[Slot]| l.counts(&entries(l, 512, slots)).err().unwrap_or(0);
        let far = Slot::bytes(0, 0, 511, 9);
        assert_eq!(verdict(&[far, Slot::bytes(0, 0, 1, 1)]), 16);
        let before = Slot::bytes(3, 0, 384, 1);
        let all = Slot { frame: 2, n: 9, location: 2, m: 1, id: 9, kind: 0, flags: 0 };
        assert_eq!(verdict(&[before, all]), 12);
        assert_eq!(verdict(&[before, Slot { location: 511, ..all }]), 13);
        assert_eq!(verdict(&[before, Slot { location: 511, kind: 1, ..all }]), 14);
        assert_eq!(verdict(&[before, Slot { location: 511, kind: 1, id: 0, ..all }]), 15);
        assert_eq!(verdict(&[before, Slot { location: 383, kind: 1, id: 0, ..all }]), 15);
        assert_eq!(verdict(&[Slot { location: 300, n: 500, ..far }]), 16);
    }),
    ("18 is the last test of an entry", |l| {
        let verdict = |slots: &[Slot]| l.counts(&entries(l, 512, slots)).err().unwrap_or(0);
        let good = Slot::bytes(0, 0, 384, 4);
        for frame in [GREATEST_FRAME - 1, GREATEST_FRAME] {
            assert_eq!(verdict(&[Slot { frame, ..good }]), 0);
            assert_eq!(verdict(&[good, Slot { frame, ..good }]), 0);
        }
        for frame in [GREATEST_FRAME + 1, GREATEST_FRAME + 2, 1 << 48, 1 << 63, ALL] {
            let late = Slot { frame, ..good };
            for (slot, number) in [
                (late, 18),
                (Slot { location: 255, ..late }, 12),
                (Slot { location: ALL, ..late }, 12),
                (Slot { kind: 0, ..late }, 13),
                (Slot { id: 1, ..late }, 14),
                (Slot { n: 129, ..late }, 16),
                (Slot { n: 1 << 62, m: 4, ..late }, 16),
                (Slot { location: 319, n: 1, ..late }, 17),
                (Slot { location: 383, ..late }, 17),
                // The list ends there.
                (Slot { location: 0, ..late }, 0),
            ] {
                assert_eq!(verdict(&[slot]), number);
                assert_eq!(verdict(&[good, slot]), number);
            }
            // The first bad entry decides.
            assert_eq!(verdict(&[late, Slot { location: 1, ..good }]), 18);
            assert_eq!(verdict(&[late, good]), 18);
            assert_eq!(verdict(&[Slot { n: 129, ..good }, late]), 16);
            assert_eq!(l.probed(&entries(l, 512, &[good, late]), 0, b"a"), (18, 0));
        }
    }),
    ("frames may be left out anywhere", |l| {
        let lists: [&[Key]; 7] = [
            &[(1, 0)],
            &[(7, 2)],
            &[(0, 0), (2, 0)],
            &[(0, 2), (5, 0), (5, 1), (9, 2)],
            &[(3, 1), (4, 0), (1 << 31, 2)],
            &[(GREATEST_FRAME, 0)],
            &[(1, 1), (GREATEST_FRAME, 0), (GREATEST_FRAME, 2)],
        ];
        for keys in lists {
            let image = index(l, keys, 3, 1);
            let named: Vec<u64> = keys.iter().map(|key| key.0).collect();
            let frames = named[named.len() - 1] + 1;
            assert_eq!(l.counts(&image), Ok([frames, 3, keys.len() as u64]));
            for frame in frames_to_ask(&named, frames) {
                for id in 0..3 {
                    search(l, &image, keys, (frame, id));
                }
                assert_eq!(l.find(&image, frame, b"fan"), Err(41));
            }
            // In 32 bits the third of these would be the last frame.
            for frame in [frames, frames + 1, frames - 1 + (1 << 32), ALL] {
                for name in [&numbered(0)[..], &numbered(2), b"fan"] {
                    assert_eq!(l.find(&image, frame, name), Err(40));
                }
            }
        }
    }),
    ("an empty frame has no chunk", |l| {
        let good = Slot::bytes(2, 0, 384, 4);
        let image = entries(l, 512, &[good, Slot { frame: 4, ..good }]);
        let listing = "frames 5 names 1 entries 2\n2 0 1 4 1 384\n4 0 1 4 1 384\n";
        assert_eq!(l.listing(&image), listing);
        for frame in [0, 1, 3] {
            assert_eq!(l.find(&image, frame, b"a"), Err(42));
            assert_eq!(l.bytes(&image, frame, b"a"), Err(42));
            assert_eq!(l.nth_element(&image, frame, b"a", 0), Err(42));
            assert_eq!(l.find(&image, frame, b"b"), Err(41));
            // Probed are 1, 0, 0, and for frame 3 1, 0, 1.
            assert_eq!(l.probed(&image, frame, b"a"), (42, 3));
            assert_eq!(l.probed(&image, frame, b"b"), (41, 0));
        }
        for frame in [2, 4] {
            assert_eq!(l.bytes(&image, frame, b"a"), Ok(&[0; 4][..]));
        }
        assert_eq!(l.find(&image, 5, b"a"), Err(40));
        assert_eq!(l.probed(&image, 5, b"a"), (40, 0));
    }),
    ("chunks lie anywhere, blocks in either order", |l| {
        // Names at 300, index at 401: chunks before, between and behind, sharing bytes.
        let mut image = l.blank(600, 401, 4, 300, 1);
        put_names(&mut image, 300, [&b"a"[..]]);
        let slots = [(257, 43), (364, 37), (365, 1), (529, 71)]
            .iter()
            .enumerate()
            .map(|(frame, &(at, n))| Slot::bytes(frame as u64, 0, at, n));
        let slots: Vec<_> = slots.collect();
        put_slots(&mut image, 401, &slots);
        assert_eq!(l.counts(&image), Ok([4, 1, 4]));
        for slot in &slots {
            assert_eq!(l.find(&image, slot.frame, b"a"), Ok(slot.fields()));
        }
        for at in [257 + 43, 364 + 37] {
            let mut image = image.clone();
            let frame = usize::from(at == 364 + 37);
            put64(&mut image, 401 + 32 * frame + 8, slots[frame].n + 1);
            assert_eq!(l.counts(&image), Err(17));
        }
    }),
    ("the magic starts with DF", |l| {
        let mut image = fresh(l);
        assert_eq!(image[..2], [0xDF, 0x65]);
        image[..8].reverse();
        assert_eq!(l.counts(&image), Err(3));
    }),
];

/// The same in both versions that take appends.
const CASES: &[Case] = &[
    ("worked: fresh image", |l| {
        let image = fresh(l);
        assert_eq!(l.counts(&image), Ok([0, 0, 0]));
        // The end of use shows as the first chunk's place.
        let (after, _) = l.after(&image, &sheet_a(), ALL);
        assert_eq!(l.find(&after, 0, b"probe").map(|e| e[2]), Ok(384));
        assert_eq!(l.fresh(383, 2, 1), Err(52));
        assert!(l.fresh(384, 2, 1).is_ok());
    }),
    ("worked: sheet A", |l| {
        let image = fresh(l);
        assert_eq!(sheet_a().len(), 37);
        assert_eq!(l.after(&image, &sheet_a(), ALL).1, Ok([23, 23, 0]));
        let (stopped, stores) = l.after(&image, &sheet_a(), 22);
        assert_eq!(stores, Ok([22, 23, 0]));
        assert_eq!(l.counts(&stopped), Ok([0, 1, 0]));
        let (after, stores) = l.after(&image, &sheet_a(), 23);
        assert_eq!(stores, Ok([23, 23, 0]));
        assert_eq!(l.listing(&after), "frames 1 names 1 entries 1\n0 0 9 3 1 384\n");
        assert_eq!(l.bytes(&after, 0, b"probe"), Ok(&PROBE[..]));
        // End of use 448: the next chunk lies there.
        let (next, _) = l.after(&after, &nothing(b"probe"), ALL);
        assert_eq!(l.find(&next, 1, b"probe").map(|e| e[2]), Ok(448));
    }),
    ("worked: sheet B", |l| {
        let (image, _) = l.after(&fresh(l), &sheet_a(), ALL);
        assert_eq!(sheet_b().len(), 60);
        let (after, stores) = l.after(&image, &sheet_b(), ALL);
        assert_eq!(stores, Ok([43, 43, 1]));
        assert_eq!([get64(&after, 8), get64(&after, 16)], [576, 4]);
        assert_eq!(
            l.listing(&after),
            "frames 2 names 2 entries 3\n0 0 9 3 1 384\n1 0 9 3 1 448\n1 1 1 1 1 512\n"
        );
        let (next, _) = l.after(&after, &nothing(b"probe"), ALL);
        assert_eq!(l.find(&next, 2, b"probe").map(|e| e[2]), Ok(704));
        let (stopped, _) = l.after(&image, &sheet_b(), 34);
        assert_eq!([get64(&stopped, 8), get64(&stopped, 16)], [576, 2]);
        assert_eq!(l.counts(&stopped), Ok([1, 2, 1]));
        assert_eq!(l.after(&image[..704], &sheet_b(), ALL).1, Ok([43, 43, 1]));
        assert_eq!(l.after(&image[..703], &sheet_b(), ALL).1, Err(29));
    }),
    ("worked: lookups", |l| {
        let (image, _) = l.after(&fresh(l), &sheet_a(), ALL);
        let (image, _) = l.after(&image, &sheet_b(), ALL);
        assert_eq!(l.find(&image, 0, b"heater"), Err(42));
        assert_eq!(l.find(&image, 2, b"heater"), Err(40));
        assert_eq!(l.find(&image, 1, b"fan"), Err(41));
        assert_eq!(l.nth_element(&image, 1, b"heater", 0), Ok([1, 40]));
    }),
    ("worked: probes", |l| {
        let (image, _) = l.after(&fresh(l), &sheet_a(), ALL);
        let (image, _) = l.after(&image, &sheet_b(), ALL);
        // Probed are 1, 0, 0; 1, 0, 1 where the heater would lie; 1, 2, 2.
        assert_eq!(l.probed(&image, 0, b"probe"), (0, 3));
        assert_eq!(l.probed(&image, 0, b"heater"), (42, 3));
        assert_eq!(l.probed(&image, 1, b"heater"), (0, 3));
        assert_eq!(l.probed(&image, 2, b"heater"), (40, 0));
        assert_eq!(l.probed(&image, 1, b"fan"), (41, 0));
        // Three frames, each without one of three names: 6 entries.
        let keys = [(0, 1), (0, 2), (1, 0), (1, 2), (2, 0), (2, 1)];
        let image = index(l, &keys, 3, 2);
        let probes = |key| search(l, &image, &keys, key);
        // 3, 1, 0, 0: before the first.
        assert_eq!(probes((0, 0)), (0, false, 4));
        // 3, 1, 2, 3: between.
        assert_eq!(probes((1, 1)), (3, false, 4));
        // 3, 5: behind the last.
        assert_eq!(probes((2, 2)), (6, false, 2));
        for (place, key) in keys.into_iter().enumerate() {
            assert_eq!(probes(key), (place, true, 4));
        }
    }),
    ("worked: elements", |l| {
        let (image, _) = l.after(&fresh(l), &sheet_a(), ALL);
        assert_eq!(l.nth_element(&image, 0, b"probe", 0), Ok([3, 0x3F80_0000]));
        assert_eq!(l.nth_element(&image, 0, b"probe", 1), Ok([3, 0xC020_0000]));
        assert_eq!(l.nth_element(&image, 0, b"probe", 2), Ok([3, 0x7F80_0000]));
        assert_eq!(l.nth_element(&image, 0, b"probe", 3), Err(43));
    }),
    ("worked: 64 rows", |l| {
        let rows: Vec<_> = (0..65).map(|n| Row::bytes(&[b'a', n + 1], &[n])).collect();
        let image = l.fresh(16_384, 64, 16).unwrap();
        let (after, stores) = l.after(&image, &sheet(&rows[..64]), ALL);
        assert!(stores.is_ok());
        assert_eq!(l.counts(&after), Ok([1, 64, 64]));
        assert_eq!(l.after(&image, &sheet(&rows), ALL), (image, Err(22)));
    }),
    ("numbers 9 and 11", |l| {
        let mut image = listing(l, 512, &[b"ab", b"cd"]);
        assert_eq!(l.counts(&image), Ok([0, 2, 0]));
        assert_eq!(l.counts(&listing(l, 512, &[b"ab", b"cd", b"ab"])), Err(11));
        assert!(l.counts(&listing(l, 512, &[b"ab", b"abc", b"b"])).is_ok());
        image[326..384].fill(b'x');
        assert_eq!(l.counts(&image), Err(9));
        image[383] = 0;
        assert_eq!(l.counts(&image), Ok([0, 3, 0]));
    }),
    ("numbers 12 to 18", |l| {
        let verdict = |slots: &[Slot]| l.counts(&entries(l, 512, slots)).err().unwrap_or(0);
        let good = Slot::bytes(0, 0, 384, 4);
        assert_eq!(verdict(&[good]), 0);
        assert_eq!(verdict(&[Slot { location: 255, ..good }]), 12);
        assert_eq!(verdict(&[Slot { kind: 12, ..good }]), 13);
        assert_eq!(verdict(&[Slot { id: 1, ..good }]), 14);
        assert_eq!(verdict(&[Slot { frame: 1, ..good }]), 0);
        assert_eq!(verdict(&[Slot { frame: 1, ..good }, good]), 15);
        assert_eq!(verdict(&[good, good]), 15);
        assert_eq!(verdict(&[good, Slot { frame: 1, ..good }]), 0);
        assert_eq!(verdict(&[good, Slot { frame: 2, ..good }]), 0);
        assert_eq!(verdict(&[Slot { frame: 4_294_967_294, ..good }]), 0);
        assert_eq!(verdict(&[Slot { frame: 4_294_967_295, ..good }]), 18);
        assert_eq!(verdict(&[Slot { n: 129, ..good }]), 16);
        assert_eq!(verdict(&[Slot { n: 128, ..good }]), 0);
        assert_eq!(verdict(&[Slot { location: 319, n: 1, ..good }]), 17);
        assert_eq!(verdict(&[Slot { location: 383, ..good }]), 17);
        assert_eq!(verdict(&[Slot { flags: 255, ..good }]), 0);
        // Ids fall from a frame to the next, and rise within one.
        let mut image = listing(l, 512, &[b"a", b"b"]);
        put_slots(&mut image, 256, &[Slot { id: 1, ..good }, Slot { frame: 1, ..good }]);
        assert_eq!(l.counts(&image), Ok([2, 2, 2]));
        put_slots(&mut image, 256, &[Slot { id: 1, ..good }, good]);
        assert_eq!(l.counts(&image), Err(15));
        put_slots(&mut image, 256, &[good, Slot { id: 1, ..good }]);
        assert_eq!(l.counts(&image), Ok([1, 2, 2]));
    }),
    ("numbers 22 to 27", |l| {
        let image = fresh(l);
        let number = |sheet: &[u8]| {
            let (after, stores) = l.after(&image, sheet, ALL);
            assert!(stores.is_ok() || after == image, "a refusal changes nothing");
            stores.err().unwrap_or(0)
        };
        let good = sheet_b();
        let changed = |at: usize, byte: u8| {
            let mut sheet = good.clone();
            sheet[at] = byte;
            number(&sheet)
        };
        assert_eq!(number(&[]), 22);
        assert_eq!(number(&[1, 0, 0]), 22);
        assert_eq!(number(&[0, 0, 0, 0]), 22);
        assert_eq!(changed(3, 1), 22);
        assert_eq!(number(&good[..4]), 23);
        assert_eq!(number(&good[..35]), 23);
        assert_eq!(number(&good[..36]), 25);
        assert_eq!(changed(16, 12), 24);
        assert_eq!(changed(17, 0), 24);
        assert_eq!(changed(18, 1), 24);
        assert_eq!(changed(35, 1), 24);
        assert_eq!(number(&good[..59]), 25);
        assert_eq!(number(&[&good[..], &[0]].concat()), 25);
        assert_eq!(changed(36, 0), 26);
        assert_eq!(number(&sheet(&[Row::bytes(b"ab", b"1"), Row::bytes(b"ab", b"")])), 27);
        assert_eq!(number(&good), 0);
    }),
    ("number 28", |l| {
        let mut image = many_names(l, 1023);
        image.resize(image.len() + 65_536, 0);
        let two = sheet(&[Row::bytes(b"one", b""), Row::bytes(b"two", b"")]);
        assert_eq!(l.after(&image, &two, ALL).1, Err(28));
        let old = sheet(&[Row::bytes(b"one", b""), Row::bytes(b"n000007", b"")]);
        let (after, stores) = l.after(&image, &old, ALL);
        assert!(stores.is_ok());
        assert_eq!(l.counts(&after), Ok([1, 1024, 2]));
        assert_eq!(l.after(&after, &nothing(b"two"), ALL).1, Err(28));
        assert!(l.after(&after, &nothing(b"one"), ALL).1.is_ok());
    }),
    ("numbers 43 and 44", |l| {
        let (image, _) = l.after(&fresh(l), &sheet_a(), ALL);
        assert_eq!(l.nth_name(&image, 0), Ok(&b"probe"[..]));
        assert_eq!(l.nth_name(&image, 1), Err(44));
        assert_eq!(l.nth_name(&image, ALL), Err(44));
        assert_eq!(l.nth_entry(&image, 0), Ok([0, 3, 384, 1, 0, 9, 0]));
        assert_eq!(l.nth_entry(&image, 1), Err(44));
        assert_eq!(l.nth_entry(&image, 1 << 32), Err(44));
        assert_eq!(l.nth_element(&image, 0, b"probe", 1 << 32), Err(43));
        // The element's test comes after the lookup's.
        assert_eq!(l.nth_element(&image, 1, b"fan", 9), Err(40));
        assert_eq!(l.nth_element(&image, 0, b"fan", 9), Err(41));
    }),
    ("elements of the ten types", |l| {
        let image = l.fresh(2048, 16, 4).unwrap();
        let data: Vec<u8> = (0xF0..=0xFF).collect();
        let rows: Vec<_> = (1..=10)
            .map(|kind| {
                let n = (data.len() / images::size(kind)) as u64 / 2;
                // The last float and the last double are NaNs: these types are put in afterwards.
                let appended = if kind > 8 { kind - 6 } else { kind };
                Row::new(&[b'0' + kind], appended, n, 2, &data)
            })
            .collect();
        let (mut image, _) = l.after(&image, &sheet(&rows), ALL);
        for slot in [8, 9] {
            image[256 + 32 * slot + 30] = slot as u8 + 1;
        }
        let second = |kind: u8| l.nth_element(&image, 0, &[b'0' + kind], 1).unwrap();
        assert_eq!(second(1), [1, 0xF1]);
        assert_eq!(second(2), [1, 0xF3F2]);
        assert_eq!(second(3), [1, 0xF7F6_F5F4]);
        assert_eq!(second(4), [1, 0xFFFE_FDFC_FBFA_F9F8]);
        assert_eq!(second(5), [2, 0xFFFF_FFFF_FFFF_FFF1]);
        assert_eq!(second(6), [2, 0xFFFF_FFFF_FFFF_F3F2]);
        assert_eq!(second(7), [2, 0xFFFF_FFFF_F7F6_F5F4]);
        assert_eq!(second(8), [2, 0xFFFE_FDFC_FBFA_F9F8]);
        assert_eq!(second(9), [3, 0xF7F6_F5F4]);
        assert_eq!(second(10), [4, 0xFFFE_FDFC_FBFA_F9F8]);
    }),
    ("9, 10 and 11 are tests of the whole list", |l| {
        let mut image = many_names(l, 1025);
        let end = 320 + 8 * 1025;
        image[end..].fill(b'x');
        assert_eq!(l.counts(&image), Err(9));
        image[end..].fill(0);
        assert_eq!(l.counts(&image), Err(10));
        let first = image[320..328].to_vec();
        image[328..336].copy_from_slice(&first);
        assert_eq!(l.counts(&image), Err(10));
    }),
    ("the end of use counts empty things", |l| {
        let image = entries(l, 500, &[Slot::bytes(0, 0, 500, 0)]);
        assert_eq!(l.after(&image, &nothing(b"a"), ALL), (image.clone(), Err(29)));
        let longer = entries(l, 512, &[Slot::bytes(0, 0, 500, 0)]);
        assert_eq!(l.after(&longer[..511], &nothing(b"a"), ALL).1, Err(29));
        let (after, stores) = l.after(&longer, &nothing(b"a"), ALL);
        assert!(stores.is_ok());
        assert_eq!(l.find(&after, 1, b"a").map(|e| e[2]), Ok(512));
        let image = l.blank(512, 512, 0, 256, 1);
        assert_eq!(l.after(&image, &nothing(b"a"), ALL).1, Err(29));
    }),
    ("29 compares the padded position", |l| {
        let image = entries(l, 385, &[Slot::bytes(0, 0, 384, 1)]);
        assert_eq!(l.after(&image, &nothing(b"a"), ALL).1, Err(29));
        for length in 384..400 {
            assert_eq!(l.after(&fresh(l)[..length], &sheet_a(), ALL).1, Err(29));
        }
        assert_eq!(l.after(&fresh(l)[..400], &sheet_a(), ALL).1, Ok([23, 23, 0]));
    }),
    ("names fit with no spare zero behind them", |l| {
        let stores = |listed: usize, name: &[u8]| {
            let name_before = vec![b'x'; listed - 1];
            let image = listing(l, 1024, &[&name_before]);
            let (after, stores) = l.after(&image, &nothing(name), ALL);
            (stores.unwrap()[1], get64(&after, 24), get64(&after, 32))
        };
        assert_eq!(stores(58, b"probe"), (8 + 1 + 1 + 4, 320, 1));
        assert_eq!(stores(59, b"probe"), (8 + 1 + 18 + 1 + 4, 384, 2));
        // The list fills its block; no new name, so it stays.
        assert_eq!(stores(64, &[b'x'; 63]), (8 + 4, 320, 1));
        assert_eq!(stores(64, b"a"), (8 + 18 + 1 + 4, 384, 2));
    }),
    ("0 slots and 0 segments become 2", |l| {
        let row = sheet(&[Row::bytes(b"a", b"1")]);
        let image = l.blank(512, 256, 0, 256, 0);
        let (after, stores) = l.after(&image, &row, ALL);
        assert_eq!(stores, Ok([34, 34, 0]));
        let header = [8, 16, 24, 32].map(|at| get64(&after, at));
        assert_eq!(header, [448, 2, 320, 2]);
        assert_eq!(l.find(&after, 0, b"a").map(|e| e[2]), Ok(256));
        assert_eq!(l.bytes(&after, 0, b"a"), Ok(&b"1"[..]));
        assert_eq!(l.after(&image[..511], &row, ALL).1, Err(29));
    }),
    ("blocks double as often as needed", |l| {
        let rows: Vec<_> =
            (0..60).map(|n| Row::bytes(format!("twelve {n:05}").as_bytes(), &[n])).collect();
        let image = l.fresh(16_384, 1, 1).unwrap();
        let (after, stores) = l.after(&image, &sheet(&rows), ALL);
        // 60 names of 12 bytes and a zero are 780 bytes: 16 segments. 60 entries: 64 slots. The
        // chunks lie from 384 on, one byte in each 64.
        assert_eq!([get64(&after, 16), get64(&after, 32)], [64, 16]);
        assert_eq!([get64(&after, 24), get64(&after, 8)], [384 + 3840, 384 + 3840 + 1024]);
        assert!(stores.is_ok());
        assert_eq!(l.counts(&after), Ok([1, 60, 60]));
    }),
    ("step 1 is never skipped", |l| {
        let (mut image, _) = l.after(&fresh(l), &sheet_a(), ALL);
        // Leftovers behind both lists, in blocks that sheet B's append keeps and leaves.
        Slot { location: 0, ..Slot::bytes(7, 7, 0, 7) }.put(&mut image, 288);
        image[327..384].fill(b'x');
        let (after, stores) = l.after(&image, &sheet_b(), ALL);
        assert_eq!(stores, Ok([43, 43, 1]));
        assert!(after[288..320].iter().all(|&byte| byte == 0));
        assert!(after[333..384].iter().all(|&byte| byte == 0));
    }),
    ("name bytes before the list's end are kept", |l| {
        let mut image = listing(l, 512, &[b"probe"]);
        image[327..384].fill(0xFF);
        let (stopped, _) = l.after(&image, &nothing(b"probe"), 8 + 1);
        assert_eq!(&stopped[320..330], b"probe\0\0\0\xFF\xFF");
        // A list that ends on a word's border leaves its last word alone.
        let mut image = listing(l, 512, &[b"sevenab"]);
        image[329..384].fill(0xFF);
        let (stopped, stores) = l.after(&image, &nothing(b"sevenab"), 8 + 1);
        assert_eq!(stores, Ok([9, 8 + 7 + 4, 0]));
        assert_eq!(&stopped[320..338], b"sevenab\0\0\0\0\0\0\0\0\0\xFF\xFF");
    }),
    ("a store adds no other name's bytes", |l| {
        let rows = sheet(&[Row::bytes(b"ab", b""), Row::bytes(b"cd", b"")]);
        let image = fresh(l);
        assert_eq!(l.after(&image, &rows, ALL).1, Ok([26, 26, 0]));
        assert_eq!(&l.after(&image, &rows, 17).0[320..328], b"ab\0\0\0\0\0\0");
        assert_eq!(&l.after(&image, &rows, 18).0[320..328], b"ab\0cd\0\0\0");
        let image = listing(l, 512, &[b"abcd"]);
        let (first, _) = l.after(&image, &nothing(b"position"), 17);
        assert_eq!(&first[320..336], b"abcd\0\0\0\0ition\0\0\0");
        assert_eq!(l.counts(&first), Ok([0, 1, 0]));
        let (second, stores) = l.after(&image, &nothing(b"position"), 18);
        assert_eq!(&second[320..336], b"abcd\0position\0\0\0");
        assert_eq!(l.counts(&second), Ok([0, 2, 0]));
        assert_eq!(stores, Ok([18, 22, 0]));
        // A name of eight bytes on a word: its zero takes no store.
        assert_eq!(l.after(&fresh(l), &nothing(b"position"), ALL).1, Ok([21, 21, 0]));
    }),
    ("tests come before the limit", |l| {
        let image = fresh(l);
        assert_eq!(l.after(&image, &sheet_a(), 0), (image.clone(), Ok([0, 23, 0])));
        assert_eq!(l.after(&image, &[], 0), (image.clone(), Err(22)));
        assert_eq!(l.after(&image[..399], &sheet_a(), 0).1, Err(29));
        assert_eq!(l.after(&image, &sheet_a(), 24).1, Ok([23, 23, 0]));
    }),
    ("a refusal leaves the out array, probes and append set it", |l| {
        let mut image = vec![0; 512];
        const BEFORE: u64 = 0x5555;
        let (mut two, mut three, mut seven) = ([BEFORE; 2], [BEFORE; 3], [BEFORE; 7]);
        assert_eq!(l.open(&image, &mut three), 3);
        assert_eq!(l.name(&image, 0, &mut two), 3);
        assert_eq!(l.entry(&image, 0, &mut seven), 3);
        assert_eq!(l.lookup(&image, 0, b"a", &mut seven), 3);
        assert_eq!(l.chunk(&image, 0, b"a", &mut two), 3);
        assert_eq!(l.element(&image, 0, b"a", 0, &mut two), 3);
        assert_eq!((two, three, seven), ([BEFORE; 2], [BEFORE; 3], [BEFORE; 7]));
        let mut one = [BEFORE];
        assert_eq!(l.probes(&image, 0, b"a", &mut one), 3);
        assert_eq!(one, [0]);
        assert_eq!(l.append(&mut image, b"", ALL, &mut three), 3);
        assert_eq!(three, [0; 3]);
        (one, three) = ([BEFORE], [BEFORE; 3]);
        let mut image = fresh(l);
        assert_eq!(l.probes(&image, 0, b"a", &mut one), 40);
        assert_eq!(one, [0]);
        assert_eq!(l.append(&mut image, b"", ALL, &mut three), 22);
        assert_eq!(three, [0; 3]);
    }),
    ("an empty chunk is a chunk", |l| {
        let (image, _) = l.after(&fresh(l), &nothing(b"a"), ALL);
        assert_eq!(l.bytes(&image, 0, b"a"), Ok(&b""[..]));
        assert_eq!(l.find(&image, 0, b"a").map(|e| e[2]), Ok(384));
        assert_eq!(l.nth_element(&image, 0, b"a", 0), Err(43));
        assert_eq!(l.bytes(&image, 1, b"a"), Err(40));
        assert_eq!(l.bytes(&image, 0, b"b"), Err(41));
    }),
    ("odd names are just not listed", |l| {
        let (image, _) = l.after(&fresh(l), &sheet_a(), ALL);
        let long = [b'x'; 300];
        for name in [&b""[..], b"\0", b"probe\0", b"prob", b"probes", b"\0probe", &long] {
            assert_eq!(l.find(&image, 0, name), Err(41));
            assert_eq!(l.find(&image, 1, name), Err(40));
        }
    }),
    ("probes of short lists, at every place", |l| {
        let worked =
            PROBED_PLACES.map(|lists| lists.iter().map(|list| list.len() as u64).collect());
        let counted = PROBE_COUNTS.map(<[u64]>::to_vec);
        for counts in worked.into_iter().chain(counted) {
            let entries = counts.len() - 1;
            for free in [0, 1] {
                // One frame with each second name; then a frame for each entry, of the second name.
                let keys: Vec<Key> = (0..entries as u16).map(|n| (0, 2 * n + 1)).collect();
                let image = index(l, &keys, 2 * entries + 1, free);
                for id in 0..=2 * entries {
                    let expected = (id / 2, id % 2 == 1, counts[id / 2]);
                    assert_eq!(search(l, &image, &keys, (0, id as u16)), expected, "{entries}");
                }
                let keys: Vec<Key> = (0..entries as u64).map(|frame| (frame, 1)).collect();
                let image = index(l, &keys, 3, free);
                for frame in 0..entries {
                    for (id, place) in [(0, frame), (1, frame), (2, frame + 1)] {
                        let expected = (place, id == 1, counts[place]);
                        let key = (frame as u64, id);
                        assert_eq!(search(l, &image, &keys, key), expected, "{entries}");
                    }
                }
                // Before each of these an empty frame: all names have their place there.
                let keys: Vec<Key> = keys.iter().map(|&(frame, id)| (2 * frame + 1, id)).collect();
                let image = index(l, &keys, 3, free);
                for place in 0..entries {
                    for id in 0..3 {
                        let expected = (place, false, counts[place]);
                        let key = (2 * place as u64, id);
                        assert_eq!(search(l, &image, &keys, key), expected, "{entries}");
                    }
                    let expected = (place, true, counts[place]);
                    assert_eq!(search(l, &image, &keys, keys[place]), expected, "{entries}");
                }
            }
        }
    }),
    ("probes of long lists", |l| {
        // n entries halve to none as often as n has binary digits, and then the first is read.
        // Behind the last it takes as many probes as n + 1 halves to 1.
        for (entries, digits, behind) in [
            (63, 6, 6),
            (64, 7, 6),
            (65, 7, 6),
            (127, 7, 7),
            (128, 8, 7),
            (1023, 10, 10),
            (1024, 11, 10),
            (1025, 11, 10),
        ] {
            let keys: Vec<Key> = (0..entries).map(|frame| (frame, 1)).collect();
            let image = index(l, &keys, 3, 1);
            let probes = |key| search(l, &image, &keys, key);
            for key in (0..entries).flat_map(|frame| [0, 1, 2].map(|id| (frame, id))) {
                promised(&keys, digits, probes(key));
            }
            assert_eq!(probes((0, 0)), (0, false, digits + 1));
            assert_eq!(probes((0, 1)), (0, true, digits + 1));
            assert_eq!(probes((entries - 1, 2)), (keys.len(), false, behind));
        }
    }),
    ("probes among 40,000 entries", |l| {
        // 2,500 frames of 24 names, each third of them missing: from the first on in even frames,
        // from the third on in odd ones.
        let there = |&(frame, id): &Key| u64::from(id) % 3 != 2 * (frame % 2);
        let all = || (0..2500).flat_map(|frame| (0..24).map(move |id| (frame, id)));
        let keys: Vec<Key> = all().filter(there).collect();
        assert_eq!(keys.len(), 40_000);
        let image = index(l, &keys, 24, 0);
        let probes = |key| search(l, &image, &keys, key);
        for key in all().step_by(97) {
            promised(&keys, 16, probes(key));
        }
        assert_eq!(probes((0, 0)), (0, false, 17));
        assert_eq!(probes((0, 1)), (0, true, 17));
        assert_eq!(probes((2499, 23)), (40_000, false, 15));
    }),
    ("create tests 2, 50, 51, 52 in this order", |l| {
        let create = |length: usize, text: &[u8], slots: u64, segments: u64| {
            let mut image = vec![7; length];
            let both = [(text, &b""[..]), (b"", text)].map(|(application, schema)| {
                let request = Create { application, schema, schema_version: 1, slots, segments };
                l.create(&mut image, request)
            });
            assert_eq!(both[0], both[1]);
            assert!(both[0] == 0 || image == vec![7; length], "a refusal changes nothing");
            both[0]
        };
        assert_eq!(create(10, &[b'x'; 64], 65_537, 1), 50);
        assert_eq!(create(10, b"", 1, 65_537), 50);
        assert_eq!(create(10, &[b'x'; 64], 65_536, 65_536), 51);
        assert_eq!(create(512, b"a\0", 1, 1), 51);
        for length in [0, 1, 8, 255, 256, 351, 352, 383] {
            assert_eq!(create(length, &[b'x'; 63], 1, 1), 52);
        }
        assert_eq!(create(384, &[b'x'; 63], 1, 1), 0);
        assert_eq!(create(1343, b"", 1, 0), 52);
        assert_eq!(create(1344, b"", 1, 0), 0);
        assert_eq!(create(16_703, b"", 0, 1), 52);
        assert_eq!(create(16_704, b"", 0, 1), 0);
        assert_eq!(create(4096, b"", 0, 0), 52);
        assert_eq!(create(17_663, b"", 0, 0), 52);
        assert_eq!(create(17_664, b"", 0, 0), 0);
        assert_eq!(create(2367, b"", 64, 1), 52);
        assert_eq!(create(2368, b"", 64, 1), 0);
        assert_eq!(create(3327, b"", 64, 0), 52);
        assert_eq!(create(3328, b"", 64, 0), 0);
        assert_eq!(create(512, b"", ALL, 1), 50);
        assert_eq!(create(512, b"", 1, 1 << 58), 50);
    }),
    ("create, every byte: 0 slots are 512, 0 segments 16, each by itself", |l| {
        // The slots end, the names start, the segments end; gap bytes are kept.
        let units = [
            ((0, 0), (512, 16), [16_640, 16_640, 17_664]),
            ((0, 1), (512, 1), [16_640, 16_640, 16_704]),
            ((3, 0), (3, 16), [352, 384, 1408]),
            ((1, 2), (1, 2), [288, 320, 448]),
            // What 0 and 0 were before.
            ((64, 16), (64, 16), [2304, 2304, 3328]),
            ((64, 0), (64, 16), [2304, 2304, 3328]),
        ];
        for ((slots, segments), made, [index_end, names, end]) in units {
            let mut expected = vec![7; 17_700];
            expected[..index_end].fill(0);
            expected[names..end].fill(0);
            expected[..8].copy_from_slice(&[0xDF, 0x65, 0xDF, 0x65, 0xDF, 0x65, 0xDF, 0x65]);
            put64(&mut expected, 8, 256);
            put64(&mut expected, 16, made.0);
            put64(&mut expected, 24, names as u64);
            put64(&mut expected, 32, made.1);
            expected[40..51].copy_from_slice(b"\x04\x03\x02\x01\x01\0\x02\0app");
            expected[112..115].copy_from_slice(b"sch");
            let mut image = vec![7; 17_700];
            let (application, schema, schema_version) = (&b"app"[..], &b"sch"[..], 0x0102_0304);
            let request = Create { application, schema, schema_version, slots, segments };
            assert_eq!(l.create(&mut image, request), 0);
            assert_eq!(image, expected);
        }
    }),
    ("what 512 slots cost an append", |l| {
        let mut image = l.fresh(100_000, 0, 2).unwrap();
        let rows: Vec<_> = (0..64).map(|n| Row::new(&[n + 1], 1, 0, 1, b"")).collect();
        let whole = |image: &[u8]| l.after(image, &sheet(&rows[..1]), 0).1.unwrap()[1];
        // All slots are free: 16 KiB. Then 16 stores for the segments, the name and the entry.
        assert_eq!(whole(&image), 16_384 / 8 + 16 + 1 + 4);
        for frame in 1..=7 {
            image = l.after(&image, &sheet(&rows), ALL).0;
            // 64 names of 2 bytes fill the segments.
            assert_eq!(whole(&image), 4 * (512 - 64 * frame) + 4);
        }
        // 449 entries and 64 more: the index moves, and fewer than half of its slots are free
        // then; where the append is stopped, up to 63 more.
        image = l.after(&image, &sheet(&rows[..1]), ALL).0;
        let [_, all, copied] = l.after(&image, &sheet(&rows), 0).1.unwrap();
        assert_eq!(all, 4 * (512 - 449) + 4 * 1024 + 2 + 4 * 64);
        assert_eq!(copied, 449);
        for (limit, free) in [(all, 511), (all - 1, 512 + 63)] {
            let moved = l.after(&image, &sheet(&rows), limit).0;
            assert_eq!(get64(&moved, 16), 1024);
            assert_eq!(whole(&moved), 4 * free + 4);
        }
    }),
    ("21 also for empty blocks", |l| {
        let number = |index, slots, names, segments| {
            let image = l.blank(1024, index, slots, names, segments);
            l.after(&image, &nothing(b"a"), ALL).1.err().unwrap_or(0)
        };
        assert_eq!(number(257, 0, 320, 1), 21);
        assert_eq!(number(256, 1, 321, 0), 21);
        assert_eq!(number(260, 1, 320, 1), 21);
        assert_eq!(number(256, 1, 324, 1), 21);
        assert_eq!(number(264, 1, 328, 1), 0);
        // It goes before the sheet's numbers.
        assert_eq!(l.after(&l.blank(1024, 260, 1, 320, 1), b"", 0).1, Err(21));
    }),
    ("the list ends at location 0 before any test", |l| {
        let mut image = l.blank(1024, 256, 3, 352, 1);
        put_names(&mut image, 352, [&b"a"[..]]);
        let end = Slot { frame: 99, n: 1, location: 0, m: 1, id: 65535, kind: 99, flags: 1 };
        put_slots(&mut image, 256, &[end, Slot::bytes(0, 0, 500, 4), Slot::bytes(1, 0, 500, 4)]);
        assert_eq!(l.counts(&image), Ok([0, 1, 0]));
        assert_eq!(l.nth_entry(&image, 0), Err(44));
        let (after, _) = l.after(&image, &nothing(b"a"), ALL);
        assert_eq!(l.counts(&after), Ok([1, 1, 1]));
        assert!(after[288..352].iter().all(|&byte| byte == 0));
    }),
    ("15 where (frame, id) is not above the entry before, and nowhere else", |l| {
        let verdict = |keys: &[Key]| l.counts(&index(l, keys, 3, 1)).err().unwrap_or(0);
        for frame in [0, 1, 2, 99, GREATEST_FRAME] {
            for id in 0..3 {
                assert_eq!(verdict(&[(frame, id)]), 0);
            }
        }
        for (before, after) in [
            ((5, 1), (5, 1)),
            ((5, 1), (5, 0)),
            ((5, 0), (4, 0)),
            ((5, 0), (4, 2)),
            ((1, 2), (0, 2)),
            ((GREATEST_FRAME, 1), (GREATEST_FRAME, 1)),
            ((GREATEST_FRAME, 2), (GREATEST_FRAME, 0)),
            ((GREATEST_FRAME, 0), (GREATEST_FRAME - 1, 2)),
            ((GREATEST_FRAME, 0), (0, 1)),
        ] {
            assert_eq!(verdict(&[before, after]), 15, "{before:?} {after:?}");
            assert_eq!(verdict(&[(0, 0), before, after]), 15, "{before:?} {after:?}");
            assert_eq!(verdict(&[after, before]), if after == before { 15 } else { 0 });
        }
        assert_eq!(verdict(&[(5, 2), (6, 0), (8, 1), (GREATEST_FRAME, 0), (GREATEST_FRAME, 1)]), 0);
        // Above, whatever wraps: from 2^48 on 65,536 times the frame has over 64 bits.
        for frame in [GREATEST_FRAME + 1, 1 << 32, 1 << 48, (1 << 48) + 1, 1 << 63, ALL - 1, ALL] {
            for before in [(0, 2), (1, 2), (GREATEST_FRAME, 2)] {
                assert_eq!(verdict(&[before, (frame, 0)]), 18, "{before:?} {frame}");
            }
        }
    }),
    ("two entries span 4,294,967,295 frames", |l| {
        let keys = [(0, 0), (4_294_967_294, 1)];
        let image = growing(l, &keys, 2);
        assert_eq!(l.counts(&image), Ok([4_294_967_295, 2, 2]));
        assert_eq!(search(l, &image, &keys, (0, 0)), (0, true, 3));
        for key in [(0, 1), (1, 0), (1 << 31, 1), (4_294_967_293, 1), (4_294_967_294, 0)] {
            assert_eq!(search(l, &image, &keys, key), (1, false, 3));
        }
        assert_eq!(search(l, &image, &keys, (4_294_967_294, 1)), (1, true, 3));
        for frame in [4_294_967_295, 4_294_967_296, 8_589_934_590, ALL] {
            assert_eq!(l.find(&image, frame, &numbered(1)), Err(40));
        }
        assert_eq!(l.after(&image, &sheet_a(), ALL), (image, Err(31)));
    }),
    ("no append behind frame 4,294,967,294", |l| {
        let full = entries(l, 1024, &[Slot::bytes(4_294_967_294, 0, 384, 4)]);
        let listing = "frames 4294967295 names 1 entries 1\n4294967294 0 1 4 1 384\n";
        assert_eq!(l.listing(&full), listing);
        let other = entries(l, 1024, &[Slot::bytes(4_294_967_293, 0, 384, 4)]);
        let row = Row::bytes(b"a", b"1");
        let good = sheet(std::slice::from_ref(&row));
        let sheets = [
            (Vec::new(), 22),
            (vec![0; 4], 22),
            (good[..19].to_vec(), 23),
            (sheet(&[Row { kind: 12, ..row.clone() }]), 24),
            ([&good[..], b"2"].concat(), 25),
            (sheet(&[Row { name: vec![0], ..row.clone() }]), 26),
            (sheet(&[row.clone(), row]), 27),
            (sheet(&[Row::bytes(b"b", &[0; 640])]), 29),
            (good, 0),
        ];
        for (sheet, number) in sheets {
            assert_eq!(l.after(&other, &sheet, 0).1.err().unwrap_or(0), number);
            for limit in [0, 1, ALL] {
                assert_eq!(l.after(&full, &sheet, limit), (full.clone(), Err(31)));
            }
        }
        let mut out = [0x5555; 3];
        assert_eq!(l.append(&mut full.clone(), b"", ALL, &mut out), 31);
        assert_eq!(out, [0; 3]);
    }),
    ("31 goes before 28 and after 21", |l| {
        for (frame, numbers) in [(GREATEST_FRAME - 1, [28, 21, 21]), (GREATEST_FRAME, [31, 21, 21])]
        {
            let mut names = many_names(l, 1024);
            let end = names.len() as u64;
            put_slots(&mut names, 256, &[Slot::bytes(frame, 0, end, 0)]);
            let odd = [(260, 328), (256, 324)].map(|(index, list)| {
                let mut image = l.blank(1024, index, 2, list, 1);
                put_names(&mut image, list as usize, [&b"a"[..]]);
                put_slots(&mut image, index as usize, &[Slot::bytes(frame, 0, 400, 4)]);
                image
            });
            for (image, number) in [names].into_iter().chain(odd).zip(numbers) {
                assert_eq!(l.counts(&image).map(|counts| counts[0]), Ok(frame + 1));
                assert_eq!(l.after(&image, &nothing(b"new"), ALL).1, Err(number));
                let bad = if number == 28 { 22 } else { number };
                assert_eq!(l.after(&image, b"", ALL).1, Err(bad));
            }
        }
    }),
    ("one append fits behind frame 4,294,967,293", |l| {
        let image = entries(l, 1024, &[Slot::bytes(4_294_967_293, 0, 384, 4)]);
        let row = sheet(&[Row::bytes(b"a", b"1")]);
        let (after, stores) = l.after(&image, &row, ALL);
        assert_eq!(stores, Ok([4 + 8 + 1 + 4, 17, 0]));
        assert_eq!(
            l.listing(&after),
            "frames 4294967295 names 1 entries 2\n4294967293 0 1 4 1 384\n4294967294 0 1 1 1 448\n"
        );
        assert_eq!(l.after(&after, &row, ALL), (after.clone(), Err(31)));
        for limit in 0..17 {
            let (stopped, stores) = l.after(&image, &row, limit);
            assert_eq!(stores, Ok([limit, 17, 0]));
            assert_eq!(l.counts(&stopped), Ok([4_294_967_294, 1, 1]));
            assert_eq!(l.find(&stopped, 4_294_967_294, b"a"), Err(40));
            // The same again fits, and no other behind it.
            assert_eq!(l.after(&stopped, &row, ALL), (after.clone(), Ok([17, 17, 0])));
        }
    }),
    ("a run of appends ends with frame 4,294,967,294", |l| {
        // The first append has 17 stores; the second moves the index: 8 + 1 + 18 + 4.
        let calls = [5, ALL, 12, ALL, 3, ALL]
            .map(|limit| Call::new(l.version, sheet(&[Row::bytes(b"a", b"1")]), limit));
        for (frame, moments) in
            [(4_294_967_292, 1 + 5 + 17 + 12 + 31), (4_294_967_293, 1 + 5 + 17), (4_294_967_294, 1)]
        {
            let start = entries(l, 1024, &[Slot::bytes(frame, 0, 384, 4)]);
            assert_eq!(Run::make(l.library, &start, &calls), Ok(moments));
        }
    }),
    ("an append never fills a gap", |l| {
        let rows = sheet(&[Row::bytes(&numbered(1), b"1"), Row::bytes(b"new", b"2")]);
        let lists: [&[Key]; 4] =
            [&[(2, 0)], &[(0, 0), (5, 1)], &[(1, 1), (3, 0), (3, 1)], &[(GREATEST_FRAME - 1, 1)]];
        for keys in lists {
            let image = growing(l, keys, 2);
            let named = l.named_frames(&image).unwrap();
            let frames = named[named.len() - 1] + 1;
            let (after, stores) = l.after(&image, &rows, ALL);
            assert_eq!(l.named_frames(&after), Ok([&named[..], &[frames, frames]].concat()));
            assert_eq!(l.bytes(&after, frames, b"new"), Ok(&b"2"[..]));
            for frame in frames_to_ask(&named, frames) {
                assert_eq!(l.find(&image, frame, b"new"), Err(41));
                assert_eq!(l.find(&after, frame, b"new"), Err(42));
            }
            let whole = stores.unwrap()[1];
            for limit in 0..=whole {
                let calls = [limit, ALL].map(|limit| Call::new(l.version, rows.clone(), limit));
                Run::make(l.library, &image, &calls).unwrap();
            }
        }
    }),
    ("types 0 and from 12 on are unknown", |l| {
        for kind in [0].into_iter().chain(12..=255) {
            let slot = Slot { kind, ..Slot::bytes(0, 0, 384, 1) };
            assert_eq!(l.counts(&entries(l, 512, &[slot])), Err(13), "type {kind}");
            let row = Row::new(b"a", kind, 0, 0, b"");
            assert_eq!(l.after(&fresh(l), &sheet(&[row]), ALL).1, Err(24), "type {kind}");
        }
    }),
    ("a row's size does not wrap", |l| {
        let sheet = sheet(&[Row::new(b"a", 1, 1 << 62, 4, b"")]);
        assert_eq!(l.after(&fresh(l), &sheet, ALL).1, Err(25));
    }),
    ("each of 22 to 27 is tested over all rows", |l| {
        let number = |sheet: &[u8]| l.after(&fresh(l), sheet, ALL).1.err().unwrap_or(0);
        assert_eq!(number(&[65, 0, 0, 0]), 22);
        let long = Row::new(b"a", 1, 9, 1, b"");
        assert_eq!(number(&sheet(&[long.clone(), Row::new(b"b", 12, 0, 1, b"")])), 24);
        assert_eq!(number(&sheet(&[Row::bytes(b"\0", b""), long])), 25);
        let twice = Row::bytes(b"a", b"");
        assert_eq!(number(&sheet(&[twice.clone(), twice, Row::bytes(b"b\0", b"")])), 26);
    }),
    ("30: a NaN as the only, first, last or any element", |l| {
        let image = fresh(l);
        for ((kind, nans), (_, numbers)) in NANS.into_iter().zip(NUMBERS) {
            for nan in nans {
                refused(l, &image, &sheet(&[floats(b"a", kind, &[nan])]), 30);
                for at in 0..6 {
                    let mut bits = numbers;
                    bits[at] = nan;
                    // At every place in a word.
                    for length in 1..=8 {
                        let row = floats(&[b'n'; 8][..length], kind, &bits[..6]);
                        refused(l, &image, &sheet(std::slice::from_ref(&row)), 30);
                        for (n, m) in [(3, 2), (2, 3), (1, 6)] {
                            refused(l, &image, &sheet(&[Row { n, m, ..row.clone() }]), 30);
                        }
                    }
                }
            }
        }
    }),
    ("30: infinities, zeros and all other numbers pass", |l| {
        let image = fresh(l);
        for (kind, numbers) in NUMBERS {
            let answered = if kind == 9 { 3 } else { 4 };
            for length in 1..=8 {
                let name = &[b'n'; 8][..length];
                let row = floats(name, kind, &numbers);
                accepted(l, &image, &[Row { n: 2, m: 4, ..row.clone() }]);
                let after = accepted(l, &image, &[row]);
                for (k, bits) in numbers.into_iter().enumerate() {
                    let element = l.nth_element(&after, 0, name, k as u64);
                    assert_eq!(element, Ok([answered, bits]));
                }
            }
            for number in numbers {
                accepted(l, &image, &[floats(b"a", kind, &[number])]);
            }
        }
    }),
    ("30: the bytes of NaNs pass in other types", |l| {
        let image = fresh(l);
        for (kind, nans) in NANS {
            let Row { data, .. } = floats(b"a", kind, &nans);
            for other in 1..=8 {
                let n = (data.len() / images::size(other)) as u64;
                accepted(l, &image, &[Row::new(b"a", other, n, 1, &data)]);
                accepted(l, &image, &[Row::new(b"a", other, n / 2, 2, &data)]);
            }
        }
    }),
    ("30: without an element there is no NaN", |l| {
        // Behind the empty row lie names and data that would be NaNs there.
        let next = Row::bytes(&[0xFF; 8], &[0xFF; 8]);
        for kind in [9, 10] {
            for (n, m) in [(0, 1), (0, 0), (ALL, 0), (1, 0), (0, u32::MAX)] {
                let empty = Row::new(b"a", kind, n, m, b"");
                let after = accepted(l, &fresh(l), &[empty.clone(), next.clone()]);
                assert_eq!(l.find(&after, 0, b"a").map(|e| [e[1], e[3]]), Ok([n, m.into()]));
                accepted(l, &fresh(l), &[next.clone(), empty.clone()]);
                refused(l, &fresh(l), &sheet(&[empty, nan(b"b")]), 30);
            }
        }
    }),
    ("30: bits of a NaN that are no element pass", |l| {
        // Across two elements.
        for (kind, nans) in NANS {
            let width = images::size(kind);
            for (nan, at) in nans[..2].iter().flat_map(|nan| (1..width).map(move |at| (nan, at))) {
                let mut data = vec![0; 2 * width];
                data[at..at + width].copy_from_slice(&nan.to_le_bytes()[..width]);
                accepted(l, &fresh(l), &[Row::new(b"a", kind, 2, 1, &data)]);
            }
        }
        // Across the name and the first element; the last element and the next name.
        let rows = [
            floats(b"a\xFF", 9, &[0x007F_8000, 0xFF7F_0000]),
            floats(b"\x7F\xFF", 10, &[0x007F_F000_0000_0000, 0xF07F_0000_0000_0000]),
            Row::bytes(b"\x7F\xFF\xFF\xFF", &[0xFF; 8]),
        ];
        accepted(l, &fresh(l), &rows);
    }),
    ("30: each row is tested", |l| {
        let image = l.fresh(16_384, 64, 16).unwrap();
        let row = |n: u8| match n % 4 {
            0 => floats(&[n + 1], 9, &NUMBERS[0].1),
            1 => Row::bytes(&[n + 1], &[0xFF; 9]),
            2 => floats(&[n + 1], 10, &NUMBERS[1].1),
            _ => Row::new(&[n + 1], 9, 0, 1, b""),
        };
        let rows: Vec<_> = (0..64).map(row).collect();
        accepted(l, &image, &rows);
        for at in 0..64 {
            for (kind, nans) in NANS {
                let mut rows = rows.clone();
                rows[at] = floats(&[at as u8 + 1], kind, &nans[..1]);
                refused(l, &image, &sheet(&rows), 30);
                refused(l, &image, &sheet(&rows[..at + 1]), 30);
                refused(l, &image, &sheet(&rows[at..]), 30);
            }
        }
    }),
    ("30 goes after 21, 31 and 22 to 27", |l| {
        let good = sheet(&[nan(b"a")]);
        refused(l, &fresh(l), &good, 30);
        let mut damaged = fresh(l);
        damaged[0] = 0;
        let late = entries(l, 1024, &[Slot::bytes(GREATEST_FRAME + 1, 0, 384, 4)]);
        let full = entries(l, 1024, &[Slot::bytes(GREATEST_FRAME, 0, 384, 4)]);
        let odd = l.blank(1024, 260, 1, 320, 1);
        for (image, number) in [(damaged, 3), (late, 18), (odd, 21), (full, 31)] {
            refused(l, &image, &good, number);
        }
        let many: Vec<_> = (1..=65).map(|n| nan(&[n])).collect();
        for (sheet, number) in [
            (sheet(&many), 22),
            (sheet(&many[..64]), 30),
            (sheet(&many[..64])[..1027].to_vec(), 23),
            (sheet(&[nan(b"a"), Row::new(b"b", 12, 0, 1, b"")]), 24),
            (sheet(&[nan(b"a"), Row::bytes(b"", b"")]), 24),
            ([&good[..], &[0]].concat(), 25),
            (good[..good.len() - 1].to_vec(), 25),
            (sheet(&[nan(b"a"), Row::bytes(b"b\0", b"")]), 26),
            (sheet(&[nan(b"\0")]), 26),
            (sheet(&[nan(b"a"), nan(b"a")]), 27),
            (sheet(&[Row::bytes(b"a", b""), nan(b"b"), Row::bytes(b"a", b"")]), 27),
        ] {
            refused(l, &fresh(l), &sheet, number);
        }
    }),
    ("30 goes before 28 and 29", |l| {
        let image = fresh(l);
        for length in [384, 391, 399] {
            refused(l, &image[..length], &sheet_a(), 29);
            refused(l, &image[..length], &sheet(&[nan(b"probe")]), 30);
        }
        let row = Row::bytes(b"a", &[7; 640]);
        refused(l, &image, &sheet(&[row.clone(), floats(b"b", 9, &[0])]), 29);
        refused(l, &image, &sheet(&[row, nan(b"b")]), 30);
        let mut names = many_names(l, 1024);
        for more in [0, 65_536] {
            names.resize(names.len() + more, 0);
            refused(l, &names, &sheet(&[floats(b"new", 9, &[0])]), 28);
            refused(l, &names, &sheet(&[nan(b"new")]), 30);
            refused(l, &names, &sheet(&[nan(&numbered(0)), Row::bytes(b"new", b"")]), 30);
        }
        accepted(l, &names, &[floats(&numbered(0), 9, &[0])]);
    }),
    ("images that hold NaNs read as before", |l| {
        for (kind, nans) in NANS {
            let row = floats(b"a", kind, &nans);
            let slot = Slot { kind, ..Slot::bytes(0, 0, 384, 8) };
            let mut image = entries(l, 2048, &[slot]);
            image[384..][..row.data.len()].copy_from_slice(&row.data);
            assert_eq!(
                l.listing(&image),
                format!("frames 1 names 1 entries 1\n0 0 {kind} 8 1 384\n")
            );
            assert_eq!(l.nth_entry(&image, 0), Ok(slot.fields()));
            assert_eq!(l.find(&image, 0, b"a"), Ok(slot.fields()));
            assert_eq!(l.probed(&image, 0, b"a"), (0, 2));
            assert_eq!(l.bytes(&image, 0, b"a"), Ok(&row.data[..]));
            let answered = if kind == 9 { 3 } else { 4 };
            for (k, bits) in nans.into_iter().enumerate() {
                assert_eq!(l.nth_element(&image, 0, b"a", k as u64), Ok([answered, bits]));
            }
            assert_eq!(l.nth_element(&image, 0, b"a", 8), Err(43));
            // They take a sheet without NaNs, and keep their own at every moment.
            let after = accepted(l, &image, &[floats(b"a", 9, &[0x7F80_0000])]);
            assert_eq!(l.bytes(&after, 0, b"a"), Ok(&row.data[..]));
            let calls = [20, ALL, ALL].map(|limit| Call::new(l.version, sheet_b(), limit));
            assert!(Run::make(l.library, &image, &calls).is_ok_and(|moments| moments > 20));
            // The same chunk is refused, and passes as whole numbers.
            refused(l, &image, &sheet(std::slice::from_ref(&row)), 30);
            accepted(l, &image, &[Row { kind: kind - 6, ..row }]);
        }
    }),
    ("a run of appends with NaNs among its calls", |l| {
        let both = [nan(b"probe"), floats(b"heater", 10, &[0x7FF0_0000_0000_0001])];
        let mut image = fresh(l);
        let mut calls = Vec::new();
        // A stopped after 22 stores takes 22 then.
        for (good, limit, stores) in [
            (sheet_a(), 22, [22, 23, 0]),
            (sheet_a(), ALL, [22, 22, 0]),
            (sheet_b(), ALL, [43, 43, 1]),
        ] {
            for (rows, limit) in [(&both[..1], ALL), (&both[..], 0), (&both[1..], 7)] {
                refused(l, &image, &sheet(rows), 30);
                calls.push(Call::new(l.version, sheet(rows), limit));
            }
            let (after, done) = l.after(&image, &good, limit);
            assert_eq!(done, Ok(stores));
            calls.push(Call::new(l.version, good, limit));
            image = after;
        }
        assert_eq!(Run::make(l.library, &fresh(l), &calls), Ok(1 + 22 + 22 + 43));
    }),
    ("rows arrive in any order", |l| {
        let (image, _) = l.after(&fresh(l), &nothing(b"m"), ALL);
        let rows = [Row::bytes(b"z", b"zz"), Row::bytes(b"m", b"mmm"), Row::bytes(b"a", b"a")];
        let (after, stores) = l.after(&image, &sheet(&rows), ALL);
        // Data by row, new ids by row, entries by id.
        assert_eq!(
            l.listing(&after),
            "frames 2 names 3 entries 4\n0 0 1 0 1 384\n1 0 1 3 1 448\n1 1 1 2 1 384\n1 2 1 1 1 512\n"
        );
        let names: Vec<_> = (0..3).map(|n| l.nth_name(&after, n).unwrap()).collect();
        assert_eq!(names, [b"m", b"z", b"a"]);
        // Stored from the highest id down, the location at last.
        let index = get64(&after, 8) as usize;
        let whole = stores.unwrap()[1];
        for (behind, missing) in [(1, 32 + 16), (2, 32 + 24), (3, 32 + 8), (4, 32), (5, 64 + 16)] {
            let (stopped, _) = l.after(&image, &sheet(&rows), whole - behind);
            let word = index + missing..index + missing + 8;
            assert_eq!(stopped[word.clone()], [0; 8]);
            let (stopped, _) = l.after(&image, &sheet(&rows), whole - behind + 1);
            assert_eq!(stopped[word.clone()], after[word]);
        }
    }),
    ("a name shown by a stopped append is an existing name", |l| {
        let (stopped, _) = l.after(&fresh(l), &sheet_a(), 22);
        let (after, stores) = l.after(&stopped, &sheet_a(), ALL);
        assert_eq!(stores, Ok([22, 22, 0]));
        assert_eq!(l.listing(&after), "frames 1 names 1 entries 1\n0 0 9 3 1 384\n");
        let mut image = many_names(l, 1023);
        image.resize(image.len() + 65_536, 0);
        let whole = l.after(&image, &nothing(b"one"), 0).1.unwrap()[1];
        let (stopped, _) = l.after(&image, &nothing(b"one"), whole - 1);
        assert_eq!(l.counts(&stopped), Ok([0, 1024, 0]));
        assert_eq!(l.after(&stopped, &nothing(b"two"), ALL).1, Err(28));
        assert!(l.after(&stopped, &nothing(b"one"), ALL).1.is_ok());
    }),
    ("old entries move byte for byte", |l| {
        let (mut image, _) = l.after(&fresh(l), &sheet_a(), ALL);
        image[256 + 31] = 0xA5;
        let (after, _) = l.after(&image, &sheet_b(), ALL);
        assert_eq!(l.find(&after, 0, b"probe"), Ok([0, 3, 384, 1, 0, 9, 0xA5]));
        assert_eq!(l.find(&after, 1, b"probe"), Ok([1, 3, 448, 1, 0, 9, 0]));
    }),
    ("create writes all of the header and keeps what lies behind", |l| {
        let mut image: Vec<u8> = (0..1024).map(|n| n as u8 | 1).collect();
        let behind = image[384..].to_vec();
        let request = Create {
            application: b"regulator",
            schema: b"night",
            schema_version: 0x0001_0002,
            slots: 2,
            segments: 1,
        };
        assert_eq!(l.create(&mut image, request), 0);
        let mut expected = images::blank(384, 256, 2, 320, 1);
        put32(&mut expected, 40, 0x0001_0002);
        expected[48..57].copy_from_slice(b"regulator");
        expected[112..117].copy_from_slice(b"night");
        assert_eq!(image[..384], expected);
        assert_eq!(image[384..], behind);
    }),
    ("an element's number is tested before it is multiplied", |l| {
        let sheet = sheet(&[Row::new(b"a", 4, 2, 1, &[9; 16])]);
        let (image, _) = l.after(&fresh(l), &sheet, ALL);
        assert_eq!(l.nth_element(&image, 0, b"a", 1), Ok([1, 0x0909_0909_0909_0909]));
        for k in [2, 1 << 61, 1 << 32, (1 << 61) + 1, ALL] {
            assert_eq!(l.nth_element(&image, 0, b"a", k), Err(43));
        }
    }),
    ("stores of equal content count", |l| {
        let (image, _) = l.after(&fresh(l), &nothing(b"a"), ALL);
        // Only zeros over zeros up to the entry.
        let (stopped, stores) = l.after(&image, &nothing(b"a"), 4 + 8);
        assert_eq!(stores, Ok([12, 16, 0]));
        assert_eq!(stopped, image);
    }),
    ("names have any length", |l| {
        let mut image = l.blank(8192, 256, 2, 320, 20);
        let (long, longer) = ([b'x'; 64], [b'y'; 1000]);
        put_names(&mut image, 320, [&long[..], &longer, b"\xC3\xA4"]);
        put_slots(&mut image, 256, &[Slot::bytes(0, 1, 1700, 4)]);
        assert_eq!(l.counts(&image), Ok([1, 3, 1]));
        assert_eq!(l.nth_name(&image, 1), Ok(&longer[..]));
        assert_eq!(l.bytes(&image, 0, &longer), Ok(&[0; 4][..]));
        let (after, _) = l.after(&image, &nothing(&[b'z'; 255]), ALL);
        assert_eq!(l.nth_name(&after, 3), Ok(&[b'z'; 255][..]));
    }),
];

/// Three characters under the name "text", 27 bytes.
fn text() -> Row {
    Row::new(b"text", 11, 3, 1, b"abc")
}

/// Where the versions differ, and that nothing else does.
const BETWEEN: &[Between] = &[
    ("worked: the same but for the version", |old, new| {
        let mut images = [fresh(old), fresh(new)];
        for (sheet, whole, copied) in [(sheet_a(), 23, 0), (sheet_b(), 43, 1)] {
            for limit in 0..=whole + 1 {
                let (a, stores) = old.after(&images[0], &sheet, limit);
                let (mut b, same) = new.after(&images[1], &sheet, limit);
                assert_eq!([stores, same], [Ok([limit.min(whole), whole, copied]); 2]);
                assert_eq!([version(&a), version(&b)], GROWING);
                assert_eq!(old.listing(&a), new.listing(&b));
                b[44] = 0;
                assert_eq!(a, b);
            }
            images = [old.after(&images[0], &sheet, ALL).0, new.after(&images[1], &sheet, ALL).0];
        }
    }),
    ("versions 1.0, 2.0 and 2.1 open, and no other", |old, new| {
        for version in [0x0001_0000, 0x0002_0000, 0x0002_0001] {
            let mut image = fresh(new);
            put32(&mut image, 44, version);
            assert_eq!(old.counts(&image), Ok([0, 0, 0]));
        }
        let near = [0x0002_0002, 0x0001_0001, 0x0000_FFFF, 0x0003_0000, 0x0002_0101, 0x0102_0001];
        let far = [0, 1, 0x8002_0001, 0x0100_0200, 0x0000_0100, 0x0101_0000, u32::MAX];
        for other in near.into_iter().chain(far) {
            let mut image = fresh(new);
            put32(&mut image, 44, other);
            assert_eq!(new.counts(&image), Err(4), "{other:#x}");
            assert_eq!(new.after(&image, b"", ALL), (image.clone(), Err(4)));
            // After 3, before 5.
            image[48..176].fill(b'x');
            assert_eq!(new.counts(&image), Err(4));
            image[0] = 0;
            assert_eq!(new.counts(&image), Err(3));
        }
    }),
    ("a character is known in 2.1 only", |old, new| {
        let text = Slot { kind: 11, ..Slot::bytes(0, 0, 384, 4) };
        let image = entries(old, 512, &[text]);
        assert_eq!(old.counts(&image), Err(13));
        assert_eq!(old.find(&image, 0, b"a"), Err(13));
        let image = entries(new, 512, &[text]);
        assert_eq!(new.find(&image, 0, b"a"), Ok([0, 4, 384, 1, 0, 11, 0]));
        assert_eq!(new.bytes(&image, 0, b"a"), Ok(&[0; 4][..]));
        assert_eq!(new.listing(&image), "frames 1 names 1 entries 1\n0 0 11 4 1 384\n");

        let both = |slots: &[Slot]| {
            [old, new].map(|l| l.counts(&entries(l, 512, slots)).err().unwrap_or(0))
        };
        assert_eq!(both(&[Slot { location: 255, ..text }]), [12, 12]);
        assert_eq!(both(&[Slot { id: 1, ..text }]), [13, 14]);
        assert_eq!(both(&[Slot { frame: 1, ..text }]), [13, 0]);
        assert_eq!(both(&[text, text]), [13, 15]);
        assert_eq!(both(&[Slot { frame: ALL, ..text }]), [13, 18]);
        assert_eq!(both(&[Slot { n: 129, ..text }]), [13, 16]);
        assert_eq!(both(&[Slot { n: 128, ..text }]), [13, 0]);
        assert_eq!(both(&[Slot { n: 1 << 62, m: 4, ..text }]), [13, 16]);
        assert_eq!(both(&[Slot { location: 383, ..text }]), [13, 17]);
        let good = Slot::bytes(0, 0, 384, 4);
        assert_eq!(both(&[good, Slot { frame: 1, ..text }]), [13, 0]);
        assert_eq!(both(&[Slot { n: 129, ..good }, Slot { frame: 1, ..text }]), [16, 16]);
        // The list ends before its type is looked at.
        assert_eq!(both(&[Slot { location: 0, ..text }]), [0, 0]);
    }),
    ("a sheet has the types of its image's version", |old, new| {
        let image = fresh(old);
        for limit in [0, 1, ALL] {
            assert_eq!(old.after(&image, &sheet(&[text()]), limit), (image.clone(), Err(24)));
        }
        assert_eq!(sheet(&[text()]).len(), 27);
        let (after, stores) = new.after(&fresh(new), &sheet(&[text()]), ALL);
        assert_eq!(stores, Ok([8 + 8 + 1 + 1 + 4, 22, 0]));
        assert_eq!(new.listing(&after), "frames 1 names 1 entries 1\n0 0 11 3 1 384\n");
        assert_eq!(new.bytes(&after, 0, b"text"), Ok(&b"abc"[..]));
        assert_eq!(after[44..48], [1, 0, 2, 0]);

        let both = |rows: &[Row]| {
            [old, new].map(|l| l.after(&fresh(l), &sheet(rows), ALL).1.err().unwrap_or(0))
        };
        assert_eq!(both(&[Row::bytes(b"a", b"1"), text()]), [24, 0]);
        assert_eq!(both(&[Row::new(b"a", 1, 9, 1, b""), text()]), [24, 25]);
        assert_eq!(both(&[Row { n: 4, ..text() }]), [24, 25]);
        assert_eq!(both(&[Row { n: 1 << 62, m: 4, ..Row::new(b"a", 11, 0, 0, b"") }]), [24, 25]);
        assert_eq!(both(&[Row { name: b"a\0".to_vec(), ..text() }]), [24, 26]);
        assert_eq!(both(&[text(), text()]), [24, 27]);
        // The image's own numbers go first.
        let odd = old.blank(1024, 260, 1, 320, 1);
        assert_eq!(old.after(&odd, &sheet(&[text()]), ALL).1, Err(21));
    }),
    ("a character is an unsigned number", |old, new| {
        let bytes = [0xFF, 0x80, 0x7F, 0, 1, 2];
        let row = Row::new(b"a", 11, 3, 2, &bytes);
        let (image, _) = new.after(&fresh(new), &sheet(std::slice::from_ref(&row)), ALL);
        for (k, number) in [255, 128, 127, 0, 1, 2].into_iter().enumerate() {
            assert_eq!(new.nth_element(&image, 0, b"a", k as u64), Ok([1, number]));
        }
        assert_eq!(new.nth_element(&image, 0, b"a", 6), Err(43));
        // As u8 the same, in 2.0 too.
        let (image, _) = old.after(&fresh(old), &sheet(&[Row { kind: 1, ..row }]), ALL);
        assert_eq!(old.nth_element(&image, 0, b"a", 0), Ok([1, 255]));
    }),
    ("30: characters are not looked at", |old, new| {
        for (kind, nans) in NANS {
            let row = floats(b"a", kind, &nans);
            let text = Row { kind: 11, n: row.data.len() as u64, ..row.clone() };
            refused(old, &fresh(old), &sheet(std::slice::from_ref(&text)), 24);
            accepted(new, &fresh(new), std::slice::from_ref(&text));
            accepted(new, &fresh(new), &[Row { n: text.n / 4, m: 4, ..text.clone() }]);
            // 24 goes before 30.
            let both = sheet(&[row, Row { name: b"b".to_vec(), ..text }]);
            refused(old, &fresh(old), &both, 24);
            refused(new, &fresh(new), &both, 30);
        }
    }),
    ("a chunk of no character", |old, new| {
        for (n, m) in [(0, 1), (0, 0), (ALL, 0), (0, u32::MAX)] {
            let empty = sheet(&[Row::new(b"a", 11, n, m, b"")]);
            assert_eq!(old.after(&fresh(old), &empty, ALL), (fresh(old), Err(24)));
            let (image, stores) = new.after(&fresh(new), &empty, ALL);
            assert_eq!(stores, Ok([8 + 8 + 1 + 4, 21, 0]));
            assert_eq!(new.find(&image, 0, b"a"), Ok([0, n, 384, m.into(), 0, 11, 0]));
            assert_eq!(new.bytes(&image, 0, b"a"), Ok(&b""[..]));
            assert_eq!(new.nth_element(&image, 0, b"a", 0), Err(43));
            let slot = Slot { n, m, kind: 11, ..Slot::bytes(0, 0, 384, 0) };
            assert_eq!(old.counts(&entries(old, 512, &[slot])), Err(13));
            assert_eq!(new.counts(&entries(new, 512, &[slot])), Ok([1, 1, 1]));
        }
    }),
    ("create makes 2.1, whatever was there", |old, new| {
        for before in [vec![0; 512], vec![0xFF; 512], old.blank(512, 256, 2, 320, 1)] {
            let mut image = before;
            let (application, schema) = (&b"a"[..], &b"s"[..]);
            let request =
                Create { application, schema, schema_version: u32::MAX, slots: 2, segments: 1 };
            assert_eq!(new.create(&mut image, request), 0);
            assert_eq!(image[40..48], [255, 255, 255, 255, 1, 0, 2, 0]);
            assert!(new.after(&image, &sheet(&[text()]), ALL).1.is_ok());
        }
    }),
];
