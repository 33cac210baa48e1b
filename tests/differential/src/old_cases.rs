//! Version 1.0, worked out by hand: names in segments, entries in the order of writing, no append.

use crate::ask::Ask;
use crate::cases::{
    entries, floats, index, many_names, nan, numbered, refused, sheet_a, sheet_b, Case, Key,
    Versioned, ALL, NANS,
};
use crate::demand3::{Call, Run};
use crate::images::{put16, put32, put64, put_names, put_slots, sheet, Row, Slot};
use crate::images::{GREATEST_FRAME, V1_0, V2_0, V2_1};
use crate::library::Create;

/// 4 slots at 256 and these segments from 384 on, each filled up with zeros; 64 bytes behind them.
fn segments(l: &Versioned, segments: &[&[u8]]) -> Vec<u8> {
    let count = segments.len();
    let mut image = l.blank(384 + 64 * count + 64, 256, 4, 384, count as u64);
    for (n, bytes) in segments.iter().enumerate() {
        image[384 + 64 * n..][..bytes.len()].copy_from_slice(bytes);
    }
    image
}

/// The names listed, or the number.
fn names(l: &Versioned, image: &[u8]) -> Result<Vec<Vec<u8>>, u64> {
    let [_, names, _] = l.counts(image)?;
    (0..names).map(|n| l.nth_name(image, n).map(<[u8]>::to_vec)).collect()
}

/// 0 where an index of these entries opens; with three names.
fn verdict(l: &Versioned, keys: &[Key]) -> u64 {
    l.counts(&index(l, keys, 3, 1)).err().unwrap_or(0)
}

/// Three names, and in the order of writing two chunks of frame 0 and one of frame 1. The blocks
/// are at 256 and 384, the chunks at 576, 588 and 590.
fn worked(l: &Versioned) -> Vec<u8> {
    let mut image = segments(l, &[b"pos", b"vel\0garbage", b"box"]);
    let chunk = |frame, id, kind, n, location| Slot { kind, ..Slot::bytes(frame, id, location, n) };
    put_slots(
        &mut image,
        256,
        &[chunk(0, 2, 9, 3, 576), chunk(0, 0, 1, 2, 588), chunk(1, 1, 2, 1, 590)],
    );
    image[576..592].copy_from_slice(&[0, 0, 128, 63, 0, 0, 32, 192, 0, 0, 192, 127, 7, 255, 2, 1]);
    image
}

/// Every image here opens; an append to it has only this number.
fn takes_none(l: &Versioned, image: &[u8]) {
    assert!(l.counts(image).is_ok());
    let row = Row::bytes(b"a", b"1");
    let sheets = [
        sheet_a(),
        sheet_b(),
        sheet(&[nan(b"a")]),
        // 22 to 27.
        Vec::new(),
        vec![0; 4],
        sheet(std::slice::from_ref(&row))[..19].to_vec(),
        sheet(&[Row { kind: 11, ..row.clone() }]),
        [&sheet_a()[..], b"2"].concat(),
        sheet(&[Row { name: vec![0], ..row.clone() }]),
        sheet(&[row.clone(), row]),
        // 28 or 29 elsewhere.
        sheet(&[Row::bytes(b"new", &[0; 5000])]),
    ];
    for sheet in sheets {
        refused(l, image, &sheet, 20);
    }
}

pub const CASES: &[Case] = &[
    ("worked: a file", |l| {
        let image = worked(l);
        assert_eq!(l.counts(&image), Ok([2, 3, 3]));
        assert_eq!(
            l.listing(&image),
            "frames 2 names 3 entries 3\n0 2 9 3 1 576\n0 0 1 2 1 588\n1 1 2 1 1 590\n"
        );
        assert_eq!(names(l, &image).unwrap(), [b"pos", b"vel", b"box"]);
        assert_eq!(l.find(&image, 0, b"box"), Ok([0, 3, 576, 1, 2, 9, 0]));
        assert_eq!(l.bytes(&image, 0, b"box"), Ok(&image[576..588]));
        // The third is a NaN: as it is.
        for (k, bits) in [0x3F80_0000, 0xC020_0000, 0x7FC0_0000].into_iter().enumerate() {
            assert_eq!(l.nth_element(&image, 0, b"box", k as u64), Ok([3, bits]));
        }
        assert_eq!(l.nth_element(&image, 0, b"box", 3), Err(43));
        assert_eq!(l.bytes(&image, 0, b"pos"), Ok(&[7, 255][..]));
        assert_eq!(l.nth_element(&image, 1, b"vel", 0), Ok([1, 0x0102]));
        assert_eq!(l.find(&image, 0, b"vel"), Err(42));
        assert_eq!(l.find(&image, 1, b"box"), Err(42));
        assert_eq!(l.find(&image, 2, b"box"), Err(40));
        assert_eq!(l.find(&image, 1, b"vel\0garbage"), Err(41));
        assert_eq!(l.nth_name(&image, 3), Err(44));
        assert_eq!(l.nth_entry(&image, 3), Err(44));
    }),
    ("worked: probes", |l| {
        let image = worked(l);
        // Halved are 1, 0, walked 0; 0, 1; and 0, 1, 2.
        assert_eq!(l.probed(&image, 0, b"box"), (0, 3));
        assert_eq!(l.probed(&image, 0, b"pos"), (0, 4));
        assert_eq!(l.probed(&image, 0, b"vel"), (42, 5));
        // Halved are 1, 2, walked 2.
        assert_eq!(l.probed(&image, 1, b"vel"), (0, 3));
        assert_eq!(l.probed(&image, 1, b"pos"), (42, 3));
        assert_eq!(l.probed(&image, 2, b"pos"), (40, 0));
        assert_eq!(l.probed(&image, 1, b"fan"), (41, 0));
    }),
    ("20 is the first number of an append", |l| {
        takes_none(l, &worked(l));
        takes_none(l, &l.fresh(1024, 2, 1).unwrap());
        takes_none(l, &l.blank(256, 256, 0, 256, 0));
        // Before 21: blocks at odd places.
        for (index, list) in [(257, 320), (260, 320), (256, 321), (256, 324), (257, 321)] {
            takes_none(l, &l.blank(1024, index, 1, list, 1));
            takes_none(l, &l.blank(1024, index, 0, list, 0));
        }
        // Before 31 and 28.
        takes_none(l, &entries(l, 1024, &[Slot::bytes(GREATEST_FRAME, 0, 384, 4)]));
        takes_none(l, &many_names(l, 1024));
    }),
    ("the image's number goes before 20", |l| {
        let image = worked(l);
        let changed = |at: usize, bytes: &[u8], number: u64| {
            let mut image = image.clone();
            image[at..at + bytes.len()].copy_from_slice(bytes);
            for sheet in [sheet_a(), Vec::new(), sheet(&[nan(b"a")])] {
                refused(l, &image, &sheet, number);
            }
        };
        refused(l, &image[..255], &[], 1);
        changed(0, &[0], 3);
        changed(44, &[1], 4);
        changed(48, &[b'x'; 64], 5);
        changed(8, &[255, 0], 6);
        changed(24, &[255, 0], 7);
        changed(24, &[193, 1], 7);
        changed(24, &[127, 1], 8);
        changed(384, &[b'x'; 64], 9);
        changed(384, b"box", 11);
        changed(256 + 16, &[255, 0], 12);
        changed(256 + 30, &[11], 13);
        changed(256 + 28, &[3], 14);
        changed(288 + 28, &[2], 15);
        changed(256 + 8, &[100], 16);
        changed(288 + 16, &[63, 2], 17);
        changed(320 + 4, &[1], 18);
    }),
    ("a name has a segment, and ends at its first zero", |l| {
        let full = [b'x'; 63];
        let image = segments(l, &[b"pos", &full, b"a\0bcd", b"\xFF\0\xFF", b"pos2\0pos"]);
        let listed = names(l, &image).unwrap();
        assert_eq!(listed, [&b"pos"[..], &full, b"a", b"\xFF", b"pos2"]);
        // The part of the image itself.
        let mut out = [0; 2];
        for (n, length) in [3, 63, 1, 1, 4].into_iter().enumerate() {
            assert_eq!(l.name(&image, n as u64, &mut out), 0);
            assert_eq!(out, [384 + 64 * n as u64, length]);
        }
        let mut image = image;
        let end = image.len() as u64 - 4;
        put_slots(&mut image, 256, &[Slot::bytes(0, 4, end, 1), Slot::bytes(0, 1, end, 2)]);
        assert_eq!(l.find(&image, 0, &full), Ok([0, 2, end, 1, 1, 1, 0]));
        assert_eq!(l.find(&image, 0, b"pos2"), Ok([0, 1, end, 1, 4, 1, 0]));
        assert_eq!(l.find(&image, 0, b"pos"), Err(42));
        for name in [&b""[..], b"\0", b"pos\0", b"po", b"a\0bcd", b"a\0", &[b'x'; 62], &[b'x'; 64]]
        {
            assert_eq!(l.find(&image, 0, name), Err(41));
            assert_eq!(l.probed(&image, 0, name), (41, 0));
        }
    }),
    ("9: each listed segment has a zero of its own", |l| {
        let open = [b'x'; 64];
        let last = [&[b'x'; 63][..], &[0]].concat();
        let number = |list: &[&[u8]]| l.counts(&segments(l, list)).err().unwrap_or(0);
        assert_eq!(number(&[&open]), 9);
        assert_eq!(number(&[&last]), 0);
        // The next one's zero closes none, nor does that of what lies behind the block.
        assert_eq!(number(&[&open, b"a"]), 9);
        assert_eq!(number(&[&open, b""]), 9);
        assert_eq!(number(&[b"a", &open, b"b", b"c"]), 9);
        assert_eq!(number(&[b"a", b"b", &open]), 9);
        assert_eq!(number(&[b"a", b"b", b"c\0c"]), 0);
        // Behind the list's end nothing is asked.
        assert_eq!(number(&[b"a", b"", &open]), 0);
        assert_eq!(number(&[b"\0x", &open]), 0);
    }),
    ("11: bytes behind a name's zero make no other name", |l| {
        let number = |list: &[&[u8]]| l.counts(&segments(l, list)).err().unwrap_or(0);
        assert_eq!(number(&[b"pos", b"pos\0zz"]), 11);
        assert_eq!(number(&[b"pos\0aa", b"vel", b"pos\0zz"]), 11);
        assert_eq!(number(&[&[b'x'; 63], b"a", &[b'x'; 63]]), 11);
        assert_eq!(number(&[b"pos", b"po", b"pos2", b"p\0os"]), 0);
        assert_eq!(number(&[&[b'x'; 63], &[b'x'; 62]]), 0);
        // Those behind the end are none.
        assert_eq!(number(&[b"pos", b"", b"pos"]), 0);
    }),
    ("the list ends at the first segment that starts with zero", |l| {
        let listed = |list: &[&[u8]]| l.counts(&segments(l, list)).unwrap()[1];
        assert_eq!(listed(&[]), 0);
        assert_eq!(listed(&[b"", b"a", b"b"]), 0);
        assert_eq!(listed(&[b"a", b"\0b", b"c"]), 1);
        assert_eq!(listed(&[b"a", b"b", b"c"]), 3);
        // An id is not below the number of names.
        let mut image = segments(l, &[b"a", b"\0b", b"c"]);
        Slot::bytes(0, 1, 576, 1).put(&mut image, 256);
        assert_eq!(l.counts(&image), Err(14));
        put16(&mut image, 256 + 28, 0);
        assert_eq!(l.counts(&image), Ok([1, 1, 1]));
        assert_eq!(l.find(&image, 0, b"c"), Err(41));
        // Its own byte: a name of one.
        image[384 + 64] = b'x';
        assert_eq!(l.nth_name(&image, 1), Ok(&b"xb"[..]));
        assert_eq!(l.nth_name(&image, 2), Ok(&b"c"[..]));
        // The whole block is the names', listed or not.
        image[384 + 64] = 0;
        put64(&mut image, 256 + 16, 575);
        assert_eq!(l.counts(&image), Err(17));
    }),
    ("9, 10 and 11 are tests of the whole list", |l| {
        let number = |image: &[u8]| l.counts(image).err().unwrap_or(0);
        // 1,025 names and a segment behind them.
        let mut image = many_names(l, 1025);
        let at = |n: usize| 320 + 64 * n;
        assert_eq!(number(&image), 10);
        for n in [0, 1023, 1024, 1025] {
            let mut image = image.clone();
            image[at(n)..at(n + 1)].fill(b'x');
            assert_eq!(number(&image), 9);
        }
        put_names(&mut image, at(1), [&numbered(0)[..]]);
        assert_eq!(number(&image), 10);
        // The 1,025th starts with zero; what follows says nothing.
        image[at(1024)] = 0;
        image[at(1025)..].fill(b'x');
        assert_eq!(number(&image), 11);
        put_names(&mut image, at(1), [&numbered(1)[..]]);
        assert_eq!(l.counts(&image), Ok([0, 1024, 0]));
        assert_eq!(l.nth_name(&image, 1023), Ok(&numbered(1023)[..]));
    }),
    ("15 where a frame has an id twice", |l| {
        for keys in [
            &[(0, 2), (0, 2)][..],
            &[(0, 2), (0, 0), (0, 2)],
            &[(0, 2), (0, 0), (0, 1), (0, 2)],
            &[(0, 1), (5, 2), (5, 0), (5, 2)],
            &[(0, 1), (5, 1), (5, 2), (5, 1)],
            &[(GREATEST_FRAME, 0), (GREATEST_FRAME, 1), (GREATEST_FRAME, 0)],
        ] {
            assert_eq!(verdict(l, keys), 15, "{keys:?}");
            assert_eq!(verdict(l, &keys[..keys.len() - 1]), 0, "{keys:?}");
            assert_eq!(l.probed(&index(l, keys, 3, 0), 0, &numbered(0)), (15, 0));
        }
        // In any order once, and again in the next frame.
        for keys in [
            &[(0, 2), (0, 0), (0, 1)][..],
            &[(0, 0), (0, 2), (0, 1), (1, 1), (1, 2), (1, 0)],
            &[(0, 2), (1, 2), (2, 2), (2, 0), (3, 2)],
            &[(3, 1), (3, 0), (7, 0), (GREATEST_FRAME, 2), (GREATEST_FRAME, 1)],
        ] {
            assert_eq!(verdict(l, keys), 0, "{keys:?}");
        }
    }),
    ("15 where a frame falls", |l| {
        for keys in [
            &[(1, 0), (0, 0)][..],
            &[(1, 0), (0, 1)],
            &[(0, 0), (1, 0), (0, 1)],
            &[(5, 2), (5, 1), (4, 0)],
            &[(GREATEST_FRAME, 0), (GREATEST_FRAME - 1, 1)],
            &[(GREATEST_FRAME, 0), (0, 1)],
            &[(1 << 31, 0), ((1 << 31) - 1, 1)],
        ] {
            assert_eq!(verdict(l, keys), 15, "{keys:?}");
            assert_eq!(verdict(l, &keys[..keys.len() - 1]), 0, "{keys:?}");
        }
    }),
    ("15: all of 1,024 ids in one frame, and each of them twice", |l| {
        let mut keys: Vec<Key> = (0..1024).rev().map(|id| (7, id)).collect();
        let image = index(l, &keys, 1024, 0);
        assert_eq!(l.counts(&image), Ok([8, 1024, 1024]));
        // 11 halvings to the first, and the walk.
        assert_eq!(l.probed(&image, 7, &numbered(1023)), (0, 12));
        assert_eq!(l.probed(&image, 7, &numbered(0)), (0, 11 + 1024));
        for id in [0, 1, 63, 64, 255, 256, 511, 768, 1023] {
            keys.push((7, id));
            assert_eq!(l.counts(&index(l, &keys, 1024, 0)), Err(15));
            *keys.last_mut().unwrap() = (8, id);
            assert_eq!(l.counts(&index(l, &keys, 1024, 0)), Ok([9, 1024, 1025]));
            keys.pop();
        }
    }),
    ("15 stands between 14 and 16", |l| {
        let good = Slot::bytes(1, 0, 384, 4);
        let number = |slots: &[Slot]| l.counts(&entries(l, 512, slots)).err().unwrap_or(0);
        for bad in [good, Slot { frame: 0, ..good }] {
            assert_eq!(number(&[good, bad]), 15);
            assert_eq!(number(&[good, Slot { location: 255, ..bad }]), 12);
            assert_eq!(number(&[good, Slot { kind: 11, ..bad }]), 13);
            assert_eq!(number(&[good, Slot { id: 1, ..bad }]), 14);
            assert_eq!(number(&[good, Slot { n: 129, ..bad }]), 15);
            assert_eq!(number(&[good, Slot { location: 383, ..bad }]), 15);
            assert_eq!(number(&[good, Slot { location: 0, ..bad }]), 0);
        }
        // The first bad entry decides.
        assert_eq!(number(&[Slot { n: 129, ..good }, good]), 16);
    }),
    ("18 is no second entry", |l| {
        // Nothing that a table of last frames could start with, nor what 32 bits make of them.
        for frame in [GREATEST_FRAME + 1, 1 << 32, (1 << 32) + 5, 1 << 48, 1 << 63, ALL - 1, ALL] {
            assert_eq!(verdict(l, &[(frame, 0)]), 18);
            for before in [(0, 0), (0, 1), (5, 0), (5, 1), (GREATEST_FRAME, 0)] {
                assert_eq!(verdict(l, &[before, (frame, 0)]), 18, "{before:?} {frame}");
            }
        }
        for frame in [0, 1, GREATEST_FRAME - 1, GREATEST_FRAME] {
            assert_eq!(verdict(l, &[(frame, 2), (frame, 0)]), 0);
        }
    }),
    ("frames are counted by the last entry, and may be empty", |l| {
        let keys = [(2, 1), (2, 0), (5, 2)];
        let image = index(l, &keys, 3, 1);
        assert_eq!(l.counts(&image), Ok([6, 3, 3]));
        for frame in [0, 1, 3, 4] {
            for id in 0..3 {
                assert_eq!(l.find(&image, frame, &numbered(id)), Err(42));
            }
            assert_eq!(l.find(&image, frame, b"fan"), Err(41));
        }
        // An id of the next frame, or of the one before, is not in this one.
        assert_eq!(l.find(&image, 2, &numbered(2)), Err(42));
        assert_eq!(l.find(&image, 5, &numbered(0)), Err(42));
        assert_eq!(l.bytes(&image, 2, &numbered(0)), Ok(&[1][..]));
        assert_eq!(l.bytes(&image, 5, &numbered(2)), Ok(&[2][..]));
        assert_eq!(l.find(&image, 6, &numbered(2)), Err(40));
        assert_eq!(l.find(&image, 5 + (1 << 32), &numbered(2)), Err(40));
    }),
    ("types 0 and from 11 on are unknown", |l| {
        for kind in [0].into_iter().chain(11..=255) {
            let slot = Slot { kind, ..Slot::bytes(0, 0, 384, 1) };
            assert_eq!(l.counts(&entries(l, 512, &[slot])), Err(13), "type {kind}");
        }
        // The list ends before its type is looked at.
        let end = Slot { kind: 11, ..Slot::bytes(0, 0, 0, 1) };
        assert_eq!(l.counts(&entries(l, 512, &[end])), Ok([0, 1, 0]));
    }),
    ("elements of the ten types", |l| {
        let bytes: Vec<u8> = (0xF0..=0xFF).collect();
        for (kind, element) in [
            (1, [1, 0xF1]),
            (2, [1, 0xF3F2]),
            (3, [1, 0xF7F6_F5F4]),
            (4, [1, 0xFFFE_FDFC_FBFA_F9F8]),
            (5, [2, 0xFFFF_FFFF_FFFF_FFF1]),
            (6, [2, 0xFFFF_FFFF_FFFF_F3F2]),
            (7, [2, 0xFFFF_FFFF_F7F6_F5F4]),
            (8, [2, 0xFFFE_FDFC_FBFA_F9F8]),
            (9, [3, 0xF7F6_F5F4]),
            (10, [4, 0xFFFE_FDFC_FBFA_F9F8]),
        ] {
            let mut image = entries(l, 512, &[Slot { kind, m: 2, ..Slot::bytes(0, 0, 384, 1) }]);
            image[384..400].copy_from_slice(&bytes);
            assert_eq!(l.nth_element(&image, 0, b"a", 1), Ok(element));
            assert_eq!(l.nth_element(&image, 0, b"a", 2), Err(43));
            assert_eq!(l.nth_element(&image, 0, b"a", 1 << 61), Err(43));
        }
        for (kind, nans) in NANS {
            let row = floats(b"a", kind, &nans);
            let mut image = entries(l, 512, &[Slot { kind, ..Slot::bytes(0, 0, 384, 8) }]);
            image[384..][..row.data.len()].copy_from_slice(&row.data);
            for (k, bits) in nans.into_iter().enumerate() {
                let answered = if kind == 9 { 3 } else { 4 };
                assert_eq!(l.nth_element(&image, 0, b"a", k as u64), Ok([answered, bits]));
            }
        }
    }),
    ("an empty chunk is a chunk", |l| {
        let image = entries(l, 512, &[Slot::bytes(0, 0, 512, 0)]);
        assert_eq!(l.find(&image, 0, b"a"), Ok([0, 0, 512, 1, 0, 1, 0]));
        assert_eq!(l.bytes(&image, 0, b"a"), Ok(&b""[..]));
        assert_eq!(l.nth_element(&image, 0, b"a", 0), Err(43));
        let vast = Slot { n: ALL, m: 0, ..Slot::bytes(0, 0, 384, 0) };
        assert_eq!(l.bytes(&entries(l, 512, &[vast]), 0, b"a"), Ok(&b""[..]));
    }),
    ("no field of the header counts slots or names", |l| {
        let image = worked(l);
        for byte in [1, 2, 0xFF] {
            let mut other = image.clone();
            other[176..256].fill(byte);
            other[40..44].fill(byte);
            assert_eq!(l.listing(&other), l.listing(&image));
            assert_eq!(names(l, &other), names(l, &image));
        }
        // Whatever number stands there.
        for at in (176..256).step_by(4) {
            let mut other = image.clone();
            put32(&mut other, at, 1);
            assert_eq!(l.counts(&other), Ok([2, 3, 3]));
        }
    }),
    ("the list ends at location 0", |l| {
        let mut image = worked(l);
        // Lawful again in the last slot, behind the end.
        Slot::bytes(1, 0, 576, 4).put(&mut image, 256 + 96);
        assert_eq!(l.counts(&image), Ok([2, 3, 4]));
        put64(&mut image, 320 + 16, 0);
        assert_eq!(l.counts(&image), Ok([1, 3, 2]));
        assert_eq!(l.nth_entry(&image, 2), Err(44));
        assert_eq!(l.find(&image, 1, b"pos"), Err(40));
        // The slot of the end may hold anything.
        let end = Slot { frame: 0, n: 1, location: 0, m: 1, id: 65535, kind: 99, flags: 1 };
        end.put(&mut image, 320);
        assert_eq!(l.counts(&image), Ok([1, 3, 2]));
        put64(&mut image, 256 + 16, 0);
        assert_eq!(l.counts(&image), Ok([0, 3, 0]));
    }),
    ("probes of one frame, at every place", |l| {
        // n entries halve to the first as often as n has binary digits; then so many are walked.
        for (entries, digits) in [1, 2, 2, 3, 3, 3, 3, 4, 4].into_iter().enumerate() {
            let entries = entries as u16 + 1;
            let keys: Vec<Key> = (0..entries).rev().map(|id| (0, id)).collect();
            for free in [0, 1] {
                let image = index(l, &keys, entries.into(), free);
                for place in 0..entries {
                    let name = numbered((entries - 1 - place).into());
                    assert_eq!(l.probed(&image, 0, &name), (0, digits + u64::from(place) + 1));
                    assert_eq!(l.bytes(&image, 0, &name), Ok(&[place as u8][..]));
                }
                // One more name: nothing stands behind the frame.
                let image = index(l, &keys, usize::from(entries) + 1, free);
                let missing = l.probed(&image, 0, &numbered(entries.into()));
                assert_eq!(missing, (42, digits + u64::from(entries)));
            }
        }
    }),
    ("probes of several frames", |l| {
        let keys = [(0, 2), (0, 0), (2, 1), (2, 3), (2, 0), (2, 2), (3, 1)];
        let image = index(l, &keys, 5, 1);
        let probes = |frame, id| l.probed(&image, frame, &numbered(id));
        // Halved are 3, 1, 0.
        assert_eq!(probes(0, 2), (0, 3 + 1));
        assert_eq!(probes(0, 0), (0, 3 + 2));
        for id in [1, 3, 4] {
            assert_eq!(probes(0, id), (42, 3 + 3));
        }
        // 3, 1, 2: the empty frame has its place before the next one.
        for id in 0..5 {
            assert_eq!(probes(1, id), (42, 3 + 1));
        }
        // 3, 1, 2 as well.
        for (walked, id) in [(1, 1), (2, 3), (3, 0), (4, 2)] {
            assert_eq!(probes(2, id), (0, 3 + walked));
        }
        // The most that is promised: 3 digits, 1 and 4 entries of the frame.
        assert_eq!(probes(2, 4), (42, 3 + 5));
        // 3, 5, 6.
        assert_eq!(probes(3, 1), (0, 3 + 1));
        for id in [0, 2, 3, 4] {
            assert_eq!(probes(3, id), (42, 3 + 1));
        }
        assert_eq!(probes(4, 1), (40, 0));
        assert_eq!(l.probed(&image, 2, b"fan"), (41, 0));
        for (place, &(frame, id)) in keys.iter().enumerate() {
            assert_eq!(l.bytes(&image, frame, &numbered(id.into())), Ok(&[place as u8][..]));
        }
    }),
    ("probes of a frame for each entry", |l| {
        // As in 2.x the place of a frame, and where the id is another, what stands behind.
        let keys: Vec<Key> = (0..7).map(|frame| (frame, 1)).collect();
        let image = index(l, &keys, 3, 0);
        for frame in 0..7 {
            assert_eq!(l.probed(&image, frame, &numbered(1)), (0, 4));
            let behind = u64::from(frame < 6);
            assert_eq!(l.probed(&image, frame, &numbered(0)), (42, 4 + behind));
            assert_eq!(l.probed(&image, frame, &numbered(2)), (42, 4 + behind));
        }
    }),
    ("probes among 40,000 entries", |l| {
        // 2,500 frames of 16 of 17 names, the last one first; the missing one is 16.
        let ids = || (0..16).rev();
        let keys: Vec<Key> = (0..2500).flat_map(|frame| ids().map(move |id| (frame, id))).collect();
        let image = index(l, &keys, 17, 0);
        assert_eq!(l.counts(&image), Ok([2500, 17, 40_000]));
        let probes = |frame, id: u16| l.probed(&image, frame, &numbered(id.into()));
        // 16 halvings to the first frame: at most 16 digits, 1 and 16 entries.
        assert_eq!(probes(0, 15), (0, 17));
        assert_eq!(probes(0, 0), (0, 32));
        assert_eq!(probes(0, 16), (42, 33));
        // 20000, 30000, 35000, 37500, 38750, 39375, 39688, 39844, 39922, 39961, 39981, 39991, 39986,
        // 39984, 39983.
        assert_eq!(probes(2499, 15), (0, 16));
        assert_eq!(probes(2499, 0), (0, 31));
        assert_eq!(probes(2499, 16), (42, 31));
        for frame in (0..2500).step_by(97) {
            for id in 0..16 {
                let walked = u64::from(16 - id);
                let (number, count) = probes(frame, id);
                assert!(number == 0 && (walked + 1..=walked + 16).contains(&count));
            }
            let (number, count) = probes(frame, 16);
            assert!(number == 42 && (18..=33).contains(&count));
        }
    }),
    ("a run of appends is a run of refusals", |l| {
        let calls = |version| {
            let sheets = [sheet_a(), sheet_b(), Vec::new(), sheet(&[nan(b"pos")])];
            let call = |sheet: &Vec<u8>, limit| Call::new(version, sheet.clone(), limit);
            sheets
                .iter()
                .flat_map(|sheet| [0, 1, 22, ALL].map(|limit| call(sheet, limit)))
                .collect()
        };
        let calls: Vec<Call> = calls(l.version);
        let roomy = |mut image: Vec<u8>| {
            image.resize(image.len() + 4096, 0);
            image
        };
        for image in [
            worked(l),
            roomy(worked(l)),
            roomy(l.fresh(1024, 2, 1).unwrap()),
            roomy(index(l, &[(2, 1), (2, 0), (5, 2)], 3, 1)),
            entries(l, 1024, &[Slot::bytes(GREATEST_FRAME, 0, 384, 4)]),
        ] {
            // The start is the only moment.
            assert_eq!(Run::make(l.library, &image, &calls), Ok(1));
        }
    }),
    ("the same bytes in another version", |l| {
        let as_version = |image: &[u8], version| {
            let mut image = image.to_vec();
            put32(&mut image, 44, version);
            l.counts(&image)
        };
        for version in [V2_0, V2_1] {
            // The zeros behind the first name end a list of 2.x.
            let image = segments(l, &[b"pos", b"vel"]);
            assert_eq!(as_version(&image, V1_0), Ok([0, 2, 0]));
            assert_eq!(as_version(&image, version), Ok([0, 1, 0]));
            assert_eq!(as_version(&worked(l), version), Err(14));
            // Names that follow one another are one segment's first, and bytes behind it.
            let image = segments(l, &[b"pos\0vel\0box"]);
            assert_eq!(as_version(&image, V1_0), Ok([0, 1, 0]));
            assert_eq!(as_version(&image, version), Ok([0, 3, 0]));
            // A long one goes on over its segment.
            let image = segments(l, &[&[b'x'; 64], b"xx"]);
            assert_eq!(as_version(&image, V1_0), Err(9));
            assert_eq!(as_version(&image, version), Ok([0, 1, 0]));
            // Names of 63 bytes are the same in both; entries are sorted or not.
            let mut image = segments(l, &[&[b'x'; 63], &[b'y'; 63]]);
            let chunk = Slot::bytes(3, 1, 512, 4);
            put_slots(&mut image, 256, &[chunk, Slot { id: 0, ..chunk }]);
            assert_eq!(as_version(&image, V1_0), Ok([4, 2, 2]));
            assert_eq!(as_version(&image, version), Err(15));
            put_slots(&mut image, 256, &[Slot { id: 0, ..chunk }, chunk]);
            assert_eq!(as_version(&image, V1_0), Ok([4, 2, 2]));
            assert_eq!(as_version(&image, version), Ok([4, 2, 2]));
        }
    }),
    ("create makes 2.1 of it", |l| {
        let mut image = worked(l);
        let (application, schema) = (&b""[..], &b""[..]);
        let request = Create { application, schema, schema_version: 0, slots: 2, segments: 1 };
        assert_eq!(l.create(&mut image, request), 0);
        assert_eq!(image[44..48], [1, 0, 2, 0]);
        assert_eq!(l.after(&image, &sheet_a(), ALL).1, Ok([23, 23, 0]));
    }),
];
