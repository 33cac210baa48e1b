//! W-211, worked out by hand: chunks and blocks that are made start on multiples of 64, and images
//! made before, with all starts on multiples of 8, take appends and keep every chunk.

use crate::ask::Ask;
use crate::cases::{accepted, entries, fresh, nothing, refused, sheet_a, sheet_b};
use crate::cases::{Case, Versioned, ALL, PROBE};
use crate::demand3::{Call, Run};
use crate::images::{get64, put32, put_names, put_slots, sheet, Row, Slot};
use crate::library::Create;

/// Bytes none of which is 0, to see which of them are kept.
fn pattern(length: usize) -> Vec<u8> {
    (0..length).map(|n| n as u8 | 1).collect()
}

/// From where to where.
fn kept(image: &[u8], parts: &[(usize, usize)]) {
    let before = pattern(image.len());
    for &(from, to) in parts {
        assert_eq!(image[from..to], before[from..to], "{from} to {to}");
    }
}

/// A fresh image over such bytes.
pub fn over_pattern(l: &Versioned, length: usize, slots: u64, segments: u64) -> Vec<u8> {
    let mut image = pattern(length);
    let request = Create { application: b"", schema: b"", schema_version: 0, slots, segments };
    assert_eq!(l.create(&mut image, request), 0);
    put32(&mut image, 44, l.version);
    image
}

/// Document 01's image after A and B on 1,024 bytes, as it was made before: chunks at 384, 400 and
/// 416, the index moved to 424, end of use 552, and the index of before at 256.
pub fn older(l: &Versioned) -> Vec<u8> {
    let mut image = over_pattern(l, 1024, 2, 1);
    let head = l.blank(1024, 424, 4, 320, 1);
    image[..256].copy_from_slice(&head[..256]);
    put_names(&mut image, 320, [&b"probe"[..], b"heater"]);
    let probe = Slot { kind: 9, ..Slot::bytes(0, 0, 384, 3) };
    let heater = Slot::bytes(1, 1, 416, 1);
    put_slots(&mut image, 256, &[probe]);
    image[424..552].fill(0);
    put_slots(&mut image, 424, &[probe, Slot { frame: 1, location: 400, ..probe }, heater]);
    image[384..424].fill(0);
    image[384..396].copy_from_slice(&PROBE);
    image[400..412].copy_from_slice(&PROBE);
    image[416] = 40;
    image
}

/// What [`older`] lists, and its bytes, whatever was appended.
fn keeps_older(l: &Versioned, image: &[u8]) {
    for (frame, name, location) in
        [(0, &b"probe"[..], 384), (1, b"probe", 400), (1, b"heater", 416)]
    {
        assert_eq!(l.find(image, frame, name).map(|e| e[2]), Ok(location));
        let data = if name == b"probe" { &PROBE[..] } else { &[40] };
        assert_eq!(l.bytes(image, frame, name), Ok(data));
    }
    assert_eq!(l.find(image, 0, b"heater"), Err(42));
    kept(image, &[(552, 576)]);
}

fn blocks(image: &[u8]) -> [u64; 4] {
    [8, 16, 24, 32].map(|at| get64(image, at))
}

/// Where the rows of one frame lie, in row order.
fn places(l: &Versioned, image: &[u8], frame: u64, rows: &[Row]) -> Vec<u64> {
    rows.iter().map(|row| l.find(image, frame, &row.name).unwrap()[2]).collect()
}

/// Just so many bytes are needed.
fn needs(l: &Versioned, image: &[u8], sheet: &[u8], length: usize) {
    refused(l, &image[..length - 1], sheet, 29);
    let [_, whole, copied] = l.after(image, sheet, 0).1.unwrap();
    assert_eq!(l.after(&image[..length], sheet, ALL).1, Ok([whole, whole, copied]));
}

/// The same in both versions that take appends.
pub const CASES: &[Case] = &[
    ("starts: the end of use is rounded up to 64", |l| {
        for n in 0..=128 {
            let image = entries(l, 1024, &[Slot::bytes(0, 0, 384, n)]);
            let next = match n {
                0 => 384,
                1..=64 => 448,
                _ => 512,
            };
            for data in [&b""[..], b"1"] {
                let row = sheet(&[Row::bytes(b"a", data)]);
                let (after, _) = l.after(&image, &row, ALL);
                assert_eq!(l.find(&after, 1, b"a").map(|e| e[2]), Ok(next), "{n}");
                // A byte takes a word. Without one and without a gap, less does not open.
                if !data.is_empty() || n % 64 != 0 {
                    needs(l, &image, &row, next as usize + 8 * data.len());
                }
            }
        }
    }),
    ("starts: each row, whatever lies before it", |l| {
        for n in 0..=129 {
            let rows = [Row::bytes(b"a", &vec![7; n]), Row::bytes(b"b", b"1")];
            let after = accepted(l, &fresh(l), &rows);
            let second = match n {
                0 => 384,
                1..=64 => 448,
                65..=128 => 512,
                _ => 576,
            };
            assert_eq!(places(l, &after, 0, &rows), [384, second]);
            needs(l, &fresh(l), &sheet(&rows), second as usize + 8);
        }
    }),
    ("starts: an empty row's too", |l| {
        // Behind A: a chunk at 448, then three starts at 512; 5 entries in 8 slots at 576.
        let (image, _) = l.after(&fresh(l), &sheet_a(), ALL);
        let rows = [(b"w", &b"1"[..]), (b"x", b""), (b"y", b""), (b"z", b"2")]
            .map(|(name, data)| Row::bytes(name, data));
        let after = accepted(l, &image, &rows);
        assert_eq!(places(l, &after, 1, &rows), [448, 512, 512, 512]);
        assert_eq!(blocks(&after), [576, 8, 320, 1]);
        needs(l, &image, &sheet(&rows), 832);
    }),
    ("starts: moved blocks", |l| {
        // 65 bytes of a name: 2 segments, behind a chunk that ends at 385.
        let long = Row::bytes(&[b'n'; 64], b"1");
        let rows = [long.clone()];
        let after = accepted(l, &fresh(l), &rows);
        assert_eq!(blocks(&after), [256, 2, 448, 2]);
        needs(l, &fresh(l), &sheet(&rows), 576);
        // With two rows more both move: chunks at 384, 448 and 512, names at 576, slots at 704.
        let rows = [long, Row::bytes(b"b", b"2"), Row::bytes(b"c", b"3")];
        let after = accepted(l, &over_pattern(l, 1024, 2, 1), &rows);
        assert_eq!(places(l, &after, 0, &rows), [384, 448, 512]);
        assert_eq!(blocks(&after), [704, 4, 576, 2]);
        kept(&after, &[(392, 448), (456, 512), (520, 576), (832, 1024)]);
        needs(l, &fresh(l), &sheet(&rows), 832);
        // The index alone, behind two chunks and an empty one: at 512, where that lies.
        let rows = [("a", &b"1"[..]), ("b", b"2"), ("c", b"")]
            .map(|(name, data)| Row::bytes(name.as_bytes(), data));
        let after = accepted(l, &fresh(l), &rows);
        assert_eq!(places(l, &after, 0, &rows), [384, 448, 512]);
        assert_eq!(blocks(&after), [512, 4, 320, 1]);
        needs(l, &fresh(l), &sheet(&rows), 640);
    }),
    ("gaps: their words are not stored, at no limit", |l| {
        let image = over_pattern(l, 1024, 2, 1);
        for limit in 0..=23 {
            let (stopped, stores) = l.after(&image, &sheet_a(), limit);
            assert_eq!(stores, Ok([limit, 23, 0]));
            kept(&stopped, &[(400, 1024)]);
        }
        let (image, _) = l.after(&image, &sheet_a(), ALL);
        // A row is padded with zeros to 8.
        assert_eq!(image[384..396], PROBE);
        assert_eq!(image[396..400], [0; 4]);
        for limit in 0..=43 {
            let (stopped, stores) = l.after(&image, &sheet_b(), limit);
            assert_eq!(stores, Ok([limit, 43, 1]));
            kept(&stopped, &[(400, 448), (464, 512), (520, 576), (704, 1024)]);
        }
        let (after, _) = l.after(&image, &sheet_b(), ALL);
        assert_eq!(after[448..460], PROBE);
        assert_eq!(after[460..464], [0; 4]);
        assert_eq!(after[512..520], [40, 0, 0, 0, 0, 0, 0, 0]);
        // The entry of A, those of B, and a free slot.
        assert_eq!(after[576..608], image[256..288]);
        assert_eq!(after[672..704], [0; 32]);
    }),
    ("29 counts an empty last row at its start, and rounds to 8 alone", |l| {
        // A ends at 396, its position is 400, and nothing more fits: the end of use is 448.
        needs(l, &fresh(l), &sheet_a(), 400);
        let (after, _) = l.after(&fresh(l)[..400], &sheet_a(), ALL);
        refused(l, &after, &nothing(b"probe"), 29);
        // A chunk from 384 to 396, and an empty row.
        let image = entries(l, 448, &[Slot::bytes(0, 0, 384, 12)]);
        for length in [396, 400, 420, 447] {
            refused(l, &image[..length], &nothing(b"a"), 29);
        }
        let (after, _) = l.after(&image, &nothing(b"a"), ALL);
        assert_eq!(l.find(&after, 1, b"a"), Ok([1, 0, 448, 1, 0, 1, 0]));
        assert_eq!(l.bytes(&after, 1, b"a"), Ok(&b""[..]));
        // A byte, and an empty row behind it or before it.
        let (a, b) = (Row::bytes(b"a", b"1"), Row::bytes(b"b", b""));
        let image = l.fresh(448, 2, 1).unwrap();
        needs(l, &image, &sheet(std::slice::from_ref(&a)), 392);
        let rows = sheet(&[a.clone(), b.clone()]);
        for length in [392, 400, 447] {
            refused(l, &image[..length], &rows, 29);
        }
        let (after, _) = l.after(&image, &rows, ALL);
        assert_eq!(l.find(&after, 0, b"b").map(|e| e[2]), Ok(448));
        needs(l, &image, &sheet(&[b, a]), 392);
    }),
    ("create rounds the name block and keeps the gap", |l| {
        for (slots, index_end, names) in
            [(1, 288, 320), (2, 320, 320), (3, 352, 384), (4, 384, 384), (5, 416, 448)]
        {
            for segments in [1, 2] {
                let end = names + 64 * segments;
                let mut short = pattern(end - 1);
                let request = Create {
                    application: b"",
                    schema: b"",
                    schema_version: 0,
                    slots,
                    segments: segments as u64,
                };
                assert_eq!(l.create(&mut short, request), 52);
                assert_eq!(short, pattern(end - 1));
                let image = over_pattern(l, end, slots, segments as u64);
                assert_eq!(blocks(&image), [256, slots, names as u64, segments as u64]);
                let gap = (index_end, names);
                kept(&image, &[gap]);
                assert!(image[256..index_end].iter().all(|&byte| byte == 0));
                assert!(image[names..].iter().all(|&byte| byte == 0));
                // The end is the end of use.
                let image = over_pattern(l, end + 64, slots, segments as u64);
                let (after, stores) = l.after(&image, &sheet_a(), ALL);
                let whole = 4 * slots + 8 * segments as u64 + 2 + 1 + 4;
                assert_eq!(stores, Ok([whole, whole, 0]));
                assert_eq!(l.find(&after, 0, b"probe").map(|e| e[2]), Ok(end as u64));
                kept(&after, &[gap, (end + 16, end + 64)]);
            }
        }
    }),
    ("older images: A and B as they lay grow from 576 on", |l| {
        let image = older(l);
        let listing = "frames 2 names 2 entries 3\n0 0 9 3 1 384\n1 0 9 3 1 400\n1 1 1 1 1 416\n";
        assert_eq!(l.listing(&image), listing);
        keeps_older(l, &image);
        // A free slot, 7 words from the one with the 13th byte of the names on, data, an entry.
        for limit in 0..=17 {
            let (stopped, stores) = l.after(&image, &sheet_a(), limit);
            assert_eq!(stores, Ok([limit, 4 + 7 + 2 + 4, 0]));
            keeps_older(l, &stopped);
        }
        let (after, _) = l.after(&image, &sheet_a(), ALL);
        assert_eq!(l.find(&after, 2, b"probe").map(|e| e[2]), Ok(576));
        assert_eq!(blocks(&after), [424, 4, 320, 1]);
        kept(&after, &[(592, 1024)]);
        needs(l, &image, &sheet_a(), 592);
        // 6 entries: chunks at 640 and 704, 8 slots at 768.
        let (last, stores) = l.after(&after, &sheet_b(), ALL);
        assert_eq!(stores, Ok([7 + 3 + 34 + 8, 52, 4]));
        let added = "2 0 9 3 1 576\n3 0 9 3 1 640\n3 1 1 1 1 704\n";
        let (_, chunks) = listing.split_once('\n').unwrap();
        assert_eq!(l.listing(&last), format!("frames 4 names 2 entries 6\n{chunks}{added}"));
        assert_eq!(blocks(&last), [768, 8, 320, 1]);
        keeps_older(l, &last);
        kept(&last, &[(592, 640), (656, 704), (712, 768)]);
        needs(l, &after, &sheet_b(), 1024);
    }),
    ("older images: a run of appends", |l| {
        let calls = [(sheet_a(), 9), (sheet_a(), ALL), (sheet_b(), 20), (sheet_b(), ALL)]
            .map(|(sheet, limit)| Call::new(l.version, sheet, limit));
        assert_eq!(Run::make(l.library, &older(l), &calls), Ok(1 + 9 + 17 + 20 + 52));
    }),
    ("older images: names straight behind an odd number of slots", |l| {
        // 1 slot and 1 segment took 352 bytes; the end of use is 384 now.
        let image = l.blank(512, 256, 1, 288, 1);
        for length in [352, 383] {
            refused(l, &image[..length], &nothing(b"a"), 29);
        }
        needs(l, &image, &nothing(b"a"), 384);
        let row = [Row::bytes(b"a", b"1")];
        needs(l, &image, &sheet(&row), 392);
        let after = accepted(l, &image, &row);
        assert_eq!(places(l, &after, 0, &row), [384]);
        // The next entry takes a new index, behind the chunk at 448.
        let after = accepted(l, &after, &[Row::bytes(b"a", b"")]);
        assert_eq!(blocks(&after), [448, 2, 288, 1]);
    }),
    ("older images: chunks anywhere", |l| {
        for (location, n) in [(385, 5), (384, 64), (385, 63), (400, 40), (447, 1)] {
            let mut image = entries(l, 512, &[Slot::bytes(0, 0, location, n)]);
            let part = location as usize..(location + n) as usize;
            image[part.clone()].copy_from_slice(&pattern(512)[part.clone()]);
            let after = accepted(l, &image, &[Row::bytes(b"a", b"1")]);
            assert_eq!(l.find(&after, 1, b"a").map(|e| e[2]), Ok(448));
            assert_eq!(l.find(&after, 0, b"a").map(|e| e[2]), Ok(location));
            assert_eq!(l.bytes(&after, 0, b"a"), Ok(&pattern(512)[part]));
        }
    }),
    ("21 still says 8", |l| {
        let next = |index, names| {
            let image = l.blank(1024, index, 1, names, 1);
            let (after, stores) = l.after(&image, &nothing(b"a"), ALL);
            stores.and_then(|_| l.find(&after, 0, b"a")).map(|e| e[2])
        };
        for off in 0..64 {
            let expected = |place| if off % 8 == 0 { Ok(place) } else { Err(21) };
            assert_eq!(next(256 + off, 384), expected(448), "{off}");
            let end = if off == 0 { 384 } else { 448 };
            assert_eq!(next(256, 320 + off), expected(end), "{off}");
            // The index behind the names.
            assert_eq!(next(320 + off, 256), expected(if off > 32 { 448 } else { 384 }), "{off}");
        }
    }),
];
