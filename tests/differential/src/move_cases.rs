//! W-214, worked out by hand: the listed entries that an append copies as it moves the index, at any
//! limit, and what they add up to over whole appends.

use crate::ask::Ask;
use crate::cases::{accepted, entries, fresh, index, many_names, nan, nothing, numbered, refused};
use crate::cases::{sheet_a, sheet_b, Case, Versioned, ALL};
use crate::demand3::{Call, Run};
use crate::images::{get64, put32, put_names, put_slots, sheet, Row, Slot, GREATEST_FRAME, V1_0};
use crate::moving::Moving;
use crate::start_cases::older;

/// The image after A: an entry, and a free slot.
fn after_a(l: &Versioned, length: usize) -> Vec<u8> {
    l.after(&l.fresh(length, 2, 1).unwrap(), &sheet_a(), ALL).0
}

/// Rows of these names with no data.
fn rows(names: &[&[u8]]) -> Vec<u8> {
    let rows: Vec<_> = names.iter().map(|name| Row::bytes(name, b"")).collect();
    sheet(&rows)
}

/// 64 rows of one byte each.
fn many_rows() -> Vec<u8> {
    let rows: Vec<_> = (0..64).map(|n| Row::bytes(&numbered(n), b"1")).collect();
    sheet(&rows)
}

/// Location and slots of the index.
fn block(image: &[u8]) -> [u64; 2] {
    [8, 16].map(|at| get64(image, at))
}

/// At every limit the append has so many stores and copies so many entries. The image after it.
fn copies(l: &Versioned, image: &[u8], sheet: &[u8], whole: u64, copied: u64) -> Vec<u8> {
    for limit in (0..=whole + 1).chain([1 << 32, ALL]) {
        let done = limit.min(whole);
        assert_eq!(l.after(image, sheet, limit).1, Ok([done, whole, copied]), "limit {limit}");
    }
    l.after(image, sheet, ALL).0
}

/// Appends so often, one after the other, and answers the entries copied by each of those that
/// copy some; both bounds hold all along.
fn run(l: &Versioned, image: &mut Vec<u8>, sheet: &[u8], times: u64) -> Vec<u64> {
    let mut run = Moving::from(image);
    let mut copied = Vec::new();
    for _ in 0..times {
        let (after, stores) = l.after(image, sheet, ALL);
        let [_, whole, count] = stores.unwrap();
        assert_eq!(l.after(image, sheet, 0).1, Ok([0, whole, count]));
        run.add(image, &after, count).unwrap();
        *image = after;
        copied.push(count);
    }
    copied.retain(|&count| count > 0);
    copied
}

/// The same in both versions that take appends.
pub const CASES: &[Case] = &[
    ("moves: A copies no entry and B one, at every limit", |l| {
        let image = copies(l, &fresh(l), &sheet_a(), 23, 0);
        assert_eq!(block(&image), [256, 2]);
        let image = copies(l, &image, &sheet_b(), 43, 1);
        assert_eq!(block(&image), [576, 4]);
        // There is a free slot now.
        copies(l, &image, &sheet_a(), 4 + 7 + 2 + 4, 0);
    }),
    ("moves: 129 appends of one row copy 255 entries", |l| {
        // Full indexes of 1, 2, 4 and so on up to 128 slots move; the last block, of 256, ends at
        // 384 + 64 * (1 + 2 + .. + 128).
        let mut image = l.fresh(16_704, 1, 1).unwrap();
        let copied = run(l, &mut image, &nothing(b"a"), 129);
        assert_eq!(copied, [1, 2, 4, 8, 16, 32, 64, 128]);
        assert_eq!(copied.iter().sum::<u64>(), 255);
        assert_eq!(block(&image), [16_704 - 32 * 256, 256]);
        assert_eq!(l.counts(&image), Ok([129, 1, 129]));
        // None is copied until 256 are listed, and then there is no room.
        assert_eq!(run(l, &mut image, &nothing(b"a"), 127), []);
        refused(l, &image, &nothing(b"a"), 29);
    }),
    ("moves: from 3 slots, two rows at a time", |l| {
        // 2 of 3, 6 of 6 and 12 of 12 slots: 20 entries, where 21 slots are gained.
        let mut image = l.fresh(4096, 3, 1).unwrap();
        assert_eq!(run(l, &mut image, &rows(&[b"a", b"b"]), 7), [2, 6, 12]);
        assert_eq!((block(&image)[1], l.counts(&image)), (24, Ok([7, 2, 14])));
    }),
    ("moves: refused appends add nothing", |l| {
        let mut image = l.fresh(2048, 1, 1).unwrap();
        let mut all = Moving::from(&image);
        for copied in [0, 1, 2, 0, 4, 0, 0, 0, 8] {
            refused(l, &image, b"", 22);
            refused(l, &image, &sheet(&[nan(b"a")]), 30);
            refused(l, &image, &sheet(&[Row::bytes(b"a", &[1; 2048])]), 29);
            let (after, stores) = l.after(&image, &nothing(b"a"), ALL);
            assert_eq!(stores.map(|out| out[2]), Ok(copied));
            all.add(&image, &after, copied).unwrap();
            image = after;
        }
        assert_eq!((block(&image)[1], l.counts(&image)), (16, Ok([9, 1, 9])));
    }),
    ("moves: an index that lists nothing copies nothing", |l| {
        // 2 rows for 1 slot.
        let two = sheet(&[Row::bytes(b"a", b"1"), Row::bytes(b"b", b"2")]);
        let image = copies(l, &l.fresh(1024, 1, 1).unwrap(), &two, 4 + 8 + 2 + 2 + 10 + 8, 0);
        assert_eq!(block(&image), [512, 2]);
        // 64 rows for 1 slot; their names fill 8 segments.
        let image = l.fresh(16_384, 1, 8).unwrap();
        let image = copies(l, &image, &many_rows(), 4 + 64 + 64 + 64 + 258 + 256, 0);
        assert_eq!(block(&image)[1], 64);
        // No slot at all: the index behind the names and the chunk.
        let image = l.blank(1024, 256, 0, 256, 1);
        let row = sheet(&[Row::bytes(b"a", b"1")]);
        let image = copies(l, &image, &row, 8 + 1 + 1 + 10 + 4, 0);
        assert_eq!(block(&image), [384, 2]);
        // The same where it lay, for it took no room; two appends later it copies 2 entries.
        let image = l.blank(1024, 384, 0, 320, 1);
        let image = copies(l, &image, &nothing(b"a"), 8 + 1 + 10 + 4, 0);
        assert_eq!(block(&image), [384, 2]);
        let image = copies(l, &image, &nothing(b"a"), 4 + 8 + 4, 0);
        let image = copies(l, &image, &nothing(b"a"), 8 + 18 + 4, 2);
        assert_eq!(block(&image), [448, 4]);
    }),
    ("moves: what lies behind the list is not copied", |l| {
        let (chunk, three) = (Slot::bytes(0, 0, 448, 4), rows(&[b"a", b"b", b"c"]));
        let end = Slot { location: 0, ..chunk };
        let next = Slot { frame: 1, ..chunk };
        for (slots, copied) in
            [([end, chunk, next], 0), ([chunk, end, next], 1), ([chunk, next, end], 2)]
        {
            let mut image = l.blank(1024, 256, 3, 384, 1);
            put_names(&mut image, 384, [&b"a"[..]]);
            put_slots(&mut image, 256, &slots);
            assert_eq!(l.counts(&image).map(|counts| counts[2]), Ok(copied));
            // Free slots, names, two of them new, and entries; with a listed one it moves to 6 slots.
            let (free, moved) = (4 * (3 - copied), if copied > 0 { 26 } else { 0 });
            let after = copies(l, &image, &three, free + 8 + 2 + moved + 12, copied);
            assert_eq!(block(&after)[1], if copied > 0 { 6 } else { 3 });
            image.resize(16_384, 0);
            let (after, stores) = l.after(&image, &many_rows(), ALL);
            // Doubled five times, and copied once.
            assert_eq!(stores.map(|out| out[2]), Ok(copied));
            assert_eq!(block(&after)[1], 96);
        }
    }),
    ("moves: entries count, not their frames", |l| {
        let mut image = index(l, &[(0, 0), (4_294_967_292, 1)], 2, 0);
        image.resize(1024, 0);
        let image = copies(l, &image, &nothing(&numbered(0)), 6 + 18 + 4, 2);
        assert_eq!(l.counts(&image), Ok([4_294_967_294, 2, 3]));
        // All in one frame.
        let mut image = index(l, &[(0, 0), (0, 1), (0, 2)], 3, 0);
        image.resize(1024, 0);
        copies(l, &image, &nothing(&numbered(0)), 5 + 26 + 4, 3);
    }),
    ("moves: names that move copy no entry", |l| {
        let image = after_a(l, 1024);
        // 65 bytes behind 6: 2 segments, and the name lies in 9 words.
        let long = Row::bytes(&[b'n'; 64], b"1");
        let after =
            copies(l, &image, &sheet(std::slice::from_ref(&long)), 4 + 8 + 1 + 18 + 9 + 4, 0);
        assert_eq!((block(&after), get64(&after, 32)), ([256, 2], 2));
        // With a row more both move.
        let both = sheet(&[long, Row::bytes(b"b", b"2")]);
        let after = copies(l, &image, &both, 4 + 8 + 2 + 18 + 9 + 1 + 18 + 8, 1);
        assert_eq!((block(&after)[1], get64(&after, 32)), (4, 2));
    }),
    ("moves: a refused append answers three zeros", |l| {
        let image = after_a(l, 1024);
        let changed = |at: usize, byte: u8| {
            let mut sheet = sheet_b();
            sheet[at] = byte;
            sheet
        };
        let twice = sheet(&[Row::bytes(b"a", b""), Row::bytes(b"a", b"")]);
        let not_a_number = sheet(&[Row::bytes(b"a", b""), nan(b"b")]);
        // B copies the entry.
        copies(l, &image, &sheet_b(), 43, 1);
        for (sheet, number) in [
            (Vec::new(), 22),
            (changed(0, 65), 22),
            (sheet_b()[..35].to_vec(), 23),
            (changed(16, 12), 24),
            (changed(18, 1), 24),
            (sheet_b()[..59].to_vec(), 25),
            (changed(36, 0), 26),
            (twice, 27),
            (not_a_number, 30),
        ] {
            refused(l, &image, &sheet, number);
        }
        refused(l, &image[..703], &sheet_b(), 29);
        refused(l, &image[..255], &sheet_b(), 1);
        for (at, byte, number) in
            [(0, 0, 3), (44, 2, 4), (9, 255, 6), (25, 255, 7), (273, 0, 12), (286, 99, 13)]
        {
            let mut image = image.clone();
            image[at] = byte;
            refused(l, &image, &sheet_b(), number);
        }
        let mut old = image.clone();
        put32(&mut old, 44, V1_0);
        refused(l, &old, &sheet_b(), 20);
        let mut names = many_names(l, 1024);
        names.resize(names.len() + 4096, 0);
        let place = names.len() as u64;
        put_slots(&mut names, 256, &[Slot::bytes(0, 0, place, 0)]);
        refused(l, &names, &sheet_b(), 28);
        let mut odd = l.blank(1024, 260, 2, 328, 1);
        put_names(&mut odd, 328, [&b"a"[..]]);
        put_slots(&mut odd, 260, &[Slot::bytes(0, 0, 400, 4)]);
        refused(l, &odd, &sheet_b(), 21);
        let full = entries(l, 1024, &[Slot::bytes(GREATEST_FRAME, 0, 384, 4)]);
        refused(l, &full, &sheet_b(), 31);
    }),
    ("moves: A and B behind a stop of B", |l| {
        // 4 + 8 clearing stores, 3 of data, 2 of the name, 16 of the new index: the 34th and the
        // 35th store its location and its slots. The frame is there after the 43rd.
        let image = after_a(l, 2048);
        for stop in 0..43 {
            let (stopped, stores) = l.after(&image, &sheet_b(), stop);
            assert_eq!(stores, Ok([stop, 43, 1]));
            let (free, slots) = match stop {
                0..34 => (1, [256, 2]),
                34 => (1, [576, 2]),
                _ => (3, [576, 4]),
            };
            assert_eq!(block(&stopped), slots);
            // "heater" is listed from the 17th on.
            let (names, name) = if stop < 17 { (8, 2) } else { (7, 0) };
            copies(l, &stopped, &sheet_a(), 4 * free + names + 2 + 4, 0);
            let (moved, copied) = if free < 2 { (18, 1) } else { (0, 0) };
            copies(l, &stopped, &sheet_b(), 4 * free + names + 3 + name + moved + 8, copied);
        }
    }),
    ("moves: stopped and made again, an append may copy again", |l| {
        let mut image = after_a(l, 2048);
        // Up to the new index's location each time, and not to its slots.
        for stores in [[34, 43, 1], [31, 40, 1], [31, 40, 1]] {
            let (stopped, answer) = l.after(&image, &sheet_b(), stores[0]);
            assert_eq!(answer, Ok(stores));
            assert!(block(&stopped)[0] > block(&image)[0]);
            image = stopped;
        }
        // The fourth entry copied, for 2 slots; from the last stop on it is the first.
        assert_eq!(run(l, &mut image, &sheet_b(), 1), [1]);
        assert_eq!(block(&image)[1], 4);
    }),
    ("moves: older images", |l| {
        let image = copies(l, &older(l), &sheet_a(), 4 + 7 + 2 + 4, 0);
        copies(l, &image, &sheet_b(), 7 + 3 + 34 + 8, 4);
        // 1 slot with the names straight behind it.
        let image = accepted(l, &l.blank(1024, 256, 1, 288, 1), &[Row::bytes(b"a", b"1")]);
        copies(l, &image, &nothing(b"a"), 8 + 10 + 4, 1);
    }),
    ("moves: a run of appends", |l| {
        let calls = |limits: &[u64]| -> Vec<Call> {
            let call = |&limit: &u64| Call::new(l.version, nothing(b"a"), limit);
            limits.iter().map(call).collect()
        };
        let start = l.fresh(1024, 1, 1).unwrap();
        // The second, the third and the fifth append move the index, and copy 1, 2 and 4 entries.
        let wholes = [4 + 8 + 1 + 4, 8 + 10 + 4, 8 + 18 + 4, 4 + 8 + 4, 8 + 34 + 4];
        let all = Run::make(l.library, &start, &calls(&[ALL; 5]));
        assert_eq!(all, Ok(1 + wholes.iter().sum::<u64>()));
        // The third stopped before and behind the two words of the header.
        for (stop, again) in [(8 + 16, 30), (8 + 17, 30), (8 + 18, 8 + 8 + 4)] {
            let stopped = Run::make(l.library, &start, &calls(&[ALL, ALL, stop, 0, ALL]));
            assert_eq!(stopped, Ok(1 + wholes[0] + wholes[1] + stop + again));
        }
    }),
];
