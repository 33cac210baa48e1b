//! W-208, worked out by hand: appends in turns, the words of the header that each turn expects, the
//! words that its stores go to, and what is safe where others write between turns.

use crate::ask::{Answer, Ask};
use crate::cases::{fresh, nothing, numbered, refused, sheet_a, sheet_b, Case, Versioned, ALL};
use crate::images::{get64, put32, put64, sheet, Row, V1_0};
use crate::library::{State, REFUSED, STATE_WORDS};
use crate::turns::HEADER_WORDS;

/// Where the stores of A go on the fresh image: two slots and a segment are cleared; data, the name,
/// and the entry with its location last.
const PLACES_A: [usize; 23] = [
    256, 264, 272, 280, 288, 296, 304, 312, 320, 328, 336, 344, 352, 360, 368, 376, 384, 392, 320,
    256, 264, 280, 272,
];

/// Those of B behind A: a slot and the names are cleared; data at 448 and 512; "heater" lies in two
/// words, the higher one first; the index moves to 576; heater's entry, then probe's.
const PLACES_B: [usize; 43] = [
    288, 296, 304, 312, 320, 328, 336, 344, 352, 360, 368, 376, 448, 456, 512, 328, 320, 576, 584,
    592, 600, 608, 616, 624, 632, 640, 648, 656, 664, 672, 680, 688, 696, 8, 16, 640, 648, 664,
    656, 608, 616, 632, 624,
];

/// The header's words 8 to 32 after so many stores of B: the 34th stores the first of them, the 35th the
/// second.
fn header_b(stores: usize) -> [u64; 4] {
    match stores {
        0..34 => [256, 2, 320, 1],
        34 => [576, 2, 320, 1],
        _ => [576, 4, 320, 1],
    }
}

fn header(image: &[u8]) -> [u64; 4] {
    HEADER_WORDS.map(|at| get64(image, at))
}

/// The image that A leaves.
fn after_a(l: &Versioned) -> Vec<u8> {
    l.after(&fresh(l), &sheet_a(), ALL).0
}

/// A and B, each with the image before it and the places of its stores.
fn both(l: &Versioned) -> [(Vec<u8>, Vec<u8>, &'static [usize]); 2] {
    [(fresh(l), sheet_a(), &PLACES_A), (after_a(l), sheet_b(), &PLACES_B)]
}

/// Rows that move both blocks: a name of 64 bytes, and two more.
fn movers() -> Vec<u8> {
    let long = Row::bytes(&[b'n'; 64], b"1");
    sheet(&[long, Row::bytes(b"b", b"2"), Row::bytes(b"c", b"3")])
}

/// The state of a begun append.
fn begun(l: &Versioned, image: &[u8], sheet: &[u8], whole: u64, copied: u64) -> State {
    let (state, answer) = l.begun(image, sheet);
    assert_eq!(answer, Ok([whole, copied]));
    state
}

/// A turn on copies of state and image: what it leaves. So each lies elsewhere than the one before.
fn turned(
    l: &Versioned,
    state: &State,
    image: &[u8],
    sheet: &[u8],
    limit: u64,
) -> (Answer<u64>, State, Vec<u8>) {
    let (mut state, mut image) = (*state, image.to_vec());
    let made = l.go_on(&mut state, &mut image, sheet, limit);
    (made, state, image)
}

/// At every limit the turn is refused with 32, and changes neither image nor state; out is 0.
fn unexpected(l: &Versioned, state: &State, image: &[u8], sheet: &[u8]) {
    for limit in [0, 1, 5, ALL] {
        let (mut after, mut given, mut out) = (image.to_vec(), *state, [0x5555]);
        let number = l.turn(&mut given, &mut after, sheet, limit, &mut out);
        assert_eq!((number, out), (32, [0]), "limit {limit}");
        assert!(after == image && given == *state, "a refusal changes nothing");
    }
}

/// The turn is not refused, makes so many stores, and changes no word but these.
fn touches(
    l: &Versioned,
    (state, image, sheet): (&mut State, &mut [u8], &[u8]),
    limit: u64,
    places: &[usize],
) {
    let before = image.to_vec();
    assert_eq!(l.go_on(state, image, sheet, limit), Ok(places.len() as u64));
    for at in (0..before.len()).step_by(8).filter(|at| !places.contains(at)) {
        assert_eq!(image[at..at + 8], before[at..at + 8], "the word at {at}");
    }
}

/// What others may write to between turns, and no turn sees: all but the words 8 to 32.
fn unseen(image: &[u8]) -> Vec<Vec<u8>> {
    let changed = |from: usize, to: usize, byte: u8| {
        let mut image = image.to_vec();
        image[from..to].fill(byte);
        image
    };
    let mut all = vec![
        changed(0, 8, 0),
        changed(40, 41, 9),
        changed(40, 44, 0xFF),
        changed(44, 48, 0),
        changed(44, 48, 0xFF),
        changed(48, 176, b'x'),
        changed(176, 256, 1),
        // Index and names, and what lies behind them.
        changed(256, 384, 0),
        changed(256, 384, 0xFF),
        changed(320, 384, b'n'),
        changed(256, image.len(), 0),
        changed(256, image.len(), 0xFF),
        changed(40, image.len(), 0x11),
    ];
    let mut old = image.to_vec();
    put32(&mut old, 44, V1_0);
    all.push(old);
    all
}

/// The same in both versions that take appends.
pub const CASES: &[Case] = &[
    ("turns: every first limit of A and of B, and the rest", |l| {
        for (image, sheet, places) in both(l) {
            let whole = places.len() as u64;
            let copied = whole / 43;
            for first in 0..=whole {
                let state = begun(l, &image, &sheet, whole, copied);
                let (made, state, stopped) = turned(l, &state, &image, &sheet, first);
                assert_eq!(made, Ok(first));
                assert_eq!(
                    (stopped.clone(), Ok([first, whole, copied])),
                    l.after(&image, &sheet, first)
                );
                let (made, state, after) = turned(l, &state, &stopped, &sheet, ALL);
                assert_eq!(made, Ok(whole - first));
                assert_eq!(after, l.after(&image, &sheet, ALL).0);
                for limit in [0, 1, ALL] {
                    let (made, _, same) = turned(l, &state, &after, &sheet, limit);
                    assert_eq!((made, same == after), (Ok(0), true), "after the end");
                }
            }
        }
    }),
    ("turns: one store at a time, at its place", |l| {
        for (image, sheet, places) in both(l) {
            let mut state = begun(l, &image, &sheet, places.len() as u64, places.len() as u64 / 43);
            let mut last = image.clone();
            for (number, &place) in places.iter().enumerate() {
                touches(l, (&mut state, &mut last, &sheet), 0, &[]);
                touches(l, (&mut state, &mut last, &sheet), 1, &[place]);
                assert_eq!(last, l.after(&image, &sheet, number as u64 + 1).0);
                let frames = l.counts(&last).map(|counts| counts[0]);
                let ended = number + 1 == places.len();
                assert_eq!(frames, l.counts(&image).map(|before| before[0] + u64::from(ended)));
            }
            assert_eq!(l.go_on(&mut state, &mut last, &sheet, 1), Ok(0));
        }
    }),
    ("turns: limits are added without wrap", |l| {
        let (image, sheet) = (after_a(l), sheet_b());
        let after = l.after(&image, &sheet, ALL).0;
        for limits in [
            [0, 0, ALL],
            [ALL, ALL, ALL],
            [7, ALL - 6, 0],
            [7, ALL, 1],
            [1 << 63, 1 << 63, 0],
            [42, ALL - 41, ALL],
            [1, 41, ALL],
            [3, 1 << 32, 1 << 32],
        ] {
            let (mut state, mut last) = (begun(l, &image, &sheet, 43, 1), image.clone());
            let mut done = 0;
            for limit in limits {
                let made = l.go_on(&mut state, &mut last, &sheet, limit);
                assert_eq!(made, Ok(limit.min(43 - done)), "{limits:?}");
                done += limit.min(43 - done);
            }
            assert_eq!((done, last == after), (43, true));
        }
    }),
    ("turns: what is expected moves with the stores", |l| {
        let (image, sheet) = (after_a(l), sheet_b());
        let mut moments = vec![(begun(l, &image, &sheet, 43, 1), image)];
        for stores in 0..43 {
            let (state, image) = &moments[stores];
            let (made, state, image) = turned(l, state, image, &sheet, 1);
            assert_eq!((made, header(&image)), (Ok(1), header_b(stores + 1)));
            moments.push((state, image));
        }
        // A copy of a state, from before or behind, on each of the images.
        for (then, (state, _)) in moments.iter().enumerate() {
            for (now, (_, image)) in moments.iter().enumerate() {
                if header_b(then) == header_b(now) {
                    let (made, given, same) = turned(l, state, image, &sheet, 0);
                    assert_eq!((made, given == *state, same == *image), (Ok(0), true, true));
                } else {
                    unexpected(l, state, image, &sheet);
                }
            }
        }
    }),
    ("turns: both blocks move, and the header's four words", |l| {
        // 16 words cleared, 3 of data; 16 words of names at 576, and word 24 is stored by the 36th; 8, 1
        // and 1 words of new names; 16 words of slots at 704, and word 8 by the 64th; 12 of entries.
        let (image, sheet) = (fresh(l), movers());
        let expected = |stores: u64| match stores {
            0..36 => [256, 2, 320, 1],
            36 => [256, 2, 576, 1],
            37..64 => [256, 2, 576, 2],
            64 => [704, 2, 576, 2],
            _ => [704, 4, 576, 2],
        };
        let mut state = begun(l, &image, &sheet, 77, 0);
        let mut last = image.clone();
        for stores in 0..77 {
            assert_eq!(header(&last), expected(stores));
            for at in HEADER_WORDS {
                let mut other = last.clone();
                put64(&mut other, at, get64(&last, at) + 1);
                unexpected(l, &state, &other, &sheet);
            }
            assert_eq!(l.go_on(&mut state, &mut last, &sheet, 1), Ok(1));
            assert_eq!(last, l.after(&image, &sheet, stores + 1).0);
        }
        assert_eq!(header(&last), expected(77));
        assert_eq!(l.counts(&last), Ok([1, 3, 3]));
    }),
    ("turns: a refused beginning's are refused", |l| {
        let image = after_a(l);
        let changed = |at: usize, byte: u8| {
            let mut image = image.clone();
            image[at] = byte;
            image
        };
        let mut nan = sheet_b();
        nan[43..45].fill(0xFF);
        for (other, sheet, number) in [
            (image[..255].to_vec(), sheet_b(), 1),
            (changed(0, 0), sheet_b(), 3),
            (changed(44, 2), sheet_b(), 4),
            (changed(9, 255), sheet_b(), 6),
            (changed(273, 0), sheet_b(), 12),
            (image.clone(), Vec::new(), 22),
            (image.clone(), sheet_b()[..35].to_vec(), 23),
            (image.clone(), sheet_b()[..59].to_vec(), 25),
            (image.clone(), nan, 30),
            (image[..703].to_vec(), sheet_b(), 29),
        ] {
            refused(l, &other, &sheet, number);
            // Whatever the words were before.
            for mut state in [[0x5555; STATE_WORDS], begun(l, &image, &sheet_b(), 43, 1)] {
                let mut out = [0x5555; 2];
                let answer = l.begin(&other, &sheet, &mut state, &mut out);
                assert_eq!((answer, out, state), (number, [0; 2], REFUSED));
                unexpected(l, &state, &other, &sheet);
                unexpected(l, &state, &image, &sheet_b());
            }
        }
        for (image, sheet) in [(&[][..], &[][..]), (&[0; 40], b""), (&[0; 256], b"")] {
            unexpected(l, &REFUSED, image, sheet);
        }
    }),
    ("turns: lengths of image and sheet", |l| {
        for (image, sheet, places) in both(l) {
            let whole = places.len() as u64;
            let (mut state, mut last) = (begun(l, &image, &sheet, whole, whole / 43), image);
            let longer = [&sheet[..], &[0]].concat();
            for _ in 0..=whole + 1 {
                for (other, sheet) in [
                    (&last[..1023], &sheet[..]),
                    (&[&last[..], &[0]].concat(), &sheet),
                    (&last[..256], &sheet),
                    (&last[..39], &sheet),
                    (&[], &sheet),
                    (&last, &sheet[..sheet.len() - 1]),
                    (&last, &longer),
                    (&last, &[]),
                    (&[], &[]),
                ] {
                    unexpected(l, &state, other, sheet);
                }
                // With its own it goes on.
                l.go_on(&mut state, &mut last, &sheet, 1).unwrap();
            }
            let frames = l.counts(&last).map(|counts| counts[0]);
            assert_eq!(frames, Ok(if whole == 43 { 2 } else { 1 }));
        }
    }),
    ("turns: every byte of the four words", |l| {
        let (image, sheet) = (after_a(l), sheet_b());
        let (mut state, mut last) = (begun(l, &image, &sheet, 43, 1), image);
        // Before the first store, between the two of the header, and after the end.
        for limit in [34, 1, ALL, 0] {
            for at in 8..40 {
                for bit in [1, 0x80] {
                    let mut other = last.clone();
                    other[at] ^= bit;
                    unexpected(l, &state, &other, &sheet);
                }
            }
            l.go_on(&mut state, &mut last, &sheet, limit).unwrap();
        }
        assert_eq!(l.counts(&last), Ok([2, 2, 3]));
    }),
    ("turns: nothing else of the image is compared, and no place moves", |l| {
        for (image, sheet, places) in both(l) {
            let whole = places.len() as u64;
            for first in [0, 1, 12, 17, 20, whole - 9, whole - 8, whole - 1, whole] {
                let state = begun(l, &image, &sheet, whole, whole / 43);
                let (_, state, stopped) = turned(l, &state, &image, &sheet, first);
                for mut other in unseen(&stopped) {
                    let (mut state, next) = (state, &places[first as usize..]);
                    let (now, then) = next.split_at(next.len().min(3));
                    touches(l, (&mut state, &mut other, &sheet), now.len() as u64, now);
                    touches(l, (&mut state, &mut other, &sheet), ALL, then);
                    touches(l, (&mut state, &mut other, &sheet), ALL, &[]);
                }
            }
        }
    }),
    ("turns: the sheet's table is not read for places", |l| {
        let (image, sheet) = (after_a(l), sheet_b());
        for first in [0, 12, 13, 14, 15, 16, 33, 35, 39] {
            let state = begun(l, &image, &sheet, 43, 1);
            let (_, state, stopped) = turned(l, &state, &image, &sheet, first);
            // Byte 11 is the highest of the first row's N. All bytes of table and bodies, one by one.
            for at in 0..sheet.len() {
                for byte in [0, 1, 0xFF] {
                    let (mut state, mut image, mut other) = (state, stopped.clone(), sheet.clone());
                    other[at] = byte;
                    let rest = &PLACES_B[first as usize..];
                    touches(l, (&mut state, &mut image, &other), ALL, rest);
                }
            }
            let (mut state, mut image, other) = (state, stopped, vec![0xFF; sheet.len()]);
            touches(l, (&mut state, &mut image, &other), ALL, &PLACES_B[first as usize..]);
        }
    }),
    ("turns: put back what was changed, and they go on", |l| {
        let (image, sheet) = (after_a(l), sheet_b());
        let (mut state, mut last) = (begun(l, &image, &sheet, 43, 1), image.clone());
        for stores in 0..43 {
            let mut other = last.clone();
            other[16] ^= 4;
            unexpected(l, &state, &other, &sheet);
            unexpected(l, &state, &last, &sheet[1..]);
            assert_eq!(l.go_on(&mut state, &mut last, &sheet, 1), Ok(1));
            assert_eq!(last, l.after(&image, &sheet, stores + 1).0);
        }
    }),
    ("turns: two beginnings are harmless until one of them stores", |l| {
        let image = after_a(l);
        let first = begun(l, &image, &sheet_b(), 43, 1);
        let second = begun(l, &image, &nothing(b"probe"), 4 + 8 + 4, 0);
        let (made, first, after) = turned(l, &first, &image, &sheet_b(), ALL);
        assert_eq!((made, &after), (Ok(43), &l.after(&image, &sheet_b(), ALL).0));
        // B has moved the index, and the other one is refused from there on.
        unexpected(l, &second, &after, &nothing(b"probe"));
        let (made, second, after) = turned(l, &second, &image, &nothing(b"probe"), ALL);
        assert_eq!((made, &after), (Ok(16), &l.after(&image, &nothing(b"probe"), ALL).0));
        // That one has moved no block: 32 cannot see it. The first one is behind its end.
        let other = begun(l, &image, &sheet_b(), 43, 1);
        let (made, _, over) = turned(l, &other, &after, &sheet_b(), 1);
        assert_eq!((made, over != after), (Ok(1), true));
        unexpected(l, &first, &after, &sheet_b());
        assert_eq!(turned(l, &second, &after, &nothing(b"probe"), ALL).0, Ok(0));
    }),
    ("turns: appends that change nothing break nothing", |l| {
        let (image, sheet) = (after_a(l), sheet_b());
        let (mut state, mut last) = (begun(l, &image, &sheet, 43, 1), image.clone());
        for stores in 0..43 {
            assert!(l.put(&mut last, &sheet, 0).is_ok());
            assert_eq!(l.put(&mut last, b"", ALL), Err(22));
            assert_eq!(l.put(&mut last, &sheet_a()[..36], ALL), Err(25));
            assert_eq!(l.begun(&last, b"").1, Err(22));
            assert!(l.begun(&last, &sheet_a()).1.is_ok());
            l.listing(&last);
            assert_eq!(l.go_on(&mut state, &mut last, &sheet, 1), Ok(1));
            assert_eq!(last, l.after(&image, &sheet, stores + 1).0);
        }
    }),
    ("turns: 64 rows, one store at a time", |l| {
        let image = l.fresh(16_384, 1, 8).unwrap();
        let rows: Vec<_> = (0..64).map(|n| Row::bytes(&numbered(n), &[n as u8; 9])).collect();
        let sheet = sheet(&rows);
        // As the moves' 64 rows, with a word of data more each.
        let whole = 4 + 64 + 128 + 64 + 258 + 256;
        let (mut state, mut last) = (begun(l, &image, &sheet, whole, 0), image.clone());
        for stores in 0..whole {
            assert_eq!(l.go_on(&mut state, &mut last, &sheet, 1), Ok(1));
            if stores % 7 == 0 || stores + 1 == whole {
                assert_eq!(last, l.after(&image, &sheet, stores + 1).0);
            }
        }
        assert_eq!(l.counts(&last), Ok([1, 64, 64]));
    }),
    ("turns: any words are safe as a state", |l| {
        let (image, sheet) = (after_a(l), sheet_b());
        let state = begun(l, &image, &sheet, 43, 1);
        let (_, later, stopped) = turned(l, &state, &image, &sheet, 20);
        let try_words = |words: &State, image: &[u8]| {
            for limit in [0, 1, ALL] {
                let (made, given, after) = turned(l, words, image, &sheet, limit);
                match made {
                    Ok(made) => assert!(made <= limit),
                    made => {
                        assert_eq!(made, Err(32));
                        assert!(given == *words && after == image);
                    }
                }
            }
        };
        for (state, image) in [(state, &image), (later, &stopped)] {
            for word in 0..STATE_WORDS {
                for number in [0, 1, 7, 64, 65, 255, 1 << 20, 1 << 32, 1 << 63, ALL - 7, ALL] {
                    let mut words = state;
                    words[word] = number;
                    try_words(&words, image);
                    words[word] = state[word].wrapping_add(number);
                    try_words(&words, image);
                }
                let mut words = state;
                words[word..].fill(ALL);
                try_words(&words, image);
                words[..word].copy_from_slice(&later[..word]);
                try_words(&words, image);
            }
        }
        for number in [1, 2, 255, 256, 1024, 1 << 32, 1 << 63, ALL] {
            try_words(&[number; STATE_WORDS], &image);
        }
    }),
];
