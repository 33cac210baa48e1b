//! Appends in turns, held to their store list: under the premise of W-208 every byte, and without it
//! what is promised still. The random groups of turns are here too.

use crate::check::{hex, Check};
use crate::generate;
use crate::images::{get64, put32, put64, sheet, version, Row};
use crate::library::{State, REFUSED, STATE_WORDS};
use crate::model::Model;
use crate::random::Rng;

const MODEL: Model = Model { fault: None };

/// The header's words 8 to 32.
pub const HEADER_WORDS: [usize; 4] = [8, 16, 24, 32];

/// An append that has begun, as the papers have it: the second model's list of its stores, and what
/// its next turn expects.
#[derive(Clone)]
pub struct Begun {
    lengths: [usize; 2],
    header: [u64; 4],
    stores: Vec<(usize, [u8; 8])>,
    done: usize,
}

impl Begun {
    /// `None` where the append is refused.
    pub fn new(image: &[u8], sheet: &[u8]) -> Option<Begun> {
        let stores = MODEL.store_list(image, sheet).ok()?;
        let header = HEADER_WORDS.map(|at| get64(image, at));
        Some(Begun { lengths: [image.len(), sheet.len()], header, stores, done: 0 })
    }

    pub fn whole(&self) -> u64 {
        self.stores.len() as u64
    }

    pub fn rest(&self) -> u64 {
        self.whole() - self.done as u64
    }

    pub fn expects(&self, image: &[u8], sheet: &[u8]) -> bool {
        [image.len(), sheet.len()] == self.lengths
            && HEADER_WORDS.map(|at| get64(image, at)) == self.header
    }

    /// The next stores, at most so many; what is expected moves with them.
    pub fn next(&mut self, limit: u64) -> &[(usize, [u8; 8])] {
        let from = self.done;
        self.done += limit.min(self.rest()) as usize;
        let next = &self.stores[from..self.done];
        for (at, word) in next {
            if let Some(header) = HEADER_WORDS.iter().position(|header| header == at) {
                self.header[header] = u64::from_le_bytes(*word);
            }
        }
        next
    }
}

/// Whether nothing else has written the image and the sheet since the beginning.
#[derive(Clone, Copy, PartialEq, Eq)]
enum Premise {
    Holds,
    Broken,
}

/// An append in turns on the library's copy of the image: the state that it gave last, and what the
/// papers say of it.
struct Turns {
    state: State,
    begun: Begun,
    premise: Premise,
}

impl Turns {
    fn begin(check: &mut Check, sheet: &[u8]) -> Option<Turns> {
        let begun = Begun::new(check.lent(), sheet);
        let mut state = [0x5555; STATE_WORDS];
        let (number, out) = check.begin(&mut state, sheet);
        let whole = begun.as_ref().map_or(0, Begun::whole);
        if (number == 0) != begun.is_some() || out[0] != whole {
            check.fail(|| format!("begin: {number} {out:?}, {whole} stores, sheet {}", hex(sheet)));
        }
        begun.map(|begun| Turns { state, begun, premise: Premise::Holds })
    }

    /// A turn: "it refuses, with 32, exactly if" it does not find what it expects, and then changes
    /// nothing; else it makes the next stores. Without the premise it makes as many, and only their
    /// words change; what is stored is free.
    fn turn(&mut self, check: &mut Check, sheet: &[u8], limit: u64) {
        let before = check.lent().to_vec();
        let state = self.state;
        let answer = check.turn(&mut self.state, sheet, limit);
        let rest = self.begun.rest();
        let expected = match self.begun.expects(&before, sheet) {
            true => (0, limit.min(rest)),
            false => (32, 0),
        };
        check.compared(expected.0);
        let after = check.lent();
        let wrong = if answer != expected {
            Some("answers otherwise")
        } else if expected.0 == 32 {
            let changed = *after != before || self.state != state;
            changed.then_some("a refused turn changed the image or the state")
        } else {
            let stores = self.begun.next(limit);
            let mut left = before.clone();
            for &(at, word) in stores {
                let now = after[at..at + 8].try_into().unwrap();
                let stored = if self.premise == Premise::Holds { word } else { now };
                left[at..at + 8].copy_from_slice(&stored);
            }
            (left != *after).then_some("other bytes than its stores'")
        };
        if let Some(what) = wrong {
            let broken = self.premise == Premise::Broken;
            check.fail(|| {
                let (image, sheet) = (hex(&before), hex(sheet));
                format!(
                    "turn limit {limit} with {rest} to do: {what}\n  answers  {answer:?}\n  expected \
                     {expected:?}\n  premise broken {broken}\n  image {image}\n  sheet {sheet}"
                )
            });
        }
    }

    /// To the end and behind it.
    fn end(&mut self, check: &mut Check, sheet: &[u8]) {
        for limit in [u64::MAX, u64::MAX, 0, 1] {
            self.turn(check, sheet, limit);
        }
    }
}

/// A turn on words that no append gave, or not for this image: 0 or 32, no more stores than the limit,
/// and nothing changed by 32. That nothing outside is touched, the pages about the slices see.
fn torn(check: &mut Check, state: &State, sheet: &[u8], limit: u64) {
    let before = check.lent().to_vec();
    let mut given = *state;
    let (number, made) = check.turn(&mut given, sheet, limit);
    check.comparisons += 1;
    let good = match number {
        0 => made <= limit,
        32 => made == 0 && given == *state && *check.lent() == before,
        _ => false,
    };
    if !good {
        let (image, sheet) = (hex(&before), hex(sheet));
        check.fail(|| {
            format!(
                "turn limit {limit} on any words: {number}, {made} stores\n  state {state:?}\n  image \
                 {image}\n  sheet {sheet}"
            )
        });
    }
}

fn limit(rng: &mut Rng, rest: u64) -> u64 {
    match rng.below(10) {
        0 => 0,
        1 | 2 => 1,
        3 => u64::MAX,
        4 => rng.border(),
        5 => rest,
        6 => rest.saturating_sub(1),
        _ => rng.number() % (rest + 2),
    }
}

/// An image that takes appends, mostly one with frames, and some rows for it.
fn start(rng: &mut Rng) -> (Vec<u8>, Vec<Row>) {
    let (mut image, known) = match rng.below(4) {
        0 => (generate::growing(rng), Vec::new()),
        1 => generate::older(rng),
        2 => generate::gapped(rng),
        _ => generate::grown(rng),
    };
    let room = rng.pick(&[0, 500, 2000, 4000]);
    image.extend(rng.bytes(room));
    let mut rows = generate::rows(rng, version(&image), &known);
    rows.truncate(rng.pick(&[1, 2, 4, 64]));
    // Often a long name, so that the name block moves too.
    if rng.chance(30) {
        let length = rng.between(60, 200);
        rows.push(Row::bytes(&vec![b'l'; length], b"1"));
    }
    (image, rows)
}

/// Turns with any limits, to the end and behind it. Between them the image is read, and appends that
/// change nothing are made: refused ones, those with limit 0, and beginnings. An older state is
/// refused once the header's words have changed, whatever the limit.
pub fn under_premise(check: &mut Check, rng: &mut Rng) {
    let (image, rows) = start(rng);
    let sheet = sheet(&rows);
    check.load(&image);
    let Some(mut turns) = Turns::begin(check, &sheet) else {
        return;
    };
    let (mut older, mut refused) = (Vec::new(), [7; STATE_WORDS]);
    for _ in 0..rng.between(2, 12) {
        older.push((turns.state, turns.begun.clone()));
        let limit = limit(rng, turns.begun.rest());
        turns.turn(check, &sheet, limit);
        match rng.below(6) {
            0 => drop(Turns::begin(check, &sheet)),
            1 => {
                // Where it was a state before, it is none now.
                refused = if rng.chance(50) { turns.state } else { refused };
                let half = &sheet[..sheet.len() - 1];
                // 25, or 31 once the last frame is there.
                let number = MODEL.store_list(check.lent(), half).map_or_else(|n| n, |_| 0);
                let begun = check.begin(&mut refused, half);
                let turn = check.turn(&mut refused, &sheet, limit);
                if (begun, turn, refused) != ((number, [0; 2]), (32, 0), REFUSED) {
                    check.fail(|| format!("a refused beginning: {begun:?}, its turn {turn:?}"));
                }
            }
            2 => check.append_nothing(&sheet),
            3 => {
                let (state, begun) = rng.pick_ref(&older).clone();
                let mut other = Turns { state, begun, premise: Premise::Broken };
                other.turn(check, &sheet, 0);
                if !other.begun.expects(check.lent(), &sheet) {
                    other.turn(check, &sheet, limit);
                }
            }
            _ => {}
        }
    }
    turns.end(check, &sheet);
}

/// Turns between which anything is written to the image or the sheet, lengths or header words among
/// it, and put back or not.
pub fn without_premise(check: &mut Check, rng: &mut Rng) {
    let (image, rows) = start(rng);
    let mut sheet = sheet(&rows);
    check.load(&image);
    let Some(mut turns) = Turns::begin(check, &sheet) else {
        return;
    };
    for _ in 0..rng.between(2, 10) {
        let most = limit(rng, turns.begun.rest());
        if rng.chance(40) {
            refused_for_a_while(check, rng, &mut turns, &sheet, most);
        }
        if rng.chance(60) {
            turns.premise = Premise::Broken;
            change(check, rng, &rows, &mut sheet);
        }
        turns.turn(check, &sheet, most);
    }
    turns.end(check, &sheet);
    refused_for_a_while(check, rng, &mut turns, &sheet, 1);
}

/// Changes a length or a word of the header, so that turns are refused; and puts it back.
fn refused_for_a_while(
    check: &mut Check,
    rng: &mut Rng,
    turns: &mut Turns,
    sheet: &[u8],
    most: u64,
) {
    let image = check.lent().to_vec();
    let mut changed = image.clone();
    let mut other = sheet.to_vec();
    match rng.below(6) {
        0 => {
            changed.pop();
        }
        1 => changed.push(0),
        2 => {
            other.pop();
        }
        3 => other.push(0),
        // To nothing at all, or a slice without a header.
        4 => match rng.below(3) {
            0 => other.clear(),
            1 => changed.truncate(rng.below(48)),
            _ => changed.truncate(rng.below(256)),
        },
        _ => {
            let at = rng.pick(&HEADER_WORDS);
            let before = get64(&changed, at);
            let bit = before ^ 1 << rng.below(64);
            put64(&mut changed, at, [bit, rng.border()][rng.below(2)]);
        }
    }
    check.load(&changed);
    for limit in [0, 1, most] {
        turns.turn(check, &other, limit);
    }
    check.load(&image);
}

/// The sheet of the rows from the last to the first: as long, and all at other places.
fn backwards(rows: &[Row]) -> Vec<u8> {
    let rows: Vec<_> = rows.iter().rev().cloned().collect();
    sheet(&rows)
}

/// Writes to the image or the sheet, and leaves the lengths and the words that are compared.
fn change(check: &mut Check, rng: &mut Rng, rows: &[Row], sheet: &mut [u8]) {
    let mut image = check.lent().to_vec();
    let header: [u8; 32] = image[8..40].try_into().unwrap();
    let (names, index) = (get64(&image, 24) as usize, get64(&image, 8) as usize);
    match rng.below(13) {
        0 => image[rng.below(8)] ^= 1 << rng.below(8),
        1 => put32(&mut image, 40, rng.number() as u32),
        2 => put32(&mut image, 44, rng.number() as u32),
        3 => rng.fill(&mut image),
        4 => image[40..].fill(rng.pick(&[0, b'a', 0xFF])),
        // The end of the names, or of the entries.
        5 => image[names..].iter_mut().take(64).for_each(|byte| *byte = rng.pick(&[0, b'a'])),
        6 => {
            let from = image.len().min(index + 32 * rng.below(4));
            let value = rng.pick(&[0, 0xFF]);
            image[from..].iter_mut().take(rng.pick(&[32, 64, 128])).for_each(|byte| *byte = value);
        }
        7 => rng.fill(sheet),
        8 => sheet.fill(rng.pick(&[0, 1, 0xFF])),
        9 => generate::damage(rng, sheet),
        // Of the table: N, M, type or length of a name.
        10 => {
            let rows = (sheet.len() - 4) / 16;
            let at = 4 + 16 * rng.below(rows.min(4)) + rng.pick(&[0, 1, 6, 7, 8, 11, 12, 13, 14]);
            sheet[at] = rng.byte();
        }
        11 => sheet.copy_from_slice(&backwards(rows)),
        _ => {
            let at = rng.below(image.len());
            image[at] = rng.byte();
        }
    }
    image[8..40].copy_from_slice(&header);
    check.load(&image);
}

/// Words that no append gave: some changed, or all, or of two states; and states of other appends.
pub fn torn_states(check: &mut Check, rng: &mut Rng) {
    let (image, rows) = start(rng);
    let sheets = [sheet(&rows), backwards(&rows), sheet(&rows[..rows.len().div_ceil(2)])];
    let mut states = vec![REFUSED];
    for sheet in &sheets {
        check.load(&image);
        let Some(mut turns) = Turns::begin(check, sheet) else {
            return;
        };
        states.push(turns.state);
        for _ in 0..2 {
            let limit = limit(rng, turns.begun.rest());
            turns.turn(check, sheet, limit);
            states.push(turns.state);
        }
    }
    let lent = check.lent().to_vec();
    for _ in 0..12 {
        let mut state = rng.pick(&states);
        let other = rng.pick(&states);
        // The words that are used stand at the front, so more of the changes are made there.
        let used = rng.pick(&[8, 24, 24 + 6 * rows.len().min(60), STATE_WORDS]);
        match rng.below(8) {
            0 => state = other,
            1 => {
                let cut = rng.below(used);
                state[cut..].copy_from_slice(&other[cut..]);
            }
            2 => state.iter_mut().for_each(|word| *word = rng.number()),
            3 => state[..used].iter_mut().for_each(|word| *word = rng.border()),
            4 => state.fill(rng.pick(&[1, 255, 256, 1 << 32, 1 << 63, u64::MAX])),
            5 => {
                for _ in 0..3 {
                    state[rng.below(used)] = rng.border();
                }
            }
            6 => {
                let at = rng.below(used);
                state[at] =
                    state[at].wrapping_add(rng.pick(&[1, 8, 64, u64::MAX, 1 << 32, 1 << 63]));
            }
            _ => {
                state[rng.below(used)] =
                    rng.pick(&[0, 1, 64, 65, 255, 256, image.len() as u64, u64::MAX])
            }
        }
        let sheet = rng.pick_ref(&sheets);
        for limit in [0, limit(rng, 40), u64::MAX] {
            torn(check, &state, sheet, limit);
        }
        if rng.chance(50) {
            check.load(if rng.chance(50) { &lent } else { &image });
        }
    }
}
