//! "A run of appends", word for word, on the library under test alone. Each append is made as one call
//! and as a beginning with turns, "one append with their summed limit".

use crate::ask::Ask;
use crate::check::hex;
use crate::images::{
    frames_to_ask, get64, holds_nan, lawful_rows, size, Row, GREATEST_FRAME, V1_0,
};
use crate::library::{Library, State, REFUSED};
use crate::moving::{self, Moving};
use std::collections::BTreeMap;

/// A call of a run: any bytes as a sheet, with the rows of one that is lawful for the run's image
/// but for NaNs, and a limit.
pub struct Call {
    version: u32,
    sheet: Vec<u8>,
    rows: Option<Vec<Row>>,
    limit: u64,
}

impl Call {
    /// No append changes the version, so that of the run's start is that of every call.
    pub fn new(version: u32, sheet: Vec<u8>, limit: u64) -> Call {
        Call { version, rows: lawful_rows(&sheet, version), sheet, limit }
    }

    fn holds_nan(&self) -> bool {
        self.rows.iter().flatten().any(Row::holds_nan)
    }

    /// What refuses it in an image that opens, for certain: its version, where its blocks are, that
    /// no frame is left, or the sheet. The last ones may: that the image is no place for it.
    fn refusals(&self, image: &[u8], full: bool) -> (bool, &'static [u64]) {
        let odd = [8, 24].iter().any(|&at| !get64(image, at).is_multiple_of(8));
        match self.rows {
            _ if self.version == V1_0 => (true, &[20]),
            _ if odd => (true, &[21]),
            _ if full => (true, &[31]),
            None => (true, &[22, 23, 24, 25, 26, 27]),
            Some(_) if self.holds_nan() => (true, &[30]),
            Some(_) => (false, &[28, 29]),
        }
    }
}

/// What a lookup finds: an entry in all its fields, and its chunk's bytes.
type Found = Option<([u64; 7], Vec<u8>)>;

/// What was found in a frame when it was first looked at, for each name; `None` where nothing was.
type Frame = Vec<Found>;

pub struct Run<'l> {
    library: &'l dyn Library,
    /// Every name that the run may ask for: listed at the start, of any sheet, and of none.
    names: Vec<Vec<u8>>,
    /// The number of frames: the start's, and one for each last store made.
    count: u64,
    /// The frames that are looked at, those of the run among them. No entry may name another.
    frames: BTreeMap<u64, Frame>,
    /// Whether the start has no NaN: then no moment has one.
    free_of_nans: bool,
    /// The whole appends since the start or the last stop.
    moving: Moving,
    pub moments: u64,
}

impl<'l> Run<'l> {
    /// Makes the calls, one after the other, from an image that opens, and looks at each moment. The
    /// error says which of the paper's words failed, and on what.
    pub fn make(library: &'l dyn Library, start: &[u8], calls: &[Call]) -> Result<u64, String> {
        let counts = library.counts(start);
        let [count, names, _] = counts.map_err(|n| format!("the start is refused with {n}"))?;
        let listed = (0..names).map(|n| library.nth_name(start, n).unwrap_or_default().to_vec());
        let rows = calls.iter().flat_map(|call| call.rows.iter().flatten());
        let mut all: Vec<_> = listed.chain(rows.map(|row| row.name.clone())).collect();
        all.push(b"no such name".to_vec());
        all.sort();
        all.dedup();

        let mut run = Run {
            library,
            names: all,
            count,
            frames: BTreeMap::new(),
            free_of_nans: false,
            moving: Moving::from(start),
            moments: 1,
        };
        let entries = run.entries(start)?;
        run.free_of_nans = !entries.iter().any(|entry| chunk_holds_nan(start, entry));
        for frame in frames_to_ask(&frames_of(&entries), count) {
            let found = run.look(start, frame)?;
            run.frames.insert(frame, found);
        }
        let mut image = start.to_vec();
        for (number, call) in calls.iter().enumerate() {
            let before = image.clone();
            run.call(&mut image, call).map_err(|what| {
                let (image, sheet) = (hex(&before), hex(&call.sheet));
                format!(
                    "run of appends, call {number}, limit {}: {what}\n  image {image}\n  sheet {sheet}",
                    call.limit
                )
            })?;
        }
        Ok(run.moments)
    }

    fn call(&mut self, image: &mut Vec<u8>, call: &Call) -> Result<(), String> {
        let before = image.clone();
        let mut out = [0x5555; 3];
        let number = self.library.append(image, &call.sheet, call.limit, &mut out);
        self.entries(image)?;
        let (never, refusals) = call.refusals(&before, self.count > GREATEST_FRAME);
        let rows = match (number, &call.rows) {
            (0, Some(rows)) if !never => rows,
            (1.., _) if *image != before || out != [0; 3] => {
                return Err(format!("a refusal wrote, or answers {out:?}"));
            }
            (1.., _) if refusals.contains(&number) => {
                self.refused_begin(&before, call, number)?;
                return self.same(image);
            }
            _ => return Err(format!("{number} {out:?}; if refused, one of {refusals:?}")),
        };
        let [done, whole, _] = out;
        if done != whole.min(call.limit) {
            return Err(format!("done {done} of {whole}"));
        }
        let copied = self.copied(&before, call, out)?;
        let (mut state, begun) = self.library.begun(&before, &call.sheet);
        if begun != Ok([whole, copied]) {
            return Err(format!("begin: {begun:?}, at {} {out:?}", call.limit));
        }
        let mut last = before.clone();
        for store in 1..=done {
            let next = self.next(&mut state, &last, call)?;
            one_word(&last, &next).map_err(|what| format!("store {store}: {what}"))?;
            // Of a long append the ends and every seventh moment.
            if store < 64 || store + 64 > whole || store % 7 == 0 {
                let (stopped, stores) = self.library.after(&before, &call.sheet, store);
                if stores != Ok([store, whole, copied]) {
                    return Err(format!("limit {store}: {stores:?}, at {} {out:?}", call.limit));
                }
                if stopped != next {
                    return Err(format!("limit {store} leaves other bytes than its turns"));
                }
                if store == whole {
                    let frame = self.requested(&next, rows)?;
                    self.frames.insert(self.count, frame);
                    self.count += 1;
                }
                self.moment(&next)
                    .map_err(|what| format!("after {store} stores of {whole}: {what}"))?;
            }
            last = next;
        }
        if last != *image {
            return Err("its turns leave other bytes than the limit".into());
        }
        if done == whole {
            self.moving.add(&before, image, copied)?;
        } else {
            // What is copied before a stop may be copied again behind it.
            self.moving = Moving::from(image);
        }
        // What moves lies on a multiple of 64 then, wherever it was.
        match [8, 24].map(|at| [&before, image].map(|image| get64(image, at))) {
            blocks if blocks.iter().all(|[old, new]| new == old || new.is_multiple_of(64)) => {
                Ok(())
            }
            blocks => Err(format!("index and names moved off 64: {blocks:?}")),
        }
    }

    /// "A refused beginning is a refused append": no turn of it stores.
    fn refused_begin(&self, before: &[u8], call: &Call, number: u64) -> Result<(), String> {
        let (mut state, begun) = self.library.begun(before, &call.sheet);
        let mut image = before.to_vec();
        let turn = self.library.go_on(&mut state, &mut image, &call.sheet, call.limit);
        if (begun, turn) != (Err(number), Err(32)) || image != before || state != REFUSED {
            return Err(format!("refused with {number}, but begin {begun:?}, turn {turn:?}"));
        }
        Ok(())
    }

    /// The image after one store more, by a turn of its own; one with limit 0 changes nothing.
    fn next(&self, state: &mut State, last: &[u8], call: &Call) -> Result<Vec<u8>, String> {
        let mut image = last.to_vec();
        let none = self.library.go_on(state, &mut image, &call.sheet, 0);
        if none != Ok(0) || image != last {
            return Err(format!("a turn with limit 0: {none:?}"));
        }
        match self.library.go_on(state, &mut image, &call.sheet, 1) {
            Ok(1) => Ok(image),
            turn => Err(format!("a turn with limit 1: {turn:?}")),
        }
    }

    /// The entries that the call says it copies: those that the whole append does, and the same at limit
    /// 0, which changes nothing.
    fn copied(&self, before: &[u8], call: &Call, out: [u64; 3]) -> Result<u64, String> {
        let (after, _) = self.library.after(before, &call.sheet, u64::MAX);
        let expected = moving::copied(before, &after);
        if out[2] != expected {
            return Err(format!("answers {out:?}, but the whole append copies {expected}"));
        }
        match self.library.after(before, &call.sheet, 0) {
            (same, Ok([0, whole, copied])) if same == before && [whole, copied] == out[1..] => {
                Ok(copied)
            }
            (_, stores) => Err(format!("limit 0: {stores:?}, at {} {out:?}", call.limit)),
        }
    }

    fn moment(&mut self, image: &[u8]) -> Result<(), String> {
        self.moments += 1;
        self.same(image)
    }

    /// Found stays found, with the same entry and bytes; none found stays none; and the number of
    /// frames is as counted.
    fn same(&self, image: &[u8]) -> Result<(), String> {
        let counts = self.library.counts(image);
        let [frames, ..] = counts.map_err(|number| format!("refused with {number}"))?;
        if frames != self.count {
            return Err(format!("{frames} frames, expected {}", self.count));
        }
        let named = frames_of(&self.entries(image)?);
        if let Some(other) = named.iter().find(|frame| !self.frames.contains_key(frame)) {
            return Err(format!("an entry names frame {other}, which was empty"));
        }
        for (&number, frame) in &self.frames {
            let now = self.look(image, number)?;
            if let Some(at) = (0..now.len()).find(|&at| now[at] != frame[at]) {
                let (name, then, now) = (hex(&self.names[at]), &frame[at], &now[at]);
                return Err(format!("frame {number} name {name}: {now:?}, before {then:?}"));
            }
        }
        for name in &self.names {
            let found = self.library.find(image, frames, name);
            if found != Err(40) {
                return Err(format!("behind the last frame {found:?}"));
            }
        }
        Ok(())
    }

    /// All entries, none with a NaN where the start has none.
    fn entries(&self, image: &[u8]) -> Result<Vec<[u64; 7]>, String> {
        let entries = self.library.all_entries(image);
        let entries = entries.map_err(|number| format!("an entry refused with {number}"))?;
        match entries.iter().find(|entry| chunk_holds_nan(image, entry)) {
            Some(entry) if self.free_of_nans => Err(format!("a NaN in the record: {entry:?}")),
            _ => Ok(entries),
        }
    }

    /// What each name finds in a frame that is there.
    fn look(&self, image: &[u8], frame: u64) -> Result<Frame, String> {
        let find = |name: &Vec<u8>| match self.library.find(image, frame, name) {
            Ok(entry) => match self.library.bytes(image, frame, name) {
                Ok(bytes) => Ok(Some((entry, bytes.to_vec()))),
                Err(number) => {
                    Err(format!("frame {frame}: found, its bytes refused with {number}"))
                }
            },
            Err(41 | 42) => Ok(None),
            Err(number) => Err(format!("frame {frame}: lookup refused with {number}")),
        };
        self.names.iter().map(find).collect()
    }

    /// The new frame, complete and exactly as requested, on multiples of 64.
    fn requested(&self, image: &[u8], rows: &[Row]) -> Result<Frame, String> {
        let number = self.count;
        let frame = self.look(image, number)?;
        for (name, found) in self.names.iter().zip(&frame) {
            let row = rows.iter().find(|row| row.name == *name);
            let good = match (row, found) {
                (None, None) => true,
                (Some(row), Some((entry, bytes))) => {
                    let asked = [number, row.n, row.m.into(), row.kind.into()];
                    let same = [entry[0], entry[1], entry[3], entry[5]] == asked;
                    same && *bytes == row.data && entry[2].is_multiple_of(64)
                }
                _ => false,
            };
            if !good {
                return Err(format!("new frame, name {}: {found:?}, asked {row:?}", hex(name)));
            }
        }
        Ok(frame)
    }
}

fn frames_of(entries: &[[u64; 7]]) -> Vec<u64> {
    entries.iter().map(|entry| entry[0]).collect()
}

/// Whether the chunk of a listed entry holds a NaN.
fn chunk_holds_nan(image: &[u8], &[_, n, location, m, _, kind, _]: &[u64; 7]) -> bool {
    let kind = kind as u8;
    let length = n.saturating_mul(m).saturating_mul(size(kind) as u64);
    let chunk = image.get(location as usize..).and_then(|from| from.get(..length as usize));
    chunk.is_some_and(|data| holds_nan(kind, data))
}

/// A store changes nothing but one word on a multiple of 8, and of the header one of those that say
/// where the blocks are.
fn one_word(before: &[u8], after: &[u8]) -> Result<(), String> {
    let words = before.chunks(8).zip(after.chunks(8)).enumerate();
    let changed: Vec<_> = words.filter(|(_, (a, b))| a != b).map(|(n, _)| 8 * n).collect();
    match changed[..] {
        [] => Ok(()),
        [at] if at + 8 <= before.len() && (at >= 256 || (8..40).contains(&at)) => Ok(()),
        _ => Err(format!("the words at {changed:?} changed")),
    }
}
