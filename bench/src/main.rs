//! Times the library beside the plain Rust implementation, in one run on one machine.
//!
//!   bench images FOLDER   writes the images that the real GSD library is timed on
//!   bench table [FILE]    prints a table; FILE has the real library's times, lines "key µs"
//!   bench stores          prints what appends store
//!   bench probes          prints what lookups probe
//!   bench moves           prints what moving the index costs

mod fingerprint;
mod reader;
mod work;

use differential::images::{V1_0, V2_1};
use differential::library::{Library, Reference};
use differential::reference;
use reader::{Plain, Readers};
use std::collections::HashMap;
use std::hint::black_box;
use std::path::Path;
use std::time::{Duration, Instant};
use std::{env, fs, process};
use work::{
    joined, pair, Day, Large, Moves, Named, Next, Property, Raw, Readings, Stored, Turns, Write,
};

/// Each row's times are medians of so many passes over the table.
const PASSES: usize = 7;

/// So long for each row of a pass, the sides alternating; three times as long for work in parts.
const TIME: Duration = Duration::from_millis(500);

/// A row that may take longer is timed again only where it did not.
const LONG: Duration = Duration::from_millis(250);

/// What stands beside an append by begin and one turn.
const SINGLE: &str = "the same by the single call";

/// What one side does, given the number of the part.
type Side<'a, S> = &'a mut dyn FnMut(&mut S, usize);

/// The best time of each side. Work in parts has the sum of each part's best: no machine leaves
/// work of many milliseconds alone.
fn best<S>(
    state: &mut S,
    prepare: impl FnMut(&mut S),
    parts: usize,
    sides: &mut [Side<S>],
) -> Vec<Duration> {
    let best = best_of_parts(state, prepare, parts, sides);
    best.iter().map(|parts| parts.iter().sum()).collect()
}

/// The best time of each part of each side. `prepare` goes before the first part and is not timed.
/// Each side goes first as often as the others.
fn best_of_parts<S>(
    state: &mut S,
    mut prepare: impl FnMut(&mut S),
    parts: usize,
    sides: &mut [Side<S>],
) -> Vec<Vec<Duration>> {
    let mut best = vec![vec![Duration::MAX; parts]; sides.len()];
    // Calls that are short beside the clock's own time are timed many at a time.
    let mut calls = 1;
    let time = if parts > 1 { 3 * TIME } else { TIME };
    let start = Instant::now();
    for round in 0.. {
        for place in 0..sides.len() {
            let side = (round + place) % sides.len();
            prepare(state);
            for part in 0..parts {
                let begin = Instant::now();
                for _ in 0..calls {
                    sides[side](state, part);
                }
                let time = begin.elapsed();
                if parts == 1 && calls < 1000 && time < Duration::from_micros(20) {
                    calls *= 2;
                    best.iter_mut().for_each(|best| best.fill(Duration::MAX));
                } else {
                    best[side][part] = best[side][part].min(time / calls);
                }
            }
        }
        let all = best.iter().flatten().all(|&time| time < Duration::MAX);
        if all && start.elapsed() > time {
            break;
        }
    }
    best
}

fn time_text(time: Duration) -> String {
    let nanos = time.as_nanos() as f64;
    match nanos {
        n if n < 1e3 => format!("{n:.0} ns"),
        n if n < 1e6 => format!("{:.2} µs", n / 1e3),
        n if n < 1e9 => format!("{:.2} ms", n / 1e6),
        n => format!("{:.2} s", n / 1e9),
    }
}

/// A row of one pass.
#[derive(Clone, Copy)]
struct Row {
    what: &'static str,
    /// Under which the real library's time is found; empty for none.
    key: &'static str,
    library: Duration,
    other: Duration,
    /// Whether the two are one work done twice; a small difference of large times has no ratio, and
    /// the slowest of many works has none.
    compared: bool,
}

impl Row {
    fn ratio(&self) -> f64 {
        self.library.as_secs_f64() / self.other.as_secs_f64()
    }
}

/// The rows of one pass, and those of the first where this is another.
struct Pass<'l> {
    library: &'l dyn Library,
    readers: &'l dyn Readers,
    first: Option<&'l [Row]>,
    rows: Vec<Row>,
}

impl Pass<'_> {
    /// Whether the next row is to be timed. Where it took long in the first pass, it stands as it was.
    fn due(&mut self) -> bool {
        let long = self.first.map(|rows| rows[self.rows.len()]).filter(|row| row.library > LONG);
        self.rows.extend(long);
        long.is_none()
    }

    fn row(&mut self, what: &'static str, key: &'static str, library: Duration, other: Duration) {
        self.rows.push(Row { what, key, library, other, compared: true });
    }

    /// The same work for both sides, as a row; answers the library's time.
    fn both<S>(
        &mut self,
        what: &'static str,
        key: &'static str,
        state: &mut S,
        prepare: impl FnMut(&mut S),
        parts: usize,
        work: impl Fn(&mut S, &dyn Library, usize),
    ) -> Duration {
        let ours = self.library;
        let library = &mut |state: &mut S, part| work(state, ours, part);
        let plain = &mut |state: &mut S, part| work(state, &Reference, part);
        let times = best(state, prepare, parts, &mut [library, plain]);
        self.row(what, key, times[0], times[1]);
        times[0]
    }

    /// A row of times that have no ratio.
    fn apart(&mut self, what: &'static str, library: Duration, other: Duration) {
        self.rows.push(Row { what, key: "", library, other, compared: false });
    }

    /// A row, and one of what the same work takes beyond opening its image: times of library
    /// and plain Rust, then of their openings.
    fn beyond_opening(&mut self, what: &'static str, times: &[Duration]) {
        self.row(what, "", times[0], times[1]);
        let [library, other] = [0, 1].map(|side| times[side].saturating_sub(times[side + 2]));
        self.apart("the same, less the time of opening it", library, other);
    }

    /// A reading call.
    fn reading(
        &mut self,
        what: &'static str,
        key: &'static str,
        call: impl Fn(&dyn Library),
    ) -> Duration {
        self.both(what, key, &mut (), |_| {}, 1, |_, library, _| call(library))
    }

    /// Calls of a reader, so many; the row has the time of one.
    fn reader(
        &mut self,
        what: &'static str,
        key: &'static str,
        calls: u32,
        work: impl Fn(&dyn Readers),
    ) {
        let readers = self.readers;
        let sides: &mut [Side<()>] = &mut [&mut |_, _| work(readers), &mut |_, _| work(&Plain)];
        let times = best(&mut (), |_| {}, 1, sides);
        self.row(what, key, times[0] / calls, times[1] / calls);
    }
}

/// The middle one.
fn median<T: Copy + PartialOrd>(values: impl Iterator<Item = T>) -> T {
    let mut values: Vec<T> = values.collect();
    values.sort_by(|a, b| a.partial_cmp(b).unwrap());
    values[values.len() / 2]
}

/// The real library's times in microseconds are by their keys.
fn print(passes: &[Vec<Row>], real: &HashMap<String, f64>) {
    for (at, Row { what, key, compared, .. }) in passes[0].iter().enumerate() {
        let rows = || passes.iter().map(|pass| &pass[at]);
        let library = time_text(median(rows().map(|row| row.library)));
        let other = time_text(median(rows().map(|row| row.other)));
        let least = rows().map(Row::ratio).fold(f64::INFINITY, f64::min);
        let most = rows().map(Row::ratio).fold(0.0, f64::max);
        let ratio = match compared {
            true => format!("{:.2} | {least:.2} to {most:.2}", median(rows().map(Row::ratio))),
            false => "- | -".into(),
        };
        let real = match real.get(*key) {
            Some(micros) => time_text(Duration::from_secs_f64(micros / 1e6)),
            None => "-".into(),
        };
        println!("| {what} | {library} | {other} | {ratio} | {real} |");
    }
}

#[cfg(linked)]
fn library() -> (&'static dyn Library, &'static str) {
    (&differential::library::Linked, "libdialmoth.a")
}

#[cfg(not(linked))]
fn library() -> (&'static dyn Library, &'static str) {
    (&Reference, "no libdialmoth.a: the plain Rust implementation stands in for it")
}

#[cfg(linked)]
fn readers() -> &'static dyn Readers {
    &reader::Linked
}

#[cfg(not(linked))]
fn readers() -> &'static dyn Readers {
    &Plain
}

/// Of the library and of plain Rust.
fn nchilada() -> [Write; 2] {
    let plain: Write = |image, frame, name, step, file| {
        reference::nchilada(image, frame, name, step, file).err().unwrap_or(0)
    };
    #[cfg(linked)]
    let library: Write = |image, frame, name, step, file| {
        dialmoth::nchilada(image, frame, name, step, file).err().map_or(0, |refusal| refusal.0)
    };
    #[cfg(not(linked))]
    let library = plain;
    [library, plain]
}

fn open(library: &dyn Library, image: &[u8]) {
    let mut out = [0; 3];
    assert_eq!(library.open(black_box(image), &mut out), 0);
    black_box(out);
}

fn lookup(library: &dyn Library, image: &[u8], frame: u64, name: &[u8]) {
    let mut out = [0; 7];
    assert_eq!(library.lookup(black_box(image), frame, name, &mut out), 0);
    black_box(out);
}

fn element(library: &dyn Library, image: &[u8], frame: u64) {
    let mut out = [0; 2];
    assert_eq!(library.element(black_box(image), frame, b"probe", 2, &mut out), 0);
    black_box(out);
}

// One pass over the bytes: the sum of all words, or the number of zeros.

fn sum(bytes: &[u8]) {
    let words = bytes.as_chunks().0.iter();
    black_box(words.fold(0, |sum: u64, &word| sum.wrapping_add(u64::from_le_bytes(word))));
}

fn zeros(bytes: &[u8]) {
    black_box(bytes.iter().filter(|&&byte| byte == 0).count());
}

fn opening(pass: &mut Pass) {
    let month = work::month();
    pass.reading("open, 40,000 entries, 16 names", "open_month", |l| open(l, &month));
    let old = work::old_month();
    pass.reading("open 1.0, 40,000 entries, 16 names", "", |l| open(l, &old));
    both_lists(pass);

    let names = work::names();
    let pairs = pass.reading("open, 1,024 names", "open_names", |l| open(l, &names));
    let hashed = &mut |_: &mut (), _| {
        black_box(reference::open_with_table(black_box(&names)).unwrap());
    };
    let times = best(&mut (), |_| {}, 1, &mut [hashed]);
    pass.row("open, 1,024 names, beside a hash table for the pairs", "", pairs, times[0]);

    let names = work::one_fingerprint();
    let what = "open, 1 MiB, 1,024 names made to have one fingerprint";
    pass.reading(what, "", |l| open(l, &names));

    if pass.due() {
        let (library, names) = (pass.library, work::long_names());
        let sides: &mut [Side<()>] = &mut [
            &mut |_, _| open(library, &names),
            &mut |_, _| sum(black_box(&names)),
            &mut |_, _| zeros(black_box(&names)),
        ];
        let times = best(&mut (), |_| {}, 1, sides);
        let what =
            "open, 64 MiB, 1,024 names that differ near their end, beside one pass over its bytes";
        pass.row(what, "", times[0], times[1].min(times[2]));
    }
}

/// Many names and many entries, in 1.0 and in 2.1, alternating.
fn both_lists(pass: &mut Pass) {
    let (library, old, new) =
        (pass.library, work::month_of_names(V1_0), work::month_of_names(V2_1));
    let sides: &mut [Side<()>] = &mut [
        &mut |_, _| open(library, &old),
        &mut |_, _| open(&Reference, &old),
        &mut |_, _| open(library, &new),
        &mut |_, _| open(&Reference, &new),
    ];
    let times = best(&mut (), |_| {}, 1, sides);
    pass.row("open, 1,024 names, 40,000 entries", "", times[2], times[3]);
    pass.row("open 1.0, 1,024 names, 40,000 entries", "", times[0], times[1]);
    let what = "open 1.0, 1,024 names, 40,000 entries, beside the same in 2.1";
    pass.row(what, "", times[0], times[2]);
}

fn days(pass: &mut Pass) {
    let (small, mut day) = (work::small(), Day::new());
    pass.reading("lookup, 24 entries", "", |l| lookup(l, &small, 4, b"heater"));
    pass.reading("lookup, 4,320 entries", "lookup_day", |l| lookup(l, &day.image, 700, b"heater"));
    pass.reading("element, 4,320 entries", "", |l| element(l, &day.image, 700));
    let what = "all 4,320 chunks of a day";
    pass.both(what, "read_day", &mut day, |_| {}, work::FRAMES, |day, l, n| day.read(l, n));
    pass.reader("reader: open, then all 4,320 chunks of a day", "read_day", 1, |r| day.read_all(r));
    appends(pass, &mut day);
}

/// A day's appends, the pair and the single call.
fn appends(pass: &mut Pass, day: &mut Day) {
    let library = pass.library;
    let sides: &mut [Side<Day>] = &mut [
        &mut |day, n| day.append(pair, library, n),
        &mut |day, n| day.append(pair, &Reference, n),
        &mut |day, n| day.append(joined, library, n),
        &mut |day, n| day.append(joined, &Reference, n),
    ];
    let times = best(day, Day::clear, work::FRAMES, sides);
    let what = "append 1,440 frames of 3 chunks, one by one";
    pass.row(what, "append_day", times[0], times[1]);
    pass.row(SINGLE, "", times[2], times[3]);
}

/// A chunk of the last of many frames.
fn search(pass: &mut Pass, what: &'static str, month: Vec<u8>) {
    let library = pass.library;
    let last = |library| lookup(library, &month, work::MONTH - 1, b"probe/11/reading");
    let sides: &mut [Side<()>] = &mut [
        &mut |_, _| last(library),
        &mut |_, _| last(&Reference),
        &mut |_, _| open(library, &month),
        &mut |_, _| open(&Reference, &month),
    ];
    let times = best(&mut (), |_| {}, 1, sides);
    pass.beyond_opening(what, &times);
}

/// An image opened once, beside plain Rust that keeps the same words.
fn all_readers(pass: &mut Pass) {
    let readings = Readings::new(V2_1, pass.readers);
    pass.reader("reader: open, 40,000 entries, 3 names", "", 1, |r| readings.open(r));
    let what = "reader: least and greatest reading of 3 probes over 40,000 entries";
    walk(pass, [what, "the same, beside a loop over the slots"], "walk_readings", &readings);
    let what = "reader: lookup, 40,000 entries, 3 names";
    pass.reader(what, "", Readings::ASKED, |r| readings.lookups(r));
    pass.reader("reader: find by id", "", Readings::ASKED, |r| readings.finds(r));
    pass.reader("reader: newest by id", "", Readings::ASKED, |r| readings.newest(r));

    let old = Readings::new(V1_0, pass.readers);
    let what = "reader 1.0: least and greatest reading of 3 probes over 40,000 entries";
    walk(pass, [what, "the same, beside a loop over the slots"], "", &old);
    let what = "reader 1.0: lookup, 40,000 entries, 3 names";
    pass.reader(what, "", Readings::ASKED, |r| old.lookups(r));

    let names = Named::new(pass.readers);
    pass.reader("reader: id of the last of 1,024 names", "", 1, |r| names.last_id(r));
}

/// All entries, beside plain Rust that answers one after the other too, and that needs no calls.
fn walk(pass: &mut Pass, whats: [&'static str; 2], key: &'static str, readings: &Readings) {
    let readers = pass.readers;
    let sides: &mut [Side<()>] = &mut [
        &mut |_, _| readings.walk(readers),
        &mut |_, _| readings.walk(&Plain),
        &mut |_, _| readings.walk_in_a_loop(),
    ];
    let times = best(&mut (), |_| {}, 1, sides);
    pass.row(whats[0], key, times[0], times[1]);
    pass.row(whats[1], "", times[0], times[2]);
}

/// One more frame behind many entries.
fn next(pass: &mut Pass, what: &'static str, mut next: Next) {
    let library = pass.library;
    let sides: &mut [Side<Next>] = &mut [
        &mut |next, _| next.append(pair, library),
        &mut |next, _| next.append(pair, &Reference),
        &mut |next, _| next.open(library),
        &mut |next, _| next.open(&Reference),
        &mut |next, _| next.append(joined, library),
        &mut |next, _| next.append(joined, &Reference),
    ];
    let times = best(&mut next, Next::restore, 1, sides);
    pass.beyond_opening(what, &times);
    pass.row(SINGLE, "", times[4], times[5]);
}

/// The same frame begun, and then made in one turn and in turns of one store.
fn turns(pass: &mut Pass, whats: [&'static str; 4], whole: u64, next: Next) {
    pass.reading(whats[0], "", |library| {
        next.begin(library);
    });
    let mut turns = Turns::new(next, [pass.library, &Reference]);
    assert_eq!(turns.whole, whole);
    let sides: &mut [Side<Turns>] =
        &mut [&mut |turns, _| turns.all(0, whole), &mut |turns, _| turns.all(1, whole)];
    let times = best(&mut turns, |_| {}, 1, sides);
    pass.row(whats[1], "", times[0], times[1]);

    let sides: &mut [Side<Turns>] =
        &mut [&mut |turns, _| turns.all(0, 1), &mut |turns, _| turns.all(1, 1)];
    let times = best(&mut turns, |_| {}, 1, sides);
    pass.row(whats[2], "", times[0] / whole as u32, times[1] / whole as u32);

    let sides: &mut [Side<Turns>] =
        &mut [&mut |turns, _| turns.turn(0, 1), &mut |turns, _| turns.turn(1, 1)];
    let times = best_of_parts(&mut turns, Turns::restart, whole as usize, sides);
    let [library, other] = [0, 1].map(|side: usize| *times[side].iter().max().unwrap());
    pass.apart(whats[3], library, other);
}

/// Turns of one store between turns of many, of an append that moves names and index; of the former
/// the slowest.
fn moving_turns(pass: &mut Pass) {
    const MANY: u64 = 996;
    let mut turns = Turns::new(Next::moving(), [pass.library, &Reference]);
    let parts = 2 * (turns.whole / (MANY + 1)) as usize;
    let limit = |part| if part % 2 == 0 { 1 } else { MANY };
    let sides: &mut [Side<Turns>] =
        &mut [&mut |turns, part| turns.turn(0, limit(part)), &mut |turns, part| {
            turns.turn(1, limit(part))
        }];
    let times = best_of_parts(&mut turns, Turns::restart, parts, sides);
    let [library, other] = [0, 1].map(|side: usize| *times[side].iter().step_by(2).max().unwrap());
    pass.apart("the slowest where 64 names are new and names and index move", library, other);
}

fn all_turns(pass: &mut Pass) {
    let whats = [
        "begin a frame of 3 chunks behind 40,000 entries",
        "one turn of all its 57 stores",
        "a turn of one store, mean of all 57",
        "the slowest of these",
    ];
    turns(pass, whats, 57, Next::fitting());
    let whats = [
        "begin a frame of 64 chunks behind 40,000 entries",
        "one turn of all its 576 stores",
        "a turn of one store, mean of all 576",
        "the slowest of these",
    ];
    turns(pass, whats, 576, Next::of_most());
    moving_turns(pass);
}

/// A chunk of 1 MiB, beside plain Rust and beside memcpy.
fn large(pass: &mut Pass, whats: [&'static str; 2], key: &'static str, mut large: Large) {
    let library = pass.library;
    let sides: &mut [Side<Large>] = &mut [
        &mut |large, _| large.append(pair, library),
        &mut |large, _| large.append(pair, &Reference),
        &mut |large, _| large.copy(),
        &mut |large, _| large.append(joined, library),
        &mut |large, _| large.append(joined, &Reference),
    ];
    let times = best(&mut large, Large::restore, 1, sides);
    pass.row(whats[0], key, times[0], times[1]);
    pass.row(SINGLE, "", times[3], times[4]);
    pass.row(whats[1], "", times[0], times[2]);
}

fn large_chunks(pass: &mut Pass) {
    let whats = ["append one chunk of 1 MiB", "append one chunk of 1 MiB, beside memcpy"];
    large(pass, whats, "append_large", Large::bytes());
    let whats = ["append 262,144 floats, 1 MiB", "append 262,144 floats, beside memcpy"];
    large(pass, whats, "", Large::floats());
    let whats = ["append 131,072 doubles, 1 MiB", "append 131,072 doubles, beside memcpy"];
    large(pass, whats, "", Large::doubles());
}

/// The NChilada file of a chunk of 1 MiB, beside plain Rust and beside memcpy.
fn property(pass: &mut Pass, whats: [&'static str; 2], mut property: Property) {
    let [library, plain] = nchilada();
    let sides: &mut [Side<Property>] = &mut [
        &mut |property, _| property.write(library),
        &mut |property, _| property.write(plain),
        &mut |property, _| property.copy(),
    ];
    let times = best(&mut property, |_| {}, 1, sides);
    pass.row(whats[0], "", times[0], times[1]);
    pass.row(whats[1], "", times[0], times[2]);
}

fn properties(pass: &mut Pass) {
    let whats = ["nchilada, 262,144 floats, 1 MiB", "nchilada, 262,144 floats, beside memcpy"];
    property(pass, whats, Property::floats(1));
    let whats =
        ["nchilada, 87,381 by 3 floats, 1 MiB", "nchilada, 87,381 by 3 floats, beside memcpy"];
    property(pass, whats, Property::floats(3));
    let whats = ["nchilada, 131,072 doubles, 1 MiB", "nchilada, 131,072 doubles, beside memcpy"];
    property(pass, whats, Property::doubles(1));
    let whats =
        ["nchilada, 43,690 by 3 doubles, 1 MiB", "nchilada, 43,690 by 3 doubles, beside memcpy"];
    property(pass, whats, Property::doubles(3));
}

/// The RawArray file of a chunk of 1 MiB, and its sheet, beside plain Rust and beside memcpy.
fn raw_array(pass: &mut Pass, whats: [&'static str; 4], mut raw: Raw) {
    let library = pass.library;
    let sides: &mut [Side<Raw>] = &mut [
        &mut |raw, _| raw.write(library),
        &mut |raw, _| raw.write(&Reference),
        &mut |raw, _| raw.copy_out(),
    ];
    let times = best(&mut raw, |_| {}, 1, sides);
    pass.row(whats[0], "", times[0], times[1]);
    pass.row(whats[1], "", times[0], times[2]);
    let sides: &mut [Side<Raw>] = &mut [
        &mut |raw, _| raw.read(library),
        &mut |raw, _| raw.read(&Reference),
        &mut |raw, _| raw.copy_in(),
    ];
    let times = best(&mut raw, |_| {}, 1, sides);
    pass.row(whats[2], "", times[0], times[1]);
    pass.row(whats[3], "", times[0], times[2]);
}

fn raw_arrays(pass: &mut Pass) {
    let whats = [
        "rawarray_write, 262,144 floats, 1 MiB",
        "rawarray_write, 262,144 floats, beside memcpy",
        "rawarray_read, 262,144 floats, 1 MiB",
        "rawarray_read, 262,144 floats, beside memcpy",
    ];
    raw_array(pass, whats, Raw::floats(1));
    let whats = [
        "rawarray_write, 87,381 by 3 floats, 1 MiB",
        "rawarray_write, 87,381 by 3 floats, beside memcpy",
        "rawarray_read, 87,381 by 3 floats, 1 MiB",
        "rawarray_read, 87,381 by 3 floats, beside memcpy",
    ];
    raw_array(pass, whats, Raw::floats(3));
}

fn pass(library: &dyn Library, first: Option<&[Row]>) -> Vec<Row> {
    let mut pass = Pass { library, readers: readers(), first, rows: Vec::new() };
    opening(&mut pass);
    days(&mut pass);
    search(&mut pass, "lookup, 40,000 entries", work::month());
    search(&mut pass, "lookup 1.0, 40,000 entries", work::old_month());
    all_readers(&mut pass);
    next(&mut pass, "append a frame of 3 chunks behind 40,000 entries", Next::fitting());
    next(&mut pass, "append a frame of 3 chunks, 65,536 slots", Next::doubled());
    all_turns(&mut pass);
    large_chunks(&mut pass);
    properties(&mut pass);
    raw_arrays(&mut pass);
    pass.rows
}

/// A number with commas.
fn grouped(number: u64) -> String {
    match number {
        0..1000 => number.to_string(),
        _ => format!("{},{:03}", grouped(number / 1000), number % 1000),
    }
}

/// What appends store: exact numbers, the same on every machine.
fn stores() {
    let (library, _) = library();
    println!("Stores of whole appends, eight bytes each; frames one by one begin with create, 64 slots and 16 segments.\n");
    println!(
        "| append | stores | bytes stored | bytes of data | bytes of the longest image in use |"
    );
    println!("|---|---|---|---|---|");
    let rows = [
        ("a frame of 3 chunks behind 40,000 entries", Next::fitting().stored(library)),
        ("a frame of 64 chunks behind 40,000 entries", Next::of_most().stored(library)),
        ("a frame of 3 chunks, 65,536 slots", Next::doubled().stored(library)),
        ("1,440 frames of 3 chunks, one by one", Day::of_three().stored(library, 1440, 64)),
        ("1,440 frames of 4 chunks, one by one", Day::of_four().stored(library, 1440, 64)),
        ("the same, 0 slots asked for: 512", Day::of_four().stored(library, 1440, 0)),
        ("1,440 frames of 4 chunks, 60 to an image", Day::of_four().stored(library, 60, 64)),
        ("the same, 0 slots asked for: 512", Day::of_four().stored(library, 60, 0)),
    ];
    for (what, Stored { stores, data, used }) in rows {
        let [stores, bytes, data] = [stores, 8 * stores, data].map(grouped);
        let used = if used == 0 { "-".into() } else { grouped(used as u64) };
        println!("| {what} | {stores} | {bytes} | {data} | {used} |");
    }
}

/// What lookups probe: exact numbers too.
fn probes() {
    let (library, _) = library();
    println!("Probes of the lookups of every name in every frame; 40,000 entries, 2,500 frames.\n");
    println!("| index | lookups | mean | most |");
    println!("|---|---|---|---|");
    let rows = [
        ("16 names, none missing in any frame", work::month()),
        ("24 names, each third missing", work::month_with_missing(V2_1)),
        ("1.0, 16 names, none missing in any frame", work::old_month()),
        ("1.0, 24 names, each third missing", work::month_with_missing(V1_0)),
    ];
    for (what, image) in rows {
        for (of, how) in work::probed(library, &image).iter().zip(["found", "not found"]) {
            if of.lookups > 0 {
                let (lookups, mean) = (grouped(of.lookups), of.probes as f64 / of.lookups as f64);
                println!("| {what} | {lookups} {how} | {mean:.2} | {} |", of.most);
            }
        }
    }
}

/// What moving the index costs a month of appends: exact numbers too.
fn moves() {
    let (library, _) = library();
    println!(
        "Moves of the index over {} frames, one a minute for 30 days, in one image.\n",
        grouped(work::MINUTES as u64)
    );
    println!("| frames of | slots at first | moves | slots at last | entries listed | entries copied | bytes of these | bytes stored in all |");
    println!("|---|---|---|---|---|---|---|---|");
    let frames: [(&str, fn(usize) -> Vec<u8>); 2] =
        [("4 chunks", work::frame_of_four), ("3 chunks", work::frame)];
    for (what, frame) in frames {
        for slots in [64, 512] {
            let Moves { times, slots, entries, copied, stores } = Moves::of(library, frame, slots);
            let [first, last] = slots.map(grouped);
            let [entries, copied, bytes, all] =
                [entries, copied, 32 * copied, 8 * stores].map(grouped);
            println!(
                "| {what} | {first} | {times} | {last} | {entries} | {copied} | {bytes} | {all} |"
            );
        }
    }
}

fn table(real: HashMap<String, f64>) {
    let (library, title) = library();
    let gsd = if real.is_empty() { "real GSD" } else { "gsd.fl" };
    println!("Library: {title}. Medians of {PASSES} passes, in each the best times of both sides, alternating.\n");
    println!("| | library | plain Rust | ratio | least to most | {gsd} |");
    println!("|---|---|---|---|---|---|");
    let mut passes = vec![pass(library, None)];
    for _ in 1..PASSES {
        passes.push(pass(library, Some(&passes[0])));
    }
    print(&passes, &real);

    println!();
    println!("Every call but a turn and those of a reader opens its image first: a lookup among");
    println!(
        "4,320 entries reads them all, and some once more in its search. That among 40,000 is"
    );
    println!("of their last frame, again and again; a reader's lookup, find and newest have the");
    println!(
        "mean of 1,000 to and fro over all frames. Plain Rust keeps the same words of a reader."
    );
    println!(
        "An append is begin and one turn, and beside it the single call. The slowest turn has"
    );
    println!("the clock's own time in it; where blocks move, each 997th store is looked at.");
    println!("A day's time is the sum of each frame's best; its appends begin with create.");
    println!(
        "Buffers: reading calls find image and caches warm. The day's image is cleared before"
    );
    println!("each run of 1,440 appends, untimed. The 1 MiB chunks go to memory written before");
    println!("and not cleared; header and blocks are restored, untimed. Floats and doubles are");
    println!("tested for NaNs by both sides, bytes are not; memcpy tests nothing.");
    println!("An NChilada file goes to memory written before, from an image with one entry; it is");
    println!("three passes over the chunk: for NaNs, for the extremes, and to write.");
    println!("A RawArray file goes there too, from such an image, which its call opens first, and");
    println!("its sheet from the file alone; memcpy has the data alone, at the same places.");
    println!(
        "The 64 MiB are opened in the first pass alone where that takes over {} ms.",
        LONG.as_millis()
    );
    if !real.is_empty() {
        println!("gsd.fl works on files, from Python, and writes them by the system's calls.");
    }
}

fn main() {
    let words: Vec<String> = env::args().skip(1).collect();
    let words: Vec<&str> = words.iter().map(String::as_str).collect();
    match words[..] {
        ["images", folder] => {
            let images = [
                ("month", work::month()),
                ("names", work::names()),
                ("day", Day::new().image),
                ("readings", Readings::new(V2_1, readers()).image),
            ];
            for (name, image) in images {
                fs::write(Path::new(folder).join(format!("{name}.gsd")), image).unwrap();
            }
        }
        ["stores"] => stores(),
        ["probes"] => probes(),
        ["moves"] => moves(),
        ["table"] => table(HashMap::new()),
        ["table", file] => {
            let text = fs::read_to_string(file).unwrap();
            let times = text.lines().filter_map(|line| line.split_once(' '));
            table(times.map(|(key, time)| (key.into(), time.parse().unwrap())).collect());
        }
        _ => {
            eprintln!("usage: bench images FOLDER | table [FILE] | stores | probes | moves");
            process::exit(2);
        }
    }
}
