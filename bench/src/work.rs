//! What is timed and counted: a month's index, many names, readings, a day and a month of frames, large
//! chunks and the NChilada and RawArray files of some.

use crate::fingerprint;
use crate::reader::{Readers, View, Words};
use differential::ask::Ask;
use differential::generate::shortest;
use differential::images::{
    blank, get64, lawful_rows, put32, put64, put_names, put_slots, segments_for, sheet, version,
    Row, Slot, V1_0, V2_1,
};
use differential::library::{Create, Library, Reference, State, REFUSED};
use std::hint::black_box;
use std::ops::Range;

pub const FRAMES: usize = 1440;

const ENTRIES: usize = 40_000;

/// Frames of a month's index.
pub const MONTH: u64 = 2500;

/// Slots of a fresh image whose calls are timed.
const SLOTS: u64 = 64;

/// Frames of such names, in which 40,000 chunks are there; and some free slots, with room for their
/// data. In 1.0 each frame was written from its last id to its first.
fn index_of(
    version: u32,
    names: &[String],
    frames: u64,
    there: impl Fn(u64, u16) -> bool,
    free: usize,
) -> Vec<u8> {
    let (slots, segments) = (ENTRIES + free, segments_for(version, names).max(8));
    let data = 256 + 32 * slots + 64 * segments;
    // What is appended starts on multiples of 64.
    let length = (data + 8 * ENTRIES).next_multiple_of(64) + 64 * free;
    let mut image =
        blank(length, 256, slots as u64, (data - 64 * segments) as u64, segments as u64);
    put32(&mut image, 44, version);
    let count = names.len() as u16;
    let id = |n: u16| if version == V1_0 { count - 1 - n } else { n };
    let keys = (0..frames).flat_map(|frame| (0..count).map(move |n| (frame, id(n))));
    let entries: Vec<_> = keys
        .filter(|&(frame, id)| there(frame, id))
        .enumerate()
        .map(|(n, (frame, id))| Slot::bytes(frame, id, (data + 8 * n) as u64, 8))
        .collect();
    assert_eq!(entries.len(), ENTRIES);
    put_slots(&mut image, 256, &entries);
    put_names(&mut image, data - 64 * segments, names.iter().map(String::as_bytes));
    image
}

/// 2,500 frames.
fn index(version: u32, names: &[String], there: impl Fn(u64, u16) -> bool, free: usize) -> Vec<u8> {
    index_of(version, names, MONTH, there, free)
}

fn probes(count: usize) -> Vec<String> {
    (0..count).map(|n| format!("probe/{n:02}/reading")).collect()
}

/// 16 names, all of them in every frame.
fn month_and(free: usize) -> Vec<u8> {
    index(V2_1, &probes(16), |_, _| true, free)
}

pub fn month() -> Vec<u8> {
    month_and(0)
}

pub fn old_month() -> Vec<u8> {
    index(V1_0, &probes(16), |_, _| true, 0)
}

/// 24 names, each third of them missing: from the first on in even frames, from the third on in odd
/// ones.
pub fn month_with_missing(version: u32) -> Vec<u8> {
    index(version, &probes(24), |frame, id| u64::from(id) % 3 != 2 * (frame % 2), 0)
}

/// 1,024 names, in each frame the next 16 of them.
pub fn month_of_names(version: u32) -> Vec<u8> {
    let names: Vec<_> = (0..NAMES).map(|n| format!("cabinet/reading {n:04}")).collect();
    index(version, &names, |frame, id| u64::from(id / 16) == frame % 64, 0)
}

/// Probes of an image of readings.
const PROBES: usize = 3;

/// Frames in which all of them are there; one probe's reading is left for the frame behind them.
const WHOLE: usize = ENTRIES / PROBES;

/// 40,000 floats, one of each of three probes a frame.
fn month_of_readings(version: u32) -> Vec<u8> {
    let there = |frame, id| frame < WHOLE as u64 || id == 0;
    let mut image = index_of(version, &probes(PROBES), WHOLE as u64 + 1, there, 0);
    for n in 0..ENTRIES {
        let slot = 256 + 32 * n;
        let location = get64(&image, slot + 16) as usize;
        let reading = 20.0 + (7919 * n % 1009) as f32 / 64.0;
        put64(&mut image, slot + 8, 1);
        image[slot + 30] = 9;
        image[location..][..4].copy_from_slice(&reading.to_le_bytes());
    }
    image
}

/// The least and the greatest reading of each probe.
type Extremes = [[f32; 2]; PROBES];

const NOTHING_SEEN: Extremes = [[f32::INFINITY, f32::NEG_INFINITY]; PROBES];

fn see(extremes: &mut Extremes, id: usize, bytes: &[u8]) {
    let reading = f32::from_le_bytes(bytes.try_into().unwrap());
    let [least, most] = &mut extremes[id];
    *least = least.min(reading);
    *most = most.max(reading);
}

/// An image of readings, and the reader that opening it gave.
pub struct Readings {
    pub image: Vec<u8>,
    reader: Words,
    names: Vec<String>,
    extremes: Extremes,
}

impl Readings {
    /// So many questions at once: the frames and the probes of these go to and fro.
    pub const ASKED: u32 = 1000;

    pub fn new(version: u32, readers: &dyn Readers) -> Readings {
        let image = month_of_readings(version);
        let reader = opened(readers, &image);
        let mut readings =
            Readings { image, reader, names: probes(PROBES), extremes: NOTHING_SEEN };
        readings.extremes = readings.looped();
        readings
    }

    pub fn open(&self, readers: &dyn Readers) {
        assert_eq!(opened(readers, &self.image), self.reader);
    }

    /// Goes over all entries, by a call for each.
    pub fn walk(&self, readers: &dyn Readers) {
        let (reader, image) = (black_box(&self.reader), black_box(&self.image[..]));
        let mut extremes = NOTHING_SEEN;
        for n in 0..reader[2] {
            let mut entry = [0; 7];
            assert_eq!(readers.reader_entry(reader, image, n, &mut entry), 0);
            let [_, n, location, m, id, kind, _] = entry;
            assert!(kind == 9 && n * m == 1);
            see(&mut extremes, id as usize, &image[location as usize..][..4]);
        }
        assert_eq!(black_box(extremes), self.extremes);
    }

    /// The same in plain Rust, as a loop over the slots with nothing called.
    fn looped(&self) -> Extremes {
        let view = View::new(black_box(&self.reader), black_box(&self.image)).unwrap();
        let mut extremes = NOTHING_SEEN;
        for entry in view.entries() {
            assert_eq!(entry.kind, 9);
            see(&mut extremes, entry.id.into(), view.chunk(entry).unwrap());
        }
        extremes
    }

    pub fn walk_in_a_loop(&self) {
        assert_eq!(black_box(self.looped()), self.extremes);
    }

    /// Frame and probe of each question.
    fn asked() -> impl Iterator<Item = (u64, usize)> {
        (0..Self::ASKED as usize).map(|n| ((7919 * n % WHOLE) as u64, n % PROBES))
    }

    pub fn lookups(&self, readers: &dyn Readers) {
        let (reader, image) = (black_box(&self.reader), black_box(&self.image[..]));
        for (frame, probe) in Self::asked() {
            let (name, mut entry) = (self.names[probe].as_bytes(), [0; 7]);
            assert_eq!(readers.reader_lookup(reader, image, frame, name, &mut entry), 0);
            assert_eq!((entry[0], entry[4]), (frame, probe as u64));
        }
    }

    pub fn finds(&self, readers: &dyn Readers) {
        let (reader, image) = (black_box(&self.reader), black_box(&self.image[..]));
        for (frame, probe) in Self::asked() {
            let mut entry = [0; 7];
            assert_eq!(readers.reader_find(reader, image, frame, probe as u64, &mut entry), 0);
            assert_eq!((entry[0], entry[4]), (frame, probe as u64));
        }
    }

    pub fn newest(&self, readers: &dyn Readers) {
        let (reader, image) = (black_box(&self.reader), black_box(&self.image[..]));
        for (frame, probe) in Self::asked() {
            let mut entry = [0; 7];
            assert_eq!(readers.reader_newest(reader, image, frame, probe as u64, &mut entry), 0);
            assert_eq!((entry[0], entry[4]), (frame, probe as u64));
        }
    }
}

fn opened(readers: &dyn Readers, image: &[u8]) -> Words {
    let mut reader = [0; 8];
    assert_eq!(readers.reader_open(black_box(image), &mut reader), 0);
    black_box(reader)
}

/// 1,024 names, and the reader that opening gave.
pub struct Named {
    image: Vec<u8>,
    reader: Words,
    last: Vec<u8>,
}

impl Named {
    pub fn new(readers: &dyn Readers) -> Named {
        let image = names();
        let reader = opened(readers, &image);
        Named { image, reader, last: nth_name(NAMES - 1) }
    }

    /// The id of the last name.
    pub fn last_id(&self, readers: &dyn Readers) {
        let (reader, image, mut id) = (black_box(&self.reader), black_box(&self.image), [0]);
        assert_eq!(readers.reader_id(reader, image, &self.last, &mut id), 0);
        assert_eq!(id, [NAMES as u64 - 1]);
    }
}

/// What the searches of some lookups probe.
#[derive(Default)]
pub struct Probed {
    pub lookups: u64,
    pub probes: u64,
    pub most: u64,
}

/// Every name in every frame of a month: those found, and those not.
pub fn probed(library: &dyn Library, image: &[u8]) -> [Probed; 2] {
    let [_, names, _] = library.counts(image).unwrap();
    let names: Vec<_> = (0..names).map(|n| library.nth_name(image, n).unwrap()).collect();
    let mut probed = [Probed::default(), Probed::default()];
    for frame in 0..MONTH {
        for name in &names {
            let (number, probes) = library.probed(image, frame, name);
            assert!(number == 0 || number == 42);
            let of = &mut probed[usize::from(number == 42)];
            of.lookups += 1;
            of.probes += probes;
            of.most = of.most.max(probes);
        }
    }
    probed
}

const NAMES: usize = 1024;

/// Names in a block that is just long enough, and one frame.
fn naming(names: &[Vec<u8>]) -> Vec<u8> {
    let text: usize = names.iter().map(|name| name.len() + 1).sum();
    let segments = text.div_ceil(64);
    let data = 256 + 32 * 4 + 64 * segments;
    let mut image = blank(data + 8, 256, 4, 384, segments as u64);
    put_names(&mut image, 384, names.iter().map(Vec::as_slice));
    put_slots(&mut image, 256, &[Slot::bytes(0, 1000, data as u64, 8)]);
    image
}

fn nth_name(n: usize) -> Vec<u8> {
    format!("cabinet/reading {n:04}").into_bytes()
}

/// 1,024 names of one length that begin alike.
pub fn names() -> Vec<u8> {
    naming(&(0..NAMES).map(nth_name).collect::<Vec<_>>())
}

/// 1,024 names of 65,535 bytes, alike but for four shortly before the last: 64 MiB.
pub fn long_names() -> Vec<u8> {
    let name = |n| format!("{}{n:04}.", "x".repeat(65_530)).into_bytes();
    naming(&(0..NAMES).map(name).collect::<Vec<_>>())
}

/// 1,024 names of 1,023 bytes, alike but for 16 near their end, and with one fingerprint: 1 MiB.
pub fn one_fingerprint() -> Vec<u8> {
    naming(&fingerprint::shared(NAMES))
}

/// 8 frames of 3 chunks.
pub fn small() -> Vec<u8> {
    let mut image = vec![0; 8192];
    create(&Reference, &mut image, SLOTS);
    for _ in 0..8 {
        pair(&Reference, &mut image, &frame(0));
    }
    image
}

fn create(library: &dyn Library, image: &mut [u8], slots: u64) {
    let (application, schema) = (&b"regulator"[..], &b"night"[..]);
    let request = Create { application, schema, schema_version: 0, slots, segments: 16 };
    assert_eq!(library.create(image, request), 0);
}

/// A way to append a sheet whole. Answers its stores and the entries that it copied.
pub type Way = fn(&dyn Library, &mut [u8], &[u8]) -> [u64; 2];

/// Begin and one turn.
pub fn pair(library: &dyn Library, image: &mut [u8], sheet: &[u8]) -> [u64; 2] {
    let (mut state, mut begun) = (REFUSED, [0; 2]);
    assert_eq!(library.begin(image, sheet, &mut state, &mut begun), 0);
    assert_eq!(turn(library, &mut state, image, sheet, u64::MAX), begun[0]);
    begun
}

/// The single call.
pub fn joined(library: &dyn Library, image: &mut [u8], sheet: &[u8]) -> [u64; 2] {
    let mut out = [0; 3];
    assert_eq!(library.append(image, sheet, u64::MAX, &mut out), 0);
    let [done, whole, copied] = out;
    assert_eq!(done, whole);
    [whole, copied]
}

/// Answers the stores that this turn made.
fn turn(
    library: &dyn Library,
    state: &mut State,
    image: &mut [u8],
    sheet: &[u8],
    limit: u64,
) -> u64 {
    let mut made = [0];
    assert_eq!(library.turn(state, image, sheet, limit, &mut made), 0);
    made[0]
}

fn readings(minute: usize) -> [[u8; 4]; 3] {
    [0, 1, 2].map(|probe| (20.0 + probe as f32 + minute as f32 / 60.0).to_le_bytes())
}

/// The chunks of a frame of three.
const CHUNKS: [&[u8]; 3] = [b"probe", b"heater", b"setpoint"];

/// A minute's sheet: three readings, the heater's duty and a setpoint.
pub fn frame(minute: usize) -> Vec<u8> {
    sheet(&[
        Row::new(b"probe", 9, 3, 1, readings(minute).as_flattened()),
        Row::new(b"heater", 1, 1, 1, &[minute as u8]),
        Row::new(b"setpoint", 10, 1, 1, &21.5_f64.to_le_bytes()),
    ])
}

/// A minute's sheet of four rows: three readings, each a chunk, and the heater's duty.
pub fn frame_of_four(minute: usize) -> Vec<u8> {
    let [first, second, third] = readings(minute);
    sheet(&[
        Row::new(b"probe0", 9, 1, 1, &first),
        Row::new(b"probe1", 9, 1, 1, &second),
        Row::new(b"probe2", 9, 1, 1, &third),
        Row::new(b"heater", 1, 1, 1, &[minute as u8]),
    ])
}

/// What appends store.
#[derive(Default)]
pub struct Stored {
    pub stores: u64,
    /// Bytes of the rows' data, without names and padding.
    pub data: u64,
    /// How far the longest image is in use, where the appends were made.
    pub used: usize,
}

impl Stored {
    /// Adds the append of one sheet, and makes no store.
    fn add(&mut self, library: &dyn Library, image: &[u8], sheet: &[u8]) {
        let (mut state, mut begun) = (REFUSED, [0; 2]);
        assert_eq!(library.begin(image, sheet, &mut state, &mut begun), 0);
        self.stores += begun[0];
        let rows = lawful_rows(sheet, version(image)).unwrap();
        self.data += rows.iter().map(|row| row.data.len() as u64).sum::<u64>();
    }
}

/// A day of frames in one image.
pub struct Day {
    pub image: Vec<u8>,
    sheets: Vec<Vec<u8>>,
}

impl Day {
    fn of(frame: fn(usize) -> Vec<u8>) -> Day {
        Day { image: vec![0; 1 << 20], sheets: (0..FRAMES).map(frame).collect() }
    }

    /// The whole day, of three chunks a frame.
    pub fn new() -> Day {
        let mut day = Day::of_three();
        (0..FRAMES).for_each(|minute| day.append(pair, &Reference, minute));
        day
    }

    pub fn of_three() -> Day {
        Day::of(frame)
    }

    pub fn of_four() -> Day {
        Day::of(frame_of_four)
    }

    /// What the day's appends store, with so many frames to an image and so many slots at first.
    pub fn stored(mut self, library: &dyn Library, frames: usize, slots: u64) -> Stored {
        let mut stored = Stored::default();
        for sheets in self.sheets.chunks(frames) {
            create(library, &mut self.image, slots);
            for sheet in sheets {
                stored.add(library, &self.image, sheet);
                pair(library, &mut self.image, sheet);
            }
            let opens = |part: &[u8]| library.open(part, &mut [0; 3]) == 0;
            stored.used = stored.used.max(shortest(&self.image, opens));
        }
        stored
    }

    pub fn clear(&mut self) {
        self.image.fill(0);
    }

    /// Appends one frame; before the first the image is made.
    pub fn append(&mut self, way: Way, library: &dyn Library, minute: usize) {
        if minute == 0 {
            create(library, &mut self.image, SLOTS);
        }
        way(library, &mut self.image, &self.sheets[minute]);
    }

    /// Reads the three chunks of one frame.
    pub fn read(&self, library: &dyn Library, minute: usize) {
        for name in CHUNKS {
            let mut out = [0; 2];
            let image = black_box(&self.image);
            assert_eq!(library.chunk(image, minute as u64, name, &mut out), 0);
            black_box(out);
        }
    }

    /// Opens the image once, and reads the three chunks of every frame.
    pub fn read_all(&self, readers: &dyn Readers) {
        let reader = opened(readers, &self.image);
        for (minute, name) in (0..FRAMES as u64).flat_map(|n| CHUNKS.map(|name| (n, name))) {
            let mut out = [0; 2];
            let image = black_box(&self.image);
            assert_eq!(readers.reader_chunk(&reader, image, minute, name, &mut out), 0);
            black_box(out);
        }
    }
}

/// Frames of 30 days.
pub const MINUTES: usize = 30 * FRAMES;

/// What moving the index costs the appends of a month, all in one image.
pub struct Moves {
    pub times: u64,
    /// At first and at last.
    pub slots: [u64; 2],
    /// Listed at last.
    pub entries: u64,
    pub copied: u64,
    /// All stores of the appends.
    pub stores: u64,
}

impl Moves {
    /// Appends such frames to an image of so many slots at first.
    pub fn of(library: &dyn Library, frame: fn(usize) -> Vec<u8>, slots: u64) -> Moves {
        let mut image = vec![0; 1 << 25];
        create(library, &mut image, slots);
        let mut moves = Moves { times: 0, slots: [slots; 2], entries: 0, copied: 0, stores: 0 };
        for minute in 0..MINUTES {
            let [stores, copied] = pair(library, &mut image, &frame(minute));
            moves.stores += stores;
            moves.copied += copied;
            let now = get64(&image, 16);
            moves.times += u64::from(now > moves.slots[1]);
            moves.slots[1] = now;
        }
        moves.entries = library.counts(&image).unwrap()[2];
        // What W-214 promises of any run of whole appends.
        assert!(moves.copied <= moves.slots[1] - moves.slots[0]);
        assert!(moves.times > 0 && moves.copied < 2 * moves.entries);
        moves
    }
}

/// A month's image with free slots, and a frame of small rows for the first of them.
pub struct Next {
    image: Vec<u8>,
    sheet: Vec<u8>,
    rows: usize,
}

impl Next {
    fn new(image: Vec<u8>, names: &[String]) -> Next {
        let rows: Vec<_> =
            names.iter().map(|name| Row::bytes(name.as_bytes(), b"reading.")).collect();
        Next { image, sheet: sheet(&rows), rows: rows.len() }
    }

    fn of_three(slots: usize) -> Next {
        let names = [3, 7, 11].map(|n| format!("probe/{n:02}/reading"));
        Next::new(month_and(slots - ENTRIES), &names)
    }

    /// As many slots as the frame of three rows takes.
    pub fn fitting() -> Next {
        Next::of_three(ENTRIES + 3)
    }

    /// As many slots as doubling gives: step 1 of each append clears all free ones.
    pub fn doubled() -> Next {
        Next::of_three(65_536)
    }

    /// A frame of as many rows as a sheet can have, and as many slots as it takes. Their names are
    /// listed, and each frame before it has a quarter of them.
    pub fn of_most() -> Next {
        let names = probes(64);
        let there = |frame, id| u64::from(id / 16) == frame % 4;
        Next::new(index(V2_1, &names, there, names.len()), &names)
    }

    /// A frame of as many rows, all of new names of the greatest length, and no free slot: names and
    /// index move.
    pub fn moving() -> Next {
        let mut image = month();
        image.resize(image.len() + (8 << 20), 0);
        let names: Vec<_> = (0..64).map(|n| format!("{n:0>255}")).collect();
        Next::new(image, &names)
    }

    /// The slots as they were before the append.
    pub fn restore(&mut self) {
        self.image[256 + 32 * ENTRIES..][..32 * self.rows].fill(0);
    }

    pub fn append(&mut self, way: Way, library: &dyn Library) {
        way(library, black_box(&mut self.image), black_box(&self.sheet));
    }

    pub fn stored(self, library: &dyn Library) -> Stored {
        let mut stored = Stored::default();
        stored.add(library, &self.image, &self.sheet);
        stored
    }

    pub fn open(&self, library: &dyn Library) {
        let mut out = [0; 3];
        assert_eq!(library.open(black_box(&self.image), &mut out), 0);
        assert_eq!(black_box(out)[2], ENTRIES as u64);
    }

    /// Answers the state and the stores of the whole append.
    pub fn begin(&self, library: &dyn Library) -> (State, u64) {
        let (mut state, mut begun) = (REFUSED, [0; 2]);
        let (image, sheet) = (black_box(&self.image), black_box(&self.sheet));
        assert_eq!(library.begin(image, sheet, &mut state, &mut begun), 0);
        black_box((state, begun[0]))
    }
}

/// An append in turns. Where it moves no block, a turn of an older state is not refused and makes its
/// stores again.
pub struct Turns<'l> {
    next: Next,
    /// Its image's, as before the append.
    header: [u8; 256],
    sides: [Begun<'l>; 2],
    /// Stores of the whole append.
    pub whole: u64,
}

/// What one side has begun, and how far it is.
struct Begun<'l> {
    library: &'l dyn Library,
    begun: State,
    state: State,
}

impl<'l> Turns<'l> {
    pub fn new(next: Next, libraries: [&'l dyn Library; 2]) -> Turns<'l> {
        let (_, whole) = next.begin(libraries[0]);
        let sides = libraries.map(|library| {
            let (begun, _) = next.begin(library);
            Begun { library, begun, state: begun }
        });
        let header = next.image[..256].try_into().unwrap();
        Turns { next, header, sides, whole }
    }

    /// The next turn of a side.
    pub fn turn(&mut self, side: usize, limit: u64) {
        let Begun { library, state, .. } = &mut self.sides[side];
        let (image, sheet) = (black_box(&mut self.next.image), black_box(&self.next.sheet));
        assert_eq!(turn(*library, state, image, sheet, limit), limit);
    }

    /// Both sides go back to their beginning, and the header does.
    pub fn restart(&mut self) {
        self.next.image[..256].copy_from_slice(&self.header);
        self.sides.iter_mut().for_each(|side| side.state = side.begun);
    }

    /// The whole append of a side, in turns of so many stores.
    pub fn all(&mut self, side: usize, limit: u64) {
        self.sides[side].state = self.sides[side].begun;
        (0..self.whole / limit).for_each(|_| self.turn(side, limit));
    }
}

/// An image with room for a chunk of 1 MiB.
pub struct Large {
    image: Vec<u8>,
    fresh: Vec<u8>,
    sheet: Vec<u8>,
}

impl Large {
    pub fn bytes() -> Large {
        let data: Vec<u8> = (0..1 << 20).map(|n| (n * 7 + n / 251) as u8).collect();
        Large::of(Row::bytes(b"trace", &data))
    }

    /// The same number of bytes as floats, none of them a NaN.
    pub fn floats() -> Large {
        let data: Vec<[u8; 4]> = (0..1 << 18).map(|n| (n as f32 / 7.0).to_le_bytes()).collect();
        Large::of(Row::new(b"trace", 9, 1 << 18, 1, data.as_flattened()))
    }

    pub fn doubles() -> Large {
        let data: Vec<[u8; 8]> = (0..1 << 17).map(|n| (n as f64 / 7.0).to_le_bytes()).collect();
        Large::of(Row::new(b"trace", 10, 1 << 17, 1, data.as_flattened()))
    }

    fn of(row: Row) -> Large {
        let sheet = sheet(&[row]);
        let mut fresh = vec![0; 3328];
        create(&Reference, &mut fresh, SLOTS);
        let mut large = Large { image: vec![1; (1 << 20) + 8192], fresh, sheet };
        large.restore();
        large
    }

    /// The image as it was before the append, but for the bytes of the chunk.
    pub fn restore(&mut self) {
        self.image[..self.fresh.len()].copy_from_slice(&self.fresh);
    }

    pub fn append(&mut self, way: Way, library: &dyn Library) {
        way(library, black_box(&mut self.image), black_box(&self.sheet));
    }

    /// The chunk's bytes alone, from the sheet to the same place.
    pub fn copy(&mut self) {
        let data = &black_box(&self.sheet)[4 + 16 + 5..];
        let place = &mut black_box(&mut self.image)[3328..][..data.len()];
        place.copy_from_slice(data);
        black_box(place);
    }
}

/// Writes the NChilada file of a chunk, as the C interface has it.
pub type Write = fn(&[u8], u64, &[u8], f64, &mut [u8]) -> u64;

/// An image with a chunk of 1 MiB, and a slice for its NChilada file.
pub struct Property {
    image: Vec<u8>,
    file: Vec<u8>,
    /// Where the chunk lies.
    data: Range<usize>,
}

/// The n-th value of a chunk: up and down, so that no processor foresees which is an extreme.
fn value(n: u32) -> f64 {
    f64::from(n.wrapping_mul(2_654_435_769) >> 8) / 64.0 - 1e5
}

/// A chunk of 1 MiB, in so many columns.
fn floats(m: u32) -> Row {
    let n = (1 << 18) / m;
    let data: Vec<_> = (0..n * m).map(|n| (value(n) as f32).to_le_bytes()).collect();
    Row::new(b"trace", 9, n.into(), m, data.as_flattened())
}

fn doubles(m: u32) -> Row {
    let n = (1 << 17) / m;
    let data: Vec<_> = (0..n * m).map(|n| value(n).to_le_bytes()).collect();
    Row::new(b"trace", 10, n.into(), m, data.as_flattened())
}

/// An image with one chunk, and where that lies.
fn alone(row: Row) -> (Vec<u8>, Range<usize>) {
    let mut image = vec![0; (1 << 20) + 8192];
    create(&Reference, &mut image, SLOTS);
    pair(&Reference, &mut image, &sheet(&[row]));
    let mut place = [0; 2];
    assert_eq!(Reference.chunk(&image, 0, b"trace", &mut place), 0);
    let [start, length] = place.map(|word| word as usize);
    (image, start..start + length)
}

impl Property {
    pub fn floats(m: u32) -> Property {
        Property::of(floats(m))
    }

    pub fn doubles(m: u32) -> Property {
        Property::of(doubles(m))
    }

    fn of(row: Row) -> Property {
        // The header, the extremes, which are two rows, and the rows.
        let file = vec![1; 28 + row.data.len() / row.n as usize * (2 + row.n as usize)];
        let (image, data) = alone(row);
        Property { image, file, data }
    }

    pub fn write(&mut self, write: Write) {
        let (image, file) = (black_box(&self.image), black_box(&mut self.file[..]));
        assert_eq!(write(image, 0, b"trace", 60.0, file), 0);
        black_box(file);
    }

    /// The chunk's bytes as they are, to the file's end.
    pub fn copy(&mut self) {
        let data = &black_box(&self.image)[self.data.clone()];
        let behind = self.file.len() - data.len();
        let place = &mut black_box(&mut self.file)[behind..];
        place.copy_from_slice(data);
        black_box(place);
    }
}

/// An image with a chunk of 1 MiB, its RawArray file, and a slice for the sheet that this becomes.
pub struct Raw {
    image: Vec<u8>,
    file: Vec<u8>,
    sheet: Vec<u8>,
    /// Where the chunk lies.
    data: Range<usize>,
}

impl Raw {
    pub fn floats(m: u32) -> Raw {
        let (image, data) = alone(floats(m));
        let sheet = vec![1; 4 + 16 + 5 + data.len()];
        let mut raw = Raw { image, file: vec![1; 64 + data.len()], sheet, data };
        raw.write(&Reference);
        raw
    }

    pub fn write(&mut self, library: &dyn Library) {
        let (image, file) = (black_box(&self.image), black_box(&mut self.file[..]));
        assert_eq!(library.rawarray_write(image, 0, b"trace", file), 0);
        black_box(file);
    }

    /// The chunk's bytes alone, to the same place.
    pub fn copy_out(&mut self) {
        let data = &black_box(&self.image)[self.data.clone()];
        let place = &mut black_box(&mut self.file)[64..];
        place.copy_from_slice(data);
        black_box(place);
    }

    pub fn read(&mut self, library: &dyn Library) {
        let (file, sheet) = (black_box(&self.file), black_box(&mut self.sheet[..]));
        assert_eq!(library.rawarray_read(file, b"trace", sheet), 0);
        black_box(sheet);
    }

    /// The file's data alone, to the same place.
    pub fn copy_in(&mut self) {
        let data = &black_box(&self.file)[64..];
        let place = &mut black_box(&mut self.sheet)[4 + 16 + 5..];
        place.copy_from_slice(data);
        black_box(place);
    }
}
