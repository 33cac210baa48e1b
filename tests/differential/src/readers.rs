//! An image asked through a reader and by the calls that open it, readers of one moment of a run of
//! appends asked at the later ones, and any words as a reader. The random groups of readers are here.

use crate::ask::{Answer, Ask};
use crate::check::{hex, names_of, Check, ODD_NAMES};
use crate::generate::{self, Layout};
use crate::images::{
    blank, frames_to_ask, get64, put32, put_slots, room, sheet, size, version, Row, Slot, GROWING,
    SEGMENT, V1_0, V2_0, V2_1, VERSIONS,
};
use crate::library::{Library, Reader, READER_WORDS};
use crate::random::Rng;
use crate::reference;
use std::collections::BTreeSet;

/// The answer of a call through a reader; a refusal leaves `out` as it was.
fn answer<const K: usize>(call: impl FnOnce(&mut [u64; K]) -> u64) -> Answer<[u64; K]> {
    let before = [0x5555; K];
    let mut out = before;
    match call(&mut out) {
        0 => Ok(out),
        number => {
            assert_eq!(out, before, "refused with {number}, and wrote");
            Err(number)
        }
    }
}

/// What is asked of an image, whichever way.
pub trait Reading {
    fn name(&self, n: u64) -> Answer<[u64; 2]>;
    fn entry(&self, n: u64) -> Answer<[u64; 7]>;
    fn lookup(&self, frame: u64, name: &[u8]) -> Answer<[u64; 7]>;
    fn chunk(&self, frame: u64, name: &[u8]) -> Answer<[u64; 2]>;
    fn element(&self, frame: u64, name: &[u8], k: u64) -> Answer<[u64; 2]>;
    fn id(&self, name: &[u8]) -> Answer<u64>;
    fn find(&self, frame: u64, id: u64) -> Answer<[u64; 7]>;
    fn newest(&self, frame: u64, id: u64) -> Answer<[u64; 7]>;
}

/// Through a reader.
#[derive(Clone, Copy)]
pub struct Through<'a> {
    pub library: &'a dyn Library,
    pub reader: Reader,
    pub image: &'a [u8],
}

impl Reading for Through<'_> {
    fn name(&self, n: u64) -> Answer<[u64; 2]> {
        answer(|out| self.library.reader_name(&self.reader, self.image, n, out))
    }

    fn entry(&self, n: u64) -> Answer<[u64; 7]> {
        answer(|out| self.library.reader_entry(&self.reader, self.image, n, out))
    }

    fn lookup(&self, frame: u64, name: &[u8]) -> Answer<[u64; 7]> {
        answer(|out| self.library.reader_lookup(&self.reader, self.image, frame, name, out))
    }

    fn chunk(&self, frame: u64, name: &[u8]) -> Answer<[u64; 2]> {
        answer(|out| self.library.reader_chunk(&self.reader, self.image, frame, name, out))
    }

    fn element(&self, frame: u64, name: &[u8], k: u64) -> Answer<[u64; 2]> {
        answer(|out| self.library.reader_element(&self.reader, self.image, frame, name, k, out))
    }

    fn id(&self, name: &[u8]) -> Answer<u64> {
        let id = answer(|out| self.library.reader_id(&self.reader, self.image, name, out));
        id.map(|[id]| id)
    }

    fn find(&self, frame: u64, id: u64) -> Answer<[u64; 7]> {
        answer(|out| self.library.reader_find(&self.reader, self.image, frame, id, out))
    }

    fn newest(&self, frame: u64, id: u64) -> Answer<[u64; 7]> {
        answer(|out| self.library.reader_newest(&self.reader, self.image, frame, id, out))
    }
}

/// By the calls that open the image each time. An id is looked for among all names, and the newest
/// entry among all entries.
pub struct Opening<'a> {
    library: &'a dyn Library,
    image: &'a [u8],
    frames: u64,
    names: Vec<Vec<u8>>,
    entries: Vec<[u64; 7]>,
}

impl<'a> Opening<'a> {
    /// The number with which the image is refused, if it is.
    pub fn new(library: &'a dyn Library, image: &'a [u8]) -> Answer<Opening<'a>> {
        let [frames, names, _] = library.counts(image)?;
        let name = |n| library.nth_name(image, n).map(<[u8]>::to_vec);
        let names = (0..names).map(name).collect::<Answer<_>>()?;
        let entries = library.all_entries(image)?;
        Ok(Opening { library, image, frames, names, entries })
    }

    /// The words of its reader, by the header and what is listed.
    fn words(&self) -> Reader {
        let version = version(self.image);
        let size: usize = self.names.iter().map(|name| room(version, name)).sum();
        let [index, namelist] = [8, 24].map(|at| get64(self.image, at));
        let [names, entries] = [self.names.len() as u64, self.entries.len() as u64];
        [self.frames, names, entries, index, namelist, size as u64, version.into(), 0]
    }

    /// Frame 40, then id 41.
    fn there(&self, frame: u64, id: u64) -> Answer<&[u8]> {
        let name = usize::try_from(id).ok().and_then(|id| self.names.get(id));
        match name {
            _ if frame >= self.frames => Err(40),
            None => Err(41),
            Some(name) => Ok(name),
        }
    }
}

impl Reading for Opening<'_> {
    fn name(&self, n: u64) -> Answer<[u64; 2]> {
        answer(|out| self.library.name(self.image, n, out))
    }

    fn entry(&self, n: u64) -> Answer<[u64; 7]> {
        answer(|out| self.library.entry(self.image, n, out))
    }

    fn lookup(&self, frame: u64, name: &[u8]) -> Answer<[u64; 7]> {
        answer(|out| self.library.lookup(self.image, frame, name, out))
    }

    fn chunk(&self, frame: u64, name: &[u8]) -> Answer<[u64; 2]> {
        answer(|out| self.library.chunk(self.image, frame, name, out))
    }

    fn element(&self, frame: u64, name: &[u8], k: u64) -> Answer<[u64; 2]> {
        answer(|out| self.library.element(self.image, frame, name, k, out))
    }

    fn id(&self, name: &[u8]) -> Answer<u64> {
        self.names.iter().position(|listed| listed == name).map(|id| id as u64).ok_or(41)
    }

    fn find(&self, frame: u64, id: u64) -> Answer<[u64; 7]> {
        self.lookup(frame, self.there(frame, id)?)
    }

    fn newest(&self, frame: u64, id: u64) -> Answer<[u64; 7]> {
        self.there(frame, id)?;
        let newest = self.entries.iter().rfind(|entry| entry[4] == id && entry[0] <= frame);
        newest.copied().ok_or(42)
    }
}

/// What to ask for: these frames, names and ids, and all from 0 to some number behind the last.
#[derive(Clone, Debug)]
pub struct Questions {
    pub frames: BTreeSet<u64>,
    pub names: Vec<Vec<u8>>,
    /// Of names, ids and entries.
    pub most: u64,
}

impl Questions {
    /// Of everything that an image lists that opens, and beside it; and of these names.
    pub fn of(library: &dyn Library, image: &[u8], names: &[Vec<u8>]) -> Questions {
        let [frames, listed, entries] = library.counts(image).unwrap_or_default();
        let named = library.named_frames(image).unwrap_or_default();
        let mut asked = frames_to_ask(&named, frames);
        asked.extend([0, frames, frames.saturating_add(1 << 32), u64::MAX]);
        let own = (0..listed).filter_map(|n| library.nth_name(image, n).map(<[u8]>::to_vec).ok());
        let beside = [b"".to_vec(), b"no such name".to_vec()];
        let names: BTreeSet<_> = names.iter().cloned().chain(own).chain(beside).collect();
        let names = names.into_iter().collect();
        Questions { frames: asked, names, most: listed.max(entries) + 2 }
    }
}

/// Place and bytes of a name or a chunk.
type Part = Answer<([u64; 2], Vec<u8>)>;

/// An entry, its chunk and some of the elements.
type Found = (Answer<[u64; 7]>, Part, Vec<Answer<[u64; 2]>>);

/// All answers to some questions.
#[derive(Debug, PartialEq, Eq)]
pub struct View {
    names: Vec<Part>,
    ids: Vec<Answer<u64>>,
    entries: Vec<Answer<[u64; 7]>>,
    chunks: Vec<Found>,
    by_id: Vec<[Answer<[u64; 7]>; 2]>,
}

impl View {
    pub fn new(reading: &impl Reading, image: &[u8], questions: &Questions) -> View {
        let Questions { frames, names, most } = questions;
        let part = |place: Answer<[u64; 2]>| {
            let bytes = |[start, length]: [u64; 2]| {
                ([start, length], image[start as usize..][..length as usize].to_vec())
            };
            place.map(bytes)
        };
        let numbers = || (0..=*most).chain([1 << 16, 1 << 32, u64::MAX]);
        let mut view = View {
            names: numbers().map(|n| part(reading.name(n))).collect(),
            ids: names.iter().map(|name| reading.id(name)).collect(),
            entries: numbers().map(|n| reading.entry(n)).collect(),
            chunks: Vec::with_capacity(frames.len() * names.len()),
            by_id: Vec::new(),
        };
        for &frame in frames {
            for name in names {
                let entry = reading.lookup(frame, name);
                let count = entry.map_or(0, |entry| entry[1].wrapping_mul(entry[3]));
                let elements = [0, count / 2, count.wrapping_sub(1), count];
                let elements = elements.iter().map(|&k| reading.element(frame, name, k));
                view.chunks.push((entry, part(reading.chunk(frame, name)), elements.collect()));
            }
            let ids = (0..=names.len() as u64).chain([1 << 16]);
            view.by_id.extend(ids.map(|id| [reading.find(frame, id), reading.newest(frame, id)]));
        }
        view
    }

    /// The first of its answers that is another.
    pub fn differs(&self, other: &View) -> Option<String> {
        fn first<T: PartialEq + std::fmt::Debug>(of: &str, a: &[T], b: &[T]) -> Option<String> {
            let at = a.iter().zip(b).position(|(a, b)| a != b)?;
            Some(format!("{of} {at}: {:?}, expected {:?}", a[at], b[at]))
        }
        first("name", &self.names, &other.names)
            .or_else(|| first("id of name", &self.ids, &other.ids))
            .or_else(|| first("entry", &self.entries, &other.entries))
            .or_else(|| first("chunk", &self.chunks, &other.chunks))
            .or_else(|| first("find and newest", &self.by_id, &other.by_id))
    }
}

/// What a reader of the image answers is what the calls answer that open it; an image that is refused
/// has no reader, for the same reason. Answers the reader.
pub fn as_it_is(
    library: &dyn Library,
    image: &[u8],
    questions: &Questions,
) -> Result<Option<Reader>, String> {
    let (reader, opening) = (library.reader(image), Opening::new(library, image));
    let (reader, opening) = match (reader, opening) {
        (Ok(reader), Ok(opening)) if reader == opening.words() => (reader, opening),
        (Err(a), Err(b)) if a == b => return Ok(None),
        (a, b) => return Err(format!("reader {a:?}, expected {:?}", b.map(|b| b.words()))),
    };
    let view = View::new(&opening, image, questions);
    let through = View::new(&Through { library, reader, image }, image, questions);
    match through.differs(&view) {
        Some(what) => Err(format!("reader {reader:?} {what}\n  image {}", hex(image))),
        None => Ok(Some(reader)),
    }
}

/// A run of appends so far: all its images, and what each of them answered when it was made.
pub struct Moments<'l> {
    library: &'l dyn Library,
    questions: Questions,
    images: Vec<Vec<u8>>,
    /// Where the reader or an answer changed: from which image on, the reader and the answers.
    readers: Vec<(usize, Reader, View)>,
}

impl<'l> Moments<'l> {
    pub fn new(library: &'l dyn Library, questions: Questions) -> Moments<'l> {
        Moments { library, questions, images: Vec::new(), readers: Vec::new() }
    }

    /// The next image, as it is now. Every reader so far answers there as it did, and so does its own.
    pub fn add(&mut self, image: &[u8]) -> Result<(), String> {
        let Moments { library, questions, .. } = self;
        let now = self.images.len();
        for (then, reader, view) in &self.readers {
            let through =
                View::new(&Through { library: *library, reader: *reader, image }, image, questions);
            if let Some(what) = through.differs(view) {
                let (before, image) = (hex(&self.images[*then]), hex(image));
                return Err(format!(
                    "the reader of image {then} on image {now}: {what}\n  reader {reader:?}\n  its image {before}\n  image {image}"
                ));
            }
        }
        let opening = Opening::new(*library, image).map_err(|n| format!("refused with {n}"))?;
        let view = View::new(&opening, image, questions);
        let reader = opening.words();
        match library.reader(image) {
            Ok(words) if words == reader => {}
            words => return Err(format!("reader {words:?}, expected {reader:?}")),
        }
        self.images.push(image.to_vec());
        // An equal reader with equal answers has been asked, and will be.
        if self.readers.iter().any(|(_, r, v)| *r == reader && *v == view) {
            return Ok(());
        }
        let through = View::new(&Through { library: *library, reader, image }, image, questions);
        if let Some(what) = through.differs(&view) {
            return Err(format!(
                "the reader of image {now}, {reader:?}: {what}\n  image {}",
                hex(image)
            ));
        }
        self.readers.push((now, reader, view));
        Ok(())
    }

    /// Images so far.
    pub fn count(&self) -> u64 {
        self.images.len() as u64
    }

    pub fn readers(&self) -> impl Iterator<Item = &Reader> {
        self.readers.iter().map(|(_, reader, _)| reader)
    }
}

/// An image of any version that opens, mostly, with names to ask for.
fn some_image(rng: &mut Rng) -> (Vec<u8>, Vec<Vec<u8>>) {
    let layout = |layout: Layout| (layout.image, layout.names);
    match rng.below(9) {
        0 => generate::grown(rng),
        1 => generate::gapped(rng),
        2 => generate::older(rng),
        3 => layout(generate::spread(rng)),
        4 => {
            let mut bent = generate::odd(rng);
            bent.bend(rng);
            layout(bent)
        }
        5 => {
            let (count, most) = (rng.between(1, 6), rng.below(14));
            let names = generate::short_names(rng, count);
            let keys = generate::written_keys(rng, most, count);
            let version = rng.pick(&[V1_0, V1_0, V2_0, V2_1]);
            (generate::written_image(rng, version, &keys, &names), names)
        }
        _ => layout(generate::odd(rng)),
    }
}

/// A reader of an image as it is answers as the calls that open it, also of a longer slice, and
/// whatever its last word is.
pub fn as_they_are(check: &mut Check, rng: &mut Rng) {
    let (image, names) = some_image(rng);
    check.load(&image);
    let Some(reader) = check.reader_open() else {
        return;
    };
    let questions = Questions::of(check.library(), &image, &names);
    let library = check.library();
    check.compared(0);
    match as_it_is(library, &image, &questions) {
        Ok(own) if own == Some(reader) => {}
        Ok(own) => check.fail(|| format!("{own:?}, expected {reader:?}")),
        Err(what) => check.fail(|| what),
    }
    let frames: Vec<_> = questions.frames.iter().copied().take(12).collect();
    let ids: Vec<_> = (0..questions.most.min(8)).chain([1 << 16]).collect();
    check.read_through(&reader, &frames, &questions.names, &ids);
    let behind = rng.between(1, 100);
    let longer = [&image[..], &rng.bytes(behind)].concat();
    let other = [&reader[..READER_WORDS - 1], &[rng.border()]].concat().try_into().unwrap();
    let [before, after] = [(reader, &image), (other, &longer)]
        .map(|(reader, image)| View::new(&Through { library, reader, image }, image, &questions));
    if let Some(what) = after.differs(&before) {
        check.fail(|| format!("on a longer slice {what}\n  {reader:?} image {}", hex(&image)));
    }
}

/// Some rows: one or two, or three that move both blocks of a small image; some have no data.
fn some_rows(rng: &mut Rng, version: u32, known: &[Vec<u8>]) -> Vec<Row> {
    let mut rows = generate::rows(rng, version, known);
    rows.truncate(rng.pick(&[1, 1, 2, 3]));
    if rng.chance(25) {
        let length = rng.between(60, 130);
        rows.push(Row::bytes(&vec![b'l'; length], b"1"));
    }
    if rng.chance(25) {
        let last = rows.len() - 1;
        (rows[last].n, rows[last].data) = (0, Vec::new());
    }
    rows
}

/// A small image that takes appends, so that all moments of some can be kept.
fn small(rng: &mut Rng) -> (Vec<u8>, Vec<Vec<u8>>) {
    let (mut image, known) = match rng.below(8) {
        0 => generate::gapped(rng),
        1 => generate::older(rng),
        2 => {
            let version = rng.pick(&GROWING);
            let Layout { image, names, .. } = generate::odd_of(rng, version);
            (image, names)
        }
        _ => {
            let (slots, segments) = (rng.below(4), rng.below(3));
            let names = 256 + 32 * slots;
            let end = names + SEGMENT * segments;
            let mut image = blank(end, 256, slots as u64, names as u64, segments as u64);
            put32(&mut image, 44, rng.pick(&GROWING));
            (image, Vec::new())
        }
    };
    let room = rng.pick(&[800, 1500, 2500]);
    image.extend(rng.bytes(room));
    (image, known)
}

/// A run of a few appends, each whole or stopped, made again or not: at every moment of it every
/// reader of that and of each earlier one answers as it did when it was opened.
pub fn of_earlier_moments(check: &mut Check, rng: &mut Rng) {
    let (mut image, mut known) = small(rng);
    let library = check.library();
    let mut sheets = Vec::new();
    for _ in 0..rng.between(1, 3) {
        let rows = some_rows(rng, version(&image), &known);
        known.extend(names_of(&rows));
        // A stopped append, and the same or another one over it.
        for _ in 0..rng.pick(&[1, 1, 2]) {
            sheets.push(sheet(&rows));
        }
    }
    let mut steps = Vec::new();
    let mut last = image.clone();
    for sheet in sheets {
        let Ok([_, whole, _]) = library.after(&last, &sheet, 0).1 else {
            continue;
        };
        let limit = match rng.below(4) {
            0 => rng.number() % whole,
            _ => whole,
        };
        last = library.after(&last, &sheet, limit).0;
        steps.push((sheet, limit));
    }
    known.sort();
    known.dedup();
    // The last image lists all that was ever listed.
    let mut questions = Questions::of(library, &last, &[]);
    questions.names.truncate(8);
    questions.names.extend(known.into_iter().take(3));
    let mut moments = Moments::new(library, questions);
    let run = |moments: &mut Moments, image: &mut Vec<u8>| {
        moments.add(image)?;
        for (sheet, limit) in &steps {
            in_moments(library, moments, image, sheet, *limit)?;
        }
        Ok(())
    };
    let made: Result<(), String> = run(&mut moments, &mut image);
    check.moments += moments.count();
    check.compared(0);
    if let Err(what) = made {
        check.fail(|| what);
    } else if image != last {
        check.fail(|| "turns leave another image than limits".into());
    }
    // The plain implementation's readers are these too, and answer the same at the run's end.
    let readers: Vec<_> = moments.readers().copied().collect();
    check.load(&image);
    for reader in readers.iter().rev().take(6) {
        let names = &moments.questions.names;
        check.read_through(reader, &[0, reader[0].wrapping_sub(1), reader[0]], names, &[0, 1, 2]);
    }
}

/// So many stores of an append with a moment after each: by turns from store to store, and by calls
/// of their own from the start; both are the same.
fn in_moments(
    library: &dyn Library,
    moments: &mut Moments,
    image: &mut Vec<u8>,
    sheet: &[u8],
    limit: u64,
) -> Result<(), String> {
    let before = image.clone();
    let (mut state, begun) = library.begun(image, sheet);
    begun.map_err(|number| format!("begin: {number}"))?;
    for store in 0..=limit {
        let made = library.go_on(&mut state, image, sheet, store.min(1));
        if made != Ok(store.min(1)) || *image != library.after(&before, sheet, store).0 {
            return Err(format!(
                "a turn to store {store}: {made:?}, or other bytes than the call's"
            ));
        }
        moments.add(image).map_err(|what| format!("after {store} stores: {what}"))?;
    }
    Ok(())
}

/// Names one behind the other, or in segments: some of them equal, empty, not closed, or as long as
/// their segment; now and then long ones.
fn loose_names(rng: &mut Rng, version: u32) -> Vec<u8> {
    const NAMES: [&[u8]; 6] = [b"a", b"b", b"ab", b"abc", b"probe", b"heater"];
    let count = rng.below(7);
    let mut list = Vec::new();
    for _ in 0..count {
        let at = list.len();
        list.extend(rng.pick(&NAMES));
        if rng.chance(8) {
            let length = rng.pick(&[1, 62, 63, 64, 255, 256, 300]);
            list.extend(vec![b'x'; length]);
        }
        if version == V1_0 {
            let full = rng.chance(15);
            list.resize(at + SEGMENT, if full { b'f' } else { 0 });
            if !full && rng.chance(50) {
                list[at + SEGMENT - 1] = b'z';
            }
        } else {
            list.push(0);
        }
        if rng.chance(8) {
            list[at] = 0;
        }
    }
    list
}

/// Frames next to each other, or about the numbers at which a key passes 64 bits.
const LOOSE_FRAMES: [[u64; 4]; 3] =
    [[0, 1, 2, 3], [0, 1, 1 << 48, (1 << 48) + 1], [3, 1 << 63, u64::MAX - 1, u64::MAX]];

/// Bytes that are no image, with slots in any order and names of any kind, and a reader that finds
/// them there.
fn loose(rng: &mut Rng) -> (Vec<u8>, Reader) {
    let version = rng.pick(&VERSIONS);
    let names = loose_names(rng, version);
    let frames = rng.pick(&LOOSE_FRAMES);
    let length = rng.below(1200);
    let count = rng.below(24);
    let index = rng.below(300);
    let list = if rng.chance(80) { index + 32 * count + rng.below(40) } else { rng.below(300) };
    let length = length.max(index + 32 * count).max(list + names.len());
    let mut slots: Vec<Slot> = (0..count)
        .map(|_| {
            let kind = rng.pick(&[0, 1, 1, 1, 2, 3, 4, 5, 6, 7, 8, 9, 10, 11, 11, 11, 12, 255]);
            let id = rng.pick(&[0, 0, 1, 1, 2, 3, 5, 65_535]);
            let (n, m) = match rng.below(6) {
                0 => (rng.border(), rng.border() as u32),
                1 => (0, rng.number() as u32),
                // As many bytes as none, in 64 bits, or a few more.
                2 => (rng.pick(&[1 << 61, 1 << 62, 1 << 63]) + rng.below(2) as u64, 8),
                _ => (rng.below(5) as u64, rng.pick(&[0, 1, 1, 1, 2, 4])),
            };
            let bytes = n.wrapping_mul(m.into()).wrapping_mul(size(kind) as u64);
            let location = match rng.below(8) {
                0 => rng.border(),
                // Up to the slice's end, or one byte further.
                1 | 2 => (length as u64).wrapping_sub(bytes).wrapping_add(rng.below(2) as u64),
                // Up to 2^64, or a little further.
                3 => bytes.wrapping_neg().wrapping_add(rng.below(3) as u64),
                _ => rng.below(length + 8) as u64,
            };
            Slot { frame: rng.pick(&frames), n, location, m, id, kind, flags: rng.byte() }
        })
        .collect();
    match rng.below(3) {
        0 => slots.sort_by_key(|slot| (slot.frame, slot.id)),
        1 => slots.sort_by_key(|slot| slot.frame),
        _ => {}
    }
    let mut image = if rng.chance(50) { rng.bytes(length) } else { vec![0; length] };
    put_slots(&mut image, index, &slots);
    image[list..][..names.len()].copy_from_slice(&names);
    let last = slots.last().map_or(0, |slot| slot.frame);
    let words = [
        rng.pick(&[last.saturating_add(1), 3, 4, u64::MAX]),
        rng.pick(&[3, 4, 6, 7, 1023, 1024]),
        count as u64,
        index as u64,
        list as u64,
        names.len() as u64,
        version.into(),
        rng.border(),
    ];
    (image, words)
}

/// A reader that one or two words of another, or all, are changed of.
fn changed(rng: &mut Rng, mut reader: Reader, length: usize) -> Reader {
    const STEPS: [u64; 14] = [
        1,
        31,
        32,
        33,
        63,
        64,
        65,
        1 << 16,
        1 << 32,
        1 << 48,
        1 << 58,
        1 << 59,
        1 << 63,
        u64::MAX - 31,
    ];
    let length = length as u64;
    for _ in 0..rng.pick(&[1, 1, 1, 2]) {
        let at = rng.below(READER_WORDS);
        // What is left behind a place for that many slots, or for the list.
        let room = length.saturating_sub(reader[if at == 2 || at == 3 { 3 } else { 4 }]);
        let step = rng.pick(&STEPS);
        reader[at] = match rng.below(8) {
            0 | 1 => reader[at].wrapping_add(step),
            2 | 3 => reader[at].wrapping_sub(step),
            4 => rng.border(),
            5 if at == 6 => generate::odd_version(rng).into(),
            5 if at == 1 => rng.pick(&[0, 1, 1023, 1024, 1025]),
            5 if at == 2 => (room / 32).wrapping_add(rng.pick(&[0, 0, 1, 1 << 59])),
            5 if at == 5 => room.wrapping_add(rng.pick(&[0, 0, 1])),
            5 => length.wrapping_sub(rng.below(3) as u64),
            6 if at == 3 => {
                length.wrapping_sub(32 * reader[2].min(1 << 20)).wrapping_add(rng.below(2) as u64)
            }
            6 if at == 4 => length.wrapping_sub(reader[5]).wrapping_add(rng.below(2) as u64),
            6 if at == 6 => rng.pick(&VERSIONS).into(),
            6 => reader[at] / 2,
            _ => rng.pick(&[0, 1, 2, 1 << 63, u64::MAX]),
        };
    }
    reader
}

/// Words that no opening gave, or not for this image, and images of any bytes, against the definitions
/// of the plain implementation.
pub fn any_words(check: &mut Check, rng: &mut Rng) {
    let mut readers = vec![[0; READER_WORDS]];
    let mut images = Vec::new();
    for _ in 0..2 {
        let (image, reader) = loose(rng);
        images.push(image);
        readers.push(reader);
        let (mut image, _) = some_image(rng);
        image.truncate(2048);
        check.load(&image);
        readers.extend(check.reader_open());
        images.push(image);
    }
    let length = rng.pick(&[0, 1, 31, 32, 63, 255, 256, 300, 1000]);
    images.push(rng.bytes(length));
    for image in &images {
        check.load(image);
        for reader in readers.clone() {
            through_any(check, rng, &reader);
            let reader = changed(rng, reader, image.len());
            through_any(check, rng, &reader);
        }
        let reader = [(); READER_WORDS].map(|()| rng.border());
        through_any(check, rng, &reader);
    }
    // A part of an image.
    let image = rng.pick_ref(&images);
    let part = &image[..rng.below(image.len() + 1)];
    check.load(part);
    for reader in readers {
        through_any(check, rng, &reader);
    }
}

/// All calls through a reader: with frames, names and ids that it may find, and beside them.
fn through_any(check: &mut Check, rng: &mut Rng, reader: &Reader) {
    let image = check.image();
    let of = reference::Reader::of(*reader);
    let mut frames = vec![0, reader[0].wrapping_sub(1), reader[0], u64::MAX];
    let mut ids = vec![0, 1, reader[1].wrapping_sub(1), reader[1], 1 << 16, u64::MAX];
    for _ in 0..4 {
        let n = rng.number() % reader[2].clamp(1, 1 << 20);
        if let Ok(entry) = of.entry(image, n) {
            frames.push(entry.frame);
            frames.push(entry.frame.wrapping_add(rng.pick(&[1, u64::MAX])));
            ids.push(entry.id.into());
            ids.push(65_536 + u64::from(entry.id));
        }
    }
    frames.sort_unstable();
    frames.dedup();
    ids.sort_unstable();
    ids.dedup();
    let mut names = vec![rng.pick(&ODD_NAMES).to_vec(), b"".to_vec()];
    let listed = (0..5).map_while(|n| of.name(image, n).ok().map(<[u8]>::to_vec));
    names.extend(listed.collect::<BTreeSet<_>>());
    let any = rng.pick_ref(&names).clone();
    names.push(match rng.below(4) {
        0 => [&any[..], b"x"].concat(),
        1 => [&any[..], &[b'x'; 256]].concat(),
        2 => any[..any.len().min(63)].to_vec(),
        _ => any[..any.len() / 2].to_vec(),
    });
    check.read_through(reader, &frames, &names, &ids);
}
