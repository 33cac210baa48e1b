//! Two makers of the calls side by side, on one image.

use crate::ask::any_bytes;
use crate::generate;
use crate::images::{around, frames_to_ask, lawful_rows, Row, V2_0};
use crate::lent::{Flush, Lent};
use crate::library::{
    Create, Library, Reader, Reference, State, READER_WORDS, REFUSED, STATE_WORDS,
};
use crate::random::Rng;
use std::collections::BTreeMap;
use std::fmt::Write;

/// What an `out` array holds before a call, so that one left alone shows.
const BEFORE: u64 = 0x0BAD_CAFE_0BAD_CAFE;

/// An `out` array between numbers that no call may touch.
#[repr(C)]
struct Out<const K: usize> {
    front: [u64; 2],
    numbers: [u64; K],
    behind: [u64; 2],
}

impl<const K: usize> Out<K> {
    fn new() -> Out<K> {
        Out::of([BEFORE; K])
    }

    fn of(numbers: [u64; K]) -> Out<K> {
        Out { front: [BEFORE; 2], numbers, behind: [BEFORE; 2] }
    }
}

/// So many failures of a test are printed whole; the others are counted.
const SHOWN: u64 = 3;

/// Names that no list holds, or only by chance.
pub const ODD_NAMES: [&[u8]; 6] = [b"", b"\0", b"a", b"ab\0", b"no such name", &[b'x'; 300]];

/// The library under test and the plain Rust implementation, each with its own copy of one image.
/// Each call is made on both, and its number, answers and bytes are compared.
pub struct Check<'l> {
    library: &'l dyn Library,
    theirs: Lent,
    argument: Lent,
    second: Lent,
    /// A second copy of the image, for the append as one call.
    joined: Lent,
    state: Lent,
    reader: Lent,
    file: Lent,
    ours: Vec<u8>,
    before: Vec<u8>,
    flush: Flush,
    pub comparisons: u64,
    pub failures: u64,
    /// Appends that the plain implementation accepts.
    pub accepted: u64,
    /// How often each number was the answer, 0 for none.
    pub met: BTreeMap<u64, u64>,
    /// Moments of runs of appends looked at.
    pub moments: u64,
    /// Whether to print failures.
    pub show: bool,
}

impl<'l> Check<'l> {
    pub fn new(library: &'l dyn Library) -> Check<'l> {
        Check {
            library,
            theirs: Lent::new(1 << 16),
            argument: Lent::new(1 << 16),
            second: Lent::new(1 << 10),
            joined: Lent::new(1 << 16),
            state: Lent::new(8 * STATE_WORDS),
            reader: Lent::new(8 * READER_WORDS),
            file: Lent::new(1 << 10),
            ours: Vec::new(),
            before: Vec::new(),
            flush: Flush::End,
            comparisons: 0,
            failures: 0,
            accepted: 0,
            met: BTreeMap::new(),
            moments: 0,
            show: true,
        }
    }

    pub fn library(&self) -> &'l dyn Library {
        self.library
    }

    /// Takes an image for the calls that follow.
    pub fn load(&mut self, image: &[u8]) {
        self.flush = match self.flush {
            Flush::Start => Flush::End,
            Flush::End => Flush::Start,
        };
        self.theirs.lend(image, self.flush);
        self.ours.clear();
        self.ours.extend_from_slice(image);
    }

    pub fn image(&self) -> &[u8] {
        &self.ours
    }

    /// The library's copy of the image.
    pub fn lent(&self) -> &[u8] {
        self.theirs.bytes()
    }

    /// Counts a comparison made elsewhere, whose answer was to be this number.
    pub fn compared(&mut self, expected: u64) {
        self.comparisons += 1;
        *self.met.entry(expected).or_default() += 1;
    }

    /// Compares what both answered, and gives the plain implementation's answer; `None` is a refusal.
    fn judge<const K: usize>(
        &mut self,
        (number, theirs): (u64, Out<K>),
        (expected, ours): (u64, Out<K>),
        call: impl FnOnce() -> String,
    ) -> Option<[u64; K]> {
        self.compared(expected);
        let strayed = [theirs.front, theirs.behind] != [[BEFORE; 2]; 2];
        let (theirs, ours) = ((number, theirs.numbers), (expected, ours.numbers));
        if theirs != ours || strayed {
            let said = |(number, out): (u64, [u64; K])| format!("{number} {out:?}");
            let image = hex(&self.ours);
            self.fail(|| {
                let (call, theirs, ours) = (call(), said(theirs), said(ours));
                let stray = if strayed { ", and wrote beside out" } else { "" };
                format!("{call}\n  answers  {theirs}{stray}\n  expected {ours}\n  image {image}")
            });
        }
        (ours.0 == 0).then_some(ours.1)
    }

    pub fn fail(&mut self, what: impl FnOnce() -> String) {
        self.failures += 1;
        if self.show && self.failures <= SHOWN {
            println!("\n{}", what());
        }
    }

    /// Opens the image, and a reader of it with the same number.
    pub fn open(&mut self) -> Option<[u64; 3]> {
        let (mut theirs, mut ours) = (Out::<3>::new(), Out::new());
        let number = self.library.open(self.theirs.bytes(), &mut theirs.numbers);
        let expected = Reference.open(&self.ours, &mut ours.numbers);
        self.reader_open();
        self.judge((number, theirs), (expected, ours), || "open".into())
    }

    pub fn name(&mut self, n: u64) -> Option<[u64; 2]> {
        let (mut theirs, mut ours) = (Out::<2>::new(), Out::new());
        let number = self.library.name(self.theirs.bytes(), n, &mut theirs.numbers);
        let expected = Reference.name(&self.ours, n, &mut ours.numbers);
        self.judge((number, theirs), (expected, ours), || format!("name {n}"))
    }

    pub fn entry(&mut self, n: u64) -> Option<[u64; 7]> {
        let (mut theirs, mut ours) = (Out::<7>::new(), Out::new());
        let number = self.library.entry(self.theirs.bytes(), n, &mut theirs.numbers);
        let expected = Reference.entry(&self.ours, n, &mut ours.numbers);
        self.judge((number, theirs), (expected, ours), || format!("entry {n}"))
    }

    /// A lookup, and with each what its search probes.
    pub fn lookup(&mut self, frame: u64, name: &[u8]) -> Option<[u64; 7]> {
        let (mut theirs, mut ours, mut probes) = (Out::<7>::new(), Out::new(), Out::new());
        let lent = self.argument.lend(name, self.flush);
        let number = self.library.lookup(self.theirs.bytes(), frame, lent, &mut theirs.numbers);
        let probed = self.library.probes(self.theirs.bytes(), frame, lent, &mut probes.numbers);
        self.argument_kept(name);
        self.judge_probes((probed, probes), frame, name);
        let expected = Reference.lookup(&self.ours, frame, name, &mut ours.numbers);
        let call = || format!("lookup frame {frame} name {}", hex(name));
        self.judge((number, theirs), (expected, ours), call)
    }

    /// A lookup whose name is a part of the image itself, as a caller has it from the n-th name.
    pub fn lookup_listed(&mut self, frame: u64, [start, length]: [u64; 2]) -> Option<[u64; 7]> {
        let (mut theirs, mut ours, mut probes) = (Out::<7>::new(), Out::new(), Out::new());
        let name = start as usize..(start + length) as usize;
        let image = self.theirs.bytes();
        let number = self.library.lookup(image, frame, &image[name.clone()], &mut theirs.numbers);
        let probed = self.library.probes(image, frame, &image[name.clone()], &mut probes.numbers);
        let text = self.ours[name.clone()].to_vec();
        self.judge_probes((probed, probes), frame, &text);
        let image = &self.ours;
        let expected = Reference.lookup(image, frame, &image[name.clone()], &mut ours.numbers);
        let call = || format!("lookup frame {frame} name at {name:?}");
        self.judge((number, theirs), (expected, ours), call)
    }

    /// Compares a count of probes, and holds it to what knows no halving: its bound, and what it reads
    /// at least where there is a search.
    fn judge_probes(&mut self, (number, theirs): (u64, Out<1>), frame: u64, name: &[u8]) {
        let mut ours = Out::new();
        let expected = Reference.probes(&self.ours, frame, name, &mut ours.numbers);
        let call = || format!("probes frame {frame} name {}", hex(name));
        let [count] = theirs.numbers;
        self.judge((number, theirs), (expected, ours), call);
        if ![0, 42].contains(&number) {
            if count != 0 {
                self.fail(|| format!("{}\n  answers  {number} [{count}]", call()));
            }
            return;
        }
        let entries = crate::reference::open(&self.ours).map_or(0, |counts| counts.entries);
        let (inside, beside) = around(&self.ours, entries, frame);
        let digits = u64::from(u64::BITS - entries.leading_zeros());
        let least = if number == 0 { 1 } else { inside + beside };
        if !(least..=digits + 1 + inside).contains(&count) {
            self.fail(|| format!("{}\n  answers  {number} [{count}] of {entries}", call()));
        }
    }

    pub fn chunk(&mut self, frame: u64, name: &[u8]) -> Option<[u64; 2]> {
        let (mut theirs, mut ours) = (Out::<2>::new(), Out::new());
        let lent = self.argument.lend(name, self.flush);
        let number = self.library.chunk(self.theirs.bytes(), frame, lent, &mut theirs.numbers);
        self.argument_kept(name);
        let expected = Reference.chunk(&self.ours, frame, name, &mut ours.numbers);
        let call = || format!("chunk frame {frame} name {}", hex(name));
        self.judge((number, theirs), (expected, ours), call)
    }

    pub fn element(&mut self, frame: u64, name: &[u8], k: u64) -> Option<[u64; 2]> {
        let (mut theirs, mut ours) = (Out::<2>::new(), Out::new());
        let lent = self.argument.lend(name, self.flush);
        let number = self.library.element(self.theirs.bytes(), frame, lent, k, &mut theirs.numbers);
        self.argument_kept(name);
        let expected = Reference.element(&self.ours, frame, name, k, &mut ours.numbers);
        let call = || format!("element frame {frame} name {} k {k}", hex(name));
        self.judge((number, theirs), (expected, ours), call)
    }

    /// The NChilada file of a chunk in a slice of so many bytes.
    pub fn nchilada(&mut self, frame: u64, name: &[u8], step: f64, length: usize) {
        let mut ours = any_bytes(length);
        let (text, file) =
            (self.argument.lend(name, self.flush), self.file.lend(&ours, self.flush));
        let number = self.library.nchilada(self.theirs.bytes(), frame, text, step, file);
        self.argument_kept(name);
        let expected = Reference.nchilada(&self.ours, frame, name, step, &mut ours);
        let call = || {
            let (name, bits) = (hex(name), step.to_bits());
            format!("nchilada frame {frame} name {name} step {bits:016x} in {length} bytes")
        };
        self.judge((number, Out::<0>::new()), (expected, Out::new()), call);
        self.judge_file(&ours, call);
    }

    /// The RawArray file of a chunk in a slice of so many bytes.
    pub fn rawarray_write(&mut self, frame: u64, name: &[u8], length: usize) {
        let mut ours = any_bytes(length);
        let (text, file) =
            (self.argument.lend(name, self.flush), self.file.lend(&ours, self.flush));
        let number = self.library.rawarray_write(self.theirs.bytes(), frame, text, file);
        self.argument_kept(name);
        let expected = Reference.rawarray_write(&self.ours, frame, name, &mut ours);
        let call = || format!("rawarray_write frame {frame} name {} in {length} bytes", hex(name));
        self.judge((number, Out::<0>::new()), (expected, Out::new()), call);
        self.judge_file(&ours, call);
    }

    /// The sheet of a RawArray file in a slice of so many bytes; the image has no part in it.
    pub fn rawarray_read(&mut self, file: &[u8], name: &[u8], length: usize) {
        let mut ours = any_bytes(length);
        let (lent, text) =
            (self.second.lend(file, self.flush), self.argument.lend(name, self.flush));
        let sheet = self.file.lend(&ours, self.flush);
        let number = self.library.rawarray_read(lent, text, sheet);
        self.argument_kept(name);
        let call = || format!("rawarray_read {} name {} in {length} bytes", hex(file), hex(name));
        if self.second.bytes() != file || !self.second.margin_kept() {
            self.fail(|| format!("{}\n  wrote the file", call()));
        }
        let expected = Reference.rawarray_read(file, name, &mut ours);
        self.judge((number, Out::<0>::new()), (expected, Out::new()), call);
        self.judge_file(&ours, call);
        // Whatever the file says: 2.0 knows the fewest types.
        let rows = lawful_rows(self.file.bytes(), V2_0);
        if expected == 0 && rows.is_none_or(|rows| rows.len() != 1) {
            self.fail(|| format!("{}\n  no sheet of one row that 22 to 27 pass", call()));
        }
    }

    /// Compares what a call left of the file or sheet lent to it, and holds it to writing nothing else.
    fn judge_file(&mut self, ours: &[u8], call: impl Fn() -> String) {
        let kept = self.file.margin_kept();
        if self.file.bytes() != ours || !kept {
            let (theirs, image) = (hex(self.file.bytes()), hex(&self.ours));
            self.fail(|| {
                let (call, ours) = (call(), hex(ours));
                format!("{call}\n  writes   {theirs} margin kept {kept}\n  expected {ours}\n  image {image}")
            });
        }
        if self.theirs.bytes() != self.ours || !self.theirs.margin_kept() {
            self.fail(|| format!("{}\n  wrote the image", call()));
        }
    }

    pub fn create(&mut self, request: Create) -> Option<[u64; 0]> {
        self.before.clone_from(&self.ours);
        let Create { application, schema, .. } = request;
        let lent = Create {
            application: self.argument.lend(application, self.flush),
            schema: self.second.lend(schema, self.flush),
            ..request
        };
        let number = self.library.create(self.theirs.bytes_mut(), lent);
        self.argument_kept(application);
        if self.second.bytes() != schema || !self.second.margin_kept() {
            self.fail(|| "create wrote the schema".into());
        }
        let expected = Reference.create(&mut self.ours, request);
        let call = || format!("create {request:?}");
        let answer = self.judge((number, Out::<0>::new()), (expected, Out::new()), call);
        self.judge_bytes(call);
        answer
    }

    /// An append as one call, and beside it in turns whose limits add up to this one or pass the whole.
    pub fn append(&mut self, sheet: &[u8], limit: u64) -> Option<[u64; 3]> {
        let (mut theirs, mut ours) = (Out::<3>::new(), Out::new());
        self.before.clone_from(&self.ours);
        let lent = self.argument.lend(sheet, self.flush);
        let joined = self.joined.lend(self.theirs.bytes(), self.flush);
        let number = self.library.append(joined, lent, limit, &mut theirs.numbers);
        self.argument_kept(sheet);
        let expected = Reference.append(&mut self.ours, sheet, limit, &mut ours.numbers);
        let numbers = ours.numbers;
        let call = || format!("append limit {limit} sheet {}", hex(sheet));
        let answer = self.judge((number, theirs), (expected, ours), call);
        self.accepted += u64::from(answer.is_some());
        self.in_turns(sheet, limit, (expected, numbers));
        self.judge_bytes(|| format!("in turns, {}", call()));
        if self.joined.bytes() != self.theirs.bytes() || !self.joined.margin_kept() {
            let before = hex(&self.before);
            self.fail(|| format!("{}\n  other bytes than in turns\n  image {before}", call()));
        }
        answer
    }

    /// Begin and turn, on the library's copy of the image alone.
    fn in_turns(&mut self, sheet: &[u8], limit: u64, (expected, numbers): (u64, [u64; 3])) {
        let [done, whole, copied] = numbers;
        let mut state = [BEFORE; STATE_WORDS];
        let (number, out) = self.begin(&mut state, sheet);
        let call = || format!("begin sheet {}", hex(sheet));
        self.judge((number, Out::of(out)), (expected, Out::of([whole, copied])), call);
        if self.theirs.bytes() != self.before {
            self.fail(|| format!("{}\n  stored", call()));
        }
        if expected != 0 {
            if state != REFUSED {
                self.fail(|| format!("{}\n  a refused beginning's state is not 0", call()));
            }
            let (number, made) = self.turn(&mut state, sheet, limit);
            let call = || format!("turn limit {limit} behind a refused {}", call());
            self.judge((number, Out::of([made])), (32, Out::of([0])), call);
            return;
        }
        // The same for the same append.
        let mut rng = Rng::new(limit ^ (sheet.len() as u64) << 40 ^ (self.ours.len() as u64) << 20);
        let mut rest = whole;
        for part in parts(&mut rng, limit, whole) {
            let (number, made) = self.turn(&mut state, sheet, part);
            let call = || format!("turn limit {part} with {rest} of {whole} to do, {}", call());
            self.judge((number, Out::of([made])), (0, Out::of([rest.min(part)])), call);
            rest -= rest.min(part);
        }
        debug_assert_eq!(rest, whole - done);
    }

    /// Begin on the library's copy of the image: the number, whole and copied.
    pub fn begin(&mut self, state: &mut State, sheet: &[u8]) -> (u64, [u64; 2]) {
        let mut out = Out::new();
        let lent_state = self.state.lend_words(state, self.flush);
        let lent = self.argument.lend(sheet, self.flush);
        let number = self.library.begin(self.theirs.bytes(), lent, lent_state, &mut out.numbers);
        *state = *lent_state;
        self.kept_around(sheet, &out);
        (number, out.numbers)
    }

    /// A turn on the library's copy of the image: the number, and how many stores it says it made.
    pub fn turn(&mut self, state: &mut State, sheet: &[u8], limit: u64) -> (u64, u64) {
        let mut out = Out::new();
        let lent_state = self.state.lend_words(state, self.flush);
        let lent = self.argument.lend(sheet, self.flush);
        let image = self.theirs.bytes_mut();
        let number = self.library.turn(lent_state, image, lent, limit, &mut out.numbers);
        *state = *lent_state;
        self.kept_around(sheet, &out);
        (number, out.numbers[0])
    }

    /// An append with limit 0 on the library's copy of the image.
    pub fn append_nothing(&mut self, sheet: &[u8]) {
        let before = self.theirs.bytes().to_vec();
        let mut out = Out::new();
        let lent = self.argument.lend(sheet, self.flush);
        self.library.append(self.theirs.bytes_mut(), lent, 0, &mut out.numbers);
        self.kept_around(sheet, &out);
        if self.theirs.bytes() != before {
            self.fail(|| "an append with limit 0 stored".into());
        }
    }

    pub fn reader_open(&mut self) -> Option<Reader> {
        let mut ours = Out::new();
        let lent = self.reader.lend_words(&[BEFORE; READER_WORDS], self.flush);
        let number = self.library.reader_open(self.theirs.bytes(), lent);
        let theirs = Out::of(*lent);
        let expected = Reference.reader_open(&self.ours, &mut ours.numbers);
        if !self.reader.margin_kept() {
            self.fail(|| "reader_open wrote beside the reader".into());
        }
        self.judge((number, theirs), (expected, ours), || "reader_open".into())
    }

    pub fn reader_name(&mut self, reader: &Reader, n: u64) -> Option<[u64; 2]> {
        let (mut theirs, mut ours) = (Out::<2>::new(), Out::new());
        let lent = self.reader.lend_words(reader, self.flush);
        let number = self.library.reader_name(lent, self.theirs.bytes(), n, &mut theirs.numbers);
        self.reader_kept(reader);
        let expected = Reference.reader_name(reader, &self.ours, n, &mut ours.numbers);
        self.judge((number, theirs), (expected, ours), || format!("{reader:?} name {n}"))
    }

    pub fn reader_entry(&mut self, reader: &Reader, n: u64) -> Option<[u64; 7]> {
        let (mut theirs, mut ours) = (Out::<7>::new(), Out::new());
        let lent = self.reader.lend_words(reader, self.flush);
        let number = self.library.reader_entry(lent, self.theirs.bytes(), n, &mut theirs.numbers);
        self.reader_kept(reader);
        let expected = Reference.reader_entry(reader, &self.ours, n, &mut ours.numbers);
        self.judge((number, theirs), (expected, ours), || format!("{reader:?} entry {n}"))
    }

    pub fn reader_lookup(&mut self, reader: &Reader, frame: u64, name: &[u8]) -> Option<[u64; 7]> {
        let (mut theirs, mut ours) = (Out::<7>::new(), Out::new());
        let (lent, text) =
            (self.reader.lend_words(reader, self.flush), self.argument.lend(name, self.flush));
        let image = self.theirs.bytes();
        let number = self.library.reader_lookup(lent, image, frame, text, &mut theirs.numbers);
        self.reader_kept(reader);
        self.argument_kept(name);
        let expected = Reference.reader_lookup(reader, &self.ours, frame, name, &mut ours.numbers);
        let call = || format!("{reader:?} lookup frame {frame} name {}", hex(name));
        self.judge((number, theirs), (expected, ours), call)
    }

    pub fn reader_chunk(&mut self, reader: &Reader, frame: u64, name: &[u8]) -> Option<[u64; 2]> {
        let (mut theirs, mut ours) = (Out::<2>::new(), Out::new());
        let (lent, text) =
            (self.reader.lend_words(reader, self.flush), self.argument.lend(name, self.flush));
        let image = self.theirs.bytes();
        let number = self.library.reader_chunk(lent, image, frame, text, &mut theirs.numbers);
        self.reader_kept(reader);
        self.argument_kept(name);
        let expected = Reference.reader_chunk(reader, &self.ours, frame, name, &mut ours.numbers);
        let call = || format!("{reader:?} chunk frame {frame} name {}", hex(name));
        self.judge((number, theirs), (expected, ours), call)
    }

    pub fn reader_element(
        &mut self,
        reader: &Reader,
        frame: u64,
        name: &[u8],
        k: u64,
    ) -> Option<[u64; 2]> {
        let (mut theirs, mut ours) = (Out::<2>::new(), Out::new());
        let (lent, text) =
            (self.reader.lend_words(reader, self.flush), self.argument.lend(name, self.flush));
        let image = self.theirs.bytes();
        let number = self.library.reader_element(lent, image, frame, text, k, &mut theirs.numbers);
        self.reader_kept(reader);
        self.argument_kept(name);
        let expected =
            Reference.reader_element(reader, &self.ours, frame, name, k, &mut ours.numbers);
        let call = || format!("{reader:?} element frame {frame} name {} k {k}", hex(name));
        self.judge((number, theirs), (expected, ours), call)
    }

    pub fn reader_id(&mut self, reader: &Reader, name: &[u8]) -> Option<[u64; 1]> {
        let (mut theirs, mut ours) = (Out::<1>::new(), Out::new());
        let (lent, text) =
            (self.reader.lend_words(reader, self.flush), self.argument.lend(name, self.flush));
        let number = self.library.reader_id(lent, self.theirs.bytes(), text, &mut theirs.numbers);
        self.reader_kept(reader);
        self.argument_kept(name);
        let expected = Reference.reader_id(reader, &self.ours, name, &mut ours.numbers);
        self.judge((number, theirs), (expected, ours), || format!("{reader:?} id {}", hex(name)))
    }

    pub fn reader_find(&mut self, reader: &Reader, frame: u64, id: u64) -> Option<[u64; 7]> {
        let (mut theirs, mut ours) = (Out::<7>::new(), Out::new());
        let lent = self.reader.lend_words(reader, self.flush);
        let image = self.theirs.bytes();
        let number = self.library.reader_find(lent, image, frame, id, &mut theirs.numbers);
        self.reader_kept(reader);
        let expected = Reference.reader_find(reader, &self.ours, frame, id, &mut ours.numbers);
        let call = || format!("{reader:?} find frame {frame} id {id}");
        self.judge((number, theirs), (expected, ours), call)
    }

    pub fn reader_newest(&mut self, reader: &Reader, frame: u64, id: u64) -> Option<[u64; 7]> {
        let (mut theirs, mut ours) = (Out::<7>::new(), Out::new());
        let lent = self.reader.lend_words(reader, self.flush);
        let image = self.theirs.bytes();
        let number = self.library.reader_newest(lent, image, frame, id, &mut theirs.numbers);
        self.reader_kept(reader);
        let expected = Reference.reader_newest(reader, &self.ours, frame, id, &mut ours.numbers);
        let call = || format!("{reader:?} newest frame {frame} id {id}");
        self.judge((number, theirs), (expected, ours), call)
    }

    /// Every call through a reader, for these frames, names and ids, and beside what its words count.
    pub fn read_through(
        &mut self,
        reader: &Reader,
        frames: &[u64],
        names: &[Vec<u8>],
        ids: &[u64],
    ) {
        let near = |count: u64| {
            let last = [count.wrapping_sub(1), count, count.wrapping_add(1), 1 << 32, u64::MAX];
            (0..count.min(8)).chain(last)
        };
        for n in near(reader[1]) {
            self.reader_name(reader, n);
        }
        for n in near(reader[2]) {
            self.reader_entry(reader, n);
        }
        for name in names {
            self.reader_id(reader, name);
        }
        for &frame in frames {
            for name in names {
                let found = self.reader_lookup(reader, frame, name);
                self.reader_chunk(reader, frame, name);
                // Where nothing is found one element will do.
                let elements = found.map_or(vec![0], |entry| {
                    let count = entry[1].wrapping_mul(entry[3]);
                    vec![0, count.wrapping_sub(1), count, (1 << 61) + 1]
                });
                for k in elements {
                    self.reader_element(reader, frame, name, k);
                }
            }
            for &id in ids {
                self.reader_find(reader, frame, id);
                self.reader_newest(reader, frame, id);
            }
        }
        if self.theirs.bytes() != self.ours || !self.theirs.margin_kept() {
            let image = hex(&self.ours);
            self.fail(|| format!("{reader:?}: a call wrote the image\n  image {image}"));
        }
    }

    /// No call but its opening writes a reader.
    fn reader_kept(&mut self, reader: &Reader) {
        let words = reader.map(u64::to_ne_bytes);
        if self.reader.bytes() != words.as_flattened() || !self.reader.margin_kept() {
            self.fail(|| format!("a call wrote the reader {reader:?}"));
        }
    }

    fn kept_around<const K: usize>(&mut self, sheet: &[u8], out: &Out<K>) {
        self.argument_kept(sheet);
        let kept = self.theirs.margin_kept() && self.state.margin_kept();
        if !kept || [out.front, out.behind] != [[BEFORE; 2]; 2] {
            self.fail(|| "a call wrote beside the image, the state or out".into());
        }
    }

    /// No call writes a name, a text or a sheet.
    fn argument_kept(&mut self, bytes: &[u8]) {
        if self.argument.bytes() != bytes || !self.argument.margin_kept() {
            self.fail(|| format!("a call wrote its argument {}", hex(bytes)));
        }
    }

    /// Compares every byte after a call that may write, and sets both sides equal again.
    fn judge_bytes(&mut self, call: impl FnOnce() -> String) {
        let kept = self.theirs.margin_kept();
        if self.theirs.bytes() == self.ours && kept {
            return;
        }
        let mut differ = String::new();
        for (at, (theirs, ours)) in self.theirs.bytes().iter().zip(&self.ours).enumerate() {
            if theirs != ours && differ.len() < 200 {
                let _ = write!(differ, " {at}: {theirs:02x} expected {ours:02x},");
            }
        }
        let before = hex(&self.before);
        self.fail(|| format!("{}\n  bytes{differ} margin kept {kept}\n  image {before}", call()));
        self.theirs.lend(&self.ours, self.flush);
    }

    /// Every reading call, on everything that the image lists, on `names`, and beside them.
    pub fn read_all(&mut self, names: &[Vec<u8>]) {
        let [frames, listed, entries] = self.open().unwrap_or([0; 3]);
        for n in (0..=listed).chain([u64::MAX]) {
            if let Some(place) = self.name(n) {
                self.lookup_listed(frames.saturating_sub(1), place);
            }
        }
        let numbers = (0..=entries).chain([u64::MAX]);
        let named: Vec<u64> = numbers.filter_map(|n| self.entry(n)).map(|entry| entry[0]).collect();
        let own: Vec<Vec<u8>> = (0..listed)
            .map_while(|n| crate::reference::name(&self.ours, n).map(<[u8]>::to_vec).ok())
            .filter(|name| !names.contains(name))
            .collect();
        for frame in frames_to_ask(&named, frames) {
            for name in names.iter().chain(&own) {
                self.read(frame, name);
            }
        }
        // In 32 bits the third of these would be the last frame.
        for frame in [0, frames, frames.saturating_sub(1) + (1 << 32), u64::MAX] {
            for name in ODD_NAMES.into_iter().chain(names.iter().take(2).map(Vec::as_slice)) {
                self.lookup(frame, name);
            }
            self.read(frame, b"no such name");
        }
        if self.theirs.bytes() != self.ours || !self.theirs.margin_kept() {
            let image = hex(&self.ours);
            self.fail(|| format!("a reading call wrote\n  image {image}"));
        }
    }

    /// Lookup, chunk, some elements and the files of one name in one frame.
    pub fn read(&mut self, frame: u64, name: &[u8]) -> Option<[u64; 7]> {
        let found = self.lookup(frame, name);
        self.chunk(frame, name);
        // The first, the last, the one behind and one whose product with a size wraps.
        let count = found.map_or(0, |entry| entry[1].wrapping_mul(entry[3]));
        for k in [0, count.wrapping_sub(1), count, (1 << 61) + 1] {
            self.element(frame, name, k);
        }
        // The same for the same chunk.
        let mut rng = Rng::new(frame ^ (name.len() as u64) << 40 ^ (self.ours.len() as u64) << 20);
        let step = generate::step(&mut rng, frame);
        let length = generate::some_length(&mut rng, found.unwrap_or_default());
        self.nchilada(frame, name, step, length);
        let length = generate::some_array_length(&mut rng, found.unwrap_or_default());
        self.rawarray_write(frame, name, length);
        found
    }
}

/// Limits of turns that add up to this one, or to some number from the whole on where it is not below.
fn parts(rng: &mut Rng, limit: u64, whole: u64) -> Vec<u64> {
    let mut rest = limit;
    let mut parts = Vec::new();
    for _ in 0..rng.below(4) {
        let part = match rng.below(6) {
            0 => 0,
            1 => rest.min(1),
            _ => rng.number() % (rest.min(whole) + 1),
        };
        parts.push(part);
        rest -= part;
    }
    parts.push(rest);
    // Then these may pass 2^64, and there are turns after the end.
    if limit >= whole {
        parts.extend((0..rng.below(3)).map(|_| rng.pick(&[0, 1, u64::MAX])));
    }
    parts
}

/// Hex, with long runs of zeros told as such.
pub fn hex(bytes: &[u8]) -> String {
    let mut text = format!("[{}] ", bytes.len());
    let mut rest = bytes;
    while let Some(first) = rest.first() {
        let zeros = rest.iter().take_while(|&&byte| byte == 0).count();
        if zeros >= 16 {
            let _ = write!(text, " 00*{zeros} ");
            rest = &rest[zeros..];
        } else {
            let _ = write!(text, "{first:02x}");
            rest = &rest[1..];
        }
        if text.len() > 20_000 {
            return text + " ..";
        }
    }
    text
}

/// The names of rows.
pub fn names_of(rows: &[Row]) -> Vec<Vec<u8>> {
    rows.iter().map(|row| row.name.clone()).collect()
}
