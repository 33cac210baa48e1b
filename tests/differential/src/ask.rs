//! The calls with answers as `Result`s, for tests that hold a library to the paper directly.

use crate::library::{Create, Library, Reader, State, READER_WORDS, STATE_WORDS};

pub type Answer<T> = Result<T, u64>;

fn answer<const K: usize>(call: impl FnOnce(&mut [u64; K]) -> u64) -> Answer<[u64; K]> {
    let mut out = [0; K];
    match call(&mut out) {
        0 => Ok(out),
        number => Err(number),
    }
}

fn part(image: &[u8], [start, length]: [u64; 2]) -> &[u8] {
    &image[start as usize..][..length as usize]
}

/// Bytes that no file is made of.
pub fn any_bytes(length: usize) -> Vec<u8> {
    (0..length).map(|at| (151 * at + at / 256 + 90) as u8).collect()
}

/// What a call makes of so many bytes; a refusal leaves those that were there.
fn lent(length: usize, call: impl FnOnce(&mut [u8]) -> u64) -> Answer<Vec<u8>> {
    let mut bytes = any_bytes(length);
    match call(&mut bytes) {
        0 => Ok(bytes),
        number => {
            assert_eq!(bytes, any_bytes(length), "refused with {number}, and wrote");
            Err(number)
        }
    }
}

pub trait Ask: Library {
    fn counts(&self, image: &[u8]) -> Answer<[u64; 3]> {
        answer(|out| self.open(image, out))
    }

    fn nth_name<'a>(&self, image: &'a [u8], n: u64) -> Answer<&'a [u8]> {
        Ok(part(image, answer(|out| self.name(image, n, out))?))
    }

    fn nth_entry(&self, image: &[u8], n: u64) -> Answer<[u64; 7]> {
        answer(|out| self.entry(image, n, out))
    }

    fn all_entries(&self, image: &[u8]) -> Answer<Vec<[u64; 7]>> {
        let [_, _, entries] = self.counts(image)?;
        (0..entries).map(|n| self.nth_entry(image, n)).collect()
    }

    /// The frame of each entry.
    fn named_frames(&self, image: &[u8]) -> Answer<Vec<u64>> {
        Ok(self.all_entries(image)?.iter().map(|entry| entry[0]).collect())
    }

    fn find(&self, image: &[u8], frame: u64, name: &[u8]) -> Answer<[u64; 7]> {
        answer(|out| self.lookup(image, frame, name, out))
    }

    fn bytes<'a>(&self, image: &'a [u8], frame: u64, name: &[u8]) -> Answer<&'a [u8]> {
        Ok(part(image, answer(|out| self.chunk(image, frame, name, out))?))
    }

    /// Kind and bits.
    fn nth_element(&self, image: &[u8], frame: u64, name: &[u8], k: u64) -> Answer<[u64; 2]> {
        answer(|out| self.element(image, frame, name, k, out))
    }

    /// The number, and how many entries were probed: that is answered at a refusal too.
    fn probed(&self, image: &[u8], frame: u64, name: &[u8]) -> (u64, u64) {
        let mut out = [0x5555];
        let number = self.probes(image, frame, name, &mut out);
        (number, out[0])
    }

    /// The NChilada file in a slice of so many bytes; a refusal leaves those that were there.
    fn file(
        &self,
        image: &[u8],
        frame: u64,
        name: &[u8],
        step: f64,
        length: usize,
    ) -> Answer<Vec<u8>> {
        lent(length, |file| self.nchilada(image, frame, name, step, file))
    }

    /// The RawArray file in a slice of so many bytes; a refusal leaves those that were there.
    fn array(&self, image: &[u8], frame: u64, name: &[u8], length: usize) -> Answer<Vec<u8>> {
        lent(length, |file| self.rawarray_write(image, frame, name, file))
    }

    /// The sheet of a RawArray file in a slice of so many bytes; a refusal leaves those that were there.
    fn sheet_of(&self, file: &[u8], name: &[u8], length: usize) -> Answer<Vec<u8>> {
        lent(length, |sheet| self.rawarray_read(file, name, sheet))
    }

    /// A fresh image of `length` bytes, zero before, with empty texts.
    fn fresh(&self, length: usize, slots: u64, segments: u64) -> Answer<Vec<u8>> {
        let mut image = vec![0; length];
        let create = Create { application: b"", schema: b"", schema_version: 0, slots, segments };
        match self.create(&mut image, create) {
            0 => Ok(image),
            number => Err(number),
        }
    }

    /// Done, whole and copied.
    fn put(&self, image: &mut [u8], sheet: &[u8], limit: u64) -> Answer<[u64; 3]> {
        answer(|out| self.append(image, sheet, limit, out))
    }

    /// The image that `limit` stores leave, with done, whole and copied.
    fn after(&self, image: &[u8], sheet: &[u8], limit: u64) -> (Vec<u8>, Answer<[u64; 3]>) {
        let mut image = image.to_vec();
        let stores = self.put(&mut image, sheet, limit);
        (image, stores)
    }

    /// The state of a beginning, with whole and copied; a refused one has a state too.
    fn begun(&self, image: &[u8], sheet: &[u8]) -> (State, Answer<[u64; 2]>) {
        let mut state = [0x5555; STATE_WORDS];
        let answer = answer(|out| self.begin(image, sheet, &mut state, out));
        (state, answer)
    }

    /// How many stores the turn made.
    fn go_on(&self, state: &mut State, image: &mut [u8], sheet: &[u8], limit: u64) -> Answer<u64> {
        answer(|out| self.turn(state, image, sheet, limit, out)).map(|[made]| made)
    }

    /// A reader of the image; a refusal leaves the words that were there.
    fn reader(&self, image: &[u8]) -> Answer<Reader> {
        let mut reader = [0x5555; READER_WORDS];
        match self.reader_open(image, &mut reader) {
            0 => Ok(reader),
            number => {
                assert_eq!(reader, [0x5555; READER_WORDS], "a refusal wrote the reader");
                Err(number)
            }
        }
    }

    /// What the listing program prints.
    fn listing(&self, image: &[u8]) -> String {
        if image.len() > 65_536 {
            return "too long\n".into();
        }
        let [frames, names, entries] = match self.counts(image) {
            Ok(counts) => counts,
            Err(number) => return format!("refused {number}\n"),
        };
        let mut text = format!("frames {frames} names {names} entries {entries}\n");
        for n in 0..entries {
            let [frame, rows, location, columns, id, kind, _] =
                self.nth_entry(image, n).expect("an entry below the count");
            text += &format!("{frame} {id} {kind} {rows} {columns} {location}\n");
        }
        text
    }
}

impl<L: Library + ?Sized> Ask for L {}
