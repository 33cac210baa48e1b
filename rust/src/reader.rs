//! An image opened once: what is asked of a reader and the image is answered without testing the
//! image again.

use crate::{answer, ffi, part, Counts, Element, Entry, Refusal, Type};
use core::iter::FusedIterator;

/// What opening an image once leaves, for a caller that asks much of it.
///
/// It is eight plain numbers and holds no image: keep it, copy it, write its [`words`](Reader::words)
/// to a file, and pass it the image with each question. Between questions the image is free to be
/// appended to.
///
/// It answers as of its moment, for ever. Whatever appends are made later, whole, stopped or in turns,
/// every method with the image answers exactly as it did before them; a later frame is for a reader
/// that is opened later:
///
/// ```
/// use dialmoth::{Element, Reader, Row, Type};
///
/// let mut image = vec![0; 4096];
/// dialmoth::create(&mut image, b"regulator", b"night", 0, 8, 1)?;
/// let duty = |duty| {
///     dialmoth::sheet(&[Row { name: b"heater", kind: Type::U8, n: 1, m: 1, data: &[duty] }])
/// };
/// dialmoth::append(&mut image, &duty(40), u64::MAX)?;
///
/// let before = Reader::open(&image)?;
/// dialmoth::append(&mut image, &duty(55), u64::MAX)?;
/// let after = Reader::open(&image)?;
///
/// // The last duty, as of each reader. Ask for an id once; appends do not change it.
/// let heater = before.id(&image, b"heater")?;
/// for (reader, frame, duty) in [(before, 0, 40), (after, 1, 55)] {
///     let last = reader.counts().frames - 1;
///     let entry = reader.newest(&image, last, heater)?;
///     assert_eq!(entry.frame, frame);
///     assert_eq!(reader.element(&image, entry.frame, b"heater", 0)?, Element::Unsigned(duty));
/// }
/// # Ok::<(), dialmoth::Refusal>(())
/// ```
///
/// Another writer on the slice, a create or the program itself, is outside that promise. Any numbers
/// are safe as a reader, with any image, but the answers are then what the numbers and the bytes say.
/// [`Refusal::NOT_FITTING`] says that the entries or the name list that the numbers tell of are not
/// within the image, or that its length, the version or the number of names is none that opens. It
/// says no more: a reader of another image that happens to fit is not refused.
#[derive(Clone, Copy, Debug, PartialEq, Eq)]
pub struct Reader([u64; ffi::READER_WORDS]);

/// The version from which on there are characters.
const V2_1: u64 = 0x0002_0001;

// Each unsafe block passes a live reader, and pointers and lengths of live slices.

impl Reader {
    /// Opens the image, with the refusals of [`open`](crate::open) and in its time. No other method
    /// opens.
    pub fn open(image: &[u8]) -> Result<Reader, Refusal> {
        answer(|reader| unsafe { ffi::dialmoth_reader_open(image.as_ptr(), image.len(), reader) })
            .map(Reader)
    }

    /// The numbers that the reader is: frames, names, entries, where the entries and where the names
    /// start, the bytes of these, the version, and a 0.
    pub fn words(&self) -> [u64; ffi::READER_WORDS] {
        self.0
    }

    /// The reader of these words. Any are safe, and those of [`Reader::words`] are that reader:
    ///
    /// ```
    /// use dialmoth::{Reader, Refusal};
    ///
    /// let mut image = vec![0; 4096];
    /// dialmoth::create(&mut image, b"regulator", b"night", 0, 8, 1)?;
    /// let reader = Reader::open(&image)?;
    /// assert_eq!(Reader::from_words(reader.words()), reader);
    ///
    /// let foreign = Reader::from_words([u64::MAX; 8]);
    /// assert_eq!(foreign.entry(&image, 0), Err(Refusal::NOT_FITTING));
    /// # Ok::<(), Refusal>(())
    /// ```
    pub fn from_words(words: [u64; ffi::READER_WORDS]) -> Reader {
        Reader(words)
    }

    /// The frames, names and entries of the reader's moment.
    pub fn counts(&self) -> Counts {
        let [frames, names, entries, ..] = self.0;
        Counts { frames, names, entries }
    }

    /// The n-th name, from 0; `n` is its id.
    pub fn name<'a>(&self, image: &'a [u8], n: u64) -> Result<&'a [u8], Refusal> {
        let place = answer(|out| unsafe {
            ffi::dialmoth_reader_name(&self.0, image.as_ptr(), image.len(), n, out)
        })?;
        Ok(part(image, place))
    }

    /// The n-th entry, from 0.
    ///
    /// One whose type is no [`Type`] is [`Refusal::NOT_FITTING`] here; an image that opened, with
    /// appends alone since, has none. The same holds of [`Reader::lookup`], [`Reader::find`] and
    /// [`Reader::newest`].
    pub fn entry(&self, image: &[u8], n: u64) -> Result<Entry, Refusal> {
        answer(|out| unsafe {
            ffi::dialmoth_reader_entry(&self.0, image.as_ptr(), image.len(), n, out)
        })
        .and_then(known)
    }

    /// All entries, in the order of the index.
    ///
    /// An item is refused as by [`Reader::entry`], and is then the last; of an image that opened, with
    /// appends alone since, none is. The least of all readings of a probe:
    ///
    /// ```
    /// use dialmoth::{Reader, Row, Type};
    ///
    /// # let mut image = vec![0; 4096];
    /// # dialmoth::create(&mut image, b"regulator", b"night", 0, 8, 1)?;
    /// # for reading in [19.5_f32, 18.25, 21.0] {
    /// #     let data = reading.to_le_bytes();
    /// #     let row = Row { name: b"probe", kind: Type::Float, n: 1, m: 1, data: &data };
    /// #     dialmoth::append(&mut image, &dialmoth::sheet(&[row]), u64::MAX)?;
    /// # }
    /// let reader = Reader::open(&image)?;
    /// let probe = reader.id(&image, b"probe")?;
    /// let mut least = f32::INFINITY;
    /// for entry in reader.entries(&image) {
    ///     let entry = entry?;
    ///     if entry.id == probe && entry.kind == Type::Float {
    ///         let (readings, _) = reader.chunk_of(&image, entry)?.as_chunks();
    ///         for &reading in readings {
    ///             least = least.min(f32::from_le_bytes(reading));
    ///         }
    ///     }
    /// }
    /// assert_eq!(least, 18.25);
    /// # Ok::<(), dialmoth::Refusal>(())
    /// ```
    pub fn entries<'a>(&self, image: &'a [u8]) -> Entries<'a> {
        Entries { reader: *self, image, next: 0 }
    }

    /// The entry of a name in a frame. It goes through the names each time: where one is asked for
    /// often, ask for its [`id`](Reader::id) once, then [`find`](Reader::find) and
    /// [`newest`](Reader::newest) by that.
    pub fn lookup(&self, image: &[u8], frame: u64, name: &[u8]) -> Result<Entry, Refusal> {
        answer(|out| unsafe {
            let (image, name) = ((image.as_ptr(), image.len()), (name.as_ptr(), name.len()));
            ffi::dialmoth_reader_lookup(&self.0, image.0, image.1, frame, name.0, name.1, out)
        })
        .and_then(known)
    }

    /// The bytes of a chunk, as that part of the image.
    pub fn chunk<'a>(&self, image: &'a [u8], frame: u64, name: &[u8]) -> Result<&'a [u8], Refusal> {
        let place = answer(|out| unsafe {
            let (image, name) = ((image.as_ptr(), image.len()), (name.as_ptr(), name.len()));
            ffi::dialmoth_reader_chunk(&self.0, image.0, image.1, frame, name.0, name.1, out)
        })?;
        Ok(part(image, place))
    }

    /// The bytes of the chunk of an entry that this reader has answered of the image, as that part of
    /// it; refused as by [`Reader::chunk`], where its type is not known in the reader's version or it
    /// ends beyond the image.
    pub fn chunk_of<'a>(&self, image: &'a [u8], entry: Entry) -> Result<&'a [u8], Refusal> {
        let version = self.0[6];
        let bytes = || {
            let length = entry.n.checked_mul(u64::from(entry.m) * entry.kind.size())?;
            let behind = image.get(usize::try_from(entry.location).ok()?..)?;
            behind.get(..usize::try_from(length).ok()?)
        };
        let known = entry.kind != Type::Character || version == V2_1;
        bytes().filter(|_| known).ok_or(Refusal::NOT_FITTING)
    }

    /// Element `k` of a chunk, from 0.
    pub fn element(
        &self,
        image: &[u8],
        frame: u64,
        name: &[u8],
        k: u64,
    ) -> Result<Element, Refusal> {
        answer(|out| unsafe {
            let (image, name) = ((image.as_ptr(), image.len()), (name.as_ptr(), name.len()));
            ffi::dialmoth_reader_element(&self.0, image.0, image.1, frame, name.0, name.1, k, out)
        })
        .map(Element::new)
    }

    /// The id of a name. Appends leave a listed name its id, so it is good for every later reader of
    /// the image.
    pub fn id(&self, image: &[u8], name: &[u8]) -> Result<u16, Refusal> {
        let [id] = answer(|out| unsafe {
            let (image, name) = ((image.as_ptr(), image.len()), (name.as_ptr(), name.len()));
            ffi::dialmoth_reader_id(&self.0, image.0, image.1, name.0, name.1, out)
        })?;
        // Below 1,024, the most names that fit.
        Ok(id as u16)
    }

    /// The entry of an id in a frame, as [`Reader::lookup`] by its name. [`Refusal::NO_NAME`] says
    /// that the id is not below the number of names.
    pub fn find(&self, image: &[u8], frame: u64, id: u16) -> Result<Entry, Refusal> {
        answer(|out| unsafe {
            let image = (image.as_ptr(), image.len());
            ffi::dialmoth_reader_find(&self.0, image.0, image.1, frame, id.into(), out)
        })
        .and_then(known)
    }

    /// The entry of an id in the newest frame at or below `frame` that has one; [`Refusal::NO_CHUNK`]
    /// where none has: no value stands for that. It goes back entry by entry, so it takes the longer
    /// the older that frame is.
    pub fn newest(&self, image: &[u8], frame: u64, id: u16) -> Result<Entry, Refusal> {
        answer(|out| unsafe {
            let image = (image.as_ptr(), image.len());
            ffi::dialmoth_reader_newest(&self.0, image.0, image.1, frame, id.into(), out)
        })
        .and_then(known)
    }
}

/// Only an image that did not open, or was written to since, has entries of other types.
fn known(fields: [u64; 7]) -> Result<Entry, Refusal> {
    Entry::known(fields).ok_or(Refusal::NOT_FITTING)
}

/// The entries of a reader, by [`Reader::entries`].
#[derive(Clone)]
pub struct Entries<'a> {
    reader: Reader,
    image: &'a [u8],
    next: u64,
}

impl Iterator for Entries<'_> {
    type Item = Result<Entry, Refusal>;

    fn next(&mut self) -> Option<Result<Entry, Refusal>> {
        let Counts { entries, .. } = self.reader.counts();
        if self.next >= entries {
            return None;
        }
        let entry = self.reader.entry(self.image, self.next);
        self.next = if entry.is_ok() { self.next + 1 } else { entries };
        Some(entry)
    }

    fn size_hint(&self) -> (usize, Option<usize>) {
        let left = self.reader.counts().entries - self.next;
        (0, usize::try_from(left).ok())
    }
}

impl FusedIterator for Entries<'_> {}

#[cfg(test)]
mod tests {
    extern crate std;

    use super::{Reader, V2_1};
    use crate::{append, begin, create, ffi, put_sheet, turn, Entry, Refusal, Row, Type};
    use std::format;
    use std::string::String;
    use std::vec::Vec;

    const HEADER: &str = include_str!("../../include/dialmoth.h");

    const NAMES: [&[u8]; 3] = [b"probe", b"heater", b"no such name"];

    #[test]
    fn words_are_those_of_the_header() {
        let (_, words) = HEADER.split_once("enum dialmoth_reader {").unwrap();
        let (words, _) = words.split_once("};").unwrap();
        let words: Vec<_> = words.trim().lines().map(|line| line.trim()).collect();
        let (last, named) = words.split_last().unwrap();
        assert!(last.starts_with(&format!("DIALMOTH_READER_WORDS = {} ", ffi::READER_WORDS)));
        let image = fresh();
        let found = Reader::open(&image).unwrap().words();
        let expected = [
            ("FRAMES,", 0),
            ("NAMES,", 0),
            ("ENTRIES,", 0),
            ("INDEX,", 256),
            ("NAMELIST,", 320),
            ("SIZE,", 0),
            ("VERSION,", V2_1),
        ];
        assert_eq!(named.len(), expected.len());
        for ((line, word), (name, expected)) in named.iter().zip(found).zip(expected) {
            assert!(line.starts_with(&format!("DIALMOTH_READER_{name}")), "{line}");
            assert_eq!(word, expected);
        }
        assert_eq!(found[7], 0);
    }

    /// Two slots, so that the index moves, and one segment.
    fn fresh() -> Vec<u8> {
        let mut image = std::vec![0; 2048];
        create(&mut image, b"regulator", b"night", 0, 2, 1).unwrap();
        image
    }

    /// A frame of what there is, as a sheet.
    fn frame(probe: Option<f32>, duty: Option<u8>) -> Vec<u8> {
        let (readings, duties) = (probe.map(f32::to_le_bytes), duty.map(|duty| [duty]));
        let mut rows = Vec::new();
        if let Some(data) = &readings {
            rows.push(Row { name: NAMES[0], kind: Type::Float, n: 1, m: 1, data });
        }
        if let Some(data) = &duties {
            rows.push(Row { name: NAMES[1], kind: Type::U8, n: 1, m: 1, data });
        }
        let mut sheet = [0; 128];
        put_sheet(&rows, &mut sheet).unwrap().to_vec()
    }

    /// Two frames with both chunks, and one without the heater's.
    fn night() -> Vec<u8> {
        let mut image = fresh();
        for (probe, duty) in [(21.5, Some(40)), (20.25, Some(55)), (19.0, None)] {
            assert!(append(&mut image, &frame(Some(probe), duty), u64::MAX).unwrap().is_whole());
        }
        image
    }

    /// All that can be asked of a reader, with its answers.
    fn answers(reader: &Reader, image: &[u8]) -> Vec<String> {
        let mut answers = Vec::new();
        for n in 0..8 {
            answers.push(format!("{:?} {:?}", reader.name(image, n), reader.entry(image, n)));
        }
        for entry in reader.entries(image) {
            let bytes = entry.and_then(|entry| reader.chunk_of(image, entry));
            answers.push(format!("{entry:?} {bytes:?}"));
        }
        for name in NAMES {
            answers.push(format!("{:?}", reader.id(image, name)));
            for frame in 0..6 {
                answers.push(format!("{:?}", reader.lookup(image, frame, name)));
                answers.push(format!("{:?}", reader.chunk(image, frame, name)));
                answers.push(format!("{:?}", reader.element(image, frame, name, 0)));
            }
        }
        for (frame, id) in (0..6).flat_map(|frame| (0..3).map(move |id| (frame, id))) {
            answers.push(format!("{:?}", reader.find(image, frame, id)));
            answers.push(format!("{:?}", reader.newest(image, frame, id)));
        }
        answers
    }

    #[test]
    fn readers_answer_as_of_their_moment() {
        let mut image = fresh();
        let mut kept = Vec::new();
        let mut frames = Vec::new();
        let frames_of = [(Some(21.5), None), (None, Some(40)), (Some(20.25), Some(55))];
        for (probe, duty) in frames_of {
            let sheet = frame(probe, duty);
            // The first time it is stopped; names and index may have moved by then.
            for stop in [17, u64::MAX] {
                let mut begun = begin(&image, &sheet).unwrap();
                for _ in 0..begun.whole.min(stop) {
                    let reader = Reader::open(&image).unwrap();
                    frames.push(reader.counts().frames);
                    kept.push((reader, answers(&reader, &image)));
                    assert_eq!(turn(&mut begun.state, &mut image, &sheet, 1), Ok(1));
                    for (reader, before) in &kept {
                        assert_eq!(answers(reader, &image), *before);
                    }
                }
            }
        }
        assert_eq!(Reader::open(&image).unwrap().counts().frames, 3);
        frames.dedup();
        assert_eq!(frames, [0, 1, 2]);
    }

    #[test]
    fn readers_answer_as_the_calls_without_one() {
        let image = night();
        let reader = Reader::open(&image).unwrap();
        let counts = crate::open(&image).unwrap();
        assert_eq!(reader.counts(), counts);
        let walked: Result<Vec<_>, _> = reader.entries(&image).collect();
        let each = (0..counts.entries).map(|n| crate::entry(&image, n));
        assert_eq!(walked, each.collect());
        assert_eq!(crate::name(&image, 3), reader.name(&image, 3));
        for (frame, name) in (0..4).flat_map(|frame| NAMES.map(|name| (frame, name))) {
            let found = crate::lookup(&image, frame, name);
            let chunk = crate::chunk(&image, frame, name);
            assert_eq!(reader.lookup(&image, frame, name), found);
            assert_eq!(reader.chunk(&image, frame, name), chunk);
            assert_eq!(found.and_then(|entry| reader.chunk_of(&image, entry)), chunk);
            let element = crate::element(&image, frame, name, 0);
            assert_eq!(reader.element(&image, frame, name, 0), element);
            if let Ok(id) = reader.id(&image, name) {
                assert_eq!(reader.name(&image, id.into()), Ok(name));
                assert_eq!(reader.find(&image, frame, id), found);
            }
        }
    }

    #[test]
    fn the_newest_is_at_or_below_a_frame() {
        let image = night();
        let reader = Reader::open(&image).unwrap();
        let heater = reader.id(&image, b"heater").unwrap();
        for (frame, newest) in [(0, 0), (1, 1), (2, 1)] {
            let entry = reader.newest(&image, frame, heater).unwrap();
            assert_eq!(Ok(entry), reader.lookup(&image, newest, b"heater"));
        }
        assert_eq!(reader.newest(&image, 3, heater), Err(Refusal::NO_FRAME));
        assert_eq!(reader.newest(&image, 2, 2), Err(Refusal::NO_NAME));
        assert_eq!(reader.find(&image, 2, heater), Err(Refusal::NO_CHUNK));
        let mut image = fresh();
        append(&mut image, &frame(Some(21.5), None), u64::MAX).unwrap();
        append(&mut image, &frame(None, Some(40)), u64::MAX).unwrap();
        let reader = Reader::open(&image).unwrap();
        assert_eq!(reader.newest(&image, 0, 1), Err(Refusal::NO_CHUNK));
        assert_eq!(reader.newest(&image, 1, 1).map(|entry| entry.frame), Ok(1));
    }

    #[test]
    fn foreign_words_are_refused() {
        let image = night();
        let reader = Reader::open(&image).unwrap();
        let length = image.len() as u64;
        let refused = |reader: Reader, image: &[u8]| {
            let refused = format!("{:?}", Refusal::NOT_FITTING);
            let answers = answers(&reader, image);
            assert!(!answers.is_empty() && answers.iter().all(|text| text.contains(&refused)));
            let walked: Vec<_> = reader.entries(image).take(2).collect();
            let one = usize::from(reader.counts().entries > 0);
            assert_eq!(walked, std::vec![Err(Refusal::NOT_FITTING); one]);
        };
        for (word, value) in
            [(1, 1025), (2, length / 32), (3, length), (4, length), (5, length), (6, 0)]
        {
            let mut words = reader.words();
            words[word] = value;
            refused(Reader::from_words(words), &image);
            words[word] = u64::MAX;
            refused(Reader::from_words(words), &image);
        }
        refused(Reader::from_words([u64::MAX; 8]), &image);
        refused(Reader::from_words([0; 8]), &image);
        refused(reader, &image[..300]);
        refused(reader, &[]);
        let mut words = reader.words();
        words[7] = u64::MAX;
        assert_eq!(answers(&Reader::from_words(words), &image), answers(&reader, &image));
    }

    #[test]
    fn chunks_are_tested_where_another_writer_was() {
        let mut image = night();
        let reader = Reader::open(&image).unwrap();
        let [_, _, _, index, ..] = reader.words().map(|word| word as usize);
        let first = reader.entry(&image, 0).unwrap();
        // Type 12, which no version knows, in the first of five entries.
        image[index + 30] = 12;
        assert_eq!(reader.entry(&image, 0), Err(Refusal::NOT_FITTING));
        assert_eq!(reader.lookup(&image, 0, b"probe"), Err(Refusal::NOT_FITTING));
        assert_eq!(reader.chunk(&image, 0, b"probe"), Err(Refusal::NOT_FITTING));
        assert_eq!(reader.entries(&image).count(), 1);
        assert!(reader.entry(&image, 1).is_ok());

        let length = image.len() as u64;
        let refused = [
            Entry { location: length, ..first },
            Entry { location: u64::MAX, ..first },
            Entry { n: length, ..first },
            Entry { n: u64::MAX, m: u32::MAX, ..first },
            Entry { n: 0, location: length + 1, ..first },
        ];
        for entry in refused {
            assert_eq!(reader.chunk_of(&image, entry), Err(Refusal::NOT_FITTING));
        }
        let empty = Entry { n: 0, location: length, ..first };
        assert_eq!(reader.chunk_of(&image, empty), Ok(&[][..]));
        // Characters are of 2.1.
        let text = Entry { kind: Type::Character, ..first };
        assert_eq!(reader.chunk_of(&image, text).map(<[u8]>::len), Ok(1));
        let mut words = reader.words();
        words[6] -= 1;
        let refused = Reader::from_words(words).chunk_of(&image, text);
        assert_eq!(refused, Err(Refusal::NOT_FITTING));
    }
}
