//! The calls as the C interface has them, so that any two makers can be held side by side.

use crate::reference::{self, Answer, Element, Entry, Probes};

pub use crate::reference::{READER_WORDS, STATE_WORDS};

/// The state of an append in turns. Each library has its own form of it.
pub type State = [u64; STATE_WORDS];

/// What an image lists at a moment: frames, names, entries, where the index and the list of names
/// start, the list's bytes, the version, and 0. Its words are the same of every library.
pub type Reader = [u64; READER_WORDS];

/// A refused beginning's state.
pub const REFUSED: State = [0; STATE_WORDS];

/// The result is the number of the refusal, 0 for an answer. A refusal leaves `out`, or the reader
/// that is opened, as it was, but for those of probes, append, begin and turn, which are set at every
/// call: to zeros by a refusal of the last three.
pub trait Library: Sync {
    /// `out`: frames, names, entries.
    fn open(&self, image: &[u8], out: &mut [u64; 3]) -> u64;
    /// `out`: start, length.
    fn name(&self, image: &[u8], n: u64, out: &mut [u64; 2]) -> u64;
    /// `out`: frame, N, location, M, id, type, flags.
    fn entry(&self, image: &[u8], n: u64, out: &mut [u64; 7]) -> u64;
    /// `out`: as `entry`.
    fn lookup(&self, image: &[u8], frame: u64, name: &[u8], out: &mut [u64; 7]) -> u64;
    /// `out`: start, length.
    fn chunk(&self, image: &[u8], frame: u64, name: &[u8], out: &mut [u64; 2]) -> u64;
    /// `out`: kind (1 unsigned, 2 signed, 3 single, 4 double), bits.
    fn element(&self, image: &[u8], frame: u64, name: &[u8], k: u64, out: &mut [u64; 2]) -> u64;
    /// The lookup's number. `out`: entries probed, 0 where no search was made.
    fn probes(&self, image: &[u8], frame: u64, name: &[u8], out: &mut [u64; 1]) -> u64;
    /// Writes the NChilada file of a chunk, its time the frame times the step, into all of `file`; a
    /// refusal leaves that as it was.
    fn nchilada(&self, image: &[u8], frame: u64, name: &[u8], step: f64, file: &mut [u8]) -> u64;
    /// Writes the RawArray file of a chunk into all of `file`; a refusal leaves that as it was.
    fn rawarray_write(&self, image: &[u8], frame: u64, name: &[u8], file: &mut [u8]) -> u64;
    /// Writes the sheet of one row that a RawArray file becomes under a name into all of `sheet`; a
    /// refusal leaves that as it was.
    fn rawarray_read(&self, file: &[u8], name: &[u8], sheet: &mut [u8]) -> u64;
    fn create(&self, image: &mut [u8], request: Create) -> u64;
    /// `out`: done, whole, and the listed entries that the whole append copies as it moves the index.
    fn append(&self, image: &mut [u8], sheet: &[u8], limit: u64, out: &mut [u64; 3]) -> u64;
    /// Sets the state at every call: to [`REFUSED`] by a refusal. `out`: whole, copied.
    fn begin(&self, image: &[u8], sheet: &[u8], state: &mut State, out: &mut [u64; 2]) -> u64;
    /// `out`: done by this turn.
    fn turn(
        &self,
        state: &mut State,
        image: &mut [u8],
        sheet: &[u8],
        limit: u64,
        out: &mut [u64; 1],
    ) -> u64;
    fn reader_open(&self, image: &[u8], reader: &mut Reader) -> u64;
    /// `out`: start, length.
    fn reader_name(&self, reader: &Reader, image: &[u8], n: u64, out: &mut [u64; 2]) -> u64;
    /// `out`: as `entry`.
    fn reader_entry(&self, reader: &Reader, image: &[u8], n: u64, out: &mut [u64; 7]) -> u64;
    /// `out`: as `entry`.
    fn reader_lookup(
        &self,
        reader: &Reader,
        image: &[u8],
        frame: u64,
        name: &[u8],
        out: &mut [u64; 7],
    ) -> u64;
    /// `out`: start, length.
    fn reader_chunk(
        &self,
        reader: &Reader,
        image: &[u8],
        frame: u64,
        name: &[u8],
        out: &mut [u64; 2],
    ) -> u64;
    /// `out`: kind, bits.
    fn reader_element(
        &self,
        reader: &Reader,
        image: &[u8],
        frame: u64,
        name: &[u8],
        k: u64,
        out: &mut [u64; 2],
    ) -> u64;
    /// `out`: the id.
    fn reader_id(&self, reader: &Reader, image: &[u8], name: &[u8], out: &mut [u64; 1]) -> u64;
    /// `out`: as `entry`.
    fn reader_find(
        &self,
        reader: &Reader,
        image: &[u8],
        frame: u64,
        id: u64,
        out: &mut [u64; 7],
    ) -> u64;
    /// Of the newest frame at or below this one. `out`: as `entry`.
    fn reader_newest(
        &self,
        reader: &Reader,
        image: &[u8],
        frame: u64,
        id: u64,
        out: &mut [u64; 7],
    ) -> u64;
}

/// What create is asked for.
#[derive(Clone, Copy, Debug)]
pub struct Create<'a> {
    pub application: &'a [u8],
    pub schema: &'a [u8],
    pub schema_version: u32,
    pub slots: u64,
    pub segments: u64,
}

/// The plain Rust implementation.
pub struct Reference;

fn give<const K: usize>(answer: Answer<[u64; K]>, out: &mut [u64; K]) -> u64 {
    match answer {
        Ok(numbers) => {
            *out = numbers;
            0
        }
        Err(number) => number,
    }
}

fn fields(e: Entry) -> [u64; 7] {
    [e.frame, e.n, e.location, e.m.into(), e.id.into(), e.kind.into(), e.flags.into()]
}

fn kind_and_bits(element: Element) -> [u64; 2] {
    match element {
        Element::Unsigned(number) => [1, number],
        Element::Signed(number) => [2, number as u64],
        Element::Single(bits) => [3, bits.into()],
        Element::Double(bits) => [4, bits],
    }
}

/// Start and length of a part of the image.
fn place(image: &[u8], part: &[u8]) -> [u64; 2] {
    [(part.as_ptr().addr() - image.as_ptr().addr()) as u64, part.len() as u64]
}

impl Library for Reference {
    fn open(&self, image: &[u8], out: &mut [u64; 3]) -> u64 {
        give(reference::open(image).map(|c| [c.frames, c.names, c.entries]), out)
    }

    fn name(&self, image: &[u8], n: u64, out: &mut [u64; 2]) -> u64 {
        give(reference::name(image, n).map(|part| place(image, part)), out)
    }

    fn entry(&self, image: &[u8], n: u64, out: &mut [u64; 7]) -> u64 {
        give(reference::entry(image, n).map(fields), out)
    }

    fn lookup(&self, image: &[u8], frame: u64, name: &[u8], out: &mut [u64; 7]) -> u64 {
        give(reference::lookup(image, frame, name).map(fields), out)
    }

    fn chunk(&self, image: &[u8], frame: u64, name: &[u8], out: &mut [u64; 2]) -> u64 {
        give(reference::chunk(image, frame, name).map(|part| place(image, part)), out)
    }

    fn element(&self, image: &[u8], frame: u64, name: &[u8], k: u64, out: &mut [u64; 2]) -> u64 {
        give(reference::element(image, frame, name, k).map(kind_and_bits), out)
    }

    fn probes(&self, image: &[u8], frame: u64, name: &[u8], out: &mut [u64; 1]) -> u64 {
        let Probes { count, answer } = reference::probes(image, frame, name);
        *out = [count];
        answer.err().unwrap_or(0)
    }

    fn nchilada(&self, image: &[u8], frame: u64, name: &[u8], step: f64, file: &mut [u8]) -> u64 {
        reference::nchilada(image, frame, name, step, file).err().unwrap_or(0)
    }

    fn rawarray_write(&self, image: &[u8], frame: u64, name: &[u8], file: &mut [u8]) -> u64 {
        reference::rawarray_write(image, frame, name, file).err().unwrap_or(0)
    }

    fn rawarray_read(&self, file: &[u8], name: &[u8], sheet: &mut [u8]) -> u64 {
        reference::rawarray_read(file, name, sheet).err().unwrap_or(0)
    }

    fn create(&self, image: &mut [u8], request: Create) -> u64 {
        let Create { application, schema, schema_version, slots, segments } = request;
        reference::create(image, application, schema, schema_version, slots, segments)
            .err()
            .unwrap_or(0)
    }

    fn append(&self, image: &mut [u8], sheet: &[u8], limit: u64, out: &mut [u64; 3]) -> u64 {
        *out = [0; 3];
        give(reference::append(image, sheet, limit).map(|s| [s.done, s.whole, s.copied]), out)
    }

    fn begin(&self, image: &[u8], sheet: &[u8], state: &mut State, out: &mut [u64; 2]) -> u64 {
        let begun = reference::begin(image, sheet);
        *state = begun.as_ref().map_or(REFUSED, |begun| begun.state.words());
        *out = [0; 2];
        give(begun.map(|begun| [begun.whole, begun.copied]), out)
    }

    fn turn(
        &self,
        state: &mut State,
        image: &mut [u8],
        sheet: &[u8],
        limit: u64,
        out: &mut [u64; 1],
    ) -> u64 {
        let made = reference::State::read(state).ok_or(32).and_then(|mut read| {
            let made = reference::turn(&mut read, image, sheet, limit)?;
            *state = read.words();
            Ok([made])
        });
        *out = [0];
        give(made, out)
    }

    fn reader_open(&self, image: &[u8], reader: &mut Reader) -> u64 {
        give(reference::Reader::open(image).map(reference::Reader::words), reader)
    }

    fn reader_name(&self, reader: &Reader, image: &[u8], n: u64, out: &mut [u64; 2]) -> u64 {
        let reader = reference::Reader::of(*reader);
        give(reader.name(image, n).map(|part| place(image, part)), out)
    }

    fn reader_entry(&self, reader: &Reader, image: &[u8], n: u64, out: &mut [u64; 7]) -> u64 {
        give(reference::Reader::of(*reader).entry(image, n).map(fields), out)
    }

    fn reader_lookup(
        &self,
        reader: &Reader,
        image: &[u8],
        frame: u64,
        name: &[u8],
        out: &mut [u64; 7],
    ) -> u64 {
        give(reference::Reader::of(*reader).lookup(image, frame, name).map(fields), out)
    }

    fn reader_chunk(
        &self,
        reader: &Reader,
        image: &[u8],
        frame: u64,
        name: &[u8],
        out: &mut [u64; 2],
    ) -> u64 {
        let reader = reference::Reader::of(*reader);
        give(reader.chunk(image, frame, name).map(|part| place(image, part)), out)
    }

    fn reader_element(
        &self,
        reader: &Reader,
        image: &[u8],
        frame: u64,
        name: &[u8],
        k: u64,
        out: &mut [u64; 2],
    ) -> u64 {
        let reader = reference::Reader::of(*reader);
        give(reader.element(image, frame, name, k).map(kind_and_bits), out)
    }

    fn reader_id(&self, reader: &Reader, image: &[u8], name: &[u8], out: &mut [u64; 1]) -> u64 {
        give(reference::Reader::of(*reader).id(image, name).map(|id| [id]), out)
    }

    fn reader_find(
        &self,
        reader: &Reader,
        image: &[u8],
        frame: u64,
        id: u64,
        out: &mut [u64; 7],
    ) -> u64 {
        give(reference::Reader::of(*reader).find(image, frame, id).map(fields), out)
    }

    fn reader_newest(
        &self,
        reader: &Reader,
        image: &[u8],
        frame: u64,
        id: u64,
        out: &mut [u64; 7],
    ) -> u64 {
        give(reference::Reader::of(*reader).newest(image, frame, id).map(fields), out)
    }
}

/// libdialmoth.a.
#[cfg(linked)]
pub struct Linked;

#[cfg(linked)]
mod linked {
    use super::{Create, Library, Linked, Reader, State};
    use dialmoth::ffi;

    // Pointers and lengths are those of live slices.
    impl Library for Linked {
        fn open(&self, image: &[u8], out: &mut [u64; 3]) -> u64 {
            unsafe { ffi::dialmoth_open(image.as_ptr(), image.len(), out) }
        }

        fn name(&self, image: &[u8], n: u64, out: &mut [u64; 2]) -> u64 {
            unsafe { ffi::dialmoth_name(image.as_ptr(), image.len(), n, out) }
        }

        fn entry(&self, image: &[u8], n: u64, out: &mut [u64; 7]) -> u64 {
            unsafe { ffi::dialmoth_entry(image.as_ptr(), image.len(), n, out) }
        }

        fn lookup(&self, image: &[u8], frame: u64, name: &[u8], out: &mut [u64; 7]) -> u64 {
            let (image, length) = (image.as_ptr(), image.len());
            unsafe { ffi::dialmoth_lookup(image, length, frame, name.as_ptr(), name.len(), out) }
        }

        fn chunk(&self, image: &[u8], frame: u64, name: &[u8], out: &mut [u64; 2]) -> u64 {
            let (image, length) = (image.as_ptr(), image.len());
            unsafe { ffi::dialmoth_chunk(image, length, frame, name.as_ptr(), name.len(), out) }
        }

        fn element(
            &self,
            image: &[u8],
            frame: u64,
            name: &[u8],
            k: u64,
            out: &mut [u64; 2],
        ) -> u64 {
            let (image, length) = (image.as_ptr(), image.len());
            unsafe {
                ffi::dialmoth_element(image, length, frame, name.as_ptr(), name.len(), k, out)
            }
        }

        fn probes(&self, image: &[u8], frame: u64, name: &[u8], out: &mut [u64; 1]) -> u64 {
            let (image, length) = (image.as_ptr(), image.len());
            unsafe { ffi::dialmoth_probes(image, length, frame, name.as_ptr(), name.len(), out) }
        }

        fn nchilada(
            &self,
            image: &[u8],
            frame: u64,
            name: &[u8],
            step: f64,
            file: &mut [u8],
        ) -> u64 {
            let (image, length) = (image.as_ptr(), image.len());
            let (name, name_length) = (name.as_ptr(), name.len());
            let (file, size) = (file.as_mut_ptr(), file.len());
            unsafe {
                ffi::dialmoth_nchilada(image, length, frame, name, name_length, step, file, size)
            }
        }

        fn rawarray_write(&self, image: &[u8], frame: u64, name: &[u8], file: &mut [u8]) -> u64 {
            let (image, length) = (image.as_ptr(), image.len());
            let (name, name_length) = (name.as_ptr(), name.len());
            let (file, size) = (file.as_mut_ptr(), file.len());
            unsafe {
                ffi::dialmoth_rawarray_write(image, length, frame, name, name_length, file, size)
            }
        }

        fn rawarray_read(&self, file: &[u8], name: &[u8], sheet: &mut [u8]) -> u64 {
            let (file, length) = (file.as_ptr(), file.len());
            let (name, name_length) = (name.as_ptr(), name.len());
            let (sheet, size) = (sheet.as_mut_ptr(), sheet.len());
            unsafe { ffi::dialmoth_rawarray_read(file, length, name, name_length, sheet, size) }
        }

        fn create(&self, image: &mut [u8], request: Create) -> u64 {
            unsafe {
                ffi::dialmoth_create(
                    image.as_mut_ptr(),
                    image.len(),
                    request.application.as_ptr(),
                    request.application.len(),
                    request.schema.as_ptr(),
                    request.schema.len(),
                    request.schema_version,
                    request.slots,
                    request.segments,
                )
            }
        }

        fn append(&self, image: &mut [u8], sheet: &[u8], limit: u64, out: &mut [u64; 3]) -> u64 {
            let (image, length) = (image.as_mut_ptr(), image.len());
            unsafe { ffi::dialmoth_append(image, length, sheet.as_ptr(), sheet.len(), limit, out) }
        }

        fn begin(&self, image: &[u8], sheet: &[u8], state: &mut State, out: &mut [u64; 2]) -> u64 {
            let (image, length) = (image.as_ptr(), image.len());
            unsafe { ffi::dialmoth_begin(image, length, sheet.as_ptr(), sheet.len(), state, out) }
        }

        fn turn(
            &self,
            state: &mut State,
            image: &mut [u8],
            sheet: &[u8],
            limit: u64,
            out: &mut [u64; 1],
        ) -> u64 {
            let (image, length) = (image.as_mut_ptr(), image.len());
            let (sheet, sheet_length) = (sheet.as_ptr(), sheet.len());
            unsafe { ffi::dialmoth_turn(state, image, length, sheet, sheet_length, limit, out) }
        }

        fn reader_open(&self, image: &[u8], reader: &mut Reader) -> u64 {
            unsafe { ffi::dialmoth_reader_open(image.as_ptr(), image.len(), reader) }
        }

        fn reader_name(&self, reader: &Reader, image: &[u8], n: u64, out: &mut [u64; 2]) -> u64 {
            unsafe { ffi::dialmoth_reader_name(reader, image.as_ptr(), image.len(), n, out) }
        }

        fn reader_entry(&self, reader: &Reader, image: &[u8], n: u64, out: &mut [u64; 7]) -> u64 {
            unsafe { ffi::dialmoth_reader_entry(reader, image.as_ptr(), image.len(), n, out) }
        }

        fn reader_lookup(
            &self,
            reader: &Reader,
            image: &[u8],
            frame: u64,
            name: &[u8],
            out: &mut [u64; 7],
        ) -> u64 {
            let (image, length) = (image.as_ptr(), image.len());
            let (name, name_length) = (name.as_ptr(), name.len());
            unsafe {
                ffi::dialmoth_reader_lookup(reader, image, length, frame, name, name_length, out)
            }
        }

        fn reader_chunk(
            &self,
            reader: &Reader,
            image: &[u8],
            frame: u64,
            name: &[u8],
            out: &mut [u64; 2],
        ) -> u64 {
            let (image, length) = (image.as_ptr(), image.len());
            let (name, name_length) = (name.as_ptr(), name.len());
            unsafe {
                ffi::dialmoth_reader_chunk(reader, image, length, frame, name, name_length, out)
            }
        }

        fn reader_element(
            &self,
            reader: &Reader,
            image: &[u8],
            frame: u64,
            name: &[u8],
            k: u64,
            out: &mut [u64; 2],
        ) -> u64 {
            let (image, length) = (image.as_ptr(), image.len());
            let (name, size) = (name.as_ptr(), name.len());
            unsafe {
                ffi::dialmoth_reader_element(reader, image, length, frame, name, size, k, out)
            }
        }

        fn reader_id(&self, reader: &Reader, image: &[u8], name: &[u8], out: &mut [u64; 1]) -> u64 {
            let (image, length) = (image.as_ptr(), image.len());
            unsafe {
                ffi::dialmoth_reader_id(reader, image, length, name.as_ptr(), name.len(), out)
            }
        }

        fn reader_find(
            &self,
            reader: &Reader,
            image: &[u8],
            frame: u64,
            id: u64,
            out: &mut [u64; 7],
        ) -> u64 {
            let (image, length) = (image.as_ptr(), image.len());
            unsafe { ffi::dialmoth_reader_find(reader, image, length, frame, id, out) }
        }

        fn reader_newest(
            &self,
            reader: &Reader,
            image: &[u8],
            frame: u64,
            id: u64,
            out: &mut [u64; 7],
        ) -> u64 {
            let (image, length) = (image.as_ptr(), image.len());
            unsafe { ffi::dialmoth_reader_newest(reader, image, length, frame, id, out) }
        }
    }
}
