//! A reader in plain Rust, which keeps the same words as the library's, and the calls of both as the C
//! interface has them.

use differential::images::{get64, last_type, size, version, SEGMENT, V1_0, VERSIONS};
use differential::reference::{self, Answer};
use std::ffi::CStr;
use std::iter;

/// Frames, names, entries, where the entries and where the names start, bytes of these, version, 0.
pub type Words = [u64; 8];

/// The calls that are timed; numbers and outs are those of include/dialmoth.h.
pub trait Readers: Sync {
    fn reader_open(&self, image: &[u8], reader: &mut Words) -> u64;
    fn reader_entry(&self, reader: &Words, image: &[u8], n: u64, out: &mut [u64; 7]) -> u64;
    fn reader_lookup(
        &self,
        reader: &Words,
        image: &[u8],
        frame: u64,
        name: &[u8],
        out: &mut [u64; 7],
    ) -> u64;
    fn reader_chunk(
        &self,
        reader: &Words,
        image: &[u8],
        frame: u64,
        name: &[u8],
        out: &mut [u64; 2],
    ) -> u64;
    fn reader_id(&self, reader: &Words, image: &[u8], name: &[u8], out: &mut [u64; 1]) -> u64;
    fn reader_find(
        &self,
        reader: &Words,
        image: &[u8],
        frame: u64,
        id: u64,
        out: &mut [u64; 7],
    ) -> u64;
    fn reader_newest(
        &self,
        reader: &Words,
        image: &[u8],
        frame: u64,
        id: u64,
        out: &mut [u64; 7],
    ) -> u64;
}

const SLOT: usize = 32;

#[derive(Clone, Copy)]
pub struct Entry {
    pub frame: u64,
    pub n: u64,
    pub location: u64,
    pub m: u32,
    pub id: u16,
    pub kind: u8,
    pub flags: u8,
}

impl Entry {
    fn read(slot: &[u8; SLOT]) -> Entry {
        Entry {
            frame: get64(slot, 0),
            n: get64(slot, 8),
            location: get64(slot, 16),
            m: u32::from_le_bytes(slot[24..28].try_into().unwrap()),
            id: u16::from_le_bytes([slot[28], slot[29]]),
            kind: slot[30],
            flags: slot[31],
        }
    }

    fn key(self) -> (u64, u64) {
        (self.frame, self.id.into())
    }

    fn fields(self) -> [u64; 7] {
        let Entry { frame, n, location, m, id, kind, flags } = self;
        [frame, n, location, m.into(), id.into(), kind.into(), flags.into()]
    }
}

/// A reader and an image that it fits.
pub struct View<'a> {
    image: &'a [u8],
    frames: u64,
    names: u64,
    slots: &'a [[u8; SLOT]],
    list: &'a [u8],
    version: u32,
}

fn part(image: &[u8], start: u64, length: u64) -> Option<&[u8]> {
    let end = start.checked_add(length)?;
    image.get(usize::try_from(start).ok()?..usize::try_from(end).ok()?)
}

impl<'a> View<'a> {
    fn fitting(reader: &Words, image: &'a [u8]) -> Option<View<'a>> {
        let [frames, names, entries, index, namelist, size, version, _] = *reader;
        let version = u32::try_from(version).ok().filter(|number| VERSIONS.contains(number))?;
        if image.len() > 1 << 30 || names > 1024 {
            return None;
        }
        let (slots, _) = part(image, index, entries.checked_mul(SLOT as u64)?)?.as_chunks();
        let list = part(image, namelist, size)?;
        Some(View { image, frames, names, slots, list, version })
    }

    pub fn new(reader: &Words, image: &'a [u8]) -> Answer<View<'a>> {
        View::fitting(reader, image).ok_or(33)
    }

    fn id(&self, name: &[u8]) -> Answer<u64> {
        let names = self.names as usize;
        let place = match self.version {
            V1_0 => segment_names(self.list).take(names).position(|listed| listed == name),
            _ => closed_names(self.list).take(names).position(|listed| listed == name),
        };
        place.map(|id| id as u64).ok_or(41)
    }

    fn has_frame(&self, frame: u64) -> Answer<()> {
        (frame < self.frames).then_some(()).ok_or(40)
    }

    fn has_id(&self, id: u64) -> Answer<()> {
        (id < self.names).then_some(()).ok_or(41)
    }

    pub fn entries(&self) -> impl Iterator<Item = Entry> + 'a {
        self.slots.iter().map(Entry::read)
    }

    /// As the entries of an open image stand; others may be found otherwise than the library does.
    fn search(&self, frame: u64, id: u64) -> Answer<Entry> {
        let found = match self.version {
            V1_0 => {
                let place = self.slots.partition_point(|slot| get64(slot, 0) < frame);
                let walked = self.slots[place..].iter().map(Entry::read);
                walked.take_while(|entry| entry.frame == frame).find(|entry| entry.key().1 == id)
            }
            _ => {
                let key = |slot: &[u8; SLOT]| Entry::read(slot).key();
                let place = self.slots.binary_search_by_key(&(frame, id), key).ok();
                place.map(|place| Entry::read(&self.slots[place]))
            }
        };
        found.ok_or(42)
    }

    fn lookup(&self, frame: u64, name: &[u8]) -> Answer<Entry> {
        self.has_frame(frame)?;
        self.search(frame, self.id(name)?)
    }

    fn find(&self, frame: u64, id: u64) -> Answer<Entry> {
        self.has_frame(frame)?;
        self.has_id(id)?;
        self.search(frame, id)
    }

    fn newest(&self, frame: u64, id: u64) -> Answer<Entry> {
        self.has_frame(frame)?;
        self.has_id(id)?;
        let last = if self.version == V1_0 { u64::MAX } else { id };
        let behind = self.slots.partition_point(|slot| Entry::read(slot).key() <= (frame, last));
        let mut back = self.slots[..behind].iter().rev().map(Entry::read);
        back.find(|entry| entry.key().1 == id).ok_or(42)
    }

    /// The bytes of an entry's chunk.
    pub fn chunk(&self, entry: Entry) -> Answer<&'a [u8]> {
        let known = (1..=last_type(self.version)).contains(&entry.kind);
        let length = entry.n.checked_mul(u64::from(entry.m) * size(entry.kind) as u64);
        let bytes = length.and_then(|length| part(self.image, entry.location, length));
        bytes.filter(|_| known).ok_or(33)
    }
}

/// Names one to a segment.
fn segment_names(list: &[u8]) -> impl Iterator<Item = &[u8]> {
    let (segments, _) = list.as_chunks::<SEGMENT>();
    let names = segments.iter().map(|segment| {
        let length = segment.iter().position(|&byte| byte == 0).unwrap_or(SEGMENT);
        &segment[..length]
    });
    names.take_while(|name| !name.is_empty())
}

/// Names one behind the other, each with its zero.
fn closed_names(mut list: &[u8]) -> impl Iterator<Item = &[u8]> {
    iter::from_fn(move || {
        let name = CStr::from_bytes_until_nul(list).ok()?.to_bytes();
        list = &list[name.len() + 1..];
        Some(name).filter(|name| !name.is_empty())
    })
}

fn open(image: &[u8]) -> Answer<Words> {
    let counts = reference::open(image)?;
    let (version, namelist) = (version(image), get64(image, 24));
    let names = counts.names as usize;
    let size = match version {
        V1_0 => SEGMENT * names,
        _ => {
            let listed = closed_names(&image[namelist as usize..]).take(names);
            listed.map(|name| name.len() + 1).sum()
        }
    };
    Ok([
        counts.frames,
        counts.names,
        counts.entries,
        get64(image, 8),
        namelist,
        size as u64,
        version.into(),
        0,
    ])
}

fn give<const K: usize>(answer: Answer<[u64; K]>, out: &mut [u64; K]) -> u64 {
    match answer {
        Ok(numbers) => {
            *out = numbers;
            0
        }
        Err(number) => number,
    }
}

/// The plain Rust reader.
pub struct Plain;

impl Readers for Plain {
    fn reader_open(&self, image: &[u8], reader: &mut Words) -> u64 {
        give(open(image), reader)
    }

    fn reader_entry(&self, reader: &Words, image: &[u8], n: u64, out: &mut [u64; 7]) -> u64 {
        let entry = View::new(reader, image).and_then(|view| {
            let slot = usize::try_from(n).ok().and_then(|n| view.slots.get(n)).ok_or(44_u64)?;
            Ok(Entry::read(slot).fields())
        });
        give(entry, out)
    }

    fn reader_lookup(
        &self,
        reader: &Words,
        image: &[u8],
        frame: u64,
        name: &[u8],
        out: &mut [u64; 7],
    ) -> u64 {
        let found = View::new(reader, image).and_then(|view| view.lookup(frame, name));
        give(found.map(Entry::fields), out)
    }

    fn reader_chunk(
        &self,
        reader: &Words,
        image: &[u8],
        frame: u64,
        name: &[u8],
        out: &mut [u64; 2],
    ) -> u64 {
        let place = View::new(reader, image).and_then(|view| {
            let entry = view.lookup(frame, name)?;
            Ok([entry.location, view.chunk(entry)?.len() as u64])
        });
        give(place, out)
    }

    fn reader_id(&self, reader: &Words, image: &[u8], name: &[u8], out: &mut [u64; 1]) -> u64 {
        let id = View::new(reader, image).and_then(|view| view.id(name));
        give(id.map(|id| [id]), out)
    }

    fn reader_find(
        &self,
        reader: &Words,
        image: &[u8],
        frame: u64,
        id: u64,
        out: &mut [u64; 7],
    ) -> u64 {
        let found = View::new(reader, image).and_then(|view| view.find(frame, id));
        give(found.map(Entry::fields), out)
    }

    fn reader_newest(
        &self,
        reader: &Words,
        image: &[u8],
        frame: u64,
        id: u64,
        out: &mut [u64; 7],
    ) -> u64 {
        let found = View::new(reader, image).and_then(|view| view.newest(frame, id));
        give(found.map(Entry::fields), out)
    }
}

/// libdialmoth.a.
#[cfg(linked)]
pub struct Linked;

#[cfg(linked)]
mod linked {
    use super::{Linked, Readers, Words};
    use dialmoth::ffi;

    // Pointers and lengths are those of live slices.
    impl Readers for Linked {
        fn reader_open(&self, image: &[u8], reader: &mut Words) -> u64 {
            unsafe { ffi::dialmoth_reader_open(image.as_ptr(), image.len(), reader) }
        }

        fn reader_entry(&self, reader: &Words, image: &[u8], n: u64, out: &mut [u64; 7]) -> u64 {
            unsafe { ffi::dialmoth_reader_entry(reader, image.as_ptr(), image.len(), n, out) }
        }

        fn reader_lookup(
            &self,
            reader: &Words,
            image: &[u8],
            frame: u64,
            name: &[u8],
            out: &mut [u64; 7],
        ) -> u64 {
            let (image, name) = ((image.as_ptr(), image.len()), (name.as_ptr(), name.len()));
            unsafe {
                ffi::dialmoth_reader_lookup(reader, image.0, image.1, frame, name.0, name.1, out)
            }
        }

        fn reader_chunk(
            &self,
            reader: &Words,
            image: &[u8],
            frame: u64,
            name: &[u8],
            out: &mut [u64; 2],
        ) -> u64 {
            let (image, name) = ((image.as_ptr(), image.len()), (name.as_ptr(), name.len()));
            unsafe {
                ffi::dialmoth_reader_chunk(reader, image.0, image.1, frame, name.0, name.1, out)
            }
        }

        fn reader_id(&self, reader: &Words, image: &[u8], name: &[u8], out: &mut [u64; 1]) -> u64 {
            let (image, name) = ((image.as_ptr(), image.len()), (name.as_ptr(), name.len()));
            unsafe { ffi::dialmoth_reader_id(reader, image.0, image.1, name.0, name.1, out) }
        }

        fn reader_find(
            &self,
            reader: &Words,
            image: &[u8],
            frame: u64,
            id: u64,
            out: &mut [u64; 7],
        ) -> u64 {
            let (image, length) = (image.as_ptr(), image.len());
            unsafe { ffi::dialmoth_reader_find(reader, image, length, frame, id, out) }
        }

        fn reader_newest(
            &self,
            reader: &Words,
            image: &[u8],
            frame: u64,
            id: u64,
            out: &mut [u64; 7],
        ) -> u64 {
            let (image, length) = (image.as_ptr(), image.len());
            unsafe { ffi::dialmoth_reader_newest(reader, image, length, frame, id, out) }
        }
    }
}
