//! Files that the real GSD library wrote, with its own reading of them, and files of 1.0
//! (tests/files/README.md).

use crate::ask::Ask;
use crate::generate;
use crate::images::{frames_to_ask, get64, sheet, version, Row, FLOATS, V1_0};
use crate::library::Library;
use crate::readers::{as_it_is, Questions, Through, View};
use std::path::{Path, PathBuf};
use std::{fs, io};

/// Where the files lie, what the listing program prints for each, and what the real library reads.
pub struct Files {
    images: PathBuf,
    /// One text with each listing under its file's name, or a folder of NAME.list.
    listings: PathBuf,
    chunks: PathBuf,
}

impl Files {
    /// The stored ones: images and listings are those of the program gsd_files.
    pub fn stored() -> Files {
        let root = Path::new(concat!(env!("CARGO_MANIFEST_DIR"), "/../.."));
        Files {
            images: root.join("crates/gsd_files/data"),
            listings: root.join("crates/gsd_files/stdout"),
            chunks: root.join("tests/files"),
        }
    }

    /// NAME.gsd, NAME.list and NAME.chunks in one folder.
    pub fn of(folder: PathBuf) -> Files {
        Files { images: folder.clone(), listings: folder.clone(), chunks: folder }
    }

    /// The names of the files, without their ending; "2.1/NAME" for those in the folder `2.1`, and so
    /// for those in `1.0`.
    pub fn names(&self) -> io::Result<Vec<String>> {
        let mut names = Vec::new();
        for folder in ["", "1.0/", "2.1/"] {
            let path = self.images.join(folder);
            if !folder.is_empty() && !path.is_dir() {
                continue;
            }
            for file in fs::read_dir(path)? {
                let path = file?.path();
                if path.extension().is_some_and(|ending| ending == "gsd") {
                    let stem = path.file_stem().and_then(|stem| stem.to_str());
                    names.extend(stem.map(|stem| format!("{folder}{stem}")));
                }
            }
        }
        names.sort();
        Ok(names)
    }

    fn image(&self, name: &str) -> Vec<u8> {
        fs::read(self.images.join(format!("{name}.gsd"))).unwrap()
    }

    fn chunks(&self, name: &str) -> String {
        fs::read_to_string(self.chunks.join(format!("{name}.chunks"))).unwrap()
    }

    fn listing(&self, name: &str) -> String {
        if self.listings.is_dir() {
            return fs::read_to_string(self.listings.join(format!("{name}.list"))).unwrap();
        }
        let heading = format!("{name}.gsd");
        let all = fs::read_to_string(&self.listings).unwrap();
        let from = all.lines().skip_while(|&line| line != heading).skip(1);
        let lines = from.take_while(|line| !line.ends_with(".gsd"));
        lines.map(|line| line.to_owned() + "\n").collect()
    }
}

fn crc32(bytes: &[u8]) -> u32 {
    !bytes.iter().fold(!0, |crc: u32, &byte| {
        (0..8).fold(crc ^ u32::from(byte), |crc, _| {
            (crc >> 1) ^ (0xEDB8_8320 & (crc & 1).wrapping_neg())
        })
    })
}

fn hex(text: &str) -> Vec<u8> {
    (0..text.len() / 2).map(|n| u8::from_str_radix(&text[2 * n..][..2], 16).unwrap()).collect()
}

/// Panics unless the library lists the file and reads its chunks as the real one does.
pub fn hold(library: &dyn Library, files: &Files, name: &str) {
    let image = files.image(name);
    let listing = files.listing(name);
    assert_eq!(library.listing(&image), listing, "{name}");
    assert!(version(&image) == V1_0 || !name.starts_with("1.0/"), "{name}");
    if version(&image) == V1_0 {
        no_other_version(library, &image);
    } else {
        let chunks = files.chunks(name);
        let characters = chunks.lines().any(|line| line.split('\t').nth(2) == Some("11"));
        other_version(library, &image, &listing, characters);
    }
    // Through a reader it reads as by the calls that open it; refused, it has none.
    let questions = few_questions(library, &image);
    let reader = as_it_is(library, &image, &questions).unwrap();
    assert_eq!(reader.is_some(), library.counts(&image).is_ok(), "{name}");
    if reader.is_none() {
        return;
    }
    hold_chunks(library, &image, name, &files.chunks(name));
    if version(&image) == V1_0 {
        takes_none(library, &image);
    } else {
        grow(library, &image);
        let refused = append_again(library, &image);
        // The file of extreme values has NaNs of both types.
        assert!(refused == 2 || !name.ends_with("extremes"), "{name}: {refused}");
    }
}

/// Of all names and entries, and of some of the frames, the first and the last among them.
fn few_questions(library: &dyn Library, image: &[u8]) -> Questions {
    let mut questions = Questions::of(library, image, &[]);
    let last = questions.frames.iter().rev().take(10);
    questions.frames = questions.frames.iter().take(10).chain(last).copied().collect();
    questions
}

fn hold_chunks(library: &dyn Library, image: &[u8], name: &str, chunks: &str) {
    let [_, _, entries] = library.counts(image).unwrap();
    assert_eq!(chunks.lines().count() as u64, entries, "{name}");
    for line in chunks.lines() {
        let fields: Vec<_> = line.split('\t').collect();
        let [frame, id, kind, n, m] = [0, 1, 2, 3, 4].map(|at| fields[at].parse::<u64>().unwrap());
        let (crc, chunk) = (u32::from_str_radix(fields[5], 16).unwrap(), hex(fields[6]));
        let entry = library.find(image, frame, &chunk).unwrap();
        assert_eq!([entry[0], entry[1], entry[3], entry[4], entry[5]], [frame, n, m, id, kind]);
        let bytes = library.bytes(image, frame, &chunk).unwrap();
        assert_eq!(crc32(bytes), crc, "{name}: {line}");
        assert_eq!(library.nth_name(image, id), Ok(&chunk[..]));
        // Element by element the same bytes: little-endian, sign-extended or not.
        let answered = [0, 1, 1, 1, 1, 2, 2, 2, 2, 3, 4, 1][kind as usize];
        let size = bytes.len() / (n * m).max(1) as usize;
        for (k, expected) in bytes.chunks_exact(size.max(1)).enumerate().take(1000) {
            let mut whole = [if answered == 2 && expected[size - 1] > 127 { 255 } else { 0 }; 8];
            whole[..size].copy_from_slice(expected);
            let element = library.nth_element(image, frame, &chunk, k as u64);
            assert_eq!(element, Ok([answered, u64::from_le_bytes(whole)]), "{name}: {line}");
        }
        assert_eq!(library.nth_element(image, frame, &chunk, n * m), Err(43));
    }
}

/// No version but 1.0 itself has the major number 1.
fn no_other_version(library: &dyn Library, file: &[u8]) {
    let mut image = file.to_vec();
    image[44] ^= 1;
    if image.len() <= 65_536 {
        assert_eq!(library.listing(&image), "refused 4\n");
    }
}

/// An append to a file of 1.0 is refused, whatever it is and however much room there is.
fn takes_none(library: &dyn Library, file: &[u8]) {
    for room in [0, 65_536] {
        let mut image = file.to_vec();
        image.resize(file.len() + room, 0xA5);
        for sheet in [crate::cases::sheet_a(), crate::cases::sheet_b(), Vec::new()] {
            for limit in [0, 1, u64::MAX] {
                assert_eq!(library.after(&image, &sheet, limit), (image.clone(), Err(20)));
            }
        }
    }
}

/// As a file of the other version it lists the same, but for characters, which 2.0 does not know.
fn other_version(library: &dyn Library, file: &[u8], listing: &str, characters: bool) {
    let mut image = file.to_vec();
    image[44] ^= 1;
    assert!(!characters || image[44] == 0);
    let expected = if characters { "refused 13\n" } else { listing };
    assert_eq!(library.listing(&image), expected);
    if image.len() <= 65_536 {
        image[44] = 2;
        assert_eq!(library.listing(&image), "refused 4\n");
    }
}

/// Appends each chunk of floats or doubles again: exactly those with a NaN are refused, and counted.
fn append_again(library: &dyn Library, file: &[u8]) -> usize {
    let mut image = file.to_vec();
    image.resize(file.len().next_multiple_of(8) + 65_536, 0);
    let rows = generate::chunk_rows(file).into_iter();
    let floats = rows.filter(|row| FLOATS.contains(&row.kind) && row.data.len() < 4096);
    let mut refused = 0;
    for row in floats {
        // Some names are too long for a sheet.
        let row = Row { name: b"again".to_vec(), ..row };
        let number = library.after(&image, &sheet(std::slice::from_ref(&row)), 0).1.err();
        if number != Some(21) {
            assert_eq!(number, row.holds_nan().then_some(30));
            refused += usize::from(row.holds_nan());
        }
    }
    refused
}

/// The file grows as an image: it stays of its version, and each old chunk reads the same after an
/// append, and after a stop.
fn grow(library: &dyn Library, file: &[u8]) {
    let mut image = file.to_vec();
    image.resize(file.len().next_multiple_of(8) + 65_536, 0xA5);
    let aligned = [8, 24].iter().all(|&at| get64(&image, at).is_multiple_of(8));
    // Characters go into images of 2.1 alone.
    let text = sheet(&[Row::new(b"text", 11, 3, 1, b"\xC2\xB5s")]);
    let (after, stores) = library.after(&image, &text, u64::MAX);
    match stores {
        Err(number) => assert_eq!(number, if aligned { 24 } else { 21 }),
        Ok(_) => {
            let frame = library.counts(&image).unwrap()[0];
            assert_eq!(library.bytes(&after, frame, b"text"), Ok(&b"\xC2\xB5s"[..]));
            assert_eq!(library.nth_element(&after, frame, b"text", 0), Ok([1, 0xC2]));
        }
    }
    assert_eq!(stores.is_ok(), aligned && image[44] == 1);
    let sheet = crate::cases::sheet_b();
    let stores = library.after(&image, &sheet, 0).1;
    let Ok([_, whole, copied]) = stores else {
        assert!(stores == Err(21) && !aligned);
        return;
    };
    let [frames, names, entries] = library.counts(&image).unwrap();
    // Two rows more move an index that has fewer slots free.
    let moves = get64(&image, 16) < entries + 2;
    assert_eq!(copied, if moves { entries } else { 0 });
    let asked = frames_to_ask(&library.named_frames(&image).unwrap(), frames);
    // A reader of the file answers behind the append as before it.
    let (reader, questions) = (library.reader(&image).unwrap(), few_questions(library, &image));
    let through = |image: &[u8]| View::new(&Through { library, reader, image }, image, &questions);
    let before = through(&image);
    for limit in [0, 1, whole / 2, whole - 1, whole] {
        let (after, stores) = library.after(&image, &sheet, limit);
        assert_eq!(stores, Ok([limit, whole, copied]));
        assert_eq!(after[44..48], image[44..48]);
        assert_eq!(through(&after).differs(&before), None);
        let [new_frames, ..] = library.counts(&after).unwrap();
        assert_eq!(new_frames, frames + u64::from(limit == whole));
        for n in 0..entries {
            assert_eq!(library.nth_entry(&after, n), library.nth_entry(&image, n));
        }
        for n in 0..names {
            let name = library.nth_name(&image, n).unwrap();
            assert_eq!(library.nth_name(&after, n), Ok(name));
            for &frame in asked.iter().take(50) {
                assert_eq!(library.bytes(&after, frame, name), library.bytes(&image, frame, name));
            }
        }
    }
}
