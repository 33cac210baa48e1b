//! The safe Rust calls of the package dialmoth say what the C functions say.

use crate::ask::{any_bytes, Answer, Ask};
use crate::cases::{sheet_a, sheet_b};
use crate::generate::{self, Layout};
use crate::images::{
    blank, file_length, frames_to_ask, get64, put32, put64, put_names, sheet, size, version, Slot,
    GREATEST_FRAME, V1_0, V2_0,
};
use crate::library::Linked;
use crate::random::Rng;
use crate::readers::{Reading, Through};
use dialmoth::{Begun, Element, Reader, Refusal, Row, Stores, Type};

const TYPES: [Type; 11] = [
    Type::U8,
    Type::U16,
    Type::U32,
    Type::U64,
    Type::I8,
    Type::I16,
    Type::I32,
    Type::I64,
    Type::Float,
    Type::Double,
    Type::Character,
];

fn fields(e: dialmoth::Entry) -> [u64; 7] {
    [e.frame, e.n, e.location, e.m.into(), e.id.into(), e.kind as u64, e.flags.into()]
}

fn kind_and_bits(element: Element) -> [u64; 2] {
    match element {
        Element::Unsigned(number) => [1, number],
        Element::Signed(number) => [2, number as u64],
        Element::Single(float) => [3, float.to_bits().into()],
        Element::Double(float) => [4, float.to_bits()],
    }
}

fn number(refusal: Refusal) -> u64 {
    refusal.0
}

/// Panics at the first difference.
pub fn hold() {
    for (at, kind) in TYPES.into_iter().enumerate() {
        assert_eq!((kind as usize, kind.size()), (at + 1, size(at as u8 + 1) as u64));
    }
    let mut rng = Rng::new(7);
    for round in 0..300 {
        let (mut image, mut known) = match round % 3 {
            0 => (generate::fresh(&mut rng), Vec::new()),
            1 => generate::gapped(&mut rng),
            _ => {
                let Layout { image, names, .. } = generate::odd_of(&mut rng, V1_0);
                (image, names)
            }
        };
        known.push(b"no such name".to_vec());
        let before = image.clone();
        appends(&mut rng, &mut image, &mut known);
        let counts = dialmoth::open(&image).map_err(number);
        assert_eq!(counts.map(|c| [c.frames, c.names, c.entries]), Linked.counts(&image));
        for n in 0..20 {
            assert_eq!(dialmoth::name(&image, n).map_err(number), Linked.nth_name(&image, n));
            let entry = dialmoth::entry(&image, n).map(fields).map_err(number);
            assert_eq!(entry, Linked.nth_entry(&image, n));
        }
        lookups(&image, &known);
        readers(&before, &image, &known);
    }
    created();
    frames_run_out();
    nans_are_refused();
    old_files_take_none();
    copies_are_counted();
    turns_are_refused();
    files_are_refused();
    arrays_are_refused();
    characters_come_back_as_bytes();
}

fn appends(rng: &mut Rng, image: &mut [u8], known: &mut Vec<Vec<u8>>) {
    for _ in 0..4 {
        let rows = generate::rows(rng, version(image), known);
        let own: Vec<_> = rows
            .iter()
            .map(|row| Row {
                name: &row.name,
                kind: TYPES[usize::from(row.kind) - 1],
                n: row.n,
                m: row.m,
                data: &row.data,
            })
            .collect();
        let sheet = sheet(&rows);
        assert_eq!(dialmoth::sheet(&own), sheet);
        let limit = generate::limit(rng);
        let (after, stores) = Linked.after(image, &sheet, limit);
        assert_eq!(in_turns(image, &sheet, limit), (after.clone(), stores));
        let done = dialmoth::append(image, &sheet, limit).map_err(number);
        assert_eq!(done.map(|s| [s.done, s.whole, s.copied]), stores);
        assert_eq!(*image, after);
        known.extend(rows.into_iter().map(|row| row.name).take(4));
    }
}

/// The image that two turns leave, with done, whole and copied.
fn in_turns(image: &[u8], sheet: &[u8], limit: u64) -> (Vec<u8>, Answer<[u64; 3]>) {
    let mut image = image.to_vec();
    let stores = dialmoth::begin(&image, sheet).map(|Begun { whole, copied, mut state }| {
        let mut turn = |limit| dialmoth::turn(&mut state, &mut image, sheet, limit).unwrap();
        [turn(limit / 3) + turn(limit - limit / 3), whole, copied]
    });
    (image, stores.map_err(number))
}

fn lookups(image: &[u8], known: &[Vec<u8>]) {
    let named = Linked.named_frames(image).unwrap();
    let behind = named.last().map_or(0, |last| last + 1);
    let asked = frames_to_ask(&named, behind + 1);
    for (frame, name) in asked.iter().flat_map(|&frame| known.iter().map(move |n| (frame, n))) {
        let found = dialmoth::lookup(image, frame, name).map(fields).map_err(number);
        assert_eq!(found, Linked.find(image, frame, name));
        let bytes = dialmoth::chunk(image, frame, name).map_err(number);
        assert_eq!(bytes, Linked.bytes(image, frame, name));
        let probes = dialmoth::probes(image, frame, name);
        assert_eq!(
            (probes.refusal.map_or(0, number), probes.count),
            Linked.probed(image, frame, name)
        );
        for k in 0..3 {
            let element = dialmoth::element(image, frame, name, k);
            let element = element.map(kind_and_bits).map_err(number);
            assert_eq!(element, Linked.nth_element(image, frame, name, k));
        }
        files(image, frame, name);
        arrays(image, frame, name);
    }
}

/// A safe call answers and writes to a slice of so many bytes as the C function does.
fn alike(
    length: usize,
    call: impl FnOnce(&mut [u8]) -> Result<(), Refusal>,
    expected: Answer<Vec<u8>>,
) {
    let mut bytes = any_bytes(length);
    let answer = call(&mut bytes).map_err(number);
    assert_eq!(answer, expected.as_ref().map(|_| ()).map_err(|&number| number));
    assert_eq!(bytes, expected.unwrap_or_else(|_| any_bytes(length)));
}

/// As a slice that is lent and as one that is made, with a step whose time is finite in every frame,
/// and one whose time is in frame 0 alone.
fn files(image: &[u8], frame: u64, name: &[u8]) {
    let found = Linked.find(image, frame, name);
    let length = found.map_or(0, file_length);
    if let Ok(entry) = dialmoth::lookup(image, frame, name) {
        let refused = Linked.file(image, frame, name, 1.0, length).err();
        let none = matches!(refused, Some(60 | 61));
        assert_eq!(entry.nchilada_length(), (!none).then_some(length));
    }
    for step in [-2.5, f64::MAX] {
        let expected = Linked.file(image, frame, name, step, length);
        assert_eq!(dialmoth::nchilada_file(image, frame, name, step).map_err(number), expected);
        for length in [length, length + 1] {
            let expected = Linked.file(image, frame, name, step, length);
            alike(length, |file| dialmoth::nchilada(image, frame, name, step, file), expected);
        }
    }
}

/// As a slice that is lent and as one that is made; and what the file is read back as, whole and cut, and
/// with a byte more in each word before its data.
fn arrays(image: &[u8], frame: u64, name: &[u8]) {
    let length = 64 + Linked.bytes(image, frame, name).map_or(0, <[u8]>::len);
    if let Ok(entry) = dialmoth::lookup(image, frame, name) {
        assert_eq!(entry.rawarray_length(), Some(length));
    }
    let expected = Linked.array(image, frame, name, length);
    assert_eq!(dialmoth::rawarray_file(image, frame, name).map_err(number), expected);
    for length in [length, length + 1] {
        let expected = Linked.array(image, frame, name, length);
        alike(length, |file| dialmoth::rawarray_write(image, frame, name, file), expected);
    }
    let Ok(file) = expected else { return };
    for length in [0, 39, 40, 47, 48, 63, 64, length - 1, length] {
        read_back(&file[..length], name);
    }
    for at in (0..64).step_by(8) {
        let mut file = file.clone();
        for byte in [at, at + 7] {
            file[byte] = file[byte].wrapping_add(1);
            read_back(&file, name);
        }
    }
}

/// As a slice that is lent and as one that is made.
fn read_back(file: &[u8], name: &[u8]) {
    let told = dialmoth::rawarray_sheet_length(file, name);
    // No sheet is empty: 79 says that all else is right.
    let expected = match Linked.sheet_of(file, name, 0) {
        Err(79) => {
            let length = 20 + name.len() + get64(file, 32) as usize;
            assert_eq!(told, Some(length));
            Linked.sheet_of(file, name, length)
        }
        refused => refused,
    };
    assert_eq!(dialmoth::rawarray_sheet(file, name).map_err(number), expected);
    let length = told.unwrap_or(0);
    assert!(length <= file.len() + 275);
    for length in [length, length + 1] {
        let expected = Linked.sheet_of(file, name, length);
        alike(length, |sheet| dialmoth::rawarray_read(file, name, sheet), expected);
    }
}

/// The reader of an image, and that of it as it was before some appends.
fn readers(before: &[u8], image: &[u8], known: &[Vec<u8>]) {
    for made_of in [before, image] {
        let reader = Reader::open(made_of).unwrap();
        assert_eq!(Ok(reader.words()), Linked.reader(made_of));
        assert_eq!(Reader::from_words(reader.words()), reader);
        let asked = Through { library: &Linked, reader: reader.words(), image };
        let part = |[start, length]: [u64; 2]| &image[start as usize..][..length as usize];
        for n in 0..20 {
            assert_eq!(reader.name(image, n).map_err(number), asked.name(n).map(part));
            assert_eq!(reader.entry(image, n).map(fields).map_err(number), asked.entry(n));
        }
        for name in known {
            assert_eq!(reader.id(image, name).map(u64::from).map_err(number), asked.id(name));
        }
        let last = reader.words()[0];
        for frame in [0, 1, last.wrapping_sub(1), last, u64::MAX] {
            for name in known {
                let found = reader.lookup(image, frame, name).map(fields).map_err(number);
                assert_eq!(found, asked.lookup(frame, name));
                let bytes = reader.chunk(image, frame, name).map_err(number);
                assert_eq!(bytes, asked.chunk(frame, name).map(part));
                let element = reader.element(image, frame, name, 0);
                let element = element.map(kind_and_bits).map_err(number);
                assert_eq!(element, asked.element(frame, name, 0));
            }
            for id in 0..4 {
                let found = reader.find(image, frame, id).map(fields).map_err(number);
                assert_eq!(found, asked.find(frame, id.into()));
                let newest = reader.newest(image, frame, id).map(fields).map_err(number);
                assert_eq!(newest, asked.newest(frame, id.into()));
            }
        }
    }
    assert_eq!(Reader::open(&image[..255]), Err(Refusal::SHORT_IMAGE));
    let none = Reader::from_words([u64::MAX; 8]);
    assert_eq!(none.id(image, b"a"), Err(Refusal::NOT_FITTING));
}

fn created() {
    let mut image = [9; 400];
    assert_eq!(dialmoth::create(&mut image, b"a", b"s", 3, 2, 2), Err(Refusal(52)));
    assert_eq!(dialmoth::create(&mut image, b"a", b"s", 3, 2, 1), Ok(()));
    let counts = dialmoth::Counts { frames: 0, names: 0, entries: 0 };
    assert_eq!(dialmoth::open(&image), Ok(counts));
    let mut image = vec![9; 17_664];
    let short = Err(Refusal::SHORT_FOR_BLOCKS);
    for (length, answer) in [(4096, short), (17_663, short), (17_664, Ok(()))] {
        assert_eq!(dialmoth::create(&mut image[..length], b"", b"", 0, 0, 0), answer);
    }
}

fn frames_run_out() {
    let mut image = blank(512, 256, 2, 320, 1);
    put_names(&mut image, 320, [&b"a"[..]]);
    Slot::bytes(GREATEST_FRAME, 0, 384, 4).put(&mut image, 256);
    assert_eq!(dialmoth::open(&image).map(|counts| counts.frames), Ok(4_294_967_295));
    assert_eq!(dialmoth::append(&mut image, b"", 0), Err(Refusal::FRAMES_FULL));
    Slot::bytes(GREATEST_FRAME + 1, 0, 384, 4).put(&mut image, 256);
    assert_eq!(dialmoth::open(&image), Err(Refusal::LARGE_FRAME));
}

fn nans_are_refused() {
    let mut image = blank(1024, 256, 2, 320, 1);
    let before = image.clone();
    let readings = [21.5, f32::NAN, f32::INFINITY].map(f32::to_le_bytes);
    let data = readings.as_flattened();
    let probe = Row { name: b"probe", kind: Type::Float, n: 3, m: 1, data };
    for limit in [0, 1, u64::MAX] {
        let stores = dialmoth::append(&mut image, &dialmoth::sheet(&[probe]), limit);
        assert_eq!(stores, Err(Refusal::NAN_IN_SHEET));
    }
    assert_eq!(image, before);
    for row in [
        Row { kind: Type::U32, ..probe },
        Row { n: 1, data: &data[8..], ..probe },
        Row { kind: Type::Double, n: 0, data: b"", ..probe },
    ] {
        let stores = dialmoth::append(&mut image, &dialmoth::sheet(&[row]), u64::MAX);
        assert!(stores.is_ok_and(Stores::is_whole));
    }
}

fn old_files_take_none() {
    let mut image = blank(1024, 256, 2, 320, 1);
    put32(&mut image, 44, V1_0);
    let before = image.clone();
    let row = Row { name: b"a", kind: Type::U8, n: 1, m: 1, data: b"1" };
    for limit in [0, 1, u64::MAX] {
        for sheet in [dialmoth::sheet(&[row]), Vec::new()] {
            assert_eq!(dialmoth::append(&mut image, &sheet, limit), Err(Refusal(20)));
        }
    }
    assert_eq!(image, before);
}

fn copies_are_counted() {
    let mut image = blank(1024, 256, 2, 320, 1);
    for (sheet, whole, copied) in [(sheet_a(), 23, 0), (sheet_b(), 43, 1)] {
        for done in [0, 1, whole] {
            let stores = dialmoth::append(&mut image.clone(), &sheet, done);
            assert_eq!(stores, Ok(Stores { done, whole, copied }));
        }
        assert!(dialmoth::append(&mut image, &sheet, u64::MAX).is_ok_and(Stores::is_whole));
    }
}

fn turns_are_refused() {
    let mut image = blank(1024, 256, 2, 320, 1);
    assert!(dialmoth::append(&mut image, &sheet_a(), u64::MAX).is_ok_and(Stores::is_whole));
    let sheet = sheet_b();
    assert!(matches!(dialmoth::begin(&image, &sheet[1..]), Err(Refusal::ROW_COUNT)));
    let Begun { whole, copied, mut state } = dialmoth::begin(&image, &sheet).unwrap();
    assert_eq!((whole, copied), (43, 1));
    for stores in 0..=43 {
        for at in [8, 16, 24, 32] {
            let mut other = image.clone();
            other[at] ^= 1;
            for limit in [0, 1, u64::MAX] {
                let made = dialmoth::turn(&mut state, &mut other, &sheet, limit);
                assert_eq!(made, Err(Refusal::NOT_EXPECTED));
            }
        }
        let short = dialmoth::turn(&mut state, &mut image[..1023], &sheet, 1);
        assert_eq!(short, Err(Refusal::NOT_EXPECTED));
        let short = dialmoth::turn(&mut state, &mut image, &sheet[..59], 1);
        assert_eq!(short, Err(Refusal::NOT_EXPECTED));
        assert_eq!(dialmoth::open(&image).map(|counts| counts.frames), Ok(1 + stores / 43));
        assert_eq!(dialmoth::turn(&mut state, &mut image, &sheet, 1), Ok(u64::from(stores < 43)));
    }
}

fn files_are_refused() {
    let mut image = blank(1024, 256, 2, 320, 1);
    let readings = [21.5, -0.5, f32::INFINITY].map(f32::to_le_bytes);
    let probe =
        Row { name: b"probe", kind: Type::Float, n: 3, m: 1, data: readings.as_flattened() };
    let rows = [
        probe,
        Row { name: b"two", n: 1, m: 2, data: &[0; 8], ..probe },
        Row { name: b"none", n: 0, data: b"", ..probe },
        Row { name: b"bytes", kind: Type::U8, data: b"123", ..probe },
    ];
    let stores = dialmoth::append(&mut image, &dialmoth::sheet(&rows), u64::MAX);
    assert!(stores.is_ok_and(Stores::is_whole));
    let length = |name: &[u8]| dialmoth::lookup(&image, 0, name).unwrap().nchilada_length();
    let lengths = [&b"probe"[..], b"two", b"none", b"bytes"].map(length);
    assert_eq!(lengths, [Some(48), None, None, None]);
    for (name, step, refusal) in [
        (&b"other"[..], 60.0, Refusal::NO_NAME),
        (b"two", f64::NAN, Refusal::NOT_FLOATS),
        (b"bytes", f64::NAN, Refusal::NOT_FLOATS),
        (b"none", f64::NAN, Refusal::NO_ROWS),
        (b"probe", f64::NAN, Refusal::NOT_FINITE),
    ] {
        assert_eq!(dialmoth::nchilada_file(&image, 0, name, step), Err(refusal));
        assert_eq!(dialmoth::nchilada(&image, 0, name, step, &mut [0; 47]), Err(refusal));
    }
    for length in [0, 47, 49] {
        let short = dialmoth::nchilada(&image, 0, b"probe", 60.0, &mut vec![0; length]);
        assert_eq!(short, Err(Refusal::FILE_LENGTH));
    }
    let mut file = [0; 48];
    assert_eq!(dialmoth::nchilada(&image, 0, b"probe", 60.0, &mut file), Ok(()));
    assert_eq!(dialmoth::nchilada_file(&image, 0, b"probe", 60.0), Ok(file.to_vec()));
    // The third reading becomes a NaN.
    let location = dialmoth::lookup(&image, 0, b"probe").unwrap().location as usize;
    image[location + 8] = 1;
    let refused = dialmoth::nchilada_file(&image, 0, b"probe", 60.0);
    assert_eq!(refused, Err(Refusal::NAN_IN_CHUNK));
}

fn arrays_are_refused() {
    let mut image = blank(1024, 256, 2, 320, 1);
    let readings = [21.5, -0.5, f32::INFINITY].map(f32::to_le_bytes);
    let probe =
        Row { name: b"probe", kind: Type::Float, n: 3, m: 1, data: readings.as_flattened() };
    let stores = dialmoth::append(&mut image, &dialmoth::sheet(&[probe]), u64::MAX);
    assert!(stores.is_ok_and(Stores::is_whole));
    for (frame, name, refusal) in
        [(1, &b"probe"[..], Refusal::NO_FRAME), (0, b"other", Refusal::NO_NAME)]
    {
        assert_eq!(dialmoth::rawarray_file(&image, frame, name), Err(refusal));
        assert_eq!(dialmoth::rawarray_write(&image, frame, name, &mut [0; 75]), Err(refusal));
    }
    for length in [0, 75, 77] {
        let short = dialmoth::rawarray_write(&image, 0, b"probe", &mut vec![0; length]);
        assert_eq!(short, Err(Refusal::RAWARRAY_LENGTH));
    }
    let file = dialmoth::rawarray_file(&image, 0, b"probe").unwrap();
    let read = |words: &[(usize, u64)], name: &[u8]| {
        let mut file = file.clone();
        for &(at, word) in words {
            put64(&mut file, at, word);
        }
        let sheet = dialmoth::rawarray_sheet(&file, name);
        let mut lent = vec![0; sheet.as_ref().map_or(0, Vec::len)];
        let answer = dialmoth::rawarray_read(&file, name, &mut lent);
        assert_eq!(answer.map(|()| lent), sheet);
        sheet
    };
    let sheet = dialmoth::sheet(&[probe]);
    assert_eq!(read(&[], b"probe"), Ok(sheet.clone()));
    for (words, refusal) in [
        (&[(0, 0)][..], Refusal::RAWARRAY_MAGIC),
        (&[(8, 1)], Refusal::RAWARRAY_FLAGS),
        (&[(16, 4), (24, 8)], Refusal::RAWARRAY_TYPE),
        (&[(40, 3)], Refusal::RAWARRAY_DIMENSIONS),
        (&[(32, 13)], Refusal::RAWARRAY_DATA),
        (&[(32, u64::MAX)], Refusal::RAWARRAY_DATA),
        (&[(32, 0), (48, 1 << 32), (56, 0)], Refusal::RAWARRAY_COLUMNS),
    ] {
        assert_eq!(read(words, b""), Err(refusal));
    }
    for name in [&b""[..], b"pro\0be", &[b'n'; 256]] {
        assert_eq!(read(&[], name), Err(Refusal::RAWARRAY_NAME));
    }
    let short = dialmoth::rawarray_sheet(&file[..47], b"");
    assert_eq!(short, Err(Refusal::RAWARRAY_SHORT));
    for length in [0, 36, 38] {
        let short = dialmoth::rawarray_read(&file, b"probe", &mut vec![0; length]);
        assert_eq!(short, Err(Refusal::RAWARRAY_SHEET));
    }
    // A NaN is read, and refused by the append.
    assert!(dialmoth::append(&mut image, &sheet, u64::MAX).is_ok_and(Stores::is_whole));
    let nan = f32::NAN.to_bits().into();
    let sheet = read(&[(40, 1), (48, 3), (56, nan)], b"probe").unwrap();
    let stores = dialmoth::append(&mut image, &sheet, u64::MAX);
    assert_eq!(stores, Err(Refusal::NAN_IN_SHEET));
}

fn characters_come_back_as_bytes() {
    let mut image = blank(1024, 256, 2, 320, 1);
    let note = Row { name: b"note", kind: Type::Character, n: 2, m: 4, data: b"dooropen" };
    let sheet = dialmoth::sheet(&[note]);
    let stores = dialmoth::append(&mut image, &sheet, u64::MAX);
    assert!(stores.is_ok_and(Stores::is_whole));
    let file = dialmoth::rawarray_file(&image, 0, b"note").unwrap();
    let mut older = blank(1024, 256, 2, 320, 1);
    put32(&mut older, 44, V2_0);
    assert_eq!(dialmoth::append(&mut older, &sheet, u64::MAX), Err(Refusal::BAD_ROW));
    let sheet = dialmoth::rawarray_sheet(&file, b"again").unwrap();
    assert_eq!(sheet, dialmoth::sheet(&[Row { name: b"again", kind: Type::U8, ..note }]));
    let stores = dialmoth::append(&mut older, &sheet, u64::MAX);
    assert!(stores.is_ok_and(Stores::is_whole));
    assert_eq!(dialmoth::chunk(&older, 0, b"again"), Ok(note.data));
}
