//! The random groups of the driver. Each is a round that a seed repeats.

use crate::ask::Ask;
use crate::check::{names_of, Check, ODD_NAMES};
use crate::demand3::{Call, Run};
use crate::generate::{self, Layout};
use crate::images::{
    array_length, blank, frames_to_ask, get64, put32, put64, put_names, put_slots, segments_for,
    sheet, version, Row, Slot, GROWING, MAGIC, SEGMENT, V1_0, V2_1, VERSIONS,
};
use crate::library::{Create, Library, Reference, STATE_WORDS};
use crate::moving::{self, Moving};
use crate::random::Rng;
use crate::readers;
use crate::turns;

pub struct Group {
    pub name: &'static str,
    /// Rounds without a time given; 1 for a group that is not random.
    pub rounds: u64,
    pub round: fn(&mut Check, &mut Rng),
}

const fn group(name: &'static str, rounds: u64, round: fn(&mut Check, &mut Rng)) -> Group {
    Group { name, rounds, round }
}

pub const GROUPS: &[Group] = &[
    group("lengths from 0 to 300", 1, lengths),
    group("create", 20_000, create),
    group("fresh images of many shapes", 3000, fresh),
    group("random runs of appends", 6000, runs),
    group("every limit of small appends", 300, every_limit),
    group("images built field by field", 12_000, odd),
    group("frames far apart", 20_000, far_frames),
    group("fields near borders", 60_000, bent),
    group("one to three damaged bytes", 60_000, damaged),
    group("random bytes", 10_000, random_bytes),
    group("damaged sheets", 40_000, sheets),
    group("many names", 100, many_names),
    group("many rows", 200, many_rows),
    group("a night of appends", 20, night),
    group("a long index", 10, long_index),
    group("the longest slices", 1, longest),
    group("a run of appends, word for word", 1000, demand3),
    group("a run of appends over gaps, word for word", 500, gap_runs),
    group("searches in lists of many lengths", 400, searches),
    group("sheets with NaNs", 6000, nan_sheets),
    group("images with NaNs", 3000, nan_images),
    group("names in segments", 8000, segments),
    group("entries in the order of writing", 8000, written),
    group("a run of appends to 1.0, word for word", 1000, old_runs),
    group("slices about as long as an append needs", 2000, just_long),
    group("appends to older images", 2000, older),
    group("a run of appends to older images, word for word", 500, older_runs),
    group("whole appends that move the index", 4000, moves),
    group("appends in turns", 20_000, turns::under_premise),
    group("turns between which others write", 20_000, turns::without_premise),
    group("turns on torn and swapped states", 20_000, turns::torn_states),
    group("readers of images as they are", 8000, readers::as_they_are),
    group("readers of earlier moments", 800, readers::of_earlier_moments),
    group("any words as a reader", 6000, readers::any_words),
    group("NChilada files", 150_000, nchilada),
    group("RawArray files of chunks", 60_000, arrays_written),
    group("RawArray files as sheets", 200_000, arrays_read),
];

/// Every call once, on whatever the image is.
fn touch(check: &mut Check, sheet: &[u8], limit: u64) {
    check.open();
    check.name(0);
    check.entry(0);
    // And probes with it.
    check.lookup(0, b"a");
    check.chunk(0, b"a");
    check.element(0, b"a", 0);
    check.nchilada(0, b"a", 1.0, 40);
    check.rawarray_write(0, b"a", 74);
    let image = check.image().to_vec();
    check.rawarray_read(&image, b"a", 31);
    check.append(sheet, limit);
}

fn lengths(check: &mut Check, rng: &mut Rng) {
    let sheet = sheet(&[Row::bytes(b"a", b"1234567890")]);
    let mut whole = blank(400, 256, 0, 256, 0);
    for length in 0..=300 {
        put32(&mut whole, 44, VERSIONS[length % 3]);
        for (index, names) in [(256, 256), (length as u64, 256), (256, length as u64)] {
            put64(&mut whole, 8, index);
            put64(&mut whole, 24, names);
            check.load(&whole[..length]);
            check.read_all(&[b"a".to_vec()]);
            touch(check, &sheet, u64::MAX);
        }
        check.load(&vec![0; length]);
        touch(check, &sheet, u64::MAX);
        check.load(&rng.bytes(length));
        touch(check, &sheet, u64::MAX);
        for (slots, segments) in [(0, 0), (1, 1), (1, 0), (65_536, 65_536), (65_537, 1)] {
            let text = &whole[..length.min(70)];
            for (application, schema) in [(&b""[..], &b"s"[..]), (text, b""), (b"", text)] {
                check.load(&vec![7; length]);
                let schema_version = length as u32;
                check.create(Create { application, schema, schema_version, slots, segments });
            }
        }
        // Sheets of all lengths too.
        check.load(&blank(1024, 256, 2, 320, 1));
        check.append(&whole[..length], 5);
        check.append(&vec![1; length], 5);
        check.append(&[&[1, 0, 0, 0], &vec![1; length][..]].concat(), 5);
    }
}

fn create(check: &mut Check, rng: &mut Rng) {
    let text = |rng: &mut Rng| {
        let length = rng.pick(&[0, 1, 8, 30, 62, 63, 64, 65, 200]);
        let mut text: Vec<_> = (0..length).map(|_| rng.byte().max(1)).collect();
        if length > 0 && rng.chance(15) {
            let at = rng.below(length);
            text[at] = 0;
        }
        text
    };
    let (application, schema) = (text(rng), text(rng));
    let count = |rng: &mut Rng| match rng.below(6) {
        0 => rng.border(),
        1 => rng.pick(&[65_535, 65_536, 65_537]),
        2 => 0,
        _ => rng.below(40) as u64,
    };
    let (slots, segments) = (count(rng), count(rng));
    let or = |count: u64, default: u64| if count == 0 { default } else { count };
    let index_end = 256 + 32 * or(slots.min(200), 512);
    let need = (index_end.next_multiple_of(64) + 64 * or(segments.min(200), 16)) as usize;
    let length = match rng.below(6) {
        0 => rng.below(need + 1),
        1 => need - rng.below(65),
        2 => need,
        _ => need + rng.below(200),
    };
    check.load(&rng.bytes(length));
    let schema_version = rng.number() as u32;
    let request =
        Create { application: &application, schema: &schema, schema_version, slots, segments };
    if check.create(request).is_some() {
        check.open();
        // What is made can be appended to, with the defaults for slots and segments too.
        if rng.chance(20) {
            let rows = generate::rows(rng, version(check.image()), &[]);
            check.append(&sheet(&rows), generate::limit(rng));
            check.read_all(&names_of(&rows));
        }
    }
}

fn fresh(check: &mut Check, rng: &mut Rng) {
    check.load(&generate::fresh(rng));
    check.read_all(&[]);
    let rows = generate::rows(rng, version(check.image()), &[]);
    if check.append(&sheet(&rows), u64::MAX).is_some() {
        check.read_all(&names_of(&rows));
    }
}

/// An image that opens, mostly of a version that takes appends.
fn start(rng: &mut Rng) -> (Vec<u8>, Vec<Vec<u8>>) {
    match rng.below(10) {
        0..4 => (generate::fresh(rng), Vec::new()),
        4 => generate::older(rng),
        _ => {
            let version = generate::some_version(rng, 10);
            start_of(rng, version)
        }
    }
}

fn start_of(rng: &mut Rng, version: u32) -> (Vec<u8>, Vec<Vec<u8>>) {
    let Layout { mut image, names, .. } = generate::odd_of(rng, version);
    if rng.chance(80) {
        let room = rng.pick(&[200, 1000, 4000]);
        image.extend(rng.bytes(room));
    }
    (image, names)
}

fn runs(check: &mut Check, rng: &mut Rng) {
    let start = start(rng);
    appends(check, rng, start);
}

fn older(check: &mut Check, rng: &mut Rng) {
    let start = generate::older(rng);
    appends(check, rng, start);
}

fn appends(check: &mut Check, rng: &mut Rng, (image, mut known): (Vec<u8>, Vec<Vec<u8>>)) {
    check.load(&image);
    check.read_all(&known);
    for _ in 0..rng.between(2, 8) {
        let rows = generate::rows(rng, version(&image), &known);
        let limit = generate::limit(rng);
        if let Some([_, whole, _]) = check.append(&sheet(&rows), limit) {
            known.extend(names_of(&rows));
            known.sort();
            known.dedup();
            if rng.chance(30) {
                // Again, after the stop, and from its middle.
                check.append(&sheet(&rows), rng.number() % (whole + 1));
            }
        }
        known.truncate(12);
        check.read_all(&known);
    }
}

/// An append into as many bytes as it needs, one less, and those about the multiples of 64.
fn just_long(check: &mut Check, rng: &mut Rng) {
    let (mut image, known) = match rng.below(4) {
        0 => (generate::growing(rng), Vec::new()),
        1 => generate::grown(rng),
        2 => generate::older(rng),
        _ => start(rng),
    };
    image.extend(rng.bytes(4096));
    let mut rows = generate::rows(rng, version(&image), &known);
    rows.truncate(4);
    let sheet = sheet(&rows);
    check.load(&image);
    if check.append(&sheet, 0).is_none() {
        return;
    }
    let needed = generate::shortest(&image, |part| Reference.after(part, &sheet, 0).1.is_ok());
    let multiple = needed.next_multiple_of(64);
    let any = needed - rng.below(65);
    for length in [any, needed - 1, needed, multiple - 1, multiple] {
        check.load(&image[..length]);
        check.append(&sheet, generate::limit(rng));
        check.append(&sheet, u64::MAX);
        check.read_all(&names_of(&rows));
    }
}

fn every_limit(check: &mut Check, rng: &mut Rng) {
    let (image, mut known) = start(rng);
    let mut rows = generate::rows(rng, version(&image), &known);
    rows.truncate(3);
    let sheet = sheet(&rows);
    known.extend(names_of(&rows));
    check.load(&image);
    let Some([_, whole, _]) = check.append(&sheet, 0) else {
        return;
    };
    let mut next = generate::rows(rng, version(&image), &known);
    next.truncate(2);
    let next = crate::images::sheet(&next);
    for limit in 0..=whole + 1 {
        check.load(&image);
        check.append(&sheet, limit);
        check.read_all(&known);
        // The stopped append again, or another one, finds clean lists.
        let again = if rng.chance(50) { &sheet } else { &next };
        check.append(again, u64::MAX);
        check.read_all(&known);
    }
}

fn odd(check: &mut Check, rng: &mut Rng) {
    let Layout { image, names, .. } = generate::odd(rng);
    check.load(&image);
    check.read_all(&names);
    let rows = generate::rows(rng, version(&image), &names);
    check.append(&sheet(&rows), generate::limit(rng));
    check.read_all(&names_of(&rows));
}

fn changed(check: &mut Check, rng: &mut Rng, layout: Layout) {
    check.load(&layout.image);
    if check.open().is_some() {
        check.read_all(&layout.names);
    }
    let mut rows = generate::rows(rng, version(&layout.image), &layout.names);
    rows.truncate(3);
    touch(check, &sheet(&rows), generate::limit(rng));
    check.open();
}

fn bent(check: &mut Check, rng: &mut Rng) {
    let mut layout = generate::odd(rng);
    layout.bend(rng);
    changed(check, rng, layout);
}

/// Entries in the first frames, the last ones or far behind, with appends of good and bad sheets.
fn far_frames(check: &mut Check, rng: &mut Rng) {
    let mut layout = generate::spread(rng);
    if rng.chance(40) {
        layout.bend(rng);
    }
    check.load(&layout.image);
    check.read_all(&layout.names);
    for _ in 0..2 {
        let mut rows = generate::rows(rng, version(&layout.image), &layout.names);
        rows.truncate(3);
        let sheet = match rng.below(5) {
            0 => Vec::new(),
            1 => generate::damaged_sheet(rng, &rows),
            _ => sheet(&rows),
        };
        if check.append(&sheet, generate::limit(rng)).is_some() {
            check.read_all(&names_of(&rows));
        }
    }
}

fn damaged(check: &mut Check, rng: &mut Rng) {
    let mut layout = generate::odd(rng);
    layout.damage(rng);
    changed(check, rng, layout);
}

fn random_bytes(check: &mut Check, rng: &mut Rng) {
    let length = rng.pick(&[0, 100, 256, 257, 300, 384, 500, 1000]) + rng.below(64);
    let mut image = rng.bytes(length);
    // Random bytes fall at the magic; repair as many fields as get them further.
    let repaired = rng.below(6);
    if length >= 256 && repaired > 0 {
        image[..8].copy_from_slice(&MAGIC);
        let odd = generate::odd_version(rng);
        put32(&mut image, 44, if repaired > 1 { rng.pick(&VERSIONS) } else { odd });
        if repaired > 2 {
            for (at, unit) in [(8, 32), (24, 64)] {
                put64(&mut image, at, rng.below(length + 64) as u64);
                put64(&mut image, at + 8, rng.below(length / unit) as u64);
            }
        }
        if repaired > 3 {
            let index = 256 + rng.below(length - 255);
            let slots = rng.below((length - index) / 32 + 1);
            let names = index + 32 * slots;
            let segments = rng.below((length - names) / 64 + 1);
            for (at, number) in [(8, index), (16, slots), (24, names), (32, segments)] {
                put64(&mut image, at, number as u64);
            }
            if repaired > 4 {
                image[index..names + 64 * segments].iter_mut().for_each(|byte| *byte &= 3);
            }
        }
    }
    check.load(&image);
    check.read_all(&[b"\x01".to_vec()]);
    touch(check, &rng.bytes(length % 90), u64::MAX);
    let rows = generate::rows(rng, version(&image), &[]);
    touch(check, &sheet(&rows), generate::limit(rng));
}

fn sheets(check: &mut Check, rng: &mut Rng) {
    let (image, known) = start(rng);
    check.load(&image);
    for _ in 0..3 {
        let rows = generate::rows(rng, version(&image), &known);
        let sheet = match rng.below(4) {
            0 => generate::bent_sheet(rng, rows),
            1 => rng.bytes(rows.len() * 20),
            _ => generate::damaged_sheet(rng, &rows),
        };
        check.append(&sheet, generate::limit(rng));
        check.open();
    }
}

/// Around 1,024 names, and around the end of a block full of them.
fn many_names(check: &mut Check, rng: &mut Rng) {
    let count = rng.between(1019, 1027);
    let version = generate::some_version(rng, 50);
    let mut names: Vec<_> = (0..count).map(|n| format!("n{n:06}").into_bytes()).collect();
    if rng.chance(30) {
        let (a, b) = (rng.below(count), rng.below(count));
        names[a] = names[b].clone();
    }
    let segments = segments_for(version, &names) + rng.below(2);
    let length = 384 + SEGMENT * segments;
    let mut image = blank(length, 256, 4, 384, segments as u64);
    put32(&mut image, 44, version);
    let end = put_names(&mut image, 384, names.iter().map(Vec::as_slice));
    if rng.chance(30) {
        image[end..].fill(b'x');
        if rng.chance(50) && end < length {
            image[length - 1] = 0;
        }
    }
    if version == V1_0 {
        old_names(rng, &mut image, count);
    }
    image.extend(vec![0xEE; 25_000]);
    check.load(&image);
    check.open();
    for n in [0, 1, 1000, 1023, 1024, count as u64] {
        check.name(n);
    }
    let known = if rng.chance(50) { &names[..] } else { &[] };
    let mut rows = generate::rows(rng, version, known);
    // Often just one name too many.
    let one_more = 1025_usize.saturating_sub(count).max(1);
    rows.truncate(rng.pick(&[8, one_more]));
    if check.append(&sheet(&rows), u64::MAX).is_some() {
        for row in &rows {
            check.read(0, &row.name);
        }
    }
    check.append(&sheet(&rows), generate::limit(rng));
    check.open();
    for row in generate::chunk_rows(&image) {
        check.read(0, &row.name);
    }
    // 30 goes before 28.
    let rows = generate::border_rows(rng, version, known);
    check.append(&sheet(&rows), generate::limit(rng));
}

/// Many segments of 1.0: bytes behind the names, now and then an end or one that is not closed, near
/// the 1,024th or anywhere; and a frame whose ids differ in their high bits alone, or not at all.
fn old_names(rng: &mut Rng, image: &mut [u8], count: usize) {
    for segment in image[384..][..SEGMENT * count].chunks_mut(SEGMENT) {
        segment[8..].fill(rng.pick(&[0, b'z']));
    }
    let first = rng.pick(&[0, 1018, count - 1]);
    let at = 384 + SEGMENT * rng.between(first, count - 1);
    match rng.below(4) {
        0 => image[at..][..SEGMENT].fill(b'u'),
        1 => image[at] = 0,
        _ => {}
    }
    let (low, end) = (rng.below(64), image.len() as u64);
    for slot in 0..rng.below(5) {
        let id = low + rng.pick(&[0, 64, 128, 256, 320, 512, 768]);
        Slot::bytes(0, id as u16, end, 4).put(image, 256 + 32 * slot);
    }
}

/// Sheets of up to 65 rows, that double both blocks more than once.
fn many_rows(check: &mut Check, rng: &mut Rng) {
    check.load(&Vec::from_iter(generate::growing(rng).into_iter().chain(vec![0x77; 40_000])));
    for _ in 0..2 {
        let count = rng.pick(&[1, 31, 32, 33, 62, 63, 64, 65]);
        let mut rows: Vec<_> = (0..count)
            .map(|n| {
                let name = format!("{}row {n}", "x".repeat(rng.below(40))).into_bytes();
                generate::row(rng, version(check.image()), name)
            })
            .collect();
        for _ in 0..count {
            let (a, b) = (rng.below(count), rng.below(count));
            rows.swap(a, b);
        }
        // One of them large.
        let length = rng.below(20_000);
        rows[0] = Row::bytes(b"large", &rng.bytes(length));
        let sheet = sheet(&rows);
        if let Some([_, whole, _]) = check.append(&sheet, 0) {
            check.append(&sheet, rng.number() % whole);
            check.append(&sheet, u64::MAX);
        }
        check.open();
        for n in 0..count as u64 {
            check.entry(n);
            check.name(n);
        }
        for row in rows.iter().take(10) {
            check.read(0, &row.name);
            check.read(1, &row.name);
        }
    }
}

/// Appends one after the other to one image, whole and stopped, until it is full: blocks move again
/// and again.
fn night(check: &mut Check, rng: &mut Rng) {
    let room = rng.between(20_000, 60_000);
    check.load(&Vec::from_iter(generate::growing(rng).into_iter().chain(rng.bytes(room))));
    let known = generate::names(rng, 10);
    let mut full = 0;
    while full < 5 {
        let rows = generate::rows(rng, version(check.image()), &known);
        let limit = if rng.chance(80) { u64::MAX } else { generate::limit(rng) };
        if check.append(&sheet(&rows), limit).is_none() {
            full += 1;
        }
        if let Some([frames, ..]) = check.open() {
            let frame = rng.below(frames as usize + 1) as u64;
            check.read(frame, &known[rng.below(known.len())]);
            check.entry(rng.number() % 1000);
        }
    }
}

/// So many frames, each the next, or with some left out before it.
fn rising(rng: &mut Rng, count: usize) -> Vec<u64> {
    let most = rng.pick(&[0, 0, 1, 3, 1_000_000]);
    let mut next = 0;
    let frame = |_| {
        next += rng.below(most + 1) as u64 + 1;
        next - 1
    };
    (0..count).map(frame).collect()
}

/// Up to 16 names, and an image with these frames of them: all are in all frames, or some are
/// missing anywhere. Behind the list are up to two more slots.
fn indexed(rng: &mut Rng, frames: &[u64], names: usize) -> (Vec<Vec<u8>>, Vec<u8>) {
    let listed: Vec<_> = (0..names).map(|n| format!("name {n:02}").into_bytes()).collect();
    let version = rng.pick(&VERSIONS);
    let percent = rng.pick(&[0, 50, 90, 100]);
    let mut entries = Vec::with_capacity(frames.len() * names + 2);
    for &frame in frames {
        let at_least = rng.below(names);
        for id in 0..names {
            if id == at_least || rng.chance(percent) {
                entries.push(Slot::bytes(frame, id as u16, 0, 4));
            }
        }
    }
    if version == V1_0 {
        generate::shuffle_frames(rng, &mut entries, |entry| entry.frame);
    }
    let slots = entries.len() + rng.below(3);
    let segments = segments_for(version, &listed);
    let data = 256 + 32 * slots + SEGMENT * segments;
    for entry in &mut entries {
        entry.location = data as u64 + entry.frame % 4000;
    }
    // The list's end, and a leftover that would be lawful.
    let next = Slot::bytes(frames.last().map_or(0, |last| last + 1), 0, data as u64, 4);
    entries.extend([Slot { location: 0, ..next }, next]);
    let list = data - SEGMENT * segments;
    let mut image = blank(data + 4096, 256, slots as u64, list as u64, segments as u64);
    put32(&mut image, 44, version);
    put_slots(&mut image, 256, &entries[..slots]);
    put_names(&mut image, list, listed.iter().map(Vec::as_slice));
    (listed, image)
}

/// Every name in every frame that has chunks, and beside them.
fn searches(check: &mut Check, rng: &mut Rng) {
    let count = rng.below(24);
    let frames = rising(rng, count);
    let names = rng.between(1, 16);
    let (listed, image) = indexed(rng, &frames, names);
    check.load(&image);
    let behind = frames.last().map_or(0, |last| last + 1);
    for frame in frames_to_ask(&frames, behind + 1) {
        for name in listed.iter().map(Vec::as_slice).chain([&b"no such name"[..]]) {
            check.lookup(frame, name);
        }
    }
}

/// Thousands of entries, with something wrong near their end or not.
fn long_index(check: &mut Check, rng: &mut Rng) {
    let count = rng.between(1000, 2500);
    let (frames, names) = (rising(rng, count), 16);
    let (listed, mut image) = indexed(rng, &frames, names);
    let slots = get64(&image, 16) as usize;
    check.load(&image);
    check.open();
    for frame in [0, frames[0], frames[count - 1]] {
        check.lookup(frame, &listed[0]);
        check.lookup(frame, &listed[names - 1]);
    }
    for _ in 0..40 {
        let frame = rng.pick(&frames) + rng.below(3) as u64;
        check.read(frame, &listed[rng.below(names)]);
        check.entry(rng.below(slots + 2) as u64);
    }
    check.append(&sheet(&[Row::bytes(b"name 03", b"12345"), Row::bytes(b"new", b"")]), u64::MAX);
    for _ in 0..10 {
        let at = 256 + 32 * rng.between(slots - 20, slots - 1);
        image[at + rng.below(32)] ^= 1 << rng.below(8);
        check.load(&image);
        check.open();
        check.lookup(3, b"name 03");
    }
}

/// Slices of 1,073,741,824 bytes and one more. Only the pages that are written take memory, so
/// they are not copied, and the bytes around what is stored are compared.
fn longest(check: &mut Check, _: &mut Rng) {
    const LONGEST: usize = 1 << 30;
    /// More than create writes.
    const HEAD: usize = 7 << 20;
    let library = check.library();
    let mut pair = [vec![0; LONGEST + 1], vec![0; LONGEST + 1]];
    let [theirs, ours] = &mut pair;
    let both = |check: &mut Check, what: &str, a: (u64, &[u64]), b: (u64, &[u64])| {
        check.comparisons += 1;
        if a != b {
            check.fail(|| format!("{what} on a long slice: {a:?}, expected {b:?}"));
        }
    };
    let (index, names) = (LONGEST - 4096, LONGEST - 2048);
    let request = Create {
        application: b"a",
        schema: b"s",
        schema_version: 0,
        slots: 65_536,
        segments: 65_536,
    };
    for length in [LONGEST, LONGEST + 1] {
        let (theirs, ours) = (&mut theirs[..length], &mut ours[..length]);
        let a = library.create(theirs, request);
        let b = Reference.create(ours, request);
        both(check, "create", (a, &[]), (b, &[]));
        if theirs[..HEAD] != ours[..HEAD] {
            check.fail(|| "create on a long slice: other bytes".into());
        }
        let sheet = sheet(&[Row::bytes(b"c", &[9; 505])]);
        // As one call and in turns.
        for (version, limit, joined) in [
            (V1_0, 3, true),
            (V1_0, 3, false),
            (V2_1, 3, true),
            (V2_1, 3, false),
            (V2_1, u64::MAX, true),
            (V2_1, u64::MAX, false),
        ] {
            for image in [&mut *theirs, &mut *ours].into_iter().filter(|_| limit == 3) {
                // Both blocks near the end, a chunk shortly before it, one from far below.
                crate::images::header(image, index as u64, 4, names as u64, 2);
                put32(image, 44, version);
                image[names..names + 128].fill(0);
                put_names(image, names, [&b"a"[..], b"b"]);
                let mut slots = [
                    Slot::bytes(0, 0, 256, (index - 256) as u64),
                    Slot { n: 125, kind: 9, ..Slot::bytes(0, 1, (LONGEST - 1024) as u64, 0) },
                ];
                if version == V1_0 {
                    slots.reverse();
                }
                put_slots(image, index, &slots);
            }
            let (mut x, mut y) = ([5; 3], [5; 3]);
            let (a, b) = (library.open(theirs, &mut x), Reference.open(ours, &mut y));
            both(check, "open", (a, &x), (b, &y));
            // One that is opened, or as it would be.
            let mut reader = [1, 2, 2, index as u64, names as u64, 128, version.into(), 0];
            if version != V1_0 {
                reader[5] = 4;
            }
            let (mut x, mut y) = (reader, reader);
            let (a, b) = (library.reader_open(theirs, &mut x), Reference.reader_open(ours, &mut y));
            both(check, "reader_open", (a, &x), (b, &y));
            for frame in [0, 1] {
                let (mut x, mut y) = ([5; 7], [5; 7]);
                let a = library.reader_newest(&reader, theirs, frame, 0, &mut x);
                let b = Reference.reader_newest(&reader, ours, frame, 0, &mut y);
                both(check, "reader_newest", (a, &x), (b, &y));
            }
            for last in [(index - 257) as u64, (index - 256) as u64] {
                let (mut x, mut y) = ([5; 2], [5; 2]);
                let a = library.reader_element(&reader, theirs, 0, b"a", last, &mut x);
                let b = Reference.reader_element(&reader, ours, 0, b"a", last, &mut y);
                both(check, "reader_element", (a, &x), (b, &y));
            }
            let (mut x, mut y) = ([5; 2], [5; 2]);
            let a = library.chunk(theirs, 0, b"a", &mut x);
            let b = Reference.chunk(ours, 0, b"a", &mut y);
            both(check, "chunk", (a, &x), (b, &y));
            let last = (index - 257) as u64;
            let a = library.element(theirs, 0, b"a", last, &mut x);
            let b = Reference.element(ours, 0, b"a", last, &mut y);
            both(check, "element", (a, &x), (b, &y));
            let (mut x, mut y) = ([5], [5]);
            let a = library.probes(theirs, 0, b"b", &mut x);
            let b = Reference.probes(ours, 0, b"b", &mut y);
            both(check, "probes", (a, &x), (b, &y));
            let (mut x, mut y) = ([5; 536], [5; 536]);
            let a = library.nchilada(theirs, 0, b"b", 60.0, &mut x);
            let b = Reference.nchilada(ours, 0, b"b", 60.0, &mut y);
            both(check, "nchilada", (a, &x.map(u64::from)), (b, &y.map(u64::from)));
            let (mut x, mut y) = ([5; 564], [5; 564]);
            let a = library.rawarray_write(theirs, 0, b"b", &mut x);
            let b = Reference.rawarray_write(ours, 0, b"b", &mut y);
            both(check, "rawarray_write", (a, &x.map(u64::from)), (b, &y.map(u64::from)));
            if joined {
                let (mut x, mut y) = ([5; 3], [5; 3]);
                let a = library.append(theirs, &sheet, limit, &mut x);
                let b = Reference.append(ours, &sheet, limit, &mut y);
                both(check, "append", (a, &x), (b, &y));
            } else {
                let mut states = [[5; STATE_WORDS]; 2];
                let [their_state, our_state] = &mut states;
                let (mut x, mut y) = ([5; 2], [5; 2]);
                let a = library.begin(theirs, &sheet, their_state, &mut x);
                let b = Reference.begin(ours, &sheet, our_state, &mut y);
                both(check, "begin", (a, &x), (b, &y));
                for limit in [1, limit - 1, 1] {
                    let (mut x, mut y) = ([5], [5]);
                    let a = library.turn(their_state, theirs, &sheet, limit, &mut x);
                    let b = Reference.turn(our_state, ours, &sheet, limit, &mut y);
                    both(check, "turn", (a, &x), (b, &y));
                }
            }
            if theirs[..HEAD] != ours[..HEAD] || theirs[index - 64..] != ours[index - 64..] {
                check.fail(|| "append on a long slice: other bytes".into());
            }
        }
    }
    // No RawArray file is too long: with little data, as much as there is, and a byte more.
    theirs[..8].copy_from_slice(b"rawarray");
    for (length, more) in [(24, 0), (LONGEST + 1 - 56, 0), (LONGEST + 1 - 56, 1)] {
        let words = [0, 2, 1, length + more, 1, length + more];
        for (n, word) in words.into_iter().enumerate() {
            put64(theirs, 8 * (n + 1), word as u64);
        }
        let (mut x, mut y) = ([5; 45], [5; 45]);
        let a = library.rawarray_read(theirs, b"a", &mut x);
        let b = Reference.rawarray_read(theirs, b"a", &mut y);
        both(check, "rawarray_read", (a, &x.map(u64::from)), (b, &y.map(u64::from)));
    }
}

/// NaNs, and what is next to them, in sheets that may have other faults, for images that may too.
fn nan_sheets(check: &mut Check, rng: &mut Rng) {
    let (image, known) = match rng.below(8) {
        0 => {
            let mut layout = generate::odd(rng);
            layout.bend(rng);
            (layout.image, layout.names)
        }
        1 => generate::gapped(rng),
        2..=4 => generate::grown(rng),
        _ => start(rng),
    };
    check.load(&image);
    for _ in 0..3 {
        let rows = generate::border_rows(rng, version(&image), &known);
        let names = names_of(&rows);
        let sheet = match rng.below(6) {
            0 | 1 => generate::bent_sheet(rng, rows),
            2 => generate::damaged_sheet(rng, &rows),
            _ => sheet(&rows),
        };
        for limit in [0, 1, generate::limit(rng)] {
            check.append(&sheet, limit);
        }
        check.read_all(&names);
    }
}

/// Images that hold NaNs: they read as before and take sheets without NaNs; of their own chunks, as
/// rows again, some are refused.
fn nan_images(check: &mut Check, rng: &mut Rng) {
    let (mut image, mut known) = match rng.below(2) {
        0 => generate::grown(rng),
        _ => start(rng),
    };
    generate::put_borders(rng, &mut image);
    check.load(&image);
    check.read_all(&known);
    for row in generate::chunk_rows(&image) {
        check.append(&sheet(&[row]), 0);
    }
    let rows = generate::rows(rng, version(&image), &known);
    check.append(&sheet(&rows), generate::limit(rng));
    known.extend(names_of(&rows));
    check.read_all(&known);
}

fn demand3(check: &mut Check, rng: &mut Rng) {
    let start = start(rng);
    run_from(check, rng, start);
}

fn gap_runs(check: &mut Check, rng: &mut Rng) {
    let start = generate::gapped(rng);
    run_from(check, rng, start);
}

fn old_runs(check: &mut Check, rng: &mut Rng) {
    let start = start_of(rng, V1_0);
    run_from(check, rng, start);
}

fn older_runs(check: &mut Check, rng: &mut Rng) {
    let start = generate::older(rng);
    run_from(check, rng, start);
}

fn run_from(check: &mut Check, rng: &mut Rng, (mut image, known): (Vec<u8>, Vec<Vec<u8>>)) {
    if rng.chance(25) {
        generate::put_borders(rng, &mut image);
    }
    let version = version(&image);
    let mut calls = Vec::new();
    for _ in 0..rng.between(1, 6) {
        let mut rows = generate::rows(rng, version, &known);
        rows.truncate(3);
        let sheet = match rng.below(8) {
            0 => generate::damaged_sheet(rng, &rows),
            _ => sheet(&rows),
        };
        calls.push(Call::new(version, sheet, generate::limit(rng)));
        // Beside the others, so that a run is as long without those that are refused.
        if rng.chance(40) {
            let mut rows = generate::border_rows(rng, version, &known);
            rows.truncate(3);
            calls.push(Call::new(version, crate::images::sheet(&rows), generate::limit(rng)));
        }
    }
    match Run::make(check.library(), &image, &calls) {
        Ok(moments) => check.moments += moments,
        Err(what) => check.fail(|| what),
    }
}

/// Whole appends one after the other, so that the index moves again and again, and refused ones among
/// them: what they copy, added up.
fn moves(check: &mut Check, rng: &mut Rng) {
    let (mut image, known) = match rng.below(5) {
        0 | 1 => (generate::growing(rng), Vec::new()),
        2 => generate::older(rng),
        3 => {
            let version = rng.pick(&GROWING);
            start_of(rng, version)
        }
        _ => start(rng),
    };
    let room = rng.pick(&[0, 2000, 20_000]);
    image.extend(rng.bytes(room));
    check.load(&image);
    let mut run = Moving::from(&image);
    for _ in 0..rng.between(3, 30) {
        let mut rows = match rng.below(8) {
            0 => generate::border_rows(rng, version(&image), &known),
            _ => generate::rows(rng, version(&image), &known),
        };
        rows.truncate(rng.pick(&[1, 1, 2, 64]));
        let sheet = match rng.below(8) {
            0 => generate::damaged_sheet(rng, &rows),
            _ => sheet(&rows),
        };
        check.append(&sheet, 0);
        let before = check.image().to_vec();
        // The plain implementation's, with which the library's has been compared.
        let copied = check.append(&sheet, u64::MAX).map_or(0, |[_, _, copied]| copied);
        let expected = moving::copied(&before, check.image());
        if copied != expected {
            check.fail(|| format!("{copied} entries copied, expected {expected}"));
        }
        if let Err(what) = run.add(&before, check.image(), copied) {
            check.fail(|| what);
        }
    }
    check.open();
}

/// Name blocks of 1.0, lawful or not; all names that may be read there are asked for.
fn segments(check: &mut Check, rng: &mut Rng) {
    let count = rng.between(1, 6);
    let block = generate::any_segments(rng, count);
    let version = generate::some_version(rng, 90);
    let slots = rng.below(4);
    let names = 256 + 32 * slots;
    let (behind, data) = (names + block.len(), names + block.len() + SEGMENT);
    let mut image = blank(data + 96, 256, slots as u64, names as u64, count as u64);
    put32(&mut image, 44, version);
    image[names..behind].copy_from_slice(&block);
    if rng.chance(30) {
        generate::put_segment(rng, &mut image[behind..data], b"behind the block");
    }
    let ids = rng.between(1, count);
    for slot in 0..rng.below(slots + 1) {
        let id = rng.below(ids) as u16;
        Slot::bytes(slot as u64 / 2, id, data as u64, 4).put(&mut image, 256 + 32 * slot);
    }
    check.load(&image);
    // Up to a zero, in their segment or not, or all of it.
    let until_zero =
        |text: &[u8]| text.iter().position(|&byte| byte == 0).map(|at| text[..at].to_vec());
    let asked: Vec<_> = (0..block.len())
        .step_by(SEGMENT)
        .flat_map(|at| [until_zero(&block[at..]), Some(block[at..at + SEGMENT].to_vec())])
        .flatten()
        .collect();
    check.read_all(&asked);
    touch(check, &sheet(&[Row::bytes(b"a", b"1")]), generate::limit(rng));
}

/// Entries in the order of writing, lawful or not, and appends that 20 refuses whatever else is
/// wrong with them.
fn written(check: &mut Check, rng: &mut Rng) {
    let version = generate::some_version(rng, 80);
    let count = rng.between(1, 6);
    let names = generate::short_names(rng, count);
    let most = rng.below(14);
    let keys = generate::written_keys(rng, most, names.len());
    let image = generate::written_image(rng, version, &keys, &names);
    check.load(&image);
    check.read_all(&names);
    for _ in 0..2 {
        let rows = generate::border_rows(rng, version, &names);
        let sheet = match rng.below(3) {
            0 => generate::bent_sheet(rng, rows),
            1 => generate::damaged_sheet(rng, &rows),
            _ => sheet(&rows),
        };
        for limit in [0, generate::limit(rng)] {
            check.append(&sheet, limit);
        }
    }
    check.open();
}

/// The file of every chunk, with steps of all kinds, and of chunks that are not there.
fn nchilada(check: &mut Check, rng: &mut Rng) {
    let mut layout = generate::float_image(rng);
    match rng.below(12) {
        0 => layout.bend(rng),
        1 => layout.damage(rng),
        _ => {}
    }
    let Layout { image, names, .. } = layout;
    check.load(&image);
    let entries = Reference.all_entries(&image).unwrap_or_default();
    for &entry in &entries {
        let name = Reference.nth_name(&image, entry[4]).unwrap();
        for _ in 0..3 {
            let length = generate::some_length(rng, entry);
            check.nchilada(entry[0], name, generate::step(rng, entry[0]), length);
        }
    }
    let behind = entries.last().map_or(0, |last| last[0] + 1);
    for _ in 0..3 {
        let frame = rng.pick(&[0, 1, behind / 2, behind, behind + (1 << 32) - 1, u64::MAX]);
        let name = match rng.below(4) {
            0 => rng.pick(&ODD_NAMES),
            _ => rng.pick_ref(&names),
        };
        let length = rng.below(80);
        check.nchilada(frame, name, generate::step(rng, frame), length);
    }
}

/// The RawArray file of every chunk, and of chunks that are not there; what becomes of these files, and an
/// append of that.
fn arrays_written(check: &mut Check, rng: &mut Rng) {
    let (image, names) = if rng.chance(30) {
        generate::gapped(rng)
    } else {
        let mut layout = generate::odd(rng);
        match rng.below(12) {
            0 => layout.bend(rng),
            1 => layout.damage(rng),
            _ => {}
        }
        (layout.image, layout.names)
    };
    check.load(&image);
    let entries = Reference.all_entries(&image).unwrap_or_default();
    let mut sheets = Vec::new();
    for &entry in &entries {
        let name = Reference.nth_name(&image, entry[4]).unwrap();
        for _ in 0..2 {
            let length = generate::some_array_length(rng, entry);
            check.rawarray_write(entry[0], name, length);
        }
        let mut file = Reference.array(&image, entry[0], name, array_length(entry)).unwrap();
        if rng.chance(30) {
            generate::bend_array(rng, &mut file);
        }
        let under = generate::array_name(rng);
        let length = generate::some_sheet_length(rng, &file, &under);
        check.rawarray_read(&file, &under, length);
        sheets.extend(Reference.sheet_of(&file, &under, length));
    }
    let behind = entries.last().map_or(0, |last| last[0] + 1);
    for _ in 0..2 {
        let frame = rng.pick(&[0, 1, behind / 2, behind, behind + (1 << 32) - 1, u64::MAX]);
        let name = match names.len() {
            1.. if rng.chance(75) => rng.pick_ref(&names),
            _ => rng.pick(&ODD_NAMES),
        };
        let length = rng.below(100);
        check.rawarray_write(frame, name, length);
    }
    if let Some(sheet) = sheets.last() {
        check.append(sheet, generate::limit(rng));
    }
}

/// RawArray files, right or wrong, under names of all kinds. An image has no part in it.
fn arrays_read(check: &mut Check, rng: &mut Rng) {
    check.load(b"");
    for _ in 0..3 {
        let (file, name) = (generate::array_file(rng), generate::array_name(rng));
        let length = generate::some_sheet_length(rng, &file, &name);
        check.rawarray_read(&file, &name, length);
    }
}
