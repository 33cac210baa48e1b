//! A physicist's question of a month of frames: the least and the greatest reading of each probe. The
//! image is opened once, and a reader goes over all its entries. A probe that was unplugged has no
//! chunks in these frames, and no number stands for them.

use dialmoth::{Counts, Reader, Refusal, Row, Type};
use std::collections::BTreeMap;

/// A frame every five minutes, for 30 days.
const DAY: u32 = 24 * 12;
const FRAMES: u32 = 30 * DAY;

/// In quarters of a degree: a swing over each day, and half a degree more every ten days.
fn reading(degrees: i32, frame: u32) -> [u8; 4] {
    let of_day = frame % DAY;
    let swing = of_day.min(DAY - of_day) / 9 + 2 * (frame / (10 * DAY));
    let quarters = 4 * degrees + swing as i32;
    (quarters as f32 / 4.0).to_le_bytes()
}

/// Three probes and the heater's duty; for the last ten days the attic's probe is unplugged.
fn record(image: &mut [u8], frame: u32) -> Result<(), Refusal> {
    let [cellar, cabinet, attic] = [11, 18, -2].map(|degrees| reading(degrees, frame));
    let duty = [(frame % 100) as u8];
    let probe = |name, data| Row { name, kind: Type::Float, n: 1, m: 1, data };
    let mut rows = vec![probe(b"cellar", &cellar), probe(b"cabinet", &cabinet)];
    if frame < 20 * DAY {
        rows.push(probe(b"attic", &attic));
    }
    rows.push(Row { name: b"heater", kind: Type::U8, n: 1, m: 1, data: &duty });
    let stores = dialmoth::append(image, &dialmoth::sheet(&rows), u64::MAX)?;
    assert!(stores.is_whole());
    Ok(())
}

struct Seen {
    readings: u64,
    least: f32,
    most: f32,
}

/// What is seen of each id.
fn extremes(reader: &Reader, image: &[u8]) -> Result<BTreeMap<u16, Seen>, Refusal> {
    let mut seen = BTreeMap::new();
    for entry in reader.entries(image) {
        let entry = entry?;
        if entry.kind != Type::Float {
            continue;
        }
        let (values, _) = reader.chunk_of(image, entry)?.as_chunks();
        for value in values.iter().map(|&bytes| f32::from_le_bytes(bytes)) {
            let of =
                seen.entry(entry.id).or_insert(Seen { readings: 0, least: value, most: value });
            of.readings += 1;
            of.least = of.least.min(value);
            of.most = of.most.max(value);
        }
    }
    Ok(seen)
}

fn main() -> Result<(), Refusal> {
    let mut image = vec![0; 1 << 23];
    dialmoth::create(&mut image, b"regulator", b"month", 0x0001_0000, 0, 0)?;
    for frame in 0..FRAMES {
        record(&mut image, frame)?;
    }

    let reader = Reader::open(&image)?;
    let Counts { frames, names, entries } = reader.counts();
    println!("frames {frames} names {names} entries {entries}");
    for (id, Seen { readings, least, most }) in extremes(&reader, &image)? {
        let name = reader.name(&image, id.into())?.escape_ascii();
        println!("{name}: {readings} readings, {least:.2} to {most:.2}");
    }
    Ok(())
}
