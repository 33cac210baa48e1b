//! A regulator that keeps a reader: it asks for the heater's id once, and heats by the newest frame that
//! has a duty. Appends go on, one of them stopped in the middle. The kept reader answers as it did, and
//! a new one sees the new frame; where there is no duty, none is made up.

use dialmoth::{Element, Reader, Refusal, Row, Type};
use std::error::Error;

/// Appends a frame of the fan's duty and, where the heater answers, its own, in so many stores at most.
fn record(image: &mut [u8], fan: u8, heater: Option<u8>, limit: u64) -> Result<(), Refusal> {
    let (fan, heater) = ([fan], heater.map(|duty| [duty]));
    let mut rows = vec![Row { name: b"fan", kind: Type::U8, n: 1, m: 1, data: &fan }];
    if let Some(data) = &heater {
        rows.push(Row { name: b"heater", kind: Type::U8, n: 1, m: 1, data });
    }
    let stores = dialmoth::append(image, &dialmoth::sheet(&rows), limit)?;
    println!("append: {} of {} stores", stores.done, stores.whole);
    Ok(())
}

/// The duty of the newest frame up to this one, and that frame; or that there is none, for which no
/// number stands.
fn duty(
    reader: &Reader,
    image: &[u8],
    frame: u64,
    heater: u16,
) -> Result<Option<(u64, u64)>, Box<dyn Error>> {
    let entry = match reader.newest(image, frame, heater) {
        Err(Refusal::NO_CHUNK) => return Ok(None),
        found => found?,
    };
    match reader.element(image, entry.frame, b"heater", 0)? {
        Element::Unsigned(duty) => Ok(Some((duty, entry.frame))),
        other => Err(format!("heater duty is {other:?}").into()),
    }
}

fn print_duty(
    whose: &str,
    reader: &Reader,
    image: &[u8],
    frame: u64,
    heater: u16,
) -> Result<(), Box<dyn Error>> {
    match duty(reader, image, frame, heater)? {
        None => println!("{whose}, up to frame {frame}: no duty"),
        Some((duty, of)) => println!("{whose}, up to frame {frame}: duty {duty} of frame {of}"),
    }
    Ok(())
}

/// As of a reader that was kept, and of one that is opened now.
fn print_both(kept: &Reader, image: &[u8], heater: u16) -> Result<(), Box<dyn Error>> {
    print_duty("kept reader", kept, image, kept.counts().frames - 1, heater)?;
    let now = Reader::open(image)?;
    print_duty("new reader", &now, image, now.counts().frames - 1, heater)
}

fn main() -> Result<(), Box<dyn Error>> {
    let mut image = [0; 4096];
    dialmoth::create(&mut image, b"regulator", b"night", 0x0001_0000, 4, 1)?;
    // The heater answers in frame 1 alone.
    record(&mut image, 20, None, u64::MAX)?;
    record(&mut image, 20, Some(40), u64::MAX)?;
    record(&mut image, 25, None, u64::MAX)?;

    let kept = Reader::open(&image)?;
    let heater = kept.id(&image, b"heater")?;
    print_duty("kept reader", &kept, &image, 0, heater)?;
    print_duty("kept reader", &kept, &image, kept.counts().frames - 1, heater)?;

    // The next append is stopped in the middle, as the index moves: no reader sees its frame.
    record(&mut image, 30, Some(55), 20)?;
    print_both(&kept, &image, heater)?;

    // It is made again, to its end: a new reader sees the frame, and the kept one answers as before.
    record(&mut image, 30, Some(55), u64::MAX)?;
    print_both(&kept, &image, heater)
}
