//! A regulator's night in an image: make it, append frames, survive a stop and a failing probe, and
//! read the heater's duty of the last frame.

use dialmoth::{Element, Refusal, Row, Type};
use std::error::Error;

/// A frame: where the probe answered, three readings, and where the heater did, its duty in per cent.
#[derive(Clone, Copy)]
struct Frame {
    probe: Option<[f32; 3]>,
    duty: Option<u8>,
}

impl Frame {
    fn sheet(&self) -> Vec<u8> {
        let readings = self.probe.map(|probe| probe.map(f32::to_le_bytes));
        let mut rows = vec![];
        if let Some(readings) = &readings {
            let data = readings.as_flattened();
            rows.push(Row { name: b"probe", kind: Type::Float, n: 3, m: 1, data });
        }
        if let Some(duty) = &self.duty {
            let data = std::slice::from_ref(duty);
            rows.push(Row { name: b"heater", kind: Type::U8, n: 1, m: 1, data });
        }
        dialmoth::sheet(&rows)
    }
}

/// The duty in a frame, or that the frame has no such chunk: no number stands for that.
fn duty(image: &[u8], frame: u64) -> Result<Option<u64>, Box<dyn Error>> {
    match dialmoth::element(image, frame, b"heater", 0) {
        Ok(Element::Unsigned(duty)) => Ok(Some(duty)),
        Ok(other) => Err(format!("heater duty is {other:?}").into()),
        Err(Refusal::NO_NAME | Refusal::NO_CHUNK) => Ok(None),
        Err(refusal) => Err(refusal.into()),
    }
}

fn print_last_duty(image: &[u8]) -> Result<(), Box<dyn Error>> {
    match dialmoth::open(image)?.frames.checked_sub(1) {
        None => println!("no frame yet"),
        Some(last) => match duty(image, last)? {
            None => println!("frame {last}: no heater chunk"),
            Some(duty) => println!("frame {last}: heater duty {duty}"),
        },
    }
    Ok(())
}

/// Makes at most `limit` stores of a frame's append, in one turn (bin/turns.rs makes more of them), and
/// says whether the frame is there; a frame of nothing is none. Readings that hold a NaN are refused
/// and left out: the frame then has no chunk of them.
fn append(image: &mut [u8], frame: Frame, limit: u64) -> Result<bool, Refusal> {
    if frame.probe.is_none() && frame.duty.is_none() {
        return Ok(false);
    }
    let sheet = frame.sheet();
    match dialmoth::begin(image, &sheet) {
        Err(Refusal::NAN_IN_SHEET) => {
            println!("append: a reading is a NaN");
            append(image, Frame { probe: None, ..frame }, limit)
        }
        Err(refusal) => Err(refusal),
        Ok(mut begun) => {
            let made = dialmoth::turn(&mut begun.state, image, &sheet, limit)?;
            println!("append: {made} of {} stores", begun.whole);
            Ok(made == begun.whole)
        }
    }
}

fn main() -> Result<(), Box<dyn Error>> {
    // Laid out beforehand and longer than what is used at first, as a region of flash would be.
    let mut image = [0; 4096];
    dialmoth::create(&mut image, b"regulator", b"night", 0x0001_0000, 8, 1)?;
    print_last_duty(&image)?;

    let evening = Some([21.5, 22.25, 19.0]);
    append(&mut image, Frame { probe: evening, duty: Some(40) }, u64::MAX)?;
    print_last_duty(&image)?;

    // The heater does not answer: the frame has no chunk of it.
    append(&mut image, Frame { probe: evening, duty: None }, u64::MAX)?;
    print_last_duty(&image)?;

    // An append stops after ten stores, and its state is lost: the last frame reads as before.
    let night = Frame { probe: Some([18.5, 18.75, 17.5]), duty: Some(55) };
    assert!(!append(&mut image, night, 10)?);
    print_last_duty(&image)?;

    // The same append is begun again, and now made to its end.
    assert!(append(&mut image, night, u64::MAX)?);
    print_last_duty(&image)?;

    // The probe card fails: the frame has no chunk of it, and the heater's all the same.
    let failing = Frame { probe: Some([18.5, f32::NAN, 17.5]), duty: Some(40) };
    assert!(append(&mut image, failing, u64::MAX)?);
    print_last_duty(&image)
}
