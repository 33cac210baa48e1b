//! A regulator that records a frame a minute and has time for few stores at once: it begins an append
//! and makes it in turns. The power is cut between two of them; after the restart the half-made frame
//! is not there, and is begun again.

use dialmoth::{Element, Row, Type};
use std::error::Error;

/// Stores for which there is time at once.
const STORES: u64 = 6;

/// Sets the heating from the last frame; this may be done between turns, and after a cut.
fn set_heating(image: &[u8]) -> Result<(), Box<dyn Error>> {
    match dialmoth::open(image)?.frames.checked_sub(1) {
        None => println!("no frame yet"),
        Some(last) => match dialmoth::element(image, last, b"heater", 0)? {
            Element::Unsigned(duty) => println!("frame {last}: heater duty {duty}"),
            other => return Err(format!("heater duty is {other:?}").into()),
        },
    }
    Ok(())
}

/// Appends a frame in at most so many turns, and heats between them; answers whether it is there.
/// Where the turns are too few, the power is cut: sheet and state are lost.
fn record(image: &mut [u8], duty: u8, turns: usize) -> Result<bool, Box<dyn Error>> {
    let heater = Row { name: b"heater", kind: Type::U8, n: 1, m: 1, data: &[duty] };
    let sheet = dialmoth::sheet(&[heater]);
    let mut begun = dialmoth::begin(image, &sheet)?;
    let mut made = 0;
    for _ in 0..turns {
        if made == begun.whole {
            break;
        }
        made += dialmoth::turn(&mut begun.state, image, &sheet, STORES)?;
        print!("{made} of {} stores, ", begun.whole);
        set_heating(image)?;
    }
    Ok(made == begun.whole)
}

fn main() -> Result<(), Box<dyn Error>> {
    // What is left where the power is cut, as a region of flash would be.
    let mut image = [0; 1024];
    dialmoth::create(&mut image, b"regulator", b"night", 0x0001_0000, 2, 1)?;
    assert!(record(&mut image, 40, 10)?);

    // The power is cut between two turns of the next minute.
    assert!(!record(&mut image, 55, 2)?);
    print!("power is back, ");
    set_heating(&image)?;

    // Its frame is begun again.
    assert!(record(&mut image, 55, 10)?);
    Ok(())
}
