//! A physicist takes frames of a recorded night to NChilada files. These lie in a folder for each output
//! step, in it one for each family, in that a file for each property; so the chunks are named by family
//! and property. A probe that was unplugged in a frame has no chunk there and gets no file; the heater's
//! duty is a byte, which such a file does not hold. Where a folder is named, the files go there.

use dialmoth::{Refusal, Row, Type};
use std::error::Error;
use std::path::Path;
use std::{env, fs};

/// Seconds from a frame to the next.
const STEP: f64 = 300.0;

const PROPERTIES: [&str; 5] =
    ["cellar/position", "cellar/temperature", "attic/position", "attic/temperature", "heater/duty"];

const CELLAR: [[f64; 3]; 4] =
    [[0.25, 0.5, -2.25], [3.75, 0.5, -2.25], [3.75, 4.5, -2.0], [0.25, 4.5, -2.0]];
const ATTIC: [[f64; 3]; 2] = [[1.0, 2.5, 5.75], [3.0, 2.5, 5.5]];

/// Four probes in the cellar, two in the attic, which are unplugged in frame 1, and the heater's duty.
fn record(image: &mut [u8], frame: u8) -> Result<(), Refusal> {
    let positions =
        |points: &[[f64; 3]]| points.as_flattened().iter().flat_map(|x| x.to_le_bytes()).collect();
    let (cellar, attic): (Vec<u8>, Vec<u8>) = (positions(&CELLAR), positions(&ATTIC));
    let colder = 0.25 * f32::from(frame);
    let below = [11.25, 11.5, 12.0, 10.75].map(|degrees: f32| (degrees - colder).to_le_bytes());
    let above = [0.5, -1.75].map(|degrees: f32| (degrees - 2.0 * colder).to_le_bytes());
    let duty = [40 + 5 * frame];
    let rows = [
        (Type::Double, 4, 3, &cellar[..]),
        (Type::Float, 4, 1, below.as_flattened()),
        (Type::Double, 2, 3, &attic[..]),
        (Type::Float, 2, 1, above.as_flattened()),
        (Type::U8, 1, 1, &duty[..]),
    ];
    let rows: Vec<_> = PROPERTIES
        .iter()
        .zip(rows)
        .filter(|(name, _)| frame != 1 || !name.starts_with("attic/"))
        .map(|(name, (kind, n, m, data))| Row { name: name.as_bytes(), kind, n, m, data })
        .collect();
    let stores = dialmoth::append(image, &dialmoth::sheet(&rows), u64::MAX)?;
    assert!(stores.is_whole());
    Ok(())
}

/// The next number of a file.
fn next<const SIZE: usize>(file: &mut &[u8]) -> Result<[u8; SIZE], Box<dyn Error>> {
    let (number, rest) = file.split_first_chunk().ok_or("the file ends in a number")?;
    *file = rest;
    Ok(*number)
}

/// What the header of a file says, and the extremes of each column.
fn print_header(mut file: &[u8]) -> Result<(), Box<dyn Error>> {
    let file = &mut file;
    let magic = u32::from_be_bytes(next(file)?);
    let time = f64::from_be_bytes(next(file)?);
    let count = u64::from_be_bytes(next(file)?);
    let dimensions = u32::from_be_bytes(next(file)?);
    let code = u32::from_be_bytes(next(file)?);
    println!(
        "  magic {magic}, time {time:.0} s, count {count}, dimensions {dimensions}, code {code}"
    );
    let mut values = || -> Result<Vec<f64>, Box<dyn Error>> {
        let value = |_| match code {
            10 => Ok(f64::from_be_bytes(next(file)?)),
            _ => Ok(f32::from_be_bytes(next(file)?).into()),
        };
        (0..dimensions).map(value).collect()
    };
    let (smallest, largest) = (values()?, values()?);
    for (column, (least, most)) in smallest.iter().zip(largest).enumerate() {
        println!("  column {column}: {least:.2} to {most:.2}");
    }
    Ok(())
}

/// The file of a property in a frame; that there is none is an answer too.
fn take(
    folder: Option<&Path>,
    image: &[u8],
    frame: u64,
    property: &str,
) -> Result<(), Box<dyn Error>> {
    let path = format!("night.{frame:05}/{property}");
    let file = match dialmoth::nchilada_file(image, frame, property.as_bytes(), STEP) {
        Ok(file) => file,
        Err(refusal) => {
            println!("{path}: {refusal}");
            return Ok(());
        }
    };
    println!("{path}: {} bytes", file.len());
    print_header(&file)?;
    if let Some(folder) = folder {
        let path = folder.join(path);
        fs::create_dir_all(path.parent().ok_or("no folder")?)?;
        fs::write(path, file)?;
    }
    Ok(())
}

fn main() -> Result<(), Box<dyn Error>> {
    let folder = env::args_os().nth(1);
    let mut image = [0; 4096];
    dialmoth::create(&mut image, b"regulator", b"night", 0x0001_0000, 16, 2)?;
    for frame in 0..3 {
        record(&mut image, frame)?;
    }
    for frame in 1..3 {
        for property in PROPERTIES {
            take(folder.as_deref().map(Path::new), &image, frame, property)?;
        }
    }
    Ok(())
}
