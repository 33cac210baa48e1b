//! A physicist at a cabinet takes the chunks of a recorded frame to RawArray files, and brings files into
//! the image, a frame each, those of other programs too. A text of characters comes back as bytes; complex
//! numbers are refused, and so is a NaN, by the append. Where a folder is named, the files go there.

use dialmoth::{Element, Refusal, Row, Type};
use std::error::Error;
use std::path::Path;
use std::{env, fs};

/// Frame 0: three probes, three speeds of each of two fans, and a text.
fn record(image: &mut [u8]) -> Result<(), Refusal> {
    let probe = [21.5, 22.25, 19.0].map(f32::to_le_bytes);
    let fans = [400, 900, 1500, 350, 800, 1400].map(u16::to_le_bytes);
    let rows = [
        Row { name: b"probe", kind: Type::Float, n: 3, m: 1, data: probe.as_flattened() },
        Row { name: b"fans", kind: Type::U16, n: 2, m: 3, data: fans.as_flattened() },
        Row { name: b"note", kind: Type::Character, n: 9, m: 1, data: b"door open" },
    ];
    let stores = dialmoth::append(image, &dialmoth::sheet(&rows), u64::MAX)?;
    assert!(stores.is_whole());
    Ok(())
}

fn print_chunk(image: &[u8], frame: u64, name: &str) -> Result<(), Refusal> {
    let entry = dialmoth::lookup(image, frame, name.as_bytes())?;
    print!("  frame {frame}: N {}, M {}, type {}:", entry.n, entry.m, entry.kind as u8);
    for k in 0..entry.n * u64::from(entry.m) {
        match dialmoth::element(image, frame, name.as_bytes(), k)? {
            Element::Unsigned(number) => print!(" {number}"),
            Element::Signed(number) => print!(" {number}"),
            Element::Single(value) => print!(" {value:.4}"),
            Element::Double(value) => print!(" {value:.4}"),
        }
    }
    println!();
    Ok(())
}

/// The file of a chunk of frame 0.
fn take(folder: Option<&Path>, image: &[u8], name: &str) -> Result<Vec<u8>, Box<dyn Error>> {
    let file = dialmoth::rawarray_file(image, 0, name.as_bytes())?;
    let path = format!("{name}.ra");
    println!("{path}: {} bytes", file.len());
    print_chunk(image, 0, name)?;
    let word = |k: usize| -> Result<u64, Box<dyn Error>> {
        Ok(u64::from_le_bytes(file[8 * k..][..8].try_into()?))
    };
    print!("  file: type {}, width {}, data {}", word(2)?, word(3)?, word(4)?);
    println!(", dimensions {} and {}", word(6)?, word(7)?);
    if let Some(folder) = folder {
        fs::create_dir_all(folder)?;
        fs::write(folder.join(path), &file)?;
    }
    Ok(file)
}

/// Appends what a file holds as a frame, under a name; that it cannot be is an answer too.
fn bring(image: &mut [u8], path: &str, file: &[u8], name: &str) -> Result<(), Refusal> {
    let sheet = match dialmoth::rawarray_sheet(file, name.as_bytes()) {
        Ok(sheet) => sheet,
        Err(refusal) => {
            println!("{path}: {refusal}");
            return Ok(());
        }
    };
    if let Err(refusal) = dialmoth::append(image, &sheet, u64::MAX) {
        println!("{path}: read, but not appended: {refusal}");
        return Ok(());
    }
    println!("{path}: appended as {name}");
    print_chunk(image, dialmoth::open(image)?.frames - 1, name)
}

/// A file as another program makes it, of one dimension and with a text behind its data.
fn foreign(kind: u64, width: u64, data: &[u8]) -> Vec<u8> {
    let length = data.len() as u64;
    let words = [0, kind, width, length, 1, length / width].map(u64::to_le_bytes);
    [b"rawarray", words.as_flattened(), data, b"bench 4"].concat()
}

fn main() -> Result<(), Box<dyn Error>> {
    let folder = env::args_os().nth(1);
    let folder = folder.as_deref().map(Path::new);
    let mut image = [0; 4096];
    dialmoth::create(&mut image, b"regulator", b"night", 0x0001_0000, 16, 2)?;
    record(&mut image)?;
    take(folder, &image, "probe")?;
    take(folder, &image, "fans")?;
    let note = take(folder, &image, "note")?;

    let constants = [1.0625, -0.5, 0.9375, 21.25].map(f64::to_le_bytes);
    let constants = foreign(3, 8, constants.as_flattened());
    bring(&mut image, "constants.ra", &constants, "calibration")?;
    bring(&mut image, "note.ra", &note, "note")?;
    // Complex floats, two floats each.
    let spectrum = [1.0, 0.0, 0.5, -0.5].map(f32::to_le_bytes);
    let spectrum = foreign(4, 8, spectrum.as_flattened());
    bring(&mut image, "spectrum.ra", &spectrum, "spectrum")?;
    let drift = [0.25, f32::NAN, 0.5].map(f32::to_le_bytes);
    let drift = foreign(3, 4, drift.as_flattened());
    bring(&mut image, "drift.ra", &drift, "drift")?;
    Ok(())
}
