//! The functions of include/dialmoth.h over the plain Rust implementation.
//!
//! It is no part of the library. The differential tests, the examples, the interoperation tests
//! and the benchmark can be tried on it where there is no libdialmoth.a.

use differential::library::{Create, Library, Reference};
use std::slice::{from_raw_parts as part, from_raw_parts_mut as part_mut};

/// # Safety
/// Pointers as include/dialmoth.h has them; the same for all functions here.
#[no_mangle]
pub unsafe extern "C" fn dialmoth_open(image: *const u8, length: usize, out: *mut u64) -> u64 {
    Reference.open(part(image, length), &mut *out.cast())
}

/// # Safety
/// As `dialmoth_open`.
#[no_mangle]
pub unsafe extern "C" fn dialmoth_name(
    image: *const u8,
    length: usize,
    n: u64,
    out: *mut u64,
) -> u64 {
    Reference.name(part(image, length), n, &mut *out.cast())
}

/// # Safety
/// As `dialmoth_open`.
#[no_mangle]
pub unsafe extern "C" fn dialmoth_entry(
    image: *const u8,
    length: usize,
    n: u64,
    out: *mut u64,
) -> u64 {
    Reference.entry(part(image, length), n, &mut *out.cast())
}

/// # Safety
/// As `dialmoth_open`.
#[no_mangle]
pub unsafe extern "C" fn dialmoth_lookup(
    image: *const u8,
    length: usize,
    frame: u64,
    name: *const u8,
    name_length: usize,
    out: *mut u64,
) -> u64 {
    Reference.lookup(part(image, length), frame, part(name, name_length), &mut *out.cast())
}

/// # Safety
/// As `dialmoth_open`.
#[no_mangle]
pub unsafe extern "C" fn dialmoth_chunk(
    image: *const u8,
    length: usize,
    frame: u64,
    name: *const u8,
    name_length: usize,
    out: *mut u64,
) -> u64 {
    Reference.chunk(part(image, length), frame, part(name, name_length), &mut *out.cast())
}

/// # Safety
/// As `dialmoth_open`.
#[no_mangle]
pub unsafe extern "C" fn dialmoth_element(
    image: *const u8,
    length: usize,
    frame: u64,
    name: *const u8,
    name_length: usize,
    k: u64,
    out: *mut u64,
) -> u64 {
    Reference.element(part(image, length), frame, part(name, name_length), k, &mut *out.cast())
}

/// # Safety
/// As `dialmoth_open`.
#[no_mangle]
pub unsafe extern "C" fn dialmoth_probes(
    image: *const u8,
    length: usize,
    frame: u64,
    name: *const u8,
    name_length: usize,
    out: *mut u64,
) -> u64 {
    Reference.probes(part(image, length), frame, part(name, name_length), &mut *out.cast())
}

/// # Safety
/// As `dialmoth_open`.
#[no_mangle]
pub unsafe extern "C" fn dialmoth_nchilada(
    image: *const u8,
    length: usize,
    frame: u64,
    name: *const u8,
    name_length: usize,
    step: f64,
    file: *mut u8,
    file_length: usize,
) -> u64 {
    let (image, name) = (part(image, length), part(name, name_length));
    Reference.nchilada(image, frame, name, step, part_mut(file, file_length))
}

/// # Safety
/// As `dialmoth_open`.
#[no_mangle]
pub unsafe extern "C" fn dialmoth_rawarray_write(
    image: *const u8,
    length: usize,
    frame: u64,
    name: *const u8,
    name_length: usize,
    file: *mut u8,
    file_length: usize,
) -> u64 {
    let (image, name) = (part(image, length), part(name, name_length));
    Reference.rawarray_write(image, frame, name, part_mut(file, file_length))
}

/// # Safety
/// As `dialmoth_open`.
#[no_mangle]
pub unsafe extern "C" fn dialmoth_rawarray_read(
    file: *const u8,
    file_length: usize,
    name: *const u8,
    name_length: usize,
    sheet: *mut u8,
    sheet_length: usize,
) -> u64 {
    let (file, name) = (part(file, file_length), part(name, name_length));
    Reference.rawarray_read(file, name, part_mut(sheet, sheet_length))
}

/// # Safety
/// As `dialmoth_open`.
#[no_mangle]
pub unsafe extern "C" fn dialmoth_create(
    image: *mut u8,
    length: usize,
    application: *const u8,
    application_length: usize,
    schema: *const u8,
    schema_length: usize,
    schema_version: u32,
    slots: u64,
    segments: u64,
) -> u64 {
    let request = Create {
        application: part(application, application_length),
        schema: part(schema, schema_length),
        schema_version,
        slots,
        segments,
    };
    Reference.create(part_mut(image, length), request)
}

/// # Safety
/// As `dialmoth_open`.
#[no_mangle]
pub unsafe extern "C" fn dialmoth_append(
    image: *mut u8,
    length: usize,
    sheet: *const u8,
    sheet_length: usize,
    limit: u64,
    out: *mut u64,
) -> u64 {
    let sheet = part(sheet, sheet_length);
    Reference.append(part_mut(image, length), sheet, limit, &mut *out.cast())
}

/// # Safety
/// As `dialmoth_open`.
#[no_mangle]
pub unsafe extern "C" fn dialmoth_begin(
    image: *const u8,
    length: usize,
    sheet: *const u8,
    sheet_length: usize,
    state: *mut u64,
    out: *mut u64,
) -> u64 {
    let (image, sheet) = (part(image, length), part(sheet, sheet_length));
    Reference.begin(image, sheet, &mut *state.cast(), &mut *out.cast())
}

/// # Safety
/// As `dialmoth_open`.
#[no_mangle]
pub unsafe extern "C" fn dialmoth_turn(
    state: *mut u64,
    image: *mut u8,
    length: usize,
    sheet: *const u8,
    sheet_length: usize,
    limit: u64,
    out: *mut u64,
) -> u64 {
    let (image, sheet) = (part_mut(image, length), part(sheet, sheet_length));
    Reference.turn(&mut *state.cast(), image, sheet, limit, &mut *out.cast())
}

/// # Safety
/// As `dialmoth_open`.
#[no_mangle]
pub unsafe extern "C" fn dialmoth_reader_open(
    image: *const u8,
    length: usize,
    reader: *mut u64,
) -> u64 {
    Reference.reader_open(part(image, length), &mut *reader.cast())
}

/// # Safety
/// As `dialmoth_open`.
#[no_mangle]
pub unsafe extern "C" fn dialmoth_reader_name(
    reader: *const u64,
    image: *const u8,
    length: usize,
    n: u64,
    out: *mut u64,
) -> u64 {
    let image = part(image, length);
    Reference.reader_name(&*reader.cast(), image, n, &mut *out.cast())
}

/// # Safety
/// As `dialmoth_open`.
#[no_mangle]
pub unsafe extern "C" fn dialmoth_reader_entry(
    reader: *const u64,
    image: *const u8,
    length: usize,
    n: u64,
    out: *mut u64,
) -> u64 {
    let image = part(image, length);
    Reference.reader_entry(&*reader.cast(), image, n, &mut *out.cast())
}

/// # Safety
/// As `dialmoth_open`.
#[no_mangle]
pub unsafe extern "C" fn dialmoth_reader_lookup(
    reader: *const u64,
    image: *const u8,
    length: usize,
    frame: u64,
    name: *const u8,
    name_length: usize,
    out: *mut u64,
) -> u64 {
    let (image, name) = (part(image, length), part(name, name_length));
    Reference.reader_lookup(&*reader.cast(), image, frame, name, &mut *out.cast())
}

/// # Safety
/// As `dialmoth_open`.
#[no_mangle]
pub unsafe extern "C" fn dialmoth_reader_chunk(
    reader: *const u64,
    image: *const u8,
    length: usize,
    frame: u64,
    name: *const u8,
    name_length: usize,
    out: *mut u64,
) -> u64 {
    let (image, name) = (part(image, length), part(name, name_length));
    Reference.reader_chunk(&*reader.cast(), image, frame, name, &mut *out.cast())
}

/// # Safety
/// As `dialmoth_open`.
#[no_mangle]
pub unsafe extern "C" fn dialmoth_reader_element(
    reader: *const u64,
    image: *const u8,
    length: usize,
    frame: u64,
    name: *const u8,
    name_length: usize,
    k: u64,
    out: *mut u64,
) -> u64 {
    let (image, name) = (part(image, length), part(name, name_length));
    Reference.reader_element(&*reader.cast(), image, frame, name, k, &mut *out.cast())
}

/// # Safety
/// As `dialmoth_open`.
#[no_mangle]
pub unsafe extern "C" fn dialmoth_reader_id(
    reader: *const u64,
    image: *const u8,
    length: usize,
    name: *const u8,
    name_length: usize,
    out: *mut u64,
) -> u64 {
    let (image, name) = (part(image, length), part(name, name_length));
    Reference.reader_id(&*reader.cast(), image, name, &mut *out.cast())
}

/// # Safety
/// As `dialmoth_open`.
#[no_mangle]
pub unsafe extern "C" fn dialmoth_reader_find(
    reader: *const u64,
    image: *const u8,
    length: usize,
    frame: u64,
    id: u64,
    out: *mut u64,
) -> u64 {
    let image = part(image, length);
    Reference.reader_find(&*reader.cast(), image, frame, id, &mut *out.cast())
}

/// # Safety
/// As `dialmoth_open`.
#[no_mangle]
pub unsafe extern "C" fn dialmoth_reader_newest(
    reader: *const u64,
    image: *const u8,
    length: usize,
    frame: u64,
    id: u64,
    out: *mut u64,
) -> u64 {
    let image = part(image, length);
    Reference.reader_newest(&*reader.cast(), image, frame, id, &mut *out.cast())
}
