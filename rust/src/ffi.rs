//! The functions of include/dialmoth.h as they are.
//!
//! A slice is a pointer and a length; no pointer is null. The result is the number of the refusal, 0
//! for an answer.

/// Words of the state of an append in turns.
pub const STATE_WORDS: usize = 406;

/// Words of a reader.
pub const READER_WORDS: usize = 8;

extern "C" {
    /// `out`: frames, names, entries.
    pub fn dialmoth_open(image: *const u8, image_length: usize, out: *mut [u64; 3]) -> u64;

    /// `out`: start, length.
    pub fn dialmoth_name(image: *const u8, image_length: usize, n: u64, out: *mut [u64; 2]) -> u64;

    /// `out`: frame, N, location, M, id, type, flags.
    pub fn dialmoth_entry(image: *const u8, image_length: usize, n: u64, out: *mut [u64; 7])
        -> u64;

    /// `out`: frame, N, location, M, id, type, flags.
    pub fn dialmoth_lookup(
        image: *const u8,
        image_length: usize,
        frame: u64,
        name: *const u8,
        name_length: usize,
        out: *mut [u64; 7],
    ) -> u64;

    /// `out`: start, length.
    pub fn dialmoth_chunk(
        image: *const u8,
        image_length: usize,
        frame: u64,
        name: *const u8,
        name_length: usize,
        out: *mut [u64; 2],
    ) -> u64;

    /// `out`: kind (1 unsigned, 2 signed, 3 single, 4 double), bits.
    pub fn dialmoth_element(
        image: *const u8,
        image_length: usize,
        frame: u64,
        name: *const u8,
        name_length: usize,
        k: u64,
        out: *mut [u64; 2],
    ) -> u64;

    /// `out`, set at every call: entries probed, 0 where no search was made.
    pub fn dialmoth_probes(
        image: *const u8,
        image_length: usize,
        frame: u64,
        name: *const u8,
        name_length: usize,
        out: *mut [u64; 1],
    ) -> u64;

    /// A refusal leaves the file as it was.
    pub fn dialmoth_nchilada(
        image: *const u8,
        image_length: usize,
        frame: u64,
        name: *const u8,
        name_length: usize,
        step: f64,
        file: *mut u8,
        file_length: usize,
    ) -> u64;

    /// A refusal leaves the file as it was.
    pub fn dialmoth_rawarray_write(
        image: *const u8,
        image_length: usize,
        frame: u64,
        name: *const u8,
        name_length: usize,
        file: *mut u8,
        file_length: usize,
    ) -> u64;

    /// A refusal leaves the sheet as it was.
    pub fn dialmoth_rawarray_read(
        file: *const u8,
        file_length: usize,
        name: *const u8,
        name_length: usize,
        sheet: *mut u8,
        sheet_length: usize,
    ) -> u64;

    /// A refusal leaves the reader as it was.
    pub fn dialmoth_reader_open(
        image: *const u8,
        image_length: usize,
        reader: *mut [u64; READER_WORDS],
    ) -> u64;

    /// `out`: start, length.
    pub fn dialmoth_reader_name(
        reader: *const [u64; READER_WORDS],
        image: *const u8,
        image_length: usize,
        n: u64,
        out: *mut [u64; 2],
    ) -> u64;

    /// `out`: frame, N, location, M, id, type, flags.
    pub fn dialmoth_reader_entry(
        reader: *const [u64; READER_WORDS],
        image: *const u8,
        image_length: usize,
        n: u64,
        out: *mut [u64; 7],
    ) -> u64;

    /// `out`: frame, N, location, M, id, type, flags.
    pub fn dialmoth_reader_lookup(
        reader: *const [u64; READER_WORDS],
        image: *const u8,
        image_length: usize,
        frame: u64,
        name: *const u8,
        name_length: usize,
        out: *mut [u64; 7],
    ) -> u64;

    /// `out`: start, length.
    pub fn dialmoth_reader_chunk(
        reader: *const [u64; READER_WORDS],
        image: *const u8,
        image_length: usize,
        frame: u64,
        name: *const u8,
        name_length: usize,
        out: *mut [u64; 2],
    ) -> u64;

    /// `out`: kind (1 unsigned, 2 signed, 3 single, 4 double), bits.
    pub fn dialmoth_reader_element(
        reader: *const [u64; READER_WORDS],
        image: *const u8,
        image_length: usize,
        frame: u64,
        name: *const u8,
        name_length: usize,
        k: u64,
        out: *mut [u64; 2],
    ) -> u64;

    /// `out`: the id.
    pub fn dialmoth_reader_id(
        reader: *const [u64; READER_WORDS],
        image: *const u8,
        image_length: usize,
        name: *const u8,
        name_length: usize,
        out: *mut [u64; 1],
    ) -> u64;

    /// `out`: frame, N, location, M, id, type, flags.
    pub fn dialmoth_reader_find(
        reader: *const [u64; READER_WORDS],
        image: *const u8,
        image_length: usize,
        frame: u64,
        id: u64,
        out: *mut [u64; 7],
    ) -> u64;

    /// `out`: frame, N, location, M, id, type, flags.
    pub fn dialmoth_reader_newest(
        reader: *const [u64; READER_WORDS],
        image: *const u8,
        image_length: usize,
        frame: u64,
        id: u64,
        out: *mut [u64; 7],
    ) -> u64;

    pub fn dialmoth_create(
        image: *mut u8,
        image_length: usize,
        application: *const u8,
        application_length: usize,
        schema: *const u8,
        schema_length: usize,
        schema_version: u32,
        slots: u64,
        segments: u64,
    ) -> u64;

    /// `out`, set at every call: stores done, stores of the whole append, listed entries that the whole
    /// append copies where it moves the index; three zeros when refused.
    pub fn dialmoth_append(
        image: *mut u8,
        image_length: usize,
        sheet: *const u8,
        sheet_length: usize,
        limit: u64,
        out: *mut [u64; 3],
    ) -> u64;

    /// `out`, set at every call: stores of the whole append, listed entries that the whole append
    /// copies; two zeros when refused. The state is set at every call too, when refused to zeros.
    pub fn dialmoth_begin(
        image: *const u8,
        image_length: usize,
        sheet: *const u8,
        sheet_length: usize,
        state: *mut [u64; STATE_WORDS],
        out: *mut [u64; 2],
    ) -> u64;

    /// `out`, set at every call: stores that this turn made, 0 when refused.
    pub fn dialmoth_turn(
        state: *mut [u64; STATE_WORDS],
        image: *mut u8,
        image_length: usize,
        sheet: *const u8,
        sheet_length: usize,
        limit: u64,
        out: *mut [u64; 1],
    ) -> u64;
}
