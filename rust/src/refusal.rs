//! The refusals, as include/dialmoth.h has them: a number, a name and a text each.

use core::{error::Error, fmt};

/// The number of a refusal, 1 to 79.
#[derive(Clone, Copy, Debug, PartialEq, Eq, Hash)]
pub struct Refusal(pub u64);

macro_rules! refusals {
    ($($number:literal $name:ident $text:literal)*) => {
        impl Refusal {
            $(
                #[doc = $text]
                pub const $name: Refusal = Refusal($number);
            )*

            /// What the number says.
            pub fn reason(self) -> &'static str {
                match self.0 {
                    $($number => $text,)*
                    _ => "not a refusal",
                }
            }
        }

        #[cfg(test)]
        const NAMED: &[(&str, Refusal)] = &[$((stringify!($name), Refusal::$name)),*];
    };
}

refusals! {
    // Opening, in this order; every call but create, turn, rawarray_read and those that take a reader
    // opens first. Tests 12 to 18 run entry by entry.
    1 SHORT_IMAGE "image under 256 bytes"
    2 LONG_IMAGE "image over 1,073,741,824 bytes"
    3 WRONG_MAGIC "wrong magic"
    4 WRONG_VERSION "version not 1.0, 2.0 or 2.1"
    5 UNCLOSED_TEXT "application or schema has no zero byte"
    6 INDEX_OUTSIDE "index block starts below 256 or ends beyond the image"
    7 NAMES_OUTSIDE "name block starts below 256 or ends beyond the image"
    8 BLOCKS_OVERLAP "index block and name block share a byte"
    9 UNCLOSED_NAME "a name has no zero byte before its block ends, in 1.0 before its segment does"
    10 MANY_NAMES "more than 1,024 names"
    11 EQUAL_NAMES "two equal names"
    12 LOW_LOCATION "an entry's location is negative, or below 256 and not 0"
    13 UNKNOWN_TYPE "an entry's type is not known in this version"
    14 UNKNOWN_ID "an entry's id is not below the number of names"
    15 FRAME_ORDER "an entry's (frame, id) not above the entry before, in 1.0 a lower frame or a repeat"
    16 CHUNK_OUTSIDE "a chunk ends beyond the image"
    17 CHUNK_IN_BLOCK "a chunk shares a byte with a block"
    18 LARGE_FRAME "an entry's frame above 4,294,967,294"
    // Append and begin, in this order.
    20 OLD_IMAGE "the image is of version 1.0"
    21 UNALIGNED_BLOCK "index or name location not a multiple of 8"
    31 FRAMES_FULL "the last frame is 4,294,967,294"
    22 ROW_COUNT "sheet under 4 bytes, or its count is 0 or above 64"
    23 SHORT_TABLE "sheet shorter than its table"
    24 BAD_ROW "a row with a type not known in this version, name length 0 or spare bytes not 0"
    25 SHEET_LENGTH "sheet's length is not exactly table plus bodies"
    26 ZERO_IN_NAME "a name of the sheet holds a zero byte"
    27 NAME_TWICE "two rows of the sheet have one name"
    30 NAN_IN_SHEET "a float or double of the sheet is a NaN"
    28 NAMES_FULL "names would pass 1,024"
    29 NO_ROOM "the append would pass the image's end"
    // Turn.
    32 NOT_EXPECTED "a refused begin's state, or a length or header words 8 to 32 not as it expects"
    // Reader calls but its opening, first; chunk and element also after 42.
    33 NOT_FITTING "the reader, or a chunk found by it, does not fit the image"
    // Lookup, chunk, element and probes, find and newest, in this order; id has 41 alone. Then n-th
    // name and entry.
    40 NO_FRAME "frame not below the number of frames"
    41 NO_NAME "name not listed"
    42 NO_CHUNK "no such chunk in the frame"
    43 NO_ELEMENT "element number not below N times M"
    44 NO_NTH "n not below the number of names or of entries"
    // Create: 2, then these in this order.
    50 LARGE_BLOCK "more than 65,536 slots or segments"
    51 BAD_TEXT "application or schema over 63 bytes or holding a zero byte"
    52 SHORT_FOR_BLOCKS "image too short for its blocks"
    // NChilada: lookup's, then these in this order.
    60 NOT_FLOATS "not floats or doubles, or M not 1 or 3"
    61 NO_ROWS "N is 0"
    62 NAN_IN_CHUNK "an element of the chunk is a NaN"
    63 NOT_FINITE "the step or the time is not finite"
    64 FILE_LENGTH "file slice not exactly as long as the file"
    // RawArray, writing: lookup's, then this.
    77 RAWARRAY_LENGTH "file slice not exactly as long as the RawArray file"
    // RawArray, reading, in this order; it takes no image.
    70 RAWARRAY_SHORT "file under 48 bytes"
    71 RAWARRAY_MAGIC "file does not begin with rawarray"
    72 RAWARRAY_FLAGS "the file's flags are not 0"
    73 RAWARRAY_TYPE "a type and width of elements that no chunk has"
    74 RAWARRAY_DIMENSIONS "dimensions not 1 or 2, or not all in the file"
    75 RAWARRAY_DATA "data length not the dimensions times the width, or beyond the file"
    76 RAWARRAY_COLUMNS "M above 4,294,967,295"
    78 RAWARRAY_NAME "name of length 0, above 255 or holding a zero byte"
    79 RAWARRAY_SHEET "sheet slice not exactly as long as the sheet"
}

impl fmt::Display for Refusal {
    fn fmt(&self, f: &mut fmt::Formatter<'_>) -> fmt::Result {
        write!(f, "refused {}: {}", self.0, self.reason())
    }
}

impl Error for Refusal {}

#[cfg(test)]
mod tests {
    use super::{Refusal, NAMED};

    const HEADER: &str = include_str!("../../include/dialmoth.h");

    /// Number, name and text of one `R(number, name, text)` of the header, from its number on.
    fn row(row: &'static str) -> (u64, &'static str, &'static str) {
        let (number, rest) = row.split_once(',').unwrap();
        let (name, rest) = rest.split_once(',').unwrap();
        let (_, rest) = rest.split_once('"').unwrap();
        let (text, _) = rest.split_once("\")").unwrap();
        (number.parse().unwrap(), name.trim().strip_prefix("DIALMOTH_").unwrap(), text)
    }

    fn rows() -> impl Iterator<Item = (u64, &'static str, &'static str)> {
        let (_, table) = HEADER.split_once("#define DIALMOTH_REFUSALS(R)").unwrap();
        let (table, _) = table.split_once("\n\n").unwrap();
        table.split(" R(").skip(1).map(row)
    }

    #[test]
    fn refusals_are_those_of_the_header() {
        assert_eq!(rows().count(), NAMED.len());
        for (row, (name, refusal)) in rows().zip(NAMED) {
            assert_eq!(row, (refusal.0, *name, refusal.reason()));
        }
    }

    #[test]
    fn other_numbers_are_not_refusals() {
        assert!(HEADER.contains("return \"not a refusal\";"));
        for number in (0..100).filter(|number| rows().all(|row| row.0 != *number)) {
            assert_eq!(Refusal(number).reason(), "not a refusal");
        }
    }
}
