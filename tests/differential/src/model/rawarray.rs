//! The RawArray files of the second model: W-209 word by word, over whole numbers, with a hurried
//! builder's faults on request.

use super::{number, width, Fault, Listed, Model, Verdict, VERSION_1_0};
use crate::images::holds_nan;

/// "Reading refuses, in order."
fn order(fault: Option<Fault>) -> Vec<u64> {
    let mut order = vec![70, 71, 72, 73, 74, 75, 76, 78, 79];
    let (number, before) = match fault {
        Some(Fault::ArrayInSeventyOneFirst) => (71, 70),
        Some(Fault::ArrayInSeventyTwoBeforeSeventyOne) => (72, 71),
        Some(Fault::ArrayInSeventyThreeBeforeSeventyTwo) => (73, 72),
        Some(Fault::ArrayInSeventyFourBeforeSeventyThree) => (74, 73),
        Some(Fault::ArrayInSeventyFiveBeforeSeventyFour) => (75, 74),
        Some(Fault::ArrayInSeventySixBeforeSeventyFive) => (76, 75),
        Some(Fault::ArrayInSeventyEightBeforeSeventySix) => (78, 76),
        Some(Fault::ArrayInSeventyEightFirst) => (78, 70),
        Some(Fault::ArrayInSeventyNineBeforeSeventyEight) => (79, 78),
        Some(Fault::ArrayInSeventyNineBeforeSeventySix) => (79, 76),
        Some(Fault::ArrayInSeventyNineFirst) => (79, 70),
        _ => return order,
    };
    order.retain(|&other| other != number);
    let place = order.iter().position(|&other| other == before).unwrap_or(0);
    order.insert(place, number);
    order
}

/// Numbers of so many bytes, the lowest first.
fn bytes_of(numbers: &[(u128, usize)], highest_first: bool) -> Vec<u8> {
    let of = |&(number, size): &(u128, usize)| {
        let mut bytes: Vec<u8> = (0..size).map(|place| (number >> (8 * place)) as u8).collect();
        if highest_first {
            bytes.reverse();
        }
        bytes
    };
    numbers.iter().flat_map(of).collect()
}

/// Each element with its bytes turned.
fn turned(data: &[u8], size: usize) -> Vec<u8> {
    data.chunks(size.max(1)).flat_map(|element| element.iter().rev().copied()).collect()
}

/// As much of it as there is room for, where a fault has passed a slice that is longer or shorter.
fn put(to: &mut [u8], bytes: &[u8]) {
    to.iter_mut().zip(bytes).for_each(|(to, byte)| *to = *byte);
}

impl Model {
    /// "Write a chunk as a RawArray file": after the lookup's numbers "with 77 a slice not exactly as long
    /// as the file".
    pub(super) fn array(&self, image: &[u8], (frame, name): (u64, &[u8]), file: &mut [u8]) -> u64 {
        let number = match self.exported(image, (frame, name), file.len()) {
            Ok(bytes) => {
                let (length, whole) = (file.len(), bytes.len());
                let other = match self.fault {
                    Some(Fault::ArrayOutLongerSlicePassed | Fault::ArrayOutClearsRest) => {
                        length < whole
                    }
                    Some(Fault::ArrayOutShorterSlicePassed) => length > whole,
                    Some(Fault::ArrayOutLengthInWords) => length / 8 != whole / 8,
                    _ => length != whole,
                };
                if !other || self.has(Fault::ArrayOutSeventySevenWrites) {
                    put(file, &bytes);
                }
                if !other && self.has(Fault::ArrayOutClearsRest) {
                    file.iter_mut().skip(whole).for_each(|rest| *rest = 0);
                }
                if other {
                    77
                } else {
                    0
                }
            }
            Err(number) => number,
        };
        if number != 0 && self.has(Fault::ArrayOutRefusalClears) {
            file.fill(0);
        }
        number
    }

    /// The file of a chunk that is found, and what only those who err refuse.
    fn exported(
        &self,
        image: &[u8],
        (frame, name): (u64, &[u8]),
        length: usize,
    ) -> Verdict<Vec<u8>> {
        if self.has(Fault::ArrayOutShortSliceFirst) && length < 64 {
            return Err(77);
        }
        let entry = self.found(image, frame, name)?;
        let Listed { n, kind, .. } = entry;
        let data = &image[entry.location as usize..][..entry.length() as usize];
        match self.fault {
            Some(Fault::ArrayOutOldImageRefused) if number(image, 44, 4) == VERSION_1_0 => Err(20),
            Some(Fault::ArrayOutOnlyFloats) if ![9, 10].contains(&kind) => Err(60),
            Some(Fault::ArrayOutNoRowsRefused) if n == 0 => Err(61),
            Some(Fault::ArrayOutEmptyRefused) if data.is_empty() => Err(61),
            Some(Fault::ArrayOutNanRefused) if holds_nan(kind, data) => Err(62),
            _ => Ok(self.array_bytes(entry, data)),
        }
    }

    /// "The bytes "rawarray", flags 0, element type 2 for unsigned and character, 1 signed, 3 float,
    /// element bytes, data length, 2 dimensions." "M comes before N."
    fn array_bytes(&self, entry: Listed, data: &[u8]) -> Vec<u8> {
        let Listed { n, m, kind, .. } = entry;
        let size = width(kind);
        let mut magic = b"rawarray".to_vec();
        if self.has(Fault::ArrayOutMagicTurned) {
            magic.reverse();
        }
        let flags = match self.fault {
            Some(Fault::ArrayOutFlagsOfEntry) => entry.flags.into(),
            Some(Fault::ArrayOutFlagsOne) => 1,
            _ => 0,
        };
        let code = match kind {
            11 if self.has(Fault::ArrayOutCharacterOwn) => 0,
            11 if self.has(Fault::ArrayOutCharacterSigned) => 1,
            _ if self.has(Fault::ArrayOutOurType) => kind.into(),
            1..=4 | 11 => 2,
            5..=8 => 1,
            _ => 3,
        };
        let code = match self.fault {
            Some(Fault::ArrayOutSignsSwapped) if code < 3 => 3 - code,
            Some(Fault::ArrayOutFloatsAreFour) if code == 3 => 4,
            Some(Fault::ArrayOutDoublesAreFour) if kind == 10 => 4,
            _ => code,
        };
        let element = match self.fault {
            Some(Fault::ArrayOutWidthInBits) => 8 * size,
            Some(Fault::ArrayOutWidthOfRow) => m * size,
            _ => size,
        };
        let length = match self.fault {
            Some(Fault::ArrayOutLengthOfElements) => n * m,
            Some(Fault::ArrayOutLengthOfRows) => n * size,
            Some(Fault::ArrayOutLengthOfFile) => 64 + entry.length(),
            _ => entry.length(),
        };
        let dimensions = match self.fault {
            Some(Fault::ArrayOutNBeforeM) => vec![n, m],
            Some(Fault::ArrayOutOneDimension) => vec![n * m],
            Some(Fault::ArrayOutColumnIsOneDimension) if m == 1 => vec![n],
            Some(Fault::ArrayOutNOfElements) => vec![m, n * m],
            Some(Fault::ArrayOutEmptyIsZeroByZero) if data.is_empty() => vec![0, 0],
            Some(Fault::ArrayOutMIn16Bits) => vec![m % (1 << 16), n],
            Some(Fault::ArrayOutNIn32Bits) => vec![m, n % (1 << 32)],
            _ => vec![m, n],
        };
        let mut count = dimensions.len() as u128;
        if self.has(Fault::ArrayOutCountOfFilled) {
            count = 1 + u128::from(m > 1);
        }
        let mut words = vec![flags, code, element, length, count];
        if self.has(Fault::ArrayOutLengthBehindCount) {
            words.swap(3, 4);
        }
        if self.has(Fault::ArrayOutWidthBeforeType) {
            words.swap(1, 2);
        }
        words.extend(dimensions);
        let words: Vec<_> = words.into_iter().map(|word| (word, 8)).collect();
        let words = bytes_of(&words, self.has(Fault::ArrayOutBigEndian));
        let [rows, columns, size] = [n, m, size].map(|count| count as usize);
        let data = match self.fault {
            Some(Fault::ArrayOutDataBigEndian) => turned(data, size),
            Some(Fault::ArrayOutDataByColumns) if !data.is_empty() => {
                let places = (0..columns)
                    .flat_map(|column| (0..rows).map(move |row| columns * row + column));
                places.flat_map(|place| data[size * place..][..size].iter().copied()).collect()
            }
            _ => data.to_vec(),
        };
        [magic, words, data].concat()
    }

    /// "Read such files back into an append sheet of one row."
    pub(super) fn sheet_of_array(&self, file: &[u8], name: &[u8], sheet: &mut [u8]) -> u64 {
        let said = Said::of(self, file, name, sheet);
        let number = said.refused();
        let bytes = match (number, self.fault) {
            (0, _)
            | (78, Some(Fault::ArrayInSeventyEightWrites))
            | (79, Some(Fault::ArrayInSeventyNineWrites)) => said.sheet(),
            _ => Vec::new(),
        };
        put(sheet, &bytes);
        if number == 0 && self.has(Fault::ArrayInClearsRest) {
            sheet.iter_mut().skip(bytes.len()).for_each(|rest| *rest = 0);
        }
        if number != 0 && self.has(Fault::ArrayInRefusalClears) {
            sheet.fill(0);
        }
        number
    }
}

/// What any bytes say as a file, under a name: numbers have zeros behind the end.
struct Said<'a> {
    model: &'a Model,
    file: &'a [u8],
    name: &'a [u8],
    /// The slice for the sheet, as it was.
    lent: Vec<u8>,
    flags: u128,
    code: u128,
    width: u128,
    length: u128,
    dimensions: u128,
    first: u128,
    second: u128,
}

impl<'a> Said<'a> {
    fn of(model: &'a Model, file: &'a [u8], name: &'a [u8], lent: &[u8]) -> Said<'a> {
        let mut header: Vec<u8> = file.iter().copied().take(64).collect();
        header.resize(64, 0);
        if model.has(Fault::ArrayInBigEndian) {
            header[8..].chunks_mut(8).for_each(<[u8]>::reverse);
        }
        let word = |at| number(&header, at, 8);
        let low = |number: u128, bits: u32| number % (1 << bits);
        let mut said = Said {
            model,
            file,
            name,
            lent: lent.to_vec(),
            flags: word(8),
            code: word(16),
            width: word(24),
            length: word(32),
            dimensions: word(40),
            first: word(48),
            second: word(56),
        };
        match model.fault {
            Some(Fault::ArrayInFlagsIgnored) => said.flags = 0,
            Some(Fault::ArrayInFlagsOfByte) => said.flags = low(said.flags, 8),
            Some(Fault::ArrayInFlagsIn32Bits) => said.flags = low(said.flags, 32),
            Some(Fault::ArrayInFlagOnePassed) => said.flags &= !1,
            Some(Fault::ArrayInTypeOfByte) => said.code = low(said.code, 8),
            Some(Fault::ArrayInTypeIn32Bits) => said.code = low(said.code, 32),
            Some(Fault::ArrayInWidthOfByte) => said.width = low(said.width, 8),
            Some(Fault::ArrayInWidthIn32Bits) => said.width = low(said.width, 32),
            Some(Fault::ArrayInLengthIn32Bits) => said.length = low(said.length, 32),
            Some(Fault::ArrayInDimensionsOfByte) => said.dimensions = low(said.dimensions, 8),
            Some(Fault::ArrayInDimensionsIn32Bits) => said.dimensions = low(said.dimensions, 32),
            Some(Fault::ArrayInShapeIn32Bits) => {
                [said.first, said.second] = [said.first, said.second].map(|word| low(word, 32));
            }
            _ => {}
        }
        said
    }

    fn has(&self, fault: Fault) -> bool {
        self.model.has(fault)
    }

    fn refused(&self) -> u64 {
        let applies = |number: &u64| match number {
            70 => self.short(),
            71 => !self.opened(),
            72 => self.flags != 0,
            73 => self.kind() == 0,
            74 => !self.dimensioned(),
            75 => !self.filled(),
            76 => self.wide(),
            78 => self.bad_name(),
            _ => self.other_length(),
        };
        let first = order(self.model.fault).into_iter().find(applies);
        // Behind all of these, for that is the append's to say.
        let nan = || self.has(Fault::ArrayInNanRefused) && holds_nan(self.kind(), &self.data());
        first.unwrap_or(if nan() { 30 } else { 0 })
    }

    /// "70 under 48 bytes."
    fn short(&self) -> bool {
        let least = match self.model.fault {
            Some(Fault::ArrayInSeventyLeftOut) => 0,
            Some(Fault::ArrayInSeventyFromOneLess) => 47,
            Some(Fault::ArrayInSeventyFromOneMore) => 49,
            Some(Fault::ArrayInSeventyUnder56) => 56,
            Some(Fault::ArrayInSeventyUnder64) => 64,
            _ => 48,
        };
        self.file.len() < least
    }

    /// "71 wrong opening bytes."
    fn opened(&self) -> bool {
        let opening = self.file.get(..8).unwrap_or(&[0; 8]);
        match self.model.fault {
            Some(Fault::ArrayInMagicIgnored) => true,
            Some(Fault::ArrayInMagicOfThree) => opening.starts_with(b"raw"),
            Some(Fault::ArrayInMagicOfSeven) => opening.starts_with(b"rawarra"),
            Some(Fault::ArrayInMagicOfAnyCase) => opening.eq_ignore_ascii_case(b"rawarray"),
            Some(Fault::ArrayInMagicTurned) => opening == b"yarrawar",
            _ => opening == b"rawarray",
        }
    }

    /// "73 type and width we don't have": ours, 0 where we have none. "Character becomes u8."
    fn kind(&self) -> u8 {
        let code = match (self.code, self.model.fault) {
            (0, Some(Fault::ArrayInStructuresPassed)) => 2,
            (4, Some(Fault::ArrayInComplexPassed)) => 3,
            (5, Some(Fault::ArrayInBrainFloatsPassed)) => 3,
            (1 | 2, Some(Fault::ArrayInSignsSwapped)) => 3 - self.code,
            (1, Some(Fault::ArrayInSignedRefused)) => 0,
            (2, Some(Fault::ArrayInUnsignedRefused)) => 0,
            (3, Some(Fault::ArrayInFloatsRefused)) => 0,
            (code, _) => code,
        };
        let width = match (self.width, self.model.fault) {
            (0, Some(Fault::ArrayInNoWidthPassed)) => 1,
            (3, Some(Fault::ArrayInWidthRounded)) => 4,
            (5..=7, Some(Fault::ArrayInWidthRounded)) => 8,
            (2, Some(Fault::ArrayInHalfFloatsPassed)) if code == 3 => 4,
            (16, Some(Fault::ArrayInLongNumbersPassed)) => 8,
            (1, Some(Fault::ArrayInBytesRefused)) => 0,
            (8, Some(Fault::ArrayInEightBytesRefused)) => 0,
            (width, _) => width,
        };
        let kind = match (code, width) {
            (2, 1) if self.has(Fault::ArrayInCharactersComeBack) => 11,
            (2, 1) => 1,
            (2, 2) => 2,
            (2, 4) => 3,
            (2, 8) => 4,
            (1, 1) => 5,
            (1, 2) => 6,
            (1, 4) => 7,
            (1, 8) => 8,
            (3, 4) => 9,
            (3, 8) => 10,
            _ => 0,
        };
        match self.model.fault {
            Some(Fault::ArrayInTypeFromZero) if kind > 1 => kind - 1,
            Some(Fault::ArrayInSmallSignedIsUnsigned) if kind == 5 => 1,
            _ => kind,
        }
    }

    /// "74 dimensions not 1 or 2 or not all in the file."
    fn dimensioned(&self) -> bool {
        let known = match self.model.fault {
            Some(Fault::ArrayInNoDimensionPassed) => self.dimensions <= 2,
            Some(Fault::ArrayInThreeDimensionsPassed) => (1..=3).contains(&self.dimensions),
            Some(Fault::ArrayInOneDimensionRefused) => self.dimensions == 2,
            Some(Fault::ArrayInTwoDimensionsRefused) => self.dimensions == 1,
            _ => [1, 2].contains(&self.dimensions),
        };
        let length = self.file.len() as u128;
        let there = match self.model.fault {
            Some(Fault::ArrayInShapeOutsidePassed) => true,
            Some(Fault::ArrayInShapeOutsideByOne) => self.start() <= length + 1,
            Some(Fault::ArrayInOneDimensionNeeds64) => length >= 64,
            Some(Fault::ArrayInShapeFillsNoFile) => self.start() < length,
            _ => self.start() <= length,
        };
        known && there
    }

    /// Where the data are.
    fn start(&self) -> u128 {
        match self.model.fault {
            Some(Fault::ArrayInDataAlwaysFrom64) => 64,
            Some(Fault::ArrayInDataAlwaysFrom56) => 56,
            _ => 48 + 8 * self.dimensions,
        }
    }

    /// N and M. "1 dimension counts as N by 1"; "its first dimension is the fast one, so M comes before N."
    fn shape(&self) -> (u128, u128) {
        match (self.dimensions, self.model.fault) {
            (1, Some(Fault::ArrayInLineIsRow)) => (1, self.first),
            (1, Some(Fault::ArrayInLineHasNoColumns)) => (self.first, 0),
            (1, _) => (self.first, 1),
            (0, Some(Fault::ArrayInNoDimensionPassed)) => (1, 1),
            (_, Some(Fault::ArrayInNBeforeM)) => (self.first, self.second),
            _ => (self.second, self.first),
        }
    }

    /// "Dimensions times width."
    fn product(&self) -> Option<u128> {
        let (n, m) = self.shape();
        let width = self.width;
        let low = |number: u128| number % (1 << 64);
        match self.model.fault {
            Some(Fault::ArrayInProductWraps) => Some(low(low(n * m) * low(width))),
            Some(Fault::ArrayInElementsWrap) => low(n * m).checked_mul(width),
            Some(Fault::ArrayInRowWraps) => low(m * width).checked_mul(n),
            Some(Fault::ArrayInWidthLeftOut) => Some(n * m),
            Some(Fault::ArrayInColumnsLeftOut) => n.checked_mul(width),
            _ => (n * m).checked_mul(width),
        }
    }

    fn data_length(&self) -> u128 {
        match self.model.fault {
            Some(Fault::ArrayInLengthIgnored) => self.product().unwrap_or(self.length),
            Some(Fault::ArrayInLengthOfRest) => {
                (self.file.len() as u128).saturating_sub(self.start())
            }
            _ => self.length,
        }
    }

    /// "75 data length not dimensions times width or beyond the file."
    fn filled(&self) -> bool {
        let length = self.data_length();
        let product = self.product();
        let right = match self.model.fault {
            Some(Fault::ArrayInLengthNotTested) => true,
            Some(Fault::ArrayInLongerDataPassed) => product.is_some_and(|least| length >= least),
            Some(Fault::ArrayInShorterDataPassed) => product.is_none_or(|most| length <= most),
            Some(Fault::ArrayInEmptyRefused) => product == Some(length) && length > 0,
            Some(Fault::ArrayInNoColumnsRefused) => product == Some(length) && self.shape().1 > 0,
            Some(Fault::ArrayInNoRowsRefused) => product == Some(length) && self.shape().0 > 0,
            Some(Fault::ArrayInRowsIn32Bits) => product == Some(length) && self.shape().0 < 1 << 32,
            _ => product == Some(length),
        };
        let end = self.start() + length;
        let whole = self.file.len() as u128;
        let inside = match self.model.fault {
            Some(Fault::ArrayInDataOutsidePassed) => true,
            Some(Fault::ArrayInDataOutsideByOne) => end <= whole + 1,
            Some(Fault::ArrayInDataEndsInside) => end < whole,
            Some(Fault::ArrayInDataNotBehindHeader) => length <= whole,
            Some(Fault::ArrayInEndWraps) => end % (1 << 64) <= whole,
            Some(Fault::ArrayInMoreBytesRefused) => end == whole,
            _ => end <= whole,
        };
        right && inside
    }

    /// "76 an M above 4,294,967,295."
    fn wide(&self) -> bool {
        let (n, m) = self.shape();
        match self.model.fault {
            Some(Fault::ArrayInSeventySixLeftOut) => false,
            Some(Fault::ArrayInSeventySixFromOneLess) => m >= 4_294_967_295,
            Some(Fault::ArrayInSeventySixFromOneMore) => m > 4_294_967_296,
            Some(Fault::ArrayInSeventySixOfN) => n > 4_294_967_295,
            Some(Fault::ArrayInSeventySixOfBoth) => n.max(m) > 4_294_967_295,
            Some(Fault::ArrayInSeventySixSigned) => m > 2_147_483_647,
            _ => m > 4_294_967_295,
        }
    }

    /// "78 a name of length 0, above 255 or holding zero."
    fn bad_name(&self) -> bool {
        let length = self.name.len();
        let other = match self.model.fault {
            Some(Fault::ArrayInSeventyEightLeftOut) => return false,
            Some(Fault::ArrayInNoNamePassed) => length > 255,
            Some(Fault::ArrayInLongNamePassed) => length == 0,
            Some(Fault::ArrayInNameOf256Passed) => length == 0 || length > 256,
            Some(Fault::ArrayInNameOf255Refused) => length == 0 || length > 254,
            Some(Fault::ArrayInNameOver63Refused) => length == 0 || length > 63,
            Some(Fault::ArrayInNameOfOneRefused) => !(2..=255).contains(&length),
            _ => length == 0 || length > 255,
        };
        let tested = match self.model.fault {
            Some(Fault::ArrayInZeroInNamePassed) => &[],
            Some(Fault::ArrayInFirstOfNameNotTested) => self.name.get(1..).unwrap_or_default(),
            Some(Fault::ArrayInLastOfNameNotTested) => &self.name[..length.saturating_sub(1)],
            _ => self.name,
        };
        let odd = |&byte: &u8| byte > 127 && self.has(Fault::ArrayInNameNotAsciiRefused);
        other || tested.iter().any(|byte| *byte == 0 || odd(byte))
    }

    /// "79 a slice not exactly as long as the sheet."
    fn other_length(&self) -> bool {
        let data = match self.model.fault {
            Some(Fault::ArrayInSheetTakesRest) => {
                (self.file.len() as u128).saturating_sub(self.start())
            }
            _ => self.data_length(),
        };
        let closed = u128::from(self.has(Fault::ArrayInNameClosed));
        let whole = 20 + self.name.len() as u128 + closed + data;
        let length = self.lent.len() as u128;
        match self.model.fault {
            Some(Fault::ArrayInLongerSlicePassed | Fault::ArrayInClearsRest) => length < whole,
            Some(Fault::ArrayInShorterSlicePassed) => length > whole,
            Some(Fault::ArrayInSliceInWords) => length / 8 != whole / 8,
            Some(Fault::ArrayInSheetInByte) => length % 256 != whole % 256,
            _ => length != whole,
        }
    }

    /// As many bytes as the file says, or as there are where a fault has passed more.
    fn data(&self) -> Vec<u8> {
        let place = |number: u128| usize::try_from(number).unwrap_or(usize::MAX);
        let length = match self.model.fault {
            Some(Fault::ArrayInSheetTakesRest) => usize::MAX,
            _ => place(self.data_length()),
        };
        let start = match self.model.fault {
            Some(Fault::ArrayInDataFromEnd) => self.file.len().saturating_sub(length),
            Some(Fault::ArrayInDataFromShape) => 48,
            _ => place(self.start()),
        };
        let data: Vec<u8> = self.file.iter().copied().skip(start).take(length).collect();
        match self.model.fault {
            Some(Fault::ArrayInDataBigEndian) => turned(&data, place(self.width)),
            _ => data,
        }
    }

    /// A count of 1; N, M, type, the name's length and two zero bytes; then the name and the data.
    fn sheet(&self) -> Vec<u8> {
        let (mut n, mut m) = self.shape();
        match self.model.fault {
            Some(Fault::ArrayInRowTurned) => (n, m) = (m, n),
            Some(Fault::ArrayInEmptyIsZeroByZero) if self.length == 0 => (n, m) = (0, 0),
            Some(Fault::ArrayInFlattened) => (n, m) = (n * m, 1),
            Some(Fault::ArrayInMIn16Bits) => m %= 1 << 16,
            Some(Fault::ArrayInNIn32Bits) => n %= 1 << 32,
            _ => {}
        }
        let count = if self.has(Fault::ArrayInCountFromZero) { 0 } else { 1 };
        let (kind, length) = (self.kind().into(), self.name.len() as u128);
        let fields = match self.model.fault {
            Some(Fault::ArrayInNameLengthBeforeType) => [length, kind],
            Some(Fault::ArrayInFilesType) => [self.code, length],
            Some(Fault::ArrayInNameLengthWithZero) => [kind, length + 1],
            _ => [kind, length],
        };
        let spare = match self.model.fault {
            Some(Fault::ArrayInSpareBytesKept) => {
                self.lent.get(18..20).map_or(0, |bytes| number(bytes, 0, 2))
            }
            _ => 0,
        };
        let mut table = vec![(count, 4), (n, 8), (m, 4)];
        if self.has(Fault::ArrayInMBeforeN) {
            table = vec![(count, 4), (m, 4), (n, 8)];
        }
        table.extend([(fields[0], 1), (fields[1], 1), (spare, 2)]);
        let table = bytes_of(&table, self.has(Fault::ArrayInSheetBigEndian));
        let mut name = self.name.to_vec();
        if self.has(Fault::ArrayInNameClosed) {
            name.push(0);
        }
        match self.model.fault {
            Some(Fault::ArrayInNameBehindData) => [table, self.data(), name].concat(),
            Some(Fault::ArrayInDataLeftOut) => [table, name].concat(),
            _ => [table, name, self.data()].concat(),
        }
    }
}
