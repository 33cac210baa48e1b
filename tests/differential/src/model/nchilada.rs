//! The NChilada files of the second model: W-207 word by word, floats by the whole numbers that their
//! bits are and the time by exact multiplication, with a hurried builder's faults on request.

use super::{number, width, Fault, Format, Listed, Model, Verdict};
use super::{DOUBLE, FLOAT, VERSION_1_0};

/// What a number of the file is.
#[derive(Clone, Copy, PartialEq, Eq)]
enum Part {
    Magic,
    Time,
    Count,
    Dimensions,
    Code,
    Extreme,
    Element,
}

/// A chunk that was found, and what is to be written of it.
struct Export<'a> {
    model: &'a Model,
    image: &'a [u8],
    entry: Listed,
    format: Format,
    /// Bits.
    step: u64,
    length: u128,
}

/// "Order: 60 for another type or M, 61 for N 0, 62 for an element that is not a number, 63 for a step
/// or time not finite, 64 for a slice not exactly as long as the file."
fn order(fault: Option<Fault>) -> [u64; 5] {
    match fault {
        Some(Fault::FileSixtyOneFirst) => [61, 60, 62, 63, 64],
        Some(Fault::FileSixtyTwoFirst) => [62, 60, 61, 63, 64],
        Some(Fault::FileSixtyThreeFirst) => [63, 60, 61, 62, 64],
        Some(Fault::FileSixtyThreeBeforeSixtyOne) => [60, 63, 61, 62, 64],
        Some(Fault::FileSixtyThreeBeforeSixtyTwo) => [60, 61, 63, 62, 64],
        Some(Fault::FileSixtyFourFirst) => [64, 60, 61, 62, 63],
        Some(Fault::FileSixtyFourBeforeSixtyOne) => [60, 64, 61, 62, 63],
        Some(Fault::FileSixtyFourBeforeSixtyTwo) => [60, 61, 64, 62, 63],
        Some(Fault::FileSixtyFourBeforeSixtyThree) => [60, 61, 62, 64, 63],
        _ => [60, 61, 62, 63, 64],
    }
}

impl Format {
    fn minus(self, bits: u128) -> bool {
        bits >> (self.exponent + self.fraction) == 1
    }

    fn magnitude(self, bits: u128) -> u128 {
        bits % (1 << (self.exponent + self.fraction))
    }

    fn infinity(self) -> u128 {
        ((1 << self.exponent) - 1) << self.fraction
    }

    fn finite(self, bits: u128) -> bool {
        self.magnitude(bits) < self.infinity()
    }
}

/// "The frame number, turned into a double, times a step": the double nearest to the product, and of
/// two as near the one whose last bit is 0. Of a finite step and a frame that opens.
fn product(frame: u128, step: u128, fault: Option<Fault>) -> u128 {
    let sign = u128::from(DOUBLE.minus(step)) << 63;
    let field = DOUBLE.magnitude(step) >> 52;
    let fraction = step % (1 << 52);
    // A step is a whole number of some power of two, and so is the product: this one times
    // 2^(power - 1075).
    let whole = if field == 0 { fraction } else { fraction + (1 << 52) };
    let exact = frame * whole;
    let mut power = field.max(1);
    let mut nearest = exact;
    let spare = (u128::BITS - exact.leading_zeros()).saturating_sub(53);
    if spare > 0 {
        let (half, rest) = (1 << (spare - 1), exact % (1 << spare));
        nearest = exact >> spare;
        power += u128::from(spare);
        let up = match fault {
            Some(Fault::FileTimeCut) => false,
            Some(Fault::FileTimeTieUp) => rest >= half,
            Some(Fault::FileTimeTieDown) => rest > half,
            _ => rest > half || rest == half && nearest % 2 == 1,
        };
        nearest += u128::from(up);
        if nearest == 1 << 53 {
            (nearest, power) = (1 << 52, power + 1);
        }
    }
    while nearest < 1 << 52 && power > 1 && nearest > 0 {
        (nearest, power) = (2 * nearest, power - 1);
    }
    let magnitude = match power {
        _ if nearest < 1 << 52 => nearest,
        2047.. => DOUBLE.infinity(),
        _ => (power << 52) + (nearest - (1 << 52)),
    };
    sign + magnitude
}

impl Model {
    /// "Write the file of source document 003 into a lent slice. A refusal writes nothing."
    pub(super) fn file(
        &self,
        image: &[u8],
        (frame, name): (u64, &[u8]),
        step: u64,
        file: &mut [u8],
    ) -> u64 {
        let number = match self.export(image, (frame, name), step, file.len()) {
            Ok(export) => {
                let refused = export.refused();
                let bytes = match (refused, self.fault) {
                    (0, _) => export.bytes(),
                    (62, Some(Fault::FileSixtyTwoWrites))
                    | (63, Some(Fault::FileSixtyThreeWrites))
                    | (64, Some(Fault::FileSixtyFourWrites)) => export.bytes(),
                    _ => Vec::new(),
                };
                // In a slice that may be longer or shorter where a fault has passed it.
                file.iter_mut().zip(&bytes).for_each(|(to, byte)| *to = *byte);
                if refused == 0 && self.has(Fault::FileClearsRest) {
                    file.iter_mut().skip(bytes.len()).for_each(|rest| *rest = 0);
                }
                refused
            }
            Err(number) => number,
        };
        if number != 0 && self.has(Fault::FileRefusalClears) {
            file.fill(0);
        }
        number
    }

    /// "The image's and lookup's numbers."
    fn export<'a>(
        &'a self,
        image: &'a [u8],
        (frame, name): (u64, &[u8]),
        step: u64,
        length: usize,
    ) -> Verdict<Export<'a>> {
        if self.has(Fault::FileStepBeforeOpening) && !DOUBLE.finite(step.into()) {
            return Err(63);
        }
        if self.has(Fault::FileShortSliceFirst) && length < 28 {
            return Err(64);
        }
        let entry = self.found(image, frame, name)?;
        if self.has(Fault::FileOldImageRefused) && number(image, 44, 4) == VERSION_1_0 {
            return Err(20);
        }
        // Others than floats only for those who pass them.
        let format = match entry.kind {
            9 => FLOAT,
            10 => DOUBLE,
            kind => {
                let size = width(kind) as usize;
                Format { size, exponent: 4, fraction: (8 * size as u32).saturating_sub(5) }
            }
        };
        Ok(Export { model: self, image, entry, format, step, length: length as u128 })
    }
}

impl Export<'_> {
    fn has(&self, fault: Fault) -> bool {
        self.model.has(fault)
    }

    fn refused(&self) -> u64 {
        let applies = |number: &u64| match number {
            60 => !self.type_passes() || !self.columns_pass(),
            61 => self.entry.n == 0 && !self.has(Fault::FileOfNoRows),
            62 => self.holds_nan(),
            63 => self.not_finite(),
            _ => self.other_length(),
        };
        order(self.model.fault).into_iter().find(applies).unwrap_or(0)
    }

    /// "From a float or double chunk."
    fn type_passes(&self) -> bool {
        match self.model.fault {
            Some(Fault::FileCharacterPassed) if self.entry.kind == 11 => true,
            Some(Fault::FileTypeBySize) => self.format.size >= 4,
            Some(Fault::FileDoubleRefused) => self.entry.kind == 9,
            Some(Fault::FileFloatRefused) => self.entry.kind == 10,
            _ => [9, 10].contains(&self.entry.kind),
        }
    }

    /// "With M 1 or 3."
    fn columns_pass(&self) -> bool {
        let m = self.entry.m;
        match self.model.fault {
            Some(Fault::FileTwoColumnsPassed) => (1..=3).contains(&m),
            Some(Fault::FileNoColumnsPassed) => [0, 1, 3].contains(&m),
            Some(Fault::FileAnyColumnsPassed) => true,
            Some(Fault::FileThreeColumnsRefused) => m == 1,
            Some(Fault::FileOneColumnRefused) => m == 3,
            Some(Fault::FileColumnsIn8Bits) => [1, 3].contains(&(m % 256)),
            Some(Fault::FileColumnsIn16Bits) => [1, 3].contains(&(m % 65_536)),
            _ => [1, 3].contains(&m),
        }
    }

    /// The bits of every element, row by row.
    fn elements(&self) -> Vec<u128> {
        let [at, length] = [self.entry.location, self.entry.length()].map(|place| place as usize);
        let elements = self.image[at..][..length].chunks_exact(self.format.size);
        elements.map(|bytes| number(bytes, 0, bytes.len())).collect()
    }

    /// "An element that is not a number."
    fn holds_nan(&self) -> bool {
        if ![9, 10].contains(&self.entry.kind) || self.has(Fault::FileNanPassed) {
            return false;
        }
        let mut tested = self.elements();
        let Listed { n, m, .. } = self.entry;
        match self.model.fault {
            Some(Fault::FileFirstElementNotTested) => drop(tested.drain(..tested.len().min(1))),
            Some(Fault::FileLastElementNotTested) => drop(tested.pop()),
            Some(Fault::FileFirstColumnTested) => {
                tested = tested.into_iter().step_by(m.max(1) as usize).collect();
            }
            Some(Fault::FileNElementsTested) => tested.truncate(n as usize),
            _ => {}
        }
        tested.into_iter().any(|bits| self.is_nan(bits))
    }

    /// Beyond the infinity of its sign.
    fn is_nan(&self, bits: u128) -> bool {
        let Format { fraction, .. } = self.format;
        let [magnitude, infinity] = [self.format.magnitude(bits), self.format.infinity()];
        let quiet = (magnitude >> (fraction - 1)) % 2 == 1;
        match self.model.fault {
            Some(Fault::FileSignallingPassed) => magnitude > infinity && quiet,
            Some(Fault::FileQuietPassed) => magnitude > infinity && !quiet,
            Some(Fault::FileNegativeNanPassed) => bits > infinity && bits == magnitude,
            Some(Fault::FileInfinityRefused) => magnitude >= infinity,
            Some(Fault::FileNanByHighHalf) if fraction == 52 => magnitude >> 32 > infinity >> 32,
            _ => magnitude > infinity,
        }
    }

    /// "A step or time not finite."
    fn not_finite(&self) -> bool {
        let step = u128::from(self.step);
        let time = self.time();
        let [step_finite, time_finite] = [step, time].map(|bits| DOUBLE.finite(bits));
        let [step_size, time_size] = [step, time].map(|bits| DOUBLE.magnitude(bits));
        let infinity = DOUBLE.infinity();
        match self.model.fault {
            Some(Fault::FileSixtyThreeLeftOut) => false,
            Some(Fault::FileTimeNotTested) => !step_finite,
            Some(Fault::FileStepNanPassed) => [step_size, time_size].contains(&infinity),
            Some(Fault::FileOnlyInfiniteTime) => time_size == infinity,
            Some(Fault::FileFrameZeroNotTested) if self.entry.frame == 0 => false,
            Some(Fault::FileNegativeStepRefused) if DOUBLE.minus(step) && step_size > 0 => true,
            Some(Fault::FileZeroStepRefused) if step_size == 0 => true,
            Some(Fault::FileSmallStepRefused) if step_size > 0 && step_size >> 52 == 0 => true,
            Some(Fault::FileZeroTimeRefused) if time_size == 0 => true,
            Some(Fault::FileGreatestTimeRefused) if time_size == infinity - 1 => true,
            _ => !step_finite || !time_finite,
        }
    }

    /// "Time is the frame number, turned into a double, times a step in seconds: one multiplication,
    /// rounded once."
    fn time(&self) -> u128 {
        let (frame, step) = (self.entry.frame as f64, f64::from_bits(self.step));
        let time = match self.model.fault {
            Some(Fault::FileFrameZeroNotTested) if self.entry.frame == 0 => 0.0,
            Some(Fault::FileTimeIsSum) => frame + step,
            Some(Fault::FileTimeByRate) => frame / (1.0 / step),
            Some(Fault::FileTimeAsFloat) => f64::from((frame * step) as f32),
            Some(Fault::FileStepAsFloat) => frame * f64::from(step as f32),
            Some(Fault::FileFrameAsFloat) => f64::from(frame as f32) * step,
            Some(Fault::FileFrameSigned) => f64::from(self.entry.frame as u32 as i32) * step,
            Some(Fault::FileFrameFromOne) => (frame + 1.0) * step,
            // Of more frames that would take long here.
            Some(Fault::FileStepsAddedUp) if self.entry.frame < 1000 => {
                (0..self.entry.frame).fold(0.0, |time, _| time + step)
            }
            // What these write is no time.
            _ if !step.is_finite() => frame * step,
            _ => {
                let bits = product(self.entry.frame, self.step.into(), self.model.fault);
                f64::from_bits(bits as u64)
            }
        };
        let time = u128::from(time.to_bits());
        let size = DOUBLE.magnitude(time);
        match self.model.fault {
            Some(Fault::FileMinusZeroTimeLost) if size == 0 => 0,
            Some(Fault::FileSmallTimeFlushed) if size >> 52 == 0 => time - size,
            Some(Fault::FileTimeWithoutSign) => size,
            _ => time,
        }
    }

    /// "A slice not exactly as long as the file."
    fn other_length(&self) -> bool {
        let size = width(self.entry.kind);
        let header = if self.has(Fault::FileHeaderPadded) { 32 } else { 28 };
        let extremes = match self.model.fault {
            Some(Fault::FileWithoutExtremes) => 0,
            Some(Fault::FileOneRecordOfExtremes) => 2,
            _ => 2 * self.entry.m,
        };
        let whole = header + (extremes + self.entry.n * self.entry.m) * size;
        match self.model.fault {
            Some(Fault::FileLongerSlicePassed | Fault::FileClearsRest) => self.length < whole,
            Some(Fault::FileShorterSlicePassed) => self.length > whole,
            Some(Fault::FileLengthInWords) => self.length / 4 != whole / 4,
            _ => self.length != whole,
        }
    }

    /// "Magic 1062053, time, count as high and low word, dimensions, code 9 or 10, all columns' smallest
    /// values, all largest, the data."
    fn bytes(&self) -> Vec<u8> {
        let Listed { n, m, kind, .. } = self.entry;
        let count = if self.has(Fault::FileCountOfElements) { n * m } else { n };
        let mut words = [count >> 32, count % (1 << 32)];
        if self.has(Fault::FileCountWordsSwapped) {
            words.reverse();
        }
        let dimensions = if self.has(Fault::FileDimensionsAlways1) { 1 } else { m };
        let code = match self.model.fault {
            Some(Fault::FileCodeFromZero) => kind - 1,
            Some(Fault::FileCodeAlways9) => 9,
            Some(Fault::FileCodeOfSize) => self.format.size as u8,
            _ => kind,
        };
        let mut numbers = vec![(Part::Magic, 1_062_053, 4)];
        if self.has(Fault::FileHeaderPadded) {
            numbers.push((Part::Magic, 0, 4));
        }
        numbers.push((Part::Time, self.time(), 8));
        numbers.extend(words.map(|word| (Part::Count, word, 4)));
        numbers.extend([(Part::Dimensions, dimensions, 4), (Part::Code, code.into(), 4)]);
        let size = self.format.size;
        numbers.extend(self.extremes().into_iter().map(|bits| (Part::Extreme, bits, size)));
        numbers.extend(self.data().into_iter().map(|bits| (Part::Element, bits, size)));
        numbers.into_iter().flat_map(|(part, number, size)| self.xdr(part, number, size)).collect()
    }

    fn data(&self) -> Vec<u128> {
        let rows = self.elements();
        match self.model.fault {
            Some(Fault::FileDataByColumns) => self.columns(&rows).concat(),
            _ => rows,
        }
    }

    /// "All in XDR (big-endian)."
    fn xdr(&self, part: Part, number: u128, size: usize) -> Vec<u8> {
        let highest_first = (0..size).rev().map(|place| (number >> (8 * place)) as u8);
        let mut bytes: Vec<u8> = highest_first.collect();
        let little = match self.model.fault {
            Some(Fault::FileMagicLittleEndian) => part == Part::Magic,
            Some(Fault::FileTimeLittleEndian) => part == Part::Time,
            Some(Fault::FileCountLittleEndian) => part == Part::Count,
            Some(Fault::FileDimensionsLittleEndian) => part == Part::Dimensions,
            Some(Fault::FileCodeLittleEndian) => part == Part::Code,
            Some(Fault::FileExtremesLittleEndian) => part == Part::Extreme,
            Some(Fault::FileDataLittleEndian) => part == Part::Element,
            _ => false,
        };
        if little {
            bytes.reverse();
        }
        let swapped = match self.model.fault {
            Some(Fault::FileTimeHalvesSwapped) => part == Part::Time,
            Some(Fault::FileHalvesSwapped) => part == Part::Element,
            _ => false,
        };
        if swapped && size == 8 {
            bytes.rotate_left(4);
        }
        bytes
    }

    /// Each column from its first row to its last.
    fn columns(&self, rows: &[u128]) -> Vec<Vec<u128>> {
        let [n, m] = [self.entry.n, self.entry.m].map(|number| number as usize);
        let column = |column: usize| match self.model.fault {
            Some(Fault::FileColumnsInThirds) => rows[n * column..][..n].to_vec(),
            Some(Fault::FileColumnsFromNext) => {
                rows.iter().skip((column + 1) % m).step_by(m).copied().collect()
            }
            Some(Fault::FileOneColumnForAll) => rows.to_vec(),
            _ => rows.iter().skip(column).step_by(m).copied().collect(),
        };
        (0..m).map(column).collect()
    }

    /// The smallest values, then the largest.
    fn extremes(&self) -> Vec<u128> {
        let columns = self.columns(&self.elements());
        let smallest = columns.iter().map(|column| self.extreme(column, -1));
        let largest = columns.iter().map(|column| self.extreme(column, 1));
        match self.model.fault {
            Some(Fault::FileWithoutExtremes) => Vec::new(),
            Some(Fault::FileExtremesSwapped) => largest.chain(smallest).collect(),
            Some(Fault::FileExtremesByColumn) => {
                smallest.zip(largest).flat_map(|(smallest, largest)| [smallest, largest]).collect()
            }
            Some(Fault::FileOneRecordOfExtremes) => {
                let all = columns.concat();
                vec![self.extreme(&all, -1), self.extreme(&all, 1)]
            }
            _ => smallest.chain(largest).collect(),
        }
    }

    /// "Each extreme is an element of its column, and none there is less than the smallest or greater
    /// than the largest." "Of equal values the first met is kept."
    fn extreme(&self, column: &[u128], sign: i128) -> u128 {
        let Format { exponent, fraction, .. } = self.format;
        let infinity = self.format.infinity();
        let minus = 1 << (exponent + fraction);
        let begun = match self.model.fault {
            Some(Fault::FileExtremesFromZero) => Some(0),
            Some(Fault::FileLargestFromLeastNormal) if sign > 0 => Some(1 << fraction),
            Some(Fault::FileExtremesFromGreatest) => {
                Some(infinity - 1 + if sign > 0 { minus } else { 0 })
            }
            _ => None,
        };
        let mut met: Vec<u128> = begun.into_iter().chain(column.iter().copied()).collect();
        match self.model.fault {
            Some(Fault::FileFirstRowLeftOut) if met.len() > 1 => drop(met.remove(0)),
            Some(Fault::FileLastRowLeftOut) if met.len() > 1 => drop(met.pop()),
            Some(Fault::FileInfinitiesLeftOut) => {
                let finite = met.iter().copied().filter(|&bits| self.format.finite(bits));
                let finite: Vec<u128> = finite.collect();
                met = if finite.is_empty() { met } else { finite };
            }
            _ => {}
        }
        let place = |bits: &u128| sign * self.place(*bits);
        let farthest = met.iter().map(place).max();
        let mut among = met.iter().filter(|bits| Some(place(bits)) == farthest);
        let last = match self.model.fault {
            Some(Fault::FileLastSmallestKept) => sign < 0,
            Some(Fault::FileLastLargestKept) => sign > 0,
            _ => false,
        };
        let extreme = if last { among.next_back() } else { among.next() };
        // Of no rows, which only a fault has passed.
        let extreme = extreme.copied().unwrap_or(0);
        let zero = self.format.magnitude(extreme) == 0;
        if zero && self.has(Fault::FileMinusZeroExtremeLost) {
            return 0;
        }
        extreme
    }

    /// Where a number stands among all numbers: as far from zero as its magnitude's bits count, to
    /// either side. Zeros of both signs stand in one place.
    fn place(&self, bits: u128) -> i128 {
        let minus = self.format.minus(bits);
        let magnitude = self.format.magnitude(bits);
        let far = match self.model.fault {
            Some(Fault::FileComparedByBits) => return bits as i128,
            Some(Fault::FileComparedBySignedBits) if minus => return bits as i128 - (1 << 64),
            Some(Fault::FileComparedByMagnitude) => return magnitude as i128,
            Some(Fault::FileZerosOrdered) if minus => magnitude + 1,
            Some(Fault::FileSmallComparedAsZero) if magnitude >> self.format.fraction == 0 => 0,
            Some(Fault::FileDoublesComparedAsFloats) if self.format.fraction == 52 => {
                magnitude >> 29
            }
            Some(Fault::FileDoublesComparedByHighHalf) if self.format.fraction == 52 => {
                magnitude >> 32
            }
            _ => magnitude,
        };
        if minus {
            -(far as i128)
        } else {
            far as i128
        }
    }
}
