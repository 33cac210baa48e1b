//! Document 01 once more, with the changes of document 02, sentence by sentence and slowly: whole
//! numbers are `u128`, an append is the list of its stores, and they are made one by one.
//!
//! It stands in for the library where there is no archive, and it can be told to make a hurried
//! builder's [`Fault`], so that the tests can be tested: each must be noticed.

mod nchilada;
mod rawarray;
mod reader;

use crate::images::listed;
use crate::library::{Create, Library, Reader, State, REFUSED};
use std::cell::RefCell;
use std::collections::{BTreeSet, VecDeque};
use std::ops::Range;
use std::rc::Rc;

macro_rules! faults {
    ($($fault:ident,)*) => {
        #[derive(Clone, Copy, Debug, PartialEq, Eq)]
        pub enum Fault {
            $($fault,)*
        }

        impl Fault {
            pub const ALL: &[Fault] = &[$(Fault::$fault,)*];
        }
    };
}

faults! {
    FiveOfApplicationOnly,
    BlockSizeWraps,
    EmptyBlockSharesBytes,
    TenBeforeNine,
    ElevenBeforeTen,
    NamesOver63Refused,
    TestsBeforeListEnd,
    LocationUnsigned,
    TypeZeroKnown,
    LowestNumberOfAllEntries,
    GapsRefused,
    FirstFrameAboveZeroRefused,
    FrameMayFall,
    IdsMayBeEqual,
    KeyWraps,
    ChunkSizeWraps,
    ChunkEndWraps,
    EmptyChunkSharesBytes,
    SeventeenOfIndexOnly,
    OverlappingChunksRefused,
    EighteenLeftOut,
    EighteenFromOneLess,
    EighteenFromOneMore,
    EighteenBeforeTwelve,
    EighteenBeforeSixteen,
    EighteenBeforeSeventeen,
    EighteenAtListEnd,
    FramesDistinct,
    EmptyFrameNotThere,
    LookupFrameWraps,
    LookupPastLastFrame,
    ElementPlaceWraps,
    SignedNotExtended,
    RefusalClearsOut,
    RefusedAppendKeepsOut,
    CreateTestsOne,
    CreateNeedsBothZero,
    ZeroSlotsAre64,
    ZeroSegmentsAre512,
    CreateClearsAll,
    CreateKeepsReserved,
    EmptyBlocksMayBeOdd,
    ThirtyOneLeftOut,
    ThirtyOneFromOneLess,
    ThirtyOneBeforeTwentyOne,
    ThirtyOneAfterTwentyTwo,
    ThirtyOneAfterTwentyNine,
    RowsUpTo65,
    RowSizeWraps,
    TwentySevenBeforeTwentySix,
    LengthBeforeTypes,
    NamesUpTo1025,
    EndOfUseSkipsEmptyChunks,
    EndOfUseNotRounded,
    FinalPositionNotPadded,
    FitNeedsSpareZero,
    ZeroDoublesToOne,
    NotDoubledOften,
    IndexNotCleared,
    NamesNotCleared,
    NothingClearedBeforeMove,
    WordOfListEndCleared,
    PaddingKept,
    NewBlockNotCleared,
    CountBeforeLocation,
    NameFromItsFront,
    NamesShareStore,
    IdsByName,
    EntriesInRowOrder,
    EntriesFirstToLast,
    LocationNotLast,
    FlagsNotCopied,
    LimitBeforeTests,
    AllStoresAtOnce,
    DoneCountsChanges,
    EmptyChunkAtEndOfUse,
    AppendFillsGap,
    VersionByMajor,
    CharacterKnownIn2_0,
    CharacterUnknownIn2_1,
    TypeTwelveKnown,
    CharacterSigned,
    CreateMakes2_0,
    CharacterInAnySheet,
    CharacterInNoSheet,
    AppendMakes2_1,
    ProbesOfWalk,
    ProbesByDigits,
    LastProbeNotCounted,
    SearchEndsAtFind,
    MiddleBelow,
    HalvesToFrame,
    IdNotCompared,
    SlotsSearched,
    EntryBeforeTaken,
    SearchBeforeTests,
    RefusedProbesKeepOut,
    NoChunkNoProbes,
    ThirtyLeftOut,
    InfinityRefused,
    MinusZeroRefused,
    NegativeNanPassed,
    SignallingPassed,
    QuietPassed,
    FloatsNotTested,
    DoublesNotTested,
    DoubleByHighHalf,
    DoubleAsTwoFloats,
    ElementsBigEndian,
    FloatsOneByteOff,
    EveryPlaceTested,
    FirstElementNotTested,
    LastElementNotTested,
    OnlyFirstRowTested,
    OnlyLastRowTested,
    NForElements,
    MForElements,
    U32RowRefused,
    U64RowRefused,
    CharacterRowRefused,
    ThirtyBeforeOpening,
    ThirtyBeforeThirtyOne,
    ThirtyBeforeTwentySix,
    ThirtyBeforeTwentySeven,
    ThirtyAfterTwentyEight,
    ThirtyAfterTwentyNine,
    ThirtyNotAtLimitZero,
    ThirtyForImage,
    NanQuietedWhenRead,
    Version1_0Refused,
    Version1ByMajor,
    RunningNamesIn1_0,
    SegmentNamesIn2_0,
    SecondSegmentSkipped,
    UnclosedSegmentPassed,
    UnclosedSegmentCut,
    NextSegmentCloses,
    NineOfFirstSegmentOnly,
    NineOfLastSegmentOnly,
    NineBehindListedSegments,
    EmptySegmentsSkipped,
    EmptySegmentsNamed,
    TrailingBytesNamed,
    WholeSegmentsCompared,
    TenBeforeNineIn1_0,
    TenLeftOutIn1_0,
    TenOfSegments,
    UsedNamesInHeader,
    UsedSlotsInHeader,
    EverySlotUsed,
    OneSlotMoreRead,
    OneSegmentMoreRead,
    SeventeenOfListedSegments,
    CharacterKnownIn1_0,
    FifteenBeforeFourteenIn1_0,
    SortedIn1_0,
    WrittenOrderIn2_0,
    OnlyNeighboursCompared,
    FrameMayFallIn1_0,
    SecondEntryPassed,
    IdOnceInList,
    LastFrameOfAnother,
    NoFrameIsZero,
    NoFrameIsFirstRefused,
    NoFrameIsLast,
    LastFramesIn32Bits,
    IdsIn8Bits,
    IdsInOneWord,
    GapsRefusedIn1_0,
    FirstFrameAboveZeroRefusedIn1_0,
    EighteenLeftOutIn1_0,
    HalvesToIdIn1_0,
    WalkOneShort,
    WalkNotStopped,
    WalkIntoNextFrame,
    WalkFromListStart,
    WalkFromAnyOfFrame,
    WalkBackwards,
    WalkGoesOnAtFind,
    PlaceNotReadAgain,
    NextFrameNotProbed,
    AppendTo1_0,
    TwentyFor2_0,
    TwentyBeforeOpening,
    TwentyAfterTwentyOne,
    TwentyAfterThirtyOne,
    TwentyAfterTwentyTwo,
    TwentyAfterTwentyNine,
    TwentyNotAtLimitZero,
    TwentyUpgrades,
    StartsOn8,
    StartsOn32,
    StartsOn128,
    StartsOn8In2_0,
    StartsOn8InOlderImages,
    NextMultipleAlways,
    LengthsRounded,
    EndOfUseOn8,
    RowsOn8,
    EmptyChunkNotRounded,
    MovedNamesOn8,
    MovedIndexOn8,
    GapsStored,
    FirstGapStored,
    RowsPaddedTo64,
    GapsNotIn29,
    EmptyLastChunkFits,
    EmptyRowsFit,
    FinalPositionOn64,
    TwentyOneBy64,
    TwentyOneForChunks,
    OlderBlocksMove,
    CreateNamesBehindIndex,
    CreateRoundsSlots,
    CreateClearsGap,
    CreateNeedsNoGap,
    CreateNeedsNextMultiple,
    OldSlotsCopied,
    NewSlotsCopied,
    SlotsGainedCopied,
    WordsCopied,
    BlockWordsCopied,
    FramesCopied,
    NamesCopied,
    NewRowsCopied,
    LeftoversCopied,
    EachDoublingCopies,
    NothingCopied,
    NotCopiedAtLimitZero,
    NotCopiedBeforeStep5,
    NotCopiedUnlessWhole,
    CopiedByTheStop,
    CopiedWithNames,
    CopiedWhereIndexStays,
    CopiedAndWholeSwapped,
    RefusedAppendKeepsCopied,
    RefusedAppendCounts,
    NoRoomStillCopies,
    IndexGrowsByNeed,
    IndexMovesAlways,
    RefusedBeginKeepsState,
    RefusedBeginKeepsOut,
    BeginCopiesNothing,
    RefusedStateAccepted,
    StateNotTested,
    TurnRestarts,
    TurnLosesRest,
    TurnMakesOneMore,
    TurnAnswersSum,
    SumOfLimitsWraps,
    TurnOpens,
    TurnTestsSheet,
    TurnTestsEntries,
    Word8NotCompared,
    Word16NotCompared,
    Word24NotCompared,
    Word32NotCompared,
    HeaderIn32Bits,
    HeaderOfTheBeginning,
    HeaderMovesByBlocks,
    MagicCompared,
    SchemaVersionCompared,
    VersionCompared,
    ImageLengthNotCompared,
    SheetLengthNotCompared,
    ImageCompared,
    SheetCompared,
    ThirtyTwoAfterEnd,
    ThirtyTwoNotAfterEnd,
    ThirtyTwoNotAtLimitZero,
    ThirtyTwoAfterStores,
    RefusedTurnEndsState,
    RefusedTurnKeepsOut,
    TableReadAgain,
    NamesReadAgain,
    EntriesReadAgain,
    ReaderRefusedOpenClears,
    ReaderSizeOfBlock,
    ReaderSizeWithoutLastZero,
    ReaderSizeIsPlace,
    ReaderRunningSizeIn1_0,
    ReaderCountsSlots,
    ReaderVersionOfEightBytes,
    ReaderKeepsLastWord,
    ReaderOpensAgain,
    ReaderVersionIn32Bits,
    ReaderVersionUnknownIs2_1,
    ReaderLastWordTested,
    ReaderSlotsWrap,
    ReaderIndexEndWraps,
    ReaderListEndWraps,
    ReaderNamesUpTo1023,
    ReaderNamesUpTo1025,
    ReaderNamesNotTested,
    ReaderShortImageRefused,
    ReaderIndexEndInside,
    ReaderListEndInside,
    ReaderPlacesFrom256,
    ReaderBlocksApart,
    ReaderFramesNeedEntries,
    ReaderHeaderCompared,
    ReaderVersionOfImage,
    ReaderEntriesOfImage,
    ReaderFramesOfImage,
    ReaderIndexOfImage,
    ReaderNamelistOfImage,
    ReaderNamesOfImage,
    ReaderGrownImageRefused,
    ReaderSlotsEndAtZero,
    ReaderRunningNamesIn1_0,
    ReaderSegmentNamesIn2_0,
    ReaderNamesNotCounted,
    ReaderListNotCut,
    ReaderEmptyNameSkipped,
    ReaderEmptyNameListed,
    ReaderUnclosedNameListed,
    ReaderSegmentsRoundedUp,
    ReaderEmptySegmentSkipped,
    ReaderFullSegmentEndsList,
    ReaderFullSegmentCut,
    ReaderNthNameByCount,
    ReaderNthIn32Bits,
    ReaderEntryMustHold,
    ReaderStartOfNameFound,
    ReaderLongerNameFound,
    ReaderNameLengthsIn8Bits,
    ReaderLastEqualName,
    ReaderEmptyNameFound,
    FindByListedNames,
    FindAnyId,
    ReaderFortyOneFirst,
    FindIdIn16Bits,
    FindBehindLastFrame,
    FoundMustHold,
    ReaderLookupMustHold,
    ReaderGoesThroughSlots,
    ReaderHalvesToIdIn1_0,
    ReaderHalvesToFrame,
    ReaderWalksIn2,
    ReaderWalkGoesOn,
    ReaderWalkOneShort,
    ReaderLocationZeroIsNone,
    ReaderKeyWraps,
    ReaderMiddleBelow,
    NewestOfLastFrame,
    NewestBelowFrame,
    NewestBelowId,
    NewestToIdIn1_0,
    NewestToFrameIn2,
    NewestIsOldest,
    NewestIsNeighbour,
    NewestFromPlaceItself,
    NewestOfFrameAlone,
    NewestInEmptyFrameIsNone,
    NewestGoesThroughSlots,
    NewestIsGreatest,
    NewestMustHold,
    ReaderTypeByImage,
    ReaderCharacterIn2_0,
    ReaderCharacterIn1_0,
    ReaderCharacterNever,
    ReaderTypeNotTested,
    ReaderChunkSizeWraps,
    ReaderChunkEndWraps,
    ReaderChunkNotTested,
    ReaderChunkEndInside,
    ReaderChunkStartTested,
    ReaderEmptyChunkAnywhere,
    ReaderChunkFrom256,
    ReaderFortyThreeFirst,
    ReaderRefusedChunkWrites,
    ReaderFortyFirst,
    ReaderFortyFourFirst,
    ReaderRefusalClearsOut,
    OldNamesCleared,
    OldIndexCleared,
    FileStepBeforeOpening,
    FileShortSliceFirst,
    FileOldImageRefused,
    FileSixtyOneFirst,
    FileSixtyTwoFirst,
    FileSixtyThreeFirst,
    FileSixtyThreeBeforeSixtyOne,
    FileSixtyThreeBeforeSixtyTwo,
    FileSixtyFourFirst,
    FileSixtyFourBeforeSixtyOne,
    FileSixtyFourBeforeSixtyTwo,
    FileSixtyFourBeforeSixtyThree,
    FileSixtyTwoWrites,
    FileSixtyThreeWrites,
    FileSixtyFourWrites,
    FileClearsRest,
    FileRefusalClears,
    FileOfNoRows,
    FileCharacterPassed,
    FileTypeBySize,
    FileDoubleRefused,
    FileFloatRefused,
    FileTwoColumnsPassed,
    FileNoColumnsPassed,
    FileAnyColumnsPassed,
    FileThreeColumnsRefused,
    FileOneColumnRefused,
    FileColumnsIn8Bits,
    FileColumnsIn16Bits,
    FileNanPassed,
    FileFirstElementNotTested,
    FileLastElementNotTested,
    FileFirstColumnTested,
    FileNElementsTested,
    FileSignallingPassed,
    FileQuietPassed,
    FileNegativeNanPassed,
    FileInfinityRefused,
    FileNanByHighHalf,
    FileSixtyThreeLeftOut,
    FileTimeNotTested,
    FileStepNanPassed,
    FileOnlyInfiniteTime,
    FileFrameZeroNotTested,
    FileNegativeStepRefused,
    FileZeroStepRefused,
    FileSmallStepRefused,
    FileZeroTimeRefused,
    FileGreatestTimeRefused,
    FileTimeCut,
    FileTimeTieUp,
    FileTimeTieDown,
    FileTimeIsSum,
    FileTimeByRate,
    FileTimeAsFloat,
    FileStepAsFloat,
    FileFrameAsFloat,
    FileFrameSigned,
    FileFrameFromOne,
    FileStepsAddedUp,
    FileMinusZeroTimeLost,
    FileSmallTimeFlushed,
    FileTimeWithoutSign,
    FileHeaderPadded,
    FileWithoutExtremes,
    FileOneRecordOfExtremes,
    FileLongerSlicePassed,
    FileShorterSlicePassed,
    FileLengthInWords,
    FileCountOfElements,
    FileCountWordsSwapped,
    FileDimensionsAlways1,
    FileCodeFromZero,
    FileCodeAlways9,
    FileCodeOfSize,
    FileDataByColumns,
    FileMagicLittleEndian,
    FileTimeLittleEndian,
    FileCountLittleEndian,
    FileDimensionsLittleEndian,
    FileCodeLittleEndian,
    FileExtremesLittleEndian,
    FileDataLittleEndian,
    FileTimeHalvesSwapped,
    FileHalvesSwapped,
    FileColumnsInThirds,
    FileColumnsFromNext,
    FileOneColumnForAll,
    FileExtremesSwapped,
    FileExtremesByColumn,
    FileExtremesFromZero,
    FileLargestFromLeastNormal,
    FileExtremesFromGreatest,
    FileFirstRowLeftOut,
    FileLastRowLeftOut,
    FileInfinitiesLeftOut,
    FileLastSmallestKept,
    FileLastLargestKept,
    FileMinusZeroExtremeLost,
    FileComparedByBits,
    FileComparedBySignedBits,
    FileComparedByMagnitude,
    FileZerosOrdered,
    FileSmallComparedAsZero,
    FileDoublesComparedAsFloats,
    FileDoublesComparedByHighHalf,
    ArrayOutLongerSlicePassed,
    ArrayOutClearsRest,
    ArrayOutShorterSlicePassed,
    ArrayOutLengthInWords,
    ArrayOutSeventySevenWrites,
    ArrayOutRefusalClears,
    ArrayOutShortSliceFirst,
    ArrayOutOldImageRefused,
    ArrayOutOnlyFloats,
    ArrayOutNoRowsRefused,
    ArrayOutEmptyRefused,
    ArrayOutNanRefused,
    ArrayOutMagicTurned,
    ArrayOutFlagsOfEntry,
    ArrayOutFlagsOne,
    ArrayOutCharacterOwn,
    ArrayOutCharacterSigned,
    ArrayOutOurType,
    ArrayOutSignsSwapped,
    ArrayOutFloatsAreFour,
    ArrayOutDoublesAreFour,
    ArrayOutWidthInBits,
    ArrayOutWidthOfRow,
    ArrayOutLengthOfElements,
    ArrayOutLengthOfRows,
    ArrayOutLengthOfFile,
    ArrayOutNBeforeM,
    ArrayOutOneDimension,
    ArrayOutColumnIsOneDimension,
    ArrayOutNOfElements,
    ArrayOutEmptyIsZeroByZero,
    ArrayOutMIn16Bits,
    ArrayOutNIn32Bits,
    ArrayOutCountOfFilled,
    ArrayOutLengthBehindCount,
    ArrayOutWidthBeforeType,
    ArrayOutBigEndian,
    ArrayOutDataBigEndian,
    ArrayOutDataByColumns,
    ArrayInSeventyOneFirst,
    ArrayInSeventyTwoBeforeSeventyOne,
    ArrayInSeventyThreeBeforeSeventyTwo,
    ArrayInSeventyFourBeforeSeventyThree,
    ArrayInSeventyFiveBeforeSeventyFour,
    ArrayInSeventySixBeforeSeventyFive,
    ArrayInSeventyEightBeforeSeventySix,
    ArrayInSeventyEightFirst,
    ArrayInSeventyNineBeforeSeventyEight,
    ArrayInSeventyNineBeforeSeventySix,
    ArrayInSeventyNineFirst,
    ArrayInSeventyEightWrites,
    ArrayInSeventyNineWrites,
    ArrayInClearsRest,
    ArrayInRefusalClears,
    ArrayInBigEndian,
    ArrayInFlagsIgnored,
    ArrayInFlagsOfByte,
    ArrayInFlagsIn32Bits,
    ArrayInFlagOnePassed,
    ArrayInTypeOfByte,
    ArrayInTypeIn32Bits,
    ArrayInWidthOfByte,
    ArrayInWidthIn32Bits,
    ArrayInLengthIn32Bits,
    ArrayInDimensionsOfByte,
    ArrayInDimensionsIn32Bits,
    ArrayInShapeIn32Bits,
    ArrayInNanRefused,
    ArrayInSeventyLeftOut,
    ArrayInSeventyFromOneLess,
    ArrayInSeventyFromOneMore,
    ArrayInSeventyUnder56,
    ArrayInSeventyUnder64,
    ArrayInMagicIgnored,
    ArrayInMagicOfThree,
    ArrayInMagicOfSeven,
    ArrayInMagicOfAnyCase,
    ArrayInMagicTurned,
    ArrayInStructuresPassed,
    ArrayInComplexPassed,
    ArrayInBrainFloatsPassed,
    ArrayInSignsSwapped,
    ArrayInSignedRefused,
    ArrayInUnsignedRefused,
    ArrayInFloatsRefused,
    ArrayInNoWidthPassed,
    ArrayInWidthRounded,
    ArrayInHalfFloatsPassed,
    ArrayInLongNumbersPassed,
    ArrayInBytesRefused,
    ArrayInEightBytesRefused,
    ArrayInCharactersComeBack,
    ArrayInTypeFromZero,
    ArrayInSmallSignedIsUnsigned,
    ArrayInNoDimensionPassed,
    ArrayInThreeDimensionsPassed,
    ArrayInOneDimensionRefused,
    ArrayInTwoDimensionsRefused,
    ArrayInShapeOutsidePassed,
    ArrayInShapeOutsideByOne,
    ArrayInOneDimensionNeeds64,
    ArrayInShapeFillsNoFile,
    ArrayInDataAlwaysFrom64,
    ArrayInDataAlwaysFrom56,
    ArrayInLineIsRow,
    ArrayInLineHasNoColumns,
    ArrayInNBeforeM,
    ArrayInProductWraps,
    ArrayInElementsWrap,
    ArrayInRowWraps,
    ArrayInWidthLeftOut,
    ArrayInColumnsLeftOut,
    ArrayInLengthIgnored,
    ArrayInLengthOfRest,
    ArrayInLengthNotTested,
    ArrayInLongerDataPassed,
    ArrayInShorterDataPassed,
    ArrayInEmptyRefused,
    ArrayInNoColumnsRefused,
    ArrayInNoRowsRefused,
    ArrayInRowsIn32Bits,
    ArrayInDataOutsidePassed,
    ArrayInDataOutsideByOne,
    ArrayInDataEndsInside,
    ArrayInDataNotBehindHeader,
    ArrayInEndWraps,
    ArrayInMoreBytesRefused,
    ArrayInSeventySixLeftOut,
    ArrayInSeventySixFromOneLess,
    ArrayInSeventySixFromOneMore,
    ArrayInSeventySixOfN,
    ArrayInSeventySixOfBoth,
    ArrayInSeventySixSigned,
    ArrayInSeventyEightLeftOut,
    ArrayInNoNamePassed,
    ArrayInLongNamePassed,
    ArrayInNameOf256Passed,
    ArrayInNameOf255Refused,
    ArrayInNameOver63Refused,
    ArrayInNameOfOneRefused,
    ArrayInZeroInNamePassed,
    ArrayInFirstOfNameNotTested,
    ArrayInLastOfNameNotTested,
    ArrayInNameNotAsciiRefused,
    ArrayInSheetTakesRest,
    ArrayInNameClosed,
    ArrayInLongerSlicePassed,
    ArrayInShorterSlicePassed,
    ArrayInSliceInWords,
    ArrayInSheetInByte,
    ArrayInDataFromEnd,
    ArrayInDataFromShape,
    ArrayInDataBigEndian,
    ArrayInRowTurned,
    ArrayInEmptyIsZeroByZero,
    ArrayInFlattened,
    ArrayInMIn16Bits,
    ArrayInNIn32Bits,
    ArrayInCountFromZero,
    ArrayInNameLengthBeforeType,
    ArrayInFilesType,
    ArrayInNameLengthWithZero,
    ArrayInSpareBytesKept,
    ArrayInMBeforeN,
    ArrayInSheetBigEndian,
    ArrayInNameBehindData,
    ArrayInDataLeftOut,
}

pub struct Model {
    pub fault: Option<Fault>,
}

/// The library before W-211, which made the older images.
pub const EARLIER: Model = Model { fault: Some(Fault::StartsOn8) };

type Verdict<T> = Result<T, u64>;

/// Little-endian, of any width.
fn number(bytes: &[u8], at: usize, width: usize) -> u128 {
    (0..width).rev().fold(0, |sum, n| sum * 256 + u128::from(bytes[at + n]))
}

const VERSION_1_0: u128 = 0x0001_0000;
const VERSION_2_0: u128 = 0x0002_0000;
const VERSION_2_1: u128 = 0x0002_0001;

fn width(kind: u8) -> u128 {
    match kind {
        1 | 5 | 11 => 1,
        2 | 6 => 2,
        3 | 7 | 9 => 4,
        4 | 8 | 10 => 8,
        _ => 0,
    }
}

/// The bytes of a float or double, and the bits of its exponent and of its fraction.
#[derive(Clone, Copy)]
struct Format {
    size: usize,
    exponent: u32,
    fraction: u32,
}

const FLOAT: Format = Format { size: 4, exponent: 8, fraction: 23 };
const DOUBLE: Format = Format { size: 8, exponent: 11, fraction: 52 };

fn round_up(place: u128, unit: u128) -> u128 {
    place.div_ceil(unit) * unit
}

/// "The end of use, and each start in steps 2, 3 and 5."
#[derive(Clone, Copy)]
enum Start {
    EndOfUse,
    Row,
    EmptyRow,
    Names,
    Index,
}

#[derive(Clone, Copy)]
struct Listed {
    frame: u128,
    n: u128,
    location: u128,
    m: u128,
    id: u128,
    kind: u8,
    flags: u8,
}

impl Listed {
    fn at(image: &[u8], at: usize) -> Listed {
        Listed {
            frame: number(image, at, 8),
            n: number(image, at + 8, 8),
            location: number(image, at + 16, 8),
            m: number(image, at + 24, 4),
            id: number(image, at + 28, 2),
            kind: image[at + 30],
            flags: image[at + 31],
        }
    }

    fn fields(self) -> [u64; 7] {
        let Listed { frame, n, location, m, id, kind, flags } = self;
        [frame, n, location, m, id, kind.into(), flags.into()].map(|number| number as u64)
    }

    fn length(self) -> u128 {
        self.n * self.m * width(self.kind)
    }

    fn key(self) -> Key {
        (self.frame, self.id)
    }
}

/// "The list is sorted by frame and id."
type Key = (u128, u128);

/// The frames that entries name, each once.
fn named(entries: &[Listed]) -> BTreeSet<u128> {
    entries.iter().map(|entry| entry.frame).collect()
}

/// Binary digits, none for 0.
fn digits(number: usize) -> usize {
    (0..usize::BITS).take_while(|power| number >> power > 0).count()
}

/// Of the list of probes: it "holds the found entry, or else those next to its place; n entries
/// take at most one probe more than n has binary digits". In 1.0 "the bound grows by" the frame's
/// "entry count, and without a find the list holds its entries and those next to their place". No
/// word of this is about halving.
fn kept(entries: &[Listed], key: Key, version: u128, probed: &[usize]) -> bool {
    let amid = |entry: &&Listed| version == VERSION_1_0 && entry.frame == key.0;
    let inside = entries.iter().filter(amid).count();
    let below = |entry: &&Listed| !amid(entry) && entry.key() < key;
    let place = entries.iter().filter(below).count();
    let held = match entries.iter().position(|entry| entry.key() == key) {
        Some(found) => found..found + 1,
        None => place.saturating_sub(1)..entries.len().min(place + inside + 1),
    };
    let few = probed.len() <= digits(entries.len()) + 1 + inside;
    few && held.into_iter().all(|at| probed.contains(&at))
}

/// The faults of a search beside which no other one is made: it has found what it read last, or
/// nothing.
fn of_last_probe(fault: Fault) -> bool {
    use Fault::*;
    [IdNotCompared, SlotsSearched, HalvesToIdIn1_0, WalkOneShort, WalkFromAnyOfFrame]
        .contains(&fault)
}

/// With these faults 20 is not the first number of an append.
const TWENTY_LATER: [Option<Fault>; 4] = [
    Some(Fault::TwentyAfterTwentyOne),
    Some(Fault::TwentyAfterThirtyOne),
    Some(Fault::TwentyAfterTwentyTwo),
    Some(Fault::TwentyAfterTwentyNine),
];

/// Start and length.
type Name = (usize, usize);

struct View {
    version: u128,
    index: u128,
    slots: u128,
    names_at: u128,
    segments: u128,
    names: Vec<Name>,
    list_end: usize,
    entries: Vec<Listed>,
    frames: u128,
}

/// What an entry is tested against.
struct Limits {
    version: u128,
    length: u128,
    names: u128,
    index: (u128, u128),
    name_block: (u128, u128),
}

struct Row<'s> {
    n: u128,
    m: u128,
    kind: u8,
    name: &'s [u8],
    data: &'s [u8],
}

/// A place and the eight bytes stored there.
type Store = (u128, [u8; 8]);

/// The stores of an append, and which of them are which step's.
struct Stores {
    all: Vec<Store>,
    /// Row by row.
    step_2: Vec<Range<usize>>,
    step_4: Range<usize>,
    /// Empty without that step.
    step_5: Range<usize>,
    /// What a hurried builder takes for the entries that are copied.
    instead: Option<u64>,
}

/// A beginning that was not refused: its slice, its sheet and its store list.
struct Begun {
    image: Vec<u8>,
    sheet: Vec<u8>,
    stores: Stores,
}

impl Begun {
    fn bytes(&self) -> usize {
        self.image.len() + self.sheet.len() + size_of::<Store>() * self.stores.all.len()
    }

    /// What its own stores have left so far.
    fn after(&self, done: usize) -> Vec<u8> {
        let mut image = self.image.clone();
        for &(at, word) in &self.stores.all[..done] {
            image[at as usize..][..8].copy_from_slice(&word);
        }
        image
    }
}

/// A state has no room for a store list, so it has the number of its beginning, and the last ones of
/// each thread are kept here, as many as have so many bytes. No test goes back further.
const KEPT: usize = 1 << 25;

#[derive(Default)]
struct Beginnings {
    /// All so far: the last one has this number, the first had 1.
    count: u64,
    last: VecDeque<Rc<Begun>>,
    bytes: usize,
}

impl Beginnings {
    fn keep(&mut self, begun: Begun) -> u64 {
        self.count += 1;
        self.bytes += begun.bytes();
        self.last.push_back(Rc::new(begun));
        while self.bytes > KEPT && self.last.len() > 1 {
            self.bytes -= self.last.pop_front().map_or(0, |begun| begun.bytes());
        }
        self.count
    }

    fn get(&self, number: u64) -> Option<Rc<Begun>> {
        let behind = self.count.checked_sub(number)? as usize;
        self.last.iter().rev().nth(behind).cloned()
    }
}

thread_local! {
    static BEGINNINGS: RefCell<Beginnings> = RefCell::default();
}

/// "The listed entries step 5 copies": the header's words, stored last, say where the new block is,
/// the others fill it, four to a slot, and "the list ends before the first entry with location 0, or
/// at the last slot".
fn copied(step_5: &[Store]) -> usize {
    let header = |at| step_5.iter().find(|store| store.0 == at).map(|store| number(&store.1, 0, 8));
    let (Some(block), Some(slots)) = (header(8), header(16)) else {
        return 0;
    };
    let inside = |store: &&Store| (block..block + 32 * slots).contains(&store.0);
    let words: Vec<Store> = step_5.iter().filter(inside).copied().collect();
    let (entries, _) = words.as_chunks::<4>();
    entries.iter().take_while(|entry| entry[2].1 != [0; 8]).count()
}

impl Model {
    fn has(&self, fault: Fault) -> bool {
        self.fault == Some(fault)
    }

    fn wrap(&self, fault: Fault, number: u128) -> u128 {
        if self.has(fault) {
            number % (1 << 64)
        } else {
            number
        }
    }

    fn shares(&self, a: (u128, u128), b: (u128, u128), empty_counts: bool) -> bool {
        let has_bytes = a.0 < a.1 && b.0 < b.1 || empty_counts;
        has_bytes && a.0 < b.1 && b.0 < a.1
    }

    fn view(&self, image: &[u8]) -> Verdict<View> {
        let length = image.len() as u128;
        if length < 256 {
            return Err(1);
        }
        if length > 1_073_741_824 {
            return Err(2);
        }
        if number(image, 0, 8) != 0x65DF_65DF_65DF_65DF {
            return Err(3);
        }
        let version = number(image, 44, 4);
        if !self.opens(version) {
            return Err(4);
        }
        for text in [48, 112] {
            if text == 112 && self.has(Fault::FiveOfApplicationOnly) {
                continue;
            }
            if (0..64).all(|n| image[text + n] != 0) {
                return Err(5);
            }
        }
        let [index, slots, names_at, segments] = [8, 16, 24, 32].map(|at| number(image, at, 8));
        let index_end = index + self.wrap(Fault::BlockSizeWraps, 32 * slots);
        let names_end = names_at + self.wrap(Fault::BlockSizeWraps, 64 * segments);
        if index < 256 || index_end > length {
            return Err(6);
        }
        if names_at < 256 || names_end > length {
            return Err(7);
        }
        let slots = (index_end - index) / 32;
        let segments = (names_end - names_at) / 64;
        let (index_block, name_block) = ((index, index_end), (names_at, names_end));
        if self.shares(index_block, name_block, self.has(Fault::EmptyBlockSharesBytes)) {
            return Err(8);
        }

        let (names, list_end) = self.names(image, version, (names_at, names_end))?;
        self.names_listed(image, version, &names, segments)?;

        let count = names.len() as u128;
        let name_block = match version {
            VERSION_1_0 if self.has(Fault::SeventeenOfListedSegments) => {
                (names_at, names_at + list_end as u128)
            }
            _ => name_block,
        };
        let limits = Limits { version, length, names: count, index: index_block, name_block };
        let mut entries: Vec<Listed> = Vec::new();
        let mut worst = None;
        // "No header field counts used slots, whatever 001 says."
        let used = match version {
            VERSION_1_0 if self.has(Fault::UsedSlotsInHeader) => slots.min(number(image, 176, 8)),
            VERSION_1_0 if self.has(Fault::OneSlotMoreRead) => {
                (slots + 1).min((length - index) / 32)
            }
            _ => slots,
        };
        for slot in 0..used {
            let entry = Listed::at(image, (index + 32 * slot) as usize);
            if self.has(Fault::TestsBeforeListEnd) && entry.location == 0 && entry.kind > 11 {
                return Err(13);
            }
            if entry.location == 0 && version == VERSION_1_0 && self.has(Fault::EverySlotUsed) {
                return Err(12);
            }
            if entry.location == 0 {
                break;
            }
            match self.entry_verdict(&entry, &entries, &limits) {
                0 => {}
                verdict if self.has(Fault::LowestNumberOfAllEntries) => {
                    worst = Some(worst.map_or(verdict, |other: u64| other.min(verdict)));
                }
                verdict => return Err(verdict),
            }
            entries.push(entry);
        }
        if let Some(verdict) = worst {
            return Err(verdict);
        }
        let late = |entry: &Listed| self.late(entry, version);
        if self.has(Fault::EighteenAtListEnd) && entries.iter().any(late) {
            return Err(18);
        }
        let frames = self.frames(&entries);
        Ok(View { version, index, slots, names_at, segments, names, list_end, entries, frames })
    }

    /// "Number 4 is for versions other than these two", and "version 0x00010000, which 4 no longer
    /// refuses".
    fn opens(&self, version: u128) -> bool {
        match version {
            VERSION_1_0 => !self.has(Fault::Version1_0Refused),
            VERSION_2_0 | VERSION_2_1 => true,
            _ => match version >> 16 {
                1 => self.has(Fault::Version1ByMajor),
                2 => self.has(Fault::VersionByMajor),
                _ => false,
            },
        }
    }

    /// The names of a block and the length of their list.
    fn names(
        &self,
        image: &[u8],
        version: u128,
        (start, end): (u128, u128),
    ) -> Verdict<(Vec<Name>, usize)> {
        let (start, end) = (start as usize, end as usize);
        let segments = match version {
            VERSION_1_0 => !self.has(Fault::RunningNamesIn1_0),
            VERSION_2_0 => self.has(Fault::SegmentNamesIn2_0),
            _ => false,
        };
        if segments {
            self.segment_names(image, start, end)
        } else {
            self.running_names(image, start, end)
        }
    }

    /// "Names follow one another, each closed by a zero byte. The list ends at the first name that
    /// would start with zero, or at the end of the block."
    fn running_names(&self, image: &[u8], start: usize, end: usize) -> Verdict<(Vec<Name>, usize)> {
        let mut names = Vec::new();
        let mut at = start;
        while at < end && image[at] != 0 {
            if self.has(Fault::TenBeforeNine) && names.len() == 1024 {
                return Err(10);
            }
            let mut close = at;
            while close < end && image[close] != 0 {
                close += 1;
            }
            if close == end || self.has(Fault::NamesOver63Refused) && close - at > 63 {
                return Err(9);
            }
            names.push((at, close - at));
            at = close + 1;
        }
        Ok((names, at - start))
    }

    /// "Names in 64-byte segments, each with a closing zero in its segment (else 9), the list ending
    /// at the first segment that starts with zero."
    fn segment_names(&self, image: &[u8], start: usize, end: usize) -> Verdict<(Vec<Name>, usize)> {
        let more = self.has(Fault::OneSegmentMoreRead) && end + 64 <= image.len();
        let end = if more { end + 64 } else { end };
        let step = if self.has(Fault::SecondSegmentSkipped) { 128 } else { 64 };
        let mut names = Vec::new();
        let mut at = start;
        while at < end && !self.ends_segments(image, at) {
            if self.has(Fault::TenBeforeNineIn1_0) && names.len() == 1024 {
                return Err(10);
            }
            if image[at] != 0 || self.has(Fault::EmptySegmentsNamed) {
                let last = at + 64 == end || image[at + 64] == 0;
                let place = (at == start, last);
                names.push((at, self.segment_name(image, at, end, place)?));
            }
            at += step;
        }
        let unclosed = |at: usize| !image[at..at + 64].contains(&0);
        let mut behind = (at.min(end)..end).step_by(64);
        if self.has(Fault::NineBehindListedSegments) && behind.any(unclosed) {
            return Err(9);
        }
        if self.has(Fault::UsedNamesInHeader) {
            names.truncate(number(image, 184, 8).min(1 << 20) as usize);
        }
        Ok((names, at.min(end) - start))
    }

    fn ends_segments(&self, image: &[u8], at: usize) -> bool {
        let goes_on = self.has(Fault::EmptySegmentsSkipped) || self.has(Fault::EmptySegmentsNamed);
        image[at] == 0 && !goes_on
    }

    /// The length of the name whose segment this is, in a block that ends there: "what stands before
    /// the first zero of its segment". It may be the first or the last one of the list.
    fn segment_name(
        &self,
        image: &[u8],
        at: usize,
        end: usize,
        (first, last): (bool, bool),
    ) -> Verdict<usize> {
        let segment = &image[at..at + 64];
        let zero = segment.iter().position(|&byte| byte == 0);
        let trailing = segment.iter().rposition(|&byte| byte != 0).map_or(0, |at| at + 1);
        match (zero, self.fault) {
            (Some(_), Some(Fault::TrailingBytesNamed)) => Ok(trailing),
            (Some(zero), _) => Ok(zero),
            (None, Some(Fault::UnclosedSegmentPassed)) => Ok(64),
            (None, Some(Fault::UnclosedSegmentCut)) => Ok(63),
            (None, Some(Fault::NineOfFirstSegmentOnly)) if !first => Ok(64),
            (None, Some(Fault::NineOfLastSegmentOnly)) if !last => Ok(64),
            (None, Some(Fault::NextSegmentCloses)) => {
                image[at..end].iter().position(|&byte| byte == 0).ok_or(9)
            }
            (None, _) => Err(9),
        }
    }

    /// "More than 1,024 names; two equal names."
    fn names_listed(
        &self,
        image: &[u8],
        version: u128,
        names: &[Name],
        segments: u128,
    ) -> Verdict<()> {
        let old = version == VERSION_1_0;
        let whole = old && self.has(Fault::WholeSegmentsCompared);
        let text = |&(at, length): &Name| &image[at..at + if whole { 64 } else { length }];
        // Sorted, equal names are neighbours.
        let mut sorted: Vec<_> = names.iter().map(text).collect();
        sorted.sort_unstable();
        let equal = sorted.windows(2).any(|pair| pair[0] == pair[1]);
        if equal && self.has(Fault::ElevenBeforeTen) {
            return Err(11);
        }
        let many = match self.fault {
            Some(Fault::TenLeftOutIn1_0) if old => false,
            Some(Fault::TenOfSegments) if old => segments > 1024,
            _ => names.len() > 1024,
        };
        if many {
            return Err(10);
        }
        if equal {
            return Err(11);
        }
        Ok(())
    }

    /// "The number of frames stays the last entry's frame plus 1."
    fn frames(&self, entries: &[Listed]) -> u128 {
        if self.has(Fault::FramesDistinct) {
            return named(entries).len() as u128;
        }
        entries.last().map_or(0, |last| last.frame + 1)
    }

    /// "A type is now known by the image's version, 11 in 2.1 only."
    fn known(&self, kind: u8, version: u128) -> bool {
        match kind {
            1..=10 => true,
            11 => version == VERSION_2_1,
            12 => self.has(Fault::TypeTwelveKnown),
            _ => false,
        }
    }

    fn known_entry(&self, kind: u8, version: u128) -> bool {
        match self.fault {
            Some(Fault::TypeZeroKnown) if kind == 0 => true,
            Some(Fault::CharacterKnownIn2_0) if kind == 11 && version == VERSION_2_0 => true,
            Some(Fault::CharacterKnownIn1_0) if kind == 11 && version == VERSION_1_0 => true,
            Some(Fault::CharacterUnknownIn2_1) if kind == 11 => false,
            _ => self.known(kind, version),
        }
    }

    /// The row's type is judged by the version of the image that the sheet is for.
    fn known_row(&self, kind: u8, version: u128) -> bool {
        match self.fault {
            Some(Fault::CharacterInAnySheet) if kind == 11 => true,
            Some(Fault::CharacterInNoSheet) if kind == 11 => false,
            _ => self.known(kind, version),
        }
    }

    fn follows(&self, entry: &Listed, before: &[Listed], version: u128) -> bool {
        let written = match version {
            VERSION_1_0 => !self.has(Fault::SortedIn1_0),
            VERSION_2_0 => self.has(Fault::WrittenOrderIn2_0),
            _ => false,
        };
        if written {
            self.follows_written(entry, before)
        } else {
            self.follows_sorted(entry, before.last())
        }
    }

    /// Of 1.0: "A falling frame, or a second entry of one frame with one id, gives 15."
    fn follows_written(&self, entry: &Listed, before: &[Listed]) -> bool {
        let last = before.last().map(|last| last.frame);
        match self.fault {
            Some(Fault::GapsRefusedIn1_0) if last.is_some_and(|last| entry.frame > last + 1) => {
                false
            }
            Some(Fault::FirstFrameAboveZeroRefusedIn1_0) if last.is_none() => entry.frame == 0,
            Some(Fault::FrameMayFallIn1_0) => !self.is_second(entry, before),
            _ => last <= Some(entry.frame) && !self.is_second(entry, before),
        }
    }

    /// Whether an entry before it has its frame and its id.
    fn is_second(&self, entry: &Listed, before: &[Listed]) -> bool {
        // The frames do not fall, so those of its own stand together.
        let frame = before.iter().rev().take_while(|other| other.frame == entry.frame);
        let mut ids = frame.map(|other| other.id);
        // As a table of the last frame of each id has it.
        let last = |id: u128| before.iter().rev().find(|other| other.id == id).map(|of| of.frame);
        match self.fault {
            Some(Fault::OnlyNeighboursCompared) => ids.next() == Some(entry.id),
            Some(Fault::SecondEntryPassed) => false,
            Some(Fault::IdOnceInList) => last(entry.id).is_some(),
            Some(Fault::LastFrameOfAnother) => {
                last(entry.id).is_some_and(|frame| frame == before[before.len() - 1].frame)
            }
            Some(Fault::NoFrameIsZero) => last(entry.id).unwrap_or(0) == entry.frame,
            Some(Fault::NoFrameIsFirstRefused) => {
                last(entry.id).unwrap_or(4_294_967_295) == entry.frame
            }
            Some(Fault::NoFrameIsLast) => last(entry.id).unwrap_or(u64::MAX.into()) == entry.frame,
            Some(Fault::LastFramesIn32Bits) => {
                last(entry.id).is_some_and(|frame| frame == entry.frame % (1 << 32))
            }
            Some(Fault::IdsIn8Bits) => ids.any(|id| id % 256 == entry.id % 256),
            Some(Fault::IdsInOneWord) => ids.any(|id| id % 64 == entry.id % 64),
            _ => ids.any(|id| id == entry.id),
        }
    }

    /// "15 is now given only when (frame, id) isn't above the entry before", both as one number.
    fn follows_sorted(&self, entry: &Listed, before: Option<&Listed>) -> bool {
        let Some(before) = before else {
            return entry.frame == 0 || !self.has(Fault::FirstFrameAboveZeroRefused);
        };
        let [key, key_before] = [entry, before]
            .map(|entry| self.wrap(Fault::KeyWraps, 65_536 * entry.frame + entry.id));
        match self.fault {
            Some(Fault::GapsRefused) if entry.frame > before.frame + 1 => false,
            Some(Fault::FrameMayFall) if entry.id > before.id => true,
            Some(Fault::IdsMayBeEqual) => key >= key_before,
            _ => key > key_before,
        }
    }

    /// "New 18, after 17 for the same entry: frame above 4,294,967,294."
    fn late(&self, entry: &Listed, version: u128) -> bool {
        match self.fault {
            Some(Fault::EighteenLeftOut) => false,
            Some(Fault::EighteenLeftOutIn1_0) if version == VERSION_1_0 => false,
            Some(Fault::EighteenFromOneLess) => entry.frame > 4_294_967_293,
            Some(Fault::EighteenFromOneMore) => entry.frame > 4_294_967_295,
            _ => entry.frame > 4_294_967_294,
        }
    }

    fn entry_verdict(&self, entry: &Listed, before: &[Listed], limits: &Limits) -> u64 {
        let late = self.late(entry, limits.version);
        if late && self.has(Fault::EighteenBeforeTwelve) {
            return 18;
        }
        let negative = entry.location >= 1 << 63 && !self.has(Fault::LocationUnsigned);
        if entry.location < 256 || negative {
            return 12;
        }
        if !self.known_entry(entry.kind, limits.version) {
            return 13;
        }
        let follows = self.follows(entry, before, limits.version);
        let early = self.has(Fault::FifteenBeforeFourteenIn1_0) && limits.version == VERSION_1_0;
        if early && !follows {
            return 15;
        }
        if entry.id >= limits.names {
            return 14;
        }
        if !follows {
            return 15;
        }
        if late && self.has(Fault::EighteenBeforeSixteen) {
            return 18;
        }
        let bytes = self.wrap(Fault::ChunkSizeWraps, entry.length());
        let end = self.wrap(Fault::ChunkEndWraps, entry.location + bytes);
        if end > limits.length {
            return 16;
        }
        if late && self.has(Fault::EighteenBeforeSeventeen) {
            return 18;
        }
        let chunk = (entry.location, end);
        let empty_counts = self.has(Fault::EmptyChunkSharesBytes);
        let with_names = self.shares(chunk, limits.name_block, empty_counts)
            && !self.has(Fault::SeventeenOfIndexOnly);
        if self.shares(chunk, limits.index, empty_counts) || with_names {
            return 17;
        }
        let meets = |other: &Listed| {
            self.shares(chunk, (other.location, other.location + other.length()), false)
        };
        if self.has(Fault::OverlappingChunksRefused) && before.iter().any(meets) {
            return 17;
        }
        if late && !self.has(Fault::EighteenAtListEnd) {
            return 18;
        }
        0
    }

    fn found(&self, image: &[u8], frame: u64, name: &[u8]) -> Verdict<Listed> {
        self.search(image, frame, name).0
    }

    /// What a lookup answers, found by going through all entries; and "a defined list of the entries
    /// probed", by their places.
    fn search(&self, image: &[u8], frame: u64, name: &[u8]) -> (Verdict<Listed>, Vec<usize>) {
        let view = match self.view(image) {
            Ok(view) => view,
            Err(number) => return (Err(number), Vec::new()),
        };
        let listed = |&(at, length): &Name| &image[at..at + length] == name;
        let id = view.names.iter().position(listed);
        let wraps = self.has(Fault::LookupFrameWraps);
        let frame = u128::from(if wraps { frame % (1 << 32) } else { frame });
        let key = (frame, id.unwrap_or(view.names.len()) as u128);
        let past = u128::from(self.has(Fault::LookupPastLastFrame));
        let there = || named(&view.entries).contains(&frame);
        let number = match id {
            _ if frame >= view.frames + past => 40,
            _ if self.has(Fault::EmptyFrameNotThere) && !there() => 40,
            None => 41,
            Some(_) => 0,
        };
        let version = view.version;
        let mut entries = view.entries;
        if number > 0 {
            let early = self.has(Fault::SearchBeforeTests);
            let probed = if early { self.probed(&entries, key, version) } else { Vec::new() };
            return (Err(number), probed);
        }
        let here = |entry: &Listed| entry.key() == key;
        let through = entries.iter().position(here);
        let before = entries.iter().rposition(|entry| entry.key() < key);
        if self.has(Fault::SlotsSearched) {
            let slot = |slot| Listed::at(image, (view.index + 32 * slot) as usize);
            entries = (0..view.slots).map(slot).collect();
        }
        let probed = self.probed(&entries, key, version);
        if self.fault.is_none() {
            let kept = kept(&entries, key, version, &probed);
            assert!(kept, "{key:?} of {}: {probed:?}", entries.len());
        }
        let last = probed.last().copied();
        let found = match self.fault {
            Some(Fault::EntryBeforeTaken) => through.or(before),
            Some(fault) if of_last_probe(fault) => last.filter(|&place| here(&entries[place])),
            Some(Fault::WalkIntoNextFrame) if version == VERSION_1_0 => {
                last.filter(|&place| entries[place].id == key.1)
            }
            _ => through,
        };
        let probed = match self.fault {
            Some(Fault::ProbesOfWalk) => {
                (0..through.map_or(entries.len(), |place| place + 1)).collect()
            }
            Some(Fault::ProbesByDigits) => vec![0; digits(entries.len()) + 1],
            Some(Fault::NoChunkNoProbes) if found.is_none() => Vec::new(),
            _ => probed,
        };
        (found.map(|place| entries[place]).ok_or(42), probed)
    }

    /// "The list is sorted by frame and id, so the search for an entry should halve it." In 1.0 it
    /// "halves to the frame and walks it".
    fn probed(&self, entries: &[Listed], key: Key, version: u128) -> Vec<usize> {
        let to_frame = version == VERSION_1_0 && !self.has(Fault::HalvesToIdIn1_0);
        let least = match self.fault {
            _ if !to_frame => key,
            Some(Fault::WalkBackwards) => (key.0 + 1, 0),
            _ => (key.0, 0),
        };
        let (mut probed, place) = self.halved(entries, least, 0, entries.len());
        let walk = if to_frame {
            self.walked(entries, key, place, &mut probed)
        } else {
            self.read_at(entries, key, place)
        };
        [probed, walk].concat()
    }

    /// The places probed from here on, where `count` entries are left, from the place `from` on, and
    /// the place at which none is left. Of two in the middle the upper one is probed.
    fn halved(
        &self,
        entries: &[Listed],
        least: Key,
        from: usize,
        count: usize,
    ) -> (Vec<usize>, usize) {
        if count == 0 {
            return (Vec::new(), from);
        }
        let half = if self.has(Fault::MiddleBelow) { (count - 1) / 2 } else { count / 2 };
        let middle = from + half;
        let entry = entries[middle];
        let below = match self.fault {
            Some(Fault::IdNotCompared | Fault::HalvesToFrame) => entry.frame < least.0,
            _ => entry.key() < least,
        };
        let (rest, place) = if below {
            self.halved(entries, least, middle + 1, count - half - 1)
        } else if entry.key() == least && self.has(Fault::SearchEndsAtFind) {
            (Vec::new(), entries.len())
        } else {
            self.halved(entries, least, from, half)
        };
        ([vec![middle], rest].concat(), place)
    }

    /// All before the place are below the key, the others are not. What stands there is read.
    fn read_at(&self, entries: &[Listed], key: Key, place: usize) -> Vec<usize> {
        let below = entries[place..].iter().take_while(|entry| entry.key() < key).count();
        let read = match self.fault {
            Some(Fault::LastProbeNotCounted) => 0,
            Some(Fault::HalvesToFrame) => below + 1,
            _ => 1,
        };
        (place..entries.len()).take(read).collect()
    }

    /// The walk of a frame whose place was found by these probes: up to the entry sought, or to the
    /// first of another frame.
    fn walked(
        &self,
        entries: &[Listed],
        key: Key,
        place: usize,
        probed: &mut Vec<usize>,
    ) -> Vec<usize> {
        let of_frame = |&at: &usize| entries[at].frame == key.0;
        let frame = (place..entries.len()).take_while(of_frame).count();
        let mut walk: Vec<usize> = (place..entries.len()).take(frame + 1).collect();
        match self.fault {
            Some(Fault::WalkOneShort) => walk.truncate(frame.saturating_sub(1)),
            Some(Fault::NextFrameNotProbed) => walk.truncate(frame),
            Some(Fault::WalkNotStopped | Fault::WalkIntoNextFrame) => {
                walk = (place..entries.len()).collect();
            }
            Some(Fault::WalkFromListStart) => walk = (0..(place + frame + 1)).collect(),
            Some(Fault::WalkBackwards) => walk = (0..place).rev().collect(),
            Some(Fault::WalkFromAnyOfFrame) => {
                // The halving ends at the first entry of the frame that it meets.
                if let Some(met) = probed.iter().position(of_frame) {
                    walk.retain(|&at| at >= probed[met]);
                    probed.truncate(met);
                }
            }
            Some(Fault::PlaceNotReadAgain) if probed.contains(&place) => drop(walk.remove(0)),
            Some(Fault::LastProbeNotCounted) => drop(walk.pop()),
            _ => {}
        }
        walk.retain(|&at| at < entries.len());
        let ends = |&at: &usize| match self.fault {
            Some(Fault::WalkGoesOnAtFind) => false,
            Some(Fault::WalkIntoNextFrame) => entries[at].id == key.1,
            Some(Fault::WalkBackwards) => entries[at].frame < key.0 || entries[at].key() == key,
            _ => entries[at].key() == key,
        };
        let last = walk.iter().position(ends).map_or(walk.len(), |last| last + 1);
        walk.truncate(last);
        walk
    }

    fn row_count(&self, sheet: &[u8]) -> Verdict<usize> {
        if sheet.len() < 4 {
            return Err(22);
        }
        let count = number(sheet, 0, 4);
        if count == 0 || count > 64 + u128::from(self.has(Fault::RowsUpTo65)) {
            return Err(22);
        }
        Ok(count as usize)
    }

    fn rows<'s>(&self, sheet: &'s [u8], version: u128) -> Verdict<Vec<Row<'s>>> {
        let count = self.row_count(sheet)?;
        if sheet.len() < 4 + 16 * count {
            return Err(23);
        }
        let mut total = 4 + 16 * count as u128;
        for row in 0..count {
            let at = 4 + 16 * row;
            let size = number(sheet, at, 8) * number(sheet, at + 8, 4) * width(sheet[at + 12]);
            total += u128::from(sheet[at + 13]) + self.wrap(Fault::RowSizeWraps, size);
        }
        let long = total != sheet.len() as u128;
        if long && self.has(Fault::LengthBeforeTypes) {
            return Err(25);
        }
        for row in 0..count {
            let at = 4 + 16 * row;
            let known = self.known_row(sheet[at + 12], version);
            if !known || sheet[at + 13] == 0 || sheet[at + 14] != 0 || sheet[at + 15] != 0 {
                return Err(24);
            }
        }
        if long {
            return Err(25);
        }
        let mut rows = Vec::new();
        let mut body = 4 + 16 * count;
        for row in 0..count {
            let at = 4 + 16 * row;
            let (n, m) = (number(sheet, at, 8), number(sheet, at + 8, 4));
            let (kind, name_length) = (sheet[at + 12], usize::from(sheet[at + 13]));
            let size = self.wrap(Fault::RowSizeWraps, n * m * width(kind)) as usize;
            let name = &sheet[body..body + name_length];
            let data = &sheet[body + name_length..body + name_length + size];
            body += name_length + size;
            rows.push(Row { n, m, kind, name, data });
        }
        self.names_verdict(&rows)?;
        Ok(rows)
    }

    /// "A name holds a zero byte; two rows have one name."
    fn names_verdict(&self, rows: &[Row]) -> Verdict<()> {
        let holds_zero = rows.iter().any(|row| row.name.contains(&0));
        let mut twice = false;
        for a in 0..rows.len() {
            for b in 0..a {
                twice |= rows[a].name == rows[b].name;
            }
        }
        let holds_nan = self.holds_nan(rows);
        if holds_nan && self.has(Fault::ThirtyBeforeTwentySix) {
            return Err(30);
        }
        if twice && self.has(Fault::TwentySevenBeforeTwentySix) {
            return Err(27);
        }
        if holds_zero {
            return Err(26);
        }
        if holds_nan && self.has(Fault::ThirtyBeforeTwentySeven) {
            return Err(30);
        }
        if twice {
            return Err(27);
        }
        Ok(())
    }

    /// "A sheet that holds such a float or double."
    fn holds_nan(&self, rows: &[Row]) -> bool {
        let tested = match self.fault {
            Some(Fault::ThirtyLeftOut) => &[],
            Some(Fault::OnlyFirstRowTested) => &rows[..1],
            Some(Fault::OnlyLastRowTested) => &rows[rows.len() - 1..],
            _ => rows,
        };
        tested.iter().any(|row| self.row_holds_nan(row))
    }

    /// Judged without its image, by the types of 2.1.
    fn sheet_holds_nan(&self, sheet: &[u8]) -> bool {
        self.rows(sheet, VERSION_2_1).is_ok_and(|rows| self.holds_nan(&rows))
    }

    fn row_holds_nan(&self, row: &Row) -> bool {
        let format = match row.kind {
            9 if !self.has(Fault::FloatsNotTested) => FLOAT,
            10 if self.has(Fault::DoubleAsTwoFloats) => FLOAT,
            10 if !self.has(Fault::DoublesNotTested) => DOUBLE,
            3 if self.has(Fault::U32RowRefused) => FLOAT,
            4 if self.has(Fault::U64RowRefused) => DOUBLE,
            11 if self.has(Fault::CharacterRowRefused) => FLOAT,
            _ => return false,
        };
        self.patterns(row, format.size).into_iter().any(|bits| self.is_nan(format, bits))
    }

    /// The elements of a row as numbers, back to back.
    fn patterns(&self, row: &Row, size: usize) -> Vec<u128> {
        let off = usize::from(row.kind == 9 && self.has(Fault::FloatsOneByteOff));
        let step = if self.has(Fault::EveryPlaceTested) { 1 } else { size };
        // Zeros stand behind the row for a reader that strays.
        let data = [row.data, &vec![0; off]].concat();
        let mut elements: Vec<&[u8]> = data[off..].windows(size).step_by(step).collect();
        match self.fault {
            Some(Fault::FirstElementNotTested) => drop(elements.drain(..elements.len().min(1))),
            Some(Fault::LastElementNotTested) => drop(elements.pop()),
            Some(Fault::NForElements) => elements.truncate(row.n as usize),
            Some(Fault::MForElements) => elements.truncate(row.m as usize),
            _ => {}
        }
        let value = |bytes: &&[u8]| match self.fault {
            Some(Fault::ElementsBigEndian) => {
                bytes.iter().fold(0, |sum, &byte| sum * 256 + u128::from(byte))
            }
            _ => number(bytes, 0, size),
        };
        elements.iter().map(value).collect()
    }

    /// "Floats that aren't numbers": the exponent is all ones, and the fraction is not 0, which
    /// would be an infinity. "Infinities pass."
    fn is_nan(&self, format: Format, bits: u128) -> bool {
        let Format { exponent, fraction, .. } = format;
        let minus = bits >> (exponent + fraction) == 1;
        let magnitude = bits % (1 << (exponent + fraction));
        let (power, rest) = (magnitude >> fraction, magnitude % (1 << fraction));
        let ones = power + 1 == 1 << exponent;
        let quiet = rest >> (fraction - 1) == 1;
        match self.fault {
            Some(Fault::InfinityRefused) => ones,
            Some(Fault::MinusZeroRefused) if minus && magnitude == 0 => true,
            Some(Fault::NegativeNanPassed) if minus => false,
            Some(Fault::SignallingPassed) => ones && quiet,
            Some(Fault::QuietPassed) => ones && rest != 0 && !quiet,
            Some(Fault::DoubleByHighHalf) if format.size == 8 => ones && rest >> 32 != 0,
            _ => ones && rest != 0,
        }
    }

    /// "Images that hold such values."
    fn image_holds_nan(&self, image: &[u8], view: &View) -> bool {
        view.entries.iter().any(|&Listed { n, m, kind, location, .. }| {
            let length = (n * m * width(kind)) as usize;
            let data = &image[location as usize..][..length];
            self.row_holds_nan(&Row { n, m, kind, name: b"", data })
        })
    }

    /// "New 31, after 21 and before 22: the last frame is 4,294,967,294."
    fn full(&self, view: &View) -> bool {
        let last = view.entries.last().map(|entry| entry.frame);
        match self.fault {
            Some(Fault::ThirtyOneLeftOut) => false,
            Some(Fault::ThirtyOneFromOneLess) => last >= Some(4_294_967_293),
            _ => last == Some(4_294_967_294),
        }
    }

    /// "An append is refused with 20, before 21."
    fn takes_none(&self, version: u128) -> bool {
        match version {
            VERSION_1_0 => !self.has(Fault::AppendTo1_0),
            VERSION_2_0 => self.has(Fault::TwentyFor2_0),
            _ => false,
        }
    }

    /// "Index or name location not a multiple of 8", and "21 still says 8".
    fn odd_places(&self, view: &View) -> bool {
        let unit = if self.has(Fault::TwentyOneBy64) { 64 } else { 8 };
        let odd = |place: u128, count: u128| {
            let excused = self.has(Fault::EmptyBlocksMayBeOdd) && count == 0;
            !place.is_multiple_of(unit) && !excused
        };
        let odd_chunk = |entry: &Listed| !entry.location.is_multiple_of(64);
        let chunks = self.has(Fault::TwentyOneForChunks) && view.entries.iter().any(odd_chunk);
        odd(view.index, view.slots) || odd(view.names_at, view.segments) || chunks
    }

    /// "The greatest of 256, both blocks' ends and all listed chunks' ends", not rounded.
    fn end_of_use(&self, view: &View) -> u128 {
        let mut end = 256.max(view.index + 32 * view.slots).max(view.names_at + 64 * view.segments);
        for entry in &view.entries {
            if entry.length() > 0 || !self.has(Fault::EndOfUseSkipsEmptyChunks) {
                end = end.max(entry.location + entry.length());
            }
        }
        end
    }

    /// "Now the end of use, and each start in steps 2, 3 and 5, is rounded up to 64."
    fn start(&self, position: u128, of: Start, view: &View) -> u128 {
        let older = [view.index, view.names_at].iter().any(|place| !place.is_multiple_of(64));
        let unit = match (self.fault, of) {
            (Some(Fault::EndOfUseNotRounded), Start::EndOfUse) => 1,
            (Some(Fault::StartsOn8 | Fault::LengthsRounded), _) => 8,
            (Some(Fault::StartsOn8In2_0), _) if view.version == VERSION_2_0 => 8,
            (Some(Fault::StartsOn8InOlderImages), _) if older => 8,
            (Some(Fault::EndOfUseOn8), Start::EndOfUse) => 8,
            (Some(Fault::RowsOn8), Start::Row | Start::EmptyRow) => 8,
            (Some(Fault::EmptyChunkNotRounded), Start::EmptyRow) => 8,
            (Some(Fault::MovedNamesOn8), Start::Names) => 8,
            (Some(Fault::MovedIndexOn8), Start::Index) => 8,
            (Some(Fault::StartsOn32), _) => 32,
            (Some(Fault::StartsOn128), _) => 128,
            (Some(Fault::NextMultipleAlways), _) => return (position / 64 + 1) * 64,
            _ => 64,
        };
        round_up(position, unit)
    }

    /// "Words in the gaps aren't stored, so counts stay."
    fn gap(&self, from: u128, to: u128, first: bool) -> Vec<Store> {
        match self.fault {
            Some(Fault::FirstGapStored) if !first => Vec::new(),
            Some(Fault::GapsStored | Fault::FirstGapStored) => {
                (from..to).step_by(8).map(|at| (at, [0; 8])).collect()
            }
            _ => Vec::new(),
        }
    }

    /// The frame of an append's entries.
    fn new_frame(&self, view: &View) -> u128 {
        if self.has(Fault::AppendFillsGap) {
            let named = named(&view.entries);
            return (0..).find(|frame| !named.contains(frame)).unwrap();
        }
        view.frames
    }

    /// The list of stores of an append.
    fn stores(&self, image: &[u8], sheet: &[u8]) -> Verdict<Stores> {
        if self.has(Fault::ThirtyBeforeOpening) && self.sheet_holds_nan(sheet) {
            return Err(30);
        }
        let said = image.get(44..48).map(|bytes| number(bytes, 0, 4));
        if self.has(Fault::TwentyBeforeOpening) && said == Some(VERSION_1_0) {
            return Err(20);
        }
        let view = self.view(image)?;
        let old = self.takes_none(view.version);
        if old && !TWENTY_LATER.contains(&self.fault) {
            return Err(20);
        }
        let full = self.full(&view);
        if full && self.has(Fault::ThirtyOneBeforeTwentyOne) {
            return Err(31);
        }
        if self.odd_places(&view) {
            return Err(21);
        }
        if old && self.has(Fault::TwentyAfterTwentyOne) {
            return Err(20);
        }
        if full && self.has(Fault::ThirtyOneAfterTwentyTwo) {
            self.row_count(sheet)?;
        }
        if full && self.has(Fault::ThirtyBeforeThirtyOne) && self.sheet_holds_nan(sheet) {
            return Err(30);
        }
        if full && !self.has(Fault::ThirtyOneAfterTwentyNine) {
            return Err(31);
        }
        if old && self.has(Fault::TwentyAfterTwentyTwo) {
            self.row_count(sheet)?;
        }
        if old && !self.has(Fault::TwentyAfterTwentyNine) {
            return Err(20);
        }
        let rows = self.rows(sheet, view.version)?;
        // "Refused with 30, after 27 and before 28."
        let image_too = self.has(Fault::ThirtyForImage) && self.image_holds_nan(image, &view);
        let holds_nan = self.holds_nan(&rows) || image_too;
        let late = self.has(Fault::ThirtyAfterTwentyNine);
        if holds_nan && !late && !self.has(Fault::ThirtyAfterTwentyEight) {
            return Err(30);
        }

        let text = |&(at, length): &(usize, usize)| &image[at..at + length];
        let old_names: Vec<&[u8]> = view.names.iter().map(text).collect();
        let mut new_names: Vec<&[u8]> = Vec::new();
        for row in &rows {
            if !old_names.contains(&row.name) {
                new_names.push(row.name);
            }
        }
        if self.has(Fault::IdsByName) {
            new_names.sort_unstable();
        }
        let most = 1024 + usize::from(self.has(Fault::NamesUpTo1025));
        if old_names.len() + new_names.len() > most {
            return Err(28);
        }
        if holds_nan && !late {
            return Err(30);
        }
        let all_names = [&old_names[..], &new_names].concat();
        let id_of = |name: &[u8]| all_names.iter().position(|&listed| listed == name).unwrap();

        let used = self.end_of_use(&view);
        let end_of_use = self.start(used, Start::EndOfUse, &view);
        let mut stores: Vec<Store> = Vec::new();
        let word_at = |bytes: &[u8], at: usize| {
            let mut word = [0; 8];
            for (n, byte) in word.iter_mut().enumerate() {
                *byte = bytes.get(at + n).copied().unwrap_or(0);
            }
            word
        };

        // 2, reckoned first: the places, for the final position.
        let mut position = end_of_use;
        let mut unpadded = position;
        let mut locations = Vec::new();
        let mut gaps = Vec::new();
        for (n, row) in rows.iter().enumerate() {
            let (first, empty) = (n == 0, row.data.is_empty());
            let of = if empty { Start::EmptyRow } else { Start::Row };
            let location = if first { end_of_use } else { self.start(position, of, &view) };
            let from = if first { round_up(used, 8) } else { position };
            gaps.push(self.gap(from, location, first));
            let empty_first = empty && self.has(Fault::EmptyChunkAtEndOfUse);
            locations.push(if empty_first { end_of_use } else { location });
            if !empty || !self.has(Fault::EmptyLastChunkFits) {
                let length = row.data.len() as u128;
                unpadded = location + length;
                let whole = self.has(Fault::RowsPaddedTo64) || self.has(Fault::LengthsRounded);
                position = location + round_up(length, if whole { 64 } else { 8 });
            }
        }
        let old_list = &image[view.names_at as usize..][..view.list_end];
        let new_bytes: usize = new_names.iter().map(|name| name.len() + 1).sum();
        let spare = usize::from(self.has(Fault::FitNeedsSpareZero) && new_bytes > 0);
        let needed = (view.list_end + new_bytes + spare) as u128;
        let doubled = |old: u128, unit: u128, needed: u128| {
            if unit == 32 && self.has(Fault::IndexGrowsByNeed) {
                return needed.div_ceil(unit);
            }
            let mut count =
                if self.has(Fault::ZeroDoublesToOne) && old == 0 { 1 } else { old.max(1) * 2 };
            while unit * count < needed && !self.has(Fault::NotDoubledOften) {
                count *= 2;
            }
            if unit * count < needed {
                count = needed.div_ceil(unit);
            }
            count
        };
        let must_move = |at: u128| self.has(Fault::OlderBlocksMove) && !at.is_multiple_of(64);
        let new_name_block = (needed > 64 * view.segments || must_move(view.names_at)).then(|| {
            let start = self.start(position, Start::Names, &view);
            gaps.push(self.gap(position, start, false));
            let count = doubled(view.segments, 64, needed);
            position = start + 64 * count;
            (start, count)
        });
        let listed = view.entries.len();
        let needed = 32 * (listed + rows.len()) as u128;
        let must_move = must_move(view.index) || self.has(Fault::IndexMovesAlways);
        let new_index = (needed > 32 * view.slots || must_move).then(|| {
            let start = self.start(position, Start::Index, &view);
            gaps.push(self.gap(position, start, false));
            let count = doubled(view.slots, 32, needed);
            position = start + 32 * count;
            (start, count)
        });
        let moves = new_name_block.is_some() || new_index.is_some();
        let moved = new_name_block.map_or(0, |block| 64 * block.1)
            + new_index.map_or(0, |block| 32 * block.1);
        let data: u128 = rows.iter().map(|row| round_up(row.data.len() as u128, 8)).sum();
        // "29 still rounds the position after the last chunk or block to 8."
        let last = match self.fault {
            Some(Fault::FinalPositionNotPadded) if !moves => unpadded,
            Some(Fault::FinalPositionOn64) => round_up(position, 64),
            Some(Fault::GapsNotIn29) => end_of_use + data + moved,
            Some(Fault::EmptyRowsFit) if !moves && data == 0 => round_up(used, 8),
            _ => position,
        };
        if last > image.len() as u128 {
            return Err(29);
        }
        if holds_nan {
            return Err(30);
        }
        if full {
            return Err(31);
        }
        if old {
            return Err(20);
        }

        // 1
        let skip = |moved: bool| moved && self.has(Fault::NothingClearedBeforeMove);
        if !self.has(Fault::IndexNotCleared) && !skip(new_index.is_some()) {
            for at in (32 * listed as u128..32 * view.slots).step_by(8) {
                stores.push((view.index + at, [0; 8]));
            }
        }
        if !self.has(Fault::NamesNotCleared) && !skip(new_name_block.is_some()) {
            let kept = if self.has(Fault::WordOfListEndCleared) { &[] } else { old_list };
            for at in (view.list_end / 8 * 8..64 * view.segments as usize).step_by(8) {
                stores.push((view.names_at + at as u128, word_at(kept, at)));
            }
        }

        // 2, "each row padded with zeros to 8".
        let mut gaps = gaps.into_iter();
        let mut step_2 = Vec::new();
        for (row, location) in rows.iter().zip(&locations) {
            stores.extend(gaps.next().unwrap());
            let before = stores.len();
            let unit = if self.has(Fault::RowsPaddedTo64) { 64 } else { 8 };
            for at in (0..row.data.len().next_multiple_of(unit)).step_by(8) {
                let mut word = word_at(row.data, at);
                if self.has(Fault::PaddingKept) {
                    for n in row.data.len().saturating_sub(at)..8 {
                        word[n] = image[*location as usize + at + n];
                    }
                }
                stores.push((location + at as u128, word));
            }
            step_2.push(before..stores.len());
        }

        // 3
        let header = |stores: &mut Vec<Store>, at: u128, block: (u128, u128)| {
            let words = [(at, block.0), (at + 8, block.1)];
            let words =
                if self.has(Fault::CountBeforeLocation) { [words[1], words[0]] } else { words };
            stores.extend(words.map(|(at, number)| (at, (number as u64).to_le_bytes())));
        };
        let fill = |stores: &mut Vec<Store>, block: u128, length: usize, old: &[u8]| {
            for at in (0..length).step_by(8) {
                if at < old.len() || !self.has(Fault::NewBlockNotCleared) {
                    stores.push((block + at as u128, word_at(old, at)));
                }
            }
        };
        let mut names_at = view.names_at;
        if let Some(block) = new_name_block {
            stores.extend(gaps.next().unwrap());
            fill(&mut stores, block.0, 64 * block.1 as usize, old_list);
            header(&mut stores, 24, block);
            if self.has(Fault::OldNamesCleared) {
                fill(&mut stores, view.names_at, 64 * view.segments as usize, &[]);
            }
            names_at = block.0;
        }

        // 4
        let before_4 = stores.len();
        let mut list = old_list.to_vec();
        let mut highest_stored = usize::MAX;
        for name in &new_names {
            let start = list.len();
            list.extend(*name);
            let mut words: Vec<usize> = (start / 8..=(list.len() - 1) / 8).rev().collect();
            if self.has(Fault::NameFromItsFront) {
                words.reverse();
            }
            for word in words {
                if self.has(Fault::NamesShareStore) && word == highest_stored {
                    // Adds to the store that the name before it made.
                    stores.last_mut().unwrap().1 = word_at(&list, 8 * word);
                } else {
                    stores.push((names_at + 8 * word as u128, word_at(&list, 8 * word)));
                }
            }
            highest_stored =
                if name.len() < 8 && start % 8 + name.len() < 8 { start / 8 } else { usize::MAX };
            list.push(0);
        }

        let step_4 = before_4..stores.len();

        // 5
        let before_5 = stores.len();
        let mut index = view.index;
        if let Some(block) = new_index {
            stores.extend(gaps.next().unwrap());
            let mut old = image[view.index as usize..][..32 * listed].to_vec();
            if self.has(Fault::FlagsNotCopied) {
                old.chunks_mut(32).for_each(|entry| entry[31] = 0);
            }
            fill(&mut stores, block.0, 32 * block.1 as usize, &old);
            header(&mut stores, 8, block);
            if self.has(Fault::OldIndexCleared) {
                fill(&mut stores, view.index, 32 * listed, &[]);
            }
            index = block.0;
        }
        let step_5 = before_5..stores.len();

        // 6
        let mut order: Vec<usize> = (0..rows.len()).collect();
        if !self.has(Fault::EntriesInRowOrder) {
            order.sort_by_key(|&row| id_of(rows[row].name));
        }
        let mut slots: Vec<usize> = (0..rows.len()).rev().collect();
        if self.has(Fault::EntriesFirstToLast) {
            slots.reverse();
        }
        for slot in slots {
            let row = &rows[order[slot]];
            let mut entry = [0; 32];
            entry[..8].copy_from_slice(&(self.new_frame(&view) as u64).to_le_bytes());
            entry[8..16].copy_from_slice(&(row.n as u64).to_le_bytes());
            entry[16..24].copy_from_slice(&(locations[order[slot]] as u64).to_le_bytes());
            entry[24..28].copy_from_slice(&(row.m as u32).to_le_bytes());
            entry[28..30].copy_from_slice(&(id_of(row.name) as u16).to_le_bytes());
            entry[30] = row.kind;
            let words =
                if self.has(Fault::LocationNotLast) { [0, 8, 16, 24] } else { [0, 8, 24, 16] };
            for word in words {
                let at = index + 32 * (listed + slot) as u128 + word as u128;
                stores.push((at, word_at(&entry, word)));
            }
        }
        let instead = self.copied_instead(image, &view, rows.len(), new_name_block, new_index);
        Ok(Stores { all: stores, step_2, step_4, step_5, instead })
    }

    /// What is counted in place of [`copied`], given the blocks, start and count, to which the append
    /// moves the names and the index.
    fn copied_instead(
        &self,
        image: &[u8],
        view: &View,
        rows: usize,
        names: Option<(u128, u128)>,
        index: Option<(u128, u128)>,
    ) -> Option<u64> {
        let listed = view.entries.len() as u128;
        let location = |slot| Listed::at(image, (view.index + 32 * slot) as usize).location;
        let count = match (self.fault?, index) {
            (Fault::CopiedWithNames, None) if names.is_some() => listed,
            (Fault::CopiedWhereIndexStays, None) => listed,
            (_, None) => return None,
            (Fault::OldSlotsCopied, _) => view.slots,
            (Fault::NewSlotsCopied, Some((_, slots))) => slots,
            (Fault::SlotsGainedCopied, Some((_, slots))) => slots - view.slots,
            (Fault::WordsCopied, _) => 4 * listed,
            (Fault::BlockWordsCopied, Some((_, slots))) => 4 * slots,
            (Fault::FramesCopied, _) => view.frames,
            (Fault::NamesCopied, _) => view.names.len() as u128,
            (Fault::NewRowsCopied, _) => listed + rows as u128,
            (Fault::LeftoversCopied, _) => {
                (0..view.slots).filter(|&slot| location(slot) != 0).count() as u128
            }
            (Fault::EachDoublingCopies, Some((_, slots))) => {
                listed * u128::from((slots / view.slots.max(1)).ilog2())
            }
            (Fault::NothingCopied, _) => 0,
            _ => return None,
        };
        Some(count as u64)
    }

    /// "The listed entries step 5 copies in the whole append, at any limit."
    fn copied(&self, stores: &Stores, limit: u64) -> u64 {
        let Stores { all, step_5, instead, .. } = stores;
        let made = limit.min(all.len() as u64) as usize;
        let count = instead.unwrap_or(copied(&all[step_5.clone()]) as u64);
        match self.fault {
            Some(Fault::NotCopiedAtLimitZero) if limit == 0 => 0,
            Some(Fault::NotCopiedBeforeStep5) if made <= step_5.start => 0,
            Some(Fault::NotCopiedUnlessWhole) if made < all.len() => 0,
            Some(Fault::CopiedByTheStop) => count.min(made.saturating_sub(step_5.start) as u64 / 4),
            _ => count,
        }
    }

    /// "It refuses, with 32, exactly if the state is a refused beginning's, or the slice's or sheet's
    /// length or header words 8 to 32 differ from what it expects." That is what its own stores have
    /// left, so many of them.
    fn expects(&self, begun: &Begun, done: usize, image: &[u8], sheet: &[u8], limit: u64) -> bool {
        let ended = done == begun.stores.all.len();
        match self.fault {
            Some(Fault::ThirtyTwoAfterEnd) if ended => return false,
            Some(Fault::ThirtyTwoNotAfterEnd) if ended => return true,
            Some(Fault::ThirtyTwoNotAtLimitZero) if limit == 0 => return true,
            _ => {}
        }
        let long = image.len() != begun.image.len() && !self.has(Fault::ImageLengthNotCompared);
        if long || sheet.len() != begun.sheet.len() && !self.has(Fault::SheetLengthNotCompared) {
            return false;
        }
        let expected = begun.after(match self.fault {
            Some(Fault::HeaderOfTheBeginning) => 0,
            // The second of a block's two words is stored behind the first.
            Some(Fault::HeaderMovesByBlocks)
                if matches!(begun.stores.all.get(done), Some((16 | 32, _))) =>
            {
                done - 1
            }
            _ => done,
        });
        let same = |at: usize, width: usize| image[at..at + width] == expected[at..at + width];
        let compared = |at: usize| match (self.fault, at) {
            (Some(Fault::Word8NotCompared), 8)
            | (Some(Fault::Word16NotCompared), 16)
            | (Some(Fault::Word24NotCompared), 24)
            | (Some(Fault::Word32NotCompared), 32) => true,
            (Some(Fault::HeaderIn32Bits), _) => same(at, 4),
            _ => same(at, 8),
        };
        let others = match self.fault {
            Some(Fault::MagicCompared) => same(0, 8),
            Some(Fault::SchemaVersionCompared) => same(40, 4),
            Some(Fault::VersionCompared) => same(44, 4),
            Some(Fault::ImageCompared) => *image == expected[..],
            Some(Fault::SheetCompared) => *sheet == begun.sheet[..],
            _ => true,
        };
        [8, 16, 24, 32].into_iter().all(compared) && others
    }

    /// What a hurried builder's turn answers, though it "doesn't open the image".
    fn tested_again(&self, image: &[u8], sheet: &[u8]) -> u64 {
        let view = self.view(image);
        let number = match self.fault {
            Some(Fault::TurnOpens) => view.err(),
            Some(Fault::TurnTestsEntries) => view.err().filter(|number| *number >= 12),
            Some(Fault::TurnTestsSheet) => {
                view.and_then(|view| self.rows(sheet, view.version).map(drop)).err()
            }
            _ => None,
        };
        number.unwrap_or(0)
    }

    /// Where the store of this number goes, whatever the slice and the sheet hold by then.
    fn place(&self, begun: &Begun, number: usize, image: &[u8], sheet: &[u8]) -> usize {
        let Stores { all, step_2, step_4, step_5, .. } = &begun.stores;
        let list_end = |image: &[u8]| {
            let [at, count] = [24, 32].map(|at| self::number(image, at, 8) as usize);
            self.running_names(image, at, at + 64 * count).map_or(0, |(_, end)| end)
        };
        let [then, now]: [usize; 2] = match self.fault {
            Some(Fault::TableReadAgain) => {
                let row = step_2.iter().position(|row| row.contains(&number)).unwrap_or(0);
                [&begun.sheet[..], sheet].map(|sheet| {
                    let length = |row: usize| {
                        let at = 4 + 16 * row;
                        let [n, m] =
                            [(at, 8), (at + 8, 4)].map(|(at, w)| self::number(sheet, at, w));
                        round_up(n * m * width(sheet[at + 12]), 64)
                    };
                    (0..row).map(length).sum::<u128>() as usize
                })
            }
            Some(Fault::NamesReadAgain) if step_4.contains(&number) => {
                [&begun.after(number)[..], image].map(list_end)
            }
            Some(Fault::EntriesReadAgain) if step_5.end <= number => {
                [&begun.after(number)[..], image].map(|image| 32 * listed(image) as usize)
            }
            _ => [0, 0],
        };
        (all[number].0 as usize).wrapping_add(now).wrapping_sub(then)
    }

    /// The stores of an append in their order, each a place and eight bytes.
    pub fn store_list(&self, image: &[u8], sheet: &[u8]) -> Verdict<Vec<(usize, [u8; 8])>> {
        let stores = self.stores(image, sheet)?;
        Ok(stores.all.into_iter().map(|(at, word)| (at as usize, word)).collect())
    }

    /// "Each with its exact bits."
    fn read_bits(&self, format: Format, bits: u64) -> u64 {
        let quieted = self.has(Fault::NanQuietedWhenRead) && self.is_nan(format, bits.into());
        bits | u64::from(quieted) << (format.fraction - 1)
    }

    /// Kind and bits of element k of a chunk.
    fn element_of(&self, image: &[u8], entry: &Listed, k: u64) -> Verdict<[u64; 2]> {
        let size = width(entry.kind);
        let k = u128::from(k);
        let wraps = self.has(Fault::ElementPlaceWraps);
        let inside =
            if wraps { (k * size) % (1 << 64) < entry.length() } else { k < entry.n * entry.m };
        if !inside {
            return Err(43);
        }
        let at = entry.location as usize + ((k * size) % (1 << 64)) as usize;
        let unsigned = number(image, at, size as usize) as u64;
        let unused = 64 - 8 * size as u32;
        let signed = ((unsigned << unused) as i64 >> unused) as u64;
        let signed = if self.has(Fault::SignedNotExtended) { unsigned } else { signed };
        // "A character element is an unsigned number."
        Ok(match entry.kind {
            11 if self.has(Fault::CharacterSigned) => [2, signed],
            1..=4 | 11 => [1, unsigned],
            5..=8 => [2, signed],
            9 => [3, self.read_bits(FLOAT, unsigned)],
            _ => [4, self.read_bits(DOUBLE, unsigned)],
        })
    }

    /// What a call through a reader answers.
    fn give_read<const K: usize>(&self, answer: Verdict<[u64; K]>, out: &mut [u64; K]) -> u64 {
        if answer.is_err() && self.has(Fault::ReaderRefusalClearsOut) {
            *out = [0; K];
        }
        self.give(answer, out)
    }

    fn give<const K: usize>(&self, answer: Verdict<[u64; K]>, out: &mut [u64; K]) -> u64 {
        match answer {
            Ok(numbers) => {
                *out = numbers;
                0
            }
            Err(number) => {
                if self.has(Fault::RefusalClearsOut) {
                    *out = [0; K];
                }
                number
            }
        }
    }
}

impl Library for Model {
    fn open(&self, image: &[u8], out: &mut [u64; 3]) -> u64 {
        let counts = self
            .view(image)
            .map(|view| [view.frames as u64, view.names.len() as u64, view.entries.len() as u64]);
        self.give(counts, out)
    }

    fn name(&self, image: &[u8], n: u64, out: &mut [u64; 2]) -> u64 {
        let name = self.view(image).and_then(|view| {
            if n >= view.names.len() as u64 {
                return Err(44);
            }
            let (at, length) = view.names[n as usize];
            Ok([at as u64, length as u64])
        });
        self.give(name, out)
    }

    fn entry(&self, image: &[u8], n: u64, out: &mut [u64; 7]) -> u64 {
        let entry = self.view(image).and_then(|view| {
            if n >= view.entries.len() as u64 {
                return Err(44);
            }
            Ok(view.entries[n as usize].fields())
        });
        self.give(entry, out)
    }

    fn lookup(&self, image: &[u8], frame: u64, name: &[u8], out: &mut [u64; 7]) -> u64 {
        self.give(self.found(image, frame, name).map(Listed::fields), out)
    }

    fn chunk(&self, image: &[u8], frame: u64, name: &[u8], out: &mut [u64; 2]) -> u64 {
        let part = self.found(image, frame, name);
        self.give(part.map(|entry| [entry.location as u64, entry.length() as u64]), out)
    }

    fn element(&self, image: &[u8], frame: u64, name: &[u8], k: u64, out: &mut [u64; 2]) -> u64 {
        let found = self.found(image, frame, name);
        self.give(found.and_then(|entry| self.element_of(image, &entry, k)), out)
    }

    fn probes(&self, image: &[u8], frame: u64, name: &[u8], out: &mut [u64; 1]) -> u64 {
        let (answer, probed) = self.search(image, frame, name);
        if answer.is_ok() || !self.has(Fault::RefusedProbesKeepOut) {
            // "The search answers its count, the length of" the list.
            *out = [probed.len() as u64];
        }
        answer.err().unwrap_or(0)
    }

    fn nchilada(&self, image: &[u8], frame: u64, name: &[u8], step: f64, file: &mut [u8]) -> u64 {
        self.file(image, (frame, name), step.to_bits(), file)
    }

    fn rawarray_write(&self, image: &[u8], frame: u64, name: &[u8], file: &mut [u8]) -> u64 {
        self.array(image, (frame, name), file)
    }

    fn rawarray_read(&self, file: &[u8], name: &[u8], sheet: &mut [u8]) -> u64 {
        self.sheet_of_array(file, name, sheet)
    }

    fn create(&self, image: &mut [u8], request: Create) -> u64 {
        let Create { application, schema, schema_version, slots, segments } = request;
        if self.has(Fault::CreateTestsOne) && image.len() < 256 {
            return 1;
        }
        if image.len() > 1_073_741_824 {
            return 2;
        }
        if slots > 65_536 || segments > 65_536 {
            return 50;
        }
        if application.len() > 63
            || schema.len() > 63
            || [application, schema].concat().contains(&0)
        {
            return 51;
        }
        let both = slots == 0 && segments == 0;
        let zero = |count| count == 0 && (both || !self.has(Fault::CreateNeedsBothZero));
        // "Asking for 0 slots now gives 512 instead of 64. Segments keep their 16."
        let usual_slots = if self.has(Fault::ZeroSlotsAre64) { 64 } else { 512 };
        let usual_segments = if self.has(Fault::ZeroSegmentsAre512) { 512 } else { 16 };
        let slots = if zero(slots) { usual_slots } else { slots };
        let segments = if zero(segments) { usual_segments } else { segments };
        let slots =
            if self.has(Fault::CreateRoundsSlots) { slots.next_multiple_of(2) } else { slots };
        // "Create rounds the name block and the end so too, gap bytes kept, and 52 follows."
        let index_end = 256 + 32 * slots;
        let unit = if self.has(Fault::StartsOn8) { 8 } else { 64 };
        let straight = self.has(Fault::CreateNamesBehindIndex);
        let names = if straight { index_end } else { index_end.next_multiple_of(unit) };
        let end = (names + 64 * segments).next_multiple_of(unit);
        let needed = match self.fault {
            Some(Fault::CreateNeedsNoGap) => index_end + 64 * segments,
            Some(Fault::CreateNeedsNextMultiple) => (end / 64 + 1) * 64,
            _ => end,
        };
        if (image.len() as u64) < needed {
            return 52;
        }
        let before: Vec<u8> = image.iter().copied().take(end as usize).collect();
        let clear = if self.has(Fault::CreateClearsAll) { image.len() } else { end as usize };
        for byte in image.iter_mut().take(clear) {
            *byte = 0;
        }
        if !self.has(Fault::CreateClearsGap) && !self.has(Fault::CreateClearsAll) {
            let gap = index_end as usize..names as usize;
            image[gap.clone()].copy_from_slice(&before[gap]);
        }
        if self.has(Fault::CreateKeepsReserved) {
            image[176..256].copy_from_slice(&before[176..256]);
        }
        // "Create makes 2.1."
        let version = if self.has(Fault::CreateMakes2_0) { VERSION_2_0 } else { VERSION_2_1 };
        let header: [(usize, &[u8]); 9] = [
            (0, &0x65DF_65DF_65DF_65DF_u64.to_le_bytes()),
            (8, &256_u64.to_le_bytes()),
            (16, &slots.to_le_bytes()),
            (24, &names.to_le_bytes()),
            (32, &segments.to_le_bytes()),
            (40, &schema_version.to_le_bytes()),
            (44, &(version as u32).to_le_bytes()),
            (48, application),
            (112, schema),
        ];
        for (at, bytes) in header {
            image[at..at + bytes.len()].copy_from_slice(bytes);
        }
        0
    }

    fn append(&self, image: &mut [u8], sheet: &[u8], limit: u64, out: &mut [u64; 3]) -> u64 {
        if !self.has(Fault::RefusedAppendKeepsOut) {
            let kept = self.has(Fault::RefusedAppendKeepsCopied);
            *out = [0, 0, if kept { out[2] } else { 0 }];
        }
        let stores = match self.stores(image, sheet) {
            Ok(stores) => stores,
            Err(number) if self.has(Fault::RefusedAppendCounts) => {
                out[2] = self.view(image).map_or(0, |view| view.entries.len() as u64);
                return number;
            }
            Err(29) if self.has(Fault::NoRoomStillCopies) => {
                let longer = [&*image, &[0; 1 << 16]].concat();
                out[2] = self.stores(&longer, sheet).map_or(0, |all| self.copied(&all, limit));
                return 29;
            }
            Err(_) if limit == 0 && self.has(Fault::LimitBeforeTests) => return 0,
            Err(20) if limit == 0 && self.has(Fault::TwentyNotAtLimitZero) => return 0,
            Err(20) if self.has(Fault::TwentyUpgrades) => {
                image[44..48].copy_from_slice(&(VERSION_2_1 as u32).to_le_bytes());
                return 20;
            }
            Err(30) if limit == 0 && self.has(Fault::ThirtyNotAtLimitZero) => {
                return Model { fault: Some(Fault::ThirtyLeftOut) }.append(image, sheet, 0, out);
            }
            Err(number) => return number,
        };
        let whole = stores.all.len() as u64;
        let copied = self.copied(&stores, limit);
        let mut done = 0;
        let mut changed = 0;
        for (at, word) in stores.all {
            let at = at as usize;
            if done < limit || limit > 0 && self.has(Fault::AllStoresAtOnce) {
                match image.get_mut(at..at + 8) {
                    Some(place) => {
                        changed += u64::from(*place != word);
                        place.copy_from_slice(&word);
                    }
                    // Here a builder who errs in 29 strays.
                    None => assert!(self.fault.is_some(), "a store at {at}"),
                }
                done += 1;
            }
        }
        if done > 0 && self.has(Fault::AppendMakes2_1) {
            image[44] = 1;
        }
        *out = [done.min(limit), whole, copied];
        if self.has(Fault::CopiedAndWholeSwapped) {
            out.swap(1, 2);
        }
        if self.has(Fault::DoneCountsChanges) {
            out[0] = changed;
        }
        0
    }

    fn begin(&self, image: &[u8], sheet: &[u8], state: &mut State, out: &mut [u64; 2]) -> u64 {
        let stores = match self.stores(image, sheet) {
            Ok(stores) => stores,
            Err(number) => {
                if !self.has(Fault::RefusedBeginKeepsState) {
                    *state = REFUSED;
                }
                if !self.has(Fault::RefusedBeginKeepsOut) {
                    *out = [0; 2];
                }
                return number;
            }
        };
        // "Gives back a state and the whole count with no store made."
        *out = [stores.all.len() as u64, self.copied(&stores, u64::MAX)];
        if self.has(Fault::BeginCopiesNothing) {
            out[1] = 0;
        }
        *state = REFUSED;
        let begun = Begun { image: image.to_vec(), sheet: sheet.to_vec(), stores };
        state[0] = BEGINNINGS.with_borrow_mut(|beginnings| beginnings.keep(begun));
        0
    }

    fn turn(
        &self,
        state: &mut State,
        image: &mut [u8],
        sheet: &[u8],
        limit: u64,
        out: &mut [u64; 1],
    ) -> u64 {
        let [beginning, done] = [state[0], state[1]];
        let before = *out;
        *out = [0];
        let kept = match BEGINNINGS.with_borrow(|beginnings| beginnings.get(beginning)) {
            None if self.has(Fault::RefusedStateAccepted) && *state == REFUSED => return 0,
            // No turn goes beyond the list.
            Some(begun) if done > begun.stores.all.len() as u64 => {
                assert!(!self.has(Fault::StateNotTested), "stores from {done} on");
                None
            }
            kept => kept.map(|begun| (begun, done as usize)),
        };
        let expected = kept.filter(|(begun, done)| self.expects(begun, *done, image, sheet, limit));
        let Some((begun, done)) = expected else {
            if self.has(Fault::ThirtyTwoAfterStores) && limit > 0 && image.len() >= 264 {
                image[256..264].fill(0);
            }
            if self.has(Fault::RefusedTurnEndsState) {
                *state = REFUSED;
            }
            if self.has(Fault::RefusedTurnKeepsOut) {
                *out = before;
            }
            return 32;
        };
        match self.tested_again(image, sheet) {
            0 => {}
            number => return number,
        }
        let whole = begun.stores.all.len();
        let from = if self.has(Fault::TurnRestarts) { 0 } else { done };
        let until = match self.fault {
            Some(Fault::SumOfLimitsWraps) => u128::from((done as u64).wrapping_add(limit)),
            Some(Fault::TurnMakesOneMore) if limit > 0 => from as u128 + u128::from(limit) + 1,
            _ => from as u128 + u128::from(limit),
        };
        // "Does the next stores."
        for store in from..until.min(whole as u128) as usize {
            let at = self.place(&begun, store, image, sheet);
            // Here a builder who errs strays.
            image[at..at + 8].copy_from_slice(&begun.stores.all[store].1);
            out[0] += 1;
        }
        state[1] = match self.fault {
            Some(Fault::TurnRestarts) => 0,
            Some(Fault::TurnLosesRest) if limit > 0 => whole as u64,
            _ => done as u64 + out[0],
        };
        if self.has(Fault::TurnAnswersSum) {
            out[0] += done as u64;
        }
        0
    }

    fn reader_open(&self, image: &[u8], reader: &mut Reader) -> u64 {
        match self.view(image) {
            Ok(view) => {
                *reader = self.reader_words(image, &view, reader);
                0
            }
            Err(number) => {
                if self.has(Fault::ReaderRefusedOpenClears) {
                    *reader = Reader::default();
                }
                number
            }
        }
    }

    fn reader_name(&self, reader: &Reader, image: &[u8], n: u64, out: &mut [u64; 2]) -> u64 {
        if self.has(Fault::ReaderFortyFourFirst) && n >= reader[1] {
            return 44;
        }
        self.give_read(self.fit(reader, image).and_then(|fitting| fitting.name(n)), out)
    }

    fn reader_entry(&self, reader: &Reader, image: &[u8], n: u64, out: &mut [u64; 7]) -> u64 {
        if self.has(Fault::ReaderFortyFourFirst) && n >= reader[2] {
            return 44;
        }
        let entry = self.fit(reader, image).and_then(|fitting| fitting.entry(n));
        self.give_read(entry.map(Listed::fields), out)
    }

    fn reader_lookup(
        &self,
        reader: &Reader,
        image: &[u8],
        frame: u64,
        name: &[u8],
        out: &mut [u64; 7],
    ) -> u64 {
        if self.has(Fault::ReaderFortyFirst) && frame >= reader[0] {
            return 40;
        }
        let found = self.fit(reader, image).and_then(|fitting| fitting.lookup(frame, name));
        self.give_read(found.map(Listed::fields), out)
    }

    fn reader_chunk(
        &self,
        reader: &Reader,
        image: &[u8],
        frame: u64,
        name: &[u8],
        out: &mut [u64; 2],
    ) -> u64 {
        let fitting = match self.fit(reader, image) {
            Ok(fitting) => fitting,
            Err(number) => return self.give_read(Err(number), out),
        };
        if self.has(Fault::ReaderRefusedChunkWrites) {
            if let Ok(found) = fitting.lookup(frame, name) {
                *out = [found.location, found.length()].map(|number| number as u64);
            }
        }
        self.give_read(fitting.chunk(frame, name), out)
    }

    fn reader_element(
        &self,
        reader: &Reader,
        image: &[u8],
        frame: u64,
        name: &[u8],
        k: u64,
        out: &mut [u64; 2],
    ) -> u64 {
        let element = self.fit(reader, image).and_then(|fitting| fitting.element(frame, name, k));
        self.give_read(element, out)
    }

    fn reader_id(&self, reader: &Reader, image: &[u8], name: &[u8], out: &mut [u64; 1]) -> u64 {
        let id = self.fit(reader, image).and_then(|fitting| fitting.id(name));
        self.give_read(id.map(|id| [id as u64]), out)
    }

    fn reader_find(
        &self,
        reader: &Reader,
        image: &[u8],
        frame: u64,
        id: u64,
        out: &mut [u64; 7],
    ) -> u64 {
        let found = self.fit(reader, image).and_then(|fitting| fitting.find(frame, id));
        self.give_read(found.map(Listed::fields), out)
    }

    fn reader_newest(
        &self,
        reader: &Reader,
        image: &[u8],
        frame: u64,
        id: u64,
        out: &mut [u64; 7],
    ) -> u64 {
        let found = self.fit(reader, image).and_then(|fitting| fitting.newest(frame, id));
        self.give_read(found.map(Listed::fields), out)
    }
}
