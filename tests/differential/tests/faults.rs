//! The tests themselves are tested: each hurried builder's fault must be noticed, and by the
//! random groups, not only by the cases made for it.

use differential::check::Check;
use differential::demand3::{Call, Run};
use differential::groups::GROUPS;
use differential::images::{blank, sheet, Row, V2_1};
use differential::library::Library;
use differential::model::{Fault, Model};
use differential::suite::rng;
use std::cmp::Reverse;
use std::panic::{catch_unwind, AssertUnwindSafe};

/// The first group that notices something within so many rounds, with the round in which it does.
fn noticed(library: &dyn Library, most: u64) -> Option<(&'static str, u64)> {
    let mut check = Check::new(library);
    check.show = false;
    // Groups of many rounds have short ones, so they go first.
    let mut groups: Vec<_> = GROUPS.iter().enumerate().collect();
    groups.sort_by_key(|(_, group)| Reverse(group.rounds));
    // A few rounds of each group, then more: most faults show at once.
    for rounds in [0..20, 20..400, 400..4000] {
        let rounds = rounds.start..rounds.end.min(most);
        for &(number, group) in &groups {
            // No fault is about slices of a gigabyte.
            if group.name == "the longest slices" {
                continue;
            }
            for round in rounds.start..rounds.end.min(group.rounds) {
                let mut rng = rng(1, number, round);
                let run = catch_unwind(AssertUnwindSafe(|| (group.round)(&mut check, &mut rng)));
                if run.is_err() || check.failures > 0 {
                    return Some((group.name, round));
                }
            }
        }
    }
    None
}

#[test]
fn groups_notice_every_fault() {
    let mut missed = Vec::new();
    for &fault in Fault::ALL {
        let found = noticed(&Model { fault: Some(fault) }, 4000);
        println!("{fault:?}: {found:?}");
        if found.is_none() {
            missed.push(fault);
        }
    }
    assert!(missed.is_empty(), "not noticed: {missed:?}");
}

/// The paper's own errors of a hurried builder, and some more, by the words of "A run of appends"
/// alone: there the library has no other to be compared with.
#[test]
fn a_run_of_appends_notices_what_breaks_it() {
    use Fault::*;
    let faults = [
        CountBeforeLocation,
        EntriesFirstToLast,
        IndexNotCleared,
        NamesNotCleared,
        NameFromItsFront,
        LocationNotLast,
        WordOfListEndCleared,
        EntriesInRowOrder,
        FlagsNotCopied,
        AllStoresAtOnce,
        DoneCountsChanges,
        CharacterUnknownIn2_1,
        CharacterInAnySheet,
        CharacterInNoSheet,
        AppendMakes2_1,
    ];
    run_notices("a run of appends, word for word", &faults);
}

/// The same from images with frames left out.
#[test]
fn a_run_of_appends_over_gaps_notices_what_breaks_it() {
    use Fault::*;
    let faults = [
        GapsRefused,
        FirstFrameAboveZeroRefused,
        EighteenFromOneLess,
        FramesDistinct,
        EmptyFrameNotThere,
        ThirtyOneLeftOut,
        ThirtyOneFromOneLess,
        AppendFillsGap,
    ];
    run_notices("a run of appends over gaps, word for word", &faults);
}

/// The same where sheets with NaNs are among the calls.
#[test]
fn a_run_of_appends_with_nans_notices_what_breaks_it() {
    use Fault::*;
    let faults = [
        ThirtyLeftOut,
        InfinityRefused,
        MinusZeroRefused,
        NegativeNanPassed,
        SignallingPassed,
        QuietPassed,
        FloatsNotTested,
        DoublesNotTested,
        DoubleByHighHalf,
        DoubleAsTwoFloats,
        ElementsBigEndian,
        FloatsOneByteOff,
        EveryPlaceTested,
        FirstElementNotTested,
        LastElementNotTested,
        OnlyFirstRowTested,
        OnlyLastRowTested,
        NForElements,
        MForElements,
        U32RowRefused,
        U64RowRefused,
        CharacterRowRefused,
        ThirtyAfterTwentyNine,
        ThirtyNotAtLimitZero,
        ThirtyForImage,
    ];
    run_notices("a run of appends, word for word", &faults);
}

/// The same from images of 1.0, which take no append.
#[test]
fn a_run_of_appends_to_1_0_notices_what_breaks_it() {
    use Fault::*;
    let faults = [
        Version1_0Refused,
        RunningNamesIn1_0,
        EverySlotUsed,
        SortedIn1_0,
        IdOnceInList,
        GapsRefusedIn1_0,
        FirstFrameAboveZeroRefusedIn1_0,
        AppendTo1_0,
        TwentyAfterTwentyOne,
        TwentyAfterThirtyOne,
        TwentyAfterTwentyTwo,
        TwentyAfterTwentyNine,
        TwentyNotAtLimitZero,
        TwentyUpgrades,
    ];
    run_notices("a run of appends to 1.0, word for word", &faults);
}

/// The same from images that were made with all starts on multiples of 8.
#[test]
fn a_run_of_appends_to_older_images_notices_what_breaks_it() {
    use Fault::*;
    let faults = [
        CountBeforeLocation,
        EntriesFirstToLast,
        IndexNotCleared,
        NameFromItsFront,
        StartsOn8,
        StartsOn32,
        StartsOn8In2_0,
        StartsOn8InOlderImages,
        LengthsRounded,
        EndOfUseOn8,
        RowsOn8,
        EmptyChunkNotRounded,
        MovedNamesOn8,
        MovedIndexOn8,
        EmptyLastChunkFits,
        EmptyRowsFit,
        TwentyOneBy64,
        TwentyOneForChunks,
    ];
    run_notices("a run of appends to older images, word for word", &faults);
}

/// Wrong counts of what is copied.
const OF_COPIES: [Fault; 21] = {
    use Fault::*;
    [
        OldSlotsCopied,
        NewSlotsCopied,
        SlotsGainedCopied,
        WordsCopied,
        BlockWordsCopied,
        FramesCopied,
        NamesCopied,
        NewRowsCopied,
        LeftoversCopied,
        EachDoublingCopies,
        NothingCopied,
        NotCopiedAtLimitZero,
        NotCopiedBeforeStep5,
        NotCopiedUnlessWhole,
        CopiedByTheStop,
        CopiedWithNames,
        CopiedWhereIndexStays,
        CopiedAndWholeSwapped,
        RefusedAppendKeepsCopied,
        RefusedAppendCounts,
        NoRoomStillCopies,
    ]
};

/// By a run's own images and answers.
#[test]
fn a_run_of_appends_notices_what_is_not_copied() {
    run_notices("a run of appends, word for word", &OF_COPIES);
}

/// The same by whole appends alone, beside the plain implementation.
#[test]
fn whole_appends_notice_what_is_not_copied() {
    run_notices("whole appends that move the index", &OF_COPIES);
}

/// What goes wrong in turns, by a run's own words: its appends are made in them.
#[test]
fn a_run_of_appends_in_turns_notices_what_breaks_it() {
    use Fault::*;
    let faults = [
        RefusedBeginKeepsState,
        RefusedStateAccepted,
        BeginCopiesNothing,
        TurnRestarts,
        TurnLosesRest,
        TurnMakesOneMore,
        TurnAnswersSum,
        HeaderOfTheBeginning,
        HeaderMovesByBlocks,
    ];
    run_notices("a run of appends, word for word", &faults);
}

/// What others write between turns is seen where it must be, and nowhere else.
#[test]
fn turns_between_which_others_write_notice_what_breaks_them() {
    use Fault::*;
    let faults = [
        TurnOpens,
        TurnTestsSheet,
        TurnTestsEntries,
        Word8NotCompared,
        Word16NotCompared,
        Word24NotCompared,
        Word32NotCompared,
        HeaderIn32Bits,
        MagicCompared,
        SchemaVersionCompared,
        VersionCompared,
        ImageCompared,
        SheetCompared,
        ThirtyTwoAfterEnd,
        ThirtyTwoNotAfterEnd,
        ThirtyTwoNotAtLimitZero,
        ThirtyTwoAfterStores,
        RefusedTurnEndsState,
        RefusedTurnKeepsOut,
    ];
    run_notices("turns between which others write", &faults);
}

/// What a reader must not look at in an image that has grown, or half grown, since it was opened; and
/// what an append must leave where it was.
#[test]
fn readers_of_earlier_moments_notice_what_breaks_them() {
    use Fault::*;
    let faults = [
        ReaderSizeOfBlock,
        ReaderCountsSlots,
        ReaderHeaderCompared,
        ReaderEntriesOfImage,
        ReaderFramesOfImage,
        ReaderNamelistOfImage,
        ReaderNamesOfImage,
        ReaderGrownImageRefused,
        NewestOfLastFrame,
        OldNamesCleared,
        OldIndexCleared,
    ];
    run_notices("readers of earlier moments", &faults);
}

/// What must be as the calls that open the image have it.
#[test]
fn readers_of_images_as_they_are_notice_what_breaks_them() {
    use Fault::*;
    let faults = [
        ReaderSizeWithoutLastZero,
        ReaderSizeIsPlace,
        ReaderRunningSizeIn1_0,
        ReaderVersionOfEightBytes,
        ReaderKeepsLastWord,
        ReaderLastWordTested,
        ReaderIndexEndInside,
        ReaderListEndInside,
        ReaderRunningNamesIn1_0,
        ReaderSegmentNamesIn2_0,
        ReaderStartOfNameFound,
        ReaderEmptyNameFound,
        ReaderFortyOneFirst,
        ReaderHalvesToIdIn1_0,
        ReaderHalvesToFrame,
        ReaderWalkOneShort,
        ReaderCharacterNever,
        FindAnyId,
        FindBehindLastFrame,
        FindIdIn16Bits,
        NewestBelowFrame,
        NewestBelowId,
        NewestToIdIn1_0,
        NewestIsOldest,
        NewestIsNeighbour,
        NewestFromPlaceItself,
        NewestOfFrameAlone,
        NewestInEmptyFrameIsNone,
    ];
    run_notices("readers of images as they are", &faults);
}

/// All faults of files, by those alone.
#[test]
fn nchilada_files_notice_what_breaks_them() {
    let of_files = Fault::ALL.iter().filter(|fault| format!("{fault:?}").starts_with("File"));
    run_notices("NChilada files", &of_files.copied().collect::<Vec<_>>());
}

/// All faults of RawArray files, those written and those read, each by such files alone.
#[test]
fn rawarray_files_notice_what_breaks_them() {
    for (part, group) in
        [("ArrayOut", "RawArray files of chunks"), ("ArrayIn", "RawArray files as sheets")]
    {
        let of_part = Fault::ALL.iter().filter(|fault| format!("{fault:?}").starts_with(part));
        run_notices(group, &of_part.copied().collect::<Vec<_>>());
    }
}

/// An index that grows otherwise breaks the bounds of what is copied in all, though each append
/// answers what it copies.
#[test]
fn a_run_of_appends_adds_up_what_is_copied() {
    let row = sheet(&[Row::bytes(b"a", b"")]);
    let noticed = |fault: Option<Fault>, count: usize| {
        let start = blank(4096, 256, 1, 320, 1);
        let calls: Vec<_> = (0..count).map(|_| Call::new(V2_1, row.clone(), u64::MAX)).collect();
        Run::make(&Model { fault }, &start, &calls).map(drop)
    };
    assert_eq!(noticed(None, 9), Ok(()));
    // To 2 slots and to 3: the third append copies 2 entries, where the second copied 1.
    let by_need = Some(Fault::IndexGrowsByNeed);
    assert_eq!(noticed(by_need, 2), Ok(()));
    let what = noticed(by_need, 3).unwrap_err();
    assert!(what.contains("3 entries copied in all, slots from 1 to 3"), "{what}");
    // 1 + 2 + 3 + 4 entries, as many as twice those listed; the slots go from 1 to 32.
    let always = Some(Fault::IndexMovesAlways);
    assert_eq!(noticed(always, 4), Ok(()));
    let what = noticed(always, 5).unwrap_err();
    assert!(what.contains("10 entries copied in all, 5 listed at the end"), "{what}");
}

/// What an append lets into the record is noticed there, whatever it answers.
#[test]
fn a_run_of_appends_finds_a_nan_in_the_record() {
    let model = Model { fault: Some(Fault::ThirtyLeftOut) };
    let row = Row::new(b"a", 9, 1, 1, &f32::NAN.to_le_bytes());
    let calls =
        [0, 5, u64::MAX].map(|limit| Call::new(V2_1, sheet(std::slice::from_ref(&row)), limit));
    let start = blank(1024, 256, 2, 320, 1);
    let noticed = |calls: &[Call]| Run::make(&model, &start, calls).unwrap_err();
    // Until the last store is made, it is the answer that is wrong.
    assert!(noticed(&calls[..1]).contains("if refused, one of [30]"));
    assert!(noticed(&calls[1..2]).contains("if refused, one of [30]"));
    assert!(noticed(&calls[2..]).contains("a NaN in the record"));
}

/// Panics unless the group notices each of these.
fn run_notices(name: &str, faults: &[Fault]) {
    let number = GROUPS.iter().position(|group| group.name == name).unwrap();
    for &fault in faults {
        let model = Model { fault: Some(fault) };
        let mut check = Check::new(&model);
        check.show = false;
        let noticed = (0..GROUPS[number].rounds).find(|&round| {
            (GROUPS[number].round)(&mut check, &mut rng(1, number, round));
            check.failures > 0
        });
        println!("{fault:?}: {noticed:?}");
        assert!(noticed.is_some(), "{fault:?}");
    }
}

#[test]
fn model_agrees() {
    assert_eq!(noticed(&Model { fault: None }, 400), None);
}
