//! Wrong models, one error at a time, to show that the testers notice them: those of
//! document 01's "Errors that look right", K14's clauses, each left out or turned, K6's
//! room rule with a part left out, names told apart by K2's table alone, a name check
//! (K5) that takes another name or gives another reason, a walk for a length (K8) that takes
//! what it must not, a planner (K1) that is not the direct call's, and a replay of a trace
//! (K7) that stops elsewhere.
//! None is seeded by default.
use std::cell::Cell;

#[derive(Clone, Copy, PartialEq, Eq, Debug)]
pub enum Fault {
    /// Move step (c) left out: the old head's data keeps its false heads.
    NotCleaned,
    /// Move step (c) after (e): "Erasing the old head before its data is cleaned".
    CleanedLate,
    /// Move step (e) before (d): "making Y START before the erases end".
    StartBeforeErase,
    /// "Leaving A5 5A in old data".
    RecordMarkKept,
    /// "Deleting the old file before the commit."
    DeletedBeforeCommit,
    /// "Letting the tail enter the head's sector": sizes fit up to h.
    TailInHeadSector,
    /// The walk stops at a reserved record.
    ReservedNotWalked,
    /// The walk stops at a CLEAN at 0.
    CleanNotWalked,
    /// "Stepping over a torn record by its data_len."
    TornByLength,
    /// "Taking the first 00 5A anywhere as head".
    FirstStartIsHead,
    /// K14: low byte 80 is no CLEAN.
    Low80NotClean,
    /// K14: low byte A4 is no record.
    LowA4NotRecord,
    /// K14: low byte A1 is no record.
    LowA1NotRecord,
    /// K14: 80 5A stays in old data.
    Mark80Kept,
    /// K14: A4 5A stays in old data.
    MarkA4Kept,
    /// K14: A1 5A stays in old data.
    MarkA1Kept,
    /// K14: A0 goes to 00 at once.
    StartAtOnce,
    /// K14: a name's 00 is programmed at once.
    NameEndAtOnce,
    /// K14: only FF and 00 end a reserved name.
    NameEndsAtFfOnly,
    /// K14: a status is voided at once.
    VoidedAtOnce,
    /// K14: the first byte of a torn thing is A5 or FA alone.
    TornFirstWhole,
    /// K14: the repair of a torn thing leaves its first byte.
    TornFirstLeft,
    /// K14: the second byte of a torn thing is FF or 5A alone.
    TornSecondWhole,
    /// K14: a torn record's byte 8 is FF or 00 alone.
    TornByte8Judged,
    /// K14: a marker is unfinished at status FF alone.
    MarkerOpenAtFfOnly,
    /// K14: dead statuses are 00 and E0 alone.
    OtherStatusRefused,
    /// K6: 01's room rule, two of the largest alone.
    RoomAsIn01,
    /// K6: of the head's sector only the new record is counted.
    OthersNotCounted,
    /// K6: the new record is never counted in the head's sector.
    NewNotCounted,
    /// K2: a name whose bits are all set in the table of names counts as doubled.
    BitsTakenForName,
    /// K5: 01's name rule, in which a space is a bad byte anywhere.
    SpaceRefused,
    /// K5: a space may be the first byte.
    SpaceFirst,
    /// K5: a space may be the last byte.
    SpaceLast,
    /// K5: a bad byte's place counts from 1.
    PlaceFromOne,
    /// K5: a final slash is told before a bad byte.
    SlashFirst,
    /// K5: the name's reason is given where N is bad too.
    ReasonWhereNBad,
    /// K8: any record may stand at the head.
    HeadNotStart,
    /// K8: the first F8 record of the name goes before the first FC.
    MigratingFirst,
    /// K8: the walk ends at the first record of the name.
    StopsAtName,
    /// K14: a cut reaches inside the program step behind an undone erase. No fault of a
    /// library: the other reading of "its next program step".
    CutPastErase,
    /// K1: a step in the middle is not planned.
    StepLeftOut,
    /// K1: a marker is planned behind its record.
    MarkerLate,
    /// K1: an erase's byte is 00.
    EraseAs00,
    /// K1: a window that doesn't begin at step 0 begins one too far.
    WindowTooFar,
    /// K1: a start past the end hands out the last step again.
    EndAgain,
    /// K1: each slice gets as many as fit itself.
    SlicesAlone,
    /// K1: slots that get nothing are cleared.
    SlotsCleared,
    /// K1: a refusal clears the slots.
    RefusalClears,
    /// K1: the steps given back are those handed out.
    WindowCounted,
    /// K5: a planned call gives no reason beside 22.
    PlanWithoutReason,
    /// K7: an unknown kind is told before the range is tested.
    KindFirst,
    /// K7: of a byte above 255 the lowest eight bits are programmed.
    ByteCutOff,
    /// K7: an erase's byte above 255 is out of range too.
    EraseByteJudged,
    /// K7: an erase from inside a sector is carried out from there.
    EraseInside,
    /// K7: the entry that sets a bit is carried out too.
    StopCarriedOut,
    /// K7: the position counts from 1.
    StopFromOne,
    /// K7: the image before the first entry is not looked at.
    ZeroNotRead,
    /// K7: the image at the stop is not looked at.
    StopNotRead,
    /// K7: the image behind the last entry is not looked at.
    LastNotRead,
}

impl Fault {
    /// The faults that a library can have.
    pub const ALL: [Fault; 30] = [
        Fault::NotCleaned,
        Fault::CleanedLate,
        Fault::StartBeforeErase,
        Fault::RecordMarkKept,
        Fault::DeletedBeforeCommit,
        Fault::TailInHeadSector,
        Fault::ReservedNotWalked,
        Fault::CleanNotWalked,
        Fault::TornByLength,
        Fault::FirstStartIsHead,
        Fault::Low80NotClean,
        Fault::LowA4NotRecord,
        Fault::LowA1NotRecord,
        Fault::Mark80Kept,
        Fault::MarkA4Kept,
        Fault::MarkA1Kept,
        Fault::StartAtOnce,
        Fault::NameEndAtOnce,
        Fault::NameEndsAtFfOnly,
        Fault::VoidedAtOnce,
        Fault::TornFirstWhole,
        Fault::TornFirstLeft,
        Fault::TornSecondWhole,
        Fault::TornByte8Judged,
        Fault::MarkerOpenAtFfOnly,
        Fault::OtherStatusRefused,
        Fault::RoomAsIn01,
        Fault::OthersNotCounted,
        Fault::NewNotCounted,
        Fault::BitsTakenForName,
    ];
}

thread_local!(static SEEDED: Cell<Option<Fault>> = const { Cell::new(None) });

/// The model of this thread has this fault.
pub fn seeded(fault: Fault) -> bool {
    SEEDED.with(|s| s.get() == Some(fault))
}

/// Run `f` with this fault seeded in this thread.
pub fn with<T>(fault: Fault, f: impl FnOnce() -> T) -> T {
    /// Puts back what was seeded before, also if `f` panics.
    struct Restore(Option<Fault>);
    impl Drop for Restore {
        fn drop(&mut self) {
            SEEDED.with(|s| s.set(self.0));
        }
    }
    let _restore = Restore(SEEDED.with(|s| s.replace(Some(fault))));
    f()
}
