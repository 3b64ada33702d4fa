//! Deliberate slips. Cases and random inputs, or the history, must find every one of them; see `slips.rs`.

use crate::runner::Form;
use crate::value::{Cut, Rounding};

#[derive(Clone, Copy, PartialEq, Eq, Debug, Default)]
pub enum Slip {
    #[default]
    None,
    /// EVERY acts whenever its condition is true.
    EveryByLevel,
    /// Unlocking a line clears its memory.
    MemoryClearedAtUnlock,
    /// A turn skipped, by lock or mode, clears the line's memory.
    MemoryClearedAtSkip,
    /// A control reset leaves the memory of IDS lines.
    MemoryKeptAtControlReset,
    /// An alarm keeps the writes made before it.
    WritesKeptAtAlarm,
    /// Lines take turns in the order of the text.
    TextOrder,
    /// Variables are read as they stood at the beat's start.
    ReadAtBeatStart,
    /// Products and quotients are cut away from zero.
    CutAwayFromZero,
    /// Code 12 is looked for before code 5.
    TwelveBeforeFive,
    /// A fraction written to a marker is cut toward zero.
    MarkersCut,
    /// A half written to a marker goes up, also below zero.
    MarkerHalvesUp,
    /// A curve is worked without its limits.
    CurveUnlimited,
    /// A curve is worked exactly, and its result cut and ranged once.
    CurveWorkedWhole,
    /// Code 13 of a SYNFCT is looked for after code 12.
    UndefinedAfterTwelve,
    /// Halves of thousandths of a reading go away from zero.
    ReadingHalvesAway,
    /// A reading is cut toward zero.
    ReadingCut,
    /// A 26th faulty beat in a row is bridged too.
    BridgedFor26,
    /// An alarmed beat counts as a faulty one, and its good readings are kept.
    FaultsCountedWhenUndone,
    /// A beat refused with 23 keeps what the other channels sent.
    OthersKeptAt23,
    /// A control reset clears the records of the channels.
    ChannelsClearedAtControlReset,
    /// A curve of a damaged set is looked at as it was loaded.
    CurvesAsLoaded,
    /// A curve is sound in the place of any other.
    CurveOfAnyNumber,
    /// Two moves of an axis in a line are taken.
    TwoMovesTaken,
    /// FA counts as a move.
    FaIsAMove,
    /// MOV counts as none.
    MovIsNoMove,
    /// Code 14 is looked for after code 11.
    FourteenAfterEleven,
    /// Turns are counted, and not acts alone.
    TurnsCounted,
    /// The count of acts does not stay at its top.
    ActsPastTheTop,
    /// A cancel clears the line's count.
    ActsClearedAtCancel,
    /// A control reset clears the counts of cancelled lines too.
    ActsOfCancelledClearedAtControlReset,
    /// A control reset clears no count.
    ActsKeptAtControlReset,
    /// Program end is a control reset.
    ProgramEndIsControlReset,
    /// Program end cancels IDS lines too.
    ProgramEndCancelsAll,
    /// A print keeps zeros at the end of a fraction.
    PrintKeepsZeros,
    /// A print has a space between a word or number and a variable.
    PrintSpacesDollar,
    /// A print leaves out pairs of minus signs.
    PrintShortensChains,
    /// A print has an LF behind its last line.
    PrintEndsInLf,
    /// The rule of the history looks back past a control reset.
    PastControlReset,
    /// It looks back for conditions to the line's last release only.
    BackToRelease,
    /// Program end is written into the history as a start.
    ProgramEndIsAStart,
    /// Failed beats are written into the history.
    FailedBeatsWritten,
    /// LOCK and UNLOCK in text are not.
    TextLocksNotWritten,
}

impl Slip {
    /// In what the control prints.
    pub const PRINTED: [Slip; 37] = [
        Slip::EveryByLevel,
        Slip::MemoryClearedAtUnlock,
        Slip::MemoryClearedAtSkip,
        Slip::MemoryKeptAtControlReset,
        Slip::WritesKeptAtAlarm,
        Slip::TextOrder,
        Slip::ReadAtBeatStart,
        Slip::CutAwayFromZero,
        Slip::TwelveBeforeFive,
        Slip::MarkersCut,
        Slip::MarkerHalvesUp,
        Slip::CurveUnlimited,
        Slip::CurveWorkedWhole,
        Slip::UndefinedAfterTwelve,
        Slip::ReadingHalvesAway,
        Slip::ReadingCut,
        Slip::BridgedFor26,
        Slip::FaultsCountedWhenUndone,
        Slip::OthersKeptAt23,
        Slip::ChannelsClearedAtControlReset,
        Slip::CurvesAsLoaded,
        Slip::CurveOfAnyNumber,
        Slip::TwoMovesTaken,
        Slip::FaIsAMove,
        Slip::MovIsNoMove,
        Slip::FourteenAfterEleven,
        Slip::TurnsCounted,
        Slip::ActsPastTheTop,
        Slip::ActsClearedAtCancel,
        Slip::ActsOfCancelledClearedAtControlReset,
        Slip::ActsKeptAtControlReset,
        Slip::ProgramEndIsControlReset,
        Slip::ProgramEndCancelsAll,
        Slip::PrintKeepsZeros,
        Slip::PrintSpacesDollar,
        Slip::PrintShortensChains,
        Slip::PrintEndsInLf,
    ];
    /// In the flags of lines, or in the history or its rule, so that the two part.
    pub const PARTING: [Slip; 14] = [
        Slip::EveryByLevel,
        Slip::MemoryClearedAtUnlock,
        Slip::MemoryClearedAtSkip,
        Slip::MemoryKeptAtControlReset,
        Slip::WritesKeptAtAlarm,
        Slip::TurnsCounted,
        Slip::ActsClearedAtCancel,
        Slip::ActsOfCancelledClearedAtControlReset,
        Slip::ActsKeptAtControlReset,
        Slip::PastControlReset,
        Slip::BackToRelease,
        Slip::ProgramEndIsAStart,
        Slip::FailedBeatsWritten,
        Slip::TextLocksNotWritten,
    ];

    /// Whether programs of this form can show it: `synrun` has no damage and prints no count, `synprint` has no beat, and
    /// `synstat` prints counts alone.
    pub fn shows_in(self, form: Form) -> bool {
        match form {
            Form::Synrun => !self.is_in_prints() && !self.is_of_damage() && !self.is_in_counts(),
            Form::Host | Form::Long => !self.is_in_prints(),
            Form::Print => self.is_in_prints() || self.is_in_loading(),
            Form::Stat => self.shows_in_counts(),
        }
    }

    fn is_of_damage(self) -> bool {
        [Slip::CurvesAsLoaded, Slip::CurveOfAnyNumber].contains(&self)
    }

    fn shows_in_counts(self) -> bool {
        let in_turns = [Slip::EveryByLevel, Slip::WritesKeptAtAlarm, Slip::ProgramEndIsControlReset];
        let of_no_call = [Slip::ActsPastTheTop, Slip::ActsClearedAtCancel];
        in_turns.contains(&self) || (self.is_in_counts() && !of_no_call.contains(&self))
    }

    fn is_in_counts(self) -> bool {
        let at_calls = [
            Slip::ActsClearedAtCancel,
            Slip::ActsOfCancelledClearedAtControlReset,
            Slip::ActsKeptAtControlReset,
        ];
        at_calls.contains(&self) || [Slip::TurnsCounted, Slip::ActsPastTheTop].contains(&self)
    }

    fn is_in_loading(self) -> bool {
        let of_order = [Slip::TextOrder, Slip::TwelveBeforeFive, Slip::UndefinedAfterTwelve];
        let of_moves = [Slip::TwoMovesTaken, Slip::FaIsAMove, Slip::MovIsNoMove, Slip::FourteenAfterEleven];
        of_order.contains(&self) || of_moves.contains(&self)
    }

    fn is_in_prints(self) -> bool {
        [Slip::PrintKeepsZeros, Slip::PrintSpacesDollar, Slip::PrintShortensChains, Slip::PrintEndsInLf]
            .contains(&self)
    }

    /// The cut of products and quotients.
    pub fn cut(self) -> Cut {
        match self {
            Slip::CutAwayFromZero => Cut::AwayFromZero,
            _ => Cut::TowardZero,
        }
    }

    /// The rounding of what is written to markers.
    pub fn rounding(self) -> Rounding {
        match self {
            Slip::MarkersCut => Rounding::TowardZero,
            Slip::MarkerHalvesUp => Rounding::HalvesUp,
            _ => Rounding::Nearest,
        }
    }
}
