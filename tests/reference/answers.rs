//! The paper's section "Refusals by number, and dropped frames": the numbers and their names.

use crate::numbers::Whole;

/// The table of refusals.
#[derive(Clone, Copy, PartialEq, Debug)]
pub enum Refusal {
    FrameLength,
    StateNotWellFormed,
    BufferTooShort,
    BadSetting,
    TooManyIntervals,
    BadStamp,
    BadRecord,
}

impl Refusal {
    /// The column "No." of the table.
    pub fn number(self) -> Whole {
        match self {
            Refusal::FrameLength => 1,
            Refusal::StateNotWellFormed => 2,
            Refusal::BufferTooShort => 3,
            Refusal::BadSetting => 4,
            Refusal::TooManyIntervals => 5,
            Refusal::BadStamp => 6,
            Refusal::BadRecord => 7,
        }
    }
}

/// The reasons D1 to D8 for a dropped frame.
#[derive(Clone, Copy, PartialEq, Debug)]
pub enum Dropped {
    ShorterThan18,
    Level,
    OpcodeNotHandled,
    TlvOffset,
    PartMissing,
    DestinationNotOurs,
    FieldValue,
    DelayTooLarge,
}

impl Dropped {
    /// The number behind the D.
    pub fn number(self) -> Whole {
        match self {
            Dropped::ShorterThan18 => 1,
            Dropped::Level => 2,
            Dropped::OpcodeNotHandled => 3,
            Dropped::TlvOffset => 4,
            Dropped::PartMissing => 5,
            Dropped::DestinationNotOurs => 6,
            Dropped::FieldValue => 7,
            Dropped::DelayTooLarge => 8,
        }
    }
}

/// Near and far loss of one reply.
#[derive(Clone, Copy, PartialEq, Debug)]
pub struct Loss {
    pub near: Whole,
    pub far: Whole,
}

/// The delays of one reply, in signed nanoseconds.
#[derive(Clone, Copy, PartialEq, Debug)]
pub enum Delay {
    TwoWayOnly(Whole),
    All { two_way: Whole, far: Whole, near: Whole },
}

/// What becomes of a frame that is not refused.
#[derive(Clone, Copy, PartialEq, Debug)]
pub enum Fate {
    Passed,
    Dropped(Dropped),
    Taken,
    Replied(Whole),
    Loss(Loss),
    Delay(Delay),
}
