//! The refusals, by number and in words.

use core::error::Error;
use core::fmt;

/// Why a card, a state or a tick is refused: the first that applies. `linkage.h` has each one's exact sense.
#[derive(Clone, Copy, Debug, PartialEq, Eq)]
#[non_exhaustive]
pub enum Refusal {
    ShortCard,
    WrongEdition,
    WrongCounts,
    WrongRate,
    WrongLength,
    UnusedBits,
    FloatOutOfRange,
    LimitOrder,
    NotUnit,
    WrongBodies,
    StateLength,
    StateNumber,
    Stopped,
    Conversion,
    Dominance,
    AngleLimit,
    JointMark,
    /// One that this version does not know.
    Unknown(u32),
}

impl Refusal {
    /// The refusal of a number, none for 0.
    pub fn from_number(number: u32) -> Option<Refusal> {
        Some(match number {
            0 => return None,
            1 => Refusal::ShortCard,
            2 => Refusal::WrongEdition,
            3 => Refusal::WrongCounts,
            4 => Refusal::WrongRate,
            5 => Refusal::WrongLength,
            6 => Refusal::UnusedBits,
            7 => Refusal::FloatOutOfRange,
            8 => Refusal::LimitOrder,
            9 => Refusal::NotUnit,
            10 => Refusal::WrongBodies,
            11 => Refusal::StateLength,
            12 => Refusal::StateNumber,
            13 => Refusal::Stopped,
            16 => Refusal::Conversion,
            17 => Refusal::Dominance,
            19 => Refusal::AngleLimit,
            21 => Refusal::JointMark,
            _ => Refusal::Unknown(number),
        })
    }

    pub fn number(self) -> u32 {
        match self {
            Refusal::ShortCard => 1,
            Refusal::WrongEdition => 2,
            Refusal::WrongCounts => 3,
            Refusal::WrongRate => 4,
            Refusal::WrongLength => 5,
            Refusal::UnusedBits => 6,
            Refusal::FloatOutOfRange => 7,
            Refusal::LimitOrder => 8,
            Refusal::NotUnit => 9,
            Refusal::WrongBodies => 10,
            Refusal::StateLength => 11,
            Refusal::StateNumber => 12,
            Refusal::Stopped => 13,
            Refusal::Conversion => 16,
            Refusal::Dominance => 17,
            Refusal::AngleLimit => 19,
            Refusal::JointMark => 21,
            Refusal::Unknown(number) => number,
        }
    }

    pub fn text(self) -> &'static str {
        match self {
            Refusal::ShortCard => "the card is shorter than its header",
            Refusal::WrongEdition => "the card's edition is not known, or not the one that is converted",
            Refusal::WrongCounts => "the card has no bodies, or too many bodies or joints",
            Refusal::WrongRate => "the card's rate is too low or too high",
            Refusal::WrongLength => "the card is not as long as its bodies and joints ask for",
            Refusal::UnusedBits => "a field of the card that has no use here is not zero, or a joint's kind, limits and motor do not go together",
            Refusal::FloatOutOfRange => "a number of the card is not finite, too large, or below zero where it may not be",
            Refusal::LimitOrder => "a joint's lower limit is above its upper one",
            Refusal::NotUnit => "a rotation, basis or axis of the card does not have length 1",
            Refusal::WrongBodies => "a joint's two bodies are not two, are not there, or are both anchored",
            Refusal::StateLength => "the state is not as long as the card's bodies and joints ask for",
            Refusal::StateNumber => "a number of the state is not finite, or a body is too far out",
            Refusal::Stopped => "the tick would leave a number that is not finite, or a body too far out",
            Refusal::Conversion => "the card is too large or too fast for the other edition, or the slice too short for its bytes",
            Refusal::Dominance => "a body of the card has a dominance, which is no longer known: an anchored body is to take its place",
            Refusal::AngleLimit => "an angle limit of a hinge or a ball is over 7 radians in size",
            Refusal::JointMark => "a joint of the state is neither whole nor broken",
            Refusal::Unknown(_) => "an answer that this version does not know",
        }
    }
}

impl fmt::Display for Refusal {
    fn fmt(&self, f: &mut fmt::Formatter) -> fmt::Result {
        f.write_str(self.text())
    }
}

impl Error for Refusal {}

/// A run of ticks that was refused. None of them is in the state.
#[derive(Clone, Copy, Debug, PartialEq, Eq)]
pub struct RunRefused {
    pub refusal: Refusal,
    /// How many ticks could be made before the refused one.
    pub done: u32,
}

impl fmt::Display for RunRefused {
    fn fmt(&self, f: &mut fmt::Formatter) -> fmt::Result {
        write!(f, "after {} ticks: {}", self.done, self.refusal)
    }
}

impl Error for RunRefused {}
