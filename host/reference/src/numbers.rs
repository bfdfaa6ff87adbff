//! "Numbers returned"

/// The number that a call returns, with the names of the paper's list.
#[derive(Clone, Copy, Debug, PartialEq, Eq, PartialOrd, Ord)]
#[repr(u8)]
pub enum Number {
    Done = 0,
    SmallBuffer = 1,
    BadTable = 2,
    BadMessage = 3,
    Changing = 4,
    OtherBody = 5,
    Contradiction = 6,
    Full = 7,
    Unknown = 8,
    OtherView = 9,
    OldView = 10,
    WrongTables = 11,
}

impl Number {
    pub fn code(self) -> u8 {
        self as u8
    }
}

/// "The first that applies wins, in this order: 1, 2, 3, 4, 9, 10, 11, 8, 5, 6, 7."
pub const ORDER: [Number; 11] = [
    Number::SmallBuffer,
    Number::BadTable,
    Number::BadMessage,
    Number::Changing,
    Number::OtherView,
    Number::OldView,
    Number::WrongTables,
    Number::Unknown,
    Number::OtherBody,
    Number::Contradiction,
    Number::Full,
];

/// The first number of the order that applies; "done" is given if "none below applies".
pub fn first_that_applies(applies: impl Fn(Number) -> bool) -> Number {
    let refusal = ORDER.iter().copied().find(|number| applies(*number));
    refusal.unwrap_or(Number::Done)
}
