//! Refusals, numbered as the documents number them.

/// Why a call is refused, in the order of places: the first that applies is given.
#[derive(Clone, Copy, PartialEq, Eq, Hash, Debug)]
#[repr(u8)]
pub enum Refusal {
    UnknownCommand = 1,
    CutShort = 2,
    LentList = 3,
    NotSound = 4,
    TableFull = 5,
    NoRow = 6,
    OutsideRange = 7,
    CheckDigit = 8,
    AlreadyEntered = 9,
    WrongAccount = 10,
    FirstAfterLast = 24,
    RuleBroken = 11,
    SameSide = 23,
    HalvesDiffer = 12,
    SameAccount = 13,
    NoLink = 14,
    TooLong = 15,
    InsideToOutside = 16,
    OutsideToInside = 17,
    NoPair = 18,
    NoSource = 19,
    SecuritiesShort = 20,
    CashShort = 21,
    BeyondBound = 22,
}

impl Refusal {
    /// The paper's number.
    pub fn number(self) -> u8 {
        self as u8
    }
}

/// Refuses unless the condition holds.
pub(crate) fn require(condition: bool, refusal: Refusal) -> Result<(), Refusal> {
    if condition {
        Ok(())
    } else {
        Err(refusal)
    }
}
