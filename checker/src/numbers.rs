//! Numbers that name entered rows, and sets of them. A value of these types has been looked up, so
//! the row is there; rows and operands hold plain numbers, which may name nothing.

use crate::directory::{ACCOUNTS, CSDS, SECURITIES};

#[derive(Clone, Copy, PartialEq, Eq, Debug, Default)]
pub struct CsdNumber(pub(crate) u8);

#[derive(Clone, Copy, PartialEq, Eq, Debug, Default)]
pub struct SecurityNumber(pub(crate) u8);

/// Of 256 accounts each has a byte.
#[derive(Clone, Copy, PartialEq, Eq, Debug, Default)]
pub struct AccountNumber(pub(crate) u8);

const _: () = assert!(ACCOUNTS == 1 << u8::BITS);

/// The place of a row in a list of all rows. A row's number is below the limit, so that the remainder is the number
/// itself; it says so to the compiler, which then tests no bounds.
fn place(number: usize, limit: usize) -> usize {
    debug_assert!(number < limit);
    number % limit
}

impl CsdNumber {
    pub(crate) fn index(self) -> usize {
        place(self.0.into(), CSDS)
    }
}

impl SecurityNumber {
    pub(crate) fn index(self) -> usize {
        place(self.0.into(), SECURITIES)
    }
}

impl AccountNumber {
    pub(crate) fn index(self) -> usize {
        usize::from(self.0)
    }
}

/// A set of CSDs, one bit each.
#[derive(Clone, Copy, PartialEq, Eq, Default, Debug)]
pub struct CsdSet(u32);

impl CsdSet {
    pub fn insert(&mut self, csd: CsdNumber) {
        self.0 |= 1 << csd.index();
    }

    pub fn contains(self, csd: CsdNumber) -> bool {
        self.0 >> csd.index() & 1 == 1
    }

    pub fn meets(self, other: CsdSet) -> bool {
        self.0 & other.0 != 0
    }

    /// How many CSDs are in both.
    pub fn shared_with(self, other: CsdSet) -> usize {
        (self.0 & other.0).count_ones() as usize
    }
}
