//! The directory as a record: five tables of rows, handed in and back. Nothing here is judged; any
//! numbers may stand in a record, also counts beyond the limits and rows behind the counts.

pub const CSDS: usize = 32;
pub const SECURITIES: usize = 16;
pub const ACCOUNTS: usize = 256;
pub const PAIRS: usize = 512;
pub const LINKS: usize = 128;

/// Stands where a link names no technical issuer.
pub const NO_CSD: u8 = 0xFF;
/// Stands where a pair or link names no account.
pub const NO_ACCOUNT: u16 = 0xFFFF;

/// Types of a CSD.
pub const IN_T2S: u8 = 0;
pub const EXTERNAL: u8 = 1;

/// Kinds of account.
pub const PARTICIPANT: u8 = 0;
pub const OMNIBUS: u8 = 1;
pub const MIRROR: u8 = 2;
pub const INTER_CSD: u8 = 3;
pub const ISSUANCE: u8 = 4;

/// Kinds of link.
pub const ISSUER: u8 = 0;
pub const INVESTOR: u8 = 1;

/// Values of a link's default flag.
pub const ALTERNATIVE: u8 = 0;
pub const DEFAULT: u8 = 1;

pub type Bic = [u8; 11];
pub type Isin = [u8; 12];

/// "A 16-bit count from 1 January 2020 as day 0."
pub type Day = u16;

/// The days from a first to a last one, both included. With the first after the last there is none.
#[derive(Clone, Copy, PartialEq, Eq, Debug, Default)]
pub struct Period {
    pub first: Day,
    pub last: Day,
}

impl Period {
    /// Every day.
    pub const ALWAYS: Period = Period { first: 0, last: Day::MAX };

    pub fn new(first: Day, last: Day) -> Period {
        Period { first, last }
    }

    pub fn has_day(self) -> bool {
        self.first <= self.last
    }

    pub fn contains(self, day: Day) -> bool {
        self.first <= day && day <= self.last
    }

    pub fn shares_day(self, other: Period) -> bool {
        self.first.max(other.first) <= self.last.min(other.last)
    }
}

#[derive(Clone, Copy, PartialEq, Eq, Debug, Default)]
pub struct Csd {
    pub kind: u8,
    pub bic: Bic,
}

#[derive(Clone, Copy, PartialEq, Eq, Debug, Default)]
pub struct Security {
    pub isin: Isin,
}

#[derive(Clone, Copy, PartialEq, Eq, Debug, Default)]
pub struct Account {
    pub csd: u8,
    pub kind: u8,
}

/// The accounts through which an investor CSD holds with a technical issuer for one of its participant or
/// omnibus accounts, the served one: its mirror and the omnibus, or its inter-CSD account and none.
#[derive(Clone, Copy, PartialEq, Eq, Debug, Default)]
pub struct Pair {
    pub investor: u8,
    pub technical: u8,
    pub investor_account: u16,
    pub technical_account: u16,
    pub served: u16,
}

#[derive(Clone, Copy, PartialEq, Eq, Debug, Default)]
pub struct Link {
    pub security: u8,
    pub kind: u8,
    pub csd: u8,
    pub technical: u8,
    pub flag: u8,
    pub account: u16,
    pub days: Period,
}

/// Rows numbered from 0 by entry; those from `count` on are not entered.
#[derive(Clone, PartialEq, Eq, Debug)]
pub struct Table<Row, const LIMIT: usize> {
    pub count: usize,
    pub rows: [Row; LIMIT],
}

impl<Row: Copy + Default, const LIMIT: usize> Default for Table<Row, LIMIT> {
    fn default() -> Self {
        Table { count: 0, rows: [Row::default(); LIMIT] }
    }
}

impl<Row: Copy, const LIMIT: usize> Table<Row, LIMIT> {
    /// The entered rows, or none where the count is beyond the limit.
    pub fn entered(&self) -> Option<&[Row]> {
        self.rows.get(..self.count)
    }

    /// The row of a number, if entered.
    pub fn get(&self, number: usize) -> Option<&Row> {
        self.entered()?.get(number)
    }

    pub fn is_full(&self) -> bool {
        self.count >= LIMIT
    }

    /// Adds a row behind the entered ones. The table must not be full.
    pub(crate) fn push(&mut self, row: Row) {
        self.rows[self.count] = row;
        self.count += 1;
    }
}

#[derive(Clone, PartialEq, Eq, Debug, Default)]
pub struct Directory {
    pub csds: Table<Csd, CSDS>,
    pub securities: Table<Security, SECURITIES>,
    pub accounts: Table<Account, ACCOUNTS>,
    pub pairs: Table<Pair, PAIRS>,
    pub links: Table<Link, LINKS>,
}
