//! How pair rows are found: in each hop of a chain, where its sides turn, and by what is brought in or taken out.
//! Random inputs must reach every way.

use super::literal::{Asked, Climb, Rows};
use crate::directory::*;

#[derive(Clone, Copy, PartialEq, Eq, PartialOrd, Ord, Debug)]
pub enum Side {
    Delivering,
    Receiving,
}

/// From the participant, from the omnibus account that it reaches, and from those above.
#[derive(Clone, Copy, PartialEq, Eq, PartialOrd, Ord, Debug)]
pub enum Hop {
    First,
    Second,
    Higher,
}

/// The row of a triplet beside the others of its two CSDs.
#[derive(Clone, Copy, PartialEq, Eq, PartialOrd, Ord, Debug)]
pub enum Found {
    FirstAccounts,
    OtherAccounts,
    NoRow,
    RowsOfOthersOnly,
}

impl Found {
    pub fn is_missing(self) -> bool {
        matches!(self, Found::NoRow | Found::RowsOfOthersOnly)
    }
}

/// The technical issuer of a hop.
#[derive(Clone, Copy, PartialEq, Eq, PartialOrd, Ord, Debug)]
pub enum Technical {
    InT2s,
    External,
}

pub type HopWay = (Side, Hop, Technical, Found);

pub fn all_hops() -> Vec<HopWay> {
    let mut all = Vec::new();
    for side in [Side::Delivering, Side::Receiving] {
        for hop in [Hop::First, Hop::Second, Hop::Higher] {
            for technical in [Technical::InT2s, Technical::External] {
                use Found::*;
                all.extend(
                    [FirstAccounts, OtherAccounts, NoRow, RowsOfOthersOnly].map(|found| (side, hop, technical, found)),
                );
            }
        }
    }
    all
}

/// What the rows of the CSD where two sides meet say of the two omnibus accounts, towards its own technical issuer.
#[derive(Clone, Copy, PartialEq, Eq, PartialOrd, Ord, Debug)]
pub enum Turn {
    SameDuo,
    DifferentDuos,
    NotServed,
}

pub const TURNS: [Turn; 3] = [Turn::SameDuo, Turn::DifferentDuos, Turn::NotServed];

/// What a participant account brings in from, or why there is nothing.
#[derive(Clone, Copy, PartialEq, Eq, PartialOrd, Ord, Debug)]
pub enum Source {
    Issuance,
    NoLink,
    InterCsd(Found),
}

/// Every source with the answer that it gives, 0 for acceptance or the refusal 19.
pub const SOURCES: [(Source, u8); 6] = [
    (Source::Issuance, 0),
    (Source::NoLink, 19),
    (Source::InterCsd(Found::FirstAccounts), 0),
    (Source::InterCsd(Found::OtherAccounts), 0),
    (Source::InterCsd(Found::NoRow), 19),
    (Source::InterCsd(Found::RowsOfOthersOnly), 19),
];

impl Rows {
    fn found(&self, asked: &Asked) -> Found {
        let same = |row: &&Pair| row.investor == asked.investor && row.technical == asked.technical;
        match (self.pairs.iter().find(same), self.row(asked)) {
            (None, _) => Found::NoRow,
            (_, None) => Found::RowsOfOthersOnly,
            (Some(first), Some(row)) if first.investor_account == row.investor_account => Found::FirstAccounts,
            _ => Found::OtherAccounts,
        }
    }

    /// Every hop of a chain; where a row is missing on one side alone, that hop.
    pub fn hops(&self, security: u8, delivering: u16, receiving: u16) -> Vec<HopWay> {
        let Ok(route) = self.route(security, delivering, receiving) else { return Vec::new() };
        let climbs = [
            (Side::Delivering, delivering, self.climb(Rows::row, delivering, &route.up)),
            (Side::Receiving, receiving, self.climb(Rows::row, receiving, &route.down)),
        ];
        let missing = climbs.iter().filter(|(.., climb)| climb.missing.is_some()).count();
        let hops = climbs.iter().flat_map(|(side, account, climb)| {
            let hops = self.hops_of(*side, *account, climb);
            match (missing, &climb.missing) {
                (0, _) => hops,
                (1, Some(_)) => hops[hops.len() - 1..].to_vec(),
                _ => Vec::new(),
            }
        });
        hops.collect()
    }

    fn hops_of(&self, side: Side, participant: u16, climb: &Climb) -> Vec<HopWay> {
        let asked = climb.rows.iter().map(|&Pair { investor, technical, served, .. }| Asked {
            investor,
            technical,
            served,
            participant,
        });
        let hops = [Hop::First, Hop::Second].into_iter().chain(std::iter::repeat(Hop::Higher));
        let way = |(asked, hop): (Asked, Hop)| {
            let external = self.is_external(asked.technical);
            (side, hop, if external { Technical::External } else { Technical::InT2s }, self.found(&asked))
        };
        asked.chain(climb.missing).zip(hops).map(way).collect()
    }

    /// Where two sides meet at a CSD that both climbed to and that has a default link itself.
    pub fn turn(&self, security: u8, delivering: u16, receiving: u16) -> Option<Turn> {
        let route = self.route(security, delivering, receiving).ok()?;
        let top = *route.up.last().filter(|&csd| route.down.last() == Some(csd) && !self.is_external(*csd))?;
        let technical = self.default_technical(security, top)?;
        let one = *self.climb(Rows::row, delivering, &route.up).rows.last()?;
        let other = *self.climb(Rows::row, receiving, &route.down).rows.last()?;
        let [one, other] = [one, other].map(|row| self.row(&Asked::first(top, technical, row.technical_account)));
        Some(match (one, other) {
            (Some(one), Some(other)) if one.investor_account == other.investor_account => Turn::SameDuo,
            (Some(_), Some(_)) => Turn::DifferentDuos,
            _ => Turn::NotServed,
        })
    }

    /// What an account that exists brings in from.
    pub fn source_way(&self, security: u8, account: u16) -> Option<Source> {
        let csd = self.accounts.get(usize::from(account))?.csd;
        let technical = self.default_technical(security, csd).filter(|&technical| self.is_external(technical));
        Some(match (self.is_issuer(security, csd), technical) {
            (true, _) => Source::Issuance,
            (_, None) => Source::NoLink,
            (_, Some(technical)) => Source::InterCsd(self.found(&Asked::first(csd, technical, account))),
        })
    }
}
