//! Walks over the links that a security has on a day.

use crate::directory::Day;
use crate::links::Standing;
use crate::numbers::{AccountNumber, CsdNumber, CsdSet, SecurityNumber};
use crate::register::Register;

/// "A side names at most 8 CSDs, start and external end counted."
pub const SIDE: usize = 8;

/// CSDs in T2S along the links, from the start of a walk.
#[derive(Clone, Debug, Default)]
pub struct Side {
    csds: [CsdNumber; SIDE],
    length: usize,
}

impl Side {
    pub fn length(&self) -> usize {
        self.length
    }

    pub fn csds(&self) -> &[CsdNumber] {
        &self.csds[..self.length]
    }

    /// Leaves so many of its CSDs.
    pub fn cut(&mut self, length: usize) {
        self.length = length;
    }

    /// Leaves so many of its CSDs and one more, if a side has room for it.
    pub fn cut_before(&mut self, length: usize, csd: CsdNumber) -> bool {
        let Some(place) = self.csds.get_mut(length) else {
            return false;
        };
        *place = csd;
        self.length = length + 1;
        true
    }
}

/// "A walk ends in one of four ways." Inside it ends at the last CSD of its side, with that one's issuance account.
#[derive(Clone, Copy, PartialEq, Eq, Debug)]
pub enum WalkEnd {
    Inside(AccountNumber),
    Outside(CsdNumber),
    NoLink,
    TooLong,
}

/// A default walk: the CSDs of its side as a set, and its end, where alone an external CSD stands.
#[derive(Clone, Copy, Debug)]
pub struct Walk {
    pub named: CsdSet,
    pub end: WalkEnd,
}

impl Walk {
    /// Whether the walk ends inside or outside.
    pub fn arrives(self) -> bool {
        matches!(self.end, WalkEnd::Inside(_) | WalkEnd::Outside(_))
    }
}

impl Register {
    /// The default walk from a CSD in T2S. It leaves its side.
    #[inline(always)]
    pub fn default_walk(&self, security: SecurityNumber, start: CsdNumber, day: Day, side: &mut Side) -> Walk {
        let mut named = CsdSet::default();
        let mut csd = start;
        for place in 0..SIDE {
            side.csds[place] = csd;
            named.insert(csd);
            let end = match self.links(security, csd).standing(day) {
                Standing::Investor(technical) => {
                    csd = technical;
                    continue;
                }
                Standing::InvestorOutside(technical) if place + 1 < SIDE => WalkEnd::Outside(technical),
                Standing::InvestorOutside(_) => WalkEnd::TooLong,
                Standing::Issuer(issuance) => WalkEnd::Inside(issuance),
                Standing::NoLink => WalkEnd::NoLink,
            };
            side.length = place + 1;
            return Walk { named, end };
        }
        side.length = SIDE;
        Walk { named, end: WalkEnd::TooLong }
    }

    /// Tells whether the directed walk to another CSD reaches, and makes its side, target included, of that of the
    /// default walk from the same start: it is the same as far as the first CSD with a link to the target.
    #[inline(always)]
    pub fn directed_walk(
        &self,
        security: SecurityNumber,
        walk: Walk,
        target: CsdNumber,
        day: Day,
        side: &mut Side,
    ) -> bool {
        let pointing = self.pointing_to(security, target);
        if !walk.named.meets(pointing) {
            return false;
        }
        let points = |&csd: &CsdNumber| pointing.contains(csd) && self.links(security, csd).point_to(target, day);
        let last = side.csds().iter().position(points);
        last.is_some_and(|last| side.cut_before(last + 1, target))
    }
}
