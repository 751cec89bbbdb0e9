//! The links of all CSDs for all securities, each with its days, as walks and new links read them.

use crate::directory::*;
use crate::numbers::{AccountNumber, CsdNumber, CsdSet, SecurityNumber};

/// What a link makes of its CSD for a security: an issuer with its issuance account, or an investor with a technical
/// issuer, in T2S or external. Without a link it is neither. An external issuer has no account, and its number means
/// nothing.
#[derive(Clone, Copy, PartialEq, Eq, Debug, Default)]
pub enum Standing {
    #[default]
    NoLink,
    Issuer(AccountNumber),
    Investor(CsdNumber),
    InvestorOutside(CsdNumber),
}

impl Standing {
    /// The technical issuer of an investor.
    pub fn technical(self) -> Option<CsdNumber> {
        match self {
            Standing::Investor(technical) | Standing::InvestorOutside(technical) => Some(technical),
            Standing::NoLink | Standing::Issuer(_) => None,
        }
    }
}

/// The number of a link in the table of older ones. A byte names one of 256 rows, so that no place is tested.
type LinkNumber = u8;
const ROWS: usize = 256;

/// A link, and the one of the same flag that its CSD had last for the security.
#[derive(Clone, Copy)]
struct Row {
    days: Period,
    standing: Standing,
    older: LinkNumber,
}

/// Stands behind the oldest link of each list, on every day, and first in the table of older ones.
const NO_LINK: Row = Row { days: Period::ALWAYS, standing: Standing::NoLink, older: 0 };

/// By security and CSD, the newest link.
type Newest = [[Row; CSDS]; SECURITIES];

#[derive(Clone)]
pub struct Links {
    /// Links with flag 1, issuer links and default links.
    defaults: Newest,
    /// Links with flag 0.
    alternatives: Newest,
    /// Links that are not the newest.
    older: [Row; ROWS],
    older_count: LinkNumber,
    /// By security and technical issuer, the CSDs with a link to it on any day.
    pointing: [[CsdSet; CSDS]; SECURITIES],
}

impl Default for Links {
    fn default() -> Self {
        Links {
            defaults: [[NO_LINK; CSDS]; SECURITIES],
            alternatives: [[NO_LINK; CSDS]; SECURITIES],
            older: [NO_LINK; ROWS],
            older_count: 0,
            pointing: Default::default(),
        }
    }
}

impl Links {
    /// The links of a CSD for a security.
    #[inline(always)]
    pub fn of(&self, security: SecurityNumber, csd: CsdNumber) -> LinksOf<'_> {
        LinksOf {
            default: &self.defaults[security.index()][csd.index()],
            alternative: &self.alternatives[security.index()][csd.index()],
            older: &self.older,
        }
    }

    /// The CSDs that have a link for a security to this one on any day.
    pub fn pointing_to(&self, security: SecurityNumber, technical: CsdNumber) -> CsdSet {
        self.pointing[security.index()][technical.index()]
    }

    /// Adds a link. There must be fewer than 128.
    pub(crate) fn push(
        &mut self,
        security: SecurityNumber,
        csd: CsdNumber,
        flag: u8,
        standing: Standing,
        days: Period,
    ) {
        let lists = if flag == DEFAULT { &mut self.defaults } else { &mut self.alternatives };
        let newest = &mut lists[security.index()][csd.index()];
        let mut older = 0;
        if newest.standing != Standing::NoLink {
            self.older_count += 1;
            older = self.older_count;
            self.older[usize::from(older)] = *newest;
        }
        *newest = Row { days, standing, older };
        if let Some(technical) = standing.technical() {
            self.pointing[security.index()][technical.index()].insert(csd);
        }
    }
}

/// The links that one CSD has for one security. On any day one of them at most has flag 1, and where one has flag 0, one
/// has flag 1.
#[derive(Clone, Copy)]
pub struct LinksOf<'a> {
    default: &'a Row,
    alternative: &'a Row,
    older: &'a [Row; ROWS],
}

impl LinksOf<'_> {
    /// What the CSD is on a day by its link with flag 1: the issuer link, or the default link to a technical issuer.
    #[inline(always)]
    pub fn standing(self, day: Day) -> Standing {
        self.default_on(day).standing
    }

    /// Whether a link of a day, default or alternative, points to the CSD.
    pub fn point_to(self, target: CsdNumber, day: Day) -> bool {
        self.meet(Period::new(day, day), |standing| standing.technical() == Some(target))
    }

    /// Whether a link that fits shares a day with the period.
    pub fn meet(self, days: Period, fits: impl Fn(Standing) -> bool) -> bool {
        self.list_meets(self.default, days, &fits) || self.list_meets(self.alternative, days, &fits)
    }

    /// Whether a link with flag 1 that fits shares a day with the period.
    pub fn defaults_meet(self, days: Period, fits: impl Fn(Standing) -> bool) -> bool {
        self.list_meets(self.default, days, fits)
    }

    /// Whether each day of a period has a link with flag 1: from the first day on, such a link leads to the day behind
    /// its last.
    pub fn have_default_throughout(self, days: Period) -> bool {
        let mut day = days.first;
        loop {
            let row = self.default_on(day);
            if row.standing == Standing::NoLink {
                return false;
            }
            if row.days.last >= days.last {
                return true;
            }
            day = row.days.last + 1;
        }
    }

    /// The link of a day with flag 1. The row of no link has every day, and ends the search.
    #[inline(always)]
    fn default_on(&self, day: Day) -> &Row {
        let mut row = self.default;
        while !row.days.contains(day) {
            row = self.older_than(row);
        }
        row
    }

    fn list_meets(self, newest: &Row, days: Period, fits: impl Fn(Standing) -> bool) -> bool {
        let mut row = newest;
        while row.standing != Standing::NoLink {
            if row.days.shares_day(days) && fits(row.standing) {
                return true;
            }
            row = self.older_than(row);
        }
        false
    }

    fn older_than(&self, row: &Row) -> &Row {
        &self.older[usize::from(row.older)]
    }
}
