//! Walks, chains and sides once more, word by word from the documents over plain lists of rows, without any
//! look-up table. Slow, short, and the measure of demand 3: "the chain of a settlement is the one that
//! this document gives for its operands over the directory that the accepted calls before it make".

use crate::booking::Half;
use crate::chain::Step;
use crate::command::Command;
use crate::directory::*;

/// Rows that were accepted, in order of entry.
#[derive(Clone, Default)]
pub struct Rows {
    pub csds: Vec<Csd>,
    pub securities: Vec<Security>,
    pub accounts: Vec<Account>,
    pub pairs: Vec<Pair>,
    pub links: Vec<Link>,
}

impl Rows {
    /// The record that these rows make, one after the other.
    pub fn record(&self) -> Directory {
        let mut record = Directory::default();
        self.csds.iter().for_each(|&row| record.csds.push(row));
        self.securities.iter().for_each(|&row| record.securities.push(row));
        self.accounts.iter().for_each(|&row| record.accounts.push(row));
        self.pairs.iter().for_each(|&row| record.pairs.push(row));
        self.links.iter().for_each(|&row| record.links.push(row));
        record
    }

    /// "Only links valid on it are seen": the same with the links of all other days struck out. What follows reads links
    /// as if they had no days.
    pub fn on(&self, day: Day) -> Rows {
        let mut rows = self.clone();
        rows.links.retain(|link| is_valid(link, day));
        rows
    }
}

impl From<&Directory> for Rows {
    /// The rows of a record whose counts are within limits.
    fn from(record: &Directory) -> Rows {
        Rows {
            csds: record.csds.entered().unwrap_or_default().to_vec(),
            securities: record.securities.entered().unwrap_or_default().to_vec(),
            accounts: record.accounts.entered().unwrap_or_default().to_vec(),
            pairs: record.pairs.entered().unwrap_or_default().to_vec(),
            links: record.links.entered().unwrap_or_default().to_vec(),
        }
    }
}

/// The delivering and the receiving half of a command: by place, or the one that says 0 and the one that says 1.
pub fn in_order(command: &Command) -> Option<(Half, Half)> {
    match *command {
        Command::Settle { delivering, receiving, .. } | Command::Derive { delivering, receiving, .. } => {
            Some((delivering, receiving))
        }
        Command::SettleSided { first, second, .. } | Command::DeriveSided { first, second, .. } => {
            let says = |side: u8| [first, second].into_iter().find(|sided| sided.side == side).map(|sided| sided.half);
            says(0).zip(says(1))
        }
        _ => None,
    }
}

/// "A first and last day [...], both included."
pub fn is_valid(link: &Link, day: Day) -> bool {
    (link.days.first..=link.days.last).contains(&day)
}

/// The day of a command, if it has one.
pub fn day_of(command: &Command) -> Option<Day> {
    match *command {
        Command::BringIn { day, .. } | Command::TakeOut { day, .. } => Some(day),
        Command::Settle { day, .. } | Command::Derive { day, .. } => Some(day),
        Command::SettleSided { day, .. } | Command::DeriveSided { day, .. } => Some(day),
        _ => None,
    }
}

/// Which rule gave a chain, and how its sides end.
#[derive(Clone, Copy, PartialEq, Eq, PartialOrd, Ord, Debug)]
pub enum ChainKind {
    OneCsd,
    SharedInside,
    SharedOutside,
    DirectedFromDelivering,
    DirectedFromReceiving,
    TwoIssuers,
    BothOutside,
}

/// What ask 6 tells apart: "chains of one step", "default chains" (cases 2 and 4 of the chain rule), "where just one of
/// the two directed walks reaches", and "where both reach".
#[derive(Clone, Copy, PartialEq, Eq, PartialOrd, Ord, Debug)]
pub enum Way {
    OneStep,
    DefaultsMeet,
    TwoIssuers,
    TwoExternalEnds,
    OnlyFromDelivering,
    OnlyFromReceiving,
    BothReach,
}

#[derive(Clone, Copy, PartialEq, Eq)]
enum End {
    Inside,
    Outside,
    NoLink,
    TooLong,
}

/// What a step asks for: the row of "the account at its other side", in a climb that started from a participant.
#[derive(Clone, Copy, PartialEq, Eq, Debug)]
pub struct Asked {
    pub investor: u8,
    pub technical: u8,
    pub served: u16,
    pub participant: u16,
}

impl Asked {
    /// The row of an account from which a climb starts.
    pub fn first(investor: u8, technical: u8, served: u16) -> Asked {
        Asked { investor, technical, served, participant: served }
    }
}

/// A side climbed from its own account upwards: the rows, and what was asked for in vain.
#[derive(Clone, Debug)]
pub struct Climb {
    pub rows: Vec<Pair>,
    pub missing: Option<Asked>,
}

/// How a row is looked up.
pub type LookUp = fn(&Rows, &Asked) -> Option<Pair>;

/// Both sides of a chain, each from its participant's CSD. Where they meet at one CSD, both name it last; where they
/// go outside, both name the external CSD last.
pub struct Route {
    pub kind: ChainKind,
    pub up: Vec<u8>,
    pub down: Vec<u8>,
}

/// What a side does in one CSD's books: the account towards the participant, and the one beyond, a mirror, inter-CSD or
/// issuance account.
struct HalfStep {
    csd: u8,
    near: u16,
    far: u16,
}

impl Rows {
    /// The kind and the steps of the chain between two participant accounts, or the refusal number.
    pub fn chain(&self, security: u8, delivering: u16, receiving: u16) -> Result<(ChainKind, Vec<Step>), u8> {
        self.chain_by(Rows::row, security, delivering, receiving)
    }

    /// The same with rows looked up in any way.
    pub fn chain_by(
        &self,
        row: LookUp,
        security: u8,
        delivering: u16,
        receiving: u16,
    ) -> Result<(ChainKind, Vec<Step>), u8> {
        let route = self.route(security, delivering, receiving)?;
        let climbs = [self.climb(row, delivering, &route.up), self.climb(row, receiving, &route.down)];
        if climbs.iter().any(|climb| climb.missing.is_some()) {
            return Err(18);
        }
        Ok((route.kind, self.steps(security, [delivering, receiving], &route, &climbs)))
    }

    /// "Refusal 18 means no row for the triplet."
    pub fn row(&self, asked: &Asked) -> Option<Pair> {
        let Asked { investor, technical, served, .. } = *asked;
        let mut rows = self.pairs.iter();
        rows.find(|row| row.investor == investor && row.technical == technical && row.served == served).copied()
    }

    /// At each CSD of a side the row of the account just reached: the participant, then the omnibus of the row before.
    pub fn climb(&self, row: LookUp, participant: u16, side: &[u8]) -> Climb {
        let mut rows: Vec<Pair> = Vec::new();
        for hop in side.windows(2) {
            let served = rows.last().map_or(participant, |row| row.technical_account);
            let asked = Asked { investor: hop[0], technical: hop[1], served, participant };
            match row(self, &asked) {
                Some(row) => rows.push(row),
                None => return Climb { rows, missing: Some(asked) },
            }
        }
        Climb { rows, missing: None }
    }

    /// The route between two participant accounts, pair rows unread, or the refusal number.
    pub fn route(&self, security: u8, delivering: u16, receiving: u16) -> Result<Route, u8> {
        let [d, r] = self.csds_of([delivering, receiving]);
        let route = |kind, up, down| Ok(Route { kind, up, down });
        if d == r {
            return route(ChainKind::OneCsd, vec![d], vec![r]);
        }
        let (from_d, d_end) = self.default_walk(security, d, 8);
        let (from_r, r_end) = self.default_walk(security, r, 8);
        let arrives = |end: End| end == End::Inside || end == End::Outside;
        let shared = from_d.iter().copied().find(|&csd| !self.is_external(csd) && from_r.contains(&csd));
        if let (true, true, Some(shared)) = (arrives(d_end), arrives(r_end), shared) {
            let kind = if d_end == End::Inside { ChainKind::SharedInside } else { ChainKind::SharedOutside };
            return route(kind, through(&from_d, shared), through(&from_r, shared));
        }
        if let Some(walk) = self.directed_walk(security, d, r, 8) {
            return route(ChainKind::DirectedFromDelivering, walk, vec![r]);
        }
        if let Some(walk) = self.directed_walk(security, r, d, 8) {
            return route(ChainKind::DirectedFromReceiving, vec![d], walk);
        }
        match (d_end, r_end) {
            (End::NoLink, _) | (_, End::NoLink) => Err(14),
            (End::TooLong, _) | (_, End::TooLong) => Err(15),
            (End::Inside, End::Outside) => Err(16),
            (End::Outside, End::Inside) => Err(17),
            (End::Inside, End::Inside) => route(ChainKind::TwoIssuers, from_d, from_r),
            (End::Outside, End::Outside) => route(ChainKind::BothOutside, from_d, from_r),
        }
    }

    /// The way between two participant accounts, or the refusal number.
    pub fn way(&self, security: u8, delivering: u16, receiving: u16) -> Result<Way, u8> {
        let [d, r] = self.csds_of([delivering, receiving]);
        Ok(match self.route(security, delivering, receiving)?.kind {
            ChainKind::OneCsd => Way::OneStep,
            ChainKind::SharedInside | ChainKind::SharedOutside => Way::DefaultsMeet,
            ChainKind::TwoIssuers => Way::TwoIssuers,
            ChainKind::BothOutside => Way::TwoExternalEnds,
            ChainKind::DirectedFromReceiving => Way::OnlyFromReceiving,
            ChainKind::DirectedFromDelivering => match self.directed_walk(security, r, d, 8) {
                None => Way::OnlyFromDelivering,
                Some(_) => Way::BothReach,
            },
        })
    }

    fn csds_of(&self, accounts: [u16; 2]) -> [u8; 2] {
        accounts.map(|account| self.accounts[usize::from(account)].csd)
    }

    /// Names every CSD from here to the end, an external one included.
    fn default_walk(&self, security: u8, csd: u8, still_allowed: usize) -> (Vec<u8>, End) {
        if self.is_external(csd) {
            return (vec![csd], End::Outside);
        }
        if self.is_issuer(security, csd) {
            return (vec![csd], End::Inside);
        }
        let Some(technical) = self.default_technical(security, csd) else {
            return (vec![csd], End::NoLink);
        };
        if still_allowed == 1 {
            return (vec![csd], End::TooLong);
        }
        let (rest, end) = self.default_walk(security, technical, still_allowed - 1);
        ([vec![csd], rest].concat(), end)
    }

    fn directed_walk(&self, security: u8, csd: u8, target: u8, still_allowed: usize) -> Option<Vec<u8>> {
        if self.is_external(csd) || still_allowed == 1 {
            return None;
        }
        if self.link(security, csd, |link| link.kind == INVESTOR && link.technical == target).is_some() {
            return Some(vec![csd, target]);
        }
        let technical = self.default_technical(security, csd)?;
        let rest = self.directed_walk(security, technical, target, still_allowed - 1)?;
        Some([vec![csd], rest].concat())
    }

    fn steps(&self, security: u8, [delivering, receiving]: [u16; 2], route: &Route, climbs: &[Climb; 2]) -> Vec<Step> {
        let mut there = self.half_steps(security, delivering, &route.up, &climbs[0]);
        let mut back = self.half_steps(security, receiving, &route.down, &climbs[1]);
        if let (Some(top), Some(other)) = (there.last_mut(), back.last()) {
            if top.csd == other.csd {
                top.far = other.near;
                back.pop();
            }
        }
        let there = there.into_iter().map(|HalfStep { csd, near, far }| Step { csd, debit: near, credit: far });
        let back = back.into_iter().rev().map(|HalfStep { csd, near, far }| Step { csd, debit: far, credit: near });
        there.chain(back).collect()
    }

    /// A half step for each CSD in T2S of a side. The last one may have nothing beyond.
    fn half_steps(&self, security: u8, participant: u16, side: &[u8], climb: &Climb) -> Vec<HalfStep> {
        let mut near = participant;
        let mut steps = Vec::new();
        for (&csd, row) in side.iter().zip(&climb.rows) {
            steps.push(HalfStep { csd, near, far: row.investor_account });
            near = row.technical_account;
        }
        let top = side[side.len() - 1];
        if !self.is_external(top) {
            let issuer = self.link(security, top, |link| link.kind == ISSUER);
            steps.push(HalfStep { csd: top, near, far: issuer.map_or(NO_ACCOUNT, |link| link.account) });
        }
        steps
    }

    /// The account that bring in debits for a participant account.
    pub fn source(&self, security: u8, account: u16) -> Option<u16> {
        let csd = self.accounts.get(usize::from(account))?.csd;
        if let Some(link) = self.link(security, csd, |link| link.kind == ISSUER) {
            return Some(link.account);
        }
        let technical = self.default_technical(security, csd).filter(|&technical| self.is_external(technical))?;
        self.row(&Asked::first(csd, technical, account)).map(|row| row.investor_account)
    }

    pub fn is_issuer(&self, security: u8, csd: u8) -> bool {
        self.link(security, csd, |link| link.kind == ISSUER).is_some()
    }

    /// The technical issuer of a CSD's default link.
    pub fn default_technical(&self, security: u8, csd: u8) -> Option<u8> {
        let link = self.link(security, csd, |link| link.kind == INVESTOR && link.flag == DEFAULT);
        link.map(|link| link.technical)
    }

    pub fn is_external(&self, csd: u8) -> bool {
        self.csds.get(usize::from(csd)).is_some_and(|row| row.kind == EXTERNAL)
    }

    fn link(&self, security: u8, csd: u8, fits: impl Fn(&Link) -> bool) -> Option<&Link> {
        self.links.iter().find(|link| link.security == security && link.csd == csd && fits(link))
    }
}

/// A walk up to a CSD that it names, which is included.
fn through(walk: &[u8], csd: u8) -> Vec<u8> {
    let before = walk.iter().take_while(|&&other| other != csd);
    before.copied().chain([csd]).collect()
}
