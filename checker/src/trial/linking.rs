//! A new link, judged word by word over plain lists of rows and day by day: the answer that is due, and in which ways.

use std::collections::BTreeSet;

use super::literal::{is_valid, Rows};
use crate::directory::*;

/// A way in which a link can be due an answer, the answer's number (0 for acceptance), and whether the link is so.
type Way = (&'static str, u8, bool);

/// The refusals of a link, "24, just before 11".
const ORDER: [u8; 7] = [5, 6, 7, 9, 10, 24, 11];

/// The number that is due to a new link, and all ways in which it is.
pub fn due(rows: &Rows, new: &Link) -> (u8, Vec<&'static str>) {
    let ways = ways(rows, new);
    let applies = |number: &u8| ways.iter().any(|way| way.2 && way.1 == *number);
    let number = ORDER.into_iter().find(applies).unwrap_or(0);
    (number, ways.iter().filter(|way| way.2 && way.1 == number).map(|way| way.0).collect())
}

/// Every way with its number.
pub fn all_ways() -> Vec<(&'static str, u8)> {
    ways(&Rows::default(), &Link::default()).into_iter().map(|(name, number, _)| (name, number)).collect()
}

fn ways(rows: &Rows, new: &Link) -> Vec<Way> {
    let row = Row::new(rows, new);
    let full = [("128 links are entered", 5, rows.links.len() >= LINKS)];
    [
        &full,
        &row.numbers()[..],
        &row.same_technical_issuer(),
        &row.accounts(),
        &row.no_day(),
        &row.rules(),
        &row.issuer_beside_others(),
        &row.default_beside_others(),
        &row.alternatives(),
        &row.accepted_issuers(),
        &row.accepted_defaults(),
        &row.accepted_alternatives(),
        &row.accepted_days(),
    ]
    .concat()
}

/// What the other links of the CSD for the security are on one day.
#[derive(Clone, Copy, PartialEq, Eq, Debug, Default)]
struct OnDay {
    issuer: bool,
    default: bool,
    alternative: bool,
    /// One of them has the technical issuer of the new link.
    same_technical: bool,
}

/// So many days, one after the other, on which they are the same.
struct Run {
    on: OnDay,
    length: usize,
}

/// The days of a new link on which something is so.
#[derive(Clone, Copy, PartialEq, Eq)]
enum Days {
    None,
    FirstAlone,
    LastAlone,
    Others,
}

/// A new link beside those entered.
struct Row<'a> {
    rows: &'a Rows,
    new: &'a Link,
    is_issuer: bool,
    is_default: bool,
    is_alternative: bool,
    /// The links of the same CSD for the same security.
    others: Vec<Link>,
    /// The days of the new link with what the others are on them, and how many they are.
    runs: Vec<Run>,
    length: usize,
}

impl Row<'_> {
    fn new<'a>(rows: &'a Rows, new: &'a Link) -> Row<'a> {
        let same = |row: &&Link| row.security == new.security && row.csd == new.csd;
        let others: Vec<Link> = rows.links.iter().filter(same).copied().collect();
        let investor = new.kind == INVESTOR;
        let runs = runs(new, &others);
        Row {
            rows,
            new,
            is_issuer: new.kind == ISSUER,
            is_default: investor && new.flag == DEFAULT,
            is_alternative: investor && new.flag == ALTERNATIVE,
            length: runs.iter().map(|run| run.length).sum(),
            runs,
            others,
        }
    }

    /// "Number names no row (FF, FFFF excepted where the directory takes them)", and "value outside its list".
    fn numbers(&self) -> [Way; 8] {
        let Link { security, kind, csd, technical, flag, account, .. } = *self.new;
        let no_csd = |number: u8| usize::from(number) >= self.rows.csds.len();
        let no_account = usize::from(account) >= self.rows.accounts.len();
        let due = self.is_issuer && !no_csd(csd) && !self.rows.is_external(csd);
        [
            ("no such security", 6, usize::from(security) >= self.rows.securities.len()),
            ("no such CSD", 6, no_csd(csd)),
            ("no such technical issuer", 6, technical != NO_CSD && no_csd(technical)),
            ("FF as technical issuer of an investor", 6, technical == NO_CSD && kind == INVESTOR),
            ("no such account", 6, account != NO_ACCOUNT && no_account),
            ("FFFF as issuance account", 6, account == NO_ACCOUNT && due),
            ("another kind", 7, kind > INVESTOR),
            ("another flag", 7, flag > DEFAULT),
        ]
    }

    /// How many days something is so of the other links.
    fn days(&self, holds: impl Fn(&OnDay) -> bool) -> usize {
        self.runs.iter().filter(|run| holds(&run.on)).map(|run| run.length).sum()
    }

    /// On which days it is so.
    fn on(&self, holds: impl Fn(&OnDay) -> bool) -> Days {
        match (self.days(&holds), self.runs.first(), self.runs.last()) {
            (0, ..) => Days::None,
            (1, Some(first), _) if self.length > 1 && holds(&first.on) => Days::FirstAlone,
            (1, _, Some(last)) if self.length > 1 && holds(&last.on) => Days::LastAlone,
            _ => Days::Others,
        }
    }

    /// "The rules on [...] other technical issuers [...] are judged wherever two periods share a day."
    fn same_technical_issuer(&self) -> [Way; 3] {
        let days = self.on(|day| day.same_technical);
        [
            ("the same technical issuer on the first day alone", 9, days == Days::FirstAlone),
            ("the same technical issuer on the last day alone", 9, days == Days::LastAlone),
            ("the same technical issuer on other days", 9, days == Days::Others),
        ]
    }

    /// "Account of wrong kind or CSD."
    fn accounts(&self) -> [Way; 4] {
        let csd = self.new.csd;
        let due = self.is_issuer && !self.rows.is_external(csd);
        let row = self.rows.accounts.get(usize::from(self.new.account)).filter(|_| due);
        let other_csd = row.is_some_and(|row| row.csd != csd);
        let other_kind = row.is_some_and(|row| row.kind != ISSUANCE);
        let empty = self.length == 0;
        [
            ("an issuance account of another CSD", 10, !empty && other_csd && !other_kind),
            ("an account of another kind", 10, !empty && other_kind && !other_csd),
            ("an account of another kind and CSD", 10, !empty && other_kind && other_csd),
            ("a wrong account, first day after last", 10, empty && (other_csd || other_kind)),
        ]
    }

    /// "A link whose first day is after its last." It has no day, and shares none.
    fn no_day(&self) -> [Way; 4] {
        let (empty, Period { first, last }) = (self.length == 0, self.new.days);
        let broken = self.rules().iter().any(|way| way.2);
        let around = |other: &Link| is_valid(other, first) && is_valid(other, last);
        let same = |other: &Link| other.technical == self.new.technical && other.technical != NO_CSD;
        let within = self.others.iter().any(|other| same(other) && around(other));
        let by_one = empty && first == last + 1;
        [
            ("first day after last by one", 24, empty && !broken && !within && by_one),
            ("first day after last by more", 24, empty && !broken && !within && !by_one),
            ("first day after last, within a link to the same", 24, empty && !broken && within),
            ("first day after last, another rule broken", 24, empty && broken),
        ]
    }

    /// "Other link rule broken", whatever the days.
    fn rules(&self) -> [Way; 7] {
        let Link { csd, technical, flag, account, .. } = *self.new;
        let (investor, external) = (self.is_default || self.is_alternative, self.rows.is_external(csd));
        [
            ("an issuer link with a technical issuer", 11, self.is_issuer && technical != NO_CSD),
            ("an issuer link with flag 0", 11, self.is_issuer && flag == ALTERNATIVE),
            ("an external issuer with an account", 11, self.is_issuer && external && account != NO_ACCOUNT),
            ("an investor link with an account", 11, investor && account != NO_ACCOUNT),
            ("a CSD as its own technical issuer", 11, investor && technical == csd),
            ("an alternative of an external CSD", 11, self.is_alternative && external),
            ("an alternative to an external CSD", 11, self.is_alternative && self.rows.is_external(technical)),
        ]
    }

    /// "That CSD has no other link for the security", wherever two periods share a day.
    fn issuer_beside_others(&self) -> [Way; 6] {
        let issuer = self.on(|day| self.is_issuer && day.issuer);
        let investor = self.on(|day| self.is_issuer && (day.default || day.alternative));
        [
            ("an issuer link beside one on the first day alone", 11, issuer == Days::FirstAlone),
            ("an issuer link beside one on the last day alone", 11, issuer == Days::LastAlone),
            ("an issuer link beside one on other days", 11, issuer == Days::Others),
            ("an issuer link beside an investor's on the first day alone", 11, investor == Days::FirstAlone),
            ("an issuer link beside an investor's on the last day alone", 11, investor == Days::LastAlone),
            ("an issuer link beside an investor's on other days", 11, investor == Days::Others),
        ]
    }

    /// "The rules on one default [...] and issuer links are judged wherever two periods share a day."
    fn default_beside_others(&self) -> [Way; 6] {
        let default = self.on(|day| self.is_default && day.default);
        let issuer = self.on(|day| self.is_default && day.issuer);
        [
            ("a default beside another on the first day alone", 11, default == Days::FirstAlone),
            ("a default beside another on the last day alone", 11, default == Days::LastAlone),
            ("a default beside another on other days", 11, default == Days::Others),
            ("a default beside an issuer link on the first day alone", 11, issuer == Days::FirstAlone),
            ("a default beside an issuer link on the last day alone", 11, issuer == Days::LastAlone),
            ("a default beside an issuer link on other days", 11, issuer == Days::Others),
        ]
    }

    /// "An alternative needs a default on each of its days."
    fn alternatives(&self) -> [Way; 7] {
        let issuer = self.on(|day| day.issuer) != Days::None;
        let uncovered = self.on(|day| !day.default);
        let number = self.days(|day| !day.default);
        let at_both_ends = [self.runs.first(), self.runs.last()].iter().flatten().all(|run| run.on.default);
        let none = number == self.length;
        let ends_alone = at_both_ends && number + 2 == self.length;
        let judged = self.is_alternative && number > 0 && !issuer;
        let others = judged && !none && uncovered == Days::Others;
        [
            ("an alternative on a day of an issuer link", 11, self.is_alternative && issuer),
            ("an alternative, a default on no day", 11, judged && none),
            ("an alternative, no default on the first day alone", 11, judged && !none && uncovered == Days::FirstAlone),
            ("an alternative, no default on the last day alone", 11, judged && !none && uncovered == Days::LastAlone),
            ("an alternative, a default at its ends alone", 11, others && ends_alone),
            ("an alternative, a gap between defaults", 11, others && at_both_ends && !ends_alone),
            ("an alternative, no default on other days", 11, others && !at_both_ends),
        ]
    }

    /// Whether a link that fits ends the day before the new one begins.
    fn before(&self, fits: impl Fn(&Link) -> bool) -> bool {
        self.others.iter().any(|other| other.days.last.checked_add(1) == Some(self.new.days.first) && fits(other))
    }

    /// Whether a link that fits begins the day after the new one ends.
    fn behind(&self, fits: impl Fn(&Link) -> bool) -> bool {
        self.others.iter().any(|other| self.new.days.last.checked_add(1) == Some(other.days.first) && fits(other))
    }

    fn accepted_issuers(&self) -> [Way; 7] {
        let issuer = self.is_issuer;
        let external = self.rows.is_external(self.new.csd);
        let other_account = |other: &Link| is_issuer(other) && other.account != self.new.account;
        [
            ("an issuer in T2S", 0, issuer && !external),
            ("an external issuer", 0, issuer && external),
            ("an issuer the day after an issuer", 0, issuer && self.before(is_issuer)),
            ("an issuer with another issuance account", 0, issuer && self.others.iter().any(other_account)),
            ("an issuer the day after a default", 0, issuer && self.before(is_default)),
            ("an issuer the day before a default", 0, issuer && self.behind(is_default)),
            ("an issuer the day after an alternative", 0, issuer && self.before(is_alternative)),
        ]
    }

    fn accepted_defaults(&self) -> [Way; 8] {
        let Link { technical, days: Period { first, .. }, .. } = *self.new;
        let default = self.is_default;
        let defaults: Vec<&Link> = self.others.iter().filter(|other| is_default(other)).collect();
        let long_before = |other: &&Link| other.days.last < first && first - other.days.last > 1;
        let (before, behind) = (self.before(is_default), self.behind(is_default));
        let same = defaults.iter().any(|other| other.technical == technical);
        [
            ("the first default", 0, default && defaults.is_empty()),
            ("a default the day after a default", 0, default && before),
            ("a default the day before a default", 0, default && behind),
            ("a default between two, without a gap", 0, default && before && behind),
            ("a default some days after a default", 0, default && defaults.iter().any(long_before)),
            ("a default to the same technical issuer on other days", 0, default && same),
            ("a default the day after an issuer link", 0, default && self.before(is_issuer)),
            ("a default the day before an issuer link", 0, default && self.behind(is_issuer)),
        ]
    }

    fn accepted_alternatives(&self) -> [Way; 5] {
        let new = self.new;
        let alternative = self.is_alternative;
        let shares = |other: &&Link| (new.days.first..=new.days.last).any(|day| is_valid(other, day));
        let defaults: Vec<&Link> = if alternative {
            self.others.iter().filter(|other| is_default(other)).filter(shares).collect()
        } else {
            Vec::new()
        };
        let one = defaults.len() == 1;
        let whole = one && defaults[0].days == new.days;
        let same = |other: &Link| is_alternative(other) && other.technical == new.technical;
        [
            ("an alternative on all days of its default", 0, alternative && whole),
            ("an alternative on some days of its default", 0, alternative && one && !whole),
            ("an alternative over several defaults", 0, alternative && defaults.len() > 1),
            ("an alternative beside another", 0, alternative && self.days(|day| day.alternative) > 0),
            ("an alternative the day after the same", 0, alternative && self.before(same)),
        ]
    }

    fn accepted_days(&self) -> [Way; 4] {
        let Period { first, last } = self.new.days;
        [
            ("a link of one day", 0, first == last),
            ("a link from day 0", 0, first == 0),
            ("a link to day 65,535", 0, last == Day::MAX),
            ("a link of other days", 0, 0 < first && first < last && last < Day::MAX),
        ]
    }
}

fn is_issuer(link: &Link) -> bool {
    link.kind == ISSUER
}

fn is_default(link: &Link) -> bool {
    link.kind == INVESTOR && link.flag == DEFAULT
}

fn is_alternative(link: &Link) -> bool {
    link.kind == INVESTOR && link.flag == ALTERNATIVE
}

/// What the others are on a day, each looked at.
fn on_day(day: Day, new: &Link, others: &[Link]) -> OnDay {
    let mut seen = OnDay::default();
    for other in others.iter().filter(|other| is_valid(other, day)) {
        seen.issuer |= is_issuer(other);
        seen.default |= is_default(other);
        seen.alternative |= is_alternative(other);
        seen.same_technical |= other.technical == new.technical && other.technical != NO_CSD;
    }
    seen
}

/// The days of a new link, from its first to its last. Where no other link begins or has just ended, a day is as the one
/// before.
fn runs(new: &Link, others: &[Link]) -> Vec<Run> {
    let Period { first, last } = new.days;
    if first > last {
        return Vec::new();
    }
    let changes = others.iter().flat_map(|other| [Some(other.days.first), other.days.last.checked_add(1)]);
    let within = changes.flatten().filter(|&day| first < day && day <= last);
    let starts: BTreeSet<Day> = within.chain([first]).collect();
    let ends = starts.iter().skip(1).map(|&next| next - 1).chain([last]);
    let run = |(&start, end)| Run { on: on_day(start, new, others), length: usize::from(end - start) + 1 };
    starts.iter().zip(ends).map(run).collect()
}

#[cfg(test)]
mod tests {
    use super::super::random::Random;
    use super::*;

    fn link(random: &mut Random, start: Day) -> Link {
        let (kind, flag) = random.pick(&[(ISSUER, DEFAULT), (INVESTOR, DEFAULT), (INVESTOR, ALTERNATIVE)]);
        let [first, last] = [(); 2].map(|()| start + random.below(12) as Day);
        let technical = if kind == ISSUER { NO_CSD } else { random.below(3) as u8 };
        Link { kind, flag, technical, days: Period { first, last }, ..Link::default() }
    }

    #[test]
    fn runs_are_the_days_one_by_one() {
        let mut random = Random::new(5);
        for _ in 0..20_000 {
            let start = random.pick(&[0, 900, Day::MAX - 11]);
            let new = link(&mut random, start);
            let others: Vec<Link> = (0..random.below(6)).map(|_| link(&mut random, start)).collect();
            let days = new.days.first..=new.days.last;
            let one_by_one: Vec<OnDay> = days.map(|day| on_day(day, &new, &others)).collect();
            let runs = runs(&new, &others);
            let together: Vec<OnDay> = runs.iter().flat_map(|run| vec![run.on; run.length]).collect();
            assert_eq!(together, one_by_one);
        }
    }
}
