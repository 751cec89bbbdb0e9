//! How what a call finds on its day stands to the days beside it: the chain of two halves, or what is brought in or taken
//! out from. Random inputs must reach every way.

use super::literal::{day_of, in_order, is_valid, ChainKind, Rows};
use crate::chain::Step;
use crate::command::Command;
use crate::directory::*;

/// The ways in which a call can be accepted.
pub const ACCEPTED: [&str; 7] = [
    "on day 0",
    "on day 65,535",
    "not on the day before",
    "not on the day after",
    "on this day alone",
    "otherwise on the day before",
    "otherwise on the day after",
];

/// The ways in which one can be refused for want of a link.
pub const REFUSED: [&str; 2] = ["found on the day before", "found on the day after"];

/// The days on which the alternative of a directed walk can be taken.
pub const ALTERNATIVES: [&str; 3] =
    ["by an alternative on its first day", "by an alternative on its last day", "by an alternative on its only day"];

/// All ways of a call that was accepted, or refused for want of a link.
pub fn ways(rows: &Rows, command: &Command, accepted: bool) -> Vec<&'static str> {
    let Some(day) = day_of(command) else { return Vec::new() };
    let today = found(rows, command, day);
    let beside = |other: Option<Day>| {
        let other = other.filter(|&other| rows.links_differ(day, other))?;
        Some(found(rows, command, other))
    };
    let (before, after) = (beside(day.checked_sub(1)), beside(day.checked_add(1)));
    let missing = |other: &Option<Option<Vec<Step>>>| *other == Some(None);
    let is_there = |other: &Option<Option<Vec<Step>>>| matches!(other, Some(Some(_)));
    let differs = |other: &Option<Option<Vec<Step>>>| is_there(other) && *other != Some(today.clone());
    let ways = if accepted {
        vec![
            (ACCEPTED[0], day == 0),
            (ACCEPTED[1], day == Day::MAX),
            (ACCEPTED[2], missing(&before)),
            (ACCEPTED[3], missing(&after)),
            (ACCEPTED[4], missing(&before) && missing(&after)),
            (ACCEPTED[5], differs(&before)),
            (ACCEPTED[6], differs(&after)),
        ]
    } else {
        vec![(REFUSED[0], is_there(&before)), (REFUSED[1], is_there(&after))]
    };
    ways.into_iter().filter(|way| way.1).map(|way| way.0).collect()
}

/// How the alternative of a directed walk stands to the day, if the chain has one.
pub fn alternative_way(rows: &Rows, command: &Command) -> Option<&'static str> {
    let ((delivering, receiving), day) = in_order(command).zip(day_of(command))?;
    let at_an_end = |link: &Link| link.flag == ALTERNATIVE && (link.days.first == day || link.days.last == day);
    if !rows.links.iter().any(at_an_end) {
        return None;
    }
    let rows = rows.on(day);
    let route = rows.route(delivering.security, delivering.account, receiving.account).ok()?;
    let side = match route.kind {
        ChainKind::DirectedFromDelivering => route.up,
        ChainKind::DirectedFromReceiving => route.down,
        _ => return None,
    };
    let [.., csd, technical] = side[..] else { return None };
    let taken = |link: &&Link| {
        [link.security, link.csd, link.technical, link.flag] == [delivering.security, csd, technical, ALTERNATIVE]
    };
    let Period { first, last } = rows.links.iter().find(taken)?.days;
    match (first == day, last == day) {
        (true, true) => Some(ALTERNATIVES[2]),
        (true, false) => Some(ALTERNATIVES[0]),
        (false, true) => Some(ALTERNATIVES[1]),
        _ => None,
    }
}

/// What a call finds on a day: the steps of its chain, or of what it brings in.
fn found(rows: &Rows, command: &Command, day: Day) -> Option<Vec<Step>> {
    let rows = rows.on(day);
    if let Command::BringIn { account, security, .. } | Command::TakeOut { account, security, .. } = *command {
        let debit = rows.source(security, account)?;
        return Some(vec![Step { csd: 0, debit, credit: account }]);
    }
    let (delivering, receiving) = in_order(command)?;
    let chain = rows.chain(delivering.security, delivering.account, receiving.account);
    chain.ok().map(|(_, steps)| steps)
}

impl Rows {
    /// Whether two days have different links.
    fn links_differ(&self, one: Day, other: Day) -> bool {
        self.links.iter().any(|link| is_valid(link, one) != is_valid(link, other))
    }
}
