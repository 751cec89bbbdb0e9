//! Vectors of links with days: every way in which a link can be answered beside others, and chains and moves on the first
//! and last days of links and just outside them.

use std::collections::BTreeSet;

use super::coverage::{all_days, command_name};
use super::forms::Form;
use super::literal::Rows;
use super::scenario::{halves, Scenario};
use super::{days, linking};
use crate::booking::Units;
use crate::command::Command;
use crate::directory::*;

const A: u8 = 0;
const B: u8 = 1;
const C: u8 = 2;
const D: u8 = 3;
const E: u8 = 4;
const F: u8 = 5;
const X: u8 = 6;
const Y: u8 = 7;

/// The number of an account: each CSD in T2S has one of every kind.
const fn own(csd: u8, kind: u8) -> u16 {
    csd as u16 * 5 + kind as u16
}

const fn issuance(csd: u8) -> u16 {
    own(csd, ISSUANCE)
}

/// A second issuance account of C.
const SECOND_ISSUANCE: u16 = 30;

/// Kind, CSD, technical issuer, flag, account, first and last day.
type Entry = (u8, u8, u8, u8, u16, Day, Day);

const fn default(csd: u8, technical: u8, first: Day, last: Day) -> Entry {
    (INVESTOR, csd, technical, DEFAULT, NO_ACCOUNT, first, last)
}

const fn alternative(csd: u8, technical: u8, first: Day, last: Day) -> Entry {
    (INVESTOR, csd, technical, ALTERNATIVE, NO_ACCOUNT, first, last)
}

const fn issuer(csd: u8, account: u16, first: Day, last: Day) -> Entry {
    (ISSUER, csd, NO_CSD, DEFAULT, account, first, last)
}

/// Links that are accepted in every way.
const ACCEPTED: [Entry; 24] = [
    default(A, B, 10, 19),
    default(A, C, 20, 29),
    default(A, D, 5, 9),
    default(A, B, 40, 40),
    default(A, C, 30, 39),
    alternative(A, E, 10, 19),
    alternative(A, F, 12, 15),
    alternative(A, F, 16, 29),
    issuer(B, issuance(B), 10, 19),
    issuer(B, issuance(B), 20, 29),
    default(B, C, 30, 39),
    default(B, C, 5, 9),
    issuer(B, issuance(B), 40, 49),
    issuer(B, issuance(B), 0, 4),
    default(C, B, 10, 19),
    alternative(C, D, 10, 19),
    issuer(C, issuance(C), 20, 29),
    issuer(C, SECOND_ISSUANCE, 30, Day::MAX),
    issuer(X, NO_ACCOUNT, 0, Day::MAX),
    default(Y, A, 0, Day::MAX),
    issuer(E, issuance(E), 10, 19),
    default(F, A, 10, 19),
    default(F, C, 30, 39),
    default(F, A, Day::MAX, Day::MAX),
];

/// Links that are refused beside those, in every way.
const REFUSED: [Entry; 43] = [
    default(99, B, 0, 9),
    default(D, 99, 0, 9),
    default(D, NO_CSD, 0, 9),
    (INVESTOR, D, B, DEFAULT, 999, 0, 9),
    issuer(D, NO_ACCOUNT, 0, 9),
    (2, D, NO_CSD, DEFAULT, NO_ACCOUNT, 0, 9),
    (INVESTOR, D, B, 2, NO_ACCOUNT, 0, 9),
    // The same technical issuer.
    alternative(A, E, 19, 25),
    alternative(A, E, 5, 10),
    alternative(A, E, 12, 13),
    default(A, E, 19, 25),
    // Wrong accounts.
    issuer(D, issuance(A), 0, 9),
    issuer(D, own(D, PARTICIPANT), 0, 9),
    issuer(D, own(A, PARTICIPANT), 0, 9),
    issuer(D, issuance(A), 9, 8),
    // No day.
    default(D, B, 9, 8),
    default(D, B, Day::MAX, 0),
    alternative(A, E, 15, 12),
    default(D, D, 9, 8),
    // Other rules, whatever the days.
    (ISSUER, D, B, DEFAULT, issuance(D), 0, 9),
    (ISSUER, D, NO_CSD, ALTERNATIVE, issuance(D), 0, 9),
    (ISSUER, 8, NO_CSD, DEFAULT, issuance(A), 0, 9),
    (INVESTOR, D, B, DEFAULT, own(D, PARTICIPANT), 0, 9),
    default(D, D, 0, 9),
    alternative(Y, B, 0, 9),
    alternative(A, X, 10, 19),
    // Days shared with an issuer link.
    issuer(E, issuance(E), 19, 25),
    issuer(E, issuance(E), 5, 10),
    issuer(E, issuance(E), 12, 13),
    default(E, A, 19, 25),
    default(E, A, 5, 10),
    default(E, A, 12, 13),
    alternative(E, A, 12, 13),
    // Days shared with a default link.
    issuer(F, issuance(F), 19, 25),
    issuer(F, issuance(F), 5, 10),
    issuer(F, issuance(F), 12, 13),
    default(F, B, 19, 25),
    default(F, B, 5, 10),
    default(F, B, 12, 13),
    // Days without a default link.
    alternative(F, B, 50, 59),
    alternative(F, B, 9, 15),
    alternative(F, B, 15, 20),
    alternative(F, B, 5, 12),
];

/// Alternatives with a default on their first and last day, and days without one between.
const GAPS: [Entry; 2] = [alternative(F, B, 19, 30), alternative(F, B, 15, 35)];

/// Links in every way in which one can be answered, but for a full table.
pub fn periods() -> Vec<u8> {
    let mut scenario = Scenario::default();
    for kind in [IN_T2S, IN_T2S, IN_T2S, IN_T2S, IN_T2S, IN_T2S, EXTERNAL, EXTERNAL, EXTERNAL] {
        scenario.csd(kind);
    }
    for csd in A..=F {
        for kind in PARTICIPANT..=ISSUANCE {
            scenario.account(csd, kind);
        }
    }
    assert_eq!(scenario.account(C, ISSUANCE), SECOND_ISSUANCE);
    let security = scenario.security();
    let mut seen = BTreeSet::new();
    let entries = ACCEPTED.into_iter().chain(REFUSED).chain(GAPS).map(|entry| (security, entry));
    for (security, (kind, csd, technical, flag, account, first, last)) in entries.chain([(9, ACCEPTED[0])]) {
        let link = Link { security, kind, csd, technical, flag, account, days: Period { first, last } };
        let (number, ways) = linking::due(&Rows::from(scenario.directory()), &link);
        if number == 0 || ways.len() == 1 {
            seen.extend(ways.into_iter().map(|name| (name, number)));
        }
        scenario.send(Command::EnterLink(link)).ok();
    }
    for way in linking::all_ways().into_iter().filter(|way| way.1 != 5) {
        assert!(seen.contains(&way), "{way:?} is not in the vector");
    }
    scenario.bytes
}

/// A scenario that notes how its instructions stand to their days.
#[derive(Default)]
struct Noted {
    scenario: Scenario,
    seen: BTreeSet<(&'static str, &'static str, u8)>,
}

impl Noted {
    fn send(&mut self, command: Command) {
        let rows = Rows::from(self.scenario.directory());
        let number = self.scenario.send(command).err().map_or(0, |refusal| refusal.number());
        let alternative = days::alternative_way(&rows, &command).filter(|_| number == 0);
        for way in days::ways(&rows, &command, number == 0).into_iter().chain(alternative) {
            self.seen.insert((command_name(command.code()), way, number));
        }
    }

    /// Settles and derives there and back on each day, by place and with sides.
    fn trade(&mut self, from: u16, to: u16, security: u8, on: &[Day]) {
        for &day in on {
            for (from, to, quantity) in [(from, to, 2), (to, from, 1)] {
                let (delivering, receiving) = halves(self.scenario.directory(), from, to, security, quantity, 0);
                for form in [Form::ByPlace, Form::ReceivingFirst] {
                    self.send(form.derive(delivering, receiving, day));
                    self.send(form.settle(delivering, receiving, day));
                }
            }
        }
    }

    fn link(&mut self, security: u8, csd: u8, technical: u8, flag: u8, first: Day, last: Day) {
        self.scenario.days = Period { first, last };
        assert!(self.scenario.link(security, csd, technical, flag));
        self.scenario.days = Period::ALWAYS;
    }
}

/// Chains, and what is brought in and taken out, in every way in which they can stand to their day.
pub fn in_time() -> Vec<u8> {
    let mut noted = Noted::default();
    let scenario = &mut noted.scenario;
    let [a, b, c, i] = std::array::from_fn(|_| scenario.csd(IN_T2S));
    let external = scenario.csd(EXTERNAL);
    let participants = [a, b, c, i].map(|csd| scenario.participant(csd));
    let hops = [(a, i), (a, b), (b, i), (a, c), (c, a), (b, external), (a, external)];
    scenario.serve_along(&participants, &hops, |_| Some(0));
    defaults_in_succession(&mut noted, [a, b, i]);
    an_alternative_beside_a_cycle(&mut noted, [a, b, c, i]);
    an_alternative_beside_two_ends(&mut noted, [a, b, i], external);
    sources(&mut noted, a, external);
    for way in all_days() {
        assert!(noted.seen.contains(&way), "{way:?} is not in the vector");
    }
    noted.scenario.bytes
}

/// A holds with the issuer, then over B, with days between on which it has no link, and on single days.
fn defaults_in_succession(noted: &mut Noted, [a, b, i]: [u8; 3]) {
    let security = noted.scenario.security();
    noted.scenario.issuer(security, i);
    noted.scenario.link(security, b, i, DEFAULT);
    for (technical, first, last) in
        [(i, 10, 19), (i, 30, 30), (i, 40, 49), (b, 50, 59), (i, 0, 0), (b, Day::MAX, Day::MAX)]
    {
        noted.link(security, a, technical, DEFAULT, first, last);
    }
    let [from, to] = [i, a].map(|csd| noted.scenario.participant(csd));
    noted.scenario.bring_in(from, security, 1_000).ok();
    let on = [0, 1, 9, 10, 19, 20, 29, 30, 31, 39, 40, 49, 50, 59, 60, Day::MAX - 1, Day::MAX];
    noted.trade(from, to, security, &on);
}

/// A and C hold with one another, so that A reaches B by an alternative alone.
fn an_alternative_beside_a_cycle(noted: &mut Noted, [a, b, c, i]: [u8; 4]) {
    let security = noted.scenario.security();
    noted.scenario.issuer(security, i);
    for (csd, technical) in [(b, i), (a, c), (c, a)] {
        noted.scenario.link(security, csd, technical, DEFAULT);
    }
    noted.link(security, a, b, ALTERNATIVE, 10, 19);
    noted.link(security, a, b, ALTERNATIVE, 30, 30);
    let [source, from, to] = [i, b, a].map(|csd| noted.scenario.participant(csd));
    noted.scenario.bring_in(source, security, 1_000).ok();
    noted.scenario.settle(source, from, security, 500, 0).ok();
    noted.trade(from, to, security, &[9, 10, 11, 19, 20, 29, 30, 31]);
}

/// A ends inside and B outside, but for the days of an alternative.
fn an_alternative_beside_two_ends(noted: &mut Noted, [a, b, i]: [u8; 3], external: u8) {
    let security = noted.scenario.security();
    noted.scenario.issuer(security, i);
    noted.scenario.link(security, a, i, DEFAULT);
    noted.scenario.link(security, b, external, DEFAULT);
    noted.link(security, a, b, ALTERNATIVE, 10, 19);
    let [from, to] = [b, a].map(|csd| noted.scenario.participant(csd));
    noted.scenario.bring_in(from, security, 1_000).ok();
    noted.trade(from, to, security, &[9, 10, 19, 20]);
}

/// A is an issuer first, then holds outside, and has days without a link.
fn sources(noted: &mut Noted, a: u8, external: u8) {
    let security = noted.scenario.security();
    let account = noted.scenario.participant(a);
    for days in [Period::new(0, 9), Period::new(30, 30)] {
        noted.scenario.days = days;
        assert!(noted.scenario.issuer(security, a));
    }
    noted.link(security, a, external, DEFAULT, 10, 19);
    noted.link(security, a, external, DEFAULT, Day::MAX, Day::MAX);
    for day in [0, 1, 9, 10, 19, 20, 29, 30, 31, Day::MAX - 1, Day::MAX] {
        noted.send(Command::BringIn { account, security, quantity: Units(100), day });
        noted.send(Command::TakeOut { account, security, quantity: Units(10), day });
    }
}
