//! Vectors of refusals: every number that a stream can give to each command, in every way that the documents
//! word it.

use super::coverage::{command_name, COMMANDS};
use super::forms::{Form, NO_SIDES, SAME_SIDES};
use super::scenario::{bic, halves, isin_of, Scenario};
use crate::booking::{Cents, Half, SidedHalf, Units, BOUND};
use crate::command::Command;
use crate::directory::*;

const A: u8 = 0;
const B: u8 = 1;
const X: u8 = 2;

/// An account by its number: CSD × 5 + kind.
const fn own(csd: u8, kind: u8) -> u16 {
    csd as u16 * 5 + kind as u16
}

/// A scenario that notes what was refused.
#[derive(Default)]
struct Refused {
    scenario: Scenario,
    seen: Vec<(&'static str, u8)>,
}

impl Refused {
    /// A and B in T2S with an account of each kind, X external, and one security.
    fn over_three_csds() -> Refused {
        let mut refused = Refused::default();
        for kind in [IN_T2S, IN_T2S, EXTERNAL] {
            refused.scenario.csd(kind);
        }
        refused.scenario.security();
        for csd in [A, B] {
            for kind in PARTICIPANT..=ISSUANCE {
                refused.scenario.account(csd, kind);
            }
        }
        refused
    }

    fn send(&mut self, command: Command) {
        if let Err(refusal) = self.scenario.send(command) {
            self.seen.push((command_name(command.code()), refusal.number()));
        }
    }

    fn pairs(&mut self, rows: &[(u8, u8, u16, u16, u16)]) {
        for &(investor, technical, investor_account, technical_account, served) in rows {
            self.send(Command::EnterPair(Pair { investor, technical, investor_account, technical_account, served }));
        }
    }

    fn links(&mut self, rows: &[(u8, u8, u8, u8, u8, u16)]) {
        for &(security, kind, csd, technical, flag, account) in rows {
            let days = self.scenario.days;
            self.send(Command::EnterLink(Link { security, kind, csd, technical, flag, account, days }));
        }
    }

    /// The bytes, once every refusal that a stream can give to these commands was given; 2 ends a stream.
    fn bytes(self, codes: &[u8]) -> Vec<u8> {
        for &(_, name, refusals, _) in COMMANDS.iter().filter(|row| codes.contains(&row.0)) {
            for &number in refusals.iter().filter(|&&number| number != 2) {
                assert!(self.seen.contains(&(name, number)), "{name}: no {number} in the vector");
            }
        }
        self.scenario.bytes
    }
}

/// Entries, refused with 6 to 11 and then with 5.
pub fn entries() -> Vec<u8> {
    let mut refused = Refused::over_three_csds();
    refused.send(Command::EnterCsd(Csd { kind: 2, bic: bic(9) }));
    refused.send(Command::EnterCsd(Csd { kind: IN_T2S, bic: *b"AAAAxX09XXX" }));
    refused.send(Command::EnterCsd(Csd { kind: EXTERNAL, bic: bic(0) }));
    for isin in [b"XS000000001A", b"X00000000017", b"XS00000-0017", b"XS0000000008", b"XS0000000009"] {
        refused.send(Command::EnterSecurity(Security { isin: *isin }));
    }
    for (csd, kind) in [(3, PARTICIPANT), (NO_CSD, 9), (A, 5), (X, PARTICIPANT)] {
        refused.send(Command::EnterAccount(Account { csd, kind }));
    }
    pairs(&mut refused);
    links(&mut refused);
    links_without_a_day(&mut refused);
    full_tables(&mut refused);
    refused.bytes(&[0x01, 0x02, 0x03, 0x05, 0x0E])
}

fn pairs(refused: &mut Refused) {
    let (a, b) = (own(A, PARTICIPANT), own(B, PARTICIPANT));
    refused.pairs(&[
        (3, B, own(A, MIRROR), own(B, OMNIBUS), a),
        (A, NO_CSD, own(A, MIRROR), NO_ACCOUNT, a),
        (A, B, NO_ACCOUNT, own(B, OMNIBUS), a),
        (A, B, own(A, MIRROR), NO_ACCOUNT, a),
        (A, X, own(A, INTER_CSD), 999, a),
        (A, B, own(A, MIRROR), own(B, OMNIBUS), 999),
        (A, B, own(A, MIRROR), own(B, OMNIBUS), NO_ACCOUNT),
        (A, B, own(A, MIRROR), own(A, MIRROR), a),
        (A, B, own(A, PARTICIPANT), own(B, OMNIBUS), a),
        (A, B, own(A, MIRROR), own(A, OMNIBUS), a),
        (A, B, own(A, MIRROR), own(B, OMNIBUS), b),
        (A, B, own(A, MIRROR), own(B, OMNIBUS), own(A, MIRROR)),
        (B, A, own(A, MIRROR), own(B, OMNIBUS), b),
        (X, A, own(A, MIRROR), own(A, OMNIBUS), a),
        (A, X, own(A, MIRROR), NO_ACCOUNT, a),
        (A, X, own(A, PARTICIPANT), own(B, OMNIBUS), a),
        (A, X, own(A, INTER_CSD), own(A, INTER_CSD), a),
        (A, X, own(A, INTER_CSD), own(B, OMNIBUS), a),
        (A, A, own(A, MIRROR), own(A, OMNIBUS), a),
        // Accepted, then entered already.
        (A, B, own(A, MIRROR), own(B, OMNIBUS), a),
        (A, B, own(A, PARTICIPANT), own(B, PARTICIPANT), a),
        (B, A, own(B, MIRROR), own(B, OMNIBUS), b),
        (A, X, own(A, MIRROR), NO_ACCOUNT, a),
        (A, X, own(A, INTER_CSD), own(B, OMNIBUS), a),
        // The other way round is another pair.
        (B, A, own(B, MIRROR), own(A, OMNIBUS), b),
    ]);
}

fn links(refused: &mut Refused) {
    refused.links(&[
        (1, INVESTOR, A, B, DEFAULT, NO_ACCOUNT),
        (NO_CSD, 2, A, B, DEFAULT, NO_ACCOUNT),
        (0, INVESTOR, NO_CSD, B, DEFAULT, NO_ACCOUNT),
        (0, INVESTOR, A, NO_CSD, 2, NO_ACCOUNT),
        (0, ISSUER, A, 9, DEFAULT, own(A, ISSUANCE)),
        (0, ISSUER, A, NO_CSD, DEFAULT, NO_ACCOUNT),
        (0, INVESTOR, A, B, DEFAULT, 999),
        (0, 2, A, 9, DEFAULT, NO_ACCOUNT),
        (0, 2, A, NO_CSD, DEFAULT, NO_ACCOUNT),
        (0, INVESTOR, A, B, 2, NO_ACCOUNT),
        (0, ISSUER, A, NO_CSD, DEFAULT, own(A, PARTICIPANT)),
        (0, ISSUER, A, NO_CSD, DEFAULT, own(B, ISSUANCE)),
        (0, ISSUER, A, B, DEFAULT, own(A, ISSUANCE)),
        (0, ISSUER, A, NO_CSD, ALTERNATIVE, own(A, ISSUANCE)),
        (0, ISSUER, X, NO_CSD, DEFAULT, own(A, ISSUANCE)),
        (0, INVESTOR, A, A, DEFAULT, NO_ACCOUNT),
        (0, INVESTOR, A, B, DEFAULT, own(A, PARTICIPANT)),
        (0, INVESTOR, A, B, ALTERNATIVE, NO_ACCOUNT),
        // Accepted, then in the way of others.
        (0, INVESTOR, A, B, DEFAULT, NO_ACCOUNT),
        (0, ISSUER, B, NO_CSD, DEFAULT, own(B, ISSUANCE)),
        (0, INVESTOR, A, B, ALTERNATIVE, NO_ACCOUNT),
        (0, ISSUER, A, B, DEFAULT, own(A, ISSUANCE)),
        (0, ISSUER, A, NO_CSD, DEFAULT, own(A, ISSUANCE)),
        (0, INVESTOR, A, X, DEFAULT, NO_ACCOUNT),
        (0, INVESTOR, A, X, ALTERNATIVE, NO_ACCOUNT),
        (0, INVESTOR, B, A, DEFAULT, NO_ACCOUNT),
        (0, ISSUER, B, NO_CSD, DEFAULT, own(B, ISSUANCE)),
    ]);
}

/// The first day after the last: 24, unless one of 6, 7 and 10 applies; 9 does not, and 11 comes behind it.
fn links_without_a_day(refused: &mut Refused) {
    for (first, last) in [(1, 0), (Day::MAX, 0), (Day::MAX, Day::MAX - 1)] {
        refused.scenario.days = Period { first, last };
        refused.links(&[
            (9, INVESTOR, A, B, DEFAULT, NO_ACCOUNT),
            (0, INVESTOR, A, B, 2, NO_ACCOUNT),
            (0, ISSUER, A, NO_CSD, DEFAULT, own(A, PARTICIPANT)),
            (0, INVESTOR, A, B, DEFAULT, NO_ACCOUNT),
            (0, INVESTOR, A, B, ALTERNATIVE, NO_ACCOUNT),
            (0, INVESTOR, A, A, DEFAULT, NO_ACCOUNT),
            (0, INVESTOR, A, X, ALTERNATIVE, NO_ACCOUNT),
            (0, ISSUER, B, NO_CSD, DEFAULT, own(B, ISSUANCE)),
        ]);
    }
    refused.scenario.days = Period::ALWAYS;
}

/// Fills every table and tries one row more, which is 5 whatever else is wrong with it.
fn full_tables(refused: &mut Refused) {
    let scenario = &mut refused.scenario;
    while !scenario.directory().csds.is_full() {
        scenario.csd(IN_T2S);
    }
    while !scenario.directory().securities.is_full() {
        scenario.security();
    }
    let participants: Vec<u16> =
        (3..11).flat_map(|csd| [csd; 8]).map(|csd| scenario.account(csd, PARTICIPANT)).collect();
    for technical in 12..20 {
        for &participant in &participants {
            if !scenario.directory().pairs.is_full() {
                scenario.serve(participant, technical, 0);
            }
        }
    }
    for link in scenario.directory().links.count as u8..LINKS as u8 {
        let csd = 3 + link / 15;
        scenario.link(1 + link % 15, csd, csd + 1, DEFAULT);
    }
    while !scenario.directory().accounts.is_full() {
        scenario.account(3, PARTICIPANT);
    }
    refused.send(Command::EnterCsd(Csd { kind: 7, bic: [0; 11] }));
    refused.send(Command::EnterSecurity(Security { isin: isin_of(0) }));
    refused.send(Command::EnterAccount(Account { csd: NO_CSD, kind: 9 }));
    refused.pairs(&[(NO_CSD, NO_CSD, NO_ACCOUNT, NO_ACCOUNT, NO_ACCOUNT)]);
    refused.links(&[(NO_CSD, 9, NO_CSD, NO_CSD, 9, NO_ACCOUNT)]);
}

/// Bring in, take out, pay in and pay out, also around 10^15.
pub fn instructions() -> Vec<u8> {
    let mut refused = Refused::over_three_csds();
    let (participant, omnibus) = (own(A, PARTICIPANT), own(B, OMNIBUS));
    let unlinked = refused.scenario.security();
    refused.scenario.link(unlinked, A, X, DEFAULT);
    for (account, security, quantity) in [
        (999, 0, 1),
        (NO_ACCOUNT, 0, 1),
        (participant, 2, 1),
        (participant, NO_CSD, 0),
        (participant, 0, 0),
        (participant, 0, BOUND + 1),
        (participant, 0, -1),
        (participant, 0, i64::MIN),
        (omnibus, 0, 1),
        (participant, 0, 1),
        (participant, unlinked, 1),
    ] {
        refused.send(Command::BringIn { account, security, quantity: Units(quantity), day: 0 });
        refused.send(Command::TakeOut { account, security, quantity: Units(quantity), day: 0 });
    }
    inter_csd_to_the_bound(&mut refused);
    for (account, amount) in
        [(999, 1), (participant, 0), (participant, BOUND + 1), (participant, i64::MIN), (omnibus, 1)]
    {
        refused.send(Command::PayIn { account, amount: Cents(amount) });
        refused.send(Command::PayOut { account, amount: Cents(amount) });
    }
    refused.send(Command::PayOut { account: participant, amount: Cents(1) });
    refused.send(Command::PayIn { account: participant, amount: Cents(BOUND) });
    refused.send(Command::PayIn { account: participant, amount: Cents(1) });
    refused.send(Command::PayOut { account: participant, amount: Cents(BOUND) });
    refused.bytes(&[0x06, 0x07, 0x08, 0x09])
}

/// A holds outside, and over alternatives with two issuers: what it takes out adds up on its inter-CSD account.
fn inter_csd_to_the_bound(refused: &mut Refused) {
    let scenario = &mut refused.scenario;
    let other = scenario.csd(IN_T2S);
    let participant = own(A, PARTICIPANT);
    scenario.link(0, A, X, DEFAULT);
    scenario.serve(participant, X, 0);
    for issuer in [B, other] {
        scenario.issuer(0, issuer);
        scenario.link(0, A, issuer, ALTERNATIVE);
        scenario.serve(participant, issuer, 0);
    }
    refused.send(Command::TakeOut { account: participant, security: 0, quantity: Units(1), day: 0 });
    for issuer in [B, other] {
        let account = refused.scenario.participant(issuer);
        refused.send(Command::BringIn { account, security: 0, quantity: Units(BOUND), day: 0 });
        refused.send(Command::BringIn { account, security: 0, quantity: Units(1), day: 0 });
        refused.scenario.settle(account, participant, 0, BOUND, 0).ok();
        refused.send(Command::TakeOut { account: participant, security: 0, quantity: Units(BOUND), day: 0 });
    }
}

/// Settle and derive: the two halves, the chain, and the booking.
pub fn settlements() -> Vec<u8> {
    let (refused, _) = settlements_in(&[Form::ByPlace]);
    refused.bytes(&[0x0A, 0x0B])
}

/// The same with sides and either half first, then all wrong sides beside right and wrong halves.
pub fn sided_settlements() -> Vec<u8> {
    let (mut refused, tried) = settlements_in(&[Form::DeliveringFirst, Form::ReceivingFirst]);
    for (one, other) in tried {
        for [side, other_side] in [&SAME_SIDES[..], &NO_SIDES].concat() {
            let (first, second) = (SidedHalf { side, half: one }, SidedHalf { side: other_side, half: other });
            refused.send(Command::SettleSided { first, second, day: 0 });
            refused.send(Command::DeriveSided { first, second, day: 0 });
        }
    }
    refused.bytes(&[0x0C, 0x0D])
}

/// Halves that are refused, each pair settled and derived in every form, and the pairs tried with a right one last.
fn settlements_in(forms: &[Form]) -> (Refused, Vec<(Half, Half)>) {
    let mut refused = Refused::over_three_csds();
    let scenario = &mut refused.scenario;
    scenario.security();
    let [issuer, behind_issuer, unlinked, cycle, other] = std::array::from_fn(|_| scenario.csd(IN_T2S));
    for csd in [B, issuer] {
        scenario.issuer(0, csd);
    }
    for (csd, technical) in [(A, B), (behind_issuer, issuer), (cycle, other), (other, cycle)] {
        scenario.link(0, csd, technical, DEFAULT);
    }
    let outside = scenario.csd(IN_T2S);
    scenario.link(0, outside, X, DEFAULT);
    let [a, b] = [A, B].map(|csd| own(csd, PARTICIPANT));
    scenario.serve(a, B, 0);
    let [i, behind, u, c, o] = [issuer, behind_issuer, unlinked, cycle, outside].map(|csd| scenario.participant(csd));
    scenario.serve(o, X, 0);

    let chains = [(a, a), (u, a), (a, u), (c, a), (a, c), (c, u), (b, o), (o, b), (behind, i), (i, behind)];
    let directory = scenario.directory();
    let right = halves(directory, a, b, 0, 1, 0);
    let mut tried = wrong_halves(right);
    tried.extend(chains.map(|(from, to)| halves(directory, from, to, 0, 1, 0)));
    for &(delivering, receiving) in &tried {
        for form in forms {
            refused.send(form.settle(delivering, receiving, 0));
            refused.send(form.derive(delivering, receiving, 0));
        }
    }
    bookings(&mut refused, forms, a, b, i);
    tried.push(right);
    (refused, tried)
}

/// Each side of two halves made wrong in every way.
fn wrong_halves(right: (Half, Half)) -> Vec<(Half, Half)> {
    let changes: [fn(&mut Half); 12] = [
        |half| half.account = 999,
        |half| half.counterpart = NO_CSD,
        |half| half.security = 2,
        |half| half.quantity = Units(0),
        |half| half.quantity = Units(BOUND + 1),
        |half| half.amount = Cents(-1),
        |half| half.amount = Cents(BOUND + 1),
        |half| half.account = own(B, OMNIBUS),
        |half| half.security = 1,
        |half| half.quantity = Units(2),
        |half| half.amount = Cents(1),
        |half| half.counterpart = X,
    ];
    let both = changes.iter().map(|change| {
        let (mut one, mut other) = (right, right);
        change(&mut one.0);
        change(&mut other.1);
        [one, other]
    });
    both.flatten().collect()
}

/// Settlements between A, its issuer B and another issuer, short or beyond the bound.
fn bookings(refused: &mut Refused, forms: &[Form], a: u16, b: u16, other: u16) {
    let scenario = &mut refused.scenario;
    let second = scenario.account(B, PARTICIPANT);
    for issuer in [b, other] {
        scenario.bring_in(issuer, 0, BOUND).ok();
    }
    for account in [a, b] {
        scenario.pay_in(account, BOUND).ok();
    }
    for (from, to, quantity, amount) in
        [(a, b, 1, 0), (second, b, 1, 0), (b, second, 1, 1), (b, a, 1, 1), (other, b, 1, 0), (other, b, BOUND, 0)]
    {
        let (delivering, receiving) = halves(refused.scenario.directory(), from, to, 0, quantity, amount);
        forms.iter().for_each(|form| refused.send(form.settle(delivering, receiving, 0)));
    }
}
