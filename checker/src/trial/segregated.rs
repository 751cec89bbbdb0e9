//! Vectors of segregated holdings: several omnibus accounts with one technical issuer, chosen by the account that is
//! served.

use std::collections::BTreeSet;

use super::forms::Form;
use super::literal::Rows;
use super::pairing;
use super::scenario::{halves, Scenario};
use crate::command::Command;
use crate::directory::*;

/// Derives and settles one unit between all of these accounts, in both directions.
fn trade(scenario: &mut Scenario, security: u8, accounts: &[u16]) {
    for &from in accounts {
        for &to in accounts {
            let (delivering, receiving) = halves(scenario.directory(), from, to, security, 1, 0);
            let day = scenario.day;
            scenario.send(Form::ByPlace.derive(delivering, receiving, day)).ok();
            scenario.send(Form::ReceivingFirst.settle(delivering, receiving, day)).ok();
        }
    }
}

/// Participants of one CSD by shared and by their own accounts, over an issuer, outside, and over an alternative.
pub fn chains() -> Vec<u8> {
    let mut scenario = Scenario::default();
    inside(&mut scenario);
    outside(&mut scenario);
    scenario.bytes
}

/// A and B hold with C, and C and E with the issuer, each through two omnibus accounts. A and B meet at C, whatever
/// accounts C has for them at the issuer.
fn inside(scenario: &mut Scenario) {
    let security = scenario.security();
    let [issuer, c, a, b, e] = std::array::from_fn(|_| scenario.csd(IN_T2S));
    scenario.issuer(security, issuer);
    for (csd, technical) in [(c, issuer), (a, c), (b, c), (e, issuer)] {
        scenario.link(security, csd, technical, DEFAULT);
    }
    let mut accounts = vec![scenario.participant(issuer)];
    for (csd, technical, duos) in
        [(a, c, &[0, 0, 1][..]), (b, c, &[0, 1]), (c, issuer, &[0, 1]), (e, issuer, &[0, 1, 1])]
    {
        for &duo in duos {
            let account = scenario.account(csd, PARTICIPANT);
            let omnibus = scenario.serve(account, technical, duo);
            if let (Some(omnibus), true) = (omnibus, technical == c) {
                scenario.serve(omnibus, issuer, duo);
            }
            accounts.push(account);
        }
    }
    scenario.bring_in(accounts[0], security, 1_000).ok();
    for &account in &accounts[1..] {
        scenario.settle(accounts[0], account, security, 50, 0).ok();
    }
    trade(scenario, security, &accounts);
}

/// F and G hold outside, F's participants through two inter-CSD accounts; in a second security F also holds with G.
fn outside(scenario: &mut Scenario) {
    let securities = [scenario.security(), scenario.security()];
    let [f, g] = std::array::from_fn(|_| scenario.csd(IN_T2S));
    let external = scenario.csd(EXTERNAL);
    let accounts: Vec<u16> = [f, f, f, g, g].map(|csd| scenario.account(csd, PARTICIPANT)).to_vec();
    for (&account, duo) in accounts.iter().zip([0, 0, 1, 0, 0]) {
        scenario.serve(account, external, duo);
    }
    for (&account, duo) in accounts[..3].iter().zip([0, 1, 1]) {
        scenario.serve(account, g, duo);
    }
    for security in securities {
        for csd in [f, g] {
            scenario.link(security, csd, external, DEFAULT);
        }
    }
    scenario.link(securities[1], f, g, ALTERNATIVE);
    for security in securities {
        for &account in &accounts {
            scenario.bring_in(account, security, 100).ok();
            scenario.take_out(account, security, 10).ok();
        }
        trade(scenario, security, &accounts);
    }
}

/// Two walks of eight CSDs to an issuer each, with two omnibus accounts in each CSD that change their places from step
/// to step. Rows are entered from the issuer down: an omnibus account is served before any row has it.
pub fn served_omnibus() -> Vec<u8> {
    let mut scenario = Scenario::default();
    let security = scenario.security();
    let mut ends = Vec::new();
    for _ in 0..2 {
        let side: Vec<u8> = (0..8).map(|_| scenario.csd(IN_T2S)).collect();
        scenario.issuer(security, side[7]);
        let participants = enter_from_the_top(&mut scenario, security, &side);
        let source = scenario.participant(side[7]);
        scenario.bring_in(source, security, 1_000).ok();
        for participant in participants {
            scenario.settle(source, participant, security, 100, 0).ok();
            ends.push(participant);
        }
    }
    trade(&mut scenario, security, &ends);
    scenario.bytes
}

/// The rows of a side, those of the highest hop first, and its two participants.
fn enter_from_the_top(scenario: &mut Scenario, security: u8, side: &[u8]) -> [u16; 2] {
    let accounts: Vec<[(u16, u16); 2]> = side
        .windows(2)
        .map(|hop| [(); 2].map(|()| (scenario.account(hop[0], MIRROR), scenario.account(hop[1], OMNIBUS))))
        .collect();
    let participants = [(); 2].map(|()| scenario.account(side[0], PARTICIPANT));
    for (place, hop) in side.windows(2).enumerate().rev() {
        scenario.link(security, hop[0], hop[1], DEFAULT);
        let below = if place == 0 { participants } else { accounts[place - 1].map(|(_, omnibus)| omnibus) };
        for (number, served) in below.into_iter().enumerate() {
            let (investor_account, technical_account) = accounts[place][(number + place) % 2];
            let row = Pair { investor: hop[0], technical: hop[1], investor_account, technical_account, served };
            scenario.send(Command::EnterPair(row)).ok();
        }
    }
    participants
}

const A: u8 = 0;
const B: u8 = 1;
const C: u8 = 2;
const X: u8 = 3;
const Y: u8 = 4;

/// The number of an account of A, B or C: each has four of every kind.
const fn own(csd: u8, kind: u8, place: u16) -> u16 {
    csd as u16 * 20 + kind as u16 * 4 + place
}

const fn participant(csd: u8, place: u16) -> u16 {
    own(csd, PARTICIPANT, place)
}

const fn omnibus(csd: u8, place: u16) -> u16 {
    own(csd, OMNIBUS, place)
}

const fn mirror(csd: u8, place: u16) -> u16 {
    own(csd, MIRROR, place)
}

const fn inter_csd(csd: u8, place: u16) -> u16 {
    own(csd, INTER_CSD, place)
}

/// Rows that are accepted in every way.
const ACCEPTED: [(u8, u8, u16, u16, u16); 10] = [
    (A, B, mirror(A, 0), omnibus(B, 0), participant(A, 0)),
    (A, B, mirror(A, 0), omnibus(B, 0), participant(A, 1)),
    (A, B, mirror(A, 1), omnibus(B, 1), participant(A, 2)),
    (A, X, inter_csd(A, 0), NO_ACCOUNT, participant(A, 0)),
    (A, X, inter_csd(A, 0), NO_ACCOUNT, participant(A, 1)),
    (A, X, inter_csd(A, 1), NO_ACCOUNT, participant(A, 2)),
    (B, C, mirror(B, 0), omnibus(C, 0), omnibus(B, 0)),
    (B, C, mirror(B, 0), omnibus(C, 0), omnibus(B, 2)),
    (C, B, mirror(C, 0), omnibus(B, 2), participant(C, 0)),
    (C, A, mirror(C, 1), omnibus(A, 0), participant(C, 0)),
];

/// Rows that are refused beside those, in every way.
const REFUSED: [(u8, u8, u16, u16, u16); 40] = [
    (9, B, mirror(A, 3), omnibus(B, 3), participant(A, 3)),
    (A, NO_CSD, mirror(A, 3), omnibus(B, 3), participant(A, 3)),
    (A, B, 999, omnibus(B, 3), participant(A, 3)),
    (A, B, NO_ACCOUNT, omnibus(B, 3), participant(A, 3)),
    (A, B, mirror(A, 3), 999, participant(A, 3)),
    (A, X, inter_csd(A, 0), 999, participant(A, 3)),
    (A, B, mirror(A, 3), NO_ACCOUNT, participant(A, 3)),
    (A, B, mirror(A, 0), omnibus(B, 0), 999),
    (A, B, mirror(A, 0), omnibus(B, 0), NO_ACCOUNT),
    (A, X, inter_csd(A, 0), NO_ACCOUNT, NO_ACCOUNT),
    // The same triplet.
    (A, B, mirror(A, 0), omnibus(B, 0), participant(A, 0)),
    (A, B, mirror(A, 1), omnibus(B, 1), participant(A, 0)),
    (A, B, mirror(A, 3), omnibus(B, 3), participant(A, 0)),
    (A, X, inter_csd(A, 1), NO_ACCOUNT, participant(A, 0)),
    // One account shared without the other.
    (A, B, mirror(A, 0), omnibus(B, 3), participant(A, 3)),
    (A, B, mirror(A, 3), omnibus(B, 0), participant(A, 3)),
    (A, B, mirror(A, 0), omnibus(B, 1), participant(A, 3)),
    // Accounts of other CSDs, or in the other column.
    (A, C, mirror(A, 0), omnibus(C, 3), participant(A, 3)),
    (A, Y, inter_csd(A, 0), NO_ACCOUNT, participant(A, 0)),
    (C, B, mirror(C, 3), omnibus(B, 0), participant(C, 3)),
    (B, A, mirror(A, 0), omnibus(B, 0), participant(B, 3)),
    (A, B, omnibus(B, 0), omnibus(B, 3), participant(A, 3)),
    (A, B, mirror(A, 3), mirror(A, 0), participant(A, 3)),
    (B, A, omnibus(B, 0), mirror(A, 0), participant(B, 3)),
    // An account row given second with an external issuer.
    (A, X, inter_csd(A, 0), omnibus(B, 0), participant(A, 3)),
    (A, X, inter_csd(A, 0), inter_csd(A, 0), participant(A, 3)),
    (A, X, inter_csd(A, 3), omnibus(B, 0), participant(A, 3)),
    (A, X, inter_csd(A, 0), omnibus(B, 3), participant(A, 3)),
    (A, X, inter_csd(A, 3), omnibus(B, 3), participant(A, 3)),
    // Wrong accounts.
    (X, A, mirror(A, 3), omnibus(A, 3), participant(A, 3)),
    (A, B, mirror(C, 3), omnibus(B, 3), participant(A, 3)),
    (A, B, inter_csd(A, 3), omnibus(B, 3), participant(A, 3)),
    (A, B, mirror(A, 3), omnibus(C, 3), participant(A, 3)),
    (A, B, mirror(A, 3), participant(B, 3), participant(A, 3)),
    (A, B, mirror(A, 0), omnibus(B, 0), participant(B, 3)),
    (C, B, mirror(C, 3), omnibus(B, 3), participant(A, 0)),
    (A, B, mirror(A, 0), omnibus(B, 0), mirror(A, 3)),
    (A, B, mirror(A, 0), omnibus(B, 0), inter_csd(A, 3)),
    (A, X, inter_csd(A, 0), NO_ACCOUNT, own(A, ISSUANCE, 0)),
    (A, A, mirror(A, 3), omnibus(A, 3), participant(A, 3)),
];

/// Pair rows in every way in which one can be answered, but for a full table; then chains and moves without a row.
pub fn refusals() -> Vec<u8> {
    let mut scenario = Scenario::default();
    for kind in [IN_T2S, IN_T2S, IN_T2S, EXTERNAL, EXTERNAL] {
        scenario.csd(kind);
    }
    for csd in [A, B, C] {
        for kind in PARTICIPANT..=ISSUANCE {
            for _ in 0..4 {
                scenario.account(csd, kind);
            }
        }
    }
    enter_in_every_way(&mut scenario);
    no_row(&mut scenario);
    scenario.bytes
}

fn enter_in_every_way(scenario: &mut Scenario) {
    let mut seen = BTreeSet::new();
    for (investor, technical, investor_account, technical_account, served) in ACCEPTED.into_iter().chain(REFUSED) {
        let row = Pair { investor, technical, investor_account, technical_account, served };
        let (number, ways) = pairing::due(&Rows::from(scenario.directory()), &row);
        if number == 0 || ways.len() == 1 {
            seen.extend(ways.into_iter().map(|name| (name, number)));
        }
        scenario.send(Command::EnterPair(row)).ok();
    }
    for way in pairing::all_ways().into_iter().filter(|way| way.1 != 5) {
        assert!(seen.contains(&way), "{way:?} is not in the vector");
    }
}

/// 18 and 19, where other accounts of the CSD have a row and this one has none: at the first step, at a higher one, on
/// either side, and for what is brought in.
fn no_row(scenario: &mut Scenario) {
    let [inside, outside] = [scenario.security(), scenario.security()];
    scenario.issuer(inside, B);
    scenario.link(inside, C, A, DEFAULT);
    scenario.link(inside, A, B, DEFAULT);
    scenario.link(outside, A, X, DEFAULT);
    scenario.bring_in(participant(B, 0), inside, 100).ok();
    let accounts = [participant(A, 0), participant(A, 3), participant(B, 0), participant(C, 0), participant(C, 3)];
    trade(scenario, inside, &accounts);
    for place in 0..4 {
        scenario.bring_in(participant(A, place), outside, 5).ok();
        scenario.take_out(participant(A, place), outside, 2).ok();
    }
    scenario.serve(omnibus(A, 0), B, 1);
    trade(scenario, inside, &accounts);
}
