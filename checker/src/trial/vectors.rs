//! Inputs that are worth keeping: every refusal of every command, chains of every kind and length, sided halves
//! in either order, branches, check digits, segregated holdings, links with days, pairs taken back, the ends of the
//! input's length, damaged streams, and large sums. The model's transcripts are their outputs.

use super::busy;
use super::dated;
use super::forms::{Form, FORMS};
use super::opposite;
use super::refused;
use super::scenario::{halves, Scenario};
use super::segregated;
use crate::booking::BOUND;
use crate::command::Command;
use crate::directory::*;

/// All vectors, by name.
pub fn vectors() -> Vec<(&'static str, Vec<u8>)> {
    let mut too_long = busy::mixed();
    too_long.push(0);
    let by_place = &[Form::ByPlace];
    vec![
        ("refused-entries", refused::entries()),
        ("refused-instructions", refused::instructions()),
        ("refused-settlements", refused::settlements()),
        ("chains-shared-inside", chains(by_place, [8, 7], [Top::Issuer, Top::Joined], None)),
        ("chains-shared-outside", chains(by_place, [7, 6], [Top::External, Top::Joined], None)),
        ("chains-two-issuers", chains(by_place, [8, 8], [Top::Issuer, Top::Issuer], None)),
        ("chains-both-outside", chains(by_place, [7, 7], [Top::External, Top::External], None)),
        ("chains-directed", chains(by_place, [7, 1], [Top::External, Top::External], Some((6, 0)))),
        ("sided-orders", chains(&FORMS, [8, 8], [Top::Issuer, Top::Issuer], None)),
        ("sided-orders-directed", chains(&FORMS, [7, 1], [Top::External, Top::External], Some((6, 0)))),
        ("sided-refusals", refused::sided_settlements()),
        ("sided-cut-by-one", cut_or_unknown(&[0x0C; 44])),
        ("sided-cut-before-second-half", cut_or_unknown(&[0x0D; 22])),
        ("branches", branches()),
        ("check-digits", check_digits()),
        ("segregated-chains", segregated::chains()),
        ("segregated-refusals", segregated::refusals()),
        ("served-omnibus", segregated::served_omnibus()),
        ("link-periods", dated::periods()),
        ("links-in-time", dated::in_time()),
        ("taken-back", opposite::taken_back()),
        ("link-cut-by-one", cut_or_unknown(&[0x05; 11])),
        ("bring-in-cut-by-one", cut_or_unknown(&[0x06; 13])),
        ("settle-cut-before-day", cut_or_unknown(&[0x0A; 41])),
        ("sided-cut-before-day", cut_or_unknown(&[0x0D; 43])),
        ("pair-cut-by-one", cut_or_unknown(&[0x0E; 8])),
        ("pair-by-04", cut_or_unknown(&[0x04, 0, 0, 0, 0, 0, 0])),
        ("large-sums", large_sums()),
        ("empty", Vec::new()),
        ("unknown-byte", cut_or_unknown(&[0x00])),
        ("cut-command-byte-alone", cut_or_unknown(&[0x01])),
        ("cut-settle-by-one", cut_or_unknown(&[0x0A; 42])),
        ("bytes-65536", busy::mixed()),
        ("bytes-65537", too_long),
    ]
}

/// How a side of the market ends.
#[derive(Clone, Copy, PartialEq)]
enum Top {
    Issuer,
    External,
    Joined,
}

/// Two sides of given lengths, and between their participants chains of every length that they allow, each
/// derived and settled both ways in every form, the first way for cash. An alternative leads from a place on the
/// first side to one on the second.
fn chains(forms: &[Form], lengths: [usize; 2], tops: [Top; 2], alternative: Option<(usize, usize)>) -> Vec<u8> {
    let mut scenario = Scenario::default();
    let security = scenario.security();
    let sides = lengths.map(|length| (0..length).map(|_| scenario.csd(IN_T2S)).collect::<Vec<u8>>());
    let mut hops = enter_sides(&mut scenario, security, &sides, tops);
    if let Some((from, to)) = alternative {
        scenario.link(security, sides[0][from], sides[1][to], ALTERNATIVE);
        hops.push((sides[0][from], sides[1][to]));
    }
    let accounts = sides.map(|side| side.iter().map(|&csd| scenario.participant(csd)).collect::<Vec<u16>>());
    scenario.serve_along(&accounts.concat(), &hops, |_| Some(0));
    for (side, top) in accounts.iter().zip(tops) {
        let source = if top == Top::Joined { accounts[0][lengths[0] - 1] } else { side[side.len() - 1] };
        scenario.bring_in(source, security, 1_000_000).ok();
        for &account in side.iter().filter(|&&account| account != source) {
            scenario.settle(source, account, security, 50_000, 0).ok();
        }
    }
    let neighbour = scenario.account(0, PARTICIPANT);
    let mut trades = vec![(accounts[0][0], neighbour)];
    for steps in 2..=lengths[0] + lengths[1] {
        let near = (steps - 1).min(lengths[0]);
        if steps - near <= lengths[1] {
            trades.push((accounts[1][lengths[1] - (steps - near)], accounts[0][lengths[0] - near]));
        }
    }
    trade(&mut scenario, forms, security, &trades);
    scenario.bytes
}

/// Links along two sides and to their ends, and the hops of these.
fn enter_sides(scenario: &mut Scenario, security: u8, sides: &[Vec<u8>; 2], tops: [Top; 2]) -> Vec<(u8, u8)> {
    let mut hops = Vec::new();
    for (side, top) in sides.iter().zip(tops) {
        let mut path = side.clone();
        match top {
            Top::Issuer => assert!(scenario.issuer(security, side[side.len() - 1])),
            Top::External => path.push(scenario.csd(EXTERNAL)),
            Top::Joined => path.push(sides[0][sides[0].len() - 1]),
        }
        for hop in path.windows(2) {
            scenario.link(security, hop[0], hop[1], DEFAULT);
            hops.push((hop[0], hop[1]));
        }
    }
    hops
}

fn trade(scenario: &mut Scenario, forms: &[Form], security: u8, trades: &[(u16, u16)]) {
    for (amount, &(from, to)) in (1..).zip(trades) {
        scenario.pay_in(to, 100).ok();
        for (from, to, amount) in [(from, to, amount), (to, from, 0)] {
            let (delivering, receiving) = halves(scenario.directory(), from, to, security, 1, amount);
            for form in forms {
                let day = scenario.day;
                scenario.send(form.derive(delivering, receiving, day)).ok();
                scenario.send(form.settle(delivering, receiving, day)).ok();
            }
        }
    }
}

/// CSDs whose BICs differ in the last three bytes, or in one byte alone, three capitals X among them. All are entered;
/// each is then 9, in T2S and outside, and two of them settle.
fn branches() -> Vec<u8> {
    let bics = [
        b"AAAAXX00XXX",
        b"AAAAXX00ABC",
        b"AAAAXX00ABD",
        b"AAAAXX00AXC",
        b"AAAAXX00XBC",
        b"AAAAXX00XXC",
        b"BAAAXX00ABC",
    ];
    let mut scenario = Scenario::default();
    for kind in [IN_T2S, IN_T2S, EXTERNAL] {
        for bic in bics {
            scenario.send(Command::EnterCsd(Csd { kind, bic: *bic })).ok();
        }
    }
    scenario.send(Command::EnterCsd(Csd { kind: EXTERNAL, bic: *b"AAAAXX00XX0" })).ok();
    let security = scenario.security();
    scenario.issuer(security, 0);
    scenario.link(security, 1, 0, DEFAULT);
    let (from, to) = (scenario.participant(0), scenario.participant(1));
    scenario.serve(to, 0, 0);
    scenario.bring_in(from, security, 100).ok();
    scenario.settle(from, to, security, 40, 0).ok();
    scenario.bytes
}

/// Every check digit for each of 15 ISINs: three that are in use, the fewest and the most letters, and one letter in each
/// place. One digit fits, the others are 8.
fn check_digits() -> Vec<u8> {
    let bodies = [
        b"US037833100",
        b"DE000BAY001",
        b"AU0000XVGZA",
        b"XS000000000",
        b"AAAAAAAAAAA",
        b"ZZZZZZZZZZZ",
        b"XSB12345678",
        b"XS1C2345678",
        b"XS12D345678",
        b"XS123E45678",
        b"XS1234F5678",
        b"XS12345K678",
        b"XS123456T78",
        b"XS1234567U8",
        b"XS12345678Y",
    ];
    let mut scenario = Scenario::default();
    for body in bodies {
        for digit in b'0'..=b'9' {
            let mut isin = [digit; 12];
            isin[..11].copy_from_slice(body);
            scenario.send(Command::EnterSecurity(Security { isin })).ok();
        }
    }
    scenario.bytes
}

/// Totals far beyond 10^15, by many accounts at 10^15 each.
fn large_sums() -> Vec<u8> {
    let mut scenario = Scenario::default();
    let securities = [scenario.security(), scenario.security()];
    for _ in 0..CSDS {
        let csd = scenario.csd(IN_T2S);
        let account = scenario.participant(csd);
        for security in securities {
            scenario.issuer(security, csd);
            scenario.bring_in(account, security, BOUND).ok();
        }
        for _ in 0..6 {
            let account = scenario.account(csd, PARTICIPANT);
            scenario.pay_in(account, BOUND).ok();
        }
    }
    scenario.take_out(0, 0, BOUND - 1).ok();
    scenario.pay_out(2, BOUND - 7).ok();
    scenario.bytes
}

/// A security and some cash, then bytes that stop the reading.
fn cut_or_unknown(rest: &[u8]) -> Vec<u8> {
    let mut scenario = Scenario::default();
    scenario.security();
    let csd = scenario.csd(IN_T2S);
    let account = scenario.participant(csd);
    scenario.pay_in(account, 5).ok();
    [scenario.bytes, rest.to_vec()].concat()
}
