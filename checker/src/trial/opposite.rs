//! A vector of pairs taken back by the opposite ones, in each way that the chain rule knows.

use super::forms::Form;
use super::scenario::{halves, Scenario};
use crate::directory::*;

/// The links of a security: issuers, and default links and alternatives from CSD to technical issuer.
struct Links<'a> {
    issuers: &'a [u8],
    defaults: &'a [(u8, u8)],
    alternatives: &'a [(u8, u8)],
}

/// Within a CSD and where default walks meet, between two issuers and between two external ends; then where just one
/// directed walk reaches, from either side; last where both reach.
pub fn taken_back() -> Vec<u8> {
    let mut scenario = Scenario::default();
    let [a, b, c, i, j] = std::array::from_fn(|_| scenario.csd(IN_T2S));
    let [x, y] = std::array::from_fn(|_| scenario.csd(EXTERNAL));
    let [from, to, between, issuing] = [a, b, c, i].map(|csd| scenario.participant(csd));
    let within = scenario.account(a, PARTICIPANT);
    for account in [from, to, within] {
        scenario.pay_in(account, 100).ok();
    }
    let meeting = Links { issuers: &[i], defaults: &[(a, i), (b, i)], alternatives: &[] };
    let security = enter(&mut scenario, &meeting);
    hold(&mut scenario, security, &[issuing, from]);
    there_and_back(&mut scenario, security, from, within);
    there_and_back(&mut scenario, security, from, to);
    let security = enter(&mut scenario, &Links { issuers: &[i, j], defaults: &[(a, i), (b, j)], alternatives: &[] });
    hold(&mut scenario, security, &[issuing, from]);
    there_and_back(&mut scenario, security, from, to);
    let security = enter(&mut scenario, &Links { issuers: &[], defaults: &[(a, x), (b, y)], alternatives: &[] });
    hold(&mut scenario, security, &[from]);
    there_and_back(&mut scenario, security, from, to);
    let just_one = Links { issuers: &[], defaults: &[(a, c), (c, x), (b, y)], alternatives: &[(c, b)] };
    let security = enter(&mut scenario, &just_one);
    for path in [&[between, from][..], &[to, between], &[to]] {
        hold(&mut scenario, security, path);
    }
    there_and_back(&mut scenario, security, from, to);
    there_and_back(&mut scenario, security, to, from);
    both_reach(&mut scenario, [a, b, c, i, j]);
    scenario.bytes
}

/// "Where both reach, the way back may be another chain": A C B from day 1 on, when C may hold with B, and B A back. It is
/// refused until A's books hold something for B, which a delivery of day 0 brings there.
fn both_reach(scenario: &mut Scenario, [a, b, c, i, j]: [u8; 5]) {
    let links = Links { issuers: &[i, j], defaults: &[(a, c), (c, i), (b, j)], alternatives: &[(b, a)] };
    let security = enter(scenario, &links);
    let [from, to, between, one, other] = [a, b, c, i, j].map(|csd| scenario.participant(csd));
    scenario.days = Period::new(1, Day::MAX);
    scenario.link(security, c, b, ALTERNATIVE);
    scenario.day = 1;
    hold(scenario, security, &[one, from]);
    hold(scenario, security, &[other, to, between]);
    there_and_back(scenario, security, from, to);
    scenario.day = 0;
    scenario.settle(from, to, security, 50, 0).ok();
    scenario.day = 1;
    there_and_back(scenario, security, from, to);
}

/// Enters a security with its links, and the rows along them.
fn enter(scenario: &mut Scenario, links: &Links) -> u8 {
    let security = scenario.security();
    for &csd in links.issuers {
        scenario.issuer(security, csd);
    }
    for (flag, links) in [(DEFAULT, links.defaults), (ALTERNATIVE, links.alternatives)] {
        for &(csd, technical) in links {
            scenario.link(security, csd, technical, flag);
        }
    }
    let hops = [links.defaults, links.alternatives].concat();
    let served: Vec<u16> = hops.iter().flat_map(|hop| scenario.participants(hop.0)).collect();
    scenario.serve_along(&served, &hops, |_| Some(0));
    security
}

/// Brings 100 in on the first account of a path, and settles it from each to the next.
fn hold(scenario: &mut Scenario, security: u8, path: &[u16]) {
    scenario.bring_in(path[0], security, 100).ok();
    for hop in path.windows(2) {
        scenario.settle(hop[0], hop[1], security, 100, 0).ok();
    }
}

/// Settles a pair and the opposite one, by place and with sides, without cash and for cash.
fn there_and_back(scenario: &mut Scenario, security: u8, from: u16, to: u16) {
    for (there, back, amount) in [(Form::ByPlace, Form::ReceivingFirst, 0), (Form::DeliveringFirst, Form::ByPlace, 7)] {
        let (one, other) = halves(scenario.directory(), from, to, security, 10, amount);
        let day = scenario.day;
        scenario.send(there.settle(one, other, day)).ok();
        scenario.send(back.settle(other, one, day)).ok();
    }
}
