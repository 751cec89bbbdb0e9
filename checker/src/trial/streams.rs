//! Random streams aimed at depth: long walks, cycles, two issuers, external ends, alternatives, links that follow one
//! another, full tables, numbers at the bound, and damaged bytes. A seed gives the same stream everywhere.

use std::collections::BTreeSet;

use super::calendar::Calendar;
use super::commands;
use super::coverage::LENGTHS;
use super::forms::FORMS;
use super::literal::{ChainKind, Rows};
use super::random::Random;
use super::scenario::{halves, Scenario};
use crate::booking::BOUND;
use crate::directory::*;
use crate::transcript::INPUT_LIMIT;

/// The stream of a seed, as bytes.
pub fn stream(seed: u64) -> Vec<u8> {
    let mut random = Random::new(seed);
    let Scenario { mut bytes, session, .. } = scenario(&mut random);
    match random.below(20) {
        0 | 1 => damage(&mut random, &mut bytes),
        2 => {
            let directory = session.register().directory();
            commands::command(&mut random, directory).write(&mut bytes);
            bytes.truncate(bytes.len() - random.between(1, 2));
        }
        3 => {
            let former = commands::former_pair(&mut random, session.register().directory());
            bytes.extend(former);
        }
        _ => {}
    }
    bytes.truncate(INPUT_LIMIT);
    bytes
}

/// An undamaged stream, with the store that it leaves.
pub fn scenario(random: &mut Random) -> Scenario {
    let shape = random.below(64);
    let noise = random.pick(&[0, 0, 2, 10]);
    let calendar = Calendar::any(random);
    let scenario = Scenario { day: calendar.today, ..Scenario::default() };
    let mut writer = Writer { random, scenario, calendar, noise };
    match shape {
        0..=12 => {
            let plan = Plan::any(writer.random);
            writer.two_sides(plan)
        }
        13..=28 => {
            let plan = Plan::exact(writer.random);
            writer.two_sides(plan)
        }
        29..=40 => {
            let (csds, securities) = (writer.random.between(3, 16), writer.random.between(1, 5));
            writer.web(csds, securities)
        }
        41 => writer.full_tables(),
        42..=50 => writer.around_the_bound(),
        51..=54 => writer.links_in_time(),
        55 | 56 => writer.both_ways(),
        _ => writer.commands_at_random(),
    }
    writer.scenario
}

/// Opens some accounts that no row names yet.
pub fn open_accounts(random: &mut Random, scenario: &mut Scenario) {
    for _ in 0..random.pick(&[0, 6, 12]) {
        let row = commands::account(random, scenario.directory());
        scenario.account(row.csd, row.kind);
    }
}

/// Flips, drops, adds or repeats bytes, or cuts the stream.
fn damage(random: &mut Random, bytes: &mut Vec<u8>) {
    for _ in 0..random.between(1, 3) {
        if bytes.is_empty() {
            return;
        }
        let place = random.below(bytes.len());
        match random.below(5) {
            0 => bytes[place] = random.byte(),
            1 => drop(bytes.remove(place)),
            2 => bytes.insert(place, random.byte()),
            3 => bytes.truncate(place),
            _ => bytes.extend_from_within(place..(place + 60).min(bytes.len())),
        }
    }
}

/// How a side of a chain is made to end.
#[derive(Clone, Copy, PartialEq)]
enum SideEnd {
    Issuer,
    External,
    Nothing,
    Cycle,
    /// A default link into the other side, at this place.
    Joined(usize),
}

/// The CSDs of two sides by number, how each ends, and alternatives by place on the two sides in a row.
struct Plan {
    delivering: usize,
    receiving: usize,
    ends: [SideEnd; 2],
    alternatives: Vec<(usize, usize)>,
}

impl Plan {
    /// Sides of any length, often as many as a side may name or one more, with any end.
    fn any(random: &mut Random) -> Plan {
        use SideEnd::*;
        let lengths = [1, 1, 2, 2, 3, 4, 5, 6, 7, 7, 8, 8, 8, 9];
        let (delivering, receiving) = (random.pick(&lengths), random.pick(&lengths));
        let joined = Joined(random.below(delivering));
        let ends = [
            random.pick(&[Issuer, Issuer, Issuer, External, External, Nothing, Cycle]),
            random.pick(&[Issuer, Issuer, External, External, Nothing, Cycle, joined, joined]),
        ];
        let all = delivering + receiving;
        let count = random.pick(&[0, 0, 1, 1, 2, 4]);
        let alternative = |_| {
            let (from, anywhere) = (random.below(all), random.below(all));
            (from, random.pick(&[0, 0, delivering, delivering, anywhere]))
        };
        Plan { delivering, receiving, ends, alternatives: (0..count).map(alternative).collect() }
    }

    /// Sides that give a chain of a kind and length, each as likely as another, but those to the outside likelier.
    fn exact(random: &mut Random) -> Plan {
        let (kind, lengths) = LENGTHS[random.between(1, LENGTHS.len() + 1).min(LENGTHS.len() - 1)].clone();
        let length = random.between(*lengths.start(), *lengths.end());
        match kind {
            ChainKind::SharedInside | ChainKind::SharedOutside => {
                let outside = kind == ChainKind::SharedOutside;
                let most = if outside { 6 } else { 7 };
                let up = random.between((length - 1).saturating_sub(most), most.min(length - 1));
                let receiving = length - 1 - up;
                let beyond = random.below(most - up.max(receiving) + 1);
                let end = if outside { SideEnd::External } else { SideEnd::Issuer };
                Plan::sides(up + 1 + beyond, receiving, [end, SideEnd::Joined(up)])
            }
            ChainKind::TwoIssuers | ChainKind::BothOutside => {
                let outside = kind == ChainKind::BothOutside;
                let most = if outside { 7 } else { 8 };
                let up = random.between(1.max(length.saturating_sub(most)), most.min(length - 1));
                let end = if outside { SideEnd::External } else { SideEnd::Issuer };
                Plan::sides(up, length - up, [end, end])
            }
            _ => {
                let named = length - 1;
                let (walking, standing) = (random.between(named + 1, 9), random.between(1, 9));
                let mut end = || random.pick(&[SideEnd::Issuer, SideEnd::External, SideEnd::External, SideEnd::Cycle]);
                let ends = [end(), end()];
                if kind == ChainKind::DirectedFromDelivering {
                    let alternatives = vec![(named - 1, walking)];
                    Plan { alternatives, ..Plan::sides(walking, standing, ends) }
                } else {
                    let alternatives = vec![(standing + named - 1, 0)];
                    Plan { alternatives, ..Plan::sides(standing, walking, ends) }
                }
            }
        }
    }

    fn sides(delivering: usize, receiving: usize, ends: [SideEnd; 2]) -> Plan {
        Plan { delivering, receiving, ends, alternatives: Vec::new() }
    }
}

struct Writer<'a> {
    random: &'a mut Random,
    scenario: Scenario,
    calendar: Calendar,
    noise: usize,
}

impl Writer<'_> {
    /// Two walks, each to an end of its own or into the other, some alternatives, and trade between the
    /// two ends.
    fn two_sides(&mut self, plan: Plan) {
        for _ in 0..self.random.below(3) {
            self.scenario.csd(IN_T2S);
        }
        for _ in 0..self.random.below(2) {
            self.scenario.security();
        }
        let security = self.scenario.security();
        let all: Vec<u8> = (0..plan.delivering + plan.receiving).map(|_| self.scenario.csd(IN_T2S)).collect();
        let (delivering, receiving) = all.split_at(plan.delivering);
        let mut hops = [hops_of(delivering), hops_of(receiving)].concat();
        let mut issuers = Vec::new();
        let mut external = None;
        let mut counterpart = receiving.first().copied();
        for (side, end) in [(delivering, plan.ends[0]), (receiving, plan.ends[1])] {
            match (side.last(), end) {
                (Some(&last), SideEnd::Issuer) => issuers.push(last),
                (Some(&last), SideEnd::External) => {
                    let same = external.filter(|_| self.random.percent(40));
                    external = Some(same.unwrap_or_else(|| self.external(security, &all)));
                    hops.extend(external.map(|external| (last, external)));
                }
                (Some(&last), SideEnd::Cycle) => hops.push((last, self.random.pick(side))),
                (Some(&last), SideEnd::Joined(place)) => hops.push((last, delivering[place])),
                (None, SideEnd::Joined(place)) => counterpart = Some(delivering[place]),
                _ => {}
            }
        }
        self.random.shuffle(&mut hops);
        let alternatives: Vec<(u8, u8)> = plan.alternatives.iter().map(|&(from, to)| (all[from], all[to])).collect();
        self.enter(security, &issuers, &hops, &alternatives);
        let ends = [delivering[0], counterpart.unwrap_or(delivering[0])];
        self.trade(&[security], &all, ends);
    }

    /// A new external CSD, sometimes an issuer, sometimes with a link that no walk may follow.
    fn external(&mut self, security: u8, csds: &[u8]) -> u8 {
        let external = self.scenario.csd(EXTERNAL);
        let technical = self.random.pick(csds);
        match self.random.below(4) {
            0 => self.scenario.issuer(security, external),
            1 => self.scenario.link(security, external, technical, DEFAULT),
            _ => false,
        };
        external
    }

    /// Enters links, then the pair rows of participants and of all omnibus accounts that these reach. In some streams a
    /// few rows are left out, and CSDs have several participants and several accounts at a technical issuer.
    fn enter(&mut self, security: u8, issuers: &[u8], defaults: &[(u8, u8)], alternatives: &[(u8, u8)]) {
        let mut hops = alternatives.to_vec();
        let issuers = issuers.iter().map(|&csd| (csd, None));
        for (csd, technical) in issuers.chain(defaults.iter().map(|&(csd, technical)| (csd, Some(technical)))) {
            self.disturb();
            hops.extend(self.enter_in_time(security, csd, technical));
        }
        for &(investor, technical) in alternatives {
            self.disturb();
            self.enter_alternative(security, investor, technical);
        }
        for _ in 0..self.random.pick(&[0, 0, 0, 1, 4]) {
            let command = commands::link(self.random, self.scenario.directory());
            let _ = self.scenario.send(command);
        }
        hops.retain(|hop| hop.0 != hop.1);
        self.random.shuffle(&mut hops);
        let accounts = self.served_accounts(&hops);
        if self.random.percent(15) {
            self.leave_out(&mut hops);
        }
        let (left_out, duos) = (self.random.pick(&[0, 0, 0, 10]), self.random.pick(&[1, 1, 2, 3]));
        let Writer { random, scenario, noise, .. } = self;
        scenario.serve_along(&accounts, &hops, |scenario| {
            disturb(random, scenario, *noise);
            let room = scenario.directory().accounts.count < ACCOUNTS - 60;
            (!random.percent(left_out)).then(|| if room { random.below(duos) } else { 0 })
        });
    }

    /// Enters the issuer or default link of a CSD for today, and sometimes others for the days before and after: to the
    /// same technical issuer, to another, or an issuer link. Gives the hops of these.
    fn enter_in_time(&mut self, security: u8, csd: u8, technical: Option<u8>) -> Vec<(u8, u8)> {
        let (days, beside) = self.calendar.around_today(self.random);
        let mut links = vec![(days, technical)];
        for span in beside {
            match self.random.below(20) {
                0..=8 => {}
                9..=13 => links.push((span, technical)),
                14..=17 => links.push((span, Some(self.random.below(self.scenario.directory().csds.count) as u8))),
                _ => links.push((span, None)),
            }
        }
        self.random.shuffle(&mut links);
        for &(days, technical) in &links {
            self.scenario.days = days;
            match technical {
                None => self.scenario.issuer(security, csd),
                Some(technical) => self.scenario.link(security, csd, technical, DEFAULT),
            };
        }
        self.scenario.days = Period::ALWAYS;
        links.iter().filter_map(|link| link.1).map(|technical| (csd, technical)).collect()
    }

    /// Enters an alternative for today, sometimes tried on more days than its defaults may have.
    fn enter_alternative(&mut self, security: u8, csd: u8, technical: u8) {
        let tried = self.random.percent(40).then(|| self.calendar.many_days(self.random));
        for days in tried.into_iter().chain([self.calendar.few_days(self.random)]) {
            self.scenario.days = days;
            if self.scenario.link(security, csd, technical, ALTERNATIVE) {
                break;
            }
        }
        self.scenario.days = Period::ALWAYS;
    }

    /// Leaves one hop without any row, often one that leads outside.
    fn leave_out(&mut self, hops: &mut Vec<(u8, u8)>) {
        let outside = hops.iter().position(|hop| self.scenario.is_external(hop.1));
        match outside.filter(|_| self.random.percent(50)) {
            Some(place) => drop(hops.remove(place)),
            None => drop(hops.pop()),
        }
    }

    /// A participant account of each investor, and in some streams more, most of them to be served.
    fn served_accounts(&mut self, hops: &[(u8, u8)]) -> Vec<u16> {
        let more = self.random.pick(&[0, 0, 1, 2]);
        let investors: BTreeSet<u8> = hops.iter().map(|hop| hop.0).collect();
        let mut accounts = Vec::new();
        for csd in investors {
            accounts.push(self.scenario.participant(csd));
            for _ in 0..self.random.below(more + 1) {
                let account = self.scenario.account(csd, PARTICIPANT);
                if self.random.percent(75) {
                    accounts.push(account);
                }
            }
        }
        self.random.shuffle(&mut accounts);
        accounts
    }

    /// Brings securities and cash in where that is possible, spreads them to the two ends, and settles and
    /// derives between these and others.
    fn trade(&mut self, securities: &[u8], csds: &[u8], ends: [u8; 2]) {
        let firsts: Vec<u16> = csds.iter().map(|&csd| self.scenario.participant(csd)).collect();
        let accounts: Vec<u16> = csds.iter().flat_map(|&csd| self.scenario.participants(csd)).collect();
        let ends = ends.map(|csd| self.scenario.participant(csd));
        for account in ends {
            let amount = self.random.some_number();
            let _ = self.scenario.pay_in(account, amount);
        }
        let rows = Rows::from(self.scenario.directory()).on(self.calendar.today);
        for &security in securities {
            for &account in &accounts {
                let chance = if firsts.contains(&account) { 100 } else { 30 };
                if rows.source(security, account).is_some() && self.random.percent(chance) || self.random.percent(3) {
                    self.bring_in_for(account, security, &ends);
                }
            }
            for (from, to) in [(ends[0], ends[1]), (ends[1], ends[0])] {
                let (quantity, amount) = (self.random.between(1, 9) as i64, self.random.below(2) as i64);
                let (delivering, receiving) = halves(self.scenario.directory(), from, to, security, quantity, amount);
                let day = self.calendar.today;
                for form in FORMS {
                    let _ = self.scenario.send(form.settle(delivering, receiving, day));
                    let _ = self.scenario.send(form.derive(delivering, receiving, day));
                }
                let (form, day) = (self.random.pick(&FORMS), self.calendar.edge(self.random));
                let _ = self.scenario.send(form.settle(delivering, receiving, day));
                let _ = self.scenario.send(form.derive(delivering, receiving, day));
            }
            self.bring_in_on_other_days(&firsts, security);
        }
        let second = self.scenario.account(csds[0], PARTICIPANT);
        let everyone = [&accounts[..], &ends, &ends, &ends, &[second]].concat();
        for _ in 0..self.random.between(2, 20) {
            self.disturb();
            self.instruct(securities, &everyone);
        }
    }

    fn bring_in_on_other_days(&mut self, accounts: &[u16], security: u8) {
        for &account in accounts {
            if self.random.percent(20) {
                self.scenario.day = self.calendar.edge(self.random);
                let _ = self.scenario.bring_in(account, security, 100);
                self.scenario.day = self.calendar.edge(self.random);
                let _ = self.scenario.take_out(account, security, 10);
            }
        }
        self.scenario.day = self.calendar.today;
    }

    fn bring_in_for(&mut self, account: u16, security: u8, ends: &[u16]) {
        let quantity = self.random.pick(&[BOUND, BOUND / 2, 1_000_000, 70]);
        if self.scenario.bring_in(account, security, quantity).is_ok() {
            for &end in ends {
                self.disturb();
                let _ = self.scenario.settle(account, end, security, quantity / 7, 0);
            }
        }
    }

    fn instruct(&mut self, securities: &[u8], accounts: &[u16]) {
        let (from, to) = (self.random.pick(accounts), self.random.pick(accounts));
        let security = self.random.pick(securities);
        let quantity = self.random.some_number();
        let amount = if self.random.percent(60) { 0 } else { self.random.some_number() };
        let form = self.random.pick(&FORMS);
        let day = if self.random.percent(50) { self.calendar.today } else { self.calendar.edge(self.random) };
        let scenario = &mut self.scenario;
        scenario.day = day;
        let (delivering, receiving) = halves(scenario.directory(), from, to, security, quantity, amount);
        let _ = match self.random.below(8) {
            0..=3 => scenario.send(form.settle(delivering, receiving, day)),
            4 => scenario.take_out(from, security, quantity),
            5 => scenario.pay_out(from, amount),
            _ => scenario.send(form.derive(delivering, receiving, day)),
        };
        scenario.day = self.calendar.today;
    }

    /// Many CSDs that hold with one or two technical issuers each, in several securities.
    fn web(&mut self, csds: usize, securities: usize) {
        let external = self.random.below(csds / 3 + 1);
        let outside: Vec<u8> = (0..external).map(|_| self.scenario.csd(EXTERNAL)).collect();
        let inside: Vec<u8> = (external..csds).map(|_| self.scenario.csd(IN_T2S)).collect();
        let securities: Vec<u8> = (0..securities).map(|_| self.scenario.security()).collect();
        let everywhere = [inside.clone(), inside.clone(), outside].concat();
        let holds_with: Vec<[u8; 2]> =
            inside.iter().map(|_| [self.random.pick(&everywhere), self.random.pick(&inside)]).collect();
        for &security in &securities {
            let (mut issuers, mut defaults, mut alternatives) = (Vec::new(), Vec::new(), Vec::new());
            for (&csd, &[one, other]) in inside.iter().zip(&holds_with) {
                match self.random.below(10) {
                    0 | 1 => issuers.push(csd),
                    2 => {}
                    3..=5 => defaults.push((csd, other)),
                    _ => {
                        defaults.push((csd, one));
                        alternatives.push((csd, other));
                    }
                }
            }
            self.enter(security, &issuers, &defaults, &alternatives);
        }
        let ends = [self.random.pick(&inside), self.random.pick(&inside)];
        self.trade(&securities, &inside, ends);
    }

    /// Every table filled, and one more row tried in each.
    fn full_tables(&mut self) {
        self.web(10, 5);
        for _ in self.scenario.directory().csds.count..=CSDS {
            self.scenario.csd(IN_T2S);
        }
        for _ in self.scenario.directory().securities.count..=SECURITIES {
            self.scenario.security();
        }
        self.fill_pairs();
        for security in 5..16 {
            for csd in 0..12 {
                self.scenario.link(security, 31 - csd, 30 - csd, DEFAULT);
            }
        }
        for _ in self.scenario.directory().accounts.count..=ACCOUNTS {
            let csd = self.random.below(CSDS) as u8;
            self.scenario.account(csd, self.random.below(5) as u8);
        }
        for _ in 0..60 {
            self.disturb();
            let command = commands::command(self.random, self.scenario.directory());
            let _ = self.scenario.send(command);
        }
    }

    /// Pair rows of a few CSDs with many participants, which hold with all others.
    fn fill_pairs(&mut self) {
        let investors = [28, 29, 30];
        let accounts: Vec<u16> =
            investors.iter().flat_map(|&csd| [csd; 12]).map(|csd| self.scenario.account(csd, PARTICIPANT)).collect();
        for technical in 0..28 {
            for &account in &accounts {
                if self.scenario.directory().pairs.is_full() {
                    self.scenario.serve(account, 31, 0);
                    return;
                }
                self.scenario.serve(account, technical, 0);
            }
        }
    }

    /// One CSD that holds outside and with several others, and quantities that add up beyond the bound,
    /// also on its inter-CSD account.
    fn around_the_bound(&mut self) {
        let security = self.scenario.security();
        let hub = self.scenario.csd(IN_T2S);
        let others: Vec<u8> = (0..self.random.between(2, 4)).map(|_| self.scenario.csd(IN_T2S)).collect();
        let outside: Vec<u8> = (0..2).map(|_| self.scenario.csd(EXTERNAL)).collect();
        let (issuers, holders) = others.split_at(self.random.below(others.len() + 1));
        let mut defaults = vec![(hub, outside[0])];
        defaults.extend(holders.iter().map(|&csd| (csd, self.random.pick(&outside))));
        let alternatives: Vec<(u8, u8)> = others.iter().map(|&csd| (hub, csd)).collect();
        self.enter(security, issuers, &defaults, &alternatives);
        let own = self.scenario.participant(hub);
        for &csd in &others {
            let account = self.scenario.participant(csd);
            let near = self.random.pick(&[BOUND, BOUND, BOUND - 1, BOUND / 2 + 1]);
            let _ = self.scenario.bring_in(account, security, near);
            let _ = self.scenario.pay_in(account, near);
            self.disturb();
            let amount = self.random.pick(&[0, 1, BOUND / 2 + 1]);
            let _ = self.scenario.settle(account, own, security, near, amount);
            let _ = self.scenario.pay_in(own, near);
            if self.random.percent(70) {
                let _ = self.scenario.take_out(own, security, near);
            }
        }
        for _ in 0..self.random.between(4, 16) {
            let accounts: Vec<u16> = others.iter().map(|&csd| self.scenario.participant(csd)).chain([own]).collect();
            self.instruct(&[security], &accounts);
            self.disturb();
        }
    }

    /// A few CSDs whose links touch, overlap and leave out days of one another, and what is then traded on these days.
    fn links_in_time(&mut self) {
        let security = self.scenario.security();
        let csds: Vec<u8> = (0..self.random.between(2, 5)).map(|_| self.scenario.csd(IN_T2S)).collect();
        if self.random.percent(60) {
            self.scenario.csd(EXTERNAL);
        }
        for &csd in &csds {
            self.scenario.account(csd, ISSUANCE);
            self.scenario.account(csd, ISSUANCE);
            let technical = Some(self.random.pick(&csds)).filter(|&other| other != csd);
            self.enter_in_time(security, csd, technical);
        }
        for _ in 0..self.random.between(20, 60) {
            let command = commands::link(self.random, self.scenario.directory());
            let _ = self.scenario.send(command);
        }
        let links = self.scenario.directory().links.entered().unwrap_or_default();
        let hops: BTreeSet<(u8, u8)> =
            links.iter().filter(|link| link.kind == INVESTOR).map(|link| (link.csd, link.technical)).collect();
        let participants: Vec<u16> = csds.iter().map(|&csd| self.scenario.participant(csd)).collect();
        self.scenario.serve_along(&participants, &Vec::from_iter(hops), |_| Some(0));
        for _ in 0..self.random.between(10, 60) {
            let command = commands::command(self.random, self.scenario.directory());
            let _ = self.scenario.send(command);
        }
    }

    /// Two CSDs whose default walks do not meet and that reach each other both ways: by an alternative from day 0, by
    /// another to the last day, and by both on the days between. What is settled on the days of one alone comes to
    /// stand on the omnibus accounts that its walk draws on.
    fn both_ways(&mut self) {
        let security = self.scenario.security();
        let sides = [self.own_side(security), self.own_side(security)];
        let ends = [sides[0][0], sides[1][0]];
        let first = self.random.between(1, usize::from(Day::MAX) - 3) as Day;
        let between = Period::new(first, first + self.random.below(3) as Day);
        let mut hops = [hops_of(&sides[0]), hops_of(&sides[1])].concat();
        let days = [Period::new(0, between.last), Period::new(between.first, Day::MAX)];
        for (place, days) in days.into_iter().enumerate() {
            let investors = &sides[place][..sides[place].len() - 1];
            let alternative = (self.random.pick(investors), ends[1 - place]);
            self.scenario.days = days;
            self.scenario.link(security, alternative.0, alternative.1, ALTERNATIVE);
            hops.push(alternative);
        }
        self.scenario.days = Period::ALWAYS;
        let csds: Vec<u8> = sides.concat().into_iter().filter(|&csd| !self.scenario.is_external(csd)).collect();
        let participants: Vec<u16> = csds.iter().map(|&csd| self.scenario.participant(csd)).collect();
        self.scenario.serve_along(&participants, &hops, |_| Some(0));
        let ends = ends.map(|csd| self.scenario.participant(csd));
        for &account in &participants {
            let _ = self.scenario.bring_in(account, security, 1_000);
            for end in ends {
                let _ = self.scenario.settle(account, end, security, 400, 0);
            }
        }
        for (day, from, to) in [(0, ends[1], ends[0]), (Day::MAX, ends[0], ends[1])] {
            self.scenario.day = day;
            let quantity = self.random.between(1, 200) as i64;
            let _ = self.scenario.settle(from, to, security, quantity, 0);
        }
        self.trade_both_ways(security, ends, between);
    }

    /// A side of its own to an issuer or outside, by default links. Every CSD but the last is an investor.
    fn own_side(&mut self, security: u8) -> Vec<u8> {
        let mut side: Vec<u8> = (0..self.random.between(1, 3)).map(|_| self.scenario.csd(IN_T2S)).collect();
        let end = if self.random.percent(50) {
            let issuer = self.scenario.csd(IN_T2S);
            self.scenario.issuer(security, issuer);
            issuer
        } else {
            self.external(security, &side)
        };
        side.push(end);
        for (csd, technical) in hops_of(&side) {
            self.scenario.link(security, csd, technical, DEFAULT);
        }
        side
    }

    /// Settles between two accounts, and two others of their CSDs that have no rows, on the days on which both reach.
    fn trade_both_ways(&mut self, security: u8, ends: [u16; 2], days: Period) {
        let seconds = ends.map(|end| self.scenario.account(self.scenario.csd_of(end), PARTICIPANT));
        let accounts = [ends, ends, seconds].concat();
        for &account in &accounts {
            let _ = self.scenario.pay_in(account, 100);
        }
        for _ in 0..self.random.between(8, 16) {
            self.disturb();
            let (from, to) = (self.random.pick(&accounts), self.random.pick(&accounts));
            let most = self.random.pick(&[9, 99, 400]);
            let (quantity, amount) = (self.random.between(1, most) as i64, self.random.pick(&[0, 0, 1, 9]));
            let (delivering, receiving) = halves(self.scenario.directory(), from, to, security, quantity, amount);
            let (form, day) = (self.random.pick(&FORMS), self.random.pick(&[days.first, days.last]));
            let _ = self.scenario.send(form.settle(delivering, receiving, day));
        }
    }

    /// Commands drawn one by one, on a small directory or none.
    fn commands_at_random(&mut self) {
        if self.random.percent(70) {
            self.noise = 0;
            let csds = self.random.between(3, 6);
            self.web(csds, 2);
            open_accounts(self.random, &mut self.scenario);
        }
        for _ in 0..self.random.between(1, 120) {
            let command = commands::command(self.random, self.scenario.directory());
            let _ = self.scenario.send(command);
        }
    }

    fn disturb(&mut self) {
        disturb(self.random, &mut self.scenario, self.noise);
    }
}

/// Sometimes a command at random between the others.
fn disturb(random: &mut Random, scenario: &mut Scenario, noise: usize) {
    if random.percent(noise) {
        let command = commands::command(random, scenario.directory());
        let _ = scenario.send(command);
    }
}

/// The default links along a side.
fn hops_of(side: &[u8]) -> Vec<(u8, u8)> {
    side.windows(2).map(|hop| (hop[0], hop[1])).collect()
}
