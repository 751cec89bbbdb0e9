//! Streams as long as the program takes, full of settlements or of other commands, for measuring and as vectors.

use super::commands;
use super::forms::{Form, FORMS};
use super::random::Random;
use super::scenario::{halves, Scenario};
use crate::booking::{Cents, Half};
use crate::command::Command;
use crate::directory::*;
use crate::transcript::INPUT_LIMIT;

const SETTLE_BYTES: usize = 43;
const ACCOUNT_BYTES: usize = 3;

/// The periods in which the links of a full market follow one another, and the days on which it settles.
const PERIODS: [Period; 3] =
    [Period { first: 0, last: 999 }, Period { first: 1_000, last: 1_999 }, Period { first: 2_000, last: Day::MAX }];
const DAYS: [Day; 8] = [0, 500, 999, 1_000, 1_999, 2_000, 2_500, Day::MAX];

/// The links of a full market: those of two issuers and fourteen hops in each period, and an alternative for each hop.
const MARKET_LINKS: usize = 16 * PERIODS.len() + 14;

/// Two walks of eight CSDs to an issuer each, every participant holding: chains of 1 to 16 steps.
pub struct Market {
    pub scenario: Scenario,
    pub security: u8,
    /// The participants of each CSD of a walk.
    delivering: Vec<Vec<u16>>,
    receiving: Vec<Vec<u16>>,
    neighbour: u16,
}

/// A command over two halves and a day, in a form.
type Instruct = fn(Form, Half, Half, Day) -> Command;

/// How many participants a CSD of the market has, and through how many omnibus accounts it holds for them.
#[derive(Clone, Copy)]
struct Holders {
    participants: usize,
    duos: usize,
}

impl Market {
    /// With the two walks and one participant each, or with many participants, who share the accounts of their CSD, and
    /// every table full of other rows besides.
    pub fn new(full: bool) -> Market {
        let mut scenario = Scenario::default();
        let sides: [Vec<u8>; 2] = std::array::from_fn(|_| (0..8).map(|_| scenario.csd(IN_T2S)).collect());
        let security = scenario.security();
        if full {
            fill_links(&mut scenario);
        }
        let holders = if full { Holders { participants: 8, duos: 2 } } else { Holders { participants: 1, duos: 1 } };
        let periods = if full { &PERIODS[..] } else { &[Period::ALWAYS] };
        let [delivering, receiving] = sides.each_ref().map(|side| {
            enter_links(&mut scenario, security, side, periods);
            side_of_market(&mut scenario, security, side, holders)
        });
        let neighbour = scenario.account(0, PARTICIPANT);
        let _ = scenario.settle(delivering[0][0], neighbour, security, 1_000, 0);
        if full {
            fill_pairs_and_accounts(&mut scenario, &sides.concat());
        }
        Market { scenario, security, delivering, receiving, neighbour }
    }

    /// Two participants with a chain of so many steps between them.
    pub fn trade(&self, steps: usize) -> (u16, u16) {
        self.trade_in_turn(steps, 0)
    }

    /// The same, with the participants of both CSDs taken in turn.
    fn trade_in_turn(&self, steps: usize, turn: usize) -> (u16, u16) {
        let participants = self.delivering[0].len();
        let (one, other) = (turn % participants, turn / participants % participants);
        if steps == 1 {
            return (self.delivering[0][one], self.neighbour);
        }
        let near = (steps - 1).min(8);
        (self.delivering[8 - near][one], self.receiving[8 - (steps - near)][other])
    }

    /// Settles one unit there and back, over so many steps and in the form drawn, until the stream is as long as
    /// may be.
    pub fn settle_to_the_limit(self, mut draw: impl FnMut() -> (usize, Form)) -> Vec<u8> {
        self.instruct_to_the_limit(Form::settle, &mut draw)
    }

    /// The same with any command over two halves.
    fn instruct_to_the_limit(mut self, instruct: Instruct, mut draw: impl FnMut() -> (usize, Form)) -> Vec<u8> {
        let mut turn = 0;
        send_to_the_limit(std::mem::take(&mut self.scenario), |scenario| {
            let (steps, form) = draw();
            let (one, other) = self.trade_in_turn(steps, turn / 2);
            let (from, to) = if turn % 2 == 0 { (one, other) } else { (other, one) };
            let (delivering, receiving) = halves(scenario.directory(), from, to, self.security, 1, 0);
            let day = DAYS[turn / 2 % DAYS.len()];
            turn += 1;
            instruct(form, delivering, receiving, day)
        })
    }
}

/// Sends the commands drawn until the stream is as long as may be.
fn send_to_the_limit(mut scenario: Scenario, mut draw: impl FnMut(&Scenario) -> Command) -> Vec<u8> {
    loop {
        let length = scenario.bytes.len();
        let command = draw(&scenario);
        let _ = scenario.send(command);
        if scenario.bytes.len() > INPUT_LIMIT {
            scenario.bytes.truncate(length);
            return scenario.bytes;
        }
    }
}

/// A stream of settlements of one chain length.
pub fn settlements(steps: usize, full: bool) -> Vec<u8> {
    Market::new(full).settle_to_the_limit(|| (steps, Form::ByPlace))
}

/// A stream of sided settlements of all chain lengths in turn over full tables, either half first.
pub fn sided() -> Vec<u8> {
    let mut random = Random::new(16);
    Market::new(true)
        .settle_to_the_limit(|| (random.between(1, 16), random.pick(&[Form::DeliveringFirst, Form::ReceivingFirst])))
}

/// A stream of derivations of one chain length over full tables.
pub fn derivations(steps: usize) -> Vec<u8> {
    Market::new(true).instruct_to_the_limit(Form::derive, || (steps, Form::ByPlace))
}

/// A stream of cash paid in and out on the participants of a full market, out mostly less than in.
pub fn payments() -> Vec<u8> {
    let mut random = Random::new(16);
    let Market { scenario, delivering, receiving, .. } = Market::new(true);
    let participants = [delivering.concat(), receiving.concat()].concat();
    send_to_the_limit(scenario, |_| {
        let account = random.pick(&participants);
        match random.below(2) {
            0 => Command::PayIn { account, amount: Cents(random.between(1, 2_000) as i64) },
            _ => Command::PayOut { account, amount: Cents(random.between(1, 1_000) as i64) },
        }
    })
}

/// A stream of entries. Tables fill as the stream does; between the rows that fill them stand others that are refused,
/// most of them nearly right.
pub fn entries() -> Vec<u8> {
    let mut random = Random::new(16);
    send_to_the_limit(Scenario::default(), |scenario| loop {
        let command = commands::entry(&mut random, scenario.directory());
        if is_due(&command, scenario) || scenario.session.clone().execute(&command).is_err() {
            return command;
        }
    })
}

/// Whether the table of a row is no fuller than the stream.
fn is_due(row: &Command, scenario: &Scenario) -> bool {
    let Directory { csds, securities, accounts, pairs, links } = scenario.directory();
    let (count, limit) = match row {
        Command::EnterCsd(_) => (csds.count, CSDS),
        Command::EnterSecurity(_) => (securities.count, SECURITIES),
        Command::EnterAccount(_) => (accounts.count, ACCOUNTS),
        Command::EnterPair(_) => (pairs.count, PAIRS),
        _ => (links.count, LINKS),
    };
    count * INPUT_LIMIT <= scenario.bytes.len() * limit
}

/// A stream of all commands over a small market that grows: one in two is drawn from all, right and wrong, the others
/// settle and derive chains of all lengths in each form.
pub fn all_commands() -> Vec<u8> {
    let mut random = Random::new(16);
    let mut market = Market::new(false);
    send_to_the_limit(std::mem::take(&mut market.scenario), |scenario| {
        if random.percent(50) {
            return commands::command(&mut random, scenario.directory());
        }
        let (from, to) = market.trade(random.between(1, 16));
        let (delivering, receiving) = halves(scenario.directory(), from, to, market.security, 1, 0);
        let instruct: Instruct = random.pick(&[Form::settle, Form::settle, Form::settle, Form::derive]);
        instruct(random.pick(&FORMS), delivering, receiving, random.pick(&DAYS))
    })
}

/// A stream of settlements of all chain lengths in turn over full tables, of exactly the limit.
pub fn mixed() -> Vec<u8> {
    let mut random = Random::new(16);
    let mut bytes = Market::new(true).settle_to_the_limit(|| (random.between(1, 16), Form::ByPlace));
    while !(INPUT_LIMIT - bytes.len()).is_multiple_of(ACCOUNT_BYTES) {
        bytes.truncate(bytes.len() - SETTLE_BYTES);
    }
    while bytes.len() + ACCOUNT_BYTES <= INPUT_LIMIT {
        bytes.extend([0x03, 0, PARTICIPANT]);
    }
    bytes
}

/// Links from the start of a side to its issuer in each period. Where there are several, each hop has an alternative in
/// the last one, which no chain takes.
fn enter_links(scenario: &mut Scenario, security: u8, side: &[u8], periods: &[Period]) {
    for &days in periods {
        scenario.days = days;
        scenario.issuer(security, side[7]);
        for hop in side.windows(2) {
            scenario.link(security, hop[0], hop[1], DEFAULT);
        }
    }
    if periods.len() > 1 {
        for &csd in &side[..7] {
            scenario.link(security, csd, 16, ALTERNATIVE);
        }
    }
    scenario.days = Period::ALWAYS;
}

/// Participants and pair rows from the start of a side to its issuer, and holdings for all. The participants of
/// a CSD are served by its omnibus accounts in turn, and each of these by one of the next.
fn side_of_market(scenario: &mut Scenario, security: u8, side: &[u8], holders: Holders) -> Vec<Vec<u16>> {
    let accounts: Vec<Vec<u16>> = (0..8)
        .map(|place| {
            let accounts = (0..holders.participants).map(|number| {
                let account = scenario.account(side[place], PARTICIPANT);
                scenario.climb(account, &side[place..], number % holders.duos);
                account
            });
            accounts.collect()
        })
        .collect();
    let source = accounts[7][0];
    let _ = scenario.bring_in(source, security, 1_000_000);
    for &account in accounts.iter().flatten().filter(|&&account| account != source) {
        let _ = scenario.settle(source, account, security, 10_000, 0);
    }
    accounts
}

/// Sixteen more CSDs, half of them external, and fifteen securities, with links until these and the links of the market
/// fill the table.
fn fill_links(scenario: &mut Scenario) {
    for csd in 16..CSDS {
        scenario.csd(if csd < 24 { IN_T2S } else { EXTERNAL });
    }
    for security in 1..SECURITIES as u8 {
        scenario.security();
        for (csd, days) in (16..24).flat_map(|csd| PERIODS.map(|days| (csd, days))) {
            scenario.days = days;
            if scenario.directory().links.count < LINKS - MARKET_LINKS {
                scenario.link(security, csd, csd + 1, DEFAULT);
            }
        }
    }
    scenario.days = Period::ALWAYS;
}

/// Rows of the market's participant and omnibus accounts at one more CSD in T2S and then at external ones.
fn fill_pairs_and_accounts(scenario: &mut Scenario, investors: &[u8]) {
    for technical in [16, 24, 25] {
        for &investor in investors {
            for account in served_accounts(scenario, investor) {
                if !scenario.directory().pairs.is_full() {
                    scenario.serve(account, technical, 0);
                }
            }
        }
    }
    while !scenario.directory().accounts.is_full() {
        scenario.account(20, PARTICIPANT);
    }
}

/// The participant and omnibus accounts of a CSD.
fn served_accounts(scenario: &Scenario, csd: u8) -> Vec<u16> {
    let rows = scenario.directory().accounts.entered().unwrap_or_default();
    let fits = |row: &Account| row.csd == csd && matches!(row.kind, PARTICIPANT | OMNIBUS);
    rows.iter().zip(0..).filter(|(row, _)| fits(row)).map(|(_, number)| number).collect()
}

#[cfg(test)]
mod tests {
    use std::collections::{BTreeMap, BTreeSet};

    use super::*;
    use crate::command::Reader;
    use crate::transcript::{transcript, Done};

    #[test]
    fn trades_have_their_lengths() {
        for full in [false, true] {
            let mut market = Market::new(full);
            for (steps, turn) in (1..=16).flat_map(|steps| [0, 1, 2, 3, 4, 5, 6, 9, 63].map(|turn| (steps, turn))) {
                let (from, to) = market.trade_in_turn(steps, turn);
                market.scenario.day = DAYS[turn % DAYS.len()];
                let answer = market.scenario.settle(from, to, market.security, 1, 0);
                assert_eq!(answer, Ok(Done::Booked), "no chain of {steps} in turn {turn}");
                assert_eq!(market.scenario.session.chain().length(), steps);
            }
        }
    }

    #[test]
    fn full_tables_are_full() {
        let market = Market::new(true);
        let directory = market.scenario.directory();
        let counts = [directory.csds.count, directory.securities.count, directory.accounts.count];
        assert_eq!(counts, [CSDS, SECURITIES, ACCOUNTS]);
        assert_eq!([directory.pairs.count, directory.links.count], [PAIRS, LINKS]);
    }

    #[test]
    fn every_hop_has_a_link_in_each_period() {
        let market = Market::new(true);
        for (csd, days) in (0..16).flat_map(|csd| PERIODS.map(|days| (csd, days))) {
            let links = market.scenario.directory().links.rows.iter();
            let links: Vec<&Link> = links.filter(|row| row.security == market.security && row.csd == csd).collect();
            assert!(links.iter().any(|row| row.flag == DEFAULT && row.days == days));
            assert_eq!(links.len(), if csd % 8 == 7 { 3 } else { 4 });
        }
    }

    #[test]
    fn participants_share_two_omnibus_accounts() {
        let market = Market::new(true);
        for hop in (0..7).chain(8..15) {
            let rows = market.scenario.directory().pairs.rows.iter();
            let rows: Vec<&Pair> = rows.filter(|row| row.investor == hop && row.technical == hop + 1).collect();
            let omnibus: BTreeSet<u16> = rows.iter().map(|row| row.technical_account).collect();
            assert_eq!((rows.len(), omnibus.len()), (if hop % 8 == 0 { 8 } else { 10 }, 2));
        }
    }

    #[test]
    fn sided_settlements_are_booked_in_both_orders() {
        let bytes = sided();
        assert!(bytes.len() + 45 > INPUT_LIMIT && bytes.len() <= INPUT_LIMIT);
        assert!(!String::from_utf8(transcript(&bytes)).unwrap().contains(" no "));
        let mut reader = Reader::new(&bytes);
        let mut orders = [0; 2];
        while let Ok(command) = reader.command() {
            if let Command::SettleSided { first, .. } = command {
                orders[usize::from(first.side)] += 1;
            }
        }
        assert!(orders.iter().all(|&times| times > 400), "{orders:?}");
    }

    /// How often each answer is given, by its words behind the number.
    fn answers(bytes: &[u8]) -> BTreeMap<String, usize> {
        assert!(bytes.len() + 45 > INPUT_LIMIT && bytes.len() <= INPUT_LIMIT);
        let text = String::from_utf8(transcript(bytes)).unwrap();
        let mut answers = BTreeMap::new();
        for (_, answer) in
            text.lines().filter(|line| line.starts_with(char::is_numeric)).filter_map(|line| line.split_once(' '))
        {
            *answers.entry(answer.to_string()).or_default() += 1;
        }
        answers
    }

    #[test]
    fn derivations_have_their_length() {
        let answers = answers(&derivations(16));
        assert!(answers["chain 16"] > 1_200, "{answers:?}");
    }

    #[test]
    fn payments_are_mostly_accepted() {
        let answers = answers(&payments());
        assert!(answers["ok"] > 5_000 && answers["no 21"] > 50 && !answers.contains_key("no 10"), "{answers:?}");
    }

    #[test]
    fn entries_fill_the_tables_late() {
        let answers = answers(&entries());
        assert!(answers["ok"] > 500, "{answers:?}");
        for (refusal, least) in [(6, 300), (7, 300), (8, 100), (9, 300), (10, 300), (11, 300), (24, 20)] {
            assert!(answers[&format!("no {refusal}")] > least, "{refusal}: {answers:?}");
        }
        assert!(answers.get("no 5").is_none_or(|&times| times < 200), "{answers:?}");
    }

    #[test]
    fn all_commands_are_answered_in_many_ways() {
        let answers = answers(&all_commands());
        let with =
            |word: &str| answers.iter().filter(|(answer, _)| answer.starts_with(word)).map(|(_, times)| times).sum();
        let times: [usize; 4] = ["ok", "no", "booked", "chain"].map(with);
        assert!(times.iter().all(|&times| times > 100) && answers.len() > 30, "{times:?} {answers:?}");
    }

    #[test]
    fn mixed_is_exactly_the_limit() {
        assert_eq!(mixed().len(), INPUT_LIMIT);
    }
}
