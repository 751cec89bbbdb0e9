//! Counters of what random inputs reached, and the tables of what the documents let occur.

use std::collections::BTreeMap;
use std::fmt::{self, Debug, Display, Formatter};
use std::ops::RangeInclusive;

use super::climbs::{all_hops, HopWay, Source, Turn, SOURCES, TURNS};
use super::implementation::{Answer, Call};
use super::literal::{day_of, in_order, ChainKind, Rows};
use super::taking_back::{self, TakenBack};
use super::{days, linking, pairing};
use crate::command::Command;
use crate::directory::{Bic, Csd};

/// A command's byte and name with the refusals that it can give in a stream, and those that it can give as a
/// single call besides. Over a store reached from empty a pay-out never ends beyond the bound.
pub const COMMANDS: [(u8, &str, &[u8], &[u8]); 13] = [
    (0x01, "enter CSD", &[2, 5, 7, 9], &[4]),
    (0x02, "enter security", &[2, 5, 7, 8, 9], &[4]),
    (0x03, "enter account", &[2, 5, 6, 7, 10], &[4]),
    (0x05, "enter link", &[2, 5, 6, 7, 9, 10, 24, 11], &[4]),
    (0x06, "bring in", &[2, 6, 7, 10, 19, 22], &[3, 4]),
    (0x07, "take out", &[2, 6, 7, 10, 19, 20, 22], &[3, 4]),
    (0x08, "pay in", &[2, 6, 7, 10, 22], &[3, 4]),
    (0x09, "pay out", &[2, 6, 7, 10, 21], &[3, 4, 22]),
    (0x0A, "settle", &[2, 6, 7, 10, 12, 13, 14, 15, 16, 17, 18, 20, 21, 22], &[3, 4]),
    (0x0B, "derive", &[2, 6, 7, 10, 12, 13, 14, 15, 16, 17, 18], &[3, 4]),
    (0x0C, "settle sided", &[2, 6, 7, 10, 23, 12, 13, 14, 15, 16, 17, 18, 20, 21, 22], &[3, 4]),
    (0x0D, "derive sided", &[2, 6, 7, 10, 23, 12, 13, 14, 15, 16, 17, 18], &[3, 4]),
    (0x0E, "enter pair", &[2, 5, 6, 9, 10, 11], &[4]),
];

/// How the sides of a sided command can stand, with what a call can then be answered beyond 4; 0 stands for
/// acceptance.
pub const SIDES: [(&str, &[u8]); 8] = [
    ("settle, delivering half first", &[0, 6, 7, 10, 12, 13, 14, 15, 16, 17, 18, 20, 21, 22]),
    ("settle, receiving half first", &[0, 6, 7, 10, 12, 13, 14, 15, 16, 17, 18, 20, 21, 22]),
    ("settle, the same side twice", &[6, 7, 10, 23]),
    ("settle, a byte that is no side", &[6, 7]),
    ("derive, delivering half first", &[0, 6, 7, 10, 12, 13, 14, 15, 16, 17, 18]),
    ("derive, receiving half first", &[0, 6, 7, 10, 12, 13, 14, 15, 16, 17, 18]),
    ("derive, the same side twice", &[6, 7, 10, 23]),
    ("derive, a byte that is no side", &[6, 7]),
];

/// How the BIC of a new CSD can stand to those entered, with the one answer that it then gets where the CSD is
/// neither 5 nor 7; 0 stands for acceptance.
pub const BICS: [(&str, &[u8]); 6] = [
    ("all 11 bytes entered", &[9]),
    ("another ninth byte alone", &[0]),
    ("another tenth byte alone", &[0]),
    ("another eleventh byte alone", &[0]),
    ("XXX beside another branch", &[0]),
    ("a branch beside XXX", &[0]),
];

/// How many letters a new ISIN has before its check digit, each of which becomes two digits, with what it can be
/// answered where it is neither 5 nor 7; 0 stands for acceptance.
pub const ISINS: [(&str, &[u8]); 2] =
    [("an even number of letters", &[0, 8, 9]), ("an odd number of letters", &[0, 8, 9])];

/// The flaws that make a directory unsound, by table: 5 is a count beyond the limit.
pub const FLAWS: [(&str, &[u8]); 5] = [
    ("CSDs", &[5, 7, 9]),
    ("securities", &[5, 7, 8, 9]),
    ("accounts", &[5, 6, 7, 10]),
    ("pairs", &[5, 6, 9, 10, 11]),
    ("links", &[5, 6, 7, 9, 10, 24, 11]),
];

/// The refusals of the calls that no stream can command.
pub const TOTALS: [(&str, &[u8]); 2] = [("total", &[3, 4, 6, 22]), ("cash total", &[3, 22])];

/// The commands with a day, and the refusals that a link of another day can give them.
pub const DATED: [(u8, &[u8]); 6] = [
    (0x06, &[19]),
    (0x07, &[19]),
    (0x0A, &[14, 15, 16, 17]),
    (0x0B, &[14, 15, 16, 17]),
    (0x0C, &[14, 15, 16, 17]),
    (0x0D, &[14, 15, 16, 17]),
];

/// A byte that is no command, and the one that was.
pub const UNKNOWN: &str = "unknown byte";
pub const FORMER: &str = "former byte 04";

/// The lengths that a chain of each kind can have.
pub const LENGTHS: [(ChainKind, RangeInclusive<usize>); 7] = [
    (ChainKind::OneCsd, 1..=1),
    (ChainKind::SharedInside, 2..=15),
    (ChainKind::SharedOutside, 2..=13),
    (ChainKind::DirectedFromDelivering, 2..=8),
    (ChainKind::DirectedFromReceiving, 2..=8),
    (ChainKind::TwoIssuers, 2..=16),
    (ChainKind::BothOutside, 2..=14),
];

/// What was seen, with how often.
#[derive(Default)]
pub struct Coverage {
    answers: BTreeMap<(&'static str, u8), u64>,
    sides: BTreeMap<(&'static str, u8), u64>,
    bics: BTreeMap<(&'static str, u8), u64>,
    isins: BTreeMap<(&'static str, u8), u64>,
    flaws: BTreeMap<(&'static str, u8), u64>,
    chains: BTreeMap<(&'static str, ChainKind, usize), u64>,
    pairs: BTreeMap<(&'static str, u8), u64>,
    links: BTreeMap<(&'static str, u8), u64>,
    days: BTreeMap<(&'static str, &'static str, u8), u64>,
    hops: BTreeMap<(HopWay, u8), u64>,
    turns: BTreeMap<Turn, u64>,
    sources: BTreeMap<(&'static str, (Source, u8)), u64>,
    taken_back: BTreeMap<TakenBack, u64>,
}

/// The name of a command by its byte.
pub fn command_name(code: u8) -> &'static str {
    let known = COMMANDS.iter().find(|row| row.0 == code).map(|row| row.1);
    known.unwrap_or(if code == 0x04 { FORMER } else { UNKNOWN })
}

pub fn call_name(call: &Call) -> &'static str {
    match call {
        Call::Command(command) => command_name(command.code()),
        Call::Total { .. } => TOTALS[0].0,
        Call::CashTotal => TOTALS[1].0,
    }
}

/// How the sides of a command stand, if it has any.
fn sides_name(command: &Command) -> Option<&'static str> {
    let (place, sides) = match command {
        Command::SettleSided { first, second, .. } => (0, [first.side, second.side]),
        Command::DeriveSided { first, second, .. } => (4, [first.side, second.side]),
        _ => return None,
    };
    let way = match sides {
        [0, 1] => 0,
        [1, 0] => 1,
        [0, 0] | [1, 1] => 2,
        _ => 3,
    };
    Some(SIDES[place + way].0)
}

/// How the BIC of a new CSD stands to those entered, beside each that it is near to.
fn bic_names(new: &Bic, entered: &[Csd]) -> Vec<&'static str> {
    if entered.iter().any(|row| row.bic == *new) {
        return vec![BICS[0].0];
    }
    let group = entered.iter().map(|row| row.bic).filter(|bic| bic[..8] == new[..8]);
    let near = group.flat_map(|bic| {
        let differ: Vec<usize> = (8..11).filter(|&place| bic[place] != new[place]).collect();
        let single = if let [place] = differ[..] { Some(place - 7) } else { None };
        let head = match (&new[8..], &bic[8..]) {
            (b"XXX", _) => Some(4),
            (_, b"XXX") => Some(5),
            _ => None,
        };
        [single, head]
    });
    near.flatten().map(|way| BICS[way].0).collect()
}

impl Coverage {
    /// Counts the answer to a call, over the rows that were entered before it.
    pub fn call(&mut self, call: &Call, answer: &Answer, rows: &Rows) {
        self.answer(call_name(call), answer);
        let (Call::Command(command), false) = (call, matches!(answer, Answer::Refused(3..=4))) else { return };
        let number = number(answer);
        if let Some(name) = sides_name(command) {
            *self.sides.entry((name, number)).or_default() += 1;
        }
        match (command, number) {
            (Command::EnterCsd(new), 0 | 9) => {
                for name in bic_names(&new.bic, &rows.csds) {
                    *self.bics.entry((name, number)).or_default() += 1;
                }
            }
            (Command::EnterSecurity(new), 0 | 8 | 9) => {
                let letters = new.isin[..11].iter().filter(|byte| byte.is_ascii_uppercase()).count();
                *self.isins.entry((ISINS[letters % 2].0, number)).or_default() += 1;
            }
            (Command::EnterPair(new), _) => {
                let (_, ways) = pairing::due(rows, new);
                for name in ways.iter().filter(|_| number == 0 || ways.len() == 1) {
                    *self.pairs.entry((name, number)).or_default() += 1;
                }
            }
            (Command::EnterLink(new), _) => {
                let (_, ways) = linking::due(rows, new);
                for name in ways.iter().filter(|_| number == 0 || ways.len() == 1) {
                    *self.links.entry((name, number)).or_default() += 1;
                }
            }
            _ => self.instruction(command, number, rows),
        }
    }

    /// Counts how a call stands to its day, and what it found on it.
    fn instruction(&mut self, command: &Command, number: u8, rows: &Rows) {
        let (Some(day), name) = (day_of(command), command_name(command.code())) else { return };
        if matches!(number, 0 | 14..=17 | 19) {
            let ways = days::ways(rows, command, number == 0);
            let alternative = days::alternative_way(rows, command).filter(|_| number == 0);
            for way in ways.into_iter().chain(alternative) {
                *self.days.entry((name, way, number)).or_default() += 1;
            }
        }
        match (command, number) {
            (Command::BringIn { account, security, .. } | Command::TakeOut { account, security, .. }, 0 | 19) => {
                if let Some(source) = rows.on(day).source_way(*security, *account) {
                    *self.sources.entry((name, (source, number))).or_default() += 1;
                }
            }
            (_, 0 | 18) => self.climbs(command, number, &rows.on(day)),
            _ => {}
        }
    }

    /// Counts how the rows of a chain were found, or which one was not.
    fn climbs(&mut self, command: &Command, number: u8, rows: &Rows) {
        let Some((delivering, receiving)) = in_order(command) else { return };
        let (security, d, r) = (delivering.security, delivering.account, receiving.account);
        for hop in rows.hops(security, d, r) {
            *self.hops.entry((hop, number)).or_default() += 1;
        }
        if let (0, Some(turn)) = (number, rows.turn(security, d, r)) {
            *self.turns.entry(turn).or_default() += 1;
        }
    }

    /// Counts an answer by the name of what was called.
    pub fn answer(&mut self, name: &'static str, answer: &Answer) {
        *self.answers.entry((name, number(answer))).or_default() += 1;
    }

    /// Counts the flaw of a directory that was found unsound.
    pub fn flaw(&mut self, table: &'static str, number: u8) {
        *self.flaws.entry((table, number)).or_default() += 1;
    }

    pub fn chain(&mut self, command: &Command, kind: ChainKind, length: usize) {
        let name = sides_name(command).unwrap_or(command_name(command.code()));
        *self.chains.entry((name, kind, length)).or_default() += 1;
    }

    /// Counts a booked pair that was taken back.
    pub fn taken_back(&mut self, taken_back: TakenBack) {
        *self.taken_back.entry(taken_back).or_default() += 1;
    }

    pub fn answers(&self) -> u64 {
        self.answers.values().sum()
    }

    /// What streams must have reached and have not, or have reached and must not.
    pub fn of_streams(&self) -> Vec<String> {
        let expected = COMMANDS.iter().flat_map(|&(_, name, refusals, _)| numbered(name, &[refusals, &[0]].concat()));
        let wrong = compare(&self.answers, expected.chain([(UNKNOWN, 1), (FORMER, 1)]).collect());
        let taken_back = compare(&self.taken_back, taking_back::all_ways());
        let chains = self.chains_missing();
        [wrong, self.sides_missing(), self.names_missing(), self.rows_missing(), chains, taken_back].concat()
    }

    /// The same for single calls.
    pub fn of_calls(&self) -> Vec<String> {
        let commands = COMMANDS.iter().flat_map(|&(_, name, refusals, besides)| {
            let refusals: Vec<u8> = refusals.iter().copied().filter(|&number| number > 2).collect();
            numbered(name, &[&refusals, besides, &[0]].concat())
        });
        let totals = TOTALS.iter().flat_map(|&(name, refusals)| numbered(name, &[refusals, &[0]].concat()));
        let flaws = FLAWS.iter().flat_map(|&(table, numbers)| numbered(table, numbers));
        let wrong = compare(&self.answers, commands.chain(totals).collect());
        let flaws = compare(&self.flaws, flaws.collect());
        [wrong, self.sides_missing(), self.names_missing(), self.rows_missing(), flaws].concat()
    }

    fn sides_missing(&self) -> Vec<String> {
        compare(&self.sides, SIDES.iter().flat_map(|&(name, numbers)| numbered(name, numbers)).collect())
    }

    /// BICs and ISINs.
    fn names_missing(&self) -> Vec<String> {
        [
            compare(&self.bics, BICS.iter().flat_map(|&(name, numbers)| numbered(name, numbers)).collect()),
            compare(&self.isins, ISINS.iter().flat_map(|&(name, numbers)| numbered(name, numbers)).collect()),
        ]
        .concat()
    }

    /// Pair rows and links: each way in which one can be answered, and each way in which one is found.
    fn rows_missing(&self) -> Vec<String> {
        let hops = all_hops().into_iter().map(|hop| (hop, if hop.3.is_missing() { 18 } else { 0 }));
        let moves = [0x06, 0x07].map(command_name);
        let sources = moves.iter().flat_map(|&name| SOURCES.map(|source| (name, source)));
        [
            compare(&self.pairs, pairing::all_ways()),
            compare(&self.links, linking::all_ways()),
            compare(&self.days, all_days()),
            compare(&self.hops, hops.collect()),
            compare(&self.turns, TURNS.to_vec()),
            compare(&self.sources, sources.collect()),
        ]
        .concat()
    }

    fn chains_missing(&self) -> Vec<String> {
        let sided = SIDES.iter().filter(|(_, numbers)| numbers.contains(&0)).map(|&(name, _)| name);
        let names: Vec<_> = [command_name(0x0A), command_name(0x0B)].into_iter().chain(sided).collect();
        let possible = LENGTHS.iter().flat_map(|(kind, lengths)| lengths.clone().map(|length| (*kind, length)));
        let possible: Vec<_> =
            names.iter().flat_map(|&name| possible.clone().map(move |(k, n)| (name, k, n))).collect();
        compare(&self.chains, possible)
    }
}

/// The number of a refusal, or 0 for acceptance.
fn number(answer: &Answer) -> u8 {
    if let Answer::Refused(number) = answer {
        *number
    } else {
        0
    }
}

/// Every way in which a command can stand to its day.
pub fn all_days() -> Vec<(&'static str, &'static str, u8)> {
    let mut all = Vec::new();
    for (code, refusals) in DATED {
        let name = command_name(code);
        all.extend(days::ACCEPTED.map(|way| (name, way, 0)));
        if !refusals.contains(&19) {
            all.extend(days::ALTERNATIVES.map(|way| (name, way, 0)));
        }
        for &number in refusals {
            all.extend(days::REFUSED.map(|way| (name, way, number)));
        }
    }
    all
}

/// What is missing of the expected, and what is seen besides.
fn compare<Key: Ord + Debug>(seen: &BTreeMap<Key, u64>, expected: Vec<Key>) -> Vec<String> {
    let missing = expected.iter().filter(|key| !seen.contains_key(*key));
    let missing = missing.map(|key| format!("{key:?} never seen"));
    let strange = seen.keys().filter(|key| !expected.contains(key));
    let strange = strange.map(|key| format!("{key:?} seen, though it cannot occur"));
    missing.chain(strange).collect()
}

fn numbered(name: &'static str, numbers: &[u8]) -> Vec<(&'static str, u8)> {
    numbers.iter().map(|&number| (name, number)).collect()
}

impl Display for Coverage {
    fn fmt(&self, formatter: &mut Formatter) -> fmt::Result {
        let answered = |number: u8| if number == 0 { "accepted".into() } else { format!("no {number}") };
        let named = self.answers.iter().chain(&self.sides).chain(&self.bics).chain(&self.isins);
        for ((name, number), times) in named.chain(&self.pairs).chain(&self.links) {
            writeln!(formatter, "{name:60} {:9} {times:9}", answered(*number))?;
        }
        for ((name, way, number), times) in &self.days {
            writeln!(formatter, "{:60} {:9} {times:9}", format!("{name}, {way}"), answered(*number))?;
        }
        for ((hop, number), times) in &self.hops {
            writeln!(formatter, "{hop:?} {number}: {times}")?;
        }
        for (turn, times) in &self.turns {
            writeln!(formatter, "{turn:?}: {times}")?;
        }
        for ((name, source), times) in &self.sources {
            writeln!(formatter, "{name}, {source:?}: {times}")?;
        }
        for ((table, number), times) in &self.flaws {
            writeln!(formatter, "unsound by {table}: {number:3} {times:9}")?;
        }
        for ((name, kind, length), times) in &self.chains {
            writeln!(formatter, "{name:30} {kind:?} of {length}: {times}")?;
        }
        for ((way, way_back, form, payment), times) in &self.taken_back {
            writeln!(formatter, "taken back, {way:?}, {way_back:?}, {form:?}, {payment:?}: {times}")?;
        }
        Ok(())
    }
}
