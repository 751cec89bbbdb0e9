//! Random single calls: stores of any content, sound and unsound, with lists of right and wrong lengths
//! and numbers up to the ends of i64.

use super::commands;
use super::implementation::{Call, Store};
use super::random::Random;
use super::streams;
use crate::booking::{Cents, Units, BOUND};
use crate::chain::Step;
use crate::command::Command;
use crate::directory::*;

/// A store that a stream leaves, then mostly changed: junk behind the counts, numbers from anywhere,
/// lists of other lengths, and often a directory that is no longer sound.
pub fn store(random: &mut Random) -> Store {
    let mut scenario = streams::scenario(random);
    streams::open_accounts(random, &mut scenario);
    let mut store = Store {
        directory: scenario.directory().clone(),
        positions: scenario.session.positions().to_vec(),
        cash: scenario.session.cash().to_vec(),
        steps: Vec::new(),
    };
    if random.percent(50) {
        drop_pairs(random, &mut store.directory.pairs);
    }
    if random.percent(60) {
        scatter_junk(random, &mut store.directory);
    }
    if random.percent(50) {
        store.positions.fill(Units(random.pick(&[BOUND, BOUND / 2, 1_000])));
        store.cash.fill(Cents(random.pick(&[BOUND, BOUND / 2, 1_000])));
    }
    if random.percent(50) {
        scatter_numbers(random, &mut store);
    }
    if random.percent(35) {
        for _ in 0..random.between(1, 2) {
            upset(random, &mut store.directory);
        }
    }
    if random.percent(5) {
        let length = random.pick(&[0, 1, 4095, 4097, 5000]);
        store.positions.resize(length, Units(0));
    }
    if random.percent(5) {
        let length = random.pick(&[0, 1, 255, 257, 4096]);
        store.cash.resize(length, Cents(0));
    }
    store
}

/// A call over a store, and the step list that it is lent.
pub fn call(random: &mut Random, store: &Store) -> (Call, Vec<Step>) {
    let call = match random.below(12) {
        0 => Call::Total { security: random.pick(&[0, 0, 1, 2, 15, 16, 0xFF]) },
        1 => Call::CashTotal,
        _ => Call::Command(commands::command(random, &store.directory)),
    };
    (call, steps(random))
}

/// A lent step list of any length and content.
pub fn steps(random: &mut Random) -> Vec<Step> {
    if random.percent(5) {
        let length = random.pick(&[0, 1, 15]);
        return steps_of(length, random);
    }
    enough_steps(random)
}

/// A lent step list of any content that is long enough.
pub fn enough_steps(random: &mut Random) -> Vec<Step> {
    let length = random.pick(&[16, 16, 16, 17, 20, 300]);
    steps_of(length, random)
}

fn steps_of(length: usize, random: &mut Random) -> Vec<Step> {
    let mut step = || Step { csd: random.byte(), debit: random.bits() as u16, credit: random.bits() as u16 };
    let one = step();
    let mut list = vec![one; length];
    for place in list.iter_mut().take(16) {
        *place = step();
    }
    list
}

/// Takes out a pair row, or all of its two CSDs. What is left is sound as before.
fn drop_pairs(random: &mut Random, pairs: &mut Table<Pair, PAIRS>) {
    let mut rows = pairs.entered().unwrap_or_default().to_vec();
    let outside: Vec<Pair> = rows.iter().filter(|row| row.technical_account == NO_ACCOUNT).copied().collect();
    let from = if outside.is_empty() || random.percent(30) { &rows } else { &outside };
    if from.is_empty() {
        return;
    }
    let (dropped, all) = (random.pick(from), random.percent(40));
    let same = |row: &Pair| [row.investor, row.technical] == [dropped.investor, dropped.technical];
    rows.retain(|row| if all { !same(row) } else { *row != dropped });
    pairs.count = rows.len();
    pairs.rows[..rows.len()].copy_from_slice(&rows);
}

/// Rows behind the counts are never judged.
fn scatter_junk(random: &mut Random, directory: &mut Directory) {
    let Directory { csds, securities, accounts, pairs, links } = directory;
    for row in &mut csds.rows[csds.count..] {
        *row = Csd { kind: random.byte(), bic: std::array::from_fn(|_| random.byte()) };
    }
    for row in &mut securities.rows[securities.count..] {
        *row = Security { isin: std::array::from_fn(|_| random.byte()) };
    }
    for row in &mut accounts.rows[accounts.count..] {
        *row = Account { csd: random.byte() % 4, kind: random.byte() % 4 };
    }
    for row in &mut pairs.rows[pairs.count..] {
        let [investor, technical, one, other, served] = random.bits().to_be_bytes()[..5].try_into().unwrap();
        let (investor_account, technical_account) = (one.into(), other.into());
        *row = Pair { investor, technical, investor_account, technical_account, served: served.into() };
    }
    for row in &mut links.rows[links.count..] {
        let [csd, technical, account, days @ ..]: [u8; 7] = random.bits().to_be_bytes()[..7].try_into().unwrap();
        let (security, kind, flag) = (csd % 3, technical % 3, account % 3);
        let [first, last] = [[days[0], days[1]], [days[2], days[3]]].map(Day::from_be_bytes);
        let (csd, technical, account) = (csd % 32, technical % 32, account.into());
        *row = Link { security, kind, csd, technical, flag, account, days: Period { first, last } };
    }
}

fn scatter_numbers(random: &mut Random, store: &mut Store) {
    for _ in 0..random.pick(&[1, 4, 40, 400]) {
        let rows = store.directory.accounts.count.clamp(1, ACCOUNTS);
        let account = random.below(rows);
        let security = random.below(SECURITIES.min(3));
        store.positions[account * SECURITIES + security] = Units(random.any_number());
        store.cash[account] = Cents(random.any_number());
    }
    if random.percent(20) {
        store.positions[random.below(ACCOUNTS * SECURITIES)] = Units(random.any_number());
        store.cash[random.below(ACCOUNTS)] = Cents(random.any_number());
    }
}

/// Changes a count or a row, or adds one unjudged, mostly so that the directory is no longer sound.
fn upset(random: &mut Random, directory: &mut Directory) {
    let entry = commands::entry(random, directory);
    let Directory { csds, securities, accounts, pairs, links } = directory;
    match entry {
        Command::EnterCsd(row) => upset_table(random, csds, row, Command::EnterCsd),
        Command::EnterSecurity(row) => upset_table(random, securities, row, Command::EnterSecurity),
        Command::EnterAccount(row) => upset_table(random, accounts, row, Command::EnterAccount),
        Command::EnterPair(row) => upset_table(random, pairs, row, Command::EnterPair),
        Command::EnterLink(row) => upset_table(random, links, row, Command::EnterLink),
        _ => {}
    }
}

fn upset_table<Row: Copy + TryFrom<Command>, const LIMIT: usize>(
    random: &mut Random,
    table: &mut Table<Row, LIMIT>,
    new: Row,
    command: fn(Row) -> Command,
) {
    let count = table.count.min(LIMIT);
    let choice = if count == 0 { random.below(4) } else { random.below(10) };
    let (one, other) = if count == 0 { (0, 0) } else { (random.below(count), random.below(count)) };
    match choice {
        0 => {
            let counts = [0, count.saturating_sub(1), (count + 1).min(LIMIT), LIMIT, LIMIT + 1, 1 << 32, usize::MAX];
            table.count = random.pick(&counts);
        }
        1..=3 if count < LIMIT => {
            table.rows[count] = new;
            table.count = count + 1;
        }
        4 => table.rows.swap(one, other),
        5 => table.rows[one] = table.rows[other],
        6 => table.rows[one] = new,
        _ => {
            let damaged = commands::damaged(random, command(table.rows[one]));
            table.rows[one] = Row::try_from(damaged).unwrap_or(new);
        }
    }
}

/// Rows out of entries, for damage done to them as bytes.
macro_rules! row_of_command {
    ($row:ident, $command:ident) => {
        impl TryFrom<Command> for $row {
            type Error = ();

            fn try_from(command: Command) -> Result<$row, ()> {
                match command {
                    Command::$command(row) => Ok(row),
                    _ => Err(()),
                }
            }
        }
    };
}

row_of_command!(Csd, EnterCsd);
row_of_command!(Security, EnterSecurity);
row_of_command!(Account, EnterAccount);
row_of_command!(Pair, EnterPair);
row_of_command!(Link, EnterLink);
