//! The exports of the proved library by themselves, over every command byte, operands of every length and
//! buffers of any length. The answer and every buffer lent are held against the model, byte by byte.

use std::collections::BTreeMap;
use std::ops::RangeInclusive;

use checker::booking::{Cents, Units};
use checker::chain::STEPS;
use checker::command::{Command, Reader};
use checker::proved::{boundary, code, read_steps, write_steps, Bytes, MISFIT, ROOM, ROW_BYTES, STEP_BYTES};
use checker::refusal::Refusal;
use checker::trial::forms::Form;
use checker::trial::implementation::{Answer, Call, Implementation, Model, Store};
use checker::trial::random::Random;
use checker::trial::{calls, commands, streams};

/// The command bytes that an export takes.
type Tags = &'static [u8];

const ENTRIES: Tags = &[0x01, 0x02, 0x03, 0x05, 0x0E];
const MOVES: Tags = &[0x06, 0x07, 0x08, 0x09];
const SETTLE: Tags = &[0x0A];
const DERIVE: Tags = &[0x0B];
const SETTLE_SIDED: Tags = &[0x0C];
const DERIVE_SIDED: Tags = &[0x0D];

/// Up to more than the longest operands have.
const LENGTHS: RangeInclusive<usize> = 0..=45;
const STORES: usize = 8;

/// Everything that an export may be lent.
#[derive(Clone, PartialEq, Eq, Debug)]
struct Lent {
    directory: Bytes,
    positions: Vec<Units>,
    cash: Vec<Cents>,
    steps: Vec<u8>,
}

impl Lent {
    fn of(store: &Store, steps: &[u8]) -> Lent {
        let mut directory = Bytes::default();
        directory.write(&store.directory);
        Lent { directory, positions: store.positions.clone(), cash: store.cash.clone(), steps: steps.to_vec() }
    }

    /// The export that takes these bytes. Each settle and derive has its own, which is handed no byte.
    fn send(&mut self, tags: Tags, tag: u8, operands: &[u8]) -> u64 {
        let Lent { directory, positions, cash, steps } = self;
        match tags[0] {
            0x01 => boundary::enter(directory, tag, operands),
            0x06 => boundary::move_(directory, positions, cash, tag, operands),
            0x0A => boundary::settle(directory, positions, cash, operands, steps),
            0x0B => boundary::derive(directory, operands, steps),
            0x0C => boundary::settle_sided(directory, positions, cash, operands, steps),
            _ => boundary::derive_sided(directory, operands, steps),
        }
    }
}

/// The command that the bytes are to an export which takes some of the commands, or 1 or 2.
fn read(tags: Tags, tag: u8, operands: &[u8]) -> Result<Command, Refusal> {
    if !tags.contains(&tag) {
        return Err(Refusal::UnknownCommand);
    }
    Reader::new(&[&[tag], operands].concat()).command()
}

/// What the model answers, and what it leaves of everything lent.
fn expected(tags: Tags, tag: u8, operands: &[u8], store: &Store, steps: &[u8]) -> (Answer, Lent) {
    let mut left = store.clone();
    left.steps = read_steps(steps);
    let answer = match read(tags, tag, operands) {
        Ok(command) => Model.call(&mut left, &Call::Command(command)),
        Err(refusal) => Answer::Refused(refusal.number()),
    };
    let mut bytes = Vec::new();
    write_steps(&mut bytes, &left.steps);
    bytes.extend_from_slice(&steps[bytes.len()..]);
    (answer, Lent::of(&left, &bytes))
}

/// One call of an export, held against the model.
fn try_one(tags: Tags, tag: u8, operands: &[u8], store: &Store, steps: &[u8]) -> Answer {
    let (answer, due) = expected(tags, tag, operands, store, steps);
    let mut lent = Lent::of(store, steps);
    let number = lent.send(tags, tag, operands);
    let place = || format!("byte {tag:02X} to the export of {tags:02X?}, operands {operands:02X?}");
    assert_eq!(number, code(&answer), "{}: {answer:?} is due", place());
    assert!(lent == due, "{}: {answer:?}, but another buffer", place());
    answer
}

fn junk(random: &mut Random, length: usize) -> Vec<u8> {
    (0..length).map(|_| random.byte()).collect()
}

/// A buffer of any length, full of other numbers: fewer than 16 steps, as many, or more, and some bytes behind them.
fn steps(random: &mut Random) -> Vec<u8> {
    let length = random.pick(&[0, 3, 79, STEP_BYTES, STEP_BYTES, 81, 84, 85, 101, 20 * STEP_BYTES + 2]);
    junk(random, length)
}

/// A store that a stream leaves, mostly with the lists that calls are due.
fn store(random: &mut Random) -> Store {
    if random.percent(30) {
        return calls::store(random);
    }
    let scenario = streams::scenario(random);
    let (positions, cash) = (scenario.session.positions().to_vec(), scenario.session.cash().to_vec());
    Store { directory: scenario.directory().clone(), positions, cash, steps: Vec::new() }
}

/// Every byte is 1 to an export that does not take it, and every length below the width is 2 to one that does.
#[test]
fn every_byte_and_every_length() {
    let mut random = Random::new(1);
    let mut seen = [0; 3];
    for _ in 0..STORES {
        let store = store(&mut random);
        for tags in [ENTRIES, MOVES] {
            for tag in 0..=0xFF {
                for length in LENGTHS {
                    let operands = junk(&mut random, length);
                    let answer = try_one(tags, tag, &operands, &store, &[]);
                    seen[if let Answer::Refused(number @ 1..=2) = answer { usize::from(number) } else { 0 }] += 1;
                }
            }
        }
    }
    println!("{} unknown, {} cut short, {} called", seen[1], seen[2], seen[0]);
    let (others, widths) = (2 * 256 - 5 - 4, 12 + 12 + 2 + 8 + 11 + 13 + 13 + 10 + 10);
    assert_eq!(seen[1..], [STORES * others * LENGTHS.count(), STORES * widths]);
}

/// Real commands, cut at every length and with other bytes behind them, lent steps of any length.
#[test]
fn commands_of_every_length() {
    let mut random = Random::new(2);
    let mut accepted = BTreeMap::new();
    for _ in 0..400 {
        let store = store(&mut random);
        for _ in 0..8 {
            let mut bytes = Vec::new();
            commands::command(&mut random, &store.directory).write(&mut bytes);
            let tag = bytes[0];
            let exports = [ENTRIES, MOVES, SETTLE, DERIVE, SETTLE_SIDED, DERIVE_SIDED];
            let tags = exports.into_iter().find(|tags| tags.contains(&tag)).unwrap();
            let behind = junk(&mut random, 3);
            bytes.extend(behind);
            let steps = steps(&mut random);
            for length in 0..bytes.len() {
                let answer = try_one(tags, tag, &bytes[1..=length], &store, &steps);
                *accepted.entry(tag).or_insert(0) += usize::from(!matches!(answer, Answer::Refused(_)));
            }
        }
    }
    println!("accepted, by command: {accepted:?}");
    assert!(accepted.len() == 13 && accepted.values().all(|&times| times > 0), "{accepted:?}");
}

/// Counts or rows of another length are told first of all, and nothing is written.
#[test]
fn no_directory() {
    let mut random = Random::new(3);
    let store = store(&mut random);
    let whole = Lent::of(&store, &junk(&mut random, STEP_BYTES));
    for (counts, rows) in [(0, 0), (4, ROW_BYTES), (6, ROW_BYTES), (5, 0), (5, ROW_BYTES - 1), (5, ROW_BYTES + 1)] {
        let mut lent = whole.clone();
        lent.directory.counts.resize(counts, 1);
        lent.directory.rows.resize(rows, 1);
        let before = lent.clone();
        for (tags, tag) in [
            (ENTRIES, 0x01),
            (ENTRIES, 0xFF),
            (MOVES, 0x06),
            (MOVES, 0x00),
            (SETTLE, 0x0A),
            (DERIVE, 0x0B),
            (SETTLE_SIDED, 0x0C),
            (DERIVE_SIDED, 0x0D),
        ] {
            for length in [0, 42, 44] {
                assert_eq!(lent.send(tags, tag, &junk(&mut random, length)), MISFIT);
            }
        }
        assert_eq!(boundary::security_total(&lent.directory, &lent.positions, 0, &mut [0]), MISFIT);
        assert!(lent == before);
    }
    assert_eq!(boundary::security_total(&whole.directory, &whole.positions, 0, &mut []), MISFIT);
    assert_eq!(boundary::cash_total(&whole.cash, &mut []), MISFIT);
}

/// A sum goes to the first place lent for it, and a refusal leaves it.
#[test]
fn sums() {
    let mut random = Random::new(4);
    for _ in 0..400 {
        let mut store = store(&mut random);
        let lent = Lent::of(&store, &[]);
        let before = [random.any_number(), random.any_number()];
        for call in [Call::Total { security: random.byte() % 4 }, Call::CashTotal] {
            let mut sum = before;
            let number = match call {
                Call::Total { security } => {
                    boundary::security_total(&lent.directory, &lent.positions, security, &mut sum)
                }
                _ => boundary::cash_total(&lent.cash, &mut sum),
            };
            let answer = Model.call(&mut store, &call);
            assert_eq!(number, code(&answer), "{call:?}: {answer:?} is due");
            let first = if let Answer::Sum(first) = answer { first } else { before[0] };
            assert_eq!(sum, [first, before[1]], "{call:?}: {answer:?}");
        }
    }
}

/// An output without room for every text is left as it is.
#[test]
fn no_room() {
    let mut random = Random::new(5);
    let before = junk(&mut random, ROOM - 1);
    let mut output = before.clone();
    assert_eq!(boundary::run(&streams::stream(1), &mut output), 0);
    assert!(output == before);
}

/// Fewer than 16 steps are 3 whatever stands in them, and bytes that make no step count for none.
#[test]
fn steps_below_sixteen() {
    let market = checker::trial::busy::Market::new(false);
    let (from, to) = market.trade(16);
    let directory = market.scenario.directory();
    let (delivering, receiving) = checker::trial::scenario::halves(directory, from, to, market.security, 1, 0);
    let store = Store {
        directory: directory.clone(),
        positions: market.scenario.session.positions().to_vec(),
        cash: market.scenario.session.cash().to_vec(),
        steps: Vec::new(),
    };
    let mut random = Random::new(6);
    for (tags, command) in [
        (SETTLE, Form::ByPlace.settle(delivering, receiving, 0)),
        (DERIVE, Form::ByPlace.derive(delivering, receiving, 0)),
        (SETTLE_SIDED, Form::ReceivingFirst.settle(delivering, receiving, 0)),
        (DERIVE_SIDED, Form::ReceivingFirst.derive(delivering, receiving, 0)),
    ] {
        let mut bytes = Vec::new();
        command.write(&mut bytes);
        for length in 0..=2 * STEP_BYTES {
            let answer = try_one(tags, bytes[0], &bytes[1..], &store, &junk(&mut random, length));
            let lent = length / 5;
            assert_eq!(answer == Answer::Refused(Refusal::LentList.number()), lent < STEPS, "{lent} steps lent");
        }
    }
}
