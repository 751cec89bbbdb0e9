//! One random trial of an implementation: everything it answers and leaves is held against the model,
//! and a list of calls against demand 3. An error says what differs; the seed repeats it.

use super::balances::Balances;
use super::calls;
use super::commands;
use super::coverage::{command_name, Coverage};
use super::forms::{others, turned_stream};
use super::implementation::{copy, difference, Answer, Call, Implementation, Model, Program, Store};
use super::linking;
use super::literal::{day_of, in_order, Rows};
use super::pairing;
use super::random::Random;
use super::streams;
use super::taking_back::BookedPair;
use crate::booking::{Cents, Units};
use crate::chain::{Step, STEPS};
use crate::command::{Command, Reader};
use crate::directory::*;
use crate::refusal::Refusal;
use crate::register::Register;

/// The seed's stream.
pub fn stream(seed: u64, subject: &mut (impl Implementation + Program), coverage: &mut Coverage) -> Result<(), String> {
    stream_of(&streams::stream(seed), seed, subject, coverage)
}

/// A stream as bytes, and the same commands one by one as a list of calls from the empty store. The seed
/// draws the step lists that these calls are lent.
pub fn stream_of(
    bytes: &[u8],
    seed: u64,
    subject: &mut (impl Implementation + Program),
    coverage: &mut Coverage,
) -> Result<(), String> {
    text_of(bytes, subject)?;
    list_of(bytes, seed, subject, coverage)
}

/// A stream as bytes, and with the halves of its sided commands turned.
pub fn text_of(bytes: &[u8], subject: &mut impl Program) -> Result<(), String> {
    let expected = crate::transcript(bytes);
    same_text(&expected, &subject.transcript(bytes)).map_err(|line| format!("transcript, {line}"))?;
    let turned = turned_stream(bytes);
    if turned == bytes {
        return Ok(());
    }
    same_text(&expected, &subject.transcript(&turned)).map_err(|line| format!("transcript with halves turned, {line}"))
}

/// A stream's commands as a list of calls.
pub fn list_of(
    bytes: &[u8],
    seed: u64,
    subject: &mut impl Implementation,
    coverage: &mut Coverage,
) -> Result<(), String> {
    let listed = list_of_calls(bytes, seed, subject, coverage)?;
    same_text(&crate::transcript(bytes), &listed).map_err(|line| format!("list of calls, {line}"))
}

/// A stream that fails as well, without the commands that it does not need for that.
pub fn shortened(bytes: &[u8], mut fails: impl FnMut(&[u8]) -> bool) -> Vec<u8> {
    let mut reader = Reader::new(bytes);
    let mut pieces = Vec::new();
    while let Ok(command) = reader.command() {
        let mut piece = Vec::new();
        command.write(&mut piece);
        pieces.push(piece);
    }
    pieces.push(bytes[pieces.concat().len()..].to_vec());
    for place in (0..pieces.len()).rev() {
        let piece = std::mem::take(&mut pieces[place]);
        if !fails(&pieces.concat()) {
            pieces[place] = piece;
        }
    }
    pieces.concat()
}

/// Random calls over one random store.
pub fn calls(seed: u64, subject: &mut impl Implementation, coverage: &mut Coverage) -> Result<(), String> {
    let mut random = Random::new(seed);
    let mut store = calls::store(&mut random);
    same_soundness(&store.directory)?;
    let (mut other, mut before) = (store.clone(), store.clone());
    let mut unsound = 0;
    for number in 1..=24 {
        let (call, steps) = calls::call(&mut random, &store);
        store.steps = steps;
        copy(&store, &mut before);
        other.steps.clone_from(&store.steps);
        let expected = Model.call(&mut store, &call);
        let place = |text: String| format!("call {number}, {call:?}: {text}");
        let answer = answer_in_every_form(subject, &mut other, &call).map_err(place)?;
        if answer != expected {
            return Err(place(format!("{answer:?}, not {expected:?}")));
        }
        if let Some(part) = difference(&store, &other) {
            return Err(place(format!("{expected:?}, but another {part}")));
        }
        if matches!(answer, Answer::Refused(_)) && other != before {
            return Err(place("refused, but something changed".into()));
        }
        let rows = Rows::from(&before.directory);
        coverage.call(&call, &answer, &rows);
        same_row(&rows, &call, &answer).map_err(place)?;
        same_chain(&rows, &call, &answer, &other.steps, coverage).map_err(place)?;
        if answer == Answer::Refused(Refusal::NotSound.number()) {
            let flaw = Register::replay(&before.directory).err();
            let (table, refusal) = flaw.ok_or_else(|| place("refused 4 over a sound directory".into()))?;
            coverage.flaw(table, refusal.number());
            unsound += 1;
        }
        if unsound == 3 {
            break;
        }
    }
    Ok(())
}

/// "Only links valid on it are seen": calls over a random store, and over the same with the links of all other days struck
/// out and those of the day valid on every day. Without days these keep the rules, and answer and leave the same.
pub fn days(seed: u64, subject: &mut impl Implementation, coverage: &mut Coverage) -> Result<(), String> {
    let mut random = Random::new(seed);
    let scenario = streams::scenario(&mut random);
    let store = Store {
        directory: scenario.directory().clone(),
        positions: vec![Units(1_000_000); ACCOUNTS * SECURITIES],
        cash: vec![Cents(1_000_000); ACCOUNTS],
        steps: vec![Step::default(); STEPS],
    };
    let rows = Rows::from(&store.directory);
    for number in 1..=24 {
        let command = commands::dated(&mut random, &store.directory);
        let call = Call::Command(command);
        let place = |text: String| format!("call {number}, {call:?}: {text}");
        let day = day_of(&command).ok_or_else(|| place("no day".into()))?;
        let (mut left, mut struck_left) = (store.clone(), store.clone());
        struck_left.directory = undated(&rows.on(day)).map_err(place)?;
        let answer = subject.call(&mut left, &call);
        let struck_answer = subject.call(&mut struck_left, &call);
        if answer != struck_answer {
            return Err(place(format!("{answer:?}, but {struck_answer:?} without the links of other days")));
        }
        struck_left.directory.clone_from(&left.directory);
        if let Some(part) = difference(&left, &struck_left) {
            return Err(place(format!("{answer:?}, but another {part} without the links of other days")));
        }
        coverage.answer(command_name(command.code()), &answer);
    }
    Ok(())
}

/// The record of rows whose links are valid on every day, each of which must be due an acceptance after those before it.
fn undated(rows: &Rows) -> Result<Directory, String> {
    let mut entered = Rows { links: Vec::new(), ..rows.clone() };
    for link in &rows.links {
        let link = Link { days: Period::ALWAYS, ..*link };
        if let (number @ 1.., _) = linking::due(&entered, &link) {
            return Err(format!("{number} is due to {link:?} without the links of other days"));
        }
        entered.links.push(link);
    }
    Ok(entered.record())
}

/// Pair rows and links are replayed as the literal readings judge them, one after the other.
fn same_soundness(directory: &Directory) -> Result<(), String> {
    let flaw = Register::replay(directory).err().map(|(table, refusal)| (table, refusal.number()));
    if flaw.is_some_and(|(table, _)| !matches!(table, "pairs" | "links")) {
        return Ok(());
    }
    let due = literal_flaw(directory);
    if flaw != due {
        return Err(format!("unsound by {flaw:?}, where {due:?} is due"));
    }
    Ok(())
}

fn literal_flaw(directory: &Directory) -> Option<(&'static str, u8)> {
    let rows = Rows::from(directory);
    let mut entered = Rows { pairs: Vec::new(), links: Vec::new(), ..rows.clone() };
    if directory.pairs.count > PAIRS {
        return Some(("pairs", 5));
    }
    for row in rows.pairs {
        if let (number @ 1.., _) = pairing::due(&entered, &row) {
            return Some(("pairs", number));
        }
        entered.pairs.push(row);
    }
    if directory.links.count > LINKS {
        return Some(("links", 5));
    }
    for row in rows.links {
        if let (number @ 1.., _) = linking::due(&entered, &row) {
            return Some(("links", number));
        }
        entered.links.push(row);
    }
    None
}

/// Runs a stream's commands as calls, each handed what the last one left, and prints as the program does.
fn list_of_calls(
    bytes: &[u8],
    seed: u64,
    subject: &mut impl Implementation,
    coverage: &mut Coverage,
) -> Result<Vec<u8>, String> {
    let mut random = Random::new(seed);
    let mut reader = Reader::new(bytes);
    let mut store = Store::empty();
    let mut balances = Balances::default();
    let mut text = String::new();
    let mut number = 0;
    while let Some(code) = reader.peek() {
        number += 1;
        let place = |text: String| format!("command {number}: {text}");
        let command = match reader.command() {
            Ok(command) => command,
            Err(refusal) => {
                coverage.answer(command_name(code), &Answer::Refused(refusal.number()));
                text += &format!("{number} no {}\n", refusal.number());
                break;
            }
        };
        let call = Call::Command(command);
        let answer = next_call(&call, &mut random, &mut store, &mut balances, subject, coverage).map_err(place)?;
        text += &lines(number, &answer, &store.steps)?;
    }
    text += &total_lines(&mut store, subject)?;
    if store.directory != balances.rows.record() {
        return Err("another directory than the accepted rows make".into());
    }
    Ok(text.into_bytes())
}

/// Makes the next call of a list and judges it: by the literal readings, by demand 3, and a booked pair by what comes
/// of taking it back.
fn next_call(
    call: &Call,
    random: &mut Random,
    store: &mut Store,
    balances: &mut Balances,
    subject: &mut impl Implementation,
    coverage: &mut Coverage,
) -> Result<Answer, String> {
    lend_steps(random, store, subject, call)?;
    let answer = answer_in_every_form(subject, store, call)?;
    coverage.call(call, &answer, &balances.rows);
    same_row(&balances.rows, call, &answer)?;
    same_chain(&balances.rows, call, &answer, &store.steps, coverage)?;
    let before = matches!(answer, Answer::Booked(_)).then(|| (balances.positions.clone(), balances.cash.clone()));
    balances.after(call, &answer, store)?;
    if let Some(pair) = before.and_then(|before| BookedPair::of(call, &answer, before, store)) {
        pair.take_back(&balances.rows, random, subject, coverage)?;
    }
    Ok(answer)
}

/// Lends a call steps enough. A list too short is tried first where chance has it so, and must be
/// refused without a trace.
fn lend_steps(
    random: &mut Random,
    store: &mut Store,
    subject: &mut impl Implementation,
    call: &Call,
) -> Result<(), String> {
    store.steps = calls::steps(random);
    use Command::*;
    let lent_steps =
        matches!(call, Call::Command(Settle { .. } | Derive { .. } | SettleSided { .. } | DeriveSided { .. }));
    if store.steps.len() < STEPS {
        if lent_steps {
            let before = store.clone();
            if subject.call(store, call) != Answer::Refused(Refusal::LentList.number()) || *store != before {
                return Err(format!("not refused with {} steps lent", before.steps.len()));
            }
        }
        store.steps.resize(STEPS, Step::default());
    }
    Ok(())
}

/// Answers a call. "Either order gives the same chain and booking": a sided call in its other forms, each over a copy
/// of the store, gets the same answer and leaves the same.
fn answer_in_every_form(subject: &mut impl Implementation, store: &mut Store, call: &Call) -> Result<Answer, String> {
    let others: Vec<(Call, Store)> = match call {
        Call::Command(command) => others(command).map(|other| (Call::Command(other), store.clone())).collect(),
        _ => Vec::new(),
    };
    let answer = subject.call(store, call);
    for (other, mut left) in others {
        let other_answer = subject.call(&mut left, &other);
        if other_answer != answer {
            return Err(format!("{answer:?}, but {other_answer:?} to {other:?}"));
        }
        if let Some(part) = difference(store, &left) {
            return Err(format!("{answer:?}, but another {part} by {other:?}"));
        }
    }
    Ok(answer)
}

/// A pair row or a link is answered as the literal reading of it has it.
fn same_row(rows: &Rows, call: &Call, answer: &Answer) -> Result<(), String> {
    let (number, _) = match call {
        Call::Command(Command::EnterPair(new)) => pairing::due(rows, new),
        Call::Command(Command::EnterLink(new)) => linking::due(rows, new),
        _ => return Ok(()),
    };
    let due = if number == 0 { Answer::Accepted } else { Answer::Refused(number) };
    if *answer == due || *answer == Answer::Refused(Refusal::NotSound.number()) {
        return Ok(());
    }
    Err(format!("{answer:?}, where {due:?} is due"))
}

/// The steps of a chain are those of the literal reading, which also tells its kind.
fn same_chain(
    rows: &Rows,
    call: &Call,
    answer: &Answer,
    steps: &[Step],
    coverage: &mut Coverage,
) -> Result<(), String> {
    let Call::Command(command) = call else { return Ok(()) };
    let (Some((delivering, receiving)), Some(day)) = (in_order(command), day_of(command)) else {
        return match answer {
            Answer::Booked(_) | Answer::Chain(_) | Answer::Refused(12..=18) => {
                Err(format!("{answer:?} without two sides"))
            }
            _ => Ok(()),
        };
    };
    let chain = || rows.on(day).chain(delivering.security, delivering.account, receiving.account);
    match answer {
        Answer::Booked(length) | Answer::Chain(length) => {
            let (kind, expected) = chain().map_err(|number| format!("a chain, where {number} is due"))?;
            if steps.get(..*length) != Some(&expected[..]) {
                return Err(format!("steps {:?}, not {expected:?}", steps.get(..*length)));
            }
            coverage.chain(command, kind, *length);
            Ok(())
        }
        Answer::Refused(number @ 14..=18) if chain().err() != Some(*number) => {
            Err(format!("refused {number}, where {:?} is due", chain()))
        }
        _ => Ok(()),
    }
}

/// The lines of a command's answer, written without the model's own.
fn lines(number: usize, answer: &Answer, steps: &[Step]) -> Result<String, String> {
    let chain = |word, steps: &[Step]| {
        let line = |&Step { csd, debit, credit }: &Step| format!("- {csd} {debit} {credit}\n");
        format!("{number} {word} {}\n", steps.len()) + &steps.iter().map(line).collect::<String>()
    };
    match *answer {
        Answer::Accepted => Ok(format!("{number} ok\n")),
        Answer::Booked(length) => Ok(chain("booked", &steps[..length])),
        Answer::Chain(length) => Ok(chain("chain", &steps[..length])),
        Answer::Refused(refusal) => Ok(format!("{number} no {refusal}\n")),
        Answer::Sum(_) => Err(format!("{answer:?} to a command")),
    }
}

fn total_lines(store: &mut Store, subject: &mut impl Implementation) -> Result<String, String> {
    let mut text = String::new();
    for number in 0..store.directory.securities.count {
        let Answer::Sum(sum) = subject.call(store, &Call::Total { security: number as u8 }) else {
            return Err(format!("no total of security {number}"));
        };
        let isin = String::from_utf8_lossy(&store.directory.securities.rows[number].isin);
        text += &format!("total {isin} {sum}\n");
    }
    let Answer::Sum(sum) = subject.call(store, &Call::CashTotal) else {
        return Err("no total of cash".into());
    };
    Ok(text + &format!("cash {sum}\n"))
}

/// The first line in which two texts differ, if any.
fn same_text(expected: &[u8], printed: &[u8]) -> Result<(), String> {
    if expected == printed {
        return Ok(());
    }
    let (mut due, mut lines) = (expected.split(|&byte| byte == b'\n'), printed.split(|&byte| byte == b'\n'));
    for number in 1.. {
        let (due, line) = (due.next(), lines.next());
        if due != line {
            let show = |line: Option<&[u8]>| line.map(|line| String::from_utf8_lossy(line).into_owned());
            return Err(format!("line {number}: {:?}, not {:?}", show(line), show(due)));
        }
    }
    Ok(())
}
