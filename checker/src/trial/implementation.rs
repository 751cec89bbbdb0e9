//! What the differential tests ask of an implementation, so that a second one can be held against
//! the model: a transcript of bytes, and single calls over a store of any content.

use crate::booking::{Cents, Direction, Halves, Units};
use crate::chain::Step;
use crate::command::Command;
use crate::desk;
use crate::directory::{Directory, ACCOUNTS, SECURITIES};
use crate::refusal::Refusal;

/// A directory record and the lists that a call may be lent, of any length.
#[derive(Clone, PartialEq, Eq, Debug)]
pub struct Store {
    pub directory: Directory,
    pub positions: Vec<Units>,
    pub cash: Vec<Cents>,
    pub steps: Vec<Step>,
}

impl Store {
    /// "An empty store has no row, and 0 in every position and balance."
    pub fn empty() -> Store {
        Store {
            directory: Directory::default(),
            positions: vec![Units(0); ACCOUNTS * SECURITIES],
            cash: vec![Cents(0); ACCOUNTS],
            steps: Vec::new(),
        }
    }
}

/// Copies into a store that has its memory already.
pub fn copy(from: &Store, to: &mut Store) {
    to.directory.clone_from(&from.directory);
    to.positions.clone_from(&from.positions);
    to.cash.clone_from(&from.cash);
    to.steps.clone_from(&from.steps);
}

/// Whether two lists are the same, many numbers at a time.
pub fn same<Number: PartialEq>(one: &[Number], other: &[Number]) -> bool {
    let same_piece =
        |(one, other): (&[Number], &[Number])| one.iter().zip(other).fold(true, |same, (a, b)| same & (a == b));
    one.len() == other.len() && one.chunks(64).zip(other.chunks(64)).all(same_piece)
}

/// The part in which two stores differ.
pub fn difference(one: &Store, other: &Store) -> Option<&'static str> {
    let parts = [
        ("directory", one.directory == other.directory),
        ("list of positions", same(&one.positions, &other.positions)),
        ("list of cash", same(&one.cash, &other.cash)),
        ("list of steps", one.steps == other.steps),
    ];
    parts.iter().find(|(_, same)| !same).map(|&(part, _)| part)
}

/// A call of the desk: what a stream can command, and the totals that the program prints.
#[derive(Clone, Copy, PartialEq, Eq, Debug)]
pub enum Call {
    Command(Command),
    Total { security: u8 },
    CashTotal,
}

#[derive(Clone, Copy, PartialEq, Eq, Debug)]
pub enum Answer {
    Accepted,
    Booked(usize),
    Chain(usize),
    Sum(i64),
    Refused(u8),
}

pub trait Program {
    /// All that the program prints on an input.
    fn transcript(&mut self, input: &[u8]) -> Vec<u8>;
}

pub trait Implementation {
    /// Answers a call, with the store changed as the call changes it.
    fn call(&mut self, store: &mut Store, call: &Call) -> Answer;
}

/// This crate's model.
pub struct Model;

impl Program for Model {
    fn transcript(&mut self, input: &[u8]) -> Vec<u8> {
        crate::transcript(input)
    }
}

impl Implementation for Model {
    fn call(&mut self, store: &mut Store, call: &Call) -> Answer {
        answer(store, call).unwrap_or_else(|refusal| Answer::Refused(refusal.number()))
    }
}

fn answer(store: &mut Store, call: &Call) -> Result<Answer, Refusal> {
    let Store { directory, positions, cash, steps } = store;
    let command = match *call {
        Call::Total { security } => return desk::total(directory, positions, security).map(Answer::Sum),
        Call::CashTotal => return desk::cash_total(cash).map(Answer::Sum),
        Call::Command(command) => command,
    };
    match command {
        Command::EnterCsd(row) => desk::enter_csd(directory, row)?,
        Command::EnterSecurity(row) => desk::enter_security(directory, row)?,
        Command::EnterAccount(row) => desk::enter_account(directory, row)?,
        Command::EnterPair(row) => desk::enter_pair(directory, row)?,
        Command::EnterLink(row) => desk::enter_link(directory, row)?,
        Command::BringIn { account, security, quantity, day } => {
            desk::move_securities(directory, positions, Direction::In, account, security, quantity, day)?
        }
        Command::TakeOut { account, security, quantity, day } => {
            desk::move_securities(directory, positions, Direction::Out, account, security, quantity, day)?
        }
        Command::PayIn { account, amount } => desk::move_cash(directory, cash, Direction::In, account, amount)?,
        Command::PayOut { account, amount } => desk::move_cash(directory, cash, Direction::Out, account, amount)?,
        Command::Settle { delivering, receiving, day } => {
            let halves = Halves::by_place(&delivering, &receiving);
            return desk::settle(directory, positions, cash, steps, halves, day).map(Answer::Booked);
        }
        Command::Derive { delivering, receiving, day } => {
            return desk::derive(directory, steps, Halves::by_place(&delivering, &receiving), day).map(Answer::Chain)
        }
        Command::SettleSided { first, second, day } => {
            let halves = Halves::by_side(&first, &second);
            return desk::settle(directory, positions, cash, steps, halves, day).map(Answer::Booked);
        }
        Command::DeriveSided { first, second, day } => {
            return desk::derive(directory, steps, Halves::by_side(&first, &second), day).map(Answer::Chain)
        }
    }
    Ok(Answer::Accepted)
}
