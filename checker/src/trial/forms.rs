//! The forms in which the same two halves can be written: by place, or with their sides and either one first.

use super::literal::in_order;
use crate::booking::{Half, SidedHalf, DELIVERING, RECEIVING};
use crate::command::{Command, Reader};
use crate::directory::Day;

#[derive(Clone, Copy, PartialEq, Eq, PartialOrd, Ord, Debug)]
pub enum Form {
    ByPlace,
    DeliveringFirst,
    ReceivingFirst,
}

pub const FORMS: [Form; 3] = [Form::ByPlace, Form::DeliveringFirst, Form::ReceivingFirst];

/// The forms with sides.
pub const SIDED: [Form; 2] = [Form::DeliveringFirst, Form::ReceivingFirst];

/// Sides of two halves that are refused 23.
pub const SAME_SIDES: [[u8; 2]; 2] = [[0, 0], [1, 1]];
/// Sides of two halves that are refused 7.
pub const NO_SIDES: [[u8; 2]; 8] = [[2, 2], [0, 2], [2, 0], [1, 2], [2, 1], [0, 0xFF], [0xFF, 1], [0xFF, 0xFF]];

impl Form {
    pub fn settle(self, delivering: Half, receiving: Half, day: Day) -> Command {
        match self.sided(delivering, receiving) {
            None => Command::Settle { delivering, receiving, day },
            Some((first, second)) => Command::SettleSided { first, second, day },
        }
    }

    pub fn derive(self, delivering: Half, receiving: Half, day: Day) -> Command {
        match self.sided(delivering, receiving) {
            None => Command::Derive { delivering, receiving, day },
            Some((first, second)) => Command::DeriveSided { first, second, day },
        }
    }

    fn sided(self, delivering: Half, receiving: Half) -> Option<(SidedHalf, SidedHalf)> {
        let delivering = SidedHalf { side: DELIVERING, half: delivering };
        let receiving = SidedHalf { side: RECEIVING, half: receiving };
        match self {
            Form::ByPlace => None,
            Form::DeliveringFirst => Some((delivering, receiving)),
            Form::ReceivingFirst => Some((receiving, delivering)),
        }
    }
}

/// The command with its halves the other way round, if it has sides.
fn turned(command: &Command) -> Option<Command> {
    match *command {
        Command::SettleSided { first, second, day } => Some(Command::SettleSided { first: second, second: first, day }),
        Command::DeriveSided { first, second, day } => Some(Command::DeriveSided { first: second, second: first, day }),
        _ => None,
    }
}

/// A sided command by place, if its sides are one of each.
fn placed(command: &Command) -> Option<Command> {
    let (delivering, receiving) = in_order(command)?;
    match *command {
        Command::SettleSided { day, .. } => Some(Command::Settle { delivering, receiving, day }),
        Command::DeriveSided { day, .. } => Some(Command::Derive { delivering, receiving, day }),
        _ => None,
    }
}

/// The commands that must be answered as a sided one is: the same turned, and the same by place.
pub fn others(command: &Command) -> impl Iterator<Item = Command> {
    [turned(command), placed(command)].into_iter().flatten()
}

/// A stream with the halves of every sided command the other way round.
pub fn turned_stream(bytes: &[u8]) -> Vec<u8> {
    let mut reader = Reader::new(bytes);
    let mut stream = Vec::new();
    while let Ok(command) = reader.command() {
        turned(&command).unwrap_or(command).write(&mut stream);
    }
    stream.extend_from_slice(&bytes[stream.len()..]);
    stream
}
