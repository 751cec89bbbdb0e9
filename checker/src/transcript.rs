//! The program: a stream of commands over an empty store, and the text it prints.

use crate::booking::{cash_total, Cash, Cents, Direction, Halves, Positions, Units};
use crate::chain::Chain;
use crate::command::{Command, Reader, Taker};
use crate::directory::{ACCOUNTS, SECURITIES};
use crate::refusal::Refusal;
use crate::register::Register;
use crate::text::Text;

/// "Above 65,536 bytes it prints `too long` only."
pub const INPUT_LIMIT: usize = 65_536;

/// What an accepted command answers. A chain is left with the session.
#[derive(Clone, Copy, PartialEq, Eq, Debug)]
pub enum Done {
    Accepted,
    Booked,
    Chain,
}

/// A directory, its positions and its cash, started empty and changed by commands only. Its
/// directory is therefore sound and its lists have their lengths, and neither is tested again.
#[derive(Clone)]
pub struct Session {
    register: Register,
    positions: Box<Positions>,
    cash: Box<Cash>,
    chain: Chain,
}

impl Default for Session {
    fn default() -> Self {
        Session {
            register: Register::default(),
            positions: Box::new([Units(0); ACCOUNTS * SECURITIES]),
            cash: Box::new([Cents(0); ACCOUNTS]),
            chain: Chain::default(),
        }
    }
}

impl Session {
    pub fn register(&self) -> &Register {
        &self.register
    }

    pub fn positions(&self) -> &Positions {
        &self.positions
    }

    pub fn cash(&self) -> &Cash {
        &self.cash
    }

    /// The chain of the command just answered, where it was booked or derived.
    pub fn chain(&self) -> &Chain {
        &self.chain
    }

    #[inline(always)]
    pub fn execute(&mut self, command: &Command) -> Result<Done, Refusal> {
        let Session { register, positions, cash, chain } = self;
        match *command {
            Command::EnterCsd(row) => register.enter_csd(row)?,
            Command::EnterSecurity(row) => register.enter_security(row)?,
            Command::EnterAccount(row) => register.enter_account(row)?,
            Command::EnterPair(row) => register.enter_pair(row)?,
            Command::EnterLink(row) => register.enter_link(row)?,
            Command::BringIn { account, security, quantity, day } => {
                register.move_securities(positions, Direction::In, account, security, quantity, day)?
            }
            Command::TakeOut { account, security, quantity, day } => {
                register.move_securities(positions, Direction::Out, account, security, quantity, day)?
            }
            Command::PayIn { account, amount } => register.move_cash(cash, Direction::In, account, amount)?,
            Command::PayOut { account, amount } => register.move_cash(cash, Direction::Out, account, amount)?,
            Command::Settle { ref delivering, ref receiving, day } => {
                register.settle(positions, cash, Halves::by_place(delivering, receiving), day, chain)?;
                return Ok(Done::Booked);
            }
            Command::SettleSided { ref first, ref second, day } => {
                register.settle(positions, cash, Halves::by_side(first, second), day, chain)?;
                return Ok(Done::Booked);
            }
            Command::Derive { ref delivering, ref receiving, day } => {
                register.derive_halves(Halves::by_place(delivering, receiving), day, chain)?;
                return Ok(Done::Chain);
            }
            Command::DeriveSided { ref first, ref second, day } => {
                register.derive_halves(Halves::by_side(first, second), day, chain)?;
                return Ok(Done::Chain);
            }
        }
        Ok(Done::Accepted)
    }

    fn print_totals(&self, text: &mut Text) {
        for (number, security) in self.register.directory().securities.rows.iter().enumerate() {
            if let Ok(sum) = self.register.total(&self.positions, number as u8) {
                text.total(&security.isin, sum);
            }
        }
        if let Ok(sum) = cash_total(&self.cash) {
            text.cash(sum);
        }
    }
}

impl Taker for &mut Session {
    type Answer = Result<Done, Refusal>;

    #[inline(always)]
    fn take(self, command: &Command) -> Self::Answer {
        self.execute(command)
    }
}

/// No answer prints more bytes for a byte that it reads: 224 for the 43 of a chain of 16 steps are the most.
const PRINTED_PER_BYTE: usize = 6;

/// All that `realign` prints for an input.
pub fn transcript(input: &[u8]) -> Vec<u8> {
    if input.len() > INPUT_LIMIT {
        let mut text = Text::with_room(0);
        text.too_long();
        return text.into_bytes();
    }
    let mut text = Text::with_room(PRINTED_PER_BYTE * input.len());
    let mut session = Session::default();
    let mut reader = Reader::new(input);
    while reader.peek().is_some() {
        match reader.hand_over(&mut session).flatten() {
            Ok(Done::Accepted) => text.accepted(),
            Ok(Done::Booked) => text.chain(b" booked ", session.chain()),
            Ok(Done::Chain) => text.chain(b" chain ", session.chain()),
            Err(refusal) => {
                text.refused(refusal.number());
                if matches!(refusal, Refusal::UnknownCommand | Refusal::CutShort) {
                    break;
                }
            }
        }
    }
    session.print_totals(&mut text);
    text.into_bytes()
}
