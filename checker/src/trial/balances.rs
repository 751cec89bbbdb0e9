//! Demand 3 over a list of calls, by operands and answers alone: what a call may have changed, and the
//! balances that hold after it. Nothing is taken from the directory that an implementation returns.

use std::collections::BTreeSet;

use super::implementation::{same, Answer, Call, Store};
use super::literal::{day_of, in_order, Rows};
use crate::booking::{Cents, Units};
use crate::command::Command;
use crate::directory::*;

/// What the accepted calls so far say, and the positions and cash that follow from it.
pub struct Balances {
    pub rows: Rows,
    /// A mirror and an omnibus that one accepted row names, once however many rows share them.
    duos: BTreeSet<(u16, u16)>,
    pub positions: Vec<Units>,
    pub cash: Vec<Cents>,
    brought_in: [i128; SECURITIES],
    paid_in: i128,
}

impl Default for Balances {
    fn default() -> Self {
        let Store { positions, cash, .. } = Store::empty();
        let (rows, duos) = (Rows::default(), BTreeSet::new());
        Balances { rows, duos, positions, cash, brought_in: [0; SECURITIES], paid_in: 0 }
    }
}

impl Balances {
    /// Judges one call of a list by its answer and the positions and cash that it left. An error says what
    /// is broken.
    pub fn after(&mut self, call: &Call, answer: &Answer, left: &Store) -> Result<(), String> {
        let accepted = !matches!(answer, Answer::Refused(_));
        if accepted {
            self.expect(call, answer)?;
        }
        if !same(&self.positions, &left.positions) || !same(&self.cash, &left.cash) {
            return Err("it moved something else than its operands and answer say".into());
        }
        if accepted {
            self.hold()?;
        }
        Ok(())
    }

    /// Moves what an accepted call must move, and records what it says.
    fn expect(&mut self, call: &Call, answer: &Answer) -> Result<(), String> {
        let Call::Command(command) = call else { return Ok(()) };
        match *command {
            Command::EnterCsd(row) => self.rows.csds.push(row),
            Command::EnterSecurity(row) => self.rows.securities.push(row),
            Command::EnterAccount(row) => self.rows.accounts.push(row),
            Command::EnterPair(row) => {
                self.rows.pairs.push(row);
                if row.technical_account != NO_ACCOUNT {
                    self.duos.insert((row.investor_account, row.technical_account));
                }
            }
            Command::EnterLink(row) => self.rows.links.push(row),
            Command::BringIn { account, security, quantity, day } => {
                self.bring_in(account, security, quantity.0, day)?
            }
            Command::TakeOut { account, security, quantity, day } => {
                self.bring_in(account, security, -quantity.0, day)?
            }
            Command::PayIn { account, amount } => self.pay_in(account, amount.0),
            Command::PayOut { account, amount } => self.pay_in(account, -amount.0),
            Command::Derive { .. } | Command::DeriveSided { .. } => {}
            Command::Settle { .. } | Command::SettleSided { .. } => {
                let (delivering, receiving) = in_order(command).ok_or("booked without two sides")?;
                let (security, quantity) = (delivering.security, delivering.quantity.0);
                let rows = self.rows.on(day_of(command).ok_or("booked without a day")?);
                let chain = rows.chain(security, delivering.account, receiving.account);
                let (_, steps) = chain.map_err(|number| format!("booked without a chain: {number}"))?;
                if *answer != Answer::Booked(steps.len()) {
                    return Err(format!("a chain of {} steps", steps.len()));
                }
                for step in &steps {
                    self.positions[place(step.debit, security)].0 -= quantity;
                    self.positions[place(step.credit, security)].0 += quantity;
                }
                self.cash[usize::from(delivering.account)].0 += delivering.amount.0;
                self.cash[usize::from(receiving.account)].0 -= delivering.amount.0;
            }
        }
        Ok(())
    }

    fn bring_in(&mut self, account: u16, security: u8, quantity: i64, day: Day) -> Result<(), String> {
        let source = self.rows.on(day).source(security, account).ok_or("nothing to bring in from")?;
        self.positions[place(account, security)].0 += quantity;
        self.positions[place(source, security)].0 -= quantity;
        self.brought_in[usize::from(security)] += i128::from(quantity);
        Ok(())
    }

    fn pay_in(&mut self, account: u16, amount: i64) {
        self.cash[usize::from(account)].0 += amount;
        self.paid_in += i128::from(amount);
    }

    /// The balances themselves.
    fn hold(&self) -> Result<(), String> {
        let mut books = [[0i128; SECURITIES]; CSDS];
        let mut participants = [0i128; SECURITIES];
        for (number, account) in self.rows.accounts.iter().enumerate() {
            let positions = &self.positions[number * SECURITIES..][..SECURITIES];
            for (security, position) in positions.iter().enumerate().filter(|(_, position)| position.0 != 0) {
                books[usize::from(account.csd)][security] += i128::from(position.0);
                if account.kind == PARTICIPANT {
                    participants[security] += i128::from(position.0);
                }
                if position.0 < 0 && matches!(account.kind, PARTICIPANT | OMNIBUS) {
                    return Err(format!("account {number} below 0 in security {security}"));
                }
            }
        }
        if let Some(csd) = books.iter().position(|sums| sums.iter().any(|&sum| sum != 0)) {
            return Err(format!("the books of CSD {csd} sum to {:?}", books[csd]));
        }
        if participants != self.brought_in {
            return Err(format!("participants hold {participants:?}, not {:?}", self.brought_in));
        }
        self.duos_hold()?;
        self.cash_holds()
    }

    /// "Mirror plus omnibus is zero for each duo."
    fn duos_hold(&self) -> Result<(), String> {
        for &(mirror, omnibus) in &self.duos {
            let positions = |account: u16| &self.positions[place(account, 0)..][..SECURITIES];
            let mut both = positions(mirror).iter().zip(positions(omnibus));
            if both.any(|(one, other)| i128::from(one.0) + i128::from(other.0) != 0) {
                return Err(format!("mirror {mirror} and omnibus {omnibus} differ"));
            }
        }
        Ok(())
    }

    fn cash_holds(&self) -> Result<(), String> {
        if self.cash.iter().any(|balance| balance.0 < 0) {
            return Err("a cash balance below 0".into());
        }
        if self.cash.iter().map(|balance| i128::from(balance.0)).sum::<i128>() != self.paid_in {
            return Err("cash is not what was paid in less paid out".into());
        }
        Ok(())
    }
}

fn place(account: u16, security: u8) -> usize {
    usize::from(account) * SECURITIES + usize::from(security)
}
