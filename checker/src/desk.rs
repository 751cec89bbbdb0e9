//! The desk's functions as single calls, over a directory record and lent lists of any length and
//! content. Lists are tested first (3), then soundness (4). A refusal changes nothing lent or handed in.

use crate::booking::{self, Cash, Cents, Direction, Halves, Positions, Units};
use crate::chain::{Chain, Step, STEPS};
use crate::directory::*;
use crate::refusal::{require, Refusal};
use crate::register::Register;

pub fn enter_csd(directory: &mut Directory, csd: Csd) -> Result<(), Refusal> {
    Register::of(directory)?.enter_csd(csd)?;
    directory.csds.push(csd);
    Ok(())
}

pub fn enter_security(directory: &mut Directory, security: Security) -> Result<(), Refusal> {
    Register::of(directory)?.enter_security(security)?;
    directory.securities.push(security);
    Ok(())
}

pub fn enter_account(directory: &mut Directory, account: Account) -> Result<(), Refusal> {
    Register::of(directory)?.enter_account(account)?;
    directory.accounts.push(account);
    Ok(())
}

pub fn enter_pair(directory: &mut Directory, pair: Pair) -> Result<(), Refusal> {
    Register::of(directory)?.enter_pair(pair)?;
    directory.pairs.push(pair);
    Ok(())
}

pub fn enter_link(directory: &mut Directory, link: Link) -> Result<(), Refusal> {
    Register::of(directory)?.enter_link(link)?;
    directory.links.push(link);
    Ok(())
}

pub fn move_securities(
    directory: &Directory,
    positions: &mut [Units],
    direction: Direction,
    account: u16,
    security: u8,
    quantity: Units,
    day: Day,
) -> Result<(), Refusal> {
    let positions = lent(positions)?;
    Register::of(directory)?.move_securities(positions, direction, account, security, quantity, day)
}

pub fn move_cash(
    directory: &Directory,
    cash: &mut [Cents],
    direction: Direction,
    account: u16,
    amount: Cents,
) -> Result<(), Refusal> {
    let cash = lent(cash)?;
    Register::of(directory)?.move_cash(cash, direction, account, amount)
}

/// Writes the steps of the chain into the lent list, and answers how many they are.
pub fn derive(directory: &Directory, steps: &mut [Step], halves: Halves, day: Day) -> Result<usize, Refusal> {
    require(steps.len() >= STEPS, Refusal::LentList)?;
    let mut chain = Chain::default();
    Register::of(directory)?.derive_halves(halves, day, &mut chain)?;
    Ok(hand_over(&chain, steps))
}

/// Books the chain and the cash, writes the steps into the lent list, and answers how many they are.
pub fn settle(
    directory: &Directory,
    positions: &mut [Units],
    cash: &mut [Cents],
    steps: &mut [Step],
    halves: Halves,
    day: Day,
) -> Result<usize, Refusal> {
    let positions = lent(positions)?;
    let cash = lent(cash)?;
    require(steps.len() >= STEPS, Refusal::LentList)?;
    let mut chain = Chain::default();
    Register::of(directory)?.settle(positions, cash, halves, day, &mut chain)?;
    Ok(hand_over(&chain, steps))
}

/// The sum of participant positions in a security.
pub fn total(directory: &Directory, positions: &[Units], security: u8) -> Result<i64, Refusal> {
    let positions: &Positions = positions.try_into().map_err(|_| Refusal::LentList)?;
    Register::of(directory)?.total(positions, security)
}

/// The sum of all balances.
pub fn cash_total(cash: &[Cents]) -> Result<i64, Refusal> {
    let cash: &Cash = cash.try_into().map_err(|_| Refusal::LentList)?;
    booking::cash_total(cash)
}

/// A lent list as the array of its due length, or 3.
fn lent<Number, const LENGTH: usize>(list: &mut [Number]) -> Result<&mut [Number; LENGTH], Refusal> {
    list.try_into().map_err(|_| Refusal::LentList)
}

fn hand_over(chain: &Chain, steps: &mut [Step]) -> usize {
    steps.iter_mut().zip(chain.steps()).for_each(|(row, step)| *row = step);
    chain.length()
}
