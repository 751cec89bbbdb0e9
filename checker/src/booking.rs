//! Positions and cash: what a call may change, judged on the numbers before it, and the change.

use crate::chain::{Accounts, Chain, Leg};
use crate::directory::{Day, ACCOUNTS, SECURITIES};
use crate::links::Standing;
use crate::numbers::{AccountNumber, SecurityNumber};
use crate::refusal::{require, Refusal};
use crate::register::Register;

/// 10^15: the largest quantity and amount, and the bound of every number that a call changes.
pub const BOUND: i64 = 1_000_000_000_000_000;

/// A number in one unit of measure. Sums end within the bound, or are refused 22.
macro_rules! bounded_number {
    ($name:ident, $words:literal) => {
        #[doc = $words]
        #[derive(Clone, Copy, PartialEq, Eq, PartialOrd, Ord, Debug, Default)]
        #[repr(transparent)]
        pub struct $name(pub i64);

        impl $name {
            pub fn is_within_bound(self) -> bool {
                -BOUND <= self.0 && self.0 <= BOUND
            }

            fn plus(self, other: $name) -> Result<$name, Refusal> {
                let sum = self.0.checked_add(other.0).map($name);
                sum.filter(|sum| sum.is_within_bound()).ok_or(Refusal::BeyondBound)
            }

            fn minus(self, other: $name) -> Result<$name, Refusal> {
                let difference = self.0.checked_sub(other.0).map($name);
                difference.filter(|difference| difference.is_within_bound()).ok_or(Refusal::BeyondBound)
            }
        }
    };
}

bounded_number!(Units, "Units of a security.");
bounded_number!(Cents, "Cents of cash.");

/// By account × 16 + security.
pub type Positions = [Units; ACCOUNTS * SECURITIES];
/// By account.
pub type Cash = [Cents; ACCOUNTS];

fn position(account: AccountNumber, security: SecurityNumber) -> usize {
    account.index() * SECURITIES + security.index()
}

/// One of the two instructions of a settlement.
#[derive(Clone, Copy, PartialEq, Eq, Debug, Default)]
pub struct Half {
    pub account: u16,
    pub counterpart: u8,
    pub security: u8,
    pub quantity: Units,
    pub amount: Cents,
}

/// Values of a side.
pub const DELIVERING: u8 = 0;
pub const RECEIVING: u8 = 1;

/// A half with its side before it.
#[derive(Clone, Copy, PartialEq, Eq, Debug, Default)]
pub struct SidedHalf {
    pub side: u8,
    pub half: Half,
}

/// Two halves in order. With wrong sides the order means nothing, and they are refused before it is used.
#[derive(Clone, Copy, Debug)]
pub struct Halves<'a> {
    delivering: &'a Half,
    receiving: &'a Half,
    sides: Sides,
}

/// What two halves say of their sides.
#[derive(Clone, Copy, PartialEq, Eq, Debug)]
enum Sides {
    OneEach,
    Same,
    OutsideList,
}

impl<'a> Halves<'a> {
    /// "Two halves, delivering first."
    pub fn by_place(delivering: &'a Half, receiving: &'a Half) -> Halves<'a> {
        Halves { delivering, receiving, sides: Sides::OneEach }
    }

    /// Two halves with "one byte before each half: 0 delivering, 1 receiving".
    pub fn by_side(first: &'a SidedHalf, second: &'a SidedHalf) -> Halves<'a> {
        let wrong = |sides| Halves { delivering: &first.half, receiving: &second.half, sides };
        match (first.side, second.side) {
            (DELIVERING, RECEIVING) => Halves::by_place(&first.half, &second.half),
            (RECEIVING, DELIVERING) => Halves::by_place(&second.half, &first.half),
            (DELIVERING, DELIVERING) | (RECEIVING, RECEIVING) => wrong(Sides::Same),
            _ => wrong(Sides::OutsideList),
        }
    }
}

/// Two halves that go together.
struct Instruction {
    delivering: AccountNumber,
    receiving: AccountNumber,
    security: SecurityNumber,
    quantity: Units,
    amount: Cents,
}

/// What moves an account's own number, in or out of the books.
#[derive(Clone, Copy, PartialEq, Eq, Debug)]
pub enum Direction {
    In,
    Out,
}

impl Register {
    /// Leaves the chain of two halves on a day, or gives the refusal of these or of the chain.
    #[inline(always)]
    pub fn derive_halves(&self, halves: Halves, day: Day, chain: &mut Chain) -> Result<(), Refusal> {
        let instruction = self.instruction(halves)?;
        self.derive(instruction.security, instruction.delivering, instruction.receiving, day, chain)
    }

    /// Books the chain of two halves on a day and their cash, or gives the refusal and changes neither.
    #[inline(always)]
    pub fn settle(
        &self,
        positions: &mut Positions,
        cash: &mut Cash,
        halves: Halves,
        day: Day,
        chain: &mut Chain,
    ) -> Result<(), Refusal> {
        let instruction = self.instruction(halves)?;
        self.derive(instruction.security, instruction.delivering, instruction.receiving, day, chain)?;
        book(positions, cash, &instruction, chain)
    }

    /// Brings a quantity in on a participant account against its CSD's source on a day, or takes it out.
    pub fn move_securities(
        &self,
        positions: &mut Positions,
        direction: Direction,
        account: u16,
        security: u8,
        quantity: Units,
        day: Day,
    ) -> Result<(), Refusal> {
        let account = self.account(account)?;
        let security = self.security(security)?;
        require((1..=BOUND).contains(&quantity.0), Refusal::OutsideRange)?;
        require(self.is_participant(account), Refusal::WrongAccount)?;
        let own = position(account, security);
        let source = position(self.source(security, account, day)?, security);
        (positions[own], positions[source]) = match direction {
            Direction::In => (positions[own].plus(quantity)?, positions[source].minus(quantity)?),
            Direction::Out => {
                require(positions[own] >= quantity, Refusal::SecuritiesShort)?;
                (positions[own].minus(quantity)?, positions[source].plus(quantity)?)
            }
        };
        Ok(())
    }

    /// Pays an amount in on a participant account, or out.
    pub fn move_cash(&self, cash: &mut Cash, direction: Direction, account: u16, amount: Cents) -> Result<(), Refusal> {
        let account = self.account(account)?;
        require((1..=BOUND).contains(&amount.0), Refusal::OutsideRange)?;
        require(self.is_participant(account), Refusal::WrongAccount)?;
        let balance = &mut cash[account.index()];
        *balance = match direction {
            Direction::In => balance.plus(amount)?,
            Direction::Out => {
                require(*balance >= amount, Refusal::CashShort)?;
                balance.minus(amount)?
            }
        };
        Ok(())
    }

    /// The sum of participant positions in a security, or 6 or 22.
    pub fn total(&self, positions: &Positions, security: u8) -> Result<i64, Refusal> {
        let security = self.security(security)?;
        self.participants().iter().map(|&account| positions[position(account, security)]).try_fold(0, |sum, units| {
            require(units.is_within_bound(), Refusal::BeyondBound)?;
            Ok(sum + units.0)
        })
    }

    /// Judges each half by itself (6, 7, 10), then the two sides (23), then both halves together (12, 13).
    #[inline(always)]
    fn instruction(&self, halves: Halves) -> Result<Instruction, Refusal> {
        let Halves { delivering, receiving, sides } = halves;
        for half in [delivering, receiving] {
            self.account(half.account)?;
            self.csd(half.counterpart)?;
            self.security(half.security)?;
        }
        let in_range = |half: &Half| (1..=BOUND).contains(&half.quantity.0) && (0..=BOUND).contains(&half.amount.0);
        let all_in_range = in_range(delivering) && in_range(receiving) && sides != Sides::OutsideList;
        require(all_in_range, Refusal::OutsideRange)?;
        let (d, r) = (self.account(delivering.account)?, self.account(receiving.account)?);
        require(self.is_participant(d) && self.is_participant(r), Refusal::WrongAccount)?;
        require(sides != Sides::Same, Refusal::SameSide)?;
        let agree = delivering.security == receiving.security
            && delivering.quantity == receiving.quantity
            && delivering.amount == receiving.amount
            && delivering.counterpart == self.account_csd(r).0
            && receiving.counterpart == self.account_csd(d).0;
        require(agree, Refusal::HalvesDiffer)?;
        require(d != r, Refusal::SameAccount)?;
        Ok(Instruction {
            delivering: d,
            receiving: r,
            security: self.security(delivering.security)?,
            quantity: delivering.quantity,
            amount: delivering.amount,
        })
    }

    /// The account that bring in debits: "the issuance account of its issuer link, else the inter-CSD
    /// account of its default link to an external CSD", by the participant's row there, or 19.
    fn source(&self, security: SecurityNumber, account: AccountNumber, day: Day) -> Result<AccountNumber, Refusal> {
        match self.links(security, self.account_csd(account)).standing(day) {
            Standing::Issuer(issuance) => Ok(issuance),
            Standing::InvestorOutside(technical) => {
                self.duo(technical, account).map(|duo| duo.near).ok_or(Refusal::NoSource)
            }
            _ => Err(Refusal::NoSource),
        }
    }
}

/// Moves the quantity along the chain and the amount back, or gives 20, 21 or 22.
fn book(positions: &mut Positions, cash: &mut Cash, instruction: &Instruction, chain: &Chain) -> Result<(), Refusal> {
    let Instruction { delivering, receiving, security, quantity, amount } = *instruction;
    let (payee, payer) = (delivering.index(), receiving.index());
    let booked = pay(cash[payee], cash[payer], amount).and_then(|balances| {
        move_along(positions, security, quantity, chain)?;
        (cash[payee], cash[payer]) = balances;
        Ok(())
    });
    booked.map_err(|refusal| {
        let is_short = |leg: &Leg| positions[position(leg.near, security)] < quantity;
        if chain.delivering.legs().iter().any(is_short) {
            Refusal::SecuritiesShort
        } else {
            refusal
        }
    })
}

/// The balances of payee and payer after a payment, or 21 or 22. "Amount 0 touches none."
fn pay(payee: Cents, payer: Cents, amount: Cents) -> Result<(Cents, Cents), Refusal> {
    if amount.0 == 0 {
        return Ok((payee, payer));
    }
    require(payer >= amount, Refusal::CashShort)?;
    Ok((payee.plus(amount)?, payer.minus(amount)?))
}

/// Moves the quantity along all steps, or along none where a number does not allow it. No number is changed by two
/// steps, so that each is judged as it was before, and the steps made can be taken back.
#[inline(always)]
fn move_along(
    positions: &mut Positions,
    security: SecurityNumber,
    quantity: Units,
    chain: &Chain,
) -> Result<(), Refusal> {
    let mut column = Column { positions, security };
    let (delivering, receiving) = (chain.delivering.legs(), chain.receiving.legs());
    let up = column.make::<0>(delivering, Leg::up, quantity);
    let mut down = 0;
    if up == delivering.len() {
        down = column.make::<{ -BOUND }>(receiving, Leg::down, quantity);
        if down == receiving.len() {
            return Ok(());
        }
    }
    column.take_back(&delivering[..up], Leg::up, quantity);
    column.take_back(&receiving[..down], Leg::down, quantity);
    Err(Refusal::BeyondBound)
}

/// The positions of a security.
struct Column<'a> {
    positions: &'a mut Positions,
    security: SecurityNumber,
}

impl Column<'_> {
    fn at(&mut self, account: AccountNumber) -> &mut i64 {
        &mut self.positions[position(account, self.security)].0
    }

    /// Makes steps up to the first that cannot be made, and gives their number. Positions must end within the bound,
    /// debited ones not below a lowest number.
    #[inline(always)]
    fn make<const LOWEST: i64>(&mut self, legs: &[Leg], accounts: impl Fn(&Leg) -> Accounts, quantity: Units) -> usize {
        let mut rest = legs.iter();
        let all = rest.all(|leg| {
            let (debit, credit) = accounts(leg);
            let debited = self.at(debit).wrapping_sub(quantity.0);
            let credited = self.at(credit).wrapping_add(quantity.0);
            let allowed = lies_within::<LOWEST>(debited) && lies_within::<{ -BOUND }>(credited);
            if allowed {
                *self.at(debit) = debited;
                *self.at(credit) = credited;
            }
            allowed
        });
        legs.len() - rest.len() - usize::from(!all)
    }

    fn take_back(&mut self, legs: &[Leg], accounts: impl Fn(&Leg) -> Accounts, quantity: Units) {
        for (debit, credit) in legs.iter().map(accounts) {
            *self.at(debit) += quantity.0;
            *self.at(credit) -= quantity.0;
        }
    }
}

/// Whether a number lies between a lowest one, 0 or below, and the bound. One below the lowest wraps to one beyond any
/// bound, and so does one that has wrapped.
fn lies_within<const LOWEST: i64>(number: i64) -> bool {
    number.wrapping_sub(LOWEST) as u64 <= (BOUND - LOWEST) as u64
}

/// The sum of all balances, or 22.
pub fn cash_total(cash: &Cash) -> Result<i64, Refusal> {
    require(cash.iter().all(|balance| balance.is_within_bound()), Refusal::BeyondBound)?;
    Ok(cash.iter().map(|balance| balance.0).sum())
}
