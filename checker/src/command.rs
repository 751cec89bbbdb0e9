//! Commands as bytes: one byte for the command, then operands big-endian of fixed widths.

use crate::booking::{Cents, Half, SidedHalf, Units};
use crate::directory::{Account, Csd, Day, Link, Pair, Period, Security};
use crate::refusal::Refusal;

#[derive(Clone, Copy, PartialEq, Eq, Debug)]
pub enum Command {
    EnterCsd(Csd),
    EnterSecurity(Security),
    EnterAccount(Account),
    EnterPair(Pair),
    EnterLink(Link),
    BringIn { account: u16, security: u8, quantity: Units, day: Day },
    TakeOut { account: u16, security: u8, quantity: Units, day: Day },
    PayIn { account: u16, amount: Cents },
    PayOut { account: u16, amount: Cents },
    Settle { delivering: Half, receiving: Half, day: Day },
    Derive { delivering: Half, receiving: Half, day: Day },
    SettleSided { first: SidedHalf, second: SidedHalf, day: Day },
    DeriveSided { first: SidedHalf, second: SidedHalf, day: Day },
}

/// One to whom a reader hands commands.
pub trait Taker {
    type Answer;

    fn take(self, command: &Command) -> Self::Answer;
}

/// A place in the lent bytes, from which commands and their operands are read.
pub struct Reader<'a> {
    rest: &'a [u8],
}

impl<'a> Reader<'a> {
    pub fn new(bytes: &'a [u8]) -> Reader<'a> {
        Reader { rest: bytes }
    }

    /// The byte of the next command, if any.
    pub fn peek(&self) -> Option<u8> {
        self.rest.first().copied()
    }

    /// The next command, or 1 or 2.
    pub fn command(&mut self) -> Result<Command, Refusal> {
        struct Whole;

        impl Taker for Whole {
            type Answer = Command;

            fn take(self, command: &Command) -> Command {
                *command
            }
        }

        self.hand_over(Whole)
    }

    /// Hands the next command to one who takes it, or gives 1 or 2. All of this is inlined: where the taker is inlined
    /// too, each case knows its command, and fields are used as they are read.
    #[inline(always)]
    pub fn hand_over<T: Taker>(&mut self, taker: T) -> Result<T::Answer, Refusal> {
        let (&code, rest) = self.rest.split_first().ok_or(Refusal::CutShort)?;
        self.rest = rest;
        Ok(match code {
            0x01 => taker.take(&Command::EnterCsd(self.operands::<12>()?.csd())),
            0x02 => taker.take(&Command::EnterSecurity(Security { isin: self.operands::<12>()?.bytes() })),
            0x03 => taker.take(&Command::EnterAccount(self.operands::<2>()?.account())),
            0x05 => taker.take(&Command::EnterLink(self.operands::<11>()?.link())),
            0x06 => taker.take(&self.operands::<13>()?.bring_in()),
            0x07 => taker.take(&self.operands::<13>()?.take_out()),
            0x08 => taker.take(&self.operands::<10>()?.pay_in()),
            0x09 => taker.take(&self.operands::<10>()?.pay_out()),
            0x0A => taker.take(&self.operands::<42>()?.settle()),
            0x0B => taker.take(&self.operands::<42>()?.derive()),
            0x0C => taker.take(&self.operands::<44>()?.settle_sided()),
            0x0D => taker.take(&self.operands::<44>()?.derive_sided()),
            0x0E => taker.take(&Command::EnterPair(self.operands::<8>()?.pair())),
            _ => return Err(Refusal::UnknownCommand),
        })
    }

    /// The operands of a command are taken whole, so that their fields need no test each.
    #[inline(always)]
    fn operands<const WIDTH: usize>(&mut self) -> Result<Operands<'a>, Refusal> {
        let (operands, rest) = self.rest.split_first_chunk::<WIDTH>().ok_or(Refusal::CutShort)?;
        self.rest = rest;
        Ok(Operands { rest: operands })
    }
}

/// The operands of one command, as many bytes as it has.
struct Operands<'a> {
    rest: &'a [u8],
}

impl Operands<'_> {
    #[inline(always)]
    fn bytes<const WIDTH: usize>(&mut self) -> [u8; WIDTH] {
        let (bytes, rest) = self.rest.split_first_chunk().expect("a command has all its operands");
        self.rest = rest;
        *bytes
    }

    #[inline(always)]
    fn byte(&mut self) -> u8 {
        let [byte] = self.bytes();
        byte
    }

    /// An account or a day.
    #[inline(always)]
    fn number(&mut self) -> u16 {
        u16::from_be_bytes(self.bytes())
    }

    #[inline(always)]
    fn units(&mut self) -> Units {
        Units(i64::from_be_bytes(self.bytes()))
    }

    #[inline(always)]
    fn cents(&mut self) -> Cents {
        Cents(i64::from_be_bytes(self.bytes()))
    }

    #[inline(always)]
    fn csd(&mut self) -> Csd {
        Csd { kind: self.byte(), bic: self.bytes() }
    }

    #[inline(always)]
    fn account(&mut self) -> Account {
        Account { csd: self.byte(), kind: self.byte() }
    }

    #[inline(always)]
    fn pair(&mut self) -> Pair {
        Pair {
            investor: self.byte(),
            technical: self.byte(),
            investor_account: self.number(),
            technical_account: self.number(),
            served: self.number(),
        }
    }

    #[inline(always)]
    fn link(&mut self) -> Link {
        Link {
            security: self.byte(),
            kind: self.byte(),
            csd: self.byte(),
            technical: self.byte(),
            flag: self.byte(),
            account: self.number(),
            days: Period { first: self.number(), last: self.number() },
        }
    }

    #[inline(always)]
    fn half(&mut self) -> Half {
        Half {
            account: self.number(),
            counterpart: self.byte(),
            security: self.byte(),
            quantity: self.units(),
            amount: self.cents(),
        }
    }

    #[inline(always)]
    fn sided_half(&mut self) -> SidedHalf {
        SidedHalf { side: self.byte(), half: self.half() }
    }

    #[inline(always)]
    fn bring_in(&mut self) -> Command {
        Command::BringIn { account: self.number(), security: self.byte(), quantity: self.units(), day: self.number() }
    }

    #[inline(always)]
    fn take_out(&mut self) -> Command {
        Command::TakeOut { account: self.number(), security: self.byte(), quantity: self.units(), day: self.number() }
    }

    #[inline(always)]
    fn pay_in(&mut self) -> Command {
        Command::PayIn { account: self.number(), amount: self.cents() }
    }

    #[inline(always)]
    fn pay_out(&mut self) -> Command {
        Command::PayOut { account: self.number(), amount: self.cents() }
    }

    #[inline(always)]
    fn settle(&mut self) -> Command {
        Command::Settle { delivering: self.half(), receiving: self.half(), day: self.number() }
    }

    #[inline(always)]
    fn derive(&mut self) -> Command {
        Command::Derive { delivering: self.half(), receiving: self.half(), day: self.number() }
    }

    #[inline(always)]
    fn settle_sided(&mut self) -> Command {
        Command::SettleSided { first: self.sided_half(), second: self.sided_half(), day: self.number() }
    }

    #[inline(always)]
    fn derive_sided(&mut self) -> Command {
        Command::DeriveSided { first: self.sided_half(), second: self.sided_half(), day: self.number() }
    }
}

impl Command {
    /// The command's byte.
    pub fn code(&self) -> u8 {
        match self {
            Command::EnterCsd(_) => 0x01,
            Command::EnterSecurity(_) => 0x02,
            Command::EnterAccount(_) => 0x03,
            Command::EnterLink(_) => 0x05,
            Command::BringIn { .. } => 0x06,
            Command::TakeOut { .. } => 0x07,
            Command::PayIn { .. } => 0x08,
            Command::PayOut { .. } => 0x09,
            Command::Settle { .. } => 0x0A,
            Command::Derive { .. } => 0x0B,
            Command::SettleSided { .. } => 0x0C,
            Command::DeriveSided { .. } => 0x0D,
            Command::EnterPair(_) => 0x0E,
        }
    }

    /// Writes the command as a stream carries it.
    pub fn write(&self, out: &mut Vec<u8>) {
        out.push(self.code());
        self.write_operands(out);
    }

    pub fn write_operands(&self, out: &mut Vec<u8>) {
        match *self {
            Command::EnterCsd(Csd { kind, bic }) => {
                out.push(kind);
                out.extend(bic);
            }
            Command::EnterSecurity(Security { isin }) => out.extend(isin),
            Command::EnterAccount(Account { csd, kind }) => out.extend([csd, kind]),
            Command::EnterPair(Pair { investor, technical, investor_account, technical_account, served }) => {
                out.extend([investor, technical]);
                out.extend([investor_account, technical_account, served].map(u16::to_be_bytes).as_flattened());
            }
            Command::EnterLink(Link { security, kind, csd, technical, flag, account, days }) => {
                out.extend([security, kind, csd, technical, flag]);
                out.extend([account, days.first, days.last].map(u16::to_be_bytes).as_flattened());
            }
            Command::BringIn { account, security, quantity, day }
            | Command::TakeOut { account, security, quantity, day } => {
                out.extend(account.to_be_bytes());
                out.push(security);
                out.extend(quantity.0.to_be_bytes());
                out.extend(day.to_be_bytes());
            }
            Command::PayIn { account, amount } | Command::PayOut { account, amount } => {
                out.extend(account.to_be_bytes());
                out.extend(amount.0.to_be_bytes());
            }
            Command::Settle { delivering, receiving, day } | Command::Derive { delivering, receiving, day } => {
                delivering.write(out);
                receiving.write(out);
                out.extend(day.to_be_bytes());
            }
            Command::SettleSided { first, second, day } | Command::DeriveSided { first, second, day } => {
                first.write(out);
                second.write(out);
                out.extend(day.to_be_bytes());
            }
        }
    }
}

impl Half {
    fn write(&self, out: &mut Vec<u8>) {
        out.extend(self.account.to_be_bytes());
        out.extend([self.counterpart, self.security]);
        out.extend(self.quantity.0.to_be_bytes());
        out.extend(self.amount.0.to_be_bytes());
    }
}

impl SidedHalf {
    fn write(&self, out: &mut Vec<u8>) {
        out.push(self.side);
        self.half.write(out);
    }
}
