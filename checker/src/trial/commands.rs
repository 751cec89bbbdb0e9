//! Random commands over a directory: mostly sensible ones, so that they get far, and damaged ones, so
//! that they are refused in every place.

use super::forms::{NO_SIDES, SAME_SIDES};
use super::random::Random;
use super::scenario::{halves, with_check_digit};
use crate::booking::{Cents, Half, Halves, SidedHalf, Units, DELIVERING, RECEIVING};
use crate::chain::Chain;
use crate::command::{Command, Reader};
use crate::directory::*;
use crate::register::Register;

/// How often each command is drawn.
const CODES: [u8; 40] = [
    0x01, 0x02, 0x02, 0x03, 0x03, 0x05, 0x05, 0x05, 0x05, 0x05, 0x05, 0x05, 0x06, 0x06, 0x06, 0x07, 0x07, 0x07, 0x08,
    0x09, 0x0A, 0x0A, 0x0A, 0x0B, 0x0B, 0x0B, 0x0C, 0x0C, 0x0C, 0x0C, 0x0C, 0x0D, 0x0D, 0x0D, 0x0D, 0x0E, 0x0E, 0x0E,
    0x0E, 0x0E,
];

pub fn command(random: &mut Random, directory: &Directory) -> Command {
    let code = random.pick(&CODES);
    command_of(code, random, directory)
}

/// A row of any table.
pub fn entry(random: &mut Random, directory: &Directory) -> Command {
    let code = random.pick(&[0x01, 0x02, 0x03, 0x05, 0x0E]);
    command_of(code, random, directory)
}

/// An account of any CSD, often of one that pair rows name.
pub fn account(random: &mut Random, directory: &Directory) -> Account {
    Draw { random, directory }.account_row()
}

/// An instruction that reads links on a day.
pub fn dated(random: &mut Random, directory: &Directory) -> Command {
    let code = random.pick(&[0x06, 0x07, 0x0A, 0x0B, 0x0C, 0x0D]);
    command_of(code, random, directory)
}

/// A link, often one whose days touch, overlap or leave out those of another.
pub fn link(random: &mut Random, directory: &Directory) -> Command {
    command_of(0x05, random, directory)
}

/// A pair row as the byte 04 entered it, without a served account.
pub fn former_pair(random: &mut Random, directory: &Directory) -> Vec<u8> {
    let mut bytes = Vec::new();
    Command::EnterPair(Draw { random, directory }.pair_row()).write(&mut bytes);
    bytes[0] = 0x04;
    bytes.truncate(bytes.len() - 2);
    bytes
}

fn command_of(code: u8, random: &mut Random, directory: &Directory) -> Command {
    let mut draw = Draw { random, directory };
    let command = match code {
        0x01 => Command::EnterCsd(draw.csd_row()),
        0x02 => Command::EnterSecurity(draw.security_row()),
        0x03 => Command::EnterAccount(draw.account_row()),
        0x05 => Command::EnterLink(draw.link_row()),
        0x06 => {
            let (account, security, day) = draw.source();
            Command::BringIn { account, security, quantity: draw.units(), day }
        }
        0x07 => {
            let (account, security, day) = draw.source();
            Command::TakeOut { account, security, quantity: draw.units(), day }
        }
        0x08 => Command::PayIn { account: draw.participant(), amount: draw.cents() },
        0x09 => Command::PayOut { account: draw.participant(), amount: draw.cents() },
        0x0A => draw.halves(|delivering, receiving, day| Command::Settle { delivering, receiving, day }),
        0x0B => draw.halves(|delivering, receiving, day| Command::Derive { delivering, receiving, day }),
        0x0C => draw.sided_halves(|first, second, day| Command::SettleSided { first, second, day }),
        0x0D => draw.sided_halves(|first, second, day| Command::DeriveSided { first, second, day }),
        _ => Command::EnterPair(draw.pair_row()),
    };
    if random.percent(20) {
        damaged(random, command)
    } else {
        command
    }
}

/// The command with one operand byte, or two neighbours, replaced.
pub fn damaged(random: &mut Random, command: Command) -> Command {
    let mut bytes = Vec::new();
    command.write(&mut bytes);
    let place = random.between(1, bytes.len() - 1);
    bytes[place] = match random.below(5) {
        0 => 0xFF,
        1 => bytes[place].wrapping_add(1),
        2 => bytes[place].wrapping_sub(1),
        3 => random.pick(&[0, 1, 2, 5, 16, 32]),
        _ => random.byte(),
    };
    if random.percent(25) && place + 1 < bytes.len() {
        bytes[place + 1] = bytes[place];
    }
    Reader::new(&bytes).command().expect("a whole command of a known byte")
}

struct Draw<'a> {
    random: &'a mut Random,
    directory: &'a Directory,
}

impl Draw<'_> {
    fn accounts(&self) -> &[Account] {
        self.directory.accounts.entered().unwrap_or(&self.directory.accounts.rows)
    }

    /// A number of a row, seldom one beyond.
    fn number(&mut self, count: usize) -> usize {
        if count == 0 || self.random.percent(2) {
            return self.random.pick(&[count, count + 1, 0xFF, 0xFFFF, 0]);
        }
        self.random.below(count)
    }

    fn is_external(&self, csd: u8) -> bool {
        self.directory.csds.get(usize::from(csd)).is_some_and(|row| row.kind == EXTERNAL)
    }

    fn csd(&mut self) -> u8 {
        self.number(self.directory.csds.count.min(CSDS)) as u8
    }

    fn security(&mut self) -> u8 {
        self.number(self.directory.securities.count.min(SECURITIES)) as u8
    }

    /// An account that fits, if there is one, or any.
    fn account(&mut self, fits: impl Fn(u16, &Account) -> bool) -> u16 {
        let fitting = |(number, row): (usize, &Account)| fits(number as u16, row).then_some(number as u16);
        let numbers: Vec<u16> = self.accounts().iter().enumerate().filter_map(fitting).collect();
        if numbers.is_empty() || self.random.percent(3) {
            return self.number(self.directory.accounts.count.min(ACCOUNTS)) as u16;
        }
        self.random.pick(&numbers)
    }

    fn participant(&mut self) -> u16 {
        self.account(|_, row| row.kind == PARTICIPANT)
    }

    fn value(&mut self) -> i64 {
        if self.random.percent(5) {
            self.random.any_number()
        } else {
            self.random.some_number()
        }
    }

    fn units(&mut self) -> Units {
        Units(self.value())
    }

    fn cents(&mut self) -> Cents {
        Cents(self.value())
    }

    fn capital_or_digit(&mut self) -> u8 {
        self.random.pick(b"ABCDEFGHIJKLMNOPQRSTUVWXYZ0123456789")
    }

    fn csd_row(&mut self) -> Csd {
        let bic = if self.random.percent(40) { self.bic_near() } else { self.bic() };
        Csd { kind: self.random.pick(&[IN_T2S, IN_T2S, EXTERNAL]), bic }
    }

    fn bic(&mut self) -> Bic {
        std::array::from_fn(|_| self.capital_or_digit())
    }

    /// A BIC that is entered, often the last, or one near it: three capitals X, another branch, one byte changed.
    fn bic_near(&mut self) -> Bic {
        let entered = self.directory.csds.count.clamp(1, CSDS);
        let row = if self.random.percent(50) { entered - 1 } else { self.random.below(entered) };
        let mut bic = self.directory.csds.rows[row].bic;
        match self.random.below(10) {
            0..=2 => {}
            3 | 4 => bic[8..].copy_from_slice(b"XXX"),
            5 => bic[8..].copy_from_slice(&self.bic()[8..]),
            6..=8 => bic[self.random.between(8, 10)] = self.capital_or_digit(),
            _ => bic[self.random.below(8)] = self.capital_or_digit(),
        }
        bic
    }

    fn security_row(&mut self) -> Security {
        let mut isin: Isin = std::array::from_fn(|_| self.capital_or_digit());
        isin[0] = self.random.pick(b"ADFXZ");
        isin[1] = self.random.pick(b"AEISZ");
        match self.random.below(8) {
            0 => Security { isin: self.directory.securities.rows[self.random.below(SECURITIES)].isin },
            1 => Security { isin },
            2 => Security { isin: [&isin[..11], &[self.random.pick(b"0123456789")]].concat().try_into().unwrap() },
            _ => Security { isin: with_check_digit(isin) },
        }
    }

    fn account_row(&mut self) -> Account {
        let kind = self.random.pick(&[PARTICIPANT, OMNIBUS, MIRROR, INTER_CSD, ISSUANCE]);
        let pairs = self.directory.pairs.entered().unwrap_or_default();
        if pairs.is_empty() || self.random.percent(50) {
            return Account { csd: self.csd(), kind };
        }
        let row = self.random.pick(pairs);
        if row.technical_account == NO_ACCOUNT {
            return Account { csd: row.investor, kind: self.random.pick(&[INTER_CSD, kind]) };
        }
        Account { csd: self.random.pick(&[row.investor, row.technical]), kind }
    }

    /// A row of two CSDs, mostly near one that is entered.
    fn pair_row(&mut self) -> Pair {
        let entered = self.directory.pairs.entered().unwrap_or_default();
        if entered.is_empty() || self.random.percent(25) {
            let investor = self.csd();
            let technical = if self.random.percent(25) { investor } else { self.csd() };
            return self.fresh_pair(investor, technical);
        }
        let row = self.random.pick(entered);
        self.pair_near(row)
    }

    /// A row that keeps something of an entered one.
    fn pair_near(&mut self, row: Pair) -> Pair {
        let fresh = self.fresh_pair(row.investor, row.technical);
        let served = fresh.served;
        let shared = Pair { served, ..row };
        if row.technical_account == NO_ACCOUNT && self.random.percent(35) {
            let kept = self.random.pick(&[shared, fresh, fresh]);
            return Pair { technical_account: self.account(|_, _| true), ..kept };
        }
        match self.random.below(19) {
            0..=2 => shared,
            3 => fresh,
            4 => row,
            5 => Pair { served: row.served, ..fresh },
            6 => Pair { investor_account: row.investor_account, ..fresh },
            7 => Pair { technical_account: row.technical_account, ..fresh },
            8 => Pair { technical_account: self.pair_of(row.investor, row.technical).technical_account, ..shared },
            9 => {
                let technical = self.csd();
                Pair { investor_account: row.investor_account, ..self.fresh_pair(row.investor, technical) }
            }
            10 => {
                let investor = self.csd();
                Pair { technical_account: row.technical_account, ..self.fresh_pair(investor, row.technical) }
            }
            11 => Pair { investor_account: row.technical_account, ..fresh },
            12 => Pair { technical_account: row.investor_account, ..fresh },
            13 => {
                let investor = self.csd();
                Pair { served: row.served, ..self.fresh_pair(investor, row.technical) }
            }
            14 => {
                let (csd, kind) = (self.csd(), self.random.pick(&[MIRROR, INTER_CSD, PARTICIPANT]));
                Pair { investor_account: self.free_account(csd, kind), ..fresh }
            }
            15 => {
                let (csd, kind) = (self.csd(), self.random.pick(&[OMNIBUS, OMNIBUS, PARTICIPANT]));
                Pair { technical_account: self.free_account(csd, kind), ..fresh }
            }
            _ => Pair { served: self.wrong_served(row.investor), ..row },
        }
    }

    /// Accounts for two CSDs that are mostly in no row, and a served account.
    fn fresh_pair(&mut self, investor: u8, technical: u8) -> Pair {
        let (investor_account, technical_account) = if self.is_external(technical) {
            (self.free_account(investor, INTER_CSD), NO_ACCOUNT)
        } else {
            (self.free_account(investor, MIRROR), self.free_account(technical, OMNIBUS))
        };
        Pair { investor, technical, investor_account, technical_account, served: self.served(investor, technical) }
    }

    /// A row of these two CSDs.
    fn pair_of(&mut self, investor: u8, technical: u8) -> Pair {
        let rows = self.directory.pairs.entered().unwrap_or_default().iter();
        let same: Vec<Pair> =
            rows.filter(|row| row.investor == investor && row.technical == technical).copied().collect();
        self.random.pick(&same)
    }

    fn free_account(&mut self, csd: u8, kind: u8) -> u16 {
        let pairs = self.directory.pairs.entered().unwrap_or_default();
        let free = |number| !pairs.iter().any(|row| row.investor_account == number || row.technical_account == number);
        let fresh = self.random.percent(90);
        self.account(|number, row| *row == Account { csd, kind } && (!fresh || free(number)))
    }

    /// A participant or omnibus account of the investor, mostly without a row at the technical issuer.
    fn served(&mut self, investor: u8, technical: u8) -> u16 {
        let pairs = self.directory.pairs.entered().unwrap_or_default();
        let has_row = |number| pairs.iter().any(|row| row.technical == technical && row.served == number);
        let fresh = self.random.percent(90);
        self.account(|number, row| row.csd == investor && row.kind <= OMNIBUS && !(fresh && has_row(number)))
    }

    /// An account that may not be served, or none.
    fn wrong_served(&mut self, investor: u8) -> u16 {
        match self.random.below(6) {
            0 => NO_ACCOUNT,
            1 => self.account(|_, row| row.csd != investor && row.kind <= OMNIBUS),
            _ => {
                let kind = self.random.pick(&[MIRROR, INTER_CSD, ISSUANCE]);
                self.account(|_, row| *row == Account { csd: investor, kind })
            }
        }
    }

    /// A link of two CSDs, often of one that has links for the security already.
    fn link_row(&mut self) -> Link {
        let links = self.directory.links.entered().unwrap_or_default();
        let (security, csd) = if links.is_empty() || self.random.percent(40) {
            (self.security(), self.csd())
        } else {
            let row = self.random.pick(links);
            (row.security, row.csd)
        };
        let beside = self.links_of(security, csd);
        let days = self.period_near(&beside);
        if self.random.percent(35) {
            return self.issuer_row(security, csd, days);
        }
        let linked = beside.iter().any(|row| row.kind == INVESTOR && row.days.shares_day(days));
        let flag = if linked != self.random.percent(25) { ALTERNATIVE } else { DEFAULT };
        let technical =
            if beside.is_empty() || self.random.percent(60) { self.csd() } else { self.random.pick(&beside).technical };
        let account = if self.random.percent(3) { self.participant() } else { NO_ACCOUNT };
        Link { security, kind: INVESTOR, csd, technical, flag, account, days }
    }

    /// An issuer link, seldom with what only investor links have.
    fn issuer_row(&mut self, security: u8, csd: u8, days: Period) -> Link {
        let none_due = self.is_external(csd) && !self.random.percent(20);
        let account = if none_due { NO_ACCOUNT } else { self.issuance(csd) };
        let technical = if self.random.percent(4) { self.csd() } else { NO_CSD };
        let flag = if self.random.percent(4) { ALTERNATIVE } else { DEFAULT };
        Link { security, kind: ISSUER, csd, technical, flag, account, days }
    }

    fn issuance(&mut self, csd: u8) -> u16 {
        let anywhere = self.random.percent(5);
        self.account(|_, row| row.kind == ISSUANCE && (anywhere || row.csd == csd))
    }

    fn links_of(&self, security: u8, csd: u8) -> Vec<Link> {
        let links = self.directory.links.entered().unwrap_or_default();
        links.iter().filter(|row| row.security == security && row.csd == csd).copied().collect()
    }

    /// A few days, or many.
    fn length(&mut self) -> Day {
        self.random.pick(&[0, 0, 1, 2, 3, 7, 30, 1_000])
    }

    /// Days that touch those of a link, share one of them or more, or leave some out; or any.
    fn period_near(&mut self, links: &[Link]) -> Period {
        if links.is_empty() || self.random.percent(10) {
            return self.any_period();
        }
        let (row, other) = (self.random.pick(links).days, self.random.pick(links).days);
        let length = self.length();
        let (before, behind) = (row.first.saturating_sub(1), row.last.saturating_add(1));
        let from = |first: Day| Period::new(first, first.saturating_add(length));
        let to = |last: Day| Period::new(last.saturating_sub(length), last);
        let gap =
            || Period::new(row.last.min(other.last).saturating_add(1), row.first.max(other.first).saturating_sub(1));
        match self.random.below(26) {
            0 | 1 => row,
            2 | 3 => from(behind),
            4 | 5 => to(before),
            6 | 17 => from(row.last),
            7 | 18 => to(row.first),
            8 => from(behind.saturating_add(1)),
            19 | 20 => gap(),
            9 => Period::new(row.first.saturating_add(1).min(row.last), row.last),
            10 => Period::new(row.first, row.last.saturating_sub(1).max(row.first)),
            11 => Period::new(before, row.last),
            12 => Period::new(row.first, behind),
            13 | 21 => Period::new(row.first.min(other.first), row.last.max(other.last)),
            14 | 22..=25 => Period::new(row.last.min(other.last), row.first.max(other.first)),
            15 => Period::new(row.first.saturating_add(1), row.first),
            _ => Period::new(row.last, row.first),
        }
    }

    fn any_period(&mut self) -> Period {
        let first = self.random.pick(&[0, 1, 10, 1_000, Day::MAX - 5, Day::MAX]);
        let length = self.length();
        match self.random.below(6) {
            0 => Period::new(self.random.bits() as Day, self.random.bits() as Day),
            1 => Period::new(first.max(1), first.max(1) - 1),
            2 => Period::new(first, first.saturating_add(length)),
            _ => Period::ALWAYS,
        }
    }

    /// A day on which a link begins or ends, the one before or after, one of the two ends of all days, or any.
    fn day(&mut self) -> Day {
        let links = self.directory.links.entered().unwrap_or_default();
        if links.is_empty() || self.random.percent(20) {
            let any = self.random.bits() as Day;
            return self.random.pick(&[0, Day::MAX, any]);
        }
        let Period { first, last } = self.random.pick(links).days;
        self.random.pick(&[first, first, last, last, first.saturating_sub(1), last.saturating_add(1)])
    }

    /// What is brought in or taken out, often where a link of the account's CSD begins or ends.
    fn source(&mut self) -> (u16, u8, Day) {
        let (account, security, day) = (self.participant(), self.security(), self.day());
        let csd = self.accounts().get(usize::from(account)).map_or(NO_CSD, |row| row.csd);
        let links = self.links_of(security, csd);
        if links.is_empty() || self.random.percent(30) {
            return (account, security, day);
        }
        let Period { first, last } = self.random.pick(&links).days;
        (account, security, self.random.pick(&[first, last, first.saturating_sub(1), last.saturating_add(1)]))
    }

    /// Halves that go together, mostly between accounts with a chain on the day.
    fn halves<T>(&mut self, command: impl Fn(Half, Half, Day) -> T) -> T {
        let register = Register::of(self.directory);
        let amount = if self.random.percent(50) { 0 } else { self.value() };
        let quantity = self.value();
        loop {
            let by_alternative = self.trade_by_alternative();
            let (from, to, security, day) =
                by_alternative.unwrap_or_else(|| (self.participant(), self.participant(), self.security(), self.day()));
            let (delivering, receiving) = halves(self.directory, from, to, security, quantity, amount);
            let ordered = Halves::by_place(&delivering, &receiving);
            let derive = |register: &Register| register.derive_halves(ordered, day, &mut Chain::default());
            let chain = register.as_ref().is_ok_and(|register| derive(register).is_ok());
            if chain || by_alternative.is_some() || self.random.percent(30) {
                return command(delivering, receiving, day);
            }
        }
    }

    /// Sometimes the two participants of an alternative, on one of its days or just outside them.
    fn trade_by_alternative(&mut self) -> Option<(u16, u16, u8, Day)> {
        let links = self.directory.links.entered().unwrap_or_default();
        let alternatives: Vec<Link> = links.iter().filter(|link| link.flag == ALTERNATIVE).copied().collect();
        if alternatives.is_empty() || self.random.percent(70) {
            return None;
        }
        let Link { security, csd, technical, days: Period { first, last }, .. } = self.random.pick(&alternatives);
        let mut ends = [csd, technical].map(|csd| self.account(|_, row| *row == Account { csd, kind: PARTICIPANT }));
        self.random.shuffle(&mut ends);
        let day = self.random.pick(&[first, last, first.saturating_sub(1), last.saturating_add(1)]);
        Some((ends[0], ends[1], security, day))
    }

    /// The same in either order, mostly with the sides that they have.
    fn sided_halves(&mut self, command: impl Fn(SidedHalf, SidedHalf, Day) -> Command) -> Command {
        let (mut sided, day) = self.halves(|delivering, receiving, day| {
            let delivering = SidedHalf { side: DELIVERING, half: delivering };
            ([delivering, SidedHalf { side: RECEIVING, half: receiving }], day)
        });
        self.random.shuffle(&mut sided);
        let [mut first, mut second] = sided;
        [first.side, second.side] = match self.random.below(10) {
            0 => self.random.pick(&SAME_SIDES),
            1 => self.random.pick(&NO_SIDES),
            _ => [first.side, second.side],
        };
        command(first, second, day)
    }
}
