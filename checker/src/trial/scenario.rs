//! A stream in the making: commands are written down and carried out by the model at once, so that
//! what comes next can go by what was accepted.

use crate::booking::{Cents, Half, Units};
use crate::command::Command;
use crate::directory::*;
use crate::isin;
use crate::refusal::Refusal;
use crate::transcript::{Done, Session};

pub struct Scenario {
    pub bytes: Vec<u8>,
    pub session: Session,
    /// The days of the links that are entered next.
    pub days: Period,
    /// The day of the instructions that come next.
    pub day: Day,
}

/// Nothing yet. Links have all days, and it is day 0.
impl Default for Scenario {
    fn default() -> Self {
        Scenario { bytes: Vec::new(), session: Session::default(), days: Period::ALWAYS, day: 0 }
    }
}

impl Scenario {
    pub fn directory(&self) -> &Directory {
        self.session.register().directory()
    }

    pub fn send(&mut self, command: Command) -> Result<Done, Refusal> {
        command.write(&mut self.bytes);
        self.session.execute(&command)
    }

    /// Enters a CSD and gives its number.
    pub fn csd(&mut self, kind: u8) -> u8 {
        let number = self.directory().csds.count;
        let _ = self.send(Command::EnterCsd(Csd { kind, bic: bic(number) }));
        number as u8
    }

    /// Enters a security and gives its number.
    pub fn security(&mut self) -> u8 {
        let number = self.directory().securities.count;
        let _ = self.send(Command::EnterSecurity(Security { isin: isin_of(number) }));
        number as u8
    }

    /// Opens an account and gives its number.
    pub fn account(&mut self, csd: u8, kind: u8) -> u16 {
        let number = self.directory().accounts.count;
        let _ = self.send(Command::EnterAccount(Account { csd, kind }));
        number as u16
    }

    /// The first account of a CSD and kind, opened where there is none.
    pub fn own_account(&mut self, csd: u8, kind: u8) -> u16 {
        let rows = self.directory().accounts.entered().unwrap_or_default();
        match rows.iter().position(|row| *row == Account { csd, kind }) {
            Some(number) => number as u16,
            None => self.account(csd, kind),
        }
    }

    pub fn participant(&mut self, csd: u8) -> u16 {
        self.own_account(csd, PARTICIPANT)
    }

    pub fn is_external(&self, csd: u8) -> bool {
        self.directory().csds.get(usize::from(csd)).is_some_and(|row| row.kind == EXTERNAL)
    }

    /// The CSD of an account.
    pub fn csd_of(&self, account: u16) -> u8 {
        self.directory().accounts.get(usize::from(account)).map_or(NO_CSD, |row| row.csd)
    }

    /// All participant accounts of a CSD.
    pub fn participants(&self, csd: u8) -> Vec<u16> {
        let rows = self.directory().accounts.entered().unwrap_or_default();
        let own = Account { csd, kind: PARTICIPANT };
        rows.iter().enumerate().filter(|(_, row)| **row == own).map(|(number, _)| number as u16).collect()
    }

    /// The accounts of an investor CSD and a technical issuer, in order of entry.
    fn duos(&self, investor: u8, technical: u8) -> Vec<(u16, u16)> {
        let rows = self.directory().pairs.entered().unwrap_or_default();
        let mut duos = Vec::new();
        for row in rows.iter().filter(|row| row.investor == investor && row.technical == technical) {
            let duo = (row.investor_account, row.technical_account);
            if !duos.contains(&duo) {
                duos.push(duo);
            }
        }
        duos
    }

    /// Enters the row of a served account at a technical issuer, unless it is there: over the accounts of this place
    /// among those of the two CSDs, or over new ones where there are fewer. Gives the omnibus account reached, if any.
    pub fn serve(&mut self, served: u16, technical: u8, duo: usize) -> Option<u16> {
        let investor = self.csd_of(served);
        let rows = self.directory().pairs.entered().unwrap_or_default();
        let omnibus = |account: u16| Some(account).filter(|&account| account != NO_ACCOUNT);
        if let Some(row) = rows.iter().find(|row| row.technical == technical && row.served == served) {
            return omnibus(row.technical_account);
        }
        let (investor_account, technical_account) = match self.duos(investor, technical).get(duo) {
            Some(&duo) => duo,
            None if self.is_external(technical) => (self.account(investor, INTER_CSD), NO_ACCOUNT),
            None => (self.account(investor, MIRROR), self.account(technical, OMNIBUS)),
        };
        let row = Pair { investor, technical, investor_account, technical_account, served };
        self.send(Command::EnterPair(row)).ok()?;
        omnibus(technical_account)
    }

    /// Enters the rows of an account and of each omnibus that it reaches, along a path from its CSD.
    pub fn climb(&mut self, account: u16, path: &[u8], duo: usize) {
        let mut beyond = path.iter().skip(1);
        beyond.try_fold(account, |served, &technical| self.serve(served, technical, duo));
    }

    /// Enters the rows of accounts, and of each omnibus that they reach, along all hops from CSD to technical issuer.
    /// For each row the place of its accounts is asked, or that it be left out.
    pub fn serve_along(
        &mut self,
        accounts: &[u16],
        hops: &[(u8, u8)],
        mut duo: impl FnMut(&mut Scenario) -> Option<usize>,
    ) {
        let mut reached = accounts.to_vec();
        let mut next = 0;
        while let Some(&served) = reached.get(next) {
            next += 1;
            let csd = self.csd_of(served);
            for &(_, technical) in hops.iter().filter(|hop| hop.0 == csd) {
                let Some(duo) = duo(self) else { continue };
                let omnibus = self.serve(served, technical, duo);
                reached.extend(omnibus.filter(|omnibus| !reached.contains(omnibus)));
            }
        }
    }

    /// Enters an issuer link, with an issuance account of its own where the CSD is in T2S, and tells whether it is accepted.
    pub fn issuer(&mut self, security: u8, csd: u8) -> bool {
        let account = if self.is_external(csd) { NO_ACCOUNT } else { self.own_account(csd, ISSUANCE) };
        let link = Link { security, kind: ISSUER, csd, technical: NO_CSD, flag: DEFAULT, account, days: self.days };
        self.send(Command::EnterLink(link)).is_ok()
    }

    /// Enters an investor link, and tells whether it is accepted.
    pub fn link(&mut self, security: u8, csd: u8, technical: u8, flag: u8) -> bool {
        let link = Link { security, kind: INVESTOR, csd, technical, flag, account: NO_ACCOUNT, days: self.days };
        self.send(Command::EnterLink(link)).is_ok()
    }

    pub fn bring_in(&mut self, account: u16, security: u8, quantity: i64) -> Result<Done, Refusal> {
        self.send(Command::BringIn { account, security, quantity: Units(quantity), day: self.day })
    }

    pub fn take_out(&mut self, account: u16, security: u8, quantity: i64) -> Result<Done, Refusal> {
        self.send(Command::TakeOut { account, security, quantity: Units(quantity), day: self.day })
    }

    pub fn pay_in(&mut self, account: u16, amount: i64) -> Result<Done, Refusal> {
        self.send(Command::PayIn { account, amount: Cents(amount) })
    }

    pub fn pay_out(&mut self, account: u16, amount: i64) -> Result<Done, Refusal> {
        self.send(Command::PayOut { account, amount: Cents(amount) })
    }

    pub fn settle(&mut self, from: u16, to: u16, security: u8, quantity: i64, amount: i64) -> Result<Done, Refusal> {
        let (delivering, receiving) = halves(self.directory(), from, to, security, quantity, amount);
        self.send(Command::Settle { delivering, receiving, day: self.day })
    }

    pub fn derive(&mut self, from: u16, to: u16, security: u8, quantity: i64, amount: i64) -> Result<Done, Refusal> {
        let (delivering, receiving) = halves(self.directory(), from, to, security, quantity, amount);
        self.send(Command::Derive { delivering, receiving, day: self.day })
    }
}

/// Two halves that go together.
pub fn halves(directory: &Directory, from: u16, to: u16, security: u8, quantity: i64, amount: i64) -> (Half, Half) {
    let csd = |account: u16| directory.accounts.get(usize::from(account)).map_or(NO_CSD, |row| row.csd);
    let half = |account, counterpart| Half {
        account,
        counterpart: csd(counterpart),
        security,
        quantity: Units(quantity),
        amount: Cents(amount),
    };
    (half(from, to), half(to, from))
}

/// A BIC for a CSD number.
pub fn bic(number: usize) -> Bic {
    let mut bic = *b"AAAAXX00XXX";
    bic[6] += (number / 10 % 10) as u8;
    bic[7] += (number % 10) as u8;
    bic
}

/// A valid ISIN for a security number.
pub fn isin_of(number: usize) -> Isin {
    let mut isin = *b"XS0000000000";
    isin[9] += (number / 10 % 10) as u8;
    isin[10] += (number % 10) as u8;
    with_check_digit(isin)
}

/// The ISIN with the check digit that fits its first eleven bytes.
pub fn with_check_digit(mut isin: Isin) -> Isin {
    for digit in b'0'..=b'9' {
        isin[11] = digit;
        if isin::sum_fits(&isin) {
            break;
        }
    }
    isin
}
