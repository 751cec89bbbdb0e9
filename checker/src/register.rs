//! A sound directory with its look-ups, in constant time but for the links that one CSD has for one security, and the
//! entries with their refusals. A register only grows by accepted rows, so it is sound without being tested.

use crate::directory::*;
use crate::isin;
use crate::links::{Links, LinksOf, Standing};
use crate::numbers::{AccountNumber, CsdNumber, CsdSet, SecurityNumber};
use crate::refusal::{require, Refusal};

const NO_ROW: u16 = 0xFFFF;

/// The accounts of a pair row: mirror and omnibus, or inter-CSD account and a number that means nothing.
#[derive(Clone, Copy)]
pub struct Duo {
    pub near: AccountNumber,
    pub far: AccountNumber,
}

#[derive(Clone)]
pub struct Register {
    directory: Directory,
    external: CsdSet,
    participants: Table<AccountNumber, ACCOUNTS>,
    /// By account, a pair row that has it as mirror, inter-CSD or omnibus account.
    paired: [u16; ACCOUNTS],
    /// By served account and technical issuer.
    pair_numbers: [[u16; CSDS]; ACCOUNTS],
    links: Links,
}

impl Default for Register {
    fn default() -> Self {
        Register {
            directory: Directory::default(),
            external: CsdSet::default(),
            participants: Table::default(),
            paired: [NO_ROW; ACCOUNTS],
            pair_numbers: [[NO_ROW; CSDS]; ACCOUNTS],
            links: Links::default(),
        }
    }
}

/// Soundness and look-ups.
impl Register {
    /// The register of a record, or 4: "A directory is sound when counts are within limits and each row,
    /// tables taken in this order, would be accepted after the rows before it."
    pub fn of(record: &Directory) -> Result<Box<Register>, Refusal> {
        Register::replay(record).map_err(|_| Refusal::NotSound)
    }

    /// The same, with the first flaw: the table of the row refused, and why (5 for the count).
    pub fn replay(record: &Directory) -> Result<Box<Register>, (&'static str, Refusal)> {
        let mut register = Box::<Register>::default();
        each(&record.csds, |row| register.enter_csd(row)).map_err(|refusal| ("CSDs", refusal))?;
        each(&record.securities, |row| register.enter_security(row)).map_err(|refusal| ("securities", refusal))?;
        each(&record.accounts, |row| register.enter_account(row)).map_err(|refusal| ("accounts", refusal))?;
        each(&record.pairs, |row| register.enter_pair(row)).map_err(|refusal| ("pairs", refusal))?;
        each(&record.links, |row| register.enter_link(row)).map_err(|refusal| ("links", refusal))?;
        Ok(register)
    }

    pub fn directory(&self) -> &Directory {
        &self.directory
    }

    pub fn csd(&self, number: u8) -> Result<CsdNumber, Refusal> {
        require(usize::from(number) < self.directory.csds.count, Refusal::NoRow)?;
        Ok(CsdNumber(number))
    }

    pub fn security(&self, number: u8) -> Result<SecurityNumber, Refusal> {
        require(usize::from(number) < self.directory.securities.count, Refusal::NoRow)?;
        Ok(SecurityNumber(number))
    }

    pub fn account(&self, number: u16) -> Result<AccountNumber, Refusal> {
        require(usize::from(number) < self.directory.accounts.count, Refusal::NoRow)?;
        Ok(AccountNumber(number as u8))
    }

    pub fn account_row(&self, account: AccountNumber) -> &Account {
        &self.directory.accounts.rows[account.index()]
    }

    pub fn account_csd(&self, account: AccountNumber) -> CsdNumber {
        CsdNumber(self.account_row(account).csd)
    }

    pub fn is_participant(&self, account: AccountNumber) -> bool {
        self.account_row(account).kind == PARTICIPANT
    }

    /// The participant accounts, in order of entry.
    pub fn participants(&self) -> &[AccountNumber] {
        &self.participants.rows[..self.participants.count]
    }

    pub fn is_external(&self, csd: CsdNumber) -> bool {
        self.external.contains(csd)
    }

    /// The accounts through which a served one is held at a technical issuer. Its CSD is the investor.
    #[inline(always)]
    pub fn duo(&self, technical: CsdNumber, served: AccountNumber) -> Option<Duo> {
        let row = self.pair(technical, served)?;
        Some(Duo { near: AccountNumber(row.investor_account as u8), far: AccountNumber(row.technical_account as u8) })
    }

    /// The pair row of a served account at a technical issuer.
    #[inline(always)]
    fn pair(&self, technical: CsdNumber, served: AccountNumber) -> Option<&Pair> {
        self.pair_row(self.pair_numbers[served.index()][technical.index()])
    }

    /// A pair row that has the account as mirror, inter-CSD or omnibus account. All that have it name the same
    /// two CSDs and accounts.
    fn pair_with(&self, account: AccountNumber) -> Option<&Pair> {
        self.pair_row(self.paired[account.index()])
    }

    fn pair_row(&self, number: u16) -> Option<&Pair> {
        self.directory.pairs.rows.get(usize::from(number))
    }

    /// The links of a CSD for a security, of all days.
    pub fn links(&self, security: SecurityNumber, csd: CsdNumber) -> LinksOf<'_> {
        self.links.of(security, csd)
    }

    /// The CSDs that have a link for a security to this one on any day.
    pub fn pointing_to(&self, security: SecurityNumber, technical: CsdNumber) -> CsdSet {
        self.links.pointing_to(security, technical)
    }
}

/// Entries. Each adds its row, or gives the lowest refusal and changes nothing.
impl Register {
    pub fn enter_csd(&mut self, csd: Csd) -> Result<(), Refusal> {
        let table = &mut self.directory.csds;
        require(!table.is_full(), Refusal::TableFull)?;
        let in_range = csd.kind <= EXTERNAL && csd.bic.iter().all(|&byte| isin::capital_or_digit(byte));
        require(in_range, Refusal::OutsideRange)?;
        let entered = table.rows[..table.count].iter().any(|row| row.bic == csd.bic);
        require(!entered, Refusal::AlreadyEntered)?;
        if csd.kind == EXTERNAL {
            self.external.insert(CsdNumber(table.count as u8));
        }
        table.push(csd);
        Ok(())
    }

    pub fn enter_security(&mut self, security: Security) -> Result<(), Refusal> {
        let table = &mut self.directory.securities;
        require(!table.is_full(), Refusal::TableFull)?;
        require(isin::well_formed(&security.isin), Refusal::OutsideRange)?;
        require(isin::sum_fits(&security.isin), Refusal::CheckDigit)?;
        require(!table.rows[..table.count].contains(&security), Refusal::AlreadyEntered)?;
        table.push(security);
        Ok(())
    }

    pub fn enter_account(&mut self, account: Account) -> Result<(), Refusal> {
        require(!self.directory.accounts.is_full(), Refusal::TableFull)?;
        let csd = self.csd(account.csd)?;
        require(account.kind <= ISSUANCE, Refusal::OutsideRange)?;
        require(!self.is_external(csd), Refusal::WrongAccount)?;
        if account.kind == PARTICIPANT {
            self.participants.push(AccountNumber(self.directory.accounts.count as u8));
        }
        self.directory.accounts.push(account);
        Ok(())
    }

    pub fn enter_pair(&mut self, pair: Pair) -> Result<(), Refusal> {
        require(!self.directory.pairs.is_full(), Refusal::TableFull)?;
        let investor = self.csd(pair.investor)?;
        let technical = self.csd(pair.technical)?;
        let outside = self.is_external(technical);
        let near = self.account(pair.investor_account)?;
        let far = self.account_or_none(pair.technical_account, !outside)?;
        let served = self.account(pair.served)?;

        let same_triplet = self.pair(technical, served).is_some_and(|row| row.investor == pair.investor);
        require(!same_triplet && self.may_share(&pair, near, far, outside), Refusal::AlreadyEntered)?;

        let is = |account, csd, kind| *self.account_row(account) == Account { csd, kind };
        let near_fits = is(near, pair.investor, if outside { INTER_CSD } else { MIRROR });
        let far_fits = outside || far.is_some_and(|far| is(far, pair.technical, OMNIBUS));
        let served_fits = is(served, pair.investor, PARTICIPANT) || is(served, pair.investor, OMNIBUS);
        require(near_fits && far_fits && served_fits, Refusal::WrongAccount)?;
        require(investor != technical && !(outside && far.is_some()), Refusal::RuleBroken)?;

        let number = self.directory.pairs.count as u16;
        self.paired[near.index()] = number;
        if let Some(far) = far {
            self.paired[far.index()] = number;
        }
        self.pair_numbers[served.index()][technical.index()] = number;
        self.directory.pairs.push(pair);
        Ok(())
    }

    /// "Rows of the same two CSDs may share both accounts or neither, those with an external issuer the inter-CSD
    /// account alone; other rows share none. A served account doesn't count as shared."
    #[inline(always)]
    fn may_share(&self, pair: &Pair, near: AccountNumber, far: Option<AccountNumber>, outside: bool) -> bool {
        let far_is_free = || far.is_none_or(|far| self.pair_with(far).is_none());
        let Some(row) = self.pair_with(near) else {
            return far_is_free();
        };
        let near_is_shared = row.investor == pair.investor
            && row.technical == pair.technical
            && row.investor_account == pair.investor_account;
        near_is_shared && if outside { far_is_free() } else { row.technical_account == pair.technical_account }
    }

    pub fn enter_link(&mut self, link: Link) -> Result<(), Refusal> {
        require(!self.directory.links.is_full(), Refusal::TableFull)?;
        let security = self.security(link.security)?;
        let csd = self.csd(link.csd)?;
        let account_due = link.kind == ISSUER && !self.is_external(csd);
        let technical = match link.technical {
            NO_CSD if link.kind != INVESTOR => None,
            number => Some(self.csd(number)?),
        };
        let account = self.account_or_none(link.account, account_due)?;
        require(link.kind <= INVESTOR && link.flag <= DEFAULT, Refusal::OutsideRange)?;

        let links = self.links(security, csd);
        let entered = technical.is_some() && links.meet(link.days, |other| other.technical() == technical);
        require(!entered, Refusal::AlreadyEntered)?;

        let issuance_fits = |account| *self.account_row(account) == Account { csd: link.csd, kind: ISSUANCE };
        require(!account_due || account.is_some_and(issuance_fits), Refusal::WrongAccount)?;
        require(link.days.has_day(), Refusal::FirstAfterLast)?;

        let account_fits = account.is_some() == account_due;
        let link_fits = match technical {
            None => link.flag == DEFAULT && !links.meet(link.days, |_| true),
            Some(technical) => link.kind == INVESTOR && technical != csd && self.investor_fits(csd, technical, &link),
        };
        require(account_fits && link_fits, Refusal::RuleBroken)?;

        let standing = match technical {
            None => Standing::Issuer(account.unwrap_or_default()),
            Some(technical) if self.is_external(technical) => Standing::InvestorOutside(technical),
            Some(technical) => Standing::Investor(technical),
        };
        self.links.push(security, csd, link.flag, standing, link.days);
        self.directory.links.push(link);
        Ok(())
    }

    /// "The rules on one default [...] and issuer links are judged wherever two periods share a day; an alternative needs
    /// a default on each of its days", and joins two CSDs in T2S.
    fn investor_fits(&self, csd: CsdNumber, technical: CsdNumber, link: &Link) -> bool {
        let links = self.links(SecurityNumber(link.security), csd);
        if link.flag == DEFAULT {
            return !links.defaults_meet(link.days, |_| true);
        }
        let inside = !self.is_external(csd) && !self.is_external(technical);
        let issuer = |other| matches!(other, Standing::Issuer(_));
        inside && !links.defaults_meet(link.days, issuer) && links.have_default_throughout(link.days)
    }

    /// An account number that names a row, or FFFF where no row is due.
    fn account_or_none(&self, number: u16, row_due: bool) -> Result<Option<AccountNumber>, Refusal> {
        if number == NO_ACCOUNT && !row_due {
            return Ok(None);
        }
        self.account(number).map(Some)
    }
}

/// Enters each row of a table in turn.
fn each<Row: Copy, const LIMIT: usize>(
    table: &Table<Row, LIMIT>,
    enter: impl FnMut(Row) -> Result<(), Refusal>,
) -> Result<(), Refusal> {
    table.entered().ok_or(Refusal::TableFull)?.iter().copied().try_for_each(enter)
}
