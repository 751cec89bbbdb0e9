//! A new pair row, judged word by word over plain lists of rows: the answer that is due, and in which ways.

use super::literal::Rows;
use crate::directory::*;

/// A way in which a row can be due an answer, the answer's number (0 for acceptance), and whether the row is so.
type Way = (&'static str, u8, bool);

/// The number that is due to a new row, and all ways in which it is.
pub fn due(rows: &Rows, new: &Pair) -> (u8, Vec<&'static str>) {
    let ways = ways(rows, new);
    let applies = |number: &u8| ways.iter().any(|way| way.2 && way.1 == *number);
    let number = [5, 6, 9, 10, 11].into_iter().find(applies).unwrap_or(0);
    (number, ways.iter().filter(|way| way.2 && way.1 == number).map(|way| way.0).collect())
}

/// Every way with its number.
pub fn all_ways() -> Vec<(&'static str, u8)> {
    ways(&Rows::default(), &Pair::default()).into_iter().map(|(name, number, _)| (name, number)).collect()
}

fn ways(rows: &Rows, new: &Pair) -> Vec<Way> {
    let row = Row::new(rows, new);
    let full = [("512 rows are entered", 5, rows.pairs.len() >= PAIRS)];
    [&full, &row.numbers()[..], &row.triplets(), &row.sharing(), &row.accounts(), &row.rules(), &row.accepted()]
        .concat()
}

/// A new row beside those entered.
struct Row<'a> {
    rows: &'a Rows,
    new: &'a Pair,
    /// Whether the technical issuer is external.
    outside: bool,
    /// Rows of "the same two CSDs", and others.
    same: Vec<Pair>,
    other: Vec<Pair>,
}

impl Row<'_> {
    fn new<'a>(rows: &'a Rows, new: &'a Pair) -> Row<'a> {
        let same_csds = |row: &Pair| row.investor == new.investor && row.technical == new.technical;
        let (same, other) = rows.pairs.iter().partition(|row| same_csds(row));
        Row { rows, new, outside: rows.is_external(new.technical), same, other }
    }

    fn account(&self, number: u16) -> Option<&Account> {
        self.rows.accounts.get(usize::from(number))
    }

    /// "Number names no row (FF, FFFF excepted where the directory takes them)."
    fn numbers(&self) -> [Way; 7] {
        let Pair { investor, technical, investor_account, technical_account, served } = *self.new;
        let no_csd = |number: u8| usize::from(number) >= self.rows.csds.len();
        let no_account = |number: u16| number != NO_ACCOUNT && self.account(number).is_none();
        let none_due = no_csd(technical) || self.outside;
        [
            ("no such investor", 6, no_csd(investor)),
            ("no such technical issuer", 6, no_csd(technical)),
            ("no such first account", 6, self.account(investor_account).is_none()),
            ("no such second account", 6, no_account(technical_account)),
            ("FFFF as second account in T2S", 6, technical_account == NO_ACCOUNT && !none_due),
            ("no such served account", 6, no_account(served)),
            ("FFFF as served account", 6, served == NO_ACCOUNT),
        ]
    }

    /// "9 the same triplet."
    fn triplets(&self) -> [Way; 2] {
        let Pair { investor_account, technical_account, served, .. } = *self.new;
        let entered = self.same.iter().find(|row| row.served == served);
        let as_entered = entered
            .is_some_and(|row| row.investor_account == investor_account && row.technical_account == technical_account);
        [
            ("the same triplet, its accounts", 9, as_entered),
            ("the same triplet, other accounts", 9, entered.is_some() && !as_entered),
        ]
    }

    /// "Rows of the same two CSDs may share both accounts or neither, those with an external issuer the inter-CSD
    /// account alone; other rows share none." Served accounts are not looked at.
    fn sharing(&self) -> [Way; 9] {
        let inside = !self.outside;
        let (first, second) = (self.first_is_shared(), self.second_is_shared());
        let free = !first;
        let paired = self.second_is_paired();
        let elsewhere = |account: u16, column: fn(&Pair) -> u16| named(&self.other, account, column);
        let anywhere = |account: u16, column: fn(&Pair) -> u16| named(&self.rows.pairs, account, column);
        let Pair { investor_account: one, technical_account: other, .. } = *self.new;
        [
            ("a mirror shared, its omnibus not", 9, inside && first && !second),
            ("an omnibus shared, its mirror not", 9, inside && second && !first),
            ("mirror and omnibus of two duos", 9, inside && first && second && !self.both_are_shared()),
            ("the first account of other CSDs", 9, elsewhere(one, |row| row.investor_account)),
            ("the second account of other CSDs", 9, inside && elsewhere(other, |row| row.technical_account)),
            ("a second account given first", 9, anywhere(one, |row| row.technical_account)),
            ("a first account given second", 9, inside && anywhere(other, |row| row.investor_account)),
            ("external issuer: first shared, second paired", 9, self.outside && first && paired),
            ("external issuer: first free, second paired", 9, self.outside && free && paired),
        ]
    }

    /// "Account of wrong kind or CSD", and "a participant or omnibus account of the investor CSD" served.
    fn accounts(&self) -> [Way; 10] {
        let Pair { investor, technical, investor_account, technical_account, served } = *self.new;
        let external = self.rows.is_external(investor);
        let csd_is_other = |number: u16, csd: u8| self.account(number).is_some_and(|row| row.csd != csd);
        let kind_is = |number: u16, kind: u8| self.account(number).is_some_and(|row| row.kind == kind);
        let first_kind = if self.outside { INTER_CSD } else { MIRROR };
        let (first, second) = (!external, !external && !self.outside);
        let served_elsewhere = !external && csd_is_other(served, investor);
        let has_row_there = self.rows.pairs.iter().any(|row| row.technical == technical && row.served == served);
        [
            ("an external investor", 10, external),
            ("a first account of another CSD", 10, first && csd_is_other(investor_account, investor)),
            ("a first account of another kind", 10, first && !kind_is(investor_account, first_kind)),
            ("a second account of another CSD", 10, second && csd_is_other(technical_account, technical)),
            ("a second account of another kind", 10, second && !kind_is(technical_account, OMNIBUS)),
            ("an account of another CSD served", 10, served_elsewhere && !has_row_there),
            ("an account of another CSD served, with its row", 10, served_elsewhere && has_row_there),
            ("a mirror served", 10, !external && kind_is(served, MIRROR)),
            ("an inter-CSD account served", 10, !external && kind_is(served, INTER_CSD)),
            ("an issuance account served", 10, !external && kind_is(served, ISSUANCE)),
        ]
    }

    /// "Other pair rule broken."
    fn rules(&self) -> [Way; 3] {
        let row_second = self.outside && self.new.technical_account != NO_ACCOUNT && !self.second_is_paired();
        [
            ("one CSD on both sides", 11, self.new.investor == self.new.technical),
            ("external issuer: first shared, second free", 11, row_second && self.first_is_shared()),
            ("external issuer: first free, second free", 11, row_second && !self.first_is_shared()),
        ]
    }

    fn accepted(&self) -> [Way; 11] {
        let Pair { technical, technical_account, served, .. } = *self.new;
        let (inside, outside, first_row) = (!self.outside, self.outside, self.same.is_empty());
        let (first, both) = (self.first_is_shared(), self.both_are_shared());
        let kind = self.account(served).map(|row| row.kind);
        let is_omnibus = kind == Some(OMNIBUS);
        let omnibus_of_a_row = named(&self.rows.pairs, served, |row| row.technical_account);
        let served_too = self.rows.pairs.iter().any(|row| row.served == served && row.technical != technical);
        [
            ("the first duo of two CSDs", 0, inside && first_row),
            ("another duo of two CSDs", 0, inside && !first_row && !both),
            ("a shared duo", 0, inside && both),
            ("the first row with an external issuer", 0, outside && first_row),
            ("another inter-CSD account for an external issuer", 0, outside && !first_row && !first),
            ("a shared inter-CSD account", 0, outside && first),
            ("a participant served", 0, kind == Some(PARTICIPANT)),
            ("an omnibus of a row served", 0, is_omnibus && omnibus_of_a_row),
            ("an omnibus of no row served", 0, is_omnibus && !omnibus_of_a_row),
            ("an account served at two technical issuers", 0, served_too),
            (
                "an omnibus that is served already",
                0,
                inside && named(&self.rows.pairs, technical_account, |row| row.served),
            ),
        ]
    }

    fn first_is_shared(&self) -> bool {
        named(&self.same, self.new.investor_account, |row| row.investor_account)
    }

    fn second_is_shared(&self) -> bool {
        named(&self.same, self.new.technical_account, |row| row.technical_account)
    }

    fn both_are_shared(&self) -> bool {
        let Pair { investor_account, technical_account, .. } = *self.new;
        let both = |row: &Pair| row.investor_account == investor_account && row.technical_account == technical_account;
        self.same.iter().any(both)
    }

    fn second_is_paired(&self) -> bool {
        let second = self.new.technical_account;
        named(&self.rows.pairs, second, |row| row.investor_account)
            || named(&self.rows.pairs, second, |row| row.technical_account)
    }
}

/// Whether a row has the account in this column; FFFF "never counts as already entered or shared".
fn named(rows: &[Pair], account: u16, column: fn(&Pair) -> u16) -> bool {
    account != NO_ACCOUNT && rows.iter().any(|row| column(row) == account)
}
