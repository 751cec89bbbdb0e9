//! The proved library, linked: the desk's functions over any directory and lists of any length. The
//! directory goes as five counts and the bytes of all rows, each row with the bytes of the command that
//! enters it, and a step as five bytes (crates/layout/src/lib.rt).

use crate::booking::{Cents, Units};
use crate::chain::{Step, STEPS};
use crate::command::{Command, Reader};
use crate::directory::*;
use crate::trial::implementation::{Answer, Call, Implementation, Program, Store};

/// The command that enters a row of each table, and the bytes of a row.
const ENTRIES: [u8; 5] = [0x01, 0x02, 0x03, 0x0E, 0x05];
const WIDTHS: [usize; 5] = [12, 12, 2, 8, 11];
const ROWS: [usize; 5] = [CSDS, SECURITIES, ACCOUNTS, PAIRS, LINKS];
const STEP_WIDTH: usize = 5;
pub const STEP_BYTES: usize = STEPS * STEP_WIDTH;
/// Bytes of all rows.
pub const ROW_BYTES: usize = {
    let (mut bytes, mut table) = (0, 0);
    while table < ROWS.len() {
        bytes += ROWS[table] * WIDTHS[table];
        table += 1;
    }
    bytes
};
/// Bytes that hold any transcript (crates/stream/src/lib.rt, ROOM).
pub const ROOM: usize = 400_000;

/// What an answer's number starts from, by kind.
const KIND: u64 = 256;
/// The answer where counts, rows or the place of a sum do not fit.
pub const MISFIT: u64 = 5 * KIND;

/// What stands where a sum is to go.
const NO_SUM: i64 = i64::MIN;

/// The boundary, over buffers of any length. A Rattle slice is a pointer and a length; nothing is kept after a call.
pub mod boundary {
    #![allow(unsafe_code)]

    use super::*;

    extern "C" {
        fn fluzzam_enter(
            counts: *mut usize,
            counts_length: usize,
            rows: *mut u8,
            rows_length: usize,
            tag: u8,
            operands: *const u8,
            operands_length: usize,
        ) -> u64;
        fn fluzzam_move(
            counts: *const usize,
            counts_length: usize,
            rows: *const u8,
            rows_length: usize,
            positions: *mut i64,
            positions_length: usize,
            cash: *mut i64,
            cash_length: usize,
            tag: u8,
            operands: *const u8,
            operands_length: usize,
        ) -> u64;
        fn fluzzam_settle(
            counts: *const usize,
            counts_length: usize,
            rows: *const u8,
            rows_length: usize,
            positions: *mut i64,
            positions_length: usize,
            cash: *mut i64,
            cash_length: usize,
            operands: *const u8,
            operands_length: usize,
            steps: *mut u8,
            steps_length: usize,
        ) -> u64;
        fn fluzzam_derive(
            counts: *const usize,
            counts_length: usize,
            rows: *const u8,
            rows_length: usize,
            operands: *const u8,
            operands_length: usize,
            steps: *mut u8,
            steps_length: usize,
        ) -> u64;
        fn fluzzam_settle_sided(
            counts: *const usize,
            counts_length: usize,
            rows: *const u8,
            rows_length: usize,
            positions: *mut i64,
            positions_length: usize,
            cash: *mut i64,
            cash_length: usize,
            operands: *const u8,
            operands_length: usize,
            steps: *mut u8,
            steps_length: usize,
        ) -> u64;
        fn fluzzam_derive_sided(
            counts: *const usize,
            counts_length: usize,
            rows: *const u8,
            rows_length: usize,
            operands: *const u8,
            operands_length: usize,
            steps: *mut u8,
            steps_length: usize,
        ) -> u64;
        fn fluzzam_security_total(
            counts: *const usize,
            counts_length: usize,
            rows: *const u8,
            rows_length: usize,
            positions: *const i64,
            positions_length: usize,
            security: u8,
            sum: *mut i64,
            sum_length: usize,
        ) -> u64;
        fn fluzzam_run(input: *const u8, input_length: usize, output: *mut u8, output_length: usize) -> usize;
        fn fluzzam_cash_total(cash: *const i64, cash_length: usize, sum: *mut i64, sum_length: usize) -> u64;
    }

    // SAFETY, of each call: every pointer is that of a slice, with its length, borrowed for the call as
    // the function takes it (shared or exclusive); `Units` and `Cents` are transparent over i64.

    pub fn enter(directory: &mut Bytes, tag: u8, operands: &[u8]) -> u64 {
        let Bytes { counts, rows } = directory;
        unsafe {
            fluzzam_enter(
                counts.as_mut_ptr(),
                counts.len(),
                rows.as_mut_ptr(),
                rows.len(),
                tag,
                operands.as_ptr(),
                operands.len(),
            )
        }
    }

    pub fn move_(directory: &Bytes, positions: &mut [Units], cash: &mut [Cents], tag: u8, operands: &[u8]) -> u64 {
        let Bytes { counts, rows } = directory;
        unsafe {
            fluzzam_move(
                counts.as_ptr(),
                counts.len(),
                rows.as_ptr(),
                rows.len(),
                positions.as_mut_ptr().cast(),
                positions.len(),
                cash.as_mut_ptr().cast(),
                cash.len(),
                tag,
                operands.as_ptr(),
                operands.len(),
            )
        }
    }

    /// An export that settles two halves, in order or with their sides.
    type Settle = unsafe extern "C" fn(
        *const usize,
        usize,
        *const u8,
        usize,
        *mut i64,
        usize,
        *mut i64,
        usize,
        *const u8,
        usize,
        *mut u8,
        usize,
    ) -> u64;

    /// One that derives their chain.
    type Derive = unsafe extern "C" fn(*const usize, usize, *const u8, usize, *const u8, usize, *mut u8, usize) -> u64;

    fn settle_by(
        export: Settle,
        directory: &Bytes,
        positions: &mut [Units],
        cash: &mut [Cents],
        operands: &[u8],
        steps: &mut [u8],
    ) -> u64 {
        let Bytes { counts, rows } = directory;
        unsafe {
            export(
                counts.as_ptr(),
                counts.len(),
                rows.as_ptr(),
                rows.len(),
                positions.as_mut_ptr().cast(),
                positions.len(),
                cash.as_mut_ptr().cast(),
                cash.len(),
                operands.as_ptr(),
                operands.len(),
                steps.as_mut_ptr(),
                steps.len(),
            )
        }
    }

    fn derive_by(export: Derive, directory: &Bytes, operands: &[u8], steps: &mut [u8]) -> u64 {
        let Bytes { counts, rows } = directory;
        unsafe {
            export(
                counts.as_ptr(),
                counts.len(),
                rows.as_ptr(),
                rows.len(),
                operands.as_ptr(),
                operands.len(),
                steps.as_mut_ptr(),
                steps.len(),
            )
        }
    }

    pub fn settle(
        directory: &Bytes,
        positions: &mut [Units],
        cash: &mut [Cents],
        operands: &[u8],
        steps: &mut [u8],
    ) -> u64 {
        settle_by(fluzzam_settle, directory, positions, cash, operands, steps)
    }

    pub fn settle_sided(
        directory: &Bytes,
        positions: &mut [Units],
        cash: &mut [Cents],
        operands: &[u8],
        steps: &mut [u8],
    ) -> u64 {
        settle_by(fluzzam_settle_sided, directory, positions, cash, operands, steps)
    }

    pub fn derive(directory: &Bytes, operands: &[u8], steps: &mut [u8]) -> u64 {
        derive_by(fluzzam_derive, directory, operands, steps)
    }

    pub fn derive_sided(directory: &Bytes, operands: &[u8], steps: &mut [u8]) -> u64 {
        derive_by(fluzzam_derive_sided, directory, operands, steps)
    }

    pub fn security_total(directory: &Bytes, positions: &[Units], security: u8, sum: &mut [i64]) -> u64 {
        let Bytes { counts, rows } = directory;
        unsafe {
            fluzzam_security_total(
                counts.as_ptr(),
                counts.len(),
                rows.as_ptr(),
                rows.len(),
                positions.as_ptr().cast(),
                positions.len(),
                security,
                sum.as_mut_ptr(),
                sum.len(),
            )
        }
    }

    pub fn run(input: &[u8], output: &mut [u8]) -> usize {
        unsafe { fluzzam_run(input.as_ptr(), input.len(), output.as_mut_ptr(), output.len()) }
    }

    pub fn cash_total(cash: &[Cents], sum: &mut [i64]) -> u64 {
        unsafe { fluzzam_cash_total(cash.as_ptr().cast(), cash.len(), sum.as_mut_ptr(), sum.len()) }
    }
}

/// A directory as it goes through the boundary.
#[derive(Clone, PartialEq, Eq, Debug, Default)]
pub struct Bytes {
    pub counts: Vec<usize>,
    pub rows: Vec<u8>,
}

impl Bytes {
    pub fn write(&mut self, directory: &Directory) {
        let Directory { csds, securities, accounts, pairs, links } = directory;
        self.counts.clear();
        self.counts.extend([csds.count, securities.count, accounts.count, pairs.count, links.count]);
        self.rows.clear();
        let rows = &mut self.rows;
        csds.rows.iter().for_each(|row| Command::EnterCsd(*row).write_operands(rows));
        securities.rows.iter().for_each(|row| Command::EnterSecurity(*row).write_operands(rows));
        accounts.rows.iter().for_each(|row| Command::EnterAccount(*row).write_operands(rows));
        pairs.rows.iter().for_each(|row| Command::EnterPair(*row).write_operands(rows));
        links.rows.iter().for_each(|row| Command::EnterLink(*row).write_operands(rows));
    }

    fn read(&self) -> Directory {
        let mut directory = Directory::default();
        let mut rest = &self.rows[..];
        for (table, width) in WIDTHS.into_iter().enumerate() {
            for number in 0..ROWS[table] {
                let (row, behind) = rest.split_at(width);
                rest = behind;
                let Directory { csds, securities, accounts, pairs, links } = &mut directory;
                match read_row(ENTRIES[table], row) {
                    Command::EnterCsd(row) => csds.rows[number] = row,
                    Command::EnterSecurity(row) => securities.rows[number] = row,
                    Command::EnterAccount(row) => accounts.rows[number] = row,
                    Command::EnterPair(row) => pairs.rows[number] = row,
                    Command::EnterLink(row) => links.rows[number] = row,
                    _ => unreachable!("these are the entries"),
                }
            }
        }
        let [csds, securities, accounts, pairs, links] = self.counts[..] else {
            unreachable!("five counts were written")
        };
        directory.csds.count = csds;
        directory.securities.count = securities;
        directory.accounts.count = accounts;
        directory.pairs.count = pairs;
        directory.links.count = links;
        directory
    }
}

fn read_row(code: u8, operands: &[u8]) -> Command {
    let mut bytes = [code; 13];
    bytes[1..=operands.len()].copy_from_slice(operands);
    Reader::new(&bytes).command().expect("a row has all the operands of its command")
}

/// Steps as they go through the boundary.
pub fn write_steps(bytes: &mut Vec<u8>, steps: &[Step]) {
    bytes.clear();
    for &Step { csd, debit, credit } in steps {
        bytes.push(csd);
        bytes.extend(debit.to_be_bytes());
        bytes.extend(credit.to_be_bytes());
    }
}

fn read_step(bytes: &[u8]) -> Step {
    let account = |place: usize| u16::from_be_bytes([bytes[place], bytes[place + 1]]);
    Step { csd: bytes[0], debit: account(1), credit: account(3) }
}

/// The steps of a whole buffer; fewer than five bytes at its end are none.
pub fn read_steps(bytes: &[u8]) -> Vec<Step> {
    bytes.chunks_exact(STEP_WIDTH).map(read_step).collect()
}

/// The number that an answer goes through the boundary as.
pub fn code(answer: &Answer) -> u64 {
    match *answer {
        Answer::Accepted => 0,
        Answer::Booked(length) => KIND + length as u64,
        Answer::Chain(length) => 2 * KIND + length as u64,
        Answer::Refused(number) => 3 * KIND + u64::from(number),
        Answer::Sum(_) => 4 * KIND,
    }
}

fn answer(code: u64, sum: i64) -> Answer {
    let number = code % KIND;
    match code / KIND {
        0 => Answer::Accepted,
        1 => Answer::Booked(number as usize),
        2 => Answer::Chain(number as usize),
        3 => Answer::Refused(number as u8),
        4 => Answer::Sum(sum),
        _ => panic!("the buffers do not fit the proved library's"),
    }
}

/// The proved library.
#[derive(Default)]
pub struct Proved {
    directory: Bytes,
    before: Bytes,
    command: Vec<u8>,
    steps: Vec<u8>,
}

impl Program for Proved {
    fn transcript(&mut self, input: &[u8]) -> Vec<u8> {
        let mut output = vec![0; ROOM];
        let length = boundary::run(input, &mut output);
        output.truncate(length);
        output
    }
}

impl Proved {
    /// The directory that calls are handed from now on, as it goes through the boundary.
    pub fn hand(&mut self, directory: &Directory) {
        self.directory.write(directory);
    }

    /// One call on the directory handed: its number, and what it leaves.
    pub fn make(&mut self, store: &mut Store, call: &Call, sum: &mut [i64; 1], steps: &mut [u8]) -> u64 {
        let directory = &mut self.directory;
        let Store { positions, cash, .. } = store;
        let command = match call {
            Call::Total { security } => return boundary::security_total(directory, positions, *security, sum),
            Call::CashTotal => return boundary::cash_total(cash, sum),
            Call::Command(command) => command,
        };
        self.command.clear();
        command.write(&mut self.command);
        let (tag, operands) = (self.command[0], &self.command[1..]);
        match command {
            Command::Settle { .. } => boundary::settle(directory, positions, cash, operands, steps),
            Command::Derive { .. } => boundary::derive(directory, operands, steps),
            Command::SettleSided { .. } => boundary::settle_sided(directory, positions, cash, operands, steps),
            Command::DeriveSided { .. } => boundary::derive_sided(directory, operands, steps),
            Command::BringIn { .. } | Command::TakeOut { .. } | Command::PayIn { .. } | Command::PayOut { .. } => {
                boundary::move_(directory, positions, cash, tag, operands)
            }
            _ => boundary::enter(directory, tag, operands),
        }
    }
}

impl Implementation for Proved {
    /// The whole list of steps goes through the boundary and comes back. A refused call leaves counts, rows and
    /// the place of a sum as they were, byte by byte.
    fn call(&mut self, store: &mut Store, call: &Call) -> Answer {
        let mut sum = [NO_SUM];
        let mut steps = std::mem::take(&mut self.steps);
        write_steps(&mut steps, &store.steps);
        self.hand(&store.directory);
        self.before.clone_from(&self.directory);
        let code = self.make(store, call, &mut sum, &mut steps);
        let answer = answer(code, sum[0]);
        if matches!(answer, Answer::Refused(_)) {
            assert!(self.directory == self.before && sum == [NO_SUM], "{call:?}: refused, but written");
        }
        if self.directory != self.before {
            store.directory = self.directory.read();
        }
        store.steps = read_steps(&steps);
        self.steps = steps;
        answer
    }
}

#[cfg(test)]
mod tests {
    use super::*;
    use crate::trial::calls;
    use crate::trial::random::Random;

    #[test]
    fn rows_have_the_bytes_of_their_commands() {
        assert_eq!(ROW_BYTES, 6_592);
        let mut random = Random::new(5);
        for _ in 0..200 {
            let directory = calls::store(&mut random).directory;
            let mut bytes = Bytes::default();
            bytes.write(&directory);
            assert_eq!((bytes.counts.len(), bytes.rows.len()), (5, ROW_BYTES));
            assert!(bytes.read() == directory);
        }
    }
}
