//! The lines that the program prints, written in place.

use crate::chain::{Accounts, Chain};
use crate::directory::{ACCOUNTS, CSDS};
use crate::numbers::CsdNumber;

/// Room for the lines of one answer: those of 16 steps are the longest.
const LINES: usize = 384;

/// All lines so far, and the number of the command answered last.
pub struct Text {
    bytes: Vec<u8>,
    length: usize,
    number: Counter,
}

impl Text {
    /// With room for so many bytes, and for two more answers: that to a command cut short, and the last one.
    pub fn with_room(room: usize) -> Text {
        Text { bytes: vec![0; room + 2 * LINES], length: 0, number: Counter::default() }
    }

    pub fn into_bytes(mut self) -> Vec<u8> {
        self.bytes.truncate(self.length);
        self.bytes
    }

    pub fn too_long(&mut self) {
        self.lines(|lines| lines.word(b"too long\n"));
    }

    #[inline(always)]
    pub fn accepted(&mut self) {
        self.answer(|lines| lines.word(b" ok\n"));
    }

    #[inline(always)]
    pub fn refused(&mut self, refusal: u8) {
        self.answer(|lines| {
            lines.word(b" no ");
            lines.last_field(refusal);
        });
    }

    /// The line of a chain that was booked or derived, and one for each step. It is not inlined, so that its loops have
    /// all registers.
    #[inline(never)]
    pub fn chain<const WIDTH: usize>(&mut self, word: &[u8; WIDTH], chain: &Chain) {
        self.answer(|lines| {
            lines.word(word);
            lines.last_field(chain.length() as u8);
            for (csd, leg) in chain.delivering.iter() {
                lines.step(csd, leg.up());
            }
            for (csd, leg) in chain.receiving.iter().rev() {
                lines.step(csd, leg.down());
            }
        });
    }

    pub fn total(&mut self, isin: &[u8; 12], sum: i64) {
        self.lines(|lines| {
            lines.word(b"total ");
            lines.word(isin);
            lines.sum(sum);
        });
    }

    pub fn cash(&mut self, sum: i64) {
        self.lines(|lines| {
            lines.word(b"cash");
            lines.sum(sum);
        });
    }

    /// The lines of the next command, its number first.
    #[inline(always)]
    fn answer(&mut self, write: impl FnOnce(&mut Lines)) {
        self.number.advance();
        let (digits, length) = self.number.text();
        self.lines(|lines| {
            lines.put(&digits, length);
            write(lines);
        });
    }

    #[inline(always)]
    fn lines(&mut self, write: impl FnOnce(&mut Lines)) {
        let room = self.bytes[self.length..].first_chunk_mut().expect("there is room for each answer");
        let mut lines = Lines { room, length: 0 };
        write(&mut lines);
        self.length += lines.length;
    }
}

/// The lines of one answer.
struct Lines<'a> {
    room: &'a mut [u8; LINES],
    length: usize,
}

impl Lines<'_> {
    /// The bytes behind the lines so far.
    #[inline(always)]
    fn behind<const WIDTH: usize>(&mut self) -> &mut [u8; WIDTH] {
        assert!(self.length <= LINES - WIDTH, "an answer has room for its lines");
        self.room[self.length..].first_chunk_mut().expect("the width was tested")
    }

    /// Bytes of which so many count; the next ones are written over the others.
    #[inline(always)]
    fn put<const WIDTH: usize>(&mut self, bytes: &[u8; WIDTH], length: usize) {
        *self.behind() = *bytes;
        self.length += length;
    }

    #[inline(always)]
    fn word<const WIDTH: usize>(&mut self, word: &[u8; WIDTH]) {
        self.put(word, WIDTH);
    }

    /// A number and the end of the line.
    #[inline(always)]
    fn last_field(&mut self, number: u8) {
        let field = READY.last[usize::from(number)];
        self.put(&field.text.to_le_bytes(), field.bits as usize / 8);
    }

    /// The line of a step, put together from ready pieces of up to 5, 4 and 4 bytes.
    #[inline(always)]
    fn step(&mut self, csd: CsdNumber, (debit, credit): Accounts) {
        let Start { text, length } = READY.first[csd.index()];
        let (debit, credit) = (READY.middle[debit.index()], READY.last[credit.index()]);
        let accounts = u64::from(debit.text) | u64::from(credit.text) << debit.bits;
        let place = length % 8;
        let line: &mut [u8; 16] = self.behind();
        line[..8].copy_from_slice(&text.to_le_bytes());
        line[place..place + 8].copy_from_slice(&accounts.to_le_bytes());
        self.length += place + (debit.bits + credit.bits) as usize / 8;
    }

    fn sum(&mut self, sum: i64) {
        self.word(b" ");
        if sum < 0 {
            self.word(b"-");
        }
        self.digits(sum.unsigned_abs());
        self.word(b"\n");
    }

    fn digits(&mut self, number: u64) {
        if number > 9 {
            self.digits(number / 10);
        }
        self.word(&[b'0' + (number % 10) as u8]);
    }
}

/// A number of up to eight digits, counted up as text. Each digit has a byte, the last one the lowest, and is kept 246
/// higher: so 9 and one more carries over to the digit before it.
struct Counter {
    raised: u64,
    /// How many digits stand before the first one that is not 0.
    unused: usize,
}

const RAISED: u64 = u64::from_ne_bytes([246; 8]);
const RAISED_TEXT: u64 = u64::from_ne_bytes([246 - b'0'; 8]);

impl Default for Counter {
    fn default() -> Self {
        Counter { raised: RAISED, unused: 7 }
    }
}

impl Counter {
    #[inline(always)]
    fn advance(&mut self) {
        self.raised += 1;
        if self.raised as u8 == 0 {
            let carried = self.raised.trailing_zeros() / 8 * 8;
            self.raised += RAISED & ((1 << carried) - 1);
            self.unused = (self.raised - RAISED).leading_zeros() as usize / 8;
        }
    }

    /// Eight bytes, and how many of them count.
    #[inline(always)]
    fn text(&self) -> ([u8; 8], usize) {
        let unused = self.unused % 8;
        (((self.raised - RAISED_TEXT) << (8 * unused)).to_be_bytes(), 8 - unused)
    }
}

/// A number of one byte as text, little-endian, with a byte behind it, and the length of both in bits.
#[derive(Clone, Copy)]
struct Field {
    text: u32,
    bits: u32,
}

/// The same with a dash before it, and its length in bytes.
#[derive(Clone, Copy)]
struct Start {
    text: u64,
    length: usize,
}

/// The fields of a step's line, ready for each number: a dash and the CSD, a space behind it; the account debited, a
/// space behind it; the account credited and the end of the line.
struct Ready {
    first: [Start; CSDS],
    middle: [Field; ACCOUNTS],
    last: [Field; ACCOUNTS],
}

static READY: Ready = {
    let middle = fields(b' ');
    let mut first = [Start { text: 0, length: 0 }; CSDS];
    let mut csd = 0;
    while csd < CSDS {
        let text = u16::from_le_bytes(*b"- ") as u64 | (middle[csd].text as u64) << 16;
        first[csd] = Start { text, length: 2 + middle[csd].bits as usize / 8 };
        csd += 1;
    }
    Ready { first, middle, last: fields(b'\n') }
};

const fn fields(behind: u8) -> [Field; ACCOUNTS] {
    let mut fields = [Field { text: 0, bits: 0 }; ACCOUNTS];
    let mut number = 0;
    while number < ACCOUNTS {
        let mut field = Field { text: behind as u32, bits: 8 };
        let mut rest = number as u32;
        while field.bits == 8 || rest > 0 {
            field = Field { text: field.text << 8 | (b'0' as u32 + rest % 10), bits: field.bits + 8 };
            rest /= 10;
        }
        fields[number] = field;
        number += 1;
    }
    fields
}

#[cfg(test)]
mod tests {
    use super::*;

    #[test]
    fn numbers_are_counted_up() {
        let mut counter = Counter::default();
        for number in 1..=100_000 {
            counter.advance();
            let (digits, length) = counter.text();
            assert_eq!(digits[..length], *number.to_string().as_bytes());
        }
    }

    #[test]
    fn fields_are_ready() {
        for number in 0..ACCOUNTS {
            for (field, text) in
                [(READY.middle[number], format!("{number} ")), (READY.last[number], format!("{number}\n"))]
            {
                assert_eq!(field.text.to_le_bytes()[..field.bits as usize / 8], *text.as_bytes());
            }
        }
    }
}
