//! The ISIN of ISO 6166: its form, and the sum that its check digit completes.

use crate::directory::Isin;

/// A character of an ISIN or BIC as digits.
#[derive(Clone, Copy)]
struct Character {
    /// A digit is one, a capital two, and any other byte none.
    digits: u8,
    /// What they add to the sum, by whether the last of them counts singly or doubled.
    added: [u8; 2],
}

static CHARACTERS: [Character; 256] = {
    let mut characters = [Character { digits: 0, added: [0; 2] }; 256];
    let mut value = 0;
    while value < 36 {
        let byte = if value < 10 { b'0' + value } else { b'A' - 10 + value };
        let (first, last) = (value / 10, value % 10);
        characters[byte as usize] =
            Character { digits: if value < 10 { 1 } else { 2 }, added: [last + doubled(first), doubled(last) + first] };
        value += 1;
    }
    characters
};

/// "Doubled and its digits added."
const fn doubled(digit: u8) -> u8 {
    2 * digit / 10 + 2 * digit % 10
}

fn character(byte: u8) -> Character {
    CHARACTERS[usize::from(byte)]
}

/// "Two capital letters, nine capitals or digits, one check digit."
pub fn well_formed(isin: &Isin) -> bool {
    isin[..2].iter().all(|&byte| character(byte).digits == 2)
        && isin[2..11].iter().all(|&byte| capital_or_digit(byte))
        && character(isin[11]).digits == 1
}

/// "With the check digit the sum is a multiple of 10", for a well-formed ISIN. Read from the right,
/// the check digit counts singly and then every other digit doubled, a letter being two digits.
pub fn sum_fits(isin: &Isin) -> bool {
    let (mut sum, mut place) = (0, 0);
    for &byte in isin.iter().rev() {
        let Character { digits, added } = character(byte);
        sum += u32::from(added[place % 2]);
        place += usize::from(digits);
    }
    sum % 10 == 0
}

/// Capitals A to Z and digits, as a BIC and an ISIN are written.
pub fn capital_or_digit(byte: u8) -> bool {
    character(byte).digits > 0
}

#[cfg(test)]
mod tests {
    use super::*;

    #[test]
    fn examples_of_document_01() {
        assert!(sum_fits(b"XS0000000009"));
        assert!(sum_fits(b"XS0000000017"));
        assert!(!sum_fits(b"XS0000000008"));
    }

    #[test]
    fn published_isins() {
        for isin in [b"US0378331005", b"GB0002634946", b"DE000BAY0017", b"AU0000XVGZA3"] {
            assert!(well_formed(isin) && sum_fits(isin));
        }
        assert!(!well_formed(b"US037833100A") && !well_formed(b"1S0378331005"));
    }

    /// The rule word by word: the digits are written down, then added up from the right.
    fn as_worded(isin: &Isin) -> bool {
        let written: String =
            isin[..11].iter().map(|&byte| char::from(byte).to_digit(36).unwrap().to_string()).collect();
        let digits = written.bytes().rev().map(|byte| u32::from(byte - b'0'));
        let added = |digit: u32| digit / 10 + digit % 10;
        let sum: u32 =
            digits.enumerate().map(|(place, digit)| if place % 2 == 0 { added(2 * digit) } else { digit }).sum();
        (sum + u32::from(isin[11] - b'0')).is_multiple_of(10)
    }

    /// Letters and digits in the eleven places before the check digit, in each of the 2,048 ways.
    #[test]
    fn the_rule_as_worded() {
        for letters in 0..1_usize << 11 {
            let character = |place: usize| match letters >> place & 1 {
                1 => b'A' + ((7 * letters + 5 * place) % 26) as u8,
                _ => b'0' + ((3 * letters + place) % 10) as u8,
            };
            let body: [u8; 11] = std::array::from_fn(character);
            for digit in b'0'..=b'9' {
                let mut isin = [digit; 12];
                isin[..11].copy_from_slice(&body);
                assert_eq!(sum_fits(&isin), as_worded(&isin), "{}", String::from_utf8_lossy(&isin));
            }
        }
    }

    #[test]
    fn one_check_digit_fits_each_body() {
        for body in [b"AA000000000", b"ZZZZZZZZZZZ", b"FR0A1B2C3D4"] {
            let fitting = (b'0'..=b'9').filter(|&digit| {
                let mut isin = [digit; 12];
                isin[..11].copy_from_slice(body);
                sum_fits(&isin)
            });
            assert_eq!(fitting.count(), 1);
        }
    }
}
