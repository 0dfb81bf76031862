//! Check digits on typed numbers, by ISO 7064 MOD 97-10.

use crate::number::back;
use crate::position::{Man, Refused};

/// The five digits of a number and the two of its check.
pub const DIGITS: usize = 7;

/// "The seven digits as one number leave 1 on division by 97, and the check lies between
/// 02 and 98."
pub fn check_right(seven: u64) -> bool {
    seven % 97 == 1 && (2..=98).contains(&(seven % 100))
}

/// The one check from 02 to 98 that makes a number right.
fn check_of(number: u64) -> u64 {
    98 - number * 100 % 97
}

/// The number of seven typed digits: refused 12 if one is no digit, 13 if the check is wrong.
pub fn read_typed(digits: &[u8]) -> Result<u64, Refused> {
    if digits.len() != DIGITS || !digits.iter().all(u8::is_ascii_digit) {
        return Err(Refused(12));
    }
    let seven = digits.iter().fold(0, |total, digit| total * 10 + (digit - b'0') as u64);
    if !check_right(seven) {
        return Err(Refused(13));
    }
    Ok(seven / 100)
}

/// A number with its check, as it is typed: refusals 8 and 9.
pub fn write_typed(number: u64) -> Result<String, Refused> {
    // Which numbers are used does not hang on the man.
    back(Man::Queen.code(), number)?;
    Ok(format!("{number:05}{:02}", check_of(number)))
}
