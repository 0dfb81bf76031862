//! Squares.

use std::fmt;
use std::str::FromStr;

use crate::parse::{NotRead, SQUARE};

/// A square of the board: 8 x rank + file, a1 is 0 and h8 is 63.
#[derive(Clone, Copy, PartialEq, Eq, PartialOrd, Ord, Hash, Debug)]
pub struct Square(u8);

impl Square {
    /// The square with this code, or none above 63.
    pub fn from_code(code: u8) -> Option<Square> {
        (code < 64).then_some(Square(code))
    }

    /// All 64, a1 first, rank by rank.
    pub fn all() -> impl Iterator<Item = Square> + Clone {
        (0..64).map(Square)
    }

    /// The code, 0 to 63.
    pub fn code(self) -> u8 {
        self.0
    }

    /// The file, 0 for a to 7 for h.
    pub fn file(self) -> u8 {
        self.0 % 8
    }

    /// The rank, 0 for the first to 7 for the eighth.
    pub fn rank(self) -> u8 {
        self.0 / 8
    }
}

/// `a1` to `h8`.
impl fmt::Display for Square {
    fn fmt(&self, out: &mut fmt::Formatter) -> fmt::Result {
        write!(out, "{}{}", (b'a' + self.file()) as char, (b'1' + self.rank()) as char)
    }
}

impl FromStr for Square {
    type Err = NotRead;

    fn from_str(text: &str) -> Result<Square, NotRead> {
        match text.as_bytes() {
            &[file @ b'a'..=b'h', rank @ b'1'..=b'8'] => {
                Ok(Square(8 * (rank - b'1') + (file - b'a')))
            }
            _ => Err(NotRead::of(SQUARE, text)),
        }
    }
}

#[cfg(test)]
mod tests {
    use super::*;

    #[test]
    fn names_come_back() {
        for square in Square::all() {
            assert_eq!(square.to_string().parse(), Ok(square));
            assert_eq!(Square::from_code(square.code()), Some(square));
        }
        assert_eq!(Square::all().count(), 64);
    }

    #[test]
    fn corners() {
        let code = |name: &str| name.parse::<Square>().map(Square::code);
        assert_eq!((code("a1"), code("h1"), code("h8")), (Ok(0), Ok(7), Ok(63)));
        assert_eq!(Square::from_code(64), None);
    }

    #[test]
    fn other_text_is_no_square() {
        for text in ["", "a", "a0", "a9", "i1", "A1", "a1 ", "\u{e9}1"] {
            assert!(text.parse::<Square>().is_err(), "{text:?}");
        }
    }
}
