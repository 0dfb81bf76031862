//! Men and sides.

use std::fmt;

/// A piece besides the kings. A pawn is none of them: he has kind 4 in a
/// [`KeyedMan`](crate::KeyedMan).
#[derive(Clone, Copy, PartialEq, Eq, Hash, Debug)]
pub enum Man {
    /// Code 0.
    Queen,
    /// Code 1.
    Rook,
    /// Code 2.
    Bishop,
    /// Code 3.
    Knight,
}

impl Man {
    /// All four, in the order of their material codes.
    pub const ALL: [Man; 4] = [Man::Queen, Man::Rook, Man::Bishop, Man::Knight];

    /// The man with this material code, or none above 3.
    pub fn from_code(code: u8) -> Option<Man> {
        Man::ALL.get(code as usize).copied()
    }

    /// The material code, 0 to 3.
    pub fn code(self) -> u8 {
        self as u8
    }

    /// The letter that the desk reads for White's man: Q, R, B or N.
    pub fn letter(self) -> char {
        match self {
            Man::Queen => 'Q',
            Man::Rook => 'R',
            Man::Bishop => 'B',
            Man::Knight => 'N',
        }
    }

    /// The letter that the desk reads on a position line: Black's is q, r, b or n.
    pub fn letter_of(self, owner: Side) -> char {
        match owner {
            Side::White => self.letter(),
            Side::Black => self.letter().to_ascii_lowercase(),
        }
    }
}

impl From<Man> for u8 {
    fn from(man: Man) -> u8 {
        man.code()
    }
}

/// `queen`, `rook`, `bishop` or `knight`.
impl fmt::Display for Man {
    fn fmt(&self, out: &mut fmt::Formatter) -> fmt::Result {
        out.write_str(match self {
            Man::Queen => "queen",
            Man::Rook => "rook",
            Man::Bishop => "bishop",
            Man::Knight => "knight",
        })
    }
}

/// A side: the one to move, or the one that a man is of.
#[derive(Clone, Copy, PartialEq, Eq, Hash, Debug)]
pub enum Side {
    /// Code 0.
    White,
    /// Code 1.
    Black,
}

impl Side {
    /// Both, in the order of their codes.
    pub const ALL: [Side; 2] = [Side::White, Side::Black];

    /// The side with this code, or none above 1.
    pub fn from_code(code: u8) -> Option<Side> {
        Side::ALL.get(code as usize).copied()
    }

    /// The code, 0 or 1.
    pub fn code(self) -> u8 {
        self as u8
    }

    /// The side not to move.
    pub fn other(self) -> Side {
        match self {
            Side::White => Side::Black,
            Side::Black => Side::White,
        }
    }

    /// The letter that the desk reads: w or b.
    pub fn letter(self) -> char {
        match self {
            Side::White => 'w',
            Side::Black => 'b',
        }
    }
}

/// `White` or `Black`.
impl fmt::Display for Side {
    fn fmt(&self, out: &mut fmt::Formatter) -> fmt::Result {
        out.write_str(match self {
            Side::White => "White",
            Side::Black => "Black",
        })
    }
}

#[cfg(test)]
mod tests {
    use super::*;

    #[test]
    fn codes_come_back() {
        for code in 0..=255 {
            assert_eq!(Man::from_code(code).map(Man::code), (code < 4).then_some(code));
            assert_eq!(Side::from_code(code).map(Side::code), (code < 2).then_some(code));
        }
    }

    #[test]
    fn names_and_letters() {
        let letters: String = Man::ALL.map(Man::letter).iter().collect();
        assert_eq!(letters, "QRBN");
        let letters: String = Man::ALL.map(|man| man.letter_of(Side::Black)).iter().collect();
        assert_eq!(letters, "qrbn");
        assert_eq!(Man::Rook.to_string(), "rook");
        assert_eq!((Side::White.letter(), Side::White.other().letter()), ('w', 'b'));
        assert_eq!(Side::Black.to_string(), "Black");
    }
}
