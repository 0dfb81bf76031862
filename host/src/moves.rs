//! Moves and lists of moves.

use std::fmt;
use std::ops::Deref;

use crate::{Man, Side, Square};

/// No position has more legal moves: 27 of each of two queens and 8 of a king.
pub const MOST_MOVES: usize = 62;

/// The bytes of a list that `sledgewren_moves` is lent: 62 places of four bytes.
pub const MOVES_BYTES: usize = 248;

/// A man set from one square on another, taking what stood there. A pawn that reaches his last
/// rank becomes a piece, and each of the four pieces makes a move of its own.
#[derive(Clone, Copy, PartialEq, Eq, Hash, Debug)]
pub struct Move {
    /// Where the man stands.
    pub from: Square,
    /// Where he is set.
    pub to: Square,
    /// Whether a man of the other side stands there and is taken.
    pub takes: bool,
    /// What a pawn becomes on his last rank; nothing in every other move.
    pub becomes: Option<Man>,
}

impl Move {
    /// The move of its four bytes: from-square, to-square, whether it takes, and what a pawn
    /// becomes.
    #[inline]
    pub(crate) fn from_bytes(bytes: [u8; 4]) -> Option<Move> {
        let [from, to, takes @ (0 | 1), becomes @ 0..=4] = bytes else {
            return None;
        };
        let (from, to) = (Square::from_code(from)?, Square::from_code(to)?);
        let becomes = becomes.checked_sub(1).and_then(Man::from_code);
        Some(Move { from, to, takes: takes == 1, becomes })
    }

    /// What a pawn becomes as the library takes it: 1 + the piece's code, 0 for nothing.
    pub fn becomes_byte(self) -> u8 {
        self.becomes.map_or(0, |man| man.code() + 1)
    }
}

/// As the desk writes it: `h2g1`, or `a1xb2` where it takes; `a7a8q` where a pawn becomes a queen.
impl fmt::Display for Move {
    fn fmt(&self, out: &mut fmt::Formatter) -> fmt::Result {
        let mark = if self.takes { "x" } else { "" };
        write!(out, "{}{mark}{}", self.from, self.to)?;
        match self.becomes {
            Some(man) => write!(out, "{}", man.letter_of(Side::Black)),
            None => Ok(()),
        }
    }
}

/// The legal moves of a position by from-square, then to-square, then what a pawn becomes. It
/// reads as a slice.
#[derive(Clone, Debug)]
pub struct Moves {
    list: [Move; MOST_MOVES],
    count: usize,
}

impl Moves {
    /// The first so many places as moves, or none if one of them is no move.
    pub(crate) fn from_bytes(bytes: &[u8; MOVES_BYTES], count: usize) -> Option<Moves> {
        let mut list = [Move::from_bytes([0; 4])?; MOST_MOVES];
        for (place, bytes) in list.iter_mut().zip(bytes.chunks_exact(4)).take(count) {
            *place = Move::from_bytes(bytes.try_into().ok()?)?;
        }
        (count <= MOST_MOVES).then_some(Moves { list, count })
    }
}

impl Deref for Moves {
    type Target = [Move];

    fn deref(&self) -> &[Move] {
        &self.list[..self.count]
    }
}

impl<'a> IntoIterator for &'a Moves {
    type Item = &'a Move;
    type IntoIter = std::slice::Iter<'a, Move>;

    fn into_iter(self) -> Self::IntoIter {
        self.iter()
    }
}
