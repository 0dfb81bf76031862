//! Positions, and positions as keyed.

use std::fmt;

use crate::{entry, Man, Move, Moves, Played, Refusal, Side, Square};

/// Two kings and one piece of either side, and the side to move. It need not be legal: men may
/// share a square, kings touch, and the side not to move be in check. The library says so where
/// it matters. Two men, and a pawn, are given as [`Keyed`].
#[derive(Clone, Copy, PartialEq, Eq, Hash, Debug)]
pub struct Position {
    /// The man besides the kings.
    pub man: Man,
    /// The side that he is of.
    pub owner: Side,
    /// The side to move.
    pub side: Side,
    /// The white king's square.
    pub white_king: Square,
    /// The man's square.
    pub man_square: Square,
    /// The black king's square.
    pub black_king: Square,
}

impl Position {
    /// The position's number, 0 to 59,135. Refusals 4, 5.
    pub fn number(self) -> Result<u32, Refusal> {
        entry::number(self)
    }

    /// The position that a number stands for, with White's man. Refusals 8, 9.
    pub fn from_number(man: Man, number: u32) -> Result<Position, Refusal> {
        let keyed = entry::position(man, number)?;
        match Position::keyed(keyed) {
            Some(position) => Ok(position),
            // A position of a number has its ending's man, and its squares are on the board.
            None => unreachable!("the position of a number: {keyed:?}"),
        }
    }

    /// How many legal moves it has. Refusals 4, 5, 6.
    pub fn count(self) -> Result<u8, Refusal> {
        entry::count(self)
    }

    /// Its legal moves in list order. Refusals 4, 5, 6.
    pub fn moves(self) -> Result<Moves, Refusal> {
        entry::moves(self)
    }

    /// The position after a move, if it is legal; its squares and what a pawn becomes are asked and
    /// not its mark.
    /// Refusals 4, 5, 6.
    pub fn play(self, chosen: Move) -> Result<Played, Refusal> {
        let (from, to, becomes) = (chosen.from.code(), chosen.to.code(), chosen.becomes_byte());
        let Some(after) = entry::play(self, from, to, becomes)? else {
            return Ok(Played::NotLegal);
        };
        let kings = [after.white_king, after.black_king].map(Square::from_code);
        match (Position::keyed(after), Side::from_code(after.side), kings) {
            (Some(position), ..) => Ok(Played::At(position)),
            (None, Some(side), [Some(white_king), Some(black_king)]) => {
                Ok(Played::BareKings { side, white_king, black_king })
            }
            // What a legal move leaves is on the board.
            _ => unreachable!("the position after a move: {after:?}"),
        }
    }

    /// The position of bytes that are one piece's: side, squares, kind and colour as they can be.
    pub fn keyed(keyed: Keyed) -> Option<Position> {
        let Keyed { side, white_king, black_king, men: [Some(first), None] } = keyed else {
            return None;
        };
        Some(Position {
            man: Man::from_code(first.kind)?,
            owner: Side::from_code(first.colour)?,
            side: Side::from_code(side)?,
            white_king: Square::from_code(white_king)?,
            man_square: Square::from_code(first.square)?,
            black_king: Square::from_code(black_king)?,
        })
    }
}

/// As the desk reads it: `Q w b3 h2 a1`, or with Black's queen `q b a1 h2 b3`.
impl fmt::Display for Position {
    fn fmt(&self, out: &mut fmt::Formatter) -> fmt::Result {
        let Position { man, owner, side, white_king, man_square, black_king } = self;
        let (man, side) = (man.letter_of(*owner), side.letter());
        write!(out, "{man} {side} {white_king} {man_square} {black_king}")
    }
}

/// A man besides the kings as keyed: three bytes of any values.
#[derive(Clone, Copy, PartialEq, Eq, Hash, Debug)]
pub struct KeyedMan {
    /// Material code, [`KeyedMan::PAWN`] for a pawn who stands alone; refused 1 above that.
    pub kind: u8,
    /// White's 0, Black's 1; refused 2 above 1.
    pub colour: u8,
    /// His square; refused 3 above 63.
    pub square: u8,
}

impl KeyedMan {
    /// A pawn's code. He stands on ranks 2 to 7, refused 18 elsewhere, and has no second man beside
    /// him, refused 1.
    pub const PAWN: u8 = 4;

    /// As the library takes him: kind, colour, square, and a byte that says that he is there.
    fn word(self) -> u32 {
        u32::from_le_bytes([self.kind, self.colour, self.square, 1])
    }
}

/// A position as keyed: bytes of any values, and up to two men. The library tells which of them it
/// refuses: none at all and one in the second place alone with 1, and two, or a pawn, in the parts
/// that serve one piece only.
#[derive(Clone, Copy, PartialEq, Eq, Hash, Debug)]
pub struct Keyed {
    /// Side to move; refused 2 above 1.
    pub side: u8,
    /// The white king's square; refused 3 above 63.
    pub white_king: u8,
    /// The black king's square; refused 3 above 63.
    pub black_king: u8,
    /// The men besides the kings.
    pub men: [Option<KeyedMan>; 2],
}

impl Keyed {
    /// King and pawn: whose he is, the side to move, the white king, the pawn and the black king.
    pub fn pawn(
        owner: Side,
        side: Side,
        white_king: Square,
        pawn: Square,
        black_king: Square,
    ) -> Keyed {
        let [white_king, square, black_king] = [white_king, pawn, black_king].map(Square::code);
        let colour = owner.code();
        Keyed::from([KeyedMan::PAWN, side.code(), white_king, square, black_king, colour])
    }

    /// The position after a move, if it is legal; its squares and what a pawn becomes are asked and
    /// not its mark. With bare kings there is no man. Refusals 1 to 6 and 18.
    pub fn play(self, chosen: Move) -> Result<Option<Keyed>, Refusal> {
        entry::play(self, chosen.from.code(), chosen.to.code(), chosen.becomes_byte())
    }

    /// The men as the library's C functions take them; 0 for none.
    #[inline]
    pub fn words(self) -> [u32; 2] {
        self.men.map(|man| man.map_or(0, KeyedMan::word))
    }
}

/// One man of White's: material code, side, white king, man's square, black king.
impl From<[u8; 5]> for Keyed {
    fn from([kind, side, white_king, square, black_king]: [u8; 5]) -> Keyed {
        Keyed::from([kind, side, white_king, square, black_king, Side::White.code()])
    }
}

/// The same with the man's colour at the end.
impl From<[u8; 6]> for Keyed {
    fn from([kind, side, white_king, square, black_king, colour]: [u8; 6]) -> Keyed {
        let man = KeyedMan { kind, colour, square };
        Keyed { side, white_king, black_king, men: [Some(man), None] }
    }
}

impl From<Position> for Keyed {
    fn from(position: Position) -> Keyed {
        let Position { man, owner, side, white_king, man_square, black_king } = position;
        let [white_king, square, black_king] =
            [white_king, man_square, black_king].map(Square::code);
        Keyed::from([man.code(), side.code(), white_king, square, black_king, owner.code()])
    }
}

#[cfg(test)]
mod tests {
    use super::*;

    #[test]
    fn written_and_keyed() {
        let square = |code| Square::from_code(code).unwrap();
        let position = Position {
            man: Man::Queen,
            owner: Side::White,
            side: Side::White,
            white_king: square(17),
            man_square: square(15),
            black_king: square(0),
        };
        assert_eq!(position.to_string(), "Q w b3 h2 a1");
        assert_eq!(Keyed::from(position), Keyed::from([0, 0, 17, 15, 0]));
        let exchanged = Position {
            owner: Side::Black,
            side: Side::Black,
            white_king: square(0),
            black_king: square(17),
            ..position
        };
        assert_eq!(exchanged.to_string(), "q b a1 h2 b3");
        assert_eq!(Keyed::from(exchanged).words(), [0x010F_0100, 0]);
    }
}
