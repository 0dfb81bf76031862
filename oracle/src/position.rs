//! Men, sides, positions as keyed and positions as placed, and refusals.

use crate::board::{bit, touching, Square, SquareSet};

/// A refusal gives its number and nothing else.
#[derive(Clone, Copy, PartialEq, Eq, Debug)]
pub struct Refused(pub u8);

#[derive(Clone, Copy, PartialEq, Eq, Debug)]
pub enum Man {
    Queen,
    Rook,
    Bishop,
    Knight,
}

/// In the order of the material codes.
pub const MEN: [Man; 4] = [Man::Queen, Man::Rook, Man::Bishop, Man::Knight];

impl Man {
    pub fn from_code(code: u8) -> Option<Man> {
        MEN.get(code as usize).copied()
    }

    pub fn code(self) -> u8 {
        self as u8
    }

    pub fn from_letter(letter: u8) -> Option<Man> {
        MEN.into_iter().find(|man| man.letter() == letter)
    }

    pub fn letter(self) -> u8 {
        match self {
            Man::Queen => b'Q',
            Man::Rook => b'R',
            Man::Bishop => b'B',
            Man::Knight => b'N',
        }
    }

    pub fn name(self) -> &'static str {
        match self {
            Man::Queen => "queen",
            Man::Rook => "rook",
            Man::Bishop => "bishop",
            Man::Knight => "knight",
        }
    }
}

#[derive(Clone, Copy, PartialEq, Eq, Debug)]
pub enum Side {
    White,
    Black,
}

pub const SIDES: [Side; 2] = [Side::White, Side::Black];

impl Side {
    pub fn from_code(code: u8) -> Option<Side> {
        SIDES.get(code as usize).copied()
    }

    pub fn code(self) -> u8 {
        self as u8
    }

    pub fn other(self) -> Side {
        match self {
            Side::White => Side::Black,
            Side::Black => Side::White,
        }
    }

    pub fn letter(self) -> char {
        match self {
            Side::White => 'w',
            Side::Black => 'b',
        }
    }

    pub fn name(self) -> &'static str {
        match self {
            Side::White => "white",
            Side::Black => "black",
        }
    }
}

/// A man besides the kings as keyed: three raw bytes, any values.
#[derive(Clone, Copy, PartialEq, Eq, Debug)]
pub struct KeyedMan {
    pub kind: u8,
    pub colour: u8,
    pub square: u8,
}

/// A position as keyed: raw bytes, any values, and "up to two extra men, each absent or a kind, a
/// colour and a square".
#[derive(Clone, Copy, PartialEq, Eq, Debug)]
pub struct Keyed {
    pub side: u8,
    pub white_king: u8,
    pub black_king: u8,
    pub men: [Option<KeyedMan>; 2],
}

impl Keyed {
    /// One man: his kind, colour and square, the side to move and the kings.
    pub fn of_one(
        [kind, colour, square]: [u8; 3],
        side: u8,
        [white_king, black_king]: [u8; 2],
    ) -> Keyed {
        let man = KeyedMan { kind, colour, square };
        Keyed { side, white_king, black_king, men: [Some(man), None] }
    }

    /// Refusals 1 to 5, the lowest first; what remains can be numbered. "With one black man the
    /// desk exchanges the colours and the side to move": no square changes, so a move found in
    /// the position given is the move on the board as keyed.
    pub fn placed(&self) -> Result<Position, Refused> {
        // "Two men stay refused 1"; "no man at all, or an absent one before a present one" too.
        let [Some(KeyedMan { kind, colour, square }), None] = self.men else {
            return Err(Refused(1));
        };
        let man = Man::from_code(kind).ok_or(Refused(1))?;
        let side = Side::from_code(self.side).ok_or(Refused(2))?;
        let colour = Side::from_code(colour).ok_or(Refused(2))?;
        let (white_king, black_king) = (self.white_king, self.black_king);
        if white_king > 63 || square > 63 || black_king > 63 {
            return Err(Refused(3));
        }
        if white_king == square || white_king == black_king || square == black_king {
            return Err(Refused(4));
        }
        if touching(white_king, black_king) {
            return Err(Refused(5));
        }
        Ok(match colour {
            Side::White => Position { man, side, white_king, man_square: square, black_king },
            Side::Black => Position {
                man,
                side: side.other(),
                white_king: black_king,
                man_square: square,
                black_king: white_king,
            },
        })
    }

    /// Colours, kings and side to move exchanged; a byte that is no colour stays.
    pub fn exchanged(&self) -> Keyed {
        let other = |colour: u8| Side::from_code(colour).map_or(colour, |side| side.other().code());
        let men = self.men.map(|man| man.map(|man| KeyedMan { colour: other(man.colour), ..man }));
        Keyed {
            side: other(self.side),
            white_king: self.black_king,
            black_king: self.white_king,
            men,
        }
    }
}

/// Two kings and White's man on three different squares, kings not touching. It need not be
/// legal: the side not to move may be in check.
#[derive(Clone, Copy, PartialEq, Eq, Debug)]
pub struct Position {
    pub man: Man,
    pub side: Side,
    pub white_king: Square,
    pub man_square: Square,
    pub black_king: Square,
}

impl Position {
    pub fn keyed(&self) -> Keyed {
        let man = [self.man.code(), Side::White.code(), self.man_square];
        Keyed::of_one(man, self.side.code(), [self.white_king, self.black_king])
    }

    /// The two kings' squares: the men that stop the white man's lines.
    pub fn kings(&self) -> SquareSet {
        bit(self.white_king) | bit(self.black_king)
    }
}
