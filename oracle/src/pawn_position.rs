//! Two kings and a lone pawn of either side: as keyed, and as placed.

use crate::board::{rank, touching, Square};
use crate::placement::{Limit, Placement};
use crate::position::{Keyed, KeyedMan, Refused, Side};

/// "The library takes a lone pawn as code 4."
pub const PAWN: u8 = 4;

/// All on different squares, the pawn on ranks 2 to 7, the kings not touching. It need not be
/// legal: the side not to move may be in check.
#[derive(Clone, Copy, PartialEq, Eq, Debug)]
pub struct PawnPosition {
    pub side: Side,
    /// White's and Black's.
    pub kings: [Square; 2],
    /// The pawn's side.
    pub colour: Side,
    pub pawn: Square,
}

impl PawnPosition {
    pub fn king(&self, side: Side) -> Square {
        self.kings[side as usize]
    }

    pub fn keyed(&self) -> Keyed {
        Keyed::of_one([PAWN, self.colour.code(), self.pawn], self.side.code(), self.kings)
    }
}

/// What a part of the library that takes pawns is handed: one man or two, or a lone pawn.
#[derive(Clone, Copy, PartialEq, Eq, Debug)]
pub enum Placed {
    Men(Placement),
    Pawn(PawnPosition),
}

/// Refusal 18: "a pawn on rank 1 or 8, after 3 and before 4".
fn on_its_ranks(pawn: Square) -> bool {
    (1..=6).contains(&rank(pawn))
}

impl Keyed {
    /// Refusals 1, 2, 3, 18, 4, 5 of a lone pawn, in that order. A pawn with a second man is
    /// refused 1 still.
    pub fn pawn_placed(&self) -> Result<PawnPosition, Refused> {
        let [Some(KeyedMan { kind: PAWN, colour, square }), None] = self.men else {
            return Err(Refused(1));
        };
        let side = Side::from_code(self.side).ok_or(Refused(2))?;
        let colour = Side::from_code(colour).ok_or(Refused(2))?;
        let (white_king, black_king) = (self.white_king, self.black_king);
        if [white_king, black_king, square].iter().any(|&square| square > 63) {
            return Err(Refused(3));
        }
        if !on_its_ranks(square) {
            return Err(Refused(18));
        }
        if white_king == black_king || white_king == square || black_king == square {
            return Err(Refused(4));
        }
        if touching(white_king, black_king) {
            return Err(Refused(5));
        }
        Ok(PawnPosition { side, kings: [white_king, black_king], colour, pawn: square })
    }

    /// One man or two, or a lone pawn: what the host's library takes.
    pub fn any_placed(&self) -> Result<Placed, Refused> {
        match self.men {
            [Some(KeyedMan { kind: PAWN, .. }), None] => self.pawn_placed().map(Placed::Pawn),
            _ => self.placement(Limit::TwoMen).map(Placed::Men),
        }
    }
}
