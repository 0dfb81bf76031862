//! The number of a position with a lone pawn, and the position of a number.

use crate::board::{file, rank, touching, Square};
use crate::pawn_position::{PawnPosition, PAWN};
use crate::position::{Keyed, Refused, Side};
use crate::symmetry::{files_reversed, ranks_reversed};

/// Ranks 2 to 7, files a to d.
pub const SLOTS: usize = 24;

/// 2 sides x 24 slots x 64 x 64 squares of the kings.
pub const PAWN_NUMBERS: usize = 2 * SLOTS * 64 * 64;

/// How a position is turned into the one that is numbered; the same turn carries a move back.
#[derive(Clone, Copy, PartialEq, Eq, Debug)]
pub struct Turn {
    /// "Board reversed left to right so that the pawn is on files a to d."
    files: bool,
    /// P9's exchange; "Black's pawn also turns the ranks round".
    colours: bool,
}

impl Turn {
    pub fn of(position: &PawnPosition) -> Turn {
        Turn { files: file(position.pawn) > 3, colours: position.colour == Side::Black }
    }

    pub fn square(&self, square: Square) -> Square {
        let square = if self.files { files_reversed(square) } else { square };
        if self.colours {
            ranks_reversed(square)
        } else {
            square
        }
    }

    pub fn position(&self, position: &PawnPosition) -> PawnPosition {
        let PawnPosition { side, kings, colour, pawn } = *position;
        let [white, black] = kings.map(|square| self.square(square));
        let pawn = self.square(pawn);
        if self.colours {
            let (side, colour) = (side.other(), colour.other());
            PawnPosition { side, kings: [black, white], colour, pawn }
        } else {
            PawnPosition { side, kings: [white, black], colour, pawn }
        }
    }
}

/// The one position of its class that is numbered: White's pawn, on files a to d.
pub fn normalised(position: &PawnPosition) -> PawnPosition {
    Turn::of(position).position(position)
}

/// "Slot = (rank - 2) x 4 + file, a being 0."
fn slot_of(pawn: Square) -> usize {
    (rank(pawn) as usize - 1) * 4 + file(pawn) as usize
}

/// "Number = (side x 24 + slot) x 4,096 + white king x 64 + black king."
pub fn number_of(position: &PawnPosition) -> usize {
    let PawnPosition { side, kings: [white, black], pawn, .. } = normalised(position);
    (side as usize * SLOTS + slot_of(pawn)) * 4096 + white as usize * 64 + black as usize
}

/// Numbering a lone pawn: refusals 1, 2, 3, 18, 4, 5.
pub fn number(keyed: &Keyed) -> Result<usize, Refused> {
    Ok(number_of(&keyed.pawn_placed()?))
}

/// The position of a number below PAWN_NUMBERS, or none if it is unused: "where men share a square
/// or the kings touch".
pub fn position_of(number: usize) -> Option<PawnPosition> {
    let side = if number / 4096 < SLOTS { Side::White } else { Side::Black };
    let slot = (number / 4096 % SLOTS) as Square;
    let pawn = 8 * (slot / 4 + 1) + slot % 4;
    let [white, black] = [number / 64 % 64, number % 64].map(|square| square as Square);
    let shared = white == black || white == pawn || black == pawn;
    if shared || touching(white, black) {
        return None;
    }
    Some(PawnPosition { side, kings: [white, black], colour: Side::White, pawn })
}

/// Numbering back: refusals 8 and 9, and 1 of any other code.
pub fn back(code: u8, number: u64) -> Result<PawnPosition, Refused> {
    if code != PAWN {
        return Err(Refused(1));
    }
    if number >= PAWN_NUMBERS as u64 {
        return Err(Refused(8));
    }
    position_of(number as usize).ok_or(Refused(9))
}
