//! Moves of two men taken back: the placements from which a placement can arise, without a capture
//! and by one.

use crate::board::{bit, king_attack, Square, SquareSet, Squares};
use crate::placement::{Owned, Placement};
use crate::position::{Man, Side};
use crate::sight::attack;

/// The empty squares from which a man of the mover may have come; the men's moves are the same
/// forward and back.
fn origins(placement: &Placement, kind: Option<Man>, at: Square) -> SquareSet {
    let occupied = placement.occupied();
    let reached = match kind {
        Some(kind) => attack(kind, at, occupied),
        // He came from no square that touches the king of the side to move.
        None => king_attack(at) & !king_attack(placement.king(placement.side)),
    };
    reached & !occupied
}

fn with_king(placement: &Placement, side: Side, square: Square) -> Placement {
    let mut changed = *placement;
    changed.kings[side as usize] = square;
    changed
}

/// Each placement in which the mover's man stood elsewhere, with the square he moved to.
fn withdrawn(placement: &Placement, mut give: impl FnMut(&Placement, Square)) {
    let mover = placement.side.other();
    let king = placement.king(mover);
    let before = Placement { side: mover, ..*placement };
    for from in Squares(origins(placement, None, king)) {
        give(&with_king(&before, mover, from), king);
    }
    for slot in 0..2 {
        let Some(man) = placement.men[slot].filter(|man| man.colour == mover) else { continue };
        let mut earlier = before;
        for from in Squares(origins(placement, Some(man.kind), man.square)) {
            earlier.men[slot] = Some(Owned { square: from, ..man });
            give(&earlier, man.square);
        }
    }
}

/// Each placement of the same men, the other side to move, that has a move to this one. Those in
/// which the side not to move is in check are given too; their byte is 0.
pub fn retractions(placement: &Placement, mut give: impl FnMut(&Placement)) {
    withdrawn(placement, |earlier, _| give(earlier));
}

/// Each placement of one man more, from which a capture of a man of this kind led to this one. The
/// taken man was of the side now to move.
pub fn uncaptures(placement: &Placement, kind: Man, mut give: impl FnMut(&Placement)) {
    let colour = placement.side;
    withdrawn(placement, |earlier, square| {
        debug_assert!(earlier.occupied() & bit(square) == 0);
        let taken = Owned { kind, colour, square };
        give(&Placement { men: [earlier.men[0], Some(taken)], ..*earlier });
    });
}
