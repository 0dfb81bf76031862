//! Moves taken back.

use super::board::{attacks, one, squares, targets};
use super::moves::checked;
use super::{Men, Place, KING, OFF};

/// What stood where a piece now stands: nothing, or one of the men.
#[derive(Clone, Copy, PartialEq, Eq)]
pub enum Taken {
    Nothing,
    First,
    Second,
}

/// The place before the piece on `to` came from a square.
pub fn before(q: Place, from: u8, to: u8, taken: Taken) -> Place {
    let mut place = q.moved(to, from);
    match taken {
        Taken::Nothing => {}
        Taken::First => place.first = to,
        Taken::Second => place.second = to,
    }
    place
}

fn is_legal(men: Men, q: Place) -> bool {
    !attacks(0, KING, q.white, q.black) && !checked(men, q, 1 - q.side)
}

/// What stood there before the move, but for the piece that moved.
pub fn stood(q: Place, to: u8, taken: Taken) -> u64 {
    match taken {
        Taken::Nothing => q.occupied() & !one(to),
        _ => q.occupied(),
    }
}

/// The squares that the piece on `to` goes back to over what stands there, whether the place before
/// is legal or not; a king keeps away from the other.
pub fn steps_back(q: Place, occupied: u64, kind: u8, to: u8) -> u64 {
    let near = if kind == KING { targets(0, KING, q.king(q.side)) } else { 0 };
    targets(occupied, kind, to) & !occupied & !near
}

/// The squares from which the piece on `to` may have come: put back there, with what it took, the
/// place is legal and has that move.
pub fn sources(men: Men, q: Place, kind: u8, to: u8, taken: Taken) -> u64 {
    let occupied = q.occupied();
    let free = targets(occupied, kind, to) & !occupied;
    if free == 0 {
        return 0;
    }
    let (king, mover) = (q.king(q.side), 1 - q.side);
    let stood = stood(q, to, taken);
    let still = |owner: u8, man: u8| if owner == mover && man != to { man } else { OFF };
    // Where another man of the mover's attacks the king, the piece stood between them.
    for (kind, man) in [(men.first, still(0, q.first)), (men.second, still(men.colour, q.second))] {
        if attacks(stood, kind, man, king) {
            return squares(free & targets(stood, kind, man) & targets(stood, kind, king))
                .filter(|&from| is_legal(men, before(q, from, to, taken)))
                .fold(0, |set, from| set | one(from));
        }
    }
    free & !targets(stood, kind, king)
}
