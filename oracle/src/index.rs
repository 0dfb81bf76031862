//! Numbering by a prepared list of king placements: the fills number millions of
//! successors. `oracle selftest` holds it to the plain numbering everywhere.

use crate::board::{above_diagonal, file, on_diagonal, rank, Square};
use crate::number::{pair_list, NO_PAIR, PAIRS, WHITE_SQUARES};
use crate::position::Position;
use crate::symmetry::{exchanged, mapped};

/// What the two kings alone decide about a number.
#[derive(Clone, Copy)]
struct Kings {
    pair: u16,
    /// The map to apply to the man; 8 more where it must end up not above the diagonal.
    fold: u8,
}

const fn map_for(white: Square, black: Square) -> u8 {
    let mut map = 0;
    if file(white) > 3 {
        map |= 1;
    }
    if rank(white) > 3 {
        map |= 2;
    }
    let white = mapped(map, white);
    let black = mapped(map, black);
    if above_diagonal(white) || (on_diagonal(white) && above_diagonal(black)) {
        map |= 4;
    }
    map
}

const fn slot_of(white: Square) -> usize {
    let mut slot = 0;
    while slot < 9 && WHITE_SQUARES[slot] != white {
        slot += 1;
    }
    slot
}

const fn prepared() -> [[Kings; 64]; 64] {
    let pairs = pair_list();
    let mut list = [[Kings { pair: 0, fold: 0 }; 64]; 64];
    let mut white = 0;
    while white < 64 {
        let mut black = 0;
        while black < 64 {
            let map = map_for(white as Square, black as Square);
            let (turned, other) = (mapped(map, white as Square), mapped(map, black as Square));
            let pair = pairs[slot_of(turned)][other as usize];
            let both_on_diagonal = on_diagonal(turned) && on_diagonal(other);
            if pair != NO_PAIR {
                list[white][black] =
                    Kings { pair, fold: map + if both_on_diagonal { 8 } else { 0 } };
            }
            black += 1;
        }
        white += 1;
    }
    list
}

const fn folds() -> [[Square; 64]; 16] {
    let mut list = [[0; 64]; 16];
    let mut fold = 0;
    while fold < 16 {
        let mut square = 0;
        while square < 64 {
            let turned = mapped(fold as u8 % 8, square as Square);
            let below = fold < 8 || !above_diagonal(turned);
            list[fold][square] = if below { turned } else { exchanged(turned) };
            square += 1;
        }
        fold += 1;
    }
    list
}

static KINGS: [[Kings; 64]; 64] = prepared();

static FOLDS: [[Square; 64]; 16] = folds();

/// What the kings alone decide: their pair, the map to apply to the men, and whether both kings are
/// on the diagonal, so that the map with the exchange of file and rank fits too.
#[inline]
pub fn kings_decide(white: Square, black: Square) -> (usize, usize, bool) {
    let kings = KINGS[white as usize & 63][black as usize & 63];
    (kings.pair as usize, kings.fold as usize & 7, kings.fold >= 8)
}

/// A square under a map, from the prepared list.
#[inline]
pub fn turned(map: usize, square: Square) -> Square {
    FOLDS[map & 7][square as usize & 63]
}

/// The number of a position, as `number::number_of` gives it.
#[inline]
pub fn number_of(position: &Position) -> usize {
    let kings = KINGS[position.white_king as usize & 63][position.black_king as usize & 63];
    let man = FOLDS[kings.fold as usize & 15][position.man_square as usize & 63];
    (position.side.code() as usize * PAIRS + kings.pair as usize) * 64 + man as usize
}
