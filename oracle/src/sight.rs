//! Whether one square is seen from another: a man's reach on the empty board, and nothing between.

use crate::board::{
    bishop_attack, bit, holds, knight_attack, queen_attack, rook_attack, stepped, Square,
    SquareSet, KING_STEPS, KNIGHT_STEPS,
};
use crate::position::Man;

/// The squares strictly between two squares of one line; none for all others.
const fn all_between() -> [[SquareSet; 64]; 64] {
    let mut sets = [[0; 64]; 64];
    let mut from = 0;
    while from < 64 {
        let mut k = 0;
        while k < 8 {
            let (mut at, mut passed) = (from as Square, 0);
            while let Some(to) = stepped(at, KING_STEPS[k]) {
                sets[from][to as usize] = passed;
                passed |= bit(to);
                at = to;
            }
            k += 1;
        }
        from += 1;
    }
    sets
}

/// The squares a man reaches on the empty board.
const fn reach(man: Man, from: Square) -> SquareSet {
    let (steps, first, end, far) = match man {
        Man::Queen => (&KING_STEPS, 0, 8, true),
        Man::Rook => (&KING_STEPS, 0, 4, true),
        Man::Bishop => (&KING_STEPS, 4, 8, true),
        Man::Knight => (&KNIGHT_STEPS, 0, 8, false),
    };
    let (mut set, mut k) = (0, first);
    while k < end {
        let mut next = stepped(from, steps[k]);
        while let Some(to) = next {
            set |= bit(to);
            next = if far { stepped(to, steps[k]) } else { None };
        }
        k += 1;
    }
    set
}

const fn all_reach() -> [[SquareSet; 64]; 4] {
    let men = [Man::Queen, Man::Rook, Man::Bishop, Man::Knight];
    let mut sets = [[0; 64]; 4];
    let mut code = 0;
    while code < 4 {
        let mut from = 0;
        while from < 64 {
            sets[code][from] = reach(men[code], from as Square);
            from += 1;
        }
        code += 1;
    }
    sets
}

static BETWEEN: [[SquareSet; 64]; 64] = all_between();

static REACH: [[SquareSet; 64]; 4] = all_reach();

/// Does a man on `from` attack `to`, with these squares occupied?
#[inline]
pub fn sees(man: Man, from: Square, to: Square, occupied: SquareSet) -> bool {
    let (from, to) = (from as usize & 63, to as usize & 63);
    holds(REACH[man as usize][from], to as Square) && BETWEEN[from][to] & occupied == 0
}

/// The squares a man attacks.
pub fn attack(man: Man, from: Square, occupied: SquareSet) -> SquareSet {
    match man {
        Man::Queen => queen_attack(from, occupied),
        Man::Rook => rook_attack(from, occupied),
        Man::Bishop => bishop_attack(from, occupied),
        Man::Knight => knight_attack(from),
    }
}
