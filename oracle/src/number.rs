//! The number of a position and the position of a number.

use crate::board::{above_diagonal, file, on_diagonal, rank, touching, Square};
use crate::position::{Keyed, Man, Position, Refused, Side};
use crate::symmetry::position_mapped;

/// The ten squares of a1-d1-d4, rising.
pub const WHITE_SQUARES: [Square; 10] = [0, 1, 2, 3, 9, 10, 11, 18, 19, 27];

pub const PAIRS: usize = 462;

/// 2 sides x 462 pairs x 64 squares.
pub const NUMBERS: usize = 2 * PAIRS * 64;

/// Stands in the list where two squares are no pair.
pub const NO_PAIR: u16 = u16::MAX;

const fn is_pair(white: Square, black: Square) -> bool {
    white != black && !touching(white, black) && !(on_diagonal(white) && above_diagonal(black))
}

/// Pairs "in rising order of white king's square, then black king's".
pub const fn pair_list() -> [[u16; 64]; 10] {
    let mut list = [[NO_PAIR; 64]; 10];
    let mut pair = 0;
    let mut slot = 0;
    while slot < 10 {
        let mut black = 0;
        while black < 64 {
            if is_pair(WHITE_SQUARES[slot], black as Square) {
                list[slot][black] = pair;
                pair += 1;
            }
            black += 1;
        }
        slot += 1;
    }
    list
}

const fn kings_of_pairs() -> [(Square, Square); PAIRS] {
    let list = pair_list();
    let mut kings = [(0, 0); PAIRS];
    let mut slot = 0;
    while slot < 10 {
        let mut black = 0;
        while black < 64 {
            let pair = list[slot][black] as usize;
            if pair < PAIRS {
                kings[pair] = (WHITE_SQUARES[slot], black as Square);
            }
            black += 1;
        }
        slot += 1;
    }
    kings
}

/// The pair for each of the ten white squares and 64 black squares.
pub static PAIR: [[u16; 64]; 10] = pair_list();

/// The white king's and the black king's square of each pair.
pub static KINGS_OF_PAIR: [(Square, Square); PAIRS] = kings_of_pairs();

/// Must file and rank be exchanged, once the white king is in the quarter a1-d4?
fn must_exchange(position: &Position) -> bool {
    let Position { white_king, man_square, black_king, .. } = *position;
    if !on_diagonal(white_king) {
        return above_diagonal(white_king);
    }
    if !on_diagonal(black_king) {
        return above_diagonal(black_king);
    }
    above_diagonal(man_square)
}

/// The map to the one position of the class that is numbered. File and rank are exchanged only
/// where they must be, so that where two maps fit it is the one without the exchange.
pub fn normal_map(position: &Position) -> u8 {
    let files = if file(position.white_king) > 3 { 1 } else { 0 };
    let ranks = if rank(position.white_king) > 3 { 2 } else { 0 };
    let turned = position_mapped(files | ranks, position);
    files | ranks | if must_exchange(&turned) { 4 } else { 0 }
}

/// The one position of its class that is numbered.
pub fn normalised(position: &Position) -> Position {
    position_mapped(normal_map(position), position)
}

/// The pair of two kings' squares, if they form one.
pub fn pair_of(white: Square, black: Square) -> Option<u16> {
    let slot = WHITE_SQUARES.iter().position(|&square| square == white)?;
    let pair = PAIR[slot][black as usize & 63];
    (pair != NO_PAIR).then_some(pair)
}

/// "Number = (side x 462 + pair) x 64 + man's square."
pub fn number_of(position: &Position) -> usize {
    let chosen = normalised(position);
    // Normalised kings always form a pair: `oracle selftest` goes over all of them.
    let pair = pair_of(chosen.white_king, chosen.black_king).unwrap_or(0) as usize;
    (chosen.side.code() as usize * PAIRS + pair) * 64 + chosen.man_square as usize
}

/// Numbering, of anything keyed: refusals 1 to 5.
pub fn number(keyed: &Keyed) -> Result<usize, Refused> {
    Ok(number_of(&keyed.placed()?))
}

/// "Unused if the man shares a king's square, or if both kings are on the diagonal
/// and the man above it."
fn unused(white_king: Square, man_square: Square, black_king: Square) -> bool {
    man_square == white_king
        || man_square == black_king
        || on_diagonal(white_king) && on_diagonal(black_king) && above_diagonal(man_square)
}

/// The position of a number below NUMBERS, or none if the number is unused.
pub fn position_of(man: Man, number: usize) -> Option<Position> {
    let man_square = (number % 64) as Square;
    let (white_king, black_king) = KINGS_OF_PAIR[number / 64 % PAIRS];
    let side = if number / 64 < PAIRS { Side::White } else { Side::Black };
    if unused(white_king, man_square, black_king) {
        return None;
    }
    Some(Position { man, side, white_king, man_square, black_king })
}

/// Numbering back, of any code and number: refusals 1, 8, 9.
pub fn back(man: u8, number: u64) -> Result<Position, Refused> {
    let man = Man::from_code(man).ok_or(Refused(1))?;
    if number >= NUMBERS as u64 {
        return Err(Refused(8));
    }
    position_of(man, number as usize).ok_or(Refused(9))
}
