//! The number of two men's position, and the position of a number.

use crate::board::Square;
use crate::ending::{arranged, Ending};
use crate::index;
use crate::number::{self, pair_of, KINGS_OF_PAIR, PAIRS};
use crate::placement::{Limit, Placement};
use crate::position::{Keyed, Refused, Side};
use crate::symmetry::{exchanged, mapped};

/// 2 sides x 462 pairs x 64 squares x 64 squares.
pub const NUMBERS_OF_TWO: usize = 2 * PAIRS * 64 * 64;

/// "((side x 462 + pair) x 64 + first) x 64 + second."
fn joined(side: Side, pair: usize, [first, second]: [Square; 2]) -> usize {
    ((side.code() as usize * PAIRS + pair) * 64 + first as usize) * 64 + second as usize
}

/// The least that the order of the men can give: like men may be exchanged.
fn least_order(ending: Ending, side: Side, pair: usize, [first, second]: [Square; 2]) -> usize {
    let number = joined(side, pair, [first, second]);
    if ending.like() {
        number.min(joined(side, pair, [second, first]))
    } else {
        number
    }
}

/// The squares of the first man and of the second.
fn squares(placement: &Placement) -> [Square; 2] {
    placement.men.map(|man| man.map_or(0, |man| man.square))
}

/// What a map gives, or none if it does not bring the kings to a pair.
fn given_by(ending: Ending, placement: &Placement, map: u8) -> Option<usize> {
    let turned = placement.mapped(|square| mapped(map, square));
    let pair = pair_of(turned.kings[0], turned.kings[1])? as usize;
    Some(least_order(ending, placement.side, pair, squares(&turned)))
}

/// "The smallest number that any king-rule map, or an exchange of like men, or both, can give", of
/// an arranged placement, and the map that gives it. Where two maps fit it is the lower, which
/// leaves out the exchange of file and rank.
pub fn least(ending: Ending, placement: &Placement) -> (usize, u8) {
    let given = (0..8).filter_map(|map| Some((given_by(ending, placement, map)?, map)));
    given.min().unwrap_or((0, 0))
}

/// The same number by the prepared list of king placements, for the fills.
#[inline]
pub fn number_of(ending: Ending, placement: &Placement) -> usize {
    let [white, black] = placement.kings;
    let (pair, map, both_on_diagonal) = index::kings_decide(white, black);
    let turned = squares(placement).map(|square| index::turned(map, square));
    let number = least_order(ending, placement.side, pair, turned);
    if both_on_diagonal {
        number.min(least_order(ending, placement.side, pair, turned.map(exchanged)))
    } else {
        number
    }
}

/// The number of one man's position or two men's.
pub fn number_of_any(placement: &Placement) -> Option<usize> {
    match arranged(placement) {
        Some((ending, arranged)) => Some(least(ending, &arranged).0),
        None => placement.alone().map(|position| number::number_of(&position)),
    }
}

/// Numbering, of anything keyed: refusals 1 to 5.
pub fn number(keyed: &Keyed, limit: Limit) -> Result<usize, Refused> {
    number_of_any(&keyed.placement(limit)?).ok_or(Refused(1))
}

/// The position of a number below NUMBERS_OF_TWO, or none if the number is unused.
pub fn position_of(ending: Ending, number: usize) -> Option<Placement> {
    let [first, second] = [number / 64 % 64, number % 64].map(|square| square as Square);
    let (white, black) = KINGS_OF_PAIR[number / 4096 % PAIRS];
    let side = if number / 4096 < PAIRS { Side::White } else { Side::Black };
    let shared = first == second || [first, second].iter().any(|&man| man == white || man == black);
    let placement = ending.placement(side, [white, black], [first, second]);
    // Every other number of the class is unused.
    (!shared && number_of(ending, &placement) == number).then_some(placement)
}

/// Numbering back, of any codes and number: refusals 1, 8, 9.
pub fn back(codes: [u8; 2], one_each: bool, number: u64) -> Result<Placement, Refused> {
    let ending = Ending::from_codes(codes, one_each)?;
    if number >= NUMBERS_OF_TWO as u64 {
        return Err(Refused(8));
    }
    position_of(ending, number as usize).ok_or(Refused(9))
}
