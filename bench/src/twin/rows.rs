//! What the 64 numbers of a row share, told by one set of the last man's squares.

use super::board::{one, targets};
use super::moves::checked;
use super::numbers::{exchange, is_used, Exchange};
use super::{Men, Place, OFF};

/// The row's place with the last man on a square.
pub fn with_last(men: Men, row: Place, square: u8) -> Place {
    if men.single() {
        Place { first: square, ..row }
    } else {
        Place { second: square, ..row }
    }
}

/// The squares from which the last man attacks this side's king; none is told where one of the
/// pieces that stand still does, since he may stand between.
fn strikes(men: Men, still: Place, side: u8) -> Option<u64> {
    if checked(men, still, side) {
        return None;
    }
    let (kind, owner) = if men.single() { (men.first, 0) } else { (men.second, men.colour) };
    let struck = || targets(still.occupied(), kind, still.king(side));
    Some(if owner == side { 0 } else { struck() })
}

/// Is each number of the row used at which no two share a square?
fn is_plain(men: Men, still: Place) -> bool {
    let apart = still.first != still.white && still.first != still.black;
    apart && !men.alike() && matches!(exchange(still.white, still.black), Exchange::No)
}

/// Where the number is used and its position legal.
pub fn legal(men: Men, row: Place, n: usize) -> u64 {
    let still = with_last(men, row, OFF);
    let struck = if is_plain(men, still) { strikes(men, still, 1 - row.side) } else { None };
    let asked = |&square: &u8| {
        let q = with_last(men, row, square);
        is_used(men, q, n + square as usize) && !checked(men, q, 1 - q.side)
    };
    match struck {
        Some(struck) => !still.occupied() & !struck,
        None => (0..64).filter(asked).fold(0, |set, square| set | one(square)),
    }
}

/// Squares without which the side to move is not in check.
pub fn checks(men: Men, row: Place) -> u64 {
    strikes(men, with_last(men, row, OFF), row.side).unwrap_or(!0)
}
