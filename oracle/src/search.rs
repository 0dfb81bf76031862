//! A second opinion without tables: a plain search straight from the rules.

use crate::position::{Keyed, Position, Refused};
use crate::rules::{in_check, legal_position, moves, play};

/// "A larger k is refusal 16."
pub const MOST_PLIES: u8 = 6;

/// "Some move leaves the other lost within k - 1. Nothing is won within 0."
pub fn won_within(position: &Position, plies: u8) -> bool {
    let Some(left) = plies.checked_sub(1) else { return false };
    let list = moves(position);
    // Bare kings are neither won nor lost.
    list.as_slice()
        .iter()
        .any(|&chosen| play(position, chosen).is_some_and(|next| lost_within(&next, left)))
}

/// "It is mate, or has moves and every move leaves the other won within k - 1." Only mate
/// is lost within 0, and stalemate never is.
pub fn lost_within(position: &Position, plies: u8) -> bool {
    let list = moves(position);
    if list.as_slice().is_empty() {
        return in_check(position);
    }
    let Some(left) = plies.checked_sub(1) else { return false };
    list.as_slice()
        .iter()
        .all(|&chosen| play(position, chosen).is_some_and(|next| won_within(&next, left)))
}

#[derive(Clone, Copy, PartialEq, Eq, Debug)]
pub enum Opinion {
    Win(u8),
    Loss(u8),
    NotWithin,
}

/// The exact depth if it is at most `plies`, found by asking with rising plies: the least
/// that wins is odd and the least that loses even, since every move costs one.
pub fn opinion(position: &Position, plies: u8) -> Opinion {
    for depth in 0..=plies {
        if depth % 2 == 1 && won_within(position, depth) {
            return Opinion::Win(depth);
        }
        if depth % 2 == 0 && lost_within(position, depth) {
            return Opinion::Loss(depth);
        }
    }
    Opinion::NotWithin
}

/// The search of anything keyed: refusals 1 to 6 and 16.
pub fn search(keyed: &Keyed, plies: u8) -> Result<Opinion, Refused> {
    let position = legal_position(keyed)?;
    if plies > MOST_PLIES {
        return Err(Refused(16));
    }
    Ok(opinion(&position, plies))
}
