//! The fifty-move rule: the plies since the last capture, who may claim a draw (FIDE 9.3), and
//! look-up with that count.

use crate::pawn_table::{self, PawnAnswer};
use crate::position::{Keyed, Position, Refused};
use crate::rule::Value;
use crate::rules::{moves, Move};
use crate::table::{look_up, Answer};

/// "The last 50 moves by each player", in plies.
pub const FIFTY_EACH: u32 = 2 * 50;

/// "The plies since the last capture, 0 to 99; more is refusal 19."
pub const MOST_COUNT: u32 = 99;

/// Look-up's answer, and whether its win or loss is "within fifty".
#[derive(Clone, Copy, PartialEq, Eq, Debug)]
pub struct Counted {
    pub answer: Answer,
    pub within_fifty: bool,
}

/// "Mark a win or a loss as 'within fifty' when that count plus the depth is at most 100."
fn within_fifty(value: Value, count: u32) -> bool {
    match value {
        Value::Win(depth) | Value::Loss(depth) => count + depth as u32 <= 100,
        Value::Draw => false,
    }
}

/// Looking up with a count: refusals 1 to 7 and 11, and 19, "asked after all others".
pub fn look_up_counted(bytes: &[u8], keyed: &Keyed, count: u32) -> Result<Counted, Refused> {
    let answer = look_up(bytes, keyed)?;
    if count > MOST_COUNT {
        return Err(Refused(19));
    }
    Ok(Counted { answer, within_fifty: within_fifty(answer.value, count) })
}

/// The same of a lone pawn, with 18: the mark is "never on a draw or with a pawn".
pub fn look_up_pawn_counted(
    own: &[u8],
    lent: [&[u8]; 4],
    keyed: &Keyed,
    count: u32,
) -> Result<(PawnAnswer, bool), Refused> {
    let answer = pawn_table::look_up(own, lent, keyed)?;
    if count > MOST_COUNT {
        return Err(Refused(19));
    }
    Ok((answer, false))
}

/// The count after a move. Without pawns only a capture sets it back.
pub fn count_after(count: u32, chosen: Move) -> u32 {
    if chosen.takes {
        0
    } else {
        count + 1
    }
}

/// FIDE 9.3: the player having the move may claim where the last 50 moves by each player were made
/// without capture or pawn move, or where a move that he writes down makes them so. Where he has
/// no move the game is over.
pub fn may_claim(count: u32, position: &Position) -> bool {
    let written = |&chosen: &Move| count_after(count, chosen) >= FIFTY_EACH;
    let list = moves(position);
    let list = list.as_slice();
    !list.is_empty() && (count >= FIFTY_EACH || list.iter().any(written))
}
