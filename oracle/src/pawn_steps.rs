//! Filling the pawn's table in steps: a start, then one depth a call, on any bytes and any progress.

use crate::four_steps::Progress;
use crate::pawn_fill::{begin, greatest_lent, settling, too_deep};
use crate::pawn_table::{lent_sized, sized_mut, Lent, PawnTable, PawnTables};
use crate::position::Refused;
use crate::rule::byte_of_depth;
use crate::steps::Step;

const LAST_DEPTH: u64 = 254;

/// Starting is lent no small table: refusal 7.
pub fn start(own: &mut [u8]) -> Result<Progress, Refused> {
    begin(sized_mut(own)?);
    Ok(Progress::Next(0, None))
}

/// One step: refusals 7 and 10, and the progress to hand in next. The lent tables' bytes are read
/// as they stand: 17 is not asked.
pub fn step(
    own: &mut [u8],
    lent: [&[u8]; 4],
    progress: Progress,
) -> (Result<Step, Refused>, Progress) {
    let (own, lent) = match sized_mut(own).and_then(|own| Ok((own, lent_sized(lent)?))) {
        Ok(sized) => sized,
        Err(refused) => return (Err(refused), progress),
    };
    match progress {
        Progress::Next(depth, last) => step_at(own, lent, depth.min(LAST_DEPTH), last),
        Progress::Done(greatest) => (Ok(Step::Done(greatest)), progress),
        Progress::TooDeep => (Err(Refused(10)), progress),
    }
}

fn step_at(
    own: &mut PawnTable,
    lent: Lent,
    depth: u64,
    last: Option<u8>,
) -> (Result<Step, Refused>, Progress) {
    let numbers = settling(&PawnTables { own, lent }, depth);
    if numbers.is_empty() {
        // "Steps end as in P10."
        return if greatest_lent(lent).is_some_and(|lent| lent as u64 >= depth) {
            (Ok(Step::Settled(0)), Progress::Next(depth + 1, last))
        } else {
            (Ok(Step::Done(last)), Progress::Done(last))
        };
    }
    let Some(byte) = byte_of_depth(depth as u16) else {
        return (Err(too_deep(own)), Progress::TooDeep);
    };
    for &number in &numbers {
        own[number] = byte;
    }
    (Ok(Step::Settled(numbers.len())), Progress::Next(depth + 1, Some(depth as u8)))
}
