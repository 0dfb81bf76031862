//! Filling two men's table in steps: a start, then one depth a call, on any bytes and any progress.

use crate::ending::Ending;
use crate::four_fill::{begin, greatest_lent, too_deep};
use crate::four_number::NUMBERS_OF_TWO;
use crate::four_table::{sized_mut, small_sized, LargeTable, Small, Tables};
use crate::position::Refused;
use crate::rule::{byte_of_depth, DRAW};
use crate::steps::Step;

/// What the caller keeps between two calls, and may hand in as it likes.
#[derive(Clone, Copy, PartialEq, Eq, Debug)]
pub enum Progress {
    /// The depth of the next step, above 254 "counts as 254", and the greatest settled so far.
    Next(u64, Option<u8>),
    /// A step has said done; later ones repeat it.
    Done(Option<u8>),
    /// A step has given 10; later ones repeat it.
    TooDeep,
}

const LAST_DEPTH: u64 = 254;

/// Starting is lent no small table: refusals 1 and 7.
pub fn start(codes: [u8; 2], one_each: bool, large: &mut [u8]) -> Result<Progress, Refused> {
    let ending = Ending::from_codes(codes, one_each)?;
    begin(ending, sized_mut(large)?);
    Ok(Progress::Next(0, None))
}

/// The numbers at which the step for a depth writes, all found before one is written.
fn settling(ending: Ending, large: &LargeTable, small: Small, depth: u64) -> Vec<usize> {
    let byte = byte_of_depth(depth as u16);
    let tables = Tables { ending, large, small };
    (0..NUMBERS_OF_TWO)
        .filter(|&number| large[number] == DRAW)
        .filter(|&number| tables.required(number) == byte)
        .collect()
}

/// A step's refusals that leave the progress as it was: 1, then 7 of all tables.
fn lent<'a, 'b>(
    codes: [u8; 2],
    one_each: bool,
    large: &'a mut [u8],
    small: [&'b [u8]; 2],
) -> Result<(Ending, &'a mut LargeTable, Small<'b>), Refused> {
    Ok((Ending::from_codes(codes, one_each)?, sized_mut(large)?, small_sized(small)?))
}

/// One step: refusals 1, 7 and 10, and the progress to hand in next. The small tables' bytes are
/// read as they stand: 17 is not asked.
pub fn step(
    codes: [u8; 2],
    one_each: bool,
    large: &mut [u8],
    small: [&[u8]; 2],
    progress: Progress,
) -> (Result<Step, Refused>, Progress) {
    let (ending, large, small) = match lent(codes, one_each, large, small) {
        Ok(lent) => lent,
        Err(refused) => return (Err(refused), progress),
    };
    match progress {
        Progress::Next(depth, last) => step_at(ending, large, small, (depth.min(LAST_DEPTH), last)),
        Progress::Done(greatest) => (Ok(Step::Done(greatest)), progress),
        Progress::TooDeep => (Err(Refused(10)), progress),
    }
}

fn step_at(
    ending: Ending,
    large: &mut LargeTable,
    small: Small,
    (depth, last): (u64, Option<u8>),
) -> (Result<Step, Refused>, Progress) {
    let numbers = settling(ending, large, small, depth);
    if numbers.is_empty() {
        // "Done exactly when it settles none and no lent small table holds a depth of k or more."
        return if greatest_lent(small).is_some_and(|lent| lent as u64 >= depth) {
            (Ok(Step::Settled(0)), Progress::Next(depth + 1, last))
        } else {
            (Ok(Step::Done(last)), Progress::Done(last))
        };
    }
    let Some(byte) = byte_of_depth(depth as u16) else {
        return (Err(too_deep(large)), Progress::TooDeep);
    };
    for &number in &numbers {
        large[number] = byte;
    }
    (Ok(Step::Settled(numbers.len())), Progress::Next(depth + 1, Some(depth as u8)))
}
