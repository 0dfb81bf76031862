//! Filling in steps: a start, then one depth a call, on any bytes and any progress.

use crate::fill::{begin, lent, too_deep};
use crate::number::NUMBERS;
use crate::position::{Man, Refused};
use crate::rule::{byte_of_depth, DRAW};
use crate::table::{required, Table};

/// What the caller keeps between two calls, and may hand in as it likes.
#[derive(Clone, Copy, PartialEq, Eq, Debug)]
pub enum Progress {
    /// The next step is the one for this depth; above 254 it "counts as 254".
    Next(u64),
    /// A step has said done; later ones repeat it.
    Done(Option<u8>),
    /// A step has given 10; later ones repeat it.
    TooDeep,
}

#[derive(Clone, Copy, PartialEq, Eq, Debug)]
pub enum Step {
    /// How many positions now hold the step's depth; never none.
    Settled(usize),
    /// The greatest depth, or none if no position is decided.
    Done(Option<u8>),
}

/// The step that finds out whether anything is too deep.
const LAST_DEPTH: u64 = 254;

/// "Starting sets every used legal number to 1 and the rest to 0": refusals 1 and 7.
pub fn start(man: u8, bytes: &mut [u8]) -> Result<Progress, Refused> {
    let (man, table) = lent(man, bytes)?;
    begin(man, table);
    Ok(Progress::Next(0))
}

/// The numbers at which the step for a depth writes. All are found before one is written,
/// so the bytes are read "as they stood before the step".
fn settling(man: Man, table: &Table, depth: u64) -> Vec<usize> {
    // What requires depth 254 requires a byte that there is none for.
    let byte = byte_of_depth(depth as u16);
    (0..NUMBERS)
        .filter(|&number| table[number] == DRAW)
        .filter(|&number| required(table, man, number) == byte)
        .collect()
}

/// One step: refusals 1, 7 and 10, and the progress to hand in next.
pub fn step(man: u8, bytes: &mut [u8], progress: Progress) -> (Result<Step, Refused>, Progress) {
    let (man, table) = match lent(man, bytes) {
        Ok(lent) => lent,
        Err(refused) => return (Err(refused), progress),
    };
    let depth = match progress {
        Progress::Next(depth) => depth.min(LAST_DEPTH),
        Progress::Done(greatest) => return (Ok(Step::Done(greatest)), progress),
        Progress::TooDeep => return (Err(Refused(10)), progress),
    };
    let numbers = settling(man, table, depth);
    if numbers.is_empty() {
        let greatest = depth.checked_sub(1).map(|before| before as u8);
        return (Ok(Step::Done(greatest)), Progress::Done(greatest));
    }
    let Some(byte) = byte_of_depth(depth as u16) else {
        return (Err(too_deep(table)), Progress::TooDeep);
    };
    for &number in &numbers {
        table[number] = byte;
    }
    (Ok(Step::Settled(numbers.len())), Progress::Next(depth + 1))
}
