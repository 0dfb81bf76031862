//! What both fills share: their refusals, their answer and how they begin.

use crate::number::position_of;
use crate::position::{Man, Refused};
use crate::rule::{DRAW, UNUSED};
use crate::rules::legal;
use crate::table::{sized_mut, Table};

/// The greatest depth, or none if no position is decided, "which is not depth 0".
pub type Filled = Result<Option<u8>, Refused>;

/// A fill's refusals before it writes anything: 1, then 7.
pub fn lent(man: u8, bytes: &mut [u8]) -> Result<(Man, &mut Table), Refused> {
    let man = Man::from_code(man).ok_or(Refused(1))?;
    Ok((man, sized_mut(bytes)?))
}

/// Every legal position begins as a draw; all other bytes are 0. Whatever the table
/// held before is gone.
pub fn begin(man: Man, table: &mut Table) {
    for (number, byte) in table.iter_mut().enumerate() {
        let open = position_of(man, number).is_some_and(|position| legal(&position));
        *byte = if open { DRAW } else { UNUSED };
    }
}

/// Refusal 10 "leaves it all zero".
pub fn too_deep(table: &mut Table) -> Refused {
    table.fill(UNUSED);
    Refused(10)
}
