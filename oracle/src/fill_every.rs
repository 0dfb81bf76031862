//! The plain fill: every open position at every depth, in passes.
//!
//! Pass k looks at every legal position that still holds 1 and settles those whose
//! successors require depth k. Depths below k are all settled by then, and a byte
//! written in pass k itself can only require k + 1, so the passes work in place.

use crate::fill::{begin, lent, too_deep, Filled};
use crate::index::number_of;
use crate::number::{position_of, NUMBERS};
use crate::position::{Man, Position, Refused};
use crate::rule::{byte_of_depth, Successors, DRAW};
use crate::rules::{in_check, moves, play};
use crate::table::Table;

/// Filling: refusals 1, 7, 10.
pub fn fill(man: u8, bytes: &mut [u8]) -> Filled {
    let (man, table) = lent(man, bytes)?;
    begin(man, table);
    let mut greatest = None;
    // Pass 254 settles nothing; it only finds what is too deep.
    for depth in 0..=254u8 {
        match pass(man, table, depth) {
            Ok(0) => break,
            Ok(_) => greatest = Some(depth),
            Err(_) => return Err(too_deep(table)),
        }
    }
    Ok(greatest)
}

/// One pass: how many positions it settled, or refusal 10.
fn pass(man: Man, table: &mut Table, depth: u8) -> Result<usize, Refused> {
    let byte = byte_of_depth(depth as u16);
    let mut settled = 0;
    for number in 0..NUMBERS {
        if table[number] != DRAW {
            continue;
        }
        let Some(position) = position_of(man, number) else { continue };
        let required = required(table, &position).ok_or(Refused(10))?;
        if Some(required) == byte {
            table[number] = required;
            settled += 1;
        }
    }
    Ok(settled)
}

/// The byte that the successors' bytes require, numbered by the prepared list.
fn required(table: &Table, position: &Position) -> Option<u8> {
    let mut successors = Successors::none();
    for &chosen in moves(position).as_slice() {
        let byte = play(position, chosen).map_or(DRAW, |next| table[number_of(&next)]);
        successors.add(byte);
    }
    successors.required(|| in_check(position))
}
