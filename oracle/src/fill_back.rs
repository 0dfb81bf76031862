//! The fill that works back from the mates, as document 004 describes it: retract moves
//! from the positions just settled; losses are verified forward, once a pass each.

use crate::fill::{begin, lent, too_deep, Filled};
use crate::index::number_of;
use crate::number::{position_of, NUMBERS};
use crate::position::{Man, Position, Refused};
use crate::retract::retractions;
use crate::rule::{byte_of_depth, value, Value, DRAW, MATED};
use crate::rules::{in_check, moves, play};
use crate::table::Table;

/// Filling: refusals 1, 7, 10.
pub fn fill(man: u8, bytes: &mut [u8]) -> Filled {
    let (man, table) = lent(man, bytes)?;
    begin(man, table);
    let mut work = Work { man, table, tried: vec![0; NUMBERS], settled: vec![], next: vec![] };
    work.settled.reserve(NUMBERS);
    work.next.reserve(NUMBERS);
    work.find_mates();
    let mut greatest = None;
    for depth in 1..=254u8 {
        if work.settled.is_empty() {
            break;
        }
        greatest = Some(depth - 1);
        if work.pass(depth).is_err() {
            return Err(too_deep(work.table));
        }
    }
    Ok(greatest)
}

struct Work<'a> {
    man: Man,
    table: &'a mut Table,
    /// The pass in which a number was last verified, 0 for none.
    tried: Vec<u8>,
    /// Numbers settled in the pass before.
    settled: Vec<u16>,
    next: Vec<u16>,
}

impl Work<'_> {
    /// Pass 0: "initial mates over all positions".
    fn find_mates(&mut self) {
        for number in 0..NUMBERS {
            if self.table[number] != DRAW {
                continue;
            }
            let Some(position) = position_of(self.man, number) else { continue };
            if in_check(&position) && moves(&position).as_slice().is_empty() {
                self.table[number] = MATED;
                self.settled.push(number as u16);
            }
        }
    }

    /// Settles depth `depth` from depth `depth - 1`, or reports refusal 10.
    fn pass(&mut self, depth: u8) -> Result<(), Refused> {
        let settled = std::mem::take(&mut self.settled);
        for &number in &settled {
            let Some(position) = position_of(self.man, number as usize) else { continue };
            retractions(&position, |earlier| {
                let number = number_of(earlier);
                if self.table[number] == DRAW && self.decided(earlier, number, depth) {
                    self.next.push(number as u16);
                    // A depth above 253 has no byte: the position stays open and is reported.
                    self.table[number] = byte_of_depth(depth as u16).unwrap_or(DRAW);
                }
            });
        }
        if depth == 254 && !self.next.is_empty() {
            return Err(Refused(10));
        }
        self.settled = std::mem::replace(&mut self.next, settled);
        self.next.clear();
        Ok(())
    }

    /// A move to a loss is a win at once; a move to a win must be all there is.
    fn decided(&mut self, position: &Position, number: usize, depth: u8) -> bool {
        if depth % 2 == 1 {
            return true;
        }
        if self.tried[number] == depth {
            return false;
        }
        self.tried[number] = depth;
        self.every_move_loses(position)
    }

    /// "Verify Black to move and lose": every successor a win for the other side.
    fn every_move_loses(&self, position: &Position) -> bool {
        moves(position).as_slice().iter().all(|&chosen| {
            let byte = play(position, chosen).map_or(DRAW, |next| self.table[number_of(&next)]);
            matches!(value(byte), Value::Win(_))
        })
    }
}
