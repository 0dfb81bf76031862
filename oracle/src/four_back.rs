//! The fill of two men that works back (document 004): retract moves from the positions just
//! settled and captures from the lent tables; losses are confirmed forward.

use crate::ending::{arranged, Ending};
use crate::fill::Filled;
use crate::four_fill::{begin, greatest_lent, lent, too_deep};
use crate::four_number::{number_of, position_of, NUMBERS_OF_TWO};
use crate::four_retract::{retractions, uncaptures};
use crate::four_table::{LargeTable, Small, Tables};
use crate::laws::{in_check, moves, play};
use crate::number;
use crate::placement::Placement;
use crate::position::{Man, Refused, Side};
use crate::rule::{byte_of_depth, value, Value, DRAW, MATED};

/// Filling: refusals 1, 7, 17, 10.
pub fn fill(codes: [u8; 2], one_each: bool, large: &mut [u8], small: [&[u8]; 2]) -> Filled {
    let (ending, large, small) = lent(codes, one_each, large, small)?;
    begin(ending, large);
    let deepest_lent = greatest_lent(small);
    let tried = vec![0; NUMBERS_OF_TWO];
    let mut work = Work { ending, large, small, tried, settled: vec![], next: vec![] };
    work.find_mates();
    let mut greatest = None;
    for depth in 0..=254u8 {
        if !work.settled.is_empty() {
            greatest = Some(depth);
        } else if deepest_lent.is_none_or(|lent| lent < depth) {
            break;
        }
        if depth < 254 && work.pass(depth + 1).is_err() {
            return Err(too_deep(work.large));
        }
    }
    Ok(greatest)
}

struct Work<'a, 'b> {
    ending: Ending,
    large: &'a mut LargeTable,
    small: Small<'b>,
    /// The pass in which a number was last confirmed or not, 0 for none.
    tried: Vec<u8>,
    /// Numbers settled in the pass before.
    settled: Vec<u32>,
    next: Vec<u32>,
}

impl Work<'_, '_> {
    fn find_mates(&mut self) {
        for number in 0..NUMBERS_OF_TWO {
            if self.large[number] != DRAW {
                continue;
            }
            let Some(placement) = position_of(self.ending, number) else { continue };
            if in_check(&placement) && moves(&placement).as_slice().is_empty() {
                self.large[number] = MATED;
                self.settled.push(number as u32);
            }
        }
    }

    /// Settles depth `depth` from depth `depth - 1`, or reports refusal 10.
    fn pass(&mut self, depth: u8) -> Result<(), Refused> {
        let settled = std::mem::take(&mut self.settled);
        let mut found = Ok(());
        for &number in &settled {
            let Some(placement) = position_of(self.ending, number as usize) else { continue };
            retractions(&placement, |earlier| {
                found = found.and(self.try_to_settle(earlier, depth));
            });
        }
        for (left, taken) in self.left_and_taken() {
            found = found.and(self.retract_captures(left, taken, depth));
        }
        found?;
        self.settled = std::mem::replace(&mut self.next, settled);
        self.next.clear();
        Ok(())
    }

    /// The man that a capture leaves with his colour, and the man it takes. Like men of one side
    /// leave one and the same.
    fn left_and_taken(&self) -> Vec<((Man, Side), Man)> {
        let Ending { first, second, .. } = self.ending;
        let mut pairs = vec![((first, Side::White), second)];
        if !self.ending.like() {
            pairs.push(((second, self.ending.second_colour()), first));
        }
        pairs
    }

    /// Tries each placement with a capture into a position of depth `depth - 1` with one man.
    fn retract_captures(
        &mut self,
        (kind, colour): (Man, Side),
        taken: Man,
        depth: u8,
    ) -> Result<(), Refused> {
        let table = if kind == self.ending.first { self.small[0] } else { self.small[1] };
        let mut found = Ok(());
        for number in (0..table.len()).filter(|&number| table[number] == MATED + (depth - 1)) {
            let Some(position) = number::position_of(kind, number) else { continue };
            let white = Placement::from(&position);
            let left = if colour == Side::White { white } else { white.exchanged() };
            uncaptures(&left, taken, |earlier| {
                // A capture by the same side's own men belongs to another ending.
                let arranged = arranged(earlier).filter(|(ending, _)| *ending == self.ending);
                if let Some((_, earlier)) = arranged {
                    found = found.and(self.try_to_settle(&earlier, depth));
                }
            });
        }
        found
    }

    /// A move to a loss is a win at once; a move to a win must be among wins alone.
    fn try_to_settle(&mut self, earlier: &Placement, depth: u8) -> Result<(), Refused> {
        let number = number_of(self.ending, earlier);
        if self.large[number] != DRAW || self.tried[number] == depth {
            return Ok(());
        }
        if depth.is_multiple_of(2) {
            self.tried[number] = depth;
            if !self.every_move_loses(earlier, depth) {
                return Ok(());
            }
        }
        // A depth above 253 has no byte.
        self.large[number] = byte_of_depth(depth as u16).ok_or(Refused(10))?;
        self.next.push(number as u32);
        Ok(())
    }

    /// Every successor a win for the other side, and none deeper than the depth before: the lent
    /// tables hold all depths from the start.
    fn every_move_loses(&self, placement: &Placement, depth: u8) -> bool {
        let tables = Tables { ending: self.ending, large: self.large, small: self.small };
        moves(placement).as_slice().iter().all(|&chosen| {
            matches!(value(tables.byte(&play(placement, chosen))), Value::Win(n) if n < depth)
        })
    }
}
