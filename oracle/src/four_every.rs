//! The plain fill of two men: every open position at every depth, no pass or half of one skipped.

use crate::ending::Ending;
use crate::fill::Filled;
use crate::four_fill::{begin, greatest_lent, lent, too_deep};
use crate::four_number::{position_of, NUMBERS_OF_TWO};
use crate::four_table::{LargeTable, Small, Tables};
use crate::position::Refused;
use crate::rule::{byte_of_depth, DRAW};

/// Filling: refusals 1, 7, 17, 10.
pub fn fill(codes: [u8; 2], one_each: bool, large: &mut [u8], small: [&[u8]; 2]) -> Filled {
    let (ending, large, small) = lent(codes, one_each, large, small)?;
    begin(ending, large);
    let deepest_lent = greatest_lent(small);
    let mut greatest = None;
    // Pass 254 settles nothing; it only finds what is too deep.
    for depth in 0..=254u8 {
        match pass(ending, large, small, depth) {
            // "Depths may skip, so an empty pass is no end."
            Ok(0) if deepest_lent.is_none_or(|lent| lent < depth) => break,
            Ok(0) => {}
            Ok(_) => greatest = Some(depth),
            Err(_) => return Err(too_deep(large)),
        }
    }
    Ok(greatest)
}

/// One pass: how many positions it settled, or refusal 10. A byte written in the pass itself can
/// only require a greater depth, so it works in place.
fn pass(ending: Ending, large: &mut LargeTable, small: Small, depth: u8) -> Result<usize, Refused> {
    let byte = byte_of_depth(depth as u16);
    let mut settled = 0;
    for number in 0..NUMBERS_OF_TWO {
        if large[number] != DRAW {
            continue;
        }
        let Some(placement) = position_of(ending, number) else { continue };
        let required = Tables { ending, large, small }.required_of(&placement);
        // A lent table may show what is too deep before pass 254 has come; only then it counts.
        if required.is_none() && depth == 254 {
            return Err(Refused(10));
        }
        if required.is_some() && required == byte {
            large[number] = required.unwrap_or(DRAW);
            settled += 1;
        }
    }
    Ok(settled)
}
