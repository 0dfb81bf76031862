//! What the fills of two men share: their refusals, how they begin, and the lent depths.

use crate::ending::Ending;
use crate::four_number::position_of;
use crate::four_table::{accepted, sized_mut, small_sized, LargeTable, Small};
use crate::laws::legal;
use crate::position::Refused;
use crate::rule::{DRAW, MATED, UNUSED};

/// A fill of two men: the ending's codes, whether they are one each, the table and the lent ones.
pub type FillOfTwo = fn([u8; 2], bool, &mut [u8], [&[u8]; 2]) -> crate::fill::Filled;

/// A fill's refusals before it writes anything: 1, 7, 17.
pub fn lent<'a, 'b>(
    codes: [u8; 2],
    one_each: bool,
    large: &'a mut [u8],
    small: [&'b [u8]; 2],
) -> Result<(Ending, &'a mut LargeTable, Small<'b>), Refused> {
    let ending = Ending::from_codes(codes, one_each)?;
    let (large, small) = (sized_mut(large)?, small_sized(small)?);
    accepted(ending, small)?;
    Ok((ending, large, small))
}

/// Every legal position begins as a draw; all other bytes are 0.
pub fn begin(ending: Ending, large: &mut LargeTable) {
    for (number, byte) in large.iter_mut().enumerate() {
        let open = position_of(ending, number).is_some_and(|placement| legal(&placement));
        *byte = if open { DRAW } else { UNUSED };
    }
}

/// Refusal 10 "leaves it all zero".
pub fn too_deep(large: &mut LargeTable) -> Refused {
    large.fill(UNUSED);
    Refused(10)
}

/// The greatest depth that a lent small table holds, as its bytes stand.
pub fn greatest_lent(small: Small) -> Option<u8> {
    let greatest = small.iter().flat_map(|table| table.iter()).max().copied()?;
    greatest.checked_sub(MATED)
}
