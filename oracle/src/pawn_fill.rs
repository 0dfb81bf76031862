//! Two fills of the pawn's table over the four lent ones: in passes by depth, and by settling all
//! bytes again and again until none changes.

use crate::fill::Filled;
use crate::pawn_number::{position_of, PAWN_NUMBERS};
use crate::pawn_rules::legal;
use crate::pawn_table::{accepted, lent_sized, sized_mut, Lent, PawnTable, PawnTables};
use crate::position::Refused;
use crate::rule::{byte_of_depth, DRAW, MATED, UNUSED};

/// A fill of the pawn's ending: its table and the four lent ones.
pub type FillOfPawn = fn(&mut [u8], [&[u8]; 4]) -> Filled;

/// A fill's refusals before it writes anything: 7, 17.
fn checked<'a, 'b>(
    own: &'a mut [u8],
    lent: [&'b [u8]; 4],
) -> Result<(&'a mut PawnTable, Lent<'b>), Refused> {
    let (own, lent) = (sized_mut(own)?, lent_sized(lent)?);
    accepted(lent)?;
    Ok((own, lent))
}

/// Every legal position begins as a draw; all other bytes are 0.
pub fn begin(own: &mut PawnTable) {
    for (number, byte) in own.iter_mut().enumerate() {
        let open = position_of(number).is_some_and(|position| legal(&position));
        *byte = if open { DRAW } else { UNUSED };
    }
}

/// Refusal 10 "leaves it all zero".
pub fn too_deep(own: &mut PawnTable) -> Refused {
    own.fill(UNUSED);
    Refused(10)
}

/// The greatest depth that a lent table holds, as its bytes stand.
pub fn greatest_lent(lent: Lent) -> Option<u8> {
    let greatest = lent.iter().flat_map(|table| table.iter()).max().copied()?;
    greatest.checked_sub(MATED)
}

/// The numbers that hold a draw and require the byte of this depth, or none for depth 254.
pub fn settling(tables: &PawnTables, depth: u64) -> Vec<usize> {
    let byte = byte_of_depth(depth as u16);
    (0..PAWN_NUMBERS)
        .filter(|&number| tables.own[number] == DRAW)
        .filter(|&number| tables.required(number) == byte)
        .collect()
}

/// Filling in passes: refusals 7, 17, 10. Every open position is asked at every depth.
pub fn fill(own: &mut [u8], lent: [&[u8]; 4]) -> Filled {
    let (own, lent) = checked(own, lent)?;
    begin(own);
    let deepest_lent = greatest_lent(lent);
    let mut greatest = None;
    for depth in 0..=254u8 {
        let numbers = settling(&PawnTables { own, lent }, depth as u64);
        if numbers.is_empty() {
            // Depths may skip, so an empty pass is no end while a lent table goes deeper.
            if deepest_lent.is_none_or(|lent| lent < depth) {
                break;
            }
            continue;
        }
        let Some(byte) = byte_of_depth(depth as u16) else { return Err(too_deep(own)) };
        for &number in &numbers {
            own[number] = byte;
        }
        greatest = Some(depth);
    }
    Ok(greatest)
}

/// Filling without passes: each byte becomes what its successors require, round after round, until
/// a round changes none. A depth found too great falls later; a draw never comes back.
pub fn fill_rounds(own: &mut [u8], lent: [&[u8]; 4]) -> Filled {
    let (own, lent) = checked(own, lent)?;
    begin(own);
    loop {
        let tables = PawnTables { own, lent };
        let next: Option<Vec<u8>> = (0..PAWN_NUMBERS).map(|n| tables.required(n)).collect();
        let Some(next) = next else { return Err(too_deep(own)) };
        if next == own[..] {
            break;
        }
        own.copy_from_slice(&next);
    }
    Ok(own.iter().max().and_then(|greatest| greatest.checked_sub(MATED)))
}
