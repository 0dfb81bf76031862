//! The pawn's true table with the lent ones, and what its numbers come to.

use std::io::{self, Write};

use crate::counts::Checksum;
use crate::fill::Filled;
use crate::fill_back;
use crate::number::NUMBERS;
use crate::pawn_fill::FillOfPawn;
use crate::pawn_number::{back, number_of, PAWN_NUMBERS};
use crate::pawn_position::PAWN;
use crate::position::{MEN, SIDES};
use crate::rule::UNUSED;

/// The pawn's table by one of the fills, and the four true tables that it was lent.
pub struct PawnTruth {
    pub lent: [Vec<u8>; 4],
    pub filled: Filled,
    pub own: Vec<u8>,
}

impl PawnTruth {
    pub fn new(fill: FillOfPawn) -> PawnTruth {
        let lent = MEN.map(|man| {
            let mut table = vec![UNUSED; NUMBERS];
            // A true depth above 253 there is not: the self test goes over all four tables.
            let _ = fill_back::fill(man.code(), &mut table);
            table
        });
        let mut own = vec![UNUSED; PAWN_NUMBERS];
        let filled = fill(&mut own, lent.each_ref().map(|table| &table[..]));
        PawnTruth { lent, filled, own }
    }

    pub fn lent(&self) -> [&[u8]; 4] {
        self.lent.each_ref().map(|table| &table[..])
    }
}

/// The used and unused numbers, a checksum over all positions, and one over their numbers.
pub fn write_pawn_numbering(output: &mut impl Write) -> io::Result<()> {
    let (mut positions, mut numbers) = (Checksum::new(), Checksum::new());
    let (mut used, mut refused) = ([0; 2], 0);
    for number in 0..PAWN_NUMBERS as u64 {
        let Ok(position) = back(PAWN, number) else {
            refused += 1;
            positions.add(200);
            continue;
        };
        let [white, black] = position.kings;
        used[position.side as usize] += 1;
        for value in [position.side.code(), white, position.pawn, black] {
            positions.add(value as u64);
        }
        numbers.add(number_of(&position) as u64);
    }
    let (total, positions, numbers) = (used[0] + used[1], positions.0, numbers.0);
    writeln!(
        output,
        "{PAWN} used {total} refused9 {refused} positions {positions} numbers {numbers}"
    )?;
    for side in SIDES {
        writeln!(output, "{PAWN} {} used {}", side.name(), used[side as usize])?;
    }
    Ok(())
}
