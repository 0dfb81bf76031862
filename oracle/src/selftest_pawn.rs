//! The self test of the pawn's ending: `oracle selftest-pawn`.

use std::io::Write;

use crate::failure::{Done, Failure};
use crate::pawn_counts::PawnTruth;
use crate::pawn_fill;
use crate::pawn_position::PAWN;
use crate::position::{Keyed, SIDES};
use crate::selftest::Verdict;
use crate::{tests_pawn_games, tests_pawn_look_up, tests_pawn_rules};
use crate::{tests_pawn_steps, tests_pawn_table};

pub type PawnTest = (&'static str, fn(&PawnTruth) -> Verdict);

/// Every record with a pawn of either colour, a known side and squares on the board.
pub fn every_keyed() -> impl Iterator<Item = Keyed> {
    SIDES.into_iter().flat_map(|colour| {
        (0..2u32 << 18).map(move |place| {
            let square = |first: u32| (place >> first & 63) as u8;
            let kings = [square(12), square(0)];
            Keyed::of_one([PAWN, colour.code(), square(6)], (place >> 18) as u8, kings)
        })
    })
}

const LISTS: [&[PawnTest]; 5] = [
    tests_pawn_rules::TESTS,
    tests_pawn_table::TESTS,
    tests_pawn_steps::TESTS,
    tests_pawn_look_up::TESTS,
    tests_pawn_games::TESTS,
];

/// Runs all tests; a fault makes the program end with status 1.
pub fn run(output: &mut impl Write) -> Done {
    let truth = PawnTruth::new(pawn_fill::fill);
    let (mut passed, mut failed) = (0, 0);
    for &(name, test) in LISTS.into_iter().flatten() {
        match test(&truth) {
            Ok(()) => {
                passed += 1;
                writeln!(output, "ok    {name}")?;
            }
            Err(wrong) => {
                failed += 1;
                writeln!(output, "FAIL  {name}: {wrong}")?;
            }
        }
        output.flush()?;
    }
    writeln!(output, "{passed} passed, {failed} failed")?;
    if failed == 0 {
        Ok(())
    } else {
        Err(Failure::Fault)
    }
}

#[cfg(test)]
mod tests {
    use super::*;

    /// `cargo test --release -- --ignored` runs what `oracle selftest-pawn` runs.
    #[test]
    #[ignore = "fills the pawn's table and goes over every position"]
    fn selftest() {
        let truth = PawnTruth::new(pawn_fill::fill);
        for &(name, test) in LISTS.into_iter().flatten() {
            assert_eq!(test(&truth), Ok(()), "{name}");
        }
    }
}
