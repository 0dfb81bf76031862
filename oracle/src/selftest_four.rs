//! The self test of two men: `oracle selftest-four`.

use std::io::Write;

use crate::ending::Ending;
use crate::failure::{Done, Failure};
use crate::fill::Filled;
use crate::four_back;
use crate::four_counts::{filled, SmallTables};
use crate::placement::{Limit, Placement};
use crate::position::{Keyed, Side};
use crate::samples::Sequence;
use crate::selftest::Verdict;
use crate::{tests_four_games, tests_four_number, tests_four_rules, tests_four_steps};
use crate::{tests_four_look_up, tests_four_table};

/// An ending's table by the fill that works back.
pub struct Large {
    pub ending: Ending,
    pub filled: Filled,
    pub bytes: Vec<u8>,
}

/// All twenty tables, made once for all tests, and the four small ones.
pub struct FourTruth {
    pub small: SmallTables,
    pub large: Vec<Large>,
}

impl FourTruth {
    pub fn new() -> FourTruth {
        let small = SmallTables::new();
        let large = Ending::all().map(|ending| {
            let (filled, bytes) = filled(ending, &small, four_back::fill);
            Large { ending, filled, bytes }
        });
        let large = large.collect();
        FourTruth { small, large }
    }

    pub fn of(&self, name: &str) -> Option<&Large> {
        self.large.iter().find(|large| large.ending.name() == name)
    }
}

impl Default for FourTruth {
    fn default() -> FourTruth {
        FourTruth::new()
    }
}

pub type FourTest = (&'static str, fn(&FourTruth) -> Verdict);

/// A placement of an ending drawn from a sequence, in either order of slots and either colouring.
pub fn drawn(sequence: &mut Sequence, ending: Ending) -> Placement {
    loop {
        let side = if sequence.below(2) == 0 { Side::White } else { Side::Black };
        let mut square = || sequence.square();
        let mut placement = ending.placement(side, [square(), square()], [square(), square()]);
        if sequence.below(2) == 0 {
            placement.men.reverse();
        }
        if sequence.below(2) == 0 {
            placement = placement.exchanged();
        }
        if placement.keyed().placement(Limit::TwoMen).is_ok() {
            return placement;
        }
    }
}

/// Any bytes with two men, more often right than not.
pub fn raw_keyed(sequence: &mut Sequence) -> Keyed {
    let mut byte = |right: u64| match sequence.below(12) {
        0 => [64, 255, 4, 2][sequence.below(4) as usize % 4],
        _ => sequence.below(right) as u8,
    };
    let mut man = || {
        let [kind, colour, square] = [byte(4), byte(2), byte(64)];
        crate::position::KeyedMan { kind, colour, square }
    };
    let men = [Some(man()), Some(man())];
    let [side, white_king, black_king] = [byte(2), byte(64), byte(64)];
    let men = match sequence.below(20) {
        0 => [None, men[1]],
        1 => [men[0], None],
        2 => [None, None],
        _ => men,
    };
    Keyed { side, white_king, black_king, men }
}

/// What needs no table of two men.
const QUICK: [&[FourTest]; 2] = [tests_four_rules::TESTS, tests_four_number::TESTS];

/// What fills all twenty, or goes over every number of them.
const THOROUGH: [&[FourTest]; 6] = [
    tests_four_rules::MOST_MOVES,
    tests_four_number::COUNTS,
    tests_four_table::TESTS,
    tests_four_steps::TESTS,
    tests_four_look_up::TESTS,
    tests_four_games::TESTS,
];

/// Runs all tests; a fault makes the program end with status 1.
pub fn run(output: &mut impl Write) -> Done {
    let truth = FourTruth::new();
    let (mut passed, mut failed) = (0, 0);
    for &(name, test) in QUICK.into_iter().chain(THOROUGH).flatten() {
        match test(&truth) {
            Ok(()) => {
                passed += 1;
                writeln!(output, "ok    {name}")?;
            }
            Err(wrong) => {
                failed += 1;
                writeln!(output, "FAIL  {name}: {wrong}")?;
            }
        }
        output.flush()?;
    }
    writeln!(output, "{passed} passed, {failed} failed")?;
    if failed == 0 {
        Ok(())
    } else {
        Err(Failure::Fault)
    }
}

#[cfg(test)]
mod tests {
    use super::*;

    #[test]
    fn quick() {
        let truth = FourTruth { small: SmallTables::new(), large: vec![] };
        for &(name, test) in QUICK.into_iter().flatten() {
            assert_eq!(test(&truth), Ok(()), "{name}");
        }
    }

    /// `cargo test -- --ignored` runs the rest of what `oracle selftest-four` runs.
    #[test]
    #[ignore = "fills all twenty endings"]
    fn thorough() {
        let truth = FourTruth::new();
        for &(name, test) in THOROUGH.into_iter().flatten() {
            assert_eq!(test(&truth), Ok(()), "{name}");
        }
    }
}
