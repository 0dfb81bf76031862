//! The self test: the program held to outside truth, one line a test.

use std::io::Write;

use crate::failure::{Done, Failure};
use crate::fill::Filled;
use crate::fill_every;
use crate::number::NUMBERS;
use crate::position::{Keyed, Man, Side, MEN, SIDES};
use crate::{
    tests_board, tests_check_digits, tests_desk, tests_fifty, tests_games, tests_number,
    tests_pocket, tests_search, tests_set, tests_steps, tests_table, tests_turns,
};

/// The four tables by the plain fill, made once for all tests.
pub struct Truth {
    pub tables: [Vec<u8>; 4],
    pub filled: [Filled; 4],
}

impl Truth {
    fn new() -> Truth {
        let mut tables = MEN.map(|_| vec![0; NUMBERS]);
        let filled = MEN.map(|man| fill_every::fill(man.code(), &mut tables[man as usize]));
        Truth { tables, filled }
    }

    pub fn table(&self, man: Man) -> &[u8] {
        &self.tables[man as usize]
    }
}

/// What a test says: nothing, or what is wrong.
pub type Verdict = Result<(), String>;

pub type Test = (&'static str, fn(&Truth) -> Verdict);

pub fn expect(right: bool, wrong: impl FnOnce() -> String) -> Verdict {
    if right {
        Ok(())
    } else {
        Err(wrong())
    }
}

/// Every position as keyed with one man of a colour, a known side and squares on the board.
pub fn every_keyed_of(man: Man, colour: Side) -> impl Iterator<Item = Keyed> {
    (0..2u32 << 18).map(move |place| {
        let square = |first: u32| (place >> first & 63) as u8;
        let kings = [square(12), square(0)];
        Keyed::of_one([man.code(), colour.code(), square(6)], (place >> 18) as u8, kings)
    })
}

/// The same with the man of either side.
pub fn every_keyed(man: Man) -> impl Iterator<Item = Keyed> {
    SIDES.into_iter().flat_map(move |colour| every_keyed_of(man, colour))
}

const LISTS: [&[Test]; 12] = [
    tests_board::TESTS,
    tests_number::TESTS,
    tests_table::TESTS,
    tests_steps::TESTS,
    tests_turns::TESTS,
    tests_games::TESTS,
    tests_fifty::TESTS,
    tests_pocket::TESTS,
    tests_check_digits::TESTS,
    tests_set::TESTS,
    tests_search::TESTS,
    tests_desk::TESTS,
];

/// Runs all tests; a fault makes the program end with status 1.
pub fn run(output: &mut impl Write) -> Done {
    let truth = Truth::new();
    let (mut passed, mut failed) = (0, 0);
    for &(name, test) in LISTS.into_iter().flatten() {
        match test(&truth) {
            Ok(()) => {
                passed += 1;
                writeln!(output, "ok    {name}")?;
            }
            Err(wrong) => {
                failed += 1;
                writeln!(output, "FAIL  {name}: {wrong}")?;
            }
        }
        output.flush()?;
    }
    writeln!(output, "{passed} passed, {failed} failed")?;
    output.flush()?;
    if failed == 0 {
        Ok(())
    } else {
        Err(Failure::Fault)
    }
}

#[cfg(test)]
mod tests {
    use super::*;

    /// `cargo test` runs what `oracle selftest` runs.
    #[test]
    fn selftest() {
        let truth = Truth::new();
        for &(name, test) in LISTS.into_iter().flatten() {
            assert_eq!(test(&truth), Ok(()), "{name}");
        }
    }
}
