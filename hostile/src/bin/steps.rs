//! Fills in steps, from starts and from random bytes and words, and compares with the oracle's.
//!
//! usage: steps [SEED]

use std::process::ExitCode;

use hostile::calls::Tally;
use hostile::running::from_seed;
use hostile::sequence::Sequence;
use hostile::steps::{random_steps, runs};

const STEPS: u64 = 10_000;

fn compare(seed: u64) -> Tally {
    let mut tally = Tally::default();
    runs(&mut tally);
    println!("every step of four endings: {} compared, {} differ", tally.compared, tally.differ);
    let kinds = random_steps(STEPS, &mut Sequence::new(seed), &mut tally);
    println!("{STEPS} steps from random bytes and progress words: {kinds:?}");
    tally
}

fn main() -> ExitCode {
    from_seed("steps", compare)
}
