//! Looks boards up at counts from 0 on and compares answers, marks and refusals with the oracle's.
//!
//! usage: fifty [SEED]

use std::process::ExitCode;

use hostile::calls::Tally;
use hostile::fifty::{boards, damaged};
use hostile::running::from_seed;
use hostile::sequence::Sequence;

const CALLS: u64 = 1_000_000;

fn compare(seed: u64) -> Tally {
    let (mut sequence, mut tally) = (Sequence::new(seed), Tally::default());
    let kinds = boards(&mut sequence, &mut tally);
    println!("every board, and every case at every count: {kinds:?}");
    println!("{} compared, {} differ so far", tally.compared, tally.differ);
    let kinds = damaged(CALLS, &mut sequence, &mut tally);
    println!("{CALLS} look-ups in damaged tables: {kinds:?}");
    tally
}

fn main() -> ExitCode {
    from_seed("fifty", compare)
}
