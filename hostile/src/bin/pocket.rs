//! Packs tables, looks positions up in pockets and takes pockets' tallies, and compares each
//! answer with the oracle's.
//!
//! usage: pocket [SEED]

use std::process::ExitCode;

use hostile::calls::Tally;
use hostile::pocket::{boards, lengths, pockets, tables, POCKETS};
use hostile::running::from_seed;
use hostile::sequence::Sequence;

fn compare(seed: u64) -> Tally {
    let mut sequence = Sequence::new(seed);
    let mut tally = Tally::default();
    tally.part("every board of both colours, squares 0 to 64", boards);
    let says = format!("{POCKETS} random and damaged pockets");
    tally.part(&says, |tally| pockets(&mut sequence, tally));
    tally.part("random tables packed", |tally| tables(&mut sequence, tally));
    tally.part("lengths", lengths);
    tally
}

fn main() -> ExitCode {
    from_seed("pocket", compare)
}
