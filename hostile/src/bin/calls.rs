//! Calls every entry point but the pocket's with bytes of all kinds and compares each answer with
//! the oracle's.
//!
//! usage: calls [SEED]

use std::process::ExitCode;

use hostile::calls::{boards, desks, lengths, numbers, random_boards, random_tables, Tally};
use hostile::running::from_seed;
use hostile::sequence::Sequence;
use hostile::words::random_words;
use hostile::written::written_numbers;

fn compare(seed: u64) -> Tally {
    let mut sequence = Sequence::new(seed);
    let mut tally = Tally::default();
    tally.part("every board of both colours, squares 0 to 64", boards);
    tally.part("random bytes as keyed", |tally| random_boards(&mut sequence, tally));
    tally.part("random words as men", |tally| random_words(&mut sequence, tally));
    tally.part("numbers and codes", |tally| numbers(&mut sequence, tally));
    tally.part("random and damaged tables", |tally| random_tables(&mut sequence, tally));
    tally.part("lengths", lengths);
    tally.part("lines to a desk in this process", |tally| desks(seed, tally));
    tally.part("numbers written with their check", |tally| written_numbers(&mut sequence, tally));
    tally
}

fn main() -> ExitCode {
    from_seed("calls", compare)
}
