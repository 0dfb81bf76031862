//! Calls the library with two men of all kinds and compares each answer with the oracle's.
//!
//! usage: two [SEED]

use std::process::ExitCode;

use hostile::calls::Tally;
use hostile::running::from_seed;
use hostile::sequence::Sequence;
use hostile::{two, two_tables};
use second::ending::Ending;
use second::four_back;
use second::four_counts::{filled, SmallTables};

const STEPS: usize = 60;

/// Of these endings every position's moves are listed, and every step is compared.
const WHOLE: [&str; 2] = ["KQQK", "KQKR"];
const STEPPED: &str = "KNNK";

/// Samples, any words and damaged tables of one ending.
fn ending(ending: Ending, small: &SmallTables, sequence: &mut Sequence, tally: &mut Tally) -> u64 {
    let (table, lent) = (filled(ending, small, four_back::fill).1, small.bytes(ending));
    two::sample(ending, lent, &table, sequence, tally);
    two::words(ending, lent, &table, sequence, tally);
    two::damaged(ending, lent, &table, sequence, tally)
}

fn compare(seed: u64) -> Tally {
    let (mut sequence, mut tally) = (Sequence::new(seed), Tally::default());
    let (small, mut refused) = (SmallTables::new(), 0);
    for each in Ending::all() {
        refused += ending(each, &small, &mut sequence, &mut tally);
        tally.told(&each.name());
    }
    println!("{refused} look-ups in damaged tables gave 11");
    for each in WHOLE.into_iter().filter_map(Ending::named) {
        two::all_lists(each, &mut tally);
        tally.told(&format!("all lists of {}", each.name()));
    }
    two_tables::lengths(&mut tally);
    tally.told("lengths");
    two_tables::wrong_words(&mut sequence, &mut tally);
    tally.told("words that are no ending's");
    let refused = two_tables::unaccepted(&mut sequence, &mut tally);
    tally.told(&format!("{refused} pairs of small tables that gave 17"));
    if let Some(each) = Ending::named(STEPPED) {
        let large = two_tables::run(each, small.bytes(each), &mut tally);
        let due = filled(each, &small, four_back::fill).1;
        tally.add("bytes after the last step", &STEPPED, large == due, true);
        tally.told(&format!("every step of {STEPPED}"));
    }
    let kinds = two_tables::random_steps(STEPS, &mut sequence, &mut tally);
    tally.told(&format!("{STEPS} steps from random bytes and progress words, {kinds:?}"));
    tally
}

fn main() -> ExitCode {
    from_seed("two", compare)
}
