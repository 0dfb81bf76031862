//! Fills the four endings of one man and the twenty of two by the library's second fill, over its own
//! tables of one man, and compares every byte and the greatest depths with the oracle's.
//!
//! usage: back [ENDING ...]: those of two men, or all twenty

use std::process::ExitCode;
use std::time::Instant;

use hostile::calls::Tally;
use hostile::lent::{fill_back, two_men, Small, NONE, SMALL_BYTES};
use hostile::running::{endings, over_words};
use hostile::two_tables::{code, filled_word};
use second::ending::Ending;
use second::fill_every;
use second::four_back;
use second::four_counts::{filled, SmallTables};
use second::position::{Man, Refused, MEN};

/// The library's fill of an ending beside the oracle's answer and bytes.
fn compare(
    name: &str,
    (word, small): (u32, Small),
    (due, bytes): (Result<Option<u8>, Refused>, &[u8]),
    tally: &mut Tally,
) -> Vec<u8> {
    let mut table = vec![165; bytes.len()];
    let begun = Instant::now();
    let answer = fill_back(word, small, &mut table);
    let seconds = begun.elapsed().as_secs_f64();
    let unlike = table.iter().zip(bytes).filter(|(one, other)| one != other).count();
    let depth = match due {
        Ok(Some(depth)) => depth.to_string(),
        _ => "none".to_string(),
    };
    tally.add("word of filling back", &name, answer as u64, code(due, filled_word));
    tally.bytes(name, table.len() as u64, unlike as u64);
    println!("{name}: greatest depth {depth}, {unlike} bytes unlike, {seconds:.2} s");
    table
}

/// One man's table, which those of two lead into.
fn one_man(man: Man, tally: &mut Tally) -> Vec<u8> {
    let mut bytes = vec![165; SMALL_BYTES];
    let due = fill_every::fill(man.code(), &mut bytes);
    compare(man.name(), (man.code() as u32, NONE), (due, &bytes), tally)
}

fn two(ending: Ending, ours: &[Vec<u8>; 4], theirs: &SmallTables, tally: &mut Tally) {
    let small = ending.codes().map(|code| &ours[code as usize][..]);
    let (due, bytes) = filled(ending, theirs, four_back::fill);
    let asked = (two_men(ending.codes(), ending.one_each), small);
    compare(&ending.name(), asked, (due, &bytes), tally);
}

fn run(words: &[String]) -> Result<Tally, String> {
    let endings = endings(words)?;
    let mut tally = Tally::default();
    let ours = MEN.map(|man| one_man(man, &mut tally));
    let theirs = SmallTables::new();
    for ending in endings {
        two(ending, &ours, &theirs, &mut tally);
    }
    Ok(tally)
}

fn main() -> ExitCode {
    over_words("back", run)
}
