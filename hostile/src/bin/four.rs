//! Fills the endings of two men by the library, beside its own tables of one man, and compares every
//! byte and the greatest depths with the oracle's, which works back; then damages the table a byte at
//! a time and compares what the two checkers say.
//!
//! usage: four [ENDING ...]

use std::process::ExitCode;
use std::time::Instant;

use hostile::calls::Tally;
use hostile::lent::{check, fill, two_men, LARGE_BYTES, NONE, SMALL_BYTES};
use hostile::running::{endings, over_words};
use hostile::sequence::Sequence;
use hostile::two_tables::{checked_word, code, filled_word};
use second::ending::Ending;
use second::four_back;
use second::four_counts::{filled, SmallTables};
use second::four_table;
use second::position::MEN;

/// The library's four tables of one man.
fn small_tables() -> [Vec<u8>; 4] {
    MEN.map(|man| {
        let mut table = vec![165; SMALL_BYTES];
        fill(man.code() as u32, NONE, &mut table);
        table
    })
}

/// Damages made to each table.
const DAMAGES: usize = 4;

/// One byte altered: the lowest wrong number, by both.
fn damage(ending: Ending, small: [&[u8]; 2], table: &mut [u8], tally: &mut Tally) {
    let word = two_men(ending.codes(), ending.one_each);
    let mut sequence = Sequence::new(word as u64);
    for _ in 0..DAMAGES {
        let number = sequence.below(table.len());
        let right = table[number];
        table[number] = right.wrapping_add(1 + sequence.byte() % 255);
        let due = four_table::check(ending.codes(), ending.one_each, table, small);
        let due = code(due, checked_word);
        let asked = (ending.name(), number, table[number]);
        tally.add("check of a damaged table", &asked, check(word, small, table), due);
        table[number] = right;
    }
}

/// One ending: the answer, every byte, and the library's check of what it filled.
fn compare(ending: Ending, ours: &[Vec<u8>; 4], theirs: &SmallTables, tally: &mut Tally) {
    let (word, name) = (two_men(ending.codes(), ending.one_each), ending.name());
    let small = ending.codes().map(|code| &ours[code as usize][..]);
    let mut table = vec![165; LARGE_BYTES];
    let begun = Instant::now();
    let answer = fill(word, small, &mut table);
    let seconds = begun.elapsed().as_secs_f64();
    let (greatest, due) = filled(ending, theirs, four_back::fill);
    let unlike = table.iter().zip(&due).filter(|(one, other)| one != other).count();
    tally.add("fill's word", &name, answer as u64, code(greatest, filled_word));
    tally.add("check's word", &name, check(word, small, &table), 0);
    tally.bytes(&name, table.len() as u64, unlike as u64);
    damage(ending, small, &mut table, tally);
    let depth = greatest.ok().flatten().map_or("none".to_string(), |depth| depth.to_string());
    println!("{name}: greatest depth {depth}, {unlike} bytes unlike, {seconds:.1} s");
}

fn run(words: &[String]) -> Result<Tally, String> {
    let endings = endings(words)?;
    let mut tally = Tally::default();
    let (ours, theirs) = (small_tables(), SmallTables::new());
    for ending in endings {
        compare(ending, &ours, &theirs, &mut tally);
    }
    Ok(tally)
}

fn main() -> ExitCode {
    over_words("four", run)
}
