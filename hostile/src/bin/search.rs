//! Holds second opinions to the oracle's search and to both programs' tables: every legal position
//! within 0 to 4 plies, and a sample within 5 and 6. Bytes of all kinds are held to the oracle's.
//!
//! usage: search [SAMPLE [SEED]]

use std::process::ExitCode;

use hostile::calls::second;
use hostile::sequence::Sequence;
use second::fill_back;
use second::position::Refused;
use second::rule::Value as SecondValue;
use second::search::{search, Opinion as SecondOpinion};
use second::table::look_up as second_look_up;
use sledgewren::{entry, Keyed, Man, Opinion, Refusal, Table, TABLE_BYTES};

const SEED: u64 = 2049;
const SAMPLE: usize = 20_000;
const RANDOM: usize = 1_000_000;

/// Plies asked of every legal position, and of the sample.
const SHALLOW: std::ops::RangeInclusive<u8> = 0..=4;
const DEEP: std::ops::RangeInclusive<u8> = 5..=6;

/// Differences told one by one; the rest are only counted.
const TOLD: usize = 20;

type Answer = Result<Opinion, u8>;

/// Opinions compared, and those that differ from one of the other three answers.
#[derive(Default)]
struct Sum {
    compared: usize,
    found: usize,
    differ: usize,
}

/// An ending's two tables, each filled and looked up by its own program.
struct Tables {
    ours: Table,
    theirs: Vec<u8>,
}

impl Tables {
    fn filled(man: Man) -> Result<Tables, String> {
        let ours = Table::filled(man).map_err(|refusal| format!("{man}: {refusal}"))?;
        let mut theirs = vec![165; TABLE_BYTES];
        let filled = fill_back::fill(man.code(), &mut theirs);
        filled.map_err(|Refused(number)| format!("{man}: the oracle refuses {number}"))?;
        Ok(Tables { ours, theirs })
    }

    /// The library's table and the oracle's on depths up to so many plies.
    fn say(&self, keyed: Keyed, plies: u8) -> [Answer; 2] {
        let ours = self.ours.look_up(keyed).map_err(Refusal::code);
        let theirs = second_look_up(&self.theirs, &second(keyed)).map_err(|Refused(code)| code);
        [
            ours.map(|answer| Opinion::of(answer.value(), plies)),
            theirs.map(|answer| match answer.value {
                SecondValue::Win(depth) if depth <= plies => Opinion::Win(depth),
                SecondValue::Loss(depth) if depth <= plies => Opinion::Loss(depth),
                _ => Opinion::NotWithin,
            }),
        ]
    }
}

fn library(keyed: Keyed, plies: u8) -> Answer {
    entry::second_opinion(keyed, plies).map_err(Refusal::code)
}

fn oracle(keyed: Keyed, plies: u8) -> Answer {
    match search(&second(keyed), plies) {
        Ok(SecondOpinion::Win(depth)) => Ok(Opinion::Win(depth)),
        Ok(SecondOpinion::Loss(depth)) => Ok(Opinion::Loss(depth)),
        Ok(SecondOpinion::NotWithin) => Ok(Opinion::NotWithin),
        Err(Refused(number)) => Err(number),
    }
}

impl Sum {
    /// All four on a position of the tables' ending.
    fn add(&mut self, tables: &Tables, keyed: Keyed, plies: u8) {
        let [table, second_table] = tables.say(keyed, plies);
        self.hold(keyed, plies, &[oracle(keyed, plies), table, second_table]);
    }

    fn hold(&mut self, keyed: Keyed, plies: u8, others: &[Answer]) {
        let ours = library(keyed, plies);
        self.compared += 1;
        self.found += ours.is_ok_and(|opinion| opinion != Opinion::NotWithin) as usize;
        if others.iter().any(|&answer| answer != ours) {
            self.differ += 1;
            if self.differ <= TOLD {
                println!("{keyed:?} within {plies}: library {ours:?}; oracle, tables {others:?}");
            }
        }
    }
}

/// Bytes of all kinds, about half of them in range, with few plies or too many.
fn random(sequence: &mut Sequence, sum: &mut Sum) {
    for _ in 0..RANDOM {
        let mut byte = |end: u8| match sequence.below(16) {
            0 => sequence.byte(),
            _ => sequence.byte() % end,
        };
        let keyed = Keyed::from([byte(4), byte(2), byte(64), byte(64), byte(64), byte(2)]);
        let plies = byte(8);
        let plies = if (4..=6).contains(&plies) { plies - 4 } else { plies };
        sum.hold(keyed, plies, &[oracle(keyed, plies)]);
    }
}

/// Every legal position of an ending, the man White's and Black's.
fn legal(man: Man) -> Vec<Keyed> {
    let mut found = Vec::new();
    for place in 0..4 * 64 * 64 * 64u32 {
        let bits = |first: u32| (place >> first & 63) as u8;
        let (side, colour) = ((place >> 18 & 1) as u8, (place >> 19) as u8);
        let keyed = Keyed::from([man.code(), side, bits(12), bits(6), bits(0), colour]);
        if entry::count(keyed).is_ok() {
            found.push(keyed);
        }
    }
    found
}

fn compare(words: &[String]) -> Result<Sum, String> {
    let number = |place: usize, other: u64| match words.get(place) {
        Some(word) => word.parse().map_err(|_| format!("{word:?} is not a number")),
        None => Ok(other),
    };
    let (sample, seed) = (number(0, SAMPLE as u64)? as usize, number(1, SEED)?);
    if words.len() > 2 {
        return Err("usage: search [SAMPLE [SEED]]".to_string());
    }
    println!("seed {seed}, {sample} positions within {} and {} plies", DEEP.start(), DEEP.end());
    let (mut sequence, mut sum) = (Sequence::new(seed), Sum::default());
    for man in Man::ALL {
        let (tables, positions) = (Tables::filled(man)?, legal(man));
        for &keyed in &positions {
            SHALLOW.for_each(|plies| sum.add(&tables, keyed, plies));
        }
        for _ in 0..sample / Man::ALL.len() {
            let keyed = positions[sequence.below(positions.len())];
            DEEP.for_each(|plies| sum.add(&tables, keyed, plies));
        }
        println!("{man}: {} compared so far, {} differ", sum.compared, sum.differ);
    }
    random(&mut sequence, &mut sum);
    println!("random bytes: {} compared so far, {} differ", sum.compared, sum.differ);
    println!("{} of them name a depth", sum.found);
    Ok(sum)
}

fn main() -> ExitCode {
    let words: Vec<String> = std::env::args().skip(1).collect();
    match compare(&words) {
        Ok(Sum { compared, differ, .. }) => {
            println!("{compared} compared, {differ} differ");
            ExitCode::from((differ > 0) as u8)
        }
        Err(message) => {
            eprintln!("search: {message}");
            ExitCode::from(2)
        }
    }
}
