//! Damages accepted tables one byte at a time and compares what the library's checker and the
//! oracle's say.
//!
//! usage: damage [DAMAGES-A-TABLE [SEED]]

use std::process::ExitCode;

use hostile::sequence::Sequence;
use second::table::{check, Checked as SecondChecked};
use sledgewren::entry::{self, Lent};
use sledgewren::{Checked, Man, Refusal, Table};

const SEED: u64 = 2049;
const DAMAGES: usize = 5120;

/// Damages made, verdicts that differ, and damages that both accept.
#[derive(Default)]
struct Sum {
    damages: usize,
    differ: usize,
    accepted: usize,
    /// Damages whose lowest wrong number is not the damaged one.
    elsewhere: usize,
}

fn library(man: Man, bytes: &[u8]) -> Result<Checked, u8> {
    entry::check(man, Lent::NONE, bytes).map_err(Refusal::code)
}

fn oracle(man: Man, bytes: &[u8]) -> Result<Checked, u8> {
    match check(man.code(), bytes) {
        Ok(SecondChecked::Accepted) => Ok(Checked::Accepted),
        Ok(SecondChecked::Wrong(number)) => Ok(Checked::Wrong(number as u32)),
        Err(refused) => Err(refused.0),
    }
}

/// Another byte: near the right one, one of the odd ones, or any.
fn damaged(sequence: &mut Sequence, right: u8) -> u8 {
    let byte = match sequence.below(8) {
        0 => right.wrapping_add(1),
        1 => right.wrapping_sub(1),
        2 => right.wrapping_add(2),
        3 => right.wrapping_sub(2),
        4 => sequence.one_of(&[0, 1, 2, 3, 254, 255]),
        _ => sequence.byte(),
    };
    if byte == right {
        right ^ 1
    } else {
        byte
    }
}

/// One byte in every so many numbers, so that the damages lie all over the table.
fn damage_table(
    man: Man,
    damages: usize,
    sequence: &mut Sequence,
    sum: &mut Sum,
) -> Result<(), String> {
    let mut table = Table::filled(man).map_err(|refusal| format!("{man}: {refusal}"))?;
    let bytes = table.bytes_mut();
    if library(man, bytes) != Ok(Checked::Accepted) || oracle(man, bytes) != Ok(Checked::Accepted) {
        return Err(format!("{man}: the filled table is not accepted"));
    }
    for k in 0..damages {
        let (first, end) = (k * bytes.len() / damages, (k + 1) * bytes.len() / damages);
        let number = first + sequence.below(end - first);
        let right = bytes[number];
        bytes[number] = damaged(sequence, right);
        let verdicts = (library(man, bytes), oracle(man, bytes));
        sum.damages += 1;
        sum.accepted += (verdicts.0 == Ok(Checked::Accepted)) as usize;
        sum.elsewhere += (verdicts.1 != Ok(Checked::Wrong(number as u32))) as usize;
        if verdicts.0 != verdicts.1 {
            sum.differ += 1;
            println!("{man}: byte {} for {right} at {number}: {verdicts:?}", bytes[number]);
        }
        bytes[number] = right;
    }
    Ok(())
}

fn compare(words: &[String]) -> Result<Sum, String> {
    let number = |place: usize, other: u64| match words.get(place) {
        Some(word) => word.parse().map_err(|_| format!("{word:?} is not a number")),
        None => Ok(other),
    };
    let (damages, seed) = (number(0, DAMAGES as u64)? as usize, number(1, SEED)?);
    if words.len() > 2 || !(1..=59_136).contains(&damages) {
        return Err("usage: damage [DAMAGES-A-TABLE [SEED]]; at most 59136 a table".to_string());
    }
    println!("seed {seed}, {damages} damages a table");
    let (mut sequence, mut sum) = (Sequence::new(seed), Sum::default());
    for man in Man::ALL {
        damage_table(man, damages, &mut sequence, &mut sum)?;
        println!("{man}: {} damages so far, {} differ", sum.damages, sum.differ);
    }
    println!("{} of them first show at a lower number", sum.elsewhere);
    println!("{} accepted", sum.accepted);
    Ok(sum)
}

fn main() -> ExitCode {
    let words: Vec<String> = std::env::args().skip(1).collect();
    match compare(&words) {
        Ok(Sum { damages, differ, accepted, .. }) => {
            println!("{damages} compared, {differ} differ");
            ExitCode::from((differ + accepted > 0) as u8)
        }
        Err(message) => {
            eprintln!("damage: {message}");
            ExitCode::from(2)
        }
    }
}
