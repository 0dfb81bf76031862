//! Checksums, and the counts of a table and of the numbering.

use std::io::{self, Write};

use crate::fill::Filled;
use crate::number::{back, number_of, NUMBERS};
use crate::position::{Man, Position, Refused, Side, SIDES};
use crate::rule::{DRAW, MATED, UNUSED};

/// h = 1; h = (h x 31 + value) mod 1,000,000,007 for each value in order.
#[derive(Clone, Copy)]
pub struct Checksum(pub u64);

impl Checksum {
    pub fn new() -> Checksum {
        Checksum(1)
    }

    pub fn add(&mut self, value: u64) {
        self.0 = (self.0 * 31 + value) % 1_000_000_007;
    }

    pub fn of(bytes: &[u8]) -> u64 {
        let mut sum = Checksum::new();
        for &byte in bytes {
            sum.add(byte as u64);
        }
        sum.0
    }
}

impl Default for Checksum {
    fn default() -> Checksum {
        Checksum::new()
    }
}

/// How often each byte stands in one side's half of a table.
pub fn byte_counts(table: &[u8], side: Side) -> [usize; 256] {
    let half = table.len() / 2;
    let mut counts = [0; 256];
    for &byte in table.iter().skip(side.code() as usize * half).take(half) {
        counts[byte as usize] += 1;
    }
    counts
}

/// `greatest depth N`, `none decided` or `refused N`.
pub fn greatest_text(filled: &Filled) -> String {
    match filled {
        Ok(Some(depth)) => format!("greatest depth {depth}"),
        Ok(None) => "none decided".to_string(),
        Err(Refused(number)) => format!("refused {number}"),
    }
}

pub fn write_counts(
    output: &mut impl Write,
    name: &str,
    filled: &Filled,
    table: &[u8],
) -> io::Result<()> {
    writeln!(output, "{name}\n{}", greatest_text(filled))?;
    for side in SIDES {
        let counts = byte_counts(table, side);
        writeln!(output, "{}", side.name())?;
        writeln!(output, "unused or illegal {}", counts[UNUSED as usize])?;
        writeln!(output, "draw {}", counts[DRAW as usize])?;
        for (depth, &count) in counts[MATED as usize..].iter().enumerate() {
            if count > 0 {
                writeln!(output, "depth {depth} {count}")?;
            }
        }
    }
    writeln!(output, "checksum {}", Checksum::of(table))
}

/// What going over all numbers of one man, and back, comes to.
pub struct Numbering {
    pub used: [usize; 2],
    pub refused: usize,
    pub positions: u64,
    pub numbers: u64,
}

fn add_position(sum: &mut Checksum, position: &Position) {
    sum.add(position.side.code() as u64);
    sum.add(position.white_king as u64);
    sum.add(position.man_square as u64);
    sum.add(position.black_king as u64);
}

pub fn numbering(man: Man) -> Numbering {
    let mut positions = Checksum::new();
    let mut numbers = Checksum::new();
    let (mut used, mut refused) = ([0; 2], 0);
    for number in 0..NUMBERS as u64 {
        match back(man.code(), number) {
            Ok(position) => {
                used[position.side.code() as usize & 1] += 1;
                add_position(&mut positions, &position);
                numbers.add(number_of(&position) as u64);
            }
            Err(_) => {
                refused += 1;
                positions.add(200);
            }
        }
    }
    Numbering { used, refused, positions: positions.0, numbers: numbers.0 }
}

pub fn write_numbering(output: &mut impl Write, man: Man) -> io::Result<()> {
    let Numbering { used, refused, positions, numbers } = numbering(man);
    let (code, total) = (man.code(), used[0] + used[1]);
    writeln!(
        output,
        "{code} used {total} refused9 {refused} positions {positions} numbers {numbers}"
    )?;
    for side in SIDES {
        writeln!(output, "{code} {} used {}", side.name(), used[side.code() as usize & 1])?;
    }
    Ok(())
}
