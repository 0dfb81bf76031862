//! The pocket edition: won, drawn or lost, two bits a number.

use crate::number::{number_of, NUMBERS};
use crate::position::{Keyed, Refused};
use crate::rule::{value, Value, UNUSED};
use crate::rules::legal_position;
use crate::table::sized;

/// Four numbers a byte.
pub const POCKET_BYTES: usize = NUMBERS / 4;

pub type Pocket = [u8; POCKET_BYTES];

/// Refusal 7 "covers both lengths": this is the pocket's.
fn pocket_sized(bytes: &[u8]) -> Result<&Pocket, Refused> {
    bytes.try_into().map_err(|_| Refused(7))
}

/// "0 for byte 0, 1 for a draw, 2 for a win, 3 for a loss."
pub fn entry_of_byte(byte: u8) -> u8 {
    match value(byte) {
        _ if byte == UNUSED => 0,
        Value::Draw => 1,
        Value::Win(_) => 2,
        Value::Loss(_) => 3,
    }
}

/// Packs any table bytes; refused 7, with nothing written, if either length is wrong.
pub fn pack(table: &[u8], pocket: &mut [u8]) -> Result<(), Refused> {
    let table = sized(table)?;
    pocket_sized(pocket)?;
    for (packed, four) in pocket.iter_mut().zip(table.chunks(4)) {
        // The lowest number of the four stands at bit 0, so it goes in last.
        *packed = four.iter().rev().fold(0, |byte, &held| byte << 2 | entry_of_byte(held));
    }
    Ok(())
}

/// "Number k stands in byte k / 4 at bit 2 x (k mod 4)."
pub fn entry(pocket: &Pocket, number: usize) -> u8 {
    pocket[number / 4 % POCKET_BYTES] >> (2 * (number % 4)) & 3
}

/// The pocket's answer has no depth and no move.
#[derive(Clone, Copy, PartialEq, Eq, Debug)]
pub enum PocketAnswer {
    Draw,
    Win,
    Loss,
}

impl PocketAnswer {
    pub fn name(self) -> &'static str {
        match self {
            PocketAnswer::Draw => "draw",
            PocketAnswer::Win => "win",
            PocketAnswer::Loss => "loss",
        }
    }
}

/// Pocket look-up: refusals 1 to 7, and 11 "exactly when a legal position's entry is 0".
pub fn look_up(pocket: &[u8], keyed: &Keyed) -> Result<PocketAnswer, Refused> {
    let position = legal_position(keyed)?;
    match entry(pocket_sized(pocket)?, number_of(&position)) {
        0 => Err(Refused(11)),
        1 => Ok(PocketAnswer::Draw),
        2 => Ok(PocketAnswer::Win),
        _ => Ok(PocketAnswer::Loss),
    }
}

/// The lower bit of each entry in a word.
const LOW_BITS: u64 = 0x5555_5555_5555_5555;

/// How many numbers have entry 0, 1, 2 and 3, by counting set bits; refused 7 for another
/// length.
pub fn tallies(pocket: &[u8]) -> Result<[u32; 4], Refused> {
    let mut counts = [0; 4];
    // 14,784 bytes are 1,848 words and no rest.
    for eight in pocket_sized(pocket)?.chunks_exact(8) {
        let word = eight.iter().rev().fold(0, |word, &byte| word << 8 | byte as u64);
        let (low, high) = (word & LOW_BITS, word >> 1 & LOW_BITS);
        counts[1] += (low & !high).count_ones();
        counts[2] += (high & !low).count_ones();
        counts[3] += (high & low).count_ones();
    }
    counts[0] = NUMBERS as u32 - counts[1] - counts[2] - counts[3];
    Ok(counts)
}
