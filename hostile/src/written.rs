//! `sledgewren_write_number` beside the oracle's writer, as whole words.

use second::check_digits::write_typed;
use second::position::Refused;
use sledgewren::ffi;

use crate::calls::Tally;
use crate::sequence::Sequence;

/// The word that the oracle's answer makes: the refusal, or seven characters from bit 8 on.
fn their_word(number: u32) -> u64 {
    match write_typed(number as u64) {
        Err(Refused(code)) => code as u64,
        Ok(text) => text.bytes().rev().fold(0, |word, byte| (word << 8) + byte as u64) << 8,
    }
}

fn compare(number: u32, tally: &mut Tally) {
    // SAFETY: no pointers.
    let word = unsafe { ffi::sledgewren_write_number(number) };
    tally.add("typed number", &number, word, their_word(number));
}

/// Every number below 100,000, those about the powers of two, and random ones.
pub fn written_numbers(sequence: &mut Sequence, tally: &mut Tally) {
    (0..100_000).for_each(|number| compare(number, tally));
    for bit in 0..32 {
        let power = 1u32 << bit;
        [power - 1, power, power + 1].into_iter().for_each(|number| compare(number, tally));
    }
    (0..100_000).for_each(|_| compare(sequence.any() as u32, tally));
    compare(u32::MAX, tally);
}
