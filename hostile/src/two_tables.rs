//! Hostile tables of two men beside the oracle: lengths, small tables that are not accepted, steps
//! from any bytes and any progress.

use second::ending::Ending;
use second::four_back;
use second::four_fill::greatest_lent;
use second::four_number::position_of;
use second::four_steps::{start, step, Progress};
use second::four_table::{check as second_check, small_sized};
use second::position::Refused;
use second::steps::Step;
use second::table::Checked;

use crate::calls::{filled, Tally};
use crate::lent::{self, two_men, Small, LARGE_BYTES, PAWN, SMALL_BYTES};
use crate::sequence::Sequence;
use crate::steps::Kinds;
use crate::two::{compare_look_up, given};

/// Lengths lent: right ones, one off, and another table's.
const LENGTHS: [usize; 7] =
    [0, 1, SMALL_BYTES - 1, SMALL_BYTES, SMALL_BYTES + 1, LARGE_BYTES - 1, LARGE_BYTES];

/// Words given that are no ending's.
const WORDS: usize = 2_000;

/// An answer's word: the refusal, or what is said of the rest.
pub fn code<T>(answer: Result<T, Refused>, said: impl FnOnce(T) -> u64) -> u64 {
    answer.map_or_else(|Refused(code)| code as u64, said)
}

/// The word of a check that is not refused: bit 8 a byte is wrong, 32 on its number.
pub fn checked_word(checked: Checked) -> u64 {
    match checked {
        Checked::Accepted => 0,
        Checked::Wrong(number) => 1 << 8 | (number as u64) << 32,
    }
}

/// The word of a fill that is not refused: bit 8 some position is decided, 16-23 the greatest depth.
pub fn filled_word(greatest: Option<u8>) -> u64 {
    greatest.map_or(0, |depth| 1 << 8 | (depth as u64) << 16)
}

/// Check and fill of any codes and tables; the bytes after the fill.
fn compare_tables(codes: [u8; 2], one_each: bool, small: Small, large: &[u8], tally: &mut Tally) {
    let (ending, asked) = (two_men(codes, one_each), (codes, one_each, large.len()));
    let checked = code(second_check(codes, one_each, large, small), checked_word);
    tally.add("check's word", &asked, lent::check(ending, small, large), checked);
    let (mut one, mut other) = (large.to_vec(), large.to_vec());
    let answer = lent::fill(ending, small, &mut one) as u64;
    let due = code(four_back::fill(codes, one_each, &mut other, small), filled_word);
    tally.add("fill's word", &asked, answer, due);
    tally.add("filled bytes", &asked, one == other, true);
    one.copy_from_slice(large);
    let answer = lent::fill_back(ending, small, &mut one) as u64;
    tally.add("word of filling back", &asked, answer, due);
    tally.add("bytes filled back", &asked, one == other, true);
}

/// The numbers of two men's start: the refusals and every byte.
fn compare_start(codes: [u8; 2], one_each: bool, large: &[u8], tally: &mut Tally) {
    let (mut one, mut other) = (large.to_vec(), large.to_vec());
    let answer = lent::fill_start(two_men(codes, one_each), &mut one);
    let due = code(start(codes, one_each, &mut other), |_| 0);
    tally.add("start's word", &(codes, one_each, large.len()), answer, due);
    tally.add("started bytes", &(codes, one_each, large.len()), one == other, true);
}

/// Refusal 7, of each table alone and of several; wrong codes with them. A right length in all three
/// has small tables of ones, which are not accepted: 17.
pub fn lengths(tally: &mut Tally) {
    let bytes = vec![1; LARGE_BYTES];
    let codes = [([0, 1], true), ([2, 3], false), ([1, 0], false), ([4, 0], true), ([0, 9], false)];
    for large in LENGTHS {
        for &(codes, one_each) in &codes {
            compare_start(codes, one_each, &bytes[..large], tally);
        }
        for first in LENGTHS {
            for second in LENGTHS {
                let small = [&bytes[..first], &bytes[..second]];
                for &(codes, one_each) in &codes {
                    compare_tables(codes, one_each, small, &bytes[..large], tally);
                }
                let placed =
                    Ending::named("KQKR").and_then(|ending| position_of(ending, 2_049_000));
                if let Some(placement) = placed {
                    let asked = given(&placement.keyed());
                    compare_look_up(asked, 0, small, &bytes[..large], tally);
                }
            }
        }
    }
}

/// Does any word but an ending's give refusal 1, and leave the table and the progress as they were?
pub fn wrong_words(sequence: &mut Sequence, tally: &mut Tally) {
    let bytes = vec![165; LARGE_BYTES];
    let small = [&bytes[..SMALL_BYTES]; 2];
    for _ in 0..WORDS {
        let word = any_ending(sequence);
        let (mut table, progress) =
            (bytes[..LARGE_BYTES >> sequence.below(8)].to_vec(), sequence.any() as u32);
        let answers = [
            lent::table_bytes(word) as u64,
            lent::position(word, sequence.below(LARGE_BYTES) as u32),
            lent::check(word, small, &table),
            lent::fill(word, small, &mut table) as u64,
            lent::fill_back(word, small, &mut table) as u64,
            lent::fill_start(word, &mut table),
            lent::fill_step(word, progress, small, &mut table),
        ];
        let due = [0, 1, 1, 1, 1, 1, 1 | (progress as u64) << 32];
        tally.add("answers to no ending's word", &word, answers, due);
        tally.add("its table", &word, table.iter().all(|&byte| byte == 165), true);
    }
}

/// A word that is no ending's: any bits, or an ending's with one bit altered or its kinds exchanged.
fn any_ending(sequence: &mut Sequence) -> u32 {
    let right: Vec<u32> = Ending::all()
        .map(|ending| two_men(ending.codes(), ending.one_each))
        .chain(0..=PAWN)
        .collect();
    loop {
        let near = right[sequence.below(right.len())];
        let word = match sequence.below(4) {
            0 => sequence.any() as u32,
            1 => {
                two_men([sequence.below(6) as u8, sequence.below(6) as u8], sequence.below(2) == 1)
            }
            _ => near ^ 1 << sequence.below(32),
        };
        if !right.contains(&word) {
            return word;
        }
    }
}

/// Small tables with one byte altered, or those of other men: 17, and the large table as it was.
pub fn unaccepted(sequence: &mut Sequence, tally: &mut Tally) -> u64 {
    let tables: Vec<Vec<u8>> = (0..4).map(filled).collect();
    let (dirt, mut refused) = (vec![165; LARGE_BYTES], 0);
    for ending in Ending::all() {
        for manner in 0..4 {
            let [mut one, mut two] = ending.codes().map(|code| tables[code as usize].clone());
            let at = sequence.below(SMALL_BYTES);
            match manner {
                0 => one[at] = one[at].wrapping_add(1),
                1 => two[at] = two[at].wrapping_add(1),
                2 => one = tables[(ending.codes()[0] as usize + 1) % 4].clone(),
                _ => two = tables[(ending.codes()[1] as usize + 1) % 4].clone(),
            }
            let small = [&one[..], &two[..]];
            let word = two_men(ending.codes(), ending.one_each);
            refused += (lent::check(word, small, &dirt) == 17) as u64;
            compare_tables(ending.codes(), ending.one_each, small, &dirt, tally);
        }
    }
    refused
}

/// What the word of a progress says, where the lent tables' greatest depth is this. The last depth
/// settled is the word's only where a lent table holds the depth before or more: else the step before
/// settled its depth, or would have said done.
pub(crate) fn meaning(word: u32, lent: Option<u8>) -> Progress {
    let [stage, low, high, last] = word.to_le_bytes();
    let next = (u16::from_le_bytes([low, high]) as u64).min(254);
    match stage {
        0 if next == 0 => Progress::Next(0, None),
        0 if lent.is_some_and(|lent| lent as u64 + 1 >= next) => {
            Progress::Next(next, last.checked_sub(1))
        }
        0 => Progress::Next(next, Some(next as u8 - 1)),
        1 => Progress::Done(last.checked_sub(1)),
        _ => Progress::TooDeep,
    }
}

/// The word that a step hands back: as it was, or anew.
pub(crate) fn handed(word: u32, before: Progress, next: Progress) -> u32 {
    let last = |last: Option<u8>| last.map_or(0, |depth| (depth as u32 + 1) << 24);
    match (before, next) {
        (Progress::Next(..), Progress::Next(depth, settled)) => (depth as u32) << 8 | last(settled),
        (Progress::Next(depth, _), Progress::Done(settled)) => {
            1 | (depth as u32) << 8 | last(settled)
        }
        (Progress::Next(depth, settled), Progress::TooDeep) => {
            2 | (depth as u32) << 8 | last(settled)
        }
        _ => word,
    }
}

/// One step of each on the same bytes; the library's answer.
fn compare_step(
    ending: Ending,
    word: u32,
    small: Small,
    large: &mut [u8],
    tally: &mut Tally,
) -> u64 {
    let (codes, one_each) = (ending.codes(), ending.one_each);
    let mut other = large.to_vec();
    let answer = lent::fill_step(two_men(codes, one_each), word, small, large);
    let before = meaning(word, small_sized(small).ok().and_then(greatest_lent));
    let (said, next) = step(codes, one_each, &mut other, small, before);
    let kept = matches!(said, Err(Refused(1 | 7)));
    let low = code(said, |said| match said {
        Step::Settled(count) => (count as u64) << 8,
        Step::Done(_) => 0,
    });
    let progress = if kept { word } else { handed(word, before, next) };
    let asked = (ending.name(), word, large.len());
    tally.add("step's word", &asked, answer, low | (progress as u64) << 32);
    tally.add("bytes after a step", &asked, *large == other[..], true);
    answer
}

/// From a start to the end, with small tables as they are or any bytes.
pub fn run(ending: Ending, small: Small, tally: &mut Tally) -> Vec<u8> {
    let mut large = vec![165; LARGE_BYTES];
    let mut word =
        (lent::fill_start(two_men(ending.codes(), ending.one_each), &mut large) >> 32) as u32;
    while word as u8 == 0 {
        word = (compare_step(ending, word, small, &mut large, tally) >> 32) as u32;
    }
    large
}

pub(crate) fn random_word(sequence: &mut Sequence) -> u32 {
    let next = match sequence.below(4) {
        0 => sequence.any() as u32 & 0xffff,
        1 => 250 + sequence.below(8) as u32,
        _ => sequence.below(8) as u32,
    };
    let stage = match sequence.below(8) {
        0 => sequence.byte() as u32,
        1 => 1 + sequence.below(2) as u32,
        _ => 0,
    };
    stage | next << 8 | (sequence.byte() as u32) << 24
}

pub(crate) fn random_bytes(length: usize, next: u32, sequence: &mut Sequence) -> Vec<u8> {
    let depth = (next.min(253) + 2) as u8;
    let near = [1, 1, depth - 1, depth];
    let stocks: [&[u8]; 5] = [&near, &[0, 1, 2, 3, 4, 5], &[1, 255], &[0, 1], &[1, 1, 2, 254, 255]];
    let stock = stocks[sequence.below(stocks.len())];
    (0..length).map(|_| sequence.one_of(stock)).collect()
}

/// So many steps from random bytes in all three tables and random words, wrong lengths among them.
pub fn random_steps(steps: usize, sequence: &mut Sequence, tally: &mut Tally) -> Kinds {
    let mut kinds = Kinds::default();
    let endings: Vec<Ending> = Ending::all().collect();
    for _ in 0..steps {
        let word = random_word(sequence);
        let next = word >> 8 & 0xffff;
        let mut length = |right: usize| match sequence.below(24) {
            0 => right - 1,
            _ => right,
        };
        let lengths = [length(LARGE_BYTES), length(SMALL_BYTES), length(SMALL_BYTES)];
        let [mut large, one, two] = lengths.map(|length| random_bytes(length, next, sequence));
        let ending = endings[sequence.below(endings.len())];
        kinds.add(compare_step(ending, word, [&one, &two], &mut large, tally));
    }
    kinds
}
