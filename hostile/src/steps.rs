//! Filling in steps beside the oracle's: each call's answer, progress word and every byte.

use second::position::Refused;
use second::steps::{start, step, Progress, Step};
use sledgewren::TABLE_BYTES;

use crate::calls::Tally;
use crate::lent::{self, NONE, PAWN};
use crate::sequence::Sequence;

/// What the word of a progress says, by `include/sledgewren.h`.
fn meaning(word: u32) -> Progress {
    let [stage, low, high, last] = word.to_le_bytes();
    match stage {
        0 => Progress::Next(u16::from_le_bytes([low, high]) as u64),
        1 => Progress::Done(last.checked_sub(1)),
        _ => Progress::TooDeep,
    }
}

/// The word that a step hands back: as it was, or anew with the oracle's progress.
fn handed(word: u32, next: Progress) -> u32 {
    let anew = |stage: u32, depth: u32| stage | depth << 8 | depth << 24;
    match next {
        _ if next == meaning(word) => word,
        Progress::Next(depth) => anew(0, depth as u32),
        Progress::Done(greatest) => anew(1, greatest.map_or(0, |depth| depth as u32 + 1)),
        Progress::TooDeep => anew(2, 254),
    }
}

/// The answer of `sledgewren_fill_step`: refusal, numbers settled, progress. A pawn's code is an
/// ending's, refused 7 where no small tables are lent.
fn due(man: u8, table: &mut [u8], word: u32) -> u64 {
    let (answer, next) = match man as u32 {
        PAWN => (Err(Refused(7)), meaning(word)),
        _ => step(man, table, meaning(word)),
    };
    let low = match answer {
        Ok(Step::Settled(count)) => (count as u64) << 8,
        Ok(Step::Done(_)) => 0,
        Err(refused) => refused.0 as u64,
    };
    low | (handed(word, next) as u64) << 32
}

fn found(man: u8, table: &mut [u8], word: u32) -> u64 {
    lent::fill_step(man as u32, word, NONE, table)
}

/// One step of each on the same bytes; the library's answer.
fn compare(man: u8, ours: &mut [u8], theirs: &mut [u8], word: u32, tally: &mut Tally) -> u64 {
    let answer = found(man, ours, word);
    let expected = due(man, theirs, word);
    tally.add("step", &(man, ours.len(), word), answer, expected);
    tally.add("bytes after a step", &(man, ours.len(), word), *ours == *theirs, true);
    answer
}

/// From a start to the end of each ending, and three steps past it.
pub fn runs(tally: &mut Tally) {
    for man in 0..4 {
        let (mut ours, mut theirs) = (vec![165; TABLE_BYTES], vec![90; TABLE_BYTES]);
        let other = start(man, &mut theirs).map(|next| (handed(0, next) as u64) << 32);
        let due = other.unwrap_or_else(|Refused(code)| code as u64);
        tally.add("start", &man, lent::fill_start(man as u32, &mut ours), due);
        tally.add("bytes after a start", &man, ours == theirs, true);
        let (mut word, mut over) = (0, 0);
        while over < 3 {
            word = (compare(man, &mut ours, &mut theirs, word, tally) >> 32) as u32;
            over += (word as u8 != 0) as u32;
        }
    }
}

/// Any word, most often one that goes on, with a low depth or one about the last.
fn random_word(sequence: &mut Sequence) -> u32 {
    let next = match sequence.below(4) {
        0 => sequence.any() as u32 & 0xffff,
        1 => 250 + sequence.below(8) as u32,
        _ => sequence.below(8) as u32,
    };
    let stage = match sequence.below(8) {
        0 => sequence.byte() as u32,
        1 => 1 + sequence.below(2) as u32,
        _ => 0,
    };
    stage | next << 8 | (sequence.byte() as u32) << 24
}

/// Bytes of a small stock, so that depths are required; or any.
fn random_bytes(sequence: &mut Sequence, next: u32) -> Vec<u8> {
    let depth = (next.min(253) + 2) as u8;
    let near = [1, 1, depth.wrapping_sub(1).max(1), depth];
    let stocks: [&[u8]; 6] =
        [&near, &[0, 1, 2, 3, 4, 5], &[1, 3, 5], &[1, 255], &[1, 1, 2, 254, 255], &[]];
    match stocks[sequence.below(stocks.len())] {
        [] => (0..TABLE_BYTES).map(|_| sequence.byte()).collect(),
        stock => (0..TABLE_BYTES).map(|_| sequence.one_of(stock)).collect(),
    }
}

/// Each half one byte, and bytes of a stock here and there: whole tables that are won or lost.
fn halves(sequence: &mut Sequence, next: u32) -> Vec<u8> {
    let mut bytes = random_bytes(sequence, next);
    let before = (next.min(254) + 1) as u8;
    let kept = sequence.below(2) * 100;
    let low = sequence.below(2) == 0;
    for (number, byte) in bytes.iter_mut().enumerate() {
        if kept == 0 || number % kept != 0 {
            *byte = if (number < TABLE_BYTES / 2) == low { before } else { 1 };
        }
    }
    bytes
}

/// What the steps said, so that none of it goes uncompared unseen.
#[derive(Default, Debug)]
pub struct Kinds {
    pub settled: u64,
    pub done: u64,
    pub refused_10: u64,
    pub refused_1_or_7: u64,
}

impl Kinds {
    pub(crate) fn add(&mut self, answer: u64) {
        let kind = match (answer as u8, (answer >> 32) as u8) {
            (0, 0) => &mut self.settled,
            (0, _) => &mut self.done,
            (10, _) => &mut self.refused_10,
            _ => &mut self.refused_1_or_7,
        };
        *kind += 1;
    }
}

/// So many steps, from random bytes and random words, wrong men and lengths among them.
pub fn random_steps(steps: u64, sequence: &mut Sequence, tally: &mut Tally) -> Kinds {
    let mut kinds = Kinds::default();
    for _ in 0..steps {
        let word = random_word(sequence);
        let next = word >> 8 & 0xffff;
        let mut ours = match sequence.below(3) {
            0 => halves(sequence, next),
            _ => random_bytes(sequence, next),
        };
        match sequence.below(16) {
            0 => ours.push(1),
            1 => ours.truncate(sequence.below(TABLE_BYTES)),
            _ => {}
        }
        let man = match sequence.below(16) {
            0 => sequence.byte(),
            _ => sequence.below(4) as u8,
        };
        let mut theirs = ours.clone();
        kinds.add(compare(man, &mut ours, &mut theirs, word, tally));
    }
    kinds
}
