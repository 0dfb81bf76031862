//! Filling a pawn's table in steps beside the oracle's: each answer, progress word and every byte.

use second::pawn_fill::greatest_lent;
use second::pawn_steps::{start, step};
use second::pawn_table::lent_sized;
use second::position::Refused;
use second::steps::Step;

use crate::calls::Tally;
use crate::lent::{self, PAWN, PAWN_BYTES, RUN_BYTES};
use crate::pawn_due::parts;
use crate::sequence::Sequence;
use crate::steps::Kinds;
use crate::two_tables::{code, handed, meaning, random_bytes, random_word};

/// A run says done after 255 steps at most; three more repeat it.
const STEPS: usize = 255;
const REPEATED: usize = 3;

/// One step of each on the same bytes; the library's answer.
fn compare_step(word: u32, run: &[u8], own: &mut [u8], tally: &mut Tally) -> u64 {
    let mut other = own.to_vec();
    let answer = lent::fill_step(PAWN, word, [run, &[]], own);
    let before = meaning(word, lent_sized(parts(run)).ok().and_then(greatest_lent));
    let (said, next) = step(&mut other, parts(run), before);
    let kept = said == Err(Refused(7));
    let low = code(said, |said| match said {
        Step::Settled(count) => (count as u64) << 8,
        Step::Done(_) => 0,
    });
    let progress = if kept { word } else { handed(word, before, next) };
    let asked = (word, run.len(), own.len());
    tally.add("step's word", &asked, answer, low | (progress as u64) << 32);
    tally.add("bytes after a step", &asked, *own == other[..], true);
    answer
}

/// From a start to the end and three steps past it; the table then, and how many steps settled none.
pub fn whole(run: &[u8], tally: &mut Tally) -> (Vec<u8>, u64) {
    let (mut own, mut other) = (vec![165; PAWN_BYTES], vec![90; PAWN_BYTES]);
    let due = code(start(&mut other), |_| 0);
    tally.add("start's word", &PAWN_BYTES, lent::fill_start(PAWN, &mut own), due);
    tally.add("bytes after a start", &PAWN_BYTES, own == other, true);
    let (mut word, mut over, mut empty) = (0, 0, 0);
    for _ in 0..STEPS + REPEATED {
        let answer = compare_step(word, run, &mut own, tally);
        word = (answer >> 32) as u32;
        over += (word as u8 != 0) as usize;
        empty += (word as u8 == 0 && answer as u32 >> 8 == 0) as u64;
        if over > REPEATED {
            break;
        }
    }
    tally.add("steps that say done", &word, over, REPEATED + 1);
    (own, empty)
}

/// So many steps from random bytes in all tables, or true ones, and random words; wrong lengths among
/// them.
pub fn random(steps: usize, true_run: &[u8], sequence: &mut Sequence, tally: &mut Tally) -> Kinds {
    let mut kinds = Kinds::default();
    for _ in 0..steps {
        let word = random_word(sequence);
        let next = word >> 8 & 0xffff;
        let mut length = |right: usize| match sequence.below(24) {
            0 => right - 1,
            1 => right + 1,
            _ => right,
        };
        let (own, run) = (length(PAWN_BYTES), length(RUN_BYTES));
        let mut own = random_bytes(own, next, sequence);
        let run = match sequence.below(4) {
            0 => true_run.to_vec(),
            _ => random_bytes(run, next, sequence),
        };
        kinds.add(compare_step(word, &run, &mut own, tally));
    }
    kinds
}
