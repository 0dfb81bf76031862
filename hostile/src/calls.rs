//! Each entry point beside the oracle's, as words that can be compared.

use second::number::back;
use second::position::{Keyed as SecondKeyed, KeyedMan as SecondMan, Refused};
use second::table::{check as second_check, Checked as SecondChecked};
use second::{desk as second_desk, fill_back};
use sledgewren::{Desk, Keyed, KeyedMan, Refusal, TABLE_BYTES};

use crate::lent::{self, Given, NONE, PAWN};
use crate::lines::{Input, SHORT};
use crate::pawn_due;
use crate::sequence::Sequence;
use crate::two::{compare_list, compare_look_up, compare_number};
use crate::words::{placed_word, word};

/// Answers compared, and those that differ.
#[derive(Default)]
pub struct Tally {
    pub compared: u64,
    pub differ: u64,
}

/// Differences told one by one; the rest are only counted.
const TOLD: u64 = 20;

impl Tally {
    pub fn add<T: PartialEq + std::fmt::Debug>(
        &mut self,
        what: &str,
        asked: &dyn std::fmt::Debug,
        ours: T,
        theirs: T,
    ) {
        self.compared += 1;
        if ours != theirs {
            self.differ += 1;
            if self.differ <= TOLD {
                println!("{what} of {asked:?}: library {ours:?}, oracle {theirs:?}");
            }
        }
    }

    /// Bytes of a whole table, compared elsewhere, of which so many are unlike.
    pub fn bytes(&mut self, what: &str, compared: u64, unlike: u64) {
        self.compared += compared;
        self.differ += unlike;
        if unlike > 0 {
            println!("{what}: {unlike} bytes of {compared} are unlike the oracle's");
        }
    }
}

/// A position of the library's as the oracle keys it.
pub fn second(keyed: Keyed) -> SecondKeyed {
    let Keyed { side, white_king, black_king, men } = keyed;
    let men = men
        .map(|man| man.map(|KeyedMan { kind, colour, square }| SecondMan { kind, colour, square }));
    SecondKeyed { side, white_king, black_king, men }
}

pub(crate) fn refused<T>(answer: Result<T, Refused>) -> Result<T, u8> {
    answer.map_err(|Refused(code)| code)
}

pub(crate) fn ours<T>(answer: Result<T, Refusal>) -> Result<T, u8> {
    answer.map_err(Refusal::code)
}

/// Number, count, moves and look-up of bytes as keyed; two men have no table of this length.
fn compare_keyed(keyed: impl Into<Keyed>, table: &[u8], tally: &mut Tally) {
    let given = Given::from(keyed.into());
    compare_number(given, tally);
    compare_list(given, tally);
    compare_look_up(given, 0, NONE, table, tally);
}

pub(crate) fn filled(man: u8) -> Vec<u8> {
    let mut table = vec![165; TABLE_BYTES];
    if man < 4 {
        // The refusals of a fill are compared elsewhere.
        let _ = fill_back::fill(man, &mut table);
    }
    table
}

/// Every man of either colour, both sides and all squares, one square too high among them.
pub fn boards(tally: &mut Tally) {
    for man in 0..4 {
        let table = filled(man);
        for sides in 0..4 {
            let (side, colour) = (sides % 2, sides / 2);
            for white_king in 0..=64 {
                for man_square in 0..=64 {
                    for black_king in 0..=64 {
                        let keyed = [man, side, white_king, man_square, black_king, colour];
                        compare_keyed(keyed, &table, tally);
                    }
                }
            }
        }
    }
}

/// Random bytes, most of them out of range; a second man in one board of four, none at all in one
/// of sixteen.
pub fn random_boards(sequence: &mut Sequence, tally: &mut Tally) {
    let tables: Vec<Vec<u8>> = (0..4).map(filled).collect();
    for _ in 0..500_000 {
        let mut byte = |right: usize| match sequence.below(4) {
            0 => sequence.byte(),
            _ => sequence.below(right) as u8,
        };
        let mut man = || KeyedMan { kind: byte(5), colour: byte(3), square: byte(66) };
        let both = [man(), man()];
        let (side, white_king, black_king) = (byte(3), byte(66), byte(66));
        let there = [sequence.below(16) > 0, sequence.below(4) == 0];
        let men = [0, 1].map(|place| there[place].then_some(both[place]));
        let keyed = Keyed { side, white_king, black_king, men };
        compare_keyed(keyed, &tables[both[0].kind as usize % 4], tally);
    }
}

/// Numbers back, of right and wrong codes and numbers.
pub fn numbers(sequence: &mut Sequence, tally: &mut Tally) {
    let mut compare = |man: u8, number: u32| {
        let due = match man as u32 {
            PAWN => pawn_due::position(number),
            _ => word(back(man, number as u64), |position| placed_word(&position.keyed())),
        };
        tally.add("position", &(man, number), lent::position(man as u32, number), due);
    };
    for man in [0, 1, 2, 3, 4, 255] {
        (0..66_000).for_each(|number| compare(man, number));
        for bit in 0..32 {
            (0..=2).for_each(|more| compare(man, (1u32 << bit).wrapping_sub(1).wrapping_add(more)));
        }
    }
    for _ in 0..200_000 {
        compare(sequence.byte(), sequence.any() as u32);
    }
}

fn random_table(sequence: &mut Sequence, man: u8, manner: usize) -> Vec<u8> {
    let mut table = filled(man);
    match manner {
        0 => table.iter_mut().for_each(|byte| *byte = sequence.byte()),
        1 => table.iter_mut().for_each(|byte| *byte = 248 + sequence.below(8) as u8),
        2 => table.iter_mut().for_each(|byte| *byte = sequence.below(6) as u8),
        _ => {
            for _ in 0..3000 {
                let number = sequence.below(TABLE_BYTES);
                table[number] = sequence.byte();
            }
        }
    }
    table
}

/// Without small tables a pawn's ending is refused 7, whatever its own table's length.
const NO_RUN: Refused = Refused(7);

/// The word of refusal 1.
const BAD_MAN: u32 = 1;

fn compare_check(man: u8, table: &[u8], tally: &mut Tally) {
    let checked = if man as u32 == PAWN { Err(NO_RUN) } else { second_check(man, table) };
    let due = word(checked, |checked| match checked {
        SecondChecked::Accepted => 0,
        SecondChecked::Wrong(number) => 1 << 8 | (number as u64) << 32,
    });
    tally.add("check", &(man, table.len()), lent::check(man as u32, NONE, table), due);
}

/// Checking and looking up in tables of random bytes and in badly damaged ones.
pub fn random_tables(sequence: &mut Sequence, tally: &mut Tally) {
    for man in 0..4 {
        for manner in 0..8 {
            let table = random_table(sequence, man, manner);
            compare_check(man, &table, tally);
            for _ in 0..20_000 {
                let mut square = || sequence.below(64) as u8;
                let keyed =
                    Keyed::from([man, square() % 2, square(), square(), square(), square() % 2]);
                compare_look_up(keyed.into(), 0, NONE, &table, tally);
            }
        }
    }
}

/// Filling and checking of all codes and of tables of all kinds of lengths, byte for byte.
pub fn lengths(tally: &mut Tally) {
    for man in [0, 1, 2, 3, 4, 5, 128, 255] {
        for len in [0, 1, 2, 14_784, TABLE_BYTES - 1, TABLE_BYTES, TABLE_BYTES + 1, 1 << 20] {
            for dirt in [0, 1, 165] {
                let (mut one, mut other) = (vec![dirt; len], vec![dirt; len]);
                let filled = match man as u32 {
                    PAWN => Err(NO_RUN),
                    _ => fill_back::fill(man, &mut other),
                };
                let due = match filled {
                    Ok(greatest) => greatest.map_or(0, |depth| 1 << 8 | (depth as u32) << 16),
                    Err(Refused(code)) => code as u32,
                };
                tally.add("fill", &(man, len), lent::fill(man as u32, NONE, &mut one), due);
                tally.add("filled bytes", &(man, len), one == other, true);
                let mut back = vec![dirt; len];
                // The second fill keeps to pieces: a pawn stays refused 1 there (02, P12).
                let due_back = if man as u32 == PAWN { BAD_MAN } else { due };
                tally.add(
                    "fill back",
                    &(man, len),
                    lent::fill_back(man as u32, NONE, &mut back),
                    due_back,
                );
                tally.add("bytes filled back", &(man, len), back == other, true);
                compare_check(man, &one, tally);
            }
            for keyed in [[man, 0, 17, 15, 0], [man, 2, 64, 64, 64], [man, 0, 0, 7, 63]] {
                let keyed = Keyed::from(keyed);
                let table = vec![1; len];
                compare_look_up(keyed.into(), 0, NONE, &table, tally);
            }
        }
    }
}

/// Generated lines, answered by `sledgewren_answer_line` and by the oracle's desk.
pub fn desks(seed: u64, tally: &mut Tally) {
    let input = Input::generate(seed + 2, &SHORT).bytes;
    let (mut one, mut other) = (Vec::new(), Vec::new());
    let done = Desk::new().run(&input[..], &mut one).is_ok();
    let oracle_done = second_desk::run(&input[..], &mut other).is_ok();
    tally.add("desk's end", &seed, done, oracle_done);
    let lines = |bytes: &[u8]| bytes.split(|&byte| byte == b'\n').count();
    tally.add("desk's lines", &seed, lines(&one), lines(&other));
    let (one, other) = (one.split(|&byte| byte == b'\n'), other.split(|&byte| byte == b'\n'));
    let asked = input.split(|&byte| byte == b'\n').map(|line| &line[..line.len().min(20)]);
    for ((asked, one), other) in asked.zip(one).zip(other) {
        tally.add("slip", &String::from_utf8_lossy(asked), one, other);
    }
}
