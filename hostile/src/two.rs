//! Two men beside the oracle: numbers, moves and look-ups, whole answers.

use second::ending::Ending;
use second::four_number::{back, number as second_number, position_of};
use second::four_table::look_up as second_look_up;
use second::laws::{legal_placement, moves as second_moves, play};
use second::placement::{Limit, Placement};
use second::position::{Keyed, KeyedMan, Refused};
use second::rule::Value;
use second::symmetry::mapped;
use second::table::Answer;

use crate::calls::Tally;
use crate::lent::{self, a_man, two_men, Given, Small};
use crate::lent::{LARGE_BYTES, LIST_BYTES, PAWN, PAWN_BYTES, SMALL_BYTES};
use crate::pawn_due;
use crate::sequence::Sequence;
use crate::words::{answer_word, compare_plays, man, move_word, number_word, placed_word, word};

/// One number in so many is taken for a sample.
const ONE_IN: usize = 97;

/// Look-ups of random words, and of damaged tables, for each ending.
const HOSTILE: usize = 20_000;

/// Counts to look up at; the last two are refused.
const COUNTS: [u32; 8] = [0, 30, 60, 90, 98, 99, 100, u32::MAX];

pub fn given(keyed: &Keyed) -> Given {
    let Keyed { side, white_king: white, black_king: black, men } = *keyed;
    let [first, second] = men
        .map(|man| man.map_or(0, |KeyedMan { kind, colour, square }| a_man(kind, colour, square)));
    Given { side, white, black, first, second }
}

pub fn keyed(Given { side, white, black, first, second }: Given) -> Keyed {
    Keyed { side, white_king: white, black_king: black, men: [man(first), man(second)] }
}

/// The mark of bit 25: the count and the depth make at most 100.
fn mark(answer: Answer, count: u32) -> u64 {
    match answer.value {
        Value::Win(depth) | Value::Loss(depth) => ((count + depth as u32 <= 100) as u64) << 25,
        Value::Draw => 0,
    }
}

/// Refusal 19 is asked after all others.
pub(crate) fn look_up_due(keyed: &Keyed, count: u32, small: Small, table: &[u8]) -> u64 {
    if pawn_due::is_lone(keyed) {
        return pawn_due::look_up(keyed, count, small[0], table);
    }
    match second_look_up(table, small, keyed) {
        Err(Refused(code)) => code as u64,
        Ok(_) if count > 99 => 19,
        Ok(answer) => answer_word(answer) | mark(answer, count),
    }
}

pub fn compare_look_up(given: Given, count: u32, small: Small, table: &[u8], tally: &mut Tally) {
    let found = lent::look_up(given, count, small, table);
    let due = look_up_due(&keyed(given), count, small, table);
    tally.add("look-up's word", &(given, count), found, due);
}

/// The list's bytes and the answer.
pub(crate) fn list_due(keyed: &Keyed) -> ([u8; LIST_BYTES], u64) {
    if pawn_due::is_lone(keyed) {
        return pawn_due::list(keyed);
    }
    let mut list = [0; LIST_BYTES];
    let answer = word(legal_placement(keyed, Limit::TwoMen), |placement| {
        let found = second_moves(&placement);
        for (place, &chosen) in list.chunks_exact_mut(4).zip(found.as_slice()) {
            place.copy_from_slice(&move_word(chosen).to_le_bytes());
        }
        (found.as_slice().len() as u64) << 8
    });
    (list, answer)
}

/// The count and the list, which is lent with 165 in each byte.
pub(crate) fn compare_list(given: Given, tally: &mut Tally) {
    let due = list_due(&keyed(given));
    let mut list = [165; LIST_BYTES];
    let answer = lent::moves(given, &mut list) as u64;
    tally.add("count's word", &given, lent::count(given) as u64, due.1);
    tally.add("moves' bytes and word", &given, (list, answer), due);
}

pub(crate) fn compare_number(given: Given, tally: &mut Tally) {
    let due = match keyed(given) {
        pawn if pawn_due::is_lone(&pawn) => pawn_due::number(&pawn),
        men => number_word(second_number(&men, Limit::TwoMen)),
    };
    tally.add("number's word", &given, lent::number(given) as u64, due);
}

/// The position of a number, of any codes.
pub fn compare_back(codes: [u8; 2], one_each: bool, number: u32, tally: &mut Tally) {
    let found = lent::position(two_men(codes, one_each), number);
    let due =
        word(back(codes, one_each, number as u64), |men: Placement| placed_word(&men.keyed()));
    tally.add("position's word", &(codes, one_each, number), found, due);
}

/// One of the boards that have a placement's number: turned, exchanged, the men in either order.
fn turned(placement: &Placement, sequence: &mut Sequence) -> Given {
    let map = sequence.below(8) as u8;
    let mut board = placement.mapped(|square| mapped(map, square));
    if sequence.below(2) == 1 {
        board = board.exchanged();
    }
    if sequence.below(2) == 1 {
        board.men.reverse();
    }
    given(&board.keyed())
}

fn any_count(sequence: &mut Sequence) -> u32 {
    COUNTS[sequence.below(COUNTS.len())]
}

/// Every 97th number back; its position turned at random: number, moves, look-up.
pub fn sample(
    ending: Ending,
    small: Small,
    table: &[u8],
    sequence: &mut Sequence,
    tally: &mut Tally,
) {
    for number in (0..LARGE_BYTES).step_by(ONE_IN) {
        compare_back(ending.codes(), ending.one_each, number as u32, tally);
        let Some(placement) = position_of(ending, number) else { continue };
        let given = turned(&placement, sequence);
        compare_number(given, tally);
        compare_list(given, tally);
        compare_look_up(given, any_count(sequence), small, table, tally);
    }
}

/// Every used number's position, legal or not: the count and the list.
pub fn all_lists(ending: Ending, tally: &mut Tally) {
    for number in 0..LARGE_BYTES {
        if let Some(placement) = position_of(ending, number) {
            compare_list(given(&placement.keyed()), tally);
        }
    }
}

/// Words that are most often right, both men there, of the ending's kinds or any.
fn random_given(ending: Ending, sequence: &mut Sequence) -> Given {
    let mut byte = |right: usize| match sequence.below(24) {
        0 => sequence.byte(),
        _ => sequence.below(right) as u8,
    };
    let [side, white, black] = [byte(2), byte(64), byte(64)];
    let mut word = |code: u8| {
        let kind = if byte(4) == 0 { byte(4) } else { code };
        let there = if byte(16) == 0 { byte(2) } else { 1 };
        u32::from_le_bytes([kind, byte(2), byte(64), there])
    };
    let [first, second] = ending.codes().map(&mut word);
    Given { side, white, black, first, second }
}

/// The ending of any two words, and the length of its table.
pub(crate) fn compare_ending(given: Given, tally: &mut Tally) {
    let men = [given.first, given.second].map(man);
    let kinds: Vec<u8> = men.iter().flatten().map(|man| man.kind).collect();
    let (due, length) = match (&kinds[..], men) {
        (&[kind], _) if kind < 4 => (kind as u32, SMALL_BYTES),
        (&[kind], _) if kind as u32 == PAWN => (PAWN, PAWN_BYTES),
        (&[one, two], [Some(a), Some(b)]) if one.max(two) < 4 => {
            (two_men([one.min(two), one.max(two)], a.colour != b.colour), LARGE_BYTES)
        }
        _ => (u32::MAX, 0),
    };
    let found = lent::ending(given.first, given.second);
    tally.add("ending's word", &given, found, due);
    tally.add("table's length", &due, lent::table_bytes(due), length as u32);
}

/// Any words as men: all functions that take a position.
pub fn words(
    ending: Ending,
    small: Small,
    table: &[u8],
    sequence: &mut Sequence,
    tally: &mut Tally,
) {
    for _ in 0..HOSTILE {
        let given = random_given(ending, sequence);
        compare_ending(given, tally);
        compare_number(given, tally);
        compare_list(given, tally);
        compare_plays(given, sequence, tally);
        compare_look_up(given, any_count(sequence), small, table, tally);
        let codes = [0; 2].map(|_| sequence.below(6) as u8);
        compare_back(codes, sequence.below(2) == 1, sequence.any() as u32 >> 8, tally);
    }
}

/// The number of a successor, or the position's own: a damage there is seen by the look-up.
fn near(placement: &Placement, sequence: &mut Sequence) -> Option<(usize, usize)> {
    let list = second_moves(placement);
    let after = match list.as_slice() {
        list if !list.is_empty() && sequence.below(2) == 0 => {
            play(placement, list[sequence.below(list.len())])
        }
        _ => *placement,
    };
    let number = second_number(&after.keyed(), Limit::TwoMen).ok()?;
    let place = match after.men {
        [Some(_), Some(_)] => 2,
        [Some(man), _] => (Some(man.kind) != placement.men[0].map(|first| first.kind)) as usize,
        _ => return None,
    };
    Some((place, number))
}

/// A byte altered where the look-up reads it, in the large table or a small one, then put back. How
/// many look-ups gave 11.
pub fn damaged(
    ending: Ending,
    small: Small,
    table: &[u8],
    sequence: &mut Sequence,
    tally: &mut Tally,
) -> u64 {
    let mut tables = [small[0].to_vec(), small[1].to_vec(), table.to_vec()];
    let mut refused = 0;
    for _ in 0..HOSTILE {
        let found = position_of(ending, sequence.below(LARGE_BYTES));
        let Some(placement) = found.filter(second::laws::legal) else { continue };
        let Some((place, number)) = near(&placement, sequence) else { continue };
        let kept = tables[place][number];
        tables[place][number] = match sequence.below(3) {
            0 => sequence.byte(),
            1 => sequence.below(4) as u8,
            _ => kept.wrapping_add(2),
        };
        let (given, lent) = (turned(&placement, sequence), [&tables[0][..], &tables[1][..]]);
        compare_look_up(given, 0, lent, &tables[2], tally);
        refused += (lent::look_up(given, 0, lent, &tables[2]) == 11) as u64;
        tables[place][number] = kept;
    }
    refused
}
