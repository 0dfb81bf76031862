//! The C functions that take a position, given any words as men: whole answers, bit for bit.

use second::fifty::Counted;
use second::laws::{legal_placement, moves, play};
use second::placement::Limit;
use second::pocket::{self, PocketAnswer};
use second::position::{Keyed, KeyedMan, Refused};
use second::rule::Value;
use second::rules::Move;
use second::search::{search, Opinion};
use second::table::Answer;
use sledgewren::{ffi, POCKET_BYTES};

use crate::calls::{filled, Tally};
use crate::lent::{self, Given, NONE};
use crate::pawn_due;
use crate::sequence::Sequence;
use crate::two::{compare_list, compare_look_up, compare_number, keyed, list_due};

/// How many positions are given.
const POSITIONS: usize = 1_000_000;

/// Plies that take no time, and too many.
const PLIES: [u8; 6] = [0, 1, 2, 7, 8, 255];

/// Counts to look up at; the last two are refused.
const COUNTS: [u32; 8] = [0, 68, 80, 90, 98, 99, 100, u32::MAX];

/// What a man's word says: he is absent where bits 24-31 are 0.
pub(crate) fn man(word: u32) -> Option<KeyedMan> {
    let [kind, colour, square, there] = word.to_le_bytes();
    (there != 0).then_some(KeyedMan { kind, colour, square })
}

/// Bytes that are most often right, with one man, in the first word.
fn random_given(sequence: &mut Sequence) -> Given {
    let mut byte = |right: usize| match sequence.below(24) {
        0 => sequence.byte(),
        _ => sequence.below(right) as u8,
    };
    let [side, white, black] = [byte(2), byte(64), byte(64)];
    let mut word = |often: bool| {
        let low = [byte(4), byte(2), byte(64)];
        let there = match byte(16) {
            0 => byte(2),
            1 => byte(255),
            _ => often as u8,
        };
        u32::from_le_bytes([low[0], low[1], low[2], there])
    };
    Given { side, white, black, first: word(true), second: word(false) }
}

/// A refusal's number in the lowest byte and nothing else, or the answer's word.
pub(crate) fn word<T>(answer: Result<T, Refused>, said: impl FnOnce(T) -> u64) -> u64 {
    answer.map_or_else(|Refused(code)| code as u64, said)
}

pub(crate) fn number_word(answer: Result<usize, Refused>) -> u64 {
    answer.map_or_else(|Refused(code)| 0x8000_0000 + code as u64, |number| number as u64)
}

/// A move's four bytes, the lowest first.
pub(crate) fn move_word(Move { from, to, takes }: Move) -> u32 {
    u32::from_le_bytes([from, to, takes as u8, 0])
}

/// A value and the four bytes of a move.
pub(crate) fn value_word(value: Value, best: Option<u32>) -> u64 {
    let (value, depth) = match value {
        Value::Win(depth) => (1, depth),
        Value::Loss(depth) => (2, depth),
        Value::Draw => (3, 0),
    };
    let given = best.map_or(0, |best| 1 << 24 | (best as u64) << 32);
    value << 8 | (depth as u64) << 16 | given
}

pub(crate) fn answer_word(Answer { value, best }: Answer) -> u64 {
    value_word(value, best.map(move_word))
}

/// Bit 25 is the mark.
pub(crate) fn counted_word(Counted { answer, within_fifty }: Counted) -> u64 {
    answer_word(answer) | (within_fifty as u64) << 25
}

fn pocket_word(answer: PocketAnswer) -> u64 {
    match answer {
        PocketAnswer::Win => 1 << 8,
        PocketAnswer::Loss => 2 << 8,
        PocketAnswer::Draw => 3 << 8,
    }
}

fn opinion_word(opinion: Opinion) -> u64 {
    match opinion {
        Opinion::Win(depth) => 1 << 8 | (depth as u64) << 16,
        Opinion::Loss(depth) => 2 << 8 | (depth as u64) << 16,
        Opinion::NotWithin => 4 << 8,
    }
}

/// A man's sixteen bits; 0 for none.
fn short_man(man: Option<KeyedMan>) -> u64 {
    man.map_or(0, |KeyedMan { kind, colour, square }| {
        u64::from(kind) | u64::from(colour) << 4 | 1 << 5 | u64::from(square) << 8
    })
}

/// Bits 8-15 side, 16-23 white king, 24-31 first man, 32-39 black king, 40-47 second man or 64.
pub(crate) fn placed_word(keyed: &Keyed) -> u64 {
    let [first, second] = keyed.men.map(|man| man.map_or(64, |man| man.square));
    let bytes = [0, keyed.side, keyed.white_king, first, keyed.black_king, second, 0, 0];
    u64::from_le_bytes(bytes)
}

/// Play's answer to a move that is not legal.
pub(crate) const NOT_LEGAL: u64 = 1 << 15;

/// Play's answer: the position after the move.
pub(crate) fn played_word(after: &Keyed) -> u64 {
    let Keyed { side, white_king, black_king, men } = *after;
    let low = u64::from(side) << 8 | u64::from(white_king) << 16;
    low | u64::from(black_king) << 24 | short_man(men[0]) << 32 | short_man(men[1]) << 48
}

/// Only a pawn becomes anything: of one man or two every other byte than 0 is no legal move's.
fn play_due(keyed: &Keyed, from: u8, to: u8, becomes: u8) -> u64 {
    if pawn_due::is_lone(keyed) {
        return pawn_due::played(keyed, from, to, becomes);
    }
    word(legal_placement(keyed, Limit::TwoMen), |placement| {
        let list = moves(&placement);
        let named = |chosen: &&Move| (chosen.from, chosen.to, 0) == (from, to, becomes);
        let found = list.as_slice().iter().find(named);
        found.map_or(NOT_LEGAL, |&chosen| played_word(&play(&placement, chosen).keyed()))
    })
}

/// The position after a move, legal or not.
pub(crate) fn compare_play(given: Given, from: u8, to: u8, becomes: u8, tally: &mut Tally) {
    let found = lent::play(given, from, to, becomes);
    let due = play_due(&keyed(given), from, to, becomes);
    tally.add("play's word", &(given, from, to, becomes), found, due);
}

/// Every move of the oracle's list played, one of them as another promotion or as none, and one of
/// any bytes.
pub(crate) fn compare_plays(given: Given, sequence: &mut Sequence, tally: &mut Tally) {
    let list = list_due(&keyed(given)).0;
    let mut any_piece = || match sequence.below(4) {
        0 => sequence.byte(),
        _ => sequence.below(7) as u8,
    };
    let (other, another) = (any_piece(), any_piece());
    let chosen: Vec<&[u8]> = list.chunks_exact(4).take_while(|four| four[..2] != [0, 0]).collect();
    for four in &chosen {
        compare_play(given, four[0], four[1], four[3], tally);
    }
    if let Some(four) = chosen.get(sequence.below(chosen.len())) {
        compare_play(given, four[0], four[1], other, tally);
    }
    let from = match sequence.below(4) {
        0 => sequence.byte(),
        1 => given.white,
        2 => given.black,
        _ => (given.first >> 16) as u8,
    };
    let to = if sequence.below(8) == 0 { sequence.byte() } else { sequence.below(64) as u8 };
    let becomes = if sequence.below(2) == 0 { 0 } else { another };
    compare_play(given, from, to, becomes, tally);
}

/// The look-up in a pocket.
fn compare_pocket(given: Given, packed: &[u8], tally: &mut Tally) {
    let Given { side, white, black, first, second } = given;
    let (start, len) = (packed.as_ptr(), packed.len());
    // SAFETY: the slice's pointer leads to as many bytes as its length says.
    let found =
        unsafe { ffi::sledgewren_pocket_look_up(side, white, black, first, second, start, len) };
    let due = word(pocket::look_up(packed, &keyed(given)), pocket_word);
    tally.add("pocket look-up's word", &given, found as u64, due);
}

/// The search without a table.
fn compare_opinion(given: Given, plies: u8, tally: &mut Tally) {
    let Given { side, white, black, first, second } = given;
    // SAFETY: no pointers.
    let found = unsafe { ffi::sledgewren_second_opinion(side, white, black, first, second, plies) };
    let due = word(search(&keyed(given), plies), opinion_word);
    tally.add("second opinion's word", &(given, plies), found as u64, due);
}

/// Random words: kinds, colours and squares in range or not, men there or not, first, second or
/// both.
pub fn random_words(sequence: &mut Sequence, tally: &mut Tally) {
    let tables: Vec<Vec<u8>> = (0..4).map(filled).collect();
    let packed: Vec<Vec<u8>> = tables
        .iter()
        .map(|table| {
            let mut packed = vec![165; POCKET_BYTES];
            // Both lengths are right.
            let _ = pocket::pack(table, &mut packed);
            packed
        })
        .collect();
    for _ in 0..POSITIONS {
        let given = random_given(sequence);
        let (kind, plies) = (given.first as usize % 4, PLIES[sequence.below(PLIES.len())]);
        compare_number(given, tally);
        compare_list(given, tally);
        compare_plays(given, sequence, tally);
        let count = COUNTS[sequence.below(COUNTS.len())];
        compare_look_up(given, count, NONE, &tables[kind], tally);
        compare_pocket(given, &packed[kind], tally);
        compare_opinion(given, plies, tally);
    }
}
