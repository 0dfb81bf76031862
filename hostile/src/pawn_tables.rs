//! Hostile tables of a pawn's ending beside the oracle: filled ones byte by byte, lengths, small tables
//! that are not accepted, damages.

use second::pawn_fill;
use second::pawn_number::position_of;
use second::pawn_position::PawnPosition;
use second::pawn_rules::{legal, moves, play, After};
use second::pawn_table::check as second_check;
use second::{index, pawn_number};

use crate::calls::Tally;
use crate::lent::{self, LARGE_BYTES, NONE, PAWN, PAWN_BYTES, RUN_BYTES, SMALL_BYTES};
use crate::pawn::Tables;
use crate::pawn_due::parts;
use crate::sequence::Sequence;
use crate::two::{compare_look_up, given};
use crate::two_tables::{checked_word, code, filled_word};

/// Lengths lent: right ones, one off, and other tables'.
const OWN: [usize; 8] =
    [0, 1, SMALL_BYTES, PAWN_BYTES - 1, PAWN_BYTES, PAWN_BYTES + 1, RUN_BYTES, LARGE_BYTES];
const RUN: [usize; 7] = [0, 1, SMALL_BYTES, PAWN_BYTES, RUN_BYTES - 1, RUN_BYTES, RUN_BYTES + 1];

/// The library's four tables of one man, one after the other.
pub fn run() -> Vec<u8> {
    let mut run = vec![165; RUN_BYTES];
    for (kind, table) in run.chunks_exact_mut(SMALL_BYTES).enumerate() {
        lent::fill(kind as u32, NONE, table);
    }
    run
}

/// Check and fill of any tables; the bytes after the fill.
fn compare_tables(tables: Tables, second: &[u8], tally: &mut Tally) {
    let Tables { own, run } = tables;
    let asked = (own.len(), run.len(), second.len());
    let due = code(second_check(own, parts(run)), checked_word);
    tally.add("check's word", &asked, lent::check(PAWN, [run, second], own), due);
    let (mut one, mut other) = (own.to_vec(), own.to_vec());
    let answer = lent::fill(PAWN, [run, second], &mut one) as u64;
    let due = code(pawn_fill::fill(&mut other, parts(run)), filled_word);
    tally.add("fill's word", &asked, answer, due);
    tally.add("filled bytes", &asked, one == other, true);
}

/// The fill over the library's own small tables, byte by byte, whatever stands in the second place;
/// then its check.
pub fn filled(run: &[u8], due: &[u8], tally: &mut Tally) {
    let mut own = vec![165; PAWN_BYTES];
    for second in [&[][..], &[0; 1], &run[..SMALL_BYTES], run] {
        own.fill(165);
        let answer = lent::fill(PAWN, [run, second], &mut own);
        let greatest = due.iter().max().map_or(0, |byte| byte - 2);
        tally.add("fill's word", &second.len(), answer, 1 << 8 | (greatest as u32) << 16);
        let unlike = own.iter().zip(due).filter(|(one, other)| one != other).count();
        tally.bytes("the pawn's table", PAWN_BYTES as u64, unlike as u64);
        tally.add("check's word", &second.len(), lent::check(PAWN, [run, second], &own), 0);
    }
}

/// Refusal 7 of each table alone and of both; where both lengths are right, small tables of ones are
/// not accepted: 17.
pub fn lengths(tally: &mut Tally) {
    let bytes = vec![1; LARGE_BYTES];
    let asked = position_of(82_560).map(|position| given(&position.keyed()));
    for own in OWN {
        let mut started = vec![165; own];
        let due = if own == PAWN_BYTES { 0 } else { 7 };
        tally.add("start's word", &own, lent::fill_start(PAWN, &mut started), due);
        let untouched = started.iter().all(|&byte| byte == 165);
        tally.add("started bytes", &own, untouched, due == 7);
        for run in RUN {
            let tables = Tables { own: &bytes[..own], run: &bytes[..run] };
            for second in [0, SMALL_BYTES] {
                compare_tables(tables, &bytes[..second], tally);
            }
            if let Some(given) = asked {
                compare_look_up(given, 0, tables.lent(), tables.own, tally);
            }
        }
    }
}

/// Each small table with one byte altered or in another's place: 17 by fill and check, and the pawn's
/// table as it was. How often 17 came.
pub fn unaccepted(
    times: usize,
    true_run: &[u8],
    sequence: &mut Sequence,
    tally: &mut Tally,
) -> u64 {
    let (dirt, mut refused) = (vec![165; PAWN_BYTES], 0);
    for turn in 0..4 * times {
        let (kind, mut run) = (turn % 4, true_run.to_vec());
        let part = kind * SMALL_BYTES..(kind + 1) * SMALL_BYTES;
        match turn / 4 % 4 {
            0 => run[part.start] = run[part.start].wrapping_add(1),
            1 => run[part.end - 1] = run[part.end - 1].wrapping_add(1),
            2 => run[part].copy_from_slice(parts(true_run)[(kind + 1) % 4]),
            _ => {
                let at = part.start + sequence.below(SMALL_BYTES);
                run[at] = run[at].wrapping_add(1 + sequence.byte() % 255);
            }
        }
        refused += (lent::check(PAWN, [&run, &[]], &dirt) == 17) as u64;
        compare_tables(Tables { own: &dirt, run: &run }, &[], tally);
    }
    refused
}

/// A byte altered at any number, used or not: the lowest wrong number, which may be a lower one. How
/// often it was.
pub fn checks(damages: usize, tables: Tables, sequence: &mut Sequence, tally: &mut Tally) -> u64 {
    let (mut own, mut lower) = (tables.own.to_vec(), 0);
    for turn in 0..damages {
        // Evenly over all numbers.
        let number = (turn * PAWN_BYTES + sequence.below(PAWN_BYTES)) / damages;
        let right = own[number];
        own[number] = match sequence.below(4) {
            0 => right.wrapping_add(1),
            1 => right.wrapping_sub(2),
            2 => [0, 1, 254, 255][sequence.below(4)],
            _ => sequence.byte(),
        };
        let due = code(second_check(&own, parts(tables.run)), checked_word);
        let found = lent::check(PAWN, tables.lent(), &own);
        tally.add("check of a damaged table", &(number, own[number]), found, due);
        lower += (found >> 8 & 1 == 1 && found >> 32 < number as u64) as u64;
        own[number] = right;
    }
    lower
}

/// Where the look-up of a position reads: its own number, or a successor's in one of the tables.
fn read_place(position: &PawnPosition, sequence: &mut Sequence) -> Option<(bool, usize)> {
    let list = moves(position);
    if list.is_empty() || sequence.below(3) == 0 {
        return Some((true, pawn_number::number_of(position)));
    }
    match play(position, list[sequence.below(list.len())]) {
        After::Pawn(next) => Some((true, pawn_number::number_of(&next))),
        After::Promoted(placement) => {
            let alone = placement.alone()?;
            Some((false, alone.man as usize * SMALL_BYTES + index::number_of(&alone)))
        }
        After::BareKings => None,
    }
}

/// One of the boards of a number: files reversed or not, White's pawn or Black's.
fn turned(position: &PawnPosition, sequence: &mut Sequence) -> PawnPosition {
    let (files, colours) = (sequence.below(2) == 1, sequence.below(2) == 1);
    let change = |square: u8| square ^ if files { 7 } else { 0 } ^ if colours { 56 } else { 0 };
    let [white, black] = position.kings.map(change);
    let PawnPosition { side, colour, pawn, .. } = *position;
    let pawn = change(pawn);
    match colours {
        false => PawnPosition { side, kings: [white, black], colour, pawn },
        true => {
            let (side, colour) = (side.other(), colour.other());
            PawnPosition { side, kings: [black, white], colour, pawn }
        }
    }
}

/// A byte altered where the look-up reads it, in the pawn's table or in a small one, then put back. How
/// many look-ups gave 11, and how many of the bytes were in the small tables.
pub fn look_ups(
    calls: usize,
    tables: Tables,
    sequence: &mut Sequence,
    tally: &mut Tally,
) -> (u64, u64) {
    let (mut own, mut run, mut told) = (tables.own.to_vec(), tables.run.to_vec(), (0, 0));
    for _ in 0..calls {
        let found = position_of(sequence.below(PAWN_BYTES)).filter(legal);
        let Some(position) = found else { continue };
        let Some((in_own, number)) = read_place(&position, sequence) else { continue };
        let table = if in_own { &mut own } else { &mut run };
        let kept = table[number];
        table[number] = match sequence.below(3) {
            0 => sequence.byte(),
            1 => sequence.below(4) as u8,
            _ => kept.wrapping_add(2),
        };
        let (given, lent) = (given(&turned(&position, sequence).keyed()), [&run[..], &[]]);
        compare_look_up(given, 0, lent, &own, tally);
        told.0 += (lent::look_up(given, 0, lent, &own) == 11) as u64;
        told.1 += !in_own as u64;
        let table = if in_own { &mut own } else { &mut run };
        table[number] = kept;
    }
    told
}
