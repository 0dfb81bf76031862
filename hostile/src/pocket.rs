//! The pocket edition beside the oracle's: packing, pocket look-up and tallies.

use second::pocket as second_pocket;
use second::pocket::PocketAnswer;
use sledgewren::{entry, ffi, Keyed, Outcome, POCKET_BYTES, TABLE_BYTES};

use crate::calls::{filled, ours, refused, second, Tally};
use crate::sequence::Sequence;

/// What lent bytes hold beforehand.
const DIRT: u8 = 165;

/// Pockets of random bytes and damaged ones.
pub const POCKETS: usize = 1_000_000;

/// Two legal positions, one refused 1 and one refused 6.
const KEYED: [[u8; 5]; 4] =
    [[0, 0, 17, 15, 0], [1, 1, 0, 32, 36], [4, 2, 64, 64, 64], [0, 0, 17, 9, 0]];

fn compare_pack(table: &[u8], pocket: usize, tally: &mut Tally) {
    let (mut one, mut other) = (vec![DIRT; pocket], vec![DIRT; pocket]);
    let asked = (table.len(), pocket);
    let packed = ours(entry::pack(table, &mut one));
    tally.add("pack", &asked, packed, refused(second_pocket::pack(table, &mut other)));
    tally.add("packed bytes", &asked, one == other, true);
}

fn compare_look_up(pocket: &[u8], keyed: impl Into<Keyed>, tally: &mut Tally) {
    let keyed = keyed.into();
    let outcome = ours(entry::pocket_look_up(pocket, keyed));
    let answer = refused(second_pocket::look_up(pocket, &second(keyed)));
    let theirs = answer.map(|answer| match answer {
        PocketAnswer::Win => Outcome::Win,
        PocketAnswer::Loss => Outcome::Loss,
        PocketAnswer::Draw => Outcome::Draw,
    });
    tally.add("pocket look-up", &keyed, outcome, theirs);
}

/// The C function's word: all four tallies, or the refusal.
fn compare_tallies(pocket: &[u8], tally: &mut Tally) {
    // SAFETY: the slice's pointer leads to as many bytes as its length says.
    let word = unsafe { ffi::sledgewren_tallies(pocket.as_ptr(), pocket.len()) };
    let theirs = match refused(second_pocket::tallies(pocket)) {
        Ok(counts) => counts.iter().rev().fold(0, |word, &count| word << 16 | count as u64),
        Err(code) => code as u64,
    };
    tally.add("tallies", &pocket.len(), word, theirs);
}

/// The pocket of a man's table, by the oracle alone.
fn packed(man: u8) -> Vec<u8> {
    let mut pocket = vec![DIRT; POCKET_BYTES];
    // Both lengths are right.
    let _ = second_pocket::pack(&filled(man), &mut pocket);
    pocket
}

/// The four tables packed, and every man of either colour, side and square looked up, one square
/// too high among them.
pub fn boards(tally: &mut Tally) {
    for man in 0..4 {
        compare_pack(&filled(man), POCKET_BYTES, tally);
        let pocket = packed(man);
        compare_tallies(&pocket, tally);
        for sides in 0..4 {
            for place in 0..65usize.pow(3) {
                let square = |unit: usize| (place / unit % 65) as u8;
                let keyed = [man, sides % 2, square(65 * 65), square(65), square(1), sides / 2];
                compare_look_up(&pocket, keyed, tally);
            }
        }
    }
}

fn scatter(sequence: &mut Sequence, bytes: &mut [u8]) {
    for eight in bytes.chunks_mut(8) {
        eight.copy_from_slice(&sequence.any().to_le_bytes()[..eight.len()]);
    }
}

/// Other bytes in a true pocket: one, a run, or in the first or the last word.
fn damage(sequence: &mut Sequence, pocket: &mut [u8]) {
    let (first, len) = match sequence.below(4) {
        0 => (sequence.below(POCKET_BYTES), 1),
        1 => (sequence.below(POCKET_BYTES), sequence.below(300)),
        2 => (0, 1 + sequence.below(8)),
        _ => (POCKET_BYTES - 1 - sequence.below(8), 8),
    };
    let end = (first + len).min(POCKET_BYTES);
    scatter(sequence, &mut pocket[first..end]);
}

/// Six bytes, most of them of a legal position; the last is the man's colour.
fn keyed(sequence: &mut Sequence) -> [u8; 6] {
    let mut byte = |right: usize| match sequence.below(64) {
        0 => sequence.byte(),
        _ => sequence.below(right) as u8,
    };
    [byte(4), byte(2), byte(64), byte(64), byte(64), byte(2)]
}

/// The tallies of each pocket, and two look-ups in it.
pub fn pockets(sequence: &mut Sequence, tally: &mut Tally) {
    let right: Vec<Vec<u8>> = (0..4).map(packed).collect();
    let mut pocket = vec![0; POCKET_BYTES];
    for k in 0..POCKETS {
        if k % 2 == 0 {
            scatter(sequence, &mut pocket);
        } else {
            pocket.copy_from_slice(&right[k / 2 % 4]);
            damage(sequence, &mut pocket);
        }
        compare_tallies(&pocket, tally);
        compare_look_up(&pocket, keyed(sequence), tally);
        compare_look_up(&pocket, keyed(sequence), tally);
    }
}

/// Tables of random bytes, packed.
pub fn tables(sequence: &mut Sequence, tally: &mut Tally) {
    let mut table = vec![0; TABLE_BYTES];
    for _ in 0..20_000 {
        scatter(sequence, &mut table);
        compare_pack(&table, POCKET_BYTES, tally);
    }
}

/// All kinds of lengths, right and wrong, of tables and pockets.
pub fn lengths(tally: &mut Tally) {
    let lengths = [0, 1, 7, 8, POCKET_BYTES - 1, POCKET_BYTES, POCKET_BYTES + 1]
        .into_iter()
        .chain([TABLE_BYTES - 1, TABLE_BYTES, TABLE_BYTES + 1, 1 << 20]);
    for one in lengths.clone() {
        lengths.clone().for_each(|other| compare_pack(&vec![3; one], other, tally));
        for byte in [0, 85, DIRT, 255] {
            let pocket = vec![byte; one];
            compare_tallies(&pocket, tally);
            KEYED.iter().for_each(|&keyed| compare_look_up(&pocket, keyed, tally));
        }
    }
}
