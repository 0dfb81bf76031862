//! Self tests of the pocket edition.

use crate::number::{number_of, NUMBERS};
use crate::pocket::{entry, look_up, pack, tallies, Pocket, PocketAnswer, POCKET_BYTES};
use crate::position::{Refused, MEN};
use crate::rule::Value;
use crate::rules::legal_position;
use crate::samples::{self, Sequence};
use crate::selftest::{every_keyed, expect, Test, Truth, Verdict};
use crate::table;

pub const TESTS: &[Test] = &[
    ("packing puts every byte's entry at its number, on any table bytes", packs_any_bytes),
    ("packing refuses 7 for either length and writes nothing", pack_refusals),
    ("the four tallies are the entries counted one by one, on any pocket", tallies_counted),
    ("pocket look-up agrees with the large one on every legal position", pocket_agrees),
    ("pocket look-up reads its entry and no more, 11 exactly at entry 0", reads_one_entry),
    ("pocket look-up refuses 1 to 6 before 7", look_up_refusals),
];

fn random_bytes(sequence: &mut Sequence, count: usize) -> Vec<u8> {
    (0..count).map(|_| sequence.below(256) as u8).collect()
}

fn sized(pocket: &[u8]) -> Result<&Pocket, String> {
    pocket.try_into().map_err(|_| format!("{} bytes", pocket.len()))
}

/// P1's words: wins are the bytes 3, 5 .. 255, losses 2, 4 .. 254.
fn plain_entry(byte: u8) -> u8 {
    match byte {
        0 | 1 => byte,
        _ if byte % 2 == 1 => 2,
        _ => 3,
    }
}

fn packs_any_bytes(_: &Truth) -> Verdict {
    let mut sequence = Sequence(14_784);
    for round in 0..20 {
        let mut bytes = random_bytes(&mut sequence, NUMBERS);
        // At the front each of the 256 bytes stands at each of a byte's four places.
        for (place, byte) in bytes.iter_mut().take(1024).enumerate() {
            *byte = (place / 4) as u8;
        }
        let mut pocket = random_bytes(&mut sequence, POCKET_BYTES);
        let packed = pack(&bytes, &mut pocket);
        expect(packed == Ok(()), || format!("round {round}: {packed:?}"))?;
        for (number, &byte) in bytes.iter().enumerate() {
            let found = pocket[number / 4] >> (number % 4 * 2) & 3;
            expect(found == plain_entry(byte), || format!("{number}: byte {byte}, {found}"))?;
        }
    }
    Ok(())
}

fn pack_refusals(_: &Truth) -> Verdict {
    let lengths = [
        (NUMBERS - 1, POCKET_BYTES),
        (NUMBERS + 1, POCKET_BYTES),
        (NUMBERS, POCKET_BYTES - 1),
        (NUMBERS, POCKET_BYTES + 1),
        (NUMBERS, NUMBERS),
        (POCKET_BYTES, NUMBERS),
        (0, 0),
    ];
    for (table, pocket) in lengths {
        let mut lent = vec![77; pocket];
        let refused = pack(&vec![3; table], &mut lent) == Err(Refused(7));
        let alone = lent.iter().all(|&byte| byte == 77);
        expect(refused && alone, || format!("{table} bytes into {pocket}"))?;
    }
    Ok(())
}

fn tallies_counted(_: &Truth) -> Verdict {
    let mut sequence = Sequence(4);
    for round in 0..50u32 {
        let mut pocket = vec![[0, 85, 170, 255][round as usize % 4]; POCKET_BYTES];
        if round >= 4 {
            pocket = random_bytes(&mut sequence, POCKET_BYTES);
        }
        let mut counts = [0; 4];
        for number in 0..NUMBERS {
            counts[entry(sized(&pocket)?, number) as usize] += 1;
        }
        let found = tallies(&pocket);
        let whole = counts.iter().sum::<u32>() == NUMBERS as u32;
        expect(found == Ok(counts) && whole, || format!("{found:?}, not {counts:?}"))?;
    }
    for length in [0, 1, POCKET_BYTES - 1, POCKET_BYTES + 1, NUMBERS] {
        let found = tallies(&vec![0; length]);
        expect(found == Err(Refused(7)), || format!("{length} bytes: {found:?}"))?;
    }
    Ok(())
}

fn without_depth(value: Value) -> PocketAnswer {
    match value {
        Value::Win(_) => PocketAnswer::Win,
        Value::Loss(_) => PocketAnswer::Loss,
        Value::Draw => PocketAnswer::Draw,
    }
}

fn pocket_agrees(truth: &Truth) -> Verdict {
    for man in MEN {
        let table = truth.table(man);
        let mut pocket = vec![0; POCKET_BYTES];
        let packed = pack(table, &mut pocket);
        expect(packed == Ok(()), || format!("{}: {packed:?}", man.name()))?;
        for keyed in every_keyed(man) {
            let large = table::look_up(table, &keyed).map(|answer| without_depth(answer.value));
            let small = look_up(&pocket, &keyed);
            expect(small == large, || format!("{keyed:?}: {small:?}, not {large:?}"))?;
        }
    }
    Ok(())
}

fn reads_one_entry(_: &Truth) -> Verdict {
    let mut sequence = Sequence(11);
    for man in MEN {
        let pocket = random_bytes(&mut sequence, POCKET_BYTES);
        for keyed in every_keyed(man) {
            let Ok(position) = legal_position(&keyed) else { continue };
            let due =
                match entry(sized(&pocket)?, number_of(&position)) {
                    0 => Err(Refused(11)),
                    held => Ok([PocketAnswer::Draw, PocketAnswer::Win, PocketAnswer::Loss]
                        [held as usize - 1]),
                };
            let found = look_up(&pocket, &keyed);
            expect(found == due, || format!("{keyed:?}: {found:?}, not {due:?}"))?;
        }
    }
    Ok(())
}

fn look_up_refusals(_: &Truth) -> Verdict {
    for keyed in samples::lines().into_iter().map(samples::keyed_of) {
        let lowest = legal_position(&keyed).err();
        for length in [0, POCKET_BYTES - 1, POCKET_BYTES + 1, NUMBERS] {
            let found = look_up(&vec![85; length], &keyed);
            let due = Err(lowest.unwrap_or(Refused(7)));
            expect(found == due, || format!("{keyed:?}, {length} bytes: {found:?}"))?;
        }
        let found = look_up(&[85; POCKET_BYTES], &keyed);
        let due = lowest.map_or(Ok(PocketAnswer::Draw), Err);
        expect(found == due, || format!("{keyed:?}: {found:?}, not {due:?}"))?;
    }
    Ok(())
}
