//! Self tests of the pawn's table: fills and checking.

use crate::four_counts::greatest_of;
use crate::number::NUMBERS;
use crate::pawn_counts::PawnTruth;
use crate::pawn_fill::{fill, fill_rounds};
use crate::pawn_number::PAWN_NUMBERS;
use crate::pawn_table::{check, PawnTables};
use crate::position::{Refused, Side, MEN};
use crate::samples::Sequence;
use crate::selftest::{expect, Verdict};
use crate::selftest_pawn::PawnTest;
use crate::table::Checked;

pub const TESTS: &[PawnTest] = &[
    ("document 000: won in 28 moves with either side to move, never lost by the pawn", document),
    ("the two fills agree, over bytes that they clear themselves", fills),
    ("fills and checker: 7 of every length, 17, and the table as it was", lent_refusals),
    ("the checker accepts the table and finds the lowest damage", damaged),
];

fn document(truth: &PawnTruth) -> Verdict {
    let moves = |plies: Option<u8>| plies.map(|plies| plies.div_ceil(2));
    for side in [Side::White, Side::Black] {
        let won = moves(greatest_of(&truth.own, Side::White, side));
        expect(won == Some(28), || format!("won in {won:?}"))?;
        let lost = greatest_of(&truth.own, Side::Black, side);
        expect(lost.is_none(), || format!("lost in {lost:?}"))?;
    }
    Ok(())
}

fn fills(truth: &PawnTruth) -> Verdict {
    for method in [fill, fill_rounds] {
        let mut own = vec![165; PAWN_NUMBERS];
        let filled = method(&mut own, truth.lent());
        let right = filled == truth.filled && own == truth.own;
        expect(right, || format!("{filled:?}, not {:?}", truth.filled))?;
    }
    Ok(())
}

fn lent_refusals(truth: &PawnTruth) -> Verdict {
    let mut own = vec![165; PAWN_NUMBERS + 1];
    for length in [0, PAWN_NUMBERS - 1, PAWN_NUMBERS + 1, NUMBERS] {
        let found = fill(&mut own[..length], truth.lent());
        let checked = check(&own[..length], truth.lent());
        let right = found == Err(Refused(7)) && checked == Err(Refused(7));
        expect(right, || format!("{length}: {found:?}, {checked:?}"))?;
    }
    for man in MEN {
        let mut lent = truth.lent();
        lent[man as usize] = &lent[man as usize][1..];
        let found = fill(&mut own[1..], lent);
        expect(found == Err(Refused(7)), || format!("{found:?}"))?;
        let mut damaged = truth.lent[man as usize].clone();
        damaged[2049] ^= 1;
        let mut lent = truth.lent();
        lent[man as usize] = &damaged;
        let found = (fill(&mut own[1..], lent), check(&truth.own, lent));
        let right = found == (Err(Refused(17)), Err(Refused(17)));
        expect(right, || format!("{}: {found:?}", man.name()))?;
    }
    expect(own.iter().all(|&byte| byte == 165), || "a refusal has written".to_string())
}

fn damaged(truth: &PawnTruth) -> Verdict {
    let whole = check(&truth.own, truth.lent());
    expect(whole == Ok(Checked::Accepted), || format!("{whole:?}"))?;
    let mut sequence = Sequence(72);
    for _ in 0..40 {
        let mut own = truth.own.clone();
        let number = sequence.below(PAWN_NUMBERS as u64) as usize;
        own[number] = own[number].wrapping_add(1 + sequence.below(255) as u8);
        let tables = PawnTables {
            own: own[..].try_into().map_err(|_| "a length".to_string())?,
            lent: truth.lent.each_ref().map(|table| table[..].try_into().unwrap_or(&[0; NUMBERS])),
        };
        let lowest = (0..PAWN_NUMBERS).find(|&n| tables.required(n) != Some(own[n]));
        let found = check(&own, truth.lent());
        let right = lowest.is_some_and(|n| n <= number && found == Ok(Checked::Wrong(n)));
        expect(right, || format!("{number}: {found:?}"))?;
    }
    Ok(())
}
