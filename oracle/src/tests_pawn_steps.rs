//! Self tests of filling the pawn's table in steps.

use crate::four_steps::Progress;
use crate::number::NUMBERS;
use crate::pawn_counts::PawnTruth;
use crate::pawn_number::PAWN_NUMBERS;
use crate::pawn_steps::{start, step};
use crate::pawn_table::PawnTables;
use crate::position::Refused;
use crate::rule::{DRAW, MATED};
use crate::samples::Sequence;
use crate::selftest::{expect, Verdict};
use crate::selftest_pawn::PawnTest;
use crate::steps::Step;

pub const TESTS: &[PawnTest] = &[
    ("after k steps the depths below k are true; empty steps do not end it", true_so_far),
    ("a step on any bytes by the sentence itself; its refusals", any_bytes),
    ("the step for depth 254: 10, all zero, and 10 again", too_deep),
];

fn true_so_far(truth: &PawnTruth) -> Verdict {
    let mut own = vec![165; PAWN_NUMBERS];
    let mut progress = start(&mut own).map_err(|refused| format!("{refused:?}"))?;
    let mut settled = vec![];
    while let Progress::Next(depth, _) = progress {
        let right = own.iter().zip(&truth.own).all(|(&byte, &due)| {
            let known = due >= MATED && ((due - MATED) as u64) < depth;
            byte == if known { due } else { due.min(DRAW) }
        });
        expect(right, || format!("before step {depth}"))?;
        let (answer, next) = step(&mut own, truth.lent(), progress);
        match answer {
            Ok(Step::Settled(count)) => settled.push(count),
            Ok(Step::Done(greatest)) => {
                let right = Ok(greatest) == truth.filled && own == truth.own;
                expect(right, || format!("done with {greatest:?}"))?;
            }
            Err(refused) => return Err(format!("{refused:?}")),
        }
        progress = next;
    }
    let again = step(&mut own, truth.lent(), progress);
    expect(again == (truth.filled.map(Step::Done), progress), || format!("again: {again:?}"))?;
    let decided = truth.own.iter().filter(|&&byte| byte >= MATED).count();
    expect(settled.iter().sum::<usize>() == decided, || format!("{settled:?}"))
}

fn any_bytes(_: &PawnTruth) -> Verdict {
    let mut sequence = Sequence(74);
    let stocks: [&[u8]; 4] = [&[0, 1, 2, 3, 4, 5], &[1, 3, 5], &[1], &[1, 1, 2, 255, 254]];
    let mut bytes = |stock: &[u8], length: usize| -> Vec<u8> {
        (0..length).map(|_| stock[sequence.below(stock.len() as u64) as usize]).collect()
    };
    for (turn, depth) in [0u8, 1, 2, 3, 4, 5, 253, 0, 1, 2, 3, 4].into_iter().enumerate() {
        let before = bytes(stocks[turn % 4], PAWN_NUMBERS);
        let lent = [1, 2, 3, 1].map(|more| bytes(stocks[(turn + more) % 4], NUMBERS));
        let slices = lent.each_ref().map(|table| &table[..]);
        let mut own = before.clone();
        let found = step(&mut own, slices, Progress::Next(depth as u64, Some(7)));
        let tables = PawnTables {
            own: before[..].try_into().map_err(|_| "a length".to_string())?,
            lent: slices.map(|table| table.try_into().unwrap_or(&[0; NUMBERS])),
        };
        let due = MATED + depth;
        let right = (0..PAWN_NUMBERS).all(|number| {
            let settles = before[number] == DRAW && tables.required(number) == Some(due);
            own[number] == if settles { due } else { before[number] }
        });
        expect(right, || format!("turn {turn} at {depth}"))?;
        let count = own.iter().zip(&before).filter(|(now, then)| now != then).count();
        let deeper = lent.iter().flatten().any(|&byte| byte >= due);
        let next = Progress::Next(depth as u64 + 1, if count > 0 { Some(depth) } else { Some(7) });
        let due = match (count, deeper) {
            (0, false) => (Ok(Step::Done(Some(7))), Progress::Done(Some(7))),
            _ => (Ok(Step::Settled(count)), next),
        };
        expect(found == due, || format!("turn {turn} at {depth}: {found:?}"))?;
        let progress = Progress::Next(300, None);
        let short = step(&mut own[1..], slices, progress);
        expect(short == (Err(Refused(7)), progress), || format!("{short:?}"))?;
    }
    Ok(())
}

/// No accepted table is so deep: only steps, which do not ask 17, can be led to 10.
fn too_deep(_: &PawnTruth) -> Verdict {
    let lent = vec![255; NUMBERS];
    let lent = [&lent[..]; 4];
    let mut own = vec![255; PAWN_NUMBERS];
    own[PAWN_NUMBERS / 2..].fill(DRAW);
    let found = step(&mut own, lent, Progress::Next(u64::MAX, Some(3)));
    let cleared = own.iter().all(|&byte| byte == 0);
    expect(found == (Err(Refused(10)), Progress::TooDeep) && cleared, || format!("{found:?}"))?;
    own.fill(DRAW);
    let again = step(&mut own, lent, Progress::TooDeep);
    expect(again == found && own[0] == DRAW, || format!("again: {again:?}"))
}
