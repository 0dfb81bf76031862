//! Self tests of filling two men's table in steps.

use crate::four_number::NUMBERS_OF_TWO;
use crate::four_steps::{start, step, Progress};
use crate::four_table::Tables;
use crate::number::NUMBERS;
use crate::position::Refused;
use crate::rule::{DRAW, MATED};
use crate::samples::Sequence;
use crate::selftest::{expect, Verdict};
use crate::selftest_four::{FourTest, FourTruth, Large};
use crate::steps::Step;

pub const TESTS: &[FourTest] = &[
    ("after k steps of KQQK the depths below k are true; empty steps do not end it", true_so_far),
    ("steps of endings with few depths end where the lent tables say", short_endings),
    ("a step on any bytes, large and small, by the sentence itself", any_bytes),
    ("the step for depth 254: 10, all zero; start and step refuse 1 and 7", refusals),
];

/// Steps to the end: after each, is every byte the true one below its depth and as begun above?
fn run(truth: &FourTruth, large: &Large) -> Result<Vec<usize>, String> {
    let (codes, one_each) = (large.ending.codes(), large.ending.one_each);
    let small = truth.small.bytes(large.ending);
    let mut bytes = vec![165; NUMBERS_OF_TWO];
    let mut progress = start(codes, one_each, &mut bytes).map_err(|r| format!("{r:?}"))?;
    let mut counts = Vec::new();
    while let Progress::Next(depth, _) = progress {
        let right = bytes.iter().zip(&large.bytes).all(|(&byte, &due)| {
            let settled = due >= MATED && ((due - MATED) as u64) < depth;
            byte == if settled { due } else { due.min(DRAW) }
        });
        expect(right, || format!("{} before step {depth}", large.ending.name()))?;
        let (answer, next) = step(codes, one_each, &mut bytes, small, progress);
        match answer {
            Ok(Step::Settled(count)) => counts.push(count),
            Ok(Step::Done(greatest)) => {
                let right = Ok(greatest) == large.filled && bytes == large.bytes;
                expect(right, || format!("done with {greatest:?}"))?;
            }
            Err(refused) => return Err(format!("{refused:?}")),
        }
        progress = next;
    }
    let again = step(codes, one_each, &mut bytes, small, progress);
    expect(again == (large.filled.map(Step::Done), progress), || format!("again: {again:?}"))?;
    Ok(counts)
}

fn true_so_far(truth: &FourTruth) -> Verdict {
    let Some(large) = truth.of("KQQK") else { return Err("no KQQK".to_string()) };
    let counts = run(truth, large)?;
    let empty: Vec<usize> = (0..counts.len()).filter(|&depth| counts[depth] == 0).collect();
    // The queen's table holds depths up to 20: step 21 is the first that may say done.
    let right = counts.len() == 21 && empty == [9, 11, 13, 15, 17, 19];
    expect(right, || format!("{} steps, empty {empty:?}", counts.len()))
}

fn short_endings(truth: &FourTruth) -> Verdict {
    for name in ["KNNK", "KBKN", "KNKN"] {
        let Some(large) = truth.of(name) else { return Err(name.to_string()) };
        let counts = run(truth, large)?;
        expect(counts.len() == 2, || format!("{name}: {counts:?}"))?;
    }
    Ok(())
}

fn filled_with(sequence: &mut Sequence, stock: &[u8], length: usize) -> Vec<u8> {
    (0..length).map(|_| stock[sequence.below(stock.len() as u64) as usize]).collect()
}

/// "Writes 2 + k at exactly the legal positions that hold 1 and whose successors' bytes .. require
/// depth k", number by number; every fifteenth is asked.
fn wrote_right(tables: &Tables, after: &[u8], depth: u8) -> bool {
    (0..NUMBERS_OF_TWO).step_by(15).all(|number| {
        let held = tables.large[number];
        let due = MATED + depth;
        let settles = held == DRAW && tables.required(number) == Some(due);
        after[number] == if settles { due } else { held }
    })
}

fn any_bytes(truth: &FourTruth) -> Verdict {
    let mut sequence = Sequence(40);
    let stocks: [&[u8]; 4] = [&[0, 1, 2, 3, 4, 5], &[1, 3, 5], &[1], &[1, 1, 2, 255, 254]];
    for (turn, large) in truth.large.iter().enumerate() {
        let ending = large.ending;
        let before = filled_with(&mut sequence, stocks[turn % 4], NUMBERS_OF_TWO);
        let small =
            [1, 2].map(|more| filled_with(&mut sequence, stocks[(turn + more) % 4], NUMBERS));
        let depth = [0, 1, 2, 3, 4, 5, 253][turn % 7];
        let mut bytes = before.clone();
        let lent = [&small[0][..], &small[1][..]];
        let progress = Progress::Next(depth as u64, Some(7));
        let (answer, next) = step(ending.codes(), ending.one_each, &mut bytes, lent, progress);
        let count = bytes.iter().zip(&before).filter(|(now, then)| now != then).count();
        let deeper = small.iter().flatten().any(|&byte| byte >= MATED + depth);
        let due = match (count, deeper) {
            (0, false) => (Ok(Step::Done(Some(7))), Progress::Done(Some(7))),
            (0, true) => (Ok(Step::Settled(0)), Progress::Next(depth as u64 + 1, Some(7))),
            _ => (Ok(Step::Settled(count)), Progress::Next(depth as u64 + 1, Some(depth))),
        };
        let name = ending.name();
        expect((answer, next) == due, || format!("{name} at {depth}: {answer:?}, {next:?}"))?;
        let tables = Tables {
            ending,
            large: before[..].try_into().map_err(|_| "a length".to_string())?,
            small: [&small[0], &small[1]]
                .map(|table| table[..].try_into().unwrap_or(&[0; NUMBERS])),
        };
        expect(wrote_right(&tables, &bytes, depth), || format!("{name} at {depth}"))?;
    }
    Ok(())
}

fn refusals(truth: &FourTruth) -> Verdict {
    let small = vec![255; NUMBERS];
    let lent = [&small[..], &small[..]];
    let Some(large) = truth.of("KRBK") else { return Err("no KRBK".to_string()) };
    let codes = large.ending.codes();
    // White's half a win in 253 and Black's half open: Black is lost in 254 where he can move.
    let mut bytes = vec![255; NUMBERS_OF_TWO];
    bytes[NUMBERS_OF_TWO / 2..].fill(1);
    let found = step(codes, false, &mut bytes, lent, Progress::Next(u64::MAX, Some(3)));
    let cleared = bytes.iter().all(|&byte| byte == 0);
    expect(found == (Err(Refused(10)), Progress::TooDeep) && cleared, || format!("{found:?}"))?;
    bytes.fill(1);
    let again = step(codes, false, &mut bytes, lent, Progress::TooDeep);
    expect(again == found && bytes[0] == 1, || format!("again: {again:?}"))?;
    let short = &small[..NUMBERS - 1];
    let progress = Progress::Next(300, None);
    for (codes, lent, refusal) in
        [([4, 1], [short; 2], 1), ([1, 2], [lent[0], short], 7), ([1, 2], [short, lent[0]], 7)]
    {
        let found = step(codes, true, &mut bytes, lent, progress);
        expect(found == (Err(Refused(refusal)), progress), || format!("{found:?}"))?;
    }
    let starts = [start([1, 0], true, &mut bytes), start([0, 1], true, &mut bytes[1..])];
    let right = starts == [Err(Refused(1)), Err(Refused(7))] && bytes.iter().all(|&b| b == 1);
    expect(right, || format!("{starts:?}"))
}
