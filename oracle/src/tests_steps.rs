//! Self tests of filling in steps.

use crate::number::{position_of, NUMBERS};
use crate::position::{Man, Refused, MEN};
use crate::rule::{DRAW, MATED};
use crate::rules::legal;
use crate::samples::Sequence;
use crate::selftest::{expect, Test, Truth, Verdict};
use crate::steps::{start, step, Progress, Step};
use crate::table::{required, sized};

pub const TESTS: &[Test] = &[
    ("after k steps the depths below k are true and the rest as started", true_so_far),
    ("a run of steps says what the fill says, and says it again", run_to_the_end),
    ("a step on any bytes writes exactly where its depth is required", any_bytes),
    ("the step that would settle depth 254 gives 10 and clears the table", too_deep),
    ("start and step refuse 1, then 7, and leave table and progress", refusals),
];

/// What the start leaves: 1 wherever the true byte is not 0.
fn started(true_byte: u8) -> u8 {
    true_byte.min(DRAW)
}

fn true_so_far(truth: &Truth) -> Verdict {
    for man in MEN {
        let due = truth.table(man);
        let mut table = vec![165; NUMBERS];
        let mut progress = start(man.code(), &mut table).map_err(|r| format!("{r:?}"))?;
        for taken in 0..40 {
            let right = table.iter().zip(due).all(|(&byte, &held)| {
                let settled = held >= MATED && held - MATED < taken;
                byte == if settled { held } else { started(held) }
            });
            expect(right, || format!("{} after {taken} steps", man.name()))?;
            progress = step(man.code(), &mut table, progress).1;
        }
    }
    Ok(())
}

fn run_to_the_end(truth: &Truth) -> Verdict {
    for man in MEN {
        let mut table = vec![77; NUMBERS];
        let mut progress = start(man.code(), &mut table).map_err(|r| format!("{r:?}"))?;
        let mut answer = Ok(Step::Done(None));
        while let Progress::Next(_) = progress {
            (answer, progress) = step(man.code(), &mut table, progress);
        }
        let filled = truth.filled[man as usize];
        let right = answer == filled.map(Step::Done) && table == truth.table(man);
        expect(right, || format!("{}: {answer:?}", man.name()))?;
        for again in 0..3 {
            let same = step(man.code(), &mut table, progress) == (answer, progress);
            expect(same && table == truth.table(man), || format!("{again} steps on"))?;
        }
    }
    Ok(())
}

/// P8's sentence followed number by number: the table after the step for a depth below 254.
fn plainly_stepped(man: Man, before: &[u8], depth: u8) -> Result<(Vec<u8>, usize), String> {
    let table = sized(before).map_err(|refused| format!("{refused:?}"))?;
    let mut after = before.to_vec();
    let mut count = 0;
    for number in 0..NUMBERS {
        let position = position_of(man, number).filter(legal);
        let holds = position.is_some() && before[number] == DRAW;
        if holds && required(table, man, number) == Some(MATED + depth) {
            after[number] = MATED + depth;
            count += 1;
        }
    }
    Ok((after, count))
}

fn any_bytes(_: &Truth) -> Verdict {
    let mut sequence = Sequence(88);
    let stocks: [&[u8]; 5] =
        [&[0, 1, 2, 3, 4, 5], &[1, 3, 5], &[1], &[1, 1, 1, 2, 255, 254], &[1, 253, 254, 255]];
    for turn in 0..200 {
        let man = MEN[turn % 4];
        let stock = stocks[turn % 5];
        let mut draw = || stock[sequence.below(stock.len() as u64) as usize % stock.len()];
        let before: Vec<u8> = (0..NUMBERS).map(|_| draw()).collect();
        let depth = [0, 1, 2, 3, 4, 5, 6, 252, 253][turn % 9];
        let (due, count) = plainly_stepped(man, &before, depth)?;
        let mut table = before;
        let found = step(man.code(), &mut table, Progress::Next(depth as u64));
        let done = depth.checked_sub(1);
        let said = match count {
            0 => (Ok(Step::Done(done)), Progress::Done(done)),
            _ => (Ok(Step::Settled(count)), Progress::Next(depth as u64 + 1)),
        };
        let right = found == said && table == due;
        expect(right, || format!("{} at {depth}: {found:?}, not {said:?}", man.name()))?;
    }
    Ok(())
}

/// White's half holds a win in 253 everywhere and Black's half 1: Black is lost in 254
/// wherever he has moves and none of them takes the man.
fn too_deep(_: &Truth) -> Verdict {
    for depth in [254, 255, 1_000, u64::MAX] {
        for man in MEN {
            let mut table = vec![255; NUMBERS];
            table[NUMBERS / 2..].fill(1);
            let found = step(man.code(), &mut table, Progress::Next(depth));
            let given = found == (Err(Refused(10)), Progress::TooDeep);
            let cleared = table.iter().all(|&byte| byte == 0);
            expect(given && cleared, || format!("{} at {depth}: {found:?}", man.name()))?;
            table.fill(1);
            let again = step(man.code(), &mut table, Progress::TooDeep);
            let alone = table.iter().all(|&byte| byte == 1);
            expect(again == found && alone, || format!("once more: {again:?}"))?;
            // A table of draws has nothing at depth 254.
            let none = step(man.code(), &mut table, Progress::Next(depth));
            let due = (Ok(Step::Done(Some(253))), Progress::Done(Some(253)));
            expect(none == due, || format!("draws at {depth}: {none:?}"))?;
        }
    }
    Ok(())
}

fn refusals(_: &Truth) -> Verdict {
    let cases = [(4, NUMBERS, 1), (255, 0, 1), (0, NUMBERS - 1, 7), (3, NUMBERS + 1, 7), (1, 0, 7)];
    let kept =
        [Progress::Next(0), Progress::Next(300), Progress::Done(Some(20)), Progress::TooDeep];
    for (man, length, refusal) in cases {
        let mut table = vec![1; length];
        let begun = start(man, &mut table);
        expect(begun == Err(Refused(refusal)), || format!("start {man}: {begun:?}"))?;
        for progress in kept {
            let found = step(man, &mut table, progress);
            let right = found == (Err(Refused(refusal)), progress);
            expect(right, || format!("{man}, {length} bytes: {found:?}"))?;
        }
        let alone = table.iter().all(|&byte| byte == 1);
        expect(alone, || format!("{man}, {length} bytes were written"))?;
    }
    Ok(())
}
