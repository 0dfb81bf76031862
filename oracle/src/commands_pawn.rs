//! The subcommands of the pawn's ending.

use std::ffi::OsString;
use std::io::{self, Write};

use crate::commands::{read_file, refused_text, Out};
use crate::counts::{greatest_text, write_counts, Checksum};
use crate::desk::{answer_text, value_text};
use crate::failure::{usage, Done, Failure};
use crate::four_counts::Tally;
use crate::four_samples::line;
use crate::four_steps::Progress;
use crate::lines::{for_each_keyed, for_each_numbers};
use crate::number::NUMBERS;
use crate::pawn_counts::{write_pawn_numbering, PawnTruth};
use crate::pawn_fill;
use crate::pawn_number::{back, number, PAWN_NUMBERS};
use crate::pawn_position::{PawnPosition, PAWN};
use crate::pawn_rules::{legal_pawn, moves, pawn_move_name};
use crate::pawn_samples;
use crate::pawn_steps::{start, step};
use crate::pawn_table::{check, look_up, PawnAnswer};
use crate::position::{Keyed, KeyedMan, Man, Refused};
use crate::steps::Step;
use crate::table::{self, Checked};

fn truth() -> PawnTruth {
    PawnTruth::new(pawn_fill::fill)
}

/// `pawn-table`: the true table, 196,608 raw bytes.
pub fn table(output: &mut Out) -> Done {
    let PawnTruth { filled, own, .. } = truth();
    match filled {
        Ok(_) => Ok(output.write_all(&own)?),
        Err(refused) => usage(refused_text(refused)),
    }
}

/// `pawn-counts`: the bytes of each side's half, the greatest depth and the checksum.
pub fn counts(output: &mut Out) -> Done {
    let PawnTruth { filled, own, .. } = truth();
    Ok(write_counts(output, "pawn", &filled, &own)?)
}

/// `pawn-sums`: one line, as `four-sums` has them.
pub fn sums(output: &mut Out) -> Done {
    let PawnTruth { filled, own, .. } = truth();
    let Tally { wins, draws, losses, .. } = Tally::of(&own);
    let (greatest, sum) = (greatest_text(&filled), Checksum::of(&own));
    writeln!(output, "KPK {greatest} wins {wins} draws {draws} losses {losses} checksum {sum}")?;
    Ok(())
}

/// `pawn-numbers`: used and unused numbers, and checksums over all.
pub fn numbers(output: &mut Out) -> Done {
    Ok(write_pawn_numbering(output)?)
}

/// `pawn-steps`: each step's answer, and the table's checksum after it.
pub fn steps(output: &mut Out) -> Done {
    let PawnTruth { lent, mut own, .. } = truth();
    let lent = lent.each_ref().map(|table| &table[..]);
    let mut progress = match start(&mut own) {
        Ok(progress) => progress,
        Err(refused) => return Ok(writeln!(output, "{}", refused_text(refused))?),
    };
    writeln!(output, "pawn\nstart checksum {}", Checksum::of(&own))?;
    while let Progress::Next(depth, _) = progress {
        let (answer, next) = step(&mut own, lent, progress);
        let said = match answer {
            Ok(Step::Settled(count)) => format!("settled {count}"),
            Ok(Step::Done(greatest)) => format!("done, {}", greatest_text(&Ok(greatest))),
            Err(refused) => refused_text(refused),
        };
        writeln!(output, "step {depth} {said} checksum {}", Checksum::of(&own))?;
        output.flush()?;
        progress = next;
    }
    Ok(())
}

fn back_text(number: u64) -> String {
    match back(PAWN, number) {
        Ok(PawnPosition { side, kings: [white, black], pawn, .. }) => {
            format!("{} {white} {pawn} {black}", side.code())
        }
        Err(refused) => refused_text(refused),
    }
}

/// `pawn-back`: side, white king, pawn's square and black king of each number.
pub fn back_lines(output: &mut Out) -> Done {
    for_each_numbers(io::stdin().lock(), output, "number", |[number]: [u64; 1], output| {
        Some(writeln!(output, "{}", back_text(number)).map_err(Failure::from))
    })
}

/// The pawn's table and the four lent ones from five files.
fn tables_in(name: &str, rest: &[OsString]) -> Result<(Vec<u8>, [Vec<u8>; 4]), Failure> {
    let [own, q, r, b, n] = rest else {
        return usage(format!("{name} takes five files: the pawn's table, then Q, R, B and N's"));
    };
    let small = |path: &OsString| read_file(path, NUMBERS);
    Ok((read_file(own, PAWN_NUMBERS)?, [small(q)?, small(r)?, small(b)?, small(n)?]))
}

/// `pawn-check FILE Q R B N`: the pawn's table beside the lent ones.
pub fn check_file(rest: &[OsString], output: &mut Out) -> Done {
    let (own, lent) = tables_in("pawn-check", rest)?;
    match check(&own, lent.each_ref().map(|table| &table[..])) {
        Ok(Checked::Accepted) => writeln!(output, "accepted")?,
        Ok(Checked::Wrong(number)) => writeln!(output, "wrong {number}")?,
        Err(refused) => writeln!(output, "{}", refused_text(refused))?,
    }
    Ok(())
}

/// A slip: the value, the depth and the move.
fn slip(answer: &Result<PawnAnswer, Refused>) -> String {
    match answer {
        Err(refused) => refused_text(*refused),
        Ok(PawnAnswer { value, best: Some(chosen) }) => {
            format!("{} {}", value_text(*value), pawn_move_name(*chosen))
        }
        Ok(PawnAnswer { value, best: None }) => value_text(*value),
    }
}

/// A lone pawn is looked up in its own table, one man in the lent table of his kind.
fn slip_of(own: &[u8], lent: [&[u8]; 4], keyed: &Keyed) -> String {
    match keyed.men {
        [Some(KeyedMan { kind, .. }), None] if Man::from_code(kind).is_some() => {
            answer_text(&table::look_up(lent[kind as usize & 3], keyed))
        }
        _ => slip(&look_up(own, lent, keyed)),
    }
}

/// `pawn-lookup FILE Q R B N`: each line looked up in those files as they are.
pub fn look_up_lines(rest: &[OsString], output: &mut Out) -> Done {
    let (own, lent) = tables_in("pawn-lookup", rest)?;
    let lent = lent.each_ref().map(|table| &table[..]);
    for_each_keyed(io::stdin().lock(), output, |keyed, output| {
        writeln!(output, "{}", slip_of(&own, lent, keyed))
    })
}

/// `pawn-slips`: each line looked up in the true tables.
pub fn slips(output: &mut Out) -> Done {
    let truth = truth();
    for_each_keyed(io::stdin().lock(), output, |keyed, output| {
        writeln!(output, "{}", slip_of(&truth.own, truth.lent(), keyed))
    })
}

/// `pawn-positions`: the test program's input lines.
pub fn sample_lines(output: &mut Out) -> Done {
    for keyed in pawn_samples::positions() {
        writeln!(output, "{}", line(&keyed))?;
    }
    Ok(())
}

/// The number, all moves and the slip of a lone pawn's position.
fn case_text(truth: &PawnTruth, keyed: &Keyed) -> String {
    let number = match number(keyed) {
        Ok(number) => number,
        Err(refused) => return refused_text(refused),
    };
    let list = match legal_pawn(keyed) {
        Ok(position) => moves(&position),
        Err(refused) => return format!("number {number} {}", refused_text(refused)),
    };
    let names = list.iter().map(|&chosen| format!(" {}", pawn_move_name(chosen)));
    let names: String = names.collect();
    let slip = slip(&look_up(&truth.own, truth.lent(), keyed));
    format!("number {number} moves {}{names} slip {slip}", list.len())
}

/// `pawn-cases`: each line on standard input with its number, its moves and its slip.
pub fn case_lines(output: &mut Out) -> Done {
    let truth = truth();
    for_each_keyed(io::stdin().lock(), output, |keyed, output| {
        writeln!(output, "{}", case_text(&truth, keyed))
    })
}
