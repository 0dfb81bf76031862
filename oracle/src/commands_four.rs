//! The subcommands of two men's tables.

use std::ffi::{OsStr, OsString};
use std::io::Write;
use std::time::Instant;

use crate::commands::{refused_text, Out};
use crate::counts::{greatest_text, write_counts, Checksum};
use crate::ending::Ending;
use crate::failure::{usage, Done, Failure};
use crate::four_back;
use crate::four_counts::{filled, SmallTables, Tally};
use crate::four_fill::FillOfTwo;
use crate::four_number::NUMBERS_OF_TWO;
use crate::four_steps::{start, step, Progress};
use crate::steps::Step;

pub fn ending_named(word: &OsStr) -> Result<Ending, Failure> {
    let found = word.to_str().and_then(Ending::named);
    found.map_or_else(|| usage(format!("no ending {word:?}: give KQRK, KQKR and so on")), Ok)
}

/// The endings named, or all twenty where none is.
fn endings_named(words: &[OsString]) -> Result<Vec<Ending>, Failure> {
    if words.is_empty() {
        return Ok(Ending::all().collect());
    }
    words.iter().map(|word| ending_named(word)).collect()
}

fn one_ending(name: &str, rest: &[OsString]) -> Result<Ending, Failure> {
    match rest {
        [word] => ending_named(word),
        _ => usage(format!("{name} takes one ending: oracle {name} KQKR")),
    }
}

/// `four-table ENDING`: the true table, 3,784,704 raw bytes.
pub fn table(rest: &[OsString], output: &mut Out) -> Done {
    let ending = one_ending("four-table", rest)?;
    let (greatest, large) = filled(ending, &SmallTables::new(), four_back::fill);
    match greatest {
        Ok(_) => Ok(output.write_all(&large)?),
        Err(refused) => usage(refused_text(refused)),
    }
}

/// An ending's part of `counts`.
pub fn counts(ending: Ending, output: &mut Out) -> Done {
    let (greatest, large) = filled(ending, &SmallTables::new(), four_back::fill);
    Ok(write_counts(output, &ending.name(), &greatest, &large)?)
}

/// `four-sums [ENDING ...]`: one line an ending.
pub fn sums(rest: &[OsString], output: &mut Out) -> Done {
    let small = SmallTables::new();
    for ending in endings_named(rest)? {
        let (greatest, large) = filled(ending, &small, four_back::fill);
        let Tally { wins, draws, losses, .. } = Tally::of(&large);
        let (name, greatest) = (ending.name(), greatest_text(&greatest));
        let sum = Checksum::of(&large);
        writeln!(
            output,
            "{name} {greatest} wins {wins} draws {draws} losses {losses} checksum {sum}"
        )?;
        output.flush()?;
    }
    Ok(())
}

/// `four-fill-every ENDING` and `four-fill-back ENDING`: the time of one fill, over bytes that it
/// must clear itself.
pub fn timed(name: &str, fill: FillOfTwo, rest: &[OsString], output: &mut Out) -> Done {
    let ending = one_ending(name, rest)?;
    let small = SmallTables::new();
    let mut large = vec![165; NUMBERS_OF_TWO];
    let begun = Instant::now();
    let greatest = fill(ending.codes(), ending.one_each, &mut large, small.bytes(ending));
    let seconds = begun.elapsed().as_secs_f64();
    let (greatest, sum) = (greatest_text(&greatest), Checksum::of(&large));
    writeln!(output, "{name} {}, {greatest}, checksum {sum}", ending.name())?;
    writeln!(output, "{seconds:.3} s")?;
    Ok(())
}

/// `four-steps ENDING`: each step's answer, and the table's checksum after it.
pub fn steps(rest: &[OsString], output: &mut Out) -> Done {
    let ending = one_ending("four-steps", rest)?;
    let (codes, one_each) = (ending.codes(), ending.one_each);
    let small = SmallTables::new();
    let mut large = vec![0; NUMBERS_OF_TWO];
    let mut progress = match start(codes, one_each, &mut large) {
        Ok(progress) => progress,
        Err(refused) => return Ok(writeln!(output, "{}", refused_text(refused))?),
    };
    writeln!(output, "{}\nstart checksum {}", ending.name(), Checksum::of(&large))?;
    while let Progress::Next(depth, _) = progress {
        let (answer, next) = step(codes, one_each, &mut large, small.bytes(ending), progress);
        let said = match answer {
            Ok(Step::Settled(count)) => format!("settled {count}"),
            Ok(Step::Done(greatest)) => format!("done, {}", greatest_text(&Ok(greatest))),
            Err(refused) => refused_text(refused),
        };
        writeln!(output, "step {depth} {said} checksum {}", Checksum::of(&large))?;
        output.flush()?;
        progress = next;
    }
    Ok(())
}
