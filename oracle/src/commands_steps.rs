//! The subcommand that fills in steps.

use std::ffi::OsString;
use std::io::Write;

use crate::commands::{men_named, refused_text, Out};
use crate::counts::{greatest_text, Checksum};
use crate::failure::Done;
use crate::number::NUMBERS;
use crate::position::Man;
use crate::steps::{start, step, Progress, Step};

fn write_steps(output: &mut Out, man: Man) -> Done {
    let mut table = vec![0; NUMBERS];
    let mut progress = match start(man.code(), &mut table) {
        Ok(progress) => progress,
        Err(refused) => return Ok(writeln!(output, "{}", refused_text(refused))?),
    };
    writeln!(output, "{}\nstart checksum {}", man.name(), Checksum::of(&table))?;
    while let Progress::Next(depth) = progress {
        let (answer, next) = step(man.code(), &mut table, progress);
        let said = match answer {
            Ok(Step::Settled(count)) => format!("settled {count}"),
            Ok(Step::Done(greatest)) => format!("done, {}", greatest_text(&Ok(greatest))),
            Err(refused) => refused_text(refused),
        };
        writeln!(output, "step {depth} {said} checksum {}", Checksum::of(&table))?;
        progress = next;
    }
    Ok(())
}

/// `steps [MAN ...]`: each step's answer, and the table's checksum after it.
pub fn steps(rest: &[OsString], output: &mut Out) -> Done {
    men_named(rest)?.into_iter().try_for_each(|man| write_steps(output, man))
}
