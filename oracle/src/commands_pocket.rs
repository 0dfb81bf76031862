//! The subcommands of the pocket edition.

use std::ffi::OsString;
use std::io::{self, Write};

use crate::commands::{men_named, read_file, refused_text, true_table, Out};
use crate::counts::Checksum;
use crate::failure::{usage, Done, Failure};
use crate::lines::for_each_keyed;
use crate::number::NUMBERS;
use crate::pocket::{look_up, pack, tallies, POCKET_BYTES};
use crate::position::Refused;

fn packed(table: &[u8]) -> Result<Vec<u8>, Failure> {
    let mut pocket = vec![0; POCKET_BYTES];
    match pack(table, &mut pocket) {
        Ok(()) => Ok(pocket),
        Err(refused) => usage(refused_text(refused)),
    }
}

/// `pack FILE`: the pocket of a table file, whatever its bytes.
pub fn pack_file(rest: &[OsString], output: &mut Out) -> Done {
    let [path] = rest else {
        return usage("pack takes a table file: oracle pack FILE");
    };
    Ok(output.write_all(&packed(&read_file(path, NUMBERS)?)?)?)
}

/// `pocket FILE`: pocket look-up of each line on standard input.
pub fn pocket_lines(rest: &[OsString], output: &mut Out) -> Done {
    let [path] = rest else {
        return usage("pocket takes a pocket file: oracle pocket FILE");
    };
    let pocket = read_file(path, POCKET_BYTES)?;
    for_each_keyed(io::stdin().lock(), output, |keyed, output| match look_up(&pocket, keyed) {
        Ok(answer) => writeln!(output, "{}", answer.name()),
        Err(refused) => writeln!(output, "{}", refused_text(refused)),
    })
}

fn write_tallies(output: &mut Out, found: Result<[u32; 4], Refused>) -> io::Result<()> {
    match found {
        Ok([none, draws, wins, losses]) => {
            writeln!(output, "unused or illegal {none}\ndraw {draws}\nwin {wins}\nloss {losses}")
        }
        Err(refused) => writeln!(output, "{}", refused_text(refused)),
    }
}

/// `tallies [MAN ...]`: of each true table, packed, and the pocket's checksum.
pub fn true_tallies(rest: &[OsString], output: &mut Out) -> Done {
    for man in men_named(rest)? {
        let pocket = packed(&true_table(man).1)?;
        writeln!(output, "{}", man.name())?;
        write_tallies(output, tallies(&pocket))?;
        writeln!(output, "checksum {}", Checksum::of(&pocket))?;
    }
    Ok(())
}

/// `tallies-of FILE`: of a pocket file, whatever its bytes.
pub fn tallies_of(rest: &[OsString], output: &mut Out) -> Done {
    let [path] = rest else {
        return usage("tallies-of takes a pocket file: oracle tallies-of FILE");
    };
    Ok(write_tallies(output, tallies(&read_file(path, POCKET_BYTES)?))?)
}
