//! The subcommands that answer lines with one man or two.

use std::ffi::OsString;
use std::io::{self, Write};

use crate::commands::{read_file, refused_text, Out};
use crate::commands_four::ending_named;
use crate::desk::answer_text;
use crate::failure::{usage, Done, Failure};
use crate::four_number::{back, number, NUMBERS_OF_TWO};
use crate::four_samples;
use crate::four_table::{check, look_up};
use crate::laws::{legal, legal_placement, moves};
use crate::lines::{for_each_keyed, for_each_numbers};
use crate::number::NUMBERS;
use crate::pawn_number;
use crate::pawn_position::Placed;
use crate::pawn_rules::{self, pawn_move_name};
use crate::placement::{Limit, Placement};
use crate::position::{Keyed, Refused};
use crate::rules::move_name;
use crate::table::Checked;

/// What a line may key.
#[derive(Clone, Copy)]
enum Takes {
    Men(Limit),
    /// Up to two men, or a lone pawn: all that the host's library takes.
    PawnToo,
}

impl Takes {
    fn named(command: &str, rest: &[OsString]) -> Result<Takes, Failure> {
        match rest {
            [] => Ok(Takes::Men(Limit::OneMan)),
            [word] if word == "two" => Ok(Takes::Men(Limit::TwoMen)),
            [word] if word == "pawn" => Ok(Takes::PawnToo),
            _ => usage(format!("{command} takes no argument but `two` or `pawn`")),
        }
    }

    fn placed(self, keyed: &Keyed) -> Result<Placed, Refused> {
        match self {
            Takes::Men(limit) => keyed.placement(limit).map(Placed::Men),
            Takes::PawnToo => keyed.any_placed(),
        }
    }
}

/// The names of all legal moves: refusals 1 to 6, and 18 of a pawn.
fn move_names(keyed: &Keyed, takes: Takes) -> Result<Vec<String>, Refused> {
    match takes.placed(keyed)? {
        Placed::Men(placement) if legal(&placement) => {
            Ok(moves(&placement).as_slice().iter().map(|&chosen| move_name(chosen)).collect())
        }
        Placed::Pawn(position) if pawn_rules::legal(&position) => {
            Ok(pawn_rules::moves(&position).into_iter().map(pawn_move_name).collect())
        }
        _ => Err(Refused(6)),
    }
}

fn moves_text(keyed: &Keyed, takes: Takes) -> String {
    match move_names(keyed, takes) {
        Ok(names) => names.iter().fold(names.len().to_string(), |text, name| text + " " + name),
        Err(refused) => refused_text(refused),
    }
}

/// `moves [two | pawn]`: the count and the legal moves of each line.
pub fn list_moves(rest: &[OsString], output: &mut Out) -> Done {
    let takes = Takes::named("moves", rest)?;
    for_each_keyed(io::stdin().lock(), output, |keyed, output| {
        writeln!(output, "{}", moves_text(keyed, takes))
    })
}

fn number_text(keyed: &Keyed, takes: Takes) -> String {
    let found = match takes {
        Takes::Men(limit) => number(keyed, limit),
        Takes::PawnToo => keyed.any_placed().and_then(|placed| match placed {
            Placed::Men(_) => number(keyed, Limit::TwoMen),
            Placed::Pawn(position) => Ok(pawn_number::number_of(&position)),
        }),
    };
    found.map_or_else(refused_text, |number| format!("number {number}"))
}

/// `number [two | pawn]`: the number of each line.
pub fn number_lines(rest: &[OsString], output: &mut Out) -> Done {
    let takes = Takes::named("number", rest)?;
    for_each_keyed(io::stdin().lock(), output, |keyed, output| {
        writeln!(output, "{}", number_text(keyed, takes))
    })
}

fn back_text(codes: [u8; 2], one_each: bool, number: u64) -> String {
    match back(codes, one_each, number) {
        Ok(Placement { side, kings: [white, black], men }) => {
            let [first, second] = men.map(|man| man.map_or(64, |man| man.square));
            format!("{} {white} {black} {first} {second}", side.code())
        }
        Err(refused) => refused_text(refused),
    }
}

/// `four-back`: lines of two codes, 0 for both White's or 1 for one each, and a number.
pub fn back_lines(rest: &[OsString], output: &mut Out) -> Done {
    if !rest.is_empty() {
        return usage("four-back takes no arguments");
    }
    let wanted = "man man oneeach number (men from 0 to 255, oneeach 0 or 1)";
    for_each_numbers(io::stdin().lock(), output, wanted, |line: [u64; 4], output| {
        let [first, second, one_each, number] = line;
        let codes = [u8::try_from(first).ok()?, u8::try_from(second).ok()?];
        let one_each = [false, true].get(usize::try_from(one_each).ok()?).copied()?;
        Some(writeln!(output, "{}", back_text(codes, one_each, number)).map_err(Failure::from))
    })
}

/// `four-check ENDING FILE SMALL SMALL`: the large table beside the lent ones.
pub fn check_file(rest: &[OsString], output: &mut Out) -> Done {
    let [ending, large, first, second] = rest else {
        return usage("four-check takes an ending, its table and two small ones");
    };
    let ending = ending_named(ending)?;
    let large = read_file(large, NUMBERS_OF_TWO)?;
    let small = [read_file(first, NUMBERS)?, read_file(second, NUMBERS)?];
    let small = [&small[0][..], &small[1][..]];
    match check(ending.codes(), ending.one_each, &large, small) {
        Ok(Checked::Accepted) => writeln!(output, "accepted")?,
        Ok(Checked::Wrong(number)) => writeln!(output, "wrong {number}")?,
        Err(refused) => writeln!(output, "{}", refused_text(refused))?,
    }
    Ok(())
}

/// `four-lookup FILE SMALL SMALL`: each line looked up in those files as they are.
pub fn look_up_lines(rest: &[OsString], output: &mut Out) -> Done {
    let [large, first, second] = rest else {
        return usage("four-lookup takes a large table and two small ones");
    };
    let large = read_file(large, NUMBERS_OF_TWO)?;
    let small = [read_file(first, NUMBERS)?, read_file(second, NUMBERS)?];
    let small = [&small[0][..], &small[1][..]];
    for_each_keyed(io::stdin().lock(), output, |keyed, output| {
        writeln!(output, "{}", answer_text(&look_up(&large, small, keyed)))
    })
}

/// `four-positions`: the test program's input lines.
pub fn sample_lines(output: &mut Out) -> Done {
    for keyed in four_samples::positions() {
        writeln!(output, "{}", four_samples::line(&keyed))?;
    }
    Ok(())
}

/// The number, the count of moves, the first and the last.
fn case_text(keyed: &Keyed) -> String {
    let numbered = match number(keyed, Limit::TwoMen) {
        Ok(number) => number,
        Err(refused) => return refused_text(refused),
    };
    let placement = match legal_placement(keyed, Limit::TwoMen) {
        Ok(placement) => placement,
        Err(refused) => return format!("number {numbered} {}", refused_text(refused)),
    };
    let list = moves(&placement);
    let list = list.as_slice();
    let ends: Vec<String> =
        list.first().into_iter().chain(list.last()).map(|&chosen| move_name(chosen)).collect();
    let text = format!("number {numbered} moves {} {}", list.len(), ends.join(" "));
    text.trim_end().to_string()
}

/// `four-cases`: each line on standard input with its number, count of moves, first and last move.
pub fn case_lines(output: &mut Out) -> Done {
    for_each_keyed(io::stdin().lock(), output, |keyed, output| {
        writeln!(output, "{}", case_text(keyed))
    })
}
