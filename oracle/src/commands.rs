//! The command line: one function a subcommand.

use std::ffi::{OsStr, OsString};
use std::fs::File;
use std::io::{self, BufWriter, Read, StdoutLock, Write};
use std::time::Instant;

use crate::cases;
use crate::check_digits::write_typed;
use crate::counts::{greatest_text, write_counts, write_numbering, Checksum};
use crate::desk;
use crate::ending::Ending;
use crate::failure::{usage, Done, Failure};
use crate::fill::Filled;
use crate::lines::{for_each_keyed, for_each_numbers};
use crate::number::{back, NUMBERS};
use crate::position::{Man, Position, Refused, MEN};
use crate::samples::{self, Line};
use crate::table::{check, look_up, Checked};
use crate::{
    commands_four, commands_four_lines, commands_pawn, commands_pocket, commands_search,
    commands_set, commands_steps,
};
use crate::{fill_back, fill_every, four_back, four_every};
use crate::{selftest, selftest_four, selftest_pawn};

pub const USAGE: &str = "\
usage: oracle SUBCOMMAND [ARGUMENTS]     (MAN is Q, R, B or N; ENDING KQRK, KQKR and so on)

  table MAN               write the 59,136 bytes of the true table
  counts [MAN|ENDING ...] counts of each table's bytes, and its checksum
  moves [two | pawn]      list the legal moves of each line on standard input
  positions [both]        write input lines for moves
  numbers                 go over all numbers and back, with checksums
  number [two | pawn]     number each line on standard input
  back                    read `man number` lines, write side and squares
  typed                   write each number on standard input with its check digits
  check MAN FILE          check a table: accepted, wrong N or refused N
  lookup FILE             look up each line on standard input in a table
  pack FILE               write the pocket of a table, 14,784 bytes
  pocket FILE             look up each line on standard input in a pocket
  tallies [MAN ...]       the four tallies of each true pocket, and its checksum
  tallies-of FILE         the four tallies of a pocket
  set CODES               write the set of the endings chosen (`03`; `-` for none)
  set-find CODE FILE      where a set holds an ending: offset and length
  set-sums [CODES ...]    for each choice the set's checksum and what reading gives
  search K                search each line on standard input K plies deep
  search-positions [both] write the search's sample of input lines
  search-cases [both]     answer the sample for every K up to 7
  desk                    the desk program, on standard input
  run                     write the input of the example run
  bench-positions         answer the positions to keep by the bench
  steps [MAN ...]         fill in steps: each step's answer and checksum
  fill-every MAN [REPEAT] time the fill of every position at every depth
  fill-back MAN [REPEAT]  time the fill that works back from the mates
  selftest                hold the program to outside truth
  four-table ENDING       write the 3,784,704 bytes of two men's true table
  four-sums [ENDING ...]  greatest depth, counts and checksum of each table
  four-steps ENDING       fill in steps: each step's answer and checksum
  four-fill-every ENDING  time the fill of every position at every depth
  four-fill-back ENDING   time the fill that works back
  four-back               read `man man oneeach number` lines, write side and squares
  four-check ENDING FILE SMALL SMALL
                          check a table beside the first man's and the second's
  four-lookup FILE SMALL SMALL
                          look up each line with one man or two
  four-positions          write the test program's input lines
  four-cases              number, count of moves, first and last move of each line
  selftest-four           hold two men's part to outside truth
  pawn-table              write the 196,608 bytes of the pawn's true table
  pawn-counts             counts of its bytes, and its checksum
  pawn-sums               the same in one line
  pawn-numbers            go over all numbers and back, with checksums
  pawn-steps              fill in steps: each step's answer and checksum
  pawn-back               read numbers, write side and squares
  pawn-check FILE Q R B N check a table beside the four lent ones
  pawn-lookup FILE Q R B N
                          look up each line with a lone pawn or one man
  pawn-slips              the same in the true tables
  pawn-positions          write the test program's input lines
  pawn-cases              number, moves and slip of each line
  selftest-pawn           hold the pawn's part to outside truth
  --help                  write this text

Lines for moves, number, lookup, pocket and search hold five decimal numbers
from 0 to 255: man side whiteking mansquare blackking (queen 0, rook 1, bishop 2, knight 3;
White 0, Black 1; square = 8 x rank + file, a1 = 0, h8 = 63). A sixth is the man's colour,
White's if it is left out; three more key a second man: man colour mansquare, refused 1 but
where `two` or `pawn` is said or the subcommand is one of two men. A lone pawn is man 4,
refused 1 but where `pawn` is said or the subcommand is one of the pawn's. Samples are of
White's man, or with `both` of both colours, the colour written.
Exit status: 0 done, 1 failed self test or stream, 2 bad usage or malformed line.
";

/// Standard output, as the subcommands write to it.
pub type Out<'a> = BufWriter<StdoutLock<'a>>;

pub fn run(arguments: &[OsString]) -> Done {
    let Some((first, rest)) = arguments.split_first() else {
        return usage(format!("no subcommand given\n{USAGE}"));
    };
    let output = &mut BufWriter::new(io::stdout().lock());
    dispatch(&first.to_string_lossy(), rest, output)?;
    output.flush()?;
    Ok(())
}

fn dispatch(name: &str, rest: &[OsString], output: &mut Out) -> Done {
    match name {
        "table" => table(rest, output),
        "counts" => counts(rest, output),
        "fill-every" => timed("fill-every", fill_every::fill, rest, output),
        "fill-back" => timed("fill-back", fill_back::fill, rest, output),
        "check" => check_file(rest, output),
        "lookup" => lookup(rest, output),
        "pack" => commands_pocket::pack_file(rest, output),
        "pocket" => commands_pocket::pocket_lines(rest, output),
        "tallies" => commands_pocket::true_tallies(rest, output),
        "tallies-of" => commands_pocket::tallies_of(rest, output),
        "positions" => positions(rest, output),
        "search" => commands_search::search_lines(rest, output),
        "search-positions" => commands_search::sample_lines(rest, output),
        "search-cases" => commands_search::sample_answers(rest, output),
        "set" => commands_set::write_file(rest, output),
        "set-find" => commands_set::find_in_file(rest, output),
        "set-sums" => commands_set::sums(rest, output),
        "steps" => commands_steps::steps(rest, output),
        _ => dispatch_four(name, rest, output),
    }
}

/// The subcommands of two men and of the pawn.
fn dispatch_four(name: &str, rest: &[OsString], output: &mut Out) -> Done {
    match name {
        "moves" => commands_four_lines::list_moves(rest, output),
        "number" => commands_four_lines::number_lines(rest, output),
        "four-back" => commands_four_lines::back_lines(rest, output),
        "four-check" => commands_four_lines::check_file(rest, output),
        "four-lookup" => commands_four_lines::look_up_lines(rest, output),
        "four-table" => commands_four::table(rest, output),
        "four-sums" => commands_four::sums(rest, output),
        "four-steps" => commands_four::steps(rest, output),
        "four-fill-every" => commands_four::timed(name, four_every::fill, rest, output),
        "four-fill-back" => commands_four::timed(name, four_back::fill, rest, output),
        "pawn-check" => commands_pawn::check_file(rest, output),
        "pawn-lookup" => commands_pawn::look_up_lines(rest, output),
        _ => without_arguments(name, rest, output),
    }
}

fn without_arguments(name: &str, rest: &[OsString], output: &mut Out) -> Done {
    let command: fn(&mut Out) -> Done = match name {
        "numbers" => numbers,
        "four-positions" => commands_four_lines::sample_lines,
        "four-cases" => commands_four_lines::case_lines,
        "pawn-table" => commands_pawn::table,
        "pawn-counts" => commands_pawn::counts,
        "pawn-sums" => commands_pawn::sums,
        "pawn-numbers" => commands_pawn::numbers,
        "pawn-steps" => commands_pawn::steps,
        "pawn-back" => commands_pawn::back_lines,
        "pawn-slips" => commands_pawn::slips,
        "pawn-positions" => commands_pawn::sample_lines,
        "pawn-cases" => commands_pawn::case_lines,
        "back" => back_lines,
        "typed" => typed_lines,
        "desk" => |output| desk::run(io::stdin().lock(), output),
        "run" => |output| Ok(output.write_all(cases::RUN_INPUT.as_bytes())?),
        "bench-positions" => bench_positions,
        "selftest" => |output| selftest::run(output),
        "selftest-four" => |output| selftest_four::run(output),
        "selftest-pawn" => |output| selftest_pawn::run(output),
        "--help" | "-h" | "help" => |output| Ok(output.write_all(USAGE.as_bytes())?),
        _ => return usage(format!("no subcommand `{name}`; see oracle --help")),
    };
    if !rest.is_empty() {
        return usage(format!("{name} takes no arguments; see oracle --help"));
    }
    command(output)
}

fn man_named(word: &OsStr) -> Result<Man, Failure> {
    let found = match word.as_encoded_bytes() {
        &[letter] => Man::from_letter(letter),
        _ => None,
    };
    found.map_or_else(|| usage(format!("no man {word:?}: give Q, R, B or N")), Ok)
}

/// The men named, or all four where none is.
pub fn men_named(words: &[OsString]) -> Result<Vec<Man>, Failure> {
    if words.is_empty() {
        return Ok(MEN.to_vec());
    }
    words.iter().map(|word| man_named(word)).collect()
}

pub fn refused_text(Refused(number): Refused) -> String {
    format!("refused {number}")
}

/// The true table. The plain fill makes it; the self test holds the other one to it.
pub fn true_table(man: Man) -> (Filled, Vec<u8>) {
    let mut bytes = vec![0; NUMBERS];
    let filled = fill_every::fill(man.code(), &mut bytes);
    (filled, bytes)
}

fn table(rest: &[OsString], output: &mut Out) -> Done {
    let [man] = rest else {
        return usage("table takes one man: oracle table Q");
    };
    let (filled, bytes) = true_table(man_named(man)?);
    match filled {
        Ok(_) => Ok(output.write_all(&bytes)?),
        Err(refused) => usage(refused_text(refused)),
    }
}

fn counts_of(man: Man, output: &mut Out) -> Done {
    let (filled, bytes) = true_table(man);
    Ok(write_counts(output, man.name(), &filled, &bytes)?)
}

/// `counts [MAN or ENDING ...]`: the four men's where none is named.
fn counts(rest: &[OsString], output: &mut Out) -> Done {
    if rest.is_empty() {
        return MEN.into_iter().try_for_each(|man| counts_of(man, output));
    }
    for word in rest {
        match word.to_str().and_then(Ending::named) {
            Some(ending) => commands_four::counts(ending, output)?,
            None => counts_of(man_named(word)?, output)?,
        }
    }
    Ok(())
}

/// A sample's men: White's alone, or those of both sides, with the colour at each line's end.
#[derive(Clone, Copy)]
pub enum Colours {
    White,
    Both,
}

impl Colours {
    pub fn named(command: &str, rest: &[OsString]) -> Result<Colours, Failure> {
        match rest {
            [] => Ok(Colours::White),
            [word] if word == "both" => Ok(Colours::Both),
            _ => usage(format!("{command} takes no argument but `both`, for both sides' men")),
        }
    }

    /// A sample line as it is keyed.
    pub fn text(self, line: Line) -> String {
        let [man, side, white_king, square, black_king, colour] = line;
        let white = format!("{man} {side} {white_king} {square} {black_king}");
        match self {
            Colours::White => white,
            Colours::Both => format!("{white} {colour}"),
        }
    }
}

fn positions(rest: &[OsString], output: &mut Out) -> Done {
    let colours = Colours::named("positions", rest)?;
    let lines = match colours {
        Colours::White => samples::white_lines(),
        Colours::Both => samples::lines(),
    };
    for line in lines {
        writeln!(output, "{}", colours.text(line))?;
    }
    Ok(())
}

fn numbers(output: &mut Out) -> Done {
    for man in MEN {
        write_numbering(output, man)?;
    }
    Ok(())
}

fn back_text(man: u8, number: u64) -> String {
    match back(man, number) {
        Ok(position) => {
            let Position { side, white_king, man_square, black_king, .. } = position;
            format!("{} {white_king} {man_square} {black_king}", side.code())
        }
        Err(refused) => refused_text(refused),
    }
}

fn back_lines(output: &mut Out) -> Done {
    let wanted = "man number (man from 0 to 255)";
    for_each_numbers(io::stdin().lock(), output, wanted, |[man, number]: [u64; 2], output| {
        let man = u8::try_from(man).ok()?;
        Some(writeln!(output, "{}", back_text(man, number)).map_err(Failure::from))
    })
}

fn typed_lines(output: &mut Out) -> Done {
    for_each_numbers(io::stdin().lock(), output, "number", |[number]: [u64; 1], output| {
        let text = write_typed(number).unwrap_or_else(refused_text);
        Some(writeln!(output, "{text}").map_err(Failure::from))
    })
}

/// A file's bytes; of one longer than `wanted` one byte too many shows that it is too long.
pub fn read_file(path: &OsStr, wanted: usize) -> Result<Vec<u8>, Failure> {
    let mut bytes = Vec::new();
    let read =
        File::open(path).and_then(|file| file.take(wanted as u64 + 1).read_to_end(&mut bytes));
    match read {
        Ok(_) => Ok(bytes),
        Err(error) => usage(format!("cannot read {path:?}: {error}")),
    }
}

fn check_file(rest: &[OsString], output: &mut Out) -> Done {
    let [man, path] = rest else {
        return usage("check takes a man and a file: oracle check Q FILE");
    };
    let man = man_named(man)?;
    match check(man.code(), &read_file(path, NUMBERS)?) {
        Ok(Checked::Accepted) => writeln!(output, "accepted")?,
        Ok(Checked::Wrong(number)) => writeln!(output, "wrong {number}")?,
        Err(refused) => writeln!(output, "{}", refused_text(refused))?,
    }
    Ok(())
}

fn lookup(rest: &[OsString], output: &mut Out) -> Done {
    let [path] = rest else {
        return usage("lookup takes a file: oracle lookup FILE");
    };
    let bytes = read_file(path, NUMBERS)?;
    for_each_keyed(io::stdin().lock(), output, |keyed, output| {
        writeln!(output, "{}", desk::answer_text(&look_up(&bytes, keyed)))
    })
}

fn bench_positions(output: &mut Out) -> Done {
    for case in &cases::CASES {
        writeln!(output, "{}: {}", case.says, cases::answer(&case.ask))?;
    }
    Ok(())
}

fn repeats(word: Option<&OsString>) -> Result<u32, Failure> {
    let Some(word) = word else { return Ok(1) };
    let count = word.to_str().and_then(|text| text.parse().ok());
    match count {
        Some(count @ 1..=100_000) => Ok(count),
        _ => usage(format!("REPEAT is a number from 1 to 100000, not {word:?}")),
    }
}

/// What a lent table holds before a timed fill: the fill must clear it itself.
const DIRT: u8 = 165;

fn timed(
    name: &str,
    fill: fn(u8, &mut [u8]) -> Filled,
    rest: &[OsString],
    output: &mut Out,
) -> Done {
    let ([man] | [man, _]) = rest else {
        return usage(format!("{name} takes a man and a count: oracle {name} Q 10"));
    };
    let (man, repeat) = (man_named(man)?, repeats(rest.get(1))?);
    let mut bytes = vec![0; NUMBERS];
    let (mut filled, mut milliseconds) = (Ok(None), 0.0);
    for _ in 0..repeat {
        bytes.fill(DIRT);
        let start = Instant::now();
        filled = fill(man.code(), &mut bytes);
        milliseconds += start.elapsed().as_secs_f64() * 1000.0;
    }
    let (greatest, sum) = (greatest_text(&filled), Checksum::of(&bytes));
    let each = milliseconds / repeat as f64;
    writeln!(output, "{name} {}, {greatest}, checksum {sum}", man.name())?;
    writeln!(output, "{each:.3} ms per fill over {repeat}")?;
    writeln!(output, "buffer not cleared beforehand: every byte {DIRT}, cleared within the time")?;
    Ok(())
}
