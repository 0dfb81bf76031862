//! `fill`, `check`, `pack`, `tally` and `set`: table files made and judged.

use std::io::Write;

use sledgewren::entry::{self, Lent};
use sledgewren::{Accepted, Checked, Choice, Ending, FourMen, FourTables, KingAndPawn, Man};
use sledgewren::{NotAcceptedLarge, Pocket, Position, Set, Table};
use sledgewren::{LARGE_TABLE_BYTES, PAWN_TABLE_BYTES, POCKET_BYTES, TABLE_BYTES};

use crate::failure::{Done, Failure};
use crate::files;
use crate::progress::{self, Fill};
use crate::words::{ending, flag, man, plain};

/// So many words and no options.
fn exactly<const N: usize>(words: &[String], wanted: &str) -> Result<[String; N], Failure> {
    let words = plain(words)?;
    words.try_into().map_err(|_| Failure::Usage(format!("give {wanted}")))
}

/// A table that was just filled is judged too before it is written: nothing wrong gets a name.
fn judged(man: Man, table: &[u8]) -> Done {
    match entry::check(man, Lent::NONE, table)? {
        Checked::Accepted => Ok(()),
        Checked::Wrong(number) => Err(Failure::Refused(wrong(man, number))),
    }
}

fn wrong(man: Man, number: u32) -> String {
    let place = Position::from_number(man, number)
        .map_or("which no position has".to_string(), |position| format!("{position}"));
    format!("not the {man}'s table: the lowest wrong number is {number}, {place}")
}

/// A table of two men over those of one, filled with its progress shown and then judged; and the
/// words for the end.
pub fn filled_two<'a>(
    ending: Ending,
    first: &'a Accepted,
    second: &'a Accepted,
    fill: Fill,
) -> Result<(FourMen<'a>, String), Failure> {
    let mut bytes = vec![0; LARGE_TABLE_BYTES].into_boxed_slice();
    let lent = Lent { first: first.table().bytes(), second: second.table().bytes() };
    let end = fill(ending, lent, &mut bytes)?;
    match FourMen::accept(ending, first, second, bytes) {
        Ok(four) => Ok((four, end)),
        Err(not) => Err(Failure::Refused(format!("{ending}: {not}"))),
    }
}

/// A file's bytes as the table of an ending with two men.
pub fn accepted_two<'a>(
    ending: Ending,
    first: &'a Accepted,
    second: &'a Accepted,
    path: &str,
) -> Result<FourMen<'a>, Failure> {
    FourMen::accept(ending, first, second, long(ending, path)?)
        .map_err(|not| not_accepted(ending, path, not))
}

/// King and pawn's table over those of the four pieces, filled with its progress shown and then
/// judged; and the words for the end.
pub fn filled_pawn(four: &FourTables, fill: Fill) -> Result<(KingAndPawn<'_>, String), Failure> {
    let mut bytes = vec![0; PAWN_TABLE_BYTES].into_boxed_slice();
    let end = fill(Ending::PAWN, four.lent(), &mut bytes)?;
    match KingAndPawn::accept(four, bytes) {
        Ok(table) => Ok((table, end)),
        Err(not) => Err(Failure::Refused(format!("{}: {not}", Ending::PAWN))),
    }
}

/// A file's bytes as king and pawn's table.
pub fn accepted_pawn<'a>(four: &'a FourTables, path: &str) -> Result<KingAndPawn<'a>, Failure> {
    KingAndPawn::accept(four, long(Ending::PAWN, path)?)
        .map_err(|not| not_accepted(Ending::PAWN, path, not))
}

/// The bytes of a file that is as long as the ending's table.
fn long(ending: Ending, path: &str) -> Result<Box<[u8]>, Failure> {
    let bytes = files::read(path)?;
    if bytes.len() != ending.table_bytes() {
        let known = format!("a table of {ending} has {}", ending.table_bytes());
        return Err(Failure::Refused(format!("{}; {known}", length(path, &bytes))));
    }
    Ok(bytes.into())
}

fn not_accepted(ending: Ending, path: &str, not: NotAcceptedLarge) -> Failure {
    match not.why {
        Ok(number) => {
            let words = format!("not the table of {ending}: the lowest wrong number is {number}");
            Failure::Refused(format!("{path}: {words}"))
        }
        Err(refusal) => refusal.into(),
    }
}

/// What an ending's table is made of or judged by: its one piece, the tables of its two, or a
/// pawn's four.
enum Ground {
    One(Man),
    Two([Accepted; 2]),
    Pawn(FourTables),
}

fn ground(ending: Ending) -> Result<Ground, Failure> {
    Ok(match (ending.first(), ending.second()) {
        (Some(man), None) => Ground::One(man),
        (Some(first), Some(second)) => {
            Ground::Two([Accepted::filled(first)?, Accepted::filled(second)?])
        }
        (None, _) => Ground::Pawn(FourTables::filled()?),
    })
}

pub fn fill(words: &[String], out: &mut dyn Write) -> Done {
    let (steps, words) = flag(words, "steps");
    let [name, path] = exactly(&words, "an ending and a file")?;
    let ending = ending(&name)?;
    let fill: Fill = if steps { progress::in_steps } else { progress::at_once };
    let end = match ground(ending)? {
        Ground::Two([first, second]) => {
            let (four, end) = filled_two(ending, &first, &second, fill)?;
            files::replace(&path, four.bytes())?;
            end
        }
        Ground::Pawn(four) => {
            let (table, end) = filled_pawn(&four, fill)?;
            files::replace(&path, table.bytes())?;
            end
        }
        Ground::One(man) => {
            let mut table = vec![0; TABLE_BYTES];
            let end = fill(ending, Lent::NONE, &mut table)?;
            judged(man, &table)?;
            files::replace(&path, &table)?;
            end
        }
    };
    Ok(writeln!(out, "{end}; {path}: {} bytes, accepted", ending.table_bytes())?)
}

/// `x.table has 12 bytes`.
fn length(path: &str, bytes: &[u8]) -> String {
    let most = LARGE_TABLE_BYTES;
    if bytes.len() > most {
        format!("{path} has more than {most} bytes")
    } else {
        format!("{path} has {} bytes", bytes.len())
    }
}

/// The ending's table in a file: the file itself, or its part of a set.
fn table_in(man: Man, path: &str) -> Result<Table, Failure> {
    let bytes = files::read(path)?;
    if bytes.len() == TABLE_BYTES {
        return Ok(Table::from_bytes(&bytes)?);
    }
    match Set::from_bytes(&bytes[..]) {
        Ok(set) => Ok(Table::from_bytes(set.table(man)?)?),
        Err(_) => {
            let words = length(path, &bytes);
            let known = format!("a table has {TABLE_BYTES}, and it is no right set of tables");
            Err(Failure::Refused(format!("{words}; {known}")))
        }
    }
}

pub fn accepted(man: Man, path: &str) -> Result<Accepted, Failure> {
    table_in(man, path)?
        .accept(man)
        .map_err(|not| Failure::Refused(format!("{path}: {}", wrong(man, not.number))))
}

pub fn check(words: &[String], out: &mut dyn Write) -> Done {
    let [name, path] = exactly(words, "an ending and a file")?;
    let ending = ending(&name)?;
    match ground(ending)? {
        Ground::Two([first, second]) => {
            accepted_two(ending, &first, &second, &path)?;
        }
        Ground::Pawn(four) => {
            accepted_pawn(&four, &path)?;
        }
        Ground::One(man) => {
            accepted(man, &path)?;
            return Ok(writeln!(out, "{path}: accepted, the {man}'s true table")?);
        }
    }
    Ok(writeln!(out, "{path}: accepted, the true table of {ending}")?)
}

pub fn pack(words: &[String], out: &mut dyn Write) -> Done {
    let [name, path, to] = exactly(words, "a man, a table's file and the pocket's")?;
    let man = man(&name)?;
    let pocket = Pocket::packed(&accepted(man, &path)?);
    files::replace(&to, &pocket.bytes()[..])?;
    Ok(writeln!(out, "{to}: {POCKET_BYTES} bytes, the {man}'s pocket")?)
}

pub fn tally(words: &[String], out: &mut dyn Write) -> Done {
    let [path] = exactly(words, "a pocket's file or a table's")?;
    let bytes = files::read(&path)?;
    let pocket = match bytes.len() {
        TABLE_BYTES => Pocket::of_table(&Table::from_bytes(&bytes)?),
        POCKET_BYTES => Pocket::from_bytes(&bytes)?,
        _ => {
            let known = format!("a pocket has {POCKET_BYTES} and a table {TABLE_BYTES}");
            return Err(Failure::Refused(format!("{}; {known}", length(&path, &bytes))));
        }
    };
    let tallies = pocket.tallies();
    writeln!(out, "won     {:5}", tallies.wins)?;
    writeln!(out, "drawn   {:5}", tallies.draws)?;
    writeln!(out, "lost    {:5}", tallies.losses)?;
    Ok(writeln!(out, "neither {:5}", tallies.none)?)
}

pub fn set(words: &[String], out: &mut dyn Write) -> Done {
    let words = plain(words)?;
    let Some((path, names)) = words.split_first() else {
        return Err(Failure::Usage("give a file, and the men if not all four".into()));
    };
    let men: Result<Vec<Man>, Failure> = names.iter().map(|name| man(name)).collect();
    let men = men?;
    let choice = if men.is_empty() { Choice::ALL } else { men.into_iter().collect() };
    let mut bytes = vec![0; choice.set_bytes()];
    entry::set_start(choice, &mut bytes)?;
    let mut ends = Vec::new();
    for man in choice.men() {
        let place = entry::set_find(&bytes, man)?;
        ends.push(progress::at_once(man.into(), Lent::NONE, &mut bytes[place.clone()])?);
        judged(man, &bytes[place])?;
    }
    files::replace(path, &bytes)?;
    for end in ends {
        writeln!(out, "{end}")?;
    }
    Ok(writeln!(out, "{path}: {} bytes, {} endings, accepted", bytes.len(), choice.men().count())?)
}
