//! Compares the library and the oracle with Gaviota's tables and with document 000.
//!
//! usage: published GAVIOTA-FOLDER OUTPUT-FOLDER

mod depths;
mod judged;
mod positions;
mod tables;

use std::fs;
use std::path::Path;
use std::process::ExitCode;

use gaviota::Gaviota;
use second::fill_every;
use sledgewren::{Checked, Man, Side, Table};

use judged::Judges;

/// Comparisons made, and differences found.
#[derive(Default)]
struct Sum {
    legal: u64,
    compared: u64,
    differ: u64,
}

impl Sum {
    fn add(&mut self, compared: u64, differ: u64) {
        self.compared += compared;
        self.differ += differ;
    }
}

/// An ending's table by the library and by the oracle.
struct Ending {
    man: Man,
    library: Table,
    oracle: Vec<u8>,
}

fn ending(man: Man) -> Result<Ending, String> {
    let library = Table::filled(man).map_err(|refusal| format!("{man}: {refusal}"))?;
    let mut oracle = vec![0; library.bytes().len()];
    let filled = fill_every::fill(man.code(), &mut oracle);
    filled.map_err(|refused| format!("{man}: the oracle's fill: {refused:?}"))?;
    Ok(Ending { man, library, oracle })
}

/// Every position against Gaviota, and the greatest depths against document 000.
fn compare_positions(gaviota: &Gaviota, endings: &[Ending], sum: &mut Sum) {
    print!("| Ending | Man's side | To move | Legal | Illegal | Library differs | Oracle differs ");
    println!("| Greatest, plies | Moves | Document 000 |");
    println!("|---|---|---|---|---|---|---|---|---|---|");
    for ending in endings {
        for colour in Side::ALL {
            for side in Side::ALL {
                compare_side(gaviota, ending, colour, side, sum);
            }
        }
    }
}

/// One row: an ending, the man's colour and the side to move.
fn compare_side(gaviota: &Gaviota, ending: &Ending, colour: Side, side: Side, sum: &mut Sum) {
    let Ending { man, library, oracle } = ending;
    let tally = positions::compare(&Judges { gaviota, library, oracle }, *man, colour, side);
    sum.add(tally.compared(), tally.differ());
    sum.legal += tally.legal;
    // The table's half and document 000's row are those of the position with White's man.
    let half = if colour == Side::White { side } else { side.other() };
    let ours = [depths::greatest(library.bytes(), half), depths::greatest(oracle, half)];
    let printed = depths::printed(*man, half);
    let depths = [ours[0], ours[1], tally.deepest].map(depths::moves);
    sum.add(3, depths.iter().filter(|&&depth| depth != printed).count() as u64);
    println!(
        "| {man} | {colour} | {side} | {} | {} | {} | {} | {} | {} | {} |",
        tally.legal,
        tally.illegal,
        tally.library_differs,
        tally.oracle_differs,
        depths::text(tally.deepest),
        depths::text(depths::moves(tally.deepest)),
        depths::text(printed),
    );
}

/// Gaviota's depths as a table, judged by the library's checker and held to both fills.
fn judge_table(
    gaviota: &Gaviota,
    ending: &Ending,
    folder: &Path,
    sum: &mut Sum,
) -> Result<(), String> {
    let Ending { man, library, oracle } = ending;
    let table = tables::from_gaviota(gaviota, *man)?;
    let path = folder.join(format!("{man}.table"));
    fs::write(&path, table.bytes()).map_err(|error| format!("{}: {error}", path.display()))?;
    let checked = table.check(*man);
    let verdict = match checked {
        Checked::Accepted => "accepted".to_string(),
        Checked::Wrong(number) => format!("wrong at {number}"),
    };
    let unlike = [library.bytes(), &oracle[..]].map(|ours| tables::unlike(table.bytes(), ours));
    println!("| {man} | {verdict} | {} | {} |", unlike[0], unlike[1]);
    sum.add(1, (checked != Checked::Accepted) as u64);
    sum.add(2 * table.bytes().len() as u64, unlike[0] + unlike[1]);
    Ok(())
}

fn compare(tables: &str, output: &str) -> Result<Sum, String> {
    let gaviota = Gaviota::open(tables)?;
    let endings: Result<Vec<Ending>, String> = Man::ALL.into_iter().map(ending).collect();
    let (endings, mut sum) = (endings?, Sum::default());
    println!("Every placement of two kings and one man, against Gaviota\n");
    compare_positions(&gaviota, &endings, &mut sum);
    println!("\nTables written from Gaviota's depths to {output}, judged by sledgewren_check\n");
    println!("| Ending | Verdict | Bytes unlike the library's | Unlike the oracle's |");
    println!("|---|---|---|---|");
    for ending in &endings {
        judge_table(&gaviota, ending, Path::new(output), &mut sum)?;
    }
    Ok(sum)
}

fn main() -> ExitCode {
    let words: Vec<String> = std::env::args().skip(1).collect();
    let [tables, output] = &words[..] else {
        eprintln!("usage: published GAVIOTA-FOLDER OUTPUT-FOLDER");
        return ExitCode::from(2);
    };
    match compare(tables, output) {
        Ok(Sum { legal, compared, differ }) => {
            println!("\n{legal} legal positions");
            println!("{compared} compared, {differ} differ");
            ExitCode::from((differ > 0) as u8)
        }
        Err(message) => {
            eprintln!("published: {message}");
            ExitCode::from(2)
        }
    }
}
