//! Measures the library beside the oracle and Gaviota, in one run.
//!
//! usage: bench ORACLE DESK GAVIOTA-FOLDER OUTPUT-FOLDER, with - for what is not there
//!        bench four OUTPUT-FOLDER, for the rows of two men alone
//!        bench back OUTPUT-FOLDER, for those of the quick fill
//!        bench pawn OUTPUT-FOLDER, for those of king and pawn
//!        bench look-up GAVIOTA-FOLDER OUTPUT-FOLDER, for the look-ups of one man
//!
//! It runs itself as `bench count WORK SIDE GAVIOTA-FOLDER OUTPUT-FOLDER` to have instructions counted.

mod back;
mod counts;
mod desk;
mod four;
#[path = "../../hostile/src/lent.rs"]
#[allow(dead_code)]
mod lent;
mod look_ups;
mod moves;
mod pawn;
mod pocket;
mod positions;
mod search;
mod steps;
mod tables;
mod timing;
mod twin;

use std::path::Path;
use std::process::ExitCode;

use sledgewren::{Man, Side};

use look_ups::Ground;
use timing::{print, Row};

/// Quick works are repeated more often than slow ones.
const MANY: usize = 15;
const FEW: usize = 5;

const DECIDED: [Man; 2] = [Man::Queen, Man::Rook];

fn says() {
    println!("Release builds, one process, the library and the other in turn. Times are processor");
    println!(
        "time, medians of {MANY} runs (look-ups and desk: {FEW}) after one that is not counted."
    );
    println!("Tables are lent to a fill with {} in every byte: clearing is within", tables::DIRT);
    println!("both times. A time is for one fill, check, position or run.\n");
}

#[cfg(feature = "gaviota")]
fn look_ups(folder: &str, rows: &mut Vec<Row>) -> Result<(), String> {
    let gaviota = gaviota::Gaviota::open(folder)?;
    let ground = Ground::in_order()?;
    rows.push(ground.beside_probe(&gaviota, FEW));
    let ground = ground.shuffled();
    rows.push(ground.beside_probe(&gaviota, FEW));
    rows.push(ground.beside_oracle(FEW));
    rows.push(ground.beside_probes(&gaviota, FEW));
    let ground = pocket::Ground::in_order()?;
    rows.push(ground.beside_probe(&gaviota, FEW));
    rows.push(ground.shuffled().beside_probe(&gaviota, FEW));
    Ok(())
}

#[cfg(not(feature = "gaviota"))]
fn look_ups(_: &str, rows: &mut Vec<Row>) -> Result<(), String> {
    println!("Not measured: Gaviota's probe, whose packages are missing.\n");
    rows.push(Ground::in_order()?.shuffled().beside_oracle(FEW));
    Ok(())
}

/// Beside Gaviota's probe pocket look-up is measured with the other look-ups.
fn pockets(rows: &mut Vec<Row>) -> Result<(), String> {
    let ground = pocket::Ground::in_order()?;
    rows.push(ground.pack(MANY)?);
    rows.push(ground.tallies(MANY)?);
    rows.push(ground.beside_large(FEW));
    let ground = ground.shuffled();
    rows.push(ground.beside_large(FEW));
    rows.push(ground.beside_oracle(FEW));
    Ok(())
}

fn measure(oracle: &str, program: &str, gaviota: &str, folder: &Path) -> Result<Vec<Row>, String> {
    let mut rows = Vec::new();
    for man in DECIDED {
        rows.push(tables::fill(man, MANY)?);
    }
    for man in DECIDED {
        rows.push(steps::row(man, MANY)?);
    }
    look_ups(gaviota, &mut rows)?;
    pockets(&mut rows)?;
    for man in DECIDED {
        rows.push(tables::check(man, MANY)?);
    }
    match program {
        "-" => println!("Not measured: the desk program, which SLEDGEWREN_DESK names.\n"),
        _ => rows.push(desk::row(program, oracle, folder, FEW)?),
    }
    for man in DECIDED {
        for side in Side::ALL {
            rows.extend(moves::rows(man, side, MANY)?);
        }
    }
    rows.extend(search::rows()?);
    rows.extend(four::rows(folder, FEW)?);
    rows.extend(pawn::rows(folder, FEW)?);
    Ok(rows)
}

fn all(oracle: &str, desk: &str, gaviota: &str, folder: &Path) -> Result<(), String> {
    says();
    print(&measure(oracle, desk, gaviota, folder)?);
    counts::print(gaviota, folder, &counts::ROWS);
    counts::print(gaviota, folder, &counts::FOUR);
    counts::print(gaviota, folder, &counts::PAWN);
    Ok(())
}

/// The rows of two men alone.
fn four_alone(folder: &Path) -> Result<(), String> {
    print(&four::rows(folder, FEW)?);
    counts::print("-", folder, &counts::FOUR);
    Ok(())
}

/// The quick fill beside the others.
fn back_alone(folder: &Path) -> Result<(), String> {
    says();
    println!("With two men each fill is timed once.\n");
    print(&back::rows(MANY)?);
    back::print_counts(folder)
}

/// The rows of king and pawn alone.
fn pawn_alone(folder: &Path) -> Result<(), String> {
    print(&pawn::rows(folder, FEW)?);
    counts::print("-", folder, &counts::PAWN);
    Ok(())
}

/// The look-ups alone.
fn look_ups_alone(gaviota: &str, folder: &Path) -> Result<(), String> {
    let mut rows = Vec::new();
    look_ups(gaviota, &mut rows)?;
    print(&rows);
    counts::print(gaviota, folder, &counts::ROWS[4..5]);
    Ok(())
}

fn main() -> ExitCode {
    let words: Vec<String> = std::env::args().skip(1).collect();
    let words: Vec<&str> = words.iter().map(String::as_str).collect();
    let done = match words[..] {
        ["four", folder] => four_alone(Path::new(folder)),
        ["back", folder] => back_alone(Path::new(folder)),
        ["pawn", folder] => pawn_alone(Path::new(folder)),
        ["look-up", gaviota, folder] => look_ups_alone(gaviota, Path::new(folder)),
        ["count", what, side, gaviota, folder] => back::count(what, side)
            .unwrap_or_else(|| counts::run(what, side == "other", gaviota, Path::new(folder))),
        [oracle, desk, gaviota, folder] => all(oracle, desk, gaviota, Path::new(folder)),
        _ => {
            eprintln!("usage: bench ORACLE DESK GAVIOTA-FOLDER OUTPUT-FOLDER");
            eprintln!("       bench four OUTPUT-FOLDER, bench back OUTPUT-FOLDER");
            eprintln!("       bench pawn OUTPUT-FOLDER");
            return ExitCode::from(2);
        }
    };
    match done {
        Ok(()) => ExitCode::SUCCESS,
        Err(message) => {
            eprintln!("bench: {message}");
            ExitCode::from(1)
        }
    }
}
