//! Instructions, as valgrind counts them: they do not depend on what else the machine does.
//!
//! This program runs itself under valgrind, once for each work, and counts what is done within one
//! function.

use std::env;
use std::hint::black_box;
use std::path::Path;
use std::process::Command;

use second::{fill_every, pawn_fill, table};
use sledgewren::entry::{self, Lent};
use sledgewren::{Keyed, Man, Side, TABLE_BYTES};

use crate::four::{self, Ground, Small};
use crate::lent::{self, PAWN_BYTES};
use crate::moves::{library_count, library_moves, oracle_moves};
use crate::pawn;
use crate::positions::{legal, man_of, of_ending, second};
use crate::timing::judged;

/// Under valgrind a work takes some fifty times as long: of positions these are taken.
const ONE_IN: usize = 20;

/// Counting begins where this function is entered and ends where it is left.
#[no_mangle]
#[inline(never)]
pub fn bench_counted(work: &mut dyn FnMut()) {
    work();
}

/// A row: what both sides do, what stands beside the library, and the greatest ratio wanted.
pub struct Counted {
    what: &'static str,
    beside: &'static str,
    goal: f64,
}

pub const ROWS: [Counted; 9] = [
    Counted { what: "fill, queen", beside: "oracle, every position", goal: 0.6 },
    Counted { what: "fill, rook", beside: "oracle, every position", goal: 0.6 },
    Counted { what: "check, queen", beside: "oracle", goal: 0.5 },
    Counted { what: "check, rook", beside: "oracle", goal: 0.5 },
    Counted { what: "look-up", beside: "Gaviota's probe, no move", goal: 0.6 },
    Counted { what: "moves, queen", beside: "oracle's list", goal: 2.0 },
    Counted { what: "count, queen", beside: "oracle's list", goal: 1.2 },
    Counted { what: "moves, rook", beside: "oracle's list", goal: 2.0 },
    Counted { what: "count, rook", beside: "oracle's list", goal: 1.2 },
];

/// The rows of two men, which read tables that the timed rows have written.
pub const FOUR: [Counted; 1] =
    [Counted { what: "look-up, two men", beside: "library's look-up, one man", goal: 1.5 }];

/// The rows of king and pawn; the fill's is one whole fill.
pub const PAWN: [Counted; 2] = [
    Counted { what: "fill, king and pawn", beside: "oracle, every position", goal: 1.2 },
    Counted { what: "look-up, king and pawn", beside: "library's look-up, a queen", goal: 1.5 },
];

fn filled(man: Man) -> Result<Vec<u8>, String> {
    let mut bytes = vec![0; TABLE_BYTES];
    entry::fill(man, Lent::NONE, &mut bytes).map_err(|refusal| refusal.to_string())?;
    Ok(bytes)
}

fn fill(man: Man, other: bool) -> Result<usize, String> {
    let mut bytes = vec![crate::tables::DIRT; TABLE_BYTES];
    bench_counted(&mut || match other {
        true => {
            let _ = black_box(fill_every::fill(man.code(), &mut bytes));
        }
        false => {
            let _ = black_box(entry::fill(man, Lent::NONE, &mut bytes));
        }
    });
    Ok(1)
}

fn check(man: Man, other: bool) -> Result<usize, String> {
    let bytes = filled(man)?;
    bench_counted(&mut || match other {
        true => {
            let _ = black_box(table::check(man.code(), &bytes));
        }
        false => {
            let _ = black_box(entry::check(man, Lent::NONE, &bytes));
        }
    });
    Ok(1)
}

fn listed(man: Man, ours: fn(Keyed) -> usize, other: bool) -> Result<usize, String> {
    let positions: Vec<Keyed> =
        Side::ALL.into_iter().flat_map(|side| legal(man, side)).step_by(ONE_IN).collect();
    let seconds: Vec<_> = positions.iter().copied().map(second).collect();
    bench_counted(&mut || match other {
        true => {
            let _ = black_box(seconds.iter().map(oracle_moves).sum::<usize>());
        }
        false => {
            let _ = black_box(positions.iter().copied().map(ours).sum::<usize>());
        }
    });
    Ok(positions.len())
}

#[cfg(feature = "gaviota")]
fn probed(folder: &str, positions: &[Keyed]) -> Result<(), String> {
    let gaviota = gaviota::Gaviota::open(folder)?;
    let seconds: Vec<_> = positions.iter().copied().map(second).collect();
    bench_counted(&mut || {
        for keyed in &seconds {
            black_box(crate::positions::probed(&gaviota, keyed));
        }
    });
    Ok(())
}

#[cfg(not(feature = "gaviota"))]
fn probed(_: &str, _: &[Keyed]) -> Result<(), String> {
    Err("Gaviota's packages are missing".to_string())
}

fn look_up(folder: &str, other: bool) -> Result<usize, String> {
    let positions: Vec<Keyed> = Man::ALL.into_iter().flat_map(of_ending).step_by(ONE_IN).collect();
    if other {
        probed(folder, &positions)?;
        return Ok(positions.len());
    }
    let tables: Result<Vec<_>, _> = Man::ALL.into_iter().map(filled).collect();
    let tables = tables?;
    bench_counted(&mut || {
        for &keyed in &positions {
            let _ = black_box(entry::look_up(keyed, Lent::NONE, &tables[man_of(keyed).0]));
        }
    });
    Ok(positions.len())
}

/// With two men, or with one; the tables are read from files, since filling takes long here.
fn look_up_four(folder: &Path, one_man: bool) -> Result<usize, String> {
    let small = Small::read(folder)?;
    if one_man {
        let asked = four::of_one_man(ONE_IN);
        let ground = Ground { small: &small, large: &[] };
        bench_counted(&mut || ground.one_man(&asked));
        return Ok(asked.len());
    }
    let large: Result<Vec<_>, _> =
        four::MEASURED.into_iter().map(|name| four::read(folder, name)).collect();
    let (large, asked) = (large?, four::of_two_men(5 * ONE_IN)?);
    let ground = Ground { small: &small, large: &large };
    bench_counted(&mut || ground.two_men(&asked));
    Ok(asked.len())
}

/// With a pawn, or with a queen.
fn look_up_pawn(folder: &Path, queen: bool) -> Result<usize, String> {
    let ground = pawn::Ground::read(folder)?;
    let asked = if queen { pawn::of_queen(ONE_IN) } else { pawn::of_pawn(ONE_IN) };
    bench_counted(&mut || if queen { ground.queen(&asked) } else { ground.pawn(&asked) });
    Ok(asked.len())
}

fn fill_pawn(other: bool) -> Result<usize, String> {
    let (run, mut own) = (pawn::run(), vec![crate::tables::DIRT; PAWN_BYTES]);
    bench_counted(&mut || match other {
        true => {
            let _ = black_box(pawn_fill::fill(&mut own, pawn::parts(&run)));
        }
        false => {
            let _ = black_box(lent::fill(lent::PAWN, [&run, &[]], &mut own));
        }
    });
    Ok(1)
}

/// Under valgrind: one work, the library's or the other's. Writes how many positions it was for.
pub fn run(what: &str, other: bool, gaviota: &str, folder: &Path) -> Result<(), String> {
    let units = match what {
        "fill, queen" => fill(Man::Queen, other),
        "fill, rook" => fill(Man::Rook, other),
        "check, queen" => check(Man::Queen, other),
        "check, rook" => check(Man::Rook, other),
        "look-up" => look_up(gaviota, other),
        "look-up, two men" => look_up_four(folder, other),
        "fill, king and pawn" => fill_pawn(other),
        "look-up, king and pawn" => look_up_pawn(folder, other),
        "moves, queen" => listed(Man::Queen, library_moves, other),
        "moves, rook" => listed(Man::Rook, library_moves, other),
        "count, queen" => listed(Man::Queen, library_count, other),
        "count, rook" => listed(Man::Rook, library_count, other),
        _ => Err(format!("no such work: {what}")),
    }?;
    println!("{units}");
    Ok(())
}

/// Instructions for each position, or for the whole; none where valgrind or the work is missing.
pub fn counted(what: &str, side: &str, gaviota: &str, folder: &Path) -> Option<f64> {
    let output = Command::new("valgrind")
        .args(["--tool=callgrind", "--callgrind-out-file=/dev/null"])
        .arg("--toggle-collect=bench_counted")
        .arg(env::current_exe().ok()?)
        .args(["count", what, side, gaviota])
        .arg(folder)
        .output()
        .ok()?;
    let told = String::from_utf8_lossy(&output.stderr).into_owned();
    let all: f64 = told.split("Collected :").nth(1)?.split_whitespace().next()?.parse().ok()?;
    let units: f64 = String::from_utf8_lossy(&output.stdout).trim().parse().ok()?;
    Some(all / units)
}

fn written(count: f64) -> String {
    match count {
        _ if count >= 1e6 => format!("{:.1} million", count / 1e6),
        _ => format!("{count:.0}"),
    }
}

/// The head of a table of instructions; whether valgrind is there to count them.
pub fn begin(says: &str) -> bool {
    if Command::new("valgrind").arg("--version").output().is_err() {
        println!("\nNot counted: instructions, for which valgrind is missing.");
        return false;
    }
    println!("\n{says}\n");
    println!("| What | Library | Beside it | Its instructions | Ratio | Goal |");
    println!("|---|---|---|---|---|---|");
    true
}

/// A line of it, where the library's were counted.
pub fn line(what: &str, beside: &str, counts: (Option<f64>, Option<f64>), goal: Option<f64>) {
    let (Some(ours), theirs) = counts else { return };
    let (count, ratio) = match theirs {
        Some(theirs) => (written(theirs), ours / theirs),
        None => ("not counted".to_string(), f64::NAN),
    };
    let goal = judged(goal, ratio);
    println!("| {what} | {} | {beside} | {count} | {ratio:.2} | {goal} |", written(ours));
}

pub fn print(gaviota: &str, folder: &Path, rows: &[Counted]) {
    if !begin(&format!("Instructions, for one fill, check or position; one position in {ONE_IN}."))
    {
        return;
    }
    for &Counted { what, beside, goal } in rows {
        let [ours, theirs] = ["library", "other"].map(|side| counted(what, side, gaviota, folder));
        line(what, beside, (ours, theirs), Some(goal));
    }
}
