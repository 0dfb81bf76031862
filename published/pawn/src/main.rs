//! Compares the oracle's pawn ending with Gaviota's table and with document 000.
//!
//! usage: published_pawn GAVIOTA-FOLDER OUTPUT-FOLDER

mod judged;

use std::fs;
use std::path::Path;
use std::process::ExitCode;

use gaviota::Gaviota;
use second::pawn_counts::PawnTruth;
use second::pawn_fill;
use second::pawn_number::{position_of, PAWN_NUMBERS};
use second::pawn_position::PawnPosition;
use second::pawn_table::check;
use second::position::{Side, SIDES};
use second::rule::Value;
use second::table::Checked;

use judged::{byte_of, gaviota_says, oracle_says, Judged};

/// Document 000, table 8a, KPK: won in 28 moves with either side to move, never lost.
const PRINTED: Option<u8> = Some(28);

/// Differences told one by one; the rest are only counted.
const TOLD: u64 = 10;

/// Comparisons made, and differences found.
#[derive(Default)]
struct Sum {
    legal: u64,
    compared: u64,
    differ: u64,
}

impl Sum {
    fn add(&mut self, compared: u64, differ: u64) {
        self.compared += compared;
        self.differ += differ;
    }
}

/// Every placement of two kings and a pawn of a colour on ranks 2 to 7, one side to move.
fn placements(colour: Side, side: Side) -> impl Iterator<Item = PawnPosition> {
    (0..64u32.pow(3)).filter_map(move |place| {
        let square = |first: u32| (place >> first & 63) as u8;
        let kings = [square(12), square(0)];
        PawnPosition { side, kings, colour, pawn: square(6) }.keyed().pawn_placed().ok()
    })
}

fn depth(judged: Judged) -> Option<u8> {
    match judged {
        Judged::Legal(Value::Win(depth) | Value::Loss(depth)) => Some(depth),
        _ => None,
    }
}

fn dashed(depth: Option<u8>) -> String {
    depth.map_or("-".to_string(), |depth| depth.to_string())
}

/// One row: the pawn's colour and the side to move.
fn compare_side(gaviota: &Gaviota, truth: &PawnTruth, colour: Side, side: Side, sum: &mut Sum) {
    let (mut legal, mut illegal, mut differ) = (0, 0, 0);
    let mut deepest: Option<u8> = None;
    for position in placements(colour, side) {
        let (published, oracle) = (gaviota_says(gaviota, &position), oracle_says(truth, &position));
        match published {
            Judged::Illegal => illegal += 1,
            _ => legal += 1,
        }
        deepest = deepest.max(depth(published));
        if published == Judged::Strange || oracle != published {
            differ += 1;
            if differ <= TOLD {
                println!("{position:?}: Gaviota {published:?}, oracle {oracle:?}");
            }
        }
    }
    let moves = deepest.map(|plies| plies.div_ceil(2));
    sum.legal += legal;
    sum.add(legal + illegal + 1, differ + u64::from(moves != PRINTED));
    let (owner, mover, plies) = (colour.name(), side.name(), dashed(deepest));
    let (moves, printed) = (dashed(moves), dashed(PRINTED));
    println!(
        "| {owner} | {mover} | {legal} | {illegal} | {differ} | {plies} | {moves} | {printed} |"
    );
}

/// Gaviota's depths in the pawn's bytes, numbered by the oracle, written to a file and judged.
fn judge_table(
    gaviota: &Gaviota,
    truth: &PawnTruth,
    folder: &Path,
    sum: &mut Sum,
) -> Result<(), String> {
    let byte = |number| match position_of(number) {
        Some(position) => byte_of(gaviota_says(gaviota, &position)),
        None => Ok(0),
    };
    let table: Vec<u8> = (0..PAWN_NUMBERS).map(byte).collect::<Result<_, String>>()?;
    let path = folder.join("pawn.table");
    fs::write(&path, &table).map_err(|error| format!("{}: {error}", path.display()))?;
    let checked = check(&table, truth.lent());
    let unlike = table.iter().zip(&truth.own).filter(|(one, other)| one != other).count() as u64;
    println!("\n{}, from Gaviota's depths: the oracle's checker says", path.display());
    println!("{checked:?}; {unlike} bytes unlike the oracle's");
    sum.add(1, u64::from(checked != Ok(Checked::Accepted)));
    sum.add(table.len() as u64, unlike);
    Ok(())
}

fn compare(tables: &str, output: &str) -> Result<Sum, String> {
    let gaviota = Gaviota::open(tables)?;
    let truth = PawnTruth::new(pawn_fill::fill);
    truth.filled.map_err(|refused| format!("the oracle's fill: {refused:?}"))?;
    let mut sum = Sum::default();
    println!("Every placement of two kings and a pawn, against Gaviota\n");
    print!("| Pawn's side | To move | Legal | Illegal | Oracle differs ");
    println!("| Greatest, plies | Moves | Document 000 |");
    println!("|---|---|---|---|---|---|---|---|");
    for colour in SIDES {
        for side in SIDES {
            compare_side(&gaviota, &truth, colour, side, &mut sum);
        }
    }
    judge_table(&gaviota, &truth, Path::new(output), &mut sum)?;
    Ok(sum)
}

fn main() -> ExitCode {
    let words: Vec<String> = std::env::args().skip(1).collect();
    let [tables, output] = &words[..] else {
        eprintln!("usage: published_pawn GAVIOTA-FOLDER OUTPUT-FOLDER");
        return ExitCode::from(2);
    };
    match compare(tables, output) {
        Ok(Sum { legal, compared, differ }) => {
            println!("\n{legal} legal positions");
            println!("{compared} compared, {differ} differ");
            ExitCode::from((differ > 0) as u8)
        }
        Err(message) => {
            eprintln!("published_pawn: {message}");
            ExitCode::from(2)
        }
    }
}
