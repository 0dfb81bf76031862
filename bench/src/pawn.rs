//! King and pawn: filling and checking beside the oracle, looking up beside a queen's look-up.

use std::hint::black_box;
use std::path::Path;

use second::pawn_fill;
use second::pawn_number::position_of;
use second::pawn_rules::legal;
use second::pawn_table;
use second::position::Keyed as SecondKeyed;
use second::table::Checked;
use sledgewren::Man;

use crate::four::{self, filled_word};
use crate::lent::{self, a_man, Given, NONE, PAWN, PAWN_BYTES, RUN_BYTES, SMALL_BYTES};
use crate::positions::{of_ending, shuffled};
use crate::tables::DIRT;
use crate::timing::{medians, timed, Of, Row};

/// Under what name the table is kept for counting instructions.
const NAME: &str = "pawn";

/// The four small tables in one run, and the pawn's own.
pub struct Ground {
    run: Vec<u8>,
    own: Vec<u8>,
}

/// The library's four tables of one man, one after the other.
pub fn run() -> Vec<u8> {
    let mut run = vec![DIRT; RUN_BYTES];
    for (kind, table) in run.chunks_exact_mut(SMALL_BYTES).enumerate() {
        lent::fill(kind as u32, NONE, table);
    }
    run
}

/// The same as the oracle is lent them.
pub fn parts(run: &[u8]) -> [&[u8]; 4] {
    [0, 1, 2, 3].map(|kind| &run[kind * SMALL_BYTES..(kind + 1) * SMALL_BYTES])
}

/// The fill beside the oracle's, which asks every open position at every depth; the library's table.
fn fill(run: Vec<u8>, repeats: usize) -> Result<(Row, Ground), String> {
    let (mut ours, mut theirs) = (vec![DIRT; PAWN_BYTES], vec![DIRT; PAWN_BYTES]);
    let (mut answer, mut due) = (0, 0);
    let (library, other) = medians(
        repeats,
        || {
            ours.fill(DIRT);
            timed(|| answer = black_box(lent::fill(PAWN, [&run, &[]], &mut ours)))
        },
        || {
            theirs.fill(DIRT);
            timed(|| due = filled_word(black_box(pawn_fill::fill(&mut theirs, parts(&run)))))
        },
    );
    if ours != theirs || answer != due {
        return Err("king and pawn: the two fills differ".to_string());
    }
    let (what, beside) = ("fill, king and pawn".to_string(), "oracle, every position");
    let row = Row { what, library, beside, other, of: Of::Whole, goal: Some(1.2) };
    Ok((row, Ground { run, own: ours }))
}

impl Ground {
    /// As the timed rows have written it.
    pub fn read(folder: &Path) -> Result<Ground, String> {
        Ok(Ground { run: run(), own: four::read(folder, NAME)? })
    }

    /// An accepted table: every number is looked at, of the small tables too.
    fn check(&self, repeats: usize) -> Result<Row, String> {
        let (mut accepted, mut oracle_accepted) = (true, true);
        let oracle = || {
            let checked = pawn_table::check(black_box(&self.own), parts(&self.run));
            checked == Ok(Checked::Accepted)
        };
        let library = || lent::check(PAWN, [&self.run, &[]], black_box(&self.own)) == 0;
        let (library, other) = medians(
            repeats,
            || timed(|| accepted &= library()),
            || timed(|| oracle_accepted &= oracle()),
        );
        if !accepted || !oracle_accepted {
            return Err("king and pawn: the table is not accepted".to_string());
        }
        let what = "check, king and pawn".to_string();
        Ok(Row { what, library, beside: "oracle", other, of: Of::Whole, goal: None })
    }

    pub fn pawn(&self, asked: &[Given]) {
        for &given in asked {
            black_box(lent::look_up(given, 0, [&self.run, &[]], &self.own));
        }
    }

    pub fn queen(&self, asked: &[Given]) {
        for &given in asked {
            black_box(lent::look_up(given, 0, NONE, &self.run[..SMALL_BYTES]));
        }
    }

    fn row(&self, pawn: &[Given], queen: &[Given], order: &str, repeats: usize) -> Row {
        let (library, other) =
            medians(repeats, || timed(|| self.pawn(pawn)), || timed(|| self.queen(queen)));
        // Both times are for one position.
        let (library, other) = (library / pawn.len() as f64, other / queen.len() as f64);
        let what = format!("look-up, king and pawn, {order}");
        let beside = "library's look-up, a queen";
        Row { what, library, beside, other, of: Of::Whole, goal: None }
    }
}

/// Legal positions with White's pawn on files a to d, by number; one in so many.
pub fn of_pawn(one_in: usize) -> Vec<Given> {
    let legal = (0..PAWN_BYTES).filter_map(position_of).filter(legal).step_by(one_in);
    legal.map(|position| given(&position.keyed())).collect()
}

fn given(keyed: &SecondKeyed) -> Given {
    let SecondKeyed { side, white_king: white, black_king: black, men } = *keyed;
    let first = men[0].map_or(0, |man| a_man(man.kind, man.colour, man.square));
    Given { side, white, black, first, second: 0 }
}

/// Legal positions with White's queen, square by square; one in so many.
pub fn of_queen(one_in: usize) -> Vec<Given> {
    let found = of_ending(Man::Queen).into_iter().step_by(one_in);
    found.map(Given::from).collect()
}

pub fn rows(folder: &Path, repeats: usize) -> Result<Vec<Row>, String> {
    let (filled, ground) = fill(run(), repeats)?;
    four::write(folder, NAME, &ground.own)?;
    let checked = ground.check(repeats)?;
    let (pawn, queen) = (of_pawn(1), of_queen(1));
    let ordered = ground.row(&pawn, &queen, "in order", repeats);
    let shuffled = ground.row(&shuffled(pawn), &shuffled(queen), "shuffled", repeats);
    Ok(vec![filled, checked, ordered, shuffled])
}
