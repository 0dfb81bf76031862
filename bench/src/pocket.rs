//! The pocket edition: packing and tallies beside the oracle's, and pocket look-up beside the
//! oracle's, the library's large look-up and Gaviota's probe.

use std::hint::black_box;

use second::pocket as second_pocket;
use second::position::Keyed as SecondKeyed;
use sledgewren::entry::{self, Lent};
use sledgewren::{Keyed, Man, Pocket, Table, POCKET_BYTES};

#[cfg(feature = "gaviota")]
use crate::positions::probed;
use crate::positions::{man_of, of_ending, second, shuffled};
use crate::tables::DIRT;
use crate::timing::{medians, timed, Of, Row};

/// Works of some microseconds are done so often in a run.
const OFTEN: usize = 500;

fn often(mut work: impl FnMut()) -> std::time::Duration {
    timed(|| (0..OFTEN).for_each(|_| work()))
}

/// All tables, their pockets, and all legal positions of the four endings.
pub struct Ground {
    tables: Vec<Table>,
    pockets: Vec<Pocket>,
    positions: Vec<Keyed>,
    order: &'static str,
}

impl Ground {
    /// Positions square by square.
    pub fn in_order() -> Result<Ground, String> {
        let tables: Result<Vec<Table>, _> = Man::ALL.into_iter().map(Table::filled).collect();
        let tables = tables.map_err(|refusal| refusal.to_string())?;
        let pockets = tables.iter().map(Pocket::of_table).collect();
        let positions = Man::ALL.into_iter().flat_map(of_ending).collect();
        Ok(Ground { tables, pockets, positions, order: "board order" })
    }

    /// The same in an order without pattern.
    pub fn shuffled(self) -> Ground {
        Ground { positions: shuffled(self.positions), order: "shuffled", ..self }
    }

    /// The queen's table, into a pocket that is not cleared beforehand.
    pub fn pack(&self, repeats: usize) -> Result<Row, String> {
        let table = &self.tables[0].bytes()[..];
        let (mut ours, mut theirs) = (vec![DIRT; POCKET_BYTES], vec![DIRT; POCKET_BYTES]);
        let (library, other) = medians(
            repeats,
            || often(|| _ = black_box(entry::pack(black_box(table), &mut ours))),
            || often(|| _ = black_box(second_pocket::pack(black_box(table), &mut theirs))),
        );
        if ours != theirs {
            return Err("the two pockets differ".to_string());
        }
        let what = "pack, queen".to_string();
        Ok(Row { what, library, beside: "oracle", other, of: Of::Each(OFTEN), goal: None })
    }

    /// The four tallies of the queen's pocket.
    pub fn tallies(&self, repeats: usize) -> Result<Row, String> {
        let pocket = &self.pockets[0].bytes()[..];
        let ours =
            entry::tallies(pocket).map(|t| [t.none, t.draws, t.wins, t.losses].map(u32::from));
        if ours.ok() != second_pocket::tallies(pocket).ok() {
            return Err("the two tallies differ".to_string());
        }
        let (library, other) = medians(
            repeats,
            || often(|| _ = black_box(entry::tallies(black_box(pocket)))),
            || often(|| _ = black_box(second_pocket::tallies(black_box(pocket)))),
        );
        let (what, goal) = ("tallies, queen".to_string(), Some(1.2));
        Ok(Row { what, library, beside: "oracle", other, of: Of::Each(OFTEN), goal })
    }

    fn row(&self, beside: &'static str, goal: Option<f64>, repeats: usize, work: impl Fn()) -> Row {
        let library = || {
            for &keyed in &self.positions {
                let pocket = &self.pockets[man_of(keyed).0].bytes()[..];
                let _ = black_box(entry::pocket_look_up(pocket, keyed));
            }
        };
        let (library, other) = medians(repeats, || timed(library), || timed(&work));
        let what = format!("pocket look-up, {}", self.order);
        Row { what, library, beside, other, of: Of::Rate(self.positions.len()), goal }
    }

    fn seconds(&self) -> Vec<SecondKeyed> {
        self.positions.iter().copied().map(second).collect()
    }

    /// The oracle's pocket look-up.
    pub fn beside_oracle(&self, repeats: usize) -> Row {
        let seconds = self.seconds();
        self.row("oracle's pocket look-up", None, repeats, || {
            for (keyed, asked) in seconds.iter().zip(&self.positions) {
                let pocket = &self.pockets[man_of(*asked).0].bytes()[..];
                let _ = black_box(second_pocket::look_up(pocket, keyed));
            }
        })
    }

    /// The large look-up, with depth and move. A third of its time is the goal.
    pub fn beside_large(&self, repeats: usize) -> Row {
        self.row("the library's look-up in a table", Some(0.333), repeats, || {
            for &keyed in &self.positions {
                let table = &self.tables[man_of(keyed).0].bytes()[..];
                let _ = black_box(entry::look_up(keyed, Lent::NONE, table));
            }
        })
    }

    /// One probe a position: value and depth, no move.
    #[cfg(feature = "gaviota")]
    pub fn beside_probe(&self, gaviota: &gaviota::Gaviota, repeats: usize) -> Row {
        let seconds = self.seconds();
        self.row("Gaviota's probe, no move", Some(1.0), repeats, || {
            seconds.iter().for_each(|keyed| _ = black_box(probed(gaviota, keyed)))
        })
    }
}
