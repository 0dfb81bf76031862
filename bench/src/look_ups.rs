//! Looking up beside Gaviota's probe and the oracle's look-up.

use std::hint::black_box;

use second::position::Keyed as SecondKeyed;
use sledgewren::entry::{self, Lent};
use sledgewren::{Keyed, Man, Table};

use crate::positions::{man_of, of_ending, second, shuffled};
use crate::timing::{medians, timed, Of, Row};

/// Positions to look up, with the table of each man.
pub struct Ground {
    tables: Vec<Table>,
    positions: Vec<Keyed>,
    order: &'static str,
}

impl Ground {
    /// All legal positions of the four endings, square by square.
    pub fn in_order() -> Result<Ground, String> {
        let tables: Result<Vec<Table>, _> = Man::ALL.into_iter().map(Table::filled).collect();
        let tables = tables.map_err(|refusal| refusal.to_string())?;
        let positions = Man::ALL.into_iter().flat_map(of_ending).collect();
        Ok(Ground { tables, positions, order: "board order" })
    }

    /// The same in an order without pattern.
    pub fn shuffled(self) -> Ground {
        Ground { positions: shuffled(self.positions), order: "shuffled", ..self }
    }

    fn library(&self) {
        for &keyed in &self.positions {
            let table = self.tables[man_of(keyed).0].bytes();
            let _ = black_box(entry::look_up(keyed, Lent::NONE, table));
        }
    }

    /// The library's look-ups beside others.
    fn row(&self, beside: &'static str, goal: Option<f64>, repeats: usize, work: impl Fn()) -> Row {
        let (library, other) = medians(repeats, || timed(|| self.library()), || timed(&work));
        let what = format!("look-up, {}", self.order);
        Row { what, library, beside, other, of: Of::Rate(self.positions.len()), goal }
    }

    fn seconds(&self) -> Vec<SecondKeyed> {
        self.positions.iter().copied().map(second).collect()
    }

    /// The oracle does the same work: the byte held to its successors', and the move.
    pub fn beside_oracle(&self, repeats: usize) -> Row {
        let seconds = self.seconds();
        self.row("oracle's look-up", None, repeats, || {
            for (keyed, asked) in seconds.iter().zip(&self.positions) {
                let table = self.tables[man_of(*asked).0].bytes();
                let _ = black_box(second::table::look_up(table, keyed));
            }
        })
    }
}

#[cfg(feature = "gaviota")]
mod probing {
    use super::*;
    use crate::positions::probed;
    use gaviota::Gaviota;
    use second::rules::{legal_position, moves, play};

    fn probe(gaviota: &Gaviota, keyed: &SecondKeyed) {
        black_box(probed(gaviota, keyed));
    }

    /// A program that wants a move from Gaviota probes each successor too.
    fn probe_with_move(gaviota: &Gaviota, keyed: &SecondKeyed) {
        probe(gaviota, keyed);
        let Ok(position) = legal_position(keyed) else { return };
        for &chosen in moves(&position).as_slice() {
            if let Some(next) = play(&position, chosen) {
                probe(gaviota, &next.keyed());
            }
        }
    }

    impl Ground {
        /// One probe a position: value and depth, no move.
        pub fn beside_probe(&self, gaviota: &Gaviota, repeats: usize) -> Row {
            let seconds = self.seconds();
            self.row("Gaviota's probe, no move", Some(0.6), repeats, || {
                seconds.iter().for_each(|keyed| probe(gaviota, keyed))
            })
        }

        /// One in ten positions, each probed with its successors.
        pub fn beside_probes(mut self, gaviota: &Gaviota, repeats: usize) -> Row {
            self.positions = self.positions.into_iter().step_by(10).collect();
            let seconds = self.seconds();
            self.row("Gaviota's probes of it and its successors", None, repeats, || {
                seconds.iter().for_each(|keyed| probe_with_move(gaviota, keyed))
            })
        }
    }
}
