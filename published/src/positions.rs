//! Every position of an ending on the whole board, as the three programs have it.

use sledgewren::{Man, Side, Value};

use crate::judged::{all_keyed, placed, Judged, Judges};

/// What comparing one side of an ending comes to.
#[derive(Default)]
pub struct Tally {
    pub legal: u64,
    pub illegal: u64,
    pub library_differs: u64,
    pub oracle_differs: u64,
    /// The greatest depth in plies by Gaviota, or none if nothing is decided.
    pub deepest: Option<u8>,
}

impl Tally {
    pub fn compared(&self) -> u64 {
        2 * (self.legal + self.illegal)
    }

    pub fn differ(&self) -> u64 {
        self.library_differs + self.oracle_differs
    }

    fn add(&mut self, published: Judged, library: Judged, oracle: Judged) {
        match published {
            Judged::Illegal => self.illegal += 1,
            Judged::Legal(value) => {
                self.legal += 1;
                self.deepest = self.deepest.max(depth(value));
            }
            Judged::Strange => self.legal += 1,
        }
        let strange = published == Judged::Strange;
        self.library_differs += (strange || library != published) as u64;
        self.oracle_differs += (strange || oracle != published) as u64;
    }
}

fn depth(value: Value) -> Option<u8> {
    match value {
        Value::Win(depth) | Value::Loss(depth) => Some(depth),
        Value::Draw => None,
    }
}

/// Differences told one by one; the rest are only counted.
const TOLD: u64 = 10;

/// All placements of three men on different squares with the kings apart, the man of one colour and
/// one side to move.
pub fn compare(judges: &Judges, man: Man, colour: Side, side: Side) -> Tally {
    let mut tally = Tally::default();
    for keyed in all_keyed(man, colour, side).filter(|&keyed| placed(keyed)) {
        let published = judges.gaviota(keyed);
        let (library, oracle) = (judges.library(keyed), judges.oracle(keyed));
        let before = tally.differ();
        tally.add(published, library, oracle);
        if tally.differ() > before && before < TOLD {
            println!("{keyed:?}: Gaviota {published:?}, library {library:?}, oracle {oracle:?}");
        }
    }
    tally
}
