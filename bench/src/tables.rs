//! Filling and checking beside the oracle.

use std::hint::black_box;

use second::{fill_every, table};
use sledgewren::entry::{self, Lent};
use sledgewren::{Checked, Man, TABLE_BYTES};

use crate::timing::{medians, timed, Of, Row};

/// What a lent table holds before a timed fill: clearing it is part of the time.
pub const DIRT: u8 = 165;

/// The oracle's fill that asks every open position at every depth, beside the library's.
pub fn fill(man: Man, repeats: usize) -> Result<Row, String> {
    let (mut ours, mut theirs) = (vec![DIRT; TABLE_BYTES], vec![DIRT; TABLE_BYTES]);
    let (mut filled, mut oracle_filled) = (Ok(None), Ok(None));
    let (library, other) = medians(
        repeats,
        || {
            ours.fill(DIRT);
            timed(|| filled = black_box(entry::fill(man, Lent::NONE, &mut ours)))
        },
        || {
            theirs.fill(DIRT);
            timed(|| oracle_filled = black_box(fill_every::fill(man.code(), &mut theirs)))
        },
    );
    if ours != theirs || filled.ok() != oracle_filled.ok() {
        return Err(format!("{man}: the two fills differ"));
    }
    let what = format!("fill, {man}");
    Ok(Row {
        what,
        library,
        beside: "oracle, every position",
        other,
        of: Of::Whole,
        goal: Some(0.6),
    })
}

fn oracle_accepts(man: Man, bytes: &[u8]) -> bool {
    table::check(man.code(), bytes) == Ok(table::Checked::Accepted)
}

/// An accepted table: every number is looked at.
pub fn check(man: Man, repeats: usize) -> Result<Row, String> {
    let mut bytes = vec![DIRT; TABLE_BYTES];
    entry::fill(man, Lent::NONE, &mut bytes).map_err(|refusal| format!("{man}: {refusal}"))?;
    let (mut accepted, mut oracle_accepted) = (true, true);
    let (library, other) = medians(
        repeats,
        || {
            timed(|| {
                accepted &=
                    entry::check(man, Lent::NONE, black_box(&bytes)) == Ok(Checked::Accepted)
            })
        },
        || timed(|| oracle_accepted &= oracle_accepts(man, black_box(&bytes))),
    );
    if !accepted || !oracle_accepted {
        return Err(format!("{man}: the table is not accepted"));
    }
    let what = format!("check, {man}");
    Ok(Row { what, library, beside: "oracle", other, of: Of::Whole, goal: Some(0.5) })
}
