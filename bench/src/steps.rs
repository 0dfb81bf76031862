//! Filling in steps beside the library's own single fill.

use std::hint::black_box;

use sledgewren::entry::{self, Lent};
use sledgewren::{Man, Refusal, Step, TABLE_BYTES};

use crate::tables::DIRT;
use crate::timing::{medians, timed, Of, Row};

/// A start and steps until one says done.
fn run(man: Man, table: &mut [u8]) -> Result<Option<u8>, Refusal> {
    let mut progress = entry::fill_start(man, table)?;
    loop {
        let (said, next) = entry::fill_step(man, progress, Lent::NONE, table);
        if let Step::Done(greatest) = said? {
            return Ok(greatest);
        }
        progress = next;
    }
}

/// The whole run of steps, beside the fill.
pub fn row(man: Man, repeats: usize) -> Result<Row, String> {
    let (mut stepped, mut filled) = (vec![DIRT; TABLE_BYTES], vec![DIRT; TABLE_BYTES]);
    let (mut said, mut answer) = (Ok(None), Ok(None));
    let (library, other) = medians(
        repeats,
        || {
            stepped.fill(DIRT);
            timed(|| said = black_box(run(man, &mut stepped)))
        },
        || {
            filled.fill(DIRT);
            timed(|| answer = black_box(entry::fill(man, Lent::NONE, &mut filled)))
        },
    );
    if stepped != filled || said != answer {
        return Err(format!("{man}: the steps and the fill differ"));
    }
    let what = format!("fill in steps, {man}");
    Ok(Row { what, library, beside: "library's fill", other, of: Of::Whole, goal: Some(1.02) })
}
