//! The quick fill beside the library's other fills and beside itself written in Rust.

use std::hint::black_box;
use std::path::Path;

use crate::counts::{begin, bench_counted, counted, line};
use crate::four::{named, Small};
use crate::lent::{self, two_men, Small as Lent, LARGE_BYTES, NONE, SMALL_BYTES};
use crate::tables::DIRT;
use crate::timing::{medians, timed, Of, Row};
use crate::twin;

/// An ending: its name, the word that C gives, and how many times as quick as the fill that tries
/// every position at every depth the quick fill is to be.
struct Ending {
    name: &'static str,
    word: u32,
    #[cfg_attr(not(feature = "every"), allow(dead_code))]
    times: f64,
}

const RUST: &str = "the same in Rust";

/// A fill, as C has it.
type Fill = fn(u32, Lent, &mut [u8]) -> u32;

/// What the quick fill is measured beside, and the greatest ratio wanted, which may be the ending's.
struct Other {
    beside: &'static str,
    fill: Fill,
    goal: fn(&Ending) -> Option<f64>,
}

#[cfg(feature = "every")]
fn fill_every(ending: u32, [one, two]: Lent, table: &mut [u8]) -> u32 {
    extern "C" {
        fn sledgewren_fill_every(
            ending: u32,
            small_first: *const u8,
            small_first_len: usize,
            small_second: *const u8,
            small_second_len: usize,
            table: *mut u8,
            len: usize,
        ) -> u32;
    }
    let (start, len) = (table.as_mut_ptr(), table.len());
    let ([first, second], [m, n]) = ([one.as_ptr(), two.as_ptr()], [one.len(), two.len()]);
    // SAFETY: each pointer leads to as many bytes as its length says; `start` is lent alone.
    unsafe { sledgewren_fill_every(ending, first, m, second, n, start, len) }
}

#[cfg(feature = "every")]
const EVERY: &[Other] = &[Other {
    beside: "every position at every depth",
    fill: fill_every,
    goal: |ending| Some(1.0 / ending.times),
}];

#[cfg(not(feature = "every"))]
const EVERY: &[Other] = &[];

const OTHERS: [Other; 2] = [
    Other { beside: "fill by passes", fill: lent::fill, goal: |_| None },
    Other { beside: RUST, fill: twin::fill, goal: |_| Some(1.1) },
];

fn others() -> impl Iterator<Item = &'static Other> {
    EVERY.iter().chain(&OTHERS)
}

/// The library's quick fill under the same name as the others.
const QUICK: Fill = lent::fill_back;

fn endings() -> Result<[Ending; 4], String> {
    let two = |name| named(name).map(|ending| two_men(ending.codes(), ending.one_each));
    Ok([
        Ending { name: "queen", word: 0, times: 5.0 },
        Ending { name: "rook", word: 1, times: 10.0 },
        Ending { name: "KBNK", word: two("KBNK")?, times: 25.0 },
        Ending { name: "KQKR", word: two("KQKR")?, times: 12.0 },
    ])
}

impl Ending {
    fn is_small(&self) -> bool {
        self.word < 4
    }

    fn table(&self) -> Vec<u8> {
        vec![DIRT; if self.is_small() { SMALL_BYTES } else { LARGE_BYTES }]
    }

    fn lent<'a>(&self, small: &'a Small) -> Result<Lent<'a>, String> {
        match self.is_small() {
            true => Ok(NONE),
            false => Ok(small.lent(named(self.name)?)),
        }
    }

    /// Both fills in turn; with two men once each, since they take long.
    fn row(&self, other: &Other, small: &Small, repeats: usize) -> Result<Row, String> {
        let lent = self.lent(small)?;
        let (mut ours, mut theirs) = (self.table(), self.table());
        let (mut answer, mut due) = (0, 0);
        let mut quick = || {
            ours.fill(DIRT);
            timed(|| answer = black_box(QUICK(self.word, lent, &mut ours)))
        };
        let mut slow = || {
            theirs.fill(DIRT);
            timed(|| due = black_box((other.fill)(self.word, lent, &mut theirs)))
        };
        let (library, time) = match self.is_small() {
            true => medians(repeats, quick, slow),
            false => (quick().as_secs_f64(), slow().as_secs_f64()),
        };
        eprintln!("{}, {}: {library:.3} s, {time:.3} s", self.name, other.beside);
        if ours != theirs || answer != due {
            return Err(format!("{}: the two fills differ", self.name));
        }
        let (what, goal) = (format!("quick fill, {}", self.name), (other.goal)(self));
        Ok(Row { what, library, beside: other.beside, other: time, of: Of::Whole, goal })
    }
}

/// Every ending beside every other fill.
pub fn rows(repeats: usize) -> Result<Vec<Row>, String> {
    if EVERY.is_empty() {
        println!("Not measured: the fill that tries every position at every depth, whose archive is missing.\n");
    }
    let small = Small::filled();
    let mut rows = Vec::new();
    for ending in endings()? {
        for other in others() {
            rows.push(ending.row(other, &small, repeats)?);
        }
    }
    Ok(rows)
}

/// What a work is called that counts an ending's instructions.
const COUNTED: &str = "quick fill, ";

/// Under valgrind: one fill, the quick one or another by its name; none where the work is no such one.
pub fn count(what: &str, side: &str) -> Option<Result<(), String>> {
    let name = what.strip_prefix(COUNTED)?;
    let other = others().find(|other| other.beside == side).map_or(QUICK, |other| other.fill);
    Some(counted_fill(name, other))
}

fn counted_fill(name: &str, fill: Fill) -> Result<(), String> {
    let endings = endings()?;
    let ending = endings.iter().find(|ending| ending.name == name).ok_or("no such ending")?;
    let small = Small::filled();
    let (lent, mut table) = (ending.lent(&small)?, ending.table());
    bench_counted(&mut || {
        black_box(fill(ending.word, lent, &mut table));
    });
    println!("1");
    Ok(())
}

/// With two men beside the same in Rust alone, since the others take hours under valgrind.
pub fn print_counts(folder: &Path) -> Result<(), String> {
    if !begin("Instructions, for one fill; with two men beside Rust alone.") {
        return Ok(());
    }
    for ending in endings()? {
        let what = format!("{COUNTED}{}", ending.name);
        let ours = counted(&what, "library", "-", folder);
        for other in others().filter(|other| ending.is_small() || other.beside == RUST) {
            let theirs = counted(&what, other.beside, "-", folder);
            line(&what, other.beside, (ours, theirs), (other.goal)(&ending));
        }
    }
    Ok(())
}
