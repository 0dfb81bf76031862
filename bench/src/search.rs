//! The second opinion on every legal queen position, one of each class, beside the oracle's search.

use std::hint::black_box;

use second::position::Keyed as SecondKeyed;
use second::search::{search, Opinion as SecondOpinion};
use sledgewren::{entry, Keyed, Man, Opinion, MOST_PLIES};

use crate::positions::second;
use crate::timing::{median, timed, Of, Row};

/// The greatest ratio wanted.
const GOAL: f64 = 1.5;

/// How often a position is timed: one time alone may hold an interrupt of the machine, which counts
/// for little where a search takes long.
fn repeats(plies: u8) -> usize {
    if plies <= 4 {
        5
    } else {
        1
    }
}

/// The slowest positions of a pass, and how often each is timed again.
const SLOWEST: usize = 20;
const AGAIN: usize = 9;

/// One legal position of each number.
fn classes(man: Man) -> Vec<Keyed> {
    (0..59_136)
        .filter_map(|number| entry::position(man, number).ok())
        .filter(|&keyed| entry::count(keyed).is_ok())
        .collect()
}

fn same(ours: Opinion, theirs: SecondOpinion) -> bool {
    match (ours, theirs) {
        (Opinion::Win(n), SecondOpinion::Win(m)) | (Opinion::Loss(n), SecondOpinion::Loss(m)) => {
            n == m
        }
        (Opinion::NotWithin, SecondOpinion::NotWithin) => true,
        _ => false,
    }
}

/// Seconds of one position, and its answer.
fn measured<T>(repeats: usize, mut work: impl FnMut() -> T) -> (f64, Option<T>) {
    let mut answer = None;
    let times = (0..repeats).map(|_| timed(|| answer = Some(black_box(work())))).collect();
    (median(times), answer)
}

/// The greatest median of those positions that were slowest in the pass.
fn worst(times: &[f64], mut again: impl FnMut(usize) -> f64) -> f64 {
    let mut order: Vec<usize> = (0..times.len()).collect();
    order.sort_by(|&one, &other| times[other].total_cmp(&times[one]));
    order.into_iter().take(SLOWEST).map(|place| again(place)).fold(0.0, f64::max)
}

/// Mean and worst time with so many plies.
fn rows_within(
    plies: u8,
    positions: &[Keyed],
    seconds: &[SecondKeyed],
) -> Result<[Row; 2], String> {
    let library = |place: usize, repeats: usize| {
        measured(repeats, || entry::second_opinion(positions[place], plies))
    };
    let oracle =
        |place: usize, repeats: usize| measured(repeats, || search(&seconds[place], plies));
    let (mut ours, mut theirs) = (Vec::new(), Vec::new());
    for place in 0..positions.len() {
        let (one, other) = (library(place, repeats(plies)), oracle(place, repeats(plies)));
        match (one.1, other.1) {
            (Some(Ok(found)), Some(Ok(second_found))) if same(found, second_found) => {}
            answers => return Err(format!("{:?} within {plies}: {answers:?}", positions[place])),
        }
        ours.push(one.0);
        theirs.push(other.0);
    }
    let row = |what: &str, library: f64, other: f64, of: Of| Row {
        what: format!("second opinion, queen, within {plies}, {what}"),
        library,
        beside: "oracle's search",
        other,
        of,
        goal: Some(GOAL),
    };
    let worst_of_ours = worst(&ours, |place| library(place, AGAIN).0);
    let worst_of_theirs = worst(&theirs, |place| oracle(place, AGAIN).0);
    Ok([
        row("mean", ours.iter().sum(), theirs.iter().sum(), Of::Each(positions.len())),
        row("worst", worst_of_ours, worst_of_theirs, Of::Whole),
    ])
}

/// Mean and worst time for 1 to 6 plies.
pub fn rows() -> Result<Vec<Row>, String> {
    let positions = classes(Man::Queen);
    let seconds: Vec<SecondKeyed> = positions.iter().copied().map(second).collect();
    let mut rows = Vec::new();
    for plies in 1..=MOST_PLIES {
        rows.extend(rows_within(plies, &positions, &seconds)?);
    }
    Ok(rows)
}
