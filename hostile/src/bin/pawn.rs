//! Calls the library with a lone pawn and with tables of all bytes and lengths, and compares each answer
//! with the oracle's.
//!
//! usage: pawn [SEED]

use std::process::ExitCode;

use hostile::calls::Tally;
use hostile::pawn::{self, Tables};
use hostile::running::from_seed;
use hostile::sequence::Sequence;
use hostile::{pawn_steps, pawn_tables};
use second::pawn_counts::PawnTruth;
use second::pawn_fill;

/// Damages of the pawn's table, of each small table, look-ups in damaged tables, and random steps.
const DAMAGES: usize = 200;
const UNACCEPTED: usize = 12;
const LOOK_UPS: usize = 400_000;
const STEPS: usize = 200;

/// Filling first. The tables are then known to be the oracle's, or told not to be: those are looked up in.
fn tables(sequence: &mut Sequence, tally: &mut Tally) -> (Vec<u8>, Vec<u8>) {
    let (run, truth) = (pawn_tables::run(), PawnTruth::new(pawn_fill::fill));
    let unlike =
        run.iter().zip(truth.lent.iter().flatten()).filter(|(one, due)| one != due).count();
    tally.bytes("the four small tables", run.len() as u64, unlike as u64);
    pawn_tables::filled(&run, &truth.own, tally);
    tally.told("every byte of the table");
    let (stepped, empty) = pawn_steps::whole(&run, tally);
    tally.add("bytes after the last step", &empty, stepped == truth.own, true);
    tally.told(&format!("every step, {empty} that settle none"));
    let kinds = pawn_steps::random(STEPS, &run, sequence, tally);
    tally.told(&format!("{STEPS} steps from random bytes and progress words, {kinds:?}"));
    (truth.lent.concat(), truth.own)
}

/// Tables that are too short, not accepted or damaged.
fn hostile_tables(tables: Tables, sequence: &mut Sequence, tally: &mut Tally) {
    pawn_tables::lengths(tally);
    tally.told("lengths");
    let refused = pawn_tables::unaccepted(UNACCEPTED, tables.run, sequence, tally);
    tally.told(&format!("{refused} runs of small tables that gave 17"));
    let lower = pawn_tables::checks(DAMAGES, tables, sequence, tally);
    tally.told(&format!("{DAMAGES} damages checked, {lower} show at a lower number"));
    let (refused, small) = pawn_tables::look_ups(LOOK_UPS, tables, sequence, tally);
    tally.told(&format!("look-ups in damaged tables, {small} in a small one: {refused} gave 11"));
}

fn compare(seed: u64) -> Tally {
    let (mut sequence, mut tally) = (Sequence::new(seed), Tally::default());
    let (run, own) = tables(&mut sequence, &mut tally);
    let (tables, tally) = (Tables { own: &own, run: &run }, &mut tally);
    let used = pawn::numbers(tally);
    tally.told(&format!("numbers back, {used} used"));
    let slips = pawn::boards(tables, &mut sequence, tally);
    tally.told(&format!("every board of both colours, {slips:?}"));
    let slips = pawn::counts(tables, tally);
    tally.told(&format!("boards at every count, {slips:?}"));
    let refusals = pawn::words(tables, &mut sequence, tally);
    tally.told(&format!("random words, by refusal {refusals:?}"));
    pawn::elsewhere(tally);
    tally.told("parts without a pawn");
    hostile_tables(tables, &mut sequence, tally);
    std::mem::take(tally)
}

fn main() -> ExitCode {
    from_seed("pawn", compare)
}
