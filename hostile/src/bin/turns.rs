//! Turns every legal position by the eight maps, with and without the exchange of colours, and holds
//! the library's move to the move turned; and compares each slip with the oracle's.
//!
//! usage: turns

use std::process::ExitCode;

use hostile::turns::{compare, Sum};

fn main() -> ExitCode {
    if std::env::args().len() > 1 {
        eprintln!("usage: turns");
        return ExitCode::from(2);
    }
    let mut sum = Sum::default();
    for man in *b"QRBN" {
        if let Err(message) = compare(man, &mut sum) {
            eprintln!("turns: {message}");
            return ExitCode::from(2);
        }
        let Sum { legal, unlike, turns, differ, .. } = sum;
        println!(
            "{}: {legal} legal positions so far, {unlike} slips unlike the oracle's",
            man as char
        );
        println!("   {turns} turned or exchanged, {differ} differ");
    }
    let Sum { legal, unlike, turns, differ, fitted, mirrored } = sum;
    println!(
        "{fitted} positions that two maps make normal, {mirrored} of their turns mirror the move"
    );
    println!("{} compared, {} differ", legal + turns, unlike + differ);
    ExitCode::from((unlike + differ > 0) as u8)
}
