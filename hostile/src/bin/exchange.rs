//! Keys every board with White's man and with the colours exchanged, and compares the slips.
//!
//! usage: exchange

use std::process::ExitCode;

use hostile::calls::Tally;
use hostile::exchange::{compare, Boards};

fn main() -> ExitCode {
    if std::env::args().len() > 1 {
        eprintln!("usage: exchange");
        return ExitCode::from(2);
    }
    let (mut boards, mut tally) = (Boards::default(), Tally::default());
    for man in *b"QRBN" {
        if let Err(message) = compare(man, &mut boards, &mut tally) {
            eprintln!("exchange: {message}");
            return ExitCode::from(2);
        }
        let Boards { all, legal } = boards;
        println!("{}: {all} boards so far, {legal} legal, {} differ", man as char, tally.differ);
    }
    println!("{} compared, {} differ", tally.compared, tally.differ);
    ExitCode::from((tally.differ > 0) as u8)
}
