//! Fills the four tables in steps, with a live bar on a terminal and plain lines elsewhere.
//!
//!     cargo run --release --example progress

use std::error::Error;
use std::io::{self, IsTerminal, Write};
use std::process::ExitCode;

use sledgewren::{Filling, Man, Settled};

const WIDTH: u32 = 40;

/// The bar of the legal positions settled so far, over the one before it.
fn bar(out: &mut impl Write, filling: &Filling, settled: Settled) -> io::Result<()> {
    let filled = (WIDTH * filling.settled() / filling.legal().max(1)) as usize;
    let (done, rest) = ("#".repeat(filled), ".".repeat(WIDTH as usize - filled));
    let (man, depth) = (filling.man().to_string(), settled.depth);
    write!(out, "\r{man:8} [{done}{rest}] depth {depth:2}, {} settled", filling.settled())?;
    out.flush()
}

fn line(out: &mut impl Write, filling: &Filling, settled: Settled) -> io::Result<()> {
    let Settled { depth, count } = settled;
    writeln!(out, "{}: depth {depth}, {count} settled", filling.man())
}

fn fill(out: &mut impl Write, man: Man, live: bool) -> Result<(), Box<dyn Error>> {
    let mut filling = Filling::start(man);
    while let Some(settled) = filling.next() {
        if live {
            bar(out, &filling, settled)?;
        } else {
            line(out, &filling, settled)?;
        }
    }
    if live {
        // Over the bar: to the line's start, and the line cleared.
        write!(out, "\r\x1b[K")?;
    }
    let (legal, settled) = (filling.legal(), filling.settled());
    match filling.finish()?.1 {
        Some(depth) => {
            writeln!(out, "{man}: greatest depth {depth}, {settled} of {legal} decided")?
        }
        None => writeln!(out, "{man}: none of {legal} decided")?,
    }
    Ok(())
}

fn main() -> ExitCode {
    let mut out = io::stdout();
    let live = out.is_terminal();
    match Man::ALL.into_iter().try_for_each(|man| fill(&mut out, man, live)) {
        Ok(()) => ExitCode::SUCCESS,
        Err(error) => {
            eprintln!("progress: {error}");
            ExitCode::FAILURE
        }
    }
}
