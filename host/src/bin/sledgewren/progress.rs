//! How far filling is, on standard error: live at a terminal, plain lines elsewhere.

use std::io::{self, IsTerminal, Write};
use std::sync::mpsc;
use std::thread;
use std::time::{Duration, Instant};

use sledgewren::entry::{self, Lent};
use sledgewren::{Ending, Refusal, Stage, Step};

const WIDTH: usize = 40;

/// A way to fill a table: it shows how far it is and gives the words for the end.
pub type Fill = fn(Ending, Lent, &mut [u8]) -> Result<String, Refusal>;

/// Progress is a courtesy: where it cannot be shown, the work goes on.
fn show(text: &str) {
    let mut screen = io::stderr().lock();
    let _ = screen.write_all(text.as_bytes()).and_then(|()| screen.flush());
}

/// One piece by its name, as arbiters say; the others by their letters.
fn name_of(ending: Ending) -> String {
    ending.only().map_or_else(|| ending.to_string(), |man| man.to_string())
}

fn end(name: &str, greatest: Option<u8>, settled: u32, legal: u32) -> String {
    greatest.map_or(format!("{name}: no position is decided"), |depth| {
        format!("{name}: greatest depth {depth}, {settled} of {legal} decided")
    })
}

/// Does the work while the seconds go by on the screen.
fn with_seconds<T: Send>(name: &str, work: impl FnOnce() -> T + Send) -> T {
    let begun = Instant::now();
    thread::scope(|scope| {
        let (done, told) = mpsc::channel();
        scope.spawn(move || done.send(work()));
        loop {
            show(&format!("\r{name:8} filling, {} s", begun.elapsed().as_secs()));
            match told.recv_timeout(Duration::from_millis(500)) {
                Ok(answer) => return answer,
                Err(mpsc::RecvTimeoutError::Timeout) => {}
                Err(gone) => unreachable!("the work ends with an answer: {gone}"),
            }
        }
    })
}

/// The quicker fill, which does not take a pawn.
fn filled(ending: Ending, lent: Lent, table: &mut [u8]) -> Result<Option<u8>, Refusal> {
    match ending {
        Ending::PAWN => entry::fill(ending, lent, table),
        _ => entry::fill_back(ending, lent, table),
    }
}

/// Fills a table at once.
pub fn at_once(ending: Ending, lent: Lent, table: &mut [u8]) -> Result<String, Refusal> {
    let name = name_of(ending);
    let greatest = if io::stderr().is_terminal() {
        let greatest = with_seconds(&name, || filled(ending, lent, table));
        show("\r\x1b[K");
        greatest?
    } else {
        show(&format!("{name}: filling\n"));
        filled(ending, lent, table)?
    };
    let above = |least: u8| table.iter().filter(|&&byte| byte > least).count() as u32;
    Ok(end(&name, greatest, above(1), above(0)))
}

fn bar(name: &str, depth: u8, settled: u32, legal: u32) -> String {
    let filled = WIDTH * settled as usize / legal.max(1) as usize;
    let (done, rest) = ("#".repeat(filled), ".".repeat(WIDTH - filled));
    format!("\r{name:8} [{done}{rest}] depth {depth:2}, {settled} of {legal} decided")
}

/// Fills a table in steps and shows each depth.
pub fn in_steps(ending: Ending, lent: Lent, table: &mut [u8]) -> Result<String, Refusal> {
    let name = name_of(ending);
    let live = io::stderr().is_terminal();
    let mut progress = entry::fill_start(ending, table)?;
    let legal = table.iter().filter(|&&byte| byte != 0).count() as u32;
    let mut settled = 0;
    loop {
        let stage = progress.stage();
        let (said, next) = entry::fill_step(ending, progress, lent, table);
        progress = next;
        match (said?, stage) {
            (Step::Settled(count), Stage::Going(depth)) => {
                settled += count;
                if live {
                    show(&bar(&name, depth, settled, legal));
                } else {
                    show(&format!("{name}: depth {depth}, {settled} of {legal} decided\n"));
                }
            }
            (Step::Done(greatest), _) => {
                if live {
                    show("\r\x1b[K");
                }
                return Ok(end(&name, greatest, settled, legal));
            }
            _ => {}
        }
    }
}
