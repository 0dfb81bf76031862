//! Medians of alternating measurements, and the table they are printed in.

use std::time::Duration;

/// Seconds and nanoseconds, as C has them on x86-64 Linux.
#[repr(C)]
struct Time {
    seconds: i64,
    parts: i64,
}

/// Times of processes that have ended, then what is not read here.
#[repr(C)]
struct Usage {
    user: Time,
    system: Time,
    rest: [i64; 14],
}

extern "C" {
    fn clock_gettime(clock: i32, time: *mut Time) -> i32;
    fn getrusage(who: i32, usage: *mut Usage) -> i32;
}

const THREAD_CPU: i32 = 3;
const CHILDREN: i32 = -1;

/// Processor time of this thread, which others on the machine do not lengthen.
fn thread_time() -> Duration {
    let mut time = Time { seconds: 0, parts: 0 };
    // SAFETY: it writes one `Time`.
    unsafe { clock_gettime(THREAD_CPU, &mut time) };
    Duration::new(time.seconds as u64, time.parts as u32)
}

/// Processor time of the programs that have been run and have ended.
fn children_time() -> Duration {
    let none = || Time { seconds: 0, parts: 0 };
    let mut usage = Usage { user: none(), system: none(), rest: [0; 14] };
    // SAFETY: it writes one `Usage`.
    unsafe { getrusage(CHILDREN, &mut usage) };
    let duration = |time: Time| Duration::new(time.seconds as u64, time.parts as u32 * 1000);
    duration(usage.user) + duration(usage.system)
}

/// The time that one run of `work` takes in this thread.
pub fn timed(work: impl FnOnce()) -> Duration {
    let start = thread_time();
    work();
    thread_time() - start
}

/// The time that a program takes which `work` runs to its end.
pub fn timed_program(work: impl FnOnce()) -> Duration {
    let start = children_time();
    work();
    children_time() - start
}

pub fn median(mut times: Vec<Duration>) -> f64 {
    times.sort();
    let middle = times.len() / 2;
    match times.len() % 2 {
        1 => times[middle].as_secs_f64(),
        _ => (times[middle - 1] + times[middle]).as_secs_f64() / 2.0,
    }
}

/// Runs the library's work and the other's in turn, so that both meet the same machine, and gives
/// the two medians in seconds. A first run of each is not counted.
pub fn medians(
    repeats: usize,
    mut library: impl FnMut() -> Duration,
    mut other: impl FnMut() -> Duration,
) -> (f64, f64) {
    library();
    other();
    let (mut ours, mut theirs) = (Vec::new(), Vec::new());
    for _ in 0..repeats {
        ours.push(library());
        theirs.push(other());
    }
    (median(ours), median(theirs))
}

/// What a time is for.
pub enum Of {
    /// The whole work.
    Whole,
    /// Each of so many positions.
    Each(usize),
    /// Each of so many, with how many that is in a second.
    Rate(usize),
}

/// A line of the table: seconds of the library and of what stands beside it.
pub struct Row {
    pub what: String,
    pub library: f64,
    pub beside: &'static str,
    pub other: f64,
    /// What one work consists of.
    pub of: Of,
    /// The greatest ratio wanted.
    pub goal: Option<f64>,
}

/// Seconds in a unit that leaves few digits.
fn seconds(time: f64) -> String {
    match time {
        _ if time >= 1.0 => format!("{time:.2} s"),
        _ if time >= 1e-3 => format!("{:.2} ms", time * 1e3),
        _ if time >= 1e-6 => format!("{:.2} us", time * 1e6),
        _ => format!("{:.1} ns", time * 1e9),
    }
}

fn written(time: f64, of: &Of) -> String {
    match *of {
        Of::Whole => seconds(time),
        Of::Each(count) => seconds(time / count as f64),
        Of::Rate(count) => {
            let (count, each) = (count as f64, seconds(time / count as f64));
            format!("{each}, {:.2} million/s", count / time / 1e6)
        }
    }
}

/// The greatest ratio wanted, and whether it is met; a ratio that is not known is no number.
pub fn judged(goal: Option<f64>, ratio: f64) -> String {
    let Some(goal) = goal else { return String::new() };
    let is_met = match ratio {
        _ if ratio.is_nan() => "unknown",
        _ if ratio <= goal => "met",
        _ => "not met",
    };
    // Three places at most: a twelfth has more.
    format!("at most {}: {is_met}", (goal * 1000.0).round() / 1000.0)
}

pub fn print(rows: &[Row]) {
    println!("| What | Library | Beside it | Its time | Ratio | Goal |");
    println!("|---|---|---|---|---|---|");
    for row in rows {
        let (ours, theirs) = (written(row.library, &row.of), written(row.other, &row.of));
        let ratio = row.library / row.other;
        let goal = judged(row.goal, ratio);
        println!("| {} | {ours} | {} | {theirs} | {ratio:.2} | {goal} |", row.what, row.beside);
    }
}
