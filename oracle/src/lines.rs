//! Input line by line, in bounded memory.

use std::io::{self, ErrorKind, Read, Write};

use crate::failure::{usage, Done, Failure};
use crate::position::{Keyed, KeyedMan, Side};

const CHUNK: usize = 1 << 16;

fn read_some(input: &mut impl Read, chunk: &mut [u8]) -> io::Result<usize> {
    loop {
        match input.read(chunk) {
            Err(error) if error.kind() == ErrorKind::Interrupted => continue,
            other => return other,
        }
    }
}

fn keep(line: &mut Vec<u8>, more: &[u8], longest: usize) {
    let room = longest.saturating_sub(line.len());
    line.extend_from_slice(&more[..more.len().min(room)]);
}

/// Gives each line to `answer`, without its newline and cut to `longest` bytes. The last
/// line may lack its newline, and a final newline opens no further line. What has been
/// answered is written out before more input is waited for.
pub fn for_each_line<R: Read, W: Write>(
    mut input: R,
    output: &mut W,
    longest: usize,
    mut answer: impl FnMut(&[u8], &mut W) -> Done,
) -> Done {
    let mut chunk = vec![0; CHUNK];
    let mut line = Vec::with_capacity(longest);
    let mut begun = false;
    loop {
        output.flush()?;
        let count = read_some(&mut input, &mut chunk)?;
        if count == 0 {
            break;
        }
        for part in chunk[..count].split_inclusive(|&byte| byte == b'\n') {
            let (text, ended) = match part.split_last() {
                Some((b'\n', text)) => (text, true),
                _ => (part, false),
            };
            keep(&mut line, text, longest);
            begun = !ended;
            if ended {
                answer(&line, output)?;
                line.clear();
            }
        }
    }
    if begun {
        answer(&line, output)?;
    }
    output.flush()?;
    Ok(())
}

/// No line of decimal numbers is longer.
const LONGEST_NUMBERS: usize = 100;

/// A decimal number; one too large for 64 bits counts as the greatest.
fn decimal(word: &str) -> Option<u64> {
    if word.is_empty() || !word.bytes().all(|byte| byte.is_ascii_digit()) {
        return None;
    }
    let digit =
        |total: u64, byte: u8| total.saturating_mul(10).saturating_add((byte - b'0') as u64);
    Some(word.bytes().fold(0, digit))
}

/// Decimal numbers with blanks between them.
fn numbers(line: &[u8]) -> Option<Vec<u64>> {
    if line.len() > LONGEST_NUMBERS {
        return None;
    }
    let text = std::str::from_utf8(line).ok()?;
    text.split_ascii_whitespace().map(decimal).collect()
}

/// Answers each line of decimal numbers; a malformed line ends the command.
fn for_each_list<R: Read, W: Write>(
    input: R,
    output: &mut W,
    wanted: &str,
    mut answer: impl FnMut(Vec<u64>, &mut W) -> Option<Done>,
) -> Done {
    let mut count = 0u64;
    for_each_line(input, output, LONGEST_NUMBERS + 1, |line, output| {
        count += 1;
        match numbers(line).and_then(|found| answer(found, output)) {
            Some(done) => done,
            None => usage(format!("line {count} is not of the form: {wanted}")),
        }
    })
}

/// Answers each line of exactly `N` decimal numbers.
pub fn for_each_numbers<const N: usize, R: Read, W: Write>(
    input: R,
    output: &mut W,
    wanted: &str,
    mut answer: impl FnMut([u64; N], &mut W) -> Option<Done>,
) -> Done {
    for_each_list(input, output, wanted, |found, output| {
        answer(<[u64; N]>::try_from(found).ok()?, output)
    })
}

/// The position that a line keys: a man, White's unless a colour follows, and perhaps a second.
fn keyed_of(bytes: &[u8]) -> Option<Keyed> {
    let (&[kind, side, white_king, square, black_king], rest) = bytes.split_first_chunk()?;
    let (colour, second) = match *rest {
        [] => (Side::White.code(), None),
        [colour] => (colour, None),
        [colour, kind, other, square] => (colour, Some(KeyedMan { kind, colour: other, square })),
        _ => return None,
    };
    let first = Some(KeyedMan { kind, colour, square });
    Some(Keyed { side, white_king, black_king, men: [first, second] })
}

/// Answers each line that keys a position: five, six or nine decimal numbers from 0 to 255.
pub fn for_each_keyed<R: Read, W: Write>(
    input: R,
    output: &mut W,
    mut answer: impl FnMut(&Keyed, &mut W) -> io::Result<()>,
) -> Done {
    let wanted = "man side whiteking mansquare blackking [colour [man colour square]] (0 to 255)";
    for_each_list(input, output, wanted, |found, output| {
        let bytes: Option<Vec<u8>> = found.into_iter().map(|n| u8::try_from(n).ok()).collect();
        Some(answer(&keyed_of(&bytes?)?, output).map_err(Failure::from))
    })
}
