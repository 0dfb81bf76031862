//! The desk: lines in, slips out.

use std::fmt;
use std::io::{self, ErrorKind, Read, Write};

use crate::{entry, Man, Table};

/// Room for any slip.
pub const SLIP_BYTES: usize = 16;

/// The desk's answer to one line.
#[derive(Clone, Copy, PartialEq, Eq, Debug)]
pub struct Slip {
    bytes: [u8; SLIP_BYTES],
    len: usize,
}

impl Slip {
    /// None unless the first `len` bytes are plain text.
    pub(crate) fn new(bytes: [u8; SLIP_BYTES], len: usize) -> Option<Slip> {
        bytes.get(..len)?.is_ascii().then_some(Slip { bytes, len })
    }

    /// The slip's bytes, its newline included.
    pub fn bytes(&self) -> &[u8] {
        &self.bytes[..self.len]
    }

    /// The slip's text, without its newline.
    pub fn text(&self) -> &str {
        std::str::from_utf8(self.bytes()).unwrap_or_default().trim_end_matches('\n')
    }
}

impl fmt::Display for Slip {
    fn fmt(&self, out: &mut fmt::Formatter) -> fmt::Result {
        out.write_str(self.text())
    }
}

/// A desk that holds the table of one man and fills another when a line needs it. Lines of two men
/// in turn make it fill a table for each: sort them by their man where there are many.
#[derive(Debug)]
pub struct Desk {
    held: Option<Man>,
    table: Table,
}

impl Default for Desk {
    fn default() -> Desk {
        Desk::new()
    }
}

/// Bytes of a line that are kept: a longer line already has the wrong length.
const LONGEST: usize = 13;

impl Desk {
    /// A desk that holds no table yet.
    pub fn new() -> Desk {
        Desk { held: None, table: Table::zeroed() }
    }

    /// The man whose table it holds.
    pub fn held(&self) -> Option<Man> {
        self.held
    }

    /// Answers one line, given without its newline.
    pub fn answer(&mut self, line: &[u8]) -> Slip {
        let (slip, held) = entry::answer_line(line, self.held, &mut self.table.bytes_mut()[..]);
        self.held = held;
        slip
    }

    /// Answers every line of the input; the last may lack its newline. Slips are written before
    /// more input is waited for. Lines of any length take no more room than the longest right one.
    pub fn run(&mut self, mut input: impl Read, mut output: impl Write) -> io::Result<()> {
        let (mut chunk, mut slips) = (vec![0; 1 << 16], Vec::new());
        let (mut line, mut open) = (Vec::with_capacity(LONGEST), false);
        loop {
            let count = match input.read(&mut chunk) {
                Err(error) if error.kind() == ErrorKind::Interrupted => continue,
                other => other?,
            };
            if count == 0 {
                break;
            }
            for part in chunk[..count].split_inclusive(|&byte| byte == b'\n') {
                let text = part.strip_suffix(b"\n").unwrap_or(part);
                line.extend_from_slice(&text[..text.len().min(LONGEST - line.len())]);
                open = text.len() == part.len();
                if !open {
                    slips.extend_from_slice(self.answer(&line).bytes());
                    line.clear();
                }
            }
            output.write_all(&slips)?;
            output.flush()?;
            slips.clear();
        }
        if open {
            output.write_all(self.answer(&line).bytes())?;
        }
        output.flush()
    }
}
