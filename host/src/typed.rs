//! Numbers as a clerk types them, with their check digits.

use std::fmt;

use crate::{entry, Man, Position, Refusal};

/// Digits of a typed number: five, and two that check them.
pub const TYPED_DIGITS: usize = 7;

/// A used number with its check digits, by ISO 7064 MOD 97-10. A line of the desk that carries it
/// with one digit altered, or two unequal neighbours exchanged, is refused 13.
///
/// ```
/// use sledgewren::{Refusal, Typed};
///
/// assert_eq!(Typed::of(2049)?.to_string(), "0204962");
/// assert_eq!(Typed::of(2056), Err(Refusal::NumberUnused));
/// # Ok::<(), Refusal>(())
/// ```
#[derive(Clone, Copy, PartialEq, Eq, Hash, Debug)]
pub struct Typed {
    number: u32,
    digits: [u8; TYPED_DIGITS],
}

impl Typed {
    /// Seven digits, lowest byte first, and nothing after them; none of other bytes.
    pub(crate) fn new(number: u32, bytes: [u8; 8]) -> Option<Typed> {
        let [digits @ .., 0] = bytes else { return None };
        digits.iter().all(u8::is_ascii_digit).then_some(Typed { number, digits })
    }

    /// A number with its check. Refusals 8, 9.
    pub fn of(number: u32) -> Result<Typed, Refusal> {
        entry::write_number(number)
    }

    /// The number, 0 to 59,135.
    pub fn number(self) -> u32 {
        self.number
    }

    /// Its seven digits.
    pub fn as_str(&self) -> &str {
        std::str::from_utf8(&self.digits).unwrap_or_default()
    }

    /// The desk's line for a man's position with this number: `Q # 0204962`.
    pub fn line(self, man: Man) -> String {
        format!("{} # {self}", man.letter())
    }
}

/// `0204962`.
impl fmt::Display for Typed {
    fn fmt(&self, out: &mut fmt::Formatter) -> fmt::Result {
        out.pad(self.as_str())
    }
}

impl Position {
    /// Its number with the check digits. Refusals 4, 5.
    pub fn typed(self) -> Result<Typed, Refusal> {
        Typed::of(self.number()?)
    }
}
