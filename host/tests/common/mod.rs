//! Positions written as the desk reads them.

use sledgewren::Position;

/// `Q w b3 h2 a1` as a position; `q` is Black's queen.
pub fn position(text: &str) -> Position {
    text.parse().expect("a position")
}
