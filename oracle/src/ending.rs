//! Endings of two men: "both White's, or one each".

use crate::board::Square;
use crate::placement::{Owned, Placement};
use crate::position::{Man, Refused, Side, MEN};

/// "The kind earlier in Q, R, B, N counts as first, and for one each it is White's."
#[derive(Clone, Copy, PartialEq, Eq, Debug)]
pub struct Ending {
    pub first: Man,
    pub second: Man,
    pub one_each: bool,
}

impl Ending {
    /// All twenty: both White's, then one each.
    pub fn all() -> impl Iterator<Item = Ending> {
        [false, true].into_iter().flat_map(|one_each| {
            MEN.into_iter().flat_map(move |first| {
                let seconds = MEN.into_iter().skip(first as usize);
                seconds.map(move |second| Ending { first, second, one_each })
            })
        })
    }

    /// Refusal 1: a code above 3, or the later kind first, which is no ending.
    pub fn from_codes([first, second]: [u8; 2], one_each: bool) -> Result<Ending, Refused> {
        let first = Man::from_code(first).ok_or(Refused(1))?;
        let second = Man::from_code(second).ok_or(Refused(1))?;
        if first.code() > second.code() {
            return Err(Refused(1));
        }
        Ok(Ending { first, second, one_each })
    }

    pub fn codes(&self) -> [u8; 2] {
        [self.first.code(), self.second.code()]
    }

    /// `KQRK` with both White's, `KQKR` with one each.
    pub fn name(&self) -> String {
        let [first, second] = [self.first, self.second].map(|man| man.letter() as char);
        if self.one_each {
            format!("K{first}K{second}")
        } else {
            format!("K{first}{second}K")
        }
    }

    pub fn named(name: &str) -> Option<Ending> {
        Ending::all().find(|ending| ending.name() == name)
    }

    /// Like men, "same kind and colour", may be exchanged.
    pub fn like(&self) -> bool {
        self.first == self.second && !self.one_each
    }

    /// The owner of the second man.
    pub fn second_colour(&self) -> Side {
        if self.one_each {
            Side::Black
        } else {
            Side::White
        }
    }

    /// The first man on the first square and the second on the second.
    pub fn placement(
        &self,
        side: Side,
        kings: [Square; 2],
        [first, second]: [Square; 2],
    ) -> Placement {
        let first = Owned { kind: self.first, colour: Side::White, square: first };
        let second = Owned { kind: self.second, colour: self.second_colour(), square: second };
        Placement { side, kings, men: [Some(first), Some(second)] }
    }
}

/// Must the man in the second slot count as first?
fn second_first(first: Owned, second: Owned) -> bool {
    if first.kind == second.kind {
        // "With like kinds one each, White's is first."
        return first.colour == Side::Black && second.colour == Side::White;
    }
    second.kind.code() < first.kind.code()
}

/// The ending of two men, and their placement with the first man first and White's: "P9's exchange
/// serves the rest, two black men too". No square changes.
pub fn arranged(placement: &Placement) -> Option<(Ending, Placement)> {
    let [Some(one), Some(other)] = placement.men else { return None };
    let [first, second] = if second_first(one, other) { [other, one] } else { [one, other] };
    let ordered = Placement { men: [Some(first), Some(second)], ..*placement };
    let one_each = first.colour != second.colour;
    let ending = Ending { first: first.kind, second: second.kind, one_each };
    let exchanged = first.colour == Side::Black;
    Some((ending, if exchanged { ordered.exchanged() } else { ordered }))
}
