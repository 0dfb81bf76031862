//! Tables of two men beside the two lent tables of one: the byte required, checking, looking up.

use crate::ending::{arranged, Ending};
use crate::four_number::{least, number_of, position_of, NUMBERS_OF_TWO};
use crate::index;
use crate::laws::{each_move, in_check, legal, legal_placement, moves, play};
use crate::number::NUMBERS;
use crate::placement::{Limit, Placement};
use crate::position::{Keyed, Man, Refused};
use crate::rule::{value, Successors, Value, DRAW, UNUSED};
use crate::rules::Move;
use crate::symmetry::{mapped, mapped_back};
use crate::table::{self, wanted, Answer, Checked, Table};

/// One byte a number of two men.
pub type LargeTable = [u8; NUMBERS_OF_TWO];

/// The tables of the first man's kind and the second's, lent for what captures leave.
pub type Small<'a> = [&'a Table; 2];

/// Refusal 7 of the lent small tables.
pub fn small_sized<'a>([first, second]: [&'a [u8]; 2]) -> Result<Small<'a>, Refused> {
    Ok([table::sized(first)?, table::sized(second)?])
}

/// Refusal 7 of a large table.
pub fn sized(bytes: &[u8]) -> Result<&LargeTable, Refused> {
    bytes.try_into().map_err(|_| Refused(7))
}

/// Refusal 7 of a large table lent for writing.
pub fn sized_mut(bytes: &mut [u8]) -> Result<&mut LargeTable, Refused> {
    bytes.try_into().map_err(|_| Refused(7))
}

/// Refusal 17: "one of these is not accepted by the checker".
pub fn accepted(ending: Ending, small: Small) -> Result<(), Refused> {
    let refused = ending.codes().into_iter().zip(small).any(|(code, table)| {
        // The code and the length are right: only its bytes can be at fault.
        table::check(code, table) != Ok(Checked::Accepted)
    });
    if refused {
        Err(Refused(17))
    } else {
        Ok(())
    }
}

/// "A man left alone .. is looked up in its own ending's table": the lent one of his kind.
#[inline]
fn small_for<'a>(ending: Ending, small: Small<'a>, kind: Man) -> &'a Table {
    if ending.first == kind {
        small[0]
    } else {
        small[1]
    }
}

/// What all tables together say of an ending and of what captures leave of it.
#[derive(Clone, Copy)]
pub struct Tables<'a> {
    pub ending: Ending,
    pub large: &'a LargeTable,
    pub small: Small<'a>,
}

impl Tables<'_> {
    /// The byte of a placement of this ending, of one man of it, or of bare kings: a draw.
    #[inline]
    pub fn byte(&self, placement: &Placement) -> u8 {
        match placement.men {
            [Some(_), Some(_)] => self.large[number_of(self.ending, placement)],
            [Some(man), _] => {
                let small = small_for(self.ending, self.small, man.kind);
                placement.alone().map_or(DRAW, |position| small[index::number_of(&position)])
            }
            [None, _] => DRAW,
        }
    }

    /// What a legal placement's successors require of its byte.
    pub fn required_of(&self, placement: &Placement) -> Option<u8> {
        let mut successors = Successors::none();
        each_move(placement, |chosen| successors.add(self.byte(&play(placement, chosen))));
        successors.required(|| in_check(placement))
    }

    /// The byte required at a number, or none where every byte is wrong.
    pub fn required(&self, number: usize) -> Option<u8> {
        match position_of(self.ending, number) {
            Some(placement) if legal(&placement) => self.required_of(&placement),
            _ => Some(UNUSED),
        }
    }

    /// The first move in list order, on the normal board of the class, that leads to the value
    /// wanted, carried back by the map.
    fn first_leading(&self, placement: &Placement, after: Value) -> Option<Move> {
        let map = least(self.ending, placement).1;
        let normal = placement.mapped(|square| mapped(map, square));
        let list = moves(&normal);
        let leads = |&&chosen: &&Move| value(self.byte(&play(&normal, chosen))) == after;
        list.as_slice().iter().find(leads).map(|&Move { from, to, takes }| Move {
            from: mapped_back(map, from),
            to: mapped_back(map, to),
            takes,
        })
    }

    /// Look-up of a legal arranged placement, by what all tables require: refusal 11.
    fn answer(&self, placement: &Placement) -> Result<Answer, Refused> {
        let byte = self.byte(placement);
        if self.required_of(placement) != Some(byte) {
            return Err(Refused(11));
        }
        let held = value(byte);
        let best = wanted(held).and_then(|after| self.first_leading(placement, after));
        Ok(Answer { value: held, best })
    }
}

/// Checking: refusals 1, 7, and 17 before anything of the large table.
pub fn check(
    codes: [u8; 2],
    one_each: bool,
    large: &[u8],
    small: [&[u8]; 2],
) -> Result<Checked, Refused> {
    let ending = Ending::from_codes(codes, one_each)?;
    let tables = Tables { ending, large: sized(large)?, small: small_sized(small)? };
    accepted(ending, tables.small)?;
    let wrong = |&number: &usize| tables.required(number) != Some(large[number]);
    Ok((0..NUMBERS_OF_TWO).find(wrong).map_or(Checked::Accepted, Checked::Wrong))
}

/// Looking up one man or two: refusals 1 to 7 and 11. With one man `own` is his ending's table and
/// the small ones are not read.
pub fn look_up(own: &[u8], small: [&[u8]; 2], keyed: &Keyed) -> Result<Answer, Refused> {
    let placement = legal_placement(keyed, Limit::TwoMen)?;
    let Some((ending, arranged)) = arranged(&placement) else {
        return table::look_up(own, keyed);
    };
    Tables { ending, large: sized(own)?, small: small_sized(small)? }.answer(&arranged)
}

/// The length of a position's own table.
pub fn table_length(placement: &Placement) -> usize {
    match placement.men {
        [Some(_), Some(_)] => NUMBERS_OF_TWO,
        _ => NUMBERS,
    }
}
