//! One word for what the oracle and Gaviota say of a position with a lone pawn.

use gaviota::{Gaviota, Probed};
use second::pawn_counts::PawnTruth;
use second::pawn_position::{PawnPosition, PAWN};
use second::pawn_table::look_up;
use second::position::{Refused, Side};
use second::rule::Value;

/// What is said of three different squares with the kings apart.
#[derive(Clone, Copy, PartialEq, Eq, Debug)]
pub enum Judged {
    /// The side not to move is in check.
    Illegal,
    /// Its value and depth in plies.
    Legal(Value),
    /// Anything else, which is always a difference.
    Strange,
}

pub fn oracle_says(truth: &PawnTruth, position: &PawnPosition) -> Judged {
    match look_up(&truth.own, truth.lent(), &position.keyed()) {
        Ok(answer) => Judged::Legal(answer.value),
        Err(Refused(6)) => Judged::Illegal,
        Err(_) => Judged::Strange,
    }
}

/// Gaviota counts plies to mate: by the side to move it is a win, by the other one a loss. Only the
/// pawn's side can mate.
pub fn gaviota_says(gaviota: &Gaviota, position: &PawnPosition) -> Judged {
    let PawnPosition { side, kings, colour, pawn } = *position;
    let (mating, plies) = match gaviota.probe([PAWN, colour.code(), pawn], side.code(), kings) {
        Probed::Forbidden => return Judged::Illegal,
        Probed::Draw => return Judged::Legal(Value::Draw),
        Probed::WhiteMates(plies) => (Side::White, plies),
        Probed::BlackMates(plies) => (Side::Black, plies),
        Probed::Unknown => return Judged::Strange,
    };
    match u8::try_from(plies) {
        _ if mating != colour => Judged::Strange,
        Ok(depth) if mating == side && depth % 2 == 1 => Judged::Legal(Value::Win(depth)),
        Ok(depth) if mating != side && depth % 2 == 0 => Judged::Legal(Value::Loss(depth)),
        _ => Judged::Strange,
    }
}

/// The byte that stands for what Gaviota says.
pub fn byte_of(judged: Judged) -> Result<u8, String> {
    match judged {
        Judged::Illegal => Ok(0),
        Judged::Legal(Value::Draw) => Ok(1),
        Judged::Legal(Value::Win(depth) | Value::Loss(depth)) if depth <= 253 => Ok(2 + depth),
        _ => Err(format!("Gaviota's answer has no byte: {judged:?}")),
    }
}
