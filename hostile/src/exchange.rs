//! Every board keyed twice, with White's man and with the colours, the kings and the side to move
//! exchanged, to both programs' desks: all four slips must be one.

use second::desk as second_desk;
use sledgewren::Desk;

use crate::calls::Tally;
use crate::lines::position_line;

/// Boards keyed so, and those of them that no desk refuses.
#[derive(Default)]
pub struct Boards {
    pub all: u64,
    pub legal: u64,
}

/// All squares on the board, both sides: a man's lines, and the same lines exchanged.
fn lines(man: u8) -> [Vec<u8>; 2] {
    let mut inputs = [Vec::new(), Vec::new()];
    for place in 0..2 * 64usize.pow(3) {
        let [white, square, black] = [place >> 12 & 63, place >> 6 & 63, place & 63];
        let [side, other] = if place >> 18 == 0 { *b"wb" } else { *b"bw" };
        let keyed = [
            position_line(man, side, [white, square, black]),
            position_line(man.to_ascii_lowercase(), other, [black, square, white]),
        ];
        for (input, line) in inputs.iter_mut().zip(keyed) {
            input.extend(line);
            input.push(b'\n');
        }
    }
    inputs
}

/// The slips that a desk writes, or none if it breaks off.
fn slips(run: impl FnOnce(&mut Vec<u8>) -> bool) -> Option<String> {
    let mut output = Vec::new();
    let done = run(&mut output);
    String::from_utf8(output).ok().filter(|_| done)
}

/// One man's boards.
pub fn compare(man: u8, boards: &mut Boards, tally: &mut Tally) -> Result<(), String> {
    let inputs = lines(man);
    let ours = inputs.each_ref().map(|input| slips(|out| Desk::new().run(&input[..], out).is_ok()));
    let theirs =
        inputs.each_ref().map(|input| slips(|out| second_desk::run(&input[..], out).is_ok()));
    let ([Some(one), Some(exchanged)], [Some(second), Some(second_exchanged)]) = (&ours, &theirs)
    else {
        return Err("a desk broke off".to_string());
    };
    let counts = [one, exchanged, second, second_exchanged].map(|slips| slips.lines().count());
    if counts != [2 * 64usize.pow(3); 4] {
        return Err(format!("the desks wrote {counts:?} slips"));
    }
    let asked = String::from_utf8_lossy(&inputs[0]);
    let ours = one.lines().zip(exchanged.lines());
    let theirs = second.lines().zip(second_exchanged.lines());
    for ((line, (one, other)), (third, fourth)) in asked.lines().zip(ours).zip(theirs) {
        boards.all += 1;
        boards.legal += !one.starts_with("refused") as u64;
        tally.add("slips as keyed", &line, one, third);
        tally.add("slips exchanged", &line, other, fourth);
        tally.add("slip and slip exchanged", &line, one, other);
    }
    Ok(())
}
