//! The subcommands of the plain search, and the positions it is shown on.

use std::ffi::OsString;
use std::io::{self, Write};

use crate::commands::{refused_text, Colours, Out};
use crate::failure::{usage, Done};
use crate::lines::for_each_keyed;
use crate::position::Keyed;
use crate::samples::{exchanged, keyed_of, line_of, Line};
use crate::search::{search, Opinion, MOST_PLIES};

#[rustfmt::skip]
const SAMPLE: &[&str] = &[
    // Every depth from 0 to 8 with a queen and with a rook, rising.
    "Q b g3 d1 g1", "Q b b3 b2 a1", "Q w b3 h2 a1", "Q w c5 f8 a5", "Q b e6 g7 e8", "Q b c1 d7 a1",
    "Q w h4 f4 g1", "Q w e3 d8 f1", "Q b g4 c2 e1", "Q b d1 b6 b1", "Q w b2 c4 d2", "Q w g4 f8 g6",
    "Q b c1 d5 c3", "Q b c7 b1 a3", "Q w g4 g6 f2", "Q b e1 f5 h3",
    "R b c6 e8 c8", "R b a3 h1 a1", "R w f6 a2 f8", "R w c6 g3 a6", "R b f2 a4 h1", "R b d3 b7 c1",
    "R w g4 b5 h1", "R w c5 h1 a4", "R b f6 d1 h8", "R b c6 e1 a7", "R w d7 d8 a6", "R w e7 e4 h7",
    "R b b4 e2 a1", "R b f5 g4 h6", "R w d5 b3 a2", "R b e5 g6 h8",
    // Stalemates, a man that is lost, and men that cannot mate.
    "Q b e5 b3 a1", "Q b f7 g6 h8", "R b f6 g7 h8", "B b b3 d3 a1", "N b b3 c3 a1", "Q b h8 b2 a1",
    "R b a8 g1 h1", "B w c2 e4 a1", "B b b6 c6 a8", "N w b6 d6 a8", "N b f7 f6 h8",
    // Refused 1 to 6.
    "P w b3 h2 a1", "Q x b3 h2 a1", "Q w b3 h9 a1", "R b b3 b3 a1", "B w b2 h2 a1", "Q w b3 b2 a1",
];

/// White's man, and with both colours the same positions with the colours exchanged.
fn sample(colours: Colours) -> Vec<Line> {
    let white: Vec<Line> = SAMPLE.iter().filter_map(|text| line_of(text)).collect();
    match colours {
        Colours::White => white,
        Colours::Both => {
            white.iter().copied().chain(white.iter().copied().map(exchanged)).collect()
        }
    }
}

fn search_text(keyed: &Keyed, plies: u8) -> String {
    match search(keyed, plies) {
        Ok(Opinion::Win(depth)) => format!("win {depth}"),
        Ok(Opinion::Loss(depth)) => format!("loss {depth}"),
        Ok(Opinion::NotWithin) => format!("not within {plies}"),
        Err(refused) => refused_text(refused),
    }
}

/// `search K`: each line on standard input, searched K plies deep.
pub fn search_lines(rest: &[OsString], output: &mut Out) -> Done {
    let plies = match rest {
        [word] => word.to_str().and_then(|text| text.parse().ok()),
        _ => None,
    };
    let Some(plies) = plies else {
        return usage("search takes a number of plies from 0 to 255: oracle search 6");
    };
    for_each_keyed(io::stdin().lock(), output, |keyed, output| {
        writeln!(output, "{}", search_text(keyed, plies))
    })
}

/// `search-positions [both]`: the sample as input lines.
pub fn sample_lines(rest: &[OsString], output: &mut Out) -> Done {
    let colours = Colours::named("search-positions", rest)?;
    for line in sample(colours) {
        writeln!(output, "{}", colours.text(line))?;
    }
    Ok(())
}

/// `search-cases [both]`: each line of the sample, a number of plies and the answer; the last
/// number is one too many.
pub fn sample_answers(rest: &[OsString], output: &mut Out) -> Done {
    let colours = Colours::named("search-cases", rest)?;
    for line in sample(colours) {
        for plies in 0..=MOST_PLIES + 1 {
            let answer = search_text(&keyed_of(line), plies);
            writeln!(output, "{} within {plies}: {answer}", colours.text(line))?;
        }
    }
    Ok(())
}
