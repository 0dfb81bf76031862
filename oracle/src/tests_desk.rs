//! Self tests of the desk program and of 01's own examples.

use std::io::{self, Read};

use crate::board;
use crate::cases::{answer, CASES, RUN_INPUT, RUN_OUTPUT};
use crate::desk;
use crate::position::{Keyed, Man, Side, MEN};
use crate::rule::Value;
use crate::rules::Move;
use crate::selftest::{every_keyed, every_keyed_of, expect, Test, Truth, Verdict};
use crate::table::{look_up, Answer};

pub const TESTS: &[Test] = &[
    ("every position of 01's bench has its answer", bench),
    ("01's run as 02 has changed it, byte for byte", example_run),
    ("01's run, read in pieces of every size up to 20 bytes", run_in_pieces),
    ("the desk answers each odd line as 01 and 02 say", odd_lines),
    ("the desk takes lines of any length, and ends each answer in a newline", whole_inputs),
    ("each slip read back is its answer, `x` and all, on every legal position", slips_read_back),
    ("exchanging the colours leaves the slip as it is, on every board", slips_exchanged),
];

fn desk_on(input: impl Read) -> Result<String, String> {
    let mut output = Vec::new();
    if desk::run(input, &mut output).is_err() {
        return Err("the desk failed".to_string());
    }
    String::from_utf8(output).map_err(|error| error.to_string())
}

fn bench(_: &Truth) -> Verdict {
    for case in &CASES {
        let found = answer(&case.ask);
        expect(found == case.answer, || format!("{}: {found}", case.says))?;
    }
    Ok(())
}

fn example_run(_: &Truth) -> Verdict {
    let output = desk_on(RUN_INPUT.as_bytes())?;
    expect(output == RUN_OUTPUT, || output.clone())?;
    let unended = RUN_INPUT.trim_end_matches('\n');
    let output = desk_on(unended.as_bytes())?;
    expect(output == RUN_OUTPUT, || format!("without the last newline: {output}"))
}

/// Input that comes a few bytes at a time.
struct Pieces<'a>(&'a [u8], usize);

impl Read for Pieces<'_> {
    fn read(&mut self, buffer: &mut [u8]) -> io::Result<usize> {
        let count = self.1.min(self.0.len()).min(buffer.len());
        let (piece, rest) = self.0.split_at(count);
        buffer[..count].copy_from_slice(piece);
        self.0 = rest;
        Ok(count)
    }
}

fn run_in_pieces(_: &Truth) -> Verdict {
    for size in 1..=20 {
        let output = desk_on(Pieces(RUN_INPUT.as_bytes(), size))?;
        expect(output == RUN_OUTPUT, || format!("pieces of {size}: {output}"))?;
    }
    Ok(())
}

/// Lines and answers; a line's shape comes first, then the lowest number.
const ODD_LINES: &[(&str, &str)] = &[
    // The man is taken; in the last a plain move stands before the taking one.
    ("R b h8 b2 a1", "draw a1xb2"),
    ("Q b a8 h2 h1", "draw h1xh2"),
    ("R b a8 g1 h1", "draw h1xg1"),
    ("R b a1 d5 e4", "draw e4xd5"),
    ("B b a1 e3 e4", "draw e4d3"),
    ("", "refused 12"),
    (" ", "refused 12"),
    ("Q", "refused 12"),
    ("Q w b3 h2 a", "refused 12"),
    ("Q w b3 h2 a1 ", "refused 12"),
    ("Q w b3 h2 a1\r", "refused 12"),
    (" Q w b3 h2 a", "refused 12"),
    ("Q  w b3h2 a1", "refused 12"),
    ("Qxw b3 h2 a1", "refused 12"),
    ("Q w b3\th2 a1", "refused 12"),
    ("  w b3 h2 a1", "refused 12"),
    ("Q   b3 h2 a1", "refused 12"),
    ("Q w  3 h2 a1", "refused 12"),
    ("Q w b3 h  a1", "refused 12"),
    ("Q w b3 h2 a ", "refused 12"),
    ("X y z9 z9 z ", "refused 12"),
    ("P y z9 z9 z9", "refused 1"),
    // 01's run with Black's man: colours, kings and side exchanged.
    ("q b a1 h2 b3", "win 1 h2a2"),
    ("q w a1 b2 b3", "loss 0"),
    ("q w a1 b3 e5", "draw"),
    ("q w a1 b2 h8", "draw a1xb2"),
    ("q b a1 b2 b3", "refused 6"),
    ("r w a1 h1 a3", "loss 0"),
    ("n w a1 c3 b3", "draw"),
    ("p b a1 h2 b3", "refused 1"),
    ("k w b3 h2 a1", "refused 1"),
    ("q x b3 h2 a1", "refused 2"),
    ("r w b3 h9 a1", "refused 3"),
    ("b w b3 b3 a1", "refused 4"),
    ("n w b2 a8 a1", "refused 5"),
    ("K w b3 h2 a1", "refused 1"),
    ("\0 w b3 h2 a1", "refused 1"),
    ("Q W b3 h2 a1", "refused 2"),
    ("Q # b3 h2 a1", "refused 2"),
    ("P # b3 h2 a1", "refused 1"),
    ("Q \0 z9 h2 a1", "refused 2"),
    ("Q w B3 h2 a1", "refused 3"),
    ("Q w b0 h2 a1", "refused 3"),
    ("Q w b3 h9 a1", "refused 3"),
    ("Q w b3 i2 a1", "refused 3"),
    ("Q w b3 h2 1a", "refused 3"),
    ("Q w b3 b3 z1", "refused 3"),
    ("Q w b3 h2 a\r", "refused 3"),
    ("Q w b3 b3 a1", "refused 4"),
    ("Q w b3 a2 a2", "refused 4"),
    ("Q w b2 a8 a1", "refused 5"),
    ("Q # 020496", "refused 12"),
    ("Q # 02049620", "refused 12"),
    ("Q # 020 9620", "refused 12"),
    ("Q # 02049", "refused 12"),
    ("Q # 99999", "refused 12"),
    ("P # 02056", "refused 12"),
    ("Q w 0204962", "refused 12"),
    ("Q#  0204962", "refused 12"),
    ("Q # 020496x", "refused 12"),
    ("Q # 0 04962", "refused 12"),
    ("Q #  204962", "refused 12"),
    ("Q # 204962 ", "refused 12"),
    ("Q #+0204962", "refused 12"),
    ("  # 0204962", "refused 12"),
    ("Q\t# 0204962", "refused 12"),
    ("P # 020496x", "refused 12"),
    ("Q # 0204963", "refused 13"),
    ("Q # 0209462", "refused 13"),
    ("P # 0204900", "refused 13"),
    ("Q # 9999999", "refused 13"),
    ("Q # 0205600", "refused 13"),
    // Endings that leave 1 on division by 97, but are no check from 02 to 98.
    ("Q # 0000001", "refused 13"),
    ("Q # 0003299", "refused 13"),
    ("Q # 0006500", "refused 13"),
    ("Q # 0000098", "refused 9"),
    ("Q # 0003202", "w a1 a5 c1"),
    ("Q # 0006597", "w a1 b1 d1"),
    ("q # 0204962", "refused 1"),
    ("r # 0205641", "refused 1"),
    ("b # 9999925", "refused 1"),
    ("n # 5913606", "refused 1"),
    ("q # 0204963", "refused 13"),
    ("n # 020496x", "refused 12"),
    ("r # 02049", "refused 12"),
    ("P # 0204962", "refused 1"),
    ("P # 9999925", "refused 1"),
    ("P # 0205641", "refused 1"),
    ("Q # 5913606", "refused 8"),
    ("Q # 9999925", "refused 8"),
    ("Q # 0205641", "refused 9"),
    ("R # 5912830", "refused 9"),
    ("N # 5912733", "b d4 h7 h8"),
    ("B # 0006306", "w a1 h8 c1"),
];

fn odd_lines(_: &Truth) -> Verdict {
    for (line, due) in ODD_LINES {
        let output = desk_on(format!("{line}\n").as_bytes())?;
        expect(output == format!("{due}\n"), || format!("{line:?}: {output}"))?;
    }
    let input: String = ODD_LINES.iter().map(|(line, _)| format!("{line}\n")).collect();
    let due: String = ODD_LINES.iter().map(|(_, due)| format!("{due}\n")).collect();
    let output = desk_on(input.as_bytes())?;
    expect(output == due, || "all the odd lines in one input".to_string())
}

fn whole_inputs(_: &Truth) -> Verdict {
    let long = "Q".repeat(1_000_000);
    let two = format!("{long}\nQ b b3 b2 a1\n{long}");
    let inputs: [(&[u8], &str); 7] = [
        (b"", ""),
        (b"\n", "refused 12\n"),
        (b"\n\n", "refused 12\nrefused 12\n"),
        (b"Q b b3 b2 a1", "loss 0\n"),
        (b"Q b b3 b2 a1\n", "loss 0\n"),
        (b"\xff\xfe\r\n\0\n", "refused 12\nrefused 12\n"),
        (two.as_bytes(), "refused 12\nloss 0\nrefused 12\n"),
    ];
    for (input, due) in inputs {
        let output = desk_on(input)?;
        expect(output == due, || format!("{} bytes: {output}", input.len()))?;
    }
    Ok(())
}

fn square_of(name: &[u8]) -> Option<u8> {
    match name {
        &[file @ b'a'..=b'h', rank @ b'1'..=b'8'] => Some(8 * (rank - b'1') + (file - b'a')),
        _ => None,
    }
}

/// A move as it stands on a slip: two squares, or two squares with `x` between them.
fn read_move(text: &str) -> Option<Move> {
    let (from, to, takes) = match *text.as_bytes() {
        [ref from @ .., b'x', file, rank] => (from, [file, rank], true),
        [ref from @ .., file, rank] => (from, [file, rank], false),
        _ => return None,
    };
    Some(Move { from: square_of(from)?, to: square_of(&to)?, takes })
}

/// An answer read from its slip, by a reader that knows nothing of the writer.
fn read_slip(slip: &str) -> Option<Answer> {
    let mut words = slip.split(' ');
    let number = |word: Option<&str>| word.and_then(|word| word.parse().ok());
    let value = match words.next()? {
        "win" => Value::Win(number(words.next())?),
        "loss" => Value::Loss(number(words.next())?),
        "draw" => Value::Draw,
        _ => return None,
    };
    let best = words.next().map(read_move);
    match (best, words.next()) {
        (Some(None), _) | (_, Some(_)) => None,
        (best, None) => Some(Answer { value, best: best.flatten() }),
    }
}

fn slips_read_back(truth: &Truth) -> Verdict {
    let mut taking = 0;
    for man in MEN {
        for keyed in every_keyed(man) {
            let Ok(answer) = look_up(truth.table(man), &keyed) else { continue };
            let slip = desk::answer_text(&Ok(answer));
            taking += slip.contains('x') as u32;
            expect(read_slip(&slip) == Some(answer), || format!("{keyed:?}: {slip}"))?;
        }
    }
    expect(taking > 0, || "no slip takes".to_string())
}

/// A position line, as an arbiter keys it.
fn line_of(man: Man, keyed: &Keyed) -> Option<String> {
    let Keyed { side, white_king, black_king, men } = *keyed;
    let (first, letter) = (men[0]?, man.letter() as char);
    let letter = if first.colour == 0 { letter } else { letter.to_ascii_lowercase() };
    let squares = [white_king, first.square, black_king].map(board::name).join(" ");
    Some(format!("{letter} {} {squares}\n", Side::from_code(side)?.letter()))
}

fn slips_exchanged(_: &Truth) -> Verdict {
    for man in MEN {
        let keyed = || every_keyed_of(man, Side::White);
        let lines: Option<String> = keyed().map(|keyed| line_of(man, &keyed)).collect();
        let others: Option<String> =
            keyed().map(|keyed| line_of(man, &keyed.exchanged())).collect();
        let (Some(lines), Some(others)) = (lines, others) else {
            return Err("a board has no line".to_string());
        };
        let (slips, other_slips) = (desk_on(lines.as_bytes())?, desk_on(others.as_bytes())?);
        let unlike = slips.lines().zip(other_slips.lines()).position(|(one, other)| one != other);
        expect(slips == other_slips, || format!("{}, line {unlike:?}", man.name()))?;
    }
    Ok(())
}
