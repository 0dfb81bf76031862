//! The desk: the scope paper's run with check digits, the table it holds, and whole inputs.

use sledgewren::{Desk, Man};

const INPUT: &str = "\
Q w b3 h2 a1
Q b b3 b2 a1
Q b e5 b3 a1
Q b h8 b2 a1
Q w b3 b2 a1
P w b3 h2 a1
Q w b3 h2
Q # 0204962
";

const OUTPUT: &str = "\
win 1 h2a2
loss 0
draw
draw a1xb2
refused 6
refused 1
refused 12
w a1 b1 h8
";

fn run(input: &[u8]) -> String {
    let mut output = Vec::new();
    Desk::new().run(input, &mut output).unwrap();
    String::from_utf8(output).unwrap()
}

#[test]
fn the_example_run() {
    assert_eq!(run(INPUT.as_bytes()), OUTPUT);
}

#[test]
fn line_by_line() {
    let mut desk = Desk::default();
    for (line, slip) in INPUT.lines().zip(OUTPUT.lines()) {
        let given = desk.answer(line.as_bytes());
        assert_eq!(given.text(), slip);
        assert_eq!(given.bytes(), format!("{slip}\n").as_bytes());
        assert_eq!(given.to_string(), slip);
    }
}

#[test]
fn the_table_held_follows_the_lines() {
    let mut desk = Desk::new();
    assert_eq!(desk.held(), None);
    assert_eq!(desk.answer(b"R b a3 h1 a1").text(), "loss 0");
    assert_eq!(desk.held(), Some(Man::Rook));
    assert_eq!(desk.answer(b"Q # 0204962").text(), "w a1 b1 h8");
    assert_eq!(desk.held(), Some(Man::Rook));
    assert_eq!(desk.answer(b"Q b b3 b2 a1").text(), "loss 0");
    assert_eq!(desk.held(), Some(Man::Queen));
    assert_eq!(desk.answer(b"R b a3 h1 a1").text(), "loss 0");
    assert_eq!(desk.held(), Some(Man::Rook));
}

#[test]
fn the_last_newline() {
    assert_eq!(run(b""), "");
    assert_eq!(run(b"\n"), "refused 12\n");
    assert_eq!(run(b"\n\n"), "refused 12\nrefused 12\n");
    assert_eq!(run(b"Q # 0204962"), "w a1 b1 h8\n");
    assert_eq!(run(b"Q # 0204962\n"), "w a1 b1 h8\n");
    assert_eq!(run(b"Q # 0204962\r\n"), "refused 12\n");
    assert_eq!(run(b"\nx"), "refused 12\nrefused 12\n");
}

#[test]
fn long_lines() {
    let mut input = b"Q # 0204962".to_vec();
    input.resize(1 << 20, b'0');
    input.push(b'\n');
    input.extend_from_slice(b"Q # 0204962\n");
    assert_eq!(run(&input), "refused 12\nw a1 b1 h8\n");
    let mut desk = Desk::new();
    assert_eq!(desk.answer(&input).text(), "refused 12");
}

#[test]
fn any_bytes() {
    let mut desk = Desk::new();
    for byte in 0..=255u8 {
        for len in 0..20 {
            assert_eq!(desk.answer(&vec![byte; len]).text(), "refused 12", "{len} of {byte}");
        }
    }
}
