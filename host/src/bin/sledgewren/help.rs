//! The one source of the help texts and of the man page.

/// What there is to say of a command.
struct Page {
    name: &'static str,
    usage: &'static str,
    about: &'static str,
    text: &'static [&'static str],
    examples: &'static [&'static str],
}

const ABOUT: &str =
    "rules on chess positions of two kings and one piece, two or a pawn, and makes tables";

const INTRODUCTION: &[&str] = &[
    "A position is two kings and one queen, rook, bishop or knight of either side, or two of them, \
     or one pawn. It is given in FEN, or with one piece as a line of the desk: the man (Q R B N, \
     Black's q r b n), the side to move (w b), the white king, the man and the black king, as \
     Q w b3 h2 a1; or the man, # and a number with its check digits, as Q # 0204962.",
    "Every value, move and verdict is the proved library's.",
    "A MAN is Q, R, B or N, or queen, rook, bishop or knight. An ENDING is a man or P or pawn, or \
     is named by its pieces, as KQK, KQRK (both of one side), KQKR (one each) or KPK. A table \
     serves both colours.",
];

const STATUSES: &[&str] = &[
    "0   answered, written or accepted",
    "1   refused, not accepted, or a file or the output could not be read or written",
    "2   wrong usage",
    "141 the reader of the output went away",
];

const PAGES: &[Page] = &[
    Page {
        name: "rule",
        usage: "sledgewren rule [--svg FILE] [--table FILE] FEN|LINE",
        about: "judges a position",
        text: &[
            "Prints the board, the value with its moves and plies, the best move in standard \
             notation and in the desk's form, the line of best play to mate, the second opinion \
             of a search without tables (up to 6 plies), the desk's slip and the number.",
            "With two men or a pawn there is no second opinion, slip or typed number. Their table \
             is filled, which takes some seconds with two men and is told on standard error, or read \
             from --table FILE and checked.",
            "--svg FILE draws the board, with the move as an arrow.",
            "FEN's castling rights and en-passant square are refused, but for the square behind a \
             lone pawn, whom nobody can take there: the tables know neither. Its halfmove clock is \
             the plies since the last capture: it is told whether a win or a loss comes before a \
             claim by the fifty-move rule, with a pawn not. A third man, a pawn with a second man \
             or no man at all is refused.",
        ],
        examples: &[
            "sledgewren rule Q w b3 h2 a1",
            "sledgewren rule \"8/8/8/8/8/1K6/7Q/k7 w - - 0 1\"",
            "sledgewren rule \"8/P7/8/8/8/8/2K5/k7 w - - 0 1\"",
        ],
    },
    Page {
        name: "fill",
        usage: "sledgewren fill [--steps] ENDING FILE",
        about: "makes an ending's table",
        text: &[
            "Fills the table, has it checked and writes its 59,136 bytes, 3,784,704 with two men, \
             196,608 with a pawn. The file is written beside its place and renamed, so that FILE has \
             its old bytes or all of the new ones.",
            "That it fills goes to standard error, at a terminal with the seconds. With --steps it \
             fills a depth at a time, which takes longer, and shows each: a bar at a terminal, \
             plain lines elsewhere. The bytes are the same.",
        ],
        examples: &[
            "sledgewren fill queen queen.table",
            "sledgewren fill --steps KBNK kbnk.table",
        ],
    },
    Page {
        name: "check",
        usage: "sledgewren check ENDING FILE",
        about: "judges a table, whoever made it",
        text: &[
            "FILE is a table, or a set that holds the man's table. The check accepts the true \
             table and no other; else the lowest wrong number is named and the status is 1.",
        ],
        examples: &["sledgewren check queen queen.table"],
    },
    Page {
        name: "pack",
        usage: "sledgewren pack MAN TABLE POCKET",
        about: "packs a table to won, drawn and lost",
        text: &[
            "TABLE is checked first, and refused if it is not the man's true table. POCKET gets \
             14,784 bytes: two bits a number.",
        ],
        examples: &["sledgewren pack queen queen.table queen.pocket"],
    },
    Page {
        name: "tally",
        usage: "sledgewren tally FILE",
        about: "counts the won, drawn and lost numbers",
        text: &[
            "FILE is a pocket, or a table, which is packed for it. The numbers that are neither \
             have no legal position.",
        ],
        examples: &["sledgewren tally queen.pocket"],
    },
    Page {
        name: "set",
        usage: "sledgewren set FILE [MAN..]",
        about: "makes one file with the tables of several men",
        text: &[
            "All four where no man is named. Each table is checked before the file is written.",
        ],
        examples: &["sledgewren set all.set", "sledgewren set mates.set queen rook"],
    },
    Page {
        name: "play",
        usage: "sledgewren play [--side w|b] [FEN|LINE]",
        about: "plays a position against you",
        text: &[
            "You have the side to move, or the one that --side names; the desk answers each move \
             with its own, until mate, stalemate or bare kings. Type a move as h2g1 or Qg1, a pawn's \
             promotion as a7a8q or a8=Q, moves for the list of legal ones, board, or quit. A draw \
             goes on as long as you like. Two men are not played.",
        ],
        examples: &[
            "sledgewren play R w e3 h1 e5",
            "sledgewren play \"8/8/8/4k3/8/4K3/4P3/8 w - - 0 1\"",
        ],
    },
];

/// A paragraph in lines of at most 78 letters.
fn wrapped(text: &str, indent: &str) -> String {
    let (mut lines, mut line) = (String::new(), String::from(indent));
    for word in text.split_whitespace() {
        if line.len() + word.len() > 78 {
            lines += line.trim_end();
            lines.push('\n');
            line = String::from(indent);
        }
        line += word;
        line.push(' ');
    }
    lines + line.trim_end() + "\n"
}

fn statuses() -> String {
    let lines: Vec<String> = STATUSES.iter().map(|line| format!("  {line}\n")).collect();
    format!("Exit status:\n{}", lines.concat())
}

/// `sledgewren --help`.
pub fn all() -> String {
    let mut text = format!("sledgewren: {ABOUT}\n\n");
    for page in PAGES {
        text += &format!("  {:42} {}\n", page.usage, page.about);
    }
    text +=
        "\n  sledgewren COMMAND --help, sledgewren --version, sledgewren --man (the man page)\n\n";
    for paragraph in INTRODUCTION {
        text += &wrapped(paragraph, "");
        text.push('\n');
    }
    text + &statuses()
}

/// `sledgewren COMMAND --help`.
pub fn of(name: &str) -> String {
    let Some(page) = PAGES.iter().find(|page| page.name == name) else { return all() };
    let mut text = format!("usage: {}\n\n{}: {}\n\n", page.usage, page.name, page.about);
    for paragraph in page.text {
        text += &wrapped(paragraph, "");
        text.push('\n');
    }
    for example in page.examples {
        text += &format!("  {example}\n");
    }
    text + "\n" + &statuses()
}

/// Text as troff reads it.
fn escaped(text: &str) -> String {
    let text = text.replace('\\', "\\e").replace('-', "\\-");
    match text.chars().next() {
        Some('.' | '\'') => format!("\\&{text}"),
        _ => text,
    }
}

/// The man page, section 1.
pub fn man_page() -> String {
    let version = env!("CARGO_PKG_VERSION");
    let mut page = format!(".TH SLEDGEWREN 1 \"\" \"sledgewren {version}\"\n");
    page += &format!(".SH NAME\nsledgewren \\- {}\n.SH SYNOPSIS\n.nf\n", escaped(ABOUT));
    for command in PAGES {
        page += &format!("{}\n", escaped(command.usage));
    }
    page += ".fi\n.SH DESCRIPTION\n";
    for paragraph in INTRODUCTION {
        page += &format!("{}\n.PP\n", escaped(paragraph));
    }
    page += ".SH COMMANDS\n";
    for command in PAGES {
        page += &format!(".SS {}\n{}.\n", escaped(command.usage), escaped(command.about));
        for paragraph in command.text {
            page += &format!(".PP\n{}\n", escaped(paragraph));
        }
        page += ".PP\n.nf\n";
        for example in command.examples {
            page += &format!("    {}\n", escaped(example));
        }
        page += ".fi\n";
    }
    page += ".SH EXIT STATUS\n";
    for status in STATUSES {
        let (number, words) = status.split_at(4);
        page += &format!(".TP\n.B {}\n{}\n", number.trim(), escaped(words));
    }
    page
}

#[cfg(test)]
mod tests {
    use super::*;

    #[test]
    fn every_command_has_its_page() {
        let names: Vec<&str> = PAGES.iter().map(|page| page.name).collect();
        assert_eq!(names, crate::COMMANDS.map(|(name, _)| name));
    }
}
