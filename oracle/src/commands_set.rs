//! The subcommands of the set, one file for all endings.

use std::ffi::{OsStr, OsString};
use std::io::Write;

use crate::commands::{read_file, refused_text, Out};
use crate::counts::Checksum;
use crate::failure::{usage, Done, Failure};
use crate::set::{choices, find, set_length, write_set, Choice};

/// The endings named by a word of the digits 0 to 3; `-` names none.
fn choice_named(word: &OsStr) -> Result<Choice, Failure> {
    let mut choice = [false; 4];
    let digits = match word.as_encoded_bytes() {
        b"-" => &[][..],
        digits => digits,
    };
    for digit in digits {
        match choice.get_mut(digit.wrapping_sub(b'0') as usize) {
            Some(chosen) if !*chosen => *chosen = true,
            _ => return usage(format!("no choice of endings {word:?}: give 0 to 3, or -")),
        }
    }
    if word.is_empty() {
        return usage("no endings chosen: give codes from 0 to 3 as one word, or - for none");
    }
    Ok(choice)
}

fn written(choice: Choice) -> Result<Vec<u8>, Failure> {
    let mut set = vec![0; set_length(choice)];
    match write_set(choice, &mut set) {
        Ok(()) => Ok(set),
        Err(refused) => usage(refused_text(refused)),
    }
}

/// `set CODES`: the set of the endings chosen, raw.
pub fn write_file(rest: &[OsString], output: &mut Out) -> Done {
    let [codes] = rest else {
        return usage("set takes the endings' codes as one word, or - for none: oracle set 0123");
    };
    Ok(output.write_all(&written(choice_named(codes)?)?)?)
}

fn found_text(set: &[u8], code: u8) -> String {
    match find(set, code) {
        Ok((offset, length)) => format!("offset {offset} length {length}"),
        Err(refused) => refused_text(refused),
    }
}

/// `set-find CODE FILE`: where a file holds an ending.
pub fn find_in_file(rest: &[OsString], output: &mut Out) -> Done {
    let [code, path] = rest else {
        return usage("set-find takes a code and a file: oracle set-find 0 FILE");
    };
    let Some(code) = code.to_str().and_then(|text| text.parse().ok()) else {
        return usage(format!("CODE is a number from 0 to 255, not {code:?}"));
    };
    let set = read_file(path, set_length([true; 4]))?;
    Ok(writeln!(output, "{}", found_text(&set, code))?)
}

/// The choices named, or all sixteen.
fn choices_named(rest: &[OsString]) -> Result<Vec<Choice>, Failure> {
    if rest.is_empty() {
        return Ok(choices().collect());
    }
    rest.iter().map(|word| choice_named(word)).collect()
}

/// `set-sums [CODES ...]`: for each choice, a yes or no for each code, the set and what reading
/// gives.
pub fn sums(rest: &[OsString], output: &mut Out) -> Done {
    for choice in choices_named(rest)? {
        let set = written(choice)?;
        let said: String = choice.iter().map(|&yes| if yes { 'y' } else { 'n' }).collect();
        let (length, sum) = (set.len(), Checksum::of(&set));
        writeln!(output, "set {said} length {length} checksum {sum}")?;
        for code in 0..=4 {
            writeln!(output, "code {code} {}", found_text(&set, code))?;
        }
    }
    Ok(())
}
