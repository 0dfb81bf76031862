//! How a comparison begins and ends: the words it is given, its last line, its exit status.

use std::process::ExitCode;

use second::ending::Ending;

use crate::calls::Tally;

/// The seed where none is given.
const SEED: u64 = 2049;

/// Runs a comparison over the command line's words: 0 no difference, 1 differences, 2 a word that
/// it does not take.
pub fn over_words(
    name: &str,
    compare: impl FnOnce(&[String]) -> Result<Tally, String>,
) -> ExitCode {
    let words: Vec<String> = std::env::args().skip(1).collect();
    match compare(&words) {
        Ok(Tally { compared, differ }) => {
            println!("{compared} compared, {differ} differ");
            ExitCode::from((differ > 0) as u8)
        }
        Err(message) => {
            eprintln!("{name}: {message}");
            ExitCode::from(2)
        }
    }
}

/// Runs a comparison from the seed that is given, or from the usual one.
pub fn from_seed(name: &str, compare: impl FnOnce(u64) -> Tally) -> ExitCode {
    over_words(name, |words| {
        let seed = match words {
            [] => SEED,
            [word] => word.parse().map_err(|_| format!("{word:?} is not a number"))?,
            _ => return Err(format!("usage: {name} [SEED]")),
        };
        println!("seed {seed}");
        Ok(compare(seed))
    })
}

/// The endings of two men that the words name, or all twenty.
pub fn endings(words: &[String]) -> Result<Vec<Ending>, String> {
    if words.is_empty() {
        return Ok(Ending::all().collect());
    }
    let named = |word: &String| {
        Ending::named(word).ok_or(format!("no ending {word}: give KQRK, KQKR and so on"))
    };
    words.iter().map(named).collect()
}

impl Tally {
    /// Says how far a comparison has come.
    pub fn told(&self, what: &str) {
        println!("{what}: {} compared, {} differ so far", self.compared, self.differ);
    }

    /// Runs a part of a comparison and says what it compared.
    pub fn part(&mut self, what: &str, run: impl FnOnce(&mut Tally)) {
        let before = self.compared;
        run(self);
        println!("{what}: {} compared, {} differ so far", self.compared - before, self.differ);
    }
}
