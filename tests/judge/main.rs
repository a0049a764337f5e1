//! The driver: compares what is delivered with the second program, and makes the cases for it.
//!
//! It is started at the repository's root. Exit status: 0 none differs, 1 one differs or too
//! little was seen, 2 something is missing or the words are off.

mod changes;
mod difference;
mod entries;
mod fuzz;
mod identities;
mod inputs;
mod made;
mod pec;
mod printing;
mod programs;
mod refusal;
mod replay;
mod requests;
mod seeded;
mod show;
mod socket;
mod tally;

use std::env;
use std::process::ExitCode;

use replay::REPLAY;
use show::SHOW;
use socket::SOCKET;

/// Whether none differed and enough was seen; or what is missing.
pub type Judged = Result<bool, String>;

const USAGE: &str = "usage: judge pec|refusal|show|replay|socket [SEED]
       judge fuzz SECONDS SEED
       judge files SEED FOLDER
       judge sessions SEED FOLDER
       judge sockets SEED FOLDER
       judge example production|legacy FILE
       judge accepted production|legacy K FILE
       judge example-session FILE.hex OUT.bin";

fn main() -> ExitCode {
    let arguments: Vec<String> = env::args().skip(1).collect();
    let words: Vec<&str> = arguments.iter().map(String::as_str).collect();
    match compared(&words).or_else(|| made::made(&words)) {
        Some(Ok(true)) => ExitCode::SUCCESS,
        Some(Ok(false)) => ExitCode::from(1),
        Some(Err(missing)) => {
            eprintln!("judge: {missing}");
            ExitCode::from(2)
        }
        None => {
            eprintln!("{USAGE}");
            ExitCode::from(2)
        }
    }
}

/// Does the comparison that the words ask for; none if they ask for no comparison.
fn compared(words: &[&str]) -> Option<Judged> {
    Some(match *words {
        ["fuzz", seconds, seed] => fuzz::run(number(seconds)?, number(seed)?),
        [mode] => seeded(mode)?(None),
        [mode, seed] => seeded(mode)?(Some(number(seed)?)),
        _ => return None,
    })
}

/// The seeded comparisons, which have seeds of their own where none is said.
fn seeded(mode: &str) -> Option<fn(Option<u64>) -> Judged> {
    Some(match mode {
        "pec" => pec::run,
        "refusal" => refusal::run,
        "show" => |seed| SHOW.run(seed),
        "replay" => |seed| REPLAY.run(seed),
        "socket" => |seed| SOCKET.run(seed),
        _ => return None,
    })
}

/// A number in decimal digits, or in hexadecimal ones after `0x`.
fn number(word: &str) -> Option<u64> {
    match word.strip_prefix("0x") {
        Some(digits) => u64::from_str_radix(digits, 16).ok(),
        None => word.parse().ok(),
    }
}
