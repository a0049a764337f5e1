//! Cases and examples as files.

use std::fs;
use std::io;
use std::path::Path;

use cases::draft::{Draft, Kind};
use cases::examples::{write_example, write_session};
use cases::random::Rng;
use cases::Case;

use crate::number;
use crate::Judged;

/// Writes what the words ask for; none if they ask for nothing known.
pub fn made(words: &[&str]) -> Option<Judged> {
    let done = match *words {
        ["files", seed, folder] => write_cases(&cases::files(number(seed)?), folder, "hex"),
        ["sessions", seed, folder] => write_cases(&cases::sessions(number(seed)?), folder, "bin"),
        ["sockets", seed, folder] => write_cases(&cases::sockets(number(seed)?), folder, "bin"),
        ["example", kind, file] => write_example(kind_of(kind)?, Path::new(file)),
        ["accepted", kind, k, file] => write_accepted(kind_of(kind)?, k.parse().ok()?, file),
        ["example-session", file, out] => write_session(Path::new(file), Path::new(out)),
        _ => return None,
    };
    Some(match done {
        Ok(()) => Ok(true),
        Err(error) => Err(error.to_string()),
    })
}

fn kind_of(word: &str) -> Option<Kind> {
    match word {
        "production" => Some(Kind::Production),
        "legacy" => Some(Kind::Legacy),
        _ => None,
    }
}

/// Each case as a file of a folder, by its name.
fn write_cases(cases: &[Case], folder: &str, extension: &str) -> io::Result<()> {
    let folder = Path::new(folder);
    fs::create_dir_all(folder)?;
    for case in cases {
        fs::write(
            folder.join(format!("{}.{extension}", case.name)),
            &case.bytes,
        )?;
    }
    println!("{} cases in {}", cases.len(), folder.display());
    Ok(())
}

/// An accepted file of k configurations, for measuring.
fn write_accepted(kind: Kind, k: usize, file: &str) -> io::Result<()> {
    let draft = Draft::random(&mut Rng::new(k as u64), kind, k);
    fs::write(file, draft.plain())
}
