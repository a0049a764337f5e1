//! The second program by hand:
//!
//! - `second show`: print a file's contents as the printing program does.
//! - `second number`: print a file's refusal number, 0 if it is accepted.
//! - `second replay`: a dry run of the session against replies given in advance.
//! - `second socket`: the same of a session that begins with a summary and is lent a text.

use std::env;
use std::io::{self, Read, Write};
use std::process::ExitCode;

fn number(text: &[u8]) -> String {
    format!("{}\n", second::number(text))
}

/// Standard input to its end; a read error counts as the end.
fn standard_input() -> Vec<u8> {
    let mut input = Vec::new();
    let _ = io::stdin().lock().read_to_end(&mut input);
    input
}

fn main() -> ExitCode {
    let answer: fn(&[u8]) -> String = match env::args().nth(1).as_deref() {
        Some("show") => second::show,
        Some("number") => number,
        Some("replay") => second::replay,
        Some("socket") => second::socket,
        _ => {
            eprintln!("usage: second show|number|replay|socket");
            return ExitCode::from(2);
        }
    };
    let output = answer(&standard_input());
    match io::stdout().lock().write_all(output.as_bytes()) {
        Ok(()) => ExitCode::SUCCESS,
        Err(_) => ExitCode::FAILURE,
    }
}
