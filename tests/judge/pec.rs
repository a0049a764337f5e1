//! The C entry tehilgam_pec against two CRC-8 that are run bit by bit, the second program's and
//! one that stands here alone, on random messages of every length.

use std::io;

use cases::{Case, Made};

use crate::entries::{Entries, Entry};
use crate::programs::Program;
use crate::seeded::{compare_all, settled, tally, Floor};
use crate::tally::Answers;
use crate::Judged;

const SEED: u64 = 0x7E41_106A_2026_B001;
const LONGEST: usize = 5_000;
const ROUNDS: usize = 2;

const FLOOR: Floor = Floor {
    cases: 10_002,
    times: 20,
    answers: &["0 to 9 bytes", "10 to 99", "100 and more"],
};

pub fn run(seed: Option<u64>) -> Judged {
    let program = Program::of_entries()?;
    let seed = seed.unwrap_or(SEED);
    if seed == 0 {
        return Err("the seed 0 draws nothing but zeros".into());
    }
    let cases = messages(seed);
    let tally = tally("pec", format!("0x{seed:016X}"));
    compare_all(
        &tally,
        &cases,
        || Entries::start(&program),
        |entries, case| answers(entries, &case.bytes),
    );
    let enough = settled(&tally, "messages of lengths 0 to 5000", &cases, &FLOOR);
    let known = Entries::start(&program).and_then(|mut entries| known_answers(&mut entries));
    match known {
        Ok(right) => Ok(right && enough),
        Err(error) => {
            println!("pec: the known messages have no answer: {error}");
            Ok(false)
        }
    }
}

pub fn answers(entries: &mut Entries, bytes: &[u8]) -> io::Result<Answers> {
    let ours = entries.ask(Entry::Pec, bytes)?;
    let (theirs, divided) = (second::pec(bytes), by_division(bytes));
    let fault = format!("both give {theirs:02X}, and the division {divided:02X}");
    Ok(Answers {
        ours: vec![ours],
        theirs: vec![theirs],
        word: length_class(bytes.len()),
        fault: (theirs != divided).then(|| fault),
    })
}

fn length_class(length: usize) -> String {
    match length {
        0..=9 => "0 to 9 bytes",
        10..=99 => "10 to 99",
        _ => "100 and more",
    }
    .to_string()
}

/// Long division by the polynomial 1 0000 0111, one bit of the message at a time.
fn by_division(message: &[u8]) -> u8 {
    let mut remainder = 0u32;
    for bit in 0..8 * message.len() {
        let coming = u32::from(message[bit / 8]) >> (7 - bit % 8) & 1;
        let leaving = remainder >> 7 & 1;
        let taken = if coming ^ leaving == 1 { 0x07 } else { 0x00 };
        remainder = (remainder << 1 & 0xFF) ^ taken;
    }
    remainder as u8
}

/// Every length, so many rounds.
fn messages(seed: u64) -> Vec<Case> {
    let mut drawn = seed;
    let mut cases = Vec::new();
    for round in 0..ROUNDS {
        for length in 0..=LONGEST {
            cases.push(Case {
                name: format!("round{round}-length{length}"),
                made: Made::Open,
                bytes: (0..length).map(|_| draw(&mut drawn)).collect(),
            });
        }
    }
    cases
}

/// xorshift64.
fn draw(state: &mut u64) -> u8 {
    *state ^= *state << 13;
    *state ^= *state >> 7;
    *state ^= *state << 17;
    (*state >> 32) as u8
}

/// The check value of the SMBus code, the page's two replies, and no bytes in both ways.
fn known_answers(entries: &mut Entries) -> io::Result<bool> {
    let identity = [0xC0, 0xAD, 0xC1, 0x04, 0x00, 0x81, 0xD2, 0x49];
    let counter = [0xC0, 0xC5, 0xC1, 0x1C, 0x00, 0x00, 0x00];
    let known: [(&str, &[u8], u8); 4] = [
        ("\"123456789\"", b"123456789", 0xF4),
        ("the identity reply", &identity, 0x3C),
        ("the counter reply", &counter, 0x6A),
        ("no bytes", &[], 0x00),
    ];
    let mut right = true;
    for (what, bytes, wanted) in known {
        let given = entries.ask(Entry::Pec, bytes)?;
        right &= same("tehilgam_pec", what, given, wanted);
        right &= same("the second program", what, second::pec(bytes), wanted);
        right &= same("the division", what, by_division(bytes), wanted);
    }
    let given = entries.ask_null(Entry::Pec)?;
    right &= same("tehilgam_pec", "a null pointer with length 0", given, 0x00);
    Ok(right)
}

fn same(who: &str, what: &str, given: u8, wanted: u8) -> bool {
    if given != wanted {
        println!("pec: {who} gives {given:02X} for {what} and not {wanted:02X}");
    }
    given == wanted
}
