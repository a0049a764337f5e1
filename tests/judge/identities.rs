//! The C entry tehilgam_refusal against the second program, on each middle byte of an identity with
//! each first byte, each second byte and each last byte (document 01, "Accepted identities"; R-4).

use std::io;

use cases::draft::{identity_of, Draft, Kind};
use cases::line::header;
use cases::random::Rng;

use crate::entries::{Entries, Entry};
use crate::programs::Program;
use crate::seeded::tally;
use crate::tally::{Answers, Tally};

/// Enough that DEVICE is looked at, and too few for a configuration: with a part's identity, COUNT.
const LINES: usize = 13;
const COUNT: &str = "7";
const DEVICE: &str = "9";
/// Each answer, so many times.
const PARTS: u64 = 29;
const OTHERS: u64 = 256 * (1 + 3 * 255) - PARTS;

/// Whether none differs, and just so many identities are those of a part.
pub fn each_is_judged(program: &Program, seed: u64) -> bool {
    let tally = tally("identities", seed);
    if let Err(error) = compare(&tally, program, seed) {
        println!("identities: the comparison ended early: {error}");
        return false;
    }
    println!(
        "identities: {} in all, {}, {} differ",
        tally.cases(),
        tally.line(),
        tally.differing()
    );
    tally.differing() == 0 && tally.times(COUNT) == PARTS && tally.times(DEVICE) == OTHERS
}

fn compare(tally: &Tally, program: &Program, seed: u64) -> io::Result<()> {
    let mut draft = Draft::random(&mut Rng::new(seed), Kind::Production, 1);
    draft.lines.truncate(LINES);
    let mut entries = Entries::start(program)?;
    for identity in identities() {
        draft.set(1, header(0xAD, &identity));
        let text = draft.plain();
        let answers = entries.ask(Entry::Refusal, &text).map(|ours| {
            let theirs = second::number(&text);
            Answers {
                ours: vec![ours],
                theirs: vec![theirs],
                word: theirs.to_string(),
                fault: None,
            }
        });
        tally.compare(
            &format!("{:08x}", u32::from_be_bytes(identity)),
            &text,
            answers,
        )?;
    }
    Ok(())
}

/// 49D2xx00 for each xx, and each of these with another byte in one of the three other places.
fn identities() -> impl Iterator<Item = [u8; 4]> {
    (0..=255u8).flat_map(|middle| {
        let whole = identity_of(middle);
        let others = [0, 1, 3].into_iter().flat_map(move |place| {
            (0..=255u8)
                .filter(move |&byte| byte != whole[place])
                .map(move |byte| {
                    let mut other = whole;
                    other[place] = byte;
                    other
                })
        });
        std::iter::once(whole).chain(others)
    })
}
