//! The C entry tehilgam_refusal against the second program, on seeded files and on identities.

use std::io;

use cases::{Case, Ending, Made, WHOLE};

use crate::entries::{Entries, Entry};
use crate::identities::each_is_judged;
use crate::programs::Program;
use crate::seeded::{compare_all, fault_of, settled, tally, Floor};
use crate::tally::Answers;
use crate::Judged;

const SEED: u64 = 20220402;

/// All but 12, which is unused (request R-9).
const FLOOR: Floor = Floor {
    cases: 1_500,
    times: 20,
    answers: &[
        " 0", " 1", " 2", " 3", " 4", " 5", " 6", " 7", " 8", " 9", "10", "11", "13",
    ],
};

pub fn run(seed: Option<u64>) -> Judged {
    let program = Program::of_entries()?;
    let seed = seed.unwrap_or(SEED);
    let cases = cases::files(seed);
    let tally = tally("refusal", seed);
    compare_all(&tally, &cases, || Entries::start(&program), answers);
    let enough = settled(&tally, "files", &cases, &FLOOR);
    let identities = each_is_judged(&program, seed);
    Ok(null_pointer_is_no_text(&program) && identities && enough)
}

/// The entry gives a number alone, so a case's line and place are taken as they were made.
pub fn answers(entries: &mut Entries, case: &Case) -> io::Result<Answers> {
    let ours = entries.ask(Entry::Refusal, &case.bytes)?;
    let theirs = second::number(&case.bytes);
    let at = match case.made {
        Made::For(Ending::Number { at, .. }) => at,
        _ => WHOLE,
    };
    let ending = Ending::Number {
        number: theirs,
        config: 0,
        at,
    };
    Ok(Answers {
        ours: vec![ours],
        theirs: vec![theirs],
        word: format!("{theirs:>2}"),
        fault: fault_of(case, Some(ending)),
    })
}

/// A null pointer and length 0 are the empty file.
fn null_pointer_is_no_text(program: &Program) -> bool {
    let asked = Entries::start(program).and_then(|mut entries| entries.ask_null(Entry::Refusal));
    match asked {
        Ok(7) if second::number(b"") == 7 => true,
        Ok(number) => {
            println!("refusal: a null pointer with length 0 gives {number} and not 7");
            false
        }
        Err(error) => {
            println!("refusal: a null pointer with length 0 gives no answer: {error}");
            false
        }
    }
}
