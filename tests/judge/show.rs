//! The program show, on case files.

use cases::Ending;

use crate::printing::Printing;
use crate::seeded::Floor;

pub const SHOW: Printing = Printing {
    name: "show",
    seed: 20220401,
    cases: cases::files,
    what: "files",
    second: second::show,
    ending_of,
    word_of: |_, ending| ending.word(),
    breach_of: |_, _| None,
    floor: FLOOR,
};

/// All but 12, which is unused (request R-9), and FORM at each of its places (request R-1).
const FLOOR: Floor = Floor {
    cases: 1_500,
    times: 20,
    answers: &[
        " 0", " 1", " 2", " 3", " 4", " 5", " 6 at 1", " 6 at 5", " 6 at 7", " 6 at 9", " 7", " 8",
        " 9", "10", "11", "13",
    ],
};

/// By the first line.
fn ending_of(printed: &str) -> Option<Ending> {
    let words: Vec<&str> = printed.lines().next()?.split(' ').collect();
    match words[..] {
        ["ok", ..] => Ending::number("0", "0", "0", "0"),
        ["refused", number, "line", line, "at", place] => Ending::number(number, "0", line, place),
        _ => None,
    }
}
