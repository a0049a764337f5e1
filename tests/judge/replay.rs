//! The program replay, on dry runs against a simulated regulator.

use cases::line::ADDRESS;
use cases::{Case, Ending, ADDRESS_PLACE, RULE_PLACE};

use crate::printing::Printing;
use crate::requests::wrong_request;
use crate::seeded::Floor;

pub const REPLAY: Printing = Printing {
    name: "replay",
    seed: 20220403,
    cases: cases::sessions,
    what: "dry runs",
    second: second::replay,
    ending_of,
    word_of,
    breach_of: wrong_request,
    floor: FLOOR,
};

/// Begins and verdicts at C0, then at other addresses (request R-2).
const FLOOR: Floor = Floor {
    cases: 400,
    times: 10,
    answers: &[
        " 0",
        " 2",
        " 3",
        " 4",
        " 5",
        " 6 at 1",
        " 6 at 5",
        " 6 at 7",
        " 6 at 9",
        "14",
        "14 by address",
        "20",
        "21",
        "22",
        "23",
        "24",
        "25",
        "26",
        "27",
        "28 by 1",
        "28 by 2",
        "29",
        "30",
        "31",
        " 0 elsewhere",
        " 5 elsewhere",
        " 6 at 5 elsewhere",
        "20 elsewhere",
        "21 elsewhere",
        "22 elsewhere",
        "23 elsewhere",
        "24 elsewhere",
        "25 elsewhere",
        "26 elsewhere",
        "27 elsewhere",
        "28 elsewhere",
        "29 elsewhere",
        "30 elsewhere",
        "31 elsewhere",
    ],
};

const SETTING: u8 = 14;
const PLACES: u8 = 28;

/// 14 that the address alone gave is counted by itself, and so is every ending of a session at
/// another address than C0 (request R-2); 28 at C0 by the house rule under which it was given.
fn word_of(case: &Case, ending: Ending) -> String {
    match ending {
        Ending::CutShort | Ending::TooLong => ending.word(),
        Ending::Number {
            number: SETTING, ..
        } if by_address(case) => "14 by address".into(),
        _ if case.bytes[ADDRESS_PLACE] != ADDRESS => format!("{} elsewhere", ending.word()),
        Ending::Number { number: PLACES, .. } => format!("28 by {}", case.bytes[RULE_PLACE]),
        _ => ending.word(),
    }
}

/// Whether the settings would be allowed with C0 in the address's place.
fn by_address(case: &Case) -> bool {
    let mut at_c0 = case.bytes.clone();
    at_c0[ADDRESS_PLACE] = ADDRESS;
    match ending_of(&second::replay(&at_c0)) {
        Some(Ending::Number { number, .. }) => number != SETTING,
        _ => true,
    }
}

/// By the one line that is neither a request nor the count.
pub fn ending_of(printed: &str) -> Option<Ending> {
    let beside = ["write ", "read ", "count "];
    let ends: Vec<&str> = printed
        .lines()
        .filter(|line| !beside.iter().any(|word| line.starts_with(word)))
        .collect();
    let words: Vec<&str> = match ends[..] {
        [end] => end.split(' ').collect(),
        _ => return None,
    };
    match words[..] {
        ["waiting"] => Some(Ending::Waiting),
        ["cut", "short"] => Some(Ending::CutShort),
        ["too", "long"] => Some(Ending::TooLong),
        ["verdict", number, "config", config, "line", line, "at", place] => {
            Ending::number(number, config, line, place)
        }
        _ => None,
    }
}
