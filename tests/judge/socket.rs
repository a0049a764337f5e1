//! The program socket, on dry runs that begin with the summary of a file and are lent a text
//! (request R-3).

use cases::draft::Kind;
use cases::line::{pec, BURN};
use cases::{Case, Ending, Made};

use crate::changes::decoded;
use crate::inputs::{first_replies, poll_limit, Inputs};
use crate::printing::Printing;
use crate::replay;
use crate::requests::wrong_request_at;
use crate::seeded::Floor;

pub const SOCKET: Printing = Printing {
    name: "socket",
    seed: 20220404,
    cases: cases::sockets,
    what: "dry runs with a summary",
    second: second::socket,
    ending_of,
    word_of,
    breach_of,
    floor: FLOOR,
};

/// 15 at its three places: a summary of zeros, a line that cannot go out, and before another verdict.
const FLOOR: Floor = Floor {
    cases: 600,
    times: 10,
    answers: &[
        " 0",
        " 0 lent another",
        "14",
        "15 by the begin",
        "15 at a line",
        "20",
        "20 after 15",
        "21",
        "21 after 15",
        "22",
        "22 after 15",
        "23",
        "24",
        "25",
        "26",
        "26 after 15",
        "27",
        "28",
        "29",
        "30",
        "31",
        "31 lent another",
        "cut short",
        "too long",
        "waiting",
    ],
};

const DONE: u8 = 0;
const STATE: u8 = 15;
const MISMATCH: u8 = 31;

/// As a dry run's, behind the line on the check.
fn ending_of(printed: &str) -> Option<Ending> {
    replay::ending_of(behind_the_check(printed))
}

fn behind_the_check(printed: &str) -> &str {
    match printed.split_once('\n') {
        Some((first, rest)) if first.starts_with("checked ") => rest,
        _ => printed,
    }
}

/// 15 of the begin and of a reply are counted apart, and so are a verdict that a reply behind a 15
/// gave, and DONE and 31 where the lent text is not the one that was checked.
fn word_of(case: &Case, ending: Ending) -> String {
    let word = ending.word();
    let (number, inputs) = match (ending, Inputs::of(&case.bytes)) {
        (Ending::Number { number, .. }, Some(inputs)) => (number, inputs),
        _ => return word,
    };
    match number {
        STATE if second::number(inputs.morning) == 0 => "15 at a line".into(),
        STATE => "15 by the begin".into(),
        20..=28 if is_after_15(&inputs) => format!("{word} after 15"),
        DONE | MISMATCH if inputs.lent != inputs.morning => format!("{word} lent another"),
        _ => word,
    }
}

/// Whether the session had a 15 before its verdict: without one, the reply to each request that was put
/// out is the reply of the same number, and none behind them was needed.
fn is_after_15(inputs: &Inputs) -> bool {
    let whole = second::socket(&inputs.with_replies(inputs.replies));
    let requests = whole.lines().filter(|line| is_request(line)).count();
    let fewer = inputs.with_replies(first_replies(inputs.replies, requests));
    let ending = ending_of(&second::socket(&fewer));
    matches!(ending, Some(Ending::Number { number: STATE, .. }))
}

fn is_request(line: &str) -> bool {
    line.starts_with("write ") || line.starts_with("read ")
}

/// What a session says of itself.
struct Said<'a> {
    checked: &'a str,
    requests: &'a [&'a str],
    count: usize,
    burn: bool,
}

impl<'a> Said<'a> {
    /// The lines in their order, with none behind the count.
    fn of(lines: &'a [&'a str]) -> Option<Said<'a>> {
        let (checked, requests, end, count) = match lines {
            [checked, requests @ .., end, count] => (checked, requests, end, count),
            _ => return None,
        };
        let words: Vec<&str> = count.split(' ').collect();
        let (count, burn) = match words[..] {
            ["count", count, "burn", burn] => (count.parse().ok()?, burn),
            _ => return None,
        };
        let in_order = checked.starts_with("checked ")
            && requests.iter().all(|line| is_request(line))
            && (*end == "waiting" || end.starts_with("verdict "))
            && ["0", "1"].contains(&burn);
        in_order.then(|| Said {
            checked: checked.strip_prefix("checked ").unwrap_or(checked),
            requests,
            count,
            burn: burn == "1",
        })
    }
}

/// What the documents alone demand, whoever agrees.
fn breach_of(case: &Case, printed: &str) -> Option<String> {
    let lines: Vec<&str> = printed.lines().collect();
    if let ["cut short"] | ["too long"] = lines[..] {
        return None;
    }
    let (said, inputs) = match (Said::of(&lines), Inputs::of(&case.bytes)) {
        (Some(said), Some(inputs)) => (said, inputs),
        (None, _) => return Some("the lines are not in their order".into()),
        (_, None) => return Some("the input is not all there".into()),
    };
    wrong_check(case, &said)
        .or_else(|| wrong_request_at(inputs.address, printed))
        .or_else(|| wrong_count(&inputs, &said))
        .or_else(|| wrong_burn(&inputs, &said))
        .or_else(|| wrong_stop(case, &inputs, &said))
}

/// A check that is not the one the case was made for.
fn wrong_check(case: &Case, said: &Said) -> Option<String> {
    let made = match case.made {
        Made::Open => return None,
        _ => checked_of(&case.name),
    };
    let words: Vec<&str> = said.checked.split(' ').collect();
    let given = match words[..] {
        [number, "line", line, "at", place] => Ending::number(number, "0", line, place),
        _ => None,
    };
    if made.is_some() && made == given {
        return None;
    }
    Some(format!("the check gives {:?}", said.checked))
}

/// The second word of a label, `checked5at7p13`, says what the check gives; it accepts without one.
fn checked_of(name: &str) -> Option<Ending> {
    let said = name.split('-').nth(2)?.strip_prefix("checked");
    match Made::of_label(&format!("want{}", said.unwrap_or("0"))) {
        Made::For(ending) => Some(ending),
        _ => None,
    }
}

/// The count is that of the requests, and at most "n + poll limit + 3 x k + 9" of the checked file; a
/// begin with another is refused, and "count 0".
fn wrong_count(inputs: &Inputs, said: &Said) -> Option<String> {
    let (count, given) = (said.count, said.requests.len());
    let most = if said.checked == "0 line 0 at 0" {
        most_requests(inputs)?
    } else {
        0
    };
    if count != given {
        return Some(format!("{given} requests are put out and {count} reported"));
    }
    (count > most).then(|| format!("{count} requests are put out, which is over {most}"))
}

/// From an accepted file alone: its lines, and its kind by the revision's first byte, whose two digits
/// are the ninth and the tenth of line 2.
fn most_requests(inputs: &Inputs) -> Option<usize> {
    let text = std::str::from_utf8(inputs.morning).ok()?;
    let n = text.lines().count();
    let revision = decoded(text.lines().nth(1)?.get(8..10)?.as_bytes())?;
    let kind = if Kind::Legacy.first_bytes().contains(revision.first()?) {
        Kind::Legacy
    } else {
        Kind::Production
    };
    let k = n.checked_sub(12)? / kind.step();
    Some(n + poll_limit(inputs.settings) + 3 * k + 9)
}

/// The burn is put out once where the session reports it, and never where it does not.
fn wrong_burn(inputs: &Inputs, said: &Said) -> Option<String> {
    let (command, data) = BURN;
    let mut burn = vec![inputs.address, command, data[0], data[1]];
    burn.push(pec(&burn));
    let burns = said
        .requests
        .iter()
        .filter_map(|line| line.strip_prefix("write "))
        .filter(|digits| decoded(digits.as_bytes()).as_ref() == Some(&burn))
        .count();
    let reported = usize::from(said.burn);
    (burns != reported).then(|| format!("the burn is put out {burns} times, reported {reported}"))
}

/// A case `want15-at-line-7` was made so that line 6 is the last request: steps 1 and 2 have four, where
/// wanted, and six before line 5.
fn wrong_stop(case: &Case, inputs: &Inputs, said: &Said) -> Option<String> {
    let words: Vec<&str> = case.name.split('-').collect();
    let line: usize = match words[..] {
        [_, "want15", "at", "line", line, ..] if case.made != Made::Open => line.parse().ok()?,
        _ => return None,
    };
    let before = if inputs.settings[0] == 0 { 6 } else { 10 };
    let made = before + line - 5;
    (said.count != made).then(|| format!("{} requests are put out and not {made}", said.count))
}
