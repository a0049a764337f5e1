//! How a case can end, and what it was made for.

use std::fmt;

/// Where a refusal lies: the line, and the place in the line (document 02, R-1), each from 1.
#[derive(Clone, Copy, PartialEq)]
pub struct At {
    pub line: usize,
    pub place: usize,
}

/// No line has it: an accepted file, a refusal of the whole file, a verdict.
pub const WHOLE: At = At { line: 0, place: 0 };

pub fn at(line: usize, place: usize) -> At {
    At { line, place }
}

/// A number with its configuration, 0 where it has none, and where it lies; or what a dry run says
/// where the session has no verdict or does not begin.
#[derive(Clone, Copy, PartialEq)]
pub enum Ending {
    Number { number: u8, config: usize, at: At },
    Waiting,
    CutShort,
    TooLong,
}

impl Ending {
    /// From decimal digits.
    pub fn number(number: &str, config: &str, line: &str, place: &str) -> Option<Ending> {
        Some(Ending::Number {
            number: number.parse().ok()?,
            config: config.parse().ok()?,
            at: at(line.parse().ok()?, place.parse().ok()?),
        })
    }

    /// One word for a tally: the number, FORM's with its place, or what the dry run says.
    pub fn word(&self) -> String {
        match self {
            Ending::Number { number: 6, at, .. } => format!(" 6 at {}", at.place),
            Ending::Number { number, .. } => format!("{number:>2}"),
            Ending::Waiting => "waiting".into(),
            Ending::CutShort => "cut short".into(),
            Ending::TooLong => "too long".into(),
        }
    }
}

/// What a case was made to give, by the first word of its label.
#[derive(Clone, Copy, PartialEq)]
pub enum Made {
    For(Ending),
    /// `open`: it is not known from the making of the case.
    Open,
    /// The word has none of the forms, so that nobody would hold the case to anything.
    Unsaid,
}

impl Made {
    pub fn of_label(label: &str) -> Made {
        let word = label.split('-').next().unwrap_or_default();
        match word {
            "open" => Made::Open,
            "waiting" => Made::For(Ending::Waiting),
            "cutshort" => Made::For(Ending::CutShort),
            "toolong" => Made::For(Ending::TooLong),
            _ => word
                .strip_prefix("want")
                .and_then(wanted)
                .map_or(Made::Unsaid, Made::For),
        }
    }
}

/// `24`, `31n2` (31 with N 2) or `5at7p13` (number 5, line 7, place 13).
fn wanted(word: &str) -> Option<Ending> {
    if let Some((number, at)) = word.split_once("at") {
        let (line, place) = at.split_once('p')?;
        Ending::number(number, "0", line, place)
    } else if let Some((number, config)) = word.split_once('n') {
        Ending::number(number, config, "0", "0")
    } else {
        Ending::number(word, "0", "0", "0")
    }
}

/// The end of a label's first word: `at7p13`, or nothing where no line has it.
impl fmt::Display for At {
    fn fmt(&self, out: &mut fmt::Formatter) -> fmt::Result {
        if *self == WHOLE {
            return Ok(());
        }
        write!(out, "at{}p{}", self.line, self.place)
    }
}

impl fmt::Display for Ending {
    fn fmt(&self, out: &mut fmt::Formatter) -> fmt::Result {
        match self {
            Ending::Number { number, config, at } => {
                let At { line, place } = at;
                write!(
                    out,
                    "number {number} config {config} line {line} at {place}"
                )
            }
            other => out.write_str(&other.word()),
        }
    }
}
