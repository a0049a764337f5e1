//! How a draft is written out: letters and ends of lines.

use crate::draft::Draft;
use crate::random::Rng;

#[derive(Clone, Copy, PartialEq)]
pub enum Letters {
    Capital,
    Small,
    Mixed,
}

#[derive(Clone, Copy, PartialEq)]
pub enum Ends {
    Lf,
    CrLf,
    Mixed,
}

#[derive(Clone, Copy)]
pub struct Style {
    pub letters: Letters,
    pub ends: Ends,
    pub last_end: bool,
}

pub const ALL_LETTERS: [Letters; 3] = [Letters::Capital, Letters::Small, Letters::Mixed];
pub const ALL_ENDS: [Ends; 3] = [Ends::Lf, Ends::CrLf, Ends::Mixed];

impl Style {
    pub fn random(rng: &mut Rng) -> Style {
        let letters = rng.pick(&ALL_LETTERS);
        let ends = rng.pick(&ALL_ENDS);
        Style {
            letters,
            ends,
            last_end: !rng.once_in(3),
        }
    }

    pub fn name(self) -> String {
        let letters = match self.letters {
            Letters::Capital => "capital",
            Letters::Small => "small",
            Letters::Mixed => "mixed",
        };
        let ends = match self.ends {
            Ends::Lf => "lf",
            Ends::CrLf => "crlf",
            Ends::Mixed => "eithernl",
        };
        let last = if self.last_end { "" } else { "-nolast" };
        format!("{letters}-{ends}{last}")
    }
}

pub fn capital(bytes: &[u8]) -> Vec<u8> {
    let digit = |value: u8| b"0123456789ABCDEF"[usize::from(value)];
    bytes
        .iter()
        .flat_map(|byte| [digit(byte >> 4), digit(byte & 0x0F)])
        .collect()
}

pub fn letters_of(rng: &mut Rng, digits: &[u8], letters: Letters) -> Vec<u8> {
    let mut small = |digit: &u8| match letters {
        Letters::Capital => *digit,
        Letters::Small => digit.to_ascii_lowercase(),
        Letters::Mixed if rng.once_in(2) => digit.to_ascii_lowercase(),
        Letters::Mixed => *digit,
    };
    digits.iter().map(&mut small).collect()
}

/// Joins line texts, which need not be digits any more.
pub fn join(rng: &mut Rng, texts: &[Vec<u8>], style: Style) -> Vec<u8> {
    let mut out = Vec::new();
    for (place, text) in texts.iter().enumerate() {
        out.extend(letters_of(rng, text, style.letters));
        let last = place + 1 == texts.len();
        if !last || style.last_end {
            let carriage_return = match style.ends {
                Ends::Lf => false,
                Ends::CrLf => true,
                Ends::Mixed => rng.once_in(2),
            };
            out.extend_from_slice(if carriage_return { b"\r\n" } else { b"\n" });
        }
    }
    out
}

/// The line texts of a draft, in capital digits.
pub fn texts_of(draft: &Draft) -> Vec<Vec<u8>> {
    draft.lines.iter().map(|line| capital(line)).collect()
}

pub fn render(rng: &mut Rng, draft: &Draft, style: Style) -> Vec<u8> {
    join(rng, &texts_of(draft), style)
}

/// A draft in a random style, one line's text being replaced.
pub fn with_line(rng: &mut Rng, draft: &Draft, number: usize, text: &[u8]) -> Vec<u8> {
    let mut texts = texts_of(draft);
    texts[number - 1] = text.to_vec();
    let style = Style::random(rng);
    join(rng, &texts, style)
}
