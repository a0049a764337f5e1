//! Several faults on one line, and on two.

use super::{Files, PLAIN};
use crate::ending::at;
use crate::line::write;
use crate::list::names;
use crate::numbers::{CRC, FORM};
use crate::spoil::spoiled;
use crate::text::{join, texts_of};

impl Files {
    /// Every set of the faults 2 to 6 on one line: the smallest number is given.
    pub(super) fn faults_together(&mut self) {
        for turn in 0..9 {
            for set in 1..32u8 {
                let faults: Vec<u8> = (2..=6)
                    .filter(|fault| set >> (fault - 2) & 1 == 1)
                    .collect();
                let draft = self.small_draft();
                let number = self.places(&draft)[turn];
                let good = draft.get(number);
                let (place, digits) = spoiled(&mut self.rng, number, good, &faults);
                let text = self.with_line(&draft, number, &digits);
                let label = format!("together-{}", names(&faults));
                self.want(faults[0], at(number, place), &label, &text);
            }
        }
    }

    /// Two faulty lines: the first is given, whatever the numbers.
    pub(super) fn faults_on_two_lines(&mut self) {
        for first in 2..=6 {
            for second in 2..=6 {
                for _ in 0..2 {
                    let draft = self.small_draft();
                    let early = self.rng.from_to(1, draft.n() - 1);
                    let late = self.rng.from_to(early + 1, draft.n());
                    let mut texts = texts_of(&draft);
                    let (place, digits) = spoiled(&mut self.rng, early, draft.get(early), &[first]);
                    texts[early - 1] = digits;
                    let (_, digits) = spoiled(&mut self.rng, late, draft.get(late), &[second]);
                    texts[late - 1] = digits;
                    let text = join(&mut self.rng, &texts, PLAIN);
                    let label = format!("two-lines-{first}-then-{second}");
                    self.want(first, at(early, place), &label, &text);
                }
            }
        }
        for number in [FORM, CRC] {
            let draft = self.small_draft();
            let mut texts = texts_of(&draft);
            let (place, digits) = spoiled(&mut self.rng, 5, &write(0xC7, &[1, 2]), &[number]);
            texts[4] = digits;
            texts[5] = Vec::new();
            let text = join(&mut self.rng, &texts, PLAIN);
            self.want(number, at(5, place), "two-lines-then-empty", &text);
        }
    }
}
