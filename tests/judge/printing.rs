//! A delivered program that reads a case on standard input and prints its answer: held to the
//! second program byte for byte, and to what the case was made to give.

use std::io;

use cases::{Case, Ending};

use crate::programs::Program;
use crate::seeded::{compare_all, fault_of, settled, tally, Floor};
use crate::tally::Answers;
use crate::Judged;

pub struct Printing {
    /// The program's name, which is the mode's as well.
    pub name: &'static str,
    /// Where no other is said.
    pub seed: u64,
    pub cases: fn(u64) -> Vec<Case>,
    /// What the cases are, in words.
    pub what: &'static str,
    pub second: fn(&[u8]) -> String,
    /// How a case ended, by what was printed.
    pub ending_of: fn(&str) -> Option<Ending>,
    /// What the tally counts a case as that ended so.
    pub word_of: fn(&Case, Ending) -> String,
    /// What is wrong with what was printed by the documents alone, whoever agrees.
    pub breach_of: fn(&Case, &str) -> Option<String>,
    pub floor: Floor,
}

impl Printing {
    /// Compares the seeded cases.
    pub fn run(&self, seed: Option<u64>) -> Judged {
        let program = self.program()?;
        let seed = seed.unwrap_or(self.seed);
        let cases = (self.cases)(seed);
        let tally = tally(self.name, seed);
        compare_all(
            &tally,
            &cases,
            || Ok(()),
            |_, case| self.answers(&program, case),
        );
        Ok(settled(&tally, self.what, &cases, &self.floor))
    }

    pub fn program(&self) -> Result<Program, String> {
        Program::delivered(self.name)
    }

    /// Asks both sides.
    pub fn answers(&self, program: &Program, case: &Case) -> io::Result<Answers> {
        let ours = program.output_for(&case.bytes)?;
        let theirs = (self.second)(&case.bytes);
        let ending = (self.ending_of)(&theirs);
        let breach = (self.breach_of)(case, &theirs);
        Ok(Answers {
            ours,
            theirs: theirs.into_bytes(),
            word: ending.map_or("no answer".into(), |ending| (self.word_of)(case, ending)),
            fault: fault_of(case, ending).or(breach),
        })
    }
}
