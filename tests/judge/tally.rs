//! What one way of comparing has seen: how often each answer was given, and what differed.

use std::collections::BTreeMap;
use std::fs;
use std::io;
use std::path::PathBuf;
use std::sync::Mutex;

use crate::difference::difference;

/// More differing inputs than these are counted and not kept.
const KEPT: u64 = 20;

pub struct Tally {
    pub name: &'static str,
    pub seed: String,
    folder: PathBuf,
    given: Mutex<BTreeMap<String, u64>>,
    differ: Mutex<u64>,
}

/// The answers for one case.
pub struct Answers {
    pub ours: Vec<u8>,
    pub theirs: Vec<u8>,
    /// What the tally counts it as.
    pub word: String,
    /// What is wrong although the two agree.
    pub fault: Option<String>,
}

impl Answers {
    /// There was no answer.
    fn none(error: &io::Error) -> Answers {
        Answers {
            ours: Vec::new(),
            theirs: Vec::new(),
            word: "no answer".into(),
            fault: Some(format!("there is no answer: {error}")),
        }
    }
}

impl Tally {
    /// A tally that keeps differing inputs in a folder.
    pub fn new(name: &'static str, seed: impl ToString, folder: &str) -> Tally {
        Tally {
            name,
            seed: seed.to_string(),
            folder: PathBuf::from(folder),
            given: Mutex::new(BTreeMap::new()),
            differ: Mutex::new(0),
        }
    }

    pub fn cases(&self) -> u64 {
        self.given.lock().unwrap().values().sum()
    }

    pub fn differing(&self) -> u64 {
        *self.differ.lock().unwrap()
    }

    /// How often an answer was given.
    pub fn times(&self, word: &str) -> u64 {
        let given = self.given.lock().unwrap();
        given.get(word).copied().unwrap_or(0)
    }

    /// Each answer and how often it was given, in one line.
    pub fn line(&self) -> String {
        let given = self.given.lock().unwrap();
        let words: Vec<String> = given
            .iter()
            .map(|(word, count)| format!("{word}: {count}"))
            .collect();
        words.join(", ")
    }

    /// Counts a case, and keeps its input where the two answers differ, something else is wrong, or
    /// there is no answer. Without one the comparison cannot go on.
    pub fn compare(
        &self,
        case: &str,
        input: &[u8],
        answers: io::Result<Answers>,
    ) -> io::Result<()> {
        match answers {
            Ok(answers) => self.count(case, input, &answers),
            Err(error) => {
                self.count(case, input, &Answers::none(&error))?;
                Err(error)
            }
        }
    }

    fn count(&self, case: &str, input: &[u8], answers: &Answers) -> io::Result<()> {
        let word = answers.word.clone();
        *self.given.lock().unwrap().entry(word).or_insert(0) += 1;
        let why = match &answers.fault {
            _ if answers.ours != answers.theirs => difference(&answers.ours, &answers.theirs),
            Some(fault) => fault.clone(),
            None => return Ok(()),
        };
        let mut differ = self.differ.lock().unwrap();
        *differ += 1;
        if *differ > KEPT {
            return Ok(());
        }
        let mut stem = format!("{}-{}-{:02}", self.name, self.seed, *differ);
        if !case.is_empty() {
            stem = format!("{stem}-{case}");
        }
        let place = self.folder.join(&stem);
        println!("{}: DIFFERS, see {}.*: {why}", self.name, place.display());
        self.keep(&stem, input, answers)
    }

    fn keep(&self, stem: &str, input: &[u8], answers: &Answers) -> io::Result<()> {
        fs::create_dir_all(&self.folder)?;
        let parts = [
            ("input", input),
            ("ours", &answers.ours),
            ("second", &answers.theirs),
        ];
        for (ending, bytes) in parts {
            fs::write(self.folder.join(format!("{stem}.{ending}")), bytes)?;
        }
        Ok(())
    }
}
