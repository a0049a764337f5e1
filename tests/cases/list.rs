//! The list that a generator puts its cases on.

use crate::ending::Made;

/// An input, its name, and what it was made to give.
#[derive(Clone)]
pub struct Case {
    pub name: String,
    pub made: Made,
    pub bytes: Vec<u8>,
}

impl Case {
    /// The case with other bytes. What they give is not known from the making.
    pub fn changed(&self, bytes: Vec<u8>) -> Case {
        Case {
            name: format!("{}-changed", self.name),
            made: Made::Open,
            bytes,
        }
    }
}

#[derive(Default)]
pub struct List(Vec<Case>);

impl List {
    /// A case is named by a running number and its label, whose first word says what it was made
    /// to give.
    pub fn put(&mut self, label: &str, bytes: &[u8]) {
        self.0.push(Case {
            name: format!("{:04}-{label}", self.0.len()),
            made: Made::of_label(label),
            bytes: bytes.to_vec(),
        });
    }

    pub fn cases(self) -> Vec<Case> {
        self.0
    }
}

/// Numbers for a label.
pub fn names(numbers: &[u8]) -> String {
    let names: Vec<String> = numbers.iter().map(u8::to_string).collect();
    names.join("-")
}
