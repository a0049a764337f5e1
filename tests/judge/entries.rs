//! The two C entries, asked through the C driver in one process.

use std::io::{self, Read, Write};
use std::process::Child;

use crate::programs::Program;

/// The byte by which the C driver knows which entry is asked.
#[derive(Clone, Copy)]
pub enum Entry {
    Refusal = b'f' as isize,
    Pec = b'p' as isize,
}

pub struct Entries {
    child: Child,
}

impl Entries {
    pub fn start(program: &Program) -> io::Result<Entries> {
        let child = program.command().spawn()?;
        Ok(Entries { child })
    }

    /// What an entry gives for some bytes.
    pub fn ask(&mut self, entry: Entry, bytes: &[u8]) -> io::Result<u8> {
        self.answer(entry as u8, bytes)
    }

    /// What an entry gives for a null pointer and length 0.
    pub fn ask_null(&mut self, entry: Entry) -> io::Result<u8> {
        self.answer((entry as u8).to_ascii_uppercase(), &[])
    }

    fn answer(&mut self, what: u8, bytes: &[u8]) -> io::Result<u8> {
        let input = self.child.stdin.as_mut().expect("a pipe");
        let length = (bytes.len() as u32).to_le_bytes();
        input.write_all(&[&[what][..], &length[..], bytes].concat())?;
        input.flush()?;
        let mut answer = [0];
        self.child
            .stdout
            .as_mut()
            .expect("a pipe")
            .read_exact(&mut answer)?;
        Ok(answer[0])
    }
}

/// The C driver ends with its input.
impl Drop for Entries {
    fn drop(&mut self) {
        drop(self.child.stdin.take());
        let _ = self.child.wait();
    }
}
