//! Where what is delivered lies, and how it is started: tools/kit.sh builds it.

use std::io::{self, Write};
use std::path::Path;
use std::process::{Command, Stdio};
use std::thread;

/// A program, by its path.
pub struct Program {
    path: String,
}

impl Program {
    /// A delivered program, a process for each case.
    pub fn delivered(name: &str) -> Result<Program, String> {
        Program::at(format!("crates/{name}/out/{name}"))
    }

    /// The C driver, which is linked with the delivered archive.
    pub fn of_entries() -> Result<Program, String> {
        Program::at("target/tests/entries".to_string())
    }

    fn at(path: String) -> Result<Program, String> {
        if Path::new(&path).exists() {
            Ok(Program { path })
        } else {
            Err(format!("there is no {path}"))
        }
    }

    /// The command, with pipes for its input and its output.
    pub fn command(&self) -> Command {
        let mut command = Command::new(&self.path);
        command.stdin(Stdio::piped()).stdout(Stdio::piped());
        command
    }

    /// What the program writes for an input, with a line more where it does not end well. It may
    /// stop reading before the input ends, so a failure to write it all is none.
    pub fn output_for(&self, input: &[u8]) -> io::Result<Vec<u8>> {
        let mut child = self.command().spawn()?;
        let mut to_child = child.stdin.take().expect("a pipe");
        let output = thread::scope(|scope| {
            scope.spawn(move || drop(to_child.write_all(input)));
            child.wait_with_output()
        })?;
        let mut written = output.stdout;
        if !output.status.success() {
            written.extend(format!("and ended with {}\n", output.status).bytes());
        }
        Ok(written)
    }
}
