//! A seeded comparison: each case once, on every processor, and enough of each answer.

use std::fs;
use std::io;
use std::sync::atomic::{AtomicUsize, Ordering};
use std::thread;

use cases::{Case, Ending, Made};

use crate::tally::{Answers, Tally};

/// What has to be seen at least, so that agreeing means something.
pub struct Floor {
    pub cases: u64,
    /// Each of these answers so many times.
    pub times: u64,
    pub answers: &'static [&'static str],
}

/// A tally that begins with an empty folder for what differs.
pub fn tally(name: &'static str, seed: impl ToString) -> Tally {
    let folder = format!("target/judge/{name}");
    let _ = fs::remove_dir_all(&folder);
    Tally::new(name, seed, &folder)
}

/// Compares each case. A worker has what it needs from `start`, and `answers` asks both sides.
pub fn compare_all<S>(
    tally: &Tally,
    cases: &[Case],
    start: impl Fn() -> io::Result<S> + Sync,
    answers: impl Fn(&mut S, &Case) -> io::Result<Answers> + Sync,
) {
    let next = AtomicUsize::new(0);
    let work = || -> io::Result<()> {
        let mut own = start()?;
        while let Some(case) = cases.get(next.fetch_add(1, Ordering::Relaxed)) {
            tally.compare(&case.name, &case.bytes, answers(&mut own, case))?;
        }
        Ok(())
    };
    let workers = thread::available_parallelism().map_or(2, usize::from);
    thread::scope(|scope| {
        for _ in 0..workers {
            scope.spawn(|| told(tally.name, work()));
        }
    });
}

/// A comparison that cannot go on says so at once. What it leaves out is seen at the end.
pub fn told(name: &str, result: io::Result<()>) -> io::Result<()> {
    if let Err(error) = &result {
        println!("{name}: a comparison stopped: {error}");
    }
    result
}

/// The number that nothing has: the page had it for a line past the file's end (request R-9).
const UNUSED: u8 = 12;

/// What is wrong with an ending, though both sides may agree on it.
pub fn fault_of(case: &Case, ending: Option<Ending>) -> Option<String> {
    match (case.made, ending) {
        (_, None) => Some("it is no answer".into()),
        (_, Some(Ending::Number { number: UNUSED, .. })) => Some("12 is unused".into()),
        (Made::Unsaid, _) => Some("the label does not say what the case was made for".into()),
        (Made::For(made), Some(ending)) if made != ending => Some(format!(
            "the case was made for {made}, and both give {ending}"
        )),
        _ => None,
    }
}

/// Prints what was seen. True if nothing differs, every case was compared and the floor is reached.
pub fn settled(tally: &Tally, what: &str, cases: &[Case], floor: &Floor) -> bool {
    println!(
        "{}: seed {}, {} {what} compared, {} differ; how often each answer was given:",
        tally.name,
        tally.seed,
        tally.cases(),
        tally.differing()
    );
    println!("  {}", tally.line());
    let faults = lacking(tally, what, cases.len() as u64, floor);
    for fault in &faults {
        println!("{}: {fault}", tally.name);
    }
    faults.is_empty() && tally.differing() == 0
}

fn lacking(tally: &Tally, what: &str, made: u64, floor: &Floor) -> Vec<String> {
    let mut faults = Vec::new();
    if tally.cases() != made {
        faults.push(format!("not all of the {made} {what} were compared"));
    }
    if tally.cases() < floor.cases {
        faults.push(format!("fewer than {} {what}", floor.cases));
    }
    for answer in floor.answers {
        if tally.times(answer) < floor.times {
            let times = floor.times;
            faults.push(format!(
                "{} was given fewer than {times} times",
                answer.trim()
            ));
        }
    }
    faults
}
