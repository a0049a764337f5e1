//! Compares `show`, `replay`, `socket` and the two C entries with the second program on fresh random
//! input until the time is up.
//!
//! The same seed gives the same inputs, as many of them as the time allows.

use std::env;
use std::io;
use std::thread::{self, ScopedJoinHandle};
use std::time::{Duration, Instant};

use cases::random::Rng;

use crate::changes::{changed_input, changed_socket, changed_text};
use crate::entries::Entries;
use crate::printing::Printing;
use crate::programs::Program;
use crate::replay::REPLAY;
use crate::seeded::told;
use crate::show::SHOW;
use crate::socket::SOCKET;
use crate::tally::Tally;
use crate::Judged;
use crate::{pec, refusal};

const KEPT_IN: &str = "target/fuzz/kept";

struct Plan {
    began: Instant,
    until: Instant,
    seed: u64,
    entries: Program,
    show: Program,
    replay: Program,
    socket: Program,
}

impl Plan {
    fn new(seconds: u64, seed: u64) -> Result<Plan, String> {
        let began = Instant::now();
        let until = began.checked_add(Duration::from_secs(seconds));
        Ok(Plan {
            began,
            until: until.ok_or("no clock counts so many seconds")?,
            seed,
            entries: Program::of_entries()?,
            show: SHOW.program()?,
            replay: REPLAY.program()?,
            socket: SOCKET.program()?,
        })
    }

    fn over(&self) -> bool {
        Instant::now() >= self.until
    }

    /// The seed of a worker's round: far from those of the other workers and of other runs.
    fn seed_of(&self, worker: u64, round: u64) -> u64 {
        Rng::new(self.seed ^ worker << 56)
            .next()
            .wrapping_add(round)
    }
}

// ---- Files and PECs by the C entries, in one process ----------------------------------------

/// Each case file as it is made, and twice with changes; a PEC beside each.
fn files_by_entries(plan: &Plan, files: &Tally, pecs: &Tally) -> io::Result<()> {
    let mut entries = Entries::start(&plan.entries)?;
    for round in 0.. {
        let seed = plan.seed_of(0, round);
        let mut rng = Rng::new(seed);
        let cases = cases::files(seed);
        for made in &cases {
            let other = &cases[rng.below(cases.len())].bytes;
            for turn in 0..3 {
                if plan.over() {
                    return Ok(());
                }
                let case = if turn == 0 {
                    made.clone()
                } else {
                    made.changed(changed_text(&mut rng, &made.bytes, other))
                };
                let answers = refusal::answers(&mut entries, &case);
                files.compare(&case.name, &case.bytes, answers)?;

                let message = some_bytes(&mut rng, &case.bytes);
                let answers = pec::answers(&mut entries, &message);
                pecs.compare("", &message, answers)?;
            }
        }
    }
    Ok(())
}

/// Bytes for a PEC: random ones, or a piece of a text.
fn some_bytes(rng: &mut Rng, text: &[u8]) -> Vec<u8> {
    let most = rng.pick(&[8, 40, 300, 300, 2000]);
    let count = rng.from_to(0, most);
    if rng.once_in(2) {
        return rng.bytes(count);
    }
    let start = rng.below(text.len() + 1);
    text[start..(start + count).min(text.len())].to_vec()
}

// ---- The programs, a process for each case --------------------------------------------------

/// The case files in another order than the C entries meet them, each with changes every other time.
fn files_by_show(plan: &Plan, shows: &Tally) -> io::Result<()> {
    for round in 0.. {
        let seed = plan.seed_of(1, round);
        let mut rng = Rng::new(seed);
        let mut cases = cases::files(seed);
        rng.shuffle(&mut cases);
        for made in &cases {
            if plan.over() {
                return Ok(());
            }
            let other = &cases[rng.below(cases.len())].bytes;
            let case = if rng.once_in(2) {
                made.clone()
            } else {
                made.changed(changed_text(&mut rng, &made.bytes, other))
            };
            let answers = SHOW.answers(&plan.show, &case);
            shows.compare(&case.name, &case.bytes, answers)?;
        }
    }
    Ok(())
}

/// Dry runs: the program, its cases, and how one of them is changed.
struct DryRuns<'a> {
    printing: Printing,
    program: &'a Program,
    changed: fn(&mut Rng, &[u8]) -> Vec<u8>,
}

/// The cases, one in three with a change. Each worker has its own.
fn dry_runs(plan: &Plan, runs: &DryRuns, tally: &Tally, worker: u64) -> io::Result<()> {
    for round in 0.. {
        let seed = plan.seed_of(worker, round);
        let mut rng = Rng::new(seed);
        let mut cases = (runs.printing.cases)(seed);
        rng.shuffle(&mut cases);
        for made in &cases {
            if plan.over() {
                return Ok(());
            }
            let case = if rng.once_in(3) {
                made.changed((runs.changed)(&mut rng, &made.bytes))
            } else {
                made.clone()
            };
            let answers = runs.printing.answers(runs.program, &case);
            tally.compare(&case.name, &case.bytes, answers)?;
        }
    }
    Ok(())
}

// ---- The run --------------------------------------------------------------------------------

/// The ways of comparing, and what is said of each at the end.
const WAYS: [(&str, &str); 5] = [
    (
        "files",
        "each by tehilgam_refusal of the delivered archive, all in one process",
    ),
    (
        "pecs",
        "each by tehilgam_pec of the delivered archive, all in one process",
    ),
    ("shows", "each by a run of the program show, byte for byte"),
    (
        "replays",
        "each by a run of the program replay, byte for byte",
    ),
    (
        "sockets",
        "each by a run of the program socket, byte for byte",
    ),
];

pub fn run(seconds: u64, seed: u64) -> Judged {
    println!("fuzz: seed {seed}, {seconds} s, {}", env::consts::ARCH);
    let plan = Plan::new(seconds, seed)?;
    let tallies = WAYS.map(|(name, _)| Tally::new(name, seed, KEPT_IN));
    let [files, pecs, shows, replays, sockets] = &tallies;
    let replayed = DryRuns {
        printing: REPLAY,
        program: &plan.replay,
        changed: changed_input,
    };
    let at_the_socket = DryRuns {
        printing: SOCKET,
        program: &plan.socket,
        changed: changed_socket,
    };
    let all_went_on = thread::scope(|scope| {
        let workers = [
            scope.spawn(|| told("fuzz", files_by_entries(&plan, files, pecs))),
            scope.spawn(|| told("fuzz", files_by_show(&plan, shows))),
            scope.spawn(|| told("fuzz", dry_runs(&plan, &replayed, replays, 2))),
            scope.spawn(|| told("fuzz", dry_runs(&plan, &replayed, replays, 3))),
            scope.spawn(|| told("fuzz", dry_runs(&plan, &at_the_socket, sockets, 4))),
        ];
        say_how_far(&plan, &tallies, &workers);
        let results = workers.map(|worker| worker.join().expect("a worker"));
        results.iter().all(Result::is_ok)
    });
    Ok(settled(&plan, &tallies) && all_went_on)
}

/// Says once a minute how much was compared, until all workers have ended.
fn say_how_far<T>(plan: &Plan, tallies: &[Tally], workers: &[ScopedJoinHandle<T>]) {
    let mut said = plan.began;
    while workers.iter().any(|worker| !worker.is_finished()) {
        thread::sleep(Duration::from_millis(100));
        if said.elapsed() >= Duration::from_secs(60) {
            said = Instant::now();
            let counts: Vec<String> = tallies
                .iter()
                .map(|tally| format!("{} {}", tally.name, tally.cases()))
                .collect();
            let seconds = plan.began.elapsed().as_secs();
            println!("fuzz: after {seconds} s: {}", counts.join(", "));
        }
    }
}

/// Prints what was seen. True if each way compared something, and nothing differs.
fn settled(plan: &Plan, tallies: &[Tally]) -> bool {
    for (tally, (name, how)) in tallies.iter().zip(WAYS) {
        let (cases, differ) = (tally.cases(), tally.differing());
        println!("{name}: {cases} cases, {differ} differ; {how}");
        println!("  {}", tally.line());
    }
    let none = tallies.iter().any(|tally| tally.cases() == 0);
    if none {
        println!("fuzz: the time was too short to compare each of these");
    }
    let differ: u64 = tallies.iter().map(Tally::differing).sum();
    let seconds = plan.began.elapsed().as_secs();
    println!("fuzz: seed {}, {seconds} s, {differ} differ", plan.seed);
    differ == 0 && !none
}
