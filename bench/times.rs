//! Times, and the table's rows.
use std::arch::asm;
use std::time::Instant;

/// The value, of which the compiler may assume nothing: `std::hint`'s came with Rust 1.66, and Debian's may be older.
#[inline(always)]
pub fn black_box<T>(value: T) -> T {
    unsafe { asm!("/* {0} */", in(reg) &value, options(nostack, preserves_flags)) };
    value
}

/// Nanoseconds of one call of each: all are timed in turns, and the least of sixty turns counts.
pub fn least<const N: usize>(repeats: u32, calls: [&dyn Fn() -> u32; N]) -> [f64; N] {
    let mut best = [f64::MAX; N];
    for _ in 0..60 {
        for (best, call) in best.iter_mut().zip(calls) {
            let start = Instant::now();
            for _ in 0..repeats {
                black_box(call());
            }
            *best = best.min(start.elapsed().as_secs_f64() * 1e9 / f64::from(repeats));
        }
    }
    best
}

/// A cost in nanoseconds beside a plain implementation's; the goal is the greatest ratio that is wanted.
pub struct Row {
    pub what: &'static str,
    pub ours: f64,
    pub plain: f64,
    pub goal: Option<f64>,
}

impl Row {
    pub fn print(&self) {
        let time = |ns: f64| if ns < 1e3 { format!("{ns:.1} ns") } else { format!("{:.1} us", ns / 1e3) };
        let goal = self.goal.map_or("-".to_string(), |goal| format!("{goal:.1}"));
        println!("{:<44} {:>9} {:>9} {:>6.2} {:>5}", self.what, time(self.ours), time(self.plain), self.ours / self.plain, goal);
    }
}
