//! Times two sides in turns and prints one line for each pair.

use std::hint::black_box;
use std::time::{Duration, Instant};

pub const ROUNDS: usize = 25;

/// A round is repeated until it takes so long, so that the clock's own steps don't count.
const SHORTEST: Duration = Duration::from_micros(200);

pub struct Table {
    unit: &'static str,
    lines: Vec<(String, f64, f64)>,
}

impl Table {
    pub fn new(unit: &'static str) -> Table {
        Table {
            unit,
            lines: Vec::new(),
        }
    }

    pub fn line(&mut self, name: &str, ours: f64, theirs: f64) {
        self.lines.push((name.to_string(), ours, theirs));
    }

    /// A call of each, in microseconds.
    pub fn calls<A, B>(
        &mut self,
        name: &str,
        ours: &mut impl FnMut() -> A,
        theirs: &mut impl FnMut() -> B,
    ) {
        let (ours, theirs) = in_turns(
            &mut || {
                black_box(ours());
            },
            &mut || {
                black_box(theirs());
            },
        );
        self.line(name, ours * 1e6, theirs * 1e6);
    }

    pub fn print(&self) {
        println!("\n{:<56} library independent  ratio", self.unit);
        for (name, ours, theirs) in &self.lines {
            println!(
                "{name:<54} {ours:>9.3} {theirs:>11.3} {:>6.2}",
                ours / theirs
            );
        }
    }
}

/// Seconds that one call of each takes, at best.
pub fn in_turns(one: &mut dyn FnMut(), other: &mut dyn FnMut()) -> (f64, f64) {
    let (ones, others) = (repeats(one), repeats(other));
    let mut best = (f64::MAX, f64::MAX);
    for _ in 0..ROUNDS {
        best.0 = best.0.min(seconds(ones, one));
        best.1 = best.1.min(seconds(others, other));
    }
    best
}

/// The same for one alone.
pub fn alone(one: &mut dyn FnMut()) -> f64 {
    let repeats = repeats(one);
    (0..ROUNDS).fold(f64::MAX, |best, _| best.min(seconds(repeats, one)))
}

fn repeats(what: &mut dyn FnMut()) -> u32 {
    let mut repeats = 1;
    loop {
        let start = Instant::now();
        for _ in 0..repeats {
            what();
        }
        if start.elapsed() >= SHORTEST {
            return repeats;
        }
        repeats *= 2;
    }
}

fn seconds(repeats: u32, what: &mut dyn FnMut()) -> f64 {
    let start = Instant::now();
    for _ in 0..repeats {
        what();
    }
    start.elapsed().as_secs_f64() / f64::from(repeats)
}
