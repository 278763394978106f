//! Times the proved library against the independent implementation, on the same inputs and in one
//! run, so that the ratios hold whatever the machine does meanwhile.

use crate::cases::{self, Case, Work};
use std::hint::black_box;
use std::io::{self, Write};
use std::time::{Duration, Instant};

/// Rounds of each side, by turns; the quickest round counts.
const ROUNDS: usize = 15;
/// How long a round is made, at least.
const ROUND: Duration = Duration::from_millis(20);

/// Writes the times of all cases and their ratios.
pub fn write() -> io::Result<()> {
    let mut out = io::stdout();
    writeln!(out, "{:<44} {:>12} {:>12} {:>7}", "case", "proved", "reference", "ratio")?;
    for mut case in cases::all() {
        let Case { name, proved, reference } = &mut case;
        let (proved, reference) = quickest(proved, reference);
        let ratio = proved / reference;
        let (proved, reference) = (shown(proved), shown(reference));
        writeln!(out, "{name:<44} {proved:>12} {reference:>12} {ratio:>7.2}")?;
    }
    Ok(())
}

/// The nanoseconds of one call of each, at their quickest.
fn quickest(one: &mut Work, other: &mut Work) -> (f64, f64) {
    let (one_calls, other_calls) = (calls_of_a_round(one), calls_of_a_round(other));
    let mut best = (f64::INFINITY, f64::INFINITY);
    for _ in 0..ROUNDS {
        best.0 = best.0.min(round(one, one_calls));
        best.1 = best.1.min(round(other, other_calls));
    }
    best
}

fn calls_of_a_round(work: &mut Work) -> u32 {
    let mut calls = 1;
    loop {
        let start = Instant::now();
        repeat(work, calls);
        if start.elapsed() > ROUND {
            return calls;
        }
        calls *= 2;
    }
}

fn round(work: &mut Work, calls: u32) -> f64 {
    let start = Instant::now();
    repeat(work, calls);
    start.elapsed().as_nanos() as f64 / f64::from(calls)
}

fn repeat(work: &mut Work, calls: u32) {
    for _ in 0..calls {
        black_box(work());
    }
}

fn shown(nanoseconds: f64) -> String {
    match nanoseconds {
        n if n < 1e4 => format!("{n:.0} ns"),
        n if n < 1e7 => format!("{:.1} us", n / 1e3),
        n => format!("{:.1} ms", n / 1e6),
    }
}
