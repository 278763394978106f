//! A climb to slow policies: rows are changed at chance, and what made the call slower is kept.

use crate::calls::{Call, Timed, LIMIT, LONG};
use crate::families::FAMILIES;
use crate::rows::{any_range, between, narrowed, place, Row};
use crate::variants::any_pair;
use reference::{parse_policy, Action, Direction, Range, Requests, FIELDS, FIELD_TOPS};
use replay::generate::{policies, rows};
use specksonne::MOST_ROWS;
use std::time::{Duration, Instant};
use testkit::Prng;

/// So many changes in a row that made nothing slower end a climb from one start.
const PATIENCE: u32 = 200;

/// The call that is made slow.
#[derive(Clone, Copy, Debug, PartialEq, Eq)]
pub enum Target {
    Normalise,
    /// Comparing a policy with a copy that is it, or nearly.
    Compare,
}

/// A policy, and the seed that fixes its copy.
#[derive(Clone, Debug)]
struct Candidate {
    rows: Vec<Row>,
    copy: u64,
}

impl Candidate {
    fn call(&self, target: Target) -> Call {
        match target {
            Target::Normalise => Call::normalise(&self.rows),
            Target::Compare => {
                let [one, other] = any_pair(&mut Prng::new(self.copy), &self.rows);
                Call::compare(&one, &other)
            }
        }
    }
}

/// A slow call.
pub struct Slow {
    pub call: Call,
    /// Where its climb started: a family, or a random policy.
    pub start: &'static str,
    /// How many rows its policy has.
    pub rows: usize,
    /// None where it was given up.
    pub timed: Option<Timed>,
    /// How many calls were tried so far.
    pub tried: u64,
}

pub struct Climb<R> {
    target: Target,
    prng: Prng,
    end: Instant,
    report: R,
    tried: u64,
    slowest: Duration,
    /// The policy that was slowest, and where its climb started.
    best: Option<(Candidate, &'static str)>,
}

impl<R: FnMut(&Slow)> Climb<R> {
    /// A climb for some time, which reports each call that is slower than all before.
    pub fn new(target: Target, time: Duration, seed: u64, report: R) -> Climb<R> {
        let (end, prng) = (Instant::now() + time, Prng::new(seed));
        Climb { target, prng, end, report, tried: 0, slowest: Duration::ZERO, best: None }
    }

    /// Climbs from one start after the other until the time is over or a call was given up, and
    /// says how many calls were tried.
    pub fn run(mut self) -> u64 {
        while Instant::now() < self.end && self.slowest < LIMIT {
            let (candidate, start) = self.start();
            self.climb(candidate, start);
        }
        self.tried
    }

    /// A family, a random policy, or the slowest so far.
    fn start(&mut self) -> (Candidate, &'static str) {
        let copy = self.prng.number();
        let (rows, start) = match (self.prng.below(4), &self.best) {
            (0, _) => (random_policy(&mut self.prng), "random"),
            (1, Some((best, start))) => (best.rows.clone(), *start),
            _ => {
                let family = self.prng.pick(&FAMILIES);
                let rows = self.prng.between(MOST_ROWS as u64 / 2, MOST_ROWS as u64);
                (family.policy(rows as usize, self.prng.number()), family.name)
            }
        };
        (Candidate { rows, copy }, start)
    }

    fn climb(&mut self, mut at: Candidate, start: &'static str) {
        let mut time = self.time(&at, start, Duration::ZERO);
        let mut in_vain = 0;
        while in_vain < PATIENCE && Instant::now() < self.end && time < LIMIT {
            let next = self.neighbour(&at);
            let next_time = self.time(&next, start, time);
            in_vain = if next_time > time.mul_f64(1.02) { 0 } else { in_vain + 1 };
            // A change that costs little may be the way to one that pays.
            if next_time > time.mul_f64(0.98) {
                (at, time) = (next, next_time);
            }
        }
    }

    fn neighbour(&mut self, at: &Candidate) -> Candidate {
        let mut next = at.clone();
        if self.target == Target::Compare && self.prng.one_in(4) {
            next.copy = self.prng.number();
        }
        for _ in 0..*self.prng.pick(&[1, 1, 2, 4, 16]) {
            change(&mut self.prng, &mut next.rows);
        }
        next
    }

    /// What the call takes; where it seems slower than `before`, the quickest of three runs.
    fn time(&mut self, candidate: &Candidate, start: &'static str, before: Duration) -> Duration {
        let call = candidate.call(self.target);
        self.tried += 1;
        let mut timed = call.once();
        for _ in 0..2 {
            timed = match timed {
                Some(one) if one.time > before && one.time < LONG => quicker(one, call.once()),
                other => other,
            };
        }
        let time = timed.as_ref().map_or(LIMIT, |timed| timed.time);
        if time > self.slowest {
            self.slowest = time;
            self.best = Some((candidate.clone(), start));
            let rows = candidate.rows.len();
            (self.report)(&Slow { call, start, rows, timed, tried: self.tried });
        }
        time
    }
}

fn quicker(one: Timed, other: Option<Timed>) -> Option<Timed> {
    match other {
        Some(other) if other.time < one.time => Some(other),
        _ => Some(one),
    }
}

/// The rows for out of a policy as the scenarios have them.
pub fn random_policy(prng: &mut Prng) -> Vec<Row> {
    loop {
        let rows = policies::random_policy(prng);
        if let Ok(policy) = parse_policy(&rows::file(prng, &rows), Requests::NONE) {
            return policy.entries(Direction::Out);
        }
    }
}

/// Changes one thing at chance: adds, drops or moves a row, widens or narrows one, takes an end from
/// another, or changes an action.
pub fn change(prng: &mut Prng, rows: &mut Vec<Row>) {
    if rows.is_empty() {
        return rows.push(any_row(prng));
    }
    let (at, other) = (place(prng, rows.len()), place(prng, rows.len()));
    let field = place(prng, FIELDS);
    let (range, model) = (rows[at].ranges[field], rows[other].ranges[field]);
    match prng.below(9) {
        0 if rows.len() < MOST_ROWS => {
            let row = if prng.one_in(3) { any_row(prng) } else { rows[at] };
            rows.insert(other, row);
        }
        1 if rows.len() > 1 => drop(rows.remove(at)),
        2 => {
            let row = rows.remove(at);
            rows.insert(other, row);
        }
        3 => rows[at].ranges[field] = widened(prng, field, range),
        4 => rows[at].ranges[field] = narrowed(prng, range),
        5 => rows[at].ranges[field] = model,
        6 => rows[at].ranges[field] = beside(prng, field, range, model),
        7 => rows[at].action = rows[other].action,
        _ => rows[at].action = any_action(prng),
    }
}

fn any_row(prng: &mut Prng) -> Row {
    let action = any_action(prng);
    Row { action, ranges: std::array::from_fn(|field| any_range(prng, field)) }
}

fn any_action(prng: &mut Prng) -> Action {
    match prng.below(5) {
        0 | 1 => Action::Discard,
        2 | 3 => Action::Bypass,
        _ => Action::Protect(prng.between(1, 255) as u8),
    }
}

fn widened(prng: &mut Prng, field: usize, range: Range) -> Range {
    let top = FIELD_TOPS[field];
    let (low, high) = (between(prng, 0, range.low), between(prng, range.high, top));
    *prng.pick(&[Range::new(low, range.high), Range::new(range.low, high), Range::new(0, top)])
}

/// The range with one end beside or at an end of another range, where it can be.
fn beside(prng: &mut Prng, field: usize, range: Range, model: Range) -> Range {
    let top = FIELD_TOPS[field];
    let ends = [model.low, model.high, model.low.saturating_sub(1), (model.high + 1).min(top)];
    let end = *prng.pick(&ends);
    if end < range.low || (end <= range.high && prng.one_in(2)) {
        Range::new(end, range.high)
    } else {
        Range::new(range.low, end)
    }
}
