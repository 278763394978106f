//! Two policies that are the same search, or nearly.

use super::policies::{narrowed, rewritten};
use super::rows::{any_action, any_scope, file, value_near, RowSpec, FIELDS, TOPS};
use super::Generator;
use crate::operation::to_hex;
use std::array::from_fn;
use testkit::Prng;

impl Generator {
    /// Compares the beginning of a policy with others that are it, or nearly.
    pub fn same_lines(&mut self, rows: &[RowSpec]) {
        for _ in 0..8 {
            // The library takes seconds for hundreds of rows without common ends.
            let most = *self.prng.pick(&[1, 2, 5, 60]);
            let rows = &rows[..rows.len().min(most)];
            let mut other = varied(&mut self.prng, rows);
            if self.prng.one_in(4) {
                other = varied(&mut self.prng, &other);
            }
            let (first, second) = (file(&mut self.prng, rows), file(&mut self.prng, &other));
            self.same_line(&first, &second);
        }
    }

    /// Compares two files, whichever comes first.
    pub fn same_line(&mut self, one: &[u8], other: &[u8]) {
        let direction = self.direction();
        let (first, second) = if self.prng.one_in(2) { (one, other) } else { (other, one) };
        self.line(format!("same {direction} {} {}", to_hex(first), to_hex(second)));
    }
}

/// The rows with one thing changed, or none; often it changes nothing in the search.
pub fn varied(prng: &mut Prng, rows: &[RowSpec]) -> Vec<RowSpec> {
    let mut varied = rows.to_vec();
    let kind = prng.below(10);
    if kind < 2 || rows.is_empty() {
        let point = point(prng, rows);
        varied.insert(prng.below(rows.len() as u64 + 1) as usize, point);
        return varied;
    }
    let place = prng.below(rows.len() as u64) as usize;
    let another = prng.below(rows.len() as u64) as usize;
    match kind {
        2 => return rewritten(prng, rows),
        3 => varied.swap(place, place.saturating_sub(1)),
        4 => varied.swap(place, another),
        5 => drop(varied.remove(place)),
        6 => varied[place] = narrowed(prng, &rows[place]),
        7 => move_an_end(prng, &mut varied[place]),
        8 if prng.one_in(2) => varied[place].scope = any_scope(prng),
        8 => varied[place].action = any_action(prng),
        _ => {}
    }
    varied
}

/// A row that holds one combination, near those of another row.
fn point(prng: &mut Prng, rows: &[RowSpec]) -> RowSpec {
    let ranges = match rows {
        [] => TOPS.map(|top| (0, top)),
        rows => prng.pick(rows).ranges,
    };
    let values: [u64; FIELDS] = from_fn(|field| value_near(prng, field, ranges[field]));
    let ranges = values.map(|value| (value, value));
    RowSpec { scope: any_scope(prng), action: any_action(prng), ranges }
}

/// One end of one range moves by one, where it can.
fn move_an_end(prng: &mut Prng, row: &mut RowSpec) {
    let field = prng.below(FIELDS as u64) as usize;
    let (low, high) = row.ranges[field];
    row.ranges[field] = match prng.below(4) {
        0 => (low.saturating_sub(1), high),
        1 if low < high => (low + 1, high),
        2 if low < high => (low, high - 1),
        _ => (low, (high + 1).min(TOPS[field])),
    };
}
