//! Copies of a policy that are it, or nearly.

use crate::rows::{narrowed, place, Row};
use reference::{Action, FIELDS};
use specksonne::MOST_ROWS;
use testkit::Prng;

/// Neighbours have changed places, many times, where every search stays the same.
pub fn reordered(prng: &mut Prng, rows: &[Row]) -> Vec<Row> {
    let mut rows = rows.to_vec();
    for _ in 0..20 * rows.len().saturating_sub(1) {
        let at = place(prng, rows.len() - 1);
        if may_change_places(&rows[at], &rows[at + 1]) {
            rows.swap(at, at + 1);
        }
    }
    rows
}

/// Whether two neighbours have one action, or hold no combination both.
fn may_change_places(one: &Row, other: &Row) -> bool {
    let mut fields = one.ranges.iter().zip(&other.ranges);
    one.action == other.action || fields.any(|(a, b)| a.high < b.low || b.high < a.low)
}

/// One row has another action.
pub fn changed(prng: &mut Prng, rows: &[Row]) -> Vec<Row> {
    let mut rows = rows.to_vec();
    if !rows.is_empty() {
        let at = place(prng, rows.len());
        rows[at].action = other_than(prng, rows[at].action);
    }
    rows
}

fn other_than(prng: &mut Prng, action: Action) -> Action {
    loop {
        let other = *prng.pick(&[Action::Discard, Action::Bypass, Action::Protect(1)]);
        if other != action {
            return other;
        }
    }
}

/// One row is gone.
pub fn dropped(prng: &mut Prng, rows: &[Row]) -> Vec<Row> {
    let mut rows = rows.to_vec();
    if !rows.is_empty() {
        rows.remove(place(prng, rows.len()));
    }
    rows
}

/// The policy, and it with one row more: before a row, a narrower one with another action. A policy
/// of the most rows loses one first.
pub fn put_in(prng: &mut Prng, rows: &[Row]) -> [Vec<Row>; 2] {
    let before = if rows.len() < MOST_ROWS { rows.to_vec() } else { dropped(prng, rows) };
    let mut after = before.clone();
    if !before.is_empty() {
        let (at, field) = (place(prng, before.len()), place(prng, FIELDS));
        let mut row = before[at];
        row.ranges[field] = narrowed(prng, row.ranges[field]);
        row.action = other_than(prng, row.action);
        after.insert(at, row);
    }
    [before, after]
}

/// The policy and a copy, by any of these.
pub fn any_pair(prng: &mut Prng, rows: &[Row]) -> [Vec<Row>; 2] {
    let copy = match prng.below(8) {
        0 => rows.to_vec(),
        1..=4 => reordered(prng, rows),
        5 => changed(prng, rows),
        6 => dropped(prng, rows),
        _ => return put_in(prng, rows),
    };
    [rows.to_vec(), copy]
}
