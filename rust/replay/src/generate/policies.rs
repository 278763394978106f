//! Policies: overlapping, shadowed, at the limits of size, and rewritten without a change.

use super::rows::{any_action, any_scope, file, value_near, Ends, RowSpec, FIELDS, TOPS};
use super::Generator;
use crate::operation::to_hex;
use reference::{normalise, Answer, Direction, Requests};
use std::array::from_fn;
use testkit::Prng;

/// More than the longest normal-form file.
const ROOM_FOR_ALL: usize = 60_000;

impl Generator {
    pub fn policies_block(&mut self) {
        let rows = random_policy(&mut self.prng);
        let mut variants = vec![rows.clone(), rewritten(&mut self.prng, &rows)];
        variants.push(with_one_change(&mut self.prng, &rows));
        self.same_lines(&rows);
        let direction = self.direction();
        for rows in variants {
            let file = file(&mut self.prng, &rows);
            self.normalise_lines(direction, &file);
            self.search_lines(&rows, &file);
            if self.prng.one_in(3) {
                self.policy_line(rows, &file);
            }
        }
    }

    /// Gives a policy file to the gateway.
    pub fn policy_line(&mut self, rows: Vec<RowSpec>, file: &[u8]) {
        self.policy = rows;
        self.line(format!("policy {}", to_hex(file)));
    }

    /// Normalises with much room, and with room that is just enough or just too short. Where
    /// there is a normal form, normalises that again and compares the two.
    fn normalise_lines(&mut self, direction: &str, file: &[u8]) {
        let mut room = vec![0; ROOM_FOR_ALL];
        let way = if direction == "out" { Direction::Out } else { Direction::In };
        let hex = to_hex(file);
        self.line(format!("normalise {direction} {ROOM_FOR_ALL} {hex}"));
        if let Answer::Printed { bytes } = normalise(file, way, &mut room, Requests::NONE) {
            let near = [bytes - 1, bytes, bytes + 1, 0];
            let room_bytes = *self.prng.pick(&near);
            self.line(format!("normalise {direction} {room_bytes} {hex}"));
            let form = to_hex(&room[..bytes]);
            self.line(format!("normalise {direction} {ROOM_FOR_ALL} {form}"));
            self.line(format!("same {direction} {hex} {form}"));
        }
    }

    /// Searches a file at the edges of its rows.
    fn search_lines(&mut self, rows: &[RowSpec], file: &[u8]) {
        let hex = to_hex(file);
        for _ in 0..3 {
            let mut values = TOPS.map(|top| self.prng.between(0, top));
            if !rows.is_empty() {
                let ranges = self.prng.pick(rows).ranges;
                values = from_fn(|field| value_near(&mut self.prng, field, ranges[field]));
            }
            let values = values.map(|value| value.to_string()).join(" ");
            let line = format!("search {} {hex} {values}", self.direction());
            self.line(line);
        }
    }
}

pub fn random_policy(prng: &mut Prng) -> Vec<RowSpec> {
    let mut rows = match prng.below(12) {
        0 => Vec::new(),
        1..=5 => overlapping(prng),
        6..=8 => striped(prng),
        9 => scattered(prng),
        _ => service_desk(prng),
    };
    if prng.one_in(2) {
        rows = with_shadows(prng, rows);
    }
    // A few stay a row too long.
    if !prng.one_in(10) {
        rows.truncate(256);
    }
    rows
}

/// Rows whose ends come from a few values of a few fields, so that most of them overlap.
fn overlapping(prng: &mut Prng) -> Vec<RowSpec> {
    let pool_size = prng.between(2, 12);
    let mut pools = TOPS.map(|top| pool(prng, top, pool_size));
    for _ in 0..prng.between(1, 5) {
        pools[prng.below(FIELDS as u64) as usize].clear();
    }
    let row = |prng: &mut Prng| RowSpec {
        scope: any_scope(prng),
        action: any_action(prng),
        ranges: from_fn(|field| ends_from(prng, field, &pools[field])),
    };
    let most = *prng.pick(&[30, 30, 30, 260]);
    let count = prng.below(most);
    (0..count).map(|_| row(prng)).collect()
}

/// Some values of a field, among them its ends and pairs of neighbours.
fn pool(prng: &mut Prng, top: u64, size: u64) -> Vec<u64> {
    let mut values = vec![0, top, top - 1];
    for _ in 0..size {
        let value = prng.below(top);
        values.extend([value, value + 1]);
    }
    values
}

/// A range between two values of the pool; with an empty pool the whole field.
fn ends_from(prng: &mut Prng, field: usize, pool: &[u64]) -> Ends {
    if pool.is_empty() || prng.one_in(4) {
        return (0, TOPS[field]);
    }
    let (one, other) = (*prng.pick(pool), *prng.pick(pool));
    if prng.one_in(3) {
        (one, one)
    } else {
        (one.min(other), one.max(other))
    }
}

/// Single values of one field, apart from each other: the normal form has as many rows, and
/// filling caches, or the limit of 256, goes by their count.
pub fn striped(prng: &mut Prng) -> Vec<RowSpec> {
    let field = prng.below(FIELDS as u64) as usize;
    let longest = if field == 2 { 128 } else { 257 };
    let counts = [31, 32, 33, 40, 70, prng.between(1, 128), 127, 128, 255, 256, 257];
    let count = (*prng.pick(&counts)).min(longest);
    let step = *prng.pick(&[2, TOPS[field] / longest]);
    let scope = any_scope(prng);
    let stripe = |n: u64| {
        let mut ranges = TOPS.map(|top| (0, top));
        ranges[field] = (n * step, n * step);
        RowSpec { scope, action: any_action(prng), ranges }
    };
    (0..count).map(stripe).collect()
}

/// Rows without any common ends: mostly far over the limit.
fn scattered(prng: &mut Prng) -> Vec<RowSpec> {
    let count = *prng.pick(&[3, 10, 60, 256]);
    let row = |_| {
        let pools = TOPS.map(|top| vec![prng.between(0, top), prng.between(0, top)]);
        RowSpec {
            scope: any_scope(prng),
            action: any_action(prng),
            ranges: from_fn(|field| ends_from(prng, field, &pools[field])),
        }
    };
    (0..count).map(row).collect()
}

/// What an oven's gateway might really be given.
fn service_desk(prng: &mut Prng) -> Vec<RowSpec> {
    let subnet = |n: u64| (0x0a00_0000 + n * 256, 0x0a00_0000 + n * 256 + 255);
    let mut rows = Vec::new();
    for _ in 0..prng.between(1, 12) {
        let mut ranges = TOPS.map(|top| (0, top));
        ranges[0] = subnet(prng.below(4));
        ranges[1] = subnet(prng.between(256, 260));
        let protocol = *prng.pick(&[1, 6, 6, 17, 132, 47]);
        ranges[2] = (protocol, protocol);
        if protocol == 1 {
            ranges[3] = *prng.pick(&[(768, 1023), (0, 65_535), (2048, 2303)]);
        } else {
            ranges[4] = *prng.pick(&[(22, 22), (80, 443), (0, 65_535), (1024, 65_536)]);
        }
        rows.push(RowSpec { scope: any_scope(prng), action: any_action(prng), ranges });
    }
    let mut key_exchange = TOPS.map(|top| (0, top));
    (key_exchange[2], key_exchange[3], key_exchange[4]) = ((17, 17), (500, 500), (500, 500));
    rows.push(RowSpec { scope: "both", action: "bypass".to_string(), ranges: key_exchange });
    rows
}

/// Narrower or equal copies of rows, put behind them (never met) or before them (met first).
fn with_shadows(prng: &mut Prng, mut rows: Vec<RowSpec>) -> Vec<RowSpec> {
    for _ in 0..prng.between(1, 20) {
        if rows.is_empty() {
            break;
        }
        let place = prng.below(rows.len() as u64) as usize;
        let copy = narrowed(prng, &rows[place]);
        let behind = prng.below(4) > 0;
        rows.insert(place + usize::from(behind), copy);
    }
    rows
}

pub fn narrowed(prng: &mut Prng, row: &RowSpec) -> RowSpec {
    let mut copy = RowSpec { action: any_action(prng), ..row.clone() };
    let field = prng.below(FIELDS as u64) as usize;
    let (low, high) = row.ranges[field];
    let middle = prng.between(low, high);
    copy.ranges[field] = *prng.pick(&[(low, middle), (middle, high), (middle, middle)]);
    copy
}

/// The same search from other rows: some are parted in two, and some shadowed rows are added.
pub fn rewritten(prng: &mut Prng, rows: &[RowSpec]) -> Vec<RowSpec> {
    let mut result = Vec::new();
    for row in rows {
        let field = prng.below(FIELDS as u64) as usize;
        let (low, high) = row.ranges[field];
        let mut parts = vec![row.clone()];
        if low < high && prng.one_in(3) {
            let middle = prng.between(low, high - 1);
            parts.push(row.clone());
            parts[0].ranges[field] = (low, middle);
            parts[1].ranges[field] = (middle + 1, high);
            if prng.one_in(2) {
                parts.swap(0, 1);
            }
        }
        if prng.one_in(4) {
            parts.push(narrowed(prng, row));
        }
        result.extend(parts);
    }
    result
}

/// Nearly the same rows: one range or action is another.
fn with_one_change(prng: &mut Prng, rows: &[RowSpec]) -> Vec<RowSpec> {
    let mut rows = rows.to_vec();
    if !rows.is_empty() {
        let place = prng.below(rows.len() as u64) as usize;
        rows[place] = narrowed(prng, &rows[place]);
    }
    rows
}
