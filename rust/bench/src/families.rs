//! Families of policies. Those named `real-` look like firewalls; the others are made to be hard
//! for a layout that cuts field by field: rows hidden behind a union of earlier rows, nested ranges,
//! many cuts that change nothing.

use crate::rows::{any_range, between, only, Row, ANY};
use reference::Action::{self, Bypass, Discard, Protect};
use reference::{Range, Ranges, Value, FIELDS, FIELD_TOPS};
use std::array::from_fn;
use testkit::Prng;

pub struct Family {
    pub name: &'static str,
    make: fn(&mut Prng, usize) -> Vec<Row>,
}

impl Family {
    /// The policy of so many rows, at least one, that a seed fixes.
    pub fn policy(&self, rows: usize, seed: u64) -> Vec<Row> {
        let mut policy = (self.make)(&mut Prng::new(seed), rows);
        policy.truncate(rows);
        policy
    }

    pub fn named(name: &str) -> Option<&'static Family> {
        FAMILIES.iter().find(|family| family.name == name)
    }
}

pub static FAMILIES: [Family; 20] = [
    Family { name: "real-block-lists", make: block_lists },
    Family { name: "real-block-then-bypass", make: block_then_bypass },
    Family {
        name: "real-24-subnets",
        make: |prng, n| firewall(prng, n, 24, 4, &[Bypass, Bypass, Discard], Discard),
    },
    Family {
        name: "real-6-subnets",
        make: |prng, n| firewall(prng, n, 6, 3, &[Bypass, Protect(1), Discard], Discard),
    },
    Family {
        name: "real-3-subnets",
        make: |prng, n| firewall(prng, n, 3, 2, &[Bypass, Protect(1)], Bypass),
    },
    Family { name: "line-of-discards", make: line_of_discards },
    Family { name: "full-then-shadowed", make: |prng, n| shadowed(prng, n, vec![all(Bypass)], 4) },
    Family { name: "halves-of-the-last-field", make: |prng, n| shadowed(prng, n, halves(4), 4) },
    Family {
        name: "halves-of-the-last-field-all-cut",
        make: |prng, n| shadowed(prng, n, halves(4), FIELDS),
    },
    Family { name: "halves-of-the-first-field", make: |prng, n| shadowed(prng, n, halves(0), 4) },
    Family {
        name: "grid-of-64",
        make: |prng, n| {
            let grid = grid(prng, n);
            shadowed(prng, n, grid, FIELDS)
        },
    },
    Family { name: "nested-small-first", make: |_, n| nested(n) },
    Family { name: "nested-small-first-one-action", make: |_, n| of_one_action(nested(n)) },
    Family { name: "nested-large-first", make: |_, n| nested(n).into_iter().rev().collect() },
    Family { name: "disjoint-diagonal", make: |_, n| diagonal(n) },
    Family {
        name: "random-one-action-full-last",
        make: |prng, n| ended(random(prng, n, &[Bypass]), vec![all(Bypass)]),
    },
    Family {
        name: "random-one-action-halves-last",
        make: |prng, n| ended(random(prng, n, &[Bypass]), of_one_action(halves(4))),
    },
    Family { name: "random-discards", make: |prng, n| random(prng, n, &[Discard]) },
    Family { name: "random-actions", make: |prng, n| random(prng, n, &[Bypass, Protect(1)]) },
    Family {
        name: "slabs-then-halves",
        make: |prng, n| ended(slabs(prng, n), of_one_action(halves(4))),
    },
];

fn row(action: Action, ranges: Ranges) -> Row {
    Row { action, ranges }
}

/// The row that holds everything.
fn all(action: Action) -> Row {
    row(action, ANY)
}

/// The rows with their last ones replaced.
fn ended(mut rows: Vec<Row>, last: Vec<Row>) -> Vec<Row> {
    rows.truncate(rows.len().saturating_sub(last.len()));
    rows.extend(last);
    rows
}

fn of_one_action(rows: Vec<Row>) -> Vec<Row> {
    rows.into_iter().map(|each| row(Bypass, each.ranges)).collect()
}

/// Bypass, protect-1 and on, and bypass again after protect-255.
fn turn(n: usize) -> Action {
    match n % 256 {
        0 => Bypass,
        n => Protect(n as u8),
    }
}

/// The two halves of a field, with two actions.
fn halves(field: usize) -> Vec<Row> {
    let middle = FIELD_TOPS[field] / 2;
    let (low, high) = (Range::new(0, middle), Range::new(middle + 1, FIELD_TOPS[field]));
    vec![row(Bypass, only(field, low)), row(Protect(1), only(field, high))]
}

/// Ranges that are cut anywhere in the first so many fields.
fn anywhere(prng: &mut Prng, fields: usize) -> Ranges {
    from_fn(|field| if field < fields { any_range(prng, field) } else { ANY[field] })
}

fn random(prng: &mut Prng, n: usize, actions: &[Action]) -> Vec<Row> {
    (0..n).map(|_| row(*prng.pick(actions), anywhere(prng, FIELDS))).collect()
}

/// Rows that hold everything, then rows that no search reaches.
fn shadowed(prng: &mut Prng, n: usize, mut cover: Vec<Row>, fields: usize) -> Vec<Row> {
    while cover.len() < n {
        let action = turn(prng.below(256) as usize);
        cover.push(row(action, anywhere(prng, fields)));
    }
    cover
}

/// The squares of a chessboard of both ports, 8 by 8 or as many as there are rows for.
fn grid(prng: &mut Prng, n: usize) -> Vec<Row> {
    let side = n.isqrt().min(8);
    let squares = (0..side).flat_map(|a| (0..side).map(move |b| (a, b)));
    let mut rows: Vec<Row> = squares
        .map(|(a, b)| {
            let (local, remote) = (share(3, a, side), share(4, b, side));
            row(turn((a + b) % 2), [ANY[0], ANY[1], ANY[2], local, remote])
        })
        .collect();
    prng.shuffle(&mut rows);
    rows
}

/// One of so many equal shares of a field; the last one has the rest.
fn share(field: usize, k: usize, shares: usize) -> Range {
    let width = (FIELD_TOPS[field] + 1) / shares as Value;
    let low = k as Value * width;
    Range::new(low, if k + 1 == shares { FIELD_TOPS[field] } else { low + width - 1 })
}

/// Each row lies in the next one, in every field.
fn nested(n: usize) -> Vec<Row> {
    let around_the_middle = |field: usize, i: usize| {
        let size = FIELD_TOPS[field] + 1;
        let reach = (i + 1) as Value * (size / (2 * n + 8) as Value).max(1);
        let middle = size / 2;
        Range::new(middle.saturating_sub(reach), (middle + reach).min(FIELD_TOPS[field]))
    };
    (0..n).map(|i| row(turn(i), from_fn(|field| around_the_middle(field, i)))).collect()
}

/// No value of a field that has room for all rows is in two of them.
fn diagonal(n: usize) -> Vec<Row> {
    let step = |field: usize, k: usize| match FIELD_TOPS[field] {
        top if top + 1 >= n as Value => share(field, k, n),
        _ => ANY[field],
    };
    (0..n).map(|k| row(turn(k), from_fn(|field| step(field, k)))).collect()
}

/// Slices of one field each, every second one, in any order.
fn slabs(prng: &mut Prng, n: usize) -> Vec<Row> {
    let per_field = n.div_ceil(FIELDS);
    let slab = |i: usize| {
        let (field, k) = (i % FIELDS, i / FIELDS);
        let size = FIELD_TOPS[field] + 1;
        let width = (size / (2 * per_field + 1) as Value).max(1);
        let low = (2 * k + 1) as Value * width % size;
        row(Bypass, only(field, Range::new(low, (low + width - 1).min(size - 1))))
    };
    let mut rows: Vec<Row> = (0..n).map(slab).collect();
    prng.shuffle(&mut rows);
    rows
}

/// Wide discards, each of which matters at one point only.
fn line_of_discards(prng: &mut Prng, n: usize) -> Vec<Row> {
    let mut rows = Vec::new();
    for i in 0..n.div_ceil(2) {
        let end = (200 + 100 * i as Value).min(65_535);
        let mut wide: Ranges = from_fn(|field| wide_range(prng, FIELD_TOPS[field]));
        wide[4] = Range::new(0, end);
        let mut point = FIELD_TOPS.map(|top| Range::single(top / 2));
        point[4] = Range::new(end, end + 1);
        rows.extend([row(Discard, wide), row(Bypass, point)]);
    }
    rows
}

/// From the first two fifths of a field to its last two.
fn wide_range(prng: &mut Prng, top: Value) -> Range {
    Range::new(between(prng, 0, top * 2 / 5), between(prng, top * 3 / 5, top * 49 / 50))
}

/// A firewall's rows for services of some subnets, and one for the rest.
fn firewall(
    prng: &mut Prng,
    n: usize,
    subnets: usize,
    services: usize,
    actions: &[Action],
    last: Action,
) -> Vec<Row> {
    const SERVICES: [Value; 12] = [22, 25, 53, 80, 110, 143, 443, 993, 3306, 5432, 8080, 8443];
    let subnets: Vec<Range> = (0..subnets).map(|_| subnet(prng)).collect();
    let each = |_| {
        let ranges = service(prng, &subnets, &SERVICES[..services]);
        row(*prng.pick(actions), ranges)
    };
    let rows = (0..n).map(each).collect();
    ended(rows, vec![all(last)])
}

fn subnet(prng: &mut Prng) -> Range {
    let bits = 32 - *prng.pick(&[8, 16, 16, 24, 24, 24, 28, 32]);
    let low = between(prng, 0, FIELD_TOPS[0]) >> bits << bits;
    Range::new(low, low + (1 << bits) - 1)
}

/// A service of a remote subnet for a local one, or of any for any.
fn service(prng: &mut Prng, subnets: &[Range], services: &[Value]) -> Ranges {
    let mut ranges = ANY;
    let protocol = *prng.pick(&[6, 6, 6, 17, 1]);
    if prng.one_in(2) {
        ranges[0] = *prng.pick(subnets);
    }
    if !prng.one_in(5) {
        ranges[1] = *prng.pick(subnets);
    }
    if !prng.one_in(10) {
        ranges[2] = Range::single(protocol);
    }
    if protocol != 1 && !prng.one_in(10) {
        let one = Range::single(*prng.pick(services));
        ranges[4] = if prng.one_in(7) { Range::new(1024, 65_535) } else { one };
    }
    ranges
}

/// Quarantined local hosts, banned remote hosts, banned protocols and ports, then a row for each
/// partner; the rest is discarded.
fn block_lists(prng: &mut Prng, n: usize) -> Vec<Row> {
    let (hosts, protocols, ports) = (n / 4, (n / 18).max(1), (n / 14).max(1));
    let partners = n.saturating_sub(2 * hosts + protocols + 2 * ports + 1).max(4);
    let network = |n: Value| Range::new(n << 16, (n << 16) + 65_535);
    let local = |k: usize| network((10 << 8) + k as Value);
    let remote: Vec<Range> = (0..partners)
        .map(|k| network(((20 + k % 100) << 8) as Value + between(prng, 0, 255)))
        .collect();
    let usual = partners - 3;
    let mut rows = Vec::new();
    rows.extend((0..hosts).map(|k| banned(0, host(prng, local(k % usual)))));
    rows.extend((0..hosts).map(|k| banned(1, host(prng, remote[usual - 1 - k % usual]))));
    rows.extend(distinct(prng, 7, 119, protocols).map(|value| banned(2, value)));
    rows.extend(distinct(prng, 1, 399, ports).map(|value| banned(4, value)));
    rows.extend(distinct(prng, 1, 399, ports).map(|value| banned(3, value)));
    for (k, remote) in remote.into_iter().enumerate() {
        let [protocol, local_port, remote_port] = partner_service(k.checked_sub(usual));
        let ranges = [local(k), remote, protocol, local_port, remote_port];
        rows.push(row(Protect(1 + (k % 255) as u8), ranges));
    }
    rows.truncate(n - 1);
    rows.push(all(Discard));
    rows
}

/// Protocol and ports of a partner: those of most, or one of three wider ones.
fn partner_service(wider: Option<usize>) -> [Range; 3] {
    let (tcp, high, https) = (Range::single(6), Range::new(40_000, 65_535), Range::single(443));
    match wider {
        Some(0) => [Range::new(1, 120), high, https],
        Some(1) => [tcp, Range::ANY_PORT, https],
        Some(_) => [tcp, high, Range::ANY_PORT],
        None => [tcp, high, https],
    }
}

/// Banned hosts, protocols and ports; all else is bypassed.
fn block_then_bypass(prng: &mut Prng, n: usize) -> Vec<Row> {
    let mut rows = Vec::new();
    for (field, share) in [(0, 3), (1, 3), (2, 12), (3, 6), (4, 6)] {
        let top = FIELD_TOPS[field].min((1 << 31) - 1);
        let values = distinct(prng, 0, top, n.div_ceil(share));
        rows.extend(values.map(|value| banned(field, value)));
    }
    rows.truncate(n);
    ended(rows, vec![all(Bypass)])
}

/// Discards one value of one field.
fn banned(field: usize, value: Value) -> Row {
    row(Discard, only(field, Range::single(value)))
}

fn host(prng: &mut Prng, network: Range) -> Value {
    between(prng, network.low + 1, network.high)
}

/// So many values from `low` to `high`, distinct as long as there are others.
fn distinct(prng: &mut Prng, low: Value, high: Value, count: usize) -> impl Iterator<Item = Value> {
    let mut values = Vec::new();
    while values.len() < count {
        let value = between(prng, low, high);
        if values.len() as Value > high - low || !values.contains(&value) {
            values.push(value);
        }
    }
    values.into_iter()
}
