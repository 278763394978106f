//! Policies as lists of rows, for programs that make and change them.

use reference::{print_row, Direction, Entry, Range, Ranges, Value, FIELDS, FIELD_TOPS};
use testkit::Prng;

pub type Row = Entry<FIELDS>;

/// The ranges that hold every combination.
pub const ANY: Ranges =
    [Range::ANY_ADDRESS, Range::ANY_ADDRESS, Range::ANY_PROTOCOL, Range::ANY_PORT, Range::ANY_PORT];

/// Every combination whose value of one field lies in a range.
pub fn only(field: usize, range: Range) -> Ranges {
    let mut ranges = ANY;
    ranges[field] = range;
    ranges
}

/// The policy file of these rows, each for both directions.
pub fn file(rows: &[Row]) -> Vec<u8> {
    let (both, out) = ("both", Direction::Out.word());
    let mut file = "policy\t1\n".to_string();
    for row in rows {
        file += both;
        file += &print_row(Direction::Out, row)[out.len()..];
        file.push('\n');
    }
    file.into_bytes()
}

/// A value from `low` to `high`.
pub fn between(prng: &mut Prng, low: Value, high: Value) -> Value {
    low + Value::from(prng.number()) % (high - low + 1)
}

/// A place in a list that has so many.
pub fn place(prng: &mut Prng, count: usize) -> usize {
    prng.below(count as u64) as usize
}

/// A range of a field, each end anywhere in it.
pub fn any_range(prng: &mut Prng, field: usize) -> Range {
    let one = between(prng, 0, FIELD_TOPS[field]);
    let other = between(prng, 0, FIELD_TOPS[field]);
    Range::new(one.min(other), one.max(other))
}

/// A range within another.
pub fn narrowed(prng: &mut Prng, range: Range) -> Range {
    let middle = between(prng, range.low, range.high);
    *prng.pick(&[
        Range::new(range.low, middle),
        Range::new(middle, range.high),
        Range::single(middle),
    ])
}
