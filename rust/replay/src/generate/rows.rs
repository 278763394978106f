//! Rows of policy files as the generator knows them, and the many ways to write one.

use testkit::Prng;

pub const FIELDS: usize = 5;
/// The highest value of each field; 65,536 is an absent port.
pub const TOPS: [u64; FIELDS] = [u32::MAX as u64, u32::MAX as u64, 255, ABSENT, ABSENT];
pub const ABSENT: u64 = 65_536;

pub type Ends = (u64, u64);

#[derive(Clone, Debug)]
pub struct RowSpec {
    pub scope: &'static str,
    pub action: String,
    pub ranges: [Ends; FIELDS],
}

impl RowSpec {
    /// The row's text without LF, each range in one of its spellings.
    pub fn text(&self, prng: &mut Prng) -> String {
        let mut text = format!("{}\t{}", self.scope, self.action);
        for (field, &ends) in self.ranges.iter().enumerate() {
            text.push('\t');
            text.push_str(&spell(prng, field, ends));
        }
        text
    }
}

/// A policy file of these rows.
pub fn file(prng: &mut Prng, rows: &[RowSpec]) -> Vec<u8> {
    let mut file = String::from("policy\t1\n");
    for row in rows {
        file.push_str(&row.text(prng));
        file.push('\n');
    }
    file.into_bytes()
}

fn spell(prng: &mut Prng, field: usize, (low, high): Ends) -> String {
    let mut spellings = vec![format!("{}-{}", value(field, low), value(field, high))];
    if (low, high) == (0, TOPS[field]) {
        spellings.push("any".to_string());
    }
    if low == high {
        spellings = vec![value(field, low)];
        if low != ABSENT || field < 3 {
            spellings.push(format!("{0}-{0}", value(field, low)));
        }
    }
    let size = high - low + 1;
    if field < 2 && size.is_power_of_two() && low % size == 0 {
        let mask = (1 << 32) - size;
        spellings.push(format!("{}/{}", value(0, low), value(0, mask)));
    }
    prng.pick(&spellings).clone()
}

fn value(field: usize, value: u64) -> String {
    match field {
        0 | 1 => {
            let [.., a, b, c, d] = value.to_be_bytes();
            format!("{a}.{b}.{c}.{d}")
        }
        3 | 4 if value == ABSENT => "opaque".to_string(),
        _ => value.to_string(),
    }
}

pub fn any_action(prng: &mut Prng) -> String {
    match prng.below(5) {
        0 | 1 => "bypass".to_string(),
        2 => "discard".to_string(),
        _ => format!("protect-{}", prng.pick(&[1, 2, 3, 7, 254, 255])),
    }
}

pub fn any_scope(prng: &mut Prng) -> &'static str {
    prng.pick::<&str>(&["out", "in", "both", "both"])
}

/// A value of the range, or now and then one just beside it.
pub fn value_near(prng: &mut Prng, field: usize, (low, high): Ends) -> u64 {
    match prng.below(10) {
        0..=2 => low,
        3..=5 => high,
        6 => low.saturating_sub(1),
        7 => (high + 1).min(TOPS[field]),
        _ => prng.between(low, high),
    }
}
