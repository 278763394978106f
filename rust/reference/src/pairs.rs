//! SA pairs: one inbound and one outbound SA, and the traffic they are for.

use crate::{Answer, Range, Ranges, Value, Values, FIELD_TOPS};
use std::collections::BTreeMap;

pub const ESP: u8 = 50;
pub const AH: u8 = 51;
/// The most pairs that can be live at once.
pub const MOST_PAIRS: usize = 64;
/// SPIs below this are reserved (RFC 4302, RFC 4303).
const FIRST_SPI: u32 = 256;

/// What a caller offers to add; its numbers may be beyond their fields.
#[derive(Clone, Copy, Debug, PartialEq, Eq)]
pub struct ProposedPair {
    pub protocol: u64,
    pub inbound_spi: u32,
    pub outbound_spi: u32,
    pub number: u64,
    pub ranges: Ranges,
}

/// Protocol and inbound SPI name a pair.
#[derive(Clone, Copy, Debug, PartialEq, Eq, PartialOrd, Ord)]
pub struct PairName {
    pub protocol: u8,
    pub inbound_spi: u32,
}

impl PairName {
    /// The name, or nothing where no pair can have it.
    pub fn new(protocol: u64, inbound_spi: u32) -> Option<PairName> {
        let protocol = u8::try_from(protocol).ok()?;
        matches!(protocol, ESP | AH).then_some(PairName { protocol, inbound_spi })
    }
}

/// A live pair.
#[derive(Clone, Copy, Debug, PartialEq, Eq)]
pub struct Pair {
    pub outbound_spi: u32,
    /// The protect number of the policy rows that it serves.
    pub number: u8,
    pub ranges: Ranges,
}

impl Pair {
    pub fn holds(&self, values: &Values) -> bool {
        let mut fields = self.ranges.iter().zip(values);
        fields.all(|(range, &value)| range.holds(value))
    }
}

/// The live pairs, by name.
#[derive(Clone, Debug, Default, PartialEq, Eq)]
pub struct PairTable {
    live: BTreeMap<PairName, Pair>,
}

impl PairTable {
    /// Adds a pair, or refuses in document 01's order: 25, 28, 26, 27.
    pub fn add(&mut self, proposed: &ProposedPair) -> Answer {
        if proposed.inbound_spi < FIRST_SPI || proposed.outbound_spi < FIRST_SPI {
            return Answer::SpiReserved;
        }
        let Some((name, pair)) = checked(proposed) else {
            return Answer::BadPair;
        };
        if self.live.contains_key(&name) {
            return Answer::PairAlreadyLive;
        }
        if self.live.len() == MOST_PAIRS {
            return Answer::PairTableFull;
        }
        self.live.insert(name, pair);
        Answer::Done
    }

    pub fn remove(&mut self, protocol: u64, inbound_spi: u32) -> Answer {
        let name = PairName::new(protocol, inbound_spi);
        match name.and_then(|name| self.live.remove(&name)) {
            Some(_) => Answer::Done,
            None => Answer::NothingToRemove,
        }
    }

    pub fn get(&self, protocol: u64, inbound_spi: u32) -> Option<&Pair> {
        self.live.get(&PairName::new(protocol, inbound_spi)?)
    }

    /// The pair for outbound values under protect number `number`: the smallest inbound SPI, ESP
    /// before AH.
    pub fn choose(&self, number: u8, values: &Values) -> Option<(&PairName, &Pair)> {
        self.live
            .iter()
            .filter(|(_, pair)| pair.number == number && pair.holds(values))
            .min_by_key(|(name, _)| (name.inbound_spi, name.protocol))
    }

    /// The live pairs, by protocol and then inbound SPI.
    pub fn iter(&self) -> impl Iterator<Item = (&PairName, &Pair)> {
        self.live.iter()
    }
}

/// The pair, or nothing where one of its numbers is beyond its field (28).
fn checked(proposed: &ProposedPair) -> Option<(PairName, Pair)> {
    let name = PairName::new(proposed.protocol, proposed.inbound_spi)?;
    let number = u8::try_from(proposed.number).ok().filter(|&number| number >= 1)?;
    let legal = |(range, top): (&Range, &Value)| {
        range.low <= *top && range.high <= *top && range.low <= range.high
    };
    let all_legal = proposed.ranges.iter().zip(&FIELD_TOPS).all(legal);
    let pair = Pair { outbound_spi: proposed.outbound_spi, number, ranges: proposed.ranges };
    all_legal.then_some((name, pair))
}
