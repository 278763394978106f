//! SA pairs.

use crate::ffi::{RangeWords, Table};
use crate::row_fault::refused_ranges;
use crate::{Policy, Refusal, RowFault};

/// The protocol number of ESP.
pub const ESP: u64 = 50;
/// The protocol number of AH.
pub const AH: u64 = 51;

/// The words of a place in the table.
const PLACE_WORDS: usize = 24;

/// An association pair to add. Its numbers may be beyond their fields: then adding refuses it.
#[derive(Clone, Copy, Debug, PartialEq, Eq)]
pub struct Pair {
    /// 50 for ESP, 51 for AH.
    pub protocol: u64,
    /// With the protocol it names the pair. Below 256 it is refused.
    pub inbound_spi: u32,
    /// What [`Verdict::Protect`](crate::Verdict::Protect) carries. Below 256 it is refused.
    pub outbound_spi: u32,
    /// The N of the protect-N rows that it serves.
    pub number: u64,
    /// The packets that it is for.
    pub ranges: Ranges,
}

/// The low and the high end of each of the five fields: local address, remote address, protocol,
/// local port, remote port. An absent port is 65,536.
#[derive(Clone, Copy, Debug, PartialEq, Eq)]
pub struct Ranges(pub [(u128, u128); 5]);

impl Ranges {
    /// Every value of every field.
    pub const ANY: Ranges = Ranges([
        (0, u32::MAX as u128),
        (0, u32::MAX as u128),
        (0, u8::MAX as u128),
        (0, 65_536),
        (0, 65_536),
    ]);

    /// Reads the five ranges as a policy file writes them, parted by tabs, or says why they are
    /// none.
    ///
    /// ```
    /// use specksonne::Ranges;
    ///
    /// assert_eq!(Ranges::parse("any\tany\tany\tany\tany"), Ok(Ranges::ANY));
    /// let ranges = Ranges::parse("10.0.0.0/255.0.0.0\tany\t6\t22-opaque\tany").unwrap();
    /// assert_eq!(ranges.0[3], (22, 65_536));
    /// let fault = Ranges::parse("any\tany\ttcp\tany\tany").unwrap_err();
    /// assert_eq!(fault.to_string(), "protocol 'tcp': 'tcp' is no decimal number");
    /// ```
    pub fn parse(text: &str) -> Result<Ranges, RowFault> {
        let words = Ranges::parsed(text).ok_or_else(|| refused_ranges(text.as_bytes()))?;
        Ok(Ranges::from_words(&words))
    }

    /// The ranges as the library reads them in a row.
    fn parsed(text: &str) -> Option<RangeWords> {
        if text.contains('\n') {
            return None;
        }
        let file = format!("policy\t1\nboth\tbypass\t{text}\n");
        Policy::parse(file.as_bytes()).ok()?.ranges(0)
    }

    pub(crate) fn words(&self) -> RangeWords {
        let mut words = [0; 20];
        for (place, (low, high)) in words.chunks_exact_mut(4).zip(self.0) {
            place.copy_from_slice(&[upper(low), lower(low), upper(high), lower(high)]);
        }
        words
    }

    fn from_words(words: &RangeWords) -> Ranges {
        let mut ranges = [(0, 0); 5];
        for (range, words) in ranges.iter_mut().zip(words.chunks_exact(4)) {
            *range = (value(words[0], words[1]), value(words[2], words[3]));
        }
        Ranges(ranges)
    }
}

fn upper(value: u128) -> u64 {
    (value >> 64) as u64
}

fn lower(value: u128) -> u64 {
    value as u64
}

fn value(upper: u64, lower: u64) -> u128 {
    u128::from(upper) << 64 | u128::from(lower)
}

/// The live pairs of a table, in the order of their places.
pub(crate) fn live(table: &Table) -> impl Iterator<Item = Pair> + '_ {
    let places = table.chunks_exact(PLACE_WORDS);
    places.filter(|place| matches!(place[0], ESP | AH)).map(|place| Pair {
        protocol: place[0],
        // What was added as an SPI is one.
        inbound_spi: place[1] as u32,
        outbound_spi: place[2] as u32,
        number: place[3],
        ranges: Ranges::from_words(place[4..].first_chunk().expect("20 words of ranges")),
    })
}

/// The answer to a call on the table: done, or refused.
pub(crate) fn answered(number: u64) -> Result<(), Refusal> {
    Refusal::check(number, 0).map(|_| ())
}
