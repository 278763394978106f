//! Which of document 02's later requests are switched on, and what they change.

/// A set of request numbers. The empty set is document 01 alone.
#[derive(Clone, Copy, Debug, Default, PartialEq, Eq)]
pub struct Requests {
    bits: u16,
}

impl Requests {
    /// Document 01 alone.
    pub const NONE: Requests = Requests { bits: 0 };

    /// The requests this implementation can follow. 3, 11 and 14 change no answer (a mask test, a
    /// quicker search, a proof), so having them on or off is the same here.
    pub const KNOWN: [u8; 7] = [2, 3, 4, 6, 7, 11, 14];

    /// The set with these numbers, or nothing where one of them is not known here.
    pub fn from_numbers(numbers: &[u64]) -> Option<Requests> {
        let mut set = Requests::NONE;
        for &number in numbers {
            let known = Requests::KNOWN.iter().find(|&&k| u64::from(k) == number)?;
            set.bits |= 1 << known;
        }
        Some(set)
    }

    fn has(self, number: u8) -> bool {
        self.bits >> number & 1 == 1
    }

    /// The most rows of a policy and of a normal form.
    pub fn row_limit(self) -> usize {
        if self.has(6) {
            512
        } else {
            256
        }
    }

    /// Whether the protocol's upper part begins with source and destination port.
    pub fn begins_with_ports(self, protocol: u8) -> bool {
        matches!(protocol, 6 | 17 | 132) || self.has(2) && matches!(protocol, 33 | 136)
    }

    /// Whether an ICMP message of this type is an error that carries a triggering header.
    pub fn is_icmp_error(self, icmp_type: u8) -> bool {
        matches!(icmp_type, 3 | 5 | 11 | 12) || icmp_type == 4 && !self.has(4)
    }

    /// Whether trimmed TCP headers are refused (RFC 1858).
    pub fn refuses_trimmed_tcp(self) -> bool {
        self.has(7)
    }
}
