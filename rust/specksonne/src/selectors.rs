//! What the gateway sees in a packet.

use crate::ffi::{self, SelectorWords};
use std::fmt;
use std::net::Ipv4Addr;
use std::ops::Range;

/// Which way a packet goes (document 01's way).
#[derive(Clone, Copy, Debug, PartialEq, Eq, Hash)]
pub enum Direction {
    /// It leaves: its source is local.
    Out,
    /// It comes in: its destination is local.
    In,
}

impl Direction {
    pub(crate) fn number(self) -> u64 {
        match self {
            Direction::Out => 1,
            Direction::In => 2,
        }
    }

    pub(crate) fn from_number(number: u64) -> Direction {
        match number {
            1 => Direction::Out,
            _ => Direction::In,
        }
    }
}

impl fmt::Display for Direction {
    fn fmt(&self, f: &mut fmt::Formatter) -> fmt::Result {
        match self {
            Direction::Out => write!(f, "out"),
            Direction::In => write!(f, "in"),
        }
    }
}

/// One value for each field; an absent port is `None`, which only `any` and `opaque` ranges hold.
#[derive(Clone, Copy, Debug, PartialEq, Eq, Hash)]
pub struct Selectors {
    /// The local address.
    pub local: Ipv4Addr,
    /// The remote address.
    pub remote: Ipv4Addr,
    /// The protocol's number.
    pub protocol: u8,
    /// The local port; for ICMP type * 256 + code.
    pub local_port: Option<u16>,
    /// The remote port.
    pub remote_port: Option<u16>,
}

/// The number of the absent port, one step after 65,535.
const ABSENT: u64 = 65_536;

impl Selectors {
    /// Two words for each value, the upper one first.
    pub(crate) fn words(&self) -> SelectorWords {
        let port = |port: Option<u16>| port.map_or(ABSENT, u64::from);
        let (local, remote) = (u32::from(self.local), u32::from(self.remote));
        let (local_port, remote_port) = (port(self.local_port), port(self.remote_port));
        [0, local.into(), 0, remote.into(), 0, self.protocol.into(), 0, local_port, 0, remote_port]
    }

    fn from_words(words: &SelectorWords) -> Selectors {
        // The reader's values lie within their fields.
        Selectors {
            local: Ipv4Addr::from(words[1] as u32),
            remote: Ipv4Addr::from(words[3] as u32),
            protocol: words[5] as u8,
            local_port: u16::try_from(words[7]).ok(),
            remote_port: u16::try_from(words[9]).ok(),
        }
    }
}

/// The selectors of a packet that goes out or comes in; none where it is not readable (10).
///
/// ```
/// use specksonne::{read, Direction};
///
/// let mut packet = [0; 24];
/// packet[0] = 0x45; // version 4, a header of 20 bytes
/// packet[3] = 24; // total length
/// packet[9] = 17; // UDP
/// packet[12..16].copy_from_slice(&[10, 0, 0, 1]);
/// packet[20..24].copy_from_slice(&[0, 53, 1, 0]); // ports 53 and 256
/// let selectors = read(&packet, Direction::In).unwrap();
/// assert_eq!(selectors.remote.to_string(), "10.0.0.1");
/// assert_eq!((selectors.local_port, selectors.remote_port), (Some(256), Some(53)));
///
/// packet[3] = 23; // a byte short of two ports
/// assert_eq!(read(&packet, Direction::In).unwrap().remote_port, None);
/// assert_eq!(read(&packet[..19], Direction::In), None);
/// ```
pub fn read(packet: &[u8], direction: Direction) -> Option<Selectors> {
    let mut words = [0; 10];
    let readable = ffi::read(direction.number(), packet, &mut words);
    readable.then(|| Selectors::from_words(&words))
}

/// Where the triggering header of an ICMP error message stands in the packet, whatever the packet
/// is: from 8 bytes into its upper part on. None where the packet is not readable.
///
/// ```
/// use specksonne::triggering_header;
///
/// let mut packet = [0; 48];
/// packet[0] = 0x45; // version 4, a header of 20 bytes
/// packet[3] = 48; // total length
/// assert_eq!(triggering_header(&packet), Some(28..48));
/// assert_eq!(triggering_header(&packet[..40]), None);
/// ```
pub fn triggering_header(packet: &[u8]) -> Option<Range<usize>> {
    let mut part = [0; 2];
    let readable = ffi::trigger(packet, &mut part);
    let [start, length] = part.map(|word| word as usize);
    readable.then_some(start..start + length)
}
