//! What the gateway sees in a packet: RFC 791's header and the first bytes after it.

use crate::{Direction, Requests, Selectors};

const SHORTEST_HEADER: usize = 20;
const ICMP: u8 = 1;
const TCP: u8 = 6;
/// Where the triggering header starts in an ICMP error (RFC 792).
const ICMP_ERROR_HEADER: usize = 8;

/// A readable packet. `upper` is a part of the bytes it was read from.
#[derive(Clone, Copy, Debug, PartialEq, Eq)]
pub struct Packet<'a> {
    pub source: u32,
    pub destination: u32,
    pub protocol: u8,
    /// In units of 8 bytes.
    pub fragment_offset: u16,
    pub more_fragments: bool,
    /// 4 times the header length field: where the upper part starts.
    pub header_length: usize,
    /// From the header's end to the total length.
    pub upper: &'a [u8],
}

impl<'a> Packet<'a> {
    /// Reads a packet: all of its total length must be there, and bytes after it are ignored.
    pub fn read(bytes: &'a [u8]) -> Option<Packet<'a>> {
        Packet::read_header(bytes).filter(|_| total_length(bytes) <= bytes.len())
    }

    /// Reads a triggering header: an ICMP error may return only the beginning of a packet.
    pub fn read_triggering(bytes: &'a [u8]) -> Option<Packet<'a>> {
        Packet::read_header(bytes)
    }

    /// Reads a packet whose header is there whole and whose upper part may be cut.
    fn read_header(bytes: &'a [u8]) -> Option<Packet<'a>> {
        if bytes.len() < SHORTEST_HEADER {
            return None;
        }
        let version = bytes[0] >> 4;
        let header_length = 4 * usize::from(bytes[0] & 0x0f);
        if version != 4 || header_length < SHORTEST_HEADER || total_length(bytes) < header_length {
            return None;
        }
        let end = total_length(bytes).min(bytes.len());
        let flags_and_offset = u16_at(bytes, 6);
        Some(Packet {
            source: u32_at(bytes, 12),
            destination: u32_at(bytes, 16),
            protocol: bytes[9],
            fragment_offset: flags_and_offset & 0x1fff,
            more_fragments: flags_and_offset & 0x2000 != 0,
            header_length,
            upper: bytes.get(header_length..end)?,
        })
    }

    /// The five values. Going out, local is the source; coming in, the destination.
    pub fn selectors(&self, direction: Direction, requests: Requests) -> Selectors {
        let ports = self.source_and_destination_port(requests);
        let (local, remote, (local_port, remote_port)) = match direction {
            Direction::Out => (self.source, self.destination, ports),
            Direction::In => (self.destination, self.source, (ports.1, ports.0)),
        };
        let mut selectors =
            Selectors { local, remote, protocol: self.protocol, local_port, remote_port };
        if let Some((icmp_type, code)) = self.icmp_type_and_code() {
            // The same place whoever sent it.
            selectors.local_port = Some(u16::from_be_bytes([icmp_type, code]));
            selectors.remote_port = None;
        }
        selectors
    }

    fn source_and_destination_port(&self, requests: Requests) -> (Option<u16>, Option<u16>) {
        let shows_ports = requests.begins_with_ports(self.protocol) && self.fragment_offset == 0;
        if shows_ports && self.upper.len() >= 4 {
            (Some(u16_at(self.upper, 0)), Some(u16_at(self.upper, 2)))
        } else {
            (None, None)
        }
    }

    /// An ICMP message's type and code, where they can be seen.
    fn icmp_type_and_code(&self) -> Option<(u8, u8)> {
        let shows_type = self.protocol == ICMP && self.fragment_offset == 0;
        (shows_type && self.upper.len() >= 2).then(|| (self.upper[0], self.upper[1]))
    }

    /// Whether this is ICMP with a seen type that is an error's.
    pub fn is_icmp_error(&self, requests: Requests) -> bool {
        self.icmp_type_and_code().is_some_and(|(icmp_type, _)| requests.is_icmp_error(icmp_type))
    }

    /// Where the triggering header of an ICMP error starts, counted from the packet's first byte:
    /// 8 bytes into the upper part, or at its end if that comes sooner.
    pub fn triggering_start(&self) -> usize {
        self.header_length + self.upper.len().min(ICMP_ERROR_HEADER)
    }

    /// The part of an ICMP error that holds the header of the packet that triggered it.
    pub fn triggering_header(&self) -> &'a [u8] {
        &self.upper[self.upper.len().min(ICMP_ERROR_HEADER)..]
    }

    /// Whether a fragment boundary cuts the TCP header (RFC 1858; request 7).
    pub fn is_trimmed_tcp(&self) -> bool {
        let starts_short =
            self.fragment_offset == 0 && self.more_fragments && self.upper.len() < 16;
        self.protocol == TCP && (self.fragment_offset == 1 || starts_short)
    }

    /// Whether this is a part of a datagram: not the first, or not the last.
    pub fn is_fragment(&self) -> bool {
        self.fragment_offset != 0 || self.more_fragments
    }
}

fn total_length(bytes: &[u8]) -> usize {
    usize::from(u16_at(bytes, 2))
}

fn u16_at(bytes: &[u8], start: usize) -> u16 {
    u16::from_be_bytes([bytes[start], bytes[start + 1]])
}

/// The 32-bit number at `start`; the caller has checked that it is there.
pub(crate) fn u32_at(bytes: &[u8], start: usize) -> u32 {
    u32::from(u16_at(bytes, start)) << 16 | u32::from(u16_at(bytes, start + 2))
}
