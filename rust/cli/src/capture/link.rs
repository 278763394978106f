//! Link types (www.tcpdump.org/linktypes.html): where the IP packet stands in a frame.

/// How the frames of an interface begin.
#[derive(Clone, Copy)]
pub enum Link {
    /// BSD loopback: four bytes of address family.
    Loopback,
    Ethernet,
    /// An IP packet of either version.
    Raw,
    RawIpv4,
    RawIpv6,
    /// Linux cooked (SLL), and its second version.
    Cooked,
    Cooked2,
    Unknown(u32),
}

/// What a frame holds.
pub enum Content<'a> {
    /// An IPv4 packet, and maybe padding after it.
    Ipv4(&'a [u8]),
    Ipv6,
    Other,
    /// The frame ends before it shows that.
    NotShown,
    UnknownLink(u32),
}

/// Ethernet types, and those of VLAN tags that may stand before.
const IPV4: u16 = 0x0800;
const IPV6: u16 = 0x86dd;
const VLAN_TAGS: [u16; 3] = [0x8100, 0x88a8, 0x9100];

impl Link {
    pub fn from_number(number: u32) -> Link {
        match number {
            0 | 108 => Link::Loopback,
            1 => Link::Ethernet,
            12 | 14 | 101 => Link::Raw,
            113 => Link::Cooked,
            228 => Link::RawIpv4,
            229 => Link::RawIpv6,
            276 => Link::Cooked2,
            _ => Link::Unknown(number),
        }
    }

    pub fn content(self, frame: &[u8]) -> Content<'_> {
        match self {
            Link::Loopback => by_family(frame),
            Link::Ethernet => by_type(frame, 12, 14),
            Link::Raw if frame.first().is_some_and(|byte| byte >> 4 == 6) => Content::Ipv6,
            Link::Raw | Link::RawIpv4 => Content::Ipv4(frame),
            Link::RawIpv6 => Content::Ipv6,
            Link::Cooked => by_type(frame, 14, 16),
            Link::Cooked2 => by_type(frame, 0, 20),
            Link::Unknown(number) => Content::UnknownLink(number),
        }
    }
}

/// The content where the Ethernet type stands at one place and what it names at another.
fn by_type(frame: &[u8], type_at: usize, packet_at: usize) -> Content<'_> {
    let (Some(mut kind), Some(mut packet)) = (two(frame, type_at), frame.get(packet_at..)) else {
        return Content::NotShown;
    };
    // A tag has two bytes of its own, then the next type.
    while VLAN_TAGS.contains(&kind) {
        let Some(next) = two(packet, 2) else { return Content::NotShown };
        (kind, packet) = (next, &packet[4..]);
    }
    match kind {
        IPV4 => Content::Ipv4(packet),
        IPV6 => Content::Ipv6,
        _ => Content::Other,
    }
}

/// The content after an address family. That has the byte order of the machine that captured, or
/// the network's, which the capture does not always say: families are small numbers, so the order
/// is the one in which it is small.
fn by_family(frame: &[u8]) -> Content<'_> {
    let Some((family, packet)) = frame.split_first_chunk() else { return Content::NotShown };
    match u32::from_be_bytes(*family).min(u32::from_le_bytes(*family)) {
        2 => Content::Ipv4(packet),
        24 | 28 | 30 => Content::Ipv6,
        _ => Content::Other,
    }
}

/// The number in two bytes, the upper one first.
fn two(bytes: &[u8], at: usize) -> Option<u16> {
    bytes.get(at..at + 2).map(|two| u16::from_be_bytes([two[0], two[1]]))
}
