//! Captures in classic pcap and pcapng: the frames one by one, and the IPv4 packet of each.

mod bytes;
mod classic;
mod link;
mod pcapng;

use bytes::{damaged, read_up_to};
use link::{Content, Link};
use std::fmt;
use std::io::{self, Chain, Cursor, Read};

/// No capture program records more of one frame.
const MOST_RECORDED: u32 = 1 << 18;

/// A capture whose first four bytes, read to tell its format, stand before the rest again.
type Whole<R> = Chain<Cursor<[u8; 4]>, R>;

pub struct Capture<R> {
    format: Format<Whole<R>>,
    frame: Vec<u8>,
}

enum Format<R> {
    Classic(classic::Reader<R>),
    Pcapng(pcapng::Reader<R>),
}

/// What a capture says of a frame, besides its bytes.
struct Heading {
    link: Link,
    /// The frame's length on the wire.
    original: u32,
}

/// A frame as it was recorded.
pub struct Record<'a> {
    heading: Heading,
    frame: &'a [u8],
}

/// Why a frame has no packet to decide.
pub enum NoPacket {
    /// It holds neither IPv4 nor IPv6.
    Other,
    Ipv6,
    UnknownLink(u32),
    /// So many bytes of the packet were recorded, out of its total length.
    CutPacket {
        recorded: usize,
        total: usize,
    },
    /// So many bytes of the frame were recorded: too few to show the packet's total length.
    CutFrame {
        recorded: usize,
        original: u32,
    },
}

impl<R: Read> Capture<R> {
    /// Reads the capture's header.
    pub fn open(mut input: R) -> io::Result<Capture<R>> {
        let mut magic = [0; 4];
        let found = read_up_to(&mut input, &mut magic)?;
        if found == 0 {
            return Err(damaged("no capture: the file is empty".to_string()));
        }
        let whole = Cursor::new(magic).chain(input);
        let format = match magic {
            pcapng::MAGIC => Format::Pcapng(pcapng::Reader::open(whole)?),
            _ => match classic::order(magic) {
                Some(order) => Format::Classic(classic::Reader::open(whole, order)?),
                None => return Err(no_capture(&magic[..found])),
            },
        };
        Ok(Capture { format, frame: Vec::new() })
    }

    /// The next frame; none at the end.
    pub fn next_record(&mut self) -> io::Result<Option<Record<'_>>> {
        let heading = match &mut self.format {
            Format::Classic(reader) => reader.next(&mut self.frame)?,
            Format::Pcapng(reader) => reader.next(&mut self.frame)?,
        };
        Ok(heading.map(|heading| Record { heading, frame: &self.frame }))
    }
}

fn no_capture(start: &[u8]) -> io::Error {
    let start = start.escape_ascii();
    damaged(format!("no capture: it begins with \"{start}\", neither pcap nor pcapng"))
}

impl Record<'_> {
    /// The IPv4 packet in the frame. Where the capture cut it, what was recorded is not the packet
    /// that was on the wire, and would get another verdict.
    pub fn packet(&self) -> Result<&[u8], NoPacket> {
        match self.heading.link.content(self.frame) {
            Content::Ipv4(packet) if self.is_cut() => self.whole(packet),
            Content::Ipv4(packet) => Ok(packet),
            Content::Ipv6 => Err(NoPacket::Ipv6),
            Content::UnknownLink(number) => Err(NoPacket::UnknownLink(number)),
            Content::NotShown if self.is_cut() => Err(self.cut_frame()),
            Content::Other | Content::NotShown => Err(NoPacket::Other),
        }
    }

    fn is_cut(&self) -> bool {
        self.frame.len() < self.heading.original as usize
    }

    /// The packet of a frame that was cut, where only what comes after its total length is missing.
    fn whole<'a>(&self, packet: &'a [u8]) -> Result<&'a [u8], NoPacket> {
        let [_, _, high, low, ..] = *packet else {
            return Err(self.cut_frame());
        };
        let (recorded, total) = (packet.len(), u16::from_be_bytes([high, low]).into());
        if recorded < total {
            return Err(NoPacket::CutPacket { recorded, total });
        }
        Ok(packet)
    }

    fn cut_frame(&self) -> NoPacket {
        NoPacket::CutFrame { recorded: self.frame.len(), original: self.heading.original }
    }
}

impl NoPacket {
    /// The words for the summary, which counts those of a kind together.
    pub fn kind(&self) -> String {
        match self {
            NoPacket::Other => "no IPv4 packet".to_string(),
            NoPacket::Ipv6 => "no IPv4 packet (IPv6)".to_string(),
            NoPacket::UnknownLink(number) => format!("link type {number} is not read"),
            NoPacket::CutPacket { .. } | NoPacket::CutFrame { .. } => {
                "cut by the capture".to_string()
            }
        }
    }
}

impl fmt::Display for NoPacket {
    fn fmt(&self, f: &mut fmt::Formatter) -> fmt::Result {
        write!(f, "{}", self.kind())?;
        match self {
            NoPacket::CutPacket { recorded, total } => write!(f, " ({recorded} of {total} bytes)"),
            NoPacket::CutFrame { recorded, original } => {
                write!(f, " ({recorded} of {original} bytes of the frame)")
            }
            _ => Ok(()),
        }
    }
}
