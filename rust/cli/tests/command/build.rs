//! A builder of captures, sound ones and broken ones.

pub const ETHERNET: u16 = 1;

/// A frame, and its length on the wire.
pub struct Frame {
    pub bytes: Vec<u8>,
    pub original: u32,
}

impl Frame {
    pub fn whole(bytes: &[u8]) -> Frame {
        Frame { bytes: bytes.to_vec(), original: bytes.len() as u32 }
    }

    /// The beginning of a frame, as a capture records it that takes no more of each.
    pub fn cut(bytes: &[u8], recorded: usize) -> Frame {
        Frame { bytes: bytes[..recorded].to_vec(), original: bytes.len() as u32 }
    }
}

/// A number in the byte order of the writer.
fn four(big_endian: bool, number: u32) -> [u8; 4] {
    if big_endian {
        number.to_be_bytes()
    } else {
        number.to_le_bytes()
    }
}

/// A capture in classic pcap, with times in microseconds.
pub fn classic(big_endian: bool, link: u16, frames: &[Frame]) -> Vec<u8> {
    classic_with_magic(0xa1b2_c3d4, big_endian, link, frames)
}

pub fn classic_with_magic(magic: u32, big_endian: bool, link: u16, frames: &[Frame]) -> Vec<u8> {
    let four = |number| four(big_endian, number);
    let mut bytes = [magic, 0x0002_0004, 0, 0, 65535, link.into()].map(four).concat();
    for frame in frames {
        bytes.extend([1, 2, frame.bytes.len() as u32, frame.original].map(four).concat());
        bytes.extend(&frame.bytes);
    }
    bytes
}

/// A capture in pcapng, block by block.
pub struct Pcapng {
    pub bytes: Vec<u8>,
    big_endian: bool,
}

impl Pcapng {
    /// A capture that begins with a section's header.
    pub fn new(big_endian: bool) -> Pcapng {
        Pcapng { bytes: Vec::new(), big_endian }.section(big_endian)
    }

    pub fn section(mut self, big_endian: bool) -> Pcapng {
        self.big_endian = big_endian;
        let version = if big_endian { [0, 1, 0, 0] } else { [1, 0, 0, 0] };
        let order = self.four(0x1a2b_3c4d);
        self.block(0x0a0d_0d0a, &[&order[..], &version, &[0xff; 8]].concat())
    }

    /// An interface that records at most so many bytes of a frame; 0 is no limit.
    pub fn interface(self, link: u16, most: u32) -> Pcapng {
        let link = self.four(link.into());
        let link = if self.big_endian { [link[2], link[3], 0, 0] } else { link };
        let body = [link, self.four(most)].concat();
        self.block(1, &body)
    }

    pub fn enhanced(self, interface: u32, frame: &Frame) -> Pcapng {
        let lengths = [interface, 1, 2, frame.bytes.len() as u32, frame.original];
        let start = lengths.map(|number| self.four(number)).concat();
        // After the frame stands an option: a comment of four bytes.
        let comment = if self.big_endian { [0, 1, 0, 4] } else { [1, 0, 4, 0] };
        let options = [&comment[..], b"note", &[0; 4]].concat();
        self.block(6, &[start, padded(&frame.bytes), options].concat())
    }

    pub fn simple(self, frame: &Frame) -> Pcapng {
        let body = [&self.four(frame.original)[..], &padded(&frame.bytes)].concat();
        self.block(3, &body)
    }

    /// A packet block as it was before the enhanced one.
    pub fn obsolete(self, interface: u8, frame: &Frame) -> Pcapng {
        let start = if self.big_endian { [0, interface, 0, 9] } else { [interface, 0, 9, 0] };
        let lengths = [1, 2, frame.bytes.len() as u32, frame.original];
        let lengths = lengths.map(|number| self.four(number)).concat();
        self.block(2, &[&start[..], &lengths, &padded(&frame.bytes)].concat())
    }

    /// A block of any kind.
    pub fn block(mut self, kind: u32, body: &[u8]) -> Pcapng {
        let length = self.four(12 + body.len() as u32);
        self.bytes.extend([self.four(kind), length].concat());
        self.bytes.extend(body);
        self.bytes.extend(length);
        self
    }

    fn four(&self, number: u32) -> [u8; 4] {
        four(self.big_endian, number)
    }
}

/// Bytes filled up to a multiple of four.
fn padded(bytes: &[u8]) -> Vec<u8> {
    let mut bytes = bytes.to_vec();
    bytes.resize(bytes.len().next_multiple_of(4), 0);
    bytes
}
