//! pcapng (draft-ietf-opsawg-pcapng): sections of blocks, each section with its own byte order and
//! interfaces.

use super::bytes::{damaged, ends_in, fill, read_frame, read_up_to, Order};
use super::{Heading, Link};
use std::io::{self, Read};

/// The type of a section's header, with which a capture begins; alike in both byte orders.
pub const MAGIC: [u8; 4] = [0x0a, 0x0d, 0x0d, 0x0a];

/// The types of the other blocks that are read.
const INTERFACE: u32 = 1;
const OBSOLETE_PACKET: u32 = 2;
const SIMPLE_PACKET: u32 = 3;
const ENHANCED_PACKET: u32 = 6;

const BLOCK: &str = "block";

pub struct Reader<R> {
    input: R,
    order: Order,
    interfaces: Vec<Interface>,
}

struct Interface {
    link: Link,
    /// The most bytes that it records of a frame.
    most: u32,
}

/// A block, its body as far as it is not read yet.
struct Block<'a, R> {
    input: &'a mut R,
    order: Order,
    length: u32,
    left: u32,
}

impl<R: Read> Reader<R> {
    pub fn open(input: R) -> io::Result<Reader<R>> {
        let mut reader = Reader { input, order: Order::Little, interfaces: Vec::new() };
        let mut start = [0; 8];
        fill(&mut reader.input, &mut start, "header")?;
        reader.section(start)?;
        Ok(reader)
    }

    /// Reads the next frame into `frame`; none at the end.
    pub fn next(&mut self, frame: &mut Vec<u8>) -> io::Result<Option<Heading>> {
        loop {
            let mut start = [0; 8];
            match read_up_to(&mut self.input, &mut start)? {
                0 => return Ok(None),
                8 => {}
                _ => return Err(ends_in(BLOCK)),
            }
            if start.starts_with(&MAGIC) {
                self.section(start)?;
            } else if let Some(heading) = self.block(start, frame)? {
                return Ok(Some(heading));
            }
        }
    }

    /// Reads a section's header from its ninth byte on.
    fn section(&mut self, start: [u8; 8]) -> io::Result<()> {
        let mut order = [0; 4];
        fill(&mut self.input, &mut order, BLOCK)?;
        self.order = match order {
            [0x1a, 0x2b, 0x3c, 0x4d] => Order::Big,
            [0x4d, 0x3c, 0x2b, 0x1a] => Order::Little,
            _ => return Err(damaged("the capture is damaged: a section of no byte order".into())),
        };
        self.interfaces.clear();
        let mut block = Block::new(&mut self.input, self.order, start)?;
        block.take(4)?;
        let version = block.two()?;
        if version != 1 {
            return Err(damaged(format!("pcapng version {version} is not read")));
        }
        block.end()
    }

    /// Reads a block from its ninth byte on: the heading where it is a packet's.
    fn block(&mut self, start: [u8; 8], frame: &mut Vec<u8>) -> io::Result<Option<Heading>> {
        let mut block = Block::new(&mut self.input, self.order, start)?;
        let [a, b, c, d, ..] = start;
        let heading = match self.order.four([a, b, c, d]) {
            INTERFACE => {
                self.interfaces.push(block.interface()?);
                None
            }
            SIMPLE_PACKET => Some(block.simple_packet(&self.interfaces, frame)?),
            ENHANCED_PACKET => {
                let interface = block.four()?;
                Some(block.packet(interface, &self.interfaces, frame)?)
            }
            OBSOLETE_PACKET => {
                let interface = block.two()?;
                // How many packets were dropped.
                block.two()?;
                Some(block.packet(interface.into(), &self.interfaces, frame)?)
            }
            _ => None,
        };
        block.end()?;
        Ok(heading)
    }
}

impl<'a, R: Read> Block<'a, R> {
    /// A block of which the type and length are read.
    fn new(input: &'a mut R, order: Order, start: [u8; 8]) -> io::Result<Block<'a, R>> {
        let [.., a, b, c, d] = start;
        let length = order.four([a, b, c, d]);
        // The type, and the length before and after the body.
        match length.checked_sub(12) {
            Some(left) if length.is_multiple_of(4) => Ok(Block { input, order, length, left }),
            _ => Err(damaged(format!("the capture is damaged: a block of {length} bytes"))),
        }
    }

    fn interface(&mut self) -> io::Result<Interface> {
        let link = Link::from_number(self.two()?.into());
        self.two()?;
        let most = match self.four()? {
            0 => u32::MAX,
            most => most,
        };
        Ok(Interface { link, most })
    }

    /// A packet of the first interface, without times. How much was recorded is not said: as much
    /// as the interface records.
    fn simple_packet(&mut self, of: &[Interface], frame: &mut Vec<u8>) -> io::Result<Heading> {
        let interface = interface(of, 0)?;
        let original = self.four()?;
        self.frame(original.min(interface.most), frame)?;
        Ok(Heading { link: interface.link, original })
    }

    /// A packet from its time on.
    fn packet(
        &mut self,
        number: u32,
        of: &[Interface],
        frame: &mut Vec<u8>,
    ) -> io::Result<Heading> {
        let interface = interface(of, number)?;
        let [_upper_time, _lower_time, recorded, original] =
            [self.four()?, self.four()?, self.four()?, self.four()?];
        self.frame(recorded, frame)?;
        Ok(Heading { link: interface.link, original })
    }

    fn frame(&mut self, length: u32, frame: &mut Vec<u8>) -> io::Result<()> {
        self.take(length)?;
        read_frame(self.input, length, frame, BLOCK)
    }

    fn four(&mut self) -> io::Result<u32> {
        let mut bytes = [0; 4];
        self.take(4)?;
        fill(self.input, &mut bytes, BLOCK)?;
        Ok(self.order.four(bytes))
    }

    fn two(&mut self) -> io::Result<u16> {
        let mut bytes = [0; 2];
        self.take(2)?;
        fill(self.input, &mut bytes, BLOCK)?;
        Ok(self.order.two(bytes))
    }

    /// Counts bytes of the body as read.
    fn take(&mut self, count: u32) -> io::Result<()> {
        let Some(left) = self.left.checked_sub(count) else {
            let length = self.length;
            return Err(damaged(format!(
                "the capture is damaged: a block of {length} bytes is too short for what it holds"
            )));
        };
        self.left = left;
        Ok(())
    }

    /// Passes over the rest of the body, and reads the length that stands after it.
    fn end(mut self) -> io::Result<()> {
        let rest = u64::from(self.left);
        if io::copy(&mut self.input.by_ref().take(rest), &mut io::sink())? < rest {
            return Err(ends_in(BLOCK));
        }
        let mut bytes = [0; 4];
        fill(&mut self.input, &mut bytes, BLOCK)?;
        let (before, after) = (self.length, self.order.four(bytes));
        if before != after {
            return Err(damaged(format!(
                "the capture is damaged: a block of {before} bytes ends as one of {after}"
            )));
        }
        Ok(())
    }
}

fn interface(interfaces: &[Interface], number: u32) -> io::Result<&Interface> {
    interfaces.get(number as usize).ok_or_else(|| {
        damaged(format!("the capture is damaged: a packet of interface {number}, which is unknown"))
    })
}
