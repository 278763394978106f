//! Classic pcap (draft-ietf-opsawg-pcap).

use super::bytes::{damaged, ends_in, fill, read_frame, read_up_to, Order};
use super::{Heading, Link};
use std::io::{self, Read};

const RECORD: &str = "record";

/// The byte order that the first four bytes of a capture say, with times in micro- or nanoseconds.
pub fn order(magic: [u8; 4]) -> Option<Order> {
    match magic {
        [0xa1, 0xb2, 0xc3, 0xd4] | [0xa1, 0xb2, 0x3c, 0x4d] => Some(Order::Big),
        [0xd4, 0xc3, 0xb2, 0xa1] | [0x4d, 0x3c, 0xb2, 0xa1] => Some(Order::Little),
        _ => None,
    }
}

pub struct Reader<R> {
    input: R,
    order: Order,
    link: Link,
}

impl<R: Read> Reader<R> {
    pub fn open(mut input: R, order: Order) -> io::Result<Reader<R>> {
        let mut header = [0; 24];
        fill(&mut input, &mut header, "header")?;
        let [.., a, b, c, d] = header;
        // The upper six bits say whether frames end in a checksum, and how long that is.
        let link = Link::from_number(order.four([a, b, c, d]) & 0x03ff_ffff);
        if let Link::Unknown(number) = link {
            return Err(damaged(format!("link type {number} is not read")));
        }
        Ok(Reader { input, order, link })
    }

    /// Reads the next frame into `frame`; none at the end.
    pub fn next(&mut self, frame: &mut Vec<u8>) -> io::Result<Option<Heading>> {
        let mut header = [0; 16];
        match read_up_to(&mut self.input, &mut header)? {
            0 => return Ok(None),
            16 => {}
            _ => return Err(ends_in(RECORD)),
        }
        let [.., a, b, c, d, e, f, g, h] = header;
        let (recorded, original) = (self.order.four([a, b, c, d]), self.order.four([e, f, g, h]));
        read_frame(&mut self.input, recorded, frame, RECORD)?;
        Ok(Some(Heading { link: self.link, original }))
    }
}
