//! Numbers and bytes as captures hold them.

use super::MOST_RECORDED;
use std::io::{self, Read};

/// The byte order of the machine that wrote a capture.
#[derive(Clone, Copy)]
pub enum Order {
    Big,
    Little,
}

impl Order {
    pub fn four(self, bytes: [u8; 4]) -> u32 {
        match self {
            Order::Big => u32::from_be_bytes(bytes),
            Order::Little => u32::from_le_bytes(bytes),
        }
    }

    pub fn two(self, bytes: [u8; 2]) -> u16 {
        match self {
            Order::Big => u16::from_be_bytes(bytes),
            Order::Little => u16::from_le_bytes(bytes),
        }
    }
}

/// Fills `room` as far as there is input, and says how far.
pub fn read_up_to(input: &mut impl Read, room: &mut [u8]) -> io::Result<usize> {
    let mut filled = 0;
    while filled < room.len() {
        match input.read(&mut room[filled..]) {
            Ok(0) => break,
            Ok(count) => filled += count,
            Err(error) if error.kind() == io::ErrorKind::Interrupted => {}
            Err(error) => return Err(error),
        }
    }
    Ok(filled)
}

/// Fills `room`; `part` names what the capture is in the middle of where it ends before.
pub fn fill(input: &mut impl Read, room: &mut [u8], part: &str) -> io::Result<()> {
    if read_up_to(input, room)? < room.len() {
        return Err(ends_in(part));
    }
    Ok(())
}

/// Reads the bytes of a frame into `frame`.
pub fn read_frame(
    input: &mut impl Read,
    length: u32,
    frame: &mut Vec<u8>,
    part: &str,
) -> io::Result<()> {
    if length > MOST_RECORDED {
        return Err(damaged(format!("the capture is damaged: a packet of {length} bytes")));
    }
    frame.resize(length as usize, 0);
    fill(input, frame, part)
}

pub fn ends_in(part: &str) -> io::Error {
    damaged(format!("the capture ends in the middle of a {part}"))
}

pub fn damaged(message: String) -> io::Error {
    io::Error::new(io::ErrorKind::InvalidData, message)
}
